/*
 * DPDK: a message is an mbuf of one or more segments from a mempool, with a cache for each thread, and the queue is an rte_ring. It runs
 * without huge pages and devices.
 */
#define _GNU_SOURCE
#include "peer.h"

#include <rte_eal.h>
#include <rte_lcore.h>
#include <rte_mbuf.h>
#include <rte_mempool.h>
#include <rte_ring.h>

#include <sched.h>
#include <stdio.h>
#include <stdlib.h>
#include <string.h>

/* Messages that a thread's cache keeps. */
#define CACHED 256
/* A ring has 2^N places. */
#define RING(queued) ((queued) < 4096 ? 4096 : 32768)

struct room {
	struct rte_mempool *pool;
	struct rte_ring *queue;
	struct rte_mbuf *small, *large;
};

/* Begins DPDK once. Its first thread may go on running on each core that it runs on now. */
static int has_begun(void)
{
	static char cores[8 * CPU_SETSIZE] = "--lcores=0@(";
	static char *words[] = { "peer", "--no-huge", "--no-pci", "--no-shconf", "--no-telemetry", "--iova-mode=va", "-m", "128",
		"--log-level=*:error", cores };
	static int begun;
	cpu_set_t may;
	size_t at = strlen(cores);
	int core;

	if (begun)
		return 1;
	if (sched_getaffinity(0, sizeof may, &may) != 0)
		return 0;
	for (core = 0; core < CPU_SETSIZE; core++)
		if (CPU_ISSET(core, &may))
			at += (size_t)snprintf(cores + at, sizeof cores - at, "%d,", core);
	cores[at - 1] = ')';
	begun = rte_eal_init(sizeof words / sizeof *words, words) >= 0;
	return begun;
}

static int writes(struct rte_mbuf *msg, uint16_t size)
{
	char *at = rte_pktmbuf_append(msg, size);

	if (at == NULL)
		return 0;
	memcpy(at, bytes, size);
	return 1;
}

static struct rte_mbuf *filled(struct room *room, uint16_t size)
{
	struct rte_mbuf *msg = rte_pktmbuf_alloc(room->pool);

	return msg != NULL && writes(msg, size) ? msg : NULL;
}

static int fills(struct room *room, uint32_t size, struct rte_mbuf **msg)
{
	*msg = filled(room, (uint16_t)size);
	return *msg != NULL;
}

/* Frees a message if there is one. */
static int freed(struct rte_mbuf *msg)
{
	if (msg != NULL)
		rte_pktmbuf_free(msg);
	return msg != NULL;
}

static int frees(struct room *room, struct rte_mbuf *msg)
{
	(void)room;
	return freed(msg);
}

static int puts_one(struct room *room, struct rte_mbuf *msg)
{
	return rte_ring_enqueue(room->queue, msg) == 0;
}

QUEUE_DRAWN(struct rte_mbuf *, fills, frees, puts_one)

void *peer_open(int number, const struct use *use)
{
	struct room *room = calloc(1, sizeof *room);
	char name[16];

	if (room == NULL || !has_begun())
		return NULL;
	snprintf(name, sizeof name, "peer%d", number);
	room->pool = rte_pktmbuf_pool_create(name, BLOCKS + use->queued, CACHED, 0, RTE_MBUF_DEFAULT_BUF_SIZE, SOCKET_ID_ANY);
	room->queue = rte_ring_create(name, RING(use->queued), SOCKET_ID_ANY, use->shared ? 0 : RING_F_SP_ENQ | RING_F_SC_DEQ);
	if (room->pool == NULL || room->queue == NULL)
		return NULL;
	room->small = filled(room, SIZE);
	room->large = filled(room, LONG);
	return room->small != NULL && room->large != NULL && queue_drawn(room, use->queued, use->size) ? room : NULL;
}

/* A thread that DPDK knows has a cache. */
int peer_enter(void)
{
	return rte_thread_register() == 0;
}

void peer_leave(void)
{
	rte_thread_unregister();
}

static int allocates(void *given)
{
	struct room *room = given;

	return freed(rte_pktmbuf_alloc(room->pool));
}

static int duplicates(void *given)
{
	struct room *room = given;

	return freed(rte_pktmbuf_clone(room->small, room->pool));
}

/* Puts a message on the queue, and takes one off. */
static struct rte_mbuf *queued(struct room *room, struct rte_mbuf *msg)
{
	void *taken;

	return rte_ring_enqueue(room->queue, msg) == 0 && rte_ring_dequeue(room->queue, &taken) == 0 ? taken : NULL;
}

static int queues(void *given)
{
	struct room *room = given;
	struct rte_mbuf *msg = filled(room, SIZE);

	return msg != NULL && freed(queued(room, msg));
}

static int copies_small(void *given)
{
	struct room *room = given;

	return freed(rte_pktmbuf_copy(room->small, room->pool, 0, UINT32_MAX));
}

static int copies_large(void *given)
{
	struct room *room = given;

	return freed(rte_pktmbuf_copy(room->large, room->pool, 0, UINT32_MAX));
}

static struct rte_mbuf *built(struct room *room)
{
	struct rte_mbuf *whole = filled(room, SIZE), *msg;
	int k;

	for (k = 1; k < CHAIN && whole != NULL; k++) {
		msg = filled(room, SIZE);
		if (msg == NULL || rte_pktmbuf_chain(whole, msg) != 0)
			return NULL;
	}
	return whole;
}

static int builds(void *given)
{
	return freed(built(given));
}

/* The first segment has room for all bytes. */
static int pulls_up(void *given)
{
	struct rte_mbuf *msg = built(given);

	return msg != NULL && rte_pktmbuf_linearize(msg) == 0 && freed(msg);
}

static int several(struct room *room, unsigned count)
{
	struct rte_mbuf *msgs[MOST_SEVERAL];
	unsigned k;

	if (rte_pktmbuf_alloc_bulk(room->pool, msgs, count) != 0)
		return 0;
	for (k = 0; k < count; k++)
		if (!writes(msgs[k], SIZE))
			return 0;
	if (rte_ring_enqueue_bulk(room->queue, (void **)msgs, count, NULL) != count
	    || rte_ring_dequeue_bulk(room->queue, (void **)msgs, count, NULL) != count)
		return 0;
	rte_pktmbuf_free_bulk(msgs, count);
	return 1;
}

BURSTS

static int copies_out(struct rte_mbuf *msg, uint16_t size)
{
	memcpy(copied, rte_pktmbuf_mtod(msg, const void *), size);
	return rte_pktmbuf_data_len(msg) == size;
}

static int copies(struct room *room, uint16_t size)
{
	struct rte_mbuf *msg = filled(room, size);

	if (msg == NULL || !copies_out(msg, size) || !sees(copied))
		return 0;
	msg = queued(room, msg);
	return msg != NULL && copies_out(msg, size) && freed(msg);
}

/* A message with its bytes is looked at where they are, queued, and looked at again. */
static int passes(struct room *room, struct rte_mbuf *msg, uint16_t size)
{
	if (!sees(rte_pktmbuf_mtod(msg, const unsigned char *)))
		return 0;
	msg = queued(room, msg);
	return msg != NULL && sees(rte_pktmbuf_mtod(msg, const unsigned char *)) && rte_pktmbuf_data_len(msg) == size && freed(msg);
}

static int in_place(struct room *room, uint16_t size)
{
	struct rte_mbuf *msg = filled(room, size);

	return msg != NULL && passes(room, msg, size);
}

static int copies_nothing(struct room *room, uint16_t size)
{
	struct rte_mbuf *msg = rte_pktmbuf_alloc(room->pool);

	return msg != NULL && rte_pktmbuf_append(msg, size) != NULL && passes(room, msg, size);
}

WAYS

/* Pool and ring are for several threads without a lock around calls. */
const struct work works[] = {
	{ "allocb", allocates }, { "dupb", duplicates }, { "queue", queues }, { "copy_short", copies_small }, { "copy_long", copies_large },
	{ "chain", builds }, { "pullup", pulls_up }, BURSTS_BY_NAME, WAYS_BY_NAME, { "shared_queue", queues },
	{ "shared_several", several_32 }, { NULL, NULL },
};
