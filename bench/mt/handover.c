/*
 * Hands messages from producers to consumers over the peer that -D names, through a queue with room for ROOM messages, and copies their bytes in and
 * out. The first 8 bytes of a message are the time at which it is sent.
 *
 *     handover SIZE BURST THREADS MESSAGES PAUSE     prints messages a second, and the median and the 99th percentile of a hand-over, in ns.
 *                                                    A producer makes a pause of so many ns before each burst
 *     handover uncontended TURNS                     with -DSTRM_MT: prints what sending and receiving costs in one thread, in ns, medians of
 *                                                    turns, and the same by hand: also asking for room, and with one lock for both
 *     handover bands                                 with -DSTRM_MT: prints the waiting times of senders in four bands, in ns
 */
#define _GNU_SOURCE
#include <pthread.h>
#include <sched.h>
#include <stdint.h>
#include <stdio.h>
#include <stdlib.h>
#include <string.h>
#include <time.h>
#include <unistd.h>

#define ROOM 64
#define MOST_BURST 32
#define MOST_SIZE 2048
#define MOST_THREADS 4

static uint32_t size, burst, threads;
static uint64_t messages, pause_ns;

static uint64_t now_ns(void)
{
	struct timespec at;

	clock_gettime(CLOCK_MONOTONIC, &at);
	return (uint64_t)at.tv_sec * 1000000000u + (uint64_t)at.tv_nsec;
}

/* ---- peers: each sends `burst` messages of the same bytes, and receives 1 to `burst`, of which it gives the bytes one after another */

#if defined STRM_MT

#include "strm_mt.h"

static struct strm_mt *mt;

static void peer_open(uint32_t room, uint32_t queues)
{
	struct strm_class_spec class = { size, 4096 };
	struct strm_queue_spec queue = { room * size, room * size / 2, 0, STRM_NO_QUEUE };
	struct strm_config config = { 1, 4096, &class, 1, &queue, queues, 0, 1 };

	if (strm_mt_open(&mt, &config) != STRM_OK)
		exit(1);
}

static void peer_send(const unsigned char *bytes)
{
	struct strm_msg msgs[MOST_BURST];
	struct strm_pool *pool = strm_mt_lock(mt);
	size_t count, at;

	if (strm_allocb_n(pool, size, msgs, burst, &count) != STRM_OK || count != burst)
		exit(1);
	for (at = 0; at < count; at++)
		strm_write(pool, msgs[at], 0, bytes, size);
	strm_mt_unlock(mt);
	if (burst == 1)
		strm_mt_send(mt, 0, msgs[0], NULL);
	else
		strm_mt_send_n(mt, 0, msgs, burst, NULL, &count);
}

static uint32_t peer_receive(unsigned char *into)
{
	struct strm_msg msgs[MOST_BURST];
	struct strm_pool *pool;
	size_t count = 0, at, length;

	strm_mt_receive_n(mt, 0, msgs, burst, NULL, &count);
	pool = strm_mt_lock(mt);
	for (at = 0; at < count; at++)
		strm_read(pool, msgs[at], 0, into + at * size, size, &length);
	strm_freemsg_n(pool, msgs, count, &at);
	strm_mt_unlock(mt);
	return (uint32_t)count;
}

#elif defined GLIB

#include <glib.h>

static GQueue queue = G_QUEUE_INIT;
static pthread_mutex_t lock = PTHREAD_MUTEX_INITIALIZER;
static pthread_cond_t has_room = PTHREAD_COND_INITIALIZER, has_message = PTHREAD_COND_INITIALIZER;

static void peer_open(uint32_t room, uint32_t queues)
{
	(void)room, (void)queues;
}

static void peer_send(const unsigned char *bytes)
{
	void *made[MOST_BURST];
	uint32_t at;

	for (at = 0; at < burst; at++)
		made[at] = memcpy(g_malloc(size), bytes, size);
	pthread_mutex_lock(&lock);
	for (at = 0; at < burst; at++) {
		while (queue.length >= ROOM)
			pthread_cond_wait(&has_room, &lock);
		g_queue_push_tail(&queue, made[at]);
		pthread_cond_signal(&has_message);
	}
	pthread_mutex_unlock(&lock);
}

static uint32_t peer_receive(unsigned char *into)
{
	void *got[MOST_BURST];
	uint32_t count = 0, at;

	pthread_mutex_lock(&lock);
	while (queue.length == 0)
		pthread_cond_wait(&has_message, &lock);
	for (; count < burst && queue.length > 0; count++) {
		got[count] = g_queue_pop_head(&queue);
		pthread_cond_signal(&has_room);
	}
	pthread_mutex_unlock(&lock);
	for (at = 0; at < count; at++) {
		memcpy(into + at * size, got[at], size);
		g_free(got[at]);
	}
	return count;
}

#elif defined DPDK

#include <rte_eal.h>
#include <rte_pause.h>
#include <rte_ring.h>

static struct rte_ring *ring;

/* Spins a little longer; now and then lets others run, since there may be more threads than processors. */
static void spin(uint32_t *spins)
{
	rte_pause();
	if (++*spins % 256 == 0)
		sched_yield();
}

static void peer_open(uint32_t room, uint32_t queues)
{
	char *words[] = { "handover", "--no-huge", "--no-pci", "--no-shconf", "-m", "64", "--log-level=1", "--lcores=0" };
	cpu_set_t allowed;

	(void)queues;
	/* DPDK binds the thread that calls it to one processor, and the threads to come would inherit that. */
	if (sched_getaffinity(0, sizeof(allowed), &allowed) != 0 || rte_eal_init(8, words) < 0 || sched_setaffinity(0, sizeof(allowed), &allowed) != 0)
		exit(1);
	/* The mode that DPDK has for more threads than processors. */
	ring = rte_ring_create("way", room, 0, RING_F_EXACT_SZ | RING_F_MP_RTS_ENQ | RING_F_MC_RTS_DEQ);
	if (ring == NULL)
		exit(1);
}

static void peer_send(const unsigned char *bytes)
{
	void *made[MOST_BURST];
	uint32_t sent = 0, spins = 0, at;

	for (at = 0; at < burst; at++)
		made[at] = memcpy(malloc(size), bytes, size);
	while ((sent += rte_ring_enqueue_burst(ring, made + sent, burst - sent, NULL)) < burst)
		spin(&spins);
}

static uint32_t peer_receive(unsigned char *into)
{
	void *got[MOST_BURST];
	uint32_t count, spins = 0, at;

	while ((count = rte_ring_dequeue_burst(ring, got, burst, NULL)) == 0)
		spin(&spins);
	for (at = 0; at < count; at++) {
		memcpy(into + at * size, got[at], size);
		free(got[at]);
	}
	return count;
}

#else

/* A pipe. Its messages are whole, since all are at most PIPE_BUF bytes, and read one by one. */
#include <fcntl.h>

static int ends[2];

static void peer_open(uint32_t room, uint32_t queues)
{
	(void)queues;
	if (pipe2(ends, O_DIRECT) != 0 || fcntl(ends[1], F_SETPIPE_SZ, room * 4096) < 0)
		exit(1);
}

static void peer_send(const unsigned char *bytes)
{
	uint32_t at;

	for (at = 0; at < burst; at++)
		if (write(ends[1], bytes, size) != (ssize_t)size)
			exit(1);
}

static uint32_t peer_receive(unsigned char *into)
{
	if (read(ends[0], into, size) != (ssize_t)size)
		exit(1);
	return 1;
}

#endif

/* ---- producers and consumers */

static void *produce(void *given)
{
	unsigned char bytes[MOST_SIZE] = { 0 };
	struct timespec rest = { 0, (long)pause_ns };
	uint64_t at, time;

	for (at = 0; at < messages; at += burst) {
		if (pause_ns > 0)
			nanosleep(&rest, NULL);
		time = now_ns();
		memcpy(bytes, &time, sizeof time);
		peer_send(bytes);
	}
	return given;
}

/* What a consumer received, in ns for each message. It ends at as many as were sent for it, and passes on what a last burst has more. */
struct consumer {
	pthread_t thread;
	uint64_t *took, count;
};

static uint64_t left;

static void *consume(void *given)
{
	struct consumer *consumer = given;
	static __thread unsigned char bytes[MOST_BURST * MOST_SIZE];
	uint64_t sent, time;
	uint32_t count, at, ends = 0;

	while (!ends) {
		count = peer_receive(bytes);
		time = now_ns();
		for (at = 0; at < count; at++) {
			memcpy(&sent, bytes + at * size, sizeof sent);
			if (sent == 0)
				ends = 1;
			else
				consumer->took[consumer->count++] = time - sent;
		}
		(void)__atomic_sub_fetch(&left, count, __ATOMIC_RELAXED);
	}
	/* One mark ends all consumers, one after another. */
	memset(bytes, 0, size);
	burst = 1;
	peer_send(bytes);
	return NULL;
}

static int rising(const void *a, const void *b)
{
	uint64_t x = *(const uint64_t *)a, y = *(const uint64_t *)b;

	return (x > y) - (x < y);
}

static void hand_over(void)
{
	struct consumer consumers[MOST_THREADS] = { 0 };
	pthread_t producers[MOST_THREADS];
	unsigned char bytes[MOST_SIZE] = { 0 };
	uint64_t *all = malloc(messages * threads * sizeof *all), count = 0, began;
	uint32_t at;

	peer_open(ROOM, 1);
	left = messages * threads;
	for (at = 0; at < threads; at++)
		consumers[at].took = malloc(messages * threads * sizeof *all);
	began = now_ns();
	for (at = 0; at < threads; at++) {
		pthread_create(&consumers[at].thread, NULL, consume, &consumers[at]);
		pthread_create(&producers[at], NULL, produce, NULL);
	}
	for (at = 0; at < threads; at++)
		pthread_join(producers[at], NULL);
	while (__atomic_load_n(&left, __ATOMIC_RELAXED) > 0)
		usleep(100);
	began = now_ns() - began;
	burst = 1;
	peer_send(bytes);
	for (at = 0; at < threads; at++) {
		pthread_join(consumers[at].thread, NULL);
		memcpy(all + count, consumers[at].took, consumers[at].count * sizeof *all);
		count += consumers[at].count;
	}
	qsort(all, count, sizeof *all, rising);
	printf("%.0f %llu %llu\n", 1e9 * (double)count / (double)began, (unsigned long long)all[count / 2], (unsigned long long)all[count / 100 * 99]);
}

#ifdef STRM_MT

#define ROUNDS 10000

static void *wait_idle(void *given)
{
	pause();
	return given;
}

static uint64_t used_ns(void)
{
	struct timespec at;

	clock_gettime(CLOCK_THREAD_CPUTIME_ID, &at);
	return (uint64_t)at.tv_sec * 1000000000u + (uint64_t)at.tv_nsec;
}

static struct strm_pool *pool;
static struct strm_msg msg;
static pthread_mutex_t lock = PTHREAD_MUTEX_INITIALIZER;

/* Defines a way to send and receive, as a function that callgrind finds by its name. */
#define WAY(name, ...) \
	static __attribute__((noinline)) void name(void) \
	{ \
		int round; \
		for (round = 0; round < ROUNDS; round++) { __VA_ARGS__ } \
	}
WAY(by_strm_mt, strm_mt_send(mt, 0, msg, NULL); strm_mt_receive(mt, 0, &msg, NULL);)
WAY(by_hand, pthread_mutex_lock(&lock); strm_putq(pool, 0, msg); pthread_mutex_unlock(&lock);
	pthread_mutex_lock(&lock); strm_getq(pool, 0, &msg); pthread_mutex_unlock(&lock);)
WAY(by_hand_asking, uint32_t yes = 1; struct strm_queued like; pthread_mutex_lock(&lock); strm_message(pool, msg, &like);
	strm_bcanput(pool, 0, like.band, &yes); if (yes) strm_putq(pool, 0, msg); pthread_mutex_unlock(&lock);
	pthread_mutex_lock(&lock); strm_getq(pool, 0, &msg); pthread_mutex_unlock(&lock);)
WAY(by_hand_in_one, pthread_mutex_lock(&lock); strm_putq(pool, 0, msg); strm_getq(pool, 0, &msg); pthread_mutex_unlock(&lock);)

static const struct {
	void (*rounds)(void);
	const char *name;
} ways[] = { { by_strm_mt, "by_strm_mt" }, { by_hand, "by_hand" }, { by_hand_asking, "by_hand_asking" }, { by_hand_in_one, "by_hand_in_one" } };
#define WAYS (sizeof ways / sizeof *ways)

/* Prints the median time of each way, in ns a round. The pool of a thread that is alone needs no atomic steps, so there is another thread. */
static void uncontended(int turns)
{
	uint64_t *took[WAYS], began;
	pthread_t idle;
	size_t way;
	int turn;

	size = 64;
	peer_open(ROOM, 1);
	pthread_create(&idle, NULL, wait_idle, NULL);
	pool = strm_mt_lock(mt);
	strm_allocb(pool, 64, &msg);
	strm_mt_unlock(mt);
	for (way = 0; way < WAYS; way++)
		took[way] = malloc((size_t)turns * sizeof **took);
	for (turn = 0; turn < turns; turn++)
		for (way = 0; way < WAYS; way++) {
			began = used_ns();
			ways[way].rounds();
			took[way][turn] = used_ns() - began;
		}
	for (way = 0; way < WAYS; way++) {
		qsort(took[way], (size_t)turns, sizeof **took, rising);
		printf("%s %.1f\n", ways[way].name, (double)took[way][turns / 2] / ROUNDS);
	}
}

#define BANDS 4
#define SENT 500

static uint64_t waited[BANDS][SENT];

static void *send_in_band(void *given)
{
	uint32_t band = (uint32_t)(uintptr_t)given, at;
	struct strm_msg msg;
	uint64_t began;

	for (at = 0; at < SENT; at++) {
		strm_mt_alloc(mt, size, &msg, NULL);
		began = now_ns();
		strm_write(strm_mt_lock(mt), msg, 0, &began, sizeof began);
		strm_mt_unlock(mt);
		strm_setband(strm_mt_lock(mt), msg, band);
		strm_mt_unlock(mt);
		strm_mt_send(mt, 0, msg, NULL);
	}
	return NULL;
}

/* Four senders, each in a band, at one consumer that takes a message each 20 us: from sending to receiving. */
static void bands(void)
{
	pthread_t senders[BANDS];
	struct timespec rest = { 0, 20000 };
	uint32_t counts[BANDS] = { 0 }, band, at;
	struct strm_block_info block;
	struct strm_msg msg;
	uint64_t began;
	size_t length;

	size = 64;
	peer_open(4, 1);
	for (band = 0; band < BANDS; band++)
		pthread_create(&senders[band], NULL, send_in_band, (void *)(uintptr_t)band);
	for (at = 0; at < BANDS * SENT; at++) {
		struct strm_pool *pool;

		nanosleep(&rest, NULL);
		strm_mt_receive(mt, 0, &msg, NULL);
		pool = strm_mt_lock(mt);
		strm_block(pool, msg, 0, &block);
		strm_read(pool, msg, 0, &began, sizeof began, &length);
		strm_freemsg(pool, msg);
		strm_mt_unlock(mt);
		waited[block.band][counts[block.band]++] = now_ns() - began;
	}
	for (band = 0; band < BANDS; band++) {
		qsort(waited[band], SENT, sizeof **waited, rising);
		printf("%u", band);
		for (at = 0; at < SENT; at += SENT / 50)
			printf(" %llu", (unsigned long long)waited[band][at]);
		puts("");
	}
}

#endif

int main(int count, char **words)
{
#ifdef STRM_MT
	if (count == 3 && strcmp(words[1], "uncontended") == 0)
		return uncontended(atoi(words[2])), 0;
	if (count == 2 && strcmp(words[1], "bands") == 0)
		return bands(), 0;
#endif
	if (count != 6)
		return 2;
	size = (uint32_t)atoi(words[1]);
	burst = (uint32_t)atoi(words[2]);
	threads = (uint32_t)atoi(words[3]);
	messages = strtoull(words[4], NULL, 10) / burst * burst;
	pause_ns = strtoull(words[5], NULL, 10);
	hand_over();
	return 0;
}
