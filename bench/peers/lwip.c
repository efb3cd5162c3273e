/*
 * lwIP: a message is one or more pbufs of type PBUF_RAM, which Debian's library has from malloc. Its pbufs of type PBUF_POOL have 592 bytes
 * there but are filled with up to 1,536 (version 2.1.3), so they are not used here. lwIP has no queue for pbufs, so one is written here: a
 * ring of pointers.
 */
#include "peer.h"

#include <lwip/init.h>
#include <lwip/pbuf.h>

#include <pthread.h>
#include <stdlib.h>

#define RING 32768u

struct room {
	struct pbuf *ring[RING];
	unsigned put, taken;
	struct pbuf *small, *large;
	pthread_mutex_t lock;
};

static struct pbuf *filled(u16_t size)
{
	struct pbuf *msg = pbuf_alloc(PBUF_RAW, size, PBUF_RAM);

	return msg != NULL && pbuf_take(msg, bytes, size) == ERR_OK ? msg : NULL;
}

/* Frees a message if there is one. */
static int freed(struct pbuf *msg)
{
	if (msg != NULL)
		pbuf_free(msg);
	return msg != NULL;
}

static void put(struct room *room, struct pbuf *msg)
{
	room->ring[room->put++ % RING] = msg;
}

static struct pbuf *take(struct room *room)
{
	return room->taken == room->put ? NULL : room->ring[room->taken++ % RING];
}

static int fills(struct room *room, uint32_t size, struct pbuf **msg)
{
	(void)room;
	*msg = filled((u16_t)size);
	return *msg != NULL;
}

static int frees(struct room *room, struct pbuf *msg)
{
	(void)room;
	return freed(msg);
}

static int puts_one(struct room *room, struct pbuf *msg)
{
	put(room, msg);
	return 1;
}

QUEUE_DRAWN(struct pbuf *, fills, frees, puts_one)

void *peer_open(int number, const struct use *use)
{
	struct room *room = calloc(1, sizeof *room);

	if (number == 0)
		lwip_init();
	if (room == NULL || pthread_mutex_init(&room->lock, NULL) != 0)
		return NULL;
	room->small = filled(SIZE);
	room->large = filled(LONG);
	return room->small != NULL && room->large != NULL && queue_drawn(room, use->queued, use->size) ? room : NULL;
}

int peer_enter(void)
{
	return 1;
}

void peer_leave(void)
{
}

static int allocates(void *room)
{
	(void)room;
	return freed(pbuf_alloc(PBUF_RAW, SIZE, PBUF_RAM));
}

/* A second reference to the same pbuf. */
static int duplicates(void *given)
{
	struct room *room = given;

	pbuf_ref(room->small);
	return freed(room->small);
}

static int queues(void *given)
{
	struct room *room = given;
	struct pbuf *msg = filled(SIZE);

	if (msg == NULL)
		return 0;
	put(room, msg);
	return freed(take(room));
}

static int copies_small(void *given)
{
	struct room *room = given;

	return freed(pbuf_clone(PBUF_RAW, PBUF_RAM, room->small));
}

static int copies_large(void *given)
{
	struct room *room = given;

	return freed(pbuf_clone(PBUF_RAW, PBUF_RAM, room->large));
}

static struct pbuf *built(void)
{
	struct pbuf *whole = filled(SIZE), *msg;
	int k;

	for (k = 1; k < CHAIN && whole != NULL; k++) {
		msg = filled(SIZE);
		if (msg == NULL)
			return NULL;
		pbuf_cat(whole, msg);
	}
	return whole;
}

static int builds(void *room)
{
	(void)room;
	return freed(built());
}

/* The result is a new pbuf. */
static int pulls_up(void *room)
{
	struct pbuf *msg = built();

	(void)room;
	if (msg == NULL)
		return 0;
	msg = pbuf_coalesce(msg, PBUF_RAW);
	return msg->next == NULL && freed(msg);
}

static int makes_several(struct pbuf **msgs, int count)
{
	int k;

	for (k = 0; k < count; k++)
		if ((msgs[k] = filled(SIZE)) == NULL)
			return 0;
	return 1;
}

static int frees_several(struct pbuf **msgs, int count)
{
	int k, done = 1;

	for (k = 0; k < count; k++)
		done &= freed(msgs[k]);
	return done;
}

static void puts_several(struct room *room, struct pbuf **msgs, int count)
{
	int k;

	for (k = 0; k < count; k++)
		put(room, msgs[k]);
}

static void takes_several(struct room *room, struct pbuf **msgs, int count)
{
	int k;

	for (k = 0; k < count; k++)
		msgs[k] = take(room);
}

static int several(struct room *room, int count)
{
	struct pbuf *msgs[MOST_SEVERAL];

	if (!makes_several(msgs, count))
		return 0;
	puts_several(room, msgs, count);
	takes_several(room, msgs, count);
	return frees_several(msgs, count);
}

BURSTS

static int copies(struct room *room, u16_t size)
{
	struct pbuf *msg = filled(size);

	if (msg == NULL || pbuf_copy_partial(msg, copied, size, 0) != size || !sees(copied))
		return 0;
	put(room, msg);
	msg = take(room);
	return msg != NULL && pbuf_copy_partial(msg, copied, size, 0) == size && freed(msg);
}

/* A message with its bytes is looked at where they are, queued, and looked at again. */
static int passes(struct room *room, struct pbuf *msg, u16_t size)
{
	if (!sees(msg->payload))
		return 0;
	put(room, msg);
	msg = take(room);
	return msg != NULL && sees(msg->payload) && msg->tot_len == size && freed(msg);
}

static int in_place(struct room *room, u16_t size)
{
	struct pbuf *msg = filled(size);

	return msg != NULL && passes(room, msg, size);
}

static int copies_nothing(struct room *room, u16_t size)
{
	struct pbuf *msg = pbuf_alloc(PBUF_RAW, size, PBUF_RAM);

	return msg != NULL && passes(room, msg, size);
}

WAYS

/* ---- in several threads: lwIP protects its pools, and a lock is held for the queue */

static int shares_queue(void *given)
{
	struct room *room = given;
	struct pbuf *msg = filled(SIZE);

	if (msg == NULL)
		return 0;
	pthread_mutex_lock(&room->lock);
	put(room, msg);
	pthread_mutex_unlock(&room->lock);
	pthread_mutex_lock(&room->lock);
	msg = take(room);
	pthread_mutex_unlock(&room->lock);
	return freed(msg);
}

static int shares_several(void *given)
{
	struct room *room = given;
	struct pbuf *msgs[SEVERAL];

	if (!makes_several(msgs, SEVERAL))
		return 0;
	pthread_mutex_lock(&room->lock);
	puts_several(room, msgs, SEVERAL);
	pthread_mutex_unlock(&room->lock);
	pthread_mutex_lock(&room->lock);
	takes_several(room, msgs, SEVERAL);
	pthread_mutex_unlock(&room->lock);
	return frees_several(msgs, SEVERAL);
}

const struct work works[] = {
	{ "allocb", allocates }, { "dupb", duplicates }, { "queue", queues }, { "copy_short", copies_small }, { "copy_long", copies_large },
	{ "chain", builds }, { "pullup", pulls_up }, BURSTS_BY_NAME, WAYS_BY_NAME, { "shared_queue", shares_queue },
	{ "shared_several", shares_several }, { NULL, NULL },
};
