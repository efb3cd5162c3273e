/* The pool written by hand in ../c/plain.h, which has bands and water marks but no checks. */
#include "peer.h"
#include "../c/plain.h"

#include <pthread.h>
#include <stdlib.h>
#include <string.h>

struct room {
	struct plain_pool pool;
	struct plain_block *small, *large;
	pthread_mutex_t lock;
};

static struct plain_block *filled(struct room *room, uint32_t size)
{
	struct plain_block *msg = plain_allocb(&room->pool, size);

	return msg != NULL && plain_write(msg, bytes, size) ? msg : NULL;
}

static int fills(struct room *room, uint32_t size, struct plain_block **msg)
{
	*msg = filled(room, size);
	return *msg != NULL;
}

/* Frees a message if there is one, which it returns. */
static int freed(struct room *room, struct plain_block *msg)
{
	if (msg != NULL)
		plain_freemsg(&room->pool, msg);
	return msg != NULL;
}

static int puts_one(struct room *room, struct plain_block *msg)
{
	plain_putq(&room->pool, msg);
	return 1;
}

QUEUE_DRAWN(struct plain_block *, fills, freed, puts_one)

void *peer_open(int number, const struct use *use)
{
	uint32_t classes[CLASSES][2];
	struct room *room = calloc(1, sizeof *room);

	(void)number;
	peer_classes(use, classes);
	if (room == NULL || pthread_mutex_init(&room->lock, NULL) != 0 || !plain_open(&room->pool, peer_blocks(use), (const uint32_t(*)[2])classes, CLASSES))
		return NULL;
	room->small = filled(room, SIZE);
	room->large = filled(room, LONG);
	return room->small != NULL && room->large != NULL && queue_drawn(room, use->queued, use->size) ? room : NULL;
}

int peer_enter(void)
{
	return 1;
}

void peer_leave(void)
{
}

static int allocates(void *given)
{
	struct room *room = given;

	return freed(room, plain_allocb(&room->pool, SIZE));
}

static int duplicates(void *given)
{
	struct room *room = given;

	return freed(room, plain_dupb(&room->pool, room->small));
}

static int queues(void *given)
{
	struct room *room = given;
	struct plain_block *msg = filled(room, SIZE);

	if (msg == NULL)
		return 0;
	plain_putq(&room->pool, msg);
	return freed(room, plain_getq(&room->pool));
}

static int copies_small(void *given)
{
	struct room *room = given;

	return freed(room, plain_copymsg(&room->pool, room->small));
}

static int copies_large(void *given)
{
	struct room *room = given;

	return freed(room, plain_copymsg(&room->pool, room->large));
}

static struct plain_block *built(struct room *room)
{
	struct plain_block *whole = filled(room, SIZE), *msg;
	int k;

	for (k = 1; k < CHAIN && whole != NULL; k++) {
		msg = filled(room, SIZE);
		if (msg == NULL)
			return NULL;
		plain_linkb(whole, msg);
	}
	return whole;
}

static int builds(void *given)
{
	return freed(given, built(given));
}

static int pulls_up(void *given)
{
	struct room *room = given;
	struct plain_block *msg = built(room);

	return msg != NULL && plain_pullupmsg(&room->pool, msg) && freed(room, msg);
}

static int puts_several(struct room *room, int count)
{
	struct plain_block *msgs[MOST_SEVERAL];
	int k;

	for (k = 0; k < count; k++)
		if ((msgs[k] = filled(room, SIZE)) == NULL)
			return 0;
	for (k = 0; k < count; k++)
		plain_putq(&room->pool, msgs[k]);
	return 1;
}

static int takes_several(struct room *room, int count)
{
	struct plain_block *msgs[MOST_SEVERAL];
	int k, done = 1;

	for (k = 0; k < count; k++)
		msgs[k] = plain_getq(&room->pool);
	for (k = 0; k < count; k++)
		done &= freed(room, msgs[k]);
	return done;
}

static int several(struct room *room, int count)
{
	return puts_several(room, count) && takes_several(room, count);
}

BURSTS

static int copies(struct room *room, uint32_t size)
{
	struct plain_block *msg = filled(room, size);

	if (msg == NULL || plain_read(msg, 0, copied, size) != size || !sees(copied))
		return 0;
	plain_putq(&room->pool, msg);
	msg = plain_getq(&room->pool);
	return msg != NULL && plain_read(msg, 0, copied, size) == size && freed(room, msg);
}

/* A message with its bytes is looked at where they are, queued, and looked at again. */
static int passes(struct room *room, struct plain_block *msg, uint32_t size)
{
	uint32_t length;

	if (!sees(plain_bytes(msg, &length)))
		return 0;
	plain_putq(&room->pool, msg);
	msg = plain_getq(&room->pool);
	return msg != NULL && sees(plain_bytes(msg, &length)) && length == size && freed(room, msg);
}

static int in_place(struct room *room, uint32_t size)
{
	struct plain_block *msg = filled(room, size);

	return msg != NULL && passes(room, msg, size);
}

static int copies_nothing(struct room *room, uint32_t size)
{
	struct plain_block *msg = plain_allocb(&room->pool, size);

	return msg != NULL && plain_advance(msg, size) && passes(room, msg, size);
}

WAYS

/* ---- in several threads: the lock is held to put messages, and again to take them */

static int shares(struct room *room, int count)
{
	int done;

	pthread_mutex_lock(&room->lock);
	done = puts_several(room, count);
	pthread_mutex_unlock(&room->lock);
	pthread_mutex_lock(&room->lock);
	done = done && takes_several(room, count);
	pthread_mutex_unlock(&room->lock);
	return done;
}

static int shares_queue(void *room)
{
	return shares(room, 1);
}

static int shares_several(void *room)
{
	return shares(room, SEVERAL);
}

const struct work works[] = {
	{ "allocb", allocates }, { "dupb", duplicates }, { "queue", queues }, { "copy_short", copies_small }, { "copy_long", copies_large },
	{ "chain", builds }, { "pullup", pulls_up }, BURSTS_BY_NAME, WAYS_BY_NAME, { "shared_queue", shares_queue },
	{ "shared_several", shares_several }, { NULL, NULL },
};
