/* The library for C, over strm.h. A queue has bands and flow control, and each call checks what it is given. */
#include "peer.h"
#include "strm.h"

#include <pthread.h>
#include <stdlib.h>
#include <string.h>

struct room {
	struct strm_pool pool;
	struct strm_msg small, large;
	pthread_mutex_t lock;
};

/* Memory of the program's own for each data block of the last class, and the number of the first of these. */
static unsigned char frames[LAST_CLASS][FRAME];
static uint32_t first_frame;

static int filled(struct room *room, uint32_t size, struct strm_msg *msg)
{
	return strm_allocb(&room->pool, size, msg) == STRM_OK && strm_write(&room->pool, *msg, 0, bytes, size) == STRM_OK;
}

static int freed(struct room *room, struct strm_msg msg)
{
	return strm_freemsg(&room->pool, msg) == STRM_OK;
}

static int puts_one(struct room *room, struct strm_msg msg)
{
	return strm_putq(&room->pool, 0, msg) == STRM_OK;
}

QUEUE_DRAWN(struct strm_msg, filled, freed, puts_one)

void *peer_open(int number, const struct use *use)
{
	/* A deep queue is never full. */
	static const struct strm_queue_spec queue = { 65536, 1024, 1, STRM_NO_QUEUE }, deep = { 1u << 30, 1024, 1, STRM_NO_QUEUE };
	struct strm_class_spec classes[CLASSES];
	uint32_t counts[CLASSES][2];
	struct room *room = calloc(1, sizeof *room);
	struct strm_config config;
	int k;

	peer_classes(use, counts);
	for (k = 0; k < CLASSES; k++) {
		classes[k].size = counts[k][0];
		classes[k].count = counts[k][1];
	}
	first_frame = counts[0][1] + counts[1][1];
	memset(&config, 0, sizeof config);
	config.id = (uint32_t)number;
	config.mblks = peer_blocks(use);
	config.classes = classes;
	config.class_count = CLASSES;
	config.queues = use->queued == 0 ? &queue : &deep;
	config.queue_count = 1;
	config.first_id = 1;
	if (room == NULL || pthread_mutex_init(&room->lock, NULL) != 0 || strm_open(&room->pool, &config) != STRM_OK)
		return NULL;
	return filled(room, SIZE, &room->small) && filled(room, LONG, &room->large) && queue_drawn(room, use->queued, use->size) ? room : NULL;
}

int peer_enter(void)
{
	return 1;
}

void peer_leave(void)
{
}

static int allocates(void *given)
{
	struct room *room = given;
	struct strm_msg msg;

	return strm_allocb(&room->pool, SIZE, &msg) == STRM_OK && strm_freemsg(&room->pool, msg) == STRM_OK;
}

static int duplicates(void *given)
{
	struct room *room = given;
	struct strm_msg copy;

	return strm_dupb(&room->pool, room->small, &copy) == STRM_OK && strm_freemsg(&room->pool, copy) == STRM_OK;
}

static int queues(void *given)
{
	struct room *room = given;
	struct strm_msg msg;

	return filled(room, SIZE, &msg) && strm_putq(&room->pool, 0, msg) == STRM_OK && strm_getq(&room->pool, 0, &msg) == STRM_OK
	    && strm_freemsg(&room->pool, msg) == STRM_OK;
}

static int copies_msg(struct room *room, struct strm_msg msg)
{
	struct strm_msg copy;

	return strm_copymsg(&room->pool, msg, &copy) == STRM_OK && strm_freemsg(&room->pool, copy) == STRM_OK;
}

static int copies_small(void *given)
{
	struct room *room = given;

	return copies_msg(room, room->small);
}

static int copies_large(void *given)
{
	struct room *room = given;

	return copies_msg(room, room->large);
}

static int built(struct room *room, struct strm_msg *whole)
{
	struct strm_msg msg;
	int k;

	if (!filled(room, SIZE, whole))
		return 0;
	for (k = 1; k < CHAIN; k++)
		if (!filled(room, SIZE, &msg) || strm_linkb(&room->pool, *whole, msg) != STRM_OK)
			return 0;
	return 1;
}

static int builds(void *given)
{
	struct room *room = given;
	struct strm_msg msg;

	return built(room, &msg) && strm_freemsg(&room->pool, msg) == STRM_OK;
}

static int pulls_up(void *given)
{
	struct room *room = given;
	struct strm_msg msg;

	return built(room, &msg) && strm_pullupmsg(&room->pool, msg, -1) == STRM_OK && strm_freemsg(&room->pool, msg) == STRM_OK;
}

static int puts_several(struct room *room, struct strm_msg *msgs, size_t length)
{
	size_t k, count;

	if (strm_allocb_n(&room->pool, SIZE, msgs, length, &count) != STRM_OK || count != length)
		return 0;
	for (k = 0; k < length; k++)
		if (strm_write(&room->pool, msgs[k], 0, bytes, SIZE) != STRM_OK)
			return 0;
	return strm_putq_n(&room->pool, 0, msgs, length, &count) == STRM_OK && count == length;
}

static int takes_several(struct room *room, struct strm_msg *msgs, size_t length)
{
	size_t count;

	return strm_getq_n(&room->pool, 0, msgs, length, &count) == STRM_OK && count == length
	    && strm_freemsg_n(&room->pool, msgs, length, &count) == STRM_OK && count == length;
}

static int several(struct room *room, size_t length)
{
	struct strm_msg msgs[MOST_SEVERAL];

	return puts_several(room, msgs, length) && takes_several(room, msgs, length);
}

BURSTS

static int copies(struct room *room, uint32_t size)
{
	struct strm_msg msg;
	size_t count;

	return filled(room, size, &msg) && strm_read(&room->pool, msg, 0, copied, size, &count) == STRM_OK && sees(copied)
	    && strm_putq(&room->pool, 0, msg) == STRM_OK && strm_getq(&room->pool, 0, &msg) == STRM_OK
	    && strm_read(&room->pool, msg, 0, copied, size, &count) == STRM_OK && count == size
	    && strm_freemsg(&room->pool, msg) == STRM_OK;
}

static int in_place(struct room *room, uint32_t size)
{
	struct strm_msg msg;
	const uint8_t *lent;
	size_t length;

	return filled(room, size, &msg) && strm_bytes(&room->pool, msg, 0, &lent, &length) == STRM_OK && sees(lent)
	    && strm_putq(&room->pool, 0, msg) == STRM_OK && strm_getq(&room->pool, 0, &msg) == STRM_OK
	    && strm_bytes(&room->pool, msg, 0, &lent, &length) == STRM_OK && length == size && sees(lent)
	    && strm_freemsg(&room->pool, msg) == STRM_OK;
}

static unsigned char *frame_of(const struct strm_block_place *where)
{
	return frames[where->data - first_frame] + where->at;
}

static int copies_nothing(struct room *room, uint32_t size)
{
	struct strm_msg msg;
	struct strm_block_place where;

	return strm_allocb(&room->pool, size, &msg) == STRM_OK && strm_place(&room->pool, msg, 0, &where) == STRM_OK
	    && strm_advance(&room->pool, msg, 0, size) == STRM_OK && sees(frame_of(&where)) && strm_putq(&room->pool, 0, msg) == STRM_OK
	    && strm_getq(&room->pool, 0, &msg) == STRM_OK && strm_place(&room->pool, msg, 0, &where) == STRM_OK && where.length == size
	    && sees(frame_of(&where)) && strm_freemsg(&room->pool, msg) == STRM_OK;
}

/* The packet is written where its block has room, and goes out from there. */
static int receives(struct room *room, uint32_t size)
{
	struct strm_msg msg;
	struct strm_iov iov;
	uint8_t *at;
	size_t length, count;

	return strm_allocb(&room->pool, size, &msg) == STRM_OK && strm_room(&room->pool, msg, 0, &at, &length) == STRM_OK && length >= size
	    && strm_advance(&room->pool, msg, 0, size) == STRM_OK && sees(at) && strm_putq(&room->pool, 0, msg) == STRM_OK
	    && strm_getq(&room->pool, 0, &msg) == STRM_OK && strm_iov(&room->pool, msg, 0, &iov, 1, &count) == STRM_OK && iov.length == size
	    && sees(iov.base) && strm_freemsg(&room->pool, msg) == STRM_OK;
}

WAYS
WAY(receives, LONG, long)

/* ---- in several threads: the lock is held to put messages, and again to take them */

static int shares_queue(void *given)
{
	struct room *room = given;
	struct strm_msg msg;
	int done;

	pthread_mutex_lock(&room->lock);
	done = filled(room, SIZE, &msg) && strm_putq(&room->pool, 0, msg) == STRM_OK;
	pthread_mutex_unlock(&room->lock);
	pthread_mutex_lock(&room->lock);
	done = done && strm_getq(&room->pool, 0, &msg) == STRM_OK && strm_freemsg(&room->pool, msg) == STRM_OK;
	pthread_mutex_unlock(&room->lock);
	return done;
}

static int shares_several(void *given)
{
	struct room *room = given;
	struct strm_msg msgs[SEVERAL];
	int done;

	pthread_mutex_lock(&room->lock);
	done = puts_several(room, msgs, SEVERAL);
	pthread_mutex_unlock(&room->lock);
	pthread_mutex_lock(&room->lock);
	done = done && takes_several(room, msgs, SEVERAL);
	pthread_mutex_unlock(&room->lock);
	return done;
}

const struct work works[] = {
	{ "allocb", allocates }, { "dupb", duplicates }, { "queue", queues }, { "copy_short", copies_small }, { "copy_long", copies_large },
	{ "chain", builds }, { "pullup", pulls_up }, BURSTS_BY_NAME, WAYS_BY_NAME, { "receives_long", receives_long },
	{ "shared_queue", shares_queue }, { "shared_several", shares_several }, { NULL, NULL },
};
