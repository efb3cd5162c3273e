/* GLib: bytes are a GBytes, which counts its references and can't be changed; the queue is a GQueue. Each GBytes and each link is allocated. */
#include "peer.h"

#include <glib.h>
#include <pthread.h>
#include <string.h>

struct room {
	GQueue queue;
	GBytes *small, *large;
	pthread_mutex_t lock;
};

/* Memory of the program's own. */
static unsigned char frame[FRAME];

/* Frees bytes if there are some. */
static int freed(GBytes *msg)
{
	if (msg != NULL)
		g_bytes_unref(msg);
	return msg != NULL;
}

static int fills(struct room *room, uint32_t size, GBytes **msg)
{
	(void)room;
	*msg = g_bytes_new(bytes, size);
	return 1;
}

static int frees(struct room *room, GBytes *msg)
{
	(void)room;
	return freed(msg);
}

static int puts_one(struct room *room, GBytes *msg)
{
	g_queue_push_tail(&room->queue, msg);
	return 1;
}

QUEUE_DRAWN(GBytes *, fills, frees, puts_one)

void *peer_open(int number, const struct use *use)
{
	struct room *room = g_new0(struct room, 1);

	(void)number;
	g_queue_init(&room->queue);
	room->small = g_bytes_new(bytes, SIZE);
	room->large = g_bytes_new(bytes, LONG);
	return pthread_mutex_init(&room->lock, NULL) == 0 && queue_drawn(room, use->queued, use->size) ? room : NULL;
}

int peer_enter(void)
{
	return 1;
}

void peer_leave(void)
{
}

static int allocates(void *room)
{
	(void)room;
	g_bytes_unref(g_bytes_new_take(g_malloc(SIZE), SIZE));
	return 1;
}

/* A second reference to the same bytes, which is all that GLib has for whole bytes. */
static int duplicates(void *given)
{
	struct room *room = given;

	g_bytes_unref(g_bytes_ref(room->small));
	return 1;
}

static int queues(void *given)
{
	struct room *room = given;

	g_queue_push_tail(&room->queue, g_bytes_new(bytes, SIZE));
	return freed(g_queue_pop_head(&room->queue));
}

static int copies_bytes(GBytes *msg)
{
	gsize length;
	const void *at = g_bytes_get_data(msg, &length);

	return freed(g_bytes_new(at, length));
}

static int copies_small(void *given)
{
	struct room *room = given;

	return copies_bytes(room->small);
}

static int copies_large(void *given)
{
	struct room *room = given;

	return copies_bytes(room->large);
}

static int several(struct room *room, int count)
{
	GBytes *msgs[MOST_SEVERAL];
	int k, done = 1;

	for (k = 0; k < count; k++)
		msgs[k] = g_bytes_new(bytes, SIZE);
	for (k = 0; k < count; k++)
		g_queue_push_tail(&room->queue, msgs[k]);
	for (k = 0; k < count; k++)
		msgs[k] = g_queue_pop_head(&room->queue);
	for (k = 0; k < count; k++)
		done &= freed(msgs[k]);
	return done;
}

BURSTS

static int copies_out(GBytes *msg, gsize size)
{
	gsize length;
	const void *at = g_bytes_get_data(msg, &length);

	memcpy(copied, at, length);
	return length == size;
}

static int copies(struct room *room, gsize size)
{
	GBytes *msg = g_bytes_new(bytes, size);

	if (!copies_out(msg, size) || !sees(copied))
		return 0;
	g_queue_push_tail(&room->queue, msg);
	msg = g_queue_pop_head(&room->queue);
	return msg != NULL && copies_out(msg, size) && freed(msg);
}

/* Bytes are looked at where they are, queued, and looked at again. */
static int passes(struct room *room, GBytes *msg, gsize size)
{
	gsize length;

	if (!sees(g_bytes_get_data(msg, &length)))
		return 0;
	g_queue_push_tail(&room->queue, msg);
	msg = g_queue_pop_head(&room->queue);
	return msg != NULL && sees(g_bytes_get_data(msg, &length)) && length == size && freed(msg);
}

static int in_place(struct room *room, gsize size)
{
	return passes(room, g_bytes_new(bytes, size), size);
}

static int copies_nothing(struct room *room, gsize size)
{
	return passes(room, g_bytes_new_static(frame, size), size);
}

WAYS

/* ---- in several threads: references are atomic, and a lock is held for calls on the queue */

static int shares_queue(void *given)
{
	struct room *room = given;
	GBytes *msg = g_bytes_new(bytes, SIZE);

	pthread_mutex_lock(&room->lock);
	g_queue_push_tail(&room->queue, msg);
	pthread_mutex_unlock(&room->lock);
	pthread_mutex_lock(&room->lock);
	msg = g_queue_pop_head(&room->queue);
	pthread_mutex_unlock(&room->lock);
	return freed(msg);
}

static int shares_several(void *given)
{
	struct room *room = given;
	GBytes *msgs[SEVERAL];
	int k, done = 1;

	for (k = 0; k < SEVERAL; k++)
		msgs[k] = g_bytes_new(bytes, SIZE);
	pthread_mutex_lock(&room->lock);
	for (k = 0; k < SEVERAL; k++)
		g_queue_push_tail(&room->queue, msgs[k]);
	pthread_mutex_unlock(&room->lock);
	pthread_mutex_lock(&room->lock);
	for (k = 0; k < SEVERAL; k++)
		msgs[k] = g_queue_pop_head(&room->queue);
	pthread_mutex_unlock(&room->lock);
	for (k = 0; k < SEVERAL; k++)
		done &= freed(msgs[k]);
	return done;
}

/* It has no chains of blocks. */
const struct work works[] = {
	{ "allocb", allocates }, { "dupb", duplicates }, { "queue", queues }, { "copy_short", copies_small }, { "copy_long", copies_large },
	BURSTS_BY_NAME, WAYS_BY_NAME, { "shared_queue", shares_queue }, { "shared_several", shares_several }, { NULL, NULL },
};
