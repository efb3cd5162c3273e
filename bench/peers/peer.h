/*
 * What each peer has: a pool of messages with a queue, and works on them by name. A work leaves the pool as it was, and returns 0 if a call
 * failed. main.c makes rounds of a work. Each of these works has one thread.
 *
 *     allocb          allocates a message for SIZE bytes, and frees it
 *     dupb            makes a second message, or a second reference, over the bytes of a kept message, and frees it
 *     queue           allocates a message, writes SIZE bytes, puts it on the empty queue, takes it off, and frees it
 *     copy_short      copies a kept message of SIZE bytes, and frees the copy
 *     copy_long       the same of LONG bytes
 *     chain           builds a message of CHAIN blocks of SIZE bytes, and frees it
 *     pullup          the same, and gathers its bytes in one block before it is freed
 *     several_N       as `queue`, N messages at a time
 *
 * The way of a packet: it comes in, its header is looked at, it waits on the queue, and it goes out. SIZE or LONG bytes are
 *
 *     copies_short, copies_long        copied in, copied to be looked at, and copied out
 *     in_place_short, in_place_long    copied in, and read where they are
 *     no_copy_long                     never copied: they are there when the packet comes in
 *
 * The queue may be deep: then messages are on it from the beginning, so that a message waits until those ahead of it are taken. Their blocks are in
 * drawn order.
 *
 * Several threads share one pool and its queue, each as `queue` or `several_32` does:
 *
 *     shared_queue, shared_several
 */
#ifndef PEER_H
#define PEER_H

#include <stdint.h>
#include <stdlib.h>

#define BLOCKS 4095
#define SIZE 64
#define LONG 1500
#define FRAME 4096
#define CHAIN 4
#define SEVERAL 32
#define MOST_SEVERAL 256

struct work {
	const char *name;
	int (*made)(void *room);
};

/* The works of this peer. The last has no name. */
extern const struct work works[];

/* What a pool is opened for: whether several threads will use it, how many messages are on its queue, and their bytes, SIZE or LONG. */
struct use {
	int shared;
	uint32_t queued, size;
};

/* Opens a pool, or returns null. `number`, from 0 on, differs for each. */
void *peer_open(int number, const struct use *use);

/* The size classes of a pool that has some, each the bytes of a data block and their number, and its message blocks. */
#define CLASSES 3
#define LAST_CLASS 8
void peer_classes(const struct use *use, uint32_t classes[CLASSES][2]);
uint32_t peer_blocks(const struct use *use);

/* Draws one of `count` numbers, from 0 on. */
uint32_t drawn(uint32_t count);

/* Defines `queue_drawn`, which puts messages of one block on the queue whose blocks are in drawn order, and returns 0 if a call failed. */
#define QUEUE_DRAWN(message, filled, freed, put) \
	static int queue_drawn(struct room *room, uint32_t count, uint32_t size) \
	{ \
		message *all = malloc(count * sizeof *all); \
		message last; \
		uint32_t k, other; \
		int done = all != NULL; \
\
		for (k = 0; k < count && done; k++) \
			done = filled(room, size, &all[k]); \
		for (k = count; k > 0 && done; k--) { \
			other = drawn(k); \
			last = all[other]; \
			all[other] = all[k - 1]; \
			done = freed(room, last); \
		} \
		for (k = 0; k < count && done; k++) \
			done = filled(room, size, &last) && put(room, last); \
		free(all); \
		return done; \
	}

/* Begins and ends the use of pools in a thread that is not the first. Returns 0 if that fails. */
int peer_enter(void);
void peer_leave(void);

/* What comes in, and where it is copied to. */
extern const unsigned char bytes[FRAME];
extern unsigned char copied[FRAME];

/* What is done with a header, and with bytes that go out from where they are. */
extern volatile unsigned seen;

static inline int sees(const unsigned char *header)
{
	seen = header[0];
	return 1;
}

/* Defines the works `several` for some numbers of messages. */
#define BURST(count) static int several_##count(void *room) { return several(room, count); }
#define BURSTS BURST(8) BURST(32) BURST(256)
#define BURSTS_BY_NAME { "several_8", several_8 }, { "several_32", several_32 }, { "several_256", several_256 }

/* Defines the works `copies` and `in_place` for both sizes, and `copies_nothing` for the large one. */
#define WAY(way, size, name) static int way##_##name(void *room) { return way(room, size); }
#define WAYS WAY(copies, SIZE, short) WAY(copies, LONG, long) WAY(in_place, SIZE, short) WAY(in_place, LONG, long) WAY(copies_nothing, LONG, long)
#define WAYS_BY_NAME \
	{ "copies_short", copies_short }, { "copies_long", copies_long }, { "in_place_short", in_place_short }, \
	{ "in_place_long", in_place_long }, { "no_copy_long", copies_nothing_long }

#endif
