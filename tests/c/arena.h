/* Memory for pools: an allocator over an array, which counts what it is asked for, and sees whether the bytes around are touched. */
#ifndef ARENA_H
#define ARENA_H

#include "strm.h"

#include <string.h>

/* The bytes around what is handed out, and what they and it have at first. */
#define FENCE 48
#define UNTOUCHED 0xA5

struct arena {
	unsigned char *at;
	size_t size, used;
	long asked, kept;	/* how many times it was asked, and how much of what it gave is not released */
	long refused;		/* which request it refuses, counted from 1 */
	long broken;		/* bytes around that were touched, and releases of another size */
	size_t asked_bytes;
};

/* Hands out the arena from front to back, and all of it again when everything was released. */
static void *arena_allocate(void *context, size_t bytes, size_t align)
{
	struct arena *arena = (struct arena *)context;
	unsigned char *at = arena->at + arena->used + FENCE;

	at += (align - (size_t)at % align) % align;
	arena->asked_bytes = bytes;
	if (++arena->asked == arena->refused || bytes + FENCE > arena->size - (size_t)(at - arena->at))
		return NULL;
	arena->used = (size_t)(at - arena->at) + bytes;
	arena->kept++;
	memset(at - FENCE, UNTOUCHED, bytes + 2 * FENCE);
	return at;
}

static void arena_release(void *context, void *at, size_t bytes)
{
	struct arena *arena = (struct arena *)context;
	const unsigned char *front = (unsigned char *)at - FENCE, *back = (unsigned char *)at + bytes;
	size_t i;

	for (i = 0; i < FENCE; i++)
		arena->broken += (front[i] != UNTOUCHED) + (back[i] != UNTOUCHED);
	arena->broken += bytes != arena->asked_bytes && arena->kept == 1;
	if (--arena->kept == 0)
		arena->used = 0;
}

static struct strm_allocator allocator_of(struct arena *arena)
{
	struct strm_allocator allocator;

	allocator.allocate = arena_allocate;
	allocator.release = arena_release;
	allocator.context = arena;
	return allocator;
}

#endif
