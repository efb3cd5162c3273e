/*
 * The region of a pool, which holds all its memory. Tested and trusted, not proved. strm_open_with takes it from an allocator by one
 * call, and heap.c takes pieces of it.
 */
#include "heap.h"

/* The pieces of a pool. One has the bytes of data blocks. */
#define PIECES 11

size_t strm_region_more(void)
{
	return sizeof(struct strm_region) + PIECES * (sizeof(struct strm_region *) + STRM_OF_OTHERS)
		+ STRM_OF_BYTES - STRM_OF_OTHERS;
}

int strm_region_begin(const struct strm_allocator *allocator, size_t size)
{
	struct strm_region *region = (struct strm_region *)allocator->allocate(allocator->context, size, STRM_OF_OTHERS);

	if (region == NULL)
		return 0;
	if ((size_t)region % STRM_OF_OTHERS != 0) {
		allocator->release(allocator->context, region, size);
		return 0;
	}
	region->from = *allocator;
	region->size = size;
	region->used = sizeof *region;
	region->owners = 1;
	*strm_opening() = region;
	return 1;
}

void strm_region_end(void)
{
	struct strm_region *region = (struct strm_region *)*strm_opening();

	*strm_opening() = NULL;
	strm_region_left(region);
}

void strm_region_left(struct strm_region *region)
{
	struct strm_allocator from = region->from;

	if (--region->owners == 0)
		from.release(from.context, region, region->size);
}
