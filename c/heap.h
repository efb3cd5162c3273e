/* The memory of pools, for heap.c, region.c, strm.c and malloc.c only. Tested and trusted, not proved. */
#ifndef HEAP_H
#define HEAP_H

#include "strm.h"

/* libstrm.so keeps these to itself. */
#pragma GCC visibility push(hidden)

/* What the three functions of the toolchain's heap return: whether it is done, and an address that is never null. */
struct strm_tried {
	size_t is_done;
	void *at;
};

struct strm_tried strm_heap_alloc(size_t size, size_t align);
struct strm_tried strm_heap_realloc(void *at, size_t kept, size_t size, size_t align);
void strm_heap_dealloc(void *at);

/* What the bytes of data blocks are aligned to, and all else. */
#define STRM_OF_BYTES 64
#define STRM_OF_OTHERS 16

/* The first bytes of a region. Its owners are its pieces, each of which has the region's address in front, and strm_open_with. */
struct strm_region {
	struct strm_allocator from;
	size_t size, used, owners;
};

/*
 * Takes a region of `size` bytes from an allocator for the pieces that this thread allocates until strm_region_end. Returns 0 if it
 * gets none. The region is released with its last piece, or by strm_region_end if there is none.
 */
int strm_region_begin(const struct strm_allocator *allocator, size_t size);
void strm_region_end(void);

/* Says that a region has an owner less. */
void strm_region_left(struct strm_region *region);

/*
 * Returns the address of a pointer that is null at first, and another one for each thread that may open a pool meanwhile. A program without
 * libc defines it.
 */
void **strm_opening(void);

/* The bytes that a region needs beside those of its pieces. */
size_t strm_region_more(void);

#pragma GCC visibility pop

#endif
