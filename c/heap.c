/*
 * The heap of pools, in place of the toolchain's. Tested and trusted, not proved. While strm_c_open runs, the proved code takes pieces
 * of one region by these three functions. In strm_c.o they have the names of the toolchain's heap, rattle_alloc and so on, until the
 * Makefile renames them.
 *
 * The proofs assume this of them, by the contract of the toolchain's `Global`. No address is null. strm_heap_alloc refuses, or returns
 * a piece of `size` bytes that overlaps no other. It is at a multiple of `align`, which divides 16. If strm_heap_realloc refuses, the
 * piece stays as it is. strm_heap_dealloc is called at most once for each piece.
 */
#include "heap.h"

struct strm_tried strm_heap_alloc(size_t size, size_t align)
{
	struct strm_region *region = (struct strm_region *)*strm_opening();
	size_t unit = align == 1 ? STRM_OF_BYTES : STRM_OF_OTHERS, at = region->used + sizeof region;
	struct strm_tried tried;

	at += (unit - ((size_t)region + at) % unit) % unit;
	tried.is_done = at <= region->size && size <= region->size - at;
	tried.at = (unsigned char *)region + at;
	if (tried.is_done) {
		((struct strm_region **)tried.at)[-1] = region;
		region->used = at + size;
		region->owners++;
	}
	return tried;
}

struct strm_tried strm_heap_realloc(void *at, size_t kept, size_t size, size_t align)
{
	struct strm_tried refused;

	(void)kept, (void)size, (void)align;
	refused.is_done = 0;
	refused.at = at;
	return refused;
}

void strm_heap_dealloc(void *at)
{
	strm_region_left(((struct strm_region **)at)[-1]);
}
