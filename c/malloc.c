/*
 * What of the library needs libc. Tested and trusted, not proved. A program without libc calls strm_open_with instead of strm_open, and
 * defines strm_opening; then the linker does not take this object.
 */
#include "heap.h"

#include <stdlib.h>

void **strm_opening(void)
{
	/* in the first memory of a thread, so that no call is needed to find it */
	static __thread void *region __attribute__((tls_model("initial-exec")));

	return &region;
}

static void *allocated(void *context, size_t bytes, size_t align)
{
	(void)context, (void)align;
	return malloc(bytes);
}

static void released(void *context, void *at, size_t bytes)
{
	(void)context, (void)bytes;
	free(at);
}

int strm_open(struct strm_pool *pool, const struct strm_config *config)
{
	static const struct strm_allocator libc = { allocated, released, NULL };

	return strm_open_with(pool, config, &libc);
}
