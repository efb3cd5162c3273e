/*
 * Opens one pool in a static array, and another in a huge page, or in ordinary pages if the system has no huge one to give. The bytes of a
 * message of the first pool are in the array.
 *
 *     cc memory.c $(pkg-config --cflags --libs strm) -o memory
 *
 * It is in C99, and for Linux.
 */
#define _GNU_SOURCE
#include <stdio.h>
#include <stdlib.h>
#include <strm.h>
#include <sys/mman.h>

static const struct strm_class_spec classes[] = { { .size = 64, .count = 32 } };
static const struct strm_queue_spec queues[] = { { .hiwat = 64, .lowat = 16, .service = 1, .next = STRM_NO_QUEUE } };

/* An array that is handed out from front to back. */
struct bump {
	unsigned char *at;
	size_t left;
};

static void *take(void *context, size_t bytes, size_t align)
{
	struct bump *bump = context;
	size_t gap = (align - (size_t)bump->at % align) % align;

	if (bump->left < gap || bump->left - gap < bytes)
		return NULL;
	bump->at += gap + bytes;
	bump->left -= gap + bytes;
	return bump->at - bytes;
}

/* The array stays; a pool that is opened again takes more of it. */
static void keep(void *context, void *at, size_t bytes)
{
	(void)context, (void)at, (void)bytes;
}

#define PAGE ((size_t)2 << 20)
#define PAGES(bytes) (((bytes) + PAGE - 1) / PAGE * PAGE)

static void *map(void *context, size_t bytes, size_t align)
{
	const int read_write = PROT_READ | PROT_WRITE, own = MAP_PRIVATE | MAP_ANONYMOUS;
	void *at = mmap(NULL, PAGES(bytes), read_write, own | MAP_HUGETLB, -1, 0);

	(void)context, (void)align;
	if (at == MAP_FAILED)
		at = mmap(NULL, PAGES(bytes), read_write, own, -1, 0);
	return at == MAP_FAILED ? NULL : at;
}

static void unmap(void *context, void *at, size_t bytes)
{
	(void)context;
	munmap(at, PAGES(bytes));
}

int main(void)
{
	static unsigned char array[1 << 14];
	struct bump bump = { .at = array, .left = sizeof array };
	const struct strm_allocator in_array = { .allocate = take, .release = keep, .context = &bump };
	const struct strm_allocator in_pages = { .allocate = map, .release = unmap };
	struct strm_pool small = STRM_POOL_INIT, other = STRM_POOL_INIT;
	struct strm_config config = {
		.id = 1, .mblks = 40, .classes = classes, .class_count = 1, .queues = queues, .queue_count = 1, .first_id = 1,
	};
	struct strm_msg msg;
	const uint8_t *bytes;
	size_t length;

	printf("in an array: %s\n", strm_error(strm_open_with(&small, &config, &in_array)));
	config.id = 2;
	printf("in pages: %s\n", strm_error(strm_open_with(&other, &config, &in_pages)));
	if (strm_allocb(&small, 4, &msg) != STRM_OK || strm_bytes(&small, msg, 0, &bytes, &length) != STRM_OK)
		return EXIT_FAILURE;
	printf("the bytes are in the array: %s\n", bytes >= array && bytes < array + sizeof array ? "yes" : "no");
	return strm_close(&small) == STRM_OK && strm_close(&other) == STRM_OK ? EXIT_SUCCESS : EXIT_FAILURE;
}
