/*
 * A program without libc, which brings the four functions that the library needs. It passes a message through a queue and frees it, and its
 * status is 0 if each call did what it should. x86-64 Linux only, since it begins and ends without libc, too.
 *
 *     cc -ffreestanding -nostdlib -static freestanding.c libstrm.a
 */
#include "strm.h"

/* All memory that there is, for one pool. */
static unsigned char memory[1 << 14] __attribute__((aligned(16)));
static size_t taken;
static int is_released;

void *memcpy(void *to, const void *from, size_t size);
void *memmove(void *to, const void *from, size_t size);
void *memset(void *to, int byte, size_t size);
void start(void);

static void *take(void *context, size_t size, size_t align)
{
	(void)align;
	taken = size;
	return size <= sizeof memory ? context : NULL;
}

static void release(void *context, void *at, size_t size)
{
	is_released = at == context && size == taken;
}

/* There is one thread. */
void **strm_opening(void)
{
	static void *place;

	return &place;
}

void *memcpy(void *to, const void *from, size_t size)
{
	return memmove(to, from, size);
}

void *memmove(void *to, const void *from, size_t size)
{
	volatile unsigned char *into = (volatile unsigned char *)to;
	const unsigned char *bytes = (const unsigned char *)from;
	size_t i;

	if (into <= bytes)
		for (i = 0; i < size; i++)
			into[i] = bytes[i];
	else
		for (i = size; i > 0; i--)
			into[i - 1] = bytes[i - 1];
	return to;
}

void *memset(void *to, int byte, size_t size)
{
	volatile unsigned char *into = (volatile unsigned char *)to;

	while (size > 0)
		into[--size] = (unsigned char)byte;
	return to;
}

/* Returns the number of the first check that failed, or 0. */
static int run(void)
{
	static const struct strm_class_spec classes[] = { { 16, 4 } };
	static const struct strm_queue_spec queues[] = { { 10, 4, 1, STRM_NO_QUEUE } };
	static const struct strm_allocator allocator = { take, release, memory };
	struct strm_pool pool = STRM_POOL_INIT;
	struct strm_config config = { 1, 4, NULL, 1, NULL, 1, 0, 1 };
	struct strm_msg msg;
	struct strm_census census;
	const uint8_t *lent;
	char bytes[4];
	size_t count;

	config.classes = classes;
	config.queues = queues;
	if (strm_open_with(&pool, &config, &allocator) != STRM_OK)
		return 1;
	if (strm_memory(&config, &count) != STRM_OK || count != taken)
		return 9;
	if (strm_allocb(&pool, 4, &msg) != STRM_OK || strm_write(&pool, msg, 0, "lion", 4) != STRM_OK)
		return 2;
	if (strm_putq(&pool, 0, msg) != STRM_OK || strm_getq(&pool, 0, &msg) != STRM_OK)
		return 3;
	if (strm_read(&pool, msg, 0, bytes, sizeof bytes, &count) != STRM_OK || count != 4 || bytes[0] != 'l' || bytes[3] != 'n')
		return 4;
	if (strm_overwrite(&pool, msg, 0, "b", 1) != STRM_OK || strm_bytes(&pool, msg, 0, &lent, &count) != STRM_OK || lent[0] != 'b')
		return 5;
	if (strm_freeb(&pool, msg, &msg) != STRM_NONE || !strm_is_no_msg(msg))
		return 6;
	if (strm_census(&pool, &census) != STRM_OK || census.free != 4)
		return 7;
	return strm_close(&pool) == STRM_OK && is_released ? 0 : 8;
}

/* Where the program begins, with the stack where a call leaves it. It ends by the system call exit. */
__asm__(".globl _start\n_start:\n\tcall start\n");

void start(void)
{
	__asm__ volatile("syscall" : : "a"(60L), "D"((long)run()) : "rcx", "r11", "memory");
}
