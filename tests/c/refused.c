/*
 * strm_open, if its memory is refused: it answers STRM_NO_MEMORY and keeps none (memory.c refuses each piece of it). No other call allocates, and
 * strm_close frees all memory. strm_open allocates as many bytes as strm_memory returns. The linker puts the three functions below between
 * the library and malloc, realloc and free. The last line is as in each.c.
 */
#include "check.h"

#include <stdlib.h>

/* How many blocks of memory were asked for, which of them is refused, counted from 1, and how many are not freed. */
static long asked, refused_one, kept;

/* How many bytes were asked of malloc. */
static size_t asked_bytes;

#ifdef __cplusplus
extern "C" {
#endif
void *__real_malloc(size_t size);
void *__real_realloc(void *block, size_t size);
void __real_free(void *block);
void *__wrap_malloc(size_t size);
void *__wrap_realloc(void *block, size_t size);
void __wrap_free(void *block);
#ifdef __cplusplus
}
#endif

void *__wrap_malloc(size_t size)
{
	void *block = ++asked == refused_one ? NULL : __real_malloc(size);

	asked_bytes += size;
	kept += block != NULL;
	return block;
}

void *__wrap_realloc(void *block, size_t size)
{
	void *other = ++asked == refused_one ? NULL : __real_realloc(block, size);

	kept += block == NULL && other != NULL;
	return other;
}

void __wrap_free(void *block)
{
	kept -= block != NULL;
	__real_free(block);
}

/* Opens a pool once no allocation is refused. */
static struct strm_pool opened(const struct strm_config *config)
{
	struct strm_pool pool = STRM_POOL_INIT;
	size_t bytes;
	int code;

	for (refused_one = 1; refused_one < 100; refused_one++) {
		asked = 0;
		asked_bytes = 0;
		code = strm_open(&pool, config);
		if (code == STRM_OK)
			break;
		CHECK(code == STRM_NO_MEMORY && !strm_is_open(&pool));
		CHECK(asked == refused_one && kept == 0);
	}
	CHECK(asked == refused_one - 1 && 0 < asked && 0 < kept);
	ANSWERS(strm_memory(config, &bytes), STRM_OK);
	CHECK(bytes == asked_bytes);
	return pool;
}

/* The bytes of pools with each number of classes and of queues, and with other numbers of blocks, sizes and wishes; and in how many calls. */
static void count_bytes(void)
{
	struct strm_class_spec classes[STRM_MOST_CLASSES];
	struct strm_queue_spec queues[STRM_MOST_QUEUES];
	struct strm_config config;
	struct strm_pool pool = STRM_POOL_INIT;
	size_t i, bytes;
	long before;

	for (i = 0; i < STRM_MOST_CLASSES; i++) {
		classes[i].size = (uint32_t)(1 + 585 * i);
		classes[i].count = (uint32_t)(23 - 2 * i);
	}
	for (i = 0; i < STRM_MOST_QUEUES; i++) {
		queues[i].hiwat = 2;
		queues[i].lowat = 1;
		queues[i].service = 0;
		queues[i].next = STRM_NO_QUEUE;
	}
	config.id = 7;
	config.classes = classes;
	config.queues = queues;
	config.first_id = 1;
	refused_one = 0;
	for (i = 0; i < STRM_MOST_CLASSES * STRM_MOST_QUEUES; i++) {
		config.mblks = (uint32_t)(1 + 128 * i);
		config.class_count = 1 + i % STRM_MOST_CLASSES;
		config.queue_count = 1 + i / STRM_MOST_CLASSES;
		config.bufcalls = (uint32_t)(i % (STRM_MOST_WISHES + 1));
		before = asked;
		ANSWERS(strm_memory(&config, &bytes), STRM_OK);
		CHECK(asked == before);
		asked_bytes = 0;
		ANSWERS(strm_open(&pool, &config), STRM_OK);
		CHECK(bytes == asked_bytes && asked - before == 1);
		ANSWERS(strm_close(&pool), STRM_OK);
	}
}

/* Makes each call, also with names of what is not there. */
static void make_each_call(void)
{
	struct scene scene;
	struct strm_pool pool, other;
	int verb;

	for (verb = 0; verb < VERBS; verb++) {
		open_scene(&scene, &pool, &other, 7);
		asked = 0;
		set_call(&scene, verb);
		spoil_call(&scene);
		make_call(&scene);
		set_call(&scene, verb);
		ANSWERS(make_call(&scene), STRM_OK);
		CHECK(asked == 0);
		close_scene(&scene);
	}
}

int main(void)
{
	static const struct strm_class_spec classes[] = { { 16, 8 } };
	static const struct strm_queue_spec queues[] = { { 10, 4, 1, STRM_NO_QUEUE } };
	struct strm_config config;
	struct strm_pool pool;
	char text[80];

	config.id = 7;
	config.mblks = 8;
	config.classes = classes;
	config.class_count = 1;
	config.queues = queues;
	config.queue_count = 1;
	config.bufcalls = 2;
	config.first_id = 1;
	pool = opened(&config);
	CHECK(asked == refused_one - 1);
	CHECK(strm_text(STRM_NO_MEMORY, text, sizeof text) > 0 && strm_name(STRM_OK, text, sizeof text) > 0);
	CHECK(strm_version(text, sizeof text) > 0);
	ANSWERS(strm_close(&pool), STRM_OK);
	CHECK(asked == refused_one - 1);
	refused_one = 0;
	make_each_call();
	count_bytes();
	CHECK(kept == 0);
	return summary();
}
