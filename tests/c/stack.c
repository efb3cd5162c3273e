/*
 * How much stack calls use, which strm.h and docs/C.md say. A thread makes calls on a stack of our own, whose bytes are set before: the lowest
 * one that changed is as far as the calls came. With the linker's -z now, so that no call has its symbols looked up. The last line is as in
 * each.c.
 */
#include "check.h"

#include <pthread.h>

static unsigned char stack[1 << 16] __attribute__((aligned(4096)));
/* What the thread calls, and where its stack is then. */
static void (*calls)(void);
static unsigned char *volatile begun;
/* What the calls are made on, and what they return. */
static struct strm_pool pool, other;
static struct scene scene;
static int code;

static void *run(void *nothing)
{
	begun = (unsigned char *)__builtin_frame_address(0);
	calls();
	return nothing;
}

/* How many bytes of stack a function and what it calls use. */
static size_t depth_of(void (*function)(void))
{
	pthread_attr_t own;
	pthread_t thread;
	size_t low = 0;

	memset(stack, UNTOUCHED, sizeof stack);
	calls = function;
	CHECK(pthread_attr_init(&own) == 0 && pthread_attr_setstack(&own, stack, sizeof stack) == 0);
	CHECK(pthread_create(&thread, &own, run, NULL) == 0 && pthread_join(thread, NULL) == 0);
	while (stack[low] == UNTOUCHED)
		low++;
	return (size_t)(begun - (stack + low));
}

static const struct strm_class_spec classes[] = { { 16, 8 }, { 64, 8 } };
static const struct strm_queue_spec queues[] = { { 10, 4, 1, 1 }, { 10, 4, 1, STRM_NO_QUEUE } };
static const struct strm_config config = { 1, 16, classes, 2, queues, 2, 2, 1 };

static void open_pool(void)
{
	code = strm_open(&pool, &config);
}

static void make_set_call(void)
{
	code = make_call(&scene);
}

static void make_others(void)
{
	static size_t bytes;

	strm_error(STRM_OK);
	code = strm_memory(&config, &bytes) | strm_close(&pool);
}

/* Makes calls, none of which uses much stack. Returns how much they use. */
static size_t small_depth_of(void (*function)(void))
{
	size_t depth = depth_of(function);

	CHECK(code == STRM_OK && 0 < depth && depth < 1000);
	return depth;
}

int main(void)
{
	size_t opening = depth_of(open_pool), others, depth;
	int verb;

	CHECK(code == STRM_OK && 1000 < opening && opening <= 11000);
	others = small_depth_of(make_others);
	for (verb = 0; verb < VERBS; verb++) {
		open_scene(&scene, &pool, &other, 1);
		set_call(&scene, verb);
		depth = small_depth_of(make_set_call);
		others = depth > others ? depth : others;
		close_scene(&scene);
	}
	printf("strm_open %lu, others %lu bytes\n", (unsigned long)opening, (unsigned long)others);
	return summary();
}
