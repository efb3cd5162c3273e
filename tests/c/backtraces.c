/*
 * A timer interrupts calls of the library, and its handler asks where the program is, as crash handlers and profilers do. Each backtrace has to
 * reach the caller of the loop below, from wherever in the library it starts. gcc and glibc only. The last line is as in each.c.
 */
#define _GNU_SOURCE
#include "check.h"

#include <execinfo.h>
#include <signal.h>
#include <sys/time.h>

#define FRAMES 32
/* The frames of the handler, of what calls it, and of the loop: a backtrace with more before the loop's caller starts in the library. */
#define OUTSIDE 3
#define WANTED 300

/* Where the loop returns to, while it runs. */
static void *volatile caller;
static volatile int inside, lost;

static void look_around(int signal)
{
	void *frames[FRAMES];
	int count = backtrace(frames, FRAMES), at = 0;

	(void)signal;
	if (caller == NULL)
		return;
	while (at < count && frames[at] != caller)
		at++;
	lost += at == count;
	inside += at > OUTSIDE;
}

/* Makes calls until enough backtraces started in the library, or one was lost. */
__attribute__((noinline)) static void make_calls(struct strm_pool *pool)
{
	struct strm_msg msg, copy;
	char bytes[64] = "";
	size_t count;

	caller = __builtin_return_address(0);
	while (inside < WANTED && lost == 0) {
		strm_allocb(pool, sizeof bytes, &msg);
		strm_write(pool, msg, 0, bytes, sizeof bytes);
		strm_copymsg(pool, msg, &copy);
		strm_linkb(pool, msg, copy);
		strm_pullupmsg(pool, msg, -1);
		strm_putq(pool, 0, msg);
		strm_getq(pool, 0, &msg);
		strm_read(pool, msg, 0, bytes, sizeof bytes, &count);
		strm_freemsg(pool, msg);
	}
	caller = NULL;
}

int main(void)
{
	static const struct strm_class_spec classes[] = { { 64, 8 }, { 128, 8 } };
	static const struct strm_queue_spec queues[] = { { 10, 4, 1, STRM_NO_QUEUE } };
	struct strm_pool pool = STRM_POOL_INIT;
	struct strm_config config = { 1, 8, classes, 2, queues, 1, 0, 1 };
	struct itimerval often = { { 0, 1000 }, { 0, 1000 } }, never = { { 0, 0 }, { 0, 0 } };
	void *first[1];

	ANSWERS(strm_open(&pool, &config), STRM_OK);
	/* the first backtrace loads what later ones need */
	CHECK(backtrace(first, 1) == 1);
	signal(SIGPROF, look_around);
	setitimer(ITIMER_PROF, &often, NULL);
	make_calls(&pool);
	setitimer(ITIMER_PROF, &never, NULL);
	CHECK(lost == 0 && inside == WANTED);
	ANSWERS(strm_close(&pool), STRM_OK);
	return summary();
}
