/*
 * Makes each call of strm_mt.h with each of its results, in threads that wait for one another: the lock, codes, orders, deadlines, bursts, shut
 * queues, descriptors, cancelled threads, signals, forks and system calls. The last line is 'N passed, M failed'. A call may wait for PATIENCE
 * seconds, by default 10. Behind the word `sanitizers` system calls are not counted.
 *
 *     each [PATIENCE [sanitizers]]
 */
#define _GNU_SOURCE
#include "../c/check.h"
#include "strm_mt.h"

#include <errno.h>
#include <poll.h>
#include <pthread.h>
#include <signal.h>
#include <stdlib.h>
#include <sys/prctl.h>
#include <sys/resource.h>
#include <sys/syscall.h>
#include <sys/wait.h>
#include <time.h>
#include <unistd.h>
#include <linux/seccomp.h>

#define MOST 8

enum { NARROW, WIDE, QUEUES };		/* a band of NARROW is full with one byte, of WIDE with four */
enum { SEND, RECEIVE, ALLOCATE };

static const struct timespec now;
static struct strm_mt *mt;
static int patience = 10;
static const char in_time[] = "a call goes on, or comes to wait, in time";

/* ---- calls in other threads */

struct task {
	int kind;
	uint32_t queue, size;
	size_t length, count;
	const struct timespec *deadline;
	struct strm_msg msgs[MOST];
	int code;
	pthread_t thread;
};

static void *run_task(void *given)
{
	struct task *task = given;

	if (task->kind == ALLOCATE)
		task->code = strm_mt_alloc(mt, task->size, task->msgs, task->deadline);
	else if (task->kind == SEND && task->length == 1)
		task->code = strm_mt_send(mt, task->queue, task->msgs[0], task->deadline);
	else if (task->kind == SEND)
		task->code = strm_mt_send_n(mt, task->queue, task->msgs, task->length, task->deadline, &task->count);
	else if (task->length == 1)
		task->code = strm_mt_receive(mt, task->queue, task->msgs, task->deadline);
	else
		task->code = strm_mt_receive_n(mt, task->queue, task->msgs, task->length, task->deadline, &task->count);
	return NULL;
}

/* Whether this number of calls comes to wait, in time. */
static int come_to_wait(uint32_t queue, uint32_t wanted)
{
	uint32_t calls = 0;
	int tries;

	for (tries = 0; tries < patience * 5000; tries++) {
		if (strm_mt_waiting(mt, queue, &calls) != STRM_OK || calls == wanted)
			break;
		usleep(200);
	}
	return calls == wanted;
}

/* Ends the program, since the checks behind this one would fail or wait too. */
static void fail(const char *what)
{
	check(0, __FILE__, __LINE__, what);
	summary();
	fflush(stdout);
	_exit(1);
}

/* Begins a task, and waits until one call more waits. */
static struct task *begin(struct task *task)
{
	uint32_t at = task->kind == ALLOCATE ? STRM_NO_QUEUE : task->queue, before = 0;

	ANSWERS(strm_mt_waiting(mt, at, &before), STRM_OK);
	task->code = 1000;
	CHECK(pthread_create(&task->thread, NULL, run_task, task) == 0);
	if (!come_to_wait(at, before + 1))
		fail(in_time);
	return task;
}

/* Waits for a thread, and returns its result. */
static void *result_of(pthread_t thread)
{
	struct timespec limit;
	void *result;

	clock_gettime(CLOCK_REALTIME, &limit);
	limit.tv_sec += patience;
	if (pthread_timedjoin_np(thread, &result, &limit) != 0)
		fail(in_time);
	return result;
}

static int code_of(struct task *task)
{
	result_of(task->thread);
	return task->code;
}

static struct task *receiver(struct task *task, uint32_t queue)
{
	*task = (struct task){ .kind = RECEIVE, .queue = queue, .length = 1 };
	return begin(task);
}

static struct task *sender(struct task *task, uint32_t queue, struct strm_msg msg)
{
	*task = (struct task){ .kind = SEND, .queue = queue, .length = 1, .msgs = { msg } };
	return begin(task);
}

/* ---- calls in this thread */

static struct strm_msg made(uint32_t band, const char *bytes)
{
	struct strm_pool *pool = strm_mt_lock(mt);
	struct strm_msg msg = message(pool, bytes);

	ANSWERS(strm_setband(pool, msg, band), STRM_OK);
	strm_mt_unlock(mt);
	return msg;
}

static void freed(struct strm_msg msg)
{
	ANSWERS(strm_freemsg(strm_mt_lock(mt), msg), STRM_OK);
	strm_mt_unlock(mt);
}

/* Whether a message has these bytes; frees it. */
static int is(struct strm_msg msg, const char *bytes)
{
	int same = has_bytes(strm_mt_lock(mt), msg, bytes);

	strm_mt_unlock(mt);
	freed(msg);
	return same;
}

static void send_now(uint32_t queue, uint32_t band, const char *bytes)
{
	ANSWERS(strm_mt_send(mt, queue, made(band, bytes), &now), STRM_OK);
}

/* Whether the next message of a queue has these bytes. */
static int brings(uint32_t queue, const char *bytes)
{
	struct strm_msg msg;

	return strm_mt_receive(mt, queue, &msg, &now) == STRM_OK && is(msg, bytes);
}

static int is_empty(uint32_t queue)
{
	struct strm_msg msg;

	return strm_mt_receive(mt, queue, &msg, &now) == STRM_MT_TIMED_OUT;
}

/* A time so many milliseconds from now. */
static struct timespec after(long milliseconds)
{
	struct timespec at;

	clock_gettime(CLOCK_MONOTONIC, &at);
	at.tv_nsec += milliseconds * 1000000;
	at.tv_sec += at.tv_nsec / 1000000000;
	at.tv_nsec %= 1000000000;
	return at;
}

static int has_passed(struct timespec at)
{
	struct timespec clock = after(0);

	return clock.tv_sec > at.tv_sec || (clock.tv_sec == at.tv_sec && clock.tv_nsec >= at.tv_nsec);
}

static void open_pool(void)
{
	static const struct strm_class_spec classes[] = { { 8, MBLKS - 1 }, { 64, 1 } };
	static const struct strm_queue_spec queues[] = { { 1, 0, 0, STRM_NO_QUEUE }, { 4, 1, 0, STRM_NO_QUEUE } };
	static const struct strm_config config = { 1, MBLKS, classes, 2, queues, QUEUES, 0, 1 };

	ANSWERS(strm_mt_open(&mt, &config), STRM_OK);
}

/* No block is lost or held, and nobody waits. */
static void close_pool(void)
{
	CHECK(come_to_wait(NARROW, 0) && come_to_wait(WIDE, 0) && come_to_wait(STRM_NO_QUEUE, 0));
	CENSUS(strm_mt_lock(mt), MBLKS, 0, 0);
	strm_mt_unlock(mt);
	ANSWERS(strm_mt_close(mt), STRM_OK);
	mt = NULL;
}

/* ---- what is checked */

static uint32_t holds;

/* Counts under the lock, for so long that those that wait go to sleep. */
static void *hold_lock(void *given)
{
	uint32_t round, before;

	for (round = 0; round < 10; round++) {
		strm_mt_lock(mt);
		before = holds;
		usleep(500);
		holds = before + 1;
		strm_mt_unlock(mt);
	}
	return given;
}

/* One thread at a time has the lock. Each that sleeps until it is free is woken. The other checks need such a lock. */
static void check_lock(void)
{
	pthread_t threads[4];
	int at;

	holds = 0;
	for (at = 0; at < 4; at++)
		CHECK(pthread_create(&threads[at], NULL, hold_lock, NULL) == 0);
	for (at = 0; at < 4; at++)
		result_of(threads[at]);
	if (holds != 40)
		fail("threads have the lock one at a time");
}

static void check_codes(void)
{
	struct strm_config empty = { 1, 1, NULL, 0, NULL, 0, 0, 1 };
	struct strm_msg msg = made(0, "a"), none = STRM_NO_MSG, msgs[2] = { STRM_NO_MSG, STRM_NO_MSG };
	struct strm_mt *other = mt;
	size_t count = 7;
	uint32_t calls;
	int fd;

	ANSWERS(strm_mt_open(NULL, &empty), STRM_NOT_OPEN);
	ANSWERS(strm_mt_open(&other, NULL), STRM_BAD_ARGUMENT);
	ANSWERS(strm_mt_open(&other, &empty), STRM_BAD_CLASSES);
	CHECK(other == mt);
	ANSWERS(strm_mt_close(NULL), STRM_NOT_OPEN);
	CHECK(strm_mt_lock(NULL) == NULL && strm_mt_rdlock(NULL) == NULL);
	ANSWERS(strm_mt_send(NULL, WIDE, msg, &now), STRM_NOT_OPEN);
	ANSWERS(strm_mt_send(mt, QUEUES, none, &now), STRM_INVALID);
	ANSWERS(strm_mt_send(mt, QUEUES, msg, &now), STRM_NO_SUCH_QUEUE);
	ANSWERS(strm_mt_send(mt, STRM_MOST_QUEUES, msg, NULL), STRM_NO_SUCH_QUEUE);
	ANSWERS(strm_mt_send(mt, WIDE, none, &now), STRM_INVALID);
	ANSWERS(strm_mt_send_n(NULL, WIDE, &msg, 1, &now, &count), STRM_NOT_OPEN);
	ANSWERS(strm_mt_send_n(mt, WIDE, NULL, 1, &now, &count), STRM_BAD_ARGUMENT);
	ANSWERS(strm_mt_send_n(mt, WIDE, &msg, 1, &now, NULL), STRM_BAD_ARGUMENT);
	ANSWERS(strm_mt_send_n(mt, WIDE, &msg, (size_t)-1, &now, &count), STRM_BAD_ARGUMENT);
	ANSWERS(strm_mt_receive(NULL, WIDE, &msg, &now), STRM_NOT_OPEN);
	ANSWERS(strm_mt_receive(mt, WIDE, NULL, &now), STRM_BAD_ARGUMENT);
	ANSWERS(strm_mt_receive(mt, QUEUES, &msg, NULL), STRM_NO_SUCH_QUEUE);
	ANSWERS(strm_mt_receive(mt, STRM_NO_QUEUE, &msg, NULL), STRM_NO_SUCH_QUEUE);
	ANSWERS(strm_mt_receive_n(NULL, WIDE, msgs, 2, &now, &count), STRM_NOT_OPEN);
	ANSWERS(strm_mt_receive_n(mt, WIDE, NULL, 2, &now, &count), STRM_BAD_ARGUMENT);
	ANSWERS(strm_mt_receive_n(mt, WIDE, msgs, 2, &now, NULL), STRM_BAD_ARGUMENT);
	ANSWERS(strm_mt_alloc(NULL, 1, &msg, &now), STRM_NOT_OPEN);
	ANSWERS(strm_mt_alloc(mt, 1, NULL, &now), STRM_BAD_ARGUMENT);
	ANSWERS(strm_mt_alloc(mt, 65, &msg, NULL), STRM_TOO_LARGE);
	ANSWERS(strm_mt_shut(NULL, WIDE), STRM_NOT_OPEN);
	ANSWERS(strm_mt_shut(mt, QUEUES), STRM_NO_SUCH_QUEUE);
	ANSWERS(strm_mt_waiting(NULL, WIDE, &calls), STRM_NOT_OPEN);
	ANSWERS(strm_mt_waiting(mt, WIDE, NULL), STRM_BAD_ARGUMENT);
	ANSWERS(strm_mt_waiting(mt, QUEUES, &calls), STRM_NO_SUCH_QUEUE);
	ANSWERS(strm_mt_fd(NULL, WIDE, STRM_MT_READABLE, 0, &fd), STRM_NOT_OPEN);
	ANSWERS(strm_mt_fd(mt, WIDE, STRM_MT_READABLE, 0, NULL), STRM_BAD_ARGUMENT);
	ANSWERS(strm_mt_fd(mt, WIDE, 2, 0, &fd), STRM_BAD_ARGUMENT);
	ANSWERS(strm_mt_fd(mt, WIDE, STRM_MT_WRITABLE, STRM_BANDS, &fd), STRM_BAD_ARGUMENT);
	ANSWERS(strm_mt_fd(mt, QUEUES, STRM_MT_WRITABLE, 0, &fd), STRM_NO_SUCH_QUEUE);
	ANSWERS(strm_mt_send_n(mt, WIDE, NULL, 0, NULL, &count), STRM_OK);
	CHECK(count == 0);
	count = 7;
	ANSWERS(strm_mt_receive_n(mt, WIDE, NULL, 0, NULL, &count), STRM_OK);
	CHECK(count == 0);
	CHECK(is(msg, "a"));
	CHECK(strcmp(strm_mt_error(STRM_MT_TIMED_OUT), "the deadline has passed") == 0);
	CHECK(strcmp(strm_mt_error(STRM_MT_CLOSED), "the queue is shut") == 0);
	CHECK(strcmp(strm_mt_error(STRM_MT_NO_FD), "the system gives no file descriptor") == 0);
	CHECK(strcmp(strm_mt_error(STRM_NO_SUCH_QUEUE), "there is no such queue") == 0);
}

/* A call that waits ends when its deadline has passed, and not before. One that is no time is refused, even if the call need not wait. */
static void check_deadlines(void)
{
	static const struct timespec wrong[] = { { 1, 1000000000 }, { 1, 2000000000 }, { 0, -1 } }, before = { -1, 0 };
	struct strm_msg msg = made(0, "b"), got;
	struct timespec at = after(30), late = after(5000);
	size_t count = 7;
	int number;

	send_now(NARROW, 0, "a");
	for (number = 0; number < 3; number++) {
		ANSWERS(strm_mt_send(mt, WIDE, msg, &wrong[number]), STRM_BAD_ARGUMENT);
		ANSWERS(strm_mt_send_n(mt, WIDE, &msg, 1, &wrong[number], &count), STRM_BAD_ARGUMENT);
		ANSWERS(strm_mt_receive(mt, NARROW, &got, &wrong[number]), STRM_BAD_ARGUMENT);
		ANSWERS(strm_mt_receive_n(mt, NARROW, &got, 1, &wrong[number], &count), STRM_BAD_ARGUMENT);
		ANSWERS(strm_mt_alloc(mt, 1, &got, &wrong[number]), STRM_BAD_ARGUMENT);
	}
	CHECK(count == 7 && brings(NARROW, "a"));
	ANSWERS(strm_mt_send_n(mt, WIDE, NULL, 0, &wrong[0], &count), STRM_OK);
	CHECK(count == 0);
	ANSWERS(strm_mt_receive(mt, NARROW, &got, &before), STRM_MT_TIMED_OUT);
	ANSWERS(strm_mt_receive(mt, NARROW, &got, &at), STRM_MT_TIMED_OUT);
	CHECK(has_passed(at));
	send_now(NARROW, 0, "a");
	at = after(30);
	ANSWERS(strm_mt_send(mt, NARROW, msg, &at), STRM_MT_TIMED_OUT);
	CHECK(has_passed(at));
	ANSWERS(strm_mt_send(mt, NARROW, msg, &now), STRM_MT_TIMED_OUT);
	CHECK(!has_passed(late));
	CHECK(is(msg, "b"));
	CHECK(brings(NARROW, "a") && is_empty(NARROW));
}

/* A message wakes the call that waits for it, and no other. */
static void check_receiving(void)
{
	struct task narrow, wide, later;

	receiver(&narrow, NARROW);
	receiver(&wide, WIDE);
	receiver(&later, WIDE);
	send_now(WIDE, 0, "w");
	ANSWERS(code_of(&wide), STRM_OK);
	CHECK(come_to_wait(WIDE, 1) && come_to_wait(NARROW, 1));
	send_now(NARROW, 0, "n");
	ANSWERS(code_of(&narrow), STRM_OK);
	send_now(WIDE, 1, "l");
	ANSWERS(code_of(&later), STRM_OK);
	CHECK(is(wide.msgs[0], "w") && is(narrow.msgs[0], "n") && is(later.msgs[0], "l"));
}

/* A full band holds back its own senders alone, and lets them go on in the order in which they came. */
static void check_sending(void)
{
	static const char *const bytes[] = { "1", "2", "3", "4" };
	struct task tasks[4], another;
	struct strm_msg high = made(0, "h");
	int at;

	ANSWERS(strm_settype(strm_mt_lock(mt), high, 0, STRM_M_PCPROTO), STRM_OK);
	strm_mt_unlock(mt);
	send_now(NARROW, 0, "0");
	for (at = 0; at < 4; at++)
		sender(&tasks[at], NARROW, made(0, bytes[at]));
	send_now(NARROW, 2, "x");
	sender(&another, NARROW, made(2, "y"));
	send_now(WIDE, 0, "w");
	ANSWERS(strm_mt_send(mt, NARROW, high, NULL), STRM_OK);
	CHECK(come_to_wait(NARROW, 5));
	CHECK(brings(NARROW, "h") && brings(NARROW, "x"));
	ANSWERS(code_of(&another), STRM_OK);
	CHECK(brings(NARROW, "y"));
	for (at = 0; at < 4; at++) {
		CHECK(brings(NARROW, at == 0 ? "0" : bytes[at - 1]));
		ANSWERS(code_of(&tasks[at]), STRM_OK);
	}
	CHECK(brings(NARROW, "4") && is_empty(NARROW) && brings(WIDE, "w"));
}

/* Takes messages off under one lock, so that all that wait are served together. */
static void take_together(int count)
{
	struct strm_pool *pool = strm_mt_lock(mt);
	struct strm_msg msg;

	while (count-- > 0) {
		ANSWERS(strm_getq(pool, NARROW, &msg), STRM_OK);
		ANSWERS(strm_freemsg(pool, msg), STRM_OK);
	}
	strm_mt_unlock(mt);
}

static void check_bursts(void)
{
	struct task burst = { .kind = SEND, .queue = WIDE, .length = 6 }, taker = { .kind = RECEIVE, .queue = WIDE, .length = 3 }, single;
	struct task mixed = { .kind = SEND, .queue = NARROW, .length = 3 };
	struct strm_msg msgs[MOST] = { STRM_NO_MSG };
	struct strm_pool *pool;
	struct timespec at = after(30);
	size_t count = 0;
	int number;

	/* Those of another sender do not come between. */
	for (number = 0; number < 6; number++)
		burst.msgs[number] = made(0, number == 0 ? "ab" : "cd");
	begin(&burst);
	sender(&single, WIDE, made(0, "e"));
	CHECK(brings(WIDE, "ab"));
	for (number = 0; number < 5; number++)
		CHECK(brings(WIDE, "cd"));
	ANSWERS(code_of(&burst), STRM_OK);
	CHECK(burst.count == 6);
	ANSWERS(code_of(&single), STRM_OK);
	CHECK(brings(WIDE, "e") && is_empty(WIDE));
	/* What was sent before the deadline, or before a name that is not valid, counts. */
	for (number = 0; number < 3; number++)
		msgs[number] = made(0, "abc");
	ANSWERS(strm_mt_send_n(mt, WIDE, msgs, 3, &at, &count), STRM_OK);
	CHECK(count == 2 && has_passed(at));
	count = 7;
	ANSWERS(strm_mt_send_n(mt, WIDE, msgs + 2, 1, &now, &count), STRM_MT_TIMED_OUT);
	CHECK(count == 7 && is(msgs[2], "abc"));
	ANSWERS(strm_mt_receive_n(mt, WIDE, msgs, 1, &now, &count), STRM_OK);
	CHECK(count == 1 && is(msgs[0], "abc"));
	ANSWERS(strm_mt_receive_n(mt, WIDE, msgs, MOST, &now, &count), STRM_OK);
	CHECK(count == 1 && is(msgs[0], "abc"));
	ANSWERS(strm_mt_receive_n(mt, WIDE, msgs, MOST, &now, &count), STRM_MT_TIMED_OUT);
	msgs[0] = made(0, "a");
	msgs[1] = STRM_NO_MSG;
	ANSWERS(strm_mt_send_n(mt, WIDE, msgs, 2, NULL, &count), STRM_OK);
	CHECK(count == 1 && brings(WIDE, "a"));
	/* A call that receives several does not wait for all. */
	begin(&taker);
	send_now(WIDE, 0, "a");
	ANSWERS(code_of(&taker), STRM_OK);
	CHECK(taker.count == 1 && is(taker.msgs[0], "a"));
	/* A burst overtakes nobody in the second of its bands. */
	send_now(NARROW, 5, "5");
	send_now(NARROW, 3, "3");
	mixed.msgs[0] = made(5, "f");
	mixed.msgs[1] = made(3, "g");
	mixed.msgs[2] = made(5, "h");
	begin(&mixed);
	sender(&single, NARROW, made(3, "e"));
	take_together(2);
	ANSWERS(code_of(&single), STRM_OK);
	CHECK(brings(NARROW, "f") && brings(NARROW, "e") && brings(NARROW, "h") && brings(NARROW, "g"));
	ANSWERS(code_of(&mixed), STRM_OK);
	CHECK(mixed.count == 3 && is_empty(NARROW));
	/* While it waits in its second band, others send in its first. */
	send_now(NARROW, 3, "3");
	mixed.msgs[0] = made(5, "f");
	mixed.msgs[1] = made(3, "g");
	mixed.msgs[2] = made(5, "h");
	mixed.count = 0;
	begin(&mixed);
	CHECK(brings(NARROW, "f"));
	send_now(NARROW, 5, "e");
	CHECK(brings(NARROW, "e") && brings(NARROW, "3"));
	ANSWERS(code_of(&mixed), STRM_OK);
	CHECK(mixed.count == 3 && brings(NARROW, "h") && brings(NARROW, "g") && is_empty(NARROW));
	/* A thread that has the lock waits for no call. */
	send_now(NARROW, 0, "0");
	sender(&single, NARROW, made(0, "e"));
	msgs[0] = made(0, "l");
	pool = strm_mt_lock(mt);
	ANSWERS(strm_getq(pool, NARROW, &msgs[1]), STRM_OK);
	ANSWERS(strm_putq(pool, NARROW, msgs[0]), STRM_OK);
	strm_mt_unlock(mt);
	CHECK(is(msgs[1], "0") && brings(NARROW, "l"));
	ANSWERS(code_of(&single), STRM_OK);
	CHECK(brings(NARROW, "e") && is_empty(NARROW));
}

static void check_allocating(void)
{
	struct task large = { .kind = ALLOCATE, .size = 60, .length = 1 }, small = { .kind = ALLOCATE, .size = 1, .length = 1 };
	struct task second = small;
	struct strm_msg msgs[MBLKS], msg;
	struct timespec at = after(30);
	int number;

	for (number = 0; number < MBLKS; number++)
		ANSWERS(strm_mt_alloc(mt, 1, &msgs[number], NULL), STRM_OK);
	ANSWERS(strm_mt_alloc(mt, 1, &msg, &now), STRM_MT_TIMED_OUT);
	ANSWERS(strm_mt_alloc(mt, 1, &msg, &at), STRM_MT_TIMED_OUT);
	CHECK(has_passed(at));
	begin(&large);
	begin(&small);
	begin(&second);
	/* Small blocks go to those that they fit, first come, first served. */
	freed(msgs[0]);
	ANSWERS(code_of(&small), STRM_OK);
	CHECK(come_to_wait(STRM_NO_QUEUE, 2));
	freed(msgs[1]);
	ANSWERS(code_of(&second), STRM_OK);
	CHECK(come_to_wait(STRM_NO_QUEUE, 1));
	freed(msgs[MBLKS - 1]);
	ANSWERS(code_of(&large), STRM_OK);
	for (number = 2; number < MBLKS - 1; number++)
		freed(msgs[number]);
	CHECK(is(large.msgs[0], "") && is(small.msgs[0], "") && is(second.msgs[0], ""));
}

static void check_shutting(void)
{
	struct task receivers[2], senders[2], allocates = { .kind = ALLOCATE, .size = 60, .length = 1 };
	struct task burst = { .kind = SEND, .queue = NARROW, .length = 2 };
	struct strm_msg msg, large;
	int at;


	for (at = 0; at < 2; at++)
		receiver(&receivers[at], WIDE);
	send_now(NARROW, 0, "0");
	for (at = 0; at < 2; at++)
		sender(&senders[at], NARROW, made(0, "s"));
	burst.msgs[0] = made(1, "sent");
	burst.msgs[1] = made(1, "more");
	begin(&burst);
	ANSWERS(strm_mt_shut(mt, WIDE), STRM_OK);
	for (at = 0; at < 2; at++)
		ANSWERS(code_of(&receivers[at]), STRM_MT_CLOSED);
	ANSWERS(strm_mt_receive(mt, WIDE, &msg, NULL), STRM_MT_CLOSED);
	CHECK(come_to_wait(NARROW, 3));
	ANSWERS(strm_mt_alloc(mt, 60, &large, NULL), STRM_OK);
	begin(&allocates);
	ANSWERS(strm_mt_shut(mt, NARROW), STRM_OK);
	CHECK(come_to_wait(NARROW, 0) && come_to_wait(STRM_NO_QUEUE, 1));
	ANSWERS(strm_mt_alloc(mt, 60, &msg, &now), STRM_MT_TIMED_OUT);
	ANSWERS(strm_mt_shut(mt, STRM_NO_QUEUE), STRM_OK);
	ANSWERS(code_of(&allocates), STRM_MT_CLOSED);
	ANSWERS(strm_mt_alloc(mt, 60, &msg, &now), STRM_MT_CLOSED);
	for (at = 0; at < 2; at++) {
		ANSWERS(code_of(&senders[at]), STRM_MT_CLOSED);
		CHECK(is(senders[at].msgs[0], "s"));
	}
	/* A call that has sent some of its messages says so. */
	ANSWERS(code_of(&burst), STRM_OK);
	CHECK(burst.count == 1 && is(burst.msgs[1], "more") && brings(NARROW, "sent"));
	/* What is on the queue can still be received. */
	msg = made(0, "x");
	ANSWERS(strm_settype(strm_mt_lock(mt), msg, 0, STRM_M_PCPROTO), STRM_OK);
	strm_mt_unlock(mt);
	ANSWERS(strm_mt_send(mt, NARROW, msg, NULL), STRM_MT_CLOSED);
	CHECK(brings(NARROW, "0") && is(msg, "x") && is(large, ""));
	ANSWERS(strm_mt_receive(mt, NARROW, &msg, NULL), STRM_MT_CLOSED);
	ANSWERS(strm_mt_alloc(mt, 1, &msg, NULL), STRM_OK);
	freed(msg);
}

/* ---- descriptors */

static int is_readable(int fd)
{
	struct pollfd look = { fd, POLLIN, 0 };

	return poll(&look, 1, 0) == 1;
}

static int fd_of(uint32_t queue, uint32_t what, uint32_t band)
{
	int fd = -1;

	ANSWERS(strm_mt_fd(mt, queue, what, band, &fd), STRM_OK);
	return fd;
}

static void check_descriptors(void)
{
	int message = fd_of(NARROW, STRM_MT_READABLE, 0), room = fd_of(NARROW, STRM_MT_WRITABLE, 0);
	int other_room = fd_of(NARROW, STRM_MT_WRITABLE, 1), wide = fd_of(WIDE, STRM_MT_READABLE, 999), round;
	struct task task;
	struct rlimit limit, none;
	struct strm_pool *pool;
	struct strm_msg msg;

	CHECK(message == fd_of(NARROW, STRM_MT_READABLE, 7) && wide != message && room != other_room);
	for (round = 0; round < 3; round++) {
		CHECK(!is_readable(message) && is_readable(room) && is_readable(other_room));
		send_now(NARROW, 0, "a");
		CHECK(is_readable(message) && !is_readable(room) && is_readable(other_room) && !is_readable(wide));
		send_now(NARROW, 1, "b");
		CHECK(is_readable(message) && !is_readable(room) && !is_readable(other_room));
		CHECK(brings(NARROW, "b"));
		CHECK(is_readable(message) && !is_readable(room) && is_readable(other_room));
		sender(&task, NARROW, made(0, "c"));
		CHECK(brings(NARROW, "a"));
		ANSWERS(code_of(&task), STRM_OK);
		CHECK(is_readable(message) && !is_readable(room));
		CHECK(brings(NARROW, "c"));
		/* A message that a waiting call takes at once makes nothing readable. */
		receiver(&task, NARROW);
		send_now(NARROW, 0, "d");
		ANSWERS(code_of(&task), STRM_OK);
		CHECK(is(task.msgs[0], "d"));
	}
	/* While a thread has the lock, they stay as they were. */
	msg = made(0, "a");
	pool = strm_mt_lock(mt);
	CHECK(!is_readable(message) && is_readable(room));
	ANSWERS(strm_putq(pool, NARROW, msg), STRM_OK);
	CHECK(!is_readable(message) && is_readable(room));
	strm_mt_unlock(mt);
	CHECK(is_readable(message) && !is_readable(room));
	strm_mt_rdlock(mt);
	CHECK(is_readable(message) && !is_readable(room));
	strm_mt_rdunlock(mt);
	pool = strm_mt_lock(mt);
	ANSWERS(strm_getq(pool, NARROW, &msg), STRM_OK);
	ANSWERS(strm_freemsg(pool, msg), STRM_OK);
	CHECK(is_readable(message) && !is_readable(room));
	strm_mt_unlock(mt);
	CHECK(!is_readable(message) && is_readable(room));
	getrlimit(RLIMIT_NOFILE, &limit);
	none = limit;
	none.rlim_cur = 0;
	setrlimit(RLIMIT_NOFILE, &none);
	ANSWERS(strm_mt_fd(mt, WIDE, STRM_MT_WRITABLE, 9, &round), STRM_MT_NO_FD);
	setrlimit(RLIMIT_NOFILE, &limit);
	ANSWERS(strm_mt_shut(mt, NARROW), STRM_OK);
	CHECK(is_readable(message) && is_readable(room) && !is_readable(wide));
}

/* ---- cancelled threads, signals and readers */

static void cancel(struct task *task)
{
	void *result = NULL;

	pthread_cancel(task->thread);
	CHECK(pthread_join(task->thread, &result) == 0 && result == PTHREAD_CANCELED);
}

/* A cancelled call leaves its line, and what was for it is there for others. */
static void check_cancelling(void)
{
	struct task task, later, allocates = { .kind = ALLOCATE, .size = 60, .length = 1 };
	struct strm_msg large;
	uint32_t yes = 0;
	int round;
	void *result;

	receiver(&task, NARROW);
	receiver(&later, NARROW);
	cancel(&task);
	send_now(NARROW, 0, "a");
	ANSWERS(code_of(&later), STRM_OK);
	CHECK(is(later.msgs[0], "a"));
	send_now(NARROW, 0, "a");
	sender(&task, NARROW, made(0, "b"));
	sender(&later, NARROW, made(0, "c"));
	cancel(&task);
	CHECK(brings(NARROW, "a"));
	ANSWERS(code_of(&later), STRM_OK);
	CHECK(brings(NARROW, "c"));
	ANSWERS(strm_has(strm_mt_rdlock(mt), task.msgs[0], &yes), STRM_OK);
	strm_mt_rdunlock(mt);
	CHECK(yes && is(task.msgs[0], "b"));
	ANSWERS(strm_mt_alloc(mt, 60, &large, NULL), STRM_OK);
	cancel(begin(&allocates));
	freed(large);
	/* A call that is served while its thread is cancelled either returns, or puts the message back. */
	for (round = 0; round < 100; round++) {
		struct strm_msg msg = made(0, "r");
		struct strm_pool *pool;

		task = (struct task){ .kind = RECEIVE, .queue = WIDE, .length = 1 + round % 2 * 2 };
		begin(&task);
		pool = strm_mt_lock(mt);
		if (round % 4 < 2)
			pthread_cancel(task.thread);
		ANSWERS(strm_putq(pool, WIDE, msg), STRM_OK);
		strm_mt_unlock(mt);
		if (round % 4 >= 2)
			pthread_cancel(task.thread);
		pthread_join(task.thread, &result);
		CHECK(result == PTHREAD_CANCELED ? brings(WIDE, "r") : is(task.msgs[0], "r"));
	}
	CHECK(is_empty(WIDE));
}

static void ignore(int signal)
{
	(void)signal;
}

/* A call waits on after a signal. */
static void check_signals(void)
{
	struct sigaction action = { .sa_handler = ignore };
	struct timespec at = after(10000);
	struct task tasks[2];
	int round;

	sigaction(SIGUSR1, &action, NULL);
	receiver(&tasks[0], WIDE);
	tasks[1] = (struct task){ .kind = RECEIVE, .queue = WIDE, .length = 1, .deadline = &at };
	begin(&tasks[1]);
	for (round = 0; round < 20; round++) {
		pthread_kill(tasks[round % 2].thread, SIGUSR1);
		usleep(500);
	}
	CHECK(come_to_wait(WIDE, 2));
	for (round = 0; round < 2; round++) {
		send_now(WIDE, 0, "a");
		ANSWERS(code_of(&tasks[round]), STRM_OK);
		CHECK(is(tasks[round].msgs[0], "a"));
	}
}

static pthread_barrier_t both_look;
static volatile uint32_t changes;
static int lookers;

static void *look_together(void *given)
{
	int round;

	for (round = 0; round < 200; round++) {
		strm_mt_rdlock(mt);
		pthread_barrier_wait(&both_look);
		strm_mt_rdunlock(mt);
	}
	return given;
}

/* Returns null if another thread changed something between two looks under the same lock. */
static void *look_beside_changes(void *given)
{
	uint32_t first;
	int round;

	for (round = 0; round < 100; round++) {
		strm_mt_rdlock(mt);
		first = changes;
		usleep(100);
		if (changes != first || changes % 2 != 0)
			given = NULL;
		strm_mt_rdunlock(mt);
	}
	__atomic_fetch_sub(&lookers, 1, __ATOMIC_RELEASE);
	return given;
}

/* Two threads look at the same time, and none beside one that changes. */
static void check_readers(void)
{
	pthread_t threads[2];
	void *result;
	int at;

	pthread_barrier_init(&both_look, NULL, 2);
	for (at = 0; at < 2; at++)
		CHECK(pthread_create(&threads[at], NULL, look_together, mt) == 0);
	for (at = 0; at < 2; at++)
		CHECK(pthread_join(threads[at], &result) == 0);
	pthread_barrier_destroy(&both_look);
	lookers = 2;
	for (at = 0; at < 2; at++)
		CHECK(pthread_create(&threads[at], NULL, look_beside_changes, mt) == 0);
	while (__atomic_load_n(&lookers, __ATOMIC_ACQUIRE) != 0) {
		strm_mt_lock(mt);
		changes++;
		sched_yield();
		changes++;
		strm_mt_unlock(mt);
		usleep(10);
	}
	for (at = 0; at < 2; at++)
		CHECK(pthread_join(threads[at], &result) == 0 && result != NULL);
}

/* ---- forks and system calls */

/* Does some work in a child of a fork. Returns whether the child ends with no check that failed. */
static int child_does(void (*work)(void))
{
	int status = -1;
	pid_t child;

	fflush(stdout);
	child = fork();
	if (child == 0) {
		work();
		status = summary();
		fflush(stdout);
		_exit(status);
	}
	return child > 0 && waitpid(child, &status, 0) == child && WIFEXITED(status) && WEXITSTATUS(status) == 0;
}

/* Uses the pool and closes it, or is ended by SIGALRM. */
static void use_after_fork(void)
{
	alarm((unsigned)(4 * patience));
	strm_mt_unlock(mt);
	CHECK(brings(WIDE, "a"));
	check_receiving();
	check_sending();
	check_descriptors();
	close_pool();
}

/* Forks under the lock. From then on the child alone uses the pool, also by threads. */
static void leave_to_child(void)
{
	open_pool();
	send_now(WIDE, 0, "a");
	strm_mt_lock(mt);
	CHECK(child_does(use_after_fork));
}

static char descriptor[32];

/* Executes a program that ends well if it does not have the descriptor. */
static void execute(void)
{
	execl("/usr/bin/test", "test", "!", "-e", descriptor, (char *)NULL);
	_exit(2);
}

/* The child of a process without threads may use the pool. A fork beside threads changes nothing for these, nor for descriptors. */
static void check_forks(void)
{
	struct task task;
	int fd = fd_of(WIDE, STRM_MT_READABLE, 0);

	CHECK(child_does(leave_to_child));
	snprintf(descriptor, sizeof descriptor, "/proc/self/fd/%d", fd);
	send_now(WIDE, 0, "a");
	receiver(&task, NARROW);
	CHECK(child_does(execute));
	CHECK(come_to_wait(NARROW, 1) && is_readable(fd));
	CHECK(brings(WIDE, "a") && !is_readable(fd));
	send_now(NARROW, 0, "b");
	ANSWERS(code_of(&task), STRM_OK);
	CHECK(is(task.msgs[0], "b"));
}

/* Sends and receives a message many times, and ends the process. A system call but this last one ends it by SIGKILL. */
static void without_system_calls(void)
{
	struct strm_msg msg;
	size_t count = 0;
	int round, code = 0;

	open_pool();
	msg = made(0, "a");
	if (prctl(PR_SET_SECCOMP, SECCOMP_MODE_STRICT) != 0)
		_exit(2);
	for (round = 0; round < 1000; round++) {
		code |= strm_mt_send(mt, WIDE, msg, NULL);
		code |= strm_mt_receive_n(mt, WIDE, &msg, 1, NULL, &count);
		code |= strm_mt_receive(mt, NARROW, &msg, &now) != STRM_MT_TIMED_OUT;
		strm_mt_rdlock(mt);
		strm_mt_rdunlock(mt);
		code |= strm_freemsg(strm_mt_lock(mt), msg);
		strm_mt_unlock(mt);
		code |= strm_mt_alloc(mt, 1, &msg, NULL);
	}
	syscall(SYS_exit, code != 0);
}

/* Where nobody waits, no call makes a system call. Sanitizers make some of their own. */
static void check_system_calls(void)
{
	CHECK(child_does(without_system_calls));
}

int main(int count, char **words)
{
	static void (*const checks[])(void) = { check_lock, check_codes, check_deadlines, check_receiving, check_sending, check_bursts,
		check_allocating, check_shutting, check_descriptors, check_cancelling, check_signals, check_readers, check_forks,
		check_system_calls };
	size_t at, last = sizeof checks / sizeof *checks;

	if (count > 1)
		patience = atoi(words[1]);
	for (at = 0; at < last - (count > 2); at++) {
		open_pool();
		checks[at]();
		close_pool();
	}
	return summary();
}
