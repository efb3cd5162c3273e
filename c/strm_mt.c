/*
 * Tested, not proved: the calls of strm_mt.h, over those of strm.h and of pthreads.
 *
 * A call that has to wait stands in a line, as a struct on its thread's stack. Who unlocks the pool serves the lines: this does the work of each
 * call that can go on, and posts the call's semaphore once the lock is free. So a call that was served has its result, whatever other threads
 * do before its own runs. A call whose deadline has passed, or whose thread is cancelled, leaves its line under the lock. If it was served
 * meanwhile, it takes the post, which is sure to come.
 */
#define _GNU_SOURCE
#include "strm_mt.h"

#include <errno.h>
#include <linux/futex.h>
#include <pthread.h>
#include <semaphore.h>
#include <stdlib.h>
#include <sys/eventfd.h>
#include <sys/syscall.h>
#include <time.h>
#include <unistd.h>

enum { RECEIVE, SEND, ALLOCATE };			/* what calls do */
enum { BEGUN, STANDING, SERVED, POSTED };		/* how far they are */
enum { FREE, HELD, SOUGHT };				/* the mutex; SOUGHT is held, and others may sleep until it is free */

/* How often a thread looks whether the mutex is free before it sleeps. Calls hold it for a moment only. */
#define LOOKS 100

/* One line for each queue of calls that receive, and of calls that send; the last line is of calls that allocate. */
#define LINES (ALLOCATE * STRM_MOST_QUEUES + 1)

/* Set in `waiting` if there are descriptors. */
#define WATCHED ((uint64_t)1 << LINES)

/* Set in `readers` while a thread that locks waits until there are none. */
#define AWAITED 0x80000000u

#define NOTHING 0xFFFFFFFFu

/* Marks what a call does only where others wait. It stays out of line, so that the rest takes fewer instructions. */
#define SELDOM __attribute__((noinline))

struct call {
	struct strm_mt *mt;
	uint32_t kind, queue;
	uint32_t wanted;			/* the band to send in, or the bytes to allocate */
	const struct strm_msg *from;		/* the messages to send */
	struct strm_msg *into;			/* where messages come */
	size_t length, count;			/* how many at most, and how many so far */
	struct call *previous, *next;		/* in the line; `next` is later the next one to wake */
	int code;				/* the result, once it was served */
	int state;				/* POSTED is set without the lock */
	sem_t post;
};

struct line {
	struct call *first, *last;
};

/* A descriptor of strm_mt_fd. */
struct watch {
	struct watch *next;
	uint32_t queue, what, band;
	int fd, is_ready;
};

struct strm_mt {
	struct strm_pool pool;
	uint32_t mutex;
	uint64_t waiting;			/* a bit for each line, set if a call stands there, and WATCHED: 0 if nobody waits */
	struct watch *watches;
	uint32_t readers;			/* the threads that look, and AWAITED */
	sem_t no_readers;
	uint32_t queues;
	int shut[STRM_MOST_QUEUES], all_shut;
	struct line lines[LINES];
};

/* ---- lines */

static uint32_t line_of(const struct call *call)
{
	return call->kind * STRM_MOST_QUEUES + call->queue;
}

/* Puts a call last in its line, or if it sends, after those of its band and of greater ones. */
static void stand(struct call *call)
{
	struct line *line = &call->mt->lines[line_of(call)];
	struct call *before = line->last;

	while (call->kind == SEND && before != NULL && before->wanted < call->wanted)
		before = before->previous;
	call->previous = before;
	call->next = before != NULL ? before->next : line->first;
	*(call->previous != NULL ? &call->previous->next : &line->first) = call;
	*(call->next != NULL ? &call->next->previous : &line->last) = call;
	call->mt->waiting |= (uint64_t)1 << line_of(call);
	call->state = STANDING;
}

static void leave(struct call *call)
{
	struct line *line = &call->mt->lines[line_of(call)];

	*(call->previous != NULL ? &call->previous->next : &line->first) = call->next;
	*(call->next != NULL ? &call->next->previous : &line->last) = call->previous;
	if (line->first == NULL)
		call->mt->waiting &= ~((uint64_t)1 << line_of(call));
}

/* ---- what calls do, as far as they can: STRM_MT_TIMED_OUT if they would have to wait */

/*
 * Sends a message. *wanted is the band of the line in which its call stands, or NOTHING, and becomes that of the message. A call that comes to a
 * message of another band stands in the line of that first, since others may wait there.
 */
static inline int send_one(struct strm_mt *mt, uint32_t queue, struct strm_msg msg, uint32_t *wanted)
{
	struct strm_queued like;
	uint32_t yes = 1;
	int code = queue < mt->queues ? strm_message(&mt->pool, msg, &like) : strm_putq(&mt->pool, queue, msg);

	if (code != STRM_OK)
		return code;
	if (mt->shut[queue])
		return STRM_MT_CLOSED;
	if (like.type < STRM_M_IOCACK) {
		yes = *wanted == NOTHING || *wanted == like.band;
		*wanted = like.band;
		if (yes)
			strm_bcanput(&mt->pool, queue, like.band, &yes);
	}
	return yes ? strm_putq(&mt->pool, queue, msg) : STRM_MT_TIMED_OUT;
}

static int send_all(struct strm_mt *mt, struct call *call)
{
	int code = STRM_OK;

	while (call->count < call->length && code == STRM_OK) {
		if (call->state == BEGUN)
			call->wanted = NOTHING;
		code = send_one(mt, call->queue, call->from[call->count], &call->wanted);
		call->count += code == STRM_OK;
	}
	return code;
}

/* What receiving returns, by what strm.h does. */
static int received(const struct strm_mt *mt, uint32_t queue, int code)
{
	if (code == STRM_NONE)
		return mt->shut[queue] ? STRM_MT_CLOSED : STRM_MT_TIMED_OUT;
	return code;
}

static int receive_all(struct strm_mt *mt, struct call *call)
{
	return received(mt, call->queue, strm_getq_n(&mt->pool, call->queue, call->into, call->length, &call->count));
}

static int allocate(struct strm_mt *mt, uint32_t size, struct strm_msg *msg)
{
	int code = strm_allocb(&mt->pool, size, msg);

	if (code == STRM_NO_MBLK || code == STRM_NO_DATA)
		return mt->all_shut ? STRM_MT_CLOSED : STRM_MT_TIMED_OUT;
	return code;
}

static int go_on(struct strm_mt *mt, struct call *call)
{
	int code;

	if (call->kind != ALLOCATE)
		return call->kind == SEND ? send_all(mt, call) : receive_all(mt, call);
	code = allocate(mt, call->wanted, call->into);
	call->count = code == STRM_OK;
	return code;
}

/* ---- serving */

/*
 * Serves a line from its first call on. Of calls that want the same and stand together, none is asked after one that was refused. Those that have
 * their results are appended at **end. Returns whether any call went on.
 */
static int serve_line(struct strm_mt *mt, struct line *line, struct call ***end)
{
	struct call *call, *next;
	uint32_t wanted, refused = NOTHING;
	size_t count;
	int code, moved = 0;

	for (call = line->first; call != NULL; call = next) {
		next = call->next;
		wanted = call->wanted;
		if (wanted == refused)
			continue;
		count = call->count;
		code = go_on(mt, call);
		moved |= code != STRM_MT_TIMED_OUT || call->count != count || call->wanted != wanted;
		if (code == STRM_MT_TIMED_OUT && call->wanted == wanted) {
			refused = wanted;
			continue;
		}
		leave(call);
		if (code == STRM_MT_TIMED_OUT) {
			stand(call);
			continue;
		}
		call->code = code;
		call->state = SERVED;
		call->next = NULL;
		**end = call;
		*end = &call->next;
	}
	return moved;
}

/* Whether what a descriptor is for would not wait. */
static int is_ready(struct strm_mt *mt, const struct watch *watch)
{
	uint32_t found = 0;

	if (mt->shut[watch->queue])
		return 1;
	if (watch->what == STRM_MT_READABLE)
		strm_qsize(&mt->pool, watch->queue, &found);
	else
		strm_bcanput(&mt->pool, watch->queue, watch->band, &found);
	return found != 0;
}

/* Makes a descriptor readable or not. This must be no cancellation point, since the thread has the lock. */
static void set_ready(struct watch *watch, int is_ready)
{
	eventfd_t value = 1;
	int state;

	pthread_setcancelstate(PTHREAD_CANCEL_DISABLE, &state);
	if (is_ready)
		eventfd_write(watch->fd, value);
	else
		eventfd_read(watch->fd, &value);
	watch->is_ready = is_ready;
	pthread_setcancelstate(state, NULL);
}

/* Serves all lines until no call can go on, and then sets the descriptors. Returns the calls that have their results. */
static struct call *serve(struct strm_mt *mt)
{
	struct call *served = NULL, **end = &served;
	struct watch *watch;
	uint64_t left;
	int moved;

	do {
		moved = 0;
		for (left = mt->waiting & (WATCHED - 1); left != 0; left &= left - 1)
			moved |= serve_line(mt, &mt->lines[__builtin_ctzll(left)], &end);
	} while (moved);
	for (watch = mt->watches; watch != NULL; watch = watch->next)
		if (is_ready(mt, watch) != watch->is_ready)
			set_ready(watch, !watch->is_ready);
	return served;
}

/* ---- the lock */

/* Waits for a post. This is no cancellation point. */
static void await(sem_t *post)
{
	int state;

	pthread_setcancelstate(PTHREAD_CANCEL_DISABLE, &state);
	while (sem_wait(post) != 0)
		;
	pthread_setcancelstate(state, NULL);
}

/* Takes the mutex. One that has slept can't know whether others sleep, so it leaves SOUGHT. This is no cancellation point. */
static SELDOM void await_mutex(struct strm_mt *mt)
{
	uint32_t looks, free;

	for (looks = 0; looks < LOOKS; looks++) {
		free = FREE;
		if (__atomic_load_n(&mt->mutex, __ATOMIC_RELAXED) == FREE
		    && __atomic_compare_exchange_n(&mt->mutex, &free, HELD, 0, __ATOMIC_ACQUIRE, __ATOMIC_RELAXED))
			return;
	}
	while (__atomic_exchange_n(&mt->mutex, SOUGHT, __ATOMIC_ACQUIRE) != FREE)
		syscall(SYS_futex, &mt->mutex, FUTEX_WAIT_PRIVATE, SOUGHT, NULL);
}

/* A mutex of pthreads takes 1.6 times as long where nobody waits. */
static inline void take_mutex(struct strm_mt *mt)
{
	uint32_t free = FREE;

	if (!__atomic_compare_exchange_n(&mt->mutex, &free, HELD, 0, __ATOMIC_ACQUIRE, __ATOMIC_RELAXED))
		await_mutex(mt);
}

/* Frees the mutex, and wakes one of those that may sleep. */
static inline void free_mutex(struct strm_mt *mt)
{
	if (__atomic_exchange_n(&mt->mutex, FREE, __ATOMIC_RELEASE) == SOUGHT)
		syscall(SYS_futex, &mt->mutex, FUTEX_WAKE_PRIVATE, 1);
}

/* Waits until no thread looks. Readers need the mutex to come, so there are no new ones. The last one to go posts if it finds AWAITED. */
static SELDOM void await_readers(struct strm_mt *mt)
{
	if (__atomic_fetch_or(&mt->readers, AWAITED, __ATOMIC_ACQ_REL) != 0)
		await(&mt->no_readers);
	__atomic_store_n(&mt->readers, 0, __ATOMIC_RELAXED);
}

/* Serves those that wait, unlocks, and wakes those that were served. */
static SELDOM void unlock_served(struct strm_mt *mt)
{
	struct call *served = serve(mt), *call;

	free_mutex(mt);
	while ((call = served) != NULL) {
		served = call->next;
		__atomic_store_n(&call->state, POSTED, __ATOMIC_RELEASE);
		sem_post(&call->post);
		/* Now the call may have returned. */
	}
}

static inline struct strm_pool *lock(struct strm_mt *mt)
{
	take_mutex(mt);
	if (__atomic_load_n(&mt->readers, __ATOMIC_ACQUIRE) != 0)
		await_readers(mt);
	return &mt->pool;
}

static inline void unlock(struct strm_mt *mt)
{
	if (mt->waiting != 0)
		unlock_served(mt);
	else
		free_mutex(mt);
}

struct strm_pool *strm_mt_lock(struct strm_mt *mt)
{
	return mt != NULL ? lock(mt) : NULL;
}

void strm_mt_unlock(struct strm_mt *mt)
{
	unlock(mt);
}

const struct strm_pool *strm_mt_rdlock(struct strm_mt *mt)
{
	if (mt == NULL)
		return NULL;
	take_mutex(mt);
	__atomic_fetch_add(&mt->readers, 1, __ATOMIC_RELAXED);
	free_mutex(mt);
	return &mt->pool;
}

void strm_mt_rdunlock(struct strm_mt *mt)
{
	if (__atomic_sub_fetch(&mt->readers, 1, __ATOMIC_ACQ_REL) == AWAITED)
		sem_post(&mt->no_readers);
}

/* ---- waiting */

/* Takes a call out of its line; or, if it was served, its post. Returns whether it was served. */
static int was_served(struct call *call)
{
	int served;

	lock(call->mt);
	served = __atomic_load_n(&call->state, __ATOMIC_RELAXED) != STANDING;
	if (!served)
		leave(call);
	unlock(call->mt);
	if (served)
		await(&call->post);
	return served;
}

/* Gives back what a call got whose thread was cancelled. */
static void withdraw(void *given)
{
	struct call *call = (struct call *)given;
	struct strm_pool *pool;

	if (was_served(call) && call->kind != SEND) {
		pool = lock(call->mt);
		while (call->count-- > 0)
			if (call->kind == ALLOCATE)
				strm_freemsg(pool, call->into[call->count]);
			else
				strm_putbq(pool, call->queue, call->into[call->count]);
		unlock(call->mt);
	}
	sem_destroy(&call->post);
}

/* Has a call wait in its line until it is served, and returns its result. The thread has the lock, and unlocks it. */
static SELDOM int wait_in_line(struct call *call, const struct timespec *deadline)
{
	static const struct timespec for_ever = { (time_t)((uint64_t)-1 / 2), 0 };
	int failed;

	sem_init(&call->post, 0, 0);
	stand(call);
	unlock(call->mt);
	pthread_cleanup_push(withdraw, call);
	do
		failed = sem_clockwait(&call->post, CLOCK_MONOTONIC, deadline != NULL ? deadline : &for_ever);
	while (failed && errno == EINTR);
	pthread_cleanup_pop(0);
	if (failed && !was_served(call))
		call->code = STRM_MT_TIMED_OUT;
	/* ThreadSanitizer knows this order, and not that of sem_clockwait. */
	(void)__atomic_load_n(&call->state, __ATOMIC_ACQUIRE);
	sem_destroy(&call->post);
	return call->code;
}

/* ---- the calls that may wait */

/* What is wrong with a handle or a deadline, if anything. */
static int fault_of(const struct strm_mt *mt, const struct timespec *deadline)
{
	if (mt == NULL)
		return STRM_NOT_OPEN;
	return deadline == NULL || (deadline->tv_nsec >= 0 && deadline->tv_nsec <= 999999999) ? STRM_OK : STRM_BAD_ARGUMENT;
}

/* Whether a call waits that has come to a code. */
static int is_to_wait(int code, const struct timespec *deadline)
{
	return code == STRM_MT_TIMED_OUT && (deadline == NULL || deadline->tv_sec != 0 || deadline->tv_nsec != 0);
}

int strm_mt_send(struct strm_mt *mt, uint32_t queue, struct strm_msg msg, const struct timespec *deadline)
{
	uint32_t band = NOTHING;
	int code = fault_of(mt, deadline);

	if (code != STRM_OK)
		return code;
	lock(mt);
	code = send_one(mt, queue, msg, &band);
	if (is_to_wait(code, deadline))
		return wait_in_line(&(struct call){ .mt = mt, .kind = SEND, .queue = queue, .wanted = band, .from = (struct strm_msg[]){ msg }, .length = 1 },
			deadline);
	unlock(mt);
	return code;
}

int strm_mt_receive(struct strm_mt *mt, uint32_t queue, struct strm_msg *msg, const struct timespec *deadline)
{
	int code = fault_of(mt, deadline);

	if (code != STRM_OK || msg == NULL)
		return code != STRM_OK ? code : STRM_BAD_ARGUMENT;
	lock(mt);
	code = received(mt, queue, strm_getq(&mt->pool, queue, msg));
	if (is_to_wait(code, deadline))
		return wait_in_line(&(struct call){ .mt = mt, .kind = RECEIVE, .queue = queue, .into = msg, .length = 1 }, deadline);
	unlock(mt);
	return code;
}

int strm_mt_alloc(struct strm_mt *mt, uint32_t size, struct strm_msg *msg, const struct timespec *deadline)
{
	int code = fault_of(mt, deadline);

	if (code != STRM_OK || msg == NULL)
		return code != STRM_OK ? code : STRM_BAD_ARGUMENT;
	lock(mt);
	code = allocate(mt, size, msg);
	if (is_to_wait(code, deadline))
		return wait_in_line(&(struct call){ .mt = mt, .kind = ALLOCATE, .wanted = size, .into = msg, .length = 1 }, deadline);
	unlock(mt);
	return code;
}

/* Does what a call on several messages is for, and waits if need be. `msgs` are its messages, or the places for them. */
static int run(struct call *call, const struct strm_msg *msgs, const struct timespec *deadline, size_t *count)
{
	int code = fault_of(call->mt, NULL);

	if (code != STRM_OK)
		return code;
	if (count == NULL || call->length > (size_t)-1 / 2 / sizeof *msgs)
		return STRM_BAD_ARGUMENT;
	if (call->length == 0) {
		*count = 0;
		return STRM_OK;
	}
	if (msgs == NULL || (const void *)msgs == (const void *)count || fault_of(call->mt, deadline) != STRM_OK)
		return STRM_BAD_ARGUMENT;
	lock(call->mt);
	code = go_on(call->mt, call);
	if (is_to_wait(code, deadline))
		code = wait_in_line(call, deadline);
	else
		unlock(call->mt);
	if (code != STRM_OK && call->count == 0)
		return code;
	*count = call->count;
	return STRM_OK;
}

int strm_mt_send_n(struct strm_mt *mt, uint32_t queue, const struct strm_msg *msgs, size_t length,
	const struct timespec *deadline, size_t *count)
{
	return run(&(struct call){ .mt = mt, .kind = SEND, .queue = queue, .from = msgs, .length = length }, msgs, deadline, count);
}

int strm_mt_receive_n(struct strm_mt *mt, uint32_t queue, struct strm_msg *msgs, size_t length,
	const struct timespec *deadline, size_t *count)
{
	return run(&(struct call){ .mt = mt, .kind = RECEIVE, .queue = queue, .into = msgs, .length = length }, msgs, deadline, count);
}

int strm_mt_waiting(struct strm_mt *mt, uint32_t queue, uint32_t *calls)
{
	uint32_t kind, found = 0;
	const struct call *call;
	int code = STRM_OK;

	if (mt == NULL || calls == NULL)
		return mt == NULL ? STRM_NOT_OPEN : STRM_BAD_ARGUMENT;
	lock(mt);
	if (queue == STRM_NO_QUEUE)
		for (call = mt->lines[LINES - 1].first; call != NULL; call = call->next)
			found++;
	else if (queue >= mt->queues)
		code = STRM_NO_SUCH_QUEUE;
	else
		for (kind = RECEIVE; kind <= SEND; kind++)
			for (call = mt->lines[kind * STRM_MOST_QUEUES + queue].first; call != NULL; call = call->next)
				found++;
	unlock(mt);
	if (code == STRM_OK)
		*calls = found;
	return code;
}

int strm_mt_shut(struct strm_mt *mt, uint32_t queue)
{
	int code = STRM_OK;
	uint32_t at;

	if (mt == NULL)
		return STRM_NOT_OPEN;
	lock(mt);
	if (queue < mt->queues)
		mt->shut[queue] = 1;
	else if (queue == STRM_NO_QUEUE)
		for (at = 0; at < mt->queues; at++)
			mt->shut[at] = mt->all_shut = 1;
	else
		code = STRM_NO_SUCH_QUEUE;
	unlock(mt);
	return code;
}

/* ---- descriptors */

/* Makes the descriptor of a watch, and watches from the next unlock on. */
static int make_watch(struct strm_mt *mt, const struct watch *like, int *fd)
{
	struct watch *watch = malloc(sizeof *watch);

	if (watch == NULL)
		return STRM_NO_MEMORY;
	*watch = *like;
	watch->fd = eventfd(0, EFD_CLOEXEC | EFD_NONBLOCK);
	if (watch->fd < 0) {
		free(watch);
		return STRM_MT_NO_FD;
	}
	watch->next = mt->watches;
	mt->watches = watch;
	mt->waiting |= WATCHED;
	*fd = watch->fd;
	return STRM_OK;
}

int strm_mt_fd(struct strm_mt *mt, uint32_t queue, uint32_t what, uint32_t band, int *fd)
{
	struct watch like = { .queue = queue, .what = what, .band = what == STRM_MT_READABLE ? 0 : band };
	const struct watch *watch;
	int code;

	if (mt == NULL)
		return STRM_NOT_OPEN;
	if (fd == NULL || what > STRM_MT_WRITABLE || like.band >= STRM_BANDS)
		return STRM_BAD_ARGUMENT;
	lock(mt);
	for (watch = mt->watches; watch != NULL; watch = watch->next)
		if (watch->queue == queue && watch->what == what && watch->band == like.band)
			break;
	if (queue >= mt->queues) {
		code = STRM_NO_SUCH_QUEUE;
	} else if (watch == NULL) {
		code = make_watch(mt, &like, fd);
	} else {
		*fd = watch->fd;
		code = STRM_OK;
	}
	unlock(mt);
	return code;
}

/* ---- opening and closing */

int strm_mt_open(struct strm_mt **mt, const struct strm_config *config)
{
	struct strm_mt *made;
	int code;

	if (mt == NULL)
		return STRM_NOT_OPEN;
	made = calloc(1, sizeof *made);
	if (made == NULL)
		return STRM_NO_MEMORY;
	code = strm_open(&made->pool, config);
	if (code != STRM_OK) {
		free(made);
		return code;
	}
	sem_init(&made->no_readers, 0, 0);
	made->queues = (uint32_t)config->queue_count;
	*mt = made;
	return STRM_OK;
}

int strm_mt_close(struct strm_mt *mt)
{
	struct watch *watch, *next;
	int state;

	if (mt == NULL)
		return STRM_NOT_OPEN;
	pthread_setcancelstate(PTHREAD_CANCEL_DISABLE, &state);
	for (watch = mt->watches; watch != NULL; watch = next) {
		next = watch->next;
		close(watch->fd);
		free(watch);
	}
	sem_destroy(&mt->no_readers);
	strm_close(&mt->pool);
	free(mt);
	pthread_setcancelstate(state, NULL);
	return STRM_OK;
}

const char *strm_mt_error(int code)
{
	switch (code) {
	case STRM_MT_TIMED_OUT:
		return "the deadline has passed";
	case STRM_MT_CLOSED:
		return "the queue is shut";
	case STRM_MT_NO_FD:
		return "the system gives no file descriptor";
	default:
		return strm_error(code);
	}
}
