/*
 * Draws runs of 2 to 16 threads that send, receive, allocate and poll, with random deadlines, queues and bands. In some runs threads are cancelled,
 * some are shut at a random time. If no call could go on, a message is received or sent for those that wait. If one could, but all wait on, a
 * wake-up was lost, which fails. Each run also checks deadlines, the order of messages in a band, that no sender overtakes one that waited
 * before it came, that descriptors are readable just while they should be, and that no block is lost. The last line is 'N passed, M failed', and
 * a run counts as one. PATIENCE is how many seconds a call that could go on may go on waiting, since other programs may use the processors.
 *
 *     drawn SECONDS SEED PATIENCE
 */
#define _GNU_SOURCE
#include "strm_mt.h"

#include <poll.h>
#include <pthread.h>
#include <stdarg.h>
#include <stdio.h>
#include <stdlib.h>
#include <string.h>
#include <time.h>
#include <unistd.h>

#define MOST_THREADS 16
#define MOST_QUEUES 3
#define BANDS 3
#define BURST 5
#define CALLS 200
enum { NOTHING, SENDS, RECEIVES, ALLOCATES, POLLS };

/* What a message has in its bytes. */
struct content {
	uint32_t thread, queue, band, number;
};

struct worker {
	pthread_t thread;
	uint64_t seed;
	uint32_t number, calls;
	int begun, closed, ended;		/* the watcher reads `ended`, and what is below to `deadline` */
	int doing;
	uint32_t queue;
	const struct timespec *deadline;
	uint32_t sent[MOST_QUEUES][BANDS];
	uint32_t came[MOST_THREADS][MOST_QUEUES][BANDS];
	struct strm_msg held[BURST];		/* what it sends; read and changed under the lock */
	size_t holds;
	uint64_t begun_at, waits_at;		/* the rest before it began to send, and one in which it waited to send `waits` */
	struct strm_msg waits;
};

static struct {
	struct strm_mt *mt;
	uint32_t queues, threads, calls;
	int cancels, shut;
	int64_t patience;
	uint64_t rests;				/* how many times no call could go on */
	int readable[MOST_QUEUES], writable[MOST_QUEUES];
	uint64_t progress;
	struct worker workers[MOST_THREADS + 1];	/* the last is the watcher */
} run;

static unsigned long failed_of_run;
static const struct timespec now;

static void wrong(const char *form, ...)
{
	va_list words;

	va_start(words, form);
	vprintf(form, words);
	va_end(words);
	puts("");
	fflush(stdout);
	__atomic_add_fetch(&failed_of_run, 1, __ATOMIC_RELAXED);
}

#define MUST(what) ((what) ? (void)0 : wrong("line %d: not %s", __LINE__, #what))

static uint32_t draw(struct worker *worker, uint32_t below)
{
	worker->seed = worker->seed * 6364136223846793005u + 1442695040888963407u;
	return (uint32_t)(worker->seed >> 33) % below;
}

static int64_t clock_ns(void)
{
	struct timespec at;

	clock_gettime(CLOCK_MONOTONIC, &at);
	return (int64_t)at.tv_sec * 1000000000 + at.tv_nsec;
}

static int64_t ns_of(const struct timespec *at)
{
	return (int64_t)at->tv_sec * 1000000000 + at->tv_nsec;
}

/* Null, a time that has passed, or one that is near. */
static const struct timespec *drawn_deadline(struct worker *worker, struct timespec *at)
{
	uint32_t kind = draw(worker, 8);
	int64_t ns = clock_ns() + draw(worker, 3000000);

	if (kind >= 2)
		return NULL;
	if (kind == 0)
		return &now;
	at->tv_sec = ns / 1000000000;
	at->tv_nsec = ns % 1000000000;
	return at;
}

/* ---- what workers do */

static int doing_of(const struct worker *worker)
{
	return __atomic_load_n(&worker->doing, __ATOMIC_ACQUIRE);
}

static uint32_t queue_of(const struct worker *worker)
{
	return __atomic_load_n(&worker->queue, __ATOMIC_RELAXED);
}

static void begins(struct worker *worker, int doing, uint32_t queue, const struct timespec *deadline)
{
	__atomic_store_n(&worker->queue, queue, __ATOMIC_RELAXED);
	__atomic_store_n(&worker->deadline, deadline, __ATOMIC_RELAXED);
	__atomic_store_n(&worker->doing, doing, __ATOMIC_RELEASE);
}

/* Notes that a call has ended, and checks that it kept its deadline: it waited for it, and not much longer. */
static void ends(struct worker *worker, int code)
{
	const struct timespec *deadline = worker->deadline;
	int64_t late = deadline != NULL ? clock_ns() - ns_of(deadline) : 0;

	__atomic_store_n(&worker->doing, NOTHING, __ATOMIC_RELEASE);
	__atomic_add_fetch(&run.progress, 1, __ATOMIC_RELAXED);
	if (code == STRM_MT_TIMED_OUT)
		MUST(deadline != NULL && late >= 0);
	MUST(deadline == NULL || deadline == &now || late < run.patience);
	if (code == STRM_MT_CLOSED) {
		MUST(__atomic_load_n(&run.shut, __ATOMIC_RELAXED));
		worker->closed = 1;
	} else {
		MUST(code == STRM_OK || code == STRM_MT_TIMED_OUT);
	}
}

/* Frees the messages that a worker holds, with the lock, under which the watcher looks at them. Those that were sent are no longer valid. */
static void free_held(void *given)
{
	struct worker *worker = given;
	struct strm_pool *pool = strm_mt_lock(run.mt);
	int code;

	while (worker->holds > 0) {
		code = strm_freemsg(pool, worker->held[--worker->holds]);
		MUST(code == STRM_OK || code == STRM_INVALID);
	}
	strm_mt_unlock(run.mt);
}

/* Allocates a message with its content, if it comes in time. */
static int allocate(struct worker *worker, uint32_t queue, uint32_t band, const struct timespec *deadline)
{
	struct content content = { worker->number, queue, band, 0 };
	struct strm_msg msg;
	struct strm_pool *pool;
	int code;

	begins(worker, ALLOCATES, 0, deadline);
	code = strm_mt_alloc(run.mt, sizeof content, &msg, deadline);
	ends(worker, code);
	if (code != STRM_OK)
		return 0;
	content.number = ++worker->sent[queue][band];
	pool = strm_mt_lock(run.mt);
	MUST(strm_write(pool, msg, 0, &content, sizeof content) == STRM_OK);
	MUST(strm_setband(pool, msg, band) == STRM_OK);
	if (band == 0 && draw(worker, 8) == 0)
		strm_setband(pool, msg, 9);	/* of a band of its own, and not in order */
	worker->held[worker->holds++] = msg;
	strm_mt_unlock(run.mt);
	return 1;
}

/* Whether a name is of the first message that a call has not sent yet. */
static int is_next(struct strm_pool *pool, const struct worker *worker, struct strm_msg msg, struct strm_block_info *block)
{
	size_t at;

	for (at = 0; at < worker->holds; at++)
		if (strm_block(pool, worker->held[at], 0, block) == STRM_OK)
			return strm_same_msg(worker->held[at], msg);
	return 0;
}

/* No sender without a deadline waits in this band that waited already when this worker began to send. */
static void check_order(const struct worker *worker, uint32_t queue, uint32_t band)
{
	struct strm_pool *pool = strm_mt_lock(run.mt);
	struct strm_block_info block;
	const struct worker *other;

	for (other = run.workers; other < run.workers + run.threads; other++)
		if (doing_of(other) == SENDS && queue_of(other) == queue
		    && __atomic_load_n(&other->deadline, __ATOMIC_RELAXED) == NULL && other->waits_at != 0
		    && other->waits_at <= worker->begun_at && is_next(pool, other, other->waits, &block))
			MUST(block.band != band);
	strm_mt_unlock(run.mt);
}

/* Sends what a worker holds, and frees what it could not send in time. */
static void send_held(struct worker *worker, uint32_t queue, const struct timespec *deadline)
{
	struct strm_block_info block = { 0, 0, 0, 0, 0 };
	size_t count = 0;
	int code;

	strm_block(strm_mt_rdlock(run.mt), worker->held[0], 0, &block);
	strm_mt_rdunlock(run.mt);
	worker->begun_at = __atomic_load_n(&run.rests, __ATOMIC_ACQUIRE);
	begins(worker, SENDS, queue, deadline);
	if (worker->holds == 1)
		count = (code = strm_mt_send(run.mt, queue, worker->held[0], deadline)) == STRM_OK;
	else
		code = strm_mt_send_n(run.mt, queue, worker->held, worker->holds, deadline, &count);
	/* What cut a burst short was the deadline, or that all was shut. */
	ends(worker, code != STRM_OK || count == worker->holds || __atomic_load_n(&run.shut, __ATOMIC_RELAXED) ? code : STRM_MT_TIMED_OUT);
	if (code == STRM_OK && worker->holds == 1 && !run.cancels)
		check_order(worker, queue, block.band);
	free_held(worker);
}

/* A burst holds blocks while it waits for more, so it takes none of those that it would have to wait for. */
static void send_some(struct worker *worker)
{
	uint32_t queue = draw(worker, run.queues), band = draw(worker, BANDS), several = draw(worker, 3) == 0 ? 1 + draw(worker, BURST - 1) : 0;
	struct timespec at;
	const struct timespec *deadline = drawn_deadline(worker, &at);

	if (!allocate(worker, queue, band, deadline))
		return;
	while (several-- > 0 && allocate(worker, queue, band, &now))
		;
	send_held(worker, queue, deadline);
}

/* Frees a message, whose number must be above those before it that came from the same sender in the same band to this worker. */
static void read_and_free(struct worker *worker, uint32_t queue, struct strm_msg msg)
{
	struct strm_pool *pool = strm_mt_lock(run.mt);
	struct strm_block_info block;
	struct content content;
	size_t count = 0;

	MUST(strm_read(pool, msg, 0, &content, sizeof content, &count) == STRM_OK && count == sizeof content);
	MUST(strm_block(pool, msg, 0, &block) == STRM_OK);
	MUST(strm_freemsg(pool, msg) == STRM_OK);
	strm_mt_unlock(run.mt);
	/* A message that a cancelled call got was put back, maybe after later ones were taken. */
	if (run.cancels || content.thread >= run.threads || block.band != content.band)
		return;
	MUST(content.queue == queue && content.number > worker->came[content.thread][queue][content.band]);
	worker->came[content.thread][queue][content.band] = content.number;
}

static void receive_some(struct worker *worker)
{
	uint32_t queue = draw(worker, run.queues), most = draw(worker, 3) == 0 ? 1 + draw(worker, BURST) : 1;
	struct timespec at;
	const struct timespec *deadline = drawn_deadline(worker, &at);
	struct strm_msg msgs[BURST];
	size_t count = 1, number;
	int code;

	begins(worker, RECEIVES, queue, deadline);
	code = most == 1 ? strm_mt_receive(run.mt, queue, msgs, deadline) : strm_mt_receive_n(run.mt, queue, msgs, most, deadline, &count);
	ends(worker, code);
	MUST(code != STRM_OK || (count > 0 && count <= most));
	for (number = 0; code == STRM_OK && number < count; number++)
		read_and_free(worker, queue, msgs[number]);
}

/* Waits by a descriptor until it gets a message. ThreadSanitizer does not know what a thread does that is cancelled in poll. */
static void poll_one(struct worker *worker)
{
	uint32_t queue = draw(worker, run.queues);
	struct pollfd look = { run.readable[queue], POLLIN, 0 };
	struct strm_msg msg;

	int code;

	begins(worker, POLLS, queue, NULL);
	while ((code = strm_mt_receive(run.mt, queue, &msg, &now)) == STRM_MT_TIMED_OUT)
		poll(&look, 1, -1);
	ends(worker, code);
	if (code == STRM_OK)
		read_and_free(worker, queue, msg);
}

static void *work(void *given)
{
	struct worker *worker = given;

	pthread_cleanup_push(free_held, worker);
	while (worker->calls++ < run.calls && !worker->closed)
		if (draw(worker, 2) == 0)
			send_some(worker);
		else if (draw(worker, 4) == 0 && !run.cancels)
			poll_one(worker);
		else
			receive_some(worker);
	pthread_cleanup_pop(0);
	__atomic_store_n(&worker->ended, 1, __ATOMIC_RELEASE);
	return NULL;
}

/* ---- the watcher */

/* Whether there is room for the first message that a call has not sent yet, or it has sent all. */
static int has_room(struct strm_pool *pool, uint32_t queue, const struct worker *worker)
{
	struct strm_block_info block;
	uint32_t found = 1;
	size_t at;

	for (at = 0; at < worker->holds; at++)
		if (strm_block(pool, worker->held[at], 0, &block) == STRM_OK) {
			strm_bcanput(pool, queue, block.band, &found);
			break;
		}
	return found != 0;
}

/* Whether a call would not wait now. The caller has the lock. */
static int could_go_on(struct strm_pool *pool, const struct worker *worker)
{
	uint32_t queue = queue_of(worker), found = 0;

	if (run.shut)
		return 1;
	switch (doing_of(worker)) {
	case SENDS:
		return has_room(pool, queue, worker);
	case RECEIVES: case POLLS:
		strm_qsize(pool, queue, &found);
		return found != 0;
	case ALLOCATES:
		strm_testb(pool, sizeof(struct content), &found);
		return found != 0;
	default:
		return 1;
	}
}

/* Notes which messages wait to be sent, while no worker could go on. It notes nothing if a call may not stand in its line yet, or has ended since. */
static void note_senders(uint64_t progress)
{
	struct worker *worker, *end = run.workers + run.threads;
	struct strm_block_info block;
	struct strm_pool *pool;
	uint32_t queue, calls;
	size_t at;
	int doing;

	for (queue = 0; queue < run.queues; queue++) {
		MUST(strm_mt_waiting(run.mt, queue, &calls) == STRM_OK);
		for (worker = run.workers; worker < end; worker++) {
			doing = doing_of(worker);
			calls -= (doing == SENDS || doing == RECEIVES) && queue_of(worker) == queue;
		}
		if (calls != 0)
			return;
	}
	pool = strm_mt_lock(run.mt);
	if (__atomic_load_n(&run.progress, __ATOMIC_ACQUIRE) == progress) {
		for (worker = run.workers; worker < end; worker++)
			for (at = 0; at < worker->holds; at++)
				if (doing_of(worker) == SENDS && !strm_same_msg(worker->waits, worker->held[at])
				    && is_next(pool, worker, worker->held[at], &block)) {
					worker->waits = worker->held[at];
					worker->waits_at = run.rests + 1;
				}
		__atomic_add_fetch(&run.rests, 1, __ATOMIC_RELEASE);
	}
	strm_mt_unlock(run.mt);
}

/* The first worker that could go on, or none. */
static const struct worker *one_that_could(void)
{
	uint64_t progress = __atomic_load_n(&run.progress, __ATOMIC_ACQUIRE);
	struct strm_pool *pool = strm_mt_lock(run.mt);
	struct worker *worker, *end = run.workers + run.threads;

	for (worker = run.workers; worker < end; worker++)
		if (!__atomic_load_n(&worker->ended, __ATOMIC_ACQUIRE) && could_go_on(pool, worker))
			break;
	strm_mt_unlock(run.mt);
	if (worker < end)
		return worker;
	note_senders(progress);
	return NULL;
}

/* While the lock is held, descriptors are as the last unlock left them. */
static void check_descriptors(void)
{
	struct strm_pool *pool = strm_mt_lock(run.mt);
	struct pollfd looks[2 * MOST_QUEUES];
	uint32_t at, msgs, yes;

	for (at = 0; at < run.queues; at++) {
		looks[2 * at] = (struct pollfd){ run.readable[at], POLLIN, 0 };
		looks[2 * at + 1] = (struct pollfd){ run.writable[at], POLLIN, 0 };
	}
	poll(looks, 2 * run.queues, 0);
	for (at = 0; at < run.queues; at++) {
		MUST(strm_qsize(pool, at, &msgs) == STRM_OK && (msgs > 0 || run.shut) == (looks[2 * at].revents != 0));
		MUST(strm_bcanput(pool, at, 1, &yes) == STRM_OK && (yes || run.shut) == (looks[2 * at + 1].revents != 0));
	}
	strm_mt_unlock(run.mt);
}

/* Does something for those that wait, since a run of workers alone can come to rest. */
static void help(struct worker *watcher)
{
	uint32_t queue = draw(watcher, run.queues);
	struct strm_msg msg;

	if (draw(watcher, 2) == 0 && strm_mt_receive(run.mt, queue, &msg, &now) == STRM_OK)
		read_and_free(watcher, queue, msg);
	else if (allocate(watcher, queue, draw(watcher, BANDS), &now))
		send_held(watcher, queue, &now);
}

static void begin(struct worker *worker)
{
	worker->begun = pthread_create(&worker->thread, NULL, work, worker) == 0;
	MUST(worker->begun);
}

/* Cancels a thread, and begins another that takes its place. */
static void cancel_one(struct worker *worker)
{
	void *result;

	if (__atomic_load_n(&worker->ended, __ATOMIC_ACQUIRE))
		return;
	pthread_cancel(worker->thread);
	pthread_join(worker->thread, &result);
	worker->begun = 0;
	__atomic_store_n(&worker->doing, NOTHING, __ATOMIC_RELAXED);
	if (!worker->ended)
		begin(worker);
}

/* Ends a run that has lost a wake-up, and with it the program: its threads wait for ever. */
static void lost(const struct worker *worker, uint64_t seed)
{
	static const char *const doings[] = { "nothing", "sends", "receives", "allocates", "polls" };

	printf("seed %llu: thread %u of %u waits though it could go on: it %s, queue %u\n0 passed, 1 failed\n", (unsigned long long)seed,
		worker->number, run.threads, doings[worker->doing], worker->queue);
	fflush(stdout);
	_exit(1);
}

static int all_ended(void)
{
	uint32_t at, ended = 0;

	for (at = 0; at < run.threads; at++)
		ended += __atomic_load_n(&run.workers[at].ended, __ATOMIC_ACQUIRE) != 0;
	return ended == run.threads;
}

static void watch(uint64_t seed)
{
	struct worker *watcher = &run.workers[MOST_THREADS];
	uint64_t seen = 0, found, shut_at = draw(watcher, 4) == 0 ? draw(watcher, run.threads * run.calls) : UINT64_MAX;
	int64_t since = clock_ns();
	const struct worker *could;

	while (!all_ended()) {
		usleep(20);
		check_descriptors();
		if (run.cancels && draw(watcher, 16) == 0)
			cancel_one(&run.workers[draw(watcher, run.threads)]);
		found = __atomic_load_n(&run.progress, __ATOMIC_RELAXED);
		if (found > shut_at && !run.shut) {
			__atomic_store_n(&run.shut, 1, __ATOMIC_RELAXED);
			MUST(strm_mt_shut(run.mt, STRM_NO_QUEUE) == STRM_OK);
		}
		while ((could = one_that_could()) == NULL && !all_ended())
			help(watcher);
		if (found != seen)
			since = clock_ns();
		else if (could != NULL && clock_ns() - since > run.patience)
			lost(could, seed);
		seen = found;
	}
}

/* ---- a run */

static void open_run(struct worker *watcher, uint64_t seed, int64_t patience)
{
	struct strm_class_spec class = { sizeof(struct content), 0 };
	struct strm_queue_spec queues[MOST_QUEUES];
	struct strm_config config = { 1, 0, &class, 1, queues, 0, 0, 1 };
	uint32_t at;

	memset(&run, 0, sizeof run);
	run.patience = patience;
	watcher->seed = seed;
	for (at = 0; at < 8; at++)
		draw(watcher, 2);
	run.threads = 2 + draw(watcher, MOST_THREADS - 1);
	run.queues = 1 + draw(watcher, MOST_QUEUES);
	run.calls = 1 + draw(watcher, CALLS);
	run.cancels = draw(watcher, 4) == 0;
	config.mblks = class.count = 1 + draw(watcher, 3 * run.threads);
	config.queue_count = run.queues;
	for (at = 0; at < run.queues; at++) {
		uint32_t hiwat = 1 + draw(watcher, 5 * sizeof(struct content));

		queues[at] = (struct strm_queue_spec){ hiwat, draw(watcher, hiwat), draw(watcher, 2), at + 1 < run.queues && draw(watcher, 3) == 0 ? at + 1 : STRM_NO_QUEUE };
	}
	MUST(strm_mt_open(&run.mt, &config) == STRM_OK);
	for (at = 0; at < run.queues; at++) {
		MUST(strm_mt_fd(run.mt, at, STRM_MT_READABLE, 0, &run.readable[at]) == STRM_OK);
		MUST(strm_mt_fd(run.mt, at, STRM_MT_WRITABLE, 1, &run.writable[at]) == STRM_OK);
	}
	for (at = 0; at <= MOST_THREADS; at++) {
		run.workers[at].number = at;
		run.workers[at].seed = seed * 31 + at;
	}
}

/* All blocks are free once what is queued was received, and nobody waits. */
static void close_run(struct worker *watcher)
{
	struct strm_census census;
	struct strm_msg msg;
	uint32_t at, calls;

	for (at = 0; at < run.queues; at++) {
		while (strm_mt_receive(run.mt, at, &msg, &now) == STRM_OK)
			read_and_free(watcher, at, msg);
		MUST(strm_mt_waiting(run.mt, at, &calls) == STRM_OK && calls == 0);
	}
	MUST(strm_census(strm_mt_rdlock(run.mt), &census) == STRM_OK && census.queued == 0 && census.held == 0);
	strm_mt_rdunlock(run.mt);
	MUST(strm_mt_close(run.mt) == STRM_OK);
}

int main(int count, char **words)
{
	double seconds = count > 3 ? atof(words[1]) : 1, patience = count > 3 ? atof(words[3]) : 10;
	uint64_t seed = count > 3 ? strtoull(words[2], NULL, 10) : 1, calls = 0;
	int64_t end = clock_ns() + (int64_t)(1e9 * seconds);
	unsigned long passed = 0, failed = 0;
	uint32_t at;

	for (; clock_ns() < end || passed + failed == 0; seed++) {
		failed_of_run = 0;
		open_run(&run.workers[MOST_THREADS], seed, (int64_t)(1e9 * patience));
		for (at = 0; at < run.threads; at++)
			begin(&run.workers[at]);
		watch(seed);
		for (at = 0; at < run.threads; at++)
			if (run.workers[at].begun)
				pthread_join(run.workers[at].thread, NULL);
		close_run(&run.workers[MOST_THREADS]);
		calls += run.progress;
		passed += failed_of_run == 0;
		failed += failed_of_run != 0;
		if (failed_of_run != 0)
			printf("seed %llu failed\n", (unsigned long long)seed);
	}
	printf("%llu calls\n%lu passed, %lu failed\n", (unsigned long long)calls, passed, failed);
	return failed > 0;
}
