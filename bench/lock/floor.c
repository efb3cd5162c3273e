/*
 * The floor of a lock: threads that take it, execute some 100 instructions on what it guards, and release it, again and again.
 *
 * Reads lines 'HOW THREADS TURNS LINES', and answers each with the number of turns. HOW is `looks`, to wait as strm_shared does (some looks,
 * with pauses that double, and then to sleep); `mutex`, a pthread_mutex_t; or `round`, where each turn goes to the next thread. A turn writes
 * to this number of cache lines.
 */
#define _GNU_SOURCE
#include <linux/futex.h>
#include <pthread.h>
#include <stdatomic.h>
#include <stdint.h>
#include <stdio.h>
#include <string.h>
#include <sys/syscall.h>
#include <unistd.h>

#define MOST_THREADS 16
#define MOST_LINES 64
#define LOOKS 16

enum { FREE, TAKEN, AWAITED };

/* The lock, and behind it what it guards, on cache lines of their own. In the form `round` the word is the number of the next thread. */
static struct {
	_Alignas(64) _Atomic uint32_t word;
	pthread_mutex_t mutex;
	_Alignas(64) uint64_t state, turns;
	struct { _Alignas(64) uint64_t count; } further[MOST_LINES];
} held = { .mutex = PTHREAD_MUTEX_INITIALIZER, .state = 1 };
static unsigned threads, further;

static void pause_for(unsigned times)
{
	while (times-- > 0)
		__builtin_ia32_pause();
}

static int try_lock(void)
{
	uint32_t word = FREE;

	return atomic_compare_exchange_strong(&held.word, &word, TAKEN);
}

static void lock_by_looks(void)
{
	unsigned look, pauses = 1;

	for (look = 0; look < LOOKS; look++, pauses *= 2) {
		if (try_lock())
			return;
		pause_for(pauses);
	}
	while (atomic_exchange(&held.word, AWAITED) != FREE)
		syscall(SYS_futex, &held.word, FUTEX_WAIT_PRIVATE, AWAITED, NULL, NULL, 0);
}

static void unlock_after_looks(void)
{
	if (atomic_exchange(&held.word, FREE) == AWAITED)
		syscall(SYS_futex, &held.word, FUTEX_WAKE_PRIVATE, 1, NULL, NULL, 0);
}

/* Some 100 instructions: 16 rounds of six. And one for each further cache line. */
static void work(void)
{
	uint64_t state = held.state;
	unsigned line;
	int round;

#pragma GCC unroll 16
	for (round = 0; round < 16; round++) {
		state ^= state << 13;
		state ^= state >> 7;
		state ^= state << 17;
	}
	held.state = state;
	held.turns++;
	for (line = 0; line < further; line++)
		held.further[line].count++;
}

static pthread_barrier_t start;

/* What a thread gets: its number, and how many turns it takes. */
struct share {
	unsigned number;
	uint64_t turns;
};

static void *by_looks(void *share)
{
	uint64_t left = ((struct share *)share)->turns;

	pthread_barrier_wait(&start);
	for (; left > 0; left--) {
		lock_by_looks();
		work();
		unlock_after_looks();
	}
	return NULL;
}

static void *by_mutex(void *share)
{
	uint64_t left = ((struct share *)share)->turns;

	pthread_barrier_wait(&start);
	for (; left > 0; left--) {
		pthread_mutex_lock(&held.mutex);
		work();
		pthread_mutex_unlock(&held.mutex);
	}
	return NULL;
}

static void *in_a_round(void *share)
{
	uint64_t left = ((struct share *)share)->turns;
	uint32_t own = ((struct share *)share)->number, next = (own + 1) % threads;

	pthread_barrier_wait(&start);
	for (; left > 0; left--) {
		while (atomic_load(&held.word) != own)
			pause_for(1);
		work();
		atomic_store(&held.word, next);
	}
	return NULL;
}

static void *(*form_of(const char *how))(void *)
{
	return strcmp(how, "mutex") == 0 ? by_mutex : strcmp(how, "round") == 0 ? in_a_round : by_looks;
}

int main(void)
{
	pthread_t ids[MOST_THREADS];
	struct share shares[MOST_THREADS];
	unsigned long long turns;
	unsigned i, lines;
	char how[8];

	while (scanf("%7s %u %llu %u", how, &threads, &turns, &lines) == 4 && threads > 0 && threads <= MOST_THREADS && lines > 0 &&
	       lines <= MOST_LINES) {
		further = lines - 1;
		held.turns = 0;
		held.word = FREE;
		pthread_barrier_init(&start, NULL, threads);
		for (i = 0; i < threads; i++) {
			shares[i] = (struct share){ i, turns / threads };
			if (pthread_create(&ids[i], NULL, form_of(how), &shares[i]) != 0)
				return 1;
		}
		for (i = 0; i < threads; i++)
			pthread_join(ids[i], NULL);
		pthread_barrier_destroy(&start);
		printf("%llu\n", (unsigned long long)held.turns);
		fflush(stdout);
	}
	return 0;
}
