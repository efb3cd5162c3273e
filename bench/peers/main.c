/*
 * Makes rounds of a work of the peer that it is linked with, in some turns. Prints the nanoseconds of a round in the fastest turn: those of the
 * processor, or with threads those that passed, divided by the rounds of all threads.
 *
 *     peer WORK ROUNDS TURNS [shared|own THREADS]
 *     peer WORK ROUNDS TURNS queued MESSAGES BYTES
 *
 * Threads share one pool, or each has its own; each runs on its own core, if there are enough. Or MESSAGES messages of BYTES bytes each are on
 * the queue. Status 3 says that the peer has no such work.
 */
#define _GNU_SOURCE
#include "peer.h"

#include <pthread.h>
#include <sched.h>
#include <stdio.h>
#include <stdlib.h>
#include <string.h>
#include <time.h>

#define MOST_THREADS 64

struct worker {
	pthread_t thread;
	void *room;
	int (*made)(void *room);
	long rounds;
	int core;
	int done;
	double begun, ended;
	pthread_barrier_t *gate;
};

const unsigned char bytes[FRAME];
unsigned char copied[FRAME];
volatile unsigned seen;

/* For a deep queue there are MORE message blocks than messages on it. */
#define MIDDLE_CLASS 32
#define MORE 300

void peer_classes(const struct use *use, uint32_t classes[CLASSES][2])
{
	static const uint32_t without_queue[CLASSES][2] = { { SIZE, BLOCKS - MIDDLE_CLASS - LAST_CLASS }, { 256, MIDDLE_CLASS }, { FRAME, LAST_CLASS } };
	int deep = use->size == SIZE ? 0 : 1;

	memcpy(classes, without_queue, sizeof without_queue);
	if (use->queued == 0)
		return;
	classes[0][1] = MIDDLE_CLASS;
	classes[1][0] = 1536;
	classes[deep][1] = use->queued + MORE;
}

uint32_t peer_blocks(const struct use *use)
{
	return use->queued == 0 ? BLOCKS : use->queued + MORE + MIDDLE_CLASS + LAST_CLASS;
}

uint32_t drawn(uint32_t count)
{
	static uint64_t state = 1;

	state = state * 6364136223846793005u + 1442695040888963407u;
	return (uint32_t)((state >> 33) % count);
}

static double now(clockid_t clock)
{
	struct timespec time;

	clock_gettime(clock, &time);
	return (double)time.tv_sec * 1e9 + (double)time.tv_nsec;
}

/* It is counted by its name, so it is a function of its own. */
__attribute__((noinline, noipa)) int make_rounds(int (*made)(void *room), void *room, long rounds)
{
	long k;

	for (k = 0; k < rounds; k++)
		if (!made(room))
			return 0;
	return 1;
}

/* The nanoseconds of the processor for all rounds, or -1. */
static double turn(int (*made)(void *room), void *room, long rounds)
{
	double begun = now(CLOCK_THREAD_CPUTIME_ID);

	return make_rounds(made, room, rounds) ? now(CLOCK_THREAD_CPUTIME_ID) - begun : -1;
}

static void *work_in_thread(void *given)
{
	struct worker *worker = given;
	cpu_set_t core;

	CPU_ZERO(&core);
	CPU_SET(worker->core, &core);
	worker->done = pthread_setaffinity_np(pthread_self(), sizeof core, &core) == 0 && peer_enter();
	pthread_barrier_wait(worker->gate);
	worker->begun = now(CLOCK_MONOTONIC);
	worker->done = worker->done && make_rounds(worker->made, worker->room, worker->rounds);
	worker->ended = now(CLOCK_MONOTONIC);
	peer_leave();
	return NULL;
}

/* The nanoseconds between the first thread's begin and the last one's end, or -1. */
static double turn_of_threads(struct worker *workers, int threads)
{
	pthread_barrier_t gate;
	double begun, ended;
	int k, done = 1;

	pthread_barrier_init(&gate, NULL, (unsigned)threads);
	for (k = 0; k < threads; k++) {
		workers[k].gate = &gate;
		if (pthread_create(&workers[k].thread, NULL, work_in_thread, &workers[k]) != 0)
			exit(2);
	}
	for (k = 0; k < threads; k++)
		pthread_join(workers[k].thread, NULL);
	pthread_barrier_destroy(&gate);
	begun = workers[0].begun;
	ended = workers[0].ended;
	for (k = 0; k < threads; k++) {
		done = done && workers[k].done;
		begun = workers[k].begun < begun ? workers[k].begun : begun;
		ended = workers[k].ended > ended ? workers[k].ended : ended;
	}
	return done ? ended - begun : -1;
}

/* Gives each worker a pool and a core, and returns 0 if there is no pool. `cores` are those that the process may use. */
static int ready(struct worker *workers, int threads, const struct use *use, const cpu_set_t *cores)
{
	int k, core = -1;

	for (k = 0; k < threads; k++) {
		do
			core = (core + 1) % CPU_SETSIZE;
		while (!CPU_ISSET(core, cores));
		workers[k].core = core;
		workers[k].room = k > 0 && use->shared ? workers[0].room : peer_open(k, use);
		if (workers[k].room == NULL)
			return 0;
	}
	return 1;
}

static int (*found(const char *name))(void *room)
{
	const struct work *work;

	for (work = works; work->name != NULL; work++)
		if (strcmp(work->name, name) == 0)
			return work->made;
	return NULL;
}

int main(int words, char **word)
{
	static struct worker workers[MOST_THREADS];
	int (*made)(void *room) = words >= 4 ? found(word[1]) : NULL;
	int k, threads = words == 6 ? atoi(word[5]) : 1;
	struct use use = { words == 6 && strcmp(word[4], "shared") == 0, 0, SIZE };
	double least = -1;
	cpu_set_t cores;
	long rounds, turns;

	if (words != 4 && words != 6 && words != 7)
		return 2;
	if (made == NULL)
		return 3;
	if (words == 7) {
		use.queued = (uint32_t)atol(word[5]);
		use.size = (uint32_t)atol(word[6]);
	}
	rounds = atol(word[2]);
	if (threads < 1 || threads > MOST_THREADS || sched_getaffinity(0, sizeof cores, &cores) != 0 || !ready(workers, threads, &use, &cores))
		return 2;
	for (k = 0; k < threads; k++) {
		workers[k].made = made;
		workers[k].rounds = rounds;
	}
	for (turns = atol(word[3]); turns > 0; turns--) {
		double took = words != 6 ? turn(made, workers[0].room, rounds) : turn_of_threads(workers, threads);

		if (took < 0)
			return 1;
		least = least < 0 || took < least ? took : least;
	}
	printf("%.3f\n", least / (double)rounds / threads);
	return 0;
}
