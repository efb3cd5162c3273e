/*
 * Takes the memory of the largest pool in one of some ways and gives it back, TURNS times. Prints the microseconds of the processor and the page
 * faults of the fastest turn.
 *
 *     open strm|cleared|zeroed|touched TURNS
 *
 * strm opens and closes the pool. The others take the bytes of its data blocks alone: `cleared` by malloc and memset, as the library does, `zeroed`
 * by calloc, and `touched` by calloc too, and then writes a byte to each page.
 */
#include "strm.h"

#include <stdio.h>
#include <stdlib.h>
#include <string.h>
#include <sys/resource.h>
#include <time.h>

#define ALL ((size_t)STRM_MOST_DATA_BLOCKS * STRM_MOST_DATA_BYTES)
#define PAGE 4096

/* Called through pointers, so that the compiler puts no other call there. */
static void *(*volatile get)(size_t) = malloc;
static void *(*volatile get_zeros)(size_t, size_t) = calloc;
static void *(*volatile clear)(void *, int, size_t) = memset;
static void (*volatile give_back)(void *) = free;

static int opens(void)
{
	static const struct strm_class_spec largest = { STRM_MOST_DATA_BYTES, STRM_MOST_DATA_BLOCKS };
	static struct strm_queue_spec queues[STRM_MOST_QUEUES];
	struct strm_pool pool = STRM_POOL_INIT;
	struct strm_config config;
	int k;

	for (k = 0; k < STRM_MOST_QUEUES; k++) {
		queues[k].hiwat = 1;
		queues[k].next = STRM_NO_QUEUE;
	}
	memset(&config, 0, sizeof config);
	config.mblks = STRM_MOST_MBLKS;
	config.classes = &largest;
	config.class_count = 1;
	config.queues = queues;
	config.queue_count = STRM_MOST_QUEUES;
	config.bufcalls = STRM_MOST_WISHES;
	config.first_id = 1;
	return strm_open(&pool, &config) == STRM_OK && strm_close(&pool) == STRM_OK;
}

static int clears(void)
{
	void *all = get(ALL);

	if (all != NULL)
		clear(all, 0, ALL);
	give_back(all);
	return all != NULL;
}

static int gets_zeros(void)
{
	void *all = get_zeros(ALL, 1);

	give_back(all);
	return all != NULL;
}

static int touches(void)
{
	volatile char *all = get_zeros(ALL, 1);
	size_t at;

	for (at = 0; all != NULL && at < ALL; at += PAGE)
		all[at] = 1;
	give_back((void *)all);
	return all != NULL;
}

static const struct {
	const char *name;
	int (*taken)(void);
} ways[] = { { "strm", opens }, { "cleared", clears }, { "zeroed", gets_zeros }, { "touched", touches } };

static double now(void)
{
	struct timespec time;

	clock_gettime(CLOCK_PROCESS_CPUTIME_ID, &time);
	return (double)time.tv_sec * 1e6 + (double)time.tv_nsec / 1e3;
}

static long faults(void)
{
	struct rusage used;

	getrusage(RUSAGE_SELF, &used);
	return used.ru_minflt;
}

int main(int words, char **word)
{
	double least = -1;
	long turns, touched = 0;
	size_t k = 0;

	if (words != 3)
		return 2;
	while (k < sizeof ways / sizeof *ways && strcmp(ways[k].name, word[1]) != 0)
		k++;
	if (k == sizeof ways / sizeof *ways)
		return 2;
	for (turns = atol(word[2]); turns > 0; turns--) {
		long had = faults();
		double begun = now(), took;

		if (!ways[k].taken())
			return 1;
		took = now() - begun;
		if (least < 0 || took < least) {
			least = took;
			touched = faults() - had;
		}
	}
	printf("%.1f %ld\n", least, touched);
	return 0;
}
