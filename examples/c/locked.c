/*
 * Two threads share a pool. The sender waits while the queue is full, and the taker while it is empty: strm_mt.h locks and wakes. At the end
 * the sender shuts the queue, and the taker takes what is left.
 *
 *     cc locked.c $(pkg-config --cflags --libs strm) -lstrm_mt -pthread -o locked
 */
#include <strm_mt.h>

#include <pthread.h>
#include <stdio.h>
#include <stdlib.h>

#define NUMBERS 100000u

enum { WAY };

static struct strm_mt *mt;

static void must(int code)
{
	if (code == STRM_OK)
		return;
	fprintf(stderr, "locked: %s\n", strm_mt_error(code));
	exit(EXIT_FAILURE);
}

/* Sends numbers. It holds the lock while it writes, and waits without it. */
static void *send_all(void *unused)
{
	struct strm_msg msg;
	uint32_t number;

	for (number = 0; number < NUMBERS; number++) {
		must(strm_mt_alloc(mt, sizeof number, &msg, NULL));
		must(strm_write(strm_mt_lock(mt), msg, 0, &number, sizeof number));
		strm_mt_unlock(mt);
		must(strm_mt_send(mt, WAY, msg, NULL));
	}
	must(strm_mt_shut(mt, WAY));
	return unused;
}

/* Takes numbers until the queue is shut and empty, and returns how many there were. */
static uint32_t take_all(void)
{
	struct strm_msg msg;
	uint32_t number, next = 0;
	size_t count;

	while (strm_mt_receive(mt, WAY, &msg, NULL) == STRM_OK) {
		struct strm_pool *pool = strm_mt_lock(mt);

		must(strm_read(pool, msg, 0, &number, sizeof number, &count));
		must(strm_freemsg(pool, msg));
		strm_mt_unlock(mt);
		if (number != next++)
			must(STRM_BAD_ORDER);
	}
	return next;
}

int main(void)
{
	static const struct strm_class_spec classes[] = { { sizeof(uint32_t), 64 } };
	static const struct strm_queue_spec queues[] = { { 128, 32, 0, STRM_NO_QUEUE } };
	static struct strm_config config = { 1, 64, classes, 1, queues, 1, 0, 1 };
	struct strm_census census;
	pthread_t sender;

	must(strm_mt_open(&mt, &config));
	if (pthread_create(&sender, NULL, send_all, NULL) != 0)
		return EXIT_FAILURE;
	printf("%lu numbers came in order\n", (unsigned long)take_all());
	pthread_join(sender, NULL);
	must(strm_census(strm_mt_rdlock(mt), &census));
	strm_mt_rdunlock(mt);
	printf("free %lu queued %lu held %lu\n", (unsigned long)census.free, (unsigned long)census.queued, (unsigned long)census.held);
	must(strm_mt_close(mt));
	return EXIT_SUCCESS;
}
