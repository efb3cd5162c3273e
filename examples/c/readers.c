/*
 * Three threads look at a pool at the same time, each under the read lock of a pthread_rwlock_t, while main moves messages from queue 0 to
 * queue 1 under the write lock. At each look the blocks add up, and no message is lost: both queues together have 32.
 *
 *     cc -pthread readers.c $(pkg-config --cflags --libs strm) -o readers
 */
#define _POSIX_C_SOURCE 200112L
#include <strm.h>

#include <err.h>
#include <pthread.h>
#include <stdio.h>

enum { FROM, TO };
enum { MBLKS = 64, MSGS = 32, READERS = 3, LOOKS = 10000 };
static const struct strm_class_spec classes[] = { { .size = 8, .count = MBLKS } };
static const struct strm_queue_spec queues[] = {
	{ .hiwat = 1024, .lowat = 256, .service = 1, .next = TO },
	{ .hiwat = 1024, .lowat = 256, .service = 1, .next = STRM_NO_QUEUE }
};
static struct strm_pool pool = STRM_POOL_INIT;
static pthread_rwlock_t lock = PTHREAD_RWLOCK_INITIALIZER;

static void must(int code)
{
	if (code != STRM_OK)
		errx(1, "%s", strm_error(code));
}

static void *look_often(void *unused)
{
	struct strm_census census;
	uint32_t waiting, moved;

	for (int i = 0; i < LOOKS; i++) {
		pthread_rwlock_rdlock(&lock);
		must(strm_census(&pool, &census));
		must(strm_qsize(&pool, FROM, &waiting));
		must(strm_qsize(&pool, TO, &moved));
		pthread_rwlock_unlock(&lock);
		if (census.free + census.queued + census.held != MBLKS || waiting + moved != MSGS)
			errx(1, "something is missing");
	}
	return unused;
}

static void move_all(void)
{
	struct strm_msg msg;

	for (int i = 0; i < MSGS; i++) {
		pthread_rwlock_wrlock(&lock);
		must(strm_getq(&pool, FROM, &msg));
		must(strm_putq(&pool, TO, msg));
		pthread_rwlock_unlock(&lock);
	}
}

int main(void)
{
	struct strm_config config = { .id = 1, .mblks = MBLKS, .classes = classes, .class_count = 1,
		.queues = queues, .queue_count = 2, .bufcalls = 0, .first_id = 1 };
	pthread_t readers[READERS];
	struct strm_msg msg;

	must(strm_open(&pool, &config));
	for (int i = 0; i < MSGS; i++) {
		must(strm_allocb(&pool, 8, &msg));
		must(strm_putq(&pool, FROM, msg));
	}
	for (int i = 0; i < READERS; i++)
		if (pthread_create(&readers[i], NULL, look_often, NULL) != 0)
			errx(1, "no thread");
	move_all();
	for (int i = 0; i < READERS; i++)
		pthread_join(readers[i], NULL);
	printf("%d threads looked %d times each, while %d messages moved\n", READERS, LOOKS, MSGS);
	return STRM_FAILED(strm_close(&pool));
}
