/*
 * A pool for each of two threads. A thread makes and takes messages in its own pool, and holds that pool's lock alone. strm_transfer hands a message
 * to the other thread's pool. It needs the locks of both pools, which both threads take in the same order.
 *
 *     cc -pthread transfer.c $(pkg-config --cflags --libs strm) -o transfer
 */
#include <strm.h>

#include <err.h>
#include <pthread.h>
#include <stdio.h>

enum { NUMBERS = 20000 };
static const struct strm_class_spec classes[] = { { .size = sizeof(uint32_t), .count = 64 } };
static const struct strm_queue_spec queues[] = { { .hiwat = 128, .lowat = 64, .next = STRM_NO_QUEUE } };

/* A thread's pool with its lock, how many numbers came, and their sum. */
static struct side {
	pthread_mutex_t lock;
	struct strm_pool pool;
	unsigned taken, sum;
} sides[] = { { .lock = PTHREAD_MUTEX_INITIALIZER }, { .lock = PTHREAD_MUTEX_INITIALIZER } };

static void must(int code)
{
	if (STRM_FAILED(code))
		errx(1, "%s", strm_error(code));
}

static void *work(void *given)
{
	struct side *own = (struct side *)given, *other = own == sides ? &sides[1] : &sides[0];
	struct strm_msg msg, next = STRM_NO_MSG;
	uint32_t number, sent = 0, room;
	size_t count;

	while (sent < NUMBERS || own->taken < NUMBERS) {
		pthread_mutex_lock(&own->lock);
		for (; strm_getq(&own->pool, 0, &msg) == STRM_OK; own->taken++) {
			must(strm_read(&own->pool, msg, 0, &number, sizeof number, &count));
			must(strm_freemsg(&own->pool, msg));
			own->sum += number;
		}
		if (sent < NUMBERS && strm_is_no_msg(next)) {
			must(strm_allocb(&own->pool, sizeof sent, &next));
			must(strm_write(&own->pool, next, 0, &sent, sizeof sent));
		}
		pthread_mutex_unlock(&own->lock);
		pthread_mutex_lock(&sides[0].lock);
		pthread_mutex_lock(&sides[1].lock);
		must(strm_bcanput(&other->pool, 0, 0, &room));
		if (room && !strm_is_no_msg(next)) {
			must(strm_transfer(&own->pool, &other->pool, next, &msg));
			must(strm_putq(&other->pool, 0, msg));
			next = STRM_NO_MSG;
			sent++;
		}
		pthread_mutex_unlock(&sides[1].lock);
		pthread_mutex_unlock(&sides[0].lock);
	}
	return NULL;
}

int main(void)
{
	struct strm_config config = { .id = 1, .mblks = 64, .classes = classes, .class_count = 1, .queues = queues, .queue_count = 1, .first_id = 1 };
	pthread_t thread;

	for (int at = 0; at < 2; at++, config.id++)
		must(strm_open(&sides[at].pool, &config));
	if (pthread_create(&thread, NULL, work, &sides[1]) != 0)
		errx(1, "no thread");
	work(&sides[0]);
	pthread_join(thread, NULL);
	printf("%u numbers came, their sum is %u\n", sides[0].taken, sides[0].sum);
	printf("%u numbers came, their sum is %u\n", sides[1].taken, sides[1].sum);
	return STRM_FAILED(strm_close(&sides[0].pool)) || STRM_FAILED(strm_close(&sides[1].pool));
}
