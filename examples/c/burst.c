/*
 * Bursts of messages. One call allocates, puts, takes or frees several. It may do fewer than the program asked for, also if it returns STRM_OK,
 * so each count is compared with what was asked. The single call says why a burst is short.
 *
 *     cc burst.c $(pkg-config --cflags --libs strm) -o burst
 */
#include <strm.h>

#include <stdio.h>
#include <stdlib.h>

#define BURST 4u

static const struct strm_class_spec classes[] = { { .size = 4, .count = 8 } };
static const struct strm_queue_spec queues[] = {
	{ .hiwat = 64, .lowat = 16, .next = STRM_NO_QUEUE }
};

static void must(int code)
{
	if (!STRM_FAILED(code))
		return;
	fprintf(stderr, "burst: %s\n", strm_error(code));
	exit(EXIT_FAILURE);
}

/* Sends a burst, or the part of it for which there are blocks. */
static void send_burst(struct strm_pool *pool)
{
	struct strm_msg msgs[BURST], next;
	size_t made, put, at;

	strm_allocb_n(pool, 4, msgs, BURST, &made); /* stores 0 if it is refused */
	for (at = 0; at < made; at++)
		must(strm_write(pool, msgs[at], 0, "tick", 4));
	must(strm_putq_n(pool, 0, msgs, made, &put));
	if (put < made)
		must(strm_putq(pool, 0, msgs[put])); /* says why */
	printf("%u of %u are sent\n", (unsigned)put, BURST);
	if (made < BURST)
		printf("the next is not: %s\n",
			strm_error(strm_allocb(pool, 4, &next)));
}

/* Takes all messages, up to a burst at a time. At the end the want-to-read
 * mark is set, so the next message enables a queue with a service procedure. */
static void take_all(struct strm_pool *pool)
{
	struct strm_msg msgs[BURST];
	size_t count, freed;

	while (strm_getq_n(pool, 0, msgs, BURST, &count) == STRM_OK) {
		must(strm_freemsg_n(pool, msgs, count, &freed));
		printf("%u are taken, %u freed\n", (unsigned)count, (unsigned)freed);
	}
}

int main(void)
{
	struct strm_pool pool = STRM_POOL_INIT;
	struct strm_config config = {
		.id = 1, .mblks = 6, .classes = classes, .class_count = 1,
		.queues = queues, .queue_count = 1, .first_id = 1
	};

	must(strm_open(&pool, &config));
	send_burst(&pool);
	send_burst(&pool);
	take_all(&pool);
	must(strm_close(&pool));
	return EXIT_SUCCESS;
}
