/*
 * A put procedure and a service procedure, with flow control and back-enabling. Messages go from queue 0 to queue 1, which is full at
 * 8 bytes. If queue 1 is full, the service procedure of queue 0 puts its message back and stops. The pool enables queue 0 again once
 * queue 1 has 4 bytes or fewer.
 *
 *     cc service.c $(pkg-config --cflags --libs strm) -o service
 */
#include <strm.h>

#include <stdio.h>
#include <stdlib.h>

enum { INNER, OUTER };

static const struct strm_class_spec classes[] = { { 16, 16 } };
static const struct strm_queue_spec queues[] = {
	{ 64, 16, 1, OUTER },
	{ 8, 4, 1, STRM_NO_QUEUE }
};

/* Ends the program if a call is refused, which does not happen here. */
static void must(int code)
{
	char text[80];

	if (code == STRM_OK)
		return;
	strm_text(code, text, sizeof text);
	fprintf(stderr, "service: %s\n", text);
	exit(EXIT_FAILURE);
}

/* The put procedure of the inner queue: a message of high priority goes to the outer queue at once, and any other waits for the service
 * procedure. The outer queue's put procedure would only call strm_putq, so this one calls strm_putq directly. */
static void put_inner(struct strm_pool *pool, struct strm_msg msg)
{
	struct strm_block_info first;

	must(strm_block(pool, msg, 0, &first));
	if (first.type >= STRM_M_IOCACK)
		must(strm_putq(pool, OUTER, msg));
	else
		must(strm_putq(pool, INNER, msg));
}

/* Makes a message of 4 bytes, and hands it to the put procedure. */
static void post(struct strm_pool *pool, const char *bytes)
{
	struct strm_msg msg;

	must(strm_allocb(pool, 4, &msg));
	must(strm_write(pool, msg, 0, bytes, 4));
	put_inner(pool, msg);
}

/* Whether the outer queue has room for this message. */
static uint32_t has_room(struct strm_pool *pool, struct strm_msg msg)
{
	struct strm_block_info first;
	uint32_t room;

	must(strm_block(pool, msg, 0, &first));
	must(strm_bcanput(pool, OUTER, first.band, &room));
	return room;
}

/* The service procedure of the inner queue: it hands messages on until there are none, or no room for one. High priority, which needs no
 * room, never comes here (put_inner). */
static void serve_inner(struct strm_pool *pool)
{
	struct strm_msg msg;
	int code;

	while ((code = strm_getq(pool, INNER, &msg)) != STRM_NONE) {
		must(code);
		if (!has_room(pool, msg)) {
			must(strm_putbq(pool, INNER, msg));
			printf("  no room: one goes back\n");
			return;
		}
		must(strm_putq(pool, OUTER, msg));
		printf("  one goes on\n");
	}
}

/* The service procedure of the outer queue takes messages until there are none. If it stopped earlier, it would have to call
 * strm_qenable: after a strm_getq that took a message, strm_putq of an ordinary message of band 0 does not enable the queue. */
static void serve_outer(struct strm_pool *pool)
{
	char bytes[16];
	struct strm_msg msg;
	size_t count;
	int code;

	while ((code = strm_getq(pool, OUTER, &msg)) != STRM_NONE) {
		must(code);
		must(strm_read(pool, msg, 0, bytes, sizeof bytes, &count));
		printf("  out: %.*s\n", (int)count, bytes);
		must(strm_freemsg(pool, msg));
	}
}

/* Runs the service procedure of each enabled queue, until none is enabled. In STREAMS the kernel has this loop. */
static void serve_enabled(struct strm_pool *pool)
{
	uint32_t queue;
	int code;

	while ((code = strm_next_service(pool, &queue)) != STRM_NONE) {
		must(code);
		printf("queue %lu is served\n", (unsigned long)queue);
		if (queue == INNER)
			serve_inner(pool);
		else
			serve_outer(pool);
	}
}

int main(void)
{
	struct strm_pool pool = STRM_POOL_INIT;
	struct strm_config config = { 1, 16, NULL, 1, NULL, 2, 0, 1 };
	struct strm_census census;

	config.classes = classes;
	config.queues = queues;
	must(strm_open(&pool, &config));
	post(&pool, "lion");
	post(&pool, "wolf");
	post(&pool, "hare");
	post(&pool, "crow");
	serve_enabled(&pool);
	must(strm_census(&pool, &census));
	printf("free %lu queued %lu held %lu\n", (unsigned long)census.free, (unsigned long)census.queued, (unsigned long)census.held);
	must(strm_close(&pool));
	return EXIT_SUCCESS;
}
