/*
 * Out of blocks. A reader that gets no message block records a wish for one. The wish's id leads to what waits, by a table. Once a block is free,
 * strm_take_ready returns the wish, and the reader goes on.
 *
 *     cc ready.c $(pkg-config --cflags --libs strm) -o ready
 */
#include <strm.h>

#include <stdio.h>
#include <stdlib.h>

#define WISHES 4

static const struct strm_class_spec classes[] = { { .size = 4, .count = 2 } };
static const struct strm_queue_spec queues[] = { { .hiwat = 64, .lowat = 16, .next = STRM_NO_QUEUE } };

/* The bytes that wait for each wish, by its id. All wishes have one size, so they come back in order, and no two pending ones share a place. */
static const char *waiting[WISHES];

static void must(int code)
{
	if (!STRM_FAILED(code))
		return;
	fprintf(stderr, "ready: %s\n", strm_error(code));
	exit(EXIT_FAILURE);
}

/* Puts 4 bytes on the queue, or lets them wait for a block. */
static void receive(struct strm_pool *pool, const char *bytes)
{
	struct strm_msg msg;
	uint32_t id;
	int code = strm_allocb(pool, 4, &msg);

	if (code == STRM_NO_MBLK || code == STRM_NO_DATA) {
		must(strm_bufcall(pool, 4, &id));
		waiting[id % WISHES] = bytes;
		printf("%s waits: %s\n", bytes, strm_error(code));
		return;
	}
	must(code);
	must(strm_write(pool, msg, 0, bytes, 4));
	must(strm_putq(pool, 0, msg));
	printf("%s is queued\n", bytes);
}

/* Goes on with each reader whose block is there now. Call this after a call that frees blocks. */
static void run_ready(struct strm_pool *pool)
{
	struct strm_wish wish;

	while (strm_take_ready(pool, &wish) == STRM_OK)
		receive(pool, waiting[wish.id % WISHES]);
}

int main(void)
{
	struct strm_pool pool = STRM_POOL_INIT;
	struct strm_config config = {
		.id = 1, .mblks = 2, .classes = classes, .class_count = 1, .queues = queues, .queue_count = 1, .bufcalls = WISHES, .first_id = 1
	};
	struct strm_msg msg;

	must(strm_open(&pool, &config));
	receive(&pool, "lion");
	receive(&pool, "wolf");
	receive(&pool, "hare");
	receive(&pool, "crow");
	while (strm_getq(&pool, 0, &msg) == STRM_OK) {
		must(strm_freemsg(&pool, msg));
		printf("one is taken and freed\n");
		run_ready(&pool);
	}
	must(strm_close(&pool));
	return EXIT_SUCCESS;
}
