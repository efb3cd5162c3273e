/*
 * One side of a stream, whose module is a function. strm_serve gives each message that may go on to its next queue, and the user takes
 * messages off the last one. No message is left asleep (docs/FLOW-CONTROL.md).
 *
 *     cc line.c $(pkg-config --cflags --libs strm) -o line
 */
#include <stdio.h>
#include <stdlib.h>
#include <strm.h>

enum { FIRST, MIDDLE, LAST };

static void must(int code)
{
	if (STRM_FAILED(code))
		exit(EXIT_FAILURE);
}

/* The module: it appends a dot, and passes the message on. It frees a message that has no room for one. */
static int dots(struct strm_pool *pool, struct strm_service service, struct strm_msg msg)
{
	if (strm_write(pool, msg, 0, ".", 1) == STRM_OK)
		return strm_putq(pool, service.next, msg);
	return strm_freemsg(pool, msg);
}

int main(void)
{
	struct strm_queue_spec queues[] = { { 64, 16, 1, MIDDLE }, { 4, 0, 1, LAST }, { 4, 0, 0, STRM_NO_QUEUE } };
	struct strm_class_spec sizes = { .size = 8, .count = 8 };
	struct strm_config config = { .mblks = 8, .classes = &sizes, .class_count = 1, .queues = queues, .queue_count = 3, .first_id = 1 };
	struct strm_pool pool = STRM_POOL_INIT;
	struct strm_service service;
	struct strm_msg msg;
	size_t length;
	char bytes[8];

	must(strm_open(&pool, &config));
	for (length = 4; length <= 8; length++) {
		must(strm_allocb(&pool, 8, &msg));
		must(strm_write(&pool, msg, 0, "elephant", length));
		must(strm_putq(&pool, FIRST, msg));
	}
	for (;;) {
		while (strm_serve(&pool, 0, &service, &msg) == STRM_OK)
			must(dots(&pool, service, msg));
		if (strm_getq(&pool, LAST, &msg) == STRM_NONE)
			return strm_close(&pool);
		must(strm_read(&pool, msg, 0, bytes, sizeof bytes, &length));
		must(strm_freemsg(&pool, msg));
		printf("%.*s\n", (int)length, bytes);
	}
}
