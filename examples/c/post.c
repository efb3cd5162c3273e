/*
 * Posts two messages. The first goes on the queue. The second is larger than the largest size class, so it is refused.
 *
 *     cc post.c $(pkg-config --cflags --libs strm) -o post
 *
 * It is in C99, which names the fields of a struct. C++20 has such names too.
 */
#include <stdio.h>
#include <stdlib.h>
#include <strm.h>

static const struct strm_class_spec classes[] = { { .size = 16, .count = 32 }, { .size = 256, .count = 8 } };
static const struct strm_queue_spec queues[] = { { .hiwat = 64, .lowat = 16, .service = 1, .next = STRM_NO_QUEUE } };

/* Puts a message with these bytes on queue 0. If a call is refused, frees the message and returns the code. */
int post(struct strm_pool *pool, const void *bytes, size_t length)
{
	struct strm_msg msg;
	int code;

	if (length > STRM_MOST_DATA_BYTES)
		return STRM_TOO_LARGE;
	code = strm_allocb(pool, (uint32_t)length, &msg);
	if (code != STRM_OK)
		return code;
	code = strm_write(pool, msg, 0, bytes, length);
	if (code == STRM_OK)
		code = strm_putq(pool, 0, msg);
	if (code != STRM_OK)
		strm_freemsg(pool, msg);
	return code;
}

/* Prints where the message blocks are. */
static void print_census(struct strm_pool *pool)
{
	struct strm_census census;

	if (strm_census(pool, &census) == STRM_OK)
		printf("free %lu queued %lu held %lu\n", (unsigned long)census.free, (unsigned long)census.queued, (unsigned long)census.held);
}

int main(void)
{
	static const char bytes[300] = "lion";
	struct strm_pool pool = STRM_POOL_INIT;
	const struct strm_config config = {
		.id = 1, .mblks = 40, .classes = classes, .class_count = 2, .queues = queues, .queue_count = 1, .bufcalls = 0, .first_id = 1,
	};
	int code;

	code = strm_open(&pool, &config);
	if (code != STRM_OK) {
		fprintf(stderr, "post: %s\n", strm_error(code));
		return EXIT_FAILURE;
	}
	printf("4 bytes: %s\n", strm_error(post(&pool, bytes, 4)));
	printf("300 bytes: %s\n", strm_error(post(&pool, bytes, sizeof bytes)));
	print_census(&pool);
	return strm_close(&pool) == STRM_OK ? EXIT_SUCCESS : EXIT_FAILURE;
}
