/*
 * How many blocks a program needs: its work is done once over a pool with more than enough, which then says how few were free.
 *
 *     cc sizing.c $(pkg-config --cflags --libs strm) -o sizing
 */
#include <strm.h>

#include <stdio.h>
#include <stdlib.h>

#define MBLKS 32u
#define WAITING 3u

static const struct strm_class_spec classes[] = {
	{ .size = 64, .count = 32 }, { .size = 256, .count = 32 }
};
static const struct strm_queue_spec queues[] = {
	{ .hiwat = 4096, .lowat = 64, .next = STRM_NO_QUEUE }
};

static void must(int code)
{
	if (!STRM_FAILED(code))
		return;
	fprintf(stderr, "sizing: %s\n", strm_error(code));
	exit(EXIT_FAILURE);
}

/* The work: packets come, and leave once more than WAITING are there. */
static void work(struct strm_pool *pool)
{
	static const uint32_t sizes[] = { 40, 200, 30, 250, 64, 10, 100, 20 };
	struct strm_msg msg;
	uint32_t at;

	for (at = 0; at < sizeof sizes / sizeof sizes[0]; at++) {
		must(strm_allocb(pool, sizes[at], &msg));
		must(strm_putq(pool, 0, msg));
		if (at >= WAITING) {
			must(strm_getq(pool, 0, &msg));
			must(strm_freemsg(pool, msg));
		}
	}
	must(strm_flushq(pool, 0, STRM_FLUSHALL));
}

static void print_needs(struct strm_pool *pool)
{
	uint32_t fewest, at;

	must(strm_least_free_blocks(pool, &fewest));
	printf("message blocks: %u of %u\n", MBLKS - fewest, MBLKS);
	for (at = 0; strm_least_free(pool, at, &fewest) == STRM_OK; at++)
		printf("data blocks of %u bytes: %u of %u\n", classes[at].size,
			classes[at].count - fewest, classes[at].count);
}

int main(void)
{
	struct strm_pool pool = STRM_POOL_INIT;
	struct strm_config config = {
		.id = 1, .mblks = MBLKS, .classes = classes, .class_count = 2,
		.queues = queues, .queue_count = 1, .first_id = 1
	};
	struct strm_msg all[MBLKS];
	size_t made, freed;

	must(strm_open(&pool, &config));
	/* what a program takes at its start need not count */
	must(strm_allocb_n(&pool, 64, all, MBLKS, &made));
	must(strm_freemsg_n(&pool, all, made, &freed));
	must(strm_reset_least(&pool));
	work(&pool);
	print_needs(&pool);
	must(strm_close(&pool));
	return EXIT_SUCCESS;
}
