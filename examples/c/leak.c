/*
 * Hunts a leak. `msg.head`, the number of a message's first block, is its index in a table of the program's own. The table says who made a
 * message, so each that is held in the end is printed with its maker. A walk by strm_name_at finds also a message that the table does not know.
 *
 *     cc leak.c $(pkg-config --cflags --libs strm) -o leak
 */
#include <strm.h>

#include <err.h>
#include <stdio.h>

enum { MBLKS = 16 };
static const struct strm_class_spec classes[] = { { .size = 16, .count = MBLKS } };
static const struct strm_queue_spec queues[] = { { .hiwat = 64, .lowat = 16, .next = STRM_NO_QUEUE } };
static struct note {
	struct strm_msg msg;
	const char *maker;
} notes[MBLKS];

static void must(int code)
{
	if (STRM_FAILED(code))
		errx(1, "%s", strm_error(code));
}

static void post(struct strm_pool *pool, const char *maker, const char *bytes, size_t length)
{
	struct strm_msg msg;

	must(strm_allocb(pool, (uint32_t)length, &msg));
	notes[msg.head] = (struct note){ .msg = msg, .maker = maker };
	must(strm_write(pool, msg, 0, bytes, length));
	must(strm_putq(pool, 0, msg));
}

static void take_all(struct strm_pool *pool)
{
	struct strm_msg msg;

	while (strm_getq(pool, 0, &msg) == STRM_OK) {
		notes[msg.head].msg = msg; /* a new name, the same first block */
		if (notes[msg.head].maker[0] != 't') /* the timer leaks */
			must(strm_freemsg(pool, msg));
	}
}

static void print_held(struct strm_pool *pool)
{
	struct strm_census census;
	struct strm_msg msg;
	uint32_t bytes;

	must(strm_census(pool, &census));
	printf("%u blocks are held\n", (unsigned)census.held);
	for (unsigned at = 0; at < MBLKS; at++) {
		if (strm_name_at(pool, at, &msg) != STRM_OK)
			continue;
		must(strm_size(pool, msg, &bytes));
		printf("block %u: %u bytes, maker: %s\n", at, (unsigned)bytes,
			strm_same_msg(notes[at].msg, msg) ? notes[at].maker : "unknown");
	}
}

int main(void)
{
	struct strm_config config = { .id = 1, .mblks = MBLKS, .classes = classes, .class_count = 1,
		.queues = queues, .queue_count = 1, .first_id = 1 };
	struct strm_pool pool = STRM_POOL_INIT;
	struct strm_msg unnoted;

	must(strm_open(&pool, &config));
	post(&pool, "line", "abcd", 4);
	post(&pool, "timer", "tick", 4);
	post(&pool, "line", "ef", 2);
	take_all(&pool);
	must(strm_allocb(&pool, 4, &unnoted));
	print_held(&pool);
	return STRM_FAILED(strm_close(&pool));
}
