/*
 * Sends a message of several blocks to three consumers without copying its bytes. Each has message blocks of its own over the same data blocks,
 * so one may trim the header off, and another may have a header of its own. A data block is free again once all have freed their messages.
 *
 *     cc consumers.c $(pkg-config --cflags --libs strm) -o consumers
 */
#include <strm.h>

#include <err.h>
#include <stdio.h>
#include <string.h>

enum { LOG, LINE, TAP };
enum { HEADER = 5 }; /* bytes of "head:" */
static const struct strm_class_spec classes[] = { { .size = 8, .count = 5 } };
#define CONSUMER { .hiwat = 64, .lowat = 16, .next = STRM_NO_QUEUE }
static const struct strm_queue_spec queues[] = { [LOG] = CONSUMER, [LINE] = CONSUMER, [TAP] = CONSUMER };

static void must(int code)
{
	if (code != STRM_OK)
		errx(1, "%s", strm_error(code));
}

static struct strm_msg block_of(struct strm_pool *pool, const char *bytes)
{
	struct strm_msg msg;

	must(strm_allocb(pool, (uint32_t)strlen(bytes), &msg));
	must(strm_write(pool, msg, 0, bytes, strlen(bytes)));
	return msg;
}

static void send_to_all(struct strm_pool *pool)
{
	struct strm_msg msg = block_of(pool, "head:"), copy;
	struct strm_msg whole = block_of(pool, "tap:"), payload;

	must(strm_linkb(pool, msg, block_of(pool, "lion, ")));
	must(strm_linkb(pool, msg, block_of(pool, "wolf")));
	must(strm_dupmsg(pool, msg, &copy));
	must(strm_dupmsg(pool, msg, &payload));
	must(strm_adjmsg(pool, payload, HEADER));
	must(strm_linkb(pool, whole, payload));
	must(strm_putq(pool, LINE, msg));
	must(strm_putq(pool, LOG, copy));
	must(strm_putq(pool, TAP, whole));
}

static void consume(struct strm_pool *pool, uint32_t queue, int32_t trimmed)
{
	struct strm_msg msg;
	struct strm_block_info last;
	struct strm_class_info class;
	char bytes[32];
	size_t count;

	must(strm_getq(pool, queue, &msg));
	must(strm_adjmsg(pool, msg, trimmed));
	must(strm_read(pool, msg, 0, bytes, sizeof bytes, &count));
	must(strm_block(pool, msg, 2, &last));
	must(strm_freemsg(pool, msg));
	must(strm_class_info(pool, 0, &class));
	printf("queue %u: %.*s, references %u, data blocks free afterwards %u\n", (unsigned)queue, (int)count, bytes, (unsigned)last.names,
		(unsigned)class.free);
}

int main(void)
{
	struct strm_config config = { .id = 1, .mblks = 10, .classes = classes, .class_count = 1, .queues = queues, .queue_count = 3, .first_id = 1 };
	struct strm_pool pool = STRM_POOL_INIT;

	must(strm_open(&pool, &config));
	send_to_all(&pool);
	consume(&pool, LINE, HEADER);
	consume(&pool, LOG, 0);
	consume(&pool, TAP, 0);
	return STRM_FAILED(strm_close(&pool));
}
