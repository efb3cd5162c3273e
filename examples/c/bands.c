/*
 * Bands under flow control. Bulk goes in band 0 and urgent messages in band 1. Each band of queue 1 (WAY) is full at 8 bytes by itself, so
 * urgent messages still have room when bulk must wait, and they leave first. Queue 0 (SOURCE) never has a message. It leads to WAY and has a
 * service procedure, so the pool enables it once band 0 has drained to 4 bytes.
 *
 *     cc bands.c $(pkg-config --cflags --libs strm) -o bands
 */
#include <strm.h>

#include <err.h>
#include <stdio.h>

enum { SOURCE, WAY };

static const struct strm_class_spec classes[] = { { .size = 4, .count = 16 } };
static const struct strm_queue_spec queues[] = {
	[SOURCE] = { .hiwat = 2, .lowat = 1, .service = 1, .next = WAY },
	[WAY] = { .hiwat = 8, .lowat = 4, .service = 1, .next = STRM_NO_QUEUE }
};

static void must(int code)
{
	if (STRM_FAILED(code))
		errx(1, "%s", strm_error(code));
}

/* Sends 4 bytes in a band if that has room, and returns whether it had. */
static int send_if_room(struct strm_pool *pool, uint32_t band,
	const char *bytes)
{
	struct strm_msg msg;
	uint32_t room;

	must(strm_bcanput(pool, WAY, band, &room));
	printf("%s in band %u: %s\n", bytes, (unsigned)band,
		room ? "sent" : "must wait");
	if (!room)
		return 0;
	must(strm_allocb(pool, 4, &msg));
	must(strm_write(pool, msg, 0, bytes, 4));
	must(strm_setband(pool, msg, band));
	must(strm_putq(pool, WAY, msg));
	return 1;
}

/* Takes the first message off WAY, and says which queues are enabled afterwards. */
static void take(struct strm_pool *pool)
{
	struct strm_msg msg;
	uint32_t queue;
	char bytes[4];
	size_t count;

	if (strm_getq(pool, WAY, &msg) != STRM_OK)
		return;
	must(strm_read(pool, msg, 0, bytes, sizeof bytes, &count));
	must(strm_freemsg(pool, msg));
	printf("%.4s is taken\n", bytes);
	while (strm_next_service(pool, &queue) == STRM_OK)
		printf("  queue %u is enabled\n", (unsigned)queue);
}

int main(void)
{
	const char *bulk[] = { "lion", "wolf", "hare" }, **next = bulk;
	struct strm_pool pool = STRM_POOL_INIT;
	struct strm_config config = {
		.id = 1, .mblks = 16, .classes = classes, .class_count = 1, .queues = queues, .queue_count = 2, .first_id = 1
	};

	must(strm_open(&pool, &config));
	while (send_if_room(&pool, 0, *next))
		next++;
	send_if_room(&pool, 1, "fire");
	take(&pool);
	take(&pool);
	send_if_room(&pool, 0, *next);
	return STRM_FAILED(strm_close(&pool));
}
