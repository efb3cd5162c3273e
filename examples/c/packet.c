/*
 * A packet path. A device puts large packets into memory of the program's own: a frame for each data block of the second class. Small packets are
 * copied into the pool. A packet begins with its band and the hops left, of which one is taken in place. writev sends the bytes from where they are.
 *
 *     cc packet.c $(pkg-config --cflags --libs strm) -o packet
 */
#include <strm.h>

#include <err.h>
#include <string.h>
#include <sys/uio.h>

enum { SMALLS = 4, FRAMES = 4, FRAME = 2048 };
static const struct strm_class_spec classes[] = { { .size = 64, .count = SMALLS }, { .size = FRAME, .count = FRAMES } };
static const struct strm_queue_spec queues[] = { { .hiwat = 8192, .lowat = 2048, .next = STRM_NO_QUEUE } };
static uint8_t frames[FRAMES][FRAME];

static void must(int code)
{
	if (STRM_FAILED(code))
		errx(1, "%s", strm_error(code));
}

/* Where a packet's bytes are in a frame, or null if they are in the pool. Data blocks of the first class have the first numbers. */
static uint8_t *in_frame(struct strm_pool *pool, struct strm_msg msg)
{
	struct strm_block_place where;

	must(strm_place(pool, msg, 0, &where));
	return where.data < SMALLS ? NULL : frames[where.data - SMALLS] + where.at;
}

/* Makes a message of a packet, rewrites the header in place, and queues the packet by its band. One that has no hops left is freed. */
static void receive(struct strm_pool *pool, const char *bytes, uint32_t size)
{
	const uint8_t *header;
	uint8_t *frame, band, hops;
	size_t length = strlen(bytes);
	struct strm_msg msg;

	must(strm_allocb(pool, size, &msg));
	if ((frame = in_frame(pool, msg)) != NULL) {
		memcpy(frame, bytes, length); /* a device does this by itself */
		must(strm_advance(pool, msg, 0, (uint32_t)length));
		band = frame[0];
		hops = --frame[1];
	} else {
		must(strm_write(pool, msg, 0, bytes, length));
		must(strm_bytes(pool, msg, 0, &header, &length));
		band = header[0];
		hops = header[1] - 1;
		must(strm_overwrite(pool, msg, 1, &hops, 1));
	}
	must(strm_setband(pool, msg, band - '0'));
	must(hops < '0' ? strm_freemsg(pool, msg) : strm_putq(pool, 0, msg));
}

int main(void)
{
	struct strm_config config = { .id = 1, .mblks = 8, .classes = classes, .class_count = 2, .queues = queues, .queue_count = 1, .first_id = 1 };
	struct strm_pool pool = STRM_POOL_INIT;
	struct strm_msg msg;
	struct strm_iov iov;
	size_t count;

	must(strm_open(&pool, &config));
	receive(&pool, "03bulk in a frame\n", FRAME);
	receive(&pool, "10late\n", 64);
	receive(&pool, "12urgent\n", 64);
	while (strm_getq(&pool, 0, &msg) == STRM_OK) {
		must(strm_iov(&pool, msg, 0, &iov, 1, &count));
		if (in_frame(&pool, msg) != NULL)
			iov.base = in_frame(&pool, msg);
		if (writev(1, (const struct iovec *)&iov, (int)count) < 0)
			err(1, "writev");
		must(strm_freemsg(&pool, msg));
	}
	return STRM_FAILED(strm_close(&pool));
}
