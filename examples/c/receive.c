/*
 * A relay between two sockets. recv puts each packet straight into the pool, into the room of a data block. The hop count in its header is lowered
 * where it is, and writev sends the packet from there. No byte is copied in between.
 *
 *     cc receive.c $(pkg-config --cflags --libs strm) -o receive
 */
#include <strm.h>

#include <err.h>
#include <stdio.h>
#include <sys/socket.h>
#include <sys/uio.h>

enum { PACKET = 1500, PACKETS = 4 };
static const struct strm_class_spec classes[] = { { .size = PACKET, .count = PACKETS } };
static const struct strm_queue_spec queues[] = { { .hiwat = 6000, .lowat = 1500, .next = STRM_NO_QUEUE } };

static void must(int code)
{
	if (STRM_FAILED(code))
		errx(1, "%s", strm_error(code));
}

/* Makes a message of the next packet. Returns whether there was one. */
static int receive(struct strm_pool *pool, int from, struct strm_msg *msg)
{
	uint8_t *room;
	size_t length;
	ssize_t got;

	must(strm_allocb(pool, PACKET, msg));
	must(strm_room(pool, *msg, 0, &room, &length));
	if ((got = recv(from, room, length, MSG_DONTWAIT)) <= 0) {
		must(strm_freemsg(pool, *msg));
		return 0;
	}
	must(strm_advance(pool, *msg, 0, (uint32_t)got));
	return 1;
}

/* Lowers the hop count, the first byte of a packet, and queues the packet. One without hops left is freed. */
static void relay(struct strm_pool *pool, struct strm_msg msg)
{
	uint8_t *header;
	size_t length;

	must(strm_edit(pool, msg, 0, &header, &length));
	must(header[0]-- == '0' ? strm_freemsg(pool, msg) : strm_putq(pool, 0, msg));
}

int main(void)
{
	struct strm_config config = { .id = 1, .mblks = PACKETS, .classes = classes, .class_count = 1, .queues = queues, .queue_count = 1, .first_id = 1 };
	struct strm_pool pool = STRM_POOL_INIT;
	struct strm_msg msg;
	struct strm_iov iov[1];
	size_t count;
	int in[2], out[2];
	char packet[PACKET];
	ssize_t got;

	if (socketpair(AF_UNIX, SOCK_DGRAM, 0, in) != 0 || socketpair(AF_UNIX, SOCK_DGRAM, 0, out) != 0)
		err(1, "socketpair");
	must(strm_open(&pool, &config));
	if (send(in[0], "3 lion", 6, 0) < 0 || send(in[0], "0 late", 6, 0) < 0 || send(in[0], "9 wolf", 6, 0) < 0)
		err(1, "send");
	while (receive(&pool, in[1], &msg))
		relay(&pool, msg);
	while (strm_getq(&pool, 0, &msg) == STRM_OK) {
		must(strm_iov(&pool, msg, 0, iov, 1, &count));
		if (writev(out[0], (const struct iovec *)iov, (int)count) < 0)
			err(1, "writev");
		must(strm_freemsg(&pool, msg));
	}
	while ((got = recv(out[1], packet, sizeof packet, MSG_DONTWAIT)) > 0)
		printf("%.*s\n", (int)got, packet);
	return STRM_FAILED(strm_close(&pool));
}
