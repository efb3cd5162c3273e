/*
 * Relays bytes between two sockets, by two event loops. What comes from a socket goes onto its queue, and from there to the other socket. One
 * loop reads sockets while their queues have room; the other takes messages while sockets take bytes. So a slow reader holds back a fast
 * writer, and not the other direction. The far ends of both sockets are in this program too, and send each other numbers.
 *
 *     cc sockets.c $(pkg-config --cflags --libs strm) -lstrm_mt -pthread -o sockets
 */
#define _GNU_SOURCE
#include <strm_mt.h>

#include <pthread.h>
#include <stdio.h>
#include <stdlib.h>
#include <sys/epoll.h>
#include <sys/socket.h>
#include <unistd.h>

#define NUMBERS 50000u
#define PIECE 512

/* The bytes that fill a queue. Each message has one at least, so a queue has no more messages than that. */
#define ROOM 1024

/* One block more is read into, and one is written from. So each direction has blocks of its own, and does not wait for those of the other. */
enum { DIRECTIONS = 2, BLOCKS = DIRECTIONS * (ROOM + 2) };

static const struct timespec now;
static struct strm_mt *mt;
static int near_end[DIRECTIONS], far_end[DIRECTIONS];

static void must(int holds, const char *what)
{
	if (holds)
		return;
	fprintf(stderr, "sockets: no %s\n", what);
	exit(EXIT_FAILURE);
}

static int descriptor(uint32_t queue, uint32_t what)
{
	int fd;

	must(strm_mt_fd(mt, queue, what, 0, &fd) == STRM_OK, "descriptor");
	return fd;
}

/* Has an event loop report a direction each time that one of its descriptors gets ready. */
static void watch(int loop, int fd, uint32_t events, uint32_t direction)
{
	struct epoll_event event = { .events = events | EPOLLET, .data.u32 = direction };

	must(epoll_ctl(loop, EPOLL_CTL_ADD, fd, &event) == 0, "event");
}

/* What came from a socket, and did not fit on its queue yet. */
static struct strm_msg unsent[DIRECTIONS];

/* Reads from a socket until it has no more, or its queue has no room. Returns 0 once the socket has ended. */
static int read_all(uint32_t queue)
{
	char bytes[PIECE];
	ssize_t count = 1;

	for (;;) {
		if (!strm_is_no_msg(unsent[queue])) {
			if (strm_mt_send(mt, queue, unsent[queue], &now) != STRM_OK)
				return 1;
			unsent[queue] = STRM_NO_MSG;
		}
		count = recv(near_end[queue], bytes, sizeof bytes, MSG_DONTWAIT);
		if (count <= 0)
			return count < 0;
		must(strm_mt_alloc(mt, PIECE, &unsent[queue], &now) == STRM_OK, "block");
		must(strm_write(strm_mt_lock(mt), unsent[queue], 0, bytes, (size_t)count) == STRM_OK, "room");
		strm_mt_unlock(mt);
	}
}

/* What was taken off a queue, and did not fit into the socket yet. */
static struct strm_msg unwritten[DIRECTIONS];

/* Writes the messages of a queue until there are no more, or the socket takes no more. Returns 0 once the queue is shut and empty. */
static int write_all(uint32_t queue)
{
	char bytes[PIECE];
	size_t length;
	ssize_t count;
	int code;

	for (;;) {
		if (strm_is_no_msg(unwritten[queue]) && (code = strm_mt_receive(mt, queue, &unwritten[queue], &now)) != STRM_OK)
			return code != STRM_MT_CLOSED;
		must(strm_read(strm_mt_rdlock(mt), unwritten[queue], 0, bytes, sizeof bytes, &length) == STRM_OK, "message");
		strm_mt_rdunlock(mt);
		count = send(near_end[1 - queue], bytes, length, MSG_DONTWAIT);
		if (count < 0)
			return 1;
		if ((size_t)count < length) {
			must(strm_adjmsg(strm_mt_lock(mt), unwritten[queue], (int32_t)count) == STRM_OK, "bytes");
		} else {
			must(strm_freemsg(strm_mt_lock(mt), unwritten[queue]) == STRM_OK, "message");
			unwritten[queue] = STRM_NO_MSG;
		}
		strm_mt_unlock(mt);
	}
}

/* Reads both sockets, and shuts the queue of each that has ended. */
static void *read_sockets(void *unused)
{
	int loop = epoll_create1(0), open = DIRECTIONS;
	struct epoll_event event;
	uint32_t queue;

	for (queue = 0; queue < DIRECTIONS; queue++) {
		watch(loop, near_end[queue], EPOLLIN, queue);
		watch(loop, descriptor(queue, STRM_MT_WRITABLE), EPOLLIN, queue);
	}
	while (open > 0)
		if (epoll_wait(loop, &event, 1, -1) == 1 && !read_all(event.data.u32)) {
			epoll_ctl(loop, EPOLL_CTL_DEL, near_end[event.data.u32], NULL);
			epoll_ctl(loop, EPOLL_CTL_DEL, descriptor(event.data.u32, STRM_MT_WRITABLE), NULL);
			strm_mt_shut(mt, event.data.u32);
			open--;
		}
	close(loop);
	return unused;
}

/* Writes both sockets, and ends the output of each whose queue is shut and empty. */
static void *write_sockets(void *unused)
{
	int loop = epoll_create1(0), open = DIRECTIONS;
	struct epoll_event event;
	uint32_t queue;

	for (queue = 0; queue < DIRECTIONS; queue++) {
		watch(loop, descriptor(queue, STRM_MT_READABLE), EPOLLIN, queue);
		watch(loop, near_end[1 - queue], EPOLLOUT, queue);
	}
	while (open > 0)
		if (epoll_wait(loop, &event, 1, -1) == 1 && !write_all(event.data.u32)) {
			epoll_ctl(loop, EPOLL_CTL_DEL, near_end[1 - event.data.u32], NULL);
			epoll_ctl(loop, EPOLL_CTL_DEL, descriptor(event.data.u32, STRM_MT_READABLE), NULL);
			shutdown(near_end[1 - event.data.u32], SHUT_WR);
			open--;
		}
	close(loop);
	return unused;
}

/* A far end: sends numbers. */
static void *send_numbers(void *end)
{
	uint32_t number;

	for (number = 0; number < NUMBERS; number++)
		must(send(*(int *)end, &number, sizeof number, 0) == sizeof number, "send");
	shutdown(*(int *)end, SHUT_WR);
	return end;
}

/* A far end: returns how many numbers come in order. */
static uint32_t receive_numbers(int end)
{
	uint32_t number, next = 0;

	while (recv(end, &number, sizeof number, MSG_WAITALL) == sizeof number && number == next)
		next++;
	return next;
}

int main(void)
{
	static const struct strm_class_spec classes[] = { { PIECE, BLOCKS } };
	static const struct strm_queue_spec queues[] = { { ROOM, PIECE, 0, STRM_NO_QUEUE }, { ROOM, PIECE, 0, STRM_NO_QUEUE } };
	static const struct strm_config config = { 1, BLOCKS, classes, 1, queues, DIRECTIONS, 0, 1 };
	pthread_t loops[2], senders[DIRECTIONS];
	int at, pair[2];

	must(strm_mt_open(&mt, &config) == STRM_OK, "pool");
	for (at = 0; at < DIRECTIONS; at++) {
		must(socketpair(AF_UNIX, SOCK_STREAM, 0, pair) == 0, "sockets");
		near_end[at] = pair[0];
		far_end[at] = pair[1];
	}
	must(pthread_create(&loops[0], NULL, read_sockets, NULL) == 0 && pthread_create(&loops[1], NULL, write_sockets, NULL) == 0, "thread");
	for (at = 0; at < DIRECTIONS; at++)
		must(pthread_create(&senders[at], NULL, send_numbers, &far_end[at]) == 0, "thread");
	for (at = 0; at < DIRECTIONS; at++)
		printf("%lu numbers came in order\n", (unsigned long)receive_numbers(far_end[at]));
	for (at = 0; at < 2; at++) {
		pthread_join(loops[at], NULL);
		pthread_join(senders[at], NULL);
		close(near_end[at]);
		close(far_end[at]);
	}
	must(strm_mt_close(mt) == STRM_OK, "pool");
	return EXIT_SUCCESS;
}
