/*
 * Lines pass from a pipe through a queue to the output. The data blocks are registered with io_uring as one buffer (strm_region): the kernel
 * reads into the room of a block, and writes from its bytes. Where it allows no io_uring, readv and writev do that.
 *
 *     cc ring.c $(pkg-config --cflags --libs strm) -o ring
 */
#define _GNU_SOURCE
#include <strm.h>

#include <err.h>
#include <linux/io_uring.h>
#include <sys/mman.h>
#include <sys/syscall.h>
#include <sys/uio.h>
#include <unistd.h>

enum { LINE = 5, LINES = 4 };
static const struct strm_class_spec classes[] = { { .size = LINE, .count = LINES } };
static const struct strm_queue_spec queues[] = { { .hiwat = 20, .lowat = 5, .next = STRM_NO_QUEUE } };
static struct io_uring_params ring;
static struct io_uring_sqe *entry;
static char *at;
static int ring_fd;

static void must(int holds, const char *what)
{
	if (!holds)
		err(1, "%s", what);
}

/* Opens a ring of one entry, and registers the buffer. If the kernel refuses a step, ring_fd is below 0. */
static void open_ring(const struct iovec *buffer)
{
	ring_fd = (int)syscall(SYS_io_uring_setup, 1, &ring);
	at = mmap(NULL, ring.sq_off.array + sizeof(unsigned), PROT_READ | PROT_WRITE, MAP_SHARED, ring_fd, IORING_OFF_SQ_RING);
	entry = mmap(NULL, sizeof *entry, PROT_READ | PROT_WRITE, MAP_SHARED, ring_fd, IORING_OFF_SQES);
	if (!(ring.features & IORING_FEAT_SINGLE_MMAP) || at == MAP_FAILED || (void *)entry == MAP_FAILED
	    || syscall(SYS_io_uring_register, ring_fd, IORING_REGISTER_BUFFERS, buffer, 1) != 0)
		ring_fd = -1;
}

/* Reads into bytes of the pool, or writes them out. Returns how many, or below 0 if that fails. */
static int pass(int op, int fd, const uint8_t *bytes, size_t length)
{
	struct iovec one = { (void *)bytes, length };
	unsigned *head;

	if (ring_fd < 0)
		return (int)(op == IORING_OP_READ_FIXED ? readv(fd, &one, 1) : writev(fd, &one, 1));
	*entry = (struct io_uring_sqe){ .opcode = (uint8_t)op, .fd = fd, .off = (uint64_t)-1, .addr = (uintptr_t)bytes, .len = (uint32_t)length };
	__atomic_fetch_add((unsigned *)(at + ring.sq_off.tail), 1, __ATOMIC_RELEASE);
	must(syscall(SYS_io_uring_enter, ring_fd, 1, 1, IORING_ENTER_GETEVENTS, NULL, (size_t)0) == 1, "io_uring_enter");
	head = (unsigned *)(at + ring.cq_off.head);
	return ((struct io_uring_cqe *)(at + ring.cq_off.cqes))[__atomic_fetch_add(head, 1, __ATOMIC_ACQ_REL) % ring.cq_entries].res;
}

int main(void)
{
	struct strm_config config = { .id = 1, .mblks = LINES, .classes = classes, .class_count = 1, .queues = queues, .queue_count = 1, .first_id = 1 };
	struct strm_pool pool = STRM_POOL_INIT;
	struct strm_msg msg;
	const uint8_t *bytes = NULL;
	uint8_t *room;
	size_t size = 0, length;
	int in[2], got = 0;

	must(pipe(in) == 0 && write(in[1], "lion\nwolf\nowl\n", 14) == 14 && close(in[1]) == 0, "pipe");
	must(strm_open(&pool, &config) == STRM_OK && strm_region(&pool, 0, &bytes, &size, &length) == STRM_OK, "strm_open");
	open_ring(&(struct iovec){ (void *)bytes, size });
	while (strm_allocb(&pool, LINE, &msg) == STRM_OK && strm_room(&pool, msg, 0, &room, &length) == STRM_OK
	    && (got = pass(IORING_OP_READ_FIXED, in[0], room, length)) > 0)
		must(strm_advance(&pool, msg, 0, (uint32_t)got) == STRM_OK && strm_putq(&pool, 0, msg) == STRM_OK, "strm_putq");
	for (must(got == 0, "read"); strm_getq(&pool, 0, &msg) == STRM_OK; must(strm_freemsg(&pool, msg) == STRM_OK, "strm_freemsg"))
		must(strm_bytes(&pool, msg, 0, &bytes, &length) == STRM_OK && pass(IORING_OP_WRITE_FIXED, 1, bytes, length) == (int)length, "write");
	return strm_close(&pool) != STRM_OK;
}
