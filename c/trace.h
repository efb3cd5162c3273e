/* What trace.c, which has the calls of strm.h, and trace_script.c share. Tested, not proved. */
#ifndef TRACE_H
#define TRACE_H

#include "strm_c.h"

/*
 * Each call that is traced, as in the tables of strm_c.h, and below those that strm.c writes out. strm_untraced_NAME is the library's own
 * strm_NAME, which the Makefile renames.
 */
#define POOL const struct strm_pool *pool
#define STRM_MORE_CALLS(CALL) \
	CALL(freeb, (struct strm_pool *pool, struct strm_msg msg, struct strm_msg *rest), (pool, msg, rest), 1) \
	CALL(unlinkb, (struct strm_pool *pool, struct strm_msg msg, struct strm_msg *rest), (pool, msg, rest), 1) \
	CALL(write, (struct strm_pool *pool, struct strm_msg msg, uint32_t place, const void *bytes, size_t length), \
		(pool, msg, place, bytes, length), 1) \
	CALL(read, (POOL, struct strm_msg msg, uint32_t at, void *into, size_t length, size_t *count), \
		(pool, msg, at, into, length, count), 1) \
	CALL(blocks, (POOL, struct strm_msg msg, uint32_t from, struct strm_block_info *into, size_t length, size_t *count), \
		(pool, msg, from, into, length, count), 1) \
	CALL(iov, (POOL, struct strm_msg msg, uint32_t from, struct strm_iov *into, size_t length, size_t *count), \
		(pool, msg, from, into, length, count), 1) \
	CALL(queued_iov, (POOL, uint32_t head, uint32_t from, struct strm_iov *into, size_t length, size_t *count), \
		(pool, head, from, into, length, count), 1) \
	CALL(overwrite, (struct strm_pool *pool, struct strm_msg msg, uint32_t at, const void *bytes, size_t length), \
		(pool, msg, at, bytes, length), 1) \
	CALL(prepend, (struct strm_pool *pool, struct strm_msg msg, const void *bytes, size_t length), (pool, msg, bytes, length), 1) \
	CALL(shape_all, (struct strm_pool *pool, struct strm_msg msg, const struct strm_block_shape *shapes, size_t length), \
		(pool, msg, shapes, length), 1) \
	CALL(transfer, (struct strm_pool *pool, struct strm_pool *other, struct strm_msg msg, struct strm_msg *moved), \
		(pool, other, msg, moved), 1) \
	CALL(read_queued, (POOL, uint32_t queue, uint32_t place, uint32_t at, void *into, size_t length, size_t *count), \
		(pool, queue, place, at, into, length, count), 1) \
	CALL(allocb_n, (struct strm_pool *pool, uint32_t size, struct strm_msg *msgs, size_t length, size_t *count), \
		(pool, size, msgs, length, count), 1) \
	CALL(freemsg_n, (struct strm_pool *pool, const struct strm_msg *msgs, size_t length, size_t *count), \
		(pool, msgs, length, count), 1) \
	CALL(putq_n, (struct strm_pool *pool, uint32_t queue, const struct strm_msg *msgs, size_t length, size_t *count), \
		(pool, queue, msgs, length, count), 1) \
	CALL(getq_n, (struct strm_pool *pool, uint32_t queue, struct strm_msg *msgs, size_t length, size_t *count), \
		(pool, queue, msgs, length, count), 1) \
	CALL(takeq, (struct strm_pool *pool, uint32_t queue, uint32_t flush, struct strm_msg *msgs, size_t length, size_t *count), \
		(pool, queue, flush, msgs, length, count), 1) \
	CALL(takeq_band, (struct strm_pool *pool, uint32_t queue, uint32_t band, uint32_t flush, struct strm_msg *msgs, size_t length, \
		size_t *count), (pool, queue, band, flush, msgs, length, count), 1)

#pragma GCC visibility push(hidden)

/* Weak, since an older archive lacks calls that programs linked with it cannot make. */
#define DECLARE(call, parameters, arguments, fits) int strm_untraced_##call parameters __attribute__((weak));
STRM_CALLS(DECLARE)
STRM_LOOKS(DECLARE)
STRM_MORE_CALLS(DECLARE)
#undef DECLARE
int strm_untraced_open(struct strm_pool *pool, const struct strm_config *config);
int strm_untraced_close(struct strm_pool *pool);
size_t strm_untraced_report(const struct strm_pool *pool, char *text, size_t length);
int strm_untraced_open_with(struct strm_pool *pool, const struct strm_config *config, const struct strm_allocator *allocator);

#define MOST_LABEL 40

/* What an argument of a call is. The results of OUT ones, and the items of IN ones, are where it points. */
enum kind { CALLED, SEEN, MSG, NUMBER, SIGNED, LENGTH, IN_BYTES, IN_MSGS, IN_FIELDS, OUT_BYTES, OUT_MSG, OUT_LENGTH, OUT_ADDRESS, OUT_IOV, OUT_FIELDS };

/* What an argument is, and of FIELDS ones, whose items have fields of 32 bits, their number and names. */
struct form {
	enum kind kind;
	uint32_t fields;
	const char *names;
};

/* A call: its name with an opening bracket, whether it returns a new message, and its arguments, the first a pool. */
struct traced_call {
	char name[32];
	uint32_t length, is_new, count;
	struct form forms[8];
};

/* An argument. */
union value {
	uint64_t number;
	const void *at;
	struct strm_msg msg;
};

/* Where lines go: a file, or another descriptor; many at once, if `is_late`; and those that are not written yet. */
struct output {
	int fd, is_open, is_file, is_late;
	size_t used;
	char lines[128 << 10];
};

/* With more messages, a script has too few registers to take one apart. */
#define MOST_MSGS 24

/*
 * An open pool. The names of messages are by the numbers of their first blocks. The blocks of a script have numbers of its own: `first` has that
 * of each message's first block, `next` the one after each block, and `unused` those that are not in use. `queue` and `place` say where the message
 * is that a call names by its first block. Before a call that takes messages off a queue, `places` has the place of each, by its first block.
 * `edited` are the messages whose bytes the program may now change through pointers.
 */
struct traced {
	struct traced *after;
	struct strm_pool pool;
	unsigned number;
	uint32_t mblks, classes, queues;
	char queue_labels[STRM_MOST_QUEUES][MOST_LABEL + 1], (*labels)[MOST_LABEL + 1];
	struct output out;
	int is_recorded;
	uint32_t msgs, unused_count, queue, place, calls, enabled;
	uint16_t *first, *next, *unused, *places;
	uint32_t edited_count;
	struct strm_msg edited[MOST_MSGS + 1];
	unsigned char is_told[STRM_MOST_DATA_BLOCKS];
};

/* The text of a call is at most this long, without the bytes of a block. */
#define MOST_LINE 16384

/* The pool of a handle, or null; how many queues are on its run list; and the number of this thread. */
struct traced *strm_traced(const struct strm_pool *pool);
uint32_t strm_trace_enabled(const struct strm_pool *pool);
unsigned strm_trace_thread(void);

/* Appends text to an output, or bytes in hexadecimal. A text that ends with a newline ends a line. */
void strm_trace_print(struct output *out, const char *format, ...) __attribute__((format(printf, 2, 3)));
void strm_trace_hex(struct output *out, const uint8_t *bytes, size_t length);

/* Writes a script's header, the lines of a call, and the report. The program's call is done, except strm_close, or, where the name says so, to come. */
void strm_script_begin(struct traced *traced, const struct strm_config *config);
void strm_script_before(struct traced *traced, const struct traced_call *call, const union value *values);
void strm_script_call(struct traced *traced, const struct traced_call *call, const union value *values, int code);
void strm_script_label(struct traced *traced, uint32_t queue, struct strm_msg msg);
void strm_script_end(struct traced *traced, const char *why);

#pragma GCC visibility pop

#endif
