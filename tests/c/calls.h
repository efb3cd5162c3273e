/* Calls on a pool as data, with registers for messages, and their replies, as in the program strm. */
#ifndef CALLS_H
#define CALLS_H

#include "strm.h"

#include <stdio.h>

#define REGISTERS 26
#define MOST_OCTETS 64
/* The most structs or messages that an array of a call has. */
#define MOST_ITEMS 4

/* An answer as one of 64 bits: a kind of reply, or a refusal by its code. */
#define IS(kind) ((uint64_t)1 << (kind))
#define NOT(code) ((uint64_t)1 << ((int)REFUSED + (code)))

/* A row for each call of strm.h that returns a code, but for those that open and close pools. It is a LOOK if the call is a look, and a CALL
 * otherwise. It has:
 *
 *   - The call's verb, which in lower case is its word. Its name without `strm_`.
 *   - Letters for what the call names, in the order of its line.
 *   - Its arguments: numbers of `c`, a struct call, and the rest of `a`, a struct arguments.
 *   - Its weight when calls are drawn.
 *   - The answers that must come within CALLS_TO_EACH_ANSWER calls: all but RefMax and `taken`.
 *
 * x, X and Z are registers that it takes from, X and Z if their messages are handed over, and v is one whose name need not be valid. y is a
 * register that it puts into, w one of the other pool. g are registers that it takes from, p some that it puts into, as many as an array has
 * items. i is the number of items, j shapes, as many. q is a queue, k a place, b a band, s a signed number, t a type, f a flush, o octets. h and l are water
 * marks. u are octets that are written where the call found room for them. Other letters are for a number: r of bytes to move by, d for the id
 * of a wish, n for any other. m and e are for the first block of a held and of a queued message.
 *
 * The calls that the program strm has, too, in the order of the table of strm_pool: */
#define WORDS(CALL, LOOK) \
	CALL(ALLOCB, allocb, "yn", (pool, c->number, a->y), 14, IS(DONE) | NOT(STRM_TOO_LARGE) | NOT(STRM_NO_MBLK) | NOT(STRM_NO_DATA)) \
	LOOK(TESTB, testb, "n", (pool, c->number, TO(uint32_t)), 1, IS(YES) | IS(NO)) \
	CALL(DUPB, dupb, "xy", (pool, a->x, a->y), 2, IS(DONE) | IS(EMPTY) | NOT(STRM_NO_MBLK)) \
	CALL(DUPMSG, dupmsg, "xy", (pool, a->x, a->y), 3, IS(DONE) | IS(EMPTY) | NOT(STRM_NO_MBLK)) \
	CALL(COPYB, copyb, "xy", (pool, a->x, a->y), 1, IS(DONE) | IS(EMPTY) | NOT(STRM_NO_MBLK) | NOT(STRM_NO_DATA)) \
	CALL(COPYMSG, copymsg, "xy", (pool, a->x, a->y), 2, IS(DONE) | IS(EMPTY) | NOT(STRM_NO_MBLK) | NOT(STRM_NO_DATA)) \
	CALL(WRITE, write, "xko", (pool, a->x, c->place, a->octets, a->length), 16, \
		IS(DONE) | IS(EMPTY) | NOT(STRM_NO_SUCH_BLOCK) | NOT(STRM_SHARED) | NOT(STRM_NO_ROOM)) \
	CALL(SETTYPE, settype, "xkt", (pool, a->x, c->place, c->type), 4, \
		IS(DONE) | IS(EMPTY) | NOT(STRM_NO_SUCH_BLOCK) | NOT(STRM_SHARED)) \
	CALL(SETBAND, setband, "xb", (pool, a->x, c->band), 3, IS(DONE) | IS(EMPTY)) \
	CALL(LINKB, linkb, "xZ", (pool, a->x, a->z), 5, IS(DONE) | IS(EMPTY)) \
	CALL(UNLINKB, unlinkb, "xy", (pool, a->x, a->rest), 2, IS(DONE) | IS(NOTHING) | IS(EMPTY)) \
	CALL(RMVB, rmvb, "Xky", (pool, a->x, c->place, a->y, a->rest), 2, IS(DONE) | IS(EMPTY) | NOT(STRM_NO_SUCH_BLOCK)) \
	CALL(ADJMSG, adjmsg, "xs", (pool, a->x, c->count), 4, IS(DONE) | IS(EMPTY) | NOT(STRM_SHORT)) \
	CALL(PULLUPMSG, pullupmsg, "xs", (pool, a->x, c->count), 5, \
		IS(DONE) | IS(EMPTY) | NOT(STRM_SHORT) | NOT(STRM_TOO_LARGE) | NOT(STRM_NO_DATA)) \
	LOOK(MSGDSIZE, msgdsize, "x", (pool, a->x, TO(uint32_t)), 1, IS(TOLD_SIZE) | IS(EMPTY)) \
	LOOK(SIZE, size, "x", (pool, a->x, TO(uint32_t)), 1, IS(TOLD_SIZE) | IS(EMPTY)) \
	LOOK(READ, read, "xk", (pool, a->x, c->place, TO(void), a->length, a->done), 2, IS(TOLD_BYTES) | IS(EMPTY)) \
	LOOK(BLOCK, block, "xk", (pool, a->x, c->place, TO(struct strm_block_info)), 2, IS(TOLD_BLOCK) | IS(EMPTY) | NOT(STRM_NO_SUCH_BLOCK)) \
	CALL(FREEB, freeb, "X", (pool, a->x, a->rest), 2, IS(DONE) | IS(EMPTY)) \
	CALL(FREEMSG, freemsg, "X", (pool, a->x), 3, IS(DONE) | IS(EMPTY)) \
	CALL(PUTQ, putq, "qX", (pool, c->queue, a->x), 7, IS(DONE) | IS(EMPTY) | NOT(STRM_NO_SUCH_QUEUE)) \
	CALL(PUTBQ, putbq, "qX", (pool, c->queue, a->x), 2, IS(DONE) | IS(EMPTY) | NOT(STRM_NO_SUCH_QUEUE)) \
	CALL(INSQ, insq, "qkX", (pool, c->queue, c->place, a->x), 3, \
		IS(DONE) | IS(EMPTY) | NOT(STRM_NO_SUCH_QUEUE) | NOT(STRM_NO_SUCH_PLACE) | NOT(STRM_BAD_ORDER)) \
	CALL(GETQ, getq, "qy", (pool, c->queue, a->y), 6, IS(DONE) | IS(NOTHING) | NOT(STRM_NO_SUCH_QUEUE)) \
	CALL(RMVQ, rmvq, "qky", (pool, c->queue, c->place, a->y), 3, IS(DONE) | NOT(STRM_NO_SUCH_QUEUE) | NOT(STRM_NO_SUCH_PLACE)) \
	CALL(FLUSHQ, flushq, "qf", (pool, c->queue, c->flush), 1, IS(DONE) | NOT(STRM_NO_SUCH_QUEUE)) \
	CALL(FLUSHBAND, flushband, "qbf", (pool, c->queue, c->band, c->flush), 1, IS(DONE) | NOT(STRM_NO_SUCH_QUEUE)) \
	CALL(BCANPUT, bcanput, "qb", (pool, c->queue, c->band, TO(uint32_t)), 8, IS(YES) | IS(NO) | NOT(STRM_NO_SUCH_QUEUE)) \
	CALL(STRQSET, strqset, "qbhl", (pool, c->queue, c->band, c->hiwat, c->lowat), 3, \
		IS(DONE) | NOT(STRM_NO_SUCH_QUEUE) | NOT(STRM_BAD_MARKS)) \
	LOOK(STRQGET, strqget, "qb", (pool, c->queue, c->band, TO(struct strm_marks)), 1, IS(TOLD_MARKS) | NOT(STRM_NO_SUCH_QUEUE)) \
	LOOK(QSIZE, qsize, "q", (pool, c->queue, TO(uint32_t)), 1, IS(TOLD_SIZE) | NOT(STRM_NO_SUCH_QUEUE)) \
	CALL(QENABLE, qenable, "q", (pool, c->queue), 1, IS(DONE) | NOT(STRM_NO_SUCH_QUEUE)) \
	CALL(NOENABLE, noenable, "q", (pool, c->queue), 1, IS(DONE) | NOT(STRM_NO_SUCH_QUEUE)) \
	CALL(ENABLEOK, enableok, "q", (pool, c->queue), 2, IS(DONE) | NOT(STRM_NO_SUCH_QUEUE)) \
	CALL(SERVICE, next_service, "", (pool, TO(uint32_t)), 3, IS(TOLD_QUEUE) | IS(NOTHING)) \
	CALL(BUFCALL, bufcall, "n", (pool, c->number, TO(uint32_t)), 3, IS(TOLD_ID) | NOT(STRM_TOO_LARGE) | NOT(STRM_FULL) | NOT(STRM_IDS_SPENT)) \
	CALL(UNBUFCALL, unbufcall, "d", (pool, c->number), 1, IS(DONE) | NOT(STRM_NOT_PENDING)) \
	CALL(READY, take_ready, "", (pool, TO(struct strm_wish)), 2, IS(TOLD_READY) | IS(NOTHING)) \
	LOOK(CENSUS, census, "", (pool, TO(struct strm_census)), 1, IS(TOLD_CENSUS))

/* The calls that only strm.h has: */
#define CALLS_OF_C(CALL, LOOK) \
	LOOK(BLOCKS, blocks, "xki", (pool, a->x, c->place, TO(struct strm_block_info), a->length, a->done), 2, IS(TOLD_BLOCKS) | IS(EMPTY)) \
	LOOK(MESSAGE, message, "x", (pool, a->x, TO(struct strm_queued)), 2, IS(TOLD_QUEUED) | IS(EMPTY)) \
	LOOK(BLOCK_NUMBER, block_number, "xk", (pool, a->x, c->place, TO(uint32_t)), 3, IS(TOLD_HEAD) | IS(EMPTY) | NOT(STRM_NO_SUCH_BLOCK)) \
	LOOK(HAS, has, "v", (pool, a->x, TO(uint32_t)), 1, IS(YES) | IS(NO)) \
	LOOK(NAME_AT, name_at, "m", (pool, c->number, a->y), 2, IS(TOLD_NAME) | IS(NOTHING)) \
	LOOK(BYTES, bytes, "xk", (pool, a->x, c->place, TO(const uint8_t *), a->done), 3, IS(TOLD_BYTES) | IS(EMPTY) | NOT(STRM_NO_SUCH_BLOCK)) \
	LOOK(IOV, iov, "xki", (pool, a->x, c->place, TO(struct strm_iov), a->length, a->done), 3, IS(TOLD_IOV) | IS(EMPTY)) \
	LOOK(PLACE, place, "xk", (pool, a->x, c->place, TO(struct strm_block_place)), 3, IS(TOLD_PLACE) | IS(EMPTY) | NOT(STRM_NO_SUCH_BLOCK)) \
	LOOK(REGION, region, "k", (pool, c->place, TO(const uint8_t *), a->done, a->stride), 2, IS(TOLD_BYTES) | IS(NOTHING)) \
	CALL(OVERWRITE, overwrite, "xko", (pool, a->x, c->place, a->octets, a->length), 6, \
		IS(DONE) | IS(EMPTY) | NOT(STRM_SHORT) | NOT(STRM_SHARED)) \
	CALL(RESERVE, reserve, "xkr", (pool, a->x, c->place, c->number), 6, \
		IS(DONE) | IS(EMPTY) | NOT(STRM_NO_SUCH_BLOCK) | NOT(STRM_SHARED) | NOT(STRM_NO_ROOM)) \
	CALL(PREPEND, prepend, "xo", (pool, a->x, a->octets, a->length), 6, IS(DONE) | IS(EMPTY) | NOT(STRM_SHARED) | NOT(STRM_NO_ROOM)) \
	CALL(ADVANCE, advance, "xkr", (pool, a->x, c->place, c->number), 5, \
		IS(DONE) | IS(EMPTY) | NOT(STRM_NO_SUCH_BLOCK) | NOT(STRM_SHARED) | NOT(STRM_NO_ROOM)) \
	CALL(ROOM, room, "xku", (pool, a->x, c->place, TO(uint8_t *), a->done), 4, \
		IS(TOLD_BYTES) | IS(EMPTY) | NOT(STRM_NO_SUCH_BLOCK) | NOT(STRM_SHARED)) \
	CALL(EDIT, edit, "xku", (pool, a->x, c->place, TO(uint8_t *), a->done), 4, \
		IS(TOLD_BYTES) | IS(EMPTY) | NOT(STRM_NO_SUCH_BLOCK) | NOT(STRM_SHARED)) \
	CALL(WINDOW, window, "xku", (pool, a->x, c->place, TO(uint8_t *), a->done), 3, \
		IS(TOLD_BYTES) | IS(EMPTY) | NOT(STRM_NO_SUCH_BLOCK) | NOT(STRM_SHARED)) \
	CALL(SHAPE, shape, "xkrl", (pool, a->x, c->place, c->number, c->lowat), 5, \
		IS(DONE) | IS(EMPTY) | NOT(STRM_NO_SUCH_BLOCK) | NOT(STRM_NO_ROOM)) \
	CALL(SHAPE_ALL, shape_all, "xj", (pool, a->x, a->shapes, a->length), 5, \
		IS(DONE) | IS(EMPTY) | NOT(STRM_NO_SUCH_BLOCK) | NOT(STRM_NO_ROOM) | NOT(STRM_SHARED)) \
	CALL(TRANSFER, transfer, "Xw", (pool, other, a->x, a->y), 6, \
		IS(DONE) | IS(EMPTY) | NOT(STRM_TOO_LARGE) | NOT(STRM_NO_MBLK) | NOT(STRM_NO_DATA)) \
	LOOK(QUEUED_AT, queued_at, "qk", (pool, c->queue, c->place, TO(struct strm_queued)), 2, \
		IS(TOLD_QUEUED) | NOT(STRM_NO_SUCH_QUEUE) | NOT(STRM_NO_SUCH_PLACE)) \
	LOOK(READ_QUEUED, read_queued, "qkn", (pool, c->queue, c->place, c->number, TO(void), a->length, a->done), 2, \
		IS(TOLD_BYTES) | NOT(STRM_NO_SUCH_QUEUE) | NOT(STRM_NO_SUCH_PLACE)) \
	LOOK(FIRST_QUEUED, first_queued, "q", (pool, c->queue, TO(uint32_t)), 1, IS(TOLD_HEAD) | IS(NOTHING) | NOT(STRM_NO_SUCH_QUEUE)) \
	LOOK(LAST_QUEUED, last_queued, "q", (pool, c->queue, TO(uint32_t)), 1, IS(TOLD_HEAD) | IS(NOTHING) | NOT(STRM_NO_SUCH_QUEUE)) \
	LOOK(QUEUED_AFTER, queued_after, "e", (pool, c->number, TO(uint32_t)), 3, IS(TOLD_HEAD) | IS(NOTHING) | NOT(STRM_NO_SUCH_PLACE)) \
	LOOK(QUEUED_BEFORE, queued_before, "e", (pool, c->number, TO(uint32_t)), 3, IS(TOLD_HEAD) | IS(NOTHING) | NOT(STRM_NO_SUCH_PLACE)) \
	LOOK(QUEUE_OF, queue_of, "e", (pool, c->number, TO(uint32_t)), 2, IS(TOLD_QUEUE) | NOT(STRM_NO_SUCH_PLACE)) \
	LOOK(QUEUED_BYTES, queued_bytes, "ek", (pool, c->number, c->place, TO(const uint8_t *), a->done), 4, \
		IS(TOLD_BYTES) | NOT(STRM_NO_SUCH_PLACE) | NOT(STRM_NO_SUCH_BLOCK)) \
	LOOK(QUEUED_IOV, queued_iov, "eki", (pool, c->number, c->place, TO(struct strm_iov), a->length, a->done), 4, \
		IS(TOLD_IOV) | NOT(STRM_NO_SUCH_PLACE)) \
	CALL(INSQ_AT, insq_at, "qeX", (pool, c->queue, c->number, a->x), 6, \
		IS(DONE) | IS(EMPTY) | NOT(STRM_NO_SUCH_QUEUE) | NOT(STRM_NO_SUCH_PLACE) | NOT(STRM_BAD_ORDER)) \
	CALL(RMVQ_MSG, rmvq_msg, "ey", (pool, c->number, a->y), 3, IS(DONE) | NOT(STRM_NO_SUCH_PLACE)) \
	LOOK(QUEUE_SPEC, queue_spec, "q", (pool, c->queue, TO(struct strm_queue_spec)), 1, IS(TOLD_SPEC) | NOT(STRM_NO_SUCH_QUEUE)) \
	CALL(SERVE, serve, "ky", (pool, c->place, TO(struct strm_service), a->y), 8, IS(TOLD_SERVICE) | IS(NOTHING)) \
	CALL(HOLD, hold, "qX", (pool, c->queue, a->x), 2, IS(DONE) | IS(EMPTY) | NOT(STRM_NO_SUCH_QUEUE)) \
	LOOK(RUN_AT, run_at, "k", (pool, c->place, TO(uint32_t)), 1, IS(TOLD_QUEUE) | IS(NOTHING)) \
	LOOK(WISH_AT, wish_at, "k", (pool, c->place, TO(struct strm_wish)), 1, IS(TOLD_READY) | IS(NOTHING)) \
	LOOK(CLASS_INFO, class_info, "k", (pool, c->place, TO(struct strm_class_info)), 1, IS(TOLD_CLASS) | IS(NOTHING)) \
	LOOK(LEAST_FREE_BLOCKS, least_free_blocks, "", (pool, TO(uint32_t)), 2, IS(TOLD_SIZE)) \
	LOOK(LEAST_FREE, least_free, "k", (pool, c->place, TO(uint32_t)), 2, IS(TOLD_SIZE) | IS(NOTHING)) \
	CALL(RESET_LEAST, reset_least, "", (pool), 1, IS(DONE)) \
	LOOK(QUEUE_INFO, queue_info, "q", (pool, c->queue, TO(struct strm_queue_info)), 1, IS(TOLD_STATE) | NOT(STRM_NO_SUCH_QUEUE)) \
	LOOK(BAND_INFO, band_info, "qb", (pool, c->queue, c->band, TO(struct strm_band_info)), 1, IS(TOLD_BAND) | NOT(STRM_NO_SUCH_QUEUE)) \
	CALL(ALLOCB_N, allocb_n, "np", (pool, c->number, a->msgs, a->length, a->done), 3, \
		IS(TOLD_COUNT) | NOT(STRM_TOO_LARGE) | NOT(STRM_NO_MBLK) | NOT(STRM_NO_DATA)) \
	CALL(FREEMSG_N, freemsg_n, "g", (pool, a->msgs, a->length, a->done), 2, IS(TOLD_COUNT) | IS(EMPTY)) \
	CALL(PUTQ_N, putq_n, "qg", (pool, c->queue, a->msgs, a->length, a->done), 3, IS(TOLD_COUNT) | IS(EMPTY) | NOT(STRM_NO_SUCH_QUEUE)) \
	CALL(GETQ_N, getq_n, "qp", (pool, c->queue, a->msgs, a->length, a->done), 3, IS(TOLD_COUNT) | IS(NOTHING) | NOT(STRM_NO_SUCH_QUEUE)) \
	CALL(TAKEQ, takeq, "qfp", (pool, c->queue, c->flush, a->msgs, a->length, a->done), 3, IS(TOLD_COUNT) | NOT(STRM_NO_SUCH_QUEUE)) \
	CALL(TAKEQ_BAND, takeq_band, "qbfp", (pool, c->queue, c->band, c->flush, a->msgs, a->length, a->done), 3, \
		IS(TOLD_COUNT) | NOT(STRM_NO_SUCH_QUEUE))

#define CALLS(CALL, LOOK) WORDS(CALL, LOOK) CALLS_OF_C(CALL, LOOK)
#define TO(type) (type *)a->out

#define VERB(verb, call, letters, arguments, weight, answers) verb,
#define ONE(verb, call, letters, arguments, weight, answers) +1
enum verb { CALLS(VERB, VERB) VERBS, VERBS_OF_STRM = 0 WORDS(ONE, ONE) };

struct form {
	const char *verb, *call, *letters, *arguments;
	int is_look;
	unsigned weight;
	uint64_t answers;
};
extern const struct form forms[VERBS];

/* Whether the call of a verb names something of these letters, whether its arguments have this text, and whether it stores an address. */
int names(int verb, const char *letters);
int has_argument(int verb, const char *text);
int gives_address(int verb);

struct call {
	enum verb verb;
	int x, y, z;
	uint32_t queue, place, band, number, type, flush, hiwat, lowat, length, items;
	int32_t count;
	int many[MOST_ITEMS];
	struct strm_block_shape shapes[MOST_ITEMS];
	uint8_t octets[MOST_OCTETS];
};

/* Each kind of reply, with its word, and the numbers that the call stores one after another, mostly as a struct. */
#define KINDS(KIND) \
	KIND(DONE, "ok", 0) KIND(YES, "yes", 0) KIND(NO, "no", 0) KIND(NOTHING, "none", 0) KIND(EMPTY, "empty", 0) KIND(TAKEN, "taken", 0) \
	KIND(TOLD_SIZE, "size", 1) KIND(TOLD_BYTES, "bytes", 0) KIND(TOLD_BLOCK, "block", 5) KIND(TOLD_ID, "id", 1) KIND(TOLD_READY, "ready", 2) \
	KIND(TOLD_QUEUE, "queue", 1) KIND(TOLD_MARKS, "marks", 2) KIND(TOLD_CENSUS, "census", 3) KIND(TOLD_BLOCKS, "blocks", 0) \
	KIND(TOLD_NAME, "name", 0) KIND(TOLD_IOV, "iov", 0) KIND(TOLD_PLACE, "place", 4) KIND(TOLD_QUEUED, "queued", 5) KIND(TOLD_HEAD, "head", 1) \
	KIND(TOLD_SPEC, "spec", 4) KIND(TOLD_CLASS, "class", 3) KIND(TOLD_STATE, "state", 5) KIND(TOLD_BAND, "band", 3) \
	KIND(TOLD_COUNT, "count", 0) KIND(TOLD_SERVICE, "service", 3) KIND(REFUSED, "refused", 1)

#define NAME(kind, word, numbers) kind,
enum kind { KINDS(NAME) KINDS_OF_REPLY };
extern const int numbers_of[KINDS_OF_REPLY];

struct reply {
	enum kind kind;
	/* Those of the reply's line, or of its struct, in order. Of bytes it is their number, of a refusal its code, of a name the register
	 * that holds it. Of an array it is the number of its structs, and then what they have. */
	uint32_t numbers[1 + 5 * MOST_ITEMS];
	uint8_t octets[MOST_OCTETS];		/* the first bytes */
};

/* The kind of reply to a call that is done. */
enum kind kind_of(int verb);
struct reply reply_of(enum kind kind);
struct reply refused(int code);
struct reply told(enum kind kind, uint32_t first, uint32_t second);
int same_reply(const struct reply *a, const struct reply *b);

/* A reply with the numbers of its kind that are at a place. */
struct reply told_from(enum kind kind, const void *numbers);

/* What a call of strm.h takes beside numbers, and where it stores what. `length` is that of what it reads, or of what it fills. */
struct arguments {
	struct strm_msg x, z, *msgs, *y, *rest;
	const struct strm_block_shape *shapes;
	const void *octets;
	void *out;
	size_t length, *done, *stride;
};

/* Room for what a call stores, and one item more. */
struct results {
	struct strm_msg y, rest, msgs[MOST_ITEMS + 1];
	union {
		uint32_t numbers[5 * (MOST_ITEMS + 1)];
		struct strm_iov iov[MOST_ITEMS + 1];
		const uint8_t *bytes;
		uint8_t *room;
		uint8_t octets[MOST_OCTETS + 1];
	} out;
	size_t done, stride;
};

/* Has a call store there, where each byte is UNTOUCHED before. */
#define UNTOUCHED 0xA5
void store_in(struct arguments *a, struct results *results);

/* Make the call of strm.h. */
int call_made(const struct call *c, struct strm_pool *pool, struct strm_pool *other, const struct arguments *a);
int look_made(const struct call *c, const struct strm_pool *pool, const struct arguments *a);

/* Print the header of a script, a call as its line, and what a text says of a reply that strm gives. */
void print_header(FILE *to, const struct strm_config *config);
void print_call(FILE *to, const struct call *call);
void print_reply(FILE *to, const struct reply *reply);

#endif
