/*
 * What the crate strm_c exports, for strm.c only. Each export is the call of strm.h whose name lacks the `c_`. Its caller keeps the
 * promises of strm.h, and passes no null pointer, no array of more than SIZE_MAX / 2 bytes, no place for two answers, and no handle
 * twice. The export checks all other misuse. tests/exports compares these declarations with the crate, which stores a struct strm_msg
 * by two halves of 8 bytes.
 */
#ifndef STRM_C_H
#define STRM_C_H

#include "strm.h"

/* A reader of a pool: the words of its handle. It has a share of the right to read the pool, and is used by one call. */
struct strm_reader {
	void *at;
	size_t state;
};

/*
 * The calls that pass their arguments on unchanged, in the order of strm.h. A row has a call's name without `strm_`, its parameters,
 * its arguments, and what must be true of the pointers among them.
 */
#define STRM_CALLS(CALL) \
	CALL(allocb, (struct strm_pool *pool, uint32_t size, struct strm_msg *msg), (pool, size, msg), msg != NULL) \
	CALL(dupb, (struct strm_pool *pool, struct strm_msg msg, struct strm_msg *copy), (pool, msg, copy), copy != NULL) \
	CALL(dupmsg, (struct strm_pool *pool, struct strm_msg msg, struct strm_msg *copy), (pool, msg, copy), copy != NULL) \
	CALL(copyb, (struct strm_pool *pool, struct strm_msg msg, struct strm_msg *copy), (pool, msg, copy), copy != NULL) \
	CALL(copymsg, (struct strm_pool *pool, struct strm_msg msg, struct strm_msg *copy), (pool, msg, copy), copy != NULL) \
	CALL(freemsg, (struct strm_pool *pool, struct strm_msg msg), (pool, msg), 1) \
	CALL(settype, (struct strm_pool *pool, struct strm_msg msg, uint32_t place, uint32_t type), (pool, msg, place, type), 1) \
	CALL(setband, (struct strm_pool *pool, struct strm_msg msg, uint32_t band), (pool, msg, band), 1) \
	CALL(room, (struct strm_pool *pool, struct strm_msg msg, uint32_t place, uint8_t **at, size_t *length), \
		(pool, msg, place, at, length), at != NULL && length != NULL && (void *)at != (void *)length) \
	CALL(edit, (struct strm_pool *pool, struct strm_msg msg, uint32_t place, uint8_t **at, size_t *length), \
		(pool, msg, place, at, length), at != NULL && length != NULL && (void *)at != (void *)length) \
	CALL(window, (struct strm_pool *pool, struct strm_msg msg, uint32_t place, uint8_t **base, size_t *capacity), \
		(pool, msg, place, base, capacity), base != NULL && capacity != NULL && (void *)base != (void *)capacity) \
	CALL(reserve, (struct strm_pool *pool, struct strm_msg msg, uint32_t place, uint32_t count), (pool, msg, place, count), 1) \
	CALL(advance, (struct strm_pool *pool, struct strm_msg msg, uint32_t place, uint32_t count), (pool, msg, place, count), 1) \
	CALL(shape, (struct strm_pool *pool, struct strm_msg msg, uint32_t place, uint32_t at, uint32_t length), \
		(pool, msg, place, at, length), 1) \
	CALL(linkb, (struct strm_pool *pool, struct strm_msg msg, struct strm_msg tail), (pool, msg, tail), 1) \
	CALL(rmvb, (struct strm_pool *pool, struct strm_msg msg, uint32_t place, struct strm_msg *block, struct strm_msg *rest), \
		(pool, msg, place, block, rest), block != NULL && rest != NULL && block != rest) \
	CALL(adjmsg, (struct strm_pool *pool, struct strm_msg msg, int32_t count), (pool, msg, count), 1) \
	CALL(pullupmsg, (struct strm_pool *pool, struct strm_msg msg, int32_t count), (pool, msg, count), 1) \
	CALL(putq, (struct strm_pool *pool, uint32_t queue, struct strm_msg msg), (pool, queue, msg), 1) \
	CALL(putbq, (struct strm_pool *pool, uint32_t queue, struct strm_msg msg), (pool, queue, msg), 1) \
	CALL(insq, (struct strm_pool *pool, uint32_t queue, uint32_t place, struct strm_msg msg), (pool, queue, place, msg), 1) \
	CALL(insq_at, (struct strm_pool *pool, uint32_t queue, uint32_t before, struct strm_msg msg), (pool, queue, before, msg), 1) \
	CALL(getq, (struct strm_pool *pool, uint32_t queue, struct strm_msg *msg), (pool, queue, msg), msg != NULL) \
	CALL(rmvq, (struct strm_pool *pool, uint32_t queue, uint32_t place, struct strm_msg *msg), \
		(pool, queue, place, msg), msg != NULL) \
	CALL(rmvq_msg, (struct strm_pool *pool, uint32_t head, struct strm_msg *msg), (pool, head, msg), msg != NULL) \
	CALL(flushq, (struct strm_pool *pool, uint32_t queue, uint32_t flush), (pool, queue, flush), 1) \
	CALL(flushband, (struct strm_pool *pool, uint32_t queue, uint32_t band, uint32_t flush), (pool, queue, band, flush), 1) \
	CALL(bcanput, (struct strm_pool *pool, uint32_t queue, uint32_t band, uint32_t *yes), \
		(pool, queue, band, yes), yes != NULL) \
	CALL(strqset, (struct strm_pool *pool, uint32_t queue, uint32_t band, uint32_t hiwat, uint32_t lowat), \
		(pool, queue, band, hiwat, lowat), 1) \
	CALL(qenable, (struct strm_pool *pool, uint32_t queue), (pool, queue), 1) \
	CALL(noenable, (struct strm_pool *pool, uint32_t queue), (pool, queue), 1) \
	CALL(enableok, (struct strm_pool *pool, uint32_t queue), (pool, queue), 1) \
	CALL(next_service, (struct strm_pool *pool, uint32_t *queue), (pool, queue), queue != NULL) \
	CALL(serve, (struct strm_pool *pool, uint32_t held, struct strm_service *service, struct strm_msg *msg), \
		(pool, held, service, msg), service != NULL && msg != NULL && (void *)service != (void *)msg) \
	CALL(hold, (struct strm_pool *pool, uint32_t queue, struct strm_msg msg), (pool, queue, msg), 1) \
	CALL(bufcall, (struct strm_pool *pool, uint32_t size, uint32_t *id), (pool, size, id), id != NULL) \
	CALL(unbufcall, (struct strm_pool *pool, uint32_t id), (pool, id), 1) \
	CALL(take_ready, (struct strm_pool *pool, struct strm_wish *wish), (pool, wish), wish != NULL) \
	CALL(reset_least, (struct strm_pool *pool), (pool), 1)

/*
 * The looks that pass their arguments on unchanged, likewise. POOL is the first parameter: in strm.h a handle, which is only read,
 * and in the crate a reader, which strm.c makes of the handle for each call.
 */
#define STRM_LOOKS(LOOK) \
	LOOK(testb, (POOL, uint32_t size, uint32_t *yes), (&reader, size, yes), yes != NULL) \
	LOOK(size, (POOL, struct strm_msg msg, uint32_t *bytes), (&reader, msg, bytes), bytes != NULL) \
	LOOK(msgdsize, (POOL, struct strm_msg msg, uint32_t *bytes), (&reader, msg, bytes), bytes != NULL) \
	LOOK(message, (POOL, struct strm_msg msg, struct strm_queued *info), (&reader, msg, info), info != NULL) \
	LOOK(block, (POOL, struct strm_msg msg, uint32_t place, struct strm_block_info *block), \
		(&reader, msg, place, block), block != NULL) \
	LOOK(block_number, (POOL, struct strm_msg msg, uint32_t place, uint32_t *number), \
		(&reader, msg, place, number), number != NULL) \
	LOOK(has, (POOL, struct strm_msg msg, uint32_t *yes), (&reader, msg, yes), yes != NULL) \
	LOOK(name_at, (POOL, uint32_t head, struct strm_msg *msg), (&reader, head, msg), msg != NULL) \
	LOOK(bytes, (POOL, struct strm_msg msg, uint32_t place, const uint8_t **bytes, size_t *length), \
		(&reader, msg, place, bytes, length), bytes != NULL && length != NULL && (void *)bytes != (void *)length) \
	LOOK(place, (POOL, struct strm_msg msg, uint32_t place, struct strm_block_place *where), \
		(&reader, msg, place, where), where != NULL) \
	LOOK(region, (POOL, uint32_t place, const uint8_t **base, size_t *size, size_t *stride), (&reader, place, base, size, stride), \
		base != NULL && size != NULL && stride != NULL && size != stride && (void *)base != (void *)size \
		&& (void *)base != (void *)stride) \
	LOOK(qsize, (POOL, uint32_t queue, uint32_t *msgs), (&reader, queue, msgs), msgs != NULL) \
	LOOK(queued_at, (POOL, uint32_t queue, uint32_t place, struct strm_queued *queued), \
		(&reader, queue, place, queued), queued != NULL) \
	LOOK(first_queued, (POOL, uint32_t queue, uint32_t *head), (&reader, queue, head), head != NULL) \
	LOOK(last_queued, (POOL, uint32_t queue, uint32_t *head), (&reader, queue, head), head != NULL) \
	LOOK(queued_after, (POOL, uint32_t head, uint32_t *after), (&reader, head, after), after != NULL) \
	LOOK(queued_before, (POOL, uint32_t head, uint32_t *before), (&reader, head, before), before != NULL) \
	LOOK(queue_of, (POOL, uint32_t head, uint32_t *queue), (&reader, head, queue), queue != NULL) \
	LOOK(queued_bytes, (POOL, uint32_t head, uint32_t place, const uint8_t **bytes, size_t *length), \
		(&reader, head, place, bytes, length), bytes != NULL && length != NULL && (void *)bytes != (void *)length) \
	LOOK(strqget, (POOL, uint32_t queue, uint32_t band, struct strm_marks *marks), \
		(&reader, queue, band, marks), marks != NULL) \
	LOOK(run_at, (POOL, uint32_t place, uint32_t *queue), (&reader, place, queue), queue != NULL) \
	LOOK(wish_at, (POOL, uint32_t place, struct strm_wish *wish), (&reader, place, wish), wish != NULL) \
	LOOK(queue_spec, (POOL, uint32_t queue, struct strm_queue_spec *spec), (&reader, queue, spec), spec != NULL) \
	LOOK(census, (POOL, struct strm_census *census), (&reader, census), census != NULL) \
	LOOK(class_info, (POOL, uint32_t place, struct strm_class_info *info), (&reader, place, info), info != NULL) \
	LOOK(least_free_blocks, (POOL, uint32_t *fewest), (&reader, fewest), fewest != NULL) \
	LOOK(least_free, (POOL, uint32_t place, uint32_t *fewest), (&reader, place, fewest), fewest != NULL) \
	LOOK(queue_info, (POOL, uint32_t queue, struct strm_queue_info *info), (&reader, queue, info), info != NULL) \
	LOOK(band_info, (POOL, uint32_t queue, uint32_t band, struct strm_band_info *info), \
		(&reader, queue, band, info), info != NULL)

/* Declares the export of a row. */
#define STRM_DECLARE(call, parameters, arguments, fits) int32_t strm_c_##call parameters;
STRM_CALLS(STRM_DECLARE)
#define POOL struct strm_reader *pool
STRM_LOOKS(STRM_DECLARE)
#undef POOL
#undef STRM_DECLARE

/* The calls that strm.c writes out. */
int32_t strm_c_open(struct strm_pool *pool, uint32_t id, uint32_t mblks, const struct strm_class_spec *classes, size_t class_count,
	const struct strm_queue_spec *queues, size_t queue_count, uint32_t bufcalls, uint32_t first_id);
int32_t strm_c_memory(uint32_t id, uint32_t mblks, const struct strm_class_spec *classes, size_t class_count,
	const struct strm_queue_spec *queues, size_t queue_count, uint32_t bufcalls, uint32_t first_id, size_t *bytes);
int32_t strm_c_close(struct strm_pool *pool);
int32_t strm_c_freeb(struct strm_pool *pool, struct strm_msg msg, struct strm_msg *rest);
int32_t strm_c_unlinkb(struct strm_pool *pool, struct strm_msg msg, struct strm_msg *rest);
int32_t strm_c_write(struct strm_pool *pool, struct strm_msg msg, uint32_t place, const uint8_t *bytes, size_t length);
int32_t strm_c_read(struct strm_reader *pool, struct strm_msg msg, uint32_t at, uint8_t *into, size_t length, size_t *count);
int32_t strm_c_blocks(struct strm_reader *pool, struct strm_msg msg, uint32_t from, struct strm_block_info *into, size_t length,
	size_t *count);
int32_t strm_c_iov(struct strm_reader *pool, struct strm_msg msg, uint32_t from, struct strm_iov *into, size_t length,
	size_t *count);
int32_t strm_c_queued_iov(struct strm_reader *pool, uint32_t head, uint32_t from, struct strm_iov *into, size_t length,
	size_t *count);
int32_t strm_c_overwrite(struct strm_pool *pool, struct strm_msg msg, uint32_t at, const uint8_t *bytes, size_t length);
int32_t strm_c_prepend(struct strm_pool *pool, struct strm_msg msg, const uint8_t *bytes, size_t length);
int32_t strm_c_shape_all(struct strm_pool *pool, struct strm_msg msg, const struct strm_block_shape *shapes, size_t length);
int32_t strm_c_transfer(struct strm_pool *pool, struct strm_pool *other, struct strm_msg msg, struct strm_msg *moved);
int32_t strm_c_read_queued(struct strm_reader *pool, uint32_t queue, uint32_t place, uint32_t at, uint8_t *into, size_t length,
	size_t *count);
int32_t strm_c_allocb_n(struct strm_pool *pool, uint32_t size, struct strm_msg *msgs, size_t length, size_t *count);
int32_t strm_c_freemsg_n(struct strm_pool *pool, const struct strm_msg *msgs, size_t length, size_t *count);
int32_t strm_c_putq_n(struct strm_pool *pool, uint32_t queue, const struct strm_msg *msgs, size_t length, size_t *count);
int32_t strm_c_getq_n(struct strm_pool *pool, uint32_t queue, struct strm_msg *msgs, size_t length, size_t *count);
int32_t strm_c_takeq(struct strm_pool *pool, uint32_t queue, uint32_t flush, struct strm_msg *msgs, size_t length, size_t *count);
int32_t strm_c_takeq_band(struct strm_pool *pool, uint32_t queue, uint32_t band, uint32_t flush, struct strm_msg *msgs, size_t length,
	size_t *count);

/* Each copies as much of a text as fits, without a 0, and returns the length of the whole text. */
size_t strm_c_text(int32_t code, uint8_t *text, size_t length);
size_t strm_c_name(int32_t code, uint8_t *text, size_t length);
size_t strm_c_version(uint8_t *text, size_t length);

#endif
