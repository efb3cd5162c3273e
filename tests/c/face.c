#include "face.h"

#include <string.h>

/* A code as a reply. A call that leaves nothing of a message which is handed over is done. */
static struct reply coded(struct face *face, const struct call *call, int code)
{
	if (code == STRM_OK || (code == STRM_NONE && names(call->verb, "X")))
		return reply_of(DONE);
	if (code == STRM_NONE)
		return reply_of(NOTHING);
	if (code == STRM_INVALID)
		return reply_of(EMPTY);
	if (code < 0)
		face->broken = 1;
	return refused(code);
}

/* A place must be untouched, but for what the call stored there. */
static void left(struct face *face, const void *place, size_t stored, size_t size)
{
	const uint8_t *bytes = (const uint8_t *)place;

	for (; stored < size; stored++)
		if (bytes[stored] != UNTOUCHED)
			face->broken = 1;
}

/* A register gets a message, or none. A new name must differ from the last one of the register. */
static void given(struct face *face, int reg, const struct strm_msg *name)
{
	face->holds[reg] = !strm_is_no_msg(*name);
	if (!face->holds[reg])
		return;
	if (memcmp(name, &face->registers[reg], sizeof *name) == 0)
		face->broken = 1;
	face->registers[reg] = *name;
}

/* How many bytes a call stored in `out`, whose count it stored too. */
static size_t stored_in_out(const struct call *call, size_t count)
{
	enum kind kind = kind_of(call->verb);

	switch (kind) {
	case YES: return sizeof(uint32_t);
	case TOLD_BYTES: return gives_address(call->verb) ? sizeof(const uint8_t *) : count;
	case TOLD_BLOCKS: return count * sizeof(struct strm_block_info);
	case TOLD_IOV: return count * sizeof(struct strm_iov);
	default: return (size_t)numbers_of[kind] * sizeof(uint32_t);
	}
}

/* How many structs, names or bytes a call counted, which are at most those that it was asked for. */
static size_t counted(struct face *face, const struct call *call, int is_done, const struct arguments *a)
{
	if (!is_done || !has_argument(call->verb, "->done"))
		return 0;
	if (gives_address(call->verb) || *a->done <= a->length)
		return *a->done;
	face->broken = 1;
	return 0;
}

/* Looks whether a call left untouched all that it did not store. */
static void look(struct face *face, const struct call *call, int is_done, int has_rest, size_t count, const struct results *results)
{
	int verb = call->verb, is_counted = has_argument(verb, "->done") && (is_done || names(verb, "gp"));

	/* a call on several messages that does none counts 0 */
	if (is_counted && !is_done && results->done != 0)
		face->broken = 1;
	left(face, &results->y, is_done && has_argument(verb, "->y") ? sizeof results->y : 0, sizeof results->y);
	left(face, &results->rest, has_rest ? sizeof results->rest : 0, sizeof results->rest);
	if (!names(verb, "g"))
		left(face, results->msgs, names(verb, "p") ? count * sizeof results->msgs[0] : 0, sizeof results->msgs);
	left(face, &results->out, is_done ? stored_in_out(call, count) : 0, sizeof results->out);
	left(face, &results->done, is_counted ? sizeof results->done : 0, sizeof results->done);
	left(face, &results->stride, is_done && has_argument(verb, "->stride") ? sizeof results->stride : 0, sizeof results->stride);
}

/* Registers hand over messages, and get others. */
static void hand_over(struct face *face, struct face *other, const struct call *call, int has_rest, size_t count, const struct results *results)
{
	int verb = call->verb;
	size_t i;

	if (names(verb, "X"))
		face->holds[call->x] = 0;
	if (names(verb, "Z"))
		face->holds[call->z] = 0;
	for (i = 0; i < count && names(verb, "g"); i++)
		face->holds[call->many[i]] = 0;
	for (i = 0; i < count && names(verb, "p"); i++)
		given(face, call->many[i], &results->msgs[i]);
	if (has_rest)
		given(face, names(verb, "X") ? call->x : call->y, &results->rest);
	if (names(verb, "yw") && has_argument(verb, "->y"))
		given(names(verb, "w") ? other : face, call->y, &results->y);
}

/* The first bytes that a call gave, after octets were written there if it finds where to write. */
static struct reply bytes_told(const struct call *call, size_t count, const struct results *results)
{
	struct reply reply = told(TOLD_BYTES, (uint32_t)count, 0);

	if (has_argument(call->verb, "->stride"))
		reply.numbers[1] = (uint32_t)results->stride;
	if (names(call->verb, "u"))
		memcpy(results->out.room, call->octets, count < call->length ? count : call->length);
	memcpy(reply.octets, gives_address(call->verb) ? results->out.bytes : results->out.octets, count < MOST_OCTETS ? count : MOST_OCTETS);
	return reply;
}

/* The lengths and the first bytes of some blocks, each of which the call for one block must have at the same place. */
static struct reply iov_told(struct face *face, const struct call *call, size_t count, const struct results *results)
{
	struct reply reply = told(TOLD_IOV, (uint32_t)count, 0);
	const struct strm_iov *iov = results->out.iov;
	const uint8_t *bytes;
	size_t length, i, had = 0, from;
	int code;

	for (i = 0; i < count; i++) {
		code = call->verb == IOV ? strm_bytes(&face->pool, face->registers[call->x], call->place + (uint32_t)i, &bytes, &length)
			: strm_queued_bytes(&face->pool, call->number, call->place + (uint32_t)i, &bytes, &length);
		if (code != STRM_OK || bytes != iov[i].base || length != iov[i].length)
			face->broken = 1;
		reply.numbers[1 + i] = (uint32_t)iov[i].length;
		for (from = 0; from < iov[i].length && had < MOST_OCTETS; from++)
			reply.octets[had++] = ((const uint8_t *)iov[i].base)[from];
	}
	return reply;
}

/* The register that has the name which a call gave. */
static struct reply name_told(struct face *face, const struct strm_msg *name)
{
	uint32_t reg;

	for (reg = 0; reg < REGISTERS; reg++)
		if (face->holds[reg] && memcmp(name, &face->registers[reg], sizeof *name) == 0)
			return told(TOLD_NAME, reg, 0);
	face->broken = 1;
	return reply_of(NOTHING);
}

/* What a call that is done stored, as a reply. */
static struct reply stored(struct face *face, const struct call *call, size_t count, const struct results *results)
{
	const uint32_t *numbers = results->out.numbers;
	enum kind kind = kind_of(call->verb);
	struct reply reply;

	switch (kind) {
	case YES:
		face->broken |= numbers[0] > 1;
		return reply_of(numbers[0] == 1 ? YES : NO);
	case TOLD_BYTES:
		return bytes_told(call, count, results);
	case TOLD_BLOCKS:
		reply = told(kind, (uint32_t)count, 0);
		memcpy(reply.numbers + 1, numbers, count * sizeof(struct strm_block_info));
		return reply;
	case TOLD_IOV:
		return iov_told(face, call, count, results);
	case TOLD_NAME:
		return name_told(face, &results->y);
	case TOLD_COUNT:
		return told(kind, (uint32_t)count, 0);
	default:
		return told_from(kind, numbers);
	}
}

struct reply face_apply(struct face *face, struct face *other, const struct call *call)
{
	struct results results;
	struct arguments a;
	int code, is_done, has_rest;
	size_t i, count;

	store_in(&a, &results);
	a.x = face->registers[call->x];
	a.z = face->registers[call->z];
	a.octets = call->octets;
	a.shapes = call->shapes;
	a.length = names(call->verb, "o") ? call->length : names(call->verb, "gpij") ? call->items : MOST_OCTETS;
	for (i = 0; names(call->verb, "g") && i < call->items; i++)
		results.msgs[i] = face->registers[call->many[i]];
	code = call_made(call, &face->pool, &other->pool, &a);
	is_done = code == STRM_OK;
	/* a call that leaves no message stores that */
	has_rest = has_argument(call->verb, "->rest") && (is_done || code == STRM_NONE);
	if (has_rest && !is_done && !strm_is_no_msg(results.rest))
		face->broken = 1;
	count = counted(face, call, is_done, &a);
	look(face, call, is_done, has_rest, count, &results);
	if (is_done || has_rest)
		hand_over(face, other, call, has_rest, count, &results);
	return is_done ? stored(face, call, count, &results) : coded(face, call, code);
}
