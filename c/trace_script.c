/*
 * The trace that strm-record takes, as strm-record(1) explains it, of the calls that trace.c passes on. Tested, not proved. What a call left is seen
 * by looks after it. No look shows the numbers of all message blocks, so those of a script are given here. A call that scripts have no word for is
 * written as a change through pointers.
 */
#include "trace.h"

#include <stdio.h>
#include <stdlib.h>
#include <string.h>

/* With many more calls a script has too many lines. */
#define MOST_CALLS 100000
/* The most bytes of a line `write`, and those that a line `read` shows. */
#define MOST_BYTES 64
#define NO_BLOCK 0xFFFFu

/* What a call does to the messages that it names or returns. */
enum effect { NOTHING, NEW, COPY, GONE, FIRST_GONE, CHANGED, PULLED, LINKED, PARTED, TAKEN_OUT };

/*
 * The word of a call in scripts and what follows it: m a message, o one that is returned, n a number, i one with a sign, t a type, f what is
 * flushed. Then the reply, if it is not `ok`.
 */
static const struct recipe {
	const char *call, *word, *form, *reply;
	enum effect effect;
} recipes[] = {
	{ "allocb", "allocb", "on", NULL, NEW },
	{ "testb", "testb", "n", "yes", NOTHING },
	{ "dupb", "dupb", "mo", NULL, NEW },
	{ "dupmsg", "dupmsg", "mo", NULL, NEW },
	{ "copyb", "copyb", "mo", NULL, COPY },
	{ "copymsg", "copymsg", "mo", NULL, COPY },
	{ "freemsg", "freemsg", "m", NULL, GONE },
	{ "freeb", "freeb", "m", NULL, FIRST_GONE },
	{ "settype", "settype", "mnt", NULL, CHANGED },
	{ "setband", "setband", "mn", NULL, CHANGED },
	{ "size", "size", "m", "size", NOTHING },
	{ "msgdsize", "msgdsize", "m", "size", NOTHING },
	{ "block", "block", "mn", "block", NOTHING },
	{ "linkb", "linkb", "mm", NULL, LINKED },
	{ "unlinkb", "unlinkb", "mo", NULL, PARTED },
	{ "rmvb", "rmvb", "mno", NULL, TAKEN_OUT },
	{ "adjmsg", "adjmsg", "mi", NULL, CHANGED },
	{ "pullupmsg", "pullupmsg", "mi", NULL, PULLED },
	{ "putq", "putq", "nm", NULL, GONE },
	{ "putbq", "putbq", "nm", NULL, GONE },
	{ "insq", "insq", "nnm", NULL, GONE },
	{ "getq", "getq", "no", NULL, NEW },
	{ "rmvq", "rmvq", "nno", NULL, NEW },
	{ "flushq", "flushq", "nf", NULL, NOTHING },
	{ "flushband", "flushband", "nnf", NULL, NOTHING },
	{ "qsize", "qsize", "n", "size", NOTHING },
	{ "bcanput", "bcanput", "nn", "yes", NOTHING },
	{ "strqset", "strqset", "nnnn", NULL, NOTHING },
	{ "strqget", "strqget", "nn", "marks", NOTHING },
	{ "qenable", "qenable", "n", NULL, NOTHING },
	{ "noenable", "noenable", "n", NULL, NOTHING },
	{ "enableok", "enableok", "n", NULL, NOTHING },
	{ "next_service", "service", "", "queue", NOTHING },
	{ "bufcall", "bufcall", "n", "id", NOTHING },
	{ "unbufcall", "unbufcall", "n", NULL, NOTHING },
	{ "take_ready", "ready", "", "ready", NOTHING },
	{ "census", "census", "", "census", NOTHING }
};

static const char *const types[STRM_TYPES] = { "M_DATA", "M_PROTO", "M_BREAK", "M_PASSFP", "M_SIG", "M_DELAY", "M_CTL", "M_IOCTL", "M_SETOPTS",
	"M_IOCACK", "M_IOCNAK", "M_PCPROTO", "M_PCSIG", "M_READ", "M_FLUSH", "M_STOP", "M_START", "M_HANGUP", "M_ERROR", "M_COPYIN", "M_COPYOUT",
	"M_IOCDATA" };

#define PRINT(...) strm_trace_print(&traced->out, __VA_ARGS__)

static void tell(struct traced *traced, const struct traced_call *call, const union value *values, int code);

/* ---- the numbers of blocks */

static unsigned first_of(const struct traced *traced, struct strm_msg msg)
{
	return msg.head < traced->mblks ? traced->first[msg.head] : NO_BLOCK;
}

static void release(struct traced *traced, unsigned block)
{
	PRINT("- %u\n", block);
	traced->unused[traced->unused_count++] = (uint16_t)block;
}

/* The message is no longer held: its blocks have no numbers any more. */
static void release_all(struct traced *traced, struct strm_msg msg)
{
	unsigned block = first_of(traced, msg);

	traced->first[msg.head] = NO_BLOCK;
	traced->msgs--;
	for (; block != NO_BLOCK; block = traced->next[block])
		release(traced, block);
}

static void set_first(struct traced *traced, struct strm_msg msg, unsigned block)
{
	traced->msgs += traced->first[msg.head] == NO_BLOCK;
	traced->first[msg.head] = (uint16_t)block;
}

static void forget(struct traced *traced, struct strm_msg msg)
{
	traced->first[msg.head] = NO_BLOCK;
	traced->msgs--;
}

/* Numbers the blocks of a message that is held from now on. */
static void number_all(struct traced *traced, struct strm_msg msg)
{
	struct strm_block_info block;
	unsigned last = NO_BLOCK, own;
	uint32_t place;

	for (place = 0; strm_untraced_block(&traced->pool, msg, place, &block) == STRM_OK; place++, last = own) {
		own = traced->unused[--traced->unused_count];
		traced->next[own] = NO_BLOCK;
		if (last == NO_BLOCK)
			set_first(traced, msg, own);
		else
			traced->next[last] = (uint16_t)own;
	}
}

/* ---- lines of blocks */

/* Lines of the block at a place, as it is now; with its bytes, if the call may have changed them. */
static void tell_block(struct traced *traced, char mark, struct strm_msg msg, uint32_t place, unsigned block, int has_bytes)
{
	struct strm_block_place where;
	struct strm_block_info info;
	const uint8_t *bytes;
	size_t length;

	strm_untraced_place(&traced->pool, msg, place, &where);
	strm_untraced_block(&traced->pool, msg, place, &info);
	strm_untraced_bytes(&traced->pool, msg, place, &bytes, &length);
	if (!traced->is_told[where.data])
		PRINT("c %u %u\n", (unsigned)where.data, (unsigned)where.capacity);
	traced->is_told[where.data] = 1;
	if (has_bytes && length > 0) {
		PRINT("b %u %u ", (unsigned)where.data, (unsigned)where.at);
		strm_trace_hex(&traced->out, bytes, length);
		PRINT("\n");
	}
	PRINT("%c %u %d %u %u %u %s %u\n", mark, block, traced->next[block] == NO_BLOCK ? -1 : (int)traced->next[block], (unsigned)where.data,
		(unsigned)where.at, (unsigned)(where.at + where.length), types[info.type], (unsigned)info.band);
}

static void tell_all(struct traced *traced, char mark, struct strm_msg msg, int has_bytes)
{
	unsigned block = first_of(traced, msg);
	uint32_t place;

	for (place = 0; block != NO_BLOCK; place++, block = traced->next[block])
		tell_block(traced, mark, msg, place, block, has_bytes);
}

/* ---- calls */

/* The refusal of a code in scripts, as `refused 1 TooLarge` for STRM_TOO_LARGE. */
static void tell_refusal(struct traced *traced, int code)
{
	char name[64], *from = name, *to = name;
	int is_small = 0;

	strm_name(code, name, sizeof name);
	for (from += strlen("STRM_"); *from; from++) {
		if (*from != '_')
			*to++ = (char)(is_small ? *from - 'A' + 'a' : *from);
		is_small = *from != '_';
	}
	*to = 0;
	PRINT(" | refused %d %s\n", code, name);
}

static void tell_reply(struct traced *traced, const char *reply, const uint32_t *result, int code)
{
	if (code > 0)
		tell_refusal(traced, code);
	else if (code == STRM_NONE)
		PRINT(" | none\n");
	else if (reply == NULL)
		PRINT(" | ok\n");
	else if (strcmp(reply, "yes") == 0)
		PRINT(" | %s\n", result[0] ? "yes" : "no");
	else if (strcmp(reply, "block") == 0)
		PRINT(" | block %s len=%u band=%u room=%u names=%u\n", types[result[0]], (unsigned)result[1], (unsigned)result[2],
			(unsigned)result[3], (unsigned)result[4]);
	else if (strcmp(reply, "census") == 0)
		PRINT(" | census %u %u %u\n", (unsigned)result[0], (unsigned)result[1], (unsigned)result[2]);
	else if (strcmp(reply, "marks") == 0 || strcmp(reply, "ready") == 0)
		PRINT(" | %s %u %u\n", reply, (unsigned)result[0], (unsigned)result[1]);
	else
		PRINT(" | %s %u\n", reply, (unsigned)result[0]);
}

static void begin_line(struct traced *traced, const char *word)
{
	PRINT("! thread-%u %s", strm_trace_thread(), word);
}

/* The value of this kind after those of it that were taken before. */
static const union value *taken(const struct traced_call *call, const union value *values, uint32_t *from, enum kind kind)
{
	while (*from < call->count && call->forms[*from].kind != kind)
		++*from;
	return *from < call->count ? &values[(*from)++] : NULL;
}

/* The line of a call that has a word. A message that is returned has its number by now. */
static void tell_call(struct traced *traced, const struct recipe *recipe, const struct traced_call *call, const union value *values, int code)
{
	uint32_t number = 1, msg = 1, returned = 1, results = 1;
	const union value *value;
	const char *form;

	begin_line(traced, recipe->word);
	for (form = recipe->form; *form; form++)
		if (*form == 'm') {
			PRINT(" <%u", first_of(traced, taken(call, values, &msg, MSG)->msg));
		} else if (*form == 'o') {
			value = taken(call, values, &returned, OUT_MSG);
			if (code == STRM_OK)
				PRINT(" >%u", first_of(traced, *(const struct strm_msg *)value->at));
			else
				PRINT(" >");
		} else if (*form == 'i') {
			PRINT(" %lld", (long long)taken(call, values, &number, SIGNED)->number);
		} else {
			value = taken(call, values, &number, NUMBER);
			if (*form == 't')
				PRINT(" %s", types[value->number]);
			else if (*form == 'f')
				PRINT(" %s", value->number == STRM_FLUSHALL ? "all" : "data");
			else
				PRINT(" %u", (unsigned)value->number);
		}
	value = recipe->reply ? taken(call, values, &results, OUT_FIELDS) : NULL;
	tell_reply(traced, recipe->reply, value ? value->at : NULL, code);
}

/* The block at a place of a message, counted from 0. */
static unsigned block_at(const struct traced *traced, struct strm_msg msg, uint32_t place)
{
	unsigned block = first_of(traced, msg);

	while (place-- > 0)
		block = traced->next[block];
	return block;
}

static uint32_t count_of(const struct traced *traced, struct strm_msg msg)
{
	unsigned block = first_of(traced, msg);
	uint32_t count;

	for (count = 0; block != NO_BLOCK; count++)
		block = traced->next[block];
	return count;
}

/* A message ends after this block. What followed it is a message of its own, if anything did. */
static void cut_after(struct traced *traced, unsigned block, struct strm_msg rest)
{
	if (traced->next[block] != NO_BLOCK)
		set_first(traced, rest, traced->next[block]);
	traced->next[block] = NO_BLOCK;
}

/* The lines of a call that has a word, and was done. */
static void tell_done(struct traced *traced, const struct recipe *recipe, const struct traced_call *call, const union value *values)
{
	uint32_t msgs = 1, returned = 1;
	unsigned block;
	const union value *first = taken(call, values, &msgs, MSG), *second = taken(call, values, &msgs, MSG);
	const union value *out = taken(call, values, &returned, OUT_MSG), *rest = taken(call, values, &returned, OUT_MSG);
	struct strm_msg msg = first ? first->msg : (struct strm_msg)STRM_NO_MSG_INIT, other;
	uint32_t place, left;

#define CALL tell_call(traced, recipe, call, values, STRM_OK)
	switch (recipe->effect) {
	case NOTHING:
		CALL;
		break;
	case NEW:
	case COPY:
		other = *(const struct strm_msg *)out->at;
		number_all(traced, other);
		CALL;
		tell_all(traced, '=', other, recipe->effect == COPY);
		break;
	case GONE:
		CALL;
		release_all(traced, msg);
		break;
	case FIRST_GONE:
		CALL;
		block = first_of(traced, msg);
		forget(traced, msg);
		cut_after(traced, block, *(const struct strm_msg *)out->at);
		release(traced, block);
		break;
	case CHANGED:
		CALL;
		tell_all(traced, '=', msg, 0);
		break;
	case PULLED:
		CALL;
		for (left = 0; strm_untraced_block(&traced->pool, msg, left, &(struct strm_block_info){ 0 }) == STRM_OK; left++)
			;
		for (place = count_of(traced, msg); place > left; place--) {
			block = block_at(traced, msg, 1);
			traced->next[first_of(traced, msg)] = traced->next[block];
			release(traced, block);
		}
		tell_all(traced, '=', msg, 1);
		break;
	case LINKED:
		CALL;
		place = count_of(traced, msg) - 1;
		block = block_at(traced, msg, place);
		traced->next[block] = (uint16_t)first_of(traced, second->msg);
		forget(traced, second->msg);
		tell_block(traced, '=', msg, place, block, 0);
		break;
	case PARTED:
		cut_after(traced, first_of(traced, msg), *(const struct strm_msg *)out->at);
		CALL;
		tell_block(traced, '=', msg, 0, first_of(traced, msg), 0);
		break;
	case TAKEN_OUT:
		/* the line has the number of the whole message, whose name is no longer valid */
		place = (uint32_t)values[2].number;
		block = block_at(traced, msg, place);
		begin_line(traced, recipe->word);
		PRINT(" <%u %u >%u | ok\n", first_of(traced, msg), (unsigned)place, block);
		other = *(const struct strm_msg *)rest->at;
		if (place == 0) {
			forget(traced, msg);
			cut_after(traced, block, other);
		} else {
			traced->next[block_at(traced, msg, place - 1)] = traced->next[block];
			traced->next[block] = NO_BLOCK;
			tell_block(traced, '=', other, place - 1, block_at(traced, other, place - 1), 0);
		}
		set_first(traced, *(const struct strm_msg *)out->at, block);
		tell_block(traced, '=', *(const struct strm_msg *)out->at, 0, block, 0);
		break;
	}
#undef CALL
}

/* A call on several messages, as the single calls that it made. */
static void tell_several(struct traced *traced, const struct traced_call *call, const union value *values, int code)
{
	uint32_t last = call->count - 1, msgs = last - 2;
	size_t done = *(const size_t *)values[last].at, length = (size_t)values[last - 1].number, item;
	union value one[8];
	struct traced_call single = *call;

	single.length -= (uint32_t)strlen("_n");
	single.count = msgs + 1;
	if (call->forms[msgs].kind == IN_MSGS)
		single.forms[msgs].kind = MSG;
	memcpy(one, values, single.count * sizeof one[0]);
	for (item = 0; item < done || (item == 0 && code != STRM_OK && length > 0); item++) {
		if (call->forms[msgs].kind == IN_MSGS)
			one[msgs].msg = ((const struct strm_msg *)values[msgs].at)[item];
		else
			one[msgs].at = (const struct strm_msg *)values[msgs].at + item;
		tell(traced, &single, one, done > 0 ? STRM_OK : code);
	}
	/* the last single call found the queue empty */
	if (strncmp(call->name, "strm_getq_n", 11) == 0 && done > 0 && done < length)
		tell(traced, &single, one, STRM_NONE);
}

/* Where the message is that a call names by its first block. */
static void seek(struct traced *traced, uint32_t head)
{
	traced->place = 0;
	if (strm_untraced_queue_of(&traced->pool, head, &traced->queue) != STRM_OK)
		traced->queue = STRM_NO_QUEUE;
	while (strm_untraced_queued_before(&traced->pool, head, &head) == STRM_OK)
		traced->place++;
}

/* Where each message of a queue is that a call takes messages off, by its first block. */
static void line_up(struct traced *traced, uint32_t queue)
{
	uint32_t head;
	uint16_t place = 0;
	int code;

	for (code = strm_untraced_first_queued(&traced->pool, queue, &head); code == STRM_OK;
	     code = strm_untraced_queued_after(&traced->pool, head, &head))
		traced->places[head] = place++;
}

/* Such a call, as calls that each take a message from its place. */
static void tell_taken(struct traced *traced, const struct traced_call *call, const union value *values)
{
	uint32_t msgs = call->count - 3;
	const struct strm_msg *taken = values[msgs].at;
	size_t item, count = *(const size_t *)values[msgs + 2].at;
	struct traced_call single = { "strm_rmvq(", sizeof "strm_rmvq", 0, 4, { call->forms[0], call->forms[1], call->forms[1], call->forms[msgs] } };
	union value one[4] = { values[0], values[1] };

	for (item = 0; item < count; item++) {
		one[2].number = traced->places[taken[item].head] - item;
		one[3].at = taken + item;
		tell(traced, &single, one, STRM_OK);
	}
}

/* A call that names a queued message, as the one that names the place: one that no queue has, if the message is elsewhere. */
static void tell_by_place(struct traced *traced, const struct traced_call *call, const union value *values, int code)
{
	struct traced_call other = *call;
	union value named[4];
	uint32_t size = 0;

	other.count = 4;
	other.forms[1].kind = other.forms[2].kind = NUMBER;
	other.forms[3] = call->forms[call->count - 1];
	named[0] = values[0];
	named[1].number = traced->queue == STRM_NO_QUEUE ? 0 : traced->queue;
	named[2].number = traced->queue == STRM_NO_QUEUE ? STRM_NO_HEAD : traced->place;
	named[3] = values[call->count - 1];
	if (call->count == 3) {
		other.length -= (uint32_t)strlen("_msg");
	} else {
		other.length -= (uint32_t)strlen("_at");
		named[1] = values[1];
		strm_untraced_qsize(&traced->pool, (uint32_t)values[1].number, &size);
		if (values[2].number == STRM_NO_HEAD)
			named[2].number = size - (code == STRM_OK);
		else if (values[1].number != traced->queue)
			named[2].number = STRM_NO_HEAD;
	}
	tell(traced, &other, named, code);
}

/* A message that is put back, and whose queue is then enabled. */
static void tell_held(struct traced *traced, const struct traced_call *call, const union value *values, int code)
{
	const struct traced_call put = { "strm_putbq(", sizeof "strm_putbq", 0, 3, { call->forms[0], call->forms[1], call->forms[2] } };
	const struct traced_call enable = { "strm_qenable(", sizeof "strm_qenable", 0, 2, { call->forms[0], call->forms[1] } };

	tell(traced, &put, values, code);
	if (code == STRM_OK)
		tell(traced, &enable, values, code);
}

/* The queue that gave a message was served, and enabled again. Before, those behind one that this woke go to the end of the run list. */
static void tell_served(struct traced *traced, const struct traced_call *call, const union value *values)
{
	const struct traced_call next = { "strm_next_service(", sizeof "strm_next_service", 0, 2, { call->forms[0], call->forms[2] } };
	const struct traced_call get = { "strm_getq(", sizeof "strm_getq", 0, 3, { call->forms[0], call->forms[1], call->forms[3] } };
	const struct traced_call enable = { "strm_qenable(", sizeof "strm_qenable", 0, 2, { call->forms[0], call->forms[1] } };
	const union value queue = { .number = ((const struct strm_service *)values[2].at)->queue };
	uint32_t enabled = strm_trace_enabled(&traced->pool), place, other;

	tell(traced, &next, (const union value[]){ values[0], values[2] }, STRM_OK);
	tell(traced, &get, (const union value[]){ values[0], queue, values[3] }, STRM_OK);
	for (place = 1; enabled > traced->enabled && place + 1 < enabled; place++) {
		strm_untraced_run_at(&traced->pool, place, &other);
		tell(traced, &next, (const union value[]){ values[0], { .at = &other } }, STRM_OK);
		tell(traced, &enable, (const union value[]){ values[0], { .number = other } }, STRM_OK);
	}
	tell(traced, &enable, (const union value[]){ values[0], queue }, STRM_OK);
}

/* A script reads as many bytes as a line shows. */
static void tell_read(struct traced *traced, const union value *values, size_t count)
{
	uint64_t at = values[2].number, end = at + count;
	uint8_t bytes[MOST_BYTES];
	size_t length;

	do {
		strm_untraced_read(&traced->pool, values[1].msg, (uint32_t)at, bytes, sizeof bytes, &length);
		begin_line(traced, "read");
		PRINT(" <%u %u | bytes ", first_of(traced, values[1].msg), (unsigned)at);
		strm_trace_hex(&traced->out, bytes, length);
		PRINT(length == 0 ? "-\n" : "\n");
	} while ((at += MOST_BYTES) < end);
}

/* A message came from another pool: its blocks are allocated, filled and joined. */
static void tell_arrival(struct traced *traced, struct strm_msg msg)
{
	struct strm_block_place where;
	unsigned block, last = NO_BLOCK;
	uint32_t place;

	for (place = 0; strm_untraced_place(&traced->pool, msg, place, &where) == STRM_OK; place++, last = block) {
		block = traced->unused[--traced->unused_count];
		traced->next[block] = NO_BLOCK;
		begin_line(traced, "allocb");
		PRINT(" >%u %u | ok\n", block, (unsigned)where.capacity);
		if (!traced->is_told[where.data])
			PRINT("c %u %u\n", (unsigned)where.data, (unsigned)where.capacity);
		traced->is_told[where.data] = 1;
		PRINT("= %u -1 %u 0 0 M_DATA 0\n", block, (unsigned)where.data);
		tell_block(traced, '~', msg, place, block, 1);
		if (last == NO_BLOCK) {
			set_first(traced, msg, block);
			continue;
		}
		begin_line(traced, "linkb");
		PRINT(" <%u <%u | ok\n", first_of(traced, msg), block);
		traced->next[last] = (uint16_t)block;
		tell_block(traced, '=', msg, place - 1, last, 0);
	}
}

/* The program may write to a message, until its next call that is neither a look nor one of strm_room, strm_edit and strm_window. */
static void open_edit(struct traced *traced, struct strm_msg msg)
{
	uint32_t place = 0;

	while (place < traced->edited_count && traced->edited[place].head != msg.head)
		place++;
	traced->edited_count += place == traced->edited_count;
	traced->edited[place] = msg;
}

/* What the program wrote so is there before its next call. */
static void tell_edits(struct traced *traced, const char *name, const struct traced_call *call)
{
	uint32_t place;

	for (place = 0; place < traced->edited_count; place++)
		tell_all(traced, '~', traced->edited[place], 1);
	if (call->forms[0].kind == CALLED && strcmp(name, "room") != 0 && strcmp(name, "edit") != 0 && strcmp(name, "window") != 0)
		traced->edited_count = 0;
}

/* A call without a word: what it changed, it changed through pointers. */
static void tell_wordless(struct traced *traced, const char *name, const struct traced_call *call, const union value *values, int code)
{
	char text[64];

	if (strcmp(name, "read") == 0 && code == STRM_OK) {
		tell_read(traced, values, *(const size_t *)values[call->count - 1].at);
	} else if (strcmp(name, "transfer") == 0 && code == STRM_OK) {
		begin_line(traced, "freemsg");
		PRINT(" <%u | ok\n", first_of(traced, values[2].msg));
		release_all(traced, values[2].msg);
	} else if ((strcmp(name, "edit") == 0 || strcmp(name, "window") == 0) && code == STRM_OK) {
		open_edit(traced, values[1].msg);
	} else if (call->forms[0].kind == CALLED && call->forms[1].kind == MSG && code == STRM_OK) {
		tell_all(traced, '~', values[1].msg, 1);
	} else if (strcmp(name, "write") == 0 && code > 0 && values[4].number <= MOST_BYTES) {
		begin_line(traced, name);
		PRINT(" <%u %u ", first_of(traced, values[1].msg), (unsigned)values[2].number);
		strm_trace_hex(&traced->out, values[3].at, (size_t)values[4].number);
		PRINT("%s", values[4].number == 0 ? "-" : "");
		tell_refusal(traced, code);
	} else if (call->forms[0].kind == CALLED) {
		strm_name(code, text, sizeof text);
		PRINT("# strm_%s: %s\n", name, text);
	}
}

/* The name of a call without its prefix. */
static void take_name(const struct traced_call *call, char *name, size_t size)
{
	snprintf(name, size, "%.*s", (int)(call->length - strlen("strm_(")), call->name + strlen("strm_"));
}

/* How many messages a call can return at most. */
static uint64_t most_returned(const struct traced *traced, const struct traced_call *call, const union value *values, const char *name)
{
	uint32_t last = call->count - 1, there = 0;
	struct strm_census census;

	if (last < 3 || call->forms[last].kind != OUT_LENGTH || call->forms[last - 2].kind != OUT_MSG)
		return 1;
	if (strcmp(name, "allocb_n") != 0) {
		strm_untraced_qsize(&traced->pool, (uint32_t)values[1].number, &there);
	} else {
		strm_untraced_census(&traced->pool, &census);
		there = census.free;
	}
	return values[last - 1].number < there ? values[last - 1].number : there;
}

/* The pool is as the call finds it, so what is recorded can end here. */
void strm_script_before(struct traced *traced, const struct traced_call *call, const union value *values)
{
	char name[32];

	take_name(call, name, sizeof name);
	tell_edits(traced, name, call);
	if (strcmp(name, "insq_at") == 0 || strcmp(name, "rmvq_msg") == 0)
		seek(traced, (uint32_t)values[call->count - 2].number);
	else if (strncmp(name, "takeq", 5) == 0)
		line_up(traced, (uint32_t)values[1].number);
	if (traced->msgs + most_returned(traced, call, values, name) > MOST_MSGS + 1)
		strm_script_end(traced, "more than 24 messages are held");
	else if (++traced->calls > MOST_CALLS)
		strm_script_end(traced, "there are 100,000 calls");
}

/* The lines of a call, or of one that another call makes. */
static void tell(struct traced *traced, const struct traced_call *call, const union value *values, int code)
{
	const struct recipe *recipe = recipes, *end = recipes + sizeof recipes / sizeof recipes[0];
	struct traced *other = code == STRM_OK && call->forms[1].kind == CALLED ? strm_traced(values[1].at) : NULL;
	size_t length = call->length - strlen("strm_(");
	char name[32];

	take_name(call, name, sizeof name);
	if (other != NULL && other->is_recorded)
		tell_arrival(other, *(const struct strm_msg *)values[call->count - 1].at);
	if (!traced->is_recorded)
		return;
	while (recipe < end && strcmp(recipe->call, name) != 0)
		recipe++;
	if (length > 2 && strcmp(name + length - 2, "_n") == 0 && code >= STRM_NONE)
		tell_several(traced, call, values, code);
	else if (strcmp(name, "hold") == 0 && code >= STRM_NONE)
		tell_held(traced, call, values, code);
	else if (strcmp(name, "serve") == 0 && code == STRM_OK)
		tell_served(traced, call, values);
	else if (strncmp(name, "takeq", 5) == 0 && code == STRM_OK)
		tell_taken(traced, call, values);
	else if ((strcmp(name, "insq_at") == 0 || strcmp(name, "rmvq_msg") == 0) && code >= STRM_NONE)
		tell_by_place(traced, call, values, code);
	else if (recipe == end || code < STRM_NONE)
		tell_wordless(traced, name, call, values, code);
	else if (code == STRM_OK || (code == STRM_NONE && recipe->effect == FIRST_GONE))
		tell_done(traced, recipe, call, values);
	else
		tell_call(traced, recipe, call, values, code);
}

void strm_script_call(struct traced *traced, const struct traced_call *call, const union value *values, int code)
{
	tell(traced, call, values, code);
	if (traced->is_recorded && traced->msgs > MOST_MSGS)
		strm_script_end(traced, "more than 24 messages are held");
}

/* ---- the beginning and the end */

void strm_script_begin(struct traced *traced, const struct strm_config *config)
{
	uint32_t place;

	traced->first = malloc(config->mblks * sizeof *traced->first);
	traced->next = malloc(config->mblks * sizeof *traced->next);
	traced->unused = malloc(config->mblks * sizeof *traced->unused);
	traced->places = malloc(config->mblks * sizeof *traced->places);
	if (!traced->first || !traced->next || !traced->unused || !traced->places)
		return;
	for (place = 0; place < config->mblks; place++) {
		traced->first[place] = NO_BLOCK;
		traced->unused[place] = (uint16_t)(config->mblks - 1 - place);
	}
	traced->unused_count = config->mblks;
	traced->is_recorded = 1;
	PRINT("h pool %u %u\n", (unsigned)config->id, (unsigned)config->mblks);
	for (place = 0; place < config->class_count; place++)
		PRINT("h class %u %u\n", (unsigned)config->classes[place].size, (unsigned)config->classes[place].count);
	for (place = 0; place < config->queue_count; place++) {
		PRINT("h queue %u %u %c ", (unsigned)config->queues[place].hiwat, (unsigned)config->queues[place].lowat,
			config->queues[place].service ? 's' : 'n');
		if (config->queues[place].next == STRM_NO_QUEUE)
			PRINT("-\n");
		else
			PRINT("%u\n", (unsigned)config->queues[place].next);
	}
	PRINT("h bufcalls %u %u\n", (unsigned)config->bufcalls, (unsigned)config->first_id);
}

void strm_script_label(struct traced *traced, uint32_t queue, struct strm_msg msg)
{
	if (queue < traced->queues)
		PRINT("#: queue %u %s\n", (unsigned)queue, traced->queue_labels[queue]);
	else
		PRINT("# message %s\n", traced->labels[msg.head]);
}

static void tell_queue(struct traced *traced, uint32_t queue)
{
	struct strm_queue_info info;
	struct strm_band_info of_band;
	uint32_t band;

	strm_untraced_queue_info(&traced->pool, queue, &info);
	PRINT("r queue %u msgs=%u bytes=%u read=%u noenable=%u enabled=%u\n", (unsigned)queue, (unsigned)info.msgs, (unsigned)info.bytes,
		(unsigned)info.read, (unsigned)info.noenable, (unsigned)info.enabled);
	for (band = STRM_BANDS; band-- > 0;) {
		strm_untraced_band_info(&traced->pool, queue, band, &of_band);
		if (of_band.bytes > 0)
			PRINT("r band %u bytes=%u full=%u wanted=%u\n", (unsigned)band, (unsigned)of_band.bytes, (unsigned)of_band.full,
				(unsigned)of_band.wanted);
	}
}

void strm_script_end(struct traced *traced, const char *why)
{
	const struct strm_pool *pool = &traced->pool;
	struct strm_census census;
	struct strm_class_info info;
	struct strm_wish wish;
	uint32_t place, queue;

	traced->is_recorded = 0;
	if (why != NULL)
		PRINT("# %s: no later call is recorded\n", why);
	strm_untraced_census(pool, &census);
	PRINT("r blocks free=%u queued=%u held=%u total=%u\n", (unsigned)census.free, (unsigned)census.queued, (unsigned)census.held,
		(unsigned)traced->mblks);
	for (place = 0; strm_untraced_class_info(pool, place, &info) == STRM_OK; place++)
		PRINT("r data size=%u free=%u total=%u\n", (unsigned)info.size, (unsigned)info.free, (unsigned)info.total);
	for (queue = 0; queue < traced->queues; queue++)
		tell_queue(traced, queue);
	PRINT("r run");
	for (place = 0; strm_untraced_run_at(pool, place, &queue) == STRM_OK; place++)
		PRINT(" %u", (unsigned)queue);
	PRINT(place == 0 ? " -\n" : "\n");
	PRINT("r wishes");
	for (place = 0; strm_untraced_wish_at(pool, place, &wish) == STRM_OK; place++)
		PRINT(" %u:%u", (unsigned)wish.id, (unsigned)wish.size);
	PRINT(place == 0 ? " -\n" : "\n");
}
