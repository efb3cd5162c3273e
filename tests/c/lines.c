/*
 * Drawn lines of 2 to 8 queues with the three modules of crates/strm_header. A line is a write side, and then a read side in the other direction: a
 * module that has queue q has also queue `last - q`. One puts a header with a sequence number ahead of data, one acknowledges M_IOCTL on its
 * other side, and one flushes for M_FLUSH. After each step no message waits that could go on, and none is lost; within a band they arrive in order.
 *
 *     lines STEPS        on each line. Before the last line, 'N passed, M failed', it prints a number for each line, which says what happened
 *
 * lines.rt of crates/strm_scheduler_tests takes the same steps by the calls of strm_scheduler, and tests/wakeups on the plain model.
 */
#include "check.h"

#include <stdlib.h>

#define BLOCKS 16
#define BANDS 3
#define TYPES 5
/* The bytes of a message behind its first ones: how many of these there are, its way, and a number of its own in four bytes. */
#define TAIL 6
#define ROOM 64
/* All that messages can have in common that keep their order: the queue that they were put on, type and band. */
#define WAYS (8 * TYPES * BANDS)

enum module { NUMBERS, ACKNOWLEDGES, FLUSHES, MODULES };

/* What arrived last of the messages of a way: their own number, and that of their header. */
struct latest {
	uint32_t own;
	uint16_t header;
};

struct line {
	struct strm_pool pool;
	/* The last queue of each side is `middle` or `last`. */
	uint32_t queues, last, middle, first_module;
	uint32_t state, digest;		/* of drawn numbers, and of what happened */
	uint32_t held;			/* how many queues are held back */
	uint32_t made, gone, arrived, waited;
	uint16_t header;		/* the number of the next header */
	struct strm_msg kept;		/* a message that its queue gave, until it is put back there */
	uint32_t kept_of;
	struct latest latest[2][WAYS];
};

/* The types that are drawn; all further ones are data. */
static const uint32_t types[TYPES] = { STRM_M_IOCTL, STRM_M_FLUSH, STRM_M_PROTO, STRM_M_PCPROTO, STRM_M_DATA };

/* The next drawn number, below `most`. */
static uint32_t drawn(struct line *line, uint32_t most)
{
	line->state = (uint32_t)(((uint64_t)line->state * 1664525u + 1013904223u) & 0xFFFFFFFFu);
	return (line->state >> 8) % most;
}

static void happened(struct line *line, uint32_t what)
{
	line->digest = (uint32_t)(((uint64_t)line->digest * 31 + what) & 0xFFFFFFFFu);
}

static int is_end(const struct line *line, uint32_t queue)
{
	return queue == line->middle || queue == line->last;
}

static struct line opened_line(uint32_t queues)
{
	static const struct strm_class_spec class_spec = { 16, BLOCKS };
	static const struct strm_pool closed = STRM_POOL_INIT;
	struct strm_queue_spec specs[8];
	struct strm_config config;
	struct line line;
	uint32_t q;

	memset(&line, 0, sizeof line);
	line.pool = closed;
	line.queues = queues;
	line.last = queues - 1;
	line.middle = line.last / 2 > 0 ? line.last / 2 : 1;
	line.first_module = line.state = queues;
	line.header = 1;
	for (q = 0; q < queues; q++) {
		specs[q].hiwat = 16;
		specs[q].lowat = 4;
		specs[q].service = !is_end(&line, q);
		specs[q].next = is_end(&line, q) ? STRM_NO_QUEUE : q + 1;
	}
	config.id = queues;
	config.mblks = BLOCKS;
	config.classes = &class_spec;
	config.class_count = 1;
	config.queues = specs;
	config.queue_count = queues;
	config.bufcalls = 0;
	config.first_id = 1;
	ANSWERS(strm_open(&line.pool, &config), STRM_OK);
	return line;
}

static uint32_t other_of(const struct line *line, uint32_t queue)
{
	return line->last - queue;
}

/* The module of a queue. The two queues of a module have the same one. */
static enum module module_of(const struct line *line, uint32_t queue)
{
	uint32_t other = other_of(line, queue);

	return (enum module)((line->first_module + (queue < other ? queue : other)) % MODULES);
}

/* ---- the modules */

static void pass_to(struct line *line, uint32_t queue, struct strm_msg msg)
{
	ANSWERS(strm_putq(&line->pool, queue, msg), STRM_OK);
}

/* Puts a header ahead of data, in the room before its bytes or in a new block. Returns whether it is held back, since no block is free. */
static int number(struct line *line, const struct strm_service *service, struct strm_msg msg, const struct strm_queued *first)
{
	struct strm_msg front;
	uint8_t header[2];
	uint32_t yes;

	if (first->type == STRM_M_DATA) {
		ANSWERS(strm_testb(&line->pool, sizeof header, &yes), STRM_OK);
		if (!yes) {
			ANSWERS(strm_hold(&line->pool, service->queue, msg), STRM_OK);
			return 1;
		}
		header[0] = (uint8_t)(line->header / 256);
		header[1] = (uint8_t)(line->header % 256);
		line->header = (uint16_t)((line->header + 1u) & 0xFFFFu);
		if (strm_prepend(&line->pool, msg, header, sizeof header) == STRM_NO_ROOM) {
			ANSWERS(strm_allocb(&line->pool, sizeof header, &front), STRM_OK);
			ANSWERS(strm_write(&line->pool, front, 0, header, sizeof header), STRM_OK);
			ANSWERS(strm_setband(&line->pool, front, first->band), STRM_OK);
			ANSWERS(strm_linkb(&line->pool, front, msg), STRM_OK);
			msg = front;
		}
	}
	pass_to(line, service->next, msg);
	return 0;
}

static void acknowledge(struct line *line, const struct strm_service *service, struct strm_msg msg, const struct strm_queued *first)
{
	uint32_t other = other_of(line, service->queue);

	if (first->type != STRM_M_IOCTL || other == service->queue) {
		pass_to(line, service->next, msg);
		return;
	}
	ANSWERS(strm_settype(&line->pool, msg, 0, STRM_M_IOCACK), STRM_OK);
	pass_to(line, other, msg);
}

static void flush_one(struct line *line, uint32_t queue)
{
	uint32_t msgs;

	ANSWERS(strm_qsize(&line->pool, queue, &msgs), STRM_OK);
	ANSWERS(strm_flushq(&line->pool, queue, STRM_FLUSHALL), STRM_OK);
	ANSWERS(strm_qenable(&line->pool, queue), STRM_OK);
	line->gone += msgs;
}

static void flush_both(struct line *line, const struct strm_service *service, struct strm_msg msg, const struct strm_queued *first)
{
	uint32_t other = other_of(line, service->queue), write = service->queue < other ? service->queue : other;
	uint8_t flags = 0;
	size_t count;

	if (first->type == STRM_M_FLUSH)
		ANSWERS(strm_read(&line->pool, msg, 0, &flags, 1, &count), STRM_OK);
	if (flags & 1)
		flush_one(line, line->last - write);
	if (flags & 2)
		flush_one(line, write);
	pass_to(line, service->next, msg);
}

/* Has the module of the queue treat the message. Returns whether it is held back. */
static int treat(struct line *line, const struct strm_service *service, struct strm_msg msg)
{
	struct strm_queued first;

	ANSWERS(strm_message(&line->pool, msg, &first), STRM_OK);
	switch (module_of(line, service->queue)) {
	case NUMBERS:
		return number(line, service, msg, &first);
	case ACKNOWLEDGES:
		acknowledge(line, service, msg, &first);
		return 0;
	default:
		flush_both(line, service, msg, &first);
		return 0;
	}
}

/* ---- steps */

/* Makes a message of a drawn type and band, with room before its bytes, and puts it on a drawn queue. The first byte says what it flushes. */
static void put(struct line *line)
{
	uint32_t queue = drawn(line, line->queues), kind = drawn(line, 8), band = drawn(line, BANDS);
	uint32_t room = drawn(line, 4), flags = drawn(line, 4), length = 1 + drawn(line, 4);
	uint8_t bytes[4 + TAIL] = { 0 };
	struct strm_msg msg;
	int code = strm_allocb(&line->pool, 16, &msg);

	happened(line, code == STRM_OK);
	if (code != STRM_OK) {
		CHECK(code == STRM_NO_MBLK || code == STRM_NO_DATA);
		return;
	}
	if (kind >= TYPES)
		kind = TYPES - 1;
	line->made++;
	bytes[0] = (uint8_t)flags;
	bytes[length] = (uint8_t)length;
	bytes[length + 1] = (uint8_t)((queue * TYPES + kind) * BANDS + band);
	bytes[length + 2] = (uint8_t)(line->made >> 24);
	bytes[length + 3] = (uint8_t)(line->made >> 16 & 0xFF);
	bytes[length + 4] = (uint8_t)(line->made >> 8 & 0xFF);
	bytes[length + 5] = (uint8_t)(line->made & 0xFF);
	ANSWERS(strm_reserve(&line->pool, msg, 0, room), STRM_OK);
	ANSWERS(strm_write(&line->pool, msg, 0, bytes, length + TAIL), STRM_OK);
	ANSWERS(strm_setband(&line->pool, msg, band), STRM_OK);
	ANSWERS(strm_settype(&line->pool, msg, 0, types[kind]), STRM_OK);
	pass_to(line, queue, msg);
}

/* Takes the own number of a message, which may then arrive out of order. */
static void exempt(struct line *line, struct strm_msg msg)
{
	static const uint8_t none[4] = { 0 };
	uint32_t size;

	ANSWERS(strm_size(&line->pool, msg, &size), STRM_OK);
	ANSWERS(strm_overwrite(&line->pool, msg, size - sizeof none, none, sizeof none), STRM_OK);
}

static void put_kept_back(struct line *line)
{
	static const struct strm_msg none = STRM_NO_MSG_INIT;

	if (!strm_is_no_msg(line->kept))
		ANSWERS(strm_hold(&line->pool, line->kept_of, line->kept), STRM_OK);
	line->kept = none;
}

/* Serves, and ends the service in one of five ways. */
static void serve(struct line *line)
{
	struct strm_service service;
	struct strm_queued first;
	struct strm_msg msg;
	uint32_t held = line->held, yes;

	line->held = 0;
	if (strm_serve(&line->pool, held, &service, &msg) != STRM_OK) {
		happened(line, 255);
		return;
	}
	ANSWERS(strm_message(&line->pool, msg, &first), STRM_OK);
	happened(line, service.queue * 64 + service.next * 8 + service.held);
	happened(line, first.bytes * 8 + first.blocks);
	ANSWERS(strm_bcanput(&line->pool, service.next, first.band, &yes), STRM_OK);
	CHECK(service.next == service.queue + 1 && (yes || first.type >= STRM_M_IOCACK));
	switch (drawn(line, 32)) {
	case 0:
		ANSWERS(strm_hold(&line->pool, service.queue, msg), STRM_OK);
		line->held = service.held + 1;
		break;
	case 1:
		put_kept_back(line);
		exempt(line, msg);
		line->kept = msg;
		line->kept_of = service.queue;
		break;
	case 2:
		ANSWERS(strm_freemsg(&line->pool, msg), STRM_OK);
		line->gone++;
		break;
	case 3:
		exempt(line, msg);
		pass_to(line, drawn(line, line->queues), msg);
		break;
	default:
		if (treat(line, &service, msg)) {
			line->held = service.held + 1;
			line->waited++;
		}
	}
}

/* How many headers a message of data gets from a queue to the end of its side. */
static uint32_t headers_due(const struct line *line, uint32_t queue)
{
	return is_end(line, queue) ? 0 : (module_of(line, queue) == NUMBERS) + headers_due(line, queue + 1);
}

/* A message arrived with these bytes, `count` in number: it came in order, is as it was put, and has each header that it must have. */
static void check_arrived(struct line *line, uint32_t end, const struct strm_queued *first, const uint8_t *bytes, size_t count)
{
	const uint8_t *tail = bytes + count - TAIL;
	uint32_t way = tail[1], kind = way / BANDS % TYPES, own, headers, rise;
	struct latest *latest = &line->latest[end == line->last][way % WAYS];

	own = (uint32_t)tail[2] << 24 | (uint32_t)tail[3] << 16 | (uint32_t)tail[4] << 8 | tail[5];
	headers = (uint32_t)(count - TAIL - tail[0]) / 2;
	CHECK(count == 2 * headers + tail[0] + TAIL && way < WAYS && bytes[2 * headers] < 4);
	CHECK(first->band == (first->type < STRM_M_IOCACK ? way % BANDS : 0));
	CHECK(first->type == types[kind] || (kind == 0 && first->type == STRM_M_IOCACK));
	CHECK(kind == TYPES - 1 || headers == 0);
	line->arrived++;
	if (own == 0)
		return;
	CHECK(latest->own < own);
	latest->own = own;
	if (kind < TYPES - 1)
		return;
	CHECK(headers == headers_due(line, way / BANDS / TYPES));
	if (headers > 0) {
		rise = ((uint32_t)bytes[0] * 256 + bytes[1] + 0x10000u - latest->header) & 0xFFFFu;
		CHECK(rise > 0 && rise < 0x8000u);
		latest->header = (uint16_t)((latest->header + rise) & 0xFFFFu);
	}
}

/* Takes a message off the last queue of a side. Returns whether there was one. */
static int take(struct line *line, uint32_t end)
{
	struct strm_queued first;
	struct strm_msg msg;
	uint8_t bytes[ROOM];
	size_t count;

	if (strm_getq(&line->pool, end, &msg) != STRM_OK) {
		happened(line, 254);
		return 0;
	}
	ANSWERS(strm_message(&line->pool, msg, &first), STRM_OK);
	ANSWERS(strm_read(&line->pool, msg, 0, bytes, ROOM, &count), STRM_OK);
	happened(line, first.bytes * 8 + first.blocks);
	if (first.bytes <= ROOM)
		check_arrived(line, end, &first, bytes, count);
	ANSWERS(strm_freemsg(&line->pool, msg), STRM_OK);
	line->gone++;
	return 1;
}

static void ask(struct line *line)
{
	uint32_t queue = drawn(line, line->queues), yes;

	ANSWERS(strm_bcanput(&line->pool, queue, drawn(line, BANDS), &yes), STRM_OK);
	happened(line, yes);
}

/* ---- what is looked at */

/* Whether a queue that has a next one is on the run list or rests rightly: its first message waits for a band that has not drained. */
static int is_awake(const struct line *line, uint32_t queue)
{
	struct strm_queue_info info;
	struct strm_queued first;
	struct strm_band_info band;

	if (strm_queue_info(&line->pool, queue, &info) != STRM_OK || info.enabled)
		return info.enabled;
	if (strm_queued_at(&line->pool, queue, 0, &first) != STRM_OK)
		return info.read;
	return first.type < STRM_M_IOCACK && strm_band_info(&line->pool, queue + 1, first.band, &band) == STRM_OK && band.wanted && band.bytes > 4;
}

/* No queue is asleep, and no message is lost. */
static void look(struct line *line)
{
	uint32_t q, msgs, blocks, awake = 1, count = !strm_is_no_msg(line->kept);
	struct strm_census census;

	for (q = 0; q < line->queues; q++) {
		awake &= is_end(line, q) || is_awake(line, q);
		ANSWERS(strm_qsize(&line->pool, q, &msgs), STRM_OK);
		count += msgs;
	}
	CHECK(awake);
	CHECK(count == line->made - line->gone);
	ANSWERS(strm_census(&line->pool, &census), STRM_OK);
	blocks = 0;
	if (!strm_is_no_msg(line->kept)) {
		struct strm_queued kept;

		ANSWERS(strm_message(&line->pool, line->kept, &kept), STRM_OK);
		blocks = kept.blocks;
	}
	CHECK(census.held == blocks && census.free + census.queued + census.held == BLOCKS);
	happened(line, census.free);
}

static void step(struct line *line)
{
	uint32_t way = drawn(line, 16), end;

	if (way >= 8) {
		serve(line);
	} else {
		line->held = 0;
		if (way < 4) {
			put(line);
		} else if (way < 6) {
			end = drawn(line, 2) == 0 ? line->middle : line->last;
			take(line, end);
		} else if (way == 6) {
			ask(line);
		} else {
			put_kept_back(line);
		}
	}
	look(line);
}

/* Serves and takes until there is nothing to do. Then all messages have arrived, or no block is free for a header. */
static void finish(struct line *line)
{
	struct strm_service service;
	struct strm_msg msg;
	uint32_t q, yes, held;

	put_kept_back(line);
	do {
		for (held = 0; strm_serve(&line->pool, held, &service, &msg) == STRM_OK; )
			held = treat(line, &service, msg) ? service.held + 1 : 0;
	} while (take(line, line->middle) | take(line, line->last));
	ANSWERS(strm_testb(&line->pool, 2, &yes), STRM_OK);
	CHECK(line->made == line->gone || !yes);
	for (q = 0; q < line->queues; q++)
		flush_one(line, q);
	look(line);
	CHECK(line->made == line->gone);
	CENSUS(&line->pool, BLOCKS, 0, 0);
}

int main(int count, char **words)
{
	uint32_t queues, steps = count == 2 ? (uint32_t)strtoul(words[1], NULL, 10) : 0, at, waited = 0;

	CHECK(steps > 0);
	for (queues = 2; queues <= 8; queues++) {
		struct line line = opened_line(queues);

		for (at = 0; at < steps; at++)
			step(&line);
		printf("%lu\n", (unsigned long)line.digest);
		finish(&line);
		CHECK(steps < 10000 || line.arrived > steps / 50);
		waited += line.waited;
		ANSWERS(strm_close(&line.pool), STRM_OK);
	}
	CHECK(steps < 10000 || waited > steps / 50);
	return summary();
}
