/*
 * Which calls can leave a message waiting that may go on, where exactly the queues with a next queue have a service procedure, as strm.h says at
 * strm_serve. First each call that can, and strm_qenable after it. Then drawn calls on drawn pools: those that cannot, and the others with
 * strm_qenable behind them. After each, every queue with a next queue is on the run list or rests rightly. The last line is as in each.c.
 */
#include "check.h"

#define QUEUES 8
#define BANDS 3
#define BLOCKS 24
#define POOLS 400
#define CALLS_OF_A_POOL 400

static const struct strm_class_spec classes[] = { { 8, 12 }, { 16, 12 } };

/* A band is full at 4 bytes, and has drained at 1. */
static struct strm_pool opened(uint32_t id, const struct strm_queue_spec *queues, size_t count)
{
	struct strm_pool pool = STRM_POOL_INIT;
	struct strm_config config;

	config.id = id;
	config.mblks = BLOCKS;
	config.classes = classes;
	config.class_count = 2;
	config.queues = queues;
	config.queue_count = count;
	config.bufcalls = 4;
	config.first_id = 1;
	ANSWERS(strm_open(&pool, &config), STRM_OK);
	return pool;
}

/* ---- each call that can */

/*
 * Makes a call of this number, if there is one. On queue 0 a message of band 1 waits, whose head is `waiting`, before one of another type and of
 * band 0; the queue is not on the run list. Message `urgent` of band 2 is held.
 */
static int make(int number, struct strm_pool *pool, uint32_t waiting, struct strm_msg urgent)
{
	struct strm_msg msg;
	uint32_t queue;
	size_t count;

	switch (number) {
	case 0: return strm_getq(pool, 0, &msg);
	case 1: return strm_getq_n(pool, 0, &msg, 1, &count);
	case 2: return strm_rmvq(pool, 0, 0, &msg);
	case 3: return strm_rmvq_msg(pool, waiting, &msg);
	case 4: return strm_takeq(pool, 0, STRM_FLUSHDATA, &msg, 1, &count);
	case 5: return strm_takeq_band(pool, 0, 1, STRM_FLUSHALL, &msg, 1, &count);
	case 6: return strm_flushq(pool, 0, STRM_FLUSHDATA);
	case 7: return strm_flushband(pool, 0, 1, STRM_FLUSHALL);
	case 8: return strm_putbq(pool, 0, urgent);
	case 9: return strm_insq(pool, 0, 0, urgent);
	case 10: return strm_insq_at(pool, 0, waiting, urgent);
	case 11: return strm_putq(pool, 0, urgent) == STRM_OK ? strm_next_service(pool, &queue) : STRM_INVALID;
	case 12: return strm_noenable(pool, 0) == STRM_OK ? strm_putq(pool, 0, urgent) : STRM_INVALID;
	default: return STRM_BAD_ARGUMENT;
	}
}

/* The first message of queue 0 may go on, yet no queue is served, until strm_qenable. */
static void leave_waiting(int number)
{
	static const struct strm_queue_spec queues[] = { { 4, 1, 1, 1 }, { 4, 1, 0, STRM_NO_QUEUE } };
	struct strm_pool pool = opened(7, queues, 2);
	struct strm_msg waiting = message(&pool, "w"), behind = message(&pool, "b"), urgent = message(&pool, "u"), full = message(&pool, "full"), out;
	struct strm_service service;
	struct strm_queued first;
	uint32_t yes;

	ANSWERS(strm_setband(&pool, full, 1), STRM_OK);
	ANSWERS(strm_setband(&pool, waiting, 1), STRM_OK);
	ANSWERS(strm_setband(&pool, urgent, 2), STRM_OK);
	ANSWERS(strm_settype(&pool, behind, 0, STRM_M_CTL), STRM_OK);
	ANSWERS(strm_putq(&pool, 1, full), STRM_OK);
	ANSWERS(strm_putq(&pool, 0, waiting), STRM_OK);
	ANSWERS(strm_putq(&pool, 0, behind), STRM_OK);
	ANSWERS(strm_serve(&pool, 0, &service, &out), STRM_NONE);
	ANSWERS(make(number, &pool, waiting.head, urgent), STRM_OK);
	ANSWERS(strm_queued_at(&pool, 0, 0, &first), STRM_OK);
	ANSWERS(strm_bcanput(&pool, 1, first.band, &yes), STRM_OK);
	CHECK(yes == 1);
	ANSWERS(strm_serve(&pool, 0, &service, &out), STRM_NONE);
	ANSWERS(strm_qenable(&pool, 0), STRM_OK);
	ANSWERS(strm_serve(&pool, 0, &service, &out), STRM_OK);
	CHECK(out.head == first.head);
	ANSWERS(strm_close(&pool), STRM_OK);
}

/* After strm_noenable an ordinary message needs strm_qenable each time, until strm_enableok. */
static void switch_off(void)
{
	static const struct strm_queue_spec queues[] = { { 4, 1, 1, 1 }, { 4, 1, 0, STRM_NO_QUEUE } };
	struct strm_pool pool = opened(7, queues, 2);
	struct strm_service service;
	struct strm_msg out;
	int round;

	ANSWERS(strm_noenable(&pool, 0), STRM_OK);
	for (round = 0; round < 2; round++) {
		ANSWERS(strm_putq(&pool, 0, message(&pool, "a")), STRM_OK);
		ANSWERS(strm_serve(&pool, 0, &service, &out), STRM_NONE);
		ANSWERS(strm_qenable(&pool, 0), STRM_OK);
		ANSWERS(strm_serve(&pool, 0, &service, &out), STRM_OK);
		ANSWERS(strm_serve(&pool, 0, &service, &out), STRM_NONE);
	}
	ANSWERS(strm_enableok(&pool, 0), STRM_OK);
	ANSWERS(strm_putq(&pool, 0, message(&pool, "a")), STRM_OK);
	ANSWERS(strm_serve(&pool, 0, &service, &out), STRM_OK);
	ANSWERS(strm_close(&pool), STRM_OK);
}

/* ---- drawn calls */

static uint32_t state = 1;

static uint32_t below(uint32_t bound)
{
	state = (uint32_t)(((uint64_t)state * 1664525u + 1013904223u) & 0xFFFFFFFFu);
	return (state >> 8) % bound;
}

static struct strm_queue_spec specs[QUEUES];
static uint32_t queues;

static int is_last(uint32_t queue)
{
	return specs[queue].next == STRM_NO_QUEUE;
}

/* Lines of queues, which may be interleaved: most queues have a next queue, and exactly these a service procedure. */
static void draw_queues(void)
{
	uint32_t q, next;
	int is_next[QUEUES] = { 0 };

	queues = 2 + below(QUEUES - 1);
	for (q = 0; q < queues; q++) {
		next = q + 1 + below(queues);
		specs[q].hiwat = 4;
		specs[q].lowat = 1;
		specs[q].service = next < queues && !is_next[next];
		specs[q].next = specs[q].service ? next : STRM_NO_QUEUE;
		if (specs[q].service)
			is_next[next] = 1;
	}
}

/* The name of a held message, or of none. */
static struct strm_msg drawn_name(const struct strm_pool *pool)
{
	struct strm_msg msg = STRM_NO_MSG;
	uint32_t head = below(BLOCKS), tries;

	for (tries = 0; tries < BLOCKS && strm_name_at(pool, (head + tries) % BLOCKS, &msg) != STRM_OK; tries++)
		continue;
	return msg;
}

/* Whether a call can leave a message waiting that may go on. If so, *queue is the queue. */
static int can_leave_waiting(const struct call *call, const struct strm_pool *pool, uint32_t *queue)
{
	*queue = call->queue;
	switch (call->verb) {
	case PUTQ: case PUTQ_N: case BCANPUT: case STRQSET: case QENABLE: case ENABLEOK: case HOLD:
		return 0;
	case SERVICE:
		return strm_run_at(pool, 0, queue) == STRM_OK;
	case RMVQ_MSG:
		return strm_queue_of(pool, call->number, queue) == STRM_OK && !is_last(*queue);
	default:
		return !forms[call->verb].is_look && names(call->verb, "q") && !is_last(*queue);
	}
}

/* Draws a call, and makes it, with strm_qenable behind it if need be. Of strm_noenable that would be too little. */
static void draw_call(struct strm_pool *pool, struct strm_pool *other, struct call *call)
{
	static const enum verb often[] = { ALLOCB, PUTQ, PUTQ, SERVE, SERVE, SERVE, BCANPUT, STRQSET };
	struct results results;
	struct arguments a;
	uint32_t queue, i;
	int can_leave;

	memset(call, 0, sizeof *call);
	call->verb = below(3) > 0 ? often[below(sizeof often / sizeof often[0])] : (enum verb)below(VERBS);
	call->queue = below(queues);
	call->place = below(3);
	call->band = below(BANDS);
	if (!names(call->verb, "e") || strm_first_queued(pool, call->queue, &call->number) != STRM_OK)
		call->number = below(BLOCKS);
	call->type = below(4) > 0 ? (uint32_t)STRM_M_DATA : below(STRM_TYPES);
	call->flush = below(2);
	call->hiwat = 1 + below(8);
	call->lowat = below(5);
	call->count = (int32_t)below(5) - 2;
	store_in(&a, &results);
	a.x = drawn_name(pool);
	a.z = drawn_name(pool);
	a.octets = "octets";
	for (i = 0; i < MOST_ITEMS; i++) {
		call->shapes[i].length = below(8);
		call->shapes[i].type = call->type;
		call->shapes[i].band = below(BANDS);
		results.msgs[i] = names(call->verb, "g") ? drawn_name(pool) : results.msgs[i];
	}
	a.shapes = call->shapes;
	a.length = below(MOST_ITEMS + 1);
	can_leave = can_leave_waiting(call, pool, &queue);
	if (can_leave && call->verb == NOENABLE)
		return;
	call_made(call, pool, other, &a);
	if (can_leave)
		ANSWERS(strm_qenable(pool, queue), STRM_OK);
	/* what is allocated gets bytes and a rank */
	if (call->verb == ALLOCB && strm_has(pool, results.y, &i) == STRM_OK && i) {
		strm_advance(pool, results.y, 0, below(9));
		ANSWERS(strm_setband(pool, results.y, below(BANDS)), STRM_OK);
		ANSWERS(strm_settype(pool, results.y, 0, below(8) > 0 ? STRM_M_DATA : STRM_M_PCPROTO), STRM_OK);
	}
}

/* Whether a queue with a next queue is on the run list, or waits for a message, or its first message for a band that has not drained. */
static int is_awake(const struct strm_pool *pool, uint32_t queue)
{
	struct strm_queue_info info;
	struct strm_queued first;
	struct strm_band_info band;
	struct strm_marks marks;

	if (strm_queue_info(pool, queue, &info) != STRM_OK || info.enabled)
		return info.enabled;
	if (strm_queued_at(pool, queue, 0, &first) != STRM_OK)
		return info.read;
	return first.type < STRM_M_IOCACK && strm_band_info(pool, specs[queue].next, first.band, &band) == STRM_OK && band.wanted
		&& strm_strqget(pool, specs[queue].next, first.band, &marks) == STRM_OK && band.bytes > marks.lowat;
}

/* Frees half of the held messages, where blocks run out. */
static void free_some(struct strm_pool *pool)
{
	struct strm_census census;
	struct strm_msg msg;
	uint32_t head;

	if (strm_census(pool, &census) == STRM_OK && census.free > 2)
		return;
	for (head = below(2); head < BLOCKS; head += 2)
		if (strm_name_at(pool, head, &msg) == STRM_OK)
			ANSWERS(strm_freemsg(pool, msg), STRM_OK);
	for (head = 0; head < queues; head++)
		if (is_last(head))
			ANSWERS(strm_flushq(pool, head, STRM_FLUSHALL), STRM_OK);
}

static void draw_calls(void)
{
	uint32_t number, step, q, rested = 0;
	int awake = 1;
	char what[80];

	for (number = 0; number < POOLS && awake; number++) {
		struct strm_pool pool, other;
		struct call call;

		draw_queues();
		pool = opened(7, specs, queues);
		other = opened(8, specs, queues);
		for (step = 0; step < CALLS_OF_A_POOL && awake; step++) {
			draw_call(&pool, &other, &call);
			for (q = 0; q < queues; q++)
				awake &= is_last(q) || is_awake(&pool, q);
			for (q = 0; q < queues; q++) {
				struct strm_queue_info info;

				ANSWERS(strm_queue_info(&pool, q, &info), STRM_OK);
				rested += !is_last(q) && info.msgs > 0 && !info.enabled;
			}
			free_some(&pool);
		}
		sprintf(what, "each queue is awake after strm_%s", forms[call.verb].call);
		check(awake, __FILE__, __LINE__, what);
		ANSWERS(strm_close(&other), STRM_OK);
		ANSWERS(strm_close(&pool), STRM_OK);
	}
	CHECK(rested > POOLS);
}

int main(void)
{
	int number;

	for (number = 0; number < 13; number++)
		leave_waiting(number);
	switch_off();
	draw_calls();
	return summary();
}
