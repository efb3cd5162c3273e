/* For testing modules in user space; tested, not proved. Queues, whose order, bands and marks are those of pools of strm.h; procedures of modules,
 * which run one inside another; and what runs later: service procedures, timeouts and functions of wishes. */
#include "ddi.h"

const char ddi_service[] = "service";
static struct frame test = { .as.procedure = "" };
struct frame *ddi_frame = &test;

/* ---- queues of a pool */

/* Water marks as strm.h takes them. */
struct strm_marks ddi_marks(size_t hiwat, size_t lowat)
{
	uint32_t high = hiwat > 0 ? (uint32_t)hiwat : 1;
	return (struct strm_marks){ high, lowat < high ? (uint32_t)lowat : high - 1 };
}

/* Gives a queue a number in the first pool that has one left. */
RARE static void number_queue(queue_t *q)
{
	struct strm_ddi_queue *own = q->q_layer;
	int place = 0;
	while (place < ddi_pool_count * STRM_MOST_QUEUES && ddi_pools[place / STRM_MOST_QUEUES].queues[place % STRM_MOST_QUEUES])
		place++;
	if (place == ddi_pool_count * STRM_MOST_QUEUES && ddi_open_pool() < 0) {
		fprintf(stderr, "strm_ddi: no more than %d pools of 16 queues can be open\n", MOST_POOLS);
		abort();
	}
	own->pool = &ddi_pools[place / STRM_MOST_QUEUES];
	own->number = (uint32_t)(place % STRM_MOST_QUEUES);
	own->pool->queues[own->number] = q;
	for (uint32_t band = 0; band < STRM_BANDS; band++)
		strm_strqset(&own->pool->pool, own->number, band, own->marks.hiwat, own->marks.lowat);
	if (!q->q_qinfo->qi_srvp)
		strm_noenable(&own->pool->pool, own->number);
}

/* The queue as the layer has it, with a number, which it gets when it is first needed; and its pool and number, as arguments. */
static inline struct strm_ddi_queue *own_of(queue_t *q)
{
	if (!q->q_layer->pool)
		number_queue(q);
	return q->q_layer;
}
#define AT_OWN(own) &(own)->pool->pool, (own)->number
#define AT(q) AT_OWN(own_of(q))

/* Whether a band may be full, so that the pool has to be asked. */
static inline int may_be_full(const queue_t *q, int band)
{
	return band > 0 || q->q_count >= q->q_hiwat;
}

/* Gives up the number of a queue, with what is on it. */
static void forget(queue_t *q)
{
	struct strm_ddi_queue *own = q->q_layer;
	struct strm_msg none;
	uint32_t number, left = 0;
	flushq(q, FLUSHALL);
	strm_enableok(AT(q));
	strm_getq(AT(q), &none);
	while (strm_run_at(&own->pool->pool, left, &number) == STRM_OK)
		left++;
	while (left-- > 0 && strm_next_service(&own->pool->pool, &number) == STRM_OK)
		if (number != own->number)
			strm_qenable(&own->pool->pool, number);
	own->pool->queues[own->number] = NULL;
	own->pool = NULL;
}

void ddi_forget(queue_t *pair)
{
	for (queue_t *q = pair; q < pair + 2; q++)
		if (q->q_layer && q->q_layer->pool)
			forget(q);
}

/* ---- procedures */

/*
 * What runs later: a put procedure, or the function of qwriter, once no procedure of its module or its pair of queues runs; a timeout; or a wish of
 * the first pool. Time is a number of ticks that grows as it passes.
 */
typedef void writer(queue_t *, mblk_t *);
struct later {
	struct later *next;
	queue_t *q;
	mblk_t *mp;
	writer *writer;
	int id;				/* above 0 if it is a wish, below if it is a timeout */
	clock_t when;
	void (*function)(void *), *argument;
	const struct strm_ddi_place *at;
} *ddi_later;
static struct later *pending;
clock_t strm_ddi_now;

RARE static void add_later(struct later **list, struct later what)
{
	while (*list)
		list = &(*list)->next;
	*list = malloc(sizeof **list);
	**list = what;
}

static struct later take_later(struct later **at)
{
	struct later *old = *at, what = *old;
	*at = old->next;
	free(old);
	return what;
}

static struct { const struct streamtab *tab; int flag; } flags[32];

void str_flag(struct streamtab *module, int flag)
{
	int k = 0;
	while (k < 31 && flags[k].tab && flags[k].tab != module)
		k++;
	flags[k].tab = module;
	flags[k].flag = flag;
}

/* Whether a procedure runs with which one of this queue, or its writer, may not run. */
static int is_inside(const queue_t *q, int is_writer)
{
	const struct streamtab *tab = q->q_layer->tab;
	int flag = is_writer ? D_MTPERMOD : 0;
	for (int k = 0; k < 32 && flags[k].tab; k++)
		if (flags[k].tab == tab)
			flag |= flags[k].flag;
	if (flag & (D_MTQPAIR | D_MTPERQ | D_MTPERMOD))
		for (const struct frame *frame = ddi_frame; frame; frame = frame->before)
			if (frame->q && (frame->q == q || frame->q == OTHERQ(q) || (flag & D_MTPERMOD && frame->q->q_layer->tab == tab)))
				return 1;
	return 0;
}

static inline void run(queue_t *q, mblk_t *mp, writer *writer)
{
	struct frame frame = { q, { q->q_qinfo->qi_minfo, writer ? "writer" : "put" }, NULL, ddi_frame };
	ddi_frame = &frame;
	if (writer)
		writer(q, mp);
	else
		q->q_qinfo->qi_putp(q, mp);
	ddi_leave(&frame);
}

void ddi_run_later(void)
{
	struct later **at = &ddi_later, what;
	while (*at && is_inside((*at)->q, (*at)->writer != NULL))
		at = &(*at)->next;
	if (*at) {
		what = take_later(at);
		run(what.q, what.mp, what.writer);
	}
}

/* The queue that decides whether one may send to `q`. */
static inline queue_t *decides(queue_t *q)
{
	while (!q->q_qinfo->qi_srvp && q->q_next)
		q = q->q_next;
	return q;
}

/* Reports a service procedure that passes a message to a full band. */
RARE static void check_room(queue_t *q, const struct block *b)
{
	struct strm_band_info info = { 0 };
	strm_band_info(AT(q), b->m.b_band, &info);
	if (info.full && (DB_TYPE(&b->m) == M_DATA || DB_TYPE(&b->m) == M_PROTO))
		ddi_misuse(NULL, b, "band %d of %s is full: a service procedure asks canputnext before", b->m.b_band, ddi_module(q));
}

PER_CALLER void put_to(queue_t *q, mblk_t *mp, const char *routine, int is_next)
{
	if (!ddi_has_all(mp, routine))
		return;
	if (!q) {
		ddi_misuse(NULL, (struct block *)mp, "there is no next queue");
		return;
	}
	if (is_next && ddi_frame->as.procedure == ddi_service && may_be_full(decides(q), mp->b_band))
		check_room(decides(q), (struct block *)mp);
	for (mblk_t *bp = mp; bp; bp = bp->b_cont)
		((struct block *)bp)->owner = q->q_qinfo->qi_minfo;
	if (flags[0].tab && is_inside(q, 0))
		add_later(&ddi_later, (struct later){ .q = q, .mp = mp });
	else
		run(q, mp, NULL);
}

void put(queue_t *q, mblk_t *mp)
{
	put_to(q, mp, "put", 0);
}

void putnext(queue_t *q, mblk_t *mp)
{
	put_to(q->q_next, mp, "putnext", 1);
}

/* Puts a message of a type, with a byte if `count` is 1. */
int strm_ddi_putctl(queue_t *q, int type, int byte, int count)
{
	mblk_t *mp = allocb(1, BPRI_HI);
	if (!mp)
		return 0;
	DB_TYPE(mp) = (uchar_t)type;
	*mp->b_wptr = (uchar_t)byte;
	mp->b_wptr += count;
	put(q, mp);
	return 1;
}

void qwriter(queue_t *q, mblk_t *mp, void (*function)(), UNUSED int scope)
{
	BEGIN_CALL();
	add_later(&ddi_later, (struct later){ .q = q, .mp = mp, .writer = (writer *)function });
	if (ddi_frame == &test)
		ddi_run_later();
}

queue_t *backq(queue_t *q)
{
	queue_t *behind = OTHERQ(q)->q_next;
	return behind ? OTHERQ(behind) : NULL;
}

/* ---- enabling */

/* A queue without a service procedure is never enabled. */
#define ENABLING(name) \
	void name(queue_t *q) \
	{ \
		if (!q->q_qinfo->qi_srvp) \
			return; \
		BEGIN_CALL(); \
		strm_##name(AT(q)); \
		END_CALL(#name " %s | ok", ON(q)); \
	}
ENABLING(qenable)
ENABLING(noenable)
ENABLING(enableok)

/* Enables the nearest queue behind with a service procedure if a band for which it waits has room. It may be in another pool. */
RARE static void wake(queue_t *q)
{
	struct strm_ddi_queue *own = q->q_layer;
	struct strm_band_info info;
	int is_woken = 0;
	own->is_asked = 0;
	for (uint8_t *asked = own->asked; (asked = memchr(asked, 1, (size_t)(own->asked + STRM_BANDS - asked))) != NULL; asked++) {
		strm_band_info(AT(q), (uint32_t)(asked - own->asked), &info);
		*asked = info.wanted != 0;
		own->is_asked |= *asked;
		is_woken |= !*asked;
	}
	for (q = is_woken ? backq(q) : NULL; q; q = backq(q))
		if (q->q_qinfo->qi_srvp) {
			strm_qenable(AT(q));
			return;
		}
}

/* Asks whether a band of the queue that decides has room. */
RARE static int ask(queue_t *q, queue_t *target, uchar_t band)
{
	uint32_t yes = 1;
	BEGIN_CALL();
	if (may_be_full(target, band))
		strm_bcanput(AT(target), band, &yes);
	if (!yes)
		target->q_layer->asked[band] = target->q_layer->is_asked = 1;
	END_CALL("bcanput %s %d | %s", ON(q), band, yes ? "yes" : "no");
	return (int)yes;
}

int bcanput(queue_t *q, uchar_t band)
{
	queue_t *target = decides(q);
	return (!ddi_traced && !may_be_full(target, band)) || ask(q, target, band);
}

int strqset(queue_t *q, qfields_t what, uchar_t band, long value)
{
	struct strm_marks marks;
	if (what == QMINPSZ || what == QMAXPSZ) {
		*(what == QMINPSZ ? &q->q_minpsz : &q->q_maxpsz) = value;
		return 0;
	}
	if (what != QHIWAT && what != QLOWAT)
		return EINVAL;
	BEGIN_CALL();
	strm_strqget(AT(q), band, &marks);
	*(what == QHIWAT ? &marks.hiwat : &marks.lowat) = (uint32_t)value;
	marks = ddi_marks(marks.hiwat, marks.lowat);
	strm_strqset(AT(q), band, marks.hiwat, marks.lowat);
	if (band == 0) {
		q->q_hiwat = marks.hiwat;
		q->q_lowat = marks.lowat;
	}
	wake(q);
	END_CALL("strqset %s %d %u %u | ok", ON(q), band, marks.hiwat, marks.lowat);
	return 0;
}

int strqget(queue_t *q, qfields_t what, uchar_t band, void *value)
{
	struct strm_marks marks;
	struct strm_band_info of_band;
	struct strm_queue_info info;
	strm_strqget(AT(q), band, &marks);
	strm_band_info(AT(q), band, &of_band);
	strm_queue_info(AT(q), &info);
	if (what == QFIRST || what == QLAST) {
		*(mblk_t **)value = what == QFIRST ? q->q_first : q->q_last;
	} else if (what == QFLAG) {
		*(uint_t *)value = (q->q_flag & QREADR) | (info.enabled ? QENAB : 0) | (info.read ? QWANTR : 0) | (info.noenable ? QNOENB : 0) |
			(of_band.full ? QFULL : 0) | (of_band.wanted ? QWANTW : 0);
	} else if (what < QBAD) {
		const ssize_t fields[] = { marks.hiwat, marks.lowat, q->q_maxpsz, q->q_minpsz, of_band.bytes };
		*(ssize_t *)value = fields[what];
	}
	return what < QBAD ? 0 : EINVAL;
}

/* ---- messages on queues: in q_first and b_next they are in the order that the pool has */

static inline uint32_t rank_of(const mblk_t *mp)
{
	return ((const struct block *)mp)->given.rank;
}

/* The message that the pool has before one on its queue, or null. */
static __attribute__((noinline)) mblk_t *queued_before(const struct block *b)
{
	uint32_t head;
	return strm_queued_before(&b->pool->pool, b->name.head, &head) == STRM_OK ? &b->pool->of[head]->m : NULL;
}

/* Links a message that the pool has put on its queue: before `next`, or last, if ranks are in order then. Otherwise only the pool knows its place. */
static inline void link_in(queue_t *q, mblk_t *next, struct block *b)
{
	mblk_t *mp = &b->m, *before = next ? next->b_prev : q->q_last;
	if ((before && rank_of(before) < rank_of(mp)) || (next && rank_of(next) > rank_of(mp))) {
		before = queued_before(b);
		next = before ? before->b_next : q->q_first;
	}
	mp->b_prev = before;
	mp->b_next = next;
	*(next ? &next->b_prev : &q->q_last) = mp;
	*(before ? &before->b_next : &q->q_first) = mp;
	if (rank_of(mp) == STRM_BANDS)
		mp->b_band = b->given.band = 0;
	b->owner = &ddi_queued_block;
	b->queue = q;
	if (mp->b_band == 0)
		q->q_count += (size_t)MBLKL(mp) + b->rest;
}

PER_CALLER int put_on(queue_t *q, mblk_t *mp, int (*call)(struct strm_pool *, uint32_t, struct strm_msg), int is_back, const char *routine)
{
	struct block *b = (struct block *)mp;
	own_of(q);
	if (!ddi_join(mp, q, routine))
		return 0;
	if (is_back && rank_of(mp) == STRM_BANDS && ddi_frame->q == q && ddi_frame->as.procedure == ddi_service)
		ddi_misuse(NULL, b, "a service procedure that puts high priority back is enabled for ever");
	call(AT_OWN(q->q_layer), b->name);
	link_in(q, is_back ? q->q_first : NULL, b);
	END_CALL(is_back ? "putbq %s %s | ok" : "putq %s %s | ok", ON(q), FROM(mp));
	return 1;
}

int putq(queue_t *q, mblk_t *mp)
{
	return put_on(q, mp, strm_putq, 0, "putq");
}

int putbq(queue_t *q, mblk_t *mp)
{
	return put_on(q, mp, strm_putbq, 1, "putbq");
}

/* The place of a message on a queue, or -1. Null has the place after the last one. */
static int place_in(const queue_t *q, const mblk_t *mp)
{
	const mblk_t *at = q->q_first;
	int place = 0;
	for (; at && at != mp; at = at->b_next)
		place++;
	return at == mp ? place : -1;
}

int insq(queue_t *q, mblk_t *before, mblk_t *mp)
{
	struct block *b = (struct block *)mp;
	int place = place_in(q, before), code;
	own_of(q);
	if (!ddi_join(mp, q, "insq"))
		return 0;
	code = strm_insq_at(AT(q), before ? ((struct block *)before)->name.head : STRM_NO_HEAD, b->name);
	if (code == STRM_NO_SUCH_PLACE)
		ddi_misuse(NULL, b, "the message before which it is to be is not on the queue");
	if (code != STRM_OK)
		ddi_part_all(b);
	else
		link_in(q, before, b);
	END_CALL("insq %s %d %s | %s", ON(q), place, FROM(mp), ddi_reply(code));
	return code == STRM_OK;
}

/* A message that came off its queue is of the caller's. */
static inline struct block *taken(queue_t *q, struct strm_msg name, const char *routine)
{
	struct block *b = q->q_layer->pool->of[name.head];
	mblk_t *mp = &b->m;
	b->name.stamp = name.stamp;
	*(mp->b_next ? &mp->b_next->b_prev : &q->q_last) = mp->b_prev;
	*(mp->b_prev ? &mp->b_prev->b_next : &q->q_first) = mp->b_next;
	mp->b_next = mp->b_prev = NULL;
	if (b->given.band == 0)
		q->q_count -= (size_t)(b->given.write - b->given.read) + b->rest;
	ddi_note(b, routine);
	if (b->is_joined || mp->b_cont)
		ddi_part_all(b);
	else
		b->owner = ddi_frame->as.module;
	if (q->q_layer->is_asked)
		wake(q);
	return b;
}

/* Ends a getq that is traced. */
RARE static mblk_t *end_getq(const queue_t *q, mblk_t *mp)
{
	ddi_trace_end("getq %s %s | %s", ON(q), TO(mp), mp ? "ok" : "none");
	return mp;
}

/* A queue without a number has no message. */
mblk_t *getq(queue_t *q)
{
	struct strm_ddi_queue *own = q->q_layer;
	struct strm_msg name;
	struct block *b;
	BEGIN_CALL();
	b = strm_getq((struct strm_pool *)own->pool, own->number, &name) == STRM_OK ? taken(q, name, "getq") : NULL;
	return ddi_traced ? end_getq(q, (mblk_t *)b) : (mblk_t *)b;
}

void rmvq(queue_t *q, mblk_t *mp)
{
	struct strm_msg name;
	int place = place_in(q, mp);
	BEGIN_CALL();
	if (place < 0 || strm_rmvq_msg(&own_of(q)->pool->pool, ((struct block *)mp)->name.head, &name) != STRM_OK) {
		ddi_misuse("rmvq", NULL, "the message is not on the queue");
		return;
	}
	taken(q, name, "rmvq");
	END_CALL("rmvq %s %d %s | ok", ON(q), place, TO(mp));
}

/* Flushes a band, or all if it is negative. */
void strm_ddi_flush(queue_t *q, int band, int flag)
{
	struct strm_msg name;
	uint32_t what = flag == FLUSHALL ? STRM_FLUSHALL : STRM_FLUSHDATA;
	size_t count;
	struct block *b, *next;
	BEGIN_CALL();
	while (!(band < 0 ? strm_takeq(AT(q), what, &name, 1, &count) : strm_takeq_band(AT(q), (uint32_t)band, what, &name, 1, &count)) && count)
		for (b = taken(q, name, "flushq"); b; b = next) {
			next = (struct block *)b->m.b_cont;
			ddi_free(b);
		}
	END_CALL(band < 0 ? "flushq %s %s | ok" : "flushband %1$s %3$d %2$s | ok", ON(q), flag == FLUSHALL ? "all" : "data", band);
}

int qsize(queue_t *q)
{
	uint32_t count = 0;
	BEGIN_CALL();
	strm_qsize(AT(q), &count);
	END_CALL("qsize %s | size %u", ON(q), count);
	return (int)count;
}

/* ---- what runs later */

static struct later **pending_of(int id)
{
	struct later **at = &pending;
	while (*at && (*at)->id != id)
		at = &(*at)->next;
	return at;
}

static int add_pending(int id, queue_t *q, clock_t when, void (*function)(void *), void *argument)
{
	add_later(&pending, (struct later){ .id = id, .q = q, .when = when, .function = function, .argument = argument, .at = strm_ddi_at });
	return id;
}

timeout_id_t qtimeout(queue_t *q, void (*function)(void *), void *argument, clock_t ticks)
{
	static int last;
	return add_pending(--last, q, strm_ddi_now + ticks, function, argument);
}

clock_t untimeout(timeout_id_t id)
{
	struct later **at = pending_of(id);
	return *at ? take_later(at).when - strm_ddi_now : -1;
}

bufcall_id_t qbufcall(queue_t *q, size_t size, UNUSED uint_t priority, void (*function)(void *), void *argument)
{
	uint32_t wish;
	int code;
	BEGIN_CALL();
	code = strm_bufcall(&ddi_pools[0].pool, (uint32_t)ddi_least(size, UINT32_MAX), &wish);
	if (code != STRM_OK) {
		END_CALL("bufcall %zu | %s", size, ddi_reply(code));
		return 0;
	}
	END_CALL("bufcall %zu | id %u", size, wish);
	return add_pending((int)wish, q, 0, function, argument);
}

void unbufcall(bufcall_id_t id)
{
	int code;
	BEGIN_CALL();
	if ((code = strm_unbufcall(&ddi_pools[0].pool, (uint32_t)id)) == STRM_OK)
		untimeout(id);
	END_CALL("unbufcall %d | %s", id, ddi_reply(code));
}

/* The timeout that is due first, by `end`, or null. */
static struct later **due(clock_t end)
{
	struct later **first = NULL;
	for (struct later **at = &pending; *at; at = &(*at)->next)
		if ((*at)->id < 0 && (*at)->when <= (first ? (*first)->when - 1 : end))
			first = at;
	return first;
}

/* Calls the function of a wish that can be met, or of a timeout that is due. */
static int call_ready(void)
{
	struct strm_wish wish;
	struct later **at, what;
	struct frame frame;
	if (pending && strm_take_ready(&ddi_pools[0].pool, &wish) == STRM_OK) {
		BEGIN_CALL();
		END_CALL("ready | ready %u %u", wish.id, wish.size);
		at = pending_of((int)wish.id);
	} else {
		at = due(strm_ddi_now);
	}
	if (!at)
		return 0;
	what = take_later(at);
	ddi_enter(&frame, what.q, what.id > 0 ? "bufcall" : "timeout");
	what.function(what.argument);
	ddi_leave(&frame);
	return 1;
}

/* Whether messages are on a queue that has a service procedure, which neither waits to run nor for room at another queue. */
static int is_asleep(queue_t *q)
{
	struct strm_queue_info info;
	return q->q_first && q->q_qinfo->qi_srvp && strm_queue_info(AT(q), &info) == STRM_OK && !info.enabled &&
		!(q->q_next && decides(q->q_next)->q_layer->is_asked);
}

/* Reports messages that nothing was to take off a queue which is closed. */
void ddi_check_left(queue_t *q)
{
	if (is_asleep(q))
		ddi_misuse("close", (struct block *)q->q_first, "messages are left on the queue of %s %s: nothing was to enable it", ddi_module(q),
			ddi_side(q));
}

/* Reports what is to run after a module was closed. */
void ddi_check_pending(queue_t *pair, const void *private)
{
	struct later **at = &pending, what;
	while (*at) {
		const void *argument = (*at)->argument;
		if ((*at)->q != pair && (*at)->q != pair + 1 && argument != pair && argument != pair + 1 && (!private || argument != private)) {
			at = &(*at)->next;
			continue;
		}
		what = take_later(at);
		strm_ddi_at = what.at;
		ddi_misuse(what.id > 0 ? "bufcall" : "timeout", NULL, "it waits, and %s is closed", ddi_module(pair));
		if (what.id > 0)
			strm_unbufcall(&ddi_pools[0].pool, (uint32_t)what.id);
	}
}

/* The next queue that is enabled and has a service procedure. The pools take turns. */
static inline queue_t *next_service(void)
{
	static struct pool *turn = ddi_pools;
	uint32_t number;
	for (int k = 0; k < ddi_pool_count; k++) {
		turn = turn + 1 < ddi_pools + ddi_pool_count ? turn + 1 : ddi_pools;
		while (strm_next_service(&turn->pool, &number) == STRM_OK)
			if (turn->queues[number]->q_qinfo->qi_srvp)
				return turn->queues[number];
	}
	return NULL;
}

int ddi_serve(void)
{
	struct frame frame;
	queue_t *q = next_service();
	if (!q)
		return 0;
	ddi_enter(&frame, NULL, "scheduler");
	END_CALL("service | queue %s", ON(q));
	ddi_frame = frame.before;
	ddi_enter(&frame, q, ddi_service);
	q->q_qinfo->qi_srvp(q);
	if (frame.failed && !pending && is_asleep(q)) {
		strm_ddi_at = frame.failed;
		ddi_misuse("allocb", (struct block *)q->q_first,
			"it failed, and the service procedure left messages without a bufcall, a timeout or a qenable");
	}
	ddi_leave(&frame);
	return 1;
}

int str_run(void)
{
	int count = 0;
	while (ddi_serve() || call_ready())
		count++;
	AT_HEAD();
	return count;
}

int str_wait(clock_t ticks)
{
	clock_t end = strm_ddi_now + ticks;
	int count = str_run();
	for (struct later **next; strm_ddi_now < end; count += str_run()) {
		next = due(end);
		strm_ddi_now = next ? (*next)->when : end;
	}
	return count;
}

void qwait(UNUSED queue_t *q)
{
	struct frame *inside = ddi_frame;
	ddi_frame = &test;
	if (!ddi_serve() && !call_ready() && !str_wait(PATIENCE))
		ddi_misuse("qwait", NULL, "nothing came in 15 s");
	ddi_frame = inside;
}
