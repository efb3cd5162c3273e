/* For testing modules in user space; tested, not proved. Messages, whose blocks and bytes are those of pools of strm.h. A module writes at addresses
 * of strm_region, as the rule there allows, unless it writes to data that is shared or on a queue: that is wrong in a kernel too. */
#include "ddi.h"

#ifdef __SANITIZE_ADDRESS__
#include <sanitizer/asan_interface.h>
#else
#define ASAN_POISON_MEMORY_REGION(at, size) ((void)0)
#define ASAN_UNPOISON_MEMORY_REGION(at, size) ((void)0)
#endif

struct pool ddi_pools[MOST_POOLS];
int ddi_pool_count;
struct block *ddi_blocks, *ddi_blocks_end;

struct strm_config ddi_config;
static struct strm_class_spec classes[STRM_MOST_CLASSES];
static const struct strm_queue_spec queues[] = { [0 ... STRM_MOST_QUEUES - 1] = { .hiwat = 1, .service = 1, .next = STRM_NO_QUEUE } };
static const struct strm_class_spec usual[] = { { 64, 512 }, { 256, 512 }, { 1024, 256 }, { 2048, 256 }, { 4096, 512 } };
static size_t free_count;
static struct block *free_first, *free_last;

/* What each type of a message is called, and one more than its number in strm.h, or 0 where that lacks it. */
#define TYPE(type) [type] = { #type, STRM_##type + 1 }
#define OTHER(type) [type] = { #type, 0 }
static const struct type { const char *name; uint32_t number; } types[256] = {
	TYPE(M_DATA), TYPE(M_PROTO), TYPE(M_BREAK), TYPE(M_PASSFP), TYPE(M_SIG), TYPE(M_DELAY), TYPE(M_CTL), TYPE(M_IOCTL), TYPE(M_SETOPTS),
	TYPE(M_IOCACK), TYPE(M_IOCNAK), TYPE(M_PCPROTO), TYPE(M_PCSIG), TYPE(M_READ), TYPE(M_FLUSH), TYPE(M_STOP), TYPE(M_START),
	TYPE(M_HANGUP), TYPE(M_ERROR), TYPE(M_COPYIN), TYPE(M_COPYOUT), TYPE(M_IOCDATA), OTHER(M_EVENT), OTHER(M_RSE), OTHER(M_PCRSE),
	OTHER(M_STOPI), OTHER(M_STARTI), OTHER(M_PCEVENT), OTHER(M_UNHANGUP), OTHER(M_CMD)
};

const char *ddi_type_name(int type)
{
	return types[type & 255].name ? types[type & 255].name : "a type without a name";
}

/* ---- pools */

int ddi_open_pool(void)
{
	struct pool *pool = &ddi_pools[ddi_pool_count];
	const uint8_t *base;
	size_t size, stride;
	struct data *d;
	ddi_config.id = (uint32_t)ddi_pool_count + 1;
	if (ddi_pool_count == MOST_POOLS || strm_open(&pool->pool, &ddi_config) != STRM_OK)
		return -1;
	d = pool->data;
	for (uint32_t c = 0; strm_region(&pool->pool, c, &base, &size, &stride) == STRM_OK; c++)
		for (size_t at = 0; at < size; at += stride)
			*d++ = (struct data){ .base = (uchar_t *)(uintptr_t)base + at, .size = (uint32_t)stride };
	return ddi_pool_count++;
}

int str_init(const struct strm_config *given)
{
	ddi_catch_faults();
	ddi_config = given ? *given : (struct strm_config){ .mblks = 2048, .classes = usual, .class_count = sizeof usual / sizeof *usual,
		.bufcalls = STRM_MOST_WISHES };
	ddi_config.queues = queues;
	ddi_config.queue_count = STRM_MOST_QUEUES;
	ddi_config.first_id = 1;
	memcpy(classes, ddi_config.classes, ddi_least(ddi_config.class_count, STRM_MOST_CLASSES) * sizeof *classes);
	ddi_config.classes = classes;
	free_count = 0;
	ddi_blocks = ddi_blocks_end = calloc((size_t)ddi_config.mblks * MOST_POOLS + QUARANTINE, sizeof *ddi_blocks);
	if (ddi_open_pool() < 0) {
		free(ddi_blocks);
		return EINVAL;
	}
	ddi_trace_open();
	return 0;
}

int str_fini(void)
{
	int reported;
	ddi_trace_close();
	reported = ddi_census();
	ASAN_UNPOISON_MEMORY_REGION(ddi_blocks, (size_t)(ddi_blocks_end - ddi_blocks) * sizeof *ddi_blocks);
	free(ddi_blocks);
	while (ddi_pool_count > 0) {
		struct pool *pool = &ddi_pools[--ddi_pool_count];
		strm_close(&pool->pool);
		memset(pool, 0, sizeof *pool);
	}
	return reported;
}

/* ---- blocks */

/* The data block of a message's first block, with one reference more. As the first one it gets a type, and is as after allocb. */
static struct data *refer(struct strm_msg name, uchar_t type)
{
	struct pool *pool = &ddi_pools[name.pool - 1];
	struct strm_block_place where;
	struct data *d;
	strm_place(&pool->pool, name, 0, &where);
	d = &pool->data[where.data];
	if (d->references++ == 0)
		d->d = (dblk_t){ .db_base = d->base, .db_lim = d->base + d->size, .db_type = type };
	d->d.db_ref = d->references;
	return d;
}

static struct given given_of(const struct block *b)
{
	return (struct given){ b->m.b_rptr, b->m.b_wptr, DB_TYPE(&b->m), b->m.b_band, DB_TYPE(&b->m) >= QPCTL ? STRM_BANDS : b->m.b_band };
}

/* A new message block, with the places and the band of `like`, or without bytes if that is null. It is one that was not used, or the one that was
 * freed first, once some are: so a pointer to a freed block is found for long. */
static struct block *new_block(struct strm_msg name, const struct block *like, const char *routine)
{
	struct block *b = free_count > QUARANTINE ? free_first : ddi_blocks_end++;
	struct data *d = refer(name, like ? DB_TYPE(&like->m) : M_DATA);
	if (free_count > QUARANTINE) {
		free_first = b->next;
		free_count--;
		ASAN_UNPOISON_MEMORY_REGION(&b->m, sizeof b->m);
	}
	b->m = (mblk_t){ .b_rptr = d->d.db_base, .b_wptr = d->d.db_base, .b_datap = &d->d };
	if (like) {
		b->m.b_rptr += MBLKHEAD(&like->m);
		b->m.b_wptr = b->m.b_rptr + MBLKL(&like->m);
		b->m.b_band = like->m.b_band;
	}
	b->data = d;
	b->given = given_of(b);
	b->pool = &ddi_pools[name.pool - 1];
	b->name = name;
	b->owner = ddi_frame->as.module;
	b->event_count = 0;
	b->pool->of[name.head] = b;
	ddi_note(b, routine);
	return b;
}

/* Ends a reference. After the last one, the function of esballoc is called. */
static void end_reference(struct data *d)
{
	d->d.db_ref = --d->references;
	if (d->references == 0 && d->d.db_frtnp)
		d->d.db_frtnp->free_func(d->d.db_frtnp->free_arg);
}

/* A block is freed in the pool. No address is left in it, so a module that follows a pointer there faults. */
static void end_block(struct block *b)
{
	b->owner = &ddi_free_block;
	memset(&b->m, 0xA5, sizeof b->m);
	ASAN_POISON_MEMORY_REGION(&b->m, sizeof b->m);
	b->next = NULL;
	*(free_count++ > 0 ? &free_last->next : &free_first) = b;
	free_last = b;
	end_reference(b->data);
}

void ddi_free(struct block *b)
{
	if (strm_freemsg(&b->pool->pool, b->name) == STRM_OK)
		end_block(b);
}

int ddi_examine(mblk_t *mp, const char *routine)
{
	struct block *b = (struct block *)mp;
	const struct module_info *own = ddi_frame->as.module;
	BEGIN_CALL();
	if (b < ddi_blocks || b >= ddi_blocks_end || ((uintptr_t)b - (uintptr_t)ddi_blocks) % sizeof *b != 0)
		ddi_misuse(routine, NULL, "%p is no message block", (void *)mp);
	else if (b->owner == &ddi_free_block)
		ddi_misuse(routine, b, "the message block is free");
	else if (b->owner == &ddi_queued_block)
		ddi_misuse(routine, b, "the message is on a queue, of %s %s", ddi_module(b->queue), ddi_side(b->queue));
	else if (own && b->owner && own->mi_idnum != b->owner->mi_idnum)
		ddi_misuse(routine, b, "the message was passed on, to %s", b->owner->mi_idname);
	else if (b->m.b_datap != &b->data->d)
		ddi_misuse(routine, b, "b_datap was changed");
	else if (b->data->references != b->data->d.db_ref)
		ddi_misuse(routine, b, "db_ref is %d, and %d message blocks refer to the data block", b->data->d.db_ref, b->data->references);
	else {
		ddi_note(b, routine);
		return 1;
	}
	return 0;
}

/* Marks each block, so that a ring is found. */
int ddi_examine_all(mblk_t *mp, const char *routine)
{
	static uint32_t mark;
	mark++;
	for (mblk_t *bp = mp; bp; bp = bp->b_cont) {
		struct block *b = (struct block *)bp;
		if (b >= ddi_blocks && b < ddi_blocks_end && b->mark == mark) {
			ddi_misuse(NULL, (struct block *)mp, "b_cont leads to a block of the message");
			return 0;
		}
		if (!ddi_has(bp, routine))
			return 0;
		b->mark = mark;
	}
	return 1;
}

/* Moves a block to another pool, with all bytes of its data block. The old data block loses a reference. */
static void cross(struct block *b, struct pool *pool)
{
	struct data *from = b->data;
	ptrdiff_t at = MBLKHEAD(&b->m), length = MBLKL(&b->m);
	if (strm_transfer(&b->pool->pool, &pool->pool, b->name, &b->name) != STRM_OK) {
		fprintf(stderr, "strm_ddi: the pool of the queue has no block left for the message: give str_init more\n");
		abort();
	}
	b->pool = pool;
	pool->of[b->name.head] = b;
	b->data = refer(b->name, from->d.db_type);
	memcpy(b->data->base, from->d.db_base, (size_t)(from->d.db_lim - from->d.db_base));
	b->m.b_datap = &b->data->d;
	b->m.b_rptr = b->data->base + at;
	b->m.b_wptr = b->m.b_rptr + length;
	end_reference(from);
}

/* Has a pool have a block as the module changed it. Returns 0 if that is misuse. A type that strm.h lacks is one there that has no data. */
static int settle(struct block *b, struct pool *pool)
{
	const mblk_t *mp = &b->m;
	uint32_t number = types[DB_TYPE(mp)].number;
	struct strm_block_shape shape = { (uint32_t)MBLKHEAD(mp), (uint32_t)MBLKL(mp),
		number > 0 ? number - 1 : DB_TYPE(mp) >= QPCTL ? STRM_M_PCSIG : STRM_M_CTL, mp->b_band };
	if (ddi_is_settled(b, pool))
		return 1;
	if (MBLKHEAD(mp) < 0 || MBLKL(mp) < 0 || MBLKTAIL(mp) < 0) {
		ddi_misuse(NULL, b, "b_rptr is %td, b_wptr is %td, and the data block has %td bytes", MBLKHEAD(mp), mp->b_wptr - DB_BASE(mp),
			MBLKSIZE(mp));
		return 0;
	}
	if (DB_TYPE(mp) != b->given.type && b->data->references > 1) {
		ddi_misuse(NULL, b, "db_type was changed to %s, and %d message blocks refer to the data block", ddi_type_name(DB_TYPE(mp)),
			b->data->references);
		return 0;
	}
	if (b->pool != pool)
		cross(b, pool);
	b->given = given_of(b);
	return strm_shape_all(&pool->pool, b->name, &shape, 1) == STRM_OK;
}

int ddi_join_all(mblk_t *mp, queue_t *q, const char *routine)
{
	struct block *first = (struct block *)mp;
	if (!ddi_has_all(mp, routine))
		return 0;
	for (mblk_t *bp = mp; bp; bp = bp->b_cont)
		if (!settle((struct block *)bp, q ? q->q_layer->pool : first->pool))
			return 0;
	first->is_joined = mp->b_cont != NULL;
	for (mblk_t *bp = mp->b_cont; bp; bp = bp->b_cont) {
		struct block *b = (struct block *)bp;
		strm_linkb(&first->pool->pool, first->name, b->name);
		first->rest += (uint32_t)MBLKL(bp);
		b->owner = q ? &ddi_queued_block : b->owner;
		b->queue = q;
	}
	return 1;
}

/* Parts the first block of a message in the pool from the others. Returns the next one, or null. */
static struct block *part_next(struct block *b)
{
	struct strm_msg rest;
	struct block *next = strm_unlinkb(&b->pool->pool, b->name, &rest) == STRM_OK ? b->pool->of[rest.head] : NULL;
	if (next)
		next->name = rest;
	b->is_joined = b->rest = 0;
	return next;
}

/* Parts the blocks again: each is held by a name of its own. */
void ddi_part_all(struct block *first)
{
	struct block *next;
	for (struct block *b = first; b; b = next) {
		next = part_next(b);
		if (b->owner == &ddi_queued_block && (struct block *)b->m.b_cont != next) {
			ddi_misuse(b == first ? NULL : ddi_noted(first), b, "b_cont was changed while the message was on a queue");
			b->m.b_cont = (mblk_t *)next;
		}
		b->owner = ddi_frame->as.module;
	}
}

/* ---- made and freed */

static struct block *allocate(size_t size, const char *routine)
{
	struct strm_msg name;
	struct block *b = NULL;
	int code;
	BEGIN_CALL();
	code = strm_allocb(&ddi_pools[0].pool, (uint32_t)ddi_least(size, UINT32_MAX), &name);
	if (code == STRM_OK)
		b = new_block(name, NULL, routine);
	else
		ddi_frame->failed = strm_ddi_at;
	END_CALL("allocb %s %zu | %s", TO(b), size, ddi_reply(code));
	return b;
}

mblk_t *allocb(size_t size, UNUSED uint_t priority)
{
	return (mblk_t *)allocate(size, "allocb");
}

mblk_t *esballoc(uchar_t *base, size_t size, UNUSED uint_t priority, frtn_t *routine)
{
	struct block *b = allocate(size, "esballoc");
	if (b) {
		b->data->d = (dblk_t){ .db_frtnp = routine, .db_base = base, .db_lim = base + size, .db_ref = 1, .db_type = M_DATA };
		b->m.b_rptr = b->m.b_wptr = base;
	}
	return (mblk_t *)b;
}

int testb(size_t size, UNUSED uint_t priority)
{
	uint32_t yes = 0;
	BEGIN_CALL();
	strm_testb(&ddi_pools[0].pool, (uint32_t)ddi_least(size, UINT32_MAX), &yes);
	END_CALL("testb %zu | %s", size, yes ? "yes" : "no");
	return (int)yes;
}

static mblk_t *release(mblk_t *mp, const char *routine)
{
	mblk_t *rest = NULL;
	if (ddi_has(mp, routine)) {
		rest = mp->b_cont;
		ddi_free((struct block *)mp);
	}
	return rest;
}

/* Whether another block that is held leads to the same one, as where a module links the rest elsewhere and then frees this block. */
static int is_led_to_twice(const struct block *b)
{
	for (const struct block *other = ddi_blocks; other < ddi_blocks_end; other++)
		if (other != b && ddi_is_held(other) && other->m.b_cont == b->m.b_cont)
			return b->m.b_cont != NULL;
	return 0;
}

void freeb(mblk_t *mp)
{
	if (ddi_traced && is_led_to_twice((struct block *)mp))
		mp->b_cont = NULL;
	release(mp, "freeb");
	END_CALL("freeb %s | ok", FROM(mp));
}

void freemsg(mblk_t *mp)
{
	mblk_t *rest = mp;
	while (rest)
		rest = release(rest, "freemsg");
	if (mp)
		END_CALL("freemsg %s | ok", FROM(mp));
}

/* Makes a message anew by a call of the pool: its first block, or all, which are joined meanwhile. */
static mblk_t *made_of(mblk_t *mp, int (*make)(struct strm_pool *, struct strm_msg, struct strm_msg *), int all, const char *routine)
{
	struct block *b = (struct block *)mp, *copy;
	mblk_t *first = NULL, **last = &first;
	struct strm_msg name, rest;
	struct strm_pool *pool;
	int code;
	if (!(all ? ddi_join(mp, NULL, routine) : ddi_has(mp, routine) && settle(b, b->pool)))
		return NULL;
	pool = &b->pool->pool;
	code = make(pool, b->name, &name);
	if (all)
		ddi_part_all(b);
	for (int left = code; left == STRM_OK; name = rest, b = (struct block *)b->m.b_cont) {
		left = strm_unlinkb(pool, name, &rest);
		copy = new_block(name, b, routine);
		if (copy->data != b->data && DB_BASE(&b->m) != b->data->base)
			memcpy(copy->m.b_rptr, b->m.b_rptr, (size_t)MBLKL(&b->m));
		*last = &copy->m;
		last = &copy->m.b_cont;
	}
	END_CALL("%s %s %s | %s", routine, FROM(mp), TO(first), ddi_reply(code));
	return first;
}

#define MADE(name, all) \
	mblk_t *name(mblk_t *mp) \
	{ \
		return made_of(mp, strm_##name, all, #name); \
	}
MADE(dupb, 0)
MADE(dupmsg, 1)
MADE(copyb, 0)
MADE(copymsg, 1)

/* ---- joined, parted, trimmed and counted */

size_t ddi_copy_out(const mblk_t *mp, void *into, size_t room)
{
	size_t count = 0;
	for (; mp; mp = mp->b_cont) {
		size_t part = ddi_least((size_t)MBLKL(mp), room - count);
		if (part > 0)
			memcpy((char *)into + count, mp->b_rptr, part);
		count += part;
	}
	return count;
}

/* Parts a message whose blocks the pool has changed, and gives them their data blocks and places there. Those that are in it no longer were freed. */
static void part_changed(struct block *b)
{
	struct block *next, *gone;
	struct strm_block_place where;
	for (; b; b = next) {
		next = part_next(b);
		strm_place(&b->pool->pool, b->name, 0, &where);
		if (b->data != &b->pool->data[where.data]) {
			struct data *old = b->data;
			b->data = refer(b->name, old->d.db_type);
			ddi_copy_out(&b->m, b->data->base, where.length);
			b->m.b_datap = &b->data->d;
			end_reference(old);
		}
		while ((gone = (struct block *)b->m.b_cont) != next) {
			b->m.b_cont = gone->m.b_cont;
			end_block(gone);
		}
		b->m.b_rptr = DB_BASE(&b->m) + where.at;
		b->m.b_wptr = b->m.b_rptr + where.length;
		b->given = given_of(b);
	}
}

static int change(mblk_t *mp, ssize_t length, int (*make)(struct strm_pool *, struct strm_msg, int32_t), const char *routine)
{
	struct block *first = (struct block *)mp;
	int code;
	if (!ddi_join(mp, NULL, routine))
		return 0;
	code = length == (int32_t)length ? make(&first->pool->pool, first->name, (int32_t)length) : STRM_SHORT;
	part_changed(first);
	END_CALL("%s %s %zd | %s", routine, FROM(mp), length, ddi_reply(code));
	return code == STRM_OK;
}

int adjmsg(mblk_t *mp, ssize_t length)
{
	return change(mp, length, strm_adjmsg, "adjmsg");
}

int pullupmsg(mblk_t *mp, ssize_t length)
{
	return change(mp, length, strm_pullupmsg, "pullupmsg");
}

mblk_t *msgpullup(mblk_t *mp, ssize_t length)
{
	mblk_t *copy = copymsg(mp);
	if (copy && !pullupmsg(copy, length)) {
		freemsg(copy);
		return NULL;
	}
	return copy;
}

void linkb(mblk_t *mp, mblk_t *tail)
{
	mblk_t *last = mp;
	if (!ddi_has_all(mp, "linkb") || (tail && !ddi_has(tail, "linkb")))
		return;
	while (last->b_cont && last != tail)
		last = last->b_cont;
	if (last == tail)
		ddi_misuse("linkb", (struct block *)mp, "the message is linked to itself");
	else
		last->b_cont = tail;
	END_CALL("linkb %s %s | ok", FROM(mp), FROM(tail));
}

mblk_t *unlinkb(mblk_t *mp)
{
	mblk_t *rest;
	if (!ddi_has(mp, "unlinkb"))
		return NULL;
	rest = mp->b_cont;
	mp->b_cont = NULL;
	END_CALL("unlinkb %s %s | %s", FROM(mp), TO(rest), rest ? "ok" : "none");
	return rest;
}

mblk_t *rmvb(mblk_t *mp, mblk_t *bp)
{
	mblk_t *first = mp, **at = &first;
	int place = 0;
	if (!ddi_has_all(mp, "rmvb"))
		return (mblk_t *)-1;
	for (; *at && *at != bp; at = &(*at)->b_cont)
		place++;
	if (!*at) {
		ddi_has(bp, "rmvb");
		return (mblk_t *)-1;
	}
	*at = bp->b_cont;
	bp->b_cont = NULL;
	END_CALL("rmvb %s %d %s | ok", FROM(mp), place, TO(bp));
	return first;
}

size_t msgdsize(mblk_t *mp)
{
	size_t size = 0;
	if (!ddi_has_all(mp, "msgdsize"))
		return 0;
	for (const mblk_t *bp = mp; bp; bp = bp->b_cont)
		size += bp->b_datap->db_type == M_DATA ? (size_t)MBLKL(bp) : 0;
	END_CALL("msgdsize %s | size %zu", FROM(mp), size);
	return size;
}
