/* For testing modules in user space; tested, not proved. What the parts share: messages.c, queues.c, head.c, misuse.c and trace.c. */
#ifndef DDI_H
#define DDI_H

#define STRM_DDI_NO_LINES
#include "../strm_ddi.h"

#include <errno.h>
#include <stdarg.h>
#include <stdint.h>
#include <stdio.h>
#include <stdlib.h>
#include <string.h>

enum { MOST_POOLS = 16, MOST_EVENTS = 8, QUARANTINE = 256, PATIENCE = 1500 };	/* the last in ticks: 15 s */

/* A data block: what a module sees, then its bytes and the references that the pool has, and what a trace has of it. */
struct data {
	dblk_t d;
	uchar_t *base;
	uint32_t size;
	uint8_t references, is_told;
};

/* What happened to a message: the routine, who called it, and where. */
struct event {
	const char *routine;
	struct caller {
		const struct module_info *module;	/* null if it is the test */
		const char *procedure;
	} by;
	const struct strm_ddi_place *at;
};

/*
 * A message block: what a module sees, then its name, and the places, type and band that the pool has. While a module holds it, it is a message
 * of its own in the pool, so a module may set b_cont. The blocks of a message are joined while it is on a queue.
 */
struct block {
	mblk_t m;
	struct data *data;
	const struct module_info *owner;	/* null if it is the test; or one of those below */
	struct pool *pool;
	struct strm_msg name;
	struct given { uchar_t *read, *write, type, band; uint16_t rank; } given;
	uint32_t mark;			/* of the last walk over its message */
	uint32_t is_joined, rest;	/* whether others are joined to it, and their bytes */
	struct block *next;		/* of those that are free */
	queue_t *queue;
	uint32_t event_count;
	struct event events[MOST_EVENTS];
	struct told { mblk_t *cont; uchar_t *read, *write; dblk_t *data; uint16_t band, type; uint32_t is_held; } told;	/* without gaps */
};
extern struct block *ddi_blocks, *ddi_blocks_end;	/* those that were used */

/* Owners of a block that nobody holds: it is free, or on a queue. */
extern const struct module_info ddi_free_block, ddi_queued_block;

static inline int ddi_is_held(const struct block *b)
{
	return b->owner != &ddi_free_block && b->owner != &ddi_queued_block;
}

/* A pool, with the message block that each of its heads is, and the queue at each number. */
struct pool {
	struct strm_pool pool;
	queue_t *queues[STRM_MOST_QUEUES];
	struct block *of[STRM_MOST_MBLKS];
	struct data data[STRM_MOST_DATA_BLOCKS];
};
extern struct strm_config ddi_config;
extern struct pool ddi_pools[MOST_POOLS];
extern int ddi_pool_count;

/* A queue as the layer has it: its pool, or null, and number there; and the bands for which a queue behind waits. */
struct strm_ddi_queue {
	struct pool *pool;
	uint32_t number;
	struct strm_marks marks;	/* as it was opened */
	struct streamtab *tab;
	int is_asked;
	uint8_t asked[STRM_BANDS];
};

/* The procedure that runs, where an allocb failed in it, and that it runs inside: last the test. It is ddi_service in service procedures. */
struct frame {
	queue_t *q;
	struct caller as;
	const struct strm_ddi_place *failed;
	struct frame *before;
};
extern struct frame *ddi_frame;
extern const char ddi_service[];

static inline size_t ddi_least(size_t one, size_t other)
{
	return one < other ? one : other;
}

/* A function that few calls reach: others do not save registers for it. */
#define RARE __attribute__((cold, noinline))
/* A parameter that a routine has and ddi has no use for. */
#define UNUSED __attribute__((unused))
/* One that has its own code in each caller, which knows its last arguments. */
#define PER_CALLER static inline __attribute__((always_inline))

/* misuse.c: reports, and ends the program or returns. Without a routine it is the one that the block has noted, last. */
RARE void ddi_misuse(const char *routine, const struct block *b, const char *format, ...) __attribute__((format(printf, 3, 4)));
const char *ddi_module(const queue_t *q);
const char *ddi_side(const queue_t *q);
int ddi_census(void);
void ddi_catch_faults(void);

/* Where a call of the stream head is. */
extern const struct strm_ddi_place ddi_at_head;
#define AT_HEAD() (strm_ddi_at = &ddi_at_head)

static inline struct event ddi_event(const char *routine)
{
	return (struct event){ routine, ddi_frame->as, strm_ddi_at };
}

/* Notes a call with a message. */
static inline void ddi_note(struct block *b, const char *routine)
{
	struct event *event = &b->events[b->event_count++ % MOST_EVENTS];
	*event = ddi_event(routine);
}

/* The routine that was noted last. */
static inline const char *ddi_noted(const struct block *b)
{
	return b->events[(b->event_count - 1) % MOST_EVENTS].routine;
}

/*
 * trace.c: as messages change, lines of a trace, between begin and end of a call, which has the line's format. FROM is a message that the call takes,
 * TO one that it returns, or null, and ON a queue.
 */
extern FILE *ddi_traced;
void ddi_trace_open(void);
void ddi_trace_queues(queue_t *pair);
void ddi_trace_close(void);
RARE void ddi_trace_begin(void);
RARE void ddi_trace_end(const char *format, ...) __attribute__((format(printf, 1, 2)));
const char *ddi_reply(int code);
const char *ddi_told(char mark, const void *what);
#define FROM(mp) ddi_told('<', mp)
#define TO(mp) ddi_told('>', mp)
#define ON(q) ddi_told('q', q)
#define BEGIN_CALL() (ddi_traced ? ddi_trace_begin() : (void)0)
#define END_CALL(...) (ddi_traced ? ddi_trace_end(__VA_ARGS__) : (void)0)

/* messages.c */
int ddi_open_pool(void);
RARE int ddi_examine(mblk_t *mp, const char *routine);
int ddi_examine_all(mblk_t *mp, const char *routine);
int ddi_join_all(mblk_t *mp, queue_t *q, const char *routine);
void ddi_part_all(struct block *first);
void ddi_free(struct block *b);
const char *ddi_type_name(int type);
size_t ddi_copy_out(const mblk_t *mp, void *into, size_t room);

/* Whether the caller holds a block, as far as that is seen at once. */
static inline int ddi_is_usual(const struct block *b)
{
	return !ddi_traced && b >= ddi_blocks && b < ddi_blocks_end && b->owner == ddi_frame->as.module && b->m.b_datap == &b->data->d &&
		b->data->references == b->data->d.db_ref;
}

/* Begins a call of a routine that gets a message. Returns whether the caller holds its first block; if not, that was reported. */
static inline int ddi_has(mblk_t *mp, const char *routine)
{
	if (!ddi_is_usual((struct block *)mp))
		return ddi_examine(mp, routine);
	ddi_note((struct block *)mp, routine);
	return 1;
}

/* The same for all its blocks, which have to follow one another once. */
static inline int ddi_has_all(mblk_t *mp, const char *routine)
{
	if (!ddi_is_usual((struct block *)mp) || mp->b_cont)
		return ddi_examine_all(mp, routine);
	ddi_note((struct block *)mp, routine);
	return 1;
}

/* Whether a pool has a block as the module changed it. */
static inline int ddi_is_settled(const struct block *b, const struct pool *pool)
{
	return b->pool == pool && b->given.read == b->m.b_rptr && b->given.write == b->m.b_wptr && b->given.type == DB_TYPE(&b->m) &&
		b->given.band == b->m.b_band;
}

/* The same as ddi_has_all, and joins the blocks as the module has linked them: to be put on a queue, or if that is null, where they are. */
static inline int ddi_join(mblk_t *mp, queue_t *q, const char *routine)
{
	struct block *b = (struct block *)mp;
	if (!ddi_is_usual(b) || mp->b_cont || !ddi_is_settled(b, q ? q->q_layer->pool : b->pool))
		return ddi_join_all(mp, q, routine);
	ddi_note(b, routine);
	return 1;
}

/* queues.c */
void ddi_check_pending(queue_t *pair, const void *private);
void ddi_check_left(queue_t *q);
RARE void ddi_run_later(void);
void ddi_forget(queue_t *pair);
int ddi_serve(void);
struct strm_marks ddi_marks(size_t hiwat, size_t lowat);
extern struct later *ddi_later;

/* Begins a procedure at a queue, or at none; and ends it. */
static inline void ddi_enter(struct frame *frame, queue_t *q, const char *procedure)
{
	BEGIN_CALL();
	*frame = (struct frame){ q, { q ? q->q_qinfo->qi_minfo : NULL, procedure }, NULL, ddi_frame };
	ddi_frame = frame;
}

static inline void ddi_leave(const struct frame *frame)
{
	BEGIN_CALL();
	ddi_frame = frame->before;
	if (ddi_later)
		ddi_run_later();
}
#endif
