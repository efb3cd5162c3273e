/*
 * strm.h: message blocks and queues as in UNIX System V Release 4 STREAMS, for programs in C and
 * C++.
 *
 * A pool has message blocks, data blocks in size classes, and queues. Only strm_open and
 * strm_open_with allocate memory. A message is a chain of one or more message blocks; the caller
 * holds it by a name, or it is on a queue. Bytes are copied in and out, or read and written where
 * they are (strm_iov, strm_room). Queues, and places of blocks, messages and bytes, are numbered
 * from 0.
 *
 *     strm_allocb(&pool, 4, &msg);
 *     strm_write(&pool, msg, 0, "lion", 4);
 *     strm_putq(&pool, 0, msg);
 *
 *
 * Terms
 *
 *   - next: the queue to which a queue leads, if any.
 *   - head: the number of a message's first block among all message blocks of the pool, 0 to
 *     mblks - 1.
 *   - held: said of a message that has a valid name, and of its blocks. A message on a queue is not
 *     held.
 *   - place: of a block, counted from 0 in its message; of a message, from 0 on its queue.
 *   - service procedure: your code for an enabled queue, which strm_next_service returns
 *     (examples/c/service.c). It takes messages off the queue until strm_getq returns STRM_NONE,
 *     strm_getq_n gives fewer than `length`, or strm_bcanput sets *yes to 0 and it puts one back.
 *     If it stops for another reason, call strm_qenable when it can go on. With strm_serve your
 *     code needs no such procedures: it gets message by message (examples/c/line.c).
 *   - read place, write place: where the bytes of a message block begin and end in its data block.
 *     Each message block has its own.
 *   - room, headroom: bytes of the data block after the write place, and before the read place.
 *   - reference: a message block that uses a data block. The field `names` counts these, not the
 *     names of messages.
 *   - band, type: a message has those of its first block.
 *   - high priority: said of messages of type STRM_M_IOCACK or a type listed after it.
 *   - rank: the band of an ordinary message. High priority ranks above all bands.
 *   - full: said of a band that has at least as many bytes as its high water mark.
 *   - wanted: a mark of a band. strm_bcanput and strm_serve set it if they find the band full; only
 *     settling clears it.
 *   - settle: to clear the wanted marks of a queue's bands that are at their low water mark or
 *     below. If a mark was cleared, the pool looks at the queue whose next is this queue, at the
 *     queue whose next is that one, and so on. It enables the first that has a service procedure
 *     (back-enabling).
 *   - enable: to append a queue to the run list, whose first queue strm_next_service takes. A queue
 *     already on the list, or without a service procedure, is not appended. strm_serve alone puts
 *     some queues at the front instead.
 *   - enabling: on in a new queue; strm_noenable switches it off, strm_enableok on.
 *   - want-to-read: a mark that a new queue has. strm_getq, strm_getq_n and strm_serve set it if
 *     they find the queue empty, and clear it if they take a message off. No other call changes it.
 *   - wish (bufcall): a recorded request for a message block and a data block. strm_take_ready
 *     returns the wish, not the blocks.
 *   - look: a call that changes nothing in the pool. Its handle is `const`. Looks are strm_testb,
 *     strm_read, strm_size, strm_msgdsize, strm_message, strm_block, strm_blocks,
 *     strm_block_number, strm_bytes, strm_iov, strm_place, strm_region, strm_has and strm_name_at.
 *     So are strm_qsize, strm_queued_at, strm_read_queued, strm_first_queued, strm_last_queued,
 *     strm_queued_after, strm_queued_before, strm_queue_of, strm_queued_bytes, strm_queued_iov,
 *     strm_queue_spec, strm_strqget, strm_run_at, strm_wish_at, strm_census, strm_class_info,
 *     strm_least_free_blocks, strm_least_free, strm_queue_info, strm_band_info, strm_report and
 *     strm_is_open.
 *
 *
 * Results
 *
 * A call that can fail returns a code, and stores its results through pointers. STRM_OK is 0. Codes
 * above 0 are refusals of the pool, numbered as by the program strm. Codes below 0 are of this
 * header. One of these, STRM_NONE, is no failure: the call was done, and there is nothing to give.
 * So neither `code < 0` nor `code > 0` finds the failures. `STRM_FAILED(code)` does: it is false
 * for STRM_OK and STRM_NONE, and true for any other code.
 *
 *     code = strm_getq(&pool, 0, &msg);
 *     if (STRM_FAILED(code))
 *         fprintf(stderr, "%s\n", strm_error(code));
 *     else if (code == STRM_NONE)
 *         puts("the queue is empty");
 *
 * Before you use a result, test for STRM_OK: with STRM_NONE, `msg` was not stored.
 *
 * If several codes apply, a call returns the first in this list (strm_open has its own order):
 *
 *   1. STRM_NOT_OPEN: the handle is null, was never opened, or was closed.
 *   2. STRM_BAD_ARGUMENT: a pointer is null, except one to an array of length 0. Or a parameter
 *      `band`, `type`, `flush` or `length` is out of range; an array has at most SIZE_MAX / 2
 *      bytes. Or two pointers to results are equal; one to an array of length 0 does not count. Or
 *      both handles of strm_transfer are the same one.
 *   3. STRM_INVALID: a name is not valid.
 *   4. STRM_NO_SUCH_QUEUE: the call names a queue that the pool does not have.
 *   5. The refusals that the call's comment lists, in that order. STRM_NO_SUCH_PLACE also says that
 *      no queued message has the head.
 *
 * With STRM_NONE nothing is stored through pointers, except that strm_freeb and strm_unlinkb set
 * *rest to STRM_NO_MSG, and _n calls *count to 0. After any code but STRM_OK and STRM_NONE, the
 * pool, names, and what pointers lead to are unchanged, but *count of strm_takeq, strm_takeq_band
 * and _n calls is 0.
 *
 * A call whose name ends in _n makes `length` single calls, or fewer, up to the first that does not
 * return STRM_OK. It returns the code of the first one, or STRM_OK if `length` is 0, whatever queue
 * and messages it names. *count is the number of single calls that returned STRM_OK: 0 if the call
 * returns another code, even STRM_NOT_OPEN. If *count is below `length` with STRM_OK, the next
 * single call returns the code that ended the series.
 *
 * A call takes constant time, plus time for each block, message or byte, as often as it goes over
 * it.
 *
 *
 * Names
 *
 * A name has its pool's id, the number of the message's first block, and a stamp. It is valid from
 * the call that returns it until the message is handed over. These calls hand over: strm_freemsg,
 * strm_freeb, strm_rmvb, strm_transfer, strm_putq, strm_putbq, strm_hold, strm_insq, strm_insq_at,
 * the _n calls that free or put, strm_linkb its tail, and strm_close all.
 *
 * A pool gives no name a second time, until the stamps of a block start again after 2^64 names: a
 * message that comes off a queue, or is parted from another, has a new one. Only strm_name_at
 * returns a name that was given before. So a caller that frees twice, links twice, or uses a
 * message that is on a queue gets STRM_INVALID. Any bits may be passed as a name. Names may be
 * copied, kept, and compared by strm_same_msg. STRM_NO_MSG, all zeros, is the name of no message,
 * and not valid before stamps begin again. Its initialiser is STRM_NO_MSG_INIT.
 *
 * Two pools opened with the same id, together or one after the other, can't tell their names apart:
 * give different ids to pools whose names can meet.
 *
 * A message whose name is lost stays held until the pool is closed. strm_name_at finds its name.
 *
 *
 * What the caller promises
 *
 * The library does not check these rules; breaking one is undefined behaviour. Often the program
 * then ends by an illegal instruction (SIGILL).
 *
 *   - A pointer that is not null leads to as many objects as the call says. During the call nothing
 *     else writes to these objects. Where the call writes, nothing else reads, and what it writes
 *     overlaps nothing else that it is given.
 *   - Looks write nothing to the pool or its handle, so several looks at one pool may run at the
 *     same time. Any other call runs alone on its pool. Threads that share a pool hold a lock of
 *     their own during each call; for looks a read lock is enough (examples/c/readers.c). Without
 *     it, calls that meet often end the program by SIGILL, or they damage the pool unnoticed.
 *     ThreadSanitizer seldom reports them, since the library has no instrumentation. Different
 *     pools may be used at the same time.
 *   - Nothing is written through a pointer that strm_bytes, strm_iov, strm_queued_bytes or
 *     strm_queued_iov returns. Nothing is read through it from the beginning of the next call with
 *     that pool that is neither a look nor strm_room, strm_edit or strm_window. So a thread that
 *     shares the pool holds its lock from before the call until it has read there, without a gap; a
 *     read lock is enough. The pointer is passed to no call with the same pool, such as strm_write:
 *     copy the bytes by strm_read first. A call with another pool may get it.
 *   - The same is true of a pointer that strm_room, strm_edit or strm_window returns, but bytes may
 *     be written there too, as many as the call counted. They are then the bytes that the data
 *     block has. While a thread writes there, it holds the lock as for a call that is no look.
 *   - Bytes at an address of strm_region are read at any time between calls. They are written there
 *     only when strm_window would allow it, with the same locks, but without that call.
 *   - No call is made from a signal handler. An interrupt handler makes calls only while no other
 *     call runs.
 *   - Calls use SSE registers. Code that may not, as in most kernels, saves these before a call and
 *     restores them after it.
 *   - A call runs to its end. No signal handler leaves it by siglongjmp, and no thread in it is
 *     cancelled.
 *   - A handle is not in memory that processes share.
 *   - After a fork, only one of the two processes uses the pool, and not the child of a process
 *     with threads.
 *   - A handle is zeroed, or set to STRM_POOL_INIT, before its first call. A handle whose field
 *     `state` is STRM_POOL_OPEN counts as open, even if by chance; any other is not open.
 *   - An open handle may be moved, but not used at two places: the library can't tell a copy from
 *     the handle. The caller does not write to its fields.
 *   - malloc and free are of one allocator, which aligns to 16 bytes. No other code uses memory that
 *     an allocator of the caller's returned, until it is released.
 *   - Memory that an allocator returned is there. A system that promises more memory than it has
 *     (overcommit) may end the process instead.
 *
 *
 * Wake-ups
 *
 * In a pool where exactly the queues with a next queue have a service procedure, strm_serve can
 * serve all of these. Such a queue is awake if its enabling is on, and it is on the run list or
 * rests for one of two reasons:
 *
 *   - It has no message, and has the want-to-read mark: the next message enables it.
 *   - Its first message is ordinary, and its band is wanted on the next queue: once that band is at
 *     its low water mark or below there, the queue is enabled.
 *
 * In a new pool these queues are awake. While they are, no wake-up is lost. strm_serve and
 * strm_hold keep them awake; this is proved. It is tested of strm_putq, strm_putq_n, strm_bcanput,
 * strm_strqset, strm_qenable and strm_enableok, of all calls on a queue without a next queue, and
 * of calls on held messages and on wishes. These calls can put a queue to sleep. A message there
 * may go on, and strm_serve does not give it:
 *
 *   - strm_next_service takes the queue off the run list.
 *   - strm_getq, strm_getq_n, strm_rmvq, strm_rmvq_msg, strm_takeq, strm_takeq_band, strm_flushq
 *     and strm_flushband take off the message that waits, and leave another one or no mark.
 *   - strm_putbq, strm_insq and strm_insq_at put a message before the one that waits.
 *   - strm_noenable: of messages that are put, only one of high priority that strm_putq,
 *     strm_putq_n or strm_putbq puts, or any that strm_hold puts, enables the queue.
 *
 * Afterwards call strm_qenable on the queue; while enabling is off, after each message that is put
 * there. That this wakes the queue is tested.
 *
 *
 * Versions
 *
 * STRM_VERSION_NUMBER is the version of this header as a number, for #if: version 1.2.3 is 1002003.
 * A program linked with one libstrm.so runs with each later one of the same soname.
 *
 *   - Structs grow only at their end. In a struct that the caller fills, 0 in a new field means
 *     what was done before. So fill structs by names of fields (designated initialisers), or set
 *     them to zeros first.
 *   - The sizes of struct strm_pool, struct strm_msg and struct strm_iov stay.
 *   - If a struct grows, each call that uses it gets a new symbol version. Programs that were
 *     linked before get the old one, and the old struct.
 *   - libstrm.a has no versions of symbols: compile with the header that is beside it.
 *
 *
 * C++
 *
 * In C++ the calls strm_census, strm_class_info, strm_queue_info, strm_band_info, strm_queue_spec
 * and strm_iov are macros, because structs have these names too. So `strm_census c;` declares a
 * variable, and from C++11 on `strm_census()` is a struct of zeros. The addresses of these
 * functions are `&strm_census_` and so on.
 *
 *
 * As in STREAMS, and not
 *
 * A call strm_NAME is the routine NAME of the UNIX System V Release 4 Programmer's Guide: STREAMS,
 * if that has one. strm_open, strm_close, strm_read and strm_write are no system calls. In all
 * calls names and numbers replace pointers, and codes replace 0, -1 and null pointers. The text on
 * each call ends with what else differs. No call waits, or runs a service procedure. Only
 * strm_open_with, and strm_close of its pools, call functions of yours: those of the allocator.
 */
#ifndef STRM_H
#define STRM_H

#include <stddef.h>
#include <stdint.h>

#ifdef __cplusplus
extern "C" {
#endif

/* The version of this header, as a text and as a number. */
#define STRM_VERSION "0.12.0"
#define STRM_VERSION_NUMBER 12000

enum {
	STRM_OK = 0,			/* done */

	/* refusals of a pool */
	STRM_TOO_LARGE = 1,		/* the size is above the largest class */
	STRM_NO_MBLK = 2,		/* fewer message blocks are free than the call needs */
	STRM_NO_DATA = 3,		/* no data block is free of a class that fits */
	STRM_REF_MAX = 4,		/* more than 255 message blocks would refer to a data block */
	STRM_NO_SUCH_BLOCK = 5,		/* the message has no such block */
	STRM_SHARED = 6,		/* more than one message block refers to the data block */
	STRM_NO_ROOM = 7,		/* the bytes do not fit in the data block */
	STRM_SHORT = 8,			/* the message has too few bytes, or too few of one type */
	STRM_NO_SUCH_PLACE = 9,		/* the queue has no such place */
	STRM_BAD_ORDER = 10,		/* the ranks would rise from front to back */
	STRM_NO_SUCH_QUEUE = 11,	/* there is no such queue */
	STRM_FULL = 12,			/* no more wishes can be recorded */
	STRM_IDS_SPENT = 13,		/* the last id was given */
	STRM_NOT_PENDING = 14,		/* no wish has this id */
	STRM_BAD_MARKS = 20,		/* the low water mark is not below the high one */

	/* codes of this header */
	STRM_NONE = -1,			/* done, and there is nothing to give */
	STRM_INVALID = -2,		/* a name is not valid */
	STRM_NOT_OPEN = -3,		/* the handle is not open */
	STRM_BAD_ARGUMENT = -4,		/* a pointer is null, or a number is out of range */
	STRM_IS_OPEN = -5,		/* the handle is open already */
	STRM_NO_MEMORY = -6,		/* there is not enough memory */

	/* the first fault of a configuration */
	STRM_BAD_MBLKS = -11,		/* message blocks are not 1 to 16383 */
	STRM_BAD_CLASSES = -12,		/* there is no size class */
	STRM_BAD_CLASS_SIZE = -13,	/* sizes do not rise, or are not 1 to 4096 */
	STRM_BAD_CLASS_TOTAL = -14,	/* a class has no data block, or all have more than 16383 */
	STRM_BAD_QUEUES = -15,		/* there is no queue */
	STRM_BAD_QUEUE_MARKS = -16,	/* a queue's low water mark is not below the high one */
	STRM_BAD_NEXT = -17,		/* a next queue is not there, has no greater number, or is named twice */
	STRM_BAD_BUFCALLS = -18,	/* there are more than 64 wishes */
	STRM_BAD_FIRST_ID = -19		/* the first id is 0 */
};

/* True if a code is that of a failure: any but STRM_OK and STRM_NONE, which are multiples of ~0u. */
#ifdef __cplusplus
#define STRM_FAILED(code) (static_cast<unsigned>(code) % ~0u != 0u)
#else
#define STRM_FAILED(code) ((unsigned)(code) % ~0u != 0u)
#endif

/* Limits. */
#define STRM_MOST_MBLKS 16383		/* message blocks of a pool */
#define STRM_MOST_CLASSES 8		/* size classes */
#define STRM_MOST_DATA_BLOCKS 16383	/* data blocks of all classes */
#define STRM_MOST_DATA_BYTES 4096	/* bytes of a data block */
#define STRM_MOST_NAMES 255		/* references to one data block */
#define STRM_MOST_QUEUES 16		/* queues */
#define STRM_BANDS 256			/* bands of a queue, from 0 on */
#define STRM_MOST_WISHES 64		/* wishes at one time */

/*
 * Types of data blocks, named as in STREAMS. A message has the type of its first block. For urgent
 * data of your own, take STRM_M_PCPROTO. The pool looks at types for these things only: what high
 * priority does (its place and band on a queue, enabling, strm_serve), what STRM_FLUSHDATA frees,
 * what strm_msgdsize counts, and where strm_adjmsg and strm_pullupmsg stop. And strm_shape_all is
 * refused if it would change the type of a data block that others use.
 */
enum {
	/* ordinary */
	STRM_M_DATA, STRM_M_PROTO, STRM_M_BREAK, STRM_M_PASSFP, STRM_M_SIG, STRM_M_DELAY, STRM_M_CTL, STRM_M_IOCTL, STRM_M_SETOPTS,
	/* high priority, ahead of all bands */
	STRM_M_IOCACK, STRM_M_IOCNAK, STRM_M_PCPROTO, STRM_M_PCSIG, STRM_M_READ, STRM_M_FLUSH, STRM_M_STOP, STRM_M_START,
	STRM_M_HANGUP, STRM_M_ERROR, STRM_M_COPYIN, STRM_M_COPYOUT, STRM_M_IOCDATA
};
#define STRM_TYPES 22			/* the number of types */

/* What a flush frees. */
enum {
	STRM_FLUSHALL,			/* all messages */
	STRM_FLUSHDATA			/* those of type M_DATA, M_PROTO, M_PCPROTO or M_DELAY */
};

/* A pool's handle, in the caller's memory. */
struct strm_pool {
	void *at;
	size_t state;
};
#define STRM_POOL_INIT { NULL, 0 }		/* an initialiser */
#define STRM_POOL_OPEN ((size_t)0x5354524D)	/* the state of an open handle */

/* The name of a message. */
struct strm_msg {
	uint32_t pool;			/* the id of its pool */
	uint32_t head;			/* the number of its first block */
	uint64_t stamp;			/* how many names with that block were given, this one included */
};

/* The name of no message: an initialiser, also of static variables. Since 0.4.0. */
#define STRM_NO_MSG_INIT { 0, 0, 0 }

/* The same as a value, for assignments, arguments and other variables; in C89 an initialiser. */
#if defined(__cplusplus)
#define STRM_NO_MSG strm_msg()
#elif defined(__STDC_VERSION__) && __STDC_VERSION__ >= 199901L
#define STRM_NO_MSG ((struct strm_msg)STRM_NO_MSG_INIT)
#else
#define STRM_NO_MSG STRM_NO_MSG_INIT
#endif

/* A size class of a configuration. */
struct strm_class_spec {
	uint32_t size;			/* bytes of a data block, 1 to STRM_MOST_DATA_BYTES, rising by class */
	uint32_t count;			/* data blocks, 1 or more; STRM_MOST_DATA_BLOCKS at most in all classes */
};

/* A queue of a configuration. */
struct strm_queue_spec {
	uint32_t hiwat;			/* the high water mark of each band at first, in bytes */
	uint32_t lowat;			/* the low water mark, in bytes, below hiwat */
	uint32_t service;		/* 0 if it has no service procedure, else any other number */
	uint32_t next;			/* the next queue, numbered above this one and next of no other; or STRM_NO_QUEUE */
};
#define STRM_NO_QUEUE 0xFFFFFFFFu

/* The number of no block: strm_insq_at puts a message last. Since 0.4.0. */
#define STRM_NO_HEAD 0xFFFFFFFFu

/* What strm_open opens. */
struct strm_config {
	uint32_t id;			/* any id for the pool */
	uint32_t mblks;			/* message blocks, 1 to STRM_MOST_MBLKS */
	const struct strm_class_spec *classes;	/* the size classes, by rising size */
	size_t class_count;		/* their number, 1 to STRM_MOST_CLASSES */
	const struct strm_queue_spec *queues;	/* the queues, numbered from 0 */
	size_t queue_count;		/* their number, 1 to STRM_MOST_QUEUES */
	uint32_t bufcalls;		/* wishes at one time, 0 to STRM_MOST_WISHES */
	uint32_t first_id;		/* the id of the first wish, above 0, also if bufcalls is 0 */
};

/* Where strm_open_with takes a pool's memory from. */
struct strm_allocator {
	/*
	 * Returns an address of `bytes` bytes for this pool alone, at a multiple of `align`, or null. It may
	 * be called in each thread that opens a pool with it, and `release` also in each that closes one.
	 */
	void *(*allocate)(void *context, size_t bytes, size_t align);
	void (*release)(void *context, void *at, size_t bytes);	/* takes back what allocate returned */
	void *context;			/* passed to both; it must be there until the pool is closed */
};

/* The numbers of message blocks. */
struct strm_census {
	uint32_t free;
	uint32_t queued;		/* in messages on queues */
	uint32_t held;			/* in messages that the caller holds */
};

struct strm_class_info {
	uint32_t size;			/* bytes of each data block */
	uint32_t free;			/* data blocks without a reference */
	uint32_t total;			/* all data blocks */
};

struct strm_block_info {
	uint32_t type;			/* the type of its data block, STRM_M_DATA to STRM_M_IOCDATA */
	uint32_t length;		/* bytes between its read place and its write place */
	uint32_t band;			/* 0 to 255 */
	uint32_t room;			/* bytes after the write place; headroom is in struct strm_block_place */
	uint32_t names;			/* references to its data block, 1 to STRM_MOST_NAMES */
};

/* Where the bytes of a message block are. */
struct strm_block_place {
	uint32_t data;			/* the number of its data block; those of the first class come first, from 0 */
	uint32_t at;			/* the read place in the data block, in bytes: the headroom */
	uint32_t length;		/* bytes between its read place and its write place */
	uint32_t capacity;		/* bytes of the data block */
};

/* What strm_shape_all gives a message block. Since 0.5.0. */
struct strm_block_shape {
	uint32_t at;			/* the read place in its data block, in bytes */
	uint32_t length;		/* bytes between its read place and its write place */
	uint32_t type;			/* the type of its data block, STRM_M_DATA to STRM_M_IOCDATA */
	uint32_t band;			/* 0 to 255 */
};

/* Bytes of a message block, where they are. Its layout is that of Linux's struct iovec. */
struct strm_iov {
	const void *base;
	size_t length;
};

/*
 * A message on a queue, or a held one. On a queue it has no name that could be compared: once it was
 * taken off and freed, another message may have the same head.
 */
struct strm_queued {
	uint32_t head;			/* the number of its first block; it stays while the message is on the queue */
	uint32_t type;			/* the type of its first block, STRM_M_DATA to STRM_M_IOCDATA */
	uint32_t band;			/* the band of its first block, 0 to 255 */
	uint32_t bytes;			/* bytes of all its blocks */
	uint32_t blocks;		/* its blocks, 1 or more */
};

struct strm_queue_info {
	uint32_t msgs;			/* messages on it */
	uint32_t bytes;			/* bytes of these messages */
	uint32_t read;			/* the want-to-read mark: 1 on a new queue, then as strm_getq, strm_getq_n and strm_serve leave it */
	uint32_t noenable;		/* 1 if enabling is off */
	uint32_t enabled;		/* 1 if it is on the run list */
};

struct strm_band_info {
	uint32_t bytes;			/* bytes of its messages; those of high priority count with band 0 */
	uint32_t full;			/* 1 if bytes is at the high water mark or above */
	uint32_t wanted;		/* 1 if strm_bcanput or strm_serve found it full, and no settling cleared the mark since */
};

/* The service of a queue that gave a message. Since 0.6.0. */
struct strm_service {
	uint32_t queue;			/* the queue */
	uint32_t next;			/* its next queue, to which the message may go on */
	uint32_t held;			/* how many queues, those just before this one at the end of the run list, are held back */
};

/* The water marks of a band, in bytes. */
struct strm_marks {
	uint32_t hiwat;
	uint32_t lowat;
};

/* A wish for a message block and a data block. */
struct strm_wish {
	uint32_t id;
	uint32_t size;			/* bytes that its data block has to have */
};

#ifdef __cplusplus
/*
 * These six calls have names of structs, which a function would hide in C++. Their symbols are
 * those of C.
 */
int strm_census_(const struct strm_pool *pool, struct strm_census *census) __asm__("strm_census");
int strm_class_info_(const struct strm_pool *pool, uint32_t place, struct strm_class_info *info) __asm__("strm_class_info");
int strm_queue_info_(const struct strm_pool *pool, uint32_t queue, struct strm_queue_info *info) __asm__("strm_queue_info");
int strm_band_info_(const struct strm_pool *pool, uint32_t queue, uint32_t band, struct strm_band_info *info)
	__asm__("strm_band_info");
int strm_queue_spec_(const struct strm_pool *pool, uint32_t queue, struct strm_queue_spec *spec) __asm__("strm_queue_spec");
int strm_iov_(const struct strm_pool *pool, struct strm_msg msg, uint32_t from, struct strm_iov *into, size_t length,
	size_t *count) __asm__("strm_iov");
#if __cplusplus >= 201103L
/* The struct of a name with at most one argument, and the call with two to six. */
#define STRM_SEVENTH(a, b, c, d, e, f, name, ...) name
#define STRM_NAMED(name, ...) STRM_SEVENTH(__VA_ARGS__, name##_, name##_, name##_, name##_, name##_, name, 0)(__VA_ARGS__)
#define strm_census(...) STRM_NAMED(strm_census, __VA_ARGS__)
#define strm_class_info(...) STRM_NAMED(strm_class_info, __VA_ARGS__)
#define strm_queue_info(...) STRM_NAMED(strm_queue_info, __VA_ARGS__)
#define strm_band_info(...) STRM_NAMED(strm_band_info, __VA_ARGS__)
#define strm_queue_spec(...) STRM_NAMED(strm_queue_spec, __VA_ARGS__)
#define strm_iov(...) STRM_NAMED(strm_iov, __VA_ARGS__)
#else
#define strm_census(pool, census) strm_census_(pool, census)
#define strm_class_info(pool, place, info) strm_class_info_(pool, place, info)
#define strm_queue_info(pool, queue, info) strm_queue_info_(pool, queue, info)
#define strm_band_info(pool, queue, band, info) strm_band_info_(pool, queue, band, info)
#define strm_queue_spec(pool, queue, spec) strm_queue_spec_(pool, queue, spec)
#define strm_iov(pool, msg, from, into, length, count) strm_iov_(pool, msg, from, into, length, count)
#endif
#endif

/* ---- opening and closing: strm_open(3) */

/*
 * Opens a pool, with all blocks free and all queues empty. It allocates all memory, 68 MB for the
 * largest pool, and copies the configuration. The bytes of each size class begin at a multiple of
 * 64. It uses at most 11 KB of stack, far more than other calls. The fields `classes` and `queues` may be
 * null if their count is 0. A count of 0 is refused as STRM_BAD_CLASSES or STRM_BAD_QUEUES, a count
 * above its limit as STRM_BAD_ARGUMENT.
 * Refused as STRM_NOT_OPEN for a null handle, STRM_IS_OPEN, STRM_BAD_ARGUMENT, the first fault from
 * STRM_BAD_MBLKS to STRM_BAD_FIRST_ID, or STRM_NO_MEMORY, in this order. If strm_open fails, an
 * open handle is unchanged, and any other stays closed.
 */
int strm_open(struct strm_pool *pool, const struct strm_config *config);

/*
 * Opens a pool as strm_open does, in memory of the caller's. It calls `allocate` once, for as many
 * bytes as strm_memory returns and 16 as the alignment. strm_close calls `release` once, and so
 * does this call if it fails after that. No other call calls either. The allocator is copied.
 * Since 0.3.0.
 * Refused as strm_open. A null allocator, or a null function in it, is STRM_BAD_ARGUMENT. A null
 * address is STRM_NO_MEMORY, as is one that is no multiple of 16, which is released.
 */
int strm_open_with(struct strm_pool *pool, const struct strm_config *config, const struct strm_allocator *allocator);

/*
 * Sets *bytes to the number of bytes that strm_open allocates for this configuration, by one call
 * of malloc. What malloc itself adds is not counted. This call allocates nothing.
 * Refused as STRM_BAD_ARGUMENT, or the first fault from STRM_BAD_MBLKS to STRM_BAD_FIRST_ID, as by
 * strm_open.
 */
int strm_memory(const struct strm_config *config, size_t *bytes);

/*
 * Closes a pool, and frees its memory, messages and wishes. It does not report messages that are
 * still held: call strm_census before. The handle may be opened again, with another id if names of
 * the closed pool can be left.
 */
int strm_close(struct strm_pool *pool);

/* Returns 1 if the handle is open, else 0, also for null. */
int strm_is_open(const struct strm_pool *pool);

/* ---- messages, made and freed: strm_allocb(3) */

/*
 * Allocates a message of one message block over a data block of `size` bytes or more. The data
 * block is of the smallest class that fits and has a free one. Of message blocks, and of the data
 * blocks of a class, each call takes the one that was freed last. Those that were never used come
 * after these, by rising numbers. A call that takes several begins with those for the first block
 * of the message. The message has no bytes, type STRM_M_DATA and band 0.
 * Refused as STRM_TOO_LARGE, STRM_NO_MBLK, STRM_NO_DATA.
 * Differs from STREAMS: it has size classes, and no priority.
 */
int strm_allocb(struct strm_pool *pool, uint32_t size, struct strm_msg *msg);

/*
 * Sets *yes to 1 if strm_allocb of this size would succeed now, else to 0.
 * Differs from STREAMS: the answer is exact.
 */
int strm_testb(const struct strm_pool *pool, uint32_t size, uint32_t *yes);

/*
 * Duplicates the first block of a message: the new message has one block over the same data block,
 * with the same read place, write place and band.
 * Refused as STRM_NO_MBLK, STRM_REF_MAX.
 * As in STREAMS.
 */
int strm_dupb(struct strm_pool *pool, struct strm_msg msg, struct strm_msg *copy);

/*
 * Duplicates all blocks of a message as strm_dupb does, or none.
 * Refused as by strm_dupb.
 * As in STREAMS.
 */
int strm_dupmsg(struct strm_pool *pool, struct strm_msg msg, struct strm_msg *copy);

/*
 * Copies the first block of a message. The new block has a data block of its own, allocated as by
 * strm_allocb for the capacity of the old data block. Type, band, and bytes with their places are
 * the same. The rest of the new data block keeps what was there: see strm_advance.
 * Refused as STRM_NO_MBLK, STRM_NO_DATA.
 * Differs from STREAMS: which data block is taken.
 */
int strm_copyb(struct strm_pool *pool, struct strm_msg msg, struct strm_msg *copy);

/*
 * Copies all blocks of a message as strm_copyb does, or none.
 * Refused as by strm_copyb.
 * As in STREAMS.
 */
int strm_copymsg(struct strm_pool *pool, struct strm_msg msg, struct strm_msg *copy);

/*
 * Frees the first block of a message, and its data block if no other block refers to that. The
 * other blocks become the message *rest. If there are none, *rest is STRM_NO_MSG, and the call
 * returns STRM_NONE: so it does for a message of one block, which is freed. `msg` is no longer
 * valid.
 * Differs from STREAMS: b_cont need not be saved before.
 */
int strm_freeb(struct strm_pool *pool, struct strm_msg msg, struct strm_msg *rest);

/*
 * Frees all blocks of a message, first to last, as strm_freeb does.
 * As in STREAMS.
 */
int strm_freemsg(struct strm_pool *pool, struct strm_msg msg);

/* ---- bytes and fields of a message: strm_write(3) */

/*
 * Appends `length` bytes at the write place of the block numbered `place`, and moves the write
 * place past them.
 * Refused as STRM_NO_SUCH_BLOCK, STRM_SHARED, STRM_NO_ROOM; the first two also for a length of 0.
 * STREAMS: writing through b_wptr.
 */
int strm_write(struct strm_pool *pool, struct strm_msg msg, uint32_t place, const void *bytes, size_t length);

/*
 * Copies bytes of a message into the buffer `into` of `length` bytes, beginning with the byte
 * numbered `at`, counted over all blocks. *count is the number of bytes copied: `length`, or fewer
 * if the message ends before. If the message has no byte `at`, *count is 0, with STRM_OK. The rest
 * of the buffer is unchanged.
 * STREAMS: reading through b_rptr, block by block.
 */
int strm_read(const struct strm_pool *pool, struct strm_msg msg, uint32_t at, void *into, size_t length, size_t *count);

/*
 * Sets the type of the data block of the block numbered `place`, STRM_M_DATA to STRM_M_IOCDATA.
 * Refused as STRM_NO_SUCH_BLOCK, STRM_SHARED, even if the type is the same.
 * STREAMS: db_type.
 */
int strm_settype(struct strm_pool *pool, struct strm_msg msg, uint32_t place, uint32_t type);

/*
 * Sets the band of the first block of a message, 0 to 255; duplicates keep theirs.
 * STREAMS: b_band.
 */
int strm_setband(struct strm_pool *pool, struct strm_msg msg, uint32_t band);

/* Counts the bytes of a message. Not in STREAMS. */
int strm_size(const struct strm_pool *pool, struct strm_msg msg, uint32_t *bytes);

/* Counts the bytes in blocks of type STRM_M_DATA. As in STREAMS. */
int strm_msgdsize(const struct strm_pool *pool, struct strm_msg msg, uint32_t *bytes);

/*
 * Returns what a held message is like, as strm_queued_at does of a queued one. Since 0.5.0.
 * Not in STREAMS.
 */
int strm_message(const struct strm_pool *pool, struct strm_msg msg, struct strm_queued *info);

/*
 * Returns the fields of the block numbered `place`.
 * Refused as STRM_NO_SUCH_BLOCK.
 * STREAMS: the fields of msgb and datab.
 */
int strm_block(const struct strm_pool *pool, struct strm_msg msg, uint32_t place, struct strm_block_info *block);

/*
 * Returns the fields of consecutive blocks of a message, from the block numbered `from` on, in the
 * array `into` of `length` structs. *count is the number of blocks reported: `length`, or fewer if
 * the message ends before. If the message has no block `from`, *count is 0, with STRM_OK. The rest
 * of the array is unchanged. For each 32 blocks it goes from the first block on anew.
 * STREAMS: following b_cont.
 */
int strm_blocks(const struct strm_pool *pool, struct strm_msg msg, uint32_t from, struct strm_block_info *into, size_t length,
	size_t *count);

/*
 * Returns the number that the block at `place` has among all message blocks of the pool, until it is
 * freed. Since 0.6.0.
 * Refused as STRM_NO_SUCH_BLOCK.
 * STREAMS: b_cont; a number replaces the pointer.
 */
int strm_block_number(const struct strm_pool *pool, struct strm_msg msg, uint32_t place, uint32_t *number);

/* Sets *yes to 1 if the name is valid, else to 0. It never returns STRM_INVALID. Not in STREAMS. */
int strm_has(const struct strm_pool *pool, struct strm_msg msg, uint32_t *yes);

/*
 * Returns the name of the held message whose first block has the number `head`. If no held message
 * begins there, returns STRM_NONE: the block is free, not the first of its message, or in a queued
 * message, or `head` is `mblks` or more. To find every held message, ask for each number below
 * `mblks` of the configuration.
 * Not in STREAMS.
 */
int strm_name_at(const struct strm_pool *pool, uint32_t head, struct strm_msg *msg);

/* ---- bytes in place: strm_bytes(3) */

/*
 * Sets *bytes to the address of the first byte of the block numbered `place`, and *length to the
 * number of its bytes, which follow one another. They may begin at any address. If there are none,
 * *bytes is still not null. Read them there, until the next call with this pool that is no look;
 * write nothing.
 * Refused as STRM_NO_SUCH_BLOCK.
 * STREAMS: b_rptr and b_wptr; to write there, call strm_edit.
 */
int strm_bytes(const struct strm_pool *pool, struct strm_msg msg, uint32_t place, const uint8_t **bytes, size_t *length);

/*
 * Sets base and length of consecutive blocks of a message, as strm_bytes does, in an array that is
 * filled as by strm_blocks. If *count is `length`, there may be more: ask again from `from` +
 * `length` on. writev takes the array as `(const struct iovec *)into`, with at most IOV_MAX
 * structs. strm_iov counts to each block from the first one, so a message of many blocks takes time
 * for the square of their number.
 * Not in STREAMS.
 */
int strm_iov(const struct strm_pool *pool, struct strm_msg msg, uint32_t from, struct strm_iov *into, size_t length,
	size_t *count);

/*
 * Returns the data block of the block numbered `place`, and where its bytes are. With these numbers
 * a program keeps memory of its own for each data block, such as buffers for DMA, and the pool
 * counts references and keeps order: strm_reserve and strm_advance move the places. Calls that
 * read, write or copy bytes use those in the pool all the same. The numbers of data blocks are
 * below the sum of `count` over the size classes. A queued message has no name for this call: note
 * the numbers before you queue it.
 * Refused as STRM_NO_SUCH_BLOCK.
 * STREAMS: db_base, db_lim, b_rptr and b_wptr, as numbers.
 */
int strm_place(const struct strm_pool *pool, struct strm_msg msg, uint32_t place, struct strm_block_place *where);

/*
 * Sets *base to the address of the bytes of all data blocks of the size class at `place`, *size to
 * the number of these bytes, and *stride to the class's size. Data blocks follow one another by
 * rising numbers: number d of strm_place begins at *base + (d - first) * *stride, where `first` is
 * the sum of `count` over smaller classes. They stay there while the pool is open, so register them
 * once, with a device or io_uring. The addresses of strm_bytes, strm_iov, strm_room, strm_edit and
 * strm_window are among them, or just after the last one if the length is 0; this is tested, not
 * proved. Returns STRM_NONE if there is no such class. Since 0.4.0.
 * Not in STREAMS.
 */
int strm_region(const struct strm_pool *pool, uint32_t place, const uint8_t **base, size_t *size, size_t *stride);

/*
 * Sets *at to the address of the room of the block numbered `place`, and *length to its number of
 * bytes. If there is no room, *at is still not null. Write there, for instance by recv, until the
 * next call with this pool that is neither a look nor strm_room, strm_edit or strm_window. Then
 * call strm_advance, which moves the write place past what you wrote. This call itself changes
 * nothing. Since 0.4.0.
 * Refused as STRM_NO_SUCH_BLOCK, STRM_SHARED.
 * STREAMS: b_wptr and db_lim.
 */
int strm_room(struct strm_pool *pool, struct strm_msg msg, uint32_t place, uint8_t **at, size_t *length);

/*
 * Sets *at to the address of the first byte of the block numbered `place`, and *length to the
 * number of its bytes, as strm_bytes does. Change them there, for as long as at strm_room.
 * Since 0.4.0.
 * Refused as STRM_NO_SUCH_BLOCK, STRM_SHARED.
 * STREAMS: b_rptr and b_wptr; the kernel does not check db_ref.
 */
int strm_edit(struct strm_pool *pool, struct strm_msg msg, uint32_t place, uint8_t **at, size_t *length);

/*
 * Sets *base to the address of the first byte of the data block of the block numbered `place`, and
 * *capacity to the number of all its bytes. This is for code that keeps places of its own: write
 * there for as long as at strm_room, and call strm_shape then. Since 0.4.0.
 * Refused as STRM_NO_SUCH_BLOCK, STRM_SHARED.
 * STREAMS: db_base and db_lim.
 */
int strm_window(struct strm_pool *pool, struct strm_msg msg, uint32_t place, uint8_t **base, size_t *capacity);

/*
 * Writes `length` bytes over those of a message, beginning with the byte numbered `at`, counted
 * over all blocks. The size of the message stays.
 * Refused as STRM_SHORT if `at` + `length` is above the size, also for a length of 0. Refused as
 * STRM_SHARED if more than one message block refers to a data block into which bytes would be
 * written, even equal ones.
 * STREAMS: writing through b_rptr; the kernel does not check db_ref.
 */
int strm_overwrite(struct strm_pool *pool, struct strm_msg msg, uint32_t at, const void *bytes, size_t length);

/*
 * Sets the read place and the write place of the block numbered `place`, which has no bytes, to
 * `count`. So strm_prepend has room for `count` bytes (headroom) once the block is the first.
 * Refused as STRM_NO_SUCH_BLOCK, STRM_SHARED, STRM_NO_ROOM; the first two also for a count of 0,
 * the last also if the block has bytes.
 * STREAMS: adding to b_rptr and b_wptr.
 */
int strm_reserve(struct strm_pool *pool, struct strm_msg msg, uint32_t place, uint32_t count);

/*
 * Puts `length` bytes before the read place of the first block, and moves the read place to them.
 * Refused as STRM_SHARED, also for a length of 0; STRM_NO_ROOM if the read place is smaller than
 * `length`.
 * STREAMS: subtracting from b_rptr, and writing there.
 */
int strm_prepend(struct strm_pool *pool, struct strm_msg msg, const void *bytes, size_t length);

/*
 * Moves the write place of the block numbered `place` past `count` bytes that the data block has
 * there already: what was last written there, by this message or a freed one, or zeros. No call
 * clears bytes. So before you free or trim a message with secrets, write zeros over them by
 * strm_overwrite. strm_pullupmsg and strm_transfer leave bytes in the data blocks that they free:
 * duplicate the message before, and afterwards overwrite and free the duplicate. After
 * strm_pullupmsg, overwrite those blocks of the duplicate that share no data block any more. A block
 * that gave only some of its bytes keeps these.
 * Refused as STRM_NO_SUCH_BLOCK, STRM_SHARED, STRM_NO_ROOM; the first two also for a count of 0.
 * STREAMS: adding to b_wptr.
 */
int strm_advance(struct strm_pool *pool, struct strm_msg msg, uint32_t place, uint32_t count);

/*
 * Sets the read place of the block numbered `place` to `at`, and its write place to `at` +
 * `length`, counted from the beginning of its data block. It writes no byte, so it is allowed on
 * shared data too. The block then shows what its data block has there: see strm_advance.
 * Since 0.4.0.
 * Refused as STRM_NO_SUCH_BLOCK; STRM_NO_ROOM if the data block has fewer than `at` + `length`
 * bytes.
 * STREAMS: setting b_rptr and b_wptr.
 */
int strm_shape(struct strm_pool *pool, struct strm_msg msg, uint32_t place, uint32_t at, uint32_t length);

/*
 * Gives each of the first `length` blocks of a message its places, type and band, or changes none.
 * It takes two steps a block, and writes no byte: see strm_shape. Since 0.5.0.
 * Refused as STRM_BAD_ARGUMENT for a number of no type or band, before STRM_INVALID. Refused as
 * STRM_NO_SUCH_BLOCK if there are fewer blocks. Then by the first block that does not fit: as
 * STRM_NO_ROOM, or else as STRM_SHARED if its type would change. So it is STRM_NO_ROOM for a block
 * with both faults.
 * STREAMS: setting b_rptr, b_wptr, db_type and b_band.
 */
int strm_shape_all(struct strm_pool *pool, struct strm_msg msg, const struct strm_block_shape *shapes, size_t length);

/* ---- names compared: strm_same_msg(3) */

/* Returns 1 if two names have the same fields, else 0. Not in STREAMS. */
int strm_same_msg(struct strm_msg a, struct strm_msg b);

/* Returns 1 if a name is STRM_NO_MSG, else 0. Not in STREAMS. */
int strm_is_no_msg(struct strm_msg msg);

/* ---- messages joined, parted and trimmed: strm_linkb(3) */

/*
 * Appends the blocks of `tail` to `msg`. `tail` is no longer valid. To prepend a header without a
 * copy, pass the header as `msg` and the data as `tail`: the message then has the header's band and
 * type. If both are the same name, returns STRM_INVALID.
 * As in STREAMS.
 */
int strm_linkb(struct strm_pool *pool, struct strm_msg msg, struct strm_msg tail);

/*
 * Leaves only the first block in a message. The other blocks become the message *rest; if there are
 * none, *rest is STRM_NO_MSG, and the call returns STRM_NONE.
 * As in STREAMS.
 */
int strm_unlinkb(struct strm_pool *pool, struct strm_msg msg, struct strm_msg *rest);

/*
 * Takes the block numbered `place` out of a message. That block becomes the message *block, and the
 * others become *rest. If there are none, *rest is STRM_NO_MSG, and the call still returns STRM_OK.
 * `msg` is no longer valid.
 * Refused as STRM_NO_SUCH_BLOCK.
 * Differs from STREAMS: you pass a place.
 */
int strm_rmvb(struct strm_pool *pool, struct strm_msg msg, uint32_t place, struct strm_msg *block, struct strm_msg *rest);

/*
 * Trims `count` bytes from the head of a message, over its leading blocks of the first block's
 * type. If `count` is negative, trims -count bytes from its tail, over its trailing blocks of the
 * last block's type.
 * Refused as STRM_SHORT if these blocks have fewer bytes.
 * Differs from STREAMS: which blocks are trimmed at the tail, and blocks that become empty stay.
 */
int strm_adjmsg(struct strm_pool *pool, struct strm_msg msg, int32_t count);

/*
 * Gathers the first `count` bytes of a message in its first block, from its leading blocks of the
 * first block's type; -1 means all bytes of these blocks. If the first block has the bytes already,
 * nothing is done. Otherwise it gets a new data block, allocated as by strm_allocb, of the same
 * type, with the bytes at its beginning: headroom is lost. Its old data block is freed, if no other
 * block refers to that. Then, front to back, blocks that gave all their bytes are freed, and empty
 * ones before the last byte; empty ones after it stay. Old data blocks, and the rest of the new
 * one, keep what was there: see strm_advance.
 * Refused as STRM_SHORT if `count` is below -1 or these blocks have fewer bytes, STRM_TOO_LARGE,
 * STRM_NO_DATA.
 * Differs from STREAMS: bytes are not aligned.
 */
int strm_pullupmsg(struct strm_pool *pool, struct strm_msg msg, int32_t count);

/*
 * Makes a message anew in another pool, with the same blocks, bytes with their places, types and
 * bands, and frees it here. `msg` is no longer valid; *moved is the name of the new message, in the
 * pool `other`. Each new block has a data block of its own, allocated as by strm_allocb for the
 * capacity of the old one. Old data blocks, and the rest of the new ones, keep what was there: see
 * strm_advance. Both handles must be open, and threads that share a pool hold the locks of both.
 * Refused as STRM_TOO_LARGE, STRM_NO_MBLK, STRM_NO_DATA, all of the pool `other`.
 * Not in STREAMS.
 */
int strm_transfer(struct strm_pool *pool, struct strm_pool *other, struct strm_msg msg, struct strm_msg *moved);

/* ---- queues: strm_putq(3) */

/*
 * Puts a message on a queue, after those of its rank or a greater one. It never checks for room:
 * call strm_bcanput first. Only bytes count: a band of empty or small messages can use up all
 * blocks before it is full. `msg` is no longer valid. High priority gets band 0, and always enables
 * the queue. Any other message enables it only if enabling is on, and only if the queue has a
 * want-to-read mark or the band is above 0.
 * As in STREAMS.
 */
int strm_putq(struct strm_pool *pool, uint32_t queue, struct strm_msg msg);

/*
 * Puts a message back on a queue, before those of its rank or a smaller one. `msg` is no longer
 * valid. High priority gets band 0, and always enables the queue: a service procedure that puts it
 * back is enabled again for ever. To put back high priority, call strm_insq at place 0: after
 * strm_getq took the message, that does not enable the queue. Any other message enables it only if
 * enabling is on and the queue has a want-to-read mark, whatever the band. No call puts several
 * messages back: call this for each, for the last one first.
 * As in STREAMS.
 */
int strm_putbq(struct strm_pool *pool, uint32_t queue, struct strm_msg msg);

/*
 * Puts a message on a queue before the message at `place`, or last if `place` is the number of
 * messages. `msg` is no longer valid. High priority gets band 0, but does not enable the queue by
 * itself. If enabling is on, a want-to-read mark enables the queue.
 * Refused as STRM_NO_SUCH_PLACE, STRM_BAD_ORDER.
 * Differs from STREAMS: you pass a place.
 */
int strm_insq(struct strm_pool *pool, uint32_t queue, uint32_t place, struct strm_msg msg);

/*
 * Puts a message on a queue as strm_insq does, before the message there whose first block is
 * `before`, or last if that is STRM_NO_HEAD. As at strm_rmvq_msg, another message may have the
 * head. Since 0.4.0.
 * Refused as STRM_NO_SUCH_PLACE if no message on this queue begins with that block; STRM_BAD_ORDER.
 * STREAMS: insq; a number replaces the pointer.
 */
int strm_insq_at(struct strm_pool *pool, uint32_t queue, uint32_t before, struct strm_msg msg);

/*
 * Takes the first message off a queue, clears the want-to-read mark (QWANTR), and settles the
 * queue. If the queue is empty, sets the want-to-read mark and returns STRM_NONE.
 * Differs from STREAMS: a band settles at its low water mark, not only below.
 */
int strm_getq(struct strm_pool *pool, uint32_t queue, struct strm_msg *msg);

/*
 * Takes the message at `place` off a queue, and settles the queue. The want-to-read mark stays.
 * Refused as STRM_NO_SUCH_PLACE.
 * Differs from STREAMS: you pass a place, and settling differs as at strm_getq.
 */
int strm_rmvq(struct strm_pool *pool, uint32_t queue, uint32_t place, struct strm_msg *msg);

/*
 * Takes the message with this head off its queue, and settles the queue. The want-to-read mark
 * stays. A head is no name: if its message was taken off, another one may have it. Since 0.4.0.
 * Refused as STRM_NO_SUCH_PLACE.
 * STREAMS: rmvq, whose caller also passes the queue; settling differs as at strm_getq.
 */
int strm_rmvq_msg(struct strm_pool *pool, uint32_t head, struct strm_msg *msg);

/* Counts the messages on a queue. As in STREAMS. */
int strm_qsize(const struct strm_pool *pool, uint32_t queue, uint32_t *msgs);

/*
 * Returns what the message at `place` of a queue is like.
 * Refused as STRM_NO_SUCH_PLACE.
 * STREAMS: following q_first and b_next.
 */
int strm_queued_at(const struct strm_pool *pool, uint32_t queue, uint32_t place, struct strm_queued *queued);

/*
 * Copies bytes of the message at `place` of a queue, as strm_read does.
 * Refused as STRM_NO_SUCH_PLACE.
 * STREAMS: reading through q_first, b_next and b_rptr.
 */
int strm_read_queued(const struct strm_pool *pool, uint32_t queue, uint32_t place, uint32_t at, void *into, size_t length,
	size_t *count);

/*
 * Returns the head of the first message on a queue, or STRM_NONE if the queue is empty.
 * STREAMS: q_first.
 */
int strm_first_queued(const struct strm_pool *pool, uint32_t queue, uint32_t *head);

/*
 * Returns the head of the last message on a queue, or STRM_NONE if the queue is empty. Since 0.4.0.
 * STREAMS: q_last.
 */
int strm_last_queued(const struct strm_pool *pool, uint32_t queue, uint32_t *head);

/*
 * Returns the head of the message after the one with the head `head`, on the same queue; or
 * STRM_NONE if that is the last one.
 * Refused as STRM_NO_SUCH_PLACE.
 * STREAMS: b_next.
 */
int strm_queued_after(const struct strm_pool *pool, uint32_t head, uint32_t *after);

/*
 * Returns the head of the message before the one with the head `head`, on the same queue; or
 * STRM_NONE if that is the first one. Since 0.4.0.
 * Refused as STRM_NO_SUCH_PLACE.
 * STREAMS: b_prev.
 */
int strm_queued_before(const struct strm_pool *pool, uint32_t head, uint32_t *before);

/*
 * Returns the queue that has the message with this head. Since 0.4.0.
 * Refused as STRM_NO_SUCH_PLACE.
 * Not in STREAMS.
 */
int strm_queue_of(const struct strm_pool *pool, uint32_t head, uint32_t *queue);

/*
 * Sets *bytes and *length as strm_bytes does, for a block of the queued message with this head.
 * Since 0.6.0.
 * Refused as STRM_NO_SUCH_PLACE, STRM_NO_SUCH_BLOCK.
 * STREAMS: b_rptr and b_wptr.
 */
int strm_queued_bytes(const struct strm_pool *pool, uint32_t head, uint32_t place, const uint8_t **bytes, size_t *length);

/*
 * Fills an array as strm_iov does, for blocks of the queued message with this head. Since 0.6.0.
 * Refused as STRM_NO_SUCH_PLACE.
 * Not in STREAMS.
 */
int strm_queued_iov(const struct strm_pool *pool, uint32_t head, uint32_t from, struct strm_iov *into, size_t length,
	size_t *count);

/*
 * Frees messages of a queue, front to back: all, or those with data (STRM_FLUSHALL,
 * STRM_FLUSHDATA). Then it settles the queue. The want-to-read mark stays.
 * Differs from STREAMS: settling differs as at strm_getq, and the queue itself is not enabled.
 */
int strm_flushq(struct strm_pool *pool, uint32_t queue, uint32_t flush);

/*
 * Frees messages of one band, 0 to 255, as strm_flushq does. High priority is in band 0.
 * Differs from STREAMS: as strm_flushq does.
 */
int strm_flushband(struct strm_pool *pool, uint32_t queue, uint32_t band, uint32_t flush);

/*
 * Takes messages off a queue that strm_flushq would free, front to back, at most `length`. Stores
 * their number in *count, and their names in the array `msgs` of `length` names. The rest of the
 * array is unchanged. If there are none, *count is 0, with STRM_OK. Then it settles the queue once.
 * The want-to-read mark stays. Since 0.5.0.
 * Not in STREAMS.
 */
int strm_takeq(struct strm_pool *pool, uint32_t queue, uint32_t flush, struct strm_msg *msgs, size_t length, size_t *count);

/* Takes messages of one band, 0 to 255, as strm_takeq does. Since 0.5.0. Not in STREAMS. */
int strm_takeq_band(struct strm_pool *pool, uint32_t queue, uint32_t band, uint32_t flush, struct strm_msg *msgs, size_t length,
	size_t *count);

/* ---- several messages at once: strm_allocb_n(3) */

/*
 * Allocates messages as strm_allocb does, and stores their number in *count, and their names in the
 * array `msgs` of `length` names. The rest of the array is unchanged.
 * Not in STREAMS.
 */
int strm_allocb_n(struct strm_pool *pool, uint32_t size, struct strm_msg *msgs, size_t length, size_t *count);

/*
 * Frees messages as strm_freemsg does: those named in the array `msgs` of `length` names, in this
 * order.
 * Not in STREAMS.
 */
int strm_freemsg_n(struct strm_pool *pool, const struct strm_msg *msgs, size_t length, size_t *count);

/*
 * Puts messages on a queue as strm_putq does: those named in the array `msgs` of `length` names, in
 * this order.
 * Not in STREAMS.
 */
int strm_putq_n(struct strm_pool *pool, uint32_t queue, const struct strm_msg *msgs, size_t length, size_t *count);

/*
 * Takes messages off a queue as strm_getq does, and stores their names in the array `msgs` of
 * `length` names. The rest of the array is unchanged. If the queue has fewer than `length`
 * messages, this sets the want-to-read mark, as strm_getq does on an empty queue. If it has exactly
 * `length`, and `length` is not 0, the mark is off afterwards: a service procedure calls again,
 * until *count is below `length`.
 * With the mark on, a message that strm_putbq puts back enables the queue at once: a service
 * procedure that may put back asks for at most as many as strm_qsize counts.
 * Not in STREAMS.
 */
int strm_getq_n(struct strm_pool *pool, uint32_t queue, struct strm_msg *msgs, size_t length, size_t *count);

/* ---- flow control and service: strm_bcanput(3) */

/*
 * Asks whether a message of a band, 0 to 255, may be sent to `queue`: *yes is 1 or 0. The first
 * queue with a service procedure decides, from `queue` on along next; if none has one, the last
 * queue does. If the band is full there, *yes is 0 and the band is marked wanted. High priority is
 * sent without asking. A service procedure asks about the next queue of its own queue, since its
 * own queue would decide for itself. A source without a queue, such as an interrupt, asks about the
 * queue on which it puts. If *yes is 0, it asks again later, or drops the message: nothing wakes
 * it. If it must be woken, give it a queue that stays empty and has a service procedure, and whose
 * next queue is the one on which it puts. Only one queue may have a given queue as its next, so
 * several senders share one empty queue. Its service procedure calls strm_qenable on the queue of
 * each sender that waits, or wakes it: strm_next_service returns such a queue, while strm_serve
 * passes over it. Threads wait by strm_mt.h. The bytes of high priority messages count with band 0,
 * which they can make full. The call may mark a band, so it is no look, and ends pointers of
 * strm_bytes.
 * As in STREAMS; canput asks for band 0.
 */
int strm_bcanput(struct strm_pool *pool, uint32_t queue, uint32_t band, uint32_t *yes);

/*
 * Sets the water marks of a band, in bytes, and then settles the queue.
 * Refused as STRM_BAD_MARKS.
 * Differs from STREAMS (QHIWAT, QLOWAT): both at once, and the queue settles.
 */
int strm_strqset(struct strm_pool *pool, uint32_t queue, uint32_t band, uint32_t hiwat, uint32_t lowat);

/* Returns the water marks of a band. Differs from STREAMS (QHIWAT, QLOWAT): both at once. */
int strm_strqget(const struct strm_pool *pool, uint32_t queue, uint32_t band, struct strm_marks *marks);

/*
 * Enables a queue, even if enabling is off.
 * As in STREAMS.
 */
int strm_qenable(struct strm_pool *pool, uint32_t queue);

/*
 * Switches enabling off. strm_qenable, strm_hold, strm_serve, back-enabling, and high priority in
 * strm_putq or strm_putbq still enable the queue.
 * As in STREAMS.
 */
int strm_noenable(struct strm_pool *pool, uint32_t queue);

/* Switches enabling on. The call itself enables nothing. As in STREAMS. */
int strm_enableok(struct strm_pool *pool, uint32_t queue);

/*
 * Takes the first queue off the run list. If the list is empty, returns STRM_NONE.
 * Not in STREAMS.
 */
int strm_next_service(struct strm_pool *pool, uint32_t *queue);

/*
 * Serves queues, the first of the run list first, until one gives a message that may go on to its
 * next queue: one of high priority, or whose band has room there by strm_bcanput. Takes it off, and
 * enables its queue again, as the last one. Then strm_putq on service->next passes the message on,
 * strm_putq on another queue replies, strm_freemsg drops it, strm_hold puts it back.
 *
 * Other queues that it serves rest: they leave the run list. An empty one gets the want-to-read
 * mark. Of any other, the first message is taken off, and put back, as by strm_getq and strm_putbq,
 * and its band is wanted where strm_bcanput looked. So the queue settles without this message: it
 * can lose wanted marks, although it has as many bytes afterwards.
 *
 * A queue that is enabled because a message was taken off becomes the first of the run list. If it
 * is on the list already, it keeps its place.
 *
 * The last `held` queues of the run list are not served: begin with 0, and go on with service->held
 * + 1 if only strm_hold on service->queue and looks were called since, otherwise with
 * 0. Returns STRM_NONE if no other queue is enabled, or the first one has no next queue; it stays
 * there. "Wake-ups" at the top of strm.h lists calls that can leave a message which is never given.
 * Since 0.6.0.
 * Not in STREAMS.
 */
int strm_serve(struct strm_pool *pool, uint32_t held, struct strm_service *service, struct strm_msg *msg);

/*
 * Puts a message back as strm_putbq does, and enables the queue as strm_qenable does: if no block
 * is free, for instance. `msg` is no longer valid. Since 0.6.0.
 * Not in STREAMS.
 */
int strm_hold(struct strm_pool *pool, uint32_t queue, struct strm_msg msg);

/* Returns the queue at a place of the run list, or STRM_NONE if there is none. Not in STREAMS. */
int strm_run_at(const struct strm_pool *pool, uint32_t place, uint32_t *queue);

/* ---- wishes: strm_bufcall(3) */

/*
 * Records a wish for a message block over a data block of `size` bytes or more, after all other
 * wishes. Ids rise by 1 from first_id of the configuration to 4294967295. A refused call uses up no
 * id. A wish needs both blocks free: strm_dupb and strm_dupmsg need no data block, so they can
 * succeed while a wish still waits.
 * Refused as STRM_TOO_LARGE, STRM_FULL, STRM_IDS_SPENT.
 * Differs from STREAMS: no function is called back; call strm_take_ready.
 */
int strm_bufcall(struct strm_pool *pool, uint32_t size, uint32_t *id);

/*
 * Withdraws a wish.
 * Refused as STRM_NOT_PENDING.
 * Differs from STREAMS: it can be refused.
 */
int strm_unbufcall(struct strm_pool *pool, uint32_t id);

/*
 * Removes the oldest wish for which strm_allocb would succeed now, and returns it. If there is
 * none, returns STRM_NONE. It reserves no block and enables no queue. Keep a table from wishes to
 * what waits for them: a function of your own, or a queue. One free block makes all wishes ready
 * that it fits. So take one wish and serve it, and only then take the next: call its function, or
 * strm_qenable on its queue and then the service procedures of all enabled queues. Repeat until
 * strm_take_ready returns STRM_NONE. Do so after calls that free blocks, and before the program
 * waits. A call such as strm_copymsg may need more than its wish. If it is refused then, retry it
 * from a timer: a new wish would be ready at once, again and again.
 * Not in STREAMS.
 */
int strm_take_ready(struct strm_pool *pool, struct strm_wish *wish);

/* Returns the wish at a place, the oldest first, or STRM_NONE if there is none. Not in STREAMS. */
int strm_wish_at(const struct strm_pool *pool, uint32_t place, struct strm_wish *wish);

/* ---- what there is: strm_census(3) */

/*
 * Returns the configuration of a queue, as strm_open was given it; strm_strqset does not change it.
 * `service` is 1 or 0.
 * STREAMS: q_qinfo and q_next.
 */
int strm_queue_spec(const struct strm_pool *pool, uint32_t queue, struct strm_queue_spec *spec);

/* Counts the message blocks: free, on queues, and held. Not in STREAMS. */
int strm_census(const struct strm_pool *pool, struct strm_census *census);

/*
 * Returns the size class at a place, the smallest first, or STRM_NONE if there is none.
 * Not in STREAMS.
 */
int strm_class_info(const struct strm_pool *pool, uint32_t place, struct strm_class_info *info);

/*
 * Returns the fewest message blocks that were free since the pool was opened, or since
 * strm_reset_least. Each call that takes blocks lowers it when it takes them, also if it frees
 * others before it returns. So for what was allocated since then, a pool with this number fewer
 * would have done, if one block or more is left. Blocks that were only asked for do not count:
 * strm_testb and strm_take_ready may need them free. Since 0.4.0.
 * Not in STREAMS.
 */
int strm_least_free_blocks(const struct strm_pool *pool, uint32_t *fewest);

/*
 * Returns the same for the data blocks of the size class at `place`, or STRM_NONE if there is none.
 * Each class must keep one data block or more. Since 0.4.0.
 * Not in STREAMS.
 */
int strm_least_free(const struct strm_pool *pool, uint32_t place, uint32_t *fewest);

/*
 * Makes the message blocks, and of each class the data blocks, that are free now the fewest that
 * were free. Since 0.4.0.
 * Not in STREAMS.
 */
int strm_reset_least(struct strm_pool *pool);

/*
 * Returns the state of a queue.
 * STREAMS: q_count, and QWANTR, QNOENB and QENAB of q_flag; here `bytes` counts all bands.
 */
int strm_queue_info(const struct strm_pool *pool, uint32_t queue, struct strm_queue_info *info);

/*
 * Returns the state of a band of a queue, 0 to 255.
 * STREAMS: qb_count, and QB_FULL and QB_WANTW of qb_flag.
 */
int strm_band_info(const struct strm_pool *pool, uint32_t queue, uint32_t band, struct strm_band_info *info);

/*
 * Writes the report that the program strm prints of a pool (strm(1)): as much as fits into `length`
 * bytes, with a 0 at the end unless `length` is 0. Returns the length of the whole text without the
 * 0. If the handle is not open, `text` is null and `length` is not 0, or `length` is above
 * SIZE_MAX / 2, returns 0 and writes nothing. The text of a pool has at most 180 KB.
 * Since 0.4.0.
 * Not in STREAMS.
 */
size_t strm_report(const struct strm_pool *pool, char *text, size_t length);

/* ---- texts: strm_text(3) */

/*
 * Returns the text of a code, or "no such code" for another number. It stays as long as the library
 * is loaded.
 */
const char *strm_error(int code);

/*
 * Copies the text that strm_error returns: as much as fits into `length` bytes, with a 0 at the end
 * unless `length` is 0. Returns the length of the whole text without the 0. If `text` is null and
 * `length` is not 0, or `length` is above SIZE_MAX / 2, returns 0 and writes nothing.
 */
size_t strm_text(int code, char *text, size_t length);

/* Copies the name of a code in the same way, as "STRM_TOO_LARGE", or "" for another number. */
size_t strm_name(int code, char *text, size_t length);

/* Copies the version of the library in the same way. */
size_t strm_version(char *text, size_t length);

#ifdef __cplusplus
}
#endif

#endif
