/*
 * strm_mt.h: threads that wait for the messages, the room and the blocks of a pool of strm.h, for
 * programs in C and C++. This library is tested, not proved; the pool below it is that of strm.h.
 *
 *     strm_mt_alloc(mt, 4, &msg, NULL);
 *     strm_write(strm_mt_lock(mt), msg, 0, "lion", 4);
 *     strm_mt_unlock(mt);
 *     strm_mt_send(mt, 0, msg, NULL);
 *
 *
 * Results
 *
 * Calls return codes as those of strm.h do, in its order, and store results only with STRM_OK: also
 * *count of _n calls. The codes below are added; strm_mt_error has the text of all.
 *
 *
 * Waiting
 *
 * To wait is here to wait for a message, room or blocks. Each call also takes the lock, and sleeps
 * while another thread has it, whatever its deadline.
 *
 * A `deadline` is a time of CLOCK_MONOTONIC. With null a call waits for ever; with zeros it never
 * waits. With another time that has passed, a call that would have to wait returns at once, but may
 * be a cancellation point, as if it had waited. If a call would have to wait longer, it returns
 * STRM_MT_TIMED_OUT. A tv_nsec below 0 or above 999,999,999 is STRM_BAD_ARGUMENT, even if the call
 * need not wait, but not for a `length` of 0.
 *
 * Each unlock serves the calls that wait: it puts, takes or allocates for each that can go on, and
 * then wakes its thread. So at no time while the lock is free does a call wait that could go on.
 * Calls are served in these orders:
 *
 *   - At a queue, those that send in one band, and those that receive, in the order in which they
 *     came. No later call overtakes them. strm_mt_send_n comes anew to the band of a message whose
 *     band is not that of the ordinary message before: after calls that wait there already, even
 *     if these began later.
 *   - Of those that send in several bands, greater bands first. Greater bands are received first
 *     too, so they can keep messages of smaller ones waiting for ever.
 *   - Of those that allocate, in the order in which they came, each that finds its blocks.
 *
 * These are orders among calls of this header. A thread that has the lock puts and takes by calls
 * of strm.h at once.
 *
 * A full band has room once it is below its high water mark; the low one plays no part. Each unlock
 * costs some calls of strm.h: for each queue and band at which a call waits, for each call that
 * waits for blocks, unless the call before it waits for the same size, and for each descriptor of
 * strm_mt_fd. Without these it costs nothing, and a call that need not wait makes no system call,
 * if no other thread has the lock.
 *
 *
 * What the caller promises
 *
 * The rules of strm.h hold, and these:
 *
 *   - A thread that holds the lock makes no call of this header but those that unlock.
 *   - A message that a waiting call sends is not put, freed or joined to another by others, and
 *     keeps its type and band. Otherwise its call may wait until those before it went on.
 *   - Threads are cancelled only where that is deferred. Only a call that waits, or finds its
 *     deadline passed, is a cancellation point. If its thread is cancelled, it holds no lock, no
 *     place and no message that it got. A message that it has not sent stays held: strm_has says so.
 *   - A signal handler may interrupt a call that waits, which then waits on.
 */
#ifndef STRM_MT_H
#define STRM_MT_H

#include "strm.h"

#ifdef __cplusplus
extern "C" {
#endif

enum {
	STRM_MT_TIMED_OUT = -31,	/* the deadline has passed */
	STRM_MT_CLOSED = -32,		/* the queue is shut */
	STRM_MT_NO_FD = -33		/* the system gives no file descriptor; errno says why */
};

/* What a descriptor of strm_mt_fd waits for. */
enum {
	STRM_MT_READABLE,		/* a message to receive */
	STRM_MT_WRITABLE		/* room to send in a band */
};

/* A pool with its lock, and the calls that wait there. */
struct strm_mt;
struct timespec;

/* ---- a pool with its lock: strm_mt_open(3) */

/*
 * Opens a pool as strm_open does. This call and strm_mt_fd are the only ones that allocate.
 * Refused as by strm_open; STRM_NO_MEMORY may come before STRM_BAD_ARGUMENT and faults of the
 * configuration.
 */
int strm_mt_open(struct strm_mt **mt, const struct strm_config *config);

/*
 * Closes a pool as strm_close does, and the descriptors of strm_mt_fd. No thread may be in a call
 * with this pool: shut it first, and join the threads.
 */
int strm_mt_close(struct strm_mt *mt);

/*
 * Locks the pool, for any call of strm.h but strm_open, strm_open_with and strm_close. Null has no
 * pool: the call returns null.
 */
struct strm_pool *strm_mt_lock(struct strm_mt *mt);

/*
 * Serves the calls that wait, unlocks the pool, and wakes the threads of those that went on. `mt`
 * is not null.
 */
void strm_mt_unlock(struct strm_mt *mt);

/*
 * Locks the pool for looks. Several threads may hold it so at the same time. While a thread waits
 * in strm_mt_lock until they are done, no further thread gets the lock for looks. Null has no pool,
 * as at strm_mt_lock.
 */
const struct strm_pool *strm_mt_rdlock(struct strm_mt *mt);

/* Unlocks what strm_mt_rdlock locked. `mt` is not null. */
void strm_mt_rdunlock(struct strm_mt *mt);

/* ---- send and receive: strm_mt_send(3) */

/*
 * Puts a message on a queue as strm_putq does, once strm_bcanput allows it for the message's band.
 * High priority waits for the lock only. With STRM_OK `msg` is no longer valid; after any other
 * code it is as before.
 * Refused as STRM_MT_CLOSED, STRM_MT_TIMED_OUT.
 */
int strm_mt_send(struct strm_mt *mt, uint32_t queue, struct strm_msg msg, const struct timespec *deadline);

/*
 * Takes the first message off a queue as strm_getq does, once there is one.
 * Refused as STRM_MT_CLOSED if the queue is shut and empty, STRM_MT_TIMED_OUT.
 */
int strm_mt_receive(struct strm_mt *mt, uint32_t queue, struct strm_msg *msg, const struct timespec *deadline);

/*
 * Sends messages as strm_mt_send does, with one deadline for all: those named in the array `msgs`
 * of `length` names, in this order. The thread sleeps until all are sent, or a message is refused
 * or the deadline passes. Then it returns STRM_OK if one was sent, or `length` is 0, and *count is
 * the number of those sent; otherwise the code of the first. Between messages of one band that
 * follow one another in the array come none of other senders in this band.
 */
int strm_mt_send_n(struct strm_mt *mt, uint32_t queue, const struct strm_msg *msgs, size_t length,
	const struct timespec *deadline, size_t *count);

/*
 * Receives messages as strm_mt_receive does: as many as there are, at most `length`, and stores
 * their number in *count. It waits only while there is none.
 */
int strm_mt_receive_n(struct strm_mt *mt, uint32_t queue, struct strm_msg *msgs, size_t length,
	const struct timespec *deadline, size_t *count);

/*
 * Allocates a message as strm_allocb does, once blocks for it are free. Its wish is not one of
 * strm_bufcall: it uses up no id, and `bufcalls` of the configuration does not limit it.
 * Refused as STRM_TOO_LARGE, STRM_MT_CLOSED if STRM_NO_QUEUE was shut and it would wait,
 * STRM_MT_TIMED_OUT.
 */
int strm_mt_alloc(struct strm_mt *mt, uint32_t size, struct strm_msg *msg, const struct timespec *deadline);

/*
 * Shuts a queue for ever: sending there, and receiving once it is empty, returns STRM_MT_CLOSED,
 * but for a `length` of 0.
 * All calls that wait there return so at once; strm_mt_send_n returns STRM_OK if it has sent some.
 * STRM_NO_QUEUE shuts all queues, and waiting for blocks, which shutting each queue does not.
 */
int strm_mt_shut(struct strm_mt *mt, uint32_t queue);

/*
 * Counts the calls that wait at a queue, or with STRM_NO_QUEUE those that wait for blocks.
 */
int strm_mt_waiting(struct strm_mt *mt, uint32_t queue, uint32_t *calls);

/* ---- event loops: strm_mt_fd(3) */

/*
 * Sets *fd to a descriptor (an eventfd) for poll, epoll or io_uring. While the lock is free, it is
 * readable exactly if a receive (`what` is STRM_MT_READABLE), or a send in `band`
 * (STRM_MT_WRITABLE), would not wait. So it is level-triggered. While a thread has the lock, it
 * stays as it was. Another thread may come first: receive and send with a deadline of zeros, and
 * take STRM_MT_TIMED_OUT as spurious. The band of STRM_MT_READABLE is ignored. Equal arguments give
 * the same descriptor, which stays until strm_mt_close or execve; do not read, write or close it.
 * Each change of readiness costs a system call.
 * Refused as STRM_BAD_ARGUMENT for another `what` or band, STRM_NO_SUCH_QUEUE, STRM_NO_MEMORY,
 * STRM_MT_NO_FD.
 */
int strm_mt_fd(struct strm_mt *mt, uint32_t queue, uint32_t what, uint32_t band, int *fd);

/* Returns the text of a code as strm_error does, also of those of this header. */
const char *strm_mt_error(int code);

#ifdef __cplusplus
}
#endif

#endif
