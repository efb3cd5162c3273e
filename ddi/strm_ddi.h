/* strm_ddi.h: streams for testing modules in user space; tested, not proved. A program of one
 * thread, on Linux, opens drivers, pushes modules as they are, and sends and receives. Messages and
 * queues are in pools of strm.h.
 *
 *     str_init(NULL);
 *     str_open(&driverinfo, 0, 0, &head);
 *     str_push(head, &moduleinfo);
 *     str_write(head, "lion", 4);
 *     str_read(head, bytes, sizeof bytes, &count);
 *     str_close(head);
 *     return str_fini();
 *
 * Calls return 0 or a number of errno, unless they say else. None waits: time passes in ticks of
 * 10 ms, in str_wait, in an ioctl that has no reply yet, and in qwait of a module.
 *
 *
 * Misuse
 *
 * Misuse by a module is reported on standard error, with the file and the line of the call, and the
 * last calls with the message. Then the program aborts. If the environment has `report` as STRM_DDI,
 * it goes on without what the call would do.
 *
 * If it has a path as STRM_DDI_TRACE, that file gets a trace for strm-record, of at most 16 queues,
 * up to the first str_pop or str_close, or the first open of a module or driver that fails.
 */
#ifndef STRM_DDI_H
#define STRM_DDI_H

#include <strm.h>
#include <sys/stream.h>

typedef struct strhead strhead_t;

/* ---- streams in one process */

/*
 * Opens the first pool, with the message blocks, the classes and the wishes of `config`, or for null
 * with 2,048 blocks. Another pool like it is opened after 16 queues that have messages or are asked
 * for room; a 17th pool ends the program. EINVAL for a wrong configuration.
 */
int str_init(const struct strm_config *config);

/* Closes all pools. Returns how many reports there were, messages that are left included. */
int str_fini(void);

/* Says how often the procedures of a module may run inside one another: D_MP as they like, D_MTPERMOD
 * one in the module, D_MTQPAIR one at a pair of queues. Without this call, as they like. */
void str_flag(struct streamtab *module, int flag);

/* Opens a driver as `device`, and stores its stream. */
int str_open(struct streamtab *driver, dev_t device, int flag, strhead_t **head);

/* Opens a module below the stream head. */
int str_push(strhead_t *head, struct streamtab *module);

/* Runs what can run, then closes the module below the stream head. Returns EINVAL if there is none. */
int str_pop(strhead_t *head);

/* Closes all modules and the driver of a stream, each as str_pop does. */
int str_close(strhead_t *head);

/* Sends bytes down, in messages of the size that the module below takes. ERANGE if it takes no such size. EAGAIN if flow
 * control holds them, or the rest of them: the first messages may have been sent. */
int str_write(strhead_t *head, const void *bytes, size_t length);

/* Reads bytes of the first message, and leaves the rest. EAGAIN if there is none, or after M_ERROR its number, or 0 with
 * *count 0 after M_HANGUP. EBADMSG if the message is not M_DATA. */
int str_read(strhead_t *head, void *into, size_t length, size_t *count);

/* Sends a message down: of `type` with bytes of `control`, if that is not null, and an M_DATA block, unless `bytes` is null and
 * `control` is not. */
int str_putmsg(strhead_t *head, const void *control, size_t control_length, const void *bytes, size_t length, int type, int band);

/* Returns the first message, or null. The caller frees it. */
mblk_t *str_getmsg(strhead_t *head);

/* Sends an ioctl as I_STR does, with *length bytes; its reply has up to `room` bytes. ETIME if none comes in 15 s. */
int str_ioctl(strhead_t *head, int command, void *bytes, size_t *length, size_t room, int *value);

/* Sends a transparent ioctl, whose M_COPYIN and M_COPYOUT are answered from memory. */
int str_ioctl_transparent(strhead_t *head, int command, void *argument, int *value);

/* Links a stream below a multiplexing driver, whose stream is `upper`; and unlinks it. */
int str_link(strhead_t *upper, strhead_t *lower);
int str_unlink(strhead_t *upper, strhead_t *lower);

/* Runs service procedures of enabled queues, functions of wishes that can be met, and timeouts that
 * are due. Returns how many ran. */
int str_run(void);

/* Has time pass: runs what can run, and so the timeouts of the next ticks. Returns how many ran. */
int str_wait(clock_t ticks);

/* Returns the read queue of the module or driver `place` below a stream head, for 0 that of the head; null if there is none. */
queue_t *str_queue(strhead_t *head, int place);

#endif
