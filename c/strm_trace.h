/*
 * strm_trace.h: labels of queues and messages in the traces of libstrm_trace.so (strm-trace(1)).
 * Tested, not proved.
 */
#ifndef STRM_TRACE_H
#define STRM_TRACE_H

#include "strm.h"

#ifdef __cplusplus
extern "C" {
#endif

/*
 * Labels a queue, or, if `queue` is STRM_NO_QUEUE, the message whose first block has the number
 * `msg.head`, which keeps its label on queues. It does not check whether the name `msg` is valid.
 * Traces show at most 40 bytes, and a `?` instead of each that is not printable ASCII. Without
 * libstrm_trace.so the macro below does nothing. Makes no call with the pool, so it needs no lock.
 */
void strm_trace_label(const struct strm_pool *pool, uint32_t queue, struct strm_msg msg, const char *label)
	__attribute__((weak));
#define strm_trace_label(pool, queue, msg, label) \
	(strm_trace_label ? strm_trace_label(pool, queue, msg, label) : (void)0)

#ifdef __cplusplus
}
#endif

#endif
