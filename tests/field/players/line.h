/* The streams around ppp's driver, over ddi. Above it are a control stream and a stream of the network layer. Below it is a line with ppp_comp,
 * ppp_ahdlc and a terminal. line.c has what the stream heads and the terminal do; looks.c, calls that change nothing. */
#ifndef FIELD_LINE_H
#define FIELD_LINE_H
#include "../../../ddi/src/ddi.h"
#include "packets.h"

#define FRAMES 64

/* The streams: of each, queues are at places below the head. */
extern strhead_t *control, *network, *line_stream;
enum { HEAD, DRIVER };
enum { LOWER, COMPRESSOR, FRAMER, TERMINAL };

/* What was sent over the line and not received yet. */
extern struct line {
    u_char bytes[FRAMES * MOST_FRAME];
    int size;
} line;
/* Whether the terminal takes nothing. */
extern int is_stopped;

void make_streams(void);
queue_t *read_of(strhead_t *head, int place);
queue_t *write_of(strhead_t *head, int place);
/* Closes a module or driver, without taking it out. */
void close_part(strhead_t *head, int place);
/* Runs the next service procedure, if there is one. */
void serve_next(void);

/* looks.c: of a message, or of all queues. `each` calls a function for each queue. */
void look(mblk_t *mp);
void look_around(void);
void each(void (*function)(queue_t *q));
#endif
