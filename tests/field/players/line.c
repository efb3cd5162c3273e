#include "line.h"

#include <errno.h>

/* What the modules export, and the clock that they read. */
extern struct streamtab pppinfo, pcmpinfo, phdlinfo;
time_t kernel_time;

strhead_t *control, *network, *line_stream;
struct line line;
int is_stopped;

/* The ends */

/* Flushes what a message asks for. The terminal sends it back if the other side is to be flushed too. */
static void flush_at_end(queue_t *q, mblk_t *mp, int own, int other)
{
    if (*mp->b_rptr & own)
        flushq(q, FLUSHDATA);
    if (*mp->b_rptr & other && own == FLUSHW) {
        flushq(OTHERQ(q), FLUSHDATA);
        *mp->b_rptr &= ~own;
        qreply(q, mp);
    } else {
        freemsg(mp);
    }
}

static int put_at_head(queue_t *q, mblk_t *mp)
{
    if (mp->b_datap->db_type == M_FLUSH)
        flush_at_end(q, mp, FLUSHR, FLUSHW);
    else
        putq(q, mp);
    return 0;
}

static int pass_on(queue_t *q, mblk_t *mp)
{
    putnext(q, mp);
    return 0;
}

static void refuse(queue_t *q, mblk_t *mp)
{
    mp->b_datap->db_type = M_IOCNAK;
    ((struct iocblk *)mp->b_rptr)->ioc_error = EINVAL;
    qreply(q, mp);
}

static int put_at_terminal(queue_t *q, mblk_t *mp)
{
    switch (mp->b_datap->db_type) {
    case M_FLUSH:
        flush_at_end(q, mp, FLUSHW, FLUSHR);
        break;
    case M_IOCTL:
        refuse(q, mp);
        break;
    default:
        putq(q, mp);
    }
    return 0;
}

/* Puts what is sent onto the line, from which it can be received again. */
static void send(const mblk_t *mp)
{
    for (; mp; mp = mp->b_cont)
        if (mp->b_datap->db_type == M_DATA && line.size + (size_t)MBLKL(mp) <= sizeof line.bytes) {
            memcpy(line.bytes + line.size, mp->b_rptr, (size_t)MBLKL(mp));
            line.size += (size_t)MBLKL(mp);
        }
}

static int serve_terminal(queue_t *q)
{
    mblk_t *mp;
    while (!is_stopped && (mp = getq(q))) {
        look(mp);
        send(mp);
        freemsg(mp);
    }
    return 0;
}

static struct module_info control_info = {0, "head/control", 0, INFPSZ, 1500, 0}, network_info = {0, "head/network", 0, INFPSZ, 1500, 0};
static struct module_info terminal_info = {0, "terminal", 0, INFPSZ, 600, 128};
static struct qinit control_read = {.qi_putp = put_at_head, .qi_minfo = &control_info};
static struct qinit control_write = {.qi_putp = pass_on, .qi_minfo = &control_info};
static struct qinit network_read = {.qi_putp = put_at_head, .qi_minfo = &network_info};
static struct qinit network_write = {.qi_putp = pass_on, .qi_minfo = &network_info};
static struct qinit terminal_read = {.qi_putp = pass_on, .qi_minfo = &terminal_info};
static struct qinit terminal_write = {.qi_putp = put_at_terminal, .qi_srvp = serve_terminal, .qi_minfo = &terminal_info};
static struct streamtab terminal = {.st_rdinit = &terminal_read, .st_wrinit = &terminal_write};

/* The streams */

queue_t *read_of(strhead_t *head, int place)
{
    return str_queue(head, place);
}

queue_t *write_of(strhead_t *head, int place)
{
    return WR(str_queue(head, place));
}

/* Has the queues of a stream head do something else. */
static void set_head(strhead_t *head, struct qinit *read_side, struct qinit *write_side)
{
    read_of(head, HEAD)->q_qinfo = read_side;
    write_of(head, HEAD)->q_qinfo = write_side;
}

static void open_upper(strhead_t **head, struct qinit *read_side, struct qinit *write_side)
{
    str_open(&pppinfo, 0, CLONEOPEN, head);
    set_head(*head, read_side, write_side);
    strqset(read_of(*head, HEAD), QLOWAT, 0, 0);
    strqset(read_of(*head, HEAD), QHIWAT, 0, 1500);
}

void make_streams(void)
{
    open_upper(&control, &control_read, &control_write);
    open_upper(&network, &network_read, &network_write);
    str_open(&terminal, 0, 0, &line_stream);
    str_push(line_stream, &phdlinfo);
    str_push(line_stream, &pcmpinfo);
    set_head(line_stream, pppinfo.st_muxrinit, pppinfo.st_muxwinit);
}

void close_part(strhead_t *head, int place)
{
    queue_t *q = read_of(head, place);
    struct frame frame;
    ddi_enter(&frame, q, "close");
    q->q_qinfo->qi_qclose(q, 0, NULL);
    ddi_leave(&frame);
}

void serve_next(void)
{
    ddi_serve();
}
