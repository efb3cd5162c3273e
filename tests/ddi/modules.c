/* Tested, not proved: a driver and modules for the tests of ddi, as modules.h says. */
#include "modules.h"

#include <sys/ddi.h>
#include <sys/stropts.h>

int echo_is_stopped, hold_depth, hold_deepest, mixer_freed, mixer_ticks, mixer_depth, mixer_writer_depth;

static int flush_side(queue_t *q, mblk_t *mp)
{
	int own = q->q_flag & QREADR ? FLUSHR : FLUSHW;

	if (*mp->b_rptr & own && *mp->b_rptr & FLUSHBAND)
		flushband(q, mp->b_rptr[1], FLUSHDATA);
	else if (*mp->b_rptr & own)
		flushq(q, FLUSHDATA);
	return *mp->b_rptr & own;
}

/* ---- the driver echo */

static int refuse(queue_t *q, mblk_t *mp)
{
	mp->b_datap->db_type = M_IOCNAK;
	((struct iocblk *)mp->b_rptr)->ioc_error = 22;
	qreply(q, mp);
	return 0;
}

static int echo_wput(queue_t *q, mblk_t *mp)
{
	switch (mp->b_datap->db_type) {
	case M_FLUSH:
		flush_side(q, mp);
		*mp->b_rptr &= ~FLUSHW;
		if (*mp->b_rptr & FLUSHR)
			qreply(q, mp);
		else
			freemsg(mp);
		return 0;
	case M_IOCTL:
		return refuse(q, mp);
	default:
		putq(q, mp);
		return 0;
	}
}

static int echo_wsrv(queue_t *q)
{
	mblk_t *mp;

	while (!echo_is_stopped && (mp = getq(q)) != NULL) {
		if (queclass(mp) != QPCTL && !bcanputnext(RD(q), mp->b_band)) {
			putbq(q, mp);
			break;
		}
		qreply(q, mp);
	}
	return 0;
}

/* There is room above again. */
static int echo_rsrv(queue_t *q)
{
	qenable(WR(q));
	return 0;
}

static int up(queue_t *q, mblk_t *mp)
{
	putnext(q, mp);
	return 0;
}

static struct module_info echo_minfo = { 1, "echo", 0, INFPSZ, 8192, 2048 };
static struct qinit echo_r = { up, echo_rsrv, 0, 0, 0, &echo_minfo, 0 }, echo_w = { echo_wput, echo_wsrv, 0, 0, 0, &echo_minfo, 0 };
struct streamtab echoinfo = { &echo_r, &echo_w, 0, 0 };

/* ---- the modules pass and hold */

static struct module_info pass_minfo = { 2, "pass", 0, INFPSZ, 0, 0 }, hold_minfo = { 3, "hold", 0, INFPSZ, 8192, 2048 };
static struct qinit pass_q = { up, 0, 0, 0, 0, &pass_minfo, 0 };
struct streamtab passinfo = { &pass_q, &pass_q, 0, 0 };

static int hold_put(queue_t *q, mblk_t *mp)
{
	if (++hold_depth > hold_deepest)
		hold_deepest = hold_depth;
	if (mp->b_datap->db_type == M_FLUSH)
		flush_side(q, mp);
	if (mp->b_datap->db_type == M_SIG)
		qreply(q, mp);
	else if (queclass(mp) == QPCTL)
		putnext(q, mp);
	else
		putq(q, mp);
	hold_depth--;
	return 0;
}

static int hold_srv(queue_t *q)
{
	mblk_t *mp;

	while ((mp = getq(q)) != NULL) {
		if (queclass(mp) != QPCTL && !bcanputnext(q, mp->b_band)) {
			putbq(q, mp);
			break;
		}
		putnext(q, mp);
	}
	return 0;
}

static struct qinit hold_q = { hold_put, hold_srv, 0, 0, 0, &hold_minfo, 0 };
struct streamtab holdinfo = { &hold_q, &hold_q, 0, 0 };

/* ---- the module mixer */

static int is_holding;
static queue_t *mixer_q;
static bufcall_id_t mixer_wish;
static mblk_t *mixer_all[300];

static int mixer_open(queue_t *q, dev_t *device, int flag, int sflag, cred_t *credentials)
{
	(void)device, (void)flag, (void)sflag, (void)credentials;
	mixer_q = WR(q);
	is_holding = mixer_freed = mixer_ticks = 0;
	qprocson(q);
	return 0;
}

static int mixer_close(queue_t *q, int flag, cred_t *credentials)
{
	(void)flag, (void)credentials;
	qprocsoff(q);
	if (mixer_wish)
		unbufcall(mixer_wish);
	mixer_wish = 0;
	return 0;
}

static void was_freed(char *bytes)
{
	mixer_freed++;
	bytes[0] = 0;
}

static void tick(void *q)
{
	mixer_ticks++;
	qenable(q);
}

/* Bands change places: the last message becomes the first of the greatest band. */
static void swap(queue_t *q)
{
	mblk_t *mp = q->q_last;

	rmvq(q, mp);
	mp->b_band = q->q_first ? q->q_first->b_band : 0;
	insq(q, q->q_first, mp);
}

/* Sends a message with bytes of its own. */
static void lend(queue_t *q)
{
	static char bytes[] = "lent bytes";
	static frtn_t freed = { was_freed, bytes };
	mblk_t *mp = esballoc((uchar_t *)bytes, sizeof bytes, BPRI_MED, &freed);

	bytes[0] = 'l';
	mp->b_wptr += sizeof bytes;
	qreply(q, mp);
}

static void exclusive(queue_t *q, mblk_t *mp)
{
	struct iocblk *ioctl = (struct iocblk *)mp->b_rptr;

	if (mixer_depth > mixer_writer_depth)
		mixer_writer_depth = mixer_depth;
	mp->b_datap->db_type = M_IOCACK;
	ioctl->ioc_rval = qsize(q);
	ioctl->ioc_error = ioctl->ioc_count = 0;
	qreply(q, mp);
}

static void is_room(void *q)
{
	mixer_wish = 0;
	mixer_ticks++;
	qenable(q);
}

/* Uses up the large blocks, waits for one, and then frees all. */
static void await(queue_t *q)
{
	int count = 0;

	while (count < 300 && (mixer_all[count] = allocb(2049, BPRI_MED)) != NULL)
		count++;
	mixer_wish = qbufcall(q, 2049, BPRI_MED, is_room, q);
	while (count > 0)
		freemsg(mixer_all[--count]);
}

/* Puts the same again, with a command that has only its function of qwriter, which waits for both procedures. */
static void put_inside(queue_t *q, mblk_t *mp)
{
	mblk_t *copy = copymsg(mp);

	((struct iocblk *)copy->b_rptr)->ioc_cmd = HOLD | 0xff;
	mixer_depth++;
	put(q, copy);
	mixer_depth--;
}

static int mixer_wput(queue_t *q, mblk_t *mp)
{
	int command = mp->b_datap->db_type == M_IOCTL ? ((struct iocblk *)mp->b_rptr)->ioc_cmd : 0;

	if (queclass(mp) == QPCTL || (command && (command & ~0xff) != HOLD)) {
		putnext(q, mp);
		return 0;
	}
	switch (command) {
	case 0:
		putq(q, mp);
		return 0;
	case HOLD:
	case RELEASE:
		is_holding = command == HOLD;
		if (!is_holding)
			qenable(q);
		break;
	case SWAP:
		swap(q);
		break;
	case DROP_BAND:
		flushband(q, 1, FLUSHALL);
		break;
	case LEND:
		lend(q);
		break;
	case TICK:
		qtimeout(q, tick, q, 5);
		break;
	case AWAIT:
		await(q);
		break;
	case EXCLUSIVE:
		put_inside(q, mp);
		break;
	}
	mixer_depth++;
	qwriter(q, mp, exclusive, PERIM_INNER);
	mixer_depth--;
	return 0;
}

static int mixer_wsrv(queue_t *q)
{
	mblk_t *mp;

	while (!is_holding && (mp = getq(q)) != NULL) {
		if (!bcanputnext(q, mp->b_band)) {
			putbq(q, mp);
			break;
		}
		putnext(q, mp);
	}
	return 0;
}

static struct module_info mixer_minfo = { 4, "mixer", 0, INFPSZ, 4096, 1024 };
static struct qinit mixer_r = { up, 0, mixer_open, mixer_close, 0, &mixer_minfo, 0 }, mixer_w = { mixer_wput, mixer_wsrv, 0, 0, 0, &mixer_minfo, 0 };
struct streamtab mixerinfo = { &mixer_r, &mixer_w, 0, 0 };

/* ---- the driver sum: it copies in two ints, and copies out their sum */

static int sum_wput(queue_t *q, mblk_t *mp)
{
	struct iocblk *ioctl = (struct iocblk *)mp->b_rptr;
	struct copyreq *request = (struct copyreq *)mp->b_rptr;
	struct copyresp *response = (struct copyresp *)mp->b_rptr;
	static char *user;
	int *pair;

	if (mp->b_datap->db_type == M_IOCTL && ioctl->ioc_count == TRANSPARENT) {
		user = *(char **)mp->b_cont->b_rptr;
		freemsg(unlinkb(mp));
		mp->b_datap->db_type = M_COPYIN;
		request->cq_addr = user;
		request->cq_size = 2 * sizeof(int);
		request->cq_private = NULL;
		request->cq_flag = 0;
		mp->b_wptr = mp->b_rptr + sizeof *request;
	} else if (mp->b_datap->db_type == M_IOCDATA && response->cp_private == NULL) {
		pair = (int *)mp->b_cont->b_rptr;
		pair[0] += pair[1];
		mp->b_datap->db_type = M_COPYOUT;
		request->cq_addr = user;
		request->cq_size = sizeof(int);
		request->cq_private = mp;
		request->cq_flag = 0;
	} else if (mp->b_datap->db_type == M_IOCDATA) {
		mp->b_datap->db_type = M_IOCACK;
		ioctl->ioc_error = ioctl->ioc_count = 0;
		ioctl->ioc_rval = 42;
	} else {
		freemsg(mp);
		return 0;
	}
	qreply(q, mp);
	return 0;
}

static struct module_info sum_minfo = { 5, "sum", 0, INFPSZ, 1024, 128 };
static struct qinit sum_r = { up, 0, 0, 0, 0, &sum_minfo, 0 }, sum_w = { sum_wput, 0, 0, 0, 0, &sum_minfo, 0 };
struct streamtab suminfo = { &sum_r, &sum_w, 0, 0 };
