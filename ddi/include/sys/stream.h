/* For testing modules in user space; tested, not proved. What a STREAMS module sees of a kernel: <sys/stream.h>, and <sys/stropts.h>, <sys/ddi.h>,
 * <sys/kmem.h> and the like, which are this file. ROUTINES.md says which routines there are. */
#ifndef STRM_DDI_STREAM_H
#define STRM_DDI_STREAM_H

#include <stddef.h>
#include <sys/types.h>

typedef unsigned char uchar_t;
typedef unsigned short ushort_t;
typedef unsigned int uint_t, minor_t, major_t;
typedef unsigned long ulong_t;
typedef int boolean_t, bufcall_id_t, timeout_id_t;
typedef struct cred cred_t;
typedef struct queue queue_t;

/* ---- Messages. A module reads and writes these fields as in a kernel; the pool learns of it at the next routine that needs it. */

typedef struct free_rtn {
	void (*free_func)(char *);
	char *free_arg;
} frtn_t;
typedef struct datab {
	frtn_t *db_frtnp;
	uchar_t *db_base, *db_lim;
	uchar_t db_ref, db_type;
} dblk_t;
typedef struct msgb {
	struct msgb *b_next, *b_prev, *b_cont;
	uchar_t *b_rptr, *b_wptr;
	dblk_t *b_datap;
	uchar_t b_band;
	ushort_t b_flag;
} mblk_t;

enum { QNORM = 0x00, QPCTL = 0x80 };
enum {
	M_DATA, M_PROTO, M_BREAK = 0x08, M_PASSFP, M_EVENT, M_SIG, M_DELAY, M_CTL, M_IOCTL, M_SETOPTS = 0x10, M_RSE,
	M_IOCACK = 0x81, M_IOCNAK, M_PCPROTO, M_PCSIG, M_READ, M_FLUSH, M_STOP, M_START, M_HANGUP, M_ERROR, M_COPYIN, M_COPYOUT, M_IOCDATA,
	M_PCRSE, M_STOPI, M_STARTI, M_PCEVENT = 0x93, M_UNHANGUP, M_CMD
};
#define queclass(mp) ((mp)->b_datap->db_type >= QPCTL ? QPCTL : QNORM)
#define datamsg(type) ((type) == M_DATA || (type) == M_PROTO || (type) == M_PCPROTO || (type) == M_DELAY)
#define pcmsg(type) ((type) >= QPCTL)
#define DB_BASE(mp) ((mp)->b_datap->db_base)
#define DB_LIM(mp) ((mp)->b_datap->db_lim)
#define DB_REF(mp) ((mp)->b_datap->db_ref)
#define DB_TYPE(mp) ((mp)->b_datap->db_type)
#define MBLKL(mp) ((mp)->b_wptr - (mp)->b_rptr)
#define MBLKSIZE(mp) ((mp)->b_datap->db_lim - (mp)->b_datap->db_base)
#define MBLKHEAD(mp) ((mp)->b_rptr - (mp)->b_datap->db_base)
#define MBLKTAIL(mp) ((mp)->b_datap->db_lim - (mp)->b_wptr)
#define MBLKIN(mp, from, length) ((from) <= MBLKL(mp) && (mp)->b_rptr + (from) + (length) <= (mp)->b_wptr)
#define OFFSET(mp, at) ((at) - (mp)->b_rptr)

/* ---- Modules and queues. Fields of a queue are read, and q_ptr, q_minpsz and q_maxpsz written. */

struct module_info {
	ushort_t mi_idnum;
	char *mi_idname;
	ssize_t mi_minpsz, mi_maxpsz;
	size_t mi_hiwat, mi_lowat;
};
struct qinit {
	int (*qi_putp)(queue_t *, mblk_t *);
	int (*qi_srvp)(queue_t *);
	int (*qi_qopen)(queue_t *, dev_t *, int, int, cred_t *);
	int (*qi_qclose)(queue_t *, int, cred_t *);
	int (*qi_qadmin)(void);
	struct module_info *qi_minfo;
	void *qi_mstat;
};
struct streamtab {
	struct qinit *st_rdinit, *st_wrinit, *st_muxrinit, *st_muxwinit;
};
struct queue {
	struct qinit *q_qinfo;
	mblk_t *q_first, *q_last;
	queue_t *q_next;
	void *q_ptr;
	size_t q_count;			/* bytes of band 0 and of high priority */
	uint_t q_flag;			/* QREADR alone; strqget of QFLAG returns all */
	ssize_t q_minpsz, q_maxpsz;
	size_t q_hiwat, q_lowat;
	struct strm_ddi_queue *q_layer;
};
enum { QENAB = 0x01, QWANTR = 0x02, QWANTW = 0x04, QFULL = 0x08, QREADR = 0x10, QNOENB = 0x40 };
#define RD(q) ((q)->q_flag & QREADR ? (q) : (q) - 1)
#define WR(q) ((q)->q_flag & QREADR ? (q) + 1 : (q))
#define OTHERQ(q) ((q)->q_flag & QREADR ? (q) + 1 : (q) - 1)
#define _RD RD
#define _WR WR
#define _OTHERQ OTHERQ
#define SAMESTR(q) ((q)->q_next && !(((q)->q_next->q_flag ^ (q)->q_flag) & QREADR))

typedef enum qfields { QHIWAT, QLOWAT, QMAXPSZ, QMINPSZ, QCOUNT, QFIRST, QLAST, QFLAG, QBAD } qfields_t;
enum { BPRI_LO = 1, BPRI_MED, BPRI_HI };
enum { FLUSHDATA, FLUSHALL };
enum { FLUSHR = 1, FLUSHW, FLUSHRW, FLUSHBAND };
enum { MODOPEN = 1, CLONEOPEN, CONSOPEN = 4 };
#define OPENFAIL (-1)
#define INFPSZ (-1)
enum { STRHIGH = 5120, STRLOW = 1024 };

/* ---- Messages of the stream head */

#define TRANSPARENT ((uint_t)-1)
struct iocblk {
	int ioc_cmd;
	cred_t *ioc_cr;
	uint_t ioc_id, ioc_flag;
	size_t ioc_count;
	int ioc_rval, ioc_error;
};
struct copyreq {
	int cq_cmd;
	cred_t *cq_cr;
	uint_t cq_id, cq_flag;
	mblk_t *cq_private;
	char *cq_addr;
	size_t cq_size;
};
struct copyresp {
	int cp_cmd;
	cred_t *cp_cr;
	uint_t cp_id, cp_flag;
	mblk_t *cp_private;
	char *cp_rval;
};
struct linkblk {
	queue_t *l_qtop, *l_qbot;
	int l_index;
};
struct stroptions {
	uint_t so_flags;
	short so_readopt;
	ushort_t so_wroff;
	ssize_t so_minpsz, so_maxpsz;
	size_t so_hiwat, so_lowat;
	uchar_t so_band;
};
enum { SO_READOPT = 0x01, SO_WROFF = 0x02, SO_MINPSZ = 0x04, SO_MAXPSZ = 0x08, SO_HIWAT = 0x10, SO_LOWAT = 0x20, SO_BAND = 0x1000 };
#define I_LINK ('S' << 8 | 014)
#define I_UNLINK ('S' << 8 | 015)
#define I_PLINK ('S' << 8 | 026)
#define I_PUNLINK ('S' << 8 | 027)

/* ---- Routines */

mblk_t *allocb(size_t size, uint_t priority), *esballoc(uchar_t *base, size_t size, uint_t priority, frtn_t *routine);
mblk_t *dupb(mblk_t *mp), *dupmsg(mblk_t *mp), *copyb(mblk_t *mp), *copymsg(mblk_t *mp), *msgpullup(mblk_t *mp, ssize_t length);
mblk_t *unlinkb(mblk_t *mp), *rmvb(mblk_t *mp, mblk_t *bp), *getq(queue_t *q);
void freeb(mblk_t *mp), freemsg(mblk_t *mp), linkb(mblk_t *mp, mblk_t *tail), rmvq(queue_t *q, mblk_t *mp);
int pullupmsg(mblk_t *mp, ssize_t length), adjmsg(mblk_t *mp, ssize_t length), testb(size_t size, uint_t priority);
size_t msgdsize(mblk_t *mp);
int putq(queue_t *q, mblk_t *mp), putbq(queue_t *q, mblk_t *mp), insq(queue_t *q, mblk_t *before, mblk_t *mp), qsize(queue_t *q);
int bcanput(queue_t *q, uchar_t band), strqset(queue_t *q, qfields_t what, uchar_t band, long value);
int strqget(queue_t *q, qfields_t what, uchar_t band, void *value);
void qenable(queue_t *q), noenable(queue_t *q), enableok(queue_t *q), strm_ddi_flush(queue_t *q, int band, int flag);
queue_t *backq(queue_t *q);
void put(queue_t *q, mblk_t *mp), putnext(queue_t *q, mblk_t *mp);
int strm_ddi_putctl(queue_t *q, int type, int byte, int count);
void qwriter(queue_t *q, mblk_t *mp, void (*function)(), int scope), qwait(queue_t *q);
enum { PERIM_INNER = 1, PERIM_OUTER };
enum { D_MTQPAIR = 0x100, D_MTPERQ = 0x200, D_MTPERMOD = 0x400 };
#ifndef D_MP
#define D_MP 0x20
#endif
timeout_id_t qtimeout(queue_t *q, void (*function)(void *), void *argument, clock_t ticks);
clock_t untimeout(timeout_id_t id);
extern clock_t strm_ddi_now;		/* ticks, which grow as time passes */
bufcall_id_t qbufcall(queue_t *q, size_t size, uint_t priority, void (*function)(void *), void *argument);
void unbufcall(bufcall_id_t id);

enum { KM_SLEEP, KM_NOSLEEP };
void *kmem_alloc(size_t size, int flag);
void kmem_free(void *memory, size_t size);
void bcopy(const void *from, void *to, size_t size), bzero(void *memory, size_t size);
int bcmp(const void *one, const void *other, size_t size);
enum { CE_CONT, CE_NOTE, CE_WARN, CE_PANIC };
void cmn_err(int level, const char *format, ...);
enum { LBOLT = 1 };

/* ---- The file and the line of each call, for reports. A module that declares routines itself is compiled with -DSTRM_DDI_NO_LINES. */

extern const struct strm_ddi_place {
	const char *file;
	int line;
} *strm_ddi_at;
typedef const struct strm_ddi_place *kmutex_t;	/* where it was entered, or null */
enum { MUTEX_DEFAULT, MUTEX_DRIVER };
void mutex_enter(kmutex_t *mutex), mutex_exit(kmutex_t *mutex);
#ifndef STRM_DDI_NO_LINES
#define STRM_DDI_AT strm_ddi_at = __extension__({ static const struct strm_ddi_place at = { __FILE__, __LINE__ }; &at; })
#define allocb(size, priority) (STRM_DDI_AT, allocb(size, priority))
#define esballoc(base, size, priority, routine) (STRM_DDI_AT, esballoc(base, size, priority, routine))
#define freeb(mp) (STRM_DDI_AT, freeb(mp))
#define freemsg(mp) (STRM_DDI_AT, freemsg(mp))
#define dupb(mp) (STRM_DDI_AT, dupb(mp))
#define dupmsg(mp) (STRM_DDI_AT, dupmsg(mp))
#define copyb(mp) (STRM_DDI_AT, copyb(mp))
#define copymsg(mp) (STRM_DDI_AT, copymsg(mp))
#define msgpullup(mp, length) (STRM_DDI_AT, msgpullup(mp, length))
#define pullupmsg(mp, length) (STRM_DDI_AT, pullupmsg(mp, length))
#define adjmsg(mp, length) (STRM_DDI_AT, adjmsg(mp, length))
#define linkb(mp, tail) (STRM_DDI_AT, linkb(mp, tail))
#define unlinkb(mp) (STRM_DDI_AT, unlinkb(mp))
#define rmvb(mp, bp) (STRM_DDI_AT, rmvb(mp, bp))
#define msgdsize(mp) (STRM_DDI_AT, msgdsize(mp))
#define putq(q, mp) (STRM_DDI_AT, putq(q, mp))
#define putbq(q, mp) (STRM_DDI_AT, putbq(q, mp))
#define insq(q, before, mp) (STRM_DDI_AT, insq(q, before, mp))
#define getq(q) (STRM_DDI_AT, getq(q))
#define rmvq(q, mp) (STRM_DDI_AT, rmvq(q, mp))
#define put(q, mp) (STRM_DDI_AT, put(q, mp))
#define putnext(q, mp) (STRM_DDI_AT, putnext(q, mp))
#define qwriter(q, mp, function, scope) (STRM_DDI_AT, qwriter(q, mp, function, scope))
#define qtimeout(q, function, argument, ticks) (STRM_DDI_AT, qtimeout(q, function, argument, ticks))
#define qbufcall(q, size, priority, function, argument) (STRM_DDI_AT, qbufcall(q, size, priority, function, argument))
#define kmem_free(memory, size) (STRM_DDI_AT, kmem_free(memory, size))
#define mutex_enter(mutex) (STRM_DDI_AT, mutex_enter(mutex))
#define mutex_exit(mutex) (STRM_DDI_AT, mutex_exit(mutex))
#else
#define STRM_DDI_AT (void)0
#endif

/* Routines that are others here. */
#define canput(q) bcanput(q, 0)
#define bcanputnext(q, band) bcanput((q)->q_next, band)
#define canputnext(q) bcanput((q)->q_next, 0)
#define qreply(q, mp) putnext(OTHERQ(q), mp)
#define putctl(q, type) (STRM_DDI_AT, strm_ddi_putctl(q, type, 0, 0))
#define putctl1(q, type, byte) (STRM_DDI_AT, strm_ddi_putctl(q, type, byte, 1))
#define putnextctl(q, type) putctl((q)->q_next, type)
#define putnextctl1(q, type, byte) putctl1((q)->q_next, type, byte)
#define flushq(q, flag) (STRM_DDI_AT, strm_ddi_flush(q, -1, flag))
#define flushband(q, band, flag) (STRM_DDI_AT, strm_ddi_flush(q, (uchar_t)(band), flag))
#define appq(q, after, mp) insq(q, (after) ? (after)->b_next : (q)->q_first, mp)
#define allocb_wait(size, priority, flags, error) allocb(size, priority)
#define allocb_cred(size, credentials, pid) allocb(size, BPRI_MED)
#define esballoca esballoc
#define desballoc esballoc
#define desballoca esballoc
#define esbbcall(priority, function, argument) bufcall(0, priority, function, argument)
#define bufcall(size, priority, function, argument) qbufcall((queue_t *)0, size, priority, function, argument)
#define timeout(function, argument, ticks) qtimeout((queue_t *)0, function, argument, ticks)
#define quntimeout(q, id) untimeout(id)
#define qunbufcall(q, id) unbufcall(id)
#define qwait_sig(q) (qwait(q), 1)
#define drv_priv(credentials) 0
#define ddi_get_lbolt() strm_ddi_now
#define drv_getparm(what, value) ((what) == LBOLT ? (*(clock_t *)(value) = strm_ddi_now, 0) : -1)
#define getmajor(device) ((major_t)((device) >> 18))
#define getminor(device) ((minor_t)((device) & 0x3ffff))
#define makedevice(major, minor) ((dev_t)(major) << 18 | (minor))
#define drv_usectohz(microseconds) ((clock_t)((microseconds) / 10000))
#define drv_hztousec(ticks) ((clock_t)(ticks) * 10000)
#define kmem_zalloc kmem_alloc
#define mutex_init(mutex, name, type, argument) ((void)(*(mutex) = 0))
#define mutex_destroy(mutex) ((void)0)

/* Stubs: nothing else runs meanwhile. */
#define qprocson(q) ((void)(q))
#define qprocsoff(q) ((void)(q))
#define freezestr(q) ((void)(q))
#define unfreezestr(q) ((void)(q))
#define splstr() 0
#define splx(level) ((void)(level))
#define qassociate(q, instance) 0
#define strlog(...) 1
#endif
