/* For testing modules in user space; tested, not proved. Stream heads: streams are opened, pushed, linked and closed, and the test program sends and
 * receives through them as user programs do; and what a kernel has beside STREAMS. */
#include "ddi.h"

/* A pair of queues, with what the layer has of each. */
struct pair {
	queue_t q[2];
	struct strm_ddi_queue own[2];
};
struct strhead {
	struct pair pair;
	struct streamtab *driver;
	int error, is_hung_up;
	uint_t ioctl;			/* the one that waits, or 0 */
	ushort_t headroom;
	mblk_t *reply;
};

/* ---- the stream head's procedures */

static void set_options(queue_t *q, const struct stroptions *options)
{
	strhead_t *head = (strhead_t *)q;
	if (options->so_flags & SO_HIWAT)
		strqset(q, QHIWAT, options->so_flags & SO_BAND ? options->so_band : 0, (long)options->so_hiwat);
	if (options->so_flags & SO_LOWAT)
		strqset(q, QLOWAT, options->so_flags & SO_BAND ? options->so_band : 0, (long)options->so_lowat);
	if (options->so_flags & SO_MINPSZ)
		head->pair.q[1].q_minpsz = options->so_minpsz;
	if (options->so_flags & SO_MAXPSZ)
		head->pair.q[1].q_maxpsz = options->so_maxpsz;
	if (options->so_flags & SO_WROFF)
		head->headroom = options->so_wroff;
}

static void flush_head(queue_t *q, mblk_t *mp)
{
	int what = *mp->b_rptr;
	if (what & FLUSHR)
		strm_ddi_flush(q, what & FLUSHBAND ? mp->b_rptr[1] : -1, FLUSHALL);
	if (what & FLUSHW) {
		*mp->b_rptr &= (uchar_t)~FLUSHR;
		qreply(q, mp);
	} else {
		freemsg(mp);
	}
}

static int head_rput(queue_t *q, mblk_t *mp)
{
	strhead_t *head = (strhead_t *)q;
	int type = DB_TYPE(mp);
	if (type == M_DATA || type == M_PROTO || type == M_PCPROTO || type == M_PASSFP) {
		putq(q, mp);
	} else if (type == M_FLUSH) {
		flush_head(q, mp);
	} else if ((type == M_IOCACK || type == M_IOCNAK || type == M_COPYIN || type == M_COPYOUT) && !head->reply &&
		((struct iocblk *)mp->b_rptr)->ioc_id == head->ioctl) {
		head->reply = mp;
	} else {
		if (type == M_ERROR)
			head->error = *mp->b_rptr;
		else if (type == M_HANGUP || type == M_UNHANGUP)
			head->is_hung_up = type == M_HANGUP;
		else if (type == M_SETOPTS)
			set_options(q, (struct stroptions *)mp->b_rptr);
		freemsg(mp);
	}
	return 0;
}

static int head_wput(queue_t *q, mblk_t *mp)
{
	putnext(q, mp);
	return 0;
}

static struct module_info head_info = { 0, "head", 0, INFPSZ, STRHIGH, STRLOW };
static struct qinit head_rinit = { .qi_putp = head_rput, .qi_minfo = &head_info }, head_winit = { .qi_putp = head_wput, .qi_minfo = &head_info };

/* ---- opened, pushed and closed */

/* Has a pair of queues be those of a module, a driver or a stream head. What they lead to stays. */
static void set_pair(queue_t *q, struct qinit *read, struct qinit *write, struct streamtab *tab)
{
	ddi_forget(q);
	for (int side = 0; side < 2; side++) {
		struct strm_ddi_queue *own = &((struct pair *)q)->own[side];
		struct qinit *what = side ? write : read;
		const struct module_info *info = what->qi_minfo;
		*own = (struct strm_ddi_queue){ .tab = tab, .marks = ddi_marks(info->mi_hiwat, info->mi_lowat) };
		q[side] = (queue_t){ .q_qinfo = what, .q_next = q[side].q_next, .q_flag = side ? 0 : QREADR, .q_minpsz = info->mi_minpsz,
			.q_maxpsz = info->mi_maxpsz, .q_hiwat = own->marks.hiwat, .q_lowat = own->marks.lowat, .q_layer = own };
	}
	ddi_trace_queues(q);
}

static void connect_pairs(queue_t *above, queue_t *below)
{
	above[1].q_next = below;
	if (below)
		OTHERQ(below)->q_next = above;
}

static void take_out(strhead_t *head, queue_t *q)
{
	ddi_trace_close();
	connect_pairs(head->pair.q, q[1].q_next);
	ddi_forget(q);
	free(q);
}

/* Puts a pair of queues below the head, and opens it. */
static int put_in(strhead_t *head, struct streamtab *tab, dev_t device, int flag, int sflag)
{
	queue_t *q = calloc(1, sizeof(struct pair));
	struct frame frame;
	int error = 0;
	AT_HEAD();
	set_pair(q, tab->st_rdinit, tab->st_wrinit, tab);
	connect_pairs(q, head->pair.q[1].q_next);
	connect_pairs(head->pair.q, &q[1]);
	ddi_enter(&frame, q, "open");
	if (tab->st_rdinit->qi_qopen)
		error = tab->st_rdinit->qi_qopen(q, &device, flag, sflag, NULL);
	ddi_leave(&frame);
	if (error)
		take_out(head, q);
	return error;
}

int str_open(struct streamtab *driver, dev_t device, int flag, strhead_t **head)
{
	strhead_t *new = *head = calloc(1, sizeof **head);
	int error;
	new->driver = driver;
	set_pair(new->pair.q, &head_rinit, &head_winit, NULL);
	if ((error = put_in(new, driver, device, 0, flag)) != 0)
		free(new);
	return error;
}

int str_push(strhead_t *head, struct streamtab *module)
{
	return head->is_hung_up ? ENXIO : put_in(head, module, 0, 0, MODOPEN);
}

/* Closes the module or driver below the head. */
static void remove_top(strhead_t *head)
{
	queue_t *q = RD(head->pair.q[1].q_next);
	void *private = q->q_ptr;
	struct frame frame;
	str_run();
	ddi_check_left(&q[0]);
	ddi_check_left(&q[1]);
	ddi_enter(&frame, q, "close");
	if (q->q_qinfo->qi_qclose)
		q->q_qinfo->qi_qclose(q, 0, NULL);
	ddi_leave(&frame);
	ddi_check_pending(q, private);
	take_out(head, q);
}

int str_pop(strhead_t *head)
{
	if (!head->pair.q[1].q_next->q_next)
		return EINVAL;
	remove_top(head);
	return 0;
}

int str_close(strhead_t *head)
{
	while (head->pair.q[1].q_next)
		remove_top(head);
	ddi_forget(head->pair.q);
	free(head);
	return 0;
}

queue_t *str_queue(strhead_t *head, int place)
{
	queue_t *q = &head->pair.q[1];
	while (place-- > 0 && q)
		q = q->q_next;
	return q ? RD(q) : NULL;
}

/* ---- messages of the test program */

/* Appends the bytes to a message, or to none, in blocks as large as there are. Returns 0 if none is left; the message is freed then. */
static int append(mblk_t **first, int type, const void *bytes, size_t length, size_t headroom)
{
	mblk_t **last = first;
	while (*last)
		last = &(*last)->b_cont;
	do {
		size_t part = ddi_least(length, STRM_MOST_DATA_BYTES - headroom);
		if ((*last = allocb(part + headroom, BPRI_MED)) == NULL) {
			freemsg(*first);
			*first = NULL;
			return 0;
		}
		DB_TYPE(*last) = (uchar_t)type;
		(*last)->b_rptr += headroom;
		if (part > 0)
			memcpy((*last)->b_rptr, bytes, part);
		(*last)->b_wptr = (*last)->b_rptr + part;
		last = &(*last)->b_cont;
		bytes = (const char *)bytes + part;
		length -= part;
		headroom = 0;
	} while (length > 0);
	return 1;
}

int str_putmsg(strhead_t *head, const void *control, size_t control_length, const void *bytes, size_t length, int type, int band)
{
	queue_t *q = &head->pair.q[1];
	mblk_t *mp = NULL;
	AT_HEAD();
	if (type < QPCTL && (head->error || head->is_hung_up))
		return head->error ? head->error : ENXIO;
	if (type < QPCTL && !bcanputnext(q, (uchar_t)band) && (str_run(), !bcanputnext(q, (uchar_t)band)))
		return EAGAIN;
	if (control && !append(&mp, type, control, control_length, 0))
		return ENOSR;
	if ((bytes || !control) && !append(&mp, M_DATA, bytes, length, control ? 0 : head->headroom))
		return ENOSR;
	mp->b_band = (uchar_t)band;
	putnext(q, mp);
	return 0;
}

int str_write(strhead_t *head, const void *bytes, size_t length)
{
	const queue_t *below = head->pair.q[1].q_next;
	size_t most = below->q_maxpsz == INFPSZ ? length : (size_t)below->q_maxpsz, part;
	int error;
	if ((ssize_t)length < below->q_minpsz || (length > most && (below->q_minpsz > 0 || most == 0)))
		return ERANGE;
	do {
		part = ddi_least(length, most);
		error = str_putmsg(head, NULL, 0, bytes, part, M_DATA, 0);
		bytes = (const char *)bytes + part;
		length -= part;
	} while (!error && length > 0);
	return error;
}

mblk_t *str_getmsg(strhead_t *head)
{
	AT_HEAD();
	if (!head->pair.q[0].q_first)
		str_run();
	return getq(&head->pair.q[0]);
}

int str_read(strhead_t *head, void *into, size_t length, size_t *count)
{
	mblk_t *mp = str_getmsg(head), *rest;
	size_t left;
	*count = 0;
	if (!mp)
		return head->error ? head->error : head->is_hung_up ? 0 : EAGAIN;
	if (mp->b_datap->db_type != M_DATA) {
		putbq(&head->pair.q[0], mp);
		return EBADMSG;
	}
	left = *count = ddi_copy_out(mp, into, length);
	while (mp && left >= (size_t)MBLKL(mp)) {
		left -= (size_t)MBLKL(mp);
		rest = mp->b_cont;
		freeb(mp);
		mp = rest;
	}
	if (mp) {
		mp->b_rptr += left;
		putbq(&head->pair.q[0], mp);
	}
	return 0;
}

/* ---- ioctls */

/* Sends an M_IOCTL or M_IOCDATA down. Returns the reply, or null if none comes. */
static mblk_t *asked(strhead_t *head, mblk_t *mp)
{
	mblk_t *reply;
	putnext(&head->pair.q[1], mp);
	for (int ticks = 0; !head->reply && ticks <= PATIENCE; ticks++)
		if (str_run() == 0)
			str_wait(1);
	reply = head->reply;
	head->reply = NULL;
	AT_HEAD();
	return reply;
}

/* Answers an M_COPYIN or M_COPYOUT from memory, by an M_IOCDATA. */
static void answer_copy(mblk_t *mp)
{
	const struct copyreq request = *(struct copyreq *)mp->b_rptr;
	struct copyresp response = { .cp_cmd = request.cq_cmd, .cp_id = request.cq_id, .cp_private = request.cq_private };
	mblk_t *data = NULL;
	if (DB_TYPE(mp) == M_COPYOUT)
		ddi_copy_out(mp->b_cont, request.cq_addr, request.cq_size);
	else if (!append(&data, M_DATA, request.cq_addr, request.cq_size, 0))
		response.cp_rval = (char *)1;
	freemsg(unlinkb(mp));
	mp->b_cont = data;
	mp->b_datap->db_type = M_IOCDATA;
	memcpy(mp->b_rptr, &response, sizeof response);
	mp->b_wptr = mp->b_rptr + sizeof response;
}

/* Makes an ioctl with bytes, and copies those of its reply. If `count` is TRANSPARENT, M_COPYIN and M_COPYOUT are answered before that. */
static int do_ioctl(strhead_t *head, int command, const void *bytes, size_t length, uint_t count, void *reply, size_t *came, size_t room, int *value)
{
	static uint_t last;
	union { struct iocblk ioctl; struct copyreq request; struct copyresp response; } first = { .request = { 0 } };
	int error;
	mblk_t *mp = NULL;
	AT_HEAD();
	first.ioctl = (struct iocblk){ .ioc_cmd = command, .ioc_id = ++last, .ioc_count = count };
	head->ioctl = last;
	if (!append(&mp, M_IOCTL, &first, sizeof first, 0) || (length > 0 && !append(&mp, M_DATA, bytes, length, 0)))
		return ENOSR;
	while ((mp = asked(head, mp)) != NULL && count == TRANSPARENT && (DB_TYPE(mp) == M_COPYIN || DB_TYPE(mp) == M_COPYOUT))
		answer_copy(mp);
	head->ioctl = 0;
	if (came)
		*came = 0;
	if (!mp)
		return ETIME;
	first.ioctl = *(struct iocblk *)mp->b_rptr;
	error = first.ioctl.ioc_error ? first.ioctl.ioc_error : DB_TYPE(mp) == M_IOCACK ? 0 : EINVAL;
	if (value)
		*value = first.ioctl.ioc_rval;
	if (!error && came)
		*came = ddi_copy_out(mp->b_cont, reply, room);
	freemsg(mp);
	return error;
}

int str_ioctl(strhead_t *head, int command, void *bytes, size_t *length, size_t room, int *value)
{
	size_t count = length ? *length : 0;
	return do_ioctl(head, command, bytes, count, (uint_t)count, bytes, length, room, value);
}

int str_ioctl_transparent(strhead_t *head, int command, void *argument, int *value)
{
	return do_ioctl(head, command, &argument, sizeof argument, TRANSPARENT, NULL, NULL, 0, value);
}

/* ---- links */

static int change_link(strhead_t *upper, strhead_t *lower, int command)
{
	struct linkblk block = { .l_qtop = &upper->pair.q[1], .l_qbot = &lower->pair.q[1], .l_index = 1 };
	size_t length = sizeof block;
	while (block.l_qtop->q_next)
		block.l_qtop = block.l_qtop->q_next;
	return str_ioctl(upper, command, &block, &length, 0, NULL);
}

int str_link(strhead_t *upper, strhead_t *lower)
{
	int error;
	if (!upper->driver->st_muxrinit)
		return EINVAL;
	set_pair(lower->pair.q, upper->driver->st_muxrinit, upper->driver->st_muxwinit, upper->driver);
	if ((error = change_link(upper, lower, I_LINK)) != 0)
		set_pair(lower->pair.q, &head_rinit, &head_winit, NULL);
	return error;
}

int str_unlink(strhead_t *upper, strhead_t *lower)
{
	int error = change_link(upper, lower, I_UNLINK);
	if (!error)
		set_pair(lower->pair.q, &head_rinit, &head_winit, NULL);
	return error;
}

/* ---- the rest of a kernel */

/* Memory has its size before it. */
void *kmem_alloc(size_t size, UNUSED int flag)
{
	size_t *memory = calloc(1, size + 16);
	if (!memory)
		return NULL;
	*memory = size;
	return (char *)memory + 16;
}

void kmem_free(void *memory, size_t size)
{
	if (!memory)
		return;
	memory = (char *)memory - 16;
	if (*(size_t *)memory != size)
		ddi_misuse("kmem_free", NULL, "%zu bytes are freed, and %zu were allocated", size, *(size_t *)memory);
	free(memory);
}

void cmn_err(int level, const char *format, ...)
{
	va_list values;
	va_start(values, format);
	vfprintf(stderr, format, values);
	va_end(values);
	if (level == CE_PANIC)
		abort();
	if (level != CE_CONT)
		fputc('\n', stderr);
}

void mutex_enter(kmutex_t *mutex)
{
	if (*mutex)
		ddi_misuse("mutex_enter", NULL, "the mutex is held since %s:%d", (*mutex)->file, (*mutex)->line);
	*mutex = strm_ddi_at;
}

void mutex_exit(kmutex_t *mutex)
{
	if (!*mutex)
		ddi_misuse("mutex_exit", NULL, "the mutex is not held");
	*mutex = NULL;
}
