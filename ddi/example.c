/* For testing modules in user space; tested, not proved. A module that makes letters large, with a bug, and its test (docs/MODULES.md). */
#include <strm_ddi.h>
#include <sys/stream.h>

static int upper_wput(queue_t *q, mblk_t *mp)
{
	if (mp->b_datap->db_type == M_FLUSH && *mp->b_rptr & FLUSHW)
		flushq(q, FLUSHDATA);
	if (mp->b_datap->db_type == M_DATA)
		putq(q, mp);
	else
		putnext(q, mp);
	return 0;
}

static int upper_wsrv(queue_t *q)
{
	mblk_t *mp;
	uchar_t *at;

	while ((mp = getq(q)) != NULL) {
		if (!canputnext(q)) {
			putbq(q, mp);
			return 0;
		}
		if (msgdsize(mp) == 0)
			freemsg(mp);
		for (at = mp->b_rptr; at < mp->b_wptr; at++)
			if (*at >= 'a' && *at <= 'z')
				*at += 'A' - 'a';
		putnext(q, mp);
	}
	return 0;
}

static int pass(queue_t *q, mblk_t *mp)
{
	putnext(q, mp);
	return 0;
}

static int echo(queue_t *q, mblk_t *mp)
{
	qreply(q, mp);
	return 0;
}

static struct module_info upper_minfo = { 1, "upper", 0, INFPSZ, 4096, 1024 }, echo_minfo = { 2, "echo", 0, INFPSZ, 4096, 1024 };
static struct qinit upper_rinit = { .qi_putp = pass, .qi_minfo = &upper_minfo };
static struct qinit upper_winit = { .qi_putp = upper_wput, .qi_srvp = upper_wsrv, .qi_minfo = &upper_minfo };
static struct qinit echo_rinit = { .qi_putp = pass, .qi_minfo = &echo_minfo }, echo_winit = { .qi_putp = echo, .qi_minfo = &echo_minfo };
static struct streamtab upperinfo = { &upper_rinit, &upper_winit, 0, 0 }, echoinfo = { &echo_rinit, &echo_winit, 0, 0 };

int main(void)
{
	strhead_t *head;
	char bytes[8];
	size_t count;

	str_init(NULL);
	str_open(&echoinfo, 0, 0, &head);
	str_push(head, &upperinfo);
	str_write(head, "lion", 4);
	str_read(head, bytes, sizeof bytes, &count);
	str_write(head, "", 0);
	str_read(head, bytes, sizeof bytes, &count);
	str_close(head);
	return str_fini();
}
