/* Tested, not proved: a module that misuses messages in one of the ways below, between a stream head and drivers of modules.c. The number of the
 * way is the program's argument. `ways` beside each says what ddi is to report; without an argument this prints the number of ways. */
#include "modules.h"

#include <strm_ddi.h>

#include <stdio.h>
#include <stdlib.h>

enum {
	PASSES_FREED, FREES_TWICE, FREES_QUEUED, FREES_PASSED, PUTS_TWICE, CHANGES_SHARED_TYPE, SETS_REFERENCES, WRITES_PAST, FORGETS, IGNORES_FLOW_CONTROL,
	LOSES_ENABLE, FORGETS_BUFCALL, PUTS_PRIORITY_BACK, READS_FREED, FREES_OTHER_MEMORY, LEAVES_TIMEOUT, ENTERS_TWICE, RELINKS_QUEUED, FREES_OTHER_SIZE,
	REMOVES_OTHER, LINKS_TO_ITSELF, LINKS_QUEUED, FREES_LINKED, LINKS_A_RING, LEAVES_ARGUMENT, LINKS_A_LATER_RING, QUEUES_A_RING, COUNTS_A_RING,
	LINKS_TO_A_RING, REMOVES_FROM_A_RING, COUNTS_FREED, WAYS
};
static const char *const ways[WAYS] = {
	"putnext: the message block is free", "freemsg: the message block is free", "freemsg: the message is on a queue, of echo write",
	"freemsg: the message was passed on, to keeper", "putq: the message is on a queue, of faulty write",
	"putq: db_type was changed to M_PROTO, and 2 message blocks refer to the data block", "freemsg: db_ref is 2, and 1 message blocks refer to the data block",
	"putq: b_rptr is 0, b_wptr is 65, and the data block has 64 bytes", "message block 1 is left, M_DATA of 30 bytes",
	"putnext: band 0 of echo is full: a service procedure asks canputnext before",
	"close: messages are left on the queue of faulty write: nothing was to enable it",
	"allocb: it failed, and the service procedure left messages without a bufcall, a timeout or a qenable",
	"putbq: a service procedure that puts high priority back is enabled for ever", "a fault in faulty write put", "is no message block",
	"timeout: it waits, and faulty is closed", "mutex_enter: the mutex is held since", "getq: b_cont was changed while the message was on a queue",
	"kmem_free: 16 bytes are freed, and 8 were allocated", "rmvq: the message is not on the queue", "linkb: the message is linked to itself",
	"getq: b_cont was changed while the message was on a queue", "putnext: the message block is free",
	"putnext: b_cont leads to a block of the message", "timeout: it waits, and faulty is closed", "putnext: b_cont leads to a block of the message",
	"putq: b_cont leads to a block of the message", "msgdsize: b_cont leads to a block of the message",
	"linkb: b_cont leads to a block of the message", "rmvb: b_cont leads to a block of the message", "msgdsize: the message block is free"
};

static int way;
static mblk_t *kept, *all[600];
static kmutex_t mutex;

static int up(queue_t *q, mblk_t *mp)
{
	putnext(q, mp);
	return 0;
}

static void tick(void *q)
{
	qenable(q);
}

/* Links two copies after a message, of which the last one leads to the other. */
static mblk_t *link_later_ring(mblk_t *mp)
{
	linkb(mp, copymsg(mp));
	linkb(mp, copyb(mp));
	mp->b_cont->b_cont->b_cont = mp->b_cont;
	return mp;
}

static int faulty_wput(queue_t *q, mblk_t *mp)
{
	static mblk_t own;
	mblk_t *copy;

	switch (way) {
	case PASSES_FREED:
		freemsg(mp);
		putnext(q, mp);
		break;
	case FREES_TWICE:
		freemsg(mp);
		copy = allocb(64, BPRI_MED);
		freemsg(mp);
		freemsg(copy);
		break;
	case FREES_QUEUED:
	case FREES_PASSED:
		putnext(q, mp);
		freemsg(mp);
		break;
	case PUTS_TWICE:
		noenable(q);
		putq(q, mp);
		putq(q, mp);
		break;
	case CHANGES_SHARED_TYPE:
		copy = dupmsg(mp);
		mp->b_datap->db_type = M_PROTO;
		putnext(q, mp);
		freemsg(copy);
		break;
	case SETS_REFERENCES:
		mp->b_datap->db_ref++;
		freemsg(mp);
		break;
	case WRITES_PAST:
		mp->b_wptr = mp->b_datap->db_lim + 1;
		putnext(q, mp);
		break;
	case FORGETS:
		copy = copymsg(mp);
		(void)copy;
		putnext(q, mp);
		break;
	case PUTS_PRIORITY_BACK:
		mp->b_datap->db_type = M_PCPROTO;
		putq(q, mp);
		break;
	case READS_FREED:
		freemsg(mp);
		if (*mp->b_rptr == 0)
			kept = mp;
		break;
	case FREES_OTHER_MEMORY:
		freemsg(mp);
		freeb(&own);
		break;
	case LEAVES_TIMEOUT:
		qtimeout(q, tick, NULL, 10);
		freemsg(mp);
		break;
	case LEAVES_ARGUMENT:
		timeout(tick, q, 10);
		freemsg(mp);
		break;
	case ENTERS_TWICE:
		freemsg(mp);
		mutex_enter(&mutex);
		mutex_enter(&mutex);
		break;
	case RELINKS_QUEUED:
		copy = allocb(8, BPRI_MED);
		linkb(mp, copy);
		noenable(q);
		putq(q, mp);
		mp->b_cont = NULL;
		getq(q);
		freemsg(mp);
		break;
	case LINKS_QUEUED:
		copy = allocb(8, BPRI_MED);
		noenable(q);
		putq(q, mp);
		mp->b_cont = copy;
		freemsg(getq(q));
		freemsg(copy);
		break;
	case FREES_LINKED:
		linkb(mp, copymsg(mp));
		freeb(mp->b_cont);
		putnext(q, mp);
		break;
	case LINKS_A_RING:
		linkb(mp, copymsg(mp));
		mp->b_cont->b_cont = mp;
		putnext(q, mp);
		break;
	case LINKS_A_LATER_RING:
		putnext(q, link_later_ring(mp));
		break;
	case QUEUES_A_RING:
		putq(q, link_later_ring(mp));
		break;
	case COUNTS_A_RING:
		msgdsize(link_later_ring(mp));
		break;
	case LINKS_TO_A_RING:
		linkb(link_later_ring(mp), allocb(8, BPRI_MED));
		break;
	case REMOVES_FROM_A_RING:
		rmvb(link_later_ring(mp), allocb(8, BPRI_MED));
		break;
	case COUNTS_FREED:
		linkb(mp, copymsg(mp));
		freeb(mp->b_cont);
		msgdsize(mp);
		break;
	case FREES_OTHER_SIZE:
		kmem_free(kmem_alloc(8, KM_SLEEP), 16);
		freemsg(mp);
		break;
	case REMOVES_OTHER:
		rmvq(q, mp);
		freemsg(mp);
		break;
	case LINKS_TO_ITSELF:
		linkb(mp, mp);
		freemsg(mp);
		break;
	default:
		putq(q, mp);
	}
	return 0;
}

static int faulty_wsrv(queue_t *q)
{
	mblk_t *mp = getq(q), *copy;

	switch (way) {
	case IGNORES_FLOW_CONTROL:
		for (; mp; mp = getq(q))
			putnext(q, mp);
		break;
	case FORGETS_BUFCALL:
		if ((copy = allocb(64, BPRI_MED)) == NULL) {
			putbq(q, mp);
		} else {
			freemsg(copy);
			putnext(q, mp);
		}
		break;
	case PUTS_PRIORITY_BACK:
		putbq(q, mp);
		noenable(q);
		flushq(q, FLUSHALL);
		break;
	default:
		if (mp)
			putnext(q, mp);
	}
	return 0;
}

static int keeper_wput(queue_t *q, mblk_t *mp)
{
	(void)q;
	kept = mp;
	return 0;
}

static struct module_info faulty_minfo = { 10, "faulty", 0, INFPSZ, 4096, 1024 }, keeper_minfo = { 11, "keeper", 0, INFPSZ, 4096, 1024 };
static struct qinit faulty_r = { .qi_putp = up, .qi_minfo = &faulty_minfo };
static struct qinit faulty_w = { .qi_putp = faulty_wput, .qi_srvp = faulty_wsrv, .qi_minfo = &faulty_minfo };
static struct qinit keeper_r = { .qi_putp = up, .qi_minfo = &keeper_minfo }, keeper_w = { .qi_putp = keeper_wput, .qi_minfo = &keeper_minfo };
static struct streamtab faulty = { .st_rdinit = &faulty_r, .st_wrinit = &faulty_w }, keeper = { .st_rdinit = &keeper_r, .st_wrinit = &keeper_w };

/* Takes all small blocks that there are. */
static int take_all(void)
{
	int count = 0;

	while (count < 600 && (all[count] = allocb(64, BPRI_MED)) != NULL)
		count++;
	return count;
}

int main(int count, char **words)
{
	static const struct strm_class_spec class = { 64, 400 };
	static const struct strm_config config = { .mblks = 400, .classes = &class, .class_count = 1, .bufcalls = 4 };
	strhead_t *head;
	char bytes[64] = "hello";
	int taken = 0, found;

	if (count < 2) {
		printf("%d\n", WAYS);
		return 0;
	}
	way = atoi(words[1]);
	puts(ways[way]);
	fflush(stdout);
	str_init(&config);
	echo_is_stopped = way == FREES_QUEUED || way == IGNORES_FLOW_CONTROL;
	str_open(way == FREES_PASSED ? &keeper : &echoinfo, 0, 0, &head);
	str_push(head, &faulty);
	str_write(head, bytes, 30);
	for (int k = 0; (way == IGNORES_FLOW_CONTROL && k < 300) || (way == LOSES_ENABLE && k < 3); k++)
		str_write(head, bytes, 30);
	if (way == FORGETS_BUFCALL)
		taken = take_all();
	if (way != PUTS_TWICE)
		str_run();
	while (taken > 0)
		freemsg(all[--taken]);
	if (echo_is_stopped) {
		echo_is_stopped = 0;
		qenable(str_queue(head, 2) + 1);
	}
	if (kept)
		freemsg(kept);
	for (mblk_t *mp; (mp = str_getmsg(head)) != NULL;)
		freemsg(mp);
	str_close(head);
	found = str_fini();
	printf("%d found\n", found);
	return found > 0 ? 0 : 1;
}
