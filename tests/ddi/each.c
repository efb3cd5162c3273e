/* Tested, not proved: runs the modules of modules.c over ddi, and checks what comes of each routine. `each order` makes only the calls of which a trace
 * is made; `each stop` prints what a stop at a service queue takes. */
#include "modules.h"

#include <strm_ddi.h>

#include <errno.h>
#include <stdio.h>
#include <stdlib.h>
#include <string.h>
#include <time.h>
#include <unistd.h>

static int passed, failed;

#define CHECK(what) ((what) ? (void)passed++ : (void)(failed++, printf("%s:%d: not %s\n", __FILE__, __LINE__, #what)))

static unsigned char frame[8192], back[8192];

/* A stream with this many modules, before the driver that echoes. */
static strhead_t *opened(int modules)
{
	strhead_t *head = NULL;

	CHECK(str_open(&echoinfo, 0, 0, &head) == 0);
	for (int k = 0; k < modules; k++)
		CHECK(str_push(head, &holdinfo) == 0);
	return head;
}

static int comes_back(strhead_t *head, size_t size)
{
	size_t count;

	return str_write(head, frame, size) == 0 && str_read(head, back, sizeof back, &count) == 0 && count == size && memcmp(frame, back, size) == 0;
}

static int value_of(strhead_t *head, int command)
{
	int value = -1;

	return str_ioctl(head, command, NULL, NULL, 0, &value) == 0 ? value : -1;
}

/* Reads a message as text. */
static const char *text_of(strhead_t *head)
{
	size_t count;

	if (str_read(head, back, sizeof back - 1, &count) != 0)
		return "none";
	back[count] = 0;
	return (const char *)back;
}

static void send_band(strhead_t *head, const char *text, int band)
{
	CHECK(str_putmsg(head, NULL, 0, text, strlen(text), 0, band) == 0);
}

static void test_messages(void)
{
	static const struct strm_class_spec nine[9] = { { 1, 1 } };
	static const struct strm_config too_many = { .mblks = 1, .classes = nine, .class_count = 9 };
	uchar_t own[2000];
	frtn_t none = { 0 };
	mblk_t *mp, *copy, *rest;

	(void)none;
	CHECK(str_init(&too_many) == EINVAL);
	CHECK(str_init(NULL) == 0);
	CHECK(allocb(4097, BPRI_MED) == NULL);
	CHECK(esballoc(own, 5000, BPRI_MED, NULL) == NULL);
	CHECK(testb(4096, BPRI_MED) && !testb(4097, BPRI_MED));
	mp = allocb(10, BPRI_MED);
	memcpy(mp->b_wptr, "0123456789", 10);
	mp->b_wptr += 10;
	CHECK(msgdsize(mp) == 10 && mp->b_datap->db_ref == 1);
	copy = dupmsg(mp);
	CHECK(mp->b_datap->db_ref == 2 && copy->b_datap == mp->b_datap);
	linkb(mp, copy);
	CHECK(msgdsize(mp) == 20 && adjmsg(mp, -12) && adjmsg(mp, 1) && msgdsize(mp) == 7 && !adjmsg(mp, 8) && !adjmsg(mp, -8));
	rest = copymsg(mp);
	CHECK(rest && rest->b_datap != mp->b_datap && msgdsize(rest) == 7 && memcmp(rest->b_rptr, "1234567", 7) == 0);
	freemsg(rest);
	rest = msgpullup(mp, -1);
	CHECK(rest && MBLKL(rest) == 7);
	freemsg(rest);
	CHECK(unlinkb(mp) == copy && unlinkb(mp) == NULL);
	mp->b_datap->db_base[4] = 'x';
	CHECK(copy->b_datap->db_base[4] == 'x');
	CHECK(rmvb(mp, copy) == (mblk_t *)-1);
	linkb(copy, mp);
	CHECK(rmvb(copy, copy) == mp);
	linkb(copy, mp);
	CHECK(rmvb(copy, mp) == copy);
	copy->b_wptr = copy->b_rptr + 3;
	linkb(mp, copy);
	CHECK(pullupmsg(mp, 9) && MBLKL(mp) == 9 && MBLKL(copy) == 1 && memcmp(mp->b_rptr, "123x56701", 9) == 0 && *copy->b_rptr == '2');
	CHECK(DB_REF(mp) == 1 && DB_REF(copy) == 1);
	CHECK(pullupmsg(mp, -1) && !mp->b_cont && MBLKL(mp) == 10 && !pullupmsg(mp, 11));
	freemsg(mp);
	mp = esballoc(own, sizeof own, BPRI_MED, NULL);
	memset(mp->b_wptr, 'a', sizeof own);
	mp->b_wptr += sizeof own;
	copy = copyb(mp);
	CHECK(copy && MBLKL(copy) == sizeof own && memcmp(copy->b_rptr, own, sizeof own) == 0 && mp->b_rptr == own);
	mp->b_rptr = mp->b_wptr - 3;
	copy->b_wptr = copy->b_rptr + 2;
	linkb(mp, copy);
	own[sizeof own - 1] = 'z';
	CHECK(pullupmsg(mp, -1) && MBLKL(mp) == 5 && memcmp(mp->b_rptr, "aazaa", 5) == 0 && !mp->b_cont);
	freeb(mp);
	CHECK(str_fini() == 0);
}

/* Messages that were taken off are put back where they were. */
static void test_put_back(queue_t *q)
{
	mblk_t *first = getq(q), *second = getq(q), *third = getq(q), *other = copymsg(third);

	CHECK(getq(q) == NULL && !q->q_first && !q->q_last && q->q_count == 0);
	putq(q, other);
	putbq(q, second);
	putbq(q, third);
	putbq(q, first);
	CHECK(q->q_first == first && first->b_next == second && second->b_next == third && third->b_next == other && q->q_last == other);
	CHECK(!first->b_prev && other->b_prev == third && q->q_count == 8);
	rmvq(q, other);
	freemsg(other);
	CHECK(getq(q) == first && (putbq(q, first), q->q_first) == first && q->q_last == third);
}

/* Puts a message of a size and a band on a queue. */
static void fill(queue_t *q, size_t size, int band)
{
	mblk_t *mp = allocb(size, BPRI_MED);

	mp->b_wptr += size;
	mp->b_band = (uchar_t)band;
	putq(q, mp);
}

/* A band is full from its high water mark on, and no other one is then. */
static void test_full(void)
{
	strhead_t *head = str_init(NULL) == 0 ? opened(0) : NULL;
	queue_t *q;

	q = WR(str_queue(head, 1));
	CHECK(getq(q) == NULL);
	CHECK(strqset(q, QLOWAT, 0, 10) == 0 && strqset(q, QHIWAT, 0, 100) == 0);
	CHECK(strqset(q, QLOWAT, 1, 0) == 0 && strqset(q, QHIWAT, 1, 10) == 0);
	fill(q, 99, 0);
	CHECK(canput(q));
	fill(q, 10, 1);
	CHECK(canput(q) && !bcanput(q, 1) && bcanput(q, 2));
	fill(q, 1, 0);
	CHECK(!canput(q) && !bcanput(q, 1) && bcanput(q, 2));
	flushq(q, FLUSHALL);
	CHECK(canput(q) && bcanput(q, 1) && str_close(head) == 0 && str_fini() == 0);
}

static void test_order(void)
{
	static const struct strm_class_spec classes[] = { { 64, 40 }, { 4096, 4 } };
	static const struct strm_config config = { .mblks = 60, .classes = classes, .class_count = 2, .bufcalls = 2 };
	strhead_t *head;
	mblk_t *mp;
	size_t count;

	CHECK(str_init(&config) == 0);
	CHECK(str_open(&echoinfo, 0, 0, &head) == 0 && str_push(head, &mixerinfo) == 0);
	CHECK(value_of(head, HOLD) == 0);
	send_band(head, "zero", 0);
	send_band(head, "one", 1);
	send_band(head, "two", 2);
	send_band(head, "one more", 1);
	CHECK(value_of(head, RELEASE) == 4);
	CHECK(strcmp(text_of(head), "two") == 0 && strcmp(text_of(head), "one") == 0 && strcmp(text_of(head), "one more") == 0);
	CHECK(strcmp(text_of(head), "zero") == 0 && strcmp(text_of(head), "none") == 0);
	CHECK(value_of(head, HOLD) == 0);
	send_band(head, "zero", 0);
	send_band(head, "one", 1);
	send_band(head, "two", 2);
	mp = str_queue(head, 1)[1].q_first;
	CHECK(mp && mp->b_band == 2 && mp->b_next->b_band == 1 && mp->b_next->b_next->b_band == 0 && !mp->b_next->b_next->b_next && !mp->b_prev);
	CHECK(str_queue(head, 1)[1].q_last == mp->b_next->b_next && str_queue(head, 1)[1].q_count == 4);
	test_put_back(str_queue(head, 1) + 1);
	CHECK(value_of(head, SWAP) == 3 && value_of(head, DROP_BAND) == 2 && mixer_writer_depth == 0);
	CHECK(value_of(head, RELEASE) == 2 && strcmp(text_of(head), "zero") == 0 && strcmp(text_of(head), "two") == 0);
	CHECK(value_of(head, LEND) == 0 && mixer_freed == 0 && strcmp(text_of(head), "lent bytes") == 0 && mixer_freed == 1);
	CHECK(value_of(head, EXCLUSIVE) == 0 && mixer_writer_depth == 0);
	CHECK(value_of(head, TICK) == 0 && str_run() == 0 && mixer_ticks == 0);
	CHECK(str_wait(4) == 0 && str_wait(1) == 2 && mixer_ticks == 1);
	CHECK(value_of(head, AWAIT) == 0);
	str_run();
	CHECK(mixer_ticks == 2);
	CHECK(str_ioctl(head, 'x' << 8, NULL, NULL, 0, NULL) == EINVAL);
	CHECK(str_read(head, back, sizeof back, &count) == EAGAIN && testb(64, BPRI_MED) && !testb(4097, BPRI_MED));
	CHECK(str_pop(head) == 0 && str_pop(head) == EINVAL && str_close(head) == 0 && str_fini() == 0);
}

static void test_flow(void)
{
	strhead_t *head = str_init(NULL) == 0 ? opened(0) : NULL;
	int sent, came, way;
	size_t count;
	mblk_t *mp;

	for (way = 0; way < 3; way++) {
		if (way > 0)
			CHECK(str_push(head, way == 1 ? &passinfo : &holdinfo) == 0);
		CHECK(str_putmsg(head, "p", 1, NULL, 0, M_PCPROTO, 0) == 0);
		CHECK((mp = str_getmsg(head)) != NULL && queclass(mp) == QPCTL);
		freemsg(mp);
		CHECK(comes_back(head, 1) && comes_back(head, 4096) && comes_back(head, 8000));
		echo_is_stopped = 1;
		for (sent = 0; str_write(head, frame, 504) == 0 && sent < 100; sent++)
			;
		CHECK(sent > 10 && sent < 40);
		echo_is_stopped = 0;
		qenable(WR(str_queue(head, way + 1)));
		str_run();
		CHECK(qsize(str_queue(head, 0)) > 0 && qsize(WR(str_queue(head, way + 1))) > 0);
		for (came = 0; str_read(head, back, sizeof back, &count) == 0; came++)
			CHECK(count == 504);
		CHECK(came == sent);
		echo_is_stopped = 1;
		str_write(head, frame, 504);
		str_run();
		CHECK(qsize(WR(str_queue(head, way + 1))) == 1);
		CHECK(putctl1(str_queue(head, 0)[1].q_next, M_FLUSH, FLUSHRW) && (str_run(), qsize(WR(str_queue(head, way + 1)))) == 0);
		echo_is_stopped = 0;
	}
	CHECK(str_close(head) == 0 && str_fini() == 0);
}

/* Streams with more queues than a pool has, between which messages pass in both directions and flow control holds. */
static void test_many_queues(void)
{
	strhead_t *head = str_init(NULL) == 0 ? opened(40) : NULL;
	int sent, came, modules = 40;
	size_t count;
	mblk_t *mp;

	for (size_t k = 0; k < sizeof frame; k++)
		frame[k] = (unsigned char)(k * 7);
	CHECK(comes_back(head, 1) && comes_back(head, 1500) && comes_back(head, 8192));
	echo_is_stopped = 1;
	for (sent = 0; str_write(head, frame, 1500) == 0 && sent < 1000; sent++)
		;
	CHECK(sent > modules && sent < 300);
	echo_is_stopped = 0;
	qenable(WR(str_queue(head, modules + 1)));
	for (came = 0; str_read(head, back, sizeof back, &count) == 0; came++)
		CHECK(count == 1500 && memcmp(frame, back, 1500) == 0);
	CHECK(came == sent);
	mp = allocb(100, BPRI_MED);
	memcpy(mp->b_wptr, "header and data", 15);
	mp->b_rptr += 11;
	mp->b_wptr += 15;
	put(str_queue(head, 1) + 1, mp);
	CHECK((mp = str_getmsg(head)) != NULL && MBLKHEAD(mp) == 11 && MBLKL(mp) == 4 && memcmp(mp->b_rptr - 11, "header and data", 15) == 0);
	freemsg(mp);
	mp = esballoc(back, 3000, BPRI_MED, NULL);
	memcpy(back, "bytes elsewhere", 15);
	mp->b_wptr += 15;
	put(str_queue(head, 1) + 1, mp);
	CHECK((mp = str_getmsg(head)) != NULL && MBLKL(mp) == 15 && mp->b_rptr != back && memcmp(mp->b_rptr, "bytes elsewhere", 15) == 0);
	freemsg(mp);
	CHECK(str_close(head) == 0 && str_fini() == 0);
}

static void send_signal(strhead_t *head)
{
	mblk_t *mp = allocb(1, BPRI_MED);

	mp->b_datap->db_type = M_SIG;
	put(str_queue(head, 1) + 1, mp);
}

static char order[8];

static void note(void *letter)
{
	strcat(order, letter);
}

/* A queue has what a module changed of a chain through pointers; a flush frees more messages than are taken at once; timeouts come in order. */
static void test_queue(void)
{
	strhead_t *head = NULL;
	queue_t *q;
	mblk_t *mp, *last;
	size_t count = 0;

	CHECK(str_init(NULL) == 0 && str_open(&echoinfo, 0, 0, &head) == 0);
	q = WR(str_queue(head, 1));
	mp = allocb(10, BPRI_MED);
	for (int k = 0; k < 3; k++)
		linkb(mp, allocb(10, BPRI_MED));
	last = mp->b_cont->b_cont;
	mp->b_cont->b_wptr += 7;
	last->b_rptr += 2;
	last->b_wptr += 5;
	last->b_datap->db_type = M_PROTO;
	putq(q, mp);
	CHECK(strqget(q, QCOUNT, 0, &count) == 0 && count == 10 && q->q_count == 10);
	CHECK(getq(q) == mp && strqget(q, QCOUNT, 0, &count) == 0 && count == 0 && q->q_count == 0 && DB_TYPE(last) == M_PROTO);
	last = copymsg(mp);
	CHECK(last && MBLKHEAD(last->b_cont->b_cont) == 2 && MBLKL(last->b_cont->b_cont) == 3 && DB_TYPE(last->b_cont->b_cont) == M_PROTO);
	freemsg(last);
	freemsg(mp);
	for (int k = 0; k < 300; k++) {
		mp = allocb(1, BPRI_MED);
		mp->b_band = (uchar_t)(k % 2);
		putq(q, mp);
	}
	flushband(q, 1, FLUSHALL);
	CHECK(qsize(q) == 150 && q->q_first->b_band == 0);
	flushq(q, FLUSHALL);
	CHECK(qsize(q) == 0 && !q->q_first && q->q_count == 0);
	timeout(note, "c", 5);
	timeout(note, "a", 2);
	timeout(note, "b", 2);
	CHECK(str_wait(9) == 4 && strcmp(order, "abc") == 0);
	CHECK(strqset(q, QMAXPSZ, 0, 100) == 0 && str_write(head, frame, 250) == 0 && qsize(q) == 3);
	flushq(q, FLUSHALL);
	CHECK(str_close(head) == 0 && str_fini() == 0);
}

static int resting_fails, resting_ran;

static int resting_wsrv(queue_t *q)
{
	resting_ran++;
	if (resting_fails && allocb(5000, BPRI_MED) == NULL)
		qtimeout(q, note, "d", 1);
	return 0;
}

/* A service procedure may leave messages: with a timeout if an allocb failed in it, or if none did, whatever failed before. */
static void test_rest(void)
{
	static struct module_info minfo = { 6, "resting", 0, INFPSZ, 1024, 128 };
	static struct qinit side = { .qi_putp = putq, .qi_srvp = resting_wsrv, .qi_minfo = &minfo };
	static struct streamtab resting = { &side, &side, 0, 0 };
	strhead_t *head = NULL;

	CHECK(str_init(NULL) == 0 && str_open(&resting, 0, 0, &head) == 0);
	resting_fails = 1;
	CHECK(str_write(head, frame, 1) == 0 && str_run() == 1 && str_wait(1) == 1 && resting_ran == 1);
	resting_fails = 0;
	qenable(WR(str_queue(head, 1)));
	CHECK(str_run() == 1 && resting_ran == 2);
	flushq(WR(str_queue(head, 1)), FLUSHALL);
	CHECK(str_close(head) == 0 && str_fini() == 0);
}

static void test_perimeter(void)
{
	strhead_t *head = NULL;

	CHECK(str_init(NULL) == 0 && str_open(&suminfo, 0, 0, &head) == 0 && str_push(head, &holdinfo) == 0 && str_push(head, &holdinfo) == 0);
	hold_deepest = 0;
	send_signal(head);
	CHECK(hold_depth == 0 && hold_deepest == 1);
	CHECK(str_close(head) == 0 && (head = opened(2)) != NULL);
	for (int flag = D_MP; flag <= D_MTPERMOD; flag += D_MTPERMOD - D_MP) {
		str_flag(&holdinfo, flag);
		hold_deepest = 0;
		putctl(str_queue(head, 1) + 1, M_START);
		CHECK(hold_depth == 0 && hold_deepest == (flag == D_MP ? 2 : 1));
		str_run();
	}
	str_flag(&holdinfo, D_MP);
	while (str_getmsg(head) != NULL)
		;
	CHECK(str_close(head) == 0);
	str_fini();
}

static void test_copying(void)
{
	strhead_t *head = NULL;
	int pair[2] = { 30, 12 }, value = 0;

	CHECK(str_init(NULL) == 0 && str_open(&suminfo, 0, 0, &head) == 0);
	CHECK(str_ioctl_transparent(head, 1, pair, &value) == 0 && value == 42 && pair[0] == 42);
	CHECK(str_close(head) == 0 && str_fini() == 0);
}

static double nanoseconds(void)
{
	struct timespec now;

	clock_gettime(CLOCK_PROCESS_CPUTIME_ID, &now);
	return (double)now.tv_sec * 1e9 + (double)now.tv_nsec;
}

enum { MESSAGES = 96, PAIRS = 8001 };

/* How long messages of 64 bytes take through service procedures and back, in bursts. */
static double time_of(strhead_t *head, int burst)
{
	double start = nanoseconds();

	for (int k = 0; k < MESSAGES; k++) {
		if (str_write(head, frame, 64) != 0)
			abort();
		for (size_t b = 0, count; k % burst == burst - 1 && b < (size_t)burst; b++)
			if (str_read(head, back, sizeof back, &count) != 0 || count != 64)
				abort();
	}
	return nanoseconds() - start;
}

static int by_size(const void *one, const void *other)
{
	return (*(const double *)one > *(const double *)other) - (*(const double *)one < *(const double *)other);
}

/* Three modules more are six stops more. At times the machine has half its speed, for both lines. So this takes pairs of short runs, and the median by
 * which the longer line takes longer, as a part of the shorter one's time. From that line's fastest runs, without the few that a clock makes too fast,
 * comes the time. */
static void print_stops(void)
{
	static double shorter[2][PAIRS], more[2][PAIRS];
	strhead_t *one = str_init(NULL) == 0 ? opened(1) : NULL, *four = opened(4);

	for (int k = 0; k < 2 * PAIRS; k++) {
		double *took = &shorter[k % 2][k / 2];

		*took = time_of(one, k % 2 ? 16 : 1);
		more[k % 2][k / 2] = time_of(four, k % 2 ? 16 : 1) / *took - 1;
		if (k % 100 == 0)
			usleep(20000);
	}
	for (int k = 0; k < 2; k++) {
		qsort(shorter[k], PAIRS, sizeof shorter[k][0], by_size);
		qsort(more[k], PAIRS, sizeof more[k][0], by_size);
		printf(k ? "%.1f ns in bursts of 16\n" : "a stop takes %.1f ns, ", more[k][PAIRS / 2] * shorter[k][PAIRS / 500] / MESSAGES / 6);
	}
	CHECK(str_close(one) == 0 && str_close(four) == 0 && str_fini() == 0);
}

int main(int count, char **words)
{
	if (count > 1 && strcmp(words[1], "stop") == 0) {
		print_stops();
		return failed > 0;
	}
	if (count > 1) {
		test_order();
		return failed > 0;
	}
	test_messages();
	test_full();
	test_order();
	test_flow();
	test_many_queues();
	test_queue();
	test_rest();
	test_perimeter();
	test_copying();
	printf("%d passed, %d failed\n", passed, failed);
	return failed > 0;
}
