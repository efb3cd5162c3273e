/* The programs that tests/trace traces, each after the line that names it. Tested, not proved. */

/* ---- rich: A pool that has something of all that is shown, and what a debugger is to show of it. */
#include <strm.h>
#include <strm_trace.h>
#include <stdlib.h>
#include <string.h>
static const struct strm_class_spec classes[] = { { 16, 9 }, { 64, 3 } };
static const struct strm_queue_spec queues[] = { { 64, 16, 1, 1 }, { 8, 2, 0, STRM_NO_QUEUE } };
struct strm_pool pool;
struct strm_msg held, other, queued, copy, none;
static void show(void)
{
	struct strm_queued at; struct strm_block_info info; struct strm_block_place where; struct strm_queue_spec spec; uint32_t place, size;

	for (place = 0; place < 2; place++) {
		strm_block(&pool, held, place, &info);
		strm_place(&pool, held, place, &where);
	}
	strm_size(&pool, held, &size);
	strm_queued_at(&pool, 1, 0, &at);
	strm_queue_spec(&pool, 0, &spec);
}
int main(int count, char **words)
{
	struct strm_config config = { 7, 20, classes, 2, queues, 2, 4, 5 };
	uint32_t yes, id;

	strm_open(&pool, &config);
	strm_trace_label(&pool, 0, none, "upper");
	strm_allocb(&pool, 4, &held);
	strm_trace_label(&pool, STRM_NO_QUEUE, held, "request 1");
	strm_write(&pool, held, 0, "tick", 4);
	strm_allocb(&pool, 20, &other);
	strm_reserve(&pool, other, 0, 3);
	strm_write(&pool, other, 0, "tail\n", 5);
	strm_linkb(&pool, held, other);
	strm_allocb(&pool, 10, &queued);
	strm_write(&pool, queued, 0, "0123456789", 10);
	strm_setband(&pool, queued, 3);
	strm_settype(&pool, queued, 0, STRM_M_PROTO);
	strm_dupb(&pool, queued, &copy);
	strm_putq(&pool, 1, queued);
	strm_bcanput(&pool, 1, 3, &yes);
	strm_report(&pool, NULL, 0);
	strm_qenable(&pool, 0);
	strm_bufcall(&pool, 60, &id);
	show();
	if (count > 1 && strcmp(words[1], "abort") == 0)
		abort();
	strm_close(&pool);
	return 3;
}

/* ---- many */
#include <strm.h>
#include <stdio.h>
#include <stdlib.h>
#include <string.h>
#include <sys/resource.h>
static const struct strm_class_spec classes[] = { { 16, 40 } };
static const struct strm_queue_spec queues[] = { { 64, 16, 1, STRM_NO_QUEUE } };
int main(int count, char **words)
{
	struct strm_config config = { 7, 40, classes, 1, queues, 1, 4, 5 };
	struct strm_pool pool = STRM_POOL_INIT;
	struct rusage used;
	struct strm_msg msg;
	int round;

	strm_open(&pool, &config);
	for (round = 0; count > 1 && strcmp(words[1], "held") == 0 && round < 40; round++)
		strm_allocb(&pool, 4, &msg);
	for (round = 0; round < 500000 && (count == 1 || strcmp(words[1], "abort") == 0); round++) {
		strm_allocb(&pool, 4, &msg);
		strm_freemsg(&pool, msg);
	}
	getrusage(RUSAGE_SELF, &used);
	printf("%ld\n", used.ru_maxrss);
	fflush(stdout);
	if (count > 1 && strcmp(words[1], "abort") == 0)
		abort();
	return strm_close(&pool);
}

/* ---- heads: Calls that name queued messages by their first blocks. */
#include <strm.h>
static const struct strm_class_spec classes[] = { { 16, 20 } };
static const struct strm_queue_spec queues[] = { { 64, 16, 1, STRM_NO_QUEUE }, { 64, 16, 0, STRM_NO_QUEUE } };
int main(void)
{
	struct strm_config config = { 7, 20, classes, 1, queues, 2, 4, 5 };
	struct strm_pool pool = STRM_POOL_INIT;
	struct strm_msg msgs[8], out;
	int at;

	strm_open(&pool, &config);
	for (at = 0; at < 8; at++) {
		strm_allocb(&pool, 4, &msgs[at]);
		strm_write(&pool, msgs[at], 0, "01234567" + at, 1);
	}
	strm_setband(&pool, msgs[7], 2);
	strm_insq_at(&pool, 0, STRM_NO_HEAD, msgs[0]);
	strm_insq_at(&pool, 0, STRM_NO_HEAD, msgs[1]);
	strm_insq_at(&pool, 0, msgs[1].head, msgs[2]);
	strm_insq_at(&pool, 0, msgs[0].head, msgs[3]);
	strm_insq_at(&pool, 1, STRM_NO_HEAD, msgs[4]);
	strm_insq_at(&pool, 1, msgs[0].head, msgs[5]);	/* on the other queue */
	strm_insq_at(&pool, 0, msgs[6].head, msgs[5]);	/* on none */
	strm_insq_at(&pool, 2, msgs[0].head, msgs[5]);	/* no such queue */
	strm_insq_at(&pool, 0, STRM_NO_HEAD, msgs[7]);	/* of too great a rank */
	strm_insq_at(&pool, 0, msgs[1].head, msgs[7]);
	strm_insq_at(&pool, 0, msgs[3].head, msgs[7]);
	strm_insq_at(&pool, 0, msgs[0].head, msgs[3]);	/* no longer a name */
	strm_rmvq_msg(&pool, msgs[2].head, &out);
	strm_rmvq_msg(&pool, out.head, &out);
	strm_rmvq_msg(&pool, msgs[4].head, &out);
	strm_rmvq_msg(&pool, msgs[7].head, &out);
	strm_insq_at(&pool, 1, STRM_NO_HEAD, out);
	strm_rmvq_msg(&pool, 99, &out);
	strm_hold(&pool, 2, msgs[5]);
	strm_hold(&pool, 0, msgs[5]);	/* strm_putbq and strm_qenable */
	strm_close(&pool);
	return 0;
}

/* ---- served: Queues that strm_serve serves, of which some rest with messages of several blocks. */
#include <strm.h>
#include <stdio.h>
#include <string.h>
static const struct strm_class_spec classes[] = { { 16, 60 } };
static const struct strm_queue_spec queues[] = { { 64, 4, 1, 1 }, { 4, 1, 1, 2 }, { 4, 1, 0, STRM_NO_QUEUE } };
static struct strm_pool pool = STRM_POOL_INIT;
static struct strm_msg message(uint32_t band, uint32_t type)
{
	struct strm_msg msg, more;

	strm_allocb(&pool, 4, &msg);
	strm_write(&pool, msg, 0, "head", 4);
	strm_allocb(&pool, 4, &more);
	strm_write(&pool, more, 0, "data", 4);
	strm_settype(&pool, more, 0, STRM_M_PROTO);
	strm_linkb(&pool, msg, more);
	strm_setband(&pool, msg, band);
	strm_settype(&pool, msg, 0, type);
	return msg;
}
int main(int count, char **words)
{
	struct strm_config config = { 7, 60, classes, 1, queues, 3, 4, 5 };
	struct strm_msg msg, msgs[8];
	struct strm_service service;
	uint32_t held, queue;
	size_t length;

	strm_open(&pool, &config);
	strm_serve(&pool, 0, &service, NULL);
	printf("%d ", strm_serve(&pool, 0, &service, &msg));
	strm_putq(&pool, 1, message(0, STRM_M_DATA));
	strm_putq(&pool, 0, message(0, STRM_M_DATA));
	strm_putq(&pool, 0, message(0, STRM_M_DATA));
	for (held = 0; count > 1 && held < 24; held++)
		strm_allocb(&pool, 4, &msg);
	if (count > 1 && strcmp(words[1], "several") == 0)
		strm_getq_n(&pool, 1, msgs, 8, &length);
	while (strm_serve(&pool, 0, &service, &msg) == STRM_OK)
		strm_putq(&pool, service.next, msg);
	strm_putq(&pool, 0, message(2, STRM_M_PROTO));
	strm_putq(&pool, 0, message(0, STRM_M_PCPROTO));
	for (held = 0; strm_serve(&pool, held, &service, &msg) == STRM_OK; held = service.held + 1) {
		printf("%u.%u.%u ", (unsigned)service.queue, (unsigned)service.next, (unsigned)service.held);
		strm_hold(&pool, service.queue, msg);
	}
	while (strm_serve(&pool, 0, &service, &msg) == STRM_OK)
		strm_putq(&pool, service.next, msg);
	strm_qenable(&pool, 2);
	strm_putq(&pool, 0, message(5, STRM_M_DATA));
	while (strm_getq(&pool, 2, &msg) == STRM_OK)
		strm_freemsg(&pool, msg);
	while (strm_serve(&pool, 1, &service, &msg) == STRM_OK)
		strm_freemsg(&pool, msg);
	printf("%d\n", strm_next_service(&pool, &queue));
	strm_close(&pool);
	return 0;
}

/* ---- bursts: Bursts, of which the last returns too many messages for a script. */
#include <strm.h>
static const struct strm_class_spec classes[] = { { 16, 60 } };
static const struct strm_queue_spec queues[] = { { 64, 16, 1, STRM_NO_QUEUE } };
int main(void)
{
	struct strm_config config = { 7, 60, classes, 1, queues, 1, 4, 5 };
	struct strm_pool pool = STRM_POOL_INIT;
	struct strm_msg msgs[60];
	size_t count;
	int round;

	strm_open(&pool, &config);
	for (round = 0; round < 2; round++) {
		strm_allocb_n(&pool, 4, msgs, 20, &count);
		strm_putq_n(&pool, 0, msgs, 20, &count);
	}
	strm_getq_n(&pool, 0, msgs, 60, &count);
	return strm_close(&pool);
}

/* ---- shared: A block gets less of the data that it shares, and is refused more. Then it gets more: alone, or if there are words, still sharing. */
#include <strm.h>
#include <stdlib.h>
#include <string.h>
static const struct strm_class_spec classes[] = { { 16, 4 } };
static const struct strm_queue_spec queues[] = { { 64, 16, 1, STRM_NO_QUEUE } };
int main(int count, char **words)
{
	struct strm_config config = { 7, 4, classes, 1, queues, 1, 4, 5 };
	struct strm_block_shape less[] = { { 2, 1, STRM_M_DATA, 3 } }, more[] = { { 0, 4, STRM_M_DATA, 3 } };
	struct strm_pool pool = STRM_POOL_INIT;
	struct strm_msg msg, other;
	uint32_t bytes;

	strm_open(&pool, &config);
	strm_allocb(&pool, 4, &msg);
	strm_write(&pool, msg, 0, "abcd", 4);
	strm_dupb(&pool, msg, &other);
	strm_shape(&pool, other, 0, 1, 3);
	strm_msgdsize(&pool, other, &bytes);
	strm_shape(&pool, other, 0, 1, 16);
	strm_shape_all(&pool, other, less, 1);
	strm_msgdsize(&pool, other, &bytes);
	if (count == 1)
		strm_freemsg(&pool, msg);
	else if (strcmp(words[1], "queued") == 0)
		strm_putq(&pool, 0, msg);
	if (count > 2)
		strm_shape(&pool, other, 0, (uint32_t)atoi(words[2]), 2);
	else
		strm_shape_all(&pool, other, more, 1);
	strm_putq(&pool, 0, other);
	return strm_close(&pool);
}

/* ---- edited: Bytes that change through pointers between calls that do not show it. */
#include <strm.h>
#include <string.h>
static const struct strm_class_spec classes[] = { { 16, 4 } };
static const struct strm_queue_spec queues[] = { { 64, 16, 1, STRM_NO_QUEUE } };
int main(void)
{
	struct strm_config config = { 7, 4, classes, 1, queues, 1, 4, 5 };
	struct strm_pool pool = STRM_POOL_INIT;
	struct strm_msg one, other;
	uint8_t *in_one, *in_other, into[16];
	size_t length;

	strm_open(&pool, &config);
	strm_allocb(&pool, 4, &one);
	strm_write(&pool, one, 0, "abcd", 4);
	strm_allocb(&pool, 4, &other);
	strm_write(&pool, other, 0, "efgh", 4);
	strm_edit(&pool, one, 0, &in_one, &length);
	memcpy(in_one, "AB", 2);
	strm_read(&pool, one, 0, into, sizeof into, &length);
	strm_window(&pool, other, 0, &in_other, &length);
	memcpy(in_other, "EFGHI", 5);
	memcpy(in_one + 2, "CD", 2);
	strm_read(&pool, one, 0, into, sizeof into, &length);
	strm_read(&pool, other, 0, into, sizeof into, &length);
	memcpy(in_one, "1234", 4);
	strm_putq(&pool, 0, other);
	strm_freemsg(&pool, one);
	strm_getq(&pool, 0, &other);
	strm_read(&pool, other, 0, into, sizeof into, &length);
	return strm_close(&pool);
}

/* ---- ends: Many calls, and an end of the kind that is named; or as many in 16 threads, of which two share a pool. */
#include <strm.h>
#include <pthread.h>
#include <signal.h>
#include <stdio.h>
#include <stdlib.h>
#include <string.h>
#include <sys/wait.h>
#include <unistd.h>
static const struct strm_class_spec classes[] = { { 16, 40 } };
static const struct strm_queue_spec queues[] = { { 64, 16, 1, STRM_NO_QUEUE } };
static struct strm_pool pools[8];
static pthread_mutex_t locks[8];
static void call(struct strm_pool *pool, pthread_mutex_t *lock, int rounds)
{
	struct strm_msg msg;

	for (; rounds > 0; rounds--) {
		pthread_mutex_lock(lock);
		strm_allocb(pool, 4, &msg);
		pthread_mutex_unlock(lock);
		pthread_mutex_lock(lock);
		strm_freemsg(pool, msg);
		pthread_mutex_unlock(lock);
	}
}
static void *work(void *pool)
{
	call(pool, &locks[(struct strm_pool *)pool - pools], 5000);
	return NULL;
}
static void *leave(void *pool)
{
	work(pool);
	exit(5);
}
int main(int count, char **words)
{
	struct strm_config config = { 7, 40, classes, 1, queues, 1, 4, 5 };
	const char *how = count > 1 ? words[1] : "close";
	pthread_t threads[16];
	int number;

	for (number = 0; number < (strcmp(how, "threads") == 0 ? 8 : 1); number++) {
		pthread_mutex_init(&locks[number], NULL);
		strm_open(&pools[number], &config);
	}
	if (strcmp(how, "wait") == 0) {
		puts("ready");
		fflush(stdout);
		getchar();
	}
	if (strcmp(how, "threads") == 0) {
		for (number = 0; number < 16; number++)
			pthread_create(&threads[number], NULL, work, &pools[number % 8]);
		for (number = 0; number < 16; number++)
			pthread_join(threads[number], NULL);
		return 0;
	}
	call(pools, locks, 30000);
	if (strcmp(how, "segv") == 0)
		raise(SIGSEGV);
	if (strcmp(how, "kill") == 0)
		kill(getpid(), SIGKILL);
	if (strcmp(how, "_exit") == 0)
		_exit(5);
	if (strcmp(how, "exec") == 0)
		execlp("true", "true", (char *)0);
	if (strcmp(how, "thread") == 0) {
		pthread_create(threads, NULL, leave, pools);
		pause();
	}
	if (strcmp(how, "fork") == 0) {
		if (fork() == 0) {
			work(pools);
			return 0;
		}
		wait(NULL);
		work(pools);
	}
	return 0;
}

/* ---- forms: Numbers, bytes, codes and addresses of all kinds, with the lines that they are to have by printf. */
#include <strm.h>
#include <stdio.h>
static const struct strm_class_spec classes[] = { { 64, 9 } };
static const struct strm_queue_spec queues[] = { { 64, 16, 1, STRM_NO_QUEUE } };
static const uint32_t numbers[] = { 0, 9, 10, 99, 100, 101, 999, 1000, 1001, 10010, 99999, 100000, 999999, 1000000, 1000999, 4294967295u };
static struct strm_pool pool;
static struct strm_msg msg;
static void write_bytes(const unsigned char *bytes, int count)
{
	int place;

	strm_allocb(&pool, 64, &msg);
	printf("strm_allocb(pool 1, 64) = STRM_OK %u.%llu\nstrm_write(pool 1, %u.%llu, 0, \"", msg.head, (unsigned long long)msg.stamp, msg.head,
		(unsigned long long)msg.stamp);
	strm_write(&pool, msg, 0, bytes, (size_t)count);
	for (place = 0; place < count && place < 32; place++)
		printf(bytes[place] < 32 || bytes[place] > 126 || bytes[place] == '"' || bytes[place] == 92 ? "\\x%02x" : "%c", bytes[place]);
	printf("\"%s, %d) = STRM_OK\n", count > 32 ? ".." : "", count);
	strm_freemsg(&pool, msg);
	printf("strm_freemsg(pool 1, %u.%llu) = STRM_OK\n", msg.head, (unsigned long long)msg.stamp);
}
int main(void)
{
	struct strm_config config = { 7, 9, classes, 1, queues, 1, 4, 5 };
	unsigned char bytes[256];
	const uint8_t *at;
	size_t length;
	uint32_t yes, place;

	strm_open(&pool, &config);
	for (place = 0; place < 256; place++)
		bytes[place] = (unsigned char)place;
	for (place = 0; place < sizeof numbers / sizeof numbers[0]; place++) {
		strm_testb(&pool, numbers[place], &yes);
		printf("strm_testb(pool 1, %u) = STRM_OK %u\n", numbers[place], yes);
		strm_adjmsg(&pool, msg, (int32_t)numbers[place]);
		printf("strm_adjmsg(pool 1, none, %d) = STRM_INVALID\n", (int32_t)numbers[place]);
	}
	for (place = 0; place + 16 <= 256; place += 8)
		write_bytes(bytes + place, 16);
	for (place = 0; place < 64; place++)
		write_bytes((const unsigned char *)"how many of these are shown, and what is after them? That is it." + place, (int)(64 - place));
	for (place = 0; place < 2000; place++)
		write_bytes(bytes, 0);
	strm_allocb(&pool, 64, &msg);
	printf("strm_allocb(pool 1, 64) = STRM_OK %u.%llu\n", msg.head, (unsigned long long)msg.stamp);
	strm_bytes(&pool, msg, 0, &at, &length);
	printf("strm_bytes(pool 1, %u.%llu, 0) = STRM_OK %p %lu\n", msg.head, (unsigned long long)msg.stamp, (const void *)at, (unsigned long)length);
	strm_close(&pool);
	return 0;
}
