/* Tested, not proved: makes the calls of a script of strm with one section over ddi, and prints the replies and the report as strm does. So calls that
 * were recorded of real modules are made again, with their changes through pointers.
 *
 *     script FILE */
#include "../../ddi/src/ddi.h"

static struct strm_class_spec classes[STRM_MOST_CLASSES];
static struct strm_queue_spec specs[STRM_MOST_QUEUES];
static struct strm_config config;
static queue_t *queues[STRM_MOST_QUEUES];
static mblk_t *registers[26];
static char line[40000], *words[8];
static uchar_t bytes[64 * STRM_MOST_DATA_BYTES];
static int number, count;

static int nothing(queue_t *q, mblk_t *mp)
{
	(void)q, (void)mp;
	return 0;
}

static int serve(queue_t *q)
{
	for (int k = 0; k < (int)config.queue_count; k++)
		if (queues[k] == q)
			printf("queue %d\n", k);
	return 0;
}

/* Opens a stream for each queue, whose driver's write queue it is, and has them lead to each other. */
static void open_queues(void)
{
	static struct module_info infos[STRM_MOST_QUEUES];
	static struct qinit sides[STRM_MOST_QUEUES];
	static struct streamtab tabs[STRM_MOST_QUEUES];
	strhead_t *heads[STRM_MOST_QUEUES];

	str_init(&config);
	for (size_t k = 0; k < config.queue_count; k++) {
		infos[k] = (struct module_info){ 1, "queue", 0, INFPSZ, specs[k].hiwat, specs[k].lowat };
		sides[k] = (struct qinit){ .qi_putp = nothing, .qi_srvp = specs[k].service ? serve : NULL, .qi_minfo = &infos[k] };
		tabs[k] = (struct streamtab){ .st_rdinit = &sides[k], .st_wrinit = &sides[k] };
		str_open(&tabs[k], 0, 0, &heads[k]);
		queues[k] = WR(str_queue(heads[k], 1));
		RD(queues[k])->q_next = NULL;
	}
	for (size_t k = 0; k < config.queue_count; k++)
		if (specs[k].next != STRM_NO_QUEUE) {
			queues[k]->q_next = queues[specs[k].next];
			RD(queues[specs[k].next])->q_next = RD(queues[k]);
		}
}

static uint32_t value(int at)
{
	return at < count && words[at][0] != '-' ? (uint32_t)strtoul(words[at], NULL, 10) : at < count && words[at][1] ? (uint32_t)atoi(words[at]) :
		STRM_NO_QUEUE;
}

static void take_header(void)
{
	const char *word = words[0];

	if (strcmp(word, "pool") == 0)
		config.mblks = value(2);
	else if (strcmp(word, "class") == 0)
		classes[config.class_count++] = (struct strm_class_spec){ value(1), value(2) };
	else if (strcmp(word, "queue") == 0)
		specs[config.queue_count++] = (struct strm_queue_spec){ value(1), value(2), words[3][0] == 's', value(4) };
	else if (strcmp(word, "bufcalls") == 0)
		config.bufcalls = value(1);
}

static mblk_t **slot(int at)
{
	return &registers[words[at][0] - 'a'];
}

static mblk_t *block_of(mblk_t *mp, uint32_t place)
{
	while (mp && place-- > 0)
		mp = mp->b_cont;
	return mp;
}

static const char *written(mblk_t *bp, const char *hex)
{
	unsigned byte;

	if (!bp)
		return "refused 5 NoSuchBlock";
	if (DB_REF(bp) > 1)
		return "refused 6 Shared";
	if ((ptrdiff_t)strlen(hex) / 2 > MBLKTAIL(bp))
		return "refused 7 NoRoom";
	for (; sscanf(hex, "%2x", &byte) == 1 && hex[0] != '-'; hex += 2)
		*bp->b_wptr++ = (uchar_t)byte;
	return "ok";
}

static int type_of(const char *name)
{
	for (int type = 0; type < 256; type++)
		if (strcmp(ddi_type_name(type), name) == 0)
			return type;
	return 0;
}

static const char *typed(mblk_t *bp, int type)
{
	if (!bp)
		return "refused 5 NoSuchBlock";
	if (DB_REF(bp) > 1)
		return "refused 6 Shared";
	DB_TYPE(bp) = (uchar_t)type;
	return "ok";
}

static void show_bytes(size_t from, size_t size)
{
	fputs(from < size ? "bytes " : "bytes -", stdout);
	for (size_t at = from; at < size && at < from + 64; at++)
		printf("%02x", bytes[at]);
	puts("");
}

static void show_block(const mblk_t *bp)
{
	if (!bp)
		puts("refused 5 NoSuchBlock");
	else
		printf("block %s len=%td band=%d room=%td names=%d\n", ddi_type_name(DB_TYPE(bp)), MBLKL(bp), bp->b_band, MBLKTAIL(bp), DB_REF(bp));
}

/* The reply to a call that makes a message, or takes one off a queue. */
static const char *made(int at, mblk_t *mp, const char *otherwise)
{
	*slot(at) = mp;
	return mp ? "ok" : otherwise;
}

/* Why a message of `size` bytes in `blocks` blocks could not be made. */
static const char *why(size_t size, int blocks)
{
	struct strm_census census;

	strm_census(&ddi_pools[0].pool, &census);
	return size > classes[config.class_count - 1].size ? "refused 1 TooLarge" : census.free < (uint32_t)blocks ? "refused 2 NoMblk" : "refused 3 NoData";
}

static int blocks_in(const mblk_t *mp)
{
	int blocks = 0;

	for (; mp; mp = mp->b_cont)
		blocks++;
	return blocks;
}

/* Makes a call on messages. Returns its reply, null if it was printed, or empty if there is no such word. */
static const char *call_on_message(const char *word)
{
	mblk_t **at = slot(1), *mp = *at;

	if (strcmp(word, "allocb") == 0)
		return made(1, allocb(value(2), BPRI_MED), why(value(2), 1));
	if (strcmp(word, "write") == 0)
		return written(block_of(mp, value(2)), words[3]);
	if (strcmp(word, "settype") == 0)
		return typed(block_of(mp, value(2)), type_of(words[3]));
	if (strcmp(word, "setband") == 0)
		return mp->b_band = (uchar_t)value(2), "ok";
	if (strcmp(word, "adjmsg") == 0)
		return adjmsg(mp, (int32_t)value(2)) ? "ok" : "refused 8 Short";
	if (strcmp(word, "linkb") == 0)
		return linkb(mp, *slot(2)), *slot(2) = NULL, "ok";
	if (strcmp(word, "unlinkb") == 0)
		return made(2, unlinkb(mp), "none");
	if (strcmp(word, "freemsg") == 0)
		return *at = NULL, freemsg(mp), "ok";
	if (strcmp(word, "freeb") == 0)
		return *at = mp->b_cont, mp->b_cont = NULL, freeb(mp), "ok";
	if (strcmp(word, "dupmsg") == 0)
		return made(2, dupmsg(mp), why(0, blocks_in(mp)));
	if (strcmp(word, "copymsg") == 0)
		return made(2, copymsg(mp), why(0, blocks_in(mp)));
	if (strcmp(word, "pullupmsg") == 0)
		return pullupmsg(mp, (int32_t)value(2)) ? "ok" : "refused 8 Short";
	if (strcmp(word, "msgdsize") == 0)
		return printf("size %zu\n", msgdsize(mp)), NULL;
	if (strcmp(word, "size") == 0)
		return printf("size %zu\n", ddi_copy_out(mp, bytes, sizeof bytes)), NULL;
	if (strcmp(word, "read") == 0)
		return show_bytes(value(2), ddi_copy_out(mp, bytes, sizeof bytes)), NULL;
	if (strcmp(word, "block") == 0)
		return show_block(block_of(mp, value(2))), NULL;
	return "";
}

static const char *call_on_queue(const char *word)
{
	queue_t *q = value(1) < config.queue_count ? queues[value(1)] : queues[0];
	struct strm_census census;
	size_t hiwat, lowat;
	mblk_t *mp;

	if (strcmp(word, "putq") == 0 || strcmp(word, "putbq") == 0) {
		mp = *slot(2);
		*slot(2) = NULL;
		return (word[3] == 'q' ? putq(q, mp) : putbq(q, mp)) ? "ok" : "not put";
	}
	if (strcmp(word, "getq") == 0)
		return made(2, getq(q), "none");
	if (strcmp(word, "bcanput") == 0)
		return bcanput(q, (uchar_t)value(2)) ? "yes" : "no";
	if (strcmp(word, "flushq") == 0)
		return flushq(q, strcmp(words[2], "all") == 0 ? FLUSHALL : FLUSHDATA), "ok";
	if (strcmp(word, "qsize") == 0)
		return printf("size %d\n", qsize(q)), NULL;
	if (strcmp(word, "qenable") == 0)
		return qenable(q), "ok";
	if (strcmp(word, "noenable") == 0)
		return noenable(q), "ok";
	if (strcmp(word, "enableok") == 0)
		return enableok(q), "ok";
	if (strcmp(word, "service") == 0)
		return ddi_serve() ? NULL : "none";
	if (strcmp(word, "strqset") == 0)
		return strqset(q, QLOWAT, 0, 0), strqset(q, QHIWAT, (uchar_t)value(2), value(3)), strqset(q, QLOWAT, (uchar_t)value(2), value(4)), "ok";
	if (strcmp(word, "strqget") == 0) {
		strqget(q, QHIWAT, (uchar_t)value(2), &hiwat);
		strqget(q, QLOWAT, (uchar_t)value(2), &lowat);
		return printf("marks %zu %zu\n", hiwat, lowat), NULL;
	}
	if (strcmp(word, "census") == 0) {
		strm_census(&ddi_pools[0].pool, &census);
		return printf("census %u %u %u\n", census.free, census.queued, census.held), NULL;
	}
	return "";
}

static void make_call(void)
{
	const char *reply;

	printf("0:%d ", number);
	reply = call_on_queue(words[0]);
	if (reply && !*reply)
		reply = call_on_message(words[0]);
	if (reply)
		puts(*reply ? reply : "this word is not made here");
}

static void report(void)
{
	struct strm_queue_info info;
	struct strm_class_info class;
	struct strm_census census;
	int any = 0;

	strm_census(&ddi_pools[0].pool, &census);
	printf("blocks free=%u queued=%u held=%u total=%u\n", census.free, census.queued, census.held, config.mblks);
	for (uint32_t c = 0; strm_class_info(&ddi_pools[0].pool, c, &class) == STRM_OK; c++)
		printf("data size=%u free=%u total=%u\n", class.size, class.free, class.total);
	for (uint32_t k = 0; k < config.queue_count; k++) {
		qsize(queues[k]);
		strm_queue_info(&ddi_pools[0].pool, queues[k]->q_layer->number, &info);
		printf("queue %u msgs=%u bytes=%u read=%u noenable=%u enabled=%u\n", k, info.msgs, info.bytes, info.read,
			specs[k].service ? info.noenable : 0, specs[k].service ? info.enabled : 0);
	}
	fputs("run", stdout);
	for (uint32_t at = 0, queue; strm_run_at(&ddi_pools[0].pool, at, &queue) == STRM_OK; at++)
		for (uint32_t k = 0; k < config.queue_count; k++)
			if (queues[k]->q_layer->number == queue && specs[k].service)
				printf(" %u%n", k, &any);
	puts(any ? "\nwishes -" : " -\nwishes -");
}

int main(int argc, char **argv)
{
	FILE *file = argc == 2 ? fopen(argv[1], "r") : NULL;
	int is_open = 0;

	if (!file)
		return 2;
	config.classes = classes;
	for (number = 1; fgets(line, sizeof line, file); number++) {
		count = 0;
		for (char *word = strtok(line, " \n"); word && count < 8; word = strtok(NULL, " \n"))
			words[count++] = word;
		if (count == 0 || words[0][0] == '#')
			continue;
		if (strcmp(words[0], "worker") == 0) {
			open_queues();
			is_open = 1;
		} else if (is_open) {
			make_call();
		} else {
			take_header();
		}
	}
	report();
	return 0;
}
