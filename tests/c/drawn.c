/*
 * Draws calls, and has the pool of strm.h and the plain model do each. Compares their replies, and after each call all that both report.
 * Beside the pool there is another, with a model of its own, to which messages go, and from which they come back.
 *
 *     drawn CALLS SEED            compares. The last line is 'N passed, M failed', which counts pairs of pools. One more fails if an answer
 *                                 never came in a million calls.
 *     drawn CALLS SEED SCRIPT     writes a script of calls on one pool, and prints the model's replies, a line each, and the pool's report.
 *
 * With -DIN_ARRAY pools are in static arrays, with -DIN_HUGE_PAGE in huge pages.
 */
#if defined IN_HUGE_PAGE && !defined _GNU_SOURCE
#define _GNU_SOURCE
#endif
#include "face.h"
#include "model.h"

#include <stdlib.h>
#include <string.h>

/* The number of calls on a pair of pools. After every CALLS_TO_ALL_BANDS of them all bands of the drawn queue are compared, where the bytes
 * of messages are, and what calls report of messages on queues. After every CALLS_TO_ALL_MESSAGES all queues are emptied. */
#define CALLS_OF_A_POOL 20000
#define CALLS_TO_ALL_BANDS 16
#define CALLS_TO_ALL_MESSAGES 1000

/* Each answer of a row of CALLS must come within this number of calls. */
#define CALLS_TO_EACH_ANSWER 1000000

static const uint32_t drawn_bands[] = { 0, 0, 0, 1, 2, 7, 255 };
#define DRAWN_BANDS (sizeof drawn_bands / sizeof drawn_bands[0])

/* ---- dice: the same on every run with the same seed */

static uint64_t state;

static uint32_t below(uint32_t bound)
{
	state ^= state << 13;
	state ^= state >> 7;
	state ^= state << 17;
	return (uint32_t)((state >> 32) % bound);
}

/* ---- a pool */

/* The most message blocks and classes, and the most bytes of a data block. */
#define MOST_BLOCKS 400
#define MOST_CLASSES 3
#define MOST_SIZE 72

struct setup {
	struct strm_config config;
	struct strm_class_spec classes[MOST_CLASSES];
	struct strm_queue_spec queues[STRM_MOST_QUEUES];
	uint32_t band;		/* drawn often, besides drawn_bands */
};

/* Pools are small, so that each refusal comes, and now and then large. One queue in `chained`, on average, has no next queue. */
static void draw_setup(struct setup *setup, uint32_t id)
{
	uint32_t i, size = 0, chained = 1 + below(8), most = below(8) > 0 ? 40 : MOST_BLOCKS;

	setup->band = below(STRM_BANDS);
	setup->config.id = id;
	setup->config.mblks = 1 + below(most);
	setup->config.class_count = 1 + below(MOST_CLASSES);
	setup->config.queue_count = 1 + below(below(4) > 0 ? 5 : STRM_MOST_QUEUES);
	setup->config.bufcalls = below(5);
	setup->config.first_id = below(8) == 0 ? 4294967290u : 1 + below(100);
	setup->config.classes = setup->classes;
	setup->config.queues = setup->queues;
	for (i = 0; i < setup->config.class_count; i++) {
		size += 1 + below(MOST_SIZE / MOST_CLASSES);
		setup->classes[i].size = size;
		setup->classes[i].count = 1 + below(most / 2);
	}
	for (i = 0; i < setup->config.queue_count; i++) {
		setup->queues[i].hiwat = 1 + below(30);
		setup->queues[i].lowat = below(setup->queues[i].hiwat);
		setup->queues[i].service = below(3) > 0;
		setup->queues[i].next = i + 1 < setup->config.queue_count && below(chained) > 0 ? i + 1 : STRM_NO_QUEUE;
	}
}

/* ---- a call */

static uint32_t drawn_band(const struct setup *setup)
{
	return below(4) == 0 ? setup->band : drawn_bands[below(DRAWN_BANDS)];
}

/* Mostly a register that holds a message or none, as `holding` says; at times any. */
static int drawn_register(const struct model *model, int holding)
{
	int i, reg = (int)below(REGISTERS);

	if (below(16) == 0)
		return reg;
	for (i = 0; i < REGISTERS; i++, reg = (reg + 1) % REGISTERS)
		if ((model_blocks(model, reg) > 0) == holding)
			return reg;
	return reg;
}

/* Draws as many registers as the call has items: mostly some that hold messages, or one after another that holds none. */
static void draw_many(const struct model *model, struct call *call, int holding)
{
	int reg = drawn_register(model, holding);
	uint32_t i;

	for (i = 0; i < call->items; i++) {
		call->many[i] = holding ? drawn_register(model, 1) : reg;
		do
			reg = (reg + 1) % REGISTERS;
		while (model_blocks(model, reg) > 0 && reg != call->many[0]);
	}
}

/* Draws a shape for each item, mostly for no more blocks than there are, with their types. */
static void draw_shapes(const struct model *model, struct call *call)
{
	uint32_t i, blocks = model_blocks(model, call->x);

	if (blocks < call->items && below(4) > 0)
		call->items = blocks;
	for (i = 0; i < call->items; i++) {
		call->shapes[i].at = below(8);
		call->shapes[i].length = below(below(4) > 0 ? 8 : 60);
		call->shapes[i].type = i < blocks && below(4) > 0 ? model_block(model, call->x, i).type : below(STRM_TYPES);
		call->shapes[i].band = drawn_bands[below(DRAWN_BANDS)];
	}
}

/* One of the first `verbs` verbs. */
static enum verb drawn_verb(int verbs)
{
	uint32_t all = 0, at;
	int verb;

	for (verb = 0; verb < verbs; verb++)
		all += forms[verb].weight;
	at = below(all);
	for (verb = 0; at >= forms[verb].weight; verb++)
		at -= forms[verb].weight;
	return (enum verb)verb;
}

/* A call of one of the first `verbs` verbs. One that hands a message over puts it into a register of the other pool. */
static struct call drawn_call(const struct model *model, const struct model *other, const struct setup *setup, int verbs)
{
	struct call call;
	uint32_t i;

	memset(&call, 0, sizeof call);
	call.verb = drawn_verb(verbs);
	call.x = drawn_register(model, 1);
	call.y = drawn_register(names(call.verb, "w") ? other : model, 0);
	call.z = drawn_register(model, 1);
	call.queue = below(20) == 0 ? below(256) : below((uint32_t)setup->config.queue_count);
	call.place = below(below(4) > 0 ? 3 : 30);
	call.band = drawn_band(setup);
	call.number = names(call.verb, "d") ? setup->config.first_id + below(20) : below(44);
	call.type = below(2) == 0 ? (uint32_t)STRM_M_DATA : below(STRM_TYPES);
	call.flush = below(2);
	call.hiwat = 1 + below(30);
	call.lowat = below(31);
	call.count = below(3) == 0 ? -1 : (int32_t)below(24) - 8;
	call.length = below(4) == 0 ? below(MOST_OCTETS + 1) : below(10);
	call.items = below(MOST_ITEMS + 1);
	if (names(call.verb, "gp"))
		draw_many(model, &call, names(call.verb, "g"));
	if (names(call.verb, "r") && below(4) > 0)
		call.number = below(8);
	if (names(call.verb, "j"))
		draw_shapes(model, &call);
	if (names(call.verb, "e") && below(16) == 0)
		call.number = STRM_NO_HEAD;
	if (names(call.verb, "ou"))
		for (i = 0; i < call.length; i++)
			call.octets[i] = (uint8_t)below(256);
	return call;
}

/* ---- what is compared after each call */

static int same_registers(struct face *face, const struct model *model)
{
	static uint8_t wanted[MOST_BLOCKS * MOST_SIZE], found[MOST_BLOCKS * MOST_SIZE];
	struct strm_block_info block, of_model;
	uint32_t yes, bytes, place, blocks, length;
	size_t count;
	int reg;

	for (reg = 0; reg < REGISTERS; reg++) {
		struct strm_msg name = face->registers[reg];

		blocks = model_blocks(model, reg);
		if (strm_has(&face->pool, name, &yes) != STRM_OK || yes != (blocks > 0) || face->holds[reg] != (blocks > 0))
			return 0;
		if (blocks == 0)
			continue;
		if (name.head != model_head(model, reg))
			return 0;
		for (place = 0; place < blocks; place++) {
			of_model = model_block(model, reg, place);
			if (strm_block(&face->pool, name, place, &block) != STRM_OK || memcmp(&block, &of_model, sizeof block) != 0)
				return 0;
		}
		if (strm_block(&face->pool, name, blocks, &block) != STRM_NO_SUCH_BLOCK)
			return 0;
		if (strm_size(&face->pool, name, &bytes) != STRM_OK || bytes != model_size(model, reg))
			return 0;
		if (strm_msgdsize(&face->pool, name, &bytes) != STRM_OK || bytes != model_msgdsize(model, reg))
			return 0;
		length = model_read(model, reg, 0, wanted, sizeof wanted);
		if (strm_read(&face->pool, name, 0, found, sizeof found, &count) != STRM_OK || count != length
		    || memcmp(wanted, found, length) != 0)
			return 0;
	}
	return 1;
}

/* Compares where the blocks of a register's message have their bytes, and what is there. */
static int same_places(struct face *face, const struct model *model, int reg)
{
	static uint8_t wanted[MOST_BLOCKS * MOST_SIZE];
	struct strm_block_place where, of_model;
	uint32_t place, at = 0;
	const uint8_t *bytes;
	size_t length;

	model_read(model, reg, 0, wanted, sizeof wanted);
	for (place = 0; place < model_blocks(model, reg); place++) {
		of_model = model_place(model, reg, place);
		if (strm_place(&face->pool, face->registers[reg], place, &where) != STRM_OK || memcmp(&where, &of_model, sizeof where) != 0)
			return 0;
		if (strm_bytes(&face->pool, face->registers[reg], place, &bytes, &length) != STRM_OK || length != where.length
		    || memcmp(bytes, wanted + at, length) != 0)
			return 0;
		at += where.length;
	}
	return 1;
}

/* Goes from message to message of a queue, and compares what is reported of each, by its place and by its first block. */
static int same_queued(struct face *face, const struct model *model, uint32_t queue)
{
	uint32_t msgs = model_queue(model, queue).msgs, place, head, last = 0, before, of;
	struct strm_queued wanted, found;
	int code = strm_first_queued(&face->pool, queue, &head);

	for (place = 0; place < msgs; place++) {
		wanted = model_queued(model, queue, place);
		if (code != STRM_OK || head != wanted.head)
			return 0;
		if (strm_queued_at(&face->pool, queue, place, &found) != STRM_OK || memcmp(&wanted, &found, sizeof found) != 0)
			return 0;
		code = strm_queued_before(&face->pool, head, &before);
		if (code != (place > 0 ? STRM_OK : STRM_NONE) || (place > 0 && before != last))
			return 0;
		if (strm_queue_of(&face->pool, head, &of) != STRM_OK || of != queue)
			return 0;
		last = head;
		code = strm_queued_after(&face->pool, head, &head);
	}
	if (strm_last_queued(&face->pool, queue, &head) != (msgs > 0 ? STRM_OK : STRM_NONE) || (msgs > 0 && head != last))
		return 0;
	return code == STRM_NONE && strm_queued_at(&face->pool, queue, msgs, &found) == STRM_NO_SUCH_PLACE;
}

static int same_band(struct face *face, const struct model *model, uint32_t queue, uint32_t band)
{
	struct strm_band_info wanted = model_band(model, queue, band), found;
	struct strm_marks of_model = model_marks(model, queue, band), marks;

	return strm_band_info(&face->pool, queue, band, &found) == STRM_OK && memcmp(&wanted, &found, sizeof found) == 0
		&& strm_strqget(&face->pool, queue, band, &marks) == STRM_OK && memcmp(&marks, &of_model, sizeof marks) == 0;
}

/* Compares what is reported of each queue, of the drawn band and of some others. For one queue it compares all bands. */
static int same_queues(struct face *face, const struct model *model, uint32_t queues, uint32_t band, uint32_t all_of)
{
	struct strm_queue_info wanted, found;
	uint32_t queue, i;

	for (queue = 0; queue < queues; queue++) {
		wanted = model_queue(model, queue);
		if (strm_queue_info(&face->pool, queue, &found) != STRM_OK || memcmp(&wanted, &found, sizeof found) != 0)
			return 0;
		if (!same_band(face, model, queue, band))
			return 0;
		for (i = 0; i < (queue == all_of ? STRM_BANDS : DRAWN_BANDS); i++)
			if (!same_band(face, model, queue, queue == all_of ? i : drawn_bands[i]))
				return 0;
	}
	return 1;
}

static int same_census(struct face *face, const struct model *model)
{
	struct strm_census wanted = model_census(model), found;

	return strm_census(&face->pool, &found) == STRM_OK && memcmp(&wanted, &found, sizeof found) == 0;
}

static int same_rest(struct face *face, const struct model *model, uint32_t classes)
{
	struct strm_class_info of_model, info;
	struct strm_wish wanted, wish;
	uint32_t i, queue = 0, of_run = 0;

	for (i = 0; i < classes; i++) {
		of_model = model_class(model, i);
		if (strm_class_info(&face->pool, i, &info) != STRM_OK || memcmp(&of_model, &info, sizeof info) != 0)
			return 0;
	}
	for (i = 0; model_run_at(model, i, &of_run); i++)
		if (strm_run_at(&face->pool, i, &queue) != STRM_OK || queue != of_run)
			return 0;
	if (strm_run_at(&face->pool, i, &queue) != STRM_NONE)
		return 0;
	for (i = 0; model_wish_at(model, i, &wanted); i++)
		if (strm_wish_at(&face->pool, i, &wish) != STRM_OK || memcmp(&wanted, &wish, sizeof wish) != 0)
			return 0;
	return strm_wish_at(&face->pool, i, &wish) == STRM_NONE;
}

/* ---- which answers came */

static uint64_t had[VERBS];

static void note_answer(const struct call *call, const struct reply *reply)
{
	had[call->verb] |= reply->kind == REFUSED ? NOT(reply->numbers[0]) : IS(reply->kind);
}

static int had_each_answer(void)
{
	int verb, lacking = 0;

	for (verb = 0; verb < VERBS; verb++)
		if ((forms[verb].answers & ~had[verb]) != 0) {
			printf("%s has not had each of its answers\n", forms[verb].call);
			lacking++;
		}
	return lacking == 0;
}

/* ---- runs */

/* A pool beside its model. */
struct side {
	struct setup setup;
	struct face face;
	struct model *model;
};

/* Whether pool and model answer a call alike. The pool looks at names first, so an empty register comes before a missing queue. */
static int same_answer(struct side *side, struct side *other, const struct call *call, const struct reply *wanted)
{
	struct reply found, empty = reply_of(EMPTY);
	int names_empty = (names(call->verb, "xX") && !side->face.holds[call->x])
		|| (names(call->verb, "g") && call->items > 0 && !side->face.holds[call->many[0]]);

	found = face_apply(&side->face, &other->face, call);
	note_answer(call, &found);
	return !side->face.broken && !other->face.broken && same_reply(&found, names_empty ? &empty : wanted);
}

static int tell(const struct call *call, unsigned long number, const char *what)
{
	printf("call %lu: %s: ", number, what);
	print_call(stdout, call);
	return 0;
}

/* Compares what now and then is compared of all messages: those that are held, and those on a queue, if the pool has it. */
static int same_messages(struct side *side, uint32_t queue)
{
	int reg;

	for (reg = 0; reg < REGISTERS; reg++)
		if (!same_places(&side->face, side->model, reg))
			return 0;
	return queue >= side->setup.config.queue_count || same_queued(&side->face, side->model, queue);
}

/* Compares all that a pool and its model report after a call. */
static int same_side(struct side *side, const struct call *call, unsigned long number)
{
	struct face *face = &side->face;
	int all = number % CALLS_TO_ALL_BANDS == 0;

	if (!same_census(face, side->model))
		return tell(call, number, "another census");
	if (!same_registers(face, side->model))
		return tell(call, number, "other messages");
	if (!same_queues(face, side->model, (uint32_t)side->setup.config.queue_count, call->band, all ? call->queue : STRM_NO_QUEUE))
		return tell(call, number, "other queues");
	if (all && !same_messages(side, call->queue))
		return tell(call, number, "other places");
	return same_rest(face, side->model, (uint32_t)side->setup.config.class_count) || tell(call, number, "another pool");
}

/* Has pool and model do a call, unless a register that gets a message is taken, and compares everything after it. */
static int does(struct side *side, struct side *other, const struct call *call, unsigned long number)
{
	struct reply wanted = model_apply(side->model, other->model, call);

	if (wanted.kind == TAKEN)
		return 1;
	if (!same_answer(side, other, call, &wanted))
		return tell(call, number, "another answer");
	return same_side(side, call, number) && (!names(call->verb, "w") || same_side(other, call, number));
}

/* Takes each message off each queue into register a, which compares their order and content, and frees it. What the register held is
 * freed first. */
static int empties(struct side *side, unsigned long number)
{
	struct call call;
	struct strm_queue_info info;

	memset(&call, 0, sizeof call);
	for (; call.queue < side->setup.config.queue_count; call.queue++)
		do {
			info = model_queue(side->model, call.queue);
			call.verb = FREEMSG;
			if (!does(side, side, &call, number))
				return 0;
			call.verb = GETQ;
			if (!does(side, side, &call, number))
				return 0;
		} while (info.msgs > 0);
	return 1;
}

static int all_empty(struct side *sides, unsigned long number)
{
	return empties(&sides[0], number) && empties(&sides[1], number);
}

/* Most calls are on the first pool. */
static int run_calls(struct side *sides, unsigned long calls)
{
	unsigned long i;

	for (i = 0; i < calls; i++) {
		int at = below(8) == 0;
		struct side *side = &sides[at], *other = &sides[1 - at];
		struct call call = drawn_call(side->model, other->model, &side->setup, VERBS);

		if (!does(side, other, &call, i))
			return 0;
		if (i % CALLS_TO_ALL_MESSAGES == 0 && !all_empty(sides, i))
			return 0;
	}
	return all_empty(sides, calls);
}

/* ---- where pools are */

#if defined IN_ARRAY || defined IN_HUGE_PAGE
#include "arena.h"

#define ROOM ((size_t)1 << 21)

/* The memory of each pool of a pair. */
static struct arena arenas[2];

#ifdef IN_HUGE_PAGE
#include <sys/mman.h>

/* Whether each arena is in a huge page, which it gets with its first byte. */
static int find_memory(void)
{
	unsigned char *at = (unsigned char *)mmap(NULL, 3 * ROOM, PROT_READ | PROT_WRITE, MAP_PRIVATE | MAP_ANONYMOUS, -1, 0);
	FILE *maps = fopen("/proc/self/smaps", "r");
	unsigned long kilobytes, huge = 0;
	char line[256];
	int i;

	if (at == MAP_FAILED || maps == NULL)
		return 0;
	at += (ROOM - (size_t)at % ROOM) % ROOM;
	madvise(at, 2 * ROOM, MADV_HUGEPAGE);
	for (i = 0; i < 2; i++) {
		arenas[i].at = at + (size_t)i * ROOM;
		arenas[i].at[0] = 0;
	}
	while (fgets(line, sizeof line, maps) != NULL)
		if (sscanf(line, "AnonHugePages: %lu kB", &kilobytes) == 1)
			huge += kilobytes;
	fclose(maps);
	return huge >= 2 * ROOM / 1024;
}
#else
static int find_memory(void)
{
	static unsigned char array[2][ROOM];
	int i;

	for (i = 0; i < 2; i++)
		arenas[i].at = array[i];
	return 1;
}
#endif

static int open_pool(struct strm_pool *pool, const struct strm_config *config, int at)
{
	struct strm_allocator allocator = allocator_of(&arenas[at]);

	arenas[at].size = ROOM;
	return strm_open_with(pool, config, &allocator);
}

/* Whether all memory of a closed pool came back, and nothing around it was touched. */
static int is_whole(int at)
{
	return arenas[at].kept == 0 && arenas[at].broken == 0 && arenas[at].asked > 0;
}
#else
static int find_memory(void)
{
	return 1;
}

static int open_pool(struct strm_pool *pool, const struct strm_config *config, int at)
{
	(void)at;
	return strm_open(pool, config);
}

static int is_whole(int at)
{
	(void)at;
	return 1;
}
#endif

/* ---- runs */

static int opens(struct side *side, uint32_t id, int at)
{
	static const struct strm_pool closed = STRM_POOL_INIT;

	memset(&side->face, 0, sizeof side->face);
	side->face.pool = closed;
	draw_setup(&side->setup, id);
	side->model = model_open(&side->setup.config);
	if (side->model != NULL && open_pool(&side->face.pool, &side->setup.config, at) == STRM_OK)
		return 1;
	printf("no memory\n");
	return 0;
}

static int closes(struct side *side)
{
	model_close(side->model);
	return strm_close(&side->face.pool) == STRM_OK;
}

static int run_pools(uint32_t id, unsigned long calls)
{
	static struct side sides[2];
	int passed, at;

	for (at = 0; at < 2; at++)
		if (!opens(&sides[at], 2 * id + (uint32_t)at, at))
			return 0;
	passed = run_calls(sides, calls);
	for (at = 0; at < 2; at++)
		passed &= closes(&sides[at]) && is_whole(at);
	return passed;
}

static int write_script(const char *path, unsigned long calls)
{
	static struct side side;
	static char report[1 << 20];
	FILE *script = fopen(path, "w");
	unsigned long i;

	if (script == NULL || !opens(&side, 1, 0))
		return EXIT_FAILURE;
	print_header(script, &side.setup.config);
	for (i = 0; i < calls; i++) {
		struct call call = drawn_call(side.model, side.model, &side.setup, VERBS_OF_STRM);
		struct reply reply = model_apply(side.model, side.model, &call);

		print_call(script, &call);
		print_reply(stdout, &reply);
		if (reply.kind != TAKEN && !same_answer(&side, &side, &call, &reply))
			return EXIT_FAILURE;
	}
	if (strm_report(&side.face.pool, report, sizeof report) >= sizeof report)
		return EXIT_FAILURE;
	printf("%s", report);
	return closes(&side) && fclose(script) == 0 ? EXIT_SUCCESS : EXIT_FAILURE;
}

int main(int argc, char **argv)
{
	unsigned long calls, done, passed = 0, failed = 0;

	if (argc < 3)
		return EXIT_FAILURE;
	calls = strtoul(argv[1], NULL, 10);
	state = 0x9E3779B97F4A7C15u ^ strtoul(argv[2], NULL, 10);
	if (argc > 3)
		return write_script(argv[3], calls);
	if (!find_memory()) {
		printf("the system gives no huge page\n");
		return EXIT_FAILURE;
	}
	for (done = 0; done < calls; done += CALLS_OF_A_POOL)
		if (run_pools((uint32_t)(passed + 1), calls - done < CALLS_OF_A_POOL ? calls - done : CALLS_OF_A_POOL))
			passed++;
		else
			failed++;
	if (calls >= CALLS_TO_EACH_ANSWER && !had_each_answer())
		failed++;
	printf("%lu passed, %lu failed\n", passed, failed);
	return failed == 0 ? EXIT_SUCCESS : EXIT_FAILURE;
}
