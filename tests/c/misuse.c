/*
 * Misuse of every kind that the library detects: names that are not valid, handles that are not open, bad arguments. Each is answered as
 * strm.h says, and changes nothing in the pool. The last line is 'N passed, M failed'.
 */
#include "check.h"

/* ---- all that a pool reports */

#define MOST_SEEN 4096

struct seen {
	size_t count;
	uint32_t numbers[MOST_SEEN];
};

static void see(struct seen *seen, const void *from, size_t size)
{
	if (seen->count + size / 4 <= MOST_SEEN)
		memcpy(seen->numbers + seen->count, from, size);
	seen->count += size / 4;
}

/* Reads what a pool reports of everything but messages. */
static void see_pool(struct strm_pool *pool, struct seen *seen)
{
	struct strm_census census;
	struct strm_class_info info;
	struct strm_queue_info queue;
	struct strm_band_info band;
	struct strm_queue_spec spec;
	struct strm_queued queued;
	struct strm_wish wish;
	uint32_t q, i;

	if (strm_census(pool, &census) == STRM_OK)
		see(seen, &census, sizeof census);
	for (i = 0; i < STRM_MOST_CLASSES && strm_class_info(pool, i, &info) == STRM_OK; i++)
		see(seen, &info, sizeof info);
	for (q = 0; q < STRM_MOST_QUEUES && strm_queue_info(pool, q, &queue) == STRM_OK; q++) {
		see(seen, &queue, sizeof queue);
		if (strm_queue_spec(pool, q, &spec) == STRM_OK)
			see(seen, &spec, sizeof spec);
		for (i = 0; i < STRM_MOST_MBLKS && strm_queued_at(pool, q, i, &queued) == STRM_OK; i++)
			see(seen, &queued, sizeof queued);
		for (i = 0; i < STRM_BANDS && strm_band_info(pool, q, i, &band) == STRM_OK; i++)
			see(seen, &band, sizeof band);
	}
	for (i = 0; i < STRM_MOST_QUEUES && strm_run_at(pool, i, &q) == STRM_OK; i++)
		see(seen, &q, sizeof q);
	for (i = 0; i < STRM_MOST_WISHES && strm_wish_at(pool, i, &wish) == STRM_OK; i++)
		see(seen, &wish, sizeof wish);
}

static void see_message(struct strm_pool *pool, struct strm_msg msg, struct seen *seen)
{
	struct strm_block_info block;
	struct strm_block_place where;
	uint32_t i;

	for (i = 0; i < MBLKS && strm_block(pool, msg, i, &block) == STRM_OK; i++) {
		see(seen, &block, sizeof block);
		if (strm_place(pool, msg, i, &where) == STRM_OK)
			see(seen, &where, sizeof where);
	}
}

/* Reads what the pools of a scene report, and of its messages. */
static void look(const struct scene *scene, struct seen *seen)
{
	memset(seen, 0, sizeof *seen);
	see_pool(scene->pool, seen);
	see_pool(scene->other, seen);
	see_message(scene->pool, scene->x, seen);
	see_message(scene->pool, scene->z, seen);
	CHECK(seen->count <= MOST_SEEN);
}

/* Nothing has changed since then. */
static void check_same(const struct scene *scene, const struct seen *before)
{
	struct seen after;

	look(scene, &after);
	CHECK(memcmp(before, &after, sizeof after) == 0);
	CHECK(has_bytes(scene->pool, scene->x, "heldtoo"));
}

/* ---- a name that is not valid, in each call that takes one */

/* The letters of names that a call takes, and where it takes them. */
static const char *const sources[] = { "xX", "Z", "g" };

static void try_name_in(struct scene *scene, int verb, int source, struct strm_msg bad)
{
	struct strm_msg *places[3];

	set_call(scene, verb);
	places[0] = &scene->a.x;
	places[1] = &scene->a.z;
	places[2] = &scene->results.msgs[0];
	*places[source] = bad;
	memcpy(&scene->before, &scene->results, sizeof scene->before);
	refuse_call(scene, STRM_INVALID, "with a name that is not valid");
	scene->call.queue = 99;
	refuse_call(scene, STRM_INVALID, "since a name comes before a missing queue");
	if (names(verb, "g"))
		return;
	scene->a.length = 0;
	scene->a.octets = scene->a.out = NULL;
	if (has_argument(verb, "->length"))
		refuse_call(scene, STRM_INVALID, "also for a length of 0");
}

static void try_name(struct scene *scene, struct strm_msg bad)
{
	struct seen before;
	uint32_t yes = 77;
	int verb, source;

	look(scene, &before);
	ANSWERS(strm_has(scene->pool, bad, &yes), STRM_OK);
	CHECK(yes == 0);
	for (verb = 0; verb < VERBS; verb++)
		for (source = 0; source < 3; source++)
			if (names(verb, sources[source]))
				try_name_in(scene, verb, source, bad);
	ANSWERS(strm_linkb(scene->pool, bad, bad), STRM_INVALID);
	check_same(scene, &before);
}

static void test_forged(void)
{
	struct strm_pool pool, other;
	struct scene scene;
	struct strm_msg bad = STRM_NO_MSG;

	open_scene(&scene, &pool, &other, 7);
	try_name(&scene, bad);
	bad = scene.x;
	bad.stamp++;
	try_name(&scene, bad);
	bad.stamp -= 2;
	try_name(&scene, bad);
	bad = scene.x;
	bad.stamp += (uint64_t)1 << 32;
	try_name(&scene, bad);
	bad = scene.x;
	bad.pool++;
	try_name(&scene, bad);
	bad = scene.x;
	bad.head = MBLKS - 1;	/* a block that is free */
	try_name(&scene, bad);
	bad.head = MBLKS;	/* one past the last */
	try_name(&scene, bad);
	bad.head = 0xFFFFFFFFu;
	try_name(&scene, bad);
	memset(&bad, 0xFF, sizeof bad);
	try_name(&scene, bad);
	close_scene(&scene);
}

/* Names whose message was handed over. */
static void test_spent(void)
{
	struct strm_pool pool, other;
	struct scene scene;
	struct strm_msg a, b, block, rest;

	open_scene(&scene, &pool, &other, 7);
	/* freed twice */
	a = message(&pool, "a");
	ANSWERS(strm_freemsg(&pool, a), STRM_OK);
	try_name(&scene, a);
	/* freed, and its block is the head of another message */
	b = message(&pool, "b");
	CHECK(b.head == a.head);
	try_name(&scene, a);
	/* linked to itself */
	ANSWERS(strm_linkb(&pool, b, b), STRM_INVALID);
	CHECK(has_bytes(&pool, b, "b"));
	/* linked twice: the tail has no name any more */
	a = message(&pool, "a");
	ANSWERS(strm_linkb(&pool, a, b), STRM_OK);
	try_name(&scene, b);
	/* unlinked: the rest has another name than the tail had */
	ANSWERS(strm_unlinkb(&pool, a, &rest), STRM_OK);
	CHECK(rest.head == b.head);
	try_name(&scene, b);
	ANSWERS(strm_linkb(&pool, a, rest), STRM_OK);
	/* the rest, once it is linked again */
	try_name(&scene, rest);
	/* a block was taken out of the name's message */
	ANSWERS(strm_rmvb(&pool, a, 1, &block, &rest), STRM_OK);
	try_name(&scene, a);
	ANSWERS(strm_linkb(&pool, rest, block), STRM_OK);
	a = rest;
	ANSWERS(strm_freeb(&pool, a, &rest), STRM_OK);
	try_name(&scene, a);
	ANSWERS(strm_freeb(&pool, rest, &block), STRM_NONE);
	try_name(&scene, rest);
	close_scene(&scene);
}

/* Puts a message on a queue and takes it off, each in each way. */
static void test_queued(void)
{
	struct strm_pool pool, other;
	struct scene scene;
	struct strm_msg a, b;

	open_scene(&scene, &pool, &other, 7);
	ANSWERS(strm_flushq(&pool, 0, STRM_FLUSHALL), STRM_OK);
	a = message(&pool, "a");
	ANSWERS(strm_putq(&pool, 0, a), STRM_OK);
	try_name(&scene, a);
	ANSWERS(strm_name_at(&pool, a.head, &b), STRM_NONE);
	ANSWERS(strm_getq(&pool, 0, &b), STRM_OK);
	CHECK(b.head == a.head);
	try_name(&scene, a);
	ANSWERS(strm_putbq(&pool, 0, b), STRM_OK);
	try_name(&scene, b);
	ANSWERS(strm_rmvq(&pool, 0, 0, &a), STRM_OK);
	try_name(&scene, b);
	ANSWERS(strm_insq(&pool, 0, 0, a), STRM_OK);
	try_name(&scene, a);
	ANSWERS(strm_flushq(&pool, 0, STRM_FLUSHALL), STRM_OK);
	try_name(&scene, a);
	close_scene(&scene);
}

/* A call that takes over a message leaves all other names valid, and a call that takes over none leaves all. */
static void test_others(void)
{
	struct strm_pool pool, other;
	struct scene scene;
	struct strm_msg a, copy, rest;
	uint32_t yes;

	open_scene(&scene, &pool, &other, 7);
	a = message(&pool, "ab");
	ANSWERS(strm_dupmsg(&pool, a, &copy), STRM_OK);
	ANSWERS(strm_linkb(&pool, a, copy), STRM_OK);
	ANSWERS(strm_setband(&pool, a, 1), STRM_OK);
	ANSWERS(strm_adjmsg(&pool, a, 1), STRM_OK);
	ANSWERS(strm_pullupmsg(&pool, a, -1), STRM_OK);
	ANSWERS(strm_copymsg(&pool, a, &copy), STRM_OK);
	ANSWERS(strm_unlinkb(&pool, a, &rest), STRM_NONE);
	ANSWERS(strm_has(&pool, a, &yes), STRM_OK);
	CHECK(yes == 1 && has_bytes(&pool, a, "bab") && has_bytes(&pool, copy, "bab"));
	CHECK(has_bytes(&pool, scene.x, "heldtoo"));
	close_scene(&scene);
}

/* A name is spent by a transfer, and the new one is a name of the other pool alone. Names of pools that are closed are of no other pool. */
static void test_transferred(void)
{
	struct strm_pool pools[4];
	struct scene scene, other;
	struct strm_msg a, moved;

	open_scene(&scene, &pools[0], &pools[1], 7);
	open_scene(&other, &pools[2], &pools[3], 9);
	a = message(scene.pool, "a");
	ANSWERS(strm_transfer(scene.pool, other.pool, a, &moved), STRM_OK);
	try_name(&scene, a);
	try_name(&other, a);
	try_name(&scene, moved);
	CHECK(has_bytes(other.pool, moved, "a"));
	try_name(&scene, other.x);
	try_name(&other, scene.x);
	close_scene(&other);
	try_name(&scene, other.x);
	close_scene(&scene);
	/* opened again, under another id */
	a = scene.x;
	open_scene(&scene, &pools[0], &pools[1], 11);
	try_name(&scene, a);
	close_scene(&scene);
}

/* ---- pointers to each thing that a call takes or stores */

static const struct {
	const char *argument;
	size_t at;
} pointers[] = {
	{ "->y", offsetof(struct arguments, y) }, { "->rest", offsetof(struct arguments, rest) },
	{ "->msgs", offsetof(struct arguments, msgs) }, { "->shapes", offsetof(struct arguments, shapes) }, { "->octets", offsetof(struct arguments, octets) },
	{ "TO(", offsetof(struct arguments, out) }, { "->done", offsetof(struct arguments, done) },
	{ "->stride", offsetof(struct arguments, stride) }
};
#define POINTERS ((int)(sizeof pointers / sizeof pointers[0]))

/* The place of a pointer among the arguments of the scene's call. */
static unsigned char *pointer_at(struct scene *scene, int i)
{
	return (unsigned char *)&scene->a + pointers[i].at;
}

/* ---- a handle that is not open, in each call; all other misuse comes after it */

static void try_handle(struct strm_pool *bad)
{
	struct strm_pool before, pool, other;
	struct scene scene;
	struct strm_msg msg = STRM_NO_MSG;
	int verb, i;

	memset(&before, 0, sizeof before);
	if (bad != NULL)
		before = *bad;
	open_scene(&scene, &pool, &other, 6);
	CHECK(strm_is_open(bad) == 0);
	ANSWERS(strm_close(bad), STRM_NOT_OPEN);
	scene.pool = scene.other = bad;
	for (verb = 0; verb < VERBS; verb++) {
		set_call(&scene, verb);
		refuse_call(&scene, STRM_NOT_OPEN, "since the handle is not open");
		spoil_call(&scene);
		scene.call.band = scene.call.type = scene.call.flush = 999;
		for (i = 0; i < POINTERS; i++)
			memset(pointer_at(&scene, i), 0, sizeof(void *));
		refuse_call(&scene, STRM_NOT_OPEN, "which comes first");
	}
	scene.pool = &pool;
	scene.other = &other;
	ANSWERS(strm_transfer(bad, &other, msg, NULL), STRM_NOT_OPEN);
	ANSWERS(strm_transfer(&pool, bad, msg, NULL), STRM_NOT_OPEN);
	ANSWERS(strm_transfer(&pool, bad, scene.x, &msg), STRM_NOT_OPEN);
	CHECK(bad == NULL || memcmp(bad, &before, sizeof before) == 0);
	CHECK(msg.stamp == 0 && has_bytes(&pool, scene.x, "heldtoo"));
	close_scene(&scene);
}

static void test_handles(void)
{
	struct strm_pool pool = STRM_POOL_INIT, other, moved;
	struct scene scene;
	struct strm_msg msg;

	ANSWERS(strm_open(NULL, NULL), STRM_NOT_OPEN);
	try_handle(NULL);
	try_handle(&pool);
	memset(&pool, 0, sizeof pool);
	try_handle(&pool);
	memset(&pool, 0xA5, sizeof pool);
	try_handle(&pool);
	pool.state = STRM_POOL_OPEN + 1;
	try_handle(&pool);
	open_scene(&scene, &pool, &other, 7);
	close_scene(&scene);
	try_handle(&pool);
	/* a handle may be moved */
	open_scene(&scene, &pool, &other, 7);
	moved = pool;
	memset(&pool, 0, sizeof pool);
	try_handle(&pool);
	ANSWERS(strm_allocb(&moved, 1, &msg), STRM_OK);
	scene.pool = &moved;
	close_scene(&scene);
}

/* ---- null pointers, and numbers that are out of range, on an open pool; names come after them */

/* The call of the scene is refused, also if it names what is not there. */
static void try_argument(struct scene *scene, const char *how)
{
	refuse_call(scene, STRM_BAD_ARGUMENT, how);
	spoil_call(scene);
	refuse_call(scene, STRM_BAD_ARGUMENT, how);
}

static void try_null(struct scene *scene, int verb, int i)
{
	set_call(scene, verb);
	memset(pointer_at(scene, i), 0, sizeof(void *));
	try_argument(scene, pointers[i].argument);
	if (scene->a.done == NULL) {
		scene->a.length = 0;
		refuse_call(scene, STRM_BAD_ARGUMENT, "also for a length of 0");
	}
}

/* Two places for results are the same one. */
static void try_both(struct scene *scene, int verb, int i, int j)
{
	set_call(scene, verb);
	memcpy(pointer_at(scene, j), pointer_at(scene, i), sizeof(void *));
	try_argument(scene, "since two pointers are equal");
	if (has_argument(verb, "->length")) {
		set_call(scene, verb);
		memcpy(pointer_at(scene, j), pointer_at(scene, i), sizeof(void *));
		scene->a.length = 0;
		CHECK(make_call(scene) == STRM_OK && *scene->a.done == 0);
	}
}

/* A number is out of range. */
static void try_number(struct scene *scene, int verb, const char *letter, uint32_t number)
{
	if (!names(verb, letter))
		return;
	set_call(scene, verb);
	*(*letter == 'b' ? &scene->call.band : *letter == 't' ? &scene->call.type : &scene->call.flush) = number;
	try_argument(scene, letter);
}

static void try_length(struct scene *scene, int verb, size_t length)
{
	set_call(scene, verb);
	scene->a.length = length;
	try_argument(scene, "since no object is so long");
}

static void try_arguments(struct scene *scene, int verb)
{
	int i, j;

	for (i = 0; i < POINTERS; i++)
		if (has_argument(verb, pointers[i].argument)) {
			try_null(scene, verb, i);
			for (j = i + 1; j < POINTERS && !names(verb, "og"); j++)
				if (has_argument(verb, pointers[j].argument))
					try_both(scene, verb, i, j);
		}
	try_number(scene, verb, "b", STRM_BANDS);
	try_number(scene, verb, "t", STRM_TYPES);
	try_number(scene, verb, "f", STRM_FLUSHDATA + 1);
	try_number(scene, verb, "b", 0xFFFFFFFFu);
	try_number(scene, verb, "t", 0xFFFFFFFFu);
	try_number(scene, verb, "f", 0xFFFFFFFFu);
	if (has_argument(verb, "->length")) {
		try_length(scene, verb, (size_t)-1 / 2 + 1);
		try_length(scene, verb, (size_t)-1);
	}
}

/* Arrays of more bytes than an object has. */
static void try_arrays(struct scene *scene)
{
	size_t most = (size_t)-1 / 2;

	try_length(scene, BLOCKS, most / sizeof(struct strm_block_info) + 1);
	try_length(scene, IOV, most / sizeof(struct strm_iov) + 1);
	try_length(scene, QUEUED_IOV, most / sizeof(struct strm_iov) + 1);
	try_length(scene, SHAPE_ALL, most / sizeof(struct strm_block_shape) + 1);
	try_length(scene, ALLOCB_N, most / sizeof(struct strm_msg) + 1);
	try_length(scene, FREEMSG_N, most / sizeof(struct strm_msg) + 1);
	try_length(scene, PUTQ_N, most / sizeof(struct strm_msg) + 1);
	try_length(scene, GETQ_N, most / sizeof(struct strm_msg) + 1);
	try_length(scene, TAKEQ, most / sizeof(struct strm_msg) + 1);
	try_length(scene, TAKEQ_BAND, most / sizeof(struct strm_msg) + 1);
}

static void test_arguments(void)
{
	struct strm_pool pool, other;
	struct scene scene;
	struct strm_msg msg = STRM_NO_MSG, out = STRM_NO_MSG;
	struct seen before;
	int verb;

	open_scene(&scene, &pool, &other, 7);
	look(&scene, &before);
	ANSWERS(strm_open(&pool, NULL), STRM_IS_OPEN);
	for (verb = 0; verb < VERBS; verb++)
		try_arguments(&scene, verb);
	try_arrays(&scene);
	ANSWERS(strm_transfer(&pool, &pool, scene.x, &out), STRM_BAD_ARGUMENT);
	ANSWERS(strm_transfer(&pool, &pool, msg, NULL), STRM_BAD_ARGUMENT);
	CHECK(strm_text(0, NULL, 1) == 0 && strm_name(0, NULL, 1) == 0 && strm_version(NULL, 1) == 0);
	CHECK(out.stamp == 0);
	check_same(&scene, &before);
	close_scene(&scene);
}

/* A configuration is refused by both calls that take one. */
static void refuse(const struct strm_config *config, int code)
{
	struct strm_pool pool = STRM_POOL_INIT;
	size_t bytes = 77;

	ANSWERS(strm_open(&pool, config), code);
	ANSWERS(strm_memory(config, &bytes), code);
	ANSWERS(strm_memory(config, NULL), STRM_BAD_ARGUMENT);
	CHECK(!strm_is_open(&pool) && bytes == 77);
}

static void test_configurations(void)
{
	static const struct strm_class_spec classes[] = { { 16, 8 } };
	static const struct strm_queue_spec queues[] = { { 10, 4, 1, STRM_NO_QUEUE } };
	struct strm_config config;

	refuse(NULL, STRM_BAD_ARGUMENT);
	memset(&config, 0, sizeof config);
	config.class_count = 1;
	refuse(&config, STRM_BAD_ARGUMENT);
	config.classes = classes;
	config.queue_count = 1;
	refuse(&config, STRM_BAD_ARGUMENT);
	config.queues = queues;
	refuse(&config, STRM_BAD_MBLKS);
	config.class_count = STRM_MOST_CLASSES + 1;
	refuse(&config, STRM_BAD_ARGUMENT);
	config.class_count = (size_t)-1;
	refuse(&config, STRM_BAD_ARGUMENT);
	config.class_count = 1;
	config.queue_count = STRM_MOST_QUEUES + 1;
	refuse(&config, STRM_BAD_ARGUMENT);
}

int main(void)
{
	test_forged();
	test_spent();
	test_queued();
	test_others();
	test_transferred();
	test_handles();
	test_arguments();
	test_configurations();
	return summary();
}
