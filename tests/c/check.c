#include "check.h"

static unsigned long passed, failed;

void check(int holds, const char *file, int line, const char *what)
{
	if (holds) {
		passed++;
	} else {
		failed++;
		printf("%s:%d: not %s\n", file, line, what);
	}
}

int has_census(struct strm_pool *pool, uint32_t free, uint32_t queued, uint32_t held)
{
	struct strm_census census;

	return strm_census(pool, &census) == STRM_OK && census.free == free && census.queued == queued && census.held == held;
}

int has_bytes(struct strm_pool *pool, struct strm_msg msg, const char *bytes)
{
	char found[256];
	size_t count;

	return strm_read(pool, msg, 0, found, sizeof found, &count) == STRM_OK && count == strlen(bytes)
		&& memcmp(found, bytes, count) == 0;
}

struct strm_msg message(struct strm_pool *pool, const char *bytes)
{
	struct strm_msg msg = STRM_NO_MSG;

	ANSWERS(strm_allocb(pool, (uint32_t)strlen(bytes), &msg), STRM_OK);
	ANSWERS(strm_write(pool, msg, 0, bytes, strlen(bytes)), STRM_OK);
	return msg;
}

int same_name(struct strm_msg a, struct strm_msg b)
{
	return a.pool == b.pool && a.head == b.head && a.stamp == b.stamp;
}

static int opened(struct strm_pool *pool, const struct strm_config *config, const struct strm_allocator *allocator)
{
	return allocator != NULL ? strm_open_with(pool, config, allocator) : strm_open(pool, config);
}

void open_scene_with(struct scene *scene, struct strm_pool *pool, struct strm_pool *other, uint32_t id, const struct strm_allocator *allocator)
{
	static const struct strm_class_spec classes[] = { { 16, 12 }, { 64, 4 } };
	static const struct strm_queue_spec queues[] = { { 10, 4, 1, 1 }, { 10, 4, 1, STRM_NO_QUEUE } };
	static const struct strm_pool closed = STRM_POOL_INIT;
	struct strm_config config = { 0, MBLKS, NULL, 2, NULL, 2, 4, 1 };
	struct strm_msg empty;
	uint32_t yes;

	config.id = id;
	config.classes = classes;
	config.queues = queues;
	scene->pool = pool;
	scene->other = other;
	*pool = *other = closed;
	ANSWERS(opened(pool, &config, allocator), STRM_OK);
	config.id++;
	ANSWERS(opened(other, &config, allocator), STRM_OK);
	ANSWERS(strm_allocb(pool, 16, &scene->x), STRM_OK);
	ANSWERS(strm_reserve(pool, scene->x, 0, 4), STRM_OK);
	ANSWERS(strm_write(pool, scene->x, 0, "held", 4), STRM_OK);
	ANSWERS(strm_allocb(pool, 16, &empty), STRM_OK);
	ANSWERS(strm_linkb(pool, scene->x, empty), STRM_OK);
	ANSWERS(strm_linkb(pool, scene->x, message(pool, "too")), STRM_OK);
	scene->z = message(pool, "tail");
	empty = message(pool, "nil");
	ANSWERS(strm_setband(pool, empty, 1), STRM_OK);
	ANSWERS(strm_putq(pool, 0, empty), STRM_OK);
	scene->queued = message(pool, "one");
	ANSWERS(strm_linkb(pool, scene->queued, message(pool, "1")), STRM_OK);
	ANSWERS(strm_putq(pool, 0, scene->queued), STRM_OK);
	ANSWERS(strm_putq(pool, 0, message(pool, "two")), STRM_OK);
	ANSWERS(strm_putq(pool, 1, message(pool, "0123456789")), STRM_OK);
	ANSWERS(strm_bcanput(pool, 1, 0, &yes), STRM_OK);
	ANSWERS(strm_bufcall(pool, 16, &scene->wish), STRM_OK);
	ANSWERS(strm_bufcall(pool, 16, &scene->wish), STRM_OK);
}

void open_scene(struct scene *scene, struct strm_pool *pool, struct strm_pool *other, uint32_t id)
{
	open_scene_with(scene, pool, other, id, NULL);
}

void close_scene(struct scene *scene)
{
	ANSWERS(strm_close(scene->pool), STRM_OK);
	ANSWERS(strm_close(scene->other), STRM_OK);
}

void set_call(struct scene *scene, int verb)
{
	static const struct strm_block_shape shapes[] = { { 1, 2, STRM_M_PROTO, 1 }, { 2, 1, STRM_M_DATA, 2 } };

	memset(&scene->call, 0, sizeof scene->call);
	scene->call.verb = (enum verb)verb;
	scene->call.place = 1;
	scene->call.band = 1;
	scene->call.number = names(verb, "d") ? scene->wish : names(verb, "m") ? scene->x.head : names(verb, "e") ? scene->queued.head : 1;
	scene->call.type = STRM_M_PROTO;
	scene->call.flush = STRM_FLUSHDATA;
	scene->call.hiwat = 2;
	scene->call.lowat = 1;
	scene->call.count = 6;
	store_in(&scene->a, &scene->results);
	scene->a.x = scene->x;
	scene->a.z = scene->z;
	scene->a.octets = "ab";
	scene->a.shapes = shapes;
	scene->a.length = 2;
	if (names(verb, "g")) {
		scene->results.msgs[0] = scene->x;
		scene->results.msgs[1] = scene->z;
	}
	memcpy(&scene->before, &scene->results, sizeof scene->before);
}

int spoil_call(struct scene *scene)
{
	int verb = scene->call.verb;

	scene->a.x.stamp++;
	scene->a.z.stamp++;
	scene->call.queue = scene->call.place = 99;
	if (names(verb, "dme"))
		scene->call.number = 99;
	if (names(verb, "g"))
		scene->results.msgs[0] = scene->before.msgs[0] = scene->a.x;
	return names(verb, "xXZgqkdme");
}

int make_call(struct scene *scene)
{
	return call_made(&scene->call, scene->pool, scene->other, &scene->a);
}

void refuse_call(struct scene *scene, int code, const char *how)
{
	const struct form *form = &forms[scene->call.verb];
	size_t *done = scene->a.done;
	char what[200];

	/* a call on several messages counts none */
	if (names(scene->call.verb, "gp") && done != NULL) {
		memset(done, UNTOUCHED, sizeof *done);
		memset((char *)&scene->before + ((char *)done - (char *)&scene->results), 0, sizeof *done);
	}
	sprintf(what, "strm_%s%s == %d, %s", form->call, form->arguments, code, how);
	check(make_call(scene) == code, __FILE__, __LINE__, what);
	sprintf(what, "strm_%s stored no result, %s", form->call, how);
	check(memcmp(&scene->results, &scene->before, sizeof scene->results) == 0, __FILE__, __LINE__, what);
}

int summary(void)
{
	printf("%lu passed, %lu failed\n", passed, failed);
	return failed > 0;
}
