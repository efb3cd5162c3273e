/*
 * The memory of pools: strm_open_with takes all of a pool's from its allocator, in one piece as large as strm_memory returns, and it comes back
 * once. Pools of different allocators stay apart, also in threads. The linker puts the functions below between the proved code and c/heap.c:
 * they look at each piece, and refuse one. The last line is as in each.c.
 */
#include "arena.h"
#include "check.h"

#include <pthread.h>
#include <stdlib.h>

#define ROOM ((size_t)1 << 21)
#define THREADS 4
#define MOST_PIECES 64

#ifdef __cplusplus
extern "C" {
#endif
#include "../../c/heap.h"

struct strm_tried __real_strm_heap_alloc(size_t size, size_t align);
struct strm_tried __real_strm_heap_realloc(void *at, size_t kept, size_t size, size_t align);
void __real_strm_heap_dealloc(void *at);
struct strm_tried __wrap_strm_heap_alloc(size_t size, size_t align);
struct strm_tried __wrap_strm_heap_realloc(void *at, size_t kept, size_t size, size_t align);
void __wrap_strm_heap_dealloc(void *at);
#ifdef __cplusplus
}
#endif

static unsigned char rooms[THREADS][ROOM];

/* The pieces of the pool that is watched, how many were asked for, and which is refused, counted from 1. */
static struct {
	unsigned char *at;
	size_t size;
} pieces[MOST_PIECES];
static int watched, asked, refused_piece, moved;
static const struct arena *home;

/* A check without which the program can't go on. */
#define NEED(what) \
	do { \
		CHECK(what); \
		if (!(what)) \
			exit(summary()); \
	} while (0)

/* A piece is aligned, in what the allocator returned, and overlaps no other; then each of its bytes is written. */
static void look_at(unsigned char *at, size_t size, size_t align)
{
	int i;

	CHECK(at != NULL && (size_t)at % align == 0);
	NEED(at >= home->at + FENCE && at + size <= home->at + home->used);
	for (i = 0; i < asked; i++)
		NEED(pieces[i].at == NULL || at + size <= pieces[i].at || pieces[i].at + pieces[i].size <= at);
	memset(at, 0x5A, size);
}

static void *opening_elsewhere(void *context)
{
	(void)context;
	return *strm_opening();
}

/* Too large a piece is refused, but its address is not null. Another thread opens no pool meanwhile. */
static void ask_beside(size_t align)
{
	static const size_t sizes[] = { ROOM, (size_t)-1 / 2, (size_t)-1 };
	struct strm_tried tried;
	pthread_t thread;
	void *found;
	size_t i;

	for (i = 0; i < sizeof sizes / sizeof sizes[0]; i++) {
		tried = __real_strm_heap_alloc(sizes[i], align);
		NEED(tried.is_done == 0 && tried.at != NULL);
	}
	if (asked == 0 && *strm_opening() != NULL) {
		CHECK(pthread_create(&thread, NULL, opening_elsewhere, NULL) == 0);
		CHECK(pthread_join(thread, &found) == 0);
		NEED(found == NULL);
	}
}

struct strm_tried __wrap_strm_heap_alloc(size_t size, size_t align)
{
	struct strm_tried tried;

	if (!watched)
		return __real_strm_heap_alloc(size, align);
	NEED(align > 0 && 16 % align == 0 && asked < MOST_PIECES);
	ask_beside(align);
	tried = __real_strm_heap_alloc(size, align);
	NEED(tried.is_done == 1);
	look_at((unsigned char *)tried.at, size, align);
	if (asked + 1 == refused_piece) {
		__real_strm_heap_dealloc(tried.at);
		tried.is_done = 0;
		pieces[asked].at = NULL;
	} else {
		pieces[asked].at = (unsigned char *)tried.at;
	}
	pieces[asked++].size = size;
	return tried;
}

struct strm_tried __wrap_strm_heap_realloc(void *at, size_t kept, size_t size, size_t align)
{
	moved++;
	return __real_strm_heap_realloc(at, kept, size, align);
}

void __wrap_strm_heap_dealloc(void *at)
{
	int i, known = 0;

	for (i = 0; watched && i < asked; i++)
		if (pieces[i].at == at) {
			pieces[i].at = NULL;
			known++;
		}
	if (watched)
		CHECK(known == 1 && home->kept == 1);
	__real_strm_heap_dealloc(at);
}

/* A configuration, with room for all classes and queues. */
struct setting {
	struct strm_config config;
	struct strm_class_spec classes[STRM_MOST_CLASSES];
	struct strm_queue_spec queues[STRM_MOST_QUEUES];
};

static void fill(struct setting *setting, size_t classes, size_t queues, uint32_t mblks)
{
	size_t i;

	for (i = 0; i < classes; i++) {
		setting->classes[i].size = (uint32_t)(64 * (i + 1) - i % 2);
		setting->classes[i].count = (uint32_t)(9 - i);
	}
	for (i = 0; i < queues; i++) {
		setting->queues[i].hiwat = 2;
		setting->queues[i].lowat = 1;
		setting->queues[i].service = 0;
		setting->queues[i].next = STRM_NO_QUEUE;
	}
	setting->config.id = 7;
	setting->config.mblks = mblks;
	setting->config.classes = setting->classes;
	setting->config.class_count = classes;
	setting->config.queues = setting->queues;
	setting->config.queue_count = queues;
	setting->config.bufcalls = STRM_MOST_WISHES;
	setting->config.first_id = 1;
}

/* The bytes of all pieces that were asked for. */
static size_t pieces_bytes(void)
{
	size_t bytes = 0;
	int i;

	for (i = 0; i < asked; i++)
		bytes += pieces[i].size;
	return bytes;
}

/*
 * Opens, uses and closes a pool whose pieces are watched. Beside the pieces, its memory holds only what the region takes for itself and for that
 * number of pieces.
 */
static void open_watched(const struct strm_config *config, struct arena *arena)
{
	struct strm_allocator allocator = allocator_of(arena);
	struct strm_pool pool = STRM_POOL_INIT;
	size_t bytes;

	asked = 0;
	watched = 1;
	ANSWERS(strm_memory(config, &bytes), STRM_OK);
	ANSWERS(strm_open_with(&pool, config, &allocator), STRM_OK);
	CHECK(arena->asked_bytes == bytes && arena->kept == 1);
	CHECK(pieces_bytes() + strm_region_more() == bytes);
	CHECK(strm_region_more() == sizeof(struct strm_region) + (size_t)asked * (sizeof(struct strm_region *) + STRM_OF_OTHERS)
		+ STRM_OF_BYTES - STRM_OF_OTHERS);
	watched = 0;
	ANSWERS(strm_freemsg(&pool, message(&pool, "strm")), STRM_OK);
	watched = 1;
	ANSWERS(strm_close(&pool), STRM_OK);
	watched = 0;
	CHECK(arena->kept == 0);
}

/* Each piece refused in turn: no pool, and no memory is kept. */
static void refuse_each_piece(const struct strm_config *config, struct arena *arena)
{
	struct strm_allocator allocator = allocator_of(arena);
	struct strm_pool pool = STRM_POOL_INIT;
	int last = asked;

	for (refused_piece = 1; refused_piece <= last; refused_piece++) {
		asked = 0;
		watched = 1;
		ANSWERS(strm_open_with(&pool, config, &allocator), STRM_NO_MEMORY);
		watched = 0;
		CHECK(!strm_is_open(&pool) && arena->kept == 0 && asked == refused_piece);
	}
	refused_piece = 0;
}

/* Pools with each number of classes and of queues, and the pieces of each. */
static void open_each(struct arena *arena)
{
	struct setting setting;
	size_t i;

	for (i = 0; i < STRM_MOST_CLASSES * STRM_MOST_QUEUES; i++) {
		fill(&setting, 1 + i % STRM_MOST_CLASSES, 1 + i / STRM_MOST_CLASSES, (uint32_t)(1 + 128 * i));
		open_watched(&setting.config, arena);
		if (i % 41 == 0)
			refuse_each_piece(&setting.config, arena);
	}
	CHECK(moved == 0);
}

static void *misaligned(void *context, size_t bytes, size_t align)
{
	return (unsigned char *)arena_allocate(context, bytes, align) + align / 2;
}

static void release_misaligned(void *context, void *at, size_t bytes)
{
	arena_release(context, (unsigned char *)at - 8, bytes);
}

/* What is refused, and in which order. */
static void refuse(struct arena *arena)
{
	struct strm_allocator allocator = allocator_of(arena), none = allocator;
	struct strm_pool pool = STRM_POOL_INIT;
	struct setting setting;
	long before = arena->asked;

	fill(&setting, 1, 1, 1);
	setting.config.first_id = 0;
	ANSWERS(strm_open_with(NULL, NULL, NULL), STRM_NOT_OPEN);
	ANSWERS(strm_open_with(&pool, NULL, &allocator), STRM_BAD_ARGUMENT);
	ANSWERS(strm_open_with(&pool, &setting.config, NULL), STRM_BAD_ARGUMENT);
	none.allocate = NULL;
	ANSWERS(strm_open_with(&pool, &setting.config, &none), STRM_BAD_ARGUMENT);
	none = allocator;
	none.release = NULL;
	ANSWERS(strm_open_with(&pool, &setting.config, &none), STRM_BAD_ARGUMENT);
	ANSWERS(strm_open_with(&pool, &setting.config, &allocator), STRM_BAD_FIRST_ID);
	CHECK(arena->asked == before);
	setting.config.first_id = 1;
	arena->refused = before + 1;
	ANSWERS(strm_open_with(&pool, &setting.config, &allocator), STRM_NO_MEMORY);
	CHECK(arena->asked == before + 1 && arena->kept == 0);
	none.allocate = misaligned;
	none.release = release_misaligned;
	ANSWERS(strm_open_with(&pool, &setting.config, &none), STRM_NO_MEMORY);
	CHECK(arena->asked == before + 2 && arena->kept == 0 && !strm_is_open(&pool));
	ANSWERS(strm_open_with(&pool, &setting.config, &allocator), STRM_OK);
	ANSWERS(strm_open_with(&pool, NULL, NULL), STRM_IS_OPEN);
	ANSWERS(strm_close(&pool), STRM_OK);
}

/* The bytes of a class begin at a multiple of 64, so those of each block do where the class's size is one. */
static void find_lines(struct arena *arena)
{
	struct strm_allocator allocator = allocator_of(arena);
	struct strm_pool pool = STRM_POOL_INIT;
	struct strm_msg msg;
	const uint8_t *bytes;
	struct setting setting;
	size_t classes, length, i;

	for (classes = 1; classes <= STRM_MOST_CLASSES; classes++) {
		fill(&setting, classes, 1, 40);
		setting.config.first_id = 1;
		ANSWERS(strm_open_with(&pool, &setting.config, &allocator), STRM_OK);
		for (i = 0; i < classes; i += 2)
			do {
				ANSWERS(strm_allocb(&pool, setting.classes[i].size, &msg), STRM_OK);
				ANSWERS(strm_bytes(&pool, msg, 0, &bytes, &length), STRM_OK);
				CHECK((size_t)bytes % 64 == 0);
			} while (--setting.classes[i].count > 0);
		ANSWERS(strm_close(&pool), STRM_OK);
	}
}

/* strm_open_with calls the allocator, and strm_close calls it. No other call does, also with names of what is not there. */
static void call_each(struct arena *arena)
{
	struct strm_allocator allocator = allocator_of(arena);
	struct scene scene;
	struct strm_pool pool, other;
	size_t bytes;
	struct setting setting;
	long before;
	int verb;

	fill(&setting, 1, 1, 1);
	for (verb = 0; verb < VERBS; verb++) {
		before = arena->asked;
		open_scene_with(&scene, &pool, &other, 7, &allocator);
		CHECK(arena->asked == before + 2 && arena->kept == 2);
		set_call(&scene, verb);
		spoil_call(&scene);
		make_call(&scene);
		set_call(&scene, verb);
		ANSWERS(make_call(&scene), STRM_OK);
		CHECK(strm_report(&pool, NULL, 0) > 0 && strm_is_open(&pool) && !strm_same_msg(scene.x, scene.z) && !strm_is_no_msg(scene.x));
		ANSWERS(strm_open_with(&pool, &setting.config, &allocator), STRM_IS_OPEN);
		ANSWERS(strm_memory(&setting.config, &bytes), STRM_OK);
		CHECK(arena->asked == before + 2 && arena->kept == 2);
		ANSWERS(strm_close(&pool), STRM_OK);
		CHECK(arena->kept == 1);
		ANSWERS(strm_close(&pool), STRM_NOT_OPEN);
		ANSWERS(strm_close(&other), STRM_OK);
		CHECK(arena->asked == before + 2 && arena->kept == 0 && arena->broken == 0);
	}
}

/* A thread opens pools in memory of its own, and finds all bytes there. It returns what it got, or null. */
static void *open_in(void *context)
{
	struct arena *arena = (struct arena *)context;
	struct strm_allocator allocator = allocator_of(arena);
	struct strm_pool pool = STRM_POOL_INIT;
	const uint8_t *bytes;
	struct strm_msg msg;
	struct setting setting;
	size_t length, i;

	for (i = 0; i < 2000; i++) {
		fill(&setting, 1 + i % 3, 1 + i % 5, (uint32_t)(1 + i % 70));
		if (strm_open_with(&pool, &setting.config, &allocator) != STRM_OK || strm_allocb(&pool, 8, &msg) != STRM_OK
		    || strm_write(&pool, msg, 0, &i, sizeof i) != STRM_OK || strm_bytes(&pool, msg, 0, &bytes, &length) != STRM_OK
		    || bytes < arena->at || bytes + length > arena->at + arena->size || memcmp(bytes, &i, sizeof i) != 0
		    || strm_close(&pool) != STRM_OK || arena->kept != 0)
			return NULL;
	}
	return context;
}

static void open_in_threads(struct arena *arenas)
{
	pthread_t threads[THREADS];
	void *found;
	int i;

	for (i = 0; i < THREADS; i++)
		CHECK(pthread_create(&threads[i], NULL, open_in, &arenas[i]) == 0);
	for (i = 0; i < THREADS; i++) {
		CHECK(pthread_join(threads[i], &found) == 0);
		CHECK(found == &arenas[i] && arenas[i].broken == 0);
	}
}

/* Two pools with two allocators, and one with malloc, open at the same time. */
static void stay_apart(struct arena *arenas)
{
	struct strm_allocator first = allocator_of(&arenas[0]), second = allocator_of(&arenas[1]);
	struct strm_pool pools[3] = { STRM_POOL_INIT, STRM_POOL_INIT, STRM_POOL_INIT };
	struct strm_msg msgs[3];
	struct setting setting;
	int i;

	fill(&setting, 2, 2, 10);
	ANSWERS(strm_open_with(&pools[0], &setting.config, &first), STRM_OK);
	setting.config.id++;
	ANSWERS(strm_open(&pools[1], &setting.config), STRM_OK);
	setting.config.id++;
	ANSWERS(strm_open_with(&pools[2], &setting.config, &second), STRM_OK);
	memset(&first, 0, sizeof first);
	for (i = 0; i < 3; i++)
		msgs[i] = message(&pools[i], "apart");
	ANSWERS(strm_transfer(&pools[0], &pools[2], msgs[0], &msgs[0]), STRM_OK);
	ANSWERS(strm_close(&pools[0]), STRM_OK);
	CHECK(arenas[0].kept == 0 && arenas[1].kept == 1);
	CHECK(has_bytes(&pools[1], msgs[1], "apart") && has_bytes(&pools[2], msgs[0], "apart"));
	ANSWERS(strm_close(&pools[2]), STRM_OK);
	CHECK(arenas[1].kept == 0);
	ANSWERS(strm_close(&pools[1]), STRM_OK);
}

int main(void)
{
	static struct arena arenas[THREADS];
	int i;

	for (i = 0; i < THREADS; i++) {
		arenas[i].at = rooms[i];
		arenas[i].size = ROOM;
	}
	home = &arenas[0];
	open_each(&arenas[0]);
	refuse(&arenas[0]);
	find_lines(&arenas[0]);
	call_each(&arenas[0]);
	stay_apart(arenas);
	open_in_threads(arenas);
	return summary();
}
