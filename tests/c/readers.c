/*
 * Looks in several threads at once. First the handle and all memory of the pool are read-only, so that a look that writes there ends the
 * program by SIGSEGV. Then a thread changes the pool under the write lock of a pthread_rwlock_t, while others look under its read lock: each
 * look answers as it does alone. At last the pool is closed. The linker puts the three functions below in place of malloc, realloc and free.
 * The last line is as in each.c.
 */
#ifndef _GNU_SOURCE
#define _GNU_SOURCE
#endif
#include "check.h"

#include <pthread.h>
#include <sched.h>
#include <stdlib.h>
#include <sys/mman.h>

#define READERS 4
#define LOOKS 2000
#define CHANGES 200
#define ROOM ((size_t)1 << 20)

/* The pages of the scene's pools: their handles are first, and what malloc returned follows. */
static unsigned char *pages;
static size_t used;

#ifdef __cplusplus
extern "C" {
#endif
void *__wrap_malloc(size_t size);
void *__wrap_realloc(void *block, size_t size);
void __wrap_free(void *block);
#ifdef __cplusplus
}
#endif

void *__wrap_malloc(size_t size)
{
	size_t at = used;

	used += (size + 15) / 16 * 16;
	return used <= ROOM ? pages + at : NULL;
}

void *__wrap_realloc(void *block, size_t size)
{
	(void)block;
	(void)size;
	return NULL;
}

void __wrap_free(void *block)
{
	(void)block;
}

/* What all looks answer at one time: each as it is in the scene, and each that can name what is not there. */
struct sight {
	int codes[2][VERBS];
	struct results results[2][VERBS];
	int open;
	char in_place[4], queued[4];
};

/* The scene, and what all looks answer. A thread that reads them has the read lock. */
static struct {
	pthread_rwlock_t lock;
	struct scene scene;
	struct sight sight;
} shared;

static void see(struct sight *sight)
{
	struct scene scene = shared.scene;
	int verb, is_spoilt;

	memset(sight, 0, sizeof *sight);
	sight->open = strm_is_open(scene.pool);
	for (verb = 0; verb < VERBS; verb++)
		for (is_spoilt = 0; is_spoilt < 2 && forms[verb].is_look; is_spoilt++) {
			set_call(&scene, verb);
			if (is_spoilt && !spoil_call(&scene))
				continue;
			sight->codes[is_spoilt][verb] = look_made(&scene.call, scene.pool, &scene.a);
			memcpy(&sight->results[is_spoilt][verb], &scene.results, sizeof scene.results);
			if (verb == IOV && sight->codes[is_spoilt][verb] == STRM_OK)
				memcpy(sight->in_place, scene.results.out.iov[1].base, scene.results.out.iov[1].length);
			if (verb == QUEUED_BYTES && sight->codes[is_spoilt][verb] == STRM_OK)
				memcpy(sight->queued, scene.results.out.bytes, scene.results.done);
		}
}

/* Looks many times, under the read lock. Returns null if each look answered as it does alone. */
static void *look_often(void *given)
{
	void *wrong = NULL;
	struct sight sight;
	int round;

	for (round = 0; round < LOOKS; round++) {
		pthread_rwlock_rdlock(&shared.lock);
		see(&sight);
		if (memcmp(&sight, &shared.sight, sizeof sight) != 0)
			wrong = given;
		pthread_rwlock_unlock(&shared.lock);
		sched_yield();
	}
	return wrong;
}

/* Changes the pool, and looks alone. */
static void change(int round)
{
	struct strm_pool *pool = shared.scene.pool;
	struct strm_msg msg = STRM_NO_MSG;
	uint32_t id = 0;
	char bytes[7];

	memset(bytes, 'a' + round % 26, sizeof bytes);
	ANSWERS(strm_getq(pool, 0, &msg), STRM_OK);
	ANSWERS(strm_freemsg(pool, msg), STRM_OK);
	ANSWERS(strm_allocb(pool, 8, &msg), STRM_OK);
	ANSWERS(strm_write(pool, msg, 0, bytes, 1), STRM_OK);
	ANSWERS(strm_putq(pool, 0, msg), STRM_OK);
	ANSWERS(strm_overwrite(pool, shared.scene.x, 0, bytes, sizeof bytes), STRM_OK);
	ANSWERS(strm_bufcall(pool, 8, &id), STRM_OK);
	ANSWERS(strm_unbufcall(pool, id), STRM_OK);
	see(&shared.sight);
}

/* Looks in several threads, while this one makes this number of changes. */
static void look_together(int changes)
{
	pthread_t readers[READERS];
	void *wrong;
	int i;

	see(&shared.sight);
	for (i = 0; i < READERS; i++)
		ANSWERS(pthread_create(&readers[i], NULL, look_often, &shared), 0);
	for (i = 0; i < changes; i++) {
		pthread_rwlock_wrlock(&shared.lock);
		change(i);
		pthread_rwlock_unlock(&shared.lock);
		sched_yield();
	}
	for (i = 0; i < READERS; i++) {
		ANSWERS(pthread_join(readers[i], &wrong), 0);
		CHECK(wrong == NULL);
	}
}

/* Each look is done in the scene, unless it names what is not there; or the handle is not open. */
static void check_codes(int is_open)
{
	int (*codes)[VERBS] = shared.sight.codes, verb;

	CHECK(shared.sight.open == is_open);
	for (verb = 0; verb < VERBS; verb++)
		if (forms[verb].is_look) {
			ANSWERS(codes[0][verb], is_open ? STRM_OK : STRM_NOT_OPEN);
			CHECK(!names(verb, "xqkme") || (is_open ? codes[1][verb] != STRM_OK : codes[1][verb] == STRM_NOT_OPEN));
		}
}

int main(void)
{
	struct strm_pool *pools;

	pages = (unsigned char *)mmap(NULL, ROOM, PROT_READ | PROT_WRITE, MAP_PRIVATE | MAP_ANONYMOUS, -1, 0);
	CHECK(pages != (unsigned char *)MAP_FAILED && pthread_rwlock_init(&shared.lock, NULL) == 0);
	pools = (struct strm_pool *)pages;
	used = 2 * sizeof *pools;
	open_scene(&shared.scene, &pools[0], &pools[1], 7);
	CHECK(used > 10000);
	ANSWERS(mprotect(pages, ROOM, PROT_READ), 0);
	look_together(0);
	CHECK(memcmp(shared.sight.in_place, "too", 3) == 0 && shared.sight.queued[0] == '1');
	check_codes(1);
	ANSWERS(mprotect(pages, ROOM, PROT_READ | PROT_WRITE), 0);
	look_together(CHANGES);
	ANSWERS(strm_close(shared.scene.pool), STRM_OK);
	look_together(0);
	check_codes(0);
	pthread_rwlock_destroy(&shared.lock);
	munmap(pages, ROOM);
	return summary();
}
