/* Counted checks, for tests that go on after a failed one, and a scene in which each call of calls.h is done. */
#ifndef CHECK_H
#define CHECK_H

#include "calls.h"

#include <string.h>

/* Counts a check, and prints one that fails. */
void check(int holds, const char *file, int line, const char *what);

#define CHECK(what) check(what, __FILE__, __LINE__, #what)

/* A call returns a code. */
#define ANSWERS(call, code) CHECK((call) == (code))

/* The numbers of message blocks that are free, queued and held. */
#define CENSUS(pool, f, q, h) CHECK(has_census(pool, f, q, h))
int has_census(struct strm_pool *pool, uint32_t free, uint32_t queued, uint32_t held);

/* Whether a message has these bytes. */
int has_bytes(struct strm_pool *pool, struct strm_msg msg, const char *bytes);

/* A message of one block with these bytes. */
struct strm_msg message(struct strm_pool *pool, const char *bytes);

/* Whether two names are the same; strm_same_msg is tested itself. */
int same_name(struct strm_msg a, struct strm_msg b);

/*
 * Two pools, of which the first has 16 message blocks, two classes, two wishes and two queues. Queue 0 has three messages, the first of band 1,
 * and its next is queue 1, whose band 0 is full and wanted. Both are enabled. Message x is held, with the blocks `held`, one without bytes, and `too`; z is held, too.
 * The call is done if it is made as set_call puts it there.
 */
#define MBLKS 16

struct scene {
	struct strm_pool *pool, *other;
	struct strm_msg x, z, queued;
	uint32_t wish;
	struct call call;
	struct arguments a;
	struct results results, before;
};

/* `allocator` may be null. */
void open_scene_with(struct scene *scene, struct strm_pool *pool, struct strm_pool *other, uint32_t id, const struct strm_allocator *allocator);
void open_scene(struct scene *scene, struct strm_pool *pool, struct strm_pool *other, uint32_t id);
void close_scene(struct scene *scene);

/* Puts a call into the scene. */
void set_call(struct scene *scene, int verb);

/* Has it name what is not there: other messages, queues, places and blocks. Returns 0 if it names none of them. */
int spoil_call(struct scene *scene);

/* Makes the call, and returns its code. */
int make_call(struct scene *scene);

/* Makes the call, which returns this code and stores nothing but a count of 0, if it is on several messages. `how` says what is wrong with it. */
void refuse_call(struct scene *scene, int code, const char *how);

/* Prints 'N passed, M failed', and returns the exit status. */
int summary(void);

#endif
