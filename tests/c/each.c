/* Each call of strm.h with each of its answers, and what it leaves. The last line is 'N passed, M failed'. */
#include "check.h"

#include <limits.h>
#include <sys/uio.h>
#include <unistd.h>

/* The next of queue 0 is queue 1, which has no service procedure, and the next of that is queue 2. */
static const struct strm_class_spec classes[] = { { 16, 6 }, { 64, 2 } };
static const struct strm_queue_spec queues[] = { { 10, 4, 1, 1 }, { 10, 4, 0, 2 }, { 10, 4, 1, STRM_NO_QUEUE } };

static struct strm_config config_of(uint32_t mblks)
{
	struct strm_config config;

	config.id = 7;
	config.mblks = mblks;
	config.classes = classes;
	config.class_count = 2;
	config.queues = queues;
	config.queue_count = 3;
	config.bufcalls = 2;
	config.first_id = 1;
	return config;
}

static struct strm_pool opened(uint32_t mblks)
{
	struct strm_pool pool = STRM_POOL_INIT;
	struct strm_config config = config_of(mblks);

	ANSWERS(strm_open(&pool, &config), STRM_OK);
	return pool;
}

/* ---- opening */

/* A configuration is refused, also by strm_memory, and the handle is not open then, whatever it was before. */
static void refuse(const struct strm_config *config, int code)
{
	struct strm_pool pool = STRM_POOL_INIT, unset;
	size_t bytes = 77;

	ANSWERS(strm_open(&pool, config), code);
	CHECK(!strm_is_open(&pool));
	CHECK(pool.at == NULL && pool.state == 0);
	memset(&unset, 0xA5, sizeof unset);
	ANSWERS(strm_open(&unset, config), code);
	CHECK(!strm_is_open(&unset));
	ANSWERS(strm_memory(config, &bytes), code);
	CHECK(bytes == 77);
}

static void refuse_classes(uint32_t size, uint32_t count, uint32_t size_behind, uint32_t count_behind, int code)
{
	struct strm_config config = config_of(8);
	struct strm_class_spec two[2];

	two[0].size = size;
	two[0].count = count;
	two[1].size = size_behind;
	two[1].count = count_behind;
	config.classes = two;
	refuse(&config, code);
}

static void refuse_next(uint32_t first, uint32_t second, uint32_t third)
{
	struct strm_config config = config_of(8);
	struct strm_queue_spec three[3];

	memcpy(three, queues, sizeof three);
	three[0].next = first;
	three[1].next = second;
	three[2].next = third;
	config.queues = three;
	refuse(&config, STRM_BAD_NEXT);
}

static void test_faults(void)
{
	static const struct strm_queue_spec level[] = { { 4, 4, 1, STRM_NO_QUEUE } };
	struct strm_config config = config_of(0);

	refuse(&config, STRM_BAD_MBLKS);
	config = config_of(STRM_MOST_MBLKS + 1);
	refuse(&config, STRM_BAD_MBLKS);
	config = config_of(8);
	config.class_count = 0;
	refuse(&config, STRM_BAD_CLASSES);
	config.classes = NULL;
	refuse(&config, STRM_BAD_CLASSES);
	refuse_classes(0, 1, 16, 1, STRM_BAD_CLASS_SIZE);
	refuse_classes(16, 1, 16, 1, STRM_BAD_CLASS_SIZE);
	refuse_classes(16, 1, STRM_MOST_DATA_BYTES + 1, 1, STRM_BAD_CLASS_SIZE);
	refuse_classes(16, 0, 64, 1, STRM_BAD_CLASS_TOTAL);
	refuse_classes(16, STRM_MOST_DATA_BLOCKS, 64, 1, STRM_BAD_CLASS_TOTAL);
	refuse_classes(16, 0xFFFFFFFFu, 64, 2, STRM_BAD_CLASS_TOTAL);
	config = config_of(8);
	config.queue_count = 0;
	refuse(&config, STRM_BAD_QUEUES);
	config.queues = level;
	config.queue_count = 1;
	refuse(&config, STRM_BAD_QUEUE_MARKS);
	refuse_next(0, STRM_NO_QUEUE, STRM_NO_QUEUE);
	refuse_next(3, STRM_NO_QUEUE, STRM_NO_QUEUE);
	refuse_next(256 + 1, STRM_NO_QUEUE, STRM_NO_QUEUE);
	refuse_next(2, 2, STRM_NO_QUEUE);
	config = config_of(8);
	config.bufcalls = STRM_MOST_WISHES + 1;
	refuse(&config, STRM_BAD_BUFCALLS);
	config.bufcalls = STRM_MOST_WISHES;
	config.first_id = 0;
	refuse(&config, STRM_BAD_FIRST_ID);
	/* of several faults the first is reported */
	config.mblks = 0;
	refuse(&config, STRM_BAD_MBLKS);
}

static void test_open(void)
{
	struct strm_pool pool = STRM_POOL_INIT, other;
	struct strm_config config = config_of(8);

	CHECK(!strm_is_open(&pool));
	ANSWERS(strm_open(&pool, &config), STRM_OK);
	CHECK(strm_is_open(&pool));
	other = pool;
	ANSWERS(strm_open(&pool, &config), STRM_IS_OPEN);
	CHECK(memcmp(&other, &pool, sizeof pool) == 0);
	CENSUS(&pool, 8, 0, 0);
	ANSWERS(strm_close(&pool), STRM_OK);
	CHECK(!strm_is_open(&pool) && pool.at == NULL && pool.state == 0);
	ANSWERS(strm_close(&pool), STRM_NOT_OPEN);
	ANSWERS(strm_open(&pool, &config), STRM_OK);
	ANSWERS(strm_close(&pool), STRM_OK);
}

/* A pool at all its limits is closed with messages held and queued. */
static void test_largest(void)
{
	struct strm_class_spec eight[STRM_MOST_CLASSES];
	struct strm_queue_spec sixteen[STRM_MOST_QUEUES];
	struct strm_pool pool = STRM_POOL_INIT;
	struct strm_config config = config_of(STRM_MOST_MBLKS);
	struct strm_msg msg;
	uint32_t i;
	size_t bytes;

	for (i = 0; i < STRM_MOST_CLASSES; i++) {
		eight[i].size = STRM_MOST_DATA_BYTES - 7 + i;
		eight[i].count = i < 7 ? 1 : STRM_MOST_DATA_BLOCKS - 7;
	}
	for (i = 0; i < STRM_MOST_QUEUES; i++) {
		sixteen[i].hiwat = 0xFFFFFFFFu;
		sixteen[i].lowat = 0xFFFFFFFEu;
		sixteen[i].service = 0xFFFFFFFFu;
		sixteen[i].next = i + 1 < STRM_MOST_QUEUES ? i + 1 : STRM_NO_QUEUE;
	}
	config.classes = eight;
	config.class_count = STRM_MOST_CLASSES;
	config.queues = sixteen;
	config.queue_count = STRM_MOST_QUEUES;
	config.bufcalls = STRM_MOST_WISHES;
	config.first_id = 0xFFFFFFFFu;
	/* which the pages call 68 MB; refused.c compares smaller ones with what malloc is asked for */
	ANSWERS(strm_memory(&config, &bytes), STRM_OK);
	CHECK(67500000 < bytes && bytes < 68500000);
	ANSWERS(strm_open(&pool, &config), STRM_OK);
	for (i = 0; i < STRM_MOST_MBLKS; i++) {
		if (strm_allocb(&pool, 1, &msg) != STRM_OK || (i % 2 == 0 && strm_putq(&pool, i % STRM_MOST_QUEUES, msg) != STRM_OK))
			break;
	}
	CHECK(i == STRM_MOST_MBLKS);
	CENSUS(&pool, 0, 8192, 8191);
	ANSWERS(strm_allocb(&pool, 1, &msg), STRM_NO_MBLK);
	ANSWERS(strm_close(&pool), STRM_OK);
}

/* ---- messages */

static void test_allocb(void)
{
	struct strm_pool pool = opened(3);
	struct strm_msg a, b, c, none = STRM_NO_MSG, kept;
	struct strm_block_info block;
	uint32_t yes;

	ANSWERS(strm_testb(&pool, 64, &yes), STRM_OK);
	CHECK(yes == 1);
	ANSWERS(strm_testb(&pool, 65, &yes), STRM_OK);
	CHECK(yes == 0);
	kept = none;
	ANSWERS(strm_allocb(&pool, 65, &kept), STRM_TOO_LARGE);
	CHECK(same_name(kept, none));
	ANSWERS(strm_allocb(&pool, 0xFFFFFFFFu, &kept), STRM_TOO_LARGE);
	ANSWERS(strm_allocb(&pool, 17, &a), STRM_OK);
	CHECK(a.pool == 7 && a.head == 0 && a.stamp == 1);
	ANSWERS(strm_block(&pool, a, 0, &block), STRM_OK);
	CHECK(block.type == STRM_M_DATA && block.length == 0 && block.band == 0 && block.room == 64 && block.names == 1);
	ANSWERS(strm_allocb(&pool, 64, &b), STRM_OK);
	ANSWERS(strm_allocb(&pool, 64, &kept), STRM_NO_DATA);
	ANSWERS(strm_testb(&pool, 64, &yes), STRM_OK);
	CHECK(yes == 0);
	ANSWERS(strm_allocb(&pool, 0, &c), STRM_OK);
	ANSWERS(strm_block(&pool, c, 0, &block), STRM_OK);
	CHECK(block.room == 16);
	/* NO_MBLK comes before NO_DATA, and TOO_LARGE before both */
	ANSWERS(strm_allocb(&pool, 64, &kept), STRM_NO_MBLK);
	ANSWERS(strm_allocb(&pool, 65, &kept), STRM_TOO_LARGE);
	CHECK(same_name(kept, none));
	CENSUS(&pool, 0, 0, 3);
	ANSWERS(strm_freemsg(&pool, b), STRM_OK);
	ANSWERS(strm_allocb(&pool, 64, &kept), STRM_OK);
	CHECK(kept.head == b.head && kept.stamp == b.stamp + 1);
	ANSWERS(strm_close(&pool), STRM_OK);
}

/* Of message blocks, and of data blocks of a class, the one that was freed last is taken first; those never used come by rising numbers. */
static void test_blocks_taken(void)
{
	/* the blocks of the three messages that were freed, the last one first, and then new ones */
	static const uint32_t wanted[] = { 1, 3, 2, 0, 4, 5 };
	struct strm_pool pool = opened(8);
	struct strm_msg msgs[6];
	struct strm_block_place where;
	int i;

	for (i = 0; i < 4; i++)
		msgs[i] = message(&pool, "a");
	ANSWERS(strm_linkb(&pool, msgs[2], msgs[3]), STRM_OK);
	ANSWERS(strm_freemsg(&pool, msgs[0]), STRM_OK);
	ANSWERS(strm_freemsg(&pool, msgs[2]), STRM_OK);
	ANSWERS(strm_freemsg(&pool, msgs[1]), STRM_OK);
	for (i = 0; i < 6; i++) {
		msgs[i] = message(&pool, "a");
		ANSWERS(strm_place(&pool, msgs[i], 0, &where), STRM_OK);
		CHECK(msgs[i].head == wanted[i] && where.data == wanted[i]);
	}
	/* no data block of the first class is left */
	ANSWERS(strm_allocb(&pool, 1, &msgs[0]), STRM_OK);
	ANSWERS(strm_place(&pool, msgs[0], 0, &where), STRM_OK);
	CHECK(msgs[0].head == 6 && where.data == 6 && where.capacity == 64);
	ANSWERS(strm_close(&pool), STRM_OK);
}

static void test_duplicates(void)
{
	struct strm_pool pool = opened(5);
	struct strm_msg a = message(&pool, "abc"), b = message(&pool, "de"), copy, kept = STRM_NO_MSG;
	struct strm_block_info block;

	ANSWERS(strm_linkb(&pool, a, b), STRM_OK);
	ANSWERS(strm_setband(&pool, a, 3), STRM_OK);
	ANSWERS(strm_dupb(&pool, a, &copy), STRM_OK);
	CHECK(has_bytes(&pool, copy, "abc"));
	ANSWERS(strm_block(&pool, copy, 0, &block), STRM_OK);
	CHECK(block.names == 2 && block.band == 3 && block.room == 13);
	ANSWERS(strm_block(&pool, copy, 1, &block), STRM_NO_SUCH_BLOCK);
	ANSWERS(strm_dupmsg(&pool, a, &copy), STRM_OK);
	CHECK(has_bytes(&pool, copy, "abcde"));
	CENSUS(&pool, 0, 0, 5);
	ANSWERS(strm_dupb(&pool, a, &kept), STRM_NO_MBLK);
	ANSWERS(strm_dupmsg(&pool, a, &kept), STRM_NO_MBLK);
	ANSWERS(strm_copyb(&pool, a, &kept), STRM_NO_MBLK);
	ANSWERS(strm_copymsg(&pool, a, &kept), STRM_NO_MBLK);
	CHECK(kept.stamp == 0);
	ANSWERS(strm_close(&pool), STRM_OK);
}

static void test_most_names(void)
{
	struct strm_pool pool = opened(400);
	struct strm_msg a = message(&pool, "abc"), b, copy = STRM_NO_MSG, kept = STRM_NO_MSG;
	struct strm_block_info block;
	int i;

	for (i = 1; i < STRM_MOST_NAMES; i++)
		if (strm_dupb(&pool, a, &copy) != STRM_OK)
			break;
	CHECK(i == STRM_MOST_NAMES);
	ANSWERS(strm_block(&pool, a, 0, &block), STRM_OK);
	CHECK(block.names == 255);
	ANSWERS(strm_dupb(&pool, a, &kept), STRM_REF_MAX);
	/* all or nothing: the other block's data gets no reference */
	b = message(&pool, "de");
	ANSWERS(strm_linkb(&pool, b, copy), STRM_OK);
	ANSWERS(strm_dupmsg(&pool, b, &kept), STRM_REF_MAX);
	ANSWERS(strm_block(&pool, b, 0, &block), STRM_OK);
	CHECK(block.names == 1);
	CHECK(kept.stamp == 0);
	ANSWERS(strm_freemsg(&pool, b), STRM_OK);
	ANSWERS(strm_dupb(&pool, a, &kept), STRM_OK);
	ANSWERS(strm_close(&pool), STRM_OK);
}

static void test_copies(void)
{
	struct strm_pool pool = opened(12);
	struct strm_msg a = message(&pool, "abcdef"), b = message(&pool, "gh"), copy, kept = STRM_NO_MSG;
	struct strm_class_info info;
	struct strm_block_info block;

	ANSWERS(strm_adjmsg(&pool, a, 2), STRM_OK);
	ANSWERS(strm_settype(&pool, a, 0, STRM_M_PROTO), STRM_OK);
	ANSWERS(strm_copyb(&pool, a, &copy), STRM_OK);
	CHECK(has_bytes(&pool, copy, "cdef"));
	ANSWERS(strm_block(&pool, copy, 0, &block), STRM_OK);
	CHECK(block.type == STRM_M_PROTO && block.names == 1 && block.room == 10);
	ANSWERS(strm_write(&pool, copy, 0, "!", 1), STRM_OK);
	CHECK(has_bytes(&pool, a, "cdef"));
	ANSWERS(strm_linkb(&pool, a, b), STRM_OK);
	ANSWERS(strm_copymsg(&pool, a, &copy), STRM_OK);
	CHECK(has_bytes(&pool, copy, "cdefgh"));
	/* one of the six data blocks of 16 bytes is free, and both of 64 bytes are */
	ANSWERS(strm_copymsg(&pool, a, &copy), STRM_OK);
	ANSWERS(strm_copymsg(&pool, a, &kept), STRM_NO_DATA);
	ANSWERS(strm_class_info(&pool, 1, &info), STRM_OK);
	CHECK(info.size == 64 && info.free == 1 && info.total == 2);
	ANSWERS(strm_copyb(&pool, a, &copy), STRM_OK);
	ANSWERS(strm_copyb(&pool, a, &kept), STRM_NO_DATA);
	CHECK(kept.stamp == 0);
	ANSWERS(strm_close(&pool), STRM_OK);
}

static void test_freeing(void)
{
	struct strm_pool pool = opened(4);
	struct strm_msg a = message(&pool, "a"), b = message(&pool, "b"), rest = STRM_NO_MSG, none = STRM_NO_MSG;

	ANSWERS(strm_linkb(&pool, a, b), STRM_OK);
	ANSWERS(strm_freeb(&pool, a, &rest), STRM_OK);
	CHECK(rest.head == b.head && rest.stamp == b.stamp + 1);
	CHECK(has_bytes(&pool, rest, "b"));
	CENSUS(&pool, 3, 0, 1);
	/* the name that is passed may be where the rest goes */
	ANSWERS(strm_freeb(&pool, rest, &rest), STRM_NONE);
	CHECK(same_name(rest, none));
	CENSUS(&pool, 4, 0, 0);
	a = message(&pool, "a");
	ANSWERS(strm_freemsg(&pool, a), STRM_OK);
	CENSUS(&pool, 4, 0, 0);
	ANSWERS(strm_close(&pool), STRM_OK);
}

static void test_bytes(void)
{
	struct strm_pool pool = opened(4);
	struct strm_msg a = message(&pool, "abc"), b = message(&pool, "defg"), copy;
	char room[8];
	size_t count;
	uint32_t bytes;

	ANSWERS(strm_write(&pool, a, 1, "x", 1), STRM_NO_SUCH_BLOCK);
	ANSWERS(strm_write(&pool, a, 1, NULL, 0), STRM_NO_SUCH_BLOCK);
	ANSWERS(strm_write(&pool, a, 0, "0123456789ABCD", 14), STRM_NO_ROOM);
	ANSWERS(strm_write(&pool, a, 0, "0123456789ABC", 13), STRM_OK);
	ANSWERS(strm_write(&pool, a, 0, "", 0), STRM_OK);
	ANSWERS(strm_write(&pool, a, 0, NULL, 0), STRM_OK);
	ANSWERS(strm_write(&pool, a, 0, "x", 1), STRM_NO_ROOM);
	ANSWERS(strm_dupb(&pool, a, &copy), STRM_OK);
	ANSWERS(strm_write(&pool, a, 0, "x", 1), STRM_SHARED);
	ANSWERS(strm_write(&pool, a, 0, NULL, 0), STRM_SHARED);
	ANSWERS(strm_settype(&pool, a, 0, STRM_M_DATA), STRM_SHARED);
	ANSWERS(strm_settype(&pool, a, 1, STRM_M_DATA), STRM_NO_SUCH_BLOCK);
	ANSWERS(strm_settype(&pool, b, 0, STRM_M_IOCDATA), STRM_OK);
	ANSWERS(strm_linkb(&pool, a, b), STRM_OK);
	ANSWERS(strm_size(&pool, a, &bytes), STRM_OK);
	CHECK(bytes == 20);
	ANSWERS(strm_msgdsize(&pool, a, &bytes), STRM_OK);
	CHECK(bytes == 16);
	memset(room, '.', sizeof room);
	ANSWERS(strm_read(&pool, a, 15, room, 3, &count), STRM_OK);
	CHECK(count == 3 && memcmp(room, "Cde.....", 8) == 0);
	memset(room, '.', sizeof room);
	ANSWERS(strm_read(&pool, a, 18, room, sizeof room, &count), STRM_OK);
	CHECK(count == 2 && memcmp(room, "fg......", 8) == 0);
	ANSWERS(strm_read(&pool, a, 20, room, sizeof room, &count), STRM_OK);
	CHECK(count == 0);
	ANSWERS(strm_read(&pool, a, 0xFFFFFFFFu, room, sizeof room, &count), STRM_OK);
	CHECK(count == 0);
	ANSWERS(strm_read(&pool, a, 0, NULL, 0, &count), STRM_OK);
	CHECK(count == 0);
	ANSWERS(strm_close(&pool), STRM_OK);
}

static void test_types(void)
{
	struct strm_pool pool = opened(4);
	struct strm_msg a = message(&pool, "a"), b;
	struct strm_block_info block;
	uint32_t type;

	for (type = 0; type < STRM_TYPES; type++) {
		ANSWERS(strm_settype(&pool, a, 0, type), STRM_OK);
		ANSWERS(strm_block(&pool, a, 0, &block), STRM_OK);
		CHECK(block.type == type);
	}
	/* on a queue, an ordinary message keeps its band, and a high priority one loses it */
	for (type = 0; type < STRM_TYPES; type++) {
		ANSWERS(strm_settype(&pool, a, 0, type), STRM_OK);
		ANSWERS(strm_setband(&pool, a, 255), STRM_OK);
		ANSWERS(strm_putq(&pool, 0, a), STRM_OK);
		ANSWERS(strm_getq(&pool, 0, &b), STRM_OK);
		ANSWERS(strm_block(&pool, b, 0, &block), STRM_OK);
		CHECK(block.band == (type < STRM_M_IOCACK ? 255 : 0));
		a = b;
	}
	ANSWERS(strm_close(&pool), STRM_OK);
}

static void test_joining(void)
{
	struct strm_pool pool = opened(6);
	struct strm_msg a = message(&pool, "ab"), b = message(&pool, "cd"), c = message(&pool, "ef"), block, rest = STRM_NO_MSG;
	struct strm_msg none = STRM_NO_MSG;

	ANSWERS(strm_linkb(&pool, a, b), STRM_OK);
	ANSWERS(strm_linkb(&pool, a, c), STRM_OK);
	CHECK(has_bytes(&pool, a, "abcdef"));
	ANSWERS(strm_unlinkb(&pool, a, &rest), STRM_OK);
	CHECK(has_bytes(&pool, a, "ab") && has_bytes(&pool, rest, "cdef"));
	CHECK(rest.head == b.head && rest.stamp == b.stamp + 1);
	ANSWERS(strm_unlinkb(&pool, a, &c), STRM_NONE);
	CHECK(has_bytes(&pool, a, "ab") && same_name(c, none));
	ANSWERS(strm_linkb(&pool, a, rest), STRM_OK);
	ANSWERS(strm_rmvb(&pool, a, 3, &block, &rest), STRM_NO_SUCH_BLOCK);
	CHECK(has_bytes(&pool, a, "abcdef"));
	ANSWERS(strm_rmvb(&pool, a, 1, &block, &rest), STRM_OK);
	CHECK(has_bytes(&pool, block, "cd") && has_bytes(&pool, rest, "abef"));
	CHECK(rest.head == a.head && rest.stamp == a.stamp + 1);
	ANSWERS(strm_rmvb(&pool, rest, 0, &a, &b), STRM_OK);
	CHECK(has_bytes(&pool, a, "ab") && has_bytes(&pool, b, "ef"));
	ANSWERS(strm_rmvb(&pool, a, 0, &c, &rest), STRM_OK);
	CHECK(has_bytes(&pool, c, "ab") && same_name(rest, none));
	CENSUS(&pool, 3, 0, 3);
	ANSWERS(strm_close(&pool), STRM_OK);
}

static void test_trimming(void)
{
	struct strm_pool pool = opened(6);
	struct strm_msg a = message(&pool, "abc"), b = message(&pool, "defg"), c = message(&pool, "h");
	struct strm_block_info block;

	ANSWERS(strm_settype(&pool, c, 0, STRM_M_CTL), STRM_OK);
	ANSWERS(strm_linkb(&pool, a, b), STRM_OK);
	ANSWERS(strm_linkb(&pool, a, c), STRM_OK);
	ANSWERS(strm_adjmsg(&pool, a, 8), STRM_SHORT);
	ANSWERS(strm_adjmsg(&pool, a, -2), STRM_SHORT);
	ANSWERS(strm_adjmsg(&pool, a, 2147483647), STRM_SHORT);
	ANSWERS(strm_adjmsg(&pool, a, -2147483647 - 1), STRM_SHORT);
	ANSWERS(strm_adjmsg(&pool, a, 0), STRM_OK);
	CHECK(has_bytes(&pool, a, "abcdefgh"));
	ANSWERS(strm_adjmsg(&pool, a, 4), STRM_OK);
	ANSWERS(strm_adjmsg(&pool, a, -1), STRM_OK);
	CHECK(has_bytes(&pool, a, "efg"));
	ANSWERS(strm_block(&pool, a, 2, &block), STRM_OK);
	CHECK(block.length == 0 && block.room == 16);
	ANSWERS(strm_pullupmsg(&pool, a, -2), STRM_SHORT);
	ANSWERS(strm_pullupmsg(&pool, a, 4), STRM_SHORT);
	ANSWERS(strm_pullupmsg(&pool, a, 0), STRM_OK);
	ANSWERS(strm_pullupmsg(&pool, a, 2), STRM_OK);
	ANSWERS(strm_block(&pool, a, 0, &block), STRM_OK);
	CHECK(block.length == 2 && block.room == 14);
	ANSWERS(strm_pullupmsg(&pool, a, -1), STRM_OK);
	ANSWERS(strm_block(&pool, a, 0, &block), STRM_OK);
	CHECK(block.length == 3 && block.type == STRM_M_DATA);
	ANSWERS(strm_block(&pool, a, 1, &block), STRM_OK);
	CHECK(block.type == STRM_M_CTL);
	CHECK(has_bytes(&pool, a, "efg"));
	ANSWERS(strm_close(&pool), STRM_OK);
}

static void test_pullup_refused(void)
{
	static const struct strm_class_spec one[] = { { 4, 3 } };
	struct strm_pool pool = STRM_POOL_INIT;
	struct strm_config config = config_of(6);
	struct strm_msg a, b, c;

	config.classes = one;
	config.class_count = 1;
	ANSWERS(strm_open(&pool, &config), STRM_OK);
	a = message(&pool, "ab");
	b = message(&pool, "cdef");
	ANSWERS(strm_linkb(&pool, a, b), STRM_OK);
	ANSWERS(strm_pullupmsg(&pool, a, -1), STRM_TOO_LARGE);
	c = message(&pool, "gh");
	ANSWERS(strm_pullupmsg(&pool, a, 3), STRM_NO_DATA);
	CHECK(has_bytes(&pool, a, "abcdef"));
	ANSWERS(strm_freemsg(&pool, c), STRM_OK);
	ANSWERS(strm_pullupmsg(&pool, a, 3), STRM_OK);
	CHECK(has_bytes(&pool, a, "abcdef"));
	ANSWERS(strm_close(&pool), STRM_OK);
}

/* ---- bytes in place */

static void test_blocks(void)
{
	struct strm_pool pool = opened(6);
	struct strm_msg a = message(&pool, "abc"), b = message(&pool, "de"), c = message(&pool, "f"), copy;
	struct strm_block_info blocks[4], untouched;
	size_t count = 9;

	memset(&untouched, 0xA5, sizeof untouched);
	memset(blocks, 0xA5, sizeof blocks);
	ANSWERS(strm_setband(&pool, b, 3), STRM_OK);
	ANSWERS(strm_settype(&pool, c, 0, STRM_M_CTL), STRM_OK);
	ANSWERS(strm_dupb(&pool, c, &copy), STRM_OK);
	ANSWERS(strm_linkb(&pool, a, b), STRM_OK);
	ANSWERS(strm_linkb(&pool, a, c), STRM_OK);
	ANSWERS(strm_blocks(&pool, a, 0, blocks, 4, &count), STRM_OK);
	CHECK(count == 3 && memcmp(&blocks[3], &untouched, sizeof untouched) == 0);
	CHECK(blocks[0].type == STRM_M_DATA && blocks[0].length == 3 && blocks[0].band == 0 && blocks[0].room == 13);
	CHECK(blocks[0].names == 1 && blocks[1].length == 2 && blocks[1].band == 3);
	CHECK(blocks[2].type == STRM_M_CTL && blocks[2].length == 1 && blocks[2].names == 2);
	memset(blocks, 0xA5, sizeof blocks);
	ANSWERS(strm_blocks(&pool, a, 1, blocks, 1, &count), STRM_OK);
	CHECK(count == 1 && blocks[0].length == 2 && memcmp(&blocks[1], &untouched, sizeof untouched) == 0);
	ANSWERS(strm_blocks(&pool, a, 3, blocks, 4, &count), STRM_OK);
	CHECK(count == 0 && blocks[0].length == 2);
	count = 9;
	ANSWERS(strm_blocks(&pool, a, 0xFFFFFFFFu, blocks, 4, &count), STRM_OK);
	CHECK(count == 0);
	count = 9;
	ANSWERS(strm_blocks(&pool, a, 0, NULL, 0, &count), STRM_OK);
	CHECK(count == 0);
	ANSWERS(strm_close(&pool), STRM_OK);
}

static void test_bytes_in_place(void)
{
	struct strm_pool pool = opened(6);
	struct strm_msg a = message(&pool, "abc"), b = message(&pool, "defg"), empty, copy;
	struct strm_iov iov[4], unused;
	const uint8_t *bytes = NULL, *of_copy = NULL;
	size_t length = 9, count = 9;

	ANSWERS(strm_bytes(&pool, a, 0, &bytes, &length), STRM_OK);
	CHECK(length == 3 && memcmp(bytes, "abc", 3) == 0);
	/* a duplicate has the same bytes at the same address, and places of its own */
	ANSWERS(strm_dupb(&pool, a, &copy), STRM_OK);
	ANSWERS(strm_adjmsg(&pool, copy, 1), STRM_OK);
	ANSWERS(strm_bytes(&pool, a, 0, &bytes, &length), STRM_OK);
	ANSWERS(strm_bytes(&pool, copy, 0, &of_copy, &length), STRM_OK);
	CHECK(of_copy == bytes + 1 && length == 2);
	ANSWERS(strm_bytes(&pool, copy, 1, &of_copy, &length), STRM_NO_SUCH_BLOCK);
	ANSWERS(strm_bytes(&pool, copy, 0xFFFFFFFFu, &of_copy, &length), STRM_NO_SUCH_BLOCK);
	CHECK(of_copy == bytes + 1 && length == 2);
	ANSWERS(strm_allocb(&pool, 0, &empty), STRM_OK);
	ANSWERS(strm_bytes(&pool, empty, 0, &of_copy, &length), STRM_OK);
	CHECK(length == 0);
	ANSWERS(strm_linkb(&pool, a, empty), STRM_OK);
	ANSWERS(strm_linkb(&pool, a, b), STRM_OK);
	memset(iov, 0xA5, sizeof iov);
	unused = iov[3];
	ANSWERS(strm_iov(&pool, a, 0, iov, 4, &count), STRM_OK);
	CHECK(count == 3 && iov[0].base == bytes && iov[0].length == 3 && iov[1].length == 0);
	CHECK(iov[2].length == 4 && memcmp(iov[2].base, "defg", 4) == 0);
	CHECK(iov[3].base == unused.base && iov[3].length == unused.length);
	ANSWERS(strm_bytes(&pool, a, 2, &bytes, &length), STRM_OK);
	CHECK(bytes == iov[2].base && length == 4);
	ANSWERS(strm_iov(&pool, a, 2, iov, 1, &count), STRM_OK);
	CHECK(count == 1 && iov[0].base == bytes && iov[0].length == 4);
	ANSWERS(strm_iov(&pool, a, 3, iov, 4, &count), STRM_OK);
	CHECK(count == 0 && iov[0].base == bytes);
	count = 9;
	ANSWERS(strm_iov(&pool, a, 0xFFFFFFFFu, iov, 4, &count), STRM_OK);
	CHECK(count == 0);
	count = 9;
	ANSWERS(strm_iov(&pool, a, 0, NULL, 0, &count), STRM_OK);
	CHECK(count == 0);
	ANSWERS(strm_close(&pool), STRM_OK);
}

/* The bytes of a message leave by writev, which takes the array as it is. */
static void test_writev(void)
{
	struct strm_pool pool = opened(4);
	struct strm_msg msg = message(&pool, "lion"), comma = message(&pool, ", ");
	struct strm_iov iov[4];
	size_t count;
	char found[16];
	int ends[2];

	CHECK(sizeof(struct strm_iov) == sizeof(struct iovec));
	CHECK(offsetof(struct strm_iov, base) == offsetof(struct iovec, iov_base));
	CHECK(offsetof(struct strm_iov, length) == offsetof(struct iovec, iov_len));
	ANSWERS(strm_linkb(&pool, msg, comma), STRM_OK);
	ANSWERS(strm_linkb(&pool, msg, message(&pool, "wolf")), STRM_OK);
	ANSWERS(strm_iov(&pool, msg, 0, iov, 4, &count), STRM_OK);
	CHECK(count == 3 && pipe(ends) == 0);
	CHECK(writev(ends[1], (const struct iovec *)iov, (int)count) == 10);
	CHECK(read(ends[0], found, sizeof found) == 10 && memcmp(found, "lion, wolf", 10) == 0);
	CHECK(close(ends[0]) == 0 && close(ends[1]) == 0);
	ANSWERS(strm_close(&pool), STRM_OK);
}

/* What strm_bytes and strm_iov gave of message x of a scene. */
struct lent {
	const uint8_t *bytes;
	struct strm_iov iov[3];
};

/* Whether the bytes are still where they were. */
static int is_still(struct scene *scene, const struct lent *lent)
{
	const uint8_t *bytes;
	size_t length;

	return memcmp(lent->bytes, "held", 4) == 0 && memcmp(lent->iov[0].base, "held", 4) == 0 && memcmp(lent->iov[2].base, "too", 3) == 0
		&& strm_bytes(scene->pool, scene->x, 0, &bytes, &length) == STRM_OK && bytes == lent->bytes && length == 4;
}

/* A look leaves pointers good, whatever it returns. */
static void look(struct scene *scene, const struct lent *lent)
{
	int verb, fails;

	for (verb = 0; verb < VERBS; verb++)
		if (forms[verb].is_look) {
			set_call(scene, verb);
			CHECK(make_call(scene) == STRM_OK && is_still(scene, lent));
			fails = spoil_call(scene);
			CHECK((make_call(scene) != STRM_OK) == fails && is_still(scene, lent));
		}
	CHECK(strm_is_open(scene->pool) && is_still(scene, lent));
}

/* Pointers into a pool are good over looks, and after its handle was moved. */
static void test_pointers(void)
{
	struct scene scene;
	struct strm_pool pool, other, moved;
	struct lent lent;
	size_t count;

	open_scene(&scene, &pool, &other, 7);
	ANSWERS(strm_bytes(&pool, scene.x, 0, &lent.bytes, &count), STRM_OK);
	ANSWERS(strm_iov(&pool, scene.x, 0, lent.iov, 3, &count), STRM_OK);
	CHECK(count == 3 && is_still(&scene, &lent));
	look(&scene, &lent);
	moved = pool;
	memset(&pool, 0xA5, sizeof pool);
	scene.pool = &moved;
	CHECK(is_still(&scene, &lent));
	look(&scene, &lent);
	close_scene(&scene);
}

static void test_place(void)
{
	struct strm_pool pool = opened(6);
	struct strm_msg a = message(&pool, "abc"), large, copy;
	struct strm_block_place where, kept;
	uint32_t number = 99;

	ANSWERS(strm_place(&pool, a, 0, &where), STRM_OK);
	CHECK(where.data == 0 && where.at == 0 && where.length == 3 && where.capacity == 16);
	/* the first class has six data blocks */
	ANSWERS(strm_allocb(&pool, 17, &large), STRM_OK);
	ANSWERS(strm_place(&pool, large, 0, &where), STRM_OK);
	CHECK(where.data == 6 && where.at == 0 && where.length == 0 && where.capacity == 64);
	ANSWERS(strm_dupb(&pool, a, &copy), STRM_OK);
	ANSWERS(strm_adjmsg(&pool, copy, 2), STRM_OK);
	ANSWERS(strm_linkb(&pool, large, copy), STRM_OK);
	ANSWERS(strm_place(&pool, large, 1, &where), STRM_OK);
	CHECK(where.data == 0 && where.at == 2 && where.length == 1 && where.capacity == 16);
	kept = where;
	ANSWERS(strm_place(&pool, large, 2, &where), STRM_NO_SUCH_BLOCK);
	ANSWERS(strm_place(&pool, large, 0xFFFFFFFFu, &where), STRM_NO_SUCH_BLOCK);
	CHECK(memcmp(&where, &kept, sizeof kept) == 0);
	ANSWERS(strm_block_number(&pool, large, 0, &number), STRM_OK);
	CHECK(number == large.head);
	ANSWERS(strm_block_number(&pool, large, 1, &number), STRM_OK);
	CHECK(number == copy.head);
	ANSWERS(strm_block_number(&pool, large, 2, &number), STRM_NO_SUCH_BLOCK);
	ANSWERS(strm_block_number(&pool, large, 0xFFFFFFFFu, &number), STRM_NO_SUCH_BLOCK);
	ANSWERS(strm_block_number(&pool, copy, 0, &number), STRM_INVALID);
	CHECK(number == copy.head);
	ANSWERS(strm_close(&pool), STRM_OK);
}

/* Where a call finds room, what is written there is in the message, and a refused call stores no address. */
static void test_writable(void)
{
	struct strm_pool pool = opened(6);
	struct strm_msg a, copy;
	uint8_t *room = NULL, *bytes = NULL, *base = NULL, *kept;
	const uint8_t *lent;
	size_t length = 9, capacity = 9;

	ANSWERS(strm_allocb(&pool, 16, &a), STRM_OK);
	ANSWERS(strm_reserve(&pool, a, 0, 4), STRM_OK);
	ANSWERS(strm_room(&pool, a, 0, &room, &length), STRM_OK);
	CHECK(length == 12);
	memcpy(room, "lions", 5);
	CHECK(has_bytes(&pool, a, ""));
	ANSWERS(strm_advance(&pool, a, 0, 4), STRM_OK);
	CHECK(has_bytes(&pool, a, "lion"));
	ANSWERS(strm_edit(&pool, a, 0, &bytes, &length), STRM_OK);
	CHECK(length == 4 && bytes == room);
	ANSWERS(strm_window(&pool, a, 0, &base, &capacity), STRM_OK);
	CHECK(capacity == 16 && base + 4 == bytes);
	ANSWERS(strm_room(&pool, a, 0, &room, &length), STRM_OK);
	CHECK(length == 8 && room == bytes + 4 && *room == 's');
	ANSWERS(strm_bytes(&pool, a, 0, &lent, &length), STRM_OK);
	CHECK(lent == bytes && length == 4);
	/* none of these ends an address */
	bytes[0] = 'L';
	memcpy(base, "the ", 4);
	CHECK(lent[0] == 'L' && has_bytes(&pool, a, "Lion"));
	ANSWERS(strm_prepend(&pool, a, NULL, 0), STRM_OK);
	ANSWERS(strm_shape(&pool, a, 0, 0, 9), STRM_OK);
	CHECK(has_bytes(&pool, a, "the Lions"));
	/* refused, even for no bytes */
	kept = room;
	length = 9;
	ANSWERS(strm_room(&pool, a, 1, &room, &length), STRM_NO_SUCH_BLOCK);
	ANSWERS(strm_edit(&pool, a, 1, &room, &length), STRM_NO_SUCH_BLOCK);
	ANSWERS(strm_window(&pool, a, 0xFFFFFFFFu, &room, &length), STRM_NO_SUCH_BLOCK);
	ANSWERS(strm_dupb(&pool, a, &copy), STRM_OK);
	ANSWERS(strm_room(&pool, a, 1, &room, &length), STRM_NO_SUCH_BLOCK);
	ANSWERS(strm_room(&pool, a, 0, &room, &length), STRM_SHARED);
	ANSWERS(strm_edit(&pool, copy, 0, &room, &length), STRM_SHARED);
	ANSWERS(strm_window(&pool, a, 0, &room, &length), STRM_SHARED);
	CHECK(room == kept && length == 9);
	ANSWERS(strm_freemsg(&pool, copy), STRM_OK);
	/* no room, and no bytes */
	ANSWERS(strm_advance(&pool, a, 0, 7), STRM_OK);
	room = NULL;
	ANSWERS(strm_room(&pool, a, 0, &room, &length), STRM_OK);
	CHECK(length == 0 && room != NULL);
	ANSWERS(strm_adjmsg(&pool, a, 16), STRM_OK);
	bytes = NULL;
	ANSWERS(strm_edit(&pool, a, 0, &bytes, &length), STRM_OK);
	CHECK(length == 0 && bytes != NULL);
	/* of the second block */
	ANSWERS(strm_shape(&pool, a, 0, 0, 0), STRM_OK);
	ANSWERS(strm_linkb(&pool, a, message(&pool, "wolf")), STRM_OK);
	ANSWERS(strm_edit(&pool, a, 1, &bytes, &length), STRM_OK);
	CHECK(length == 4 && memcmp(bytes, "wolf", 4) == 0);
	ANSWERS(strm_room(&pool, a, 1, &room, &length), STRM_OK);
	CHECK(length == 12 && room == bytes + 4);
	ANSWERS(strm_close(&pool), STRM_OK);
}

/* The room of two messages is filled by one call of readv. */
static void test_readv(void)
{
	struct strm_pool pool = opened(6);
	struct strm_msg msgs[2];
	struct iovec into[2];
	uint8_t *room = NULL;
	size_t i, length;
	int ends[2];

	for (i = 0; i < 2; i++) {
		ANSWERS(strm_allocb(&pool, 16, &msgs[i]), STRM_OK);
		ANSWERS(strm_room(&pool, msgs[i], 0, &room, &length), STRM_OK);
		into[i].iov_base = room;
		into[i].iov_len = length;
	}
	CHECK(pipe(ends) == 0 && write(ends[1], "0123456789abcdefwolf", 20) == 20);
	CHECK(readv(ends[0], into, 2) == 20);
	ANSWERS(strm_advance(&pool, msgs[0], 0, 16), STRM_OK);
	ANSWERS(strm_advance(&pool, msgs[1], 0, 4), STRM_OK);
	CHECK(has_bytes(&pool, msgs[0], "0123456789abcdef") && has_bytes(&pool, msgs[1], "wolf"));
	CHECK(close(ends[0]) == 0 && close(ends[1]) == 0);
	ANSWERS(strm_close(&pool), STRM_OK);
}

/* The places of a block move, also where its data block is shared, and its other block's places stay. */
static void test_shape(void)
{
	struct strm_pool pool = opened(6);
	struct strm_msg a = message(&pool, "abcdef"), copy;
	struct strm_block_place where;

	ANSWERS(strm_shape(&pool, a, 1, 0, 0), STRM_NO_SUCH_BLOCK);
	ANSWERS(strm_shape(&pool, a, 0, 0, 17), STRM_NO_ROOM);
	ANSWERS(strm_shape(&pool, a, 0, 17, 0), STRM_NO_ROOM);
	ANSWERS(strm_shape(&pool, a, 0, 8, 9), STRM_NO_ROOM);
	ANSWERS(strm_shape(&pool, a, 0, 0xFFFFFFFFu, 2), STRM_NO_ROOM);
	ANSWERS(strm_shape(&pool, a, 0, 2, 0xFFFFFFFFu), STRM_NO_ROOM);
	CHECK(has_bytes(&pool, a, "abcdef"));
	ANSWERS(strm_dupb(&pool, a, &copy), STRM_OK);
	ANSWERS(strm_shape(&pool, copy, 0, 2, 3), STRM_OK);
	CHECK(has_bytes(&pool, copy, "cde") && has_bytes(&pool, a, "abcdef"));
	ANSWERS(strm_shape(&pool, copy, 0, 16, 0), STRM_OK);
	ANSWERS(strm_place(&pool, copy, 0, &where), STRM_OK);
	CHECK(where.at == 16 && where.length == 0);
	ANSWERS(strm_shape(&pool, copy, 0, 0, 6), STRM_OK);
	CHECK(has_bytes(&pool, copy, "abcdef"));
	ANSWERS(strm_close(&pool), STRM_OK);
}

/* Places, types and bands of a message's first blocks: all change or none. The first block has a duplicate. */
static void test_shape_all(void)
{
	static const struct strm_block_shape first = { 2, 4, STRM_M_DATA, 7 };
	struct strm_block_shape shapes[3] = { { 1, 3, STRM_M_DATA, 5 }, { 4, 2, STRM_M_PROTO, 9 }, { 0, 0, STRM_M_DATA, 0 } };
	struct strm_pool pool = opened(6);
	struct strm_msg a = message(&pool, "abcdef"), copy;
	struct strm_block_info info;
	struct strm_block_place where;

	ANSWERS(strm_linkb(&pool, a, message(&pool, "ghijkl")), STRM_OK);
	ANSWERS(strm_dupb(&pool, a, &copy), STRM_OK);
	ANSWERS(strm_shape_all(&pool, a, NULL, 0), STRM_OK);
	ANSWERS(strm_shape_all(&pool, a, shapes, 3), STRM_NO_SUCH_BLOCK);
	/* the first block that its shape does not fit, and no room before a type */
	shapes[1].length = 13;
	ANSWERS(strm_shape_all(&pool, a, shapes, 2), STRM_NO_ROOM);
	shapes[0].type = STRM_M_PROTO;
	ANSWERS(strm_shape_all(&pool, a, shapes, 3), STRM_NO_SUCH_BLOCK);
	ANSWERS(strm_shape_all(&pool, a, shapes, 2), STRM_SHARED);
	shapes[0].at = 0xFFFFFFFFu;
	ANSWERS(strm_shape_all(&pool, a, shapes, 2), STRM_NO_ROOM);
	shapes[0].type = STRM_TYPES;
	ANSWERS(strm_shape_all(&pool, a, shapes, 3), STRM_BAD_ARGUMENT);
	shapes[0].type = STRM_M_DATA;
	shapes[1].band = STRM_BANDS;
	ANSWERS(strm_shape_all(&pool, a, shapes, 2), STRM_BAD_ARGUMENT);
	CHECK(has_bytes(&pool, a, "abcdefghijkl") && strm_block(&pool, a, 1, &info) == STRM_OK && info.type == STRM_M_DATA && info.band == 0);
	shapes[0].at = 1;
	shapes[1].length = 2;
	shapes[1].band = 9;
	ANSWERS(strm_shape_all(&pool, a, shapes, 2), STRM_OK);
	CHECK(has_bytes(&pool, a, "bcdkl") && has_bytes(&pool, copy, "abcdef"));
	CHECK(strm_block(&pool, a, 0, &info) == STRM_OK && info.type == STRM_M_DATA && info.band == 5 && info.names == 2);
	CHECK(strm_block(&pool, a, 1, &info) == STRM_OK && info.type == STRM_M_PROTO && info.band == 9 && info.length == 2);
	/* fewer shapes than blocks */
	ANSWERS(strm_shape_all(&pool, a, &first, 1), STRM_OK);
	CHECK(has_bytes(&pool, a, "cdefkl") && strm_block(&pool, a, 0, &info) == STRM_OK && info.band == 7);
	CHECK(strm_place(&pool, a, 1, &where) == STRM_OK && where.at == 4 && where.length == 2);
	ANSWERS(strm_close(&pool), STRM_OK);
}

/* The bytes of each class are where its data blocks have them, and stay there. */
static void test_region(void)
{
	struct strm_pool pool = opened(6);
	struct strm_msg a = message(&pool, "lion"), b;
	struct strm_block_place where;
	const uint8_t *base = NULL, *of_second = NULL, *bytes;
	size_t size = 9, stride = 9, length;

	ANSWERS(strm_region(&pool, 2, &base, &size, &stride), STRM_NONE);
	ANSWERS(strm_region(&pool, 0xFFFFFFFFu, &base, &size, &stride), STRM_NONE);
	CHECK(base == NULL && size == 9 && stride == 9);
	ANSWERS(strm_region(&pool, 1, &of_second, &size, &stride), STRM_OK);
	CHECK((size_t)of_second % 64 == 0 && size == 128 && stride == 64);
	ANSWERS(strm_region(&pool, 0, &base, &size, &stride), STRM_OK);
	CHECK((size_t)base % 64 == 0 && size == 96 && stride == 16);
	ANSWERS(strm_place(&pool, a, 0, &where), STRM_OK);
	ANSWERS(strm_bytes(&pool, a, 0, &bytes, &length), STRM_OK);
	CHECK(bytes == base + where.data * stride + where.at && memcmp(bytes, "lion", 4) == 0);
	ANSWERS(strm_allocb(&pool, 64, &b), STRM_OK);
	ANSWERS(strm_place(&pool, b, 0, &where), STRM_OK);
	ANSWERS(strm_bytes(&pool, b, 0, &bytes, &length), STRM_OK);
	CHECK(bytes == of_second + (where.data - 6) * 64);
	ANSWERS(strm_freemsg(&pool, a), STRM_OK);
	ANSWERS(strm_region(&pool, 0, &bytes, &size, &stride), STRM_OK);
	CHECK(bytes == base && size == 96 && stride == 16);
	ANSWERS(strm_close(&pool), STRM_OK);
}

/* Each call that gives an address of a block gives one in the region of its class, where the data block of strm_place has it. */
static void test_addresses(void)
{
	struct strm_pool pool = opened(8);
	const uint8_t *bases[2], *bytes, *base;
	uint8_t *at;
	struct strm_block_place where;
	struct strm_iov iov;
	struct strm_msg msg;
	size_t size, stride, length, count;
	uint32_t i;

	for (i = 0; i < 2; i++)
		ANSWERS(strm_region(&pool, i, &bases[i], &size, &stride), STRM_OK);
	for (i = 0; i < 8; i++) {
		ANSWERS(strm_allocb(&pool, i < 6 ? 16 : 64, &msg), STRM_OK);
		ANSWERS(strm_reserve(&pool, msg, 0, i), STRM_OK);
		ANSWERS(strm_write(&pool, msg, 0, "lion", 4), STRM_OK);
		ANSWERS(strm_place(&pool, msg, 0, &where), STRM_OK);
		base = i < 6 ? bases[0] + where.data * 16 : bases[1] + (where.data - 6) * 64;
		ANSWERS(strm_window(&pool, msg, 0, &at, &length), STRM_OK);
		CHECK(at == base && length == where.capacity);
		ANSWERS(strm_room(&pool, msg, 0, &at, &length), STRM_OK);
		CHECK(at == base + i + 4 && length == where.capacity - i - 4);
		ANSWERS(strm_edit(&pool, msg, 0, &at, &length), STRM_OK);
		CHECK(at == base + i && length == 4);
		ANSWERS(strm_bytes(&pool, msg, 0, &bytes, &length), STRM_OK);
		CHECK(bytes == base + i);
		ANSWERS(strm_iov(&pool, msg, 0, &iov, 1, &count), STRM_OK);
		CHECK(iov.base == base + i);
		ANSWERS(strm_putq(&pool, 1, msg), STRM_OK);
		ANSWERS(strm_queued_bytes(&pool, msg.head, 0, &bytes, &length), STRM_OK);
		CHECK(bytes == base + i);
	}
	ANSWERS(strm_close(&pool), STRM_OK);
}

static void test_overwrite(void)
{
	static const char many[100] = "";
	struct strm_pool pool = opened(6);
	struct strm_msg a = message(&pool, "abc"), b = message(&pool, "defg"), copy;

	ANSWERS(strm_linkb(&pool, a, b), STRM_OK);
	ANSWERS(strm_overwrite(&pool, a, 2, "XYZ", 3), STRM_OK);
	CHECK(has_bytes(&pool, a, "abXYZfg"));
	ANSWERS(strm_overwrite(&pool, a, 0, "ABCDEFG", 7), STRM_OK);
	CHECK(has_bytes(&pool, a, "ABCDEFG"));
	ANSWERS(strm_overwrite(&pool, a, 6, "xy", 2), STRM_SHORT);
	ANSWERS(strm_overwrite(&pool, a, 0, many, sizeof many), STRM_SHORT);
	ANSWERS(strm_overwrite(&pool, a, 0xFFFFFFFFu, "x", 1), STRM_SHORT);
	ANSWERS(strm_overwrite(&pool, a, 7, NULL, 0), STRM_OK);
	ANSWERS(strm_overwrite(&pool, a, 8, NULL, 0), STRM_SHORT);
	/* the second block shares its data, and the first does not */
	ANSWERS(strm_dupmsg(&pool, a, &copy), STRM_OK);
	ANSWERS(strm_freeb(&pool, copy, &copy), STRM_OK);
	ANSWERS(strm_overwrite(&pool, a, 0, "abc", 3), STRM_OK);
	ANSWERS(strm_overwrite(&pool, a, 2, "xy", 2), STRM_SHARED);
	ANSWERS(strm_overwrite(&pool, a, 3, "DEFG", 4), STRM_SHARED);
	ANSWERS(strm_overwrite(&pool, a, 6, "x", 1), STRM_SHARED);
	ANSWERS(strm_overwrite(&pool, a, 3, "", 0), STRM_OK);
	ANSWERS(strm_overwrite(&pool, a, 6, "xy", 2), STRM_SHORT);
	CHECK(has_bytes(&pool, a, "abcDEFG") && has_bytes(&pool, copy, "DEFG"));
	ANSWERS(strm_close(&pool), STRM_OK);
}

static void test_headroom(void)
{
	struct strm_pool pool = opened(6);
	struct strm_msg a, copy;
	struct strm_block_place where;

	ANSWERS(strm_allocb(&pool, 16, &a), STRM_OK);
	ANSWERS(strm_prepend(&pool, a, "x", 1), STRM_NO_ROOM);
	ANSWERS(strm_reserve(&pool, a, 1, 2), STRM_NO_SUCH_BLOCK);
	ANSWERS(strm_reserve(&pool, a, 0, 17), STRM_NO_ROOM);
	ANSWERS(strm_reserve(&pool, a, 0, 0xFFFFFFFFu), STRM_NO_ROOM);
	ANSWERS(strm_reserve(&pool, a, 0, 16), STRM_OK);
	ANSWERS(strm_write(&pool, a, 0, "x", 1), STRM_NO_ROOM);
	ANSWERS(strm_reserve(&pool, a, 0, 10), STRM_OK);
	ANSWERS(strm_dupb(&pool, a, &copy), STRM_OK);
	ANSWERS(strm_reserve(&pool, a, 0, 17), STRM_SHARED);
	ANSWERS(strm_prepend(&pool, a, "0123456789A", 11), STRM_SHARED);
	ANSWERS(strm_prepend(&pool, a, NULL, 0), STRM_SHARED);
	ANSWERS(strm_freemsg(&pool, copy), STRM_OK);
	ANSWERS(strm_write(&pool, a, 0, "lion", 4), STRM_OK);
	ANSWERS(strm_prepend(&pool, a, "one ", 4), STRM_OK);
	CHECK(has_bytes(&pool, a, "one lion"));
	ANSWERS(strm_place(&pool, a, 0, &where), STRM_OK);
	CHECK(where.at == 6 && where.length == 8);
	ANSWERS(strm_prepend(&pool, a, "0123456", 7), STRM_NO_ROOM);
	ANSWERS(strm_prepend(&pool, a, NULL, 0), STRM_OK);
	ANSWERS(strm_prepend(&pool, a, "012345", 6), STRM_OK);
	CHECK(has_bytes(&pool, a, "012345one lion"));
	/* a block with bytes gets no headroom, not even what it has */
	ANSWERS(strm_reserve(&pool, a, 0, 0), STRM_NO_ROOM);
	ANSWERS(strm_adjmsg(&pool, a, 14), STRM_OK);
	ANSWERS(strm_reserve(&pool, a, 0, 0), STRM_OK);
	ANSWERS(strm_place(&pool, a, 0, &where), STRM_OK);
	CHECK(where.at == 0 && where.length == 0);
	ANSWERS(strm_close(&pool), STRM_OK);
}

static void test_advance(void)
{
	struct strm_pool pool = opened(6);
	struct strm_msg a, copy;
	struct strm_block_place before, where;
	char room[16];
	size_t count;

	ANSWERS(strm_allocb(&pool, 16, &a), STRM_OK);
	ANSWERS(strm_place(&pool, a, 0, &before), STRM_OK);
	ANSWERS(strm_advance(&pool, a, 1, 1), STRM_NO_SUCH_BLOCK);
	ANSWERS(strm_advance(&pool, a, 0, 17), STRM_NO_ROOM);
	ANSWERS(strm_advance(&pool, a, 0, 0xFFFFFFFFu), STRM_NO_ROOM);
	/* a data block that never had bytes has zeros */
	ANSWERS(strm_advance(&pool, a, 0, 3), STRM_OK);
	ANSWERS(strm_write(&pool, a, 0, "lion", 4), STRM_OK);
	ANSWERS(strm_read(&pool, a, 0, room, sizeof room, &count), STRM_OK);
	CHECK(count == 7 && memcmp(room, "\0\0\0lion", 7) == 0);
	ANSWERS(strm_dupb(&pool, a, &copy), STRM_OK);
	ANSWERS(strm_advance(&pool, a, 0, 10), STRM_SHARED);
	ANSWERS(strm_advance(&pool, a, 0, 0), STRM_SHARED);
	ANSWERS(strm_freemsg(&pool, copy), STRM_OK);
	ANSWERS(strm_advance(&pool, a, 0, 10), STRM_NO_ROOM);
	ANSWERS(strm_advance(&pool, a, 0, 9), STRM_OK);
	ANSWERS(strm_advance(&pool, a, 0, 0), STRM_OK);
	ANSWERS(strm_advance(&pool, a, 0, 1), STRM_NO_ROOM);
	ANSWERS(strm_freemsg(&pool, a), STRM_OK);
	/* the same data block again has the bytes of the message before */
	ANSWERS(strm_allocb(&pool, 16, &a), STRM_OK);
	ANSWERS(strm_place(&pool, a, 0, &where), STRM_OK);
	CHECK(where.data == before.data);
	ANSWERS(strm_reserve(&pool, a, 0, 3), STRM_OK);
	ANSWERS(strm_advance(&pool, a, 0, 4), STRM_OK);
	CHECK(has_bytes(&pool, a, "lion"));
	ANSWERS(strm_close(&pool), STRM_OK);
}

/* Fills a message with zeros, and frees it. */
static void wipe(struct strm_pool *pool, struct strm_msg msg)
{
	static const char zeros[64] = "";
	uint32_t bytes;

	ANSWERS(strm_size(pool, msg, &bytes), STRM_OK);
	ANSWERS(strm_overwrite(pool, msg, 0, zeros, bytes), STRM_OK);
	ANSWERS(strm_freemsg(pool, msg), STRM_OK);
}

/* How many of the free data blocks have a byte that is not 0. The pool has no message, and as many message blocks as data blocks. */
static int dirty(struct strm_pool *pool)
{
	struct strm_msg msgs[STRM_MOST_CLASSES];
	struct strm_block_info block;
	const uint8_t *bytes;
	size_t count, length, i, at;
	int found = 0, is_dirty;

	ANSWERS(strm_allocb_n(pool, 16, msgs, STRM_MOST_CLASSES, &count), STRM_OK);
	CHECK(count == STRM_MOST_CLASSES);
	for (i = 0; i < count; i++) {
		ANSWERS(strm_block(pool, msgs[i], 0, &block), STRM_OK);
		ANSWERS(strm_advance(pool, msgs[i], 0, block.room), STRM_OK);
		ANSWERS(strm_bytes(pool, msgs[i], 0, &bytes, &length), STRM_OK);
		for (at = 0, is_dirty = 0; at < length; at++)
			is_dirty |= bytes[at] != 0;
		found += is_dirty;
	}
	ANSWERS(strm_freemsg_n(pool, msgs, count, &count), STRM_OK);
	return found;
}

/* Bytes of freed messages stay in the pool, also around copies, unless they are overwritten as strm.h says at strm_advance. */
static void test_secrets(void)
{
	struct strm_pool pool = opened(STRM_MOST_CLASSES), other = opened(STRM_MOST_CLASSES);
	struct strm_msg a, b, copy, moved;
	const uint8_t *bytes;
	size_t length;

	wipe(&pool, message(&pool, "secret"));
	CHECK(dirty(&pool) == 0);
	/* the rest of a copy's data block is from the freed message */
	a = message(&pool, "two");
	b = message(&pool, "secret");
	ANSWERS(strm_freemsg(&pool, b), STRM_OK);
	ANSWERS(strm_copyb(&pool, a, &copy), STRM_OK);
	ANSWERS(strm_advance(&pool, copy, 0, 3), STRM_OK);
	CHECK(has_bytes(&pool, copy, "tworet"));
	ANSWERS(strm_advance(&pool, a, 0, 13), STRM_OK);
	wipe(&pool, a);
	wipe(&pool, copy);
	CHECK(dirty(&pool) == 0);
	/* pulled up without headroom, with an empty block in between, which is freed, and one after, which stays */
	ANSWERS(strm_allocb(&pool, 16, &a), STRM_OK);
	ANSWERS(strm_reserve(&pool, a, 0, 4), STRM_OK);
	ANSWERS(strm_write(&pool, a, 0, "sec", 3), STRM_OK);
	ANSWERS(strm_linkb(&pool, a, message(&pool, "")), STRM_OK);
	ANSWERS(strm_linkb(&pool, a, message(&pool, "ret")), STRM_OK);
	ANSWERS(strm_linkb(&pool, a, message(&pool, "")), STRM_OK);
	ANSWERS(strm_dupmsg(&pool, a, &copy), STRM_OK);
	ANSWERS(strm_pullupmsg(&pool, a, -1), STRM_OK);
	wipe(&pool, copy);
	CENSUS(&pool, STRM_MOST_CLASSES - 2, 0, 2);
	ANSWERS(strm_bytes(&pool, a, 0, &bytes, &length), STRM_OK);
	CHECK(length == 6 && (size_t)bytes % 16 == 0);
	/* transferred */
	ANSWERS(strm_dupmsg(&pool, a, &copy), STRM_OK);
	ANSWERS(strm_transfer(&pool, &other, a, &moved), STRM_OK);
	wipe(&pool, copy);
	CHECK(dirty(&pool) == 0 && has_bytes(&other, moved, "secret"));
	ANSWERS(strm_freemsg(&other, moved), STRM_OK);
	CHECK(dirty(&other) == 1);
	ANSWERS(strm_close(&other), STRM_OK);
	ANSWERS(strm_close(&pool), STRM_OK);
}

static void test_name_at(void)
{
	struct strm_pool pool = opened(6);
	struct strm_msg a = message(&pool, "a"), b = message(&pool, "b"), c = message(&pool, "c"), found = STRM_NO_MSG;

	ANSWERS(strm_linkb(&pool, a, b), STRM_OK);
	ANSWERS(strm_name_at(&pool, a.head, &found), STRM_OK);
	CHECK(same_name(found, a));
	ANSWERS(strm_putq(&pool, 0, a), STRM_OK);
	/* on a queue, behind the first block, free, and not there */
	ANSWERS(strm_name_at(&pool, a.head, &found), STRM_NONE);
	ANSWERS(strm_name_at(&pool, b.head, &found), STRM_NONE);
	ANSWERS(strm_name_at(&pool, 5, &found), STRM_NONE);
	ANSWERS(strm_name_at(&pool, 6, &found), STRM_NONE);
	ANSWERS(strm_name_at(&pool, 0xFFFFFFFFu, &found), STRM_NONE);
	CHECK(same_name(found, a));
	ANSWERS(strm_name_at(&pool, c.head, &found), STRM_OK);
	CHECK(same_name(found, c));
	ANSWERS(strm_getq(&pool, 0, &b), STRM_OK);
	ANSWERS(strm_name_at(&pool, a.head, &found), STRM_OK);
	CHECK(same_name(found, b) && !same_name(found, a));
	ANSWERS(strm_close(&pool), STRM_OK);
}

/* ---- a message that goes to another pool */

/* A pool of four message blocks over two data blocks of 16 bytes. */
static struct strm_pool opened_small(void)
{
	static const struct strm_class_spec two[] = { { 16, 2 } };
	struct strm_pool pool = STRM_POOL_INIT;
	struct strm_config config = config_of(4);

	config.id = 8;
	config.classes = two;
	config.class_count = 1;
	ANSWERS(strm_open(&pool, &config), STRM_OK);
	return pool;
}

static void test_transfer(void)
{
	struct strm_pool pool = opened(8), other = opened_small();
	struct strm_msg a = message(&pool, "abcdef"), b = message(&pool, "gh"), copy, moved, kept = STRM_NO_MSG;
	struct strm_block_info block;
	struct strm_block_place where;

	ANSWERS(strm_adjmsg(&pool, a, 2), STRM_OK);
	ANSWERS(strm_setband(&pool, a, 5), STRM_OK);
	ANSWERS(strm_setband(&pool, b, 6), STRM_OK);
	ANSWERS(strm_settype(&pool, b, 0, STRM_M_PROTO), STRM_OK);
	ANSWERS(strm_linkb(&pool, a, b), STRM_OK);
	ANSWERS(strm_dupmsg(&pool, a, &copy), STRM_OK);
	ANSWERS(strm_transfer(&pool, &other, a, &moved), STRM_OK);
	CHECK(moved.pool == 8 && moved.head == 0 && moved.stamp == 1 && has_bytes(&other, moved, "cdefgh"));
	CENSUS(&pool, 6, 0, 2);
	CENSUS(&other, 2, 0, 2);
	/* the same places, bands and types, and one reference to each data block */
	ANSWERS(strm_place(&other, moved, 0, &where), STRM_OK);
	CHECK(where.data == 0 && where.at == 2 && where.length == 4 && where.capacity == 16);
	ANSWERS(strm_block(&other, moved, 0, &block), STRM_OK);
	CHECK(block.type == STRM_M_DATA && block.band == 5 && block.names == 1);
	ANSWERS(strm_block(&other, moved, 1, &block), STRM_OK);
	CHECK(block.type == STRM_M_PROTO && block.band == 6 && block.names == 1);
	/* the duplicate stays as it was */
	CHECK(has_bytes(&pool, copy, "cdefgh"));
	ANSWERS(strm_block(&pool, copy, 0, &block), STRM_OK);
	CHECK(block.names == 1);
	ANSWERS(strm_transfer(&pool, &other, a, &kept), STRM_INVALID);
	ANSWERS(strm_transfer(&pool, &other, moved, &kept), STRM_INVALID);
	CHECK(kept.stamp == 0);
	/* back again, with the name where the other one was */
	ANSWERS(strm_transfer(&other, &pool, moved, &moved), STRM_OK);
	CHECK(moved.pool == 7 && has_bytes(&pool, moved, "cdefgh"));
	CENSUS(&pool, 4, 0, 4);
	CENSUS(&other, 4, 0, 0);
	ANSWERS(strm_close(&other), STRM_OK);
	ANSWERS(strm_close(&pool), STRM_OK);
}

static void test_transfer_refused(void)
{
	struct strm_pool pool = opened(12), other = opened_small();
	struct strm_msg large, one = message(&pool, "a"), three, five, copy, kept = STRM_NO_MSG;
	struct strm_class_info info;
	int i;

	ANSWERS(strm_allocb(&pool, 17, &large), STRM_OK);
	ANSWERS(strm_transfer(&pool, &other, large, &kept), STRM_TOO_LARGE);
	/* a message of three blocks over one data block needs three there */
	ANSWERS(strm_dupb(&pool, one, &three), STRM_OK);
	for (i = 1; i < 3; i++) {
		ANSWERS(strm_dupb(&pool, one, &copy), STRM_OK);
		ANSWERS(strm_linkb(&pool, three, copy), STRM_OK);
	}
	ANSWERS(strm_transfer(&pool, &other, three, &kept), STRM_NO_DATA);
	ANSWERS(strm_class_info(&other, 0, &info), STRM_OK);
	CHECK(info.free == 2);
	/* five blocks: NO_MBLK comes before NO_DATA, and TOO_LARGE before both */
	ANSWERS(strm_dupmsg(&pool, three, &five), STRM_OK);
	for (i = 3; i < 5; i++) {
		ANSWERS(strm_dupb(&pool, one, &copy), STRM_OK);
		ANSWERS(strm_linkb(&pool, five, copy), STRM_OK);
	}
	ANSWERS(strm_transfer(&pool, &other, five, &kept), STRM_NO_MBLK);
	ANSWERS(strm_linkb(&pool, five, large), STRM_OK);
	ANSWERS(strm_transfer(&pool, &other, five, &kept), STRM_TOO_LARGE);
	CHECK(kept.stamp == 0 && has_bytes(&pool, three, "aaa") && has_bytes(&pool, five, "aaaaa"));
	CENSUS(&pool, 2, 0, 10);
	CENSUS(&other, 4, 0, 0);
	/* what was refused goes once there is room */
	ANSWERS(strm_transfer(&pool, &other, one, &copy), STRM_OK);
	ANSWERS(strm_transfer(&pool, &other, three, &kept), STRM_NO_DATA);
	ANSWERS(strm_freemsg(&other, copy), STRM_OK);
	ANSWERS(strm_freeb(&pool, three, &three), STRM_OK);
	ANSWERS(strm_transfer(&pool, &other, three, &kept), STRM_OK);
	CHECK(has_bytes(&other, kept, "aa"));
	ANSWERS(strm_close(&other), STRM_OK);
	ANSWERS(strm_close(&pool), STRM_OK);
}

/* ---- queues */

static void test_order(void)
{
	struct strm_pool pool = opened(8);
	struct strm_msg a = message(&pool, "a"), b = message(&pool, "b"), c = message(&pool, "c"), d = message(&pool, "d"), out;
	struct strm_msg kept = STRM_NO_MSG;
	uint32_t msgs;

	ANSWERS(strm_setband(&pool, b, 2), STRM_OK);
	ANSWERS(strm_settype(&pool, c, 0, STRM_M_PCPROTO), STRM_OK);
	ANSWERS(strm_putq(&pool, 3, a), STRM_NO_SUCH_QUEUE);
	ANSWERS(strm_putq(&pool, 0xFFFFFFFFu, a), STRM_NO_SUCH_QUEUE);
	ANSWERS(strm_putbq(&pool, 256, a), STRM_NO_SUCH_QUEUE);
	ANSWERS(strm_insq(&pool, 3, 0, a), STRM_NO_SUCH_QUEUE);
	ANSWERS(strm_putq(&pool, 2, a), STRM_OK);
	ANSWERS(strm_putq(&pool, 2, b), STRM_OK);
	ANSWERS(strm_insq(&pool, 2, 1, c), STRM_BAD_ORDER);
	ANSWERS(strm_insq(&pool, 2, 3, c), STRM_NO_SUCH_PLACE);
	ANSWERS(strm_insq(&pool, 2, 0xFFFFFFFFu, c), STRM_NO_SUCH_PLACE);
	ANSWERS(strm_insq(&pool, 2, 0, c), STRM_OK);
	ANSWERS(strm_putbq(&pool, 2, d), STRM_OK);
	ANSWERS(strm_qsize(&pool, 2, &msgs), STRM_OK);
	CHECK(msgs == 4);
	CENSUS(&pool, 4, 4, 0);
	ANSWERS(strm_qsize(&pool, 3, &msgs), STRM_NO_SUCH_QUEUE);
	ANSWERS(strm_rmvq(&pool, 2, 4, &kept), STRM_NO_SUCH_PLACE);
	ANSWERS(strm_rmvq(&pool, 3, 0, &kept), STRM_NO_SUCH_QUEUE);
	ANSWERS(strm_getq(&pool, 3, &kept), STRM_NO_SUCH_QUEUE);
	ANSWERS(strm_rmvq(&pool, 2, 2, &out), STRM_OK);
	CHECK(has_bytes(&pool, out, "d") && out.head == d.head && out.stamp == d.stamp + 1);
	ANSWERS(strm_getq(&pool, 2, &out), STRM_OK);
	CHECK(has_bytes(&pool, out, "c"));
	ANSWERS(strm_getq(&pool, 2, &out), STRM_OK);
	CHECK(has_bytes(&pool, out, "b"));
	ANSWERS(strm_getq(&pool, 2, &out), STRM_OK);
	CHECK(has_bytes(&pool, out, "a"));
	ANSWERS(strm_getq(&pool, 2, &kept), STRM_NONE);
	CHECK(kept.stamp == 0);
	ANSWERS(strm_close(&pool), STRM_OK);
}

/* Messages are put before a queued one, and taken, by their first blocks. */
static void test_order_by_heads(void)
{
	struct strm_pool pool = opened(8);
	struct strm_msg a = message(&pool, "a"), b = message(&pool, "b"), c = message(&pool, "c"), d = message(&pool, "d"), tail = message(&pool, "e");
	struct strm_msg out, kept = STRM_NO_MSG, gone = a;
	uint32_t head;

	ANSWERS(strm_linkb(&pool, b, tail), STRM_OK);
	ANSWERS(strm_setband(&pool, b, 2), STRM_OK);
	ANSWERS(strm_setband(&pool, d, 2), STRM_OK);
	ANSWERS(strm_insq_at(&pool, 3, STRM_NO_HEAD, a), STRM_NO_SUCH_QUEUE);
	ANSWERS(strm_insq_at(&pool, 3, 99, a), STRM_NO_SUCH_QUEUE);
	ANSWERS(strm_insq_at(&pool, 2, STRM_NO_HEAD, a), STRM_OK);
	ANSWERS(strm_insq_at(&pool, 2, STRM_NO_HEAD, gone), STRM_INVALID);
	ANSWERS(strm_insq_at(&pool, 2, STRM_NO_HEAD, b), STRM_BAD_ORDER);
	/* itself, on another queue, free, and not there */
	ANSWERS(strm_insq_at(&pool, 2, b.head, b), STRM_NO_SUCH_PLACE);
	ANSWERS(strm_insq_at(&pool, 1, a.head, b), STRM_NO_SUCH_PLACE);
	ANSWERS(strm_insq_at(&pool, 2, 7, b), STRM_NO_SUCH_PLACE);
	ANSWERS(strm_insq_at(&pool, 2, 8, b), STRM_NO_SUCH_PLACE);
	ANSWERS(strm_insq_at(&pool, 2, 0xFFFFFFFEu, b), STRM_NO_SUCH_PLACE);
	ANSWERS(strm_insq_at(&pool, 2, a.head, b), STRM_OK);
	ANSWERS(strm_insq_at(&pool, 2, tail.head, c), STRM_NO_SUCH_PLACE);
	ANSWERS(strm_insq_at(&pool, 2, b.head, c), STRM_BAD_ORDER);
	ANSWERS(strm_insq_at(&pool, 2, a.head, c), STRM_OK);
	ANSWERS(strm_insq_at(&pool, 2, b.head, d), STRM_OK);
	ANSWERS(strm_rmvq_msg(&pool, tail.head, &kept), STRM_NO_SUCH_PLACE);
	ANSWERS(strm_rmvq_msg(&pool, 7, &kept), STRM_NO_SUCH_PLACE);
	ANSWERS(strm_rmvq_msg(&pool, STRM_NO_HEAD, &kept), STRM_NO_SUCH_PLACE);
	CHECK(strm_is_no_msg(kept));
	ANSWERS(strm_rmvq_msg(&pool, c.head, &out), STRM_OK);
	CHECK(has_bytes(&pool, out, "c") && out.head == c.head && out.stamp == c.stamp + 1);
	ANSWERS(strm_rmvq_msg(&pool, c.head, &kept), STRM_NO_SUCH_PLACE);
	ANSWERS(strm_rmvq_msg(&pool, d.head, &out), STRM_OK);
	CHECK(has_bytes(&pool, out, "d"));
	ANSWERS(strm_rmvq_msg(&pool, a.head, &out), STRM_OK);
	CHECK(has_bytes(&pool, out, "a"));
	ANSWERS(strm_first_queued(&pool, 2, &head), STRM_OK);
	CHECK(head == b.head);
	ANSWERS(strm_rmvq_msg(&pool, head, &out), STRM_OK);
	CHECK(has_bytes(&pool, out, "be"));
	CENSUS(&pool, 3, 0, 5);
	ANSWERS(strm_close(&pool), STRM_OK);
}

/* A head is no name: once its message was taken off and freed, another one that has the same first block is found. */
static void test_stale_head(void)
{
	struct strm_pool pool = opened(8);
	struct strm_msg a = message(&pool, "a"), b, c = message(&pool, "c"), out;

	ANSWERS(strm_putq(&pool, 2, a), STRM_OK);
	ANSWERS(strm_getq(&pool, 2, &out), STRM_OK);
	ANSWERS(strm_freemsg(&pool, out), STRM_OK);
	b = message(&pool, "b");
	CHECK(b.head == a.head && !same_name(a, b));
	ANSWERS(strm_putq(&pool, 2, b), STRM_OK);
	ANSWERS(strm_insq_at(&pool, 2, a.head, c), STRM_OK);
	ANSWERS(strm_rmvq_msg(&pool, a.head, &out), STRM_OK);
	CHECK(has_bytes(&pool, out, "b"));
	ANSWERS(strm_close(&pool), STRM_OK);
}

/* Several messages that are put back, the last one first, are in the order in which they came off. */
static void test_put_back(void)
{
	struct strm_pool pool = opened(8);
	struct strm_msg msgs[4];
	uint32_t head;
	size_t count, i;

	for (i = 0; i < 4; i++)
		ANSWERS(strm_putq(&pool, 2, message(&pool, "a")), STRM_OK);
	ANSWERS(strm_getq_n(&pool, 2, msgs, 3, &count), STRM_OK);
	for (i = count; i > 0; i--)
		ANSWERS(strm_putbq(&pool, 2, msgs[i - 1]), STRM_OK);
	ANSWERS(strm_first_queued(&pool, 2, &head), STRM_OK);
	for (i = 0; i < 3; i++) {
		CHECK(head == msgs[i].head);
		ANSWERS(strm_queued_after(&pool, head, &head), STRM_OK);
	}
	ANSWERS(strm_close(&pool), STRM_OK);
}

/* Checks the fewest free message blocks, and data blocks of both classes. */
#define LEAST(pool, blocks, of_first, of_second) \
	do { \
		ANSWERS(strm_least_free_blocks(pool, &fewest), STRM_OK); \
		CHECK(fewest == (blocks)); \
		ANSWERS(strm_least_free(pool, 0, &fewest), STRM_OK); \
		CHECK(fewest == (of_first)); \
		ANSWERS(strm_least_free(pool, 1, &fewest), STRM_OK); \
		CHECK(fewest == (of_second)); \
	} while (0)

static void test_least(void)
{
	struct strm_pool pool = opened(6);
	struct strm_msg a, b, kept = STRM_NO_MSG;
	uint32_t fewest = 99;

	ANSWERS(strm_least_free(&pool, 2, &fewest), STRM_NONE);
	ANSWERS(strm_least_free(&pool, 0xFFFFFFFFu, &fewest), STRM_NONE);
	CHECK(fewest == 99);
	LEAST(&pool, 6, 6, 2);
	ANSWERS(strm_allocb(&pool, 16, &a), STRM_OK);
	ANSWERS(strm_allocb(&pool, 64, &b), STRM_OK);
	ANSWERS(strm_freemsg(&pool, a), STRM_OK);
	ANSWERS(strm_freemsg(&pool, b), STRM_OK);
	ANSWERS(strm_allocb(&pool, 65, &kept), STRM_TOO_LARGE);
	LEAST(&pool, 4, 5, 1);
	ANSWERS(strm_reset_least(&pool), STRM_OK);
	LEAST(&pool, 6, 6, 2);
	a = message(&pool, "abc");
	ANSWERS(strm_linkb(&pool, a, message(&pool, "def")), STRM_OK);
	LEAST(&pool, 4, 4, 2);
	/* a data block is taken before others are freed */
	ANSWERS(strm_pullupmsg(&pool, a, -1), STRM_OK);
	CENSUS(&pool, 5, 0, 1);
	LEAST(&pool, 4, 3, 2);
	ANSWERS(strm_reset_least(&pool), STRM_OK);
	LEAST(&pool, 5, 5, 2);
	ANSWERS(strm_close(&pool), STRM_OK);
}

/* Allocates two messages over data blocks of 16 bytes, and one over one of 64, and frees them. Returns whether it could. */
static int allocates(struct strm_pool *pool)
{
	struct strm_msg msgs[3];
	int i, done = 0;

	for (i = 0; i < 3; i++)
		done += strm_allocb(pool, i < 2 ? 16 : 64, &msgs[done]) == STRM_OK;
	for (i = 0; i < done; i++)
		ANSWERS(strm_freemsg(pool, msgs[i]), STRM_OK);
	return done == 3;
}

/* With the fewest that were free fewer, all is allocated, and with one fewer still it is not. A wish is ready only where its blocks are free. */
static void test_fewer(void)
{
	struct strm_pool pool = opened(6), fewer = STRM_POOL_INIT;
	struct strm_class_spec some[2];
	struct strm_config config = config_of(6);
	struct strm_msg held;
	struct strm_wish wish;
	uint32_t fewest, id, i, yes;

	config.classes = some;
	/* nothing is allocated, only asked for */
	ANSWERS(strm_bufcall(&pool, 64, &id), STRM_OK);
	ANSWERS(strm_take_ready(&pool, &wish), STRM_OK);
	ANSWERS(strm_testb(&pool, 64, &yes), STRM_OK);
	CHECK(yes == 1);
	LEAST(&pool, 6, 6, 2);
	config.mblks -= 6;
	refuse(&config, STRM_BAD_MBLKS);
	config.mblks = 1;
	some[0] = classes[0];
	some[1] = classes[1];
	some[1].count -= 2;
	refuse(&config, STRM_BAD_CLASS_TOTAL);
	CHECK(allocates(&pool));
	LEAST(&pool, 3, 4, 1);
	config.mblks = 6 - 3;
	some[0].count = 6 - 4;
	some[1].count = 2 - 1;
	ANSWERS(strm_open(&fewer, &config), STRM_OK);
	CHECK(allocates(&fewer));
	LEAST(&fewer, 0, 0, 0);
	/* what is held here leaves a block there, and none here */
	for (i = 0; i < 2; i++) {
		struct strm_pool *either = i == 0 ? &pool : &fewer;

		ANSWERS(strm_allocb(either, 64, &held), STRM_OK);
		ANSWERS(strm_bufcall(either, 64, &id), STRM_OK);
		ANSWERS(strm_take_ready(either, &wish), i == 0 ? STRM_OK : STRM_NONE);
	}
	ANSWERS(strm_close(&fewer), STRM_OK);
	config.mblks--;
	ANSWERS(strm_open(&fewer, &config), STRM_OK);
	CHECK(!allocates(&fewer));
	ANSWERS(strm_close(&fewer), STRM_OK);
	ANSWERS(strm_close(&pool), STRM_OK);
}

/* The report of the scene that its first line says, as much of it as fits. */
static void test_report(void)
{
	static const char wanted[] =
		"blocks free=5 queued=1 held=0 total=6\ndata size=16 free=5 total=6\ndata size=64 free=2 total=2\n"
		"queue 0 msgs=0 bytes=0 read=1 noenable=0 enabled=0\nqueue 1 msgs=0 bytes=0 read=1 noenable=0 enabled=0\n"
		"queue 2 msgs=1 bytes=3 read=1 noenable=0 enabled=0\nband 7 bytes=3 full=0 wanted=0\nrun -\nwishes 1:16\n";
	struct strm_pool pool = opened(6), closed = STRM_POOL_INIT;
	struct strm_msg msg = message(&pool, "abc");
	size_t whole, i;
	uint32_t id;
	char text[600];

	ANSWERS(strm_noenable(&pool, 2), STRM_OK);
	ANSWERS(strm_setband(&pool, msg, 7), STRM_OK);
	ANSWERS(strm_putq(&pool, 2, msg), STRM_OK);
	ANSWERS(strm_enableok(&pool, 2), STRM_OK);
	ANSWERS(strm_bufcall(&pool, 16, &id), STRM_OK);
	whole = strm_report(&pool, text, sizeof text);
	CHECK(whole == strlen(wanted) && strcmp(text, wanted) == 0);
	for (i = 0; i <= whole + 1; i++) {
		memset(text, '.', sizeof text);
		CHECK(strm_report(&pool, text, i) == whole && text[i] == '.');
		CHECK(i == 0 || (strlen(text) == (i <= whole ? i - 1 : whole) && memcmp(text, wanted, strlen(text)) == 0));
	}
	CHECK(strm_report(&pool, NULL, 0) == whole);
	memset(text, '.', sizeof text);
	CHECK(strm_report(&pool, NULL, 1) == 0 && strm_report(&pool, text, (size_t)-1 / 2 + 1) == 0);
	CHECK(strm_report(NULL, text, 1) == 0 && strm_report(&closed, text, 1) == 0 && text[0] == '.');
	ANSWERS(strm_close(&pool), STRM_OK);
}

/* The bytes of a, which has one block, and of b, which has two, where they are on a queue. */
static void test_queued_in_place(struct strm_pool *pool, struct strm_msg a, struct strm_msg b, uint32_t tail)
{
	struct strm_iov iov[3], unused;
	const uint8_t *bytes = NULL, *kept;
	size_t length = 9, count = 9;

	memset(iov, 0xA5, sizeof iov);
	unused = iov[2];
	ANSWERS(strm_queued_iov(pool, b.head, 0, iov, 3, &count), STRM_OK);
	CHECK(count == 2 && iov[0].length == 2 && memcmp(iov[0].base, "de", 2) == 0 && iov[1].length == 3 && memcmp(iov[1].base, "ghi", 3) == 0);
	CHECK(iov[2].base == unused.base && iov[2].length == unused.length);
	ANSWERS(strm_queued_bytes(pool, b.head, 1, &bytes, &length), STRM_OK);
	CHECK(bytes == iov[1].base && length == 3);
	ANSWERS(strm_queued_bytes(pool, a.head, 0, &bytes, &length), STRM_OK);
	CHECK(length == 3 && memcmp(bytes, "abc", 3) == 0);
	ANSWERS(strm_queued_iov(pool, b.head, 1, iov, 1, &count), STRM_OK);
	CHECK(count == 1 && iov[0].length == 3 && iov[0].base == iov[1].base);
	ANSWERS(strm_queued_iov(pool, a.head, 1, iov, 3, &count), STRM_OK);
	CHECK(count == 0 && iov[0].length == 3);
	count = 9;
	ANSWERS(strm_queued_iov(pool, a.head, 0xFFFFFFFFu, iov, 3, &count), STRM_OK);
	CHECK(count == 0);
	count = 9;
	ANSWERS(strm_queued_iov(pool, a.head, 0, NULL, 0, &count), STRM_OK);
	CHECK(count == 0);
	/* no such block, behind the first block, free, and not there */
	kept = bytes;
	length = count = 9;
	ANSWERS(strm_queued_bytes(pool, a.head, 1, &bytes, &length), STRM_NO_SUCH_BLOCK);
	ANSWERS(strm_queued_bytes(pool, a.head, 0xFFFFFFFFu, &bytes, &length), STRM_NO_SUCH_BLOCK);
	ANSWERS(strm_queued_bytes(pool, tail, 0, &bytes, &length), STRM_NO_SUCH_PLACE);
	ANSWERS(strm_queued_bytes(pool, 7, 9, &bytes, &length), STRM_NO_SUCH_PLACE);
	ANSWERS(strm_queued_bytes(pool, 0xFFFFFFFFu, 0, &bytes, &length), STRM_NO_SUCH_PLACE);
	ANSWERS(strm_queued_iov(pool, tail, 0, iov, 3, &count), STRM_NO_SUCH_PLACE);
	ANSWERS(strm_queued_iov(pool, 7, 0, NULL, 0, &count), STRM_NO_SUCH_PLACE);
	ANSWERS(strm_queued_iov(pool, 8, 0, iov, 3, &count), STRM_NO_SUCH_PLACE);
	ANSWERS(strm_queued_iov(pool, 0xFFFFFFFFu, 0, iov, 3, &count), STRM_NO_SUCH_PLACE);
	CHECK(bytes == kept && length == 9 && count == 9 && iov[0].length == 3);
}

/* A message of high priority, one of two blocks in band 2, and one in band 0, from front to back of queue 2. */
static void test_looks_at_queues(void)
{
	struct strm_pool pool = opened(8);
	struct strm_msg a = message(&pool, "abc"), b = message(&pool, "de"), c = message(&pool, "f"), tail = message(&pool, "ghi");
	struct strm_msg held = message(&pool, "held");
	struct strm_queued queued;
	uint32_t head = 99, queue = 99;
	size_t count;
	char room[8];

	ANSWERS(strm_setband(&pool, b, 2), STRM_OK);
	ANSWERS(strm_linkb(&pool, b, tail), STRM_OK);
	ANSWERS(strm_settype(&pool, c, 0, STRM_M_PCPROTO), STRM_OK);
	ANSWERS(strm_setband(&pool, c, 9), STRM_OK);
	ANSWERS(strm_first_queued(&pool, 2, &head), STRM_NONE);
	ANSWERS(strm_first_queued(&pool, 3, &head), STRM_NO_SUCH_QUEUE);
	ANSWERS(strm_last_queued(&pool, 2, &head), STRM_NONE);
	ANSWERS(strm_last_queued(&pool, 3, &head), STRM_NO_SUCH_QUEUE);
	ANSWERS(strm_queued_after(&pool, a.head, &head), STRM_NO_SUCH_PLACE);
	ANSWERS(strm_queued_before(&pool, a.head, &head), STRM_NO_SUCH_PLACE);
	ANSWERS(strm_queue_of(&pool, a.head, &queue), STRM_NO_SUCH_PLACE);
	CHECK(head == 99 && queue == 99);
	ANSWERS(strm_putq(&pool, 2, a), STRM_OK);
	ANSWERS(strm_putq(&pool, 2, b), STRM_OK);
	ANSWERS(strm_putq(&pool, 2, c), STRM_OK);
	ANSWERS(strm_first_queued(&pool, 2, &head), STRM_OK);
	CHECK(head == c.head);
	ANSWERS(strm_queued_after(&pool, head, &head), STRM_OK);
	CHECK(head == b.head);
	ANSWERS(strm_queued_after(&pool, head, &head), STRM_OK);
	CHECK(head == a.head);
	ANSWERS(strm_queued_after(&pool, head, &head), STRM_NONE);
	ANSWERS(strm_queued_before(&pool, c.head, &head), STRM_NONE);
	CHECK(head == a.head);
	ANSWERS(strm_last_queued(&pool, 2, &head), STRM_OK);
	CHECK(head == a.head);
	ANSWERS(strm_queued_before(&pool, head, &head), STRM_OK);
	CHECK(head == b.head);
	ANSWERS(strm_queued_before(&pool, head, &head), STRM_OK);
	CHECK(head == c.head);
	ANSWERS(strm_queue_of(&pool, b.head, &queue), STRM_OK);
	CHECK(queue == 2);
	head = a.head;
	/* held, behind the first block, free, and not there */
	ANSWERS(strm_queued_after(&pool, held.head, &head), STRM_NO_SUCH_PLACE);
	ANSWERS(strm_queued_after(&pool, tail.head, &head), STRM_NO_SUCH_PLACE);
	ANSWERS(strm_queued_after(&pool, 7, &head), STRM_NO_SUCH_PLACE);
	ANSWERS(strm_queued_after(&pool, 8, &head), STRM_NO_SUCH_PLACE);
	ANSWERS(strm_queued_after(&pool, 0xFFFFFFFFu, &head), STRM_NO_SUCH_PLACE);
	ANSWERS(strm_queued_before(&pool, tail.head, &head), STRM_NO_SUCH_PLACE);
	ANSWERS(strm_queued_before(&pool, 0xFFFFFFFFu, &head), STRM_NO_SUCH_PLACE);
	ANSWERS(strm_queue_of(&pool, held.head, &queue), STRM_NO_SUCH_PLACE);
	ANSWERS(strm_queue_of(&pool, 0xFFFFFFFFu, &queue), STRM_NO_SUCH_PLACE);
	CHECK(head == a.head && queue == 2);
	test_queued_in_place(&pool, a, b, tail.head);
	ANSWERS(strm_queued_at(&pool, 2, 0, &queued), STRM_OK);
	CHECK(queued.head == c.head && queued.type == STRM_M_PCPROTO && queued.band == 0 && queued.bytes == 1 && queued.blocks == 1);
	ANSWERS(strm_queued_at(&pool, 2, 1, &queued), STRM_OK);
	CHECK(queued.head == b.head && queued.type == STRM_M_DATA && queued.band == 2 && queued.bytes == 5 && queued.blocks == 2);
	ANSWERS(strm_message(&pool, held, &queued), STRM_OK);
	CHECK(queued.head == held.head && queued.type == STRM_M_DATA && queued.band == 0 && queued.bytes == 4 && queued.blocks == 1);
	ANSWERS(strm_setband(&pool, held, 3), STRM_OK);
	ANSWERS(strm_settype(&pool, held, 0, STRM_M_PROTO), STRM_OK);
	ANSWERS(strm_linkb(&pool, held, message(&pool, "up")), STRM_OK);
	ANSWERS(strm_message(&pool, held, &queued), STRM_OK);
	CHECK(queued.head == held.head && queued.type == STRM_M_PROTO && queued.band == 3 && queued.bytes == 6 && queued.blocks == 2);
	ANSWERS(strm_message(&pool, b, &queued), STRM_INVALID);
	ANSWERS(strm_queued_at(&pool, 2, 1, &queued), STRM_OK);
	ANSWERS(strm_queued_at(&pool, 2, 3, &queued), STRM_NO_SUCH_PLACE);
	ANSWERS(strm_queued_at(&pool, 2, 0xFFFFFFFFu, &queued), STRM_NO_SUCH_PLACE);
	ANSWERS(strm_queued_at(&pool, 3, 9, &queued), STRM_NO_SUCH_QUEUE);
	CHECK(queued.head == b.head);
	memset(room, '.', sizeof room);
	ANSWERS(strm_read_queued(&pool, 2, 1, 1, room, sizeof room, &count), STRM_OK);
	CHECK(count == 4 && memcmp(room, "eghi....", 8) == 0);
	ANSWERS(strm_read_queued(&pool, 2, 1, 0, room, 3, &count), STRM_OK);
	CHECK(count == 3 && memcmp(room, "degi....", 8) == 0);
	ANSWERS(strm_read_queued(&pool, 2, 1, 5, room, sizeof room, &count), STRM_OK);
	CHECK(count == 0);
	ANSWERS(strm_read_queued(&pool, 2, 2, 0, NULL, 0, &count), STRM_OK);
	CHECK(count == 0);
	count = 77;
	ANSWERS(strm_read_queued(&pool, 2, 3, 0, room, sizeof room, &count), STRM_NO_SUCH_PLACE);
	ANSWERS(strm_read_queued(&pool, 2, 3, 0, NULL, 0, &count), STRM_NO_SUCH_PLACE);
	ANSWERS(strm_read_queued(&pool, 3, 9, 0, room, sizeof room, &count), STRM_NO_SUCH_QUEUE);
	CHECK(count == 77 && memcmp(room, "degi....", 8) == 0);
	CENSUS(&pool, 2, 4, 2);
	ANSWERS(strm_close(&pool), STRM_OK);
}

/* Each call on several messages stops at the first that fails, and returns its code only if that is the very first. */
static void test_several(void)
{
	struct strm_pool pool = opened(5);
	struct strm_msg msgs[8], none = STRM_NO_MSG, kept;
	struct strm_queue_info info;
	size_t count = 77;
	int i;

	for (i = 0; i < 8; i++)
		msgs[i] = none;
	ANSWERS(strm_allocb_n(&pool, 65, msgs, 2, &count), STRM_TOO_LARGE);
	ANSWERS(strm_allocb_n(&pool, 65, NULL, 0, &count), STRM_OK);
	CHECK(count == 0 && same_name(msgs[0], none));
	/* there are two data blocks of 64 bytes, and five message blocks */
	ANSWERS(strm_allocb_n(&pool, 64, msgs, 8, &count), STRM_OK);
	CHECK(count == 2 && msgs[0].head == 0 && msgs[1].head == 1 && same_name(msgs[2], none));
	count = 77;
	ANSWERS(strm_allocb_n(&pool, 64, msgs + 2, 1, &count), STRM_NO_DATA);
	CHECK(count == 0 && same_name(msgs[2], none));
	ANSWERS(strm_allocb_n(&pool, 16, msgs + 2, 6, &count), STRM_OK);
	CHECK(count == 3 && msgs[4].head == 4 && same_name(msgs[5], none));
	ANSWERS(strm_allocb_n(&pool, 16, msgs + 5, 1, &count), STRM_NO_MBLK);
	CENSUS(&pool, 0, 0, 5);
	/* the third name is not valid */
	kept = msgs[2];
	msgs[2].stamp++;
	ANSWERS(strm_putq_n(&pool, 2, msgs, 5, &count), STRM_OK);
	CHECK(count == 2);
	CENSUS(&pool, 0, 2, 3);
	count = 77;
	ANSWERS(strm_putq_n(&pool, 2, msgs + 2, 3, &count), STRM_INVALID);
	CHECK(count == 0);
	msgs[2] = kept;
	count = 77;
	ANSWERS(strm_putq_n(&pool, 3, msgs + 2, 3, &count), STRM_NO_SUCH_QUEUE);
	CHECK(count == 0);
	ANSWERS(strm_putq_n(&pool, 3, NULL, 0, &count), STRM_OK);
	CHECK(count == 0);
	ANSWERS(strm_putq_n(&pool, 2, msgs + 2, 3, &count), STRM_OK);
	CHECK(count == 3);
	CENSUS(&pool, 0, 5, 0);
	/* in order; the queue runs empty at the last, which sets the want-to-read mark */
	ANSWERS(strm_getq_n(&pool, 2, msgs, 2, &count), STRM_OK);
	CHECK(count == 2 && msgs[0].head == 0 && msgs[1].head == 1 && same_name(msgs[2], kept));
	ANSWERS(strm_queue_info(&pool, 2, &info), STRM_OK);
	CHECK(info.msgs == 3 && info.read == 0);
	ANSWERS(strm_getq_n(&pool, 2, msgs + 2, 6, &count), STRM_OK);
	CHECK(count == 3 && msgs[2].head == 2 && msgs[4].head == 4 && same_name(msgs[5], none));
	ANSWERS(strm_queue_info(&pool, 2, &info), STRM_OK);
	CHECK(info.msgs == 0 && info.read == 1);
	count = 77;
	ANSWERS(strm_getq_n(&pool, 2, msgs + 5, 2, &count), STRM_NONE);
	CHECK(count == 0 && same_name(msgs[5], none));
	count = 77;
	ANSWERS(strm_getq_n(&pool, 3, msgs + 5, 2, &count), STRM_NO_SUCH_QUEUE);
	CHECK(count == 0 && same_name(msgs[5], none));
	ANSWERS(strm_getq_n(&pool, 3, NULL, 0, &count), STRM_OK);
	CHECK(count == 0);
	/* the second and the third are one message */
	kept = msgs[2];
	msgs[2] = msgs[1];
	ANSWERS(strm_freemsg_n(&pool, msgs, 5, &count), STRM_OK);
	CHECK(count == 2);
	CENSUS(&pool, 2, 0, 3);
	count = 77;
	ANSWERS(strm_freemsg_n(&pool, msgs, 5, &count), STRM_INVALID);
	CHECK(count == 0);
	msgs[2] = kept;
	ANSWERS(strm_freemsg_n(&pool, msgs + 2, 3, &count), STRM_OK);
	CHECK(count == 3);
	ANSWERS(strm_freemsg_n(&pool, NULL, 0, &count), STRM_OK);
	CHECK(count == 0);
	CENSUS(&pool, 5, 0, 0);
	ANSWERS(strm_close(&pool), STRM_OK);
}

/* ---- bursts beside single calls */

/* The longest burst, one more than the message blocks there are. Of each class fewer data blocks are there. */
#define LONGEST 300

enum burst { ALLOCATES, PUTS, TAKES, FREES };

static int together(enum burst burst, struct strm_pool *pool, struct strm_msg *msgs, size_t length, size_t *count)
{
	switch (burst) {
	case ALLOCATES: return strm_allocb_n(pool, 5, msgs, length, count);
	case PUTS: return strm_putq_n(pool, 2, msgs, length, count);
	case TAKES: return strm_getq_n(pool, 2, msgs, length, count);
	default: return strm_freemsg_n(pool, msgs, length, count);
	}
}

static int single(enum burst burst, struct strm_pool *pool, struct strm_msg *msg)
{
	switch (burst) {
	case ALLOCATES: return strm_allocb(pool, 5, msg);
	case PUTS: return strm_putq(pool, 2, *msg);
	case TAKES: return strm_getq(pool, 2, msg);
	default: return strm_freemsg(pool, *msg);
	}
}

static int one_by_one(enum burst burst, struct strm_pool *pool, struct strm_msg *msgs, size_t length, size_t *count)
{
	int code = STRM_OK;

	for (*count = 0; *count < length && code == STRM_OK; ++*count)
		code = single(burst, pool, &msgs[*count]);
	if (code == STRM_OK)
		return STRM_OK;
	--*count;
	return *count > 0 ? STRM_OK : code;
}

/* Two pools of one id, on which the same calls were made, and their messages. */
static struct strm_pool twins[2];
static struct strm_msg held[2][LONGEST];

/* Makes a call on several messages on one pool, and the single calls on the other. Returns how many were done. */
static size_t burst(enum burst burst, size_t from, size_t length)
{
	size_t many = 77, counts = 77;
	int code = together(burst, &twins[0], held[0] + from, length, &many);

	ANSWERS(one_by_one(burst, &twins[1], held[1] + from, length, &counts), code);
	CHECK(many == counts && memcmp(held[0], held[1], sizeof held[0]) == 0);
	return many;
}

/* Whether calls report the same of both pools: blocks, queues with bands and run list. Takes the queues off the run list. */
static int are_alike(void)
{
	struct strm_census census[2];
	struct strm_queue_info info[2];
	struct strm_band_info band[2];
	struct strm_class_info size_class[2];
	uint32_t next[2], fewest[2], i, k;

	for (k = 0; k < 2; k++) {
		ANSWERS(strm_census(&twins[k], &census[k]), STRM_OK);
		ANSWERS(strm_least_free_blocks(&twins[k], &fewest[k]), STRM_OK);
		ANSWERS(strm_queue_info(&twins[k], 2, &info[k]), STRM_OK);
	}
	if (memcmp(&census[0], &census[1], sizeof census[0]) != 0 || fewest[0] != fewest[1] || memcmp(&info[0], &info[1], sizeof info[0]) != 0)
		return 0;
	for (i = 0; i < 9; i++) {
		for (k = 0; k < 2; k++)
			ANSWERS(strm_band_info(&twins[k], 2, i, &band[k]), STRM_OK);
		if (memcmp(&band[0], &band[1], sizeof band[0]) != 0)
			return 0;
	}
	for (i = 0; i < 3; i++) {
		for (k = 0; k < 2; k++) {
			ANSWERS(strm_class_info(&twins[k], i, &size_class[k]), STRM_OK);
			ANSWERS(strm_least_free(&twins[k], i, &fewest[k]), STRM_OK);
		}
		if (memcmp(&size_class[0], &size_class[1], sizeof size_class[0]) != 0 || fewest[0] != fewest[1])
			return 0;
	}
	while (strm_next_service(&twins[0], &next[0]) == STRM_OK)
		if (strm_next_service(&twins[1], &next[1]) != STRM_OK || next[0] != next[1])
			return 0;
	return strm_next_service(&twins[1], &next[1]) == STRM_NONE;
}

/* Gives messages ranks and bytes: runs of equal ranks, longer and longer, and now and then high priority. */
static void dress(size_t count, uint32_t run)
{
	size_t i;
	int k;

	for (i = 0; i < count; i++)
		for (k = 0; k < 2; k++) {
			ANSWERS(strm_setband(&twins[k], held[k][i], (uint32_t)(i / run * 7 % 9)), STRM_OK);
			ANSWERS(strm_write(&twins[k], held[k][i], 0, (const uint8_t *)"bytes", i % 6), STRM_OK);
			if (i % 23 == 22)
				ANSWERS(strm_settype(&twins[k], held[k][i], 0, STRM_M_PCPROTO), STRM_OK);
		}
}

/* Asks queue 0 of both whether each band has room at queue 2: those that have none are wanted there. */
static void want(void)
{
	uint32_t band, yes, k;

	for (band = 0; band < 9; band++)
		for (k = 0; k < 2; k++)
			ANSWERS(strm_bcanput(&twins[k], 0, band, &yes), STRM_OK);
}

/* Bursts of each length do what as many single calls do on a twin of the pool. */
static void test_bursts(void)
{
	static const struct strm_class_spec three[] = { { 5, 120 }, { 16, 80 }, { 64, 150 } };
	static const struct strm_queue_spec chain[] = { { 10, 4, 1, 1 }, { 10, 4, 0, 2 }, { 60, 20, 1, STRM_NO_QUEUE } };
	struct strm_config config = config_of(LONGEST - 1);
	size_t length, count, put, got;
	int k;

	config.classes = three;
	config.class_count = 3;
	config.queues = chain;
	memset(held, 0, sizeof held);
	for (k = 0; k < 2; k++) {
		memset(&twins[k], 0, sizeof twins[k]);
		ANSWERS(strm_open(&twins[k], &config), STRM_OK);
	}
	for (length = 0; length <= LONGEST; length++) {
		for (k = 0; k < 2; k++)
			ANSWERS(strm_reset_least(&twins[k]), STRM_OK);
		count = burst(ALLOCATES, 0, length);
		CHECK(count == (length < LONGEST ? length : LONGEST - 1));
		dress(count, 1 + (uint32_t)length / 20);
		put = burst(PUTS, 0, count / 2);
		want();
		put += burst(PUTS, put, count - put);
		CHECK(put == count && are_alike());
		want();
		got = burst(TAKES, 0, length - length / 3);
		CHECK(are_alike());
		got += burst(TAKES, got, length - got);
		CHECK(got == count && are_alike());
		/* a name in the middle is not valid any more */
		if (count > 2 && length % 4 == 0) {
			ANSWERS(burst(FREES, count / 2, 1) == 1 ? STRM_OK : STRM_INVALID, STRM_OK);
			CHECK(burst(FREES, 0, count) == count / 2);
			CHECK(burst(FREES, count / 2 + 1, count - count / 2 - 1) == count - count / 2 - 1);
		} else
			CHECK(burst(FREES, 0, count) == count);
		CHECK(are_alike());
	}
	for (k = 0; k < 2; k++)
		ANSWERS(strm_close(&twins[k]), STRM_OK);
}

/* A queue with exactly as many messages as are asked for has no want-to-read mark afterwards; one with fewer has it. */
static void test_all_of_a_queue(void)
{
	struct strm_pool pool = opened(8);
	struct strm_msg msgs[2];
	struct strm_queue_info info;
	size_t count;

	msgs[0] = message(&pool, "a");
	msgs[1] = message(&pool, "b");
	ANSWERS(strm_putq_n(&pool, 0, msgs, 2, &count), STRM_OK);
	ANSWERS(strm_getq_n(&pool, 0, msgs, 2, &count), STRM_OK);
	ANSWERS(strm_queue_info(&pool, 0, &info), STRM_OK);
	CHECK(count == 2 && info.msgs == 0 && info.read == 0);
	ANSWERS(strm_getq_n(&pool, 0, msgs, 2, &count), STRM_NONE);
	ANSWERS(strm_queue_info(&pool, 0, &info), STRM_OK);
	CHECK(count == 0 && info.read == 1);
	ANSWERS(strm_close(&pool), STRM_OK);
}

static void test_specs(void)
{
	static const struct strm_queue_spec one[] = { { 10, 4, 0xFFFFFFFFu, STRM_NO_QUEUE } };
	struct strm_pool pool = opened(8), other = STRM_POOL_INIT;
	struct strm_config config = config_of(8);
	struct strm_queue_spec spec;
	uint32_t queue;

	for (queue = 0; queue < 3; queue++) {
		ANSWERS(strm_queue_spec(&pool, queue, &spec), STRM_OK);
		CHECK(memcmp(&spec, &queues[queue], sizeof spec) == 0);
	}
	ANSWERS(strm_strqset(&pool, 2, 0, 5, 3), STRM_OK);
	ANSWERS(strm_queue_spec(&pool, 2, &spec), STRM_OK);
	CHECK(memcmp(&spec, &queues[2], sizeof spec) == 0);
	ANSWERS(strm_queue_spec(&pool, 3, &spec), STRM_NO_SUCH_QUEUE);
	ANSWERS(strm_queue_spec(&pool, 0xFFFFFFFFu, &spec), STRM_NO_SUCH_QUEUE);
	CHECK(memcmp(&spec, &queues[2], sizeof spec) == 0);
	config.queues = one;
	config.queue_count = 1;
	ANSWERS(strm_open(&other, &config), STRM_OK);
	ANSWERS(strm_queue_spec(&other, 0, &spec), STRM_OK);
	CHECK(spec.hiwat == 10 && spec.lowat == 4 && spec.service == 1 && spec.next == STRM_NO_QUEUE);
	ANSWERS(strm_close(&other), STRM_OK);
	ANSWERS(strm_close(&pool), STRM_OK);
}

static void test_flush(void)
{
	struct strm_pool pool = opened(8);
	struct strm_msg a = message(&pool, "a"), b = message(&pool, "b"), c = message(&pool, "c");
	uint32_t msgs;

	ANSWERS(strm_settype(&pool, a, 0, STRM_M_CTL), STRM_OK);
	ANSWERS(strm_setband(&pool, b, 2), STRM_OK);
	ANSWERS(strm_putq(&pool, 2, a), STRM_OK);
	ANSWERS(strm_putq(&pool, 2, b), STRM_OK);
	ANSWERS(strm_putq(&pool, 2, c), STRM_OK);
	ANSWERS(strm_flushq(&pool, 3, STRM_FLUSHALL), STRM_NO_SUCH_QUEUE);
	ANSWERS(strm_flushband(&pool, 3, 0, STRM_FLUSHALL), STRM_NO_SUCH_QUEUE);
	ANSWERS(strm_flushband(&pool, 2, 2, STRM_FLUSHDATA), STRM_OK);
	ANSWERS(strm_qsize(&pool, 2, &msgs), STRM_OK);
	CHECK(msgs == 2);
	ANSWERS(strm_flushq(&pool, 2, STRM_FLUSHDATA), STRM_OK);
	ANSWERS(strm_qsize(&pool, 2, &msgs), STRM_OK);
	CHECK(msgs == 1);
	ANSWERS(strm_flushband(&pool, 2, 1, STRM_FLUSHALL), STRM_OK);
	CENSUS(&pool, 7, 1, 0);
	ANSWERS(strm_flushq(&pool, 2, STRM_FLUSHALL), STRM_OK);
	CENSUS(&pool, 8, 0, 0);
	ANSWERS(strm_close(&pool), STRM_OK);
}

/* What a flush would free is taken instead. The queue has b of band 2, then a, which carries no data, c and d. */
static void test_take(void)
{
	struct strm_pool pool = opened(8);
	struct strm_msg a = message(&pool, "a"), b = message(&pool, "b"), c = message(&pool, "c"), d = message(&pool, "0123456789"), msgs[4], none = STRM_NO_MSG;
	uint32_t yes, queue, bytes;
	size_t count = 9, i;

	for (i = 0; i < 4; i++)
		msgs[i] = none;
	ANSWERS(strm_settype(&pool, a, 0, STRM_M_CTL), STRM_OK);
	ANSWERS(strm_setband(&pool, b, 2), STRM_OK);
	ANSWERS(strm_putq(&pool, 2, a), STRM_OK);
	ANSWERS(strm_putq(&pool, 2, b), STRM_OK);
	ANSWERS(strm_putq(&pool, 2, c), STRM_OK);
	ANSWERS(strm_putq(&pool, 2, d), STRM_OK);
	ANSWERS(strm_bcanput(&pool, 2, 0, &yes), STRM_OK);
	CHECK(yes == 0);
	while (strm_next_service(&pool, &queue) == STRM_OK)
		continue;
	ANSWERS(strm_takeq(&pool, 3, STRM_FLUSHALL, msgs, 4, &count), STRM_NO_SUCH_QUEUE);
	CHECK(count == 0 && strm_is_no_msg(msgs[0]));
	ANSWERS(strm_takeq_band(&pool, 0xFFFFFFFFu, 0, STRM_FLUSHALL, msgs, 4, &count), STRM_NO_SUCH_QUEUE);
	ANSWERS(strm_takeq(&pool, 2, STRM_FLUSHALL, NULL, 0, &count), STRM_OK);
	CHECK(count == 0);
	ANSWERS(strm_takeq_band(&pool, 2, 3, STRM_FLUSHALL, msgs, 4, &count), STRM_OK);
	CHECK(count == 0 && strm_is_no_msg(msgs[0]));
	CENSUS(&pool, 4, 4, 0);
	ANSWERS(strm_takeq(&pool, 2, STRM_FLUSHDATA, msgs, 2, &count), STRM_OK);
	CHECK(count == 2 && msgs[0].head == b.head && msgs[1].head == c.head && strm_is_no_msg(msgs[2]));
	CHECK(has_bytes(&pool, msgs[0], "b") && has_bytes(&pool, msgs[1], "c"));
	ANSWERS(strm_size(&pool, b, &bytes), STRM_INVALID);
	ANSWERS(strm_next_service(&pool, &queue), STRM_NONE);
	/* band 0 has drained once d is gone, and the queue behind is enabled */
	ANSWERS(strm_takeq_band(&pool, 2, 0, STRM_FLUSHDATA, msgs + 2, 2, &count), STRM_OK);
	CHECK(count == 1 && msgs[2].head == d.head && strm_is_no_msg(msgs[3]));
	CENSUS(&pool, 4, 1, 3);
	ANSWERS(strm_next_service(&pool, &queue), STRM_OK);
	CHECK(queue == 0);
	ANSWERS(strm_takeq(&pool, 2, STRM_FLUSHALL, msgs + 3, 1, &count), STRM_OK);
	CHECK(count == 1 && msgs[3].head == a.head);
	ANSWERS(strm_freemsg_n(&pool, msgs, 4, &count), STRM_OK);
	CENSUS(&pool, 8, 0, 0);
	ANSWERS(strm_close(&pool), STRM_OK);
}

static void test_flow_control(void)
{
	struct strm_pool pool = opened(8);
	struct strm_msg a = message(&pool, "0123456789"), out;
	struct strm_band_info band;
	struct strm_queue_info info;
	struct strm_marks marks;
	uint32_t yes, queue = 9;

	ANSWERS(strm_bcanput(&pool, 3, 0, &yes), STRM_NO_SUCH_QUEUE);
	ANSWERS(strm_bcanput(&pool, 0, 0, &yes), STRM_OK);
	CHECK(yes == 1);
	ANSWERS(strm_putq(&pool, 2, a), STRM_OK);
	ANSWERS(strm_queue_info(&pool, 2, &info), STRM_OK);
	CHECK(info.msgs == 1 && info.bytes == 10 && info.read == 1 && info.noenable == 0 && info.enabled == 1);
	ANSWERS(strm_run_at(&pool, 0, &queue), STRM_OK);
	CHECK(queue == 2);
	ANSWERS(strm_run_at(&pool, 1, &queue), STRM_NONE);
	ANSWERS(strm_next_service(&pool, &queue), STRM_OK);
	CHECK(queue == 2);
	queue = 9;
	ANSWERS(strm_next_service(&pool, &queue), STRM_NONE);
	CHECK(queue == 9);
	/* queue 1 has no service procedure, so queue 2 is looked at */
	ANSWERS(strm_bcanput(&pool, 1, 0, &yes), STRM_OK);
	CHECK(yes == 0);
	ANSWERS(strm_bcanput(&pool, 1, 1, &yes), STRM_OK);
	CHECK(yes == 1);
	ANSWERS(strm_band_info(&pool, 2, 0, &band), STRM_OK);
	CHECK(band.bytes == 10 && band.full == 1 && band.wanted == 1);
	ANSWERS(strm_band_info(&pool, 3, 0, &band), STRM_NO_SUCH_QUEUE);
	ANSWERS(strm_queue_info(&pool, 3, &info), STRM_NO_SUCH_QUEUE);
	/* queue 0 is back-enabled, because queue 1 has no service procedure */
	ANSWERS(strm_getq(&pool, 2, &out), STRM_OK);
	ANSWERS(strm_band_info(&pool, 2, 0, &band), STRM_OK);
	CHECK(band.bytes == 0 && band.full == 0 && band.wanted == 0);
	ANSWERS(strm_next_service(&pool, &queue), STRM_OK);
	CHECK(queue == 0);
	ANSWERS(strm_strqget(&pool, 2, 255, &marks), STRM_OK);
	CHECK(marks.hiwat == 10 && marks.lowat == 4);
	ANSWERS(strm_strqset(&pool, 3, 255, 5, 5), STRM_NO_SUCH_QUEUE);
	ANSWERS(strm_strqset(&pool, 2, 255, 5, 5), STRM_BAD_MARKS);
	ANSWERS(strm_strqset(&pool, 2, 255, 5, 4), STRM_OK);
	ANSWERS(strm_strqget(&pool, 2, 255, &marks), STRM_OK);
	CHECK(marks.hiwat == 5 && marks.lowat == 4);
	ANSWERS(strm_strqget(&pool, 3, 255, &marks), STRM_NO_SUCH_QUEUE);
	ANSWERS(strm_close(&pool), STRM_OK);
}

static void test_enabling(void)
{
	struct strm_pool pool = opened(8);
	struct strm_queue_info info;
	uint32_t queue = 9;

	ANSWERS(strm_qenable(&pool, 3), STRM_NO_SUCH_QUEUE);
	ANSWERS(strm_noenable(&pool, 3), STRM_NO_SUCH_QUEUE);
	ANSWERS(strm_enableok(&pool, 3), STRM_NO_SUCH_QUEUE);
	ANSWERS(strm_noenable(&pool, 0), STRM_OK);
	ANSWERS(strm_putq(&pool, 0, message(&pool, "a")), STRM_OK);
	ANSWERS(strm_next_service(&pool, &queue), STRM_NONE);
	ANSWERS(strm_queue_info(&pool, 0, &info), STRM_OK);
	CHECK(info.noenable == 1 && info.enabled == 0);
	ANSWERS(strm_enableok(&pool, 0), STRM_OK);
	ANSWERS(strm_next_service(&pool, &queue), STRM_NONE);
	ANSWERS(strm_qenable(&pool, 1), STRM_OK);
	ANSWERS(strm_qenable(&pool, 0), STRM_OK);
	ANSWERS(strm_qenable(&pool, 0), STRM_OK);
	ANSWERS(strm_next_service(&pool, &queue), STRM_OK);
	CHECK(queue == 0);
	ANSWERS(strm_next_service(&pool, &queue), STRM_NONE);
	ANSWERS(strm_close(&pool), STRM_OK);
}

/* ---- sides of streams */

/* A pool whose queues are lines of this length: each but the last has a next one and a service procedure. A band is full at 4 bytes. */
static struct strm_pool opened_lines(uint32_t queues, uint32_t length)
{
	struct strm_queue_spec specs[8];
	struct strm_pool pool = STRM_POOL_INIT;
	struct strm_config config = config_of(24);
	uint32_t q;

	for (q = 0; q < queues; q++) {
		specs[q].hiwat = 4;
		specs[q].lowat = 1;
		specs[q].service = (q + 1) % length != 0;
		specs[q].next = specs[q].service ? q + 1 : STRM_NO_QUEUE;
	}
	config.queues = specs;
	config.queue_count = queues;
	ANSWERS(strm_open(&pool, &config), STRM_OK);
	return pool;
}

static void test_serving(void)
{
	struct strm_pool pool = opened_lines(3, 3), others = opened(8);
	struct strm_msg a = message(&pool, "a"), b = message(&pool, "bcde"), c = message(&pool, "f"), out = STRM_NO_MSG;
	struct strm_service service = { 7, 7, 7 };
	uint32_t queue, held, given;

	ANSWERS(strm_serve(&pool, 0, &service, &out), STRM_NONE);
	ANSWERS(strm_hold(&pool, 3, a), STRM_NO_SUCH_QUEUE);
	CHECK(service.queue == 7 && service.next == 7 && service.held == 7 && strm_is_no_msg(out));
	ANSWERS(strm_putq(&pool, 0, a), STRM_OK);
	ANSWERS(strm_putq(&pool, 0, b), STRM_OK);
	ANSWERS(strm_putq(&pool, 0, c), STRM_OK);
	/* it gives the first message, and its queue is enabled again; a service ends once */
	ANSWERS(strm_serve(&pool, 0, &service, &out), STRM_OK);
	CHECK(service.queue == 0 && service.next == 1 && service.held == 0 && has_bytes(&pool, out, "a"));
	ANSWERS(strm_hold(&pool, service.queue, out), STRM_OK);
	ANSWERS(strm_hold(&pool, service.queue, out), STRM_INVALID);
	ANSWERS(strm_putq(&pool, service.next, out), STRM_INVALID);
	/* held back, it is not served again, until another queue is enabled too */
	ANSWERS(strm_serve(&pool, service.held + 1, &service, &out), STRM_NONE);
	ANSWERS(strm_putq(&pool, 1, message(&pool, "x")), STRM_OK);
	ANSWERS(strm_serve(&pool, 1, &service, &out), STRM_OK);
	CHECK(service.queue == 0 && service.held == 1);
	ANSWERS(strm_putq(&pool, service.next, out), STRM_OK);
	/* queue 1 gives x, and queue 0 b; then c may not go on, so queue 0 rests until queue 1 gives b */
	ANSWERS(strm_serve(&pool, 0, &service, &out), STRM_OK);
	CHECK(service.queue == 1 && service.next == 2 && has_bytes(&pool, out, "x"));
	ANSWERS(strm_freemsg(&pool, out), STRM_OK);
	ANSWERS(strm_serve(&pool, 0, &service, &out), STRM_OK);
	CHECK(service.queue == 0 && has_bytes(&pool, out, "bcde"));
	ANSWERS(strm_putq(&pool, 1, out), STRM_OK);
	ANSWERS(strm_serve(&pool, 0, &service, &out), STRM_OK);
	CHECK(service.queue == 1 && has_bytes(&pool, out, "a"));
	ANSWERS(strm_putq(&pool, 2, out), STRM_OK);
	ANSWERS(strm_serve(&pool, 1, &service, &out), STRM_NONE);
	ANSWERS(strm_serve(&pool, 0, &service, &out), STRM_OK);
	CHECK(service.queue == 1 && service.held == 0 && has_bytes(&pool, out, "bcde"));
	ANSWERS(strm_run_at(&pool, 0, &queue), STRM_OK);
	CHECK(queue == 0);
	CENSUS(&pool, 21, 2, 1);
	ANSWERS(strm_close(&pool), STRM_OK);
	/* while queue 2 is held back, queue 1 wakes queue 0, which comes first: so both are at the end once queue 1 is held back, too */
	pool = opened_lines(4, 4);
	ANSWERS(strm_putq(&pool, 1, message(&pool, "abcd")), STRM_OK);
	ANSWERS(strm_next_service(&pool, &queue), STRM_OK);
	ANSWERS(strm_putq(&pool, 0, message(&pool, "w")), STRM_OK);
	ANSWERS(strm_serve(&pool, 0, &service, &out), STRM_NONE);
	ANSWERS(strm_putq(&pool, 2, message(&pool, "v")), STRM_OK);
	ANSWERS(strm_qenable(&pool, 1), STRM_OK);
	ANSWERS(strm_serve(&pool, 0, &service, &out), STRM_OK);
	ANSWERS(strm_hold(&pool, service.queue, out), STRM_OK);
	ANSWERS(strm_serve(&pool, service.held + 1, &service, &out), STRM_OK);
	CHECK(service.queue == 1 && service.held == 1);
	ANSWERS(strm_run_at(&pool, 0, &queue), STRM_OK);
	CHECK(queue == 0);
	ANSWERS(strm_hold(&pool, service.queue, out), STRM_OK);
	ANSWERS(strm_serve(&pool, service.held + 1, &service, &out), STRM_NONE);
	ANSWERS(strm_close(&pool), STRM_OK);
	/* on two lines, queues that are held back wake those behind, and each gives its message once */
	pool = opened_lines(6, 3);
	for (queue = 0; queue < 5; queue += queue == 1 ? 2 : 1)
		ANSWERS(strm_putq(&pool, queue, message(&pool, "abcd")), STRM_OK);
	for (held = given = 0; given < 9 && strm_serve(&pool, held, &service, &out) == STRM_OK; given++) {
		ANSWERS(strm_hold(&pool, service.queue, out), STRM_OK);
		held = service.held + 1;
	}
	CHECK(given == 2 && held == 2);
	ANSWERS(strm_close(&pool), STRM_OK);
	/* queue 1 cannot give, and wakes queue 0 as it rests: that comes first, so that queue 3, which is held back, is not served again */
	pool = opened_lines(6, 3);
	ANSWERS(strm_putq(&pool, 2, message(&pool, "abcd")), STRM_OK);
	ANSWERS(strm_putq(&pool, 1, message(&pool, "abc")), STRM_OK);
	ANSWERS(strm_putq(&pool, 1, message(&pool, "d")), STRM_OK);
	ANSWERS(strm_putq(&pool, 0, message(&pool, "x")), STRM_OK);
	ANSWERS(strm_serve(&pool, 0, &service, &out), STRM_NONE);
	ANSWERS(strm_putq(&pool, 3, message(&pool, "y")), STRM_OK);
	ANSWERS(strm_getq(&pool, 2, &out), STRM_OK);
	ANSWERS(strm_putq(&pool, 2, out), STRM_OK);
	ANSWERS(strm_serve(&pool, 0, &service, &out), STRM_OK);
	CHECK(service.queue == 3);
	ANSWERS(strm_hold(&pool, service.queue, out), STRM_OK);
	ANSWERS(strm_serve(&pool, service.held + 1, &service, &out), STRM_NONE);
	ANSWERS(strm_run_at(&pool, 0, &queue), STRM_OK);
	CHECK(queue == 3);
	ANSWERS(strm_run_at(&pool, 1, &queue), STRM_NONE);
	ANSWERS(strm_close(&pool), STRM_OK);
	/* a queue without a next one stays first on the run list */
	ANSWERS(strm_putq(&others, 2, message(&others, "a")), STRM_OK);
	ANSWERS(strm_serve(&others, 0, &service, &out), STRM_NONE);
	ANSWERS(strm_next_service(&others, &queue), STRM_OK);
	CHECK(queue == 2);
	ANSWERS(strm_close(&others), STRM_OK);
}

/* What the want-to-read mark of queue 0 is. */
static uint32_t read_mark(const struct strm_pool *pool)
{
	struct strm_queue_info info = { 0, 0, 9, 0, 0 };

	ANSWERS(strm_queue_info(pool, 0, &info), STRM_OK);
	return info.read;
}

/* strm_serve sets and clears the want-to-read mark as strm_getq does; other calls that take messages off leave it. */
static void test_want_to_read(void)
{
	struct strm_pool pool = opened_lines(2, 2);
	struct strm_service service;
	struct strm_msg out;
	size_t count;

	CHECK(read_mark(&pool) == 1);
	ANSWERS(strm_putq(&pool, 0, message(&pool, "a")), STRM_OK);
	CHECK(read_mark(&pool) == 1);
	ANSWERS(strm_serve(&pool, 0, &service, &out), STRM_OK);
	CHECK(read_mark(&pool) == 0);
	ANSWERS(strm_serve(&pool, 0, &service, &out), STRM_NONE);
	CHECK(read_mark(&pool) == 1);
	/* the mark stays set .. */
	ANSWERS(strm_putq(&pool, 0, message(&pool, "a")), STRM_OK);
	ANSWERS(strm_putq(&pool, 0, message(&pool, "b")), STRM_OK);
	ANSWERS(strm_rmvq(&pool, 0, 1, &out), STRM_OK);
	ANSWERS(strm_takeq(&pool, 0, STRM_FLUSHALL, &out, 1, &count), STRM_OK);
	ANSWERS(strm_flushq(&pool, 0, STRM_FLUSHALL), STRM_OK);
	CHECK(read_mark(&pool) == 1);
	/* .. or cleared, even where the queue runs empty; a message that is put back clears it, too */
	ANSWERS(strm_putq(&pool, 1, message(&pool, "full")), STRM_OK);
	ANSWERS(strm_putq(&pool, 0, message(&pool, "a")), STRM_OK);
	ANSWERS(strm_serve(&pool, 0, &service, &out), STRM_NONE);
	CHECK(read_mark(&pool) == 0);
	ANSWERS(strm_rmvq(&pool, 0, 0, &out), STRM_OK);
	CHECK(read_mark(&pool) == 0);
	ANSWERS(strm_putq(&pool, 0, out), STRM_OK);
	ANSWERS(strm_takeq_band(&pool, 0, 0, STRM_FLUSHALL, &out, 1, &count), STRM_OK);
	ANSWERS(strm_flushband(&pool, 0, 0, STRM_FLUSHALL), STRM_OK);
	CHECK(count == 1 && read_mark(&pool) == 0);
	ANSWERS(strm_close(&pool), STRM_OK);
}

/* A queue that rests with a message was settled without it, and whom that woke was served before queues that were enabled. */
static void test_resting(void)
{
	struct strm_pool pool = opened_lines(6, 3);
	struct strm_service service;
	struct strm_band_info band;
	struct strm_msg out;
	uint32_t yes, queue;

	ANSWERS(strm_putq(&pool, 2, message(&pool, "full")), STRM_OK);
	ANSWERS(strm_putq(&pool, 1, message(&pool, "abcd")), STRM_OK);
	ANSWERS(strm_bcanput(&pool, 1, 0, &yes), STRM_OK);
	ANSWERS(strm_band_info(&pool, 1, 0, &band), STRM_OK);
	CHECK(yes == 0 && band.bytes == 4 && band.wanted == 1);
	ANSWERS(strm_serve(&pool, 0, &service, &out), STRM_NONE);
	ANSWERS(strm_band_info(&pool, 1, 0, &band), STRM_OK);
	CHECK(band.bytes == 4 && band.full == 1 && band.wanted == 0);
	ANSWERS(strm_band_info(&pool, 2, 0, &band), STRM_OK);
	CHECK(band.wanted == 1);
	/* queue 1 wakes queue 0 as it rests: a message of band 1 there goes on before that of queue 3, which was enabled long before */
	ANSWERS(strm_bcanput(&pool, 1, 0, &yes), STRM_OK);
	out = message(&pool, "b");
	ANSWERS(strm_setband(&pool, out, 1), STRM_OK);
	ANSWERS(strm_putq(&pool, 0, out), STRM_OK);
	ANSWERS(strm_next_service(&pool, &queue), STRM_OK);
	ANSWERS(strm_qenable(&pool, 1), STRM_OK);
	ANSWERS(strm_putq(&pool, 3, message(&pool, "c")), STRM_OK);
	ANSWERS(strm_serve(&pool, 0, &service, &out), STRM_OK);
	CHECK(queue == 0 && service.queue == 0 && has_bytes(&pool, out, "b"));
	ANSWERS(strm_serve(&pool, 0, &service, &out), STRM_OK);
	CHECK(service.queue == 3);
	ANSWERS(strm_close(&pool), STRM_OK);
}

/* ---- names, codes, versions */

static void test_names(void)
{
	struct strm_pool pool = opened(4);
	struct strm_msg a = message(&pool, "a"), other, none = STRM_NO_MSG;

	CHECK(none.pool == 0 && none.head == 0 && none.stamp == 0);
	CHECK(strm_same_msg(a, a) == 1 && strm_is_no_msg(a) == 0);
	other = a;
	other.pool += 1;
	CHECK(strm_same_msg(a, other) == 0 && strm_same_msg(other, a) == 0);
	other = a;
	other.head += 1;
	CHECK(strm_same_msg(a, other) == 0 && strm_same_msg(other, a) == 0);
	other = a;
	other.stamp += (uint64_t)1 << 32;
	CHECK(strm_same_msg(a, other) == 0 && strm_same_msg(other, a) == 0);
	CHECK(strm_is_no_msg(none) == 1 && strm_same_msg(none, none) == 1);
	other = none;
	other.pool = 1;
	CHECK(strm_is_no_msg(other) == 0);
	other = none;
	other.head = 1;
	CHECK(strm_is_no_msg(other) == 0);
	other = none;
	other.stamp = (uint64_t)1 << 32;
	CHECK(strm_is_no_msg(other) == 0);
#if defined(__cplusplus) || (defined(__STDC_VERSION__) && __STDC_VERSION__ >= 199901L)
	/* a value, too */
	other = STRM_NO_MSG;
	CHECK(same_name(other, none) && strm_is_no_msg(STRM_NO_MSG) == 1 && strm_same_msg(STRM_NO_MSG, none) == 1);
	other = strm_is_no_msg(a) ? a : STRM_NO_MSG;
	CHECK(same_name(other, none));
#endif
	ANSWERS(strm_close(&pool), STRM_OK);
}

static void test_failed(void)
{
	int code, calls = 0;

	for (code = -40; code <= 40; code++)
		CHECK(!STRM_FAILED(code) == (code == STRM_OK || code == STRM_NONE));
	CHECK(STRM_FAILED(INT_MIN) && STRM_FAILED(INT_MAX));
	/* the code may be a call, which is made once */
	CHECK(!STRM_FAILED(calls++) && calls == 1);
}

static void test_version(void)
{
	int first, second, third;

	CHECK(sscanf(STRM_VERSION, "%d.%d.%d", &first, &second, &third) == 3);
	CHECK(STRM_VERSION_NUMBER == first * 1000000 + second * 1000 + third);
}

/* The sizes that programs of one soname agree on. tests/exports compares the fields. */
static void test_sizes(void)
{
	CHECK(sizeof(struct strm_pool) == 16 && sizeof(struct strm_msg) == 16);
	CHECK(sizeof(struct strm_config) == 48 && sizeof(struct strm_class_spec) == 8 && sizeof(struct strm_queue_spec) == 16);
	CHECK(sizeof(struct strm_census) == 12 && sizeof(struct strm_class_info) == 12 && sizeof(struct strm_block_info) == 20);
	CHECK(sizeof(struct strm_queue_info) == 20 && sizeof(struct strm_band_info) == 12);
	CHECK(sizeof(struct strm_marks) == 8 && sizeof(struct strm_wish) == 8);
	CHECK(sizeof(struct strm_block_place) == 16 && sizeof(struct strm_iov) == 16 && sizeof(struct strm_queued) == 20);
}

/* The name of no message initialises a static variable, in each language without a warning. */
static void test_static_name(void)
{
	static const struct strm_msg none = STRM_NO_MSG_INIT, nones[] = { STRM_NO_MSG_INIT, STRM_NO_MSG_INIT };

	CHECK(strm_is_no_msg(none) && strm_is_no_msg(nones[1]));
}

#ifdef __cplusplus
/* In C++ a struct needs no `struct`, not even one whose name a call has. */
static void test_without_struct(void)
{
	strm_pool pool = opened(4);
	strm_census census;
	strm_class_info info;
	strm_queue_info queue;
	strm_band_info band;
	strm_queue_spec spec;
	strm_iov iov;
	size_t count;
	int (*take)(const strm_pool *, strm_census *) = &strm_census_;

	ANSWERS(strm_census(&pool, &census), STRM_OK);
	ANSWERS(take(&pool, &census), STRM_OK);
	ANSWERS(strm_class_info(&pool, 0, &info), STRM_OK);
	ANSWERS(strm_queue_info(&pool, 0, &queue), STRM_OK);
	ANSWERS(strm_band_info(&pool, 0, 0, &band), STRM_OK);
	ANSWERS(strm_queue_spec(&pool, 0, &spec), STRM_OK);
	ANSWERS(strm_iov(&pool, message(&pool, "lion"), 0, &iov, 1, &count), STRM_OK);
	CHECK(census.free == 4 && info.size == 16 && queue.msgs == 0 && band.bytes == 0 && spec.next == 1 && iov.length == 4);
	ANSWERS(strm_close(&pool), STRM_OK);
}

/* In C++ the name of a struct and parentheses are zeros or, around a struct, a copy. */
static void test_zeros(void)
{
	strm_census census = strm_census(), *zeros = new strm_census(), copy = strm_census(census);
	strm_class_info info = strm_class_info();
	strm_queue_info queue = strm_queue_info();
	strm_band_info band = strm_band_info();
	strm_queue_spec spec = strm_queue_spec();
	strm_iov iov = strm_iov();

	CHECK(census.held == 0 && zeros->held == 0 && copy.held == 0 && info.total == 0 && queue.enabled == 0 && band.wanted == 0);
	CHECK(spec.next == 0 && iov.base == NULL && iov.length == 0);
	delete zeros;
}
#endif

/* ---- wishes, what there is, texts */

static void test_wishes(void)
{
	struct strm_pool pool = STRM_POOL_INIT;
	struct strm_config config = config_of(1);
	struct strm_msg a;
	struct strm_wish wish;
	uint32_t id = 0;

	config.first_id = 0xFFFFFFFEu;
	ANSWERS(strm_open(&pool, &config), STRM_OK);
	ANSWERS(strm_bufcall(&pool, 65, &id), STRM_TOO_LARGE);
	ANSWERS(strm_allocb(&pool, 1, &a), STRM_OK);
	ANSWERS(strm_bufcall(&pool, 64, &id), STRM_OK);
	CHECK(id == 0xFFFFFFFEu);
	ANSWERS(strm_bufcall(&pool, 1, &id), STRM_OK);
	CHECK(id == 0xFFFFFFFFu);
	ANSWERS(strm_bufcall(&pool, 1, &id), STRM_FULL);
	ANSWERS(strm_take_ready(&pool, &wish), STRM_NONE);
	ANSWERS(strm_wish_at(&pool, 1, &wish), STRM_OK);
	CHECK(wish.id == 0xFFFFFFFFu && wish.size == 1);
	ANSWERS(strm_wish_at(&pool, 2, &wish), STRM_NONE);
	ANSWERS(strm_unbufcall(&pool, 1), STRM_NOT_PENDING);
	ANSWERS(strm_unbufcall(&pool, 0xFFFFFFFFu), STRM_OK);
	ANSWERS(strm_bufcall(&pool, 1, &id), STRM_IDS_SPENT);
	CHECK(id == 0xFFFFFFFFu);
	ANSWERS(strm_freemsg(&pool, a), STRM_OK);
	ANSWERS(strm_take_ready(&pool, &wish), STRM_OK);
	CHECK(wish.id == 0xFFFFFFFEu && wish.size == 64);
	ANSWERS(strm_take_ready(&pool, &wish), STRM_NONE);
	ANSWERS(strm_close(&pool), STRM_OK);
}

static void test_classes(void)
{
	struct strm_pool pool = opened(8);
	struct strm_class_info info;
	struct strm_msg a;

	ANSWERS(strm_allocb(&pool, 64, &a), STRM_OK);
	ANSWERS(strm_class_info(&pool, 0, &info), STRM_OK);
	CHECK(info.size == 16 && info.free == 6 && info.total == 6);
	ANSWERS(strm_class_info(&pool, 1, &info), STRM_OK);
	CHECK(info.size == 64 && info.free == 1 && info.total == 2);
	ANSWERS(strm_class_info(&pool, 2, &info), STRM_NONE);
	ANSWERS(strm_class_info(&pool, 0xFFFFFFFFu, &info), STRM_NONE);
	ANSWERS(strm_close(&pool), STRM_OK);
}

static void test_texts(void)
{
	/* each code, and its name as the header has it */
#define CODE(code) { code, #code }
	static const struct {
		int code;
		const char *name;
	} codes[] = {
		CODE(STRM_OK), CODE(STRM_TOO_LARGE), CODE(STRM_NO_MBLK), CODE(STRM_NO_DATA), CODE(STRM_REF_MAX), CODE(STRM_NO_SUCH_BLOCK),
		CODE(STRM_SHARED), CODE(STRM_NO_ROOM), CODE(STRM_SHORT), CODE(STRM_NO_SUCH_PLACE), CODE(STRM_BAD_ORDER),
		CODE(STRM_NO_SUCH_QUEUE), CODE(STRM_FULL), CODE(STRM_IDS_SPENT), CODE(STRM_NOT_PENDING), CODE(STRM_BAD_MARKS),
		CODE(STRM_NONE), CODE(STRM_INVALID), CODE(STRM_NOT_OPEN), CODE(STRM_BAD_ARGUMENT), CODE(STRM_IS_OPEN),
		CODE(STRM_NO_MEMORY), CODE(STRM_BAD_MBLKS), CODE(STRM_BAD_CLASSES), CODE(STRM_BAD_CLASS_SIZE),
		CODE(STRM_BAD_CLASS_TOTAL), CODE(STRM_BAD_QUEUES), CODE(STRM_BAD_QUEUE_MARKS), CODE(STRM_BAD_NEXT),
		CODE(STRM_BAD_BUFCALLS), CODE(STRM_BAD_FIRST_ID)
	};
#undef CODE
	char text[80];
	size_t place;
	int code;

	for (place = 0; place < sizeof codes / sizeof codes[0]; place++) {
		CHECK(strm_name(codes[place].code, text, sizeof text) == strlen(codes[place].name));
		CHECK(strcmp(text, codes[place].name) == 0);
	}
	CHECK(strm_text(STRM_SHARED, text, sizeof text) == strlen(strm_error(STRM_SHARED)));
	CHECK(strcmp(text, "more than one message block refers to the data block") == 0);
	for (code = -40; code <= 40; code++) {
		size_t whole = strm_text(code, NULL, 0);

		CHECK(whole > 0 && whole < sizeof text && strm_text(code, text, sizeof text) == whole && strlen(text) == whole);
		CHECK(strcmp(strm_error(code), text) == 0);
		whole = strm_name(code, NULL, 0);
		CHECK(strm_name(code, text, sizeof text) == whole && strlen(text) == whole);
	}
	CHECK(strcmp(strm_error(INT_MIN), "no such code") == 0 && strcmp(strm_error(INT_MAX), "no such code") == 0);
	CHECK(strm_text(15, text, sizeof text) == 12 && strcmp(text, "no such code") == 0);
	CHECK(strm_name(15, text, sizeof text) == 0 && text[0] == 0);
	text[3] = text[4] = '.';
	CHECK(strm_text(STRM_OK, text, 4) == 4 && strcmp(text, "don") == 0 && text[4] == '.');
	CHECK(strm_text(STRM_OK, text, 1) == 4 && text[0] == 0);
	CHECK(strm_version(text, sizeof text) == strlen(STRM_VERSION) && strcmp(text, STRM_VERSION) == 0);
}

int main(void)
{
	test_faults();
	test_open();
	test_largest();
	test_allocb();
	test_blocks_taken();
	test_duplicates();
	test_most_names();
	test_copies();
	test_freeing();
	test_bytes();
	test_types();
	test_joining();
	test_trimming();
	test_pullup_refused();
	test_blocks();
	test_bytes_in_place();
	test_writev();
	test_pointers();
	test_place();
	test_writable();
	test_readv();
	test_shape();
	test_shape_all();
	test_region();
	test_addresses();
	test_overwrite();
	test_headroom();
	test_advance();
	test_secrets();
	test_name_at();
	test_transfer();
	test_transfer_refused();
	test_order();
	test_order_by_heads();
	test_stale_head();
	test_put_back();
	test_least();
	test_fewer();
	test_looks_at_queues();
	test_report();
	test_several();
	test_bursts();
	test_all_of_a_queue();
	test_specs();
	test_flush();
	test_take();
	test_flow_control();
	test_enabling();
	test_serving();
	test_want_to_read();
	test_resting();
	test_names();
	test_failed();
	test_version();
	test_sizes();
	test_static_name();
#ifdef __cplusplus
	test_without_struct();
	test_zeros();
#endif
	test_wishes();
	test_classes();
	test_texts();
	return summary();
}
