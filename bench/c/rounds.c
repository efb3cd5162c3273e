/*
 * Makes rounds of calls, over strm.h or over the pool of plain.h, and prints the nanoseconds of the processor that they took. Status 3 says that
 * the plain pool has no such round.
 *
 *     rounds strm|plain ROUND COUNT
 */
#include "plain.h"
#include "strm.h"

#include <stdio.h>
#include <stdlib.h>
#include <string.h>
#include <time.h>

#define BLOCKS 4095
#define SIZE 64
/* Data blocks of the three classes. */
#define SHORTS (BLOCKS - 40)
#define MIDDLES 32
#define FRAMES 8
#define FRAME 4096
/* Messages on queue 1 for looks, and the most of a call on several. */
#define QUEUED 101
#define SEVERAL 256

static struct strm_pool pool = STRM_POOL_INIT, other = STRM_POOL_INIT;
/* A message without bytes, one of SIZE bytes, one of four blocks of SIZE bytes, and the first on queue 1. */
static struct strm_msg kept, full, four;
static uint32_t first;
static struct plain_pool plain;
static struct plain_block *plain_kept, *plain_full;
/* What is written, and where it is copied to. */
static unsigned char bytes[SIZE], copied[SIZE];

static int strm_filled(struct strm_msg *msg)
{
	return strm_allocb(&pool, SIZE, msg) == STRM_OK && strm_write(&pool, *msg, 0, bytes, SIZE) == STRM_OK;
}

static int has_messages(void)
{
	struct strm_msg msg;
	int k;

	if (strm_allocb(&pool, SIZE, &kept) != STRM_OK || !strm_filled(&full) || !strm_filled(&four))
		return 0;
	for (k = 1; k < 4; k++)
		if (!strm_filled(&msg) || strm_linkb(&pool, four, msg) != STRM_OK)
			return 0;
	for (k = 0; k < QUEUED; k++)
		if (!strm_filled(&msg) || strm_putq(&pool, 1, msg) != STRM_OK)
			return 0;
	plain_kept = plain_allocb(&plain, SIZE);
	plain_full = plain_allocb(&plain, SIZE);
	return plain_kept != NULL && plain_full != NULL && plain_write(plain_full, bytes, SIZE)
	    && strm_first_queued(&pool, 1, &first) == STRM_OK;
}

static int opened(void)
{
	static const struct strm_class_spec classes[] = { { SIZE, SHORTS }, { 256, MIDDLES }, { FRAME, FRAMES } };
	static const struct strm_queue_spec queues[] = { { 65536, 1024, 1, STRM_NO_QUEUE }, { 65536, 1024, 1, STRM_NO_QUEUE } };
	static const uint32_t plain_classes[][2] = { { SIZE, SHORTS }, { 256, MIDDLES }, { FRAME, FRAMES } };
	struct strm_config config;

	memset(&config, 0, sizeof config);
	config.id = 1;
	config.mblks = BLOCKS;
	config.classes = classes;
	config.class_count = 3;
	config.queues = queues;
	config.queue_count = 2;
	config.first_id = 1;
	if (strm_open(&pool, &config) != STRM_OK || !plain_open(&plain, BLOCKS, plain_classes, 3))
		return 0;
	config.id = 2;
	return strm_open(&other, &config) == STRM_OK && has_messages();
}

/* ---- single calls */

static int strm_allocs(void)
{
	struct strm_msg msg;

	return strm_allocb(&pool, SIZE, &msg) == STRM_OK && strm_freemsg(&pool, msg) == STRM_OK;
}

static int plain_allocs(void)
{
	struct plain_block *msg = plain_allocb(&plain, SIZE);

	if (msg != NULL)
		plain_freemsg(&plain, msg);
	return msg != NULL;
}

static int strm_dups(void)
{
	struct strm_msg copy;

	return strm_dupb(&pool, kept, &copy) == STRM_OK && strm_freemsg(&pool, copy) == STRM_OK;
}

static int plain_dups(void)
{
	struct plain_block *copy = plain_dupb(&plain, plain_kept);

	if (copy != NULL)
		plain_freemsg(&plain, copy);
	return copy != NULL;
}

static int strm_writes(void)
{
	struct strm_msg msg;

	return strm_allocb(&pool, SIZE, &msg) == STRM_OK && strm_write(&pool, msg, 0, bytes, SIZE) == STRM_OK
	    && strm_freemsg(&pool, msg) == STRM_OK;
}

static int plain_writes(void)
{
	struct plain_block *msg = plain_allocb(&plain, SIZE);

	if (msg == NULL || !plain_write(msg, bytes, SIZE))
		return 0;
	plain_freemsg(&plain, msg);
	return 1;
}

static int strm_queues(void)
{
	return strm_putq(&pool, 0, kept) == STRM_OK && strm_getq(&pool, 0, &kept) == STRM_OK;
}

static int plain_queues(void)
{
	plain_putq(&plain, plain_kept);
	plain_kept = plain_getq(&plain);
	return plain_kept != NULL;
}

static int strm_reads(void)
{
	size_t count;

	return strm_read(&pool, full, 0, copied, SIZE, &count) == STRM_OK && count == SIZE;
}

static int plain_reads(void)
{
	return plain_read(plain_full, 0, copied, SIZE) == SIZE;
}

static int strm_lends(void)
{
	const uint8_t *lent;
	size_t length;

	return strm_bytes(&pool, full, 0, &lent, &length) == STRM_OK && length == SIZE;
}

static int plain_lends(void)
{
	uint32_t length;

	return plain_bytes(plain_full, &length) != NULL && length == SIZE;
}

static int strm_places(void)
{
	struct strm_block_place where;

	return strm_place(&pool, full, 0, &where) == STRM_OK && where.length == SIZE;
}

static int strm_iovs(void)
{
	struct strm_iov iov[4];
	size_t count;

	return strm_iov(&pool, four, 0, iov, 4, &count) == STRM_OK && count == 4;
}

static int strm_walks(void)
{
	struct strm_block_info blocks[4];
	size_t count;

	return strm_blocks(&pool, four, 0, blocks, 4, &count) == STRM_OK && count == 4;
}

static int strm_overwrites(void)
{
	return strm_overwrite(&pool, full, 0, bytes, 1) == STRM_OK;
}

static int plain_overwrites(void)
{
	return plain_overwrite(plain_full, 0, bytes, 1);
}

static int strm_reserves(void)
{
	return strm_reserve(&pool, kept, 0, SIZE) == STRM_OK;
}

static int strm_prepends(void)
{
	return strm_adjmsg(&pool, full, SIZE) == STRM_OK && strm_prepend(&pool, full, bytes, SIZE) == STRM_OK;
}

static int strm_advances(void)
{
	return strm_adjmsg(&pool, full, -SIZE) == STRM_OK && strm_advance(&pool, full, 0, SIZE) == STRM_OK;
}

static int strm_transfers(void)
{
	struct strm_msg moved;

	return strm_transfer(&pool, &other, full, &moved) == STRM_OK && strm_transfer(&other, &pool, moved, &full) == STRM_OK;
}

static int strm_names(void)
{
	struct strm_msg msg;

	return strm_name_at(&pool, full.head, &msg) == STRM_OK;
}

static int strm_firsts(void)
{
	uint32_t head;

	return strm_first_queued(&pool, 1, &head) == STRM_OK;
}

static int strm_afters(void)
{
	uint32_t head;

	return strm_queued_after(&pool, first, &head) == STRM_OK;
}

static int strm_queueds(void)
{
	struct strm_queued queued;

	return strm_queued_at(&pool, 1, 0, &queued) == STRM_OK;
}

static int strm_queued_reads(void)
{
	size_t count;

	return strm_read_queued(&pool, 1, 0, 0, copied, SIZE, &count) == STRM_OK && count == SIZE;
}

static int strm_specs(void)
{
	struct strm_queue_spec spec;

	return strm_queue_spec(&pool, 1, &spec) == STRM_OK;
}

static int allocs(size_t several)
{
	struct strm_msg msgs[SEVERAL];
	size_t count;

	return strm_allocb_n(&pool, SIZE, msgs, several, &count) == STRM_OK && strm_freemsg_n(&pool, msgs, several, &count) == STRM_OK
	    && count == several;
}

/* The messages of SEVERAL are made by the first call. If they are to have bands, these are drawn. */
static int queues(size_t several, int banded)
{
	static struct strm_msg msgs[SEVERAL];
	static size_t count;
	static uint32_t draw = 1;

	for (; count < several; count++) {
		draw = draw * 1103515245u + 12345u;
		if (strm_allocb(&pool, SIZE, &msgs[count]) != STRM_OK || strm_setband(&pool, msgs[count], banded ? draw >> 16 & 7 : 0) != STRM_OK)
			return 0;
	}
	return strm_putq_n(&pool, 0, msgs, several, &count) == STRM_OK && strm_getq_n(&pool, 0, msgs, several, &count) == STRM_OK
	    && count == several;
}

#define BURST(several) \
	static int strm_allocs_##several(void) { return allocs(several); } \
	static int strm_queues_##several(void) { return queues(several, 0); }

BURST(8)
BURST(32)
BURST(256)

static int strm_bands_32(void)
{
	return queues(32, 1);
}

/* ---- rounds by name */

static const struct {
	const char *name;
	int (*strm)(void);
	int (*plain)(void);
} rounds[] = {
	{ "allocb", strm_allocs, plain_allocs },
	{ "dupb", strm_dups, plain_dups },
	{ "write", strm_writes, plain_writes },
	{ "putq", strm_queues, plain_queues },
	{ "read", strm_reads, plain_reads },
	{ "bytes", strm_lends, plain_lends },
	{ "iov", strm_iovs, NULL },
	{ "blocks", strm_walks, NULL },
	{ "place", strm_places, NULL },
	{ "overwrite", strm_overwrites, plain_overwrites },
	{ "reserve", strm_reserves, NULL },
	{ "prepend", strm_prepends, NULL },
	{ "advance", strm_advances, NULL },
	{ "transfer", strm_transfers, NULL },
	{ "name_at", strm_names, NULL },
	{ "first_queued", strm_firsts, NULL },
	{ "queued_after", strm_afters, NULL },
	{ "queued_at", strm_queueds, NULL },
	{ "read_queued", strm_queued_reads, NULL },
	{ "queue_spec", strm_specs, NULL },
	{ "allocb_8", strm_allocs_8, NULL },
	{ "allocb_32", strm_allocs_32, NULL },
	{ "allocb_256", strm_allocs_256, NULL },
	{ "putq_8", strm_queues_8, NULL },
	{ "putq_32", strm_queues_32, NULL },
	{ "putq_256", strm_queues_256, NULL },
	{ "bands_32", strm_bands_32, NULL },
};

/* Finds the round with this name over one of the two pools, and returns 2 if there is no such name, or 3 if the plain pool lacks it. */
static int find_round(const char *over, const char *name, int (**made)(void))
{
	size_t k;

	for (k = 0; k < sizeof rounds / sizeof *rounds; k++) {
		if (strcmp(rounds[k].name, name) != 0)
			continue;
		*made = strcmp(over, "strm") == 0 ? rounds[k].strm : rounds[k].plain;
		return *made == NULL ? 3 : 0;
	}
	return 2;
}

int main(int words, char **word)
{
	int (*made)(void) = NULL;
	int lacks = words == 4 ? find_round(word[1], word[2], &made) : 2;
	struct timespec begun, ended;
	long count, k;

	if (lacks != 0 || !opened())
		return lacks != 0 ? lacks : 2;
	count = atol(word[3]);
	clock_gettime(CLOCK_PROCESS_CPUTIME_ID, &begun);
	for (k = 0; k < count; k++)
		if (!made())
			return 1;
	clock_gettime(CLOCK_PROCESS_CPUTIME_ID, &ended);
	printf("%.0f\n", (double)(ended.tv_sec - begun.tv_sec) * 1e9 + (double)(ended.tv_nsec - begun.tv_nsec));
	return strm_close(&pool) != STRM_OK || strm_close(&other) != STRM_OK;
}
