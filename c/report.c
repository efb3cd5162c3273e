/*
 * The report of a pool as text, over the looks of strm.h: the same as the program strm prints after the replies. Tested, not proved.
 */
#include "strm.h"

/* A text that is being written. It has `length` bytes of room; `whole` counts what would be there if all had room. */
struct writer {
	char *text;
	size_t length;
	size_t whole;
};

static void put(struct writer *to, char byte)
{
	if (to->whole < to->length)
		to->text[to->whole] = byte;
	to->whole++;
}

static void put_text(struct writer *to, const char *text)
{
	for (; *text != 0; text++)
		put(to, *text);
}

/* Puts a text, and after it a number in decimal. */
static void put_number(struct writer *to, const char *text, uint32_t number)
{
	char digits[10];
	int count = 0;

	put_text(to, text);
	do
		digits[count++] = (char)('0' + number % 10);
	while ((number /= 10) > 0);
	while (count > 0)
		put(to, digits[--count]);
}

static void put_blocks(struct writer *to, const struct strm_pool *pool)
{
	struct strm_census census = { 0, 0, 0 };

	strm_census(pool, &census);
	put_number(to, "blocks free=", census.free);
	put_number(to, " queued=", census.queued);
	put_number(to, " held=", census.held);
	put_number(to, " total=", census.free + census.queued + census.held);
	put(to, '\n');
}

static void put_classes(struct writer *to, const struct strm_pool *pool)
{
	struct strm_class_info info;
	uint32_t i;

	for (i = 0; strm_class_info(pool, i, &info) == STRM_OK; i++) {
		put_number(to, "data size=", info.size);
		put_number(to, " free=", info.free);
		put_number(to, " total=", info.total);
		put(to, '\n');
	}
}

/* The bands of a queue that have bytes, from the greatest down. */
static void put_bands(struct writer *to, const struct strm_pool *pool, uint32_t queue)
{
	struct strm_band_info info;
	uint32_t band;

	for (band = STRM_BANDS; band-- > 0;)
		if (strm_band_info(pool, queue, band, &info) == STRM_OK && info.bytes > 0) {
			put_number(to, "band ", band);
			put_number(to, " bytes=", info.bytes);
			put_number(to, " full=", info.full);
			put_number(to, " wanted=", info.wanted);
			put(to, '\n');
		}
}

static void put_queues(struct writer *to, const struct strm_pool *pool)
{
	struct strm_queue_info info;
	uint32_t i;

	for (i = 0; strm_queue_info(pool, i, &info) == STRM_OK; i++) {
		put_number(to, "queue ", i);
		put_number(to, " msgs=", info.msgs);
		put_number(to, " bytes=", info.bytes);
		put_number(to, " read=", info.read);
		put_number(to, " noenable=", info.noenable);
		put_number(to, " enabled=", info.enabled);
		put(to, '\n');
		put_bands(to, pool, i);
	}
}

static void put_run(struct writer *to, const struct strm_pool *pool)
{
	uint32_t i, queue;

	put_text(to, "run");
	for (i = 0; strm_run_at(pool, i, &queue) == STRM_OK; i++)
		put_number(to, " ", queue);
	put_text(to, i == 0 ? " -\n" : "\n");
}

static void put_wishes(struct writer *to, const struct strm_pool *pool)
{
	struct strm_wish wish;
	uint32_t i;

	put_text(to, "wishes");
	for (i = 0; strm_wish_at(pool, i, &wish) == STRM_OK; i++) {
		put_number(to, " ", wish.id);
		put_number(to, ":", wish.size);
	}
	put_text(to, i == 0 ? " -\n" : "\n");
}

size_t strm_report(const struct strm_pool *pool, char *text, size_t length)
{
	struct writer to;

	if (!strm_is_open(pool) || length > (size_t)-1 / 2 || (text == NULL && length > 0))
		return 0;
	to.text = text;
	to.length = length;
	to.whole = 0;
	put_blocks(&to, pool);
	put_classes(&to, pool);
	put_queues(&to, pool);
	put_run(&to, pool);
	put_wishes(&to, pool);
	if (length > 0)
		text[to.whole < length ? to.whole : length - 1] = 0;
	return to.whole;
}
