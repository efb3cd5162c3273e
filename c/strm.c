/*
 * The border between C and the crate strm_c, which takes references and slices. Tested and trusted, not proved. The functions here
 * reject what those cannot be: null pointers, lengths that no object has, one place for two answers, and one handle for two pools.
 * The crate checks everything else. A function that rejects an argument checks whether the handle is open too, because that answer
 * comes first. strm_c_close would clear a handle that is not open. Calls that need no pool are here alone: they compare names, and
 * return a text that the crate could only copy.
 */
#include "heap.h"
#include "strm_c.h"

/* The greatest length of an object. */
#define MOST_LENGTH ((size_t)-1 / 2)

/* Used for every array of length 0, since a slice needs an address. It is neither read nor written. */
static union {
	uint8_t byte;
	struct strm_block_info block;
	struct strm_block_shape shape;
	struct strm_class_spec class_spec;
	struct strm_iov iov;
	struct strm_msg msg;
	struct strm_queue_spec queue_spec;
} nothing;

/* The text of each code, as the crate has it. tests/c/each.c compares them. */
static const struct {
	int code;
	const char *text;
} texts[] = {
	{ STRM_OK, "done" },
	{ STRM_TOO_LARGE, "the size is above the largest class" },
	{ STRM_NO_MBLK, "fewer message blocks are free than the call needs" },
	{ STRM_NO_DATA, "no data block is free of a class that fits" },
	{ STRM_REF_MAX, "more than 255 message blocks would refer to a data block" },
	{ STRM_NO_SUCH_BLOCK, "the message has no such block" },
	{ STRM_SHARED, "more than one message block refers to the data block" },
	{ STRM_NO_ROOM, "the bytes do not fit in the data block" },
	{ STRM_SHORT, "the message has too few bytes, or too few of one type" },
	{ STRM_NO_SUCH_PLACE, "the queue has no such place" },
	{ STRM_BAD_ORDER, "the ranks would rise from front to back" },
	{ STRM_NO_SUCH_QUEUE, "there is no such queue" },
	{ STRM_FULL, "no more wishes can be recorded" },
	{ STRM_IDS_SPENT, "the last id was given" },
	{ STRM_NOT_PENDING, "no wish has this id" },
	{ STRM_BAD_MARKS, "the low water mark is not below the high one" },
	{ STRM_NONE, "done, and there is nothing to give" },
	{ STRM_INVALID, "a name is not valid" },
	{ STRM_NOT_OPEN, "the handle is not open" },
	{ STRM_BAD_ARGUMENT, "a pointer is null, or a number is out of range" },
	{ STRM_IS_OPEN, "the handle is open already" },
	{ STRM_NO_MEMORY, "there is not enough memory" },
	{ STRM_BAD_MBLKS, "message blocks are not 1 to 16383" },
	{ STRM_BAD_CLASSES, "there is no size class" },
	{ STRM_BAD_CLASS_SIZE, "sizes do not rise, or are not 1 to 4096" },
	{ STRM_BAD_CLASS_TOTAL, "a class has no data block, or all have more than 16383" },
	{ STRM_BAD_QUEUES, "there is no queue" },
	{ STRM_BAD_QUEUE_MARKS, "a queue's low water mark is not below the high one" },
	{ STRM_BAD_NEXT, "a next queue is not there, has no greater number, or is named twice" },
	{ STRM_BAD_BUFCALLS, "there are more than 64 wishes" },
	{ STRM_BAD_FIRST_ID, "the first id is 0" }
};

static int is_open(const struct strm_pool *pool)
{
	return pool != NULL && pool->state == STRM_POOL_OPEN;
}

/*
 * Makes a reader of a handle for one look, unless the handle is null. So the crate gets a reader that no other call has, and the
 * handle is only read.
 */
static int is_reader(struct strm_reader *reader, const struct strm_pool *pool)
{
	if (pool == NULL)
		return 0;
	reader->at = pool->at;
	reader->state = pool->state;
	return 1;
}

/* What a call returns if its handle is null or an argument does not fit. */
static int fault_of(const struct strm_pool *pool)
{
	return is_open(pool) ? STRM_BAD_ARGUMENT : STRM_NOT_OPEN;
}

/* A code, after which a call that left no message has set its rest to the name of none. */
static int with_rest(int code, struct strm_msg *rest)
{
	static const struct strm_msg none = STRM_NO_MSG_INIT;

	if (code == STRM_NONE)
		*rest = none;
	return code;
}

/* Where items of this size are, or null if a pointer and a length can be no array of these. */
static void *array_of(const void *items, size_t length, size_t size)
{
	if (length == 0)
		return &nothing;
	return length <= MOST_LENGTH / size ? (void *)items : NULL;
}

/* The same of the bytes of a buffer. */
static void *buffer_of(const void *bytes, size_t length)
{
	return array_of(bytes, length, 1);
}

/* Whether there is an array, and a count can be stored at this place beside results there. */
static int is_counted(const void *array, const size_t *count)
{
	return array != NULL && count != NULL && array != (const void *)count;
}

/* Sets the count of a call on several messages to 0, which it stays unless the crate counts. Returns whether there is a place for it. */
static int is_zeroed(size_t *count)
{
	if (count != NULL)
		*count = 0;
	return count != NULL;
}

static const struct strm_class_spec *classes_of(const struct strm_config *config)
{
	return array_of(config->classes, config->class_count, sizeof *config->classes);
}

static const struct strm_queue_spec *queues_of(const struct strm_config *config)
{
	return array_of(config->queues, config->queue_count, sizeof *config->queues);
}

/* Whether a configuration has arrays of no more classes and queues than a pool can have. */
static int is_config(const struct strm_config *config)
{
	return config != NULL && config->class_count <= STRM_MOST_CLASSES && config->queue_count <= STRM_MOST_QUEUES
		&& classes_of(config) != NULL && queues_of(config) != NULL;
}

/* Puts a 0 after what was copied of a text, or over the last byte of a full buffer. Returns the length of the whole text. */
static size_t ended(char *text, size_t length, size_t whole)
{
	if (length > 0)
		text[whole < length ? whole : length - 1] = 0;
	return whole;
}

int strm_is_open(const struct strm_pool *pool)
{
	return is_open(pool);
}

int strm_memory(const struct strm_config *config, size_t *bytes)
{
	int code;

	if (!is_config(config) || bytes == NULL)
		return STRM_BAD_ARGUMENT;
	code = strm_c_memory(config->id, config->mblks, classes_of(config), config->class_count, queues_of(config),
		config->queue_count, config->bufcalls, config->first_id, bytes);
	if (code == STRM_OK)
		*bytes += strm_region_more();
	return code;
}

int strm_open_with(struct strm_pool *pool, const struct strm_config *config, const struct strm_allocator *allocator)
{
	size_t bytes;
	int code;

	if (pool == NULL)
		return STRM_NOT_OPEN;
	if (is_open(pool))
		return STRM_IS_OPEN;
	if (allocator == NULL || allocator->allocate == NULL || allocator->release == NULL)
		return STRM_BAD_ARGUMENT;
	code = strm_memory(config, &bytes);
	if (code != STRM_OK)
		return code;
	if (!strm_region_begin(allocator, bytes))
		return STRM_NO_MEMORY;
	code = strm_c_open(pool, config->id, config->mblks, classes_of(config), config->class_count, queues_of(config),
		config->queue_count, config->bufcalls, config->first_id);
	strm_region_end();
	return code;
}

int strm_close(struct strm_pool *pool)
{
	return is_open(pool) ? strm_c_close(pool) : STRM_NOT_OPEN;
}

/* Defines the call of a row of STRM_CALLS. */
#define DEFINE(call, parameters, arguments, fits) \
	int strm_##call parameters \
	{ \
		return pool != NULL && (fits) ? strm_c_##call arguments : fault_of(pool); \
	}
STRM_CALLS(DEFINE)

/* Defines the look of a row of STRM_LOOKS. */
#define POOL const struct strm_pool *pool
#define DEFINE_LOOK(look, parameters, arguments, fits) \
	int strm_##look parameters \
	{ \
		struct strm_reader reader; \
		return is_reader(&reader, pool) && (fits) ? strm_c_##look arguments : fault_of(pool); \
	}
STRM_LOOKS(DEFINE_LOOK)

int strm_freeb(struct strm_pool *pool, struct strm_msg msg, struct strm_msg *rest)
{
	if (pool == NULL || rest == NULL)
		return fault_of(pool);
	return with_rest(strm_c_freeb(pool, msg, rest), rest);
}

int strm_unlinkb(struct strm_pool *pool, struct strm_msg msg, struct strm_msg *rest)
{
	if (pool == NULL || rest == NULL)
		return fault_of(pool);
	return with_rest(strm_c_unlinkb(pool, msg, rest), rest);
}

int strm_write(struct strm_pool *pool, struct strm_msg msg, uint32_t place, const void *bytes, size_t length)
{
	bytes = buffer_of(bytes, length);
	if (pool == NULL || bytes == NULL)
		return fault_of(pool);
	return strm_c_write(pool, msg, place, bytes, length);
}

int strm_read(const struct strm_pool *pool, struct strm_msg msg, uint32_t at, void *into, size_t length, size_t *count)
{
	struct strm_reader reader;

	into = buffer_of(into, length);
	if (!is_reader(&reader, pool) || !is_counted(into, count))
		return fault_of(pool);
	return strm_c_read(&reader, msg, at, into, length, count);
}

int strm_blocks(const struct strm_pool *pool, struct strm_msg msg, uint32_t from, struct strm_block_info *into, size_t length,
	size_t *count)
{
	struct strm_reader reader;

	into = array_of(into, length, sizeof *into);
	if (!is_reader(&reader, pool) || !is_counted(into, count))
		return fault_of(pool);
	return strm_c_blocks(&reader, msg, from, into, length, count);
}

int strm_iov(const struct strm_pool *pool, struct strm_msg msg, uint32_t from, struct strm_iov *into, size_t length,
	size_t *count)
{
	struct strm_reader reader;

	into = array_of(into, length, sizeof *into);
	if (!is_reader(&reader, pool) || !is_counted(into, count))
		return fault_of(pool);
	return strm_c_iov(&reader, msg, from, into, length, count);
}

int strm_queued_iov(const struct strm_pool *pool, uint32_t head, uint32_t from, struct strm_iov *into, size_t length, size_t *count)
{
	struct strm_reader reader;

	into = array_of(into, length, sizeof *into);
	if (!is_reader(&reader, pool) || !is_counted(into, count))
		return fault_of(pool);
	return strm_c_queued_iov(&reader, head, from, into, length, count);
}

int strm_overwrite(struct strm_pool *pool, struct strm_msg msg, uint32_t at, const void *bytes, size_t length)
{
	bytes = buffer_of(bytes, length);
	if (pool == NULL || bytes == NULL)
		return fault_of(pool);
	return strm_c_overwrite(pool, msg, at, bytes, length);
}

int strm_prepend(struct strm_pool *pool, struct strm_msg msg, const void *bytes, size_t length)
{
	bytes = buffer_of(bytes, length);
	if (pool == NULL || bytes == NULL)
		return fault_of(pool);
	return strm_c_prepend(pool, msg, bytes, length);
}

int strm_shape_all(struct strm_pool *pool, struct strm_msg msg, const struct strm_block_shape *shapes, size_t length)
{
	shapes = array_of(shapes, length, sizeof *shapes);
	if (pool == NULL || shapes == NULL)
		return fault_of(pool);
	return strm_c_shape_all(pool, msg, shapes, length);
}

int strm_transfer(struct strm_pool *pool, struct strm_pool *other, struct strm_msg msg, struct strm_msg *moved)
{
	if (pool == NULL || other == NULL || pool == other || moved == NULL)
		return is_open(pool) ? fault_of(other) : STRM_NOT_OPEN;
	return strm_c_transfer(pool, other, msg, moved);
}

int strm_read_queued(const struct strm_pool *pool, uint32_t queue, uint32_t place, uint32_t at, void *into, size_t length,
	size_t *count)
{
	struct strm_reader reader;

	into = buffer_of(into, length);
	if (!is_reader(&reader, pool) || !is_counted(into, count))
		return fault_of(pool);
	return strm_c_read_queued(&reader, queue, place, at, into, length, count);
}

int strm_allocb_n(struct strm_pool *pool, uint32_t size, struct strm_msg *msgs, size_t length, size_t *count)
{
	msgs = array_of(msgs, length, sizeof *msgs);
	if (!is_zeroed(count) || pool == NULL || !is_counted(msgs, count))
		return fault_of(pool);
	return strm_c_allocb_n(pool, size, msgs, length, count);
}

int strm_freemsg_n(struct strm_pool *pool, const struct strm_msg *msgs, size_t length, size_t *count)
{
	msgs = array_of(msgs, length, sizeof *msgs);
	if (!is_zeroed(count) || pool == NULL || msgs == NULL)
		return fault_of(pool);
	return strm_c_freemsg_n(pool, msgs, length, count);
}

int strm_putq_n(struct strm_pool *pool, uint32_t queue, const struct strm_msg *msgs, size_t length, size_t *count)
{
	msgs = array_of(msgs, length, sizeof *msgs);
	if (!is_zeroed(count) || pool == NULL || msgs == NULL)
		return fault_of(pool);
	return strm_c_putq_n(pool, queue, msgs, length, count);
}

int strm_getq_n(struct strm_pool *pool, uint32_t queue, struct strm_msg *msgs, size_t length, size_t *count)
{
	msgs = array_of(msgs, length, sizeof *msgs);
	if (!is_zeroed(count) || pool == NULL || !is_counted(msgs, count))
		return fault_of(pool);
	return strm_c_getq_n(pool, queue, msgs, length, count);
}

int strm_takeq(struct strm_pool *pool, uint32_t queue, uint32_t flush, struct strm_msg *msgs, size_t length, size_t *count)
{
	msgs = array_of(msgs, length, sizeof *msgs);
	if (!is_zeroed(count) || pool == NULL || !is_counted(msgs, count))
		return fault_of(pool);
	return strm_c_takeq(pool, queue, flush, msgs, length, count);
}

int strm_takeq_band(struct strm_pool *pool, uint32_t queue, uint32_t band, uint32_t flush, struct strm_msg *msgs, size_t length,
	size_t *count)
{
	msgs = array_of(msgs, length, sizeof *msgs);
	if (!is_zeroed(count) || pool == NULL || !is_counted(msgs, count))
		return fault_of(pool);
	return strm_c_takeq_band(pool, queue, band, flush, msgs, length, count);
}

int strm_same_msg(struct strm_msg a, struct strm_msg b)
{
	return a.pool == b.pool && a.head == b.head && a.stamp == b.stamp;
}

int strm_is_no_msg(struct strm_msg msg)
{
	return msg.pool == 0 && msg.head == 0 && msg.stamp == 0;
}

const char *strm_error(int code)
{
	size_t place;

	for (place = 0; place < sizeof texts / sizeof texts[0]; place++)
		if (texts[place].code == code)
			return texts[place].text;
	return "no such code";
}

size_t strm_text(int code, char *text, size_t length)
{
	text = buffer_of(text, length);
	if (text == NULL)
		return 0;
	return ended(text, length, strm_c_text(code, (uint8_t *)text, length));
}

size_t strm_name(int code, char *text, size_t length)
{
	text = buffer_of(text, length);
	if (text == NULL)
		return 0;
	return ended(text, length, strm_c_name(code, (uint8_t *)text, length));
}

size_t strm_version(char *text, size_t length)
{
	text = buffer_of(text, length);
	if (text == NULL)
		return 0;
	return ended(text, length, strm_c_version((uint8_t *)text, length));
}
