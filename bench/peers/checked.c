/*
 * The calls of strm.h that strm.c makes, written by hand in C with pointers: tested, not proved, and for benchmarks only. Names are checked by
 * stamps; a queue has bands, high priority, water marks, wanted marks, and finds a message's place in constant time. So it is what the checks and
 * rules of strm.h cost by hand. It has one queue, no wishes, and no other calls.
 */
#include "strm.h"

#include <stdlib.h>
#include <string.h>

#define RANKS (STRM_BANDS + 1)
#define WORDS ((RANKS + 63) / 64)

struct data {
	struct data *next_free;
	struct class *of;
	unsigned char *bytes;
	uint32_t number;
	uint8_t type, references;
};

struct class {
	uint32_t size, count, free_count, least;
	struct data *free;
};

/* `stamp` is that of the last name given to a message that begins here. Only of a held message's head is `held` not 0. */
struct block {
	struct block *cont, *before, *after;
	struct data *data;
	uint64_t stamp;
	uint32_t at, length, number;
	uint16_t rank;
	uint8_t band, held;
};

struct queue {
	struct block *first, *lasts[RANKS];
	uint64_t used[WORDS], full[4], wanted[4];
	uint32_t count, bytes[STRM_BANDS], high, low;
	int wants, enabled;
};

struct checked {
	uint32_t id, block_count, free_count, least;
	struct block *blocks, *free;
	struct class classes[STRM_MOST_CLASSES];
	size_t class_count;
	struct queue queue;
};

/* The pool of a handle, or null if that is not open. */
static struct checked *opened(const struct strm_pool *pool)
{
	return pool != NULL && pool->state == STRM_POOL_OPEN ? pool->at : NULL;
}

/* The first block of the held message with this name, or null if the name is not valid. */
static struct block *named(struct checked *of, struct strm_msg msg)
{
	struct block *block;

	if (msg.pool != of->id || msg.head >= of->block_count)
		return NULL;
	block = &of->blocks[msg.head];
	return block->held && block->stamp == msg.stamp ? block : NULL;
}

static void give(struct checked *of, struct block *block, struct strm_msg *msg)
{
	block->held = 1;
	msg->pool = of->id;
	msg->head = block->number;
	msg->stamp = ++block->stamp;
}

static struct block *block_at(struct block *block, uint32_t place)
{
	while (block != NULL && place-- > 0)
		block = block->cont;
	return block;
}

static uint32_t size_of(const struct block *block)
{
	uint32_t size = 0;

	for (; block != NULL; block = block->cont)
		size += block->length;
	return size;
}

/* ---- memory */

static int open_class(struct class *class, const struct strm_class_spec *spec, uint32_t *number)
{
	struct data *data = calloc(spec->count, sizeof *data);
	unsigned char *bytes = malloc((size_t)spec->size * spec->count);
	uint32_t k;

	if (data == NULL || bytes == NULL)
		return 0;
	memset(bytes, 0, (size_t)spec->size * spec->count);
	class->size = spec->size;
	class->count = class->free_count = class->least = spec->count;
	for (k = spec->count; k > 0; k--) {
		data[k - 1].of = class;
		data[k - 1].bytes = bytes + (size_t)(k - 1) * spec->size;
		data[k - 1].number = *number + k - 1;
		data[k - 1].next_free = class->free;
		class->free = &data[k - 1];
	}
	*number += spec->count;
	return 1;
}

int strm_open(struct strm_pool *pool, const struct strm_config *config)
{
	struct checked *of = calloc(1, sizeof *of);
	uint32_t k, number = 0;
	size_t c;

	if (of == NULL || (of->blocks = calloc(config->mblks, sizeof *of->blocks)) == NULL)
		return STRM_NO_MEMORY;
	of->id = config->id;
	of->block_count = of->free_count = of->least = config->mblks;
	for (k = config->mblks; k > 0; k--) {
		of->blocks[k - 1].number = k - 1;
		of->blocks[k - 1].cont = of->free;
		of->free = &of->blocks[k - 1];
	}
	for (c = 0; c < config->class_count; c++)
		if (!open_class(&of->classes[c], &config->classes[c], &number))
			return STRM_NO_MEMORY;
	of->class_count = config->class_count;
	of->queue.high = config->queues->hiwat;
	of->queue.low = config->queues->lowat;
	of->queue.wants = 1;
	pool->at = of;
	pool->state = STRM_POOL_OPEN;
	return STRM_OK;
}

/* ---- blocks */

static struct block *take_block(struct checked *of)
{
	struct block *block = of->free;

	of->free = block->cont;
	of->free_count--;
	of->least = of->free_count < of->least ? of->free_count : of->least;
	block->cont = NULL;
	block->band = 0;
	return block;
}

static int allocate(struct checked *of, uint32_t size, struct block **made)
{
	struct class *class = of->classes, *end = of->classes + of->class_count;
	struct data *data;

	while (class < end && class->size < size)
		class++;
	if (class == end)
		return STRM_TOO_LARGE;
	if (of->free == NULL)
		return STRM_NO_MBLK;
	while (class < end && class->free == NULL)
		class++;
	if (class == end)
		return STRM_NO_DATA;
	data = class->free;
	class->free = data->next_free;
	class->free_count--;
	class->least = class->free_count < class->least ? class->free_count : class->least;
	data->type = STRM_M_DATA;
	data->references = 1;
	*made = take_block(of);
	(*made)->data = data;
	(*made)->at = (*made)->length = 0;
	return STRM_OK;
}

static void free_blocks(struct checked *of, struct block *block)
{
	struct block *cont;

	block->held = 0;
	for (; block != NULL; block = cont) {
		struct data *data = block->data;

		cont = block->cont;
		if (--data->references == 0) {
			data->next_free = data->of->free;
			data->of->free = data;
			data->of->free_count++;
		}
		block->cont = of->free;
		of->free = block;
		of->free_count++;
	}
}

int strm_allocb(struct strm_pool *pool, uint32_t size, struct strm_msg *msg)
{
	struct checked *of = opened(pool);
	struct block *block;
	int code;

	if (of == NULL)
		return STRM_NOT_OPEN;
	if (msg == NULL)
		return STRM_BAD_ARGUMENT;
	code = allocate(of, size, &block);
	if (code == STRM_OK)
		give(of, block, msg);
	return code;
}

int strm_freemsg(struct strm_pool *pool, struct strm_msg msg)
{
	struct checked *of = opened(pool);
	struct block *block = of != NULL ? named(of, msg) : NULL;

	if (block == NULL)
		return of == NULL ? STRM_NOT_OPEN : STRM_INVALID;
	free_blocks(of, block);
	return STRM_OK;
}

int strm_dupb(struct strm_pool *pool, struct strm_msg msg, struct strm_msg *copy)
{
	struct checked *of = opened(pool);
	struct block *block = of != NULL ? named(of, msg) : NULL, *made;

	if (of == NULL || copy == NULL || block == NULL)
		return of == NULL ? STRM_NOT_OPEN : copy == NULL ? STRM_BAD_ARGUMENT : STRM_INVALID;
	if (of->free == NULL)
		return STRM_NO_MBLK;
	if (block->data->references == STRM_MOST_NAMES)
		return STRM_REF_MAX;
	made = take_block(of);
	made->data = block->data;
	made->at = block->at;
	made->length = block->length;
	made->band = block->band;
	block->data->references++;
	give(of, made, copy);
	return STRM_OK;
}

/* Of a message of one block, which is all that strm.c copies. */
int strm_copymsg(struct strm_pool *pool, struct strm_msg msg, struct strm_msg *copy)
{
	struct checked *of = opened(pool);
	struct block *block = of != NULL ? named(of, msg) : NULL, *made;
	int code;

	if (of == NULL || copy == NULL || block == NULL)
		return of == NULL ? STRM_NOT_OPEN : copy == NULL ? STRM_BAD_ARGUMENT : STRM_INVALID;
	code = allocate(of, block->data->of->size, &made);
	if (code != STRM_OK)
		return code;
	memcpy(made->data->bytes + block->at, block->data->bytes + block->at, block->length);
	made->data->type = block->data->type;
	made->at = block->at;
	made->length = block->length;
	made->band = block->band;
	give(of, made, copy);
	return STRM_OK;
}

int strm_linkb(struct strm_pool *pool, struct strm_msg msg, struct strm_msg tail)
{
	struct checked *of = opened(pool);
	struct block *block = of != NULL ? named(of, msg) : NULL, *more = of != NULL ? named(of, tail) : NULL;

	if (of == NULL || block == NULL || more == NULL || block == more)
		return of == NULL ? STRM_NOT_OPEN : STRM_INVALID;
	while (block->cont != NULL)
		block = block->cont;
	block->cont = more;
	more->held = 0;
	return STRM_OK;
}

/* ---- bytes */

int strm_write(struct strm_pool *pool, struct strm_msg msg, uint32_t place, const void *bytes, size_t length)
{
	struct checked *of = opened(pool);
	struct block *block = of != NULL ? named(of, msg) : NULL;

	if (of == NULL || bytes == NULL || block == NULL)
		return of == NULL ? STRM_NOT_OPEN : bytes == NULL ? STRM_BAD_ARGUMENT : STRM_INVALID;
	block = block_at(block, place);
	if (block == NULL)
		return STRM_NO_SUCH_BLOCK;
	if (block->data->references > 1)
		return STRM_SHARED;
	if (block->data->of->size - block->at - block->length < length)
		return STRM_NO_ROOM;
	memcpy(block->data->bytes + block->at + block->length, bytes, length);
	block->length += (uint32_t)length;
	return STRM_OK;
}

static uint32_t read_blocks(const struct block *block, uint32_t from, uint8_t *into, size_t length)
{
	uint32_t count = 0, part;

	for (; block != NULL && count < length; block = block->cont) {
		if (from >= block->length) {
			from -= block->length;
			continue;
		}
		part = block->length - from < length - count ? block->length - from : (uint32_t)length - count;
		memcpy(into + count, block->data->bytes + block->at + from, part);
		count += part;
		from = 0;
	}
	return count;
}

int strm_read(const struct strm_pool *pool, struct strm_msg msg, uint32_t from, void *into, size_t length, size_t *count)
{
	struct checked *of = opened(pool);
	struct block *block = of != NULL ? named(of, msg) : NULL;

	if (of == NULL || into == NULL || count == NULL || block == NULL)
		return of == NULL ? STRM_NOT_OPEN : into == NULL || count == NULL ? STRM_BAD_ARGUMENT : STRM_INVALID;
	*count = read_blocks(block, from, into, length);
	return STRM_OK;
}

int strm_bytes(const struct strm_pool *pool, struct strm_msg msg, uint32_t place, const uint8_t **at, size_t *length)
{
	struct checked *of = opened(pool);
	struct block *block = of != NULL ? named(of, msg) : NULL;

	if (of == NULL || at == NULL || length == NULL || block == NULL)
		return of == NULL ? STRM_NOT_OPEN : at == NULL || length == NULL ? STRM_BAD_ARGUMENT : STRM_INVALID;
	block = block_at(block, place);
	if (block == NULL)
		return STRM_NO_SUCH_BLOCK;
	*at = block->data->bytes + block->at;
	*length = block->length;
	return STRM_OK;
}

int strm_place(const struct strm_pool *pool, struct strm_msg msg, uint32_t place, struct strm_block_place *where)
{
	struct checked *of = opened(pool);
	struct block *block = of != NULL ? named(of, msg) : NULL;

	if (of == NULL || where == NULL || block == NULL)
		return of == NULL ? STRM_NOT_OPEN : where == NULL ? STRM_BAD_ARGUMENT : STRM_INVALID;
	block = block_at(block, place);
	if (block == NULL)
		return STRM_NO_SUCH_BLOCK;
	where->data = block->data->number;
	where->at = block->at;
	where->length = block->length;
	where->capacity = block->data->of->size;
	return STRM_OK;
}

int strm_advance(struct strm_pool *pool, struct strm_msg msg, uint32_t place, uint32_t count)
{
	struct checked *of = opened(pool);
	struct block *block = of != NULL ? named(of, msg) : NULL;

	if (block == NULL)
		return of == NULL ? STRM_NOT_OPEN : STRM_INVALID;
	block = block_at(block, place);
	if (block == NULL)
		return STRM_NO_SUCH_BLOCK;
	if (block->data->references > 1)
		return STRM_SHARED;
	if (block->data->of->size - block->at - block->length < count)
		return STRM_NO_ROOM;
	block->length += count;
	return STRM_OK;
}

int strm_room(struct strm_pool *pool, struct strm_msg msg, uint32_t place, uint8_t **at, size_t *length)
{
	struct checked *of = opened(pool);
	struct block *block = of != NULL ? named(of, msg) : NULL;

	if (of == NULL || at == NULL || length == NULL || block == NULL)
		return of == NULL ? STRM_NOT_OPEN : at == NULL || length == NULL ? STRM_BAD_ARGUMENT : STRM_INVALID;
	block = block_at(block, place);
	if (block == NULL)
		return STRM_NO_SUCH_BLOCK;
	if (block->data->references > 1)
		return STRM_SHARED;
	*at = block->data->bytes + block->at + block->length;
	*length = block->data->of->size - block->at - block->length;
	return STRM_OK;
}

int strm_iov(const struct strm_pool *pool, struct strm_msg msg, uint32_t from, struct strm_iov *into, size_t length, size_t *count)
{
	struct checked *of = opened(pool);
	struct block *block = of != NULL ? named(of, msg) : NULL;

	if (of == NULL || into == NULL || count == NULL || block == NULL)
		return of == NULL ? STRM_NOT_OPEN : into == NULL || count == NULL ? STRM_BAD_ARGUMENT : STRM_INVALID;
	block = block_at(block, from);
	for (*count = 0; block != NULL && *count < length; block = block->cont, ++*count) {
		into[*count].base = block->data->bytes + block->at;
		into[*count].length = block->length;
	}
	return STRM_OK;
}

/* All bytes of a message, which strm.c pulls up: the new data block comes with a block of its own, which takes the old blocks and is freed. */
int strm_pullupmsg(struct strm_pool *pool, struct strm_msg msg, int32_t length)
{
	struct checked *of = opened(pool);
	struct block *block = of != NULL ? named(of, msg) : NULL, *rest;
	struct data *data;
	int code;

	if (of == NULL || block == NULL || length != -1)
		return of == NULL ? STRM_NOT_OPEN : block == NULL ? STRM_INVALID : STRM_BAD_ARGUMENT;
	code = allocate(of, size_of(block), &rest);
	if (code != STRM_OK)
		return code;
	data = rest->data;
	data->type = block->data->type;
	rest->cont = block->cont;
	rest->data = block->data;
	block->length = read_blocks(block, 0, data->bytes, size_of(block));
	block->at = 0;
	block->data = data;
	block->cont = NULL;
	free_blocks(of, rest);
	return STRM_OK;
}

/* ---- the queue */

static int has_bit(const uint64_t *words, uint32_t bit)
{
	return words[bit / 64] >> bit % 64 & 1;
}

static void set_bit(uint64_t *words, uint32_t bit, int on)
{
	uint64_t mask = (uint64_t)1 << bit % 64;

	words[bit / 64] = on ? words[bit / 64] | mask : words[bit / 64] & ~mask;
}

/* The last message of this rank or the next greater one, or null. */
static struct block *last_ahead(const struct queue *queue, uint32_t rank)
{
	uint32_t word = rank / 64;
	uint64_t bits = queue->used[word] >> rank % 64 << rank % 64;

	while (bits == 0)
		if (++word == WORDS)
			return NULL;
		else
			bits = queue->used[word];
	return queue->lasts[word * 64 + (uint32_t)__builtin_ctzll(bits)];
}

static void put(struct queue *queue, struct block *block)
{
	uint32_t rank = block->data->type >= STRM_M_IOCACK ? RANKS - 1 : block->band;
	uint32_t band = rank == RANKS - 1 ? 0 : block->band;
	struct block *ahead = last_ahead(queue, rank);

	block->held = 0;
	block->rank = (uint16_t)rank;
	block->before = ahead;
	block->after = ahead != NULL ? ahead->after : queue->first;
	*(ahead != NULL ? &ahead->after : &queue->first) = block;
	if (block->after != NULL)
		block->after->before = block;
	queue->lasts[rank] = block;
	set_bit(queue->used, rank, 1);
	queue->count++;
	queue->bytes[band] += size_of(block);
	if (queue->bytes[band] >= queue->high)
		set_bit(queue->full, band, 1);
	if (queue->wants || rank > 0)
		queue->enabled = 1;
}

static struct block *take(struct queue *queue)
{
	struct block *block = queue->first;
	uint32_t band;

	queue->wants = block == NULL;
	if (block == NULL)
		return NULL;
	band = block->rank == RANKS - 1 ? 0 : block->rank;
	queue->first = block->after;
	if (block->after != NULL)
		block->after->before = NULL;
	if (queue->lasts[block->rank] == block) {
		queue->lasts[block->rank] = NULL;
		set_bit(queue->used, block->rank, 0);
	}
	queue->count--;
	queue->bytes[band] -= size_of(block);
	if (queue->bytes[band] < queue->high)
		set_bit(queue->full, band, 0);
	if (has_bit(queue->wanted, band) && queue->bytes[band] <= queue->low)
		set_bit(queue->wanted, band, 0);
	return block;
}

int strm_putq(struct strm_pool *pool, uint32_t queue, struct strm_msg msg)
{
	struct checked *of = opened(pool);
	struct block *block = of != NULL ? named(of, msg) : NULL;

	if (of == NULL || block == NULL || queue != 0)
		return of == NULL ? STRM_NOT_OPEN : block == NULL ? STRM_INVALID : STRM_NO_SUCH_QUEUE;
	put(&of->queue, block);
	return STRM_OK;
}

int strm_getq(struct strm_pool *pool, uint32_t queue, struct strm_msg *msg)
{
	struct checked *of = opened(pool);
	struct block *block;

	if (of == NULL || msg == NULL || queue != 0)
		return of == NULL ? STRM_NOT_OPEN : msg == NULL ? STRM_BAD_ARGUMENT : STRM_NO_SUCH_QUEUE;
	block = take(&of->queue);
	if (block == NULL)
		return STRM_NONE;
	give(of, block, msg);
	return STRM_OK;
}

/* ---- several messages */

int strm_allocb_n(struct strm_pool *pool, uint32_t size, struct strm_msg *msgs, size_t length, size_t *count)
{
	struct checked *of = opened(pool);
	struct block *block;
	int code = STRM_OK;

	if (of == NULL || msgs == NULL || count == NULL)
		return of == NULL ? STRM_NOT_OPEN : STRM_BAD_ARGUMENT;
	for (*count = 0; *count < length && (code = allocate(of, size, &block)) == STRM_OK; ++*count)
		give(of, block, &msgs[*count]);
	return *count > 0 ? STRM_OK : code;
}

int strm_freemsg_n(struct strm_pool *pool, const struct strm_msg *msgs, size_t length, size_t *count)
{
	struct checked *of = opened(pool);
	struct block *block;

	if (of == NULL || msgs == NULL || count == NULL)
		return of == NULL ? STRM_NOT_OPEN : STRM_BAD_ARGUMENT;
	for (*count = 0; *count < length && (block = named(of, msgs[*count])) != NULL; ++*count)
		free_blocks(of, block);
	return *count > 0 || length == 0 ? STRM_OK : STRM_INVALID;
}

int strm_putq_n(struct strm_pool *pool, uint32_t queue, const struct strm_msg *msgs, size_t length, size_t *count)
{
	struct checked *of = opened(pool);
	struct block *block;

	if (of == NULL || msgs == NULL || count == NULL || queue != 0)
		return of == NULL ? STRM_NOT_OPEN : msgs == NULL || count == NULL ? STRM_BAD_ARGUMENT : STRM_NO_SUCH_QUEUE;
	for (*count = 0; *count < length && (block = named(of, msgs[*count])) != NULL; ++*count)
		put(&of->queue, block);
	return *count > 0 || length == 0 ? STRM_OK : STRM_INVALID;
}

int strm_getq_n(struct strm_pool *pool, uint32_t queue, struct strm_msg *msgs, size_t length, size_t *count)
{
	struct checked *of = opened(pool);
	struct block *block;

	if (of == NULL || msgs == NULL || count == NULL || queue != 0)
		return of == NULL ? STRM_NOT_OPEN : msgs == NULL || count == NULL ? STRM_BAD_ARGUMENT : STRM_NO_SUCH_QUEUE;
	for (*count = 0; *count < length && (block = take(&of->queue)) != NULL; ++*count)
		give(of, block, &msgs[*count]);
	return *count > 0 || length == 0 ? STRM_OK : STRM_NONE;
}
