/* The pool of plain.h. */
#include "plain.h"

#include <stdlib.h>
#include <string.h>

int plain_open(struct plain_pool *pool, uint32_t mblks, const uint32_t (*classes)[2], int class_count)
{
	struct plain_block *blocks = calloc(mblks, sizeof *blocks);
	uint32_t k;
	int c;

	memset(pool, 0, sizeof *pool);
	if (blocks == NULL)
		return 0;
	for (k = mblks; k > 0; k--) {
		blocks[k - 1].cont = pool->free;
		pool->free = &blocks[k - 1];
	}
	for (c = 0; c < class_count; c++) {
		struct plain_class *of = &pool->classes[c];
		struct plain_data *data = calloc(classes[c][1], sizeof *data);
		unsigned char *bytes = malloc((size_t)classes[c][0] * classes[c][1]);

		if (data == NULL || bytes == NULL)
			return 0;
		of->size = classes[c][0];
		of->count = classes[c][1];
		for (k = of->count; k > 0; k--) {
			data[k - 1].class_of = of;
			data[k - 1].bytes = bytes + (size_t)(k - 1) * of->size;
			data[k - 1].capacity = of->size;
			data[k - 1].next_free = of->free;
			of->free = &data[k - 1];
		}
	}
	pool->class_count = class_count;
	pool->queue.hiwat = 65536;
	pool->queue.lowat = 1024;
	pool->queue.read = 1;
	return 1;
}

struct plain_block *plain_allocb(struct plain_pool *pool, uint32_t size)
{
	struct plain_block *block = pool->free;
	struct plain_data *data = NULL;
	int c;

	if (block == NULL)
		return NULL;
	for (c = 0; c < pool->class_count && data == NULL; c++)
		if (pool->classes[c].size >= size)
			data = pool->classes[c].free;
	if (data == NULL)
		return NULL;
	pool->free = block->cont;
	data->class_of->free = data->next_free;
	data->type = 0;
	data->names = 1;
	block->cont = NULL;
	block->data = data;
	block->read = block->write = block->bytes = 0;
	block->band = 0;
	return block;
}

struct plain_block *plain_dupb(struct plain_pool *pool, struct plain_block *block)
{
	struct plain_block *copy = pool->free;

	if (copy == NULL || block->data->names == 255)
		return NULL;
	pool->free = copy->cont;
	copy->cont = NULL;
	copy->data = block->data;
	copy->read = block->read;
	copy->write = block->write;
	copy->bytes = block->write - block->read;
	copy->band = block->band;
	block->data->names++;
	return copy;
}

void plain_freemsg(struct plain_pool *pool, struct plain_block *block)
{
	while (block != NULL) {
		struct plain_block *cont = block->cont;
		struct plain_data *data = block->data;

		if (--data->names == 0) {
			data->next_free = data->class_of->free;
			data->class_of->free = data;
		}
		block->cont = pool->free;
		pool->free = block;
		block = cont;
	}
}

int plain_write(struct plain_block *block, const void *bytes, uint32_t length)
{
	if (block->data->names > 1 || block->data->capacity - block->write < length)
		return 0;
	memcpy(block->data->bytes + block->write, bytes, length);
	block->write += length;
	block->bytes += length;
	return 1;
}

uint32_t plain_read(const struct plain_block *block, uint32_t at, void *into, uint32_t length)
{
	uint32_t count = 0, part;

	for (; block != NULL && count < length; block = block->cont) {
		part = block->write - block->read;
		if (at >= part) {
			at -= part;
			continue;
		}
		part = part - at < length - count ? part - at : length - count;
		memcpy((unsigned char *)into + count, block->data->bytes + block->read + at, part);
		count += part;
		at = 0;
	}
	return count;
}

unsigned char *plain_bytes(const struct plain_block *block, uint32_t *length)
{
	*length = block->write - block->read;
	return block->data->bytes + block->read;
}

int plain_overwrite(struct plain_block *block, uint32_t at, const void *bytes, uint32_t length)
{
	if (block->data->names > 1 || block->write - block->read < at || block->write - block->read - at < length)
		return 0;
	memcpy(block->data->bytes + block->read + at, bytes, length);
	return 1;
}

int plain_advance(struct plain_block *block, uint32_t count)
{
	if (block->data->names > 1 || block->data->capacity - block->write < count)
		return 0;
	block->write += count;
	block->bytes += count;
	return 1;
}

void plain_linkb(struct plain_block *block, struct plain_block *tail)
{
	block->bytes += tail->bytes;
	while (block->cont != NULL)
		block = block->cont;
	block->cont = tail;
}

struct plain_block *plain_copymsg(struct plain_pool *pool, const struct plain_block *block)
{
	struct plain_block *first = NULL, **at = &first;

	for (; block != NULL; block = block->cont) {
		struct plain_block *copy = plain_allocb(pool, block->data->capacity);

		if (copy == NULL) {
			plain_freemsg(pool, first);
			return NULL;
		}
		memcpy(copy->data->bytes + block->read, block->data->bytes + block->read, block->write - block->read);
		copy->data->type = block->data->type;
		copy->read = block->read;
		copy->write = block->write;
		copy->bytes = block->bytes;
		copy->band = block->band;
		*at = copy;
		at = &copy->cont;
	}
	return first;
}

/* The new data block comes with a block of its own, which takes the old data block and the other blocks, and is freed with them. */
int plain_pullupmsg(struct plain_pool *pool, struct plain_block *block)
{
	struct plain_block *rest = plain_allocb(pool, block->bytes);
	struct plain_data *data;

	if (rest == NULL)
		return 0;
	data = rest->data;
	data->type = block->data->type;
	plain_read(block, 0, data->bytes, block->bytes);
	rest->data = block->data;
	rest->cont = block->cont;
	block->data = data;
	block->cont = NULL;
	block->read = 0;
	block->write = block->bytes;
	plain_freemsg(pool, rest);
	return 1;
}

void plain_putq(struct plain_pool *pool, struct plain_block *block)
{
	struct plain_queue *queue = &pool->queue;
	struct plain_block **at = &queue->first;

	if (queue->last != NULL && queue->last->band >= block->band)
		at = &queue->last->next;
	while (*at != NULL && (*at)->band >= block->band)
		at = &(*at)->next;
	block->next = *at;
	*at = block;
	if (block->next == NULL)
		queue->last = block;
	queue->msgs++;
	queue->bytes[block->band] += block->bytes;
	queue->full[block->band] = queue->bytes[block->band] >= queue->hiwat;
	if (queue->read || block->band > 0)
		queue->enabled = 1;
}

struct plain_block *plain_getq(struct plain_pool *pool)
{
	struct plain_queue *queue = &pool->queue;
	struct plain_block *block = queue->first;

	queue->read = block == NULL;
	if (block == NULL)
		return NULL;
	queue->first = block->next;
	if (queue->first == NULL)
		queue->last = NULL;
	queue->msgs--;
	queue->bytes[block->band] -= block->bytes;
	queue->full[block->band] = queue->bytes[block->band] >= queue->hiwat;
	if (queue->wanted[block->band] && queue->bytes[block->band] <= queue->lowat)
		queue->wanted[block->band] = 0;
	return block;
}
