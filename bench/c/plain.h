/*
 * A pool as one is written by hand in C, with pointers and without checks of its arguments. It has only what the rounds need: message
 * blocks, data blocks in size classes, and one queue with flow control for each band.
 */
#ifndef PLAIN_H
#define PLAIN_H

#include <stddef.h>
#include <stdint.h>

struct plain_class {
	uint32_t size;
	uint32_t count;
	struct plain_data *free;
};

struct plain_data {
	struct plain_data *next_free;
	struct plain_class *class_of;
	unsigned char *bytes;
	uint32_t capacity;
	uint8_t type;
	uint8_t names;
};

struct plain_block {
	struct plain_block *cont;
	struct plain_block *next;
	struct plain_data *data;
	uint32_t read;
	uint32_t write;
	uint32_t bytes;
	uint8_t band;
};

struct plain_queue {
	struct plain_block *first;
	struct plain_block *last;
	uint32_t msgs;
	uint32_t bytes[256];
	uint32_t hiwat;
	uint32_t lowat;
	uint8_t full[256];
	uint8_t wanted[256];
	int read;
	int enabled;
};

struct plain_pool {
	struct plain_block *free;
	struct plain_class classes[8];
	int class_count;
	struct plain_queue queue;
};

int plain_open(struct plain_pool *pool, uint32_t mblks, const uint32_t (*classes)[2], int class_count);
struct plain_block *plain_allocb(struct plain_pool *pool, uint32_t size);
struct plain_block *plain_dupb(struct plain_pool *pool, struct plain_block *block);
void plain_freemsg(struct plain_pool *pool, struct plain_block *block);
int plain_write(struct plain_block *block, const void *bytes, uint32_t length);
uint32_t plain_read(const struct plain_block *block, uint32_t at, void *into, uint32_t length);

/* The first byte of a block, and the number of its bytes. The caller may write there if `names` is 1. */
unsigned char *plain_bytes(const struct plain_block *block, uint32_t *length);
int plain_overwrite(struct plain_block *block, uint32_t at, const void *bytes, uint32_t length);
int plain_advance(struct plain_block *block, uint32_t count);

/* Appends the blocks of `tail`; copies all blocks; gathers all bytes in the first block. */
void plain_linkb(struct plain_block *block, struct plain_block *tail);
struct plain_block *plain_copymsg(struct plain_pool *pool, const struct plain_block *block);
int plain_pullupmsg(struct plain_pool *pool, struct plain_block *block);

void plain_putq(struct plain_pool *pool, struct plain_block *block);
struct plain_block *plain_getq(struct plain_pool *pool);

#endif
