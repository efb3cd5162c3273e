/*
 * A plain model of a pool and 26 registers, with lists of messages. Bytes, references and blocks are counted over everything when they
 * are asked for. The model knows nothing of names.
 */
#ifndef MODEL_H
#define MODEL_H

#include "calls.h"

struct model;

/* The model of a lawful configuration; null if out of memory. */
struct model *model_open(const struct strm_config *config);
void model_close(struct model *model);

/* Does a call, with the other pool for a call that hands a message to it. Refusals come in the order that a script has. */
struct reply model_apply(struct model *model, struct model *other, const struct call *call);

/* The number of blocks of the message in a register (0 if it holds none), the number of its first block, and what calls report of it. */
uint32_t model_blocks(const struct model *model, int reg);
uint32_t model_head(const struct model *model, int reg);
struct strm_block_info model_block(const struct model *model, int reg, uint32_t place);
struct strm_block_place model_place(const struct model *model, int reg, uint32_t place);
uint32_t model_size(const struct model *model, int reg);
uint32_t model_msgdsize(const struct model *model, int reg);
uint32_t model_read(const struct model *model, int reg, uint32_t at, uint8_t *into, uint32_t length);

/* What a call reports of the message at a place of a queue, which has one there. */
struct strm_queued model_queued(const struct model *model, uint32_t queue, uint32_t place);

struct strm_census model_census(const struct model *model);
struct strm_class_info model_class(const struct model *model, uint32_t place);
struct strm_queue_info model_queue(const struct model *model, uint32_t queue);
struct strm_band_info model_band(const struct model *model, uint32_t queue, uint32_t band);
struct strm_marks model_marks(const struct model *model, uint32_t queue, uint32_t band);

/* The queue at a place of the run list, and the wish at a place; both return 0 if there is none. */
int model_run_at(const struct model *model, uint32_t place, uint32_t *queue);
int model_wish_at(const struct model *model, uint32_t place, struct strm_wish *wish);

#endif
