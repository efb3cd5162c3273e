#include "model.h"

#include <stdlib.h>
#include <string.h>

/* A data block; free ones are in a list. */
struct datum {
	struct datum *next;
	uint32_t class_number, type;
	uint8_t *bytes;
};

/* A message block; a message is a list of them, and so are the free ones. */
struct cell {
	struct cell *next;
	struct datum *datum;
	uint32_t number, read, write, band;
};

/* A message on a queue. */
struct item {
	struct item *next;
	struct cell *message;
};

struct line {
	struct strm_queue_spec spec;
	struct strm_marks marks[STRM_BANDS];
	struct item *items;
	int wants_to_read, enabling_is_off, wanted[STRM_BANDS];
};

/* The fewest message blocks that were free, and of each class the fewest data blocks. */
struct least {
	uint32_t cells, data[STRM_MOST_CLASSES];
};

struct model {
	struct strm_class_spec classes[STRM_MOST_CLASSES];
	uint32_t class_count, queue_count, mblks, bufcalls;
	double next_id;		/* as a number that can be above the last id */
	struct datum *free_data[STRM_MOST_CLASSES], *all_data;
	struct cell *free_cells, *all_cells;
	struct item *all_items, *free_items;
	uint8_t *all_bytes;
	struct line queues[STRM_MOST_QUEUES];
	struct cell *registers[REGISTERS];
	uint32_t run[STRM_MOST_QUEUES], run_count, wish_count;
	struct strm_wish wishes[STRM_MOST_WISHES];
	struct least least;
};

/* ---- lists */

static uint32_t length_of(const struct cell *m)
{
	return m == NULL ? 0 : 1 + length_of(m->next);
}

static struct cell *cell_at(struct cell *m, uint32_t place)
{
	while (m != NULL && place > 0) {
		m = m->next;
		place--;
	}
	return m;
}

static struct cell *last_of(struct cell *m)
{
	while (m->next != NULL)
		m = m->next;
	return m;
}

static uint32_t bytes_in(const struct cell *m)
{
	return m == NULL ? 0 : m->write - m->read + bytes_in(m->next);
}

/* How many blocks of a message name a data block. */
static uint32_t references_in(const struct cell *m, const struct datum *d)
{
	return m == NULL ? 0 : (m->datum == d) + references_in(m->next, d);
}

static uint32_t references_to(const struct model *v, const struct datum *d)
{
	const struct item *item;
	uint32_t i, sum = 0;

	for (i = 0; i < REGISTERS; i++)
		sum += references_in(v->registers[i], d);
	for (i = 0; i < v->queue_count; i++)
		for (item = v->queues[i].items; item != NULL; item = item->next)
			sum += references_in(item->message, d);
	return sum;
}

/* ---- blocks */

static uint32_t capacity(const struct model *v, const struct datum *d)
{
	return v->classes[d->class_number].size;
}

/* The free list whose first data block a size gets; null if there is none. */
static struct datum **free_for(struct model *v, uint32_t size)
{
	uint32_t c;

	for (c = 0; c < v->class_count; c++)
		if (v->classes[c].size >= size && v->free_data[c] != NULL)
			return &v->free_data[c];
	return NULL;
}

static int is_too_large(const struct model *v, uint32_t size)
{
	return size > v->classes[v->class_count - 1].size;
}

static uint32_t free_data_of(const struct model *v, uint32_t c)
{
	const struct datum *d;
	uint32_t count = 0;

	for (d = v->free_data[c]; d != NULL; d = d->next)
		count++;
	return count;
}

static void least_reset(struct model *v)
{
	uint32_t c;

	v->least.cells = length_of(v->free_cells);
	for (c = 0; c < v->class_count; c++)
		v->least.data[c] = free_data_of(v, c);
}

/* Blocks were taken. */
static void least_noted(struct model *v)
{
	struct least before = v->least;
	uint32_t c;

	least_reset(v);
	if (v->least.cells > before.cells)
		v->least.cells = before.cells;
	for (c = 0; c < v->class_count; c++)
		if (v->least.data[c] > before.data[c])
			v->least.data[c] = before.data[c];
}

static struct datum *datum_taken(struct model *v, uint32_t size, uint32_t type)
{
	struct datum **from = free_for(v, size), *d;

	if (from == NULL)
		return NULL;
	d = *from;
	*from = d->next;
	d->type = type;
	least_noted(v);
	return d;
}

static void datum_freed(struct model *v, struct datum *d)
{
	d->next = v->free_data[d->class_number];
	v->free_data[d->class_number] = d;
}

/* Frees the blocks of a message that is in no register or queue, first to last, and each data block with its last reference. */
static void cells_freed(struct model *v, struct cell *m)
{
	struct cell *rest;

	if (m == NULL)
		return;
	rest = m->next;
	if (references_to(v, m->datum) + references_in(rest, m->datum) == 0)
		datum_freed(v, m->datum);
	m->next = v->free_cells;
	v->free_cells = m;
	cells_freed(v, rest);
}

static struct cell *cell_taken(struct model *v, struct datum *d, uint32_t read, uint32_t write, uint32_t band)
{
	struct cell *cell = v->free_cells;

	v->free_cells = cell->next;
	least_noted(v);
	cell->next = NULL;
	cell->datum = d;
	cell->read = read;
	cell->write = write;
	cell->band = band;
	return cell;
}

/* ---- opening */

static int has_memory(const struct model *v)
{
	return v->all_data != NULL && v->all_cells != NULL && v->all_items != NULL && v->all_bytes != NULL;
}

static void open_data(struct model *v)
{
	uint8_t *bytes = v->all_bytes;
	struct datum *d = v->all_data, **end;
	uint32_t c, i;

	for (c = 0; c < v->class_count; c++) {
		end = &v->free_data[c];
		for (i = 0; i < v->classes[c].count; i++, d++) {
			d->class_number = c;
			d->bytes = bytes;
			bytes += v->classes[c].size;
			*end = d;
			end = &d->next;
		}
	}
}

static void open_cells(struct model *v)
{
	uint32_t i;

	for (i = v->mblks; i-- > 0;) {
		v->all_cells[i].number = i;
		v->all_cells[i].next = v->free_cells;
		v->free_cells = &v->all_cells[i];
		v->all_items[i].next = v->free_items;
		v->free_items = &v->all_items[i];
	}
}

static void open_queues(struct model *v, const struct strm_queue_spec *specs)
{
	uint32_t q, b;

	for (q = 0; q < v->queue_count; q++) {
		v->queues[q].spec = specs[q];
		v->queues[q].wants_to_read = 1;
		for (b = 0; b < STRM_BANDS; b++) {
			v->queues[q].marks[b].hiwat = specs[q].hiwat;
			v->queues[q].marks[b].lowat = specs[q].lowat;
		}
	}
}

struct model *model_open(const struct strm_config *config)
{
	struct model *v = (struct model *)calloc(1, sizeof *v);
	size_t i, bytes = 0, data = 0;

	if (v == NULL)
		return NULL;
	v->mblks = config->mblks;
	v->class_count = (uint32_t)config->class_count;
	v->queue_count = (uint32_t)config->queue_count;
	v->bufcalls = config->bufcalls;
	v->next_id = config->first_id;
	for (i = 0; i < config->class_count; i++) {
		v->classes[i] = config->classes[i];
		data += config->classes[i].count;
		bytes += (size_t)config->classes[i].size * config->classes[i].count;
	}
	v->all_data = (struct datum *)calloc(data, sizeof *v->all_data);
	v->all_cells = (struct cell *)calloc(v->mblks, sizeof *v->all_cells);
	v->all_items = (struct item *)calloc(v->mblks, sizeof *v->all_items);
	v->all_bytes = (uint8_t *)calloc(bytes, 1);
	if (!has_memory(v)) {
		model_close(v);
		return NULL;
	}
	open_data(v);
	open_cells(v);
	open_queues(v, config->queues);
	least_reset(v);
	return v;
}

void model_close(struct model *v)
{
	free(v->all_data);
	free(v->all_cells);
	free(v->all_items);
	free(v->all_bytes);
	free(v);
}

/* ---- what there is to report */

uint32_t model_blocks(const struct model *v, int reg)
{
	return length_of(v->registers[reg]);
}

uint32_t model_head(const struct model *v, int reg)
{
	return v->registers[reg]->number;
}

struct strm_block_info model_block(const struct model *v, int reg, uint32_t place)
{
	const struct cell *cell = cell_at(v->registers[reg], place);
	struct strm_block_info info;

	info.type = cell->datum->type;
	info.length = cell->write - cell->read;
	info.band = cell->band;
	info.room = capacity(v, cell->datum) - cell->write;
	info.names = references_to(v, cell->datum);
	return info;
}

struct strm_block_place model_place(const struct model *v, int reg, uint32_t place)
{
	const struct cell *cell = cell_at(v->registers[reg], place);
	struct strm_block_place where;

	where.data = (uint32_t)(cell->datum - v->all_data);
	where.at = cell->read;
	where.length = cell->write - cell->read;
	where.capacity = capacity(v, cell->datum);
	return where;
}

uint32_t model_size(const struct model *v, int reg)
{
	return bytes_in(v->registers[reg]);
}

uint32_t model_msgdsize(const struct model *v, int reg)
{
	const struct cell *cell;
	uint32_t sum = 0;

	for (cell = v->registers[reg]; cell != NULL; cell = cell->next)
		if (cell->datum->type == STRM_M_DATA)
			sum += cell->write - cell->read;
	return sum;
}

/* Reads byte by byte, from a place on. */
static uint32_t bytes_read(const struct cell *m, uint32_t at, uint8_t *into, uint32_t length)
{
	uint32_t place = 0, count = 0, i;

	for (; m != NULL; m = m->next)
		for (i = m->read; i < m->write; i++, place++)
			if (place >= at && count < length)
				into[count++] = m->datum->bytes[i];
	return count;
}

uint32_t model_read(const struct model *v, int reg, uint32_t at, uint8_t *into, uint32_t length)
{
	return bytes_read(v->registers[reg], at, into, length);
}

struct strm_census model_census(const struct model *v)
{
	const struct item *item;
	struct strm_census census = { 0, 0, 0 };
	uint32_t i;

	census.free = length_of(v->free_cells);
	for (i = 0; i < REGISTERS; i++)
		census.held += length_of(v->registers[i]);
	for (i = 0; i < v->queue_count; i++)
		for (item = v->queues[i].items; item != NULL; item = item->next)
			census.queued += length_of(item->message);
	return census;
}

struct strm_class_info model_class(const struct model *v, uint32_t place)
{
	struct strm_class_info info;

	info.size = v->classes[place].size;
	info.free = free_data_of(v, place);
	info.total = v->classes[place].count;
	return info;
}

/* ---- queues */

static int is_high(const struct cell *m)
{
	switch (m->datum->type) {
	case STRM_M_DATA: case STRM_M_PROTO: case STRM_M_BREAK: case STRM_M_PASSFP: case STRM_M_SIG: case STRM_M_DELAY:
	case STRM_M_CTL: case STRM_M_IOCTL: case STRM_M_SETOPTS:
		return 0;
	default:
		return 1;
	}
}

static uint32_t rank_of(const struct cell *m)
{
	return is_high(m) ? 256 : m->band;
}

static int is_of_band(const struct cell *m, uint32_t band)
{
	return is_high(m) ? band == 0 : m->band == band;
}

static uint32_t bytes_of_band(const struct model *v, uint32_t q, uint32_t band)
{
	const struct item *item;
	uint32_t sum = 0;

	for (item = v->queues[q].items; item != NULL; item = item->next)
		if (is_of_band(item->message, band))
			sum += bytes_in(item->message);
	return sum;
}

static int is_on_run(const struct model *v, uint32_t q)
{
	uint32_t i;

	for (i = 0; i < v->run_count; i++)
		if (v->run[i] == q)
			return 1;
	return 0;
}

struct strm_queue_info model_queue(const struct model *v, uint32_t q)
{
	const struct item *item;
	struct strm_queue_info info = { 0, 0, 0, 0, 0 };

	for (item = v->queues[q].items; item != NULL; item = item->next) {
		info.msgs++;
		info.bytes += bytes_in(item->message);
	}
	info.read = (uint32_t)v->queues[q].wants_to_read;
	info.noenable = (uint32_t)v->queues[q].enabling_is_off;
	info.enabled = (uint32_t)is_on_run(v, q);
	return info;
}

struct strm_band_info model_band(const struct model *v, uint32_t q, uint32_t band)
{
	struct strm_band_info info;

	info.bytes = bytes_of_band(v, q, band);
	info.full = info.bytes >= v->queues[q].marks[band].hiwat;
	info.wanted = (uint32_t)v->queues[q].wanted[band];
	return info;
}

struct strm_marks model_marks(const struct model *v, uint32_t q, uint32_t band)
{
	return v->queues[q].marks[band];
}

int model_run_at(const struct model *v, uint32_t place, uint32_t *queue)
{
	if (place < v->run_count)
		*queue = v->run[place];
	return place < v->run_count;
}

int model_wish_at(const struct model *v, uint32_t place, struct strm_wish *wish)
{
	if (place < v->wish_count)
		*wish = v->wishes[place];
	return place < v->wish_count;
}

static void enabled(struct model *v, uint32_t q)
{
	if (v->queues[q].spec.service != 0 && !is_on_run(v, q))
		v->run[v->run_count++] = q;
}

/* Enables the nearest queue behind that has a service procedure. */
static void waker_enabled(struct model *v, uint32_t q)
{
	uint32_t i = 0;

	while (i < v->queue_count)
		if (v->queues[i].spec.next != q) {
			i++;
		} else if (v->queues[i].spec.service != 0) {
			enabled(v, i);
			return;
		} else {
			q = i;
			i = 0;
		}
}

static void settled(struct model *v, uint32_t q)
{
	uint32_t band, relieved = 0;

	for (band = 0; band < STRM_BANDS; band++)
		if (v->queues[q].wanted[band] && bytes_of_band(v, q, band) <= v->queues[q].marks[band].lowat) {
			v->queues[q].wanted[band] = 0;
			relieved++;
		}
	if (relieved > 0)
		waker_enabled(v, q);
}

/* The link to the item at a place, or to the end of the list for any place past it. */
static struct item **link_at(struct model *v, uint32_t q, uint32_t place)
{
	struct item **at = &v->queues[q].items;

	while (*at != NULL && place > 0) {
		at = &(*at)->next;
		place--;
	}
	return at;
}

static void item_put(struct model *v, struct item **at, struct cell *m)
{
	struct item *item = v->free_items;

	v->free_items = item->next;
	if (is_high(m))
		m->band = 0;
	item->message = m;
	item->next = *at;
	*at = item;
}

static struct cell *item_taken(struct model *v, struct item **at)
{
	struct item *item = *at;

	*at = item->next;
	item->next = v->free_items;
	v->free_items = item;
	return item->message;
}

/* ---- calls on messages, by the registers that hold them */

/* Whether some data block would have too many references once the first `count` blocks of a message have duplicates. */
static int exceeds_references(const struct model *v, const struct cell *m, uint32_t count)
{
	const struct cell *cell, *other;
	uint32_t i, j, names;

	for (i = 0, cell = m; i < count; i++, cell = cell->next) {
		names = references_to(v, cell->datum);
		for (j = 0, other = m; j < count; j++, other = other->next)
			names += other->datum == cell->datum;
		if (names > STRM_MOST_NAMES)
			return 1;
	}
	return 0;
}

/* The copies that were taken last. */
static struct datum *copies[STRM_MOST_MBLKS];

/* Copies the data of the first `count` blocks of a message of the pool `from`, all or none. If none, free data blocks keep their bytes. */
static int copies_taken(struct model *v, const struct model *from, const struct cell *m, uint32_t count)
{
	const struct cell *cell;
	uint32_t i;

	for (i = 0, cell = m; i < count; i++, cell = cell->next) {
		copies[i] = datum_taken(v, capacity(from, cell->datum), cell->datum->type);
		if (copies[i] == NULL) {
			while (i-- > 0)
				datum_freed(v, copies[i]);
			return 0;
		}
	}
	for (i = 0, cell = m; i < count; i++, cell = cell->next)
		memcpy(copies[i]->bytes + cell->read, cell->datum->bytes + cell->read, cell->write - cell->read);
	return 1;
}

/* A message of `count` new blocks, with the places and bands of those of a message, over the same data or over the copies. */
static struct cell *cells_like(struct model *v, const struct cell *m, uint32_t count, int is_copy)
{
	struct cell *made = NULL, **end = &made;
	uint32_t i;

	for (i = 0; i < count; i++, m = m->next) {
		*end = cell_taken(v, is_copy ? copies[i] : m->datum, m->read, m->write, m->band);
		end = &(*end)->next;
	}
	return made;
}

/* Makes a message of `count` new blocks, over the same data or over copies. */
static struct reply duplicated(struct model *v, const struct call *call, uint32_t count, int is_copy)
{
	const struct cell *from = v->registers[call->x];

	if (length_of(v->free_cells) < count)
		return refused(STRM_NO_MBLK);
	if (!is_copy && exceeds_references(v, from, count))
		return refused(STRM_REF_MAX);
	if (is_copy && !copies_taken(v, v, from, count))
		return refused(STRM_NO_DATA);
	v->registers[call->y] = cells_like(v, from, count, is_copy);
	return reply_of(DONE);
}

static struct reply allocated(struct model *v, const struct call *call)
{
	struct datum *d;

	if (is_too_large(v, call->number))
		return refused(STRM_TOO_LARGE);
	if (v->free_cells == NULL)
		return refused(STRM_NO_MBLK);
	d = datum_taken(v, call->number, STRM_M_DATA);
	if (d == NULL)
		return refused(STRM_NO_DATA);
	v->registers[call->y] = cell_taken(v, d, 0, 0, 0);
	return reply_of(DONE);
}

static struct reply written(struct model *v, const struct call *call)
{
	struct cell *cell = cell_at(v->registers[call->x], call->place);

	if (cell == NULL)
		return refused(STRM_NO_SUCH_BLOCK);
	if (references_to(v, cell->datum) > 1)
		return refused(STRM_SHARED);
	if (cell->write + call->length > capacity(v, cell->datum))
		return refused(STRM_NO_ROOM);
	memcpy(cell->datum->bytes + cell->write, call->octets, call->length);
	cell->write += call->length;
	return reply_of(DONE);
}

/* Why a block's data block may not change: there is no such block, or another block refers to it, too. 0 if it may. */
static int why_not_own(const struct model *v, const struct cell *cell)
{
	if (cell == NULL)
		return STRM_NO_SUCH_BLOCK;
	return references_to(v, cell->datum) > 1 ? STRM_SHARED : 0;
}

/* Goes over the bytes one by one, first to look whether each may change, and then to change them. */
static struct reply overwritten(struct model *v, const struct call *call)
{
	struct cell *cell;
	uint32_t at, i;
	int writes;

	if (bytes_in(v->registers[call->x]) < call->place + call->length)
		return refused(STRM_SHORT);
	for (writes = 0; writes < 2; writes++)
		for (at = 0, cell = v->registers[call->x]; cell != NULL; cell = cell->next)
			for (i = cell->read; i < cell->write; i++, at++) {
				if (at < call->place || at - call->place >= call->length)
					continue;
				if (writes)
					cell->datum->bytes[i] = call->octets[at - call->place];
				else if (references_to(v, cell->datum) > 1)
					return refused(STRM_SHARED);
			}
	return reply_of(DONE);
}

static struct reply reserved(struct model *v, const struct call *call)
{
	struct cell *cell = cell_at(v->registers[call->x], call->place);
	int why = why_not_own(v, cell);

	if (why != 0)
		return refused(why);
	if (cell->read < cell->write || call->number > capacity(v, cell->datum))
		return refused(STRM_NO_ROOM);
	cell->read = cell->write = call->number;
	return reply_of(DONE);
}

static struct reply prepended(struct model *v, const struct call *call)
{
	struct cell *first = v->registers[call->x];

	if (references_to(v, first->datum) > 1)
		return refused(STRM_SHARED);
	if (first->read < call->length)
		return refused(STRM_NO_ROOM);
	first->read -= call->length;
	memcpy(first->datum->bytes + first->read, call->octets, call->length);
	return reply_of(DONE);
}

static struct reply advanced(struct model *v, const struct call *call)
{
	struct cell *cell = cell_at(v->registers[call->x], call->place);
	int why = why_not_own(v, cell);

	if (why != 0)
		return refused(why);
	if (call->number > capacity(v, cell->datum) - cell->write)
		return refused(STRM_NO_ROOM);
	cell->write += call->number;
	return reply_of(DONE);
}

/* Writes octets where a call found room for them, as many as fit, and tells the bytes there. */
static struct reply found(struct model *v, const struct call *call)
{
	struct cell *cell = cell_at(v->registers[call->x], call->place);
	int why = why_not_own(v, cell);
	struct reply reply = reply_of(TOLD_BYTES);
	uint32_t from, count;

	if (why != 0)
		return refused(why);
	from = call->verb == ROOM ? cell->write : call->verb == EDIT ? cell->read : 0;
	count = (call->verb == EDIT ? cell->write : capacity(v, cell->datum)) - from;
	memcpy(cell->datum->bytes + from, call->octets, count < call->length ? count : call->length);
	memcpy(reply.octets, cell->datum->bytes + from, count < MOST_OCTETS ? count : MOST_OCTETS);
	reply.numbers[0] = count;
	return reply;
}

static struct reply shaped(struct model *v, const struct call *call)
{
	struct cell *cell = cell_at(v->registers[call->x], call->place);

	if (cell == NULL)
		return refused(STRM_NO_SUCH_BLOCK);
	if (call->number + call->lowat > capacity(v, cell->datum))
		return refused(STRM_NO_ROOM);
	cell->read = call->number;
	cell->write = call->number + call->lowat;
	return reply_of(DONE);
}

/* Looks at each block, and then changes each. */
static struct reply all_shaped(struct model *v, const struct call *call)
{
	struct cell *cell = v->registers[call->x];
	const struct strm_block_shape *shape;

	if (call->items > length_of(cell))
		return refused(STRM_NO_SUCH_BLOCK);
	for (shape = call->shapes; shape < call->shapes + call->items; shape++, cell = cell->next) {
		if (shape->at + shape->length > capacity(v, cell->datum))
			return refused(STRM_NO_ROOM);
		if (shape->type != cell->datum->type && references_to(v, cell->datum) > 1)
			return refused(STRM_SHARED);
	}
	cell = v->registers[call->x];
	for (shape = call->shapes; shape < call->shapes + call->items; shape++, cell = cell->next) {
		cell->read = shape->at;
		cell->write = shape->at + shape->length;
		cell->band = shape->band;
		cell->datum->type = shape->type;
	}
	return reply_of(DONE);
}

static struct reply typed(struct model *v, const struct call *call)
{
	struct cell *cell = cell_at(v->registers[call->x], call->place);

	if (cell == NULL)
		return refused(STRM_NO_SUCH_BLOCK);
	if (references_to(v, cell->datum) > 1)
		return refused(STRM_SHARED);
	cell->datum->type = call->type;
	return reply_of(DONE);
}

static struct reply block_removed(struct model *v, const struct call *call)
{
	struct cell **at = &v->registers[call->x], *cell = cell_at(*at, call->place);

	if (cell == NULL)
		return refused(STRM_NO_SUCH_BLOCK);
	while (*at != cell)
		at = &(*at)->next;
	*at = cell->next;
	cell->next = NULL;
	v->registers[call->y] = cell;
	return reply_of(DONE);
}

/* The bytes of the blocks at the head that have the type of the first. */
static uint32_t leading(const struct cell *m)
{
	const struct cell *first = m;
	uint32_t sum = 0;

	for (; m != NULL && m->datum->type == first->datum->type; m = m->next)
		sum += m->write - m->read;
	return sum;
}

static struct reply cut_head(struct cell *m, uint32_t count)
{
	if (leading(m) < count)
		return refused(STRM_SHORT);
	for (; count > 0; count--) {
		while (m->read == m->write)
			m = m->next;
		m->read++;
	}
	return reply_of(DONE);
}

/* The last block of a message that has bytes. */
static struct cell *last_with_bytes(struct cell *m)
{
	struct cell *found = NULL;

	for (; m != NULL; m = m->next)
		if (m->read < m->write)
			found = m;
	return found;
}

/* The bytes of the blocks at the tail that have the type of the last. */
static uint32_t trailing(struct cell *m)
{
	uint32_t type = last_of(m)->datum->type, sum = 0;

	for (; m != NULL; m = m->next)
		sum = m->datum->type == type ? sum + m->write - m->read : 0;
	return sum;
}

static struct reply cut_tail(struct cell *m, uint32_t count)
{
	if (trailing(m) < count)
		return refused(STRM_SHORT);
	for (; count > 0; count--)
		last_with_bytes(m)->write--;
	return reply_of(DONE);
}

static struct reply pulled_up(struct model *v, const struct call *call)
{
	struct cell *m = v->registers[call->x], *behind;
	uint32_t all = leading(m), wanted = call->count == -1 ? all : (uint32_t)call->count, left;
	struct datum *old, *d;

	if (call->count < -1 || wanted > all)
		return refused(STRM_SHORT);
	if (wanted <= m->write - m->read)
		return reply_of(DONE);
	if (is_too_large(v, wanted))
		return refused(STRM_TOO_LARGE);
	d = datum_taken(v, wanted, m->datum->type);
	if (d == NULL)
		return refused(STRM_NO_DATA);
	left = wanted - (m->write - m->read);
	bytes_read(m, 0, d->bytes, wanted);
	old = m->datum;
	m->datum = d;
	m->read = 0;
	m->write = wanted;
	if (references_to(v, old) == 0)
		datum_freed(v, old);
	while (left > 0) {
		behind = m->next;
		if (behind->write - behind->read > left) {
			behind->read += left;
			break;
		}
		left -= behind->write - behind->read;
		m->next = behind->next;
		behind->next = NULL;
		cells_freed(v, behind);
	}
	return reply_of(DONE);
}

/* What calls report of a message, held or queued. */
static struct strm_queued info_of(const struct cell *m)
{
	struct strm_queued info;

	info.head = m->number;
	info.type = m->datum->type;
	info.band = m->band;
	info.bytes = bytes_in(m);
	info.blocks = length_of(m);
	return info;
}

static struct reply message_told(const struct model *v, const struct call *call)
{
	struct strm_queued info = info_of(v->registers[call->x]);

	return told_from(TOLD_QUEUED, &info);
}

static struct reply block_told(const struct model *v, const struct call *call)
{
	struct strm_block_info info;

	if (cell_at(v->registers[call->x], call->place) == NULL)
		return refused(STRM_NO_SUCH_BLOCK);
	info = model_block(v, call->x, call->place);
	return told_from(TOLD_BLOCK, &info);
}

static struct reply blocks_told(const struct model *v, const struct call *call)
{
	struct reply reply = reply_of(TOLD_BLOCKS);
	uint32_t count = 0;

	for (; count < call->items && cell_at(v->registers[call->x], call->place + count) != NULL; count++) {
		struct strm_block_info info = model_block(v, call->x, call->place + count);

		memcpy(reply.numbers + 1 + 5 * count, &info, sizeof info);
	}
	reply.numbers[0] = count;
	return reply;
}

/* The bytes of one block of a message; of more than MOST_OCTETS bytes a reply has the first. */
static struct reply bytes_of_block_told(struct cell *m, const struct call *call)
{
	const struct cell *cell = cell_at(m, call->place);
	struct reply reply = reply_of(TOLD_BYTES);
	uint32_t i;

	if (cell == NULL)
		return refused(STRM_NO_SUCH_BLOCK);
	reply.numbers[0] = cell->write - cell->read;
	for (i = 0; i < reply.numbers[0] && i < MOST_OCTETS; i++)
		reply.octets[i] = cell->datum->bytes[cell->read + i];
	return reply;
}

/* The lengths of some blocks of a message, and the first of their bytes. */
static struct reply iov_told(struct cell *m, const struct call *call)
{
	const struct cell *cell = cell_at(m, call->place);
	struct reply reply = reply_of(TOLD_IOV);
	uint32_t count = 0, had = 0, i;

	for (; count < call->items && cell != NULL; count++, cell = cell->next) {
		reply.numbers[1 + count] = cell->write - cell->read;
		for (i = cell->read; i < cell->write && had < MOST_OCTETS; i++)
			reply.octets[had++] = cell->datum->bytes[i];
	}
	reply.numbers[0] = count;
	return reply;
}

static struct reply number_told(struct cell *m, const struct call *call)
{
	const struct cell *cell = cell_at(m, call->place);

	return cell != NULL ? told(TOLD_HEAD, cell->number, 0) : refused(STRM_NO_SUCH_BLOCK);
}

static struct reply place_told(const struct model *v, const struct call *call)
{
	struct strm_block_place where;

	if (cell_at(v->registers[call->x], call->place) == NULL)
		return refused(STRM_NO_SUCH_BLOCK);
	where = model_place(v, call->x, call->place);
	return told_from(TOLD_PLACE, &where);
}

static struct reply bytes_told(const struct model *v, const struct call *call)
{
	struct reply reply = reply_of(TOLD_BYTES);

	reply.numbers[0] = model_read(v, call->x, call->place, reply.octets, MOST_OCTETS);
	return reply;
}

/* Takes the message out of a register. */
static struct cell *picked(struct model *v, int reg)
{
	struct cell *m = v->registers[reg];

	v->registers[reg] = NULL;
	return m;
}

static struct reply act_on_messages(struct model *v, const struct call *call)
{
	struct cell *m = v->registers[call->x];

	switch (call->verb) {
	case ALLOCB:
		return allocated(v, call);
	case DUPB:
		return duplicated(v, call, 1, 0);
	case DUPMSG:
		return duplicated(v, call, length_of(m), 0);
	case COPYB:
		return duplicated(v, call, 1, 1);
	case COPYMSG:
		return duplicated(v, call, length_of(m), 1);
	case WRITE:
		return written(v, call);
	case SETTYPE:
		return typed(v, call);
	case SETBAND:
		m->band = call->band;
		return reply_of(DONE);
	case LINKB:
		last_of(m)->next = picked(v, call->z);
		return reply_of(DONE);
	case UNLINKB:
		v->registers[call->y] = m->next;
		m->next = NULL;
		return reply_of(v->registers[call->y] != NULL ? DONE : NOTHING);
	case RMVB:
		return block_removed(v, call);
	case ADJMSG:
		return call->count >= 0 ? cut_head(m, (uint32_t)call->count) : cut_tail(m, 0u - (uint32_t)call->count);
	case PULLUPMSG:
		return pulled_up(v, call);
	case MSGDSIZE:
		return told(TOLD_SIZE, model_msgdsize(v, call->x), 0);
	case SIZE:
		return told(TOLD_SIZE, bytes_in(m), 0);
	case READ:
		return bytes_told(v, call);
	case MESSAGE:
		return message_told(v, call);
	case BLOCK:
		return block_told(v, call);
	case BLOCKS:
		return blocks_told(v, call);
	case BYTES:
		return bytes_of_block_told(m, call);
	case IOV:
		return iov_told(m, call);
	case BLOCK_NUMBER:
		return number_told(m, call);
	case PLACE:
		return place_told(v, call);
	case OVERWRITE:
		return overwritten(v, call);
	case RESERVE:
		return reserved(v, call);
	case PREPEND:
		return prepended(v, call);
	case ROOM: case EDIT: case WINDOW:
		return found(v, call);
	case ADVANCE:
		return advanced(v, call);
	case SHAPE:
		return shaped(v, call);
	case SHAPE_ALL:
		return all_shaped(v, call);
	case FREEB:
		v->registers[call->x] = m->next;
		m->next = NULL;
		cells_freed(v, m);
		return reply_of(DONE);
	default:
		cells_freed(v, picked(v, call->x));
		return reply_of(DONE);
	}
}

/* ---- calls on queues */

static struct reply put(struct model *v, const struct call *call)
{
	struct line *line = &v->queues[call->queue];
	struct item **at = &line->items;
	uint32_t rank = rank_of(v->registers[call->x]);

	if (call->verb == PUTQ)
		while (*at != NULL && rank_of((*at)->message) >= rank)
			at = &(*at)->next;
	else
		while (*at != NULL && rank_of((*at)->message) > rank)
			at = &(*at)->next;
	item_put(v, at, picked(v, call->x));
	if (rank == 256 || (!line->enabling_is_off && (line->wants_to_read || (call->verb == PUTQ && rank > 0))))
		enabled(v, call->queue);
	return reply_of(DONE);
}

static struct reply inserted(struct model *v, const struct call *call)
{
	struct line *line = &v->queues[call->queue];
	struct item **at = link_at(v, call->queue, call->place), **before = link_at(v, call->queue, call->place - 1);
	uint32_t rank = rank_of(v->registers[call->x]);

	if (call->place > model_queue(v, call->queue).msgs)
		return refused(STRM_NO_SUCH_PLACE);
	if ((*at != NULL && rank_of((*at)->message) > rank) || (call->place > 0 && rank_of((*before)->message) < rank))
		return refused(STRM_BAD_ORDER);
	item_put(v, at, picked(v, call->x));
	if (!line->enabling_is_off && line->wants_to_read)
		enabled(v, call->queue);
	return reply_of(DONE);
}

static struct reply got(struct model *v, const struct call *call)
{
	struct item **at = link_at(v, call->queue, call->verb == GETQ ? 0 : call->place);

	if (call->verb == GETQ)
		v->queues[call->queue].wants_to_read = *at == NULL;
	if (*at == NULL)
		return call->verb == GETQ ? reply_of(NOTHING) : refused(STRM_NO_SUCH_PLACE);
	v->registers[call->y] = item_taken(v, at);
	settled(v, call->queue);
	return reply_of(DONE);
}

/* The place on a queue of the message whose first block has this number; without one, that behind the last. */
static uint32_t place_of(const struct model *v, uint32_t q, uint32_t head)
{
	const struct item *item = v->queues[q].items;
	uint32_t place = 0;

	for (; item != NULL && item->message->number != head; item = item->next)
		place++;
	return place;
}

static struct reply inserted_at(struct model *v, const struct call *call)
{
	struct call placed = *call;

	placed.place = place_of(v, call->queue, call->number);
	if (*link_at(v, call->queue, placed.place) == NULL && call->number != STRM_NO_HEAD)
		return refused(STRM_NO_SUCH_PLACE);
	return inserted(v, &placed);
}

static struct reply got_by_head(struct model *v, const struct call *call)
{
	struct call placed = *call;

	for (placed.queue = 0; placed.queue < v->queue_count; placed.queue++) {
		placed.place = place_of(v, placed.queue, call->number);
		if (*link_at(v, placed.queue, placed.place) != NULL)
			return got(v, &placed);
	}
	return refused(STRM_NO_SUCH_PLACE);
}

/* Whether a flush frees a message, or one that is taken instead of that. */
static int is_flushed(const struct call *call, const struct cell *m)
{
	uint32_t type = m->datum->type;

	return (call->verb == FLUSHQ || call->verb == TAKEQ || is_of_band(m, call->band))
		&& (call->flush == STRM_FLUSHALL || type == STRM_M_DATA || type == STRM_M_PROTO || type == STRM_M_PCPROTO || type == STRM_M_DELAY);
}

static struct reply flushed(struct model *v, const struct call *call)
{
	struct item **at = &v->queues[call->queue].items;

	while (*at != NULL)
		if (is_flushed(call, (*at)->message))
			cells_freed(v, item_taken(v, at));
		else
			at = &(*at)->next;
	settled(v, call->queue);
	return reply_of(DONE);
}

/* Registers get what a flush would free, as many as there are registers. */
static struct reply flushed_taken(struct model *v, const struct call *call)
{
	struct item **at = &v->queues[call->queue].items;
	uint32_t count = 0;

	while (*at != NULL && count < call->items)
		if (is_flushed(call, (*at)->message))
			v->registers[call->many[count++]] = item_taken(v, at);
		else
			at = &(*at)->next;
	settled(v, call->queue);
	return told(TOLD_COUNT, count, 0);
}

static struct reply asked_for_room(struct model *v, uint32_t q, uint32_t band)
{
	while (v->queues[q].spec.service == 0 && v->queues[q].spec.next != STRM_NO_QUEUE)
		q = v->queues[q].spec.next;
	if (!model_band(v, q, band).full)
		return reply_of(YES);
	v->queues[q].wanted[band] = 1;
	return reply_of(NO);
}

struct strm_queued model_queued(const struct model *v, uint32_t queue, uint32_t place)
{
	const struct item *item = v->queues[queue].items;

	for (; place > 0; place--)
		item = item->next;
	return info_of(item->message);
}

static struct reply queued_told(struct model *v, const struct call *call)
{
	struct strm_queued queued;

	if (*link_at(v, call->queue, call->place) == NULL)
		return refused(STRM_NO_SUCH_PLACE);
	queued = model_queued(v, call->queue, call->place);
	return told_from(TOLD_QUEUED, &queued);
}

static struct reply queued_bytes_told(struct model *v, const struct call *call)
{
	struct item **at = link_at(v, call->queue, call->place);
	struct reply reply = reply_of(TOLD_BYTES);

	if (*at == NULL)
		return refused(STRM_NO_SUCH_PLACE);
	reply.numbers[0] = bytes_read((*at)->message, call->number, reply.octets, MOST_OCTETS);
	return reply;
}

static const struct item *last_on(const struct line *line)
{
	const struct item *item = line->items;

	while (item != NULL && item->next != NULL)
		item = item->next;
	return item;
}

static struct reply head_told(const struct item *item)
{
	return item != NULL ? told(TOLD_HEAD, item->message->number, 0) : reply_of(NOTHING);
}

static struct reply spec_told(struct strm_queue_spec spec)
{
	spec.service = spec.service != 0;
	return told_from(TOLD_SPEC, &spec);
}

static struct reply act_on_queue(struct model *v, const struct call *call)
{
	struct line *line = &v->queues[call->queue];
	struct strm_queue_info info;
	struct strm_band_info band;

	switch (call->verb) {
	case PUTQ: case PUTBQ:
		return put(v, call);
	case HOLD:
		put(v, call);
		enabled(v, call->queue);
		return reply_of(DONE);
	case INSQ:
		return inserted(v, call);
	case INSQ_AT:
		return inserted_at(v, call);
	case GETQ: case RMVQ:
		return got(v, call);
	case FLUSHQ: case FLUSHBAND:
		return flushed(v, call);
	case TAKEQ: case TAKEQ_BAND:
		return flushed_taken(v, call);
	case BCANPUT:
		return asked_for_room(v, call->queue, call->band);
	case STRQSET:
		if (call->lowat >= call->hiwat)
			return refused(STRM_BAD_MARKS);
		line->marks[call->band].hiwat = call->hiwat;
		line->marks[call->band].lowat = call->lowat;
		settled(v, call->queue);
		return reply_of(DONE);
	case STRQGET:
		return told_from(TOLD_MARKS, &line->marks[call->band]);
	case QSIZE:
		return told(TOLD_SIZE, model_queue(v, call->queue).msgs, 0);
	case QUEUED_AT:
		return queued_told(v, call);
	case READ_QUEUED:
		return queued_bytes_told(v, call);
	case FIRST_QUEUED:
		return head_told(line->items);
	case LAST_QUEUED:
		return head_told(last_on(line));
	case QUEUE_SPEC:
		return spec_told(line->spec);
	case QUEUE_INFO:
		info = model_queue(v, call->queue);
		return told_from(TOLD_STATE, &info);
	case BAND_INFO:
		band = model_band(v, call->queue, call->band);
		return told_from(TOLD_BAND, &band);
	case QENABLE:
		enabled(v, call->queue);
		return reply_of(DONE);
	default:
		line->enabling_is_off = call->verb == NOENABLE;
		return reply_of(DONE);
	}
}

/* ---- the others */

static struct reply served_next(struct model *v)
{
	struct reply reply;

	if (v->run_count == 0)
		return reply_of(NOTHING);
	reply = told(TOLD_QUEUE, v->run[0], 0);
	v->run_count--;
	memmove(v->run, v->run + 1, v->run_count * sizeof *v->run);
	return reply;
}

/* Takes the first message off a queue that is served into the register, if it may go on; otherwise it is put back. */
static int has_given(struct model *v, const struct call *call, uint32_t queue)
{
	struct call single = *call;
	uint32_t rank;

	single.verb = GETQ;
	single.queue = queue;
	if (got(v, &single).kind == NOTHING)
		return 0;
	rank = rank_of(v->registers[call->y]);
	if (rank == 256 || asked_for_room(v, v->queues[queue].spec.next, rank).kind == YES)
		return 1;
	single.verb = PUTBQ;
	single.x = call->y;
	put(v, &single);
	return 0;
}

/* Serves all but the last queues of the run list, as many as the call's place says, until one gives a message. A queue that wakes comes first. */
static struct reply served(struct model *v, const struct call *call)
{
	struct reply reply = reply_of(TOLD_SERVICE);
	uint32_t before, queue, last;
	int is_given;

	while (v->run_count > call->place) {
		queue = v->run[0];
		before = v->run_count;
		if (v->queues[queue].spec.next == STRM_NO_QUEUE)
			break;
		served_next(v);
		is_given = has_given(v, call, queue);
		if (v->run_count == before) {
			last = v->run[before - 1];
			memmove(v->run + 1, v->run, (before - 1) * sizeof *v->run);
			v->run[0] = last;
		}
		if (!is_given)
			continue;
		enabled(v, queue);
		reply.numbers[0] = queue;
		reply.numbers[1] = v->queues[queue].spec.next;
		reply.numbers[2] = call->place;
		return reply;
	}
	return reply_of(NOTHING);
}

static void wish_removed(struct model *v, uint32_t place)
{
	v->wish_count--;
	memmove(v->wishes + place, v->wishes + place + 1, (v->wish_count - place) * sizeof *v->wishes);
}

static struct reply wished(struct model *v, const struct call *call)
{
	if (is_too_large(v, call->number))
		return refused(STRM_TOO_LARGE);
	if (v->wish_count == v->bufcalls)
		return refused(STRM_FULL);
	if (v->next_id > 4294967295.0)
		return refused(STRM_IDS_SPENT);
	v->wishes[v->wish_count].id = (uint32_t)v->next_id;
	v->wishes[v->wish_count].size = call->number;
	v->next_id += 1;
	return told(TOLD_ID, v->wishes[v->wish_count++].id, 0);
}

static int can_allocate(struct model *v, uint32_t size)
{
	return v->free_cells != NULL && free_for(v, size) != NULL;
}

static struct reply wish_taken(struct model *v, const struct call *call)
{
	struct reply reply;
	uint32_t i;

	for (i = 0; i < v->wish_count; i++) {
		if (call->verb == UNBUFCALL ? v->wishes[i].id != call->number : !can_allocate(v, v->wishes[i].size))
			continue;
		reply = call->verb == UNBUFCALL ? reply_of(DONE) : told(TOLD_READY, v->wishes[i].id, v->wishes[i].size);
		wish_removed(v, i);
		return reply;
	}
	return call->verb == UNBUFCALL ? refused(STRM_NOT_PENDING) : reply_of(NOTHING);
}

/* The bytes of all data blocks of a class, and those of one. */
static struct reply region_told(const struct model *v, uint32_t place)
{
	struct reply reply = reply_of(TOLD_BYTES);
	const uint8_t *bytes = v->all_bytes;
	uint32_t c, size = 0;

	if (place >= v->class_count)
		return reply_of(NOTHING);
	for (c = 0; c <= place; c++, bytes += size)
		size = v->classes[c].size * v->classes[c].count;
	memcpy(reply.octets, bytes - size, size < MOST_OCTETS ? size : MOST_OCTETS);
	reply.numbers[0] = size;
	reply.numbers[1] = v->classes[place].size;
	return reply;
}

/* The register that holds a message whose first block has this number. */
static struct reply name_told(const struct model *v, uint32_t head)
{
	uint32_t reg;

	for (reg = 0; reg < REGISTERS; reg++)
		if (v->registers[reg] != NULL && v->registers[reg]->number == head)
			return told(TOLD_NAME, reg, 0);
	return reply_of(NOTHING);
}

/* What is asked of a message on a queue, given the one before it there, if any. */
static struct reply queued_item_told(const struct item *item, const struct item *before, uint32_t q, const struct call *call)
{
	switch (call->verb) {
	case QUEUE_OF:
		return told(TOLD_QUEUE, q, 0);
	case QUEUED_AFTER: case QUEUED_BEFORE:
		return head_told(call->verb == QUEUED_AFTER ? item->next : before);
	case QUEUED_BYTES:
		return bytes_of_block_told(item->message, call);
	default:
		return iov_told(item->message, call);
	}
}

/* What is asked of the queued message whose first block has this number. */
static struct reply queued_head_told(const struct model *v, const struct call *call)
{
	const struct item *item, *before;
	uint32_t q;

	for (q = 0; q < v->queue_count; q++)
		for (item = v->queues[q].items, before = NULL; item != NULL; before = item, item = item->next)
			if (item->message->number == call->number)
				return queued_item_told(item, before, q, call);
	return refused(STRM_NO_SUCH_PLACE);
}

/* Makes the message anew in the other pool, and frees it here. */
static struct reply transferred(struct model *v, struct model *other, const struct call *call)
{
	struct cell *m = v->registers[call->x];
	const struct cell *cell;

	for (cell = m; cell != NULL; cell = cell->next)
		if (is_too_large(other, capacity(v, cell->datum)))
			return refused(STRM_TOO_LARGE);
	if (length_of(other->free_cells) < length_of(m))
		return refused(STRM_NO_MBLK);
	if (!copies_taken(other, v, m, length_of(m)))
		return refused(STRM_NO_DATA);
	other->registers[call->y] = cells_like(other, m, length_of(m), 1);
	cells_freed(v, picked(v, call->x));
	return reply_of(DONE);
}

static struct reply act_on_pool(struct model *v, const struct call *call)
{
	struct strm_census census = model_census(v);
	struct strm_class_info info;
	struct strm_wish wish;
	uint32_t queue;

	switch (call->verb) {
	case TESTB:
		return reply_of(can_allocate(v, call->number) ? YES : NO);
	case HAS:
		return reply_of(v->registers[call->x] != NULL ? YES : NO);
	case RUN_AT:
		return model_run_at(v, call->place, &queue) ? told(TOLD_QUEUE, queue, 0) : reply_of(NOTHING);
	case WISH_AT:
		return model_wish_at(v, call->place, &wish) ? told_from(TOLD_READY, &wish) : reply_of(NOTHING);
	case CLASS_INFO:
		if (call->place >= v->class_count)
			return reply_of(NOTHING);
		info = model_class(v, call->place);
		return told_from(TOLD_CLASS, &info);
	case REGION:
		return region_told(v, call->place);
	case LEAST_FREE_BLOCKS:
		return told(TOLD_SIZE, v->least.cells, 0);
	case LEAST_FREE:
		return call->place < v->class_count ? told(TOLD_SIZE, v->least.data[call->place], 0) : reply_of(NOTHING);
	case RESET_LEAST:
		least_reset(v);
		return reply_of(DONE);
	case SERVICE:
		return served_next(v);
	case SERVE:
		return served(v, call);
	case BUFCALL:
		return wished(v, call);
	case UNBUFCALL: case READY:
		return wish_taken(v, call);
	case NAME_AT:
		return name_told(v, call->number);
	case QUEUED_AFTER: case QUEUED_BEFORE: case QUEUE_OF: case QUEUED_BYTES: case QUEUED_IOV:
		return queued_head_told(v, call);
	case RMVQ_MSG:
		return got_by_head(v, call);
	default:
		return told_from(TOLD_CENSUS, &census);
	}
}

/* The single call that a call on several messages makes one after another. */
static enum verb single_of(enum verb verb)
{
	switch (verb) {
	case ALLOCB_N: return ALLOCB;
	case FREEMSG_N: return FREEMSG;
	case PUTQ_N: return PUTQ;
	default: return GETQ;
	}
}

/* Whether a register that should get a message has one, or should get another too. */
static int is_some_taken(const struct model *v, const struct call *call)
{
	uint32_t i, j;

	for (i = 0; i < call->items; i++) {
		if (v->registers[call->many[i]] != NULL)
			return 1;
		for (j = 0; j < i; j++)
			if (call->many[i] == call->many[j])
				return 1;
	}
	return 0;
}

/* Makes single calls up to the first that is not done. If that is the very first, its reply is the reply. */
static struct reply done_one_by_one(struct model *v, const struct call *call)
{
	struct call single = *call;
	struct reply reply;
	uint32_t count;

	single.verb = single_of(call->verb);
	for (count = 0; count < call->items; count++) {
		single.x = single.y = call->many[count];
		reply = model_apply(v, v, &single);
		if (reply.kind != DONE && count == 0)
			return reply;
		if (reply.kind != DONE)
			break;
	}
	return told(TOLD_COUNT, count, 0);
}

static struct reply applied(struct model *v, struct model *other, const struct call *call)
{
	int verb = call->verb;

	if (names(verb, "p") && is_some_taken(v, call))
		return reply_of(TAKEN);
	if (names(verb, "gp") && !names(verb, "f"))
		return done_one_by_one(v, call);
	if (names(verb, "q") && call->queue >= v->queue_count)
		return refused(STRM_NO_SUCH_QUEUE);
	if (names(verb, "xX") && v->registers[call->x] == NULL)
		return reply_of(EMPTY);
	if (names(verb, "Z") && (v->registers[call->z] == NULL || call->x == call->z))
		return reply_of(EMPTY);
	if (names(verb, "y") && v->registers[call->y] != NULL)
		return reply_of(TAKEN);
	if (names(verb, "w"))
		return other->registers[call->y] != NULL ? reply_of(TAKEN) : transferred(v, other, call);
	if (names(verb, "q"))
		return act_on_queue(v, call);
	if (names(verb, "xXy") && !names(verb, "e") && verb != SERVE)
		return act_on_messages(v, call);
	return act_on_pool(v, call);
}

/* A refused call leaves everything as it was, also if it took blocks before it found too few. */
struct reply model_apply(struct model *v, struct model *other, const struct call *call)
{
	struct least before = v->least, of_other = other->least;
	struct reply reply = applied(v, other, call);

	if (reply.kind == REFUSED) {
		v->least = before;
		other->least = of_other;
	}
	return reply;
}
