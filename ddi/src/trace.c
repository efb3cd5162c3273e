/* For testing modules in user space; tested, not proved. Writes what happens to messages as a trace, which strm-record(1) explains. */
#include "ddi.h"

/* A queue's number in a trace is known at the end, as one that a queue leads to has a greater one. Till then the body has its place in `queues`, as
 * a byte after this one. */
#define QUEUE_NEXT '\1'

FILE *ddi_traced;
static uchar_t (*told)[STRM_MOST_DATA_BYTES];	/* the bytes that the trace has of each data block */
static queue_t *queues[STRM_MOST_QUEUES], *in_order[STRM_MOST_QUEUES];
static int queue_count;
static char said[41];

void ddi_trace_open(void)
{
	queue_count = 0;
	said[0] = 0;
	if (!getenv("STRM_DDI_TRACE"))
		return;
	ddi_traced = tmpfile();
	told = calloc(STRM_MOST_DATA_BLOCKS, sizeof *told);
}

static int index_of(const queue_t *q, queue_t *const in[])
{
	int k = 0;
	while (k < queue_count && in[k] != q)
		k++;
	return k;
}

/* Gives a pair of queues places. The queues of a stream head that is linked below a driver have theirs. */
void ddi_trace_queues(queue_t *pair)
{
	if (!ddi_traced || index_of(pair, queues) < queue_count)
		return;
	if (queue_count == STRM_MOST_QUEUES) {
		fputs("strm_ddi: the trace ends before: it has at most 16 queues\n", stderr);
		ddi_trace_close();
		return;
	}
	queues[queue_count++] = &pair[0];
	queues[queue_count++] = &pair[1];
}

static struct told as_it_is(const struct block *b)
{
	return (struct told){ b->m.b_cont, b->m.b_rptr, b->m.b_wptr, b->m.b_datap, b->m.b_band, b->m.b_datap->db_type, ddi_is_held(b) };
}

/* Whether the bytes of a block, up to its write place, are others than the trace has. */
static int has_new_bytes(const struct block *b)
{
	return b->m.b_wptr >= b->data->d.db_base && b->m.b_wptr <= b->data->d.db_lim &&
		memcmp(b->data->d.db_base, told[b->data - ddi_pools[0].data], (size_t)(b->m.b_wptr - b->data->d.db_base)) != 0;
}

static int is_changed(const struct block *b)
{
	struct told told = as_it_is(b);
	return memcmp(&told, &b->told, sizeof told) != 0 || has_new_bytes(b);
}

/* Prints a block, and before it which bytes are new. */
static void tell_block(char mark, struct block *b)
{
	const mblk_t *mp = &b->m;
	const uchar_t *base = b->data->d.db_base;
	ptrdiff_t next = mp->b_cont ? (struct block *)mp->b_cont - ddi_blocks : -1, data = b->data - ddi_pools[0].data;
	if (!b->data->is_told)
		fprintf(ddi_traced, "c %td %u\n", data, b->data->size);
	b->data->is_told = 1;
	if (has_new_bytes(b)) {
		ptrdiff_t first = 0, last = mp->b_wptr - base;
		while (base[first] == told[data][first])
			first++;
		while (base[last - 1] == told[data][last - 1])
			last--;
		fprintf(ddi_traced, "b %td %td ", data, first);
		for (ptrdiff_t k = first; k < last; k++)
			fprintf(ddi_traced, "%02x", told[data][k] = base[k]);
		fputc('\n', ddi_traced);
	}
	fprintf(ddi_traced, "%c %td %td %td %td %td %s %d\n", mark, b - ddi_blocks, next, data, MBLKHEAD(mp), mp->b_wptr - base,
		ddi_type_name(DB_TYPE(mp)), mp->b_band);
	b->told = as_it_is(b);
}

/* The name of a queue's module, with a number if pairs before have it too. */
static const char *label_of(const queue_t *q)
{
	static char label[32];
	int same = 1;
	for (int k = 0; queues[k] != RD(q); k += 2)
		same += strcmp(ddi_module(queues[k]), ddi_module(q)) == 0;
	snprintf(label, sizeof label, same > 1 ? "%.20s/%d" : "%.20s", ddi_module(q), same);
	return label;
}

/* Prints who calls, if it is another caller than before. */
static void tell_caller(void)
{
	const queue_t *q = ddi_frame->q;
	char label[sizeof said];
	if (q)
		snprintf(label, sizeof label, "%s %s %s", label_of(q), ddi_side(q), ddi_frame->as.procedure);
	else
		snprintf(label, sizeof label, "%s", ddi_frame->before ? ddi_frame->as.procedure : "head");
	if (strcmp(label, said) != 0)
		fprintf(ddi_traced, "#: caller %s\n", label);
	strcpy(said, label);
}

/* Reports a change of data to which several blocks refer, which no word of strm makes. */
void ddi_trace_begin(void)
{
	for (struct block *b = ddi_blocks; b < ddi_blocks_end; b++)
		if (ddi_is_held(b) && is_changed(b)) {
			int is_shared = b->data->references > 1 && (has_new_bytes(b) || b->m.b_datap->db_type != b->told.type);
			tell_caller();
			tell_block('~', b);
			if (is_shared)
				ddi_misuse("a pointer", b, "the module changed a data block to which %d message blocks refer", b->data->references);
		}
}

/* Prints that a block is held no longer. It follows no other block then, whatever a pointer says. */
static void tell_end(struct block *b)
{
	fprintf(ddi_traced, "- %td\n", b - ddi_blocks);
	b->told.is_held = 0;
	for (struct block *other = ddi_blocks; other < ddi_blocks_end; other++)
		if (other->told.cont == &b->m)
			other->told.cont = NULL;
}

const char *ddi_told(char mark, const void *what)
{
	static char texts[3][24];
	static int last;
	char *text = texts[last = (last + 1) % 3];
	if (mark == 'q')
		sprintf(text, "%c%c", QUEUE_NEXT, 'a' + index_of(what, queues));
	else
		sprintf(text, what ? "%c%td" : "%c", mark, what ? (const struct block *)what - ddi_blocks : 0);
	return text;
}

void ddi_trace_end(const char *format, ...)
{
	va_list values;
	tell_caller();
	fprintf(ddi_traced, "! %s ", ddi_frame->q ? ddi_module(ddi_frame->q) : "head");
	va_start(values, format);
	vfprintf(ddi_traced, format, values);
	va_end(values);
	fputc('\n', ddi_traced);
	for (struct block *b = ddi_blocks; b < ddi_blocks_end; b++)
		if (b->told.is_held && !ddi_is_held(b))
			tell_end(b);
	for (struct block *b = ddi_blocks; b < ddi_blocks_end; b++)
		if (ddi_is_held(b) && is_changed(b))
			tell_block('=', b);
}

/* The reply of strm to a call with this code, such as `refused 2 NoMblk`. */
const char *ddi_reply(int code)
{
	static char reply[48];
	char name[32], *to = reply + sprintf(reply, "refused %d ", code);
	strm_name(code, name, sizeof name);
	for (int k = 5; name[k]; k++)
		if (name[k] != '_')
			*to++ = (char)(name[k - 1] == '_' ? name[k] : name[k] | 32);
	*to = 0;
	return code == STRM_OK ? "ok" : reply;
}

/* ---- the header and the report */

/* Numbers the queues before: each stream's from the first one on, to which none leads. */
static void write_header(FILE *out)
{
	int count = 0;
	for (int k = 0; k < queue_count; k++) {
		int is_led_to = 0;
		for (int other = 0; other < queue_count; other++)
			is_led_to |= queues[other]->q_next == queues[k];
		for (queue_t *q = is_led_to ? NULL : queues[k]; q; q = q->q_next)
			in_order[count++] = q;
	}
	fprintf(out, "h pool 1 %u\n", ddi_config.mblks);
	for (size_t c = 0; c < ddi_config.class_count; c++)
		fprintf(out, "h class %u %u\n", ddi_config.classes[c].size, ddi_config.classes[c].count);
	for (int k = 0; k < queue_count; k++) {
		const queue_t *q = in_order[k];
		fprintf(out, q->q_next ? "h queue %u %u %c %d\n" : "h queue %u %u %c -\n", q->q_layer->marks.hiwat, q->q_layer->marks.lowat,
			q->q_qinfo->qi_srvp ? 's' : 'n', index_of(q->q_next, in_order));
	}
	fprintf(out, "h bufcalls %u 1\n", ddi_config.bufcalls);
	for (int k = 0; k < queue_count; k++)
		fprintf(out, "#: queue %d %s %s\n", k, label_of(in_order[k]), ddi_side(in_order[k]));
	for (int k = 0; k < queue_count; k += 2)
		fprintf(out, "#: module %s %d %d\n", label_of(queues[k]), index_of(queues[k + 1], in_order), index_of(queues[k], in_order));
}

/* Writes the report of the pool. Its lines on queues are of those in the trace. */
static void write_report(FILE *out)
{
	static char text[200 << 10];
	const struct strm_pool *pool = &ddi_pools[0].pool;
	const char *line = text, *end;
	uint32_t number;
	int count = 0;
	strm_report(pool, text, sizeof text);
	for (; *line != 'q'; line = end + 1) {
		end = strchr(line, '\n');
		fprintf(out, "r %.*s\n", (int)(end - line), line);
	}
	for (int k = 0; k < queue_count; k++) {
		const queue_t *q = in_order[k];
		struct strm_queue_info info = { .read = 1 };
		struct strm_band_info band;
		int has_service = q->q_qinfo->qi_srvp != NULL;
		if (q->q_layer->pool)
			strm_queue_info(pool, q->q_layer->number, &info);
		fprintf(out, "r queue %d msgs=%u bytes=%u read=%u noenable=%d enabled=%d\n", k, info.msgs, info.bytes, info.read,
			has_service && info.noenable, has_service && info.enabled);
		for (uint32_t b = STRM_BANDS; info.msgs > 0 && b-- > 0;)
			if (strm_band_info(pool, q->q_layer->number, b, &band) == STRM_OK && band.bytes > 0)
				fprintf(out, "r band %u bytes=%u full=%u wanted=%u\n", b, band.bytes, band.full, band.wanted);
	}
	fputs("r run", out);
	for (uint32_t at = 0; strm_run_at(pool, at, &number) == STRM_OK; at++) {
		const queue_t *q = ddi_pools[0].queues[number];
		if (q && q->q_qinfo->qi_srvp && count++ >= 0)
			fprintf(out, " %d", index_of(q, in_order));
	}
	fprintf(out, "%s\nr %s", count > 0 ? "" : " -", strstr(line, "wishes"));
}

void ddi_trace_close(void)
{
	FILE *body = ddi_traced, *out;
	int c;
	if (!body)
		return;
	if ((out = fopen(getenv("STRM_DDI_TRACE"), "w")) != NULL) {
		ddi_trace_begin();
		write_header(out);
		rewind(body);
		while ((c = getc(body)) != EOF)
			if (c == QUEUE_NEXT)
				fprintf(out, "%d", index_of(queues[getc(body) - 'a'], in_order));
			else
				putc(c, out);
		write_report(out);
		fclose(out);
	}
	fclose(body);
	free(told);
	ddi_traced = NULL;
}
