/* For testing modules in user space; tested, not proved. Reports of misuse: what a call found, where, and the last calls with the message. */
#include "ddi.h"

#include <signal.h>

const struct strm_ddi_place ddi_at_head = { "the stream head", 0 }, *strm_ddi_at = &ddi_at_head;
static int count;
const struct module_info ddi_free_block, ddi_queued_block;

static const char *name_of(const struct module_info *module)
{
	return module ? module->mi_idname : "the test";
}

const char *ddi_module(const queue_t *q)
{
	return name_of(q ? q->q_qinfo->qi_minfo : NULL);
}

const char *ddi_side(const queue_t *q)
{
	return !q ? "" : q->q_flag & QREADR ? "read" : "write";
}

static void print_event(struct event event)
{
	fprintf(stderr, "    %-10s %s:%d, in %s%s%s\n", event.routine, event.at->file, event.at->line, name_of(event.by.module),
		event.by.procedure[0] ? " " : "", event.by.procedure);
}

/* Prints the last calls with a message but for the last one or none. */
static void print_history(const struct block *b, int left_out)
{
	for (uint32_t k = b->event_count > MOST_EVENTS ? b->event_count - MOST_EVENTS : 0; k + (uint32_t)left_out < b->event_count; k++)
		print_event(b->events[k % MOST_EVENTS]);
}

static int goes_on(void)
{
	const char *way = getenv("STRM_DDI");
	return way && strcmp(way, "report") == 0;
}

void ddi_misuse(const char *routine, const struct block *b, const char *format, ...)
{
	struct event now = ddi_event(routine ? routine : ddi_noted(b));
	va_list values;
	count++;
	fprintf(stderr, "strm_ddi: %s: ", now.routine);
	va_start(values, format);
	vfprintf(stderr, format, values);
	va_end(values);
	fputc('\n', stderr);
	print_event(now);
	if (b) {
		fprintf(stderr, "  message block %td before:\n", b - ddi_blocks);
		print_history(b, !routine);
	}
	if (!goes_on()) {
		ddi_trace_close();
		abort();
	}
}

/* Reports the messages that are left. Returns how many reports there were. */
int ddi_census(void)
{
	int reported = count;
	for (const struct block *b = ddi_blocks; b < ddi_blocks_end; b++)
		if (ddi_is_held(b)) {
			count++;
			fprintf(stderr, "strm_ddi: message block %td is left, %s of %td bytes:\n", b - ddi_blocks,
				ddi_type_name(b->m.b_datap->db_type), MBLKL(&b->m));
			print_history(b, 0);
		}
	if (count > reported && !goes_on())
		abort();
	reported = count;
	count = 0;
	return reported;
}

/* A module that follows a pointer of a freed block faults. */
static void faulted(int number)
{
	signal(number, SIG_DFL);
	fprintf(stderr, "strm_ddi: a fault in %s %s %s: perhaps by a pointer of a message block that was freed. The call before:\n",
		name_of(ddi_frame->as.module), ddi_side(ddi_frame->q), ddi_frame->as.procedure);
	print_event(ddi_event(""));
	raise(number);
}

void ddi_catch_faults(void)
{
	struct sigaction before;
	if (sigaction(SIGSEGV, NULL, &before) == 0 && before.sa_handler == SIG_DFL)
		signal(SIGSEGV, faulted);
}
