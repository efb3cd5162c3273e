#include "calls.h"

#include <ctype.h>
#include <string.h>

#define CALL_FORM(verb, call, letters, arguments, weight, answers) { #verb, #call, letters, #arguments, 0, weight, answers },
#define LOOK_FORM(verb, call, letters, arguments, weight, answers) { #verb, #call, letters, #arguments, 1, weight, answers },
const struct form forms[VERBS] = { CALLS(CALL_FORM, LOOK_FORM) };

#define WORD(kind, word, numbers) word,
static const char *const words[KINDS_OF_REPLY] = { KINDS(WORD) };

#define NUMBERS(kind, word, numbers) numbers,
const int numbers_of[KINDS_OF_REPLY] = { KINDS(NUMBERS) };

static const char *const types[STRM_TYPES] = {
	"M_DATA", "M_PROTO", "M_BREAK", "M_PASSFP", "M_SIG", "M_DELAY", "M_CTL", "M_IOCTL", "M_SETOPTS", "M_IOCACK", "M_IOCNAK",
	"M_PCPROTO", "M_PCSIG", "M_READ", "M_FLUSH", "M_STOP", "M_START", "M_HANGUP", "M_ERROR", "M_COPYIN", "M_COPYOUT", "M_IOCDATA"
};

/* The names of refusals by number, as the program prints them. */
static const char *const refusals[] = {
	"", "TooLarge", "NoMblk", "NoData", "RefMax", "NoSuchBlock", "Shared", "NoRoom", "Short", "NoSuchPlace", "BadOrder",
	"NoSuchQueue", "Full", "IdsSpent", "NotPending", "", "", "", "", "", "BadMarks"
};

struct reply reply_of(enum kind kind)
{
	struct reply reply;

	memset(&reply, 0, sizeof reply);
	reply.kind = kind;
	return reply;
}

struct reply told(enum kind kind, uint32_t first, uint32_t second)
{
	struct reply reply = reply_of(kind);

	reply.numbers[0] = first;
	reply.numbers[1] = second;
	return reply;
}

struct reply refused(int code)
{
	return told(REFUSED, (uint32_t)code, 0);
}

int same_reply(const struct reply *a, const struct reply *b)
{
	return a->kind == b->kind && memcmp(a->numbers, b->numbers, sizeof a->numbers) == 0
		&& memcmp(a->octets, b->octets, sizeof a->octets) == 0;
}

struct reply told_from(enum kind kind, const void *numbers)
{
	struct reply reply = reply_of(kind);

	memcpy(reply.numbers, numbers, (size_t)numbers_of[kind] * sizeof reply.numbers[0]);
	return reply;
}

int names(int verb, const char *letters)
{
	return strpbrk(forms[verb].letters, letters) != NULL;
}

int has_argument(int verb, const char *text)
{
	return strstr(forms[verb].arguments, text) != NULL;
}

int gives_address(int verb)
{
	return has_argument(verb, "uint8_t *)");
}

enum kind kind_of(int verb)
{
	int kind = TOLD_SIZE;

	if (forms[verb].answers & IS(YES))
		return YES;
	while (kind < REFUSED && (forms[verb].answers & IS(kind)) == 0)
		kind++;
	return kind < REFUSED ? (enum kind)kind : DONE;
}

void store_in(struct arguments *a, struct results *results)
{
	memset(results, UNTOUCHED, sizeof *results);
	a->y = &results->y;
	a->rest = &results->rest;
	a->msgs = results->msgs;
	a->out = &results->out;
	a->done = &results->done;
	a->stride = &results->stride;
}

/* Each row makes its call, or none. */
#define MADE(verb, call, letters, arguments, weight, answers) case verb: return strm_##call arguments;
#define NOT_MADE(verb, call, letters, arguments, weight, answers)

int look_made(const struct call *c, const struct strm_pool *pool, const struct arguments *a)
{
	switch (c->verb) {
	CALLS(NOT_MADE, MADE)
	default: return STRM_BAD_ARGUMENT;
	}
}

int call_made(const struct call *c, struct strm_pool *pool, struct strm_pool *other, const struct arguments *a)
{
	switch (c->verb) {
	CALLS(MADE, NOT_MADE)
	default: return look_made(c, pool, a);
	}
}

void print_header(FILE *to, const struct strm_config *config)
{
	size_t i;

	fprintf(to, "pool %lu %lu\n", (unsigned long)config->id, (unsigned long)config->mblks);
	for (i = 0; i < config->class_count; i++)
		fprintf(to, "class %lu %lu\n", (unsigned long)config->classes[i].size, (unsigned long)config->classes[i].count);
	for (i = 0; i < config->queue_count; i++) {
		fprintf(to, "queue %lu %lu %c ", (unsigned long)config->queues[i].hiwat, (unsigned long)config->queues[i].lowat,
			config->queues[i].service != 0 ? 's' : 'n');
		if (config->queues[i].next == STRM_NO_QUEUE)
			fprintf(to, "-\n");
		else
			fprintf(to, "%lu\n", (unsigned long)config->queues[i].next);
	}
	fprintf(to, "bufcalls %lu %lu\nworker\n", (unsigned long)config->bufcalls, (unsigned long)config->first_id);
}

static void print_octets(FILE *to, const uint8_t *octets, uint32_t length)
{
	uint32_t i;

	if (length == 0)
		fprintf(to, " -");
	else
		fprintf(to, " ");
	for (i = 0; i < length; i++)
		fprintf(to, "%02x", (unsigned)octets[i]);
}

static void print_many(FILE *to, const struct call *call)
{
	uint32_t i;

	for (i = 0; i < call->items; i++)
		fprintf(to, " %c", 'a' + call->many[i]);
}

static void print_shapes(FILE *to, const struct call *call)
{
	const struct strm_block_shape *shape;

	for (shape = call->shapes; shape < call->shapes + call->items; shape++)
		fprintf(to, " %lu+%lu:%s:%lu", (unsigned long)shape->at, (unsigned long)shape->length, types[shape->type], (unsigned long)shape->band);
}

void print_call(FILE *to, const struct call *call)
{
	const char *at;

	for (at = forms[call->verb].verb; *at != 0; at++)
		fputc(tolower(*at), to);
	for (at = forms[call->verb].letters; *at != 0; at++)
		switch (*at) {
		case 'x': case 'X': case 'v': fprintf(to, " %c", 'a' + call->x); break;
		case 'y': case 'w': fprintf(to, " %c", 'a' + call->y); break;
		case 'Z': fprintf(to, " %c", 'a' + call->z); break;
		case 'g': case 'p': print_many(to, call); break;
		case 'j': print_shapes(to, call); break;
		case 'i': fprintf(to, " %lu", (unsigned long)call->items); break;
		case 'q': fprintf(to, " %lu", (unsigned long)call->queue); break;
		case 'k': fprintf(to, " %lu", (unsigned long)call->place); break;
		case 'b': fprintf(to, " %lu", (unsigned long)call->band); break;
		case 's': fprintf(to, " %ld", (long)call->count); break;
		case 't': fprintf(to, " %s", types[call->type]); break;
		case 'f': fprintf(to, " %s", call->flush == STRM_FLUSHALL ? "all" : "data"); break;
		case 'h': fprintf(to, " %lu", (unsigned long)call->hiwat); break;
		case 'l': fprintf(to, " %lu", (unsigned long)call->lowat); break;
		case 'o': case 'u': print_octets(to, call->octets, call->length); break;
		default: fprintf(to, " %lu", (unsigned long)call->number); break;
		}
	fprintf(to, "\n");
}

void print_reply(FILE *to, const struct reply *reply)
{
	int i;

	fprintf(to, "%s", words[reply->kind]);
	if (reply->kind == TOLD_BLOCK)
		fprintf(to, " %s len=%lu band=%lu room=%lu names=%lu", types[reply->numbers[0]], (unsigned long)reply->numbers[1],
			(unsigned long)reply->numbers[2], (unsigned long)reply->numbers[3], (unsigned long)reply->numbers[4]);
	else
		for (i = 0; i < numbers_of[reply->kind]; i++)
			fprintf(to, " %lu", (unsigned long)reply->numbers[i]);
	if (reply->kind == REFUSED)
		fprintf(to, " %s", refusals[reply->numbers[0]]);
	if (reply->kind == TOLD_BYTES)
		print_octets(to, reply->octets, reply->numbers[0]);
	fprintf(to, "\n");
}
