/*
 * libstrm_trace.so: the calls of strm.h, each with a line in a trace (strm-trace(1)). Tested, not proved. It has the whole library inside, so it
 * is preloaded, or linked instead of libstrm. Wrappers come from the tables of calls, and know by its type what an argument is. A lock puts
 * the lines of threads in the order of their calls on a pool, since these hold the caller's own lock until the call returns.
 *
 * A call adds a record of its arguments and results to a ring, of which two other processes, the writers, make lines. So no record is lost if the
 * program is killed, and a call waits only for a full ring. Writers are children that only the library waits for. Terminals and pipes get each
 * line before its call returns.
 */
#define _GNU_SOURCE
#include "trace.h"
#include "strm_trace.h"
#undef strm_trace_label

#include <errno.h>
#include <fcntl.h>
#include <linux/futex.h>
#include <pthread.h>
#include <sched.h>
#include <signal.h>
#include <stdarg.h>
#include <stdatomic.h>
#include <stdio.h>
#include <stdlib.h>
#include <string.h>
#include <sys/file.h>
#include <sys/mman.h>
#include <sys/stat.h>
#include <sys/syscall.h>
#include <sys/wait.h>
#include <time.h>
#include <unistd.h>

/* The chunks of the ring, the words of each, those that two records have at most, and those after which the clock is read again. */
#define CHUNKS 16u
#define CHUNK 8191u
#define MOST_RECORD 512u
#define MOST_SAME 64u
#define WRITERS 2u
/* How long a process waits until it looks again, in milliseconds, and how often a writer does so until it takes the other one for dead. */
#define PATIENCE 4
#define MOST_LOOKS 1000
#ifndef SYS_close_range
#define SYS_close_range 436
#endif
/* How much of an array and of bytes is shown. */
#define MOST_ITEMS 16
#define MOST_BYTES 32

#define LIKELY(x) __builtin_expect(!!(x), 1)
/* A function that each call has in its own code, where it knows what the arguments are. */
#define PER_CALL static inline __attribute__((always_inline))

static _Atomic enum { UNKNOWN, OFF, TEXT, LABELLED, SCRIPT } mode;
static struct output text_out;
/* The open pools, and the one that was called last. */
static struct traced *pools, none, *last = &none;
static unsigned pool_count;
static struct timespec started;
static atomic_flag is_taken = ATOMIC_FLAG_INIT;
static __thread unsigned thread __attribute__((tls_model("initial-exec")));

/* Whether the process never had another thread, where libc says so. */
extern char __libc_single_threaded __attribute__((weak));

static inline void take_lock(void)
{
	if (&__libc_single_threaded && __libc_single_threaded)
		return;
	while (atomic_flag_test_and_set_explicit(&is_taken, memory_order_acquire))
		sched_yield();
}

static inline void leave_lock(void)
{
	atomic_flag_clear_explicit(&is_taken, memory_order_release);
}

static int has_text(void)
{
	return mode == TEXT || mode == LABELLED;
}

/* ---- outputs */

/* No more is traced. */
static void give_up(const char *why)
{
	int kept = errno;

	dprintf(2, "libstrm_trace: %s: %s; no more is traced\n", why, strerror(kept));
	mode = OFF;
}

/*
 * Opens what STRM_TRACE_TO names, or standard error: a descriptor, a device, or a new file, which is locked while lines may come. Files after
 * the first have a number. Returns whether it is open.
 */
static int open_output(struct output *out, unsigned number)
{
	const char *to = getenv("STRM_TRACE_TO");
	char path[4096];
	struct stat is;

	if (!to || !*to || to[strspn(to, "0123456789")] == 0) {
		out->fd = to && *to ? atoi(to) : 2;
		out->is_late = fstat(out->fd, &is) == 0 && S_ISCHR(is.st_mode) && !isatty(out->fd);
		return out->is_open = number == 1;
	}
	snprintf(path, sizeof path - 16, number > 1 ? "%s.%u" : "%s", to, number);
	out->fd = open(path, O_WRONLY | O_CREAT | O_EXCL | O_CLOEXEC, 0666);
	if (out->fd < 0 && errno == EEXIST && stat(path, &is) == 0 && !S_ISREG(is.st_mode)) {
		out->fd = open(path, O_WRONLY | O_CLOEXEC);
	} else if (out->fd < 0 && errno == EEXIST && number == 1) {
		/* another process has it, or another run had */
		sprintf(path + strlen(path), ".%ld", (long)getpid());
		out->fd = open(path, O_WRONLY | O_CREAT | O_EXCL | O_CLOEXEC, 0666);
	}
	if (out->fd < 0 || fstat(out->fd, &is) != 0) {
		give_up(path);
		return 0;
	}
	out->is_file = S_ISREG(is.st_mode) && flock(out->fd, LOCK_EX | LOCK_NB) == 0;
	out->is_late = out->is_file || (S_ISCHR(is.st_mode) && !isatty(out->fd));
	return out->is_open = 1;
}

static int is_writer;
static void wait_for_turn(void), end_writer(void);

static void write_lines(struct output *out)
{
	size_t done = 0;
	ssize_t part;

	if (is_writer)
		wait_for_turn();
	while (done < out->used && mode != OFF) {
		part = write(out->fd, out->lines + done, out->used - done);
		if (part < 0 && errno != EINTR)
			is_writer ? end_writer() : give_up("the trace");
		done += part < 0 ? 0 : (size_t)part;
	}
	out->used = 0;
}

static void close_output(struct output *out)
{
	if (out->is_file)
		close(out->fd);
	out->is_open = 0;
	out->used = 0;
}

void strm_trace_print(struct output *out, const char *format, ...)
{
	va_list values;

	if (!out->is_open)
		return;
	va_start(values, format);
	out->used += (size_t)vsnprintf(out->lines + out->used, MOST_LINE, format, values);
	va_end(values);
	if (out->used > sizeof out->lines - 2 * MOST_LINE)
		write_lines(out);
}

void strm_trace_hex(struct output *out, const uint8_t *bytes, size_t length)
{
	size_t place;

	for (place = 0; out->is_open && place < length; place++) {
		out->lines[out->used++] = "0123456789abcdef"[bytes[place] >> 4];
		out->lines[out->used++] = "0123456789abcdef"[bytes[place] & 15];
	}
}

/* ---- records and their writers */

/*
 * A record: what makes text of it and returns where it ends, what the call returned, the number of its pool, and values. Of a message these are head
 * and stamp, and the label, whose length is beside the head; of bytes or an array the number, and what is shown.
 */
typedef const struct record *teller(const struct record *record, char **at);
struct record {
	teller *tell;
	int code;
	uint32_t pool;
	uint64_t values[];
};

/* Records, how many words they have, and how many have lines that are written. */
struct chunk {
	_Atomic uint32_t used, told;
	uint64_t words[CHUNK];
};

/*
 * The process that traces adds to the chunk after those that are `filled`. Each writer makes the lines of every second chunk, and writes them when
 * those before are `written`. `wanted` is how many must be, for a call that waits for room. After `limit` words, or whenever a writer looked, a call
 * looks at the clock and at the room.
 */
static struct ring {
	_Atomic uint32_t filled, is_closed, has_failed, written, wanted, limit __attribute__((aligned(64)));
	struct chunk chunks[CHUNKS] __attribute__((aligned(64)));
} *ring;
static struct chunk *current;
/* The thread and the time of the lines that follow. */
static unsigned prefixed = -1u;
static struct timespec then;
static pid_t writers[WRITERS];
/* The chunk whose lines this process makes. */
static uint32_t turn = -1u;

/* Who waits for a word of the ring. */
enum { A_WRITER = 1, A_CALL = 2 };

static void wait_for(_Atomic uint32_t *word, uint32_t value, int who)
{
	struct timespec until;

	clock_gettime(CLOCK_MONOTONIC, &until);
	until.tv_nsec += PATIENCE * 1000000;
	until.tv_sec += until.tv_nsec / 1000000000;
	until.tv_nsec %= 1000000000;
	syscall(SYS_futex, word, FUTEX_WAIT_BITSET, value, &until, NULL, who);
}

static void wake(_Atomic uint32_t *word, int who)
{
	syscall(SYS_futex, word, FUTEX_WAKE_BITSET, WRITERS, NULL, NULL, who);
}

/* Writes the lines of the records that are in a chunk. Returns whether it is filled. Makes the lines of another writer again, but does not write them. */
static int write_chunk(uint32_t number)
{
	struct chunk *chunk = &ring->chunks[number % CHUNKS];
	uint32_t filled = ring->filled, used = atomic_load_explicit(&chunk->used, memory_order_acquire);
	const uint64_t *told = chunk->words + chunk->told, *at = turn == number ? told : chunk->words;
	char *line;

	for (turn = number; at != chunk->words + used; text_out.used = at > told ? (size_t)(line - text_out.lines) : 0) {
		if (text_out.used > sizeof text_out.lines - MOST_LINE)
			write_lines(&text_out);
		line = text_out.lines + text_out.used;
		at = (const uint64_t *)((const struct record *)at)->tell((const struct record *)at, &line);
	}
	write_lines(&text_out);
	chunk->told = used;
	ring->limit = 0;
	if (number == filled)
		return 0;
	ring->written = number + 1;
	wake(&ring->written, number + 1 == ring->wanted ? A_WRITER | A_CALL : A_WRITER);
	return 1;
}

static void end_writer(void)
{
	ring->has_failed = 1;
	_exit(1);
}

/* Waits until the lines before are written. If that is long, the other writer is not there. */
static void wait_for_turn(void)
{
	uint32_t written, looks;

	for (looks = 0; written = ring->written, written != turn; looks++) {
		if (ring->has_failed || looks == MOST_LOOKS)
			end_writer();
		wait_for(&ring->written, written, A_WRITER);
	}
}

/* What a writer does, until the process that traces has ended, by a signal or itself. It keeps nothing of that open but the output. */
static void be_writer(pid_t owner, uint32_t number)
{
	uint32_t filled, is_last;

	is_writer = 1;
	pthread_setcancelstate(PTHREAD_CANCEL_DISABLE, NULL);
	setsid();
	if (dup2(text_out.fd, 0) == 0 && syscall(SYS_close_range, 1u, ~0u, 0u) != 0)
		for (text_out.fd = 1; text_out.fd < 1024; text_out.fd++)
			close(text_out.fd);
	text_out.fd = 0;
	do {
		is_last = ring->is_closed || getppid() != owner;
		filled = ring->filled;
		while ((int32_t)(ring->filled - number) >= 0 && write_chunk(number))
			number += WRITERS;
		if (!is_last)
			wait_for(&ring->filled, filled, A_WRITER);
	} while (!is_last);
	_exit(0);
}

/* Whether a writer has ended. Before the trace does, one ends by a signal or since it cannot write. The call of libc could end a thread. */
static int has_ended(int options)
{
	uint32_t number;
	int has = 0;
	long ended;

	for (number = 0; number < WRITERS; number++) {
		do
			ended = writers[number] > 0 ? syscall(SYS_wait4, writers[number], NULL, options | __WCLONE, NULL) : writers[number];
		while (writers[number] > 0 && ended < 0 && errno == EINTR);
		if (ended != 0) {
			writers[number] = 0;
			has = 1;
		}
	}
	return has;
}

/* Lines are written by the calls themselves from now on. */
static void write_alone(void)
{
	uint32_t number;

	for (number = 0; number < WRITERS; number++)
		if (writers[number] > 0)
			kill(writers[number], SIGKILL);
	has_ended(0);
	text_out.is_late = 0;
	while (write_chunk(ring->written))
		;
}

/* Starts the writers, with all signals blocked. */
static void start_writers(void)
{
	sigset_t all, before;
	pid_t owner = getpid();
	uint32_t number;

	sigfillset(&all);
	pthread_sigmask(SIG_SETMASK, &all, &before);
	for (number = 0; number < WRITERS; number++) {
		writers[number] = (pid_t)syscall(SYS_clone, 0, 0, 0, 0, 0);
		if (writers[number] == 0)
			be_writer(owner, number);
	}
	pthread_sigmask(SIG_SETMASK, &before, NULL);
	if (has_ended(WNOHANG))
		write_alone();
}

static int begin_writing(void)
{
	if (!open_output(&text_out, 1))
		return 0;
	ring = mmap(NULL, sizeof *ring, PROT_READ | PROT_WRITE, MAP_SHARED | MAP_ANONYMOUS, -1, 0);
	if (ring == MAP_FAILED) {
		give_up("a ring");
		return 0;
	}
	current = ring->chunks;
	if (text_out.is_late)
		start_writers();
	return 1;
}

/* Goes on to the next chunk, if need be after a wait. */
static void fill_next(void)
{
	uint32_t filled = ring->filled, written;

	while (written = ring->written, text_out.is_late && filled + 1 - written == CHUNKS) {
		ring->wanted = filled + 1 - CHUNKS / 2;
		wait_for(&ring->written, written, A_CALL);
		if (has_ended(WNOHANG))
			write_alone();
	}
	current = &ring->chunks[(filled + 1) % CHUNKS];
	current->used = current->told = 0;
	ring->filled = filled + 1;
	prefixed = -1u;
	if (filled + 1 - written == CHUNKS / 2)
		wake(&ring->filled, A_WRITER);
}

static void end_writing(void)
{
	ring->is_closed = 1;
	fill_next();
	wake(&ring->filled, A_WRITER);
	has_ended(0);
	write_alone();
	close_output(&text_out);
}

/* A record was added, up to here. */
static inline void end_record(const uint64_t *end)
{
	atomic_store_explicit(&current->used, (uint32_t)(end - current->words), memory_order_release);
	if (!text_out.is_late)
		write_chunk(ring->filled);
}

/* ---- numbers and bytes */

/* Of each number below 1,000 three digits, and how many it needs; and of each byte how it is shown. */
static char digits[4 * 1000 + 4], escapes[256][8];

static int is_plain(int byte)
{
	return byte >= ' ' && byte < 127 && byte != '"' && byte != '\\';
}

static void fill_tables(void)
{
	char text[8];
	int at;

	for (at = 0; at < 1000; at++) {
		snprintf(text, sizeof text, "%03d", at);
		memcpy(digits + 4 * at, text, 3);
		digits[4 * at + 3] = (char)(1 + (at > 9) + (at > 99));
	}
	for (at = 0; at < 256; at++)
		snprintf(escapes[at], sizeof escapes[at], is_plain(at) ? "%c" : "\\x%02x", at);
}

static __attribute__((noinline)) char *add_great(char *at, uint64_t number);

/* Text may be written after the digits as well, which what follows overwrites. */
static inline char *add_number(char *at, uint64_t number)
{
	const char *of = digits + 4 * number;

	if (number >= 1000)
		return add_great(at, number);
	memcpy(at, of + 3 - of[3], 4);
	return at + of[3];
}

static char *add_great(char *at, uint64_t number)
{
	at = add_number(at, number / 1000);
	memcpy(at, digits + 4 * (number % 1000), 4);
	return at + 3;
}

/* ---- pools */

unsigned strm_trace_thread(void)
{
	if (thread == 0)
		thread = (unsigned)syscall(SYS_gettid);
	return thread;
}

__attribute__((noinline)) struct traced *strm_traced(const struct strm_pool *pool)
{
	struct traced *traced;

	if (pool == NULL || pool->state != STRM_POOL_OPEN)
		return NULL;
	for (traced = pools; traced != NULL && traced->pool.at != pool->at; traced = traced->after)
		;
	last = traced ? traced : last;
	return traced;
}

/* The same, at once for the pool that was called last. */
static inline struct traced *traced_of(const struct strm_pool *pool)
{
	return LIKELY(pool && pool->at == last->pool.at && pool->state == STRM_POOL_OPEN) ? last : strm_traced(pool);
}

static void begin_trace(void)
{
	const char *wanted = getenv("STRM_TRACE"), *begun = getenv("STRM_TRACE_BEGUN");
	int fd = begun ? open(begun, O_WRONLY | O_CREAT | O_CLOEXEC, 0666) : -1;

	if (fd >= 0)
		close(fd);
	mode = wanted && strcmp(wanted, "script") == 0 ? SCRIPT : TEXT;
	fill_tables();
	clock_gettime(CLOCK_MONOTONIC_COARSE, &started);
	if (mode == TEXT && !begin_writing())
		mode = OFF;
}

/* A pool was opened. */
static void add_pool(const struct strm_pool *pool, const struct strm_config *config)
{
	struct traced *traced = calloc(1, sizeof *traced);

	if (traced == NULL) {
		give_up("a pool");
		return;
	}
	traced->pool = *pool;
	traced->number = ++pool_count;
	traced->mblks = config->mblks;
	traced->classes = (uint32_t)config->class_count;
	traced->queues = (uint32_t)config->queue_count;
	traced->after = pools;
	pools = traced;
	if (mode == SCRIPT && open_output(&traced->out, traced->number))
		strm_script_begin(traced, config);
}

static void end_script(struct traced *traced)
{
	if (traced->is_recorded)
		strm_script_end(traced, NULL);
	write_lines(&traced->out);
	close_output(&traced->out);
}

/* The lines of a call, which may be on two pools, are written together. */
static void write_scripts(void)
{
	struct traced *traced;

	for (traced = pools; mode == SCRIPT && traced != NULL; traced = traced->after)
		write_lines(&traced->out);
}

static void remove_pool(struct traced *traced)
{
	struct traced **at = &pools;

	while (*at != traced)
		at = &(*at)->after;
	*at = traced->after;
	last = &none;
}

static void free_pool(struct traced *traced)
{
	free(traced->labels);
	free(traced->first);
	free(traced->next);
	free(traced->unused);
	free(traced->places);
	free(traced);
}

/* Of two processes after a fork, only the older one has a trace. */
static void is_child(void)
{
	struct traced *traced;

	if (has_text())
		close_output(&text_out);
	for (traced = pools; mode == SCRIPT && traced != NULL; traced = traced->after)
		close_output(&traced->out);
	mode = OFF;
	atomic_flag_clear(&is_taken);
}

__attribute__((constructor)) static void begin(void)
{
	pthread_atfork(NULL, NULL, is_child);
}

__attribute__((destructor)) static void end(void)
{
	struct traced *traced;

	take_lock();
	if (has_text())
		end_writing();
	for (traced = pools; mode == SCRIPT && traced != NULL; traced = traced->after)
		end_script(traced);
	mode = OFF;
	leave_lock();
}

/* ---- what calls have */

/* Instead of the number of a message's first block, or of the items of an array. */
#define NO_MSG UINT32_MAX
#define NO_ARRAY UINT64_MAX

/* Whether a call counts what it stores in an array, and where. */
PER_CALL int counts(const struct traced_call *call)
{
	uint32_t last = call->count - 1;

	return last > 1 && call->forms[last].kind == OUT_LENGTH && call->forms[last - 1].kind == LENGTH;
}

PER_CALL const size_t *count_of(const struct traced_call *call, const union value *values)
{
	return counts(call) ? values[call->count - 1].at : NULL;
}

PER_CALL int is_array(const struct traced_call *call, uint32_t place)
{
	enum kind kind = call->forms[place].kind;

	return kind == IN_MSGS || kind == IN_FIELDS || (counts(call) && (kind == OUT_MSG || kind == OUT_IOV || kind == OUT_FIELDS));
}

PER_CALL int is_msg(const struct form *form)
{
	return form->kind == MSG || form->kind == IN_MSGS || form->kind == OUT_MSG;
}

/* The pool of a call's results: that of strm_transfer is its second. */
static inline struct traced *pool_of_results(const struct traced_call *call, const union value *values)
{
	return traced_of(values[call->count > 1 && call->forms[1].kind == CALLED].at);
}

/* ---- lines of text */

static char *add_text(char *at, const char *text)
{
	while (*text)
		*at++ = *text++;
	return at;
}

static __attribute__((noinline)) char *add_label(char *at, const uint64_t **from, size_t length)
{
	*at++ = '\'';
	memcpy(at, *from, length);
	*from += (length + 7) / 8;
	at[length] = '\'';
	return at + length + 1;
}

/* A message: the number of the first block, how many names with it there were, and the label. */
PER_CALL char *add_msg(char *at, const uint64_t **from)
{
	uint64_t head = (*from)[0], stamp = (*from)[1];

	*from += 2;
	if (head == NO_MSG) {
		memcpy(at, "none", 4);
		return at + 4;
	}
	at = add_number(at, (uint32_t)head);
	*at++ = '.';
	at = add_number(at, stamp);
	return head >> 32 ? add_label(at, from, head >> 32) : at;
}

/* Bytes that are compared at once. */
typedef unsigned char sixteen __attribute__((vector_size(16)));

static int are_plain(const uint8_t *bytes)
{
	sixteen all;
	uint64_t half[2];

	memcpy(&all, bytes, sizeof all);
	all = (sixteen)((all >= ' ') & (all < 127) & (all != '"') & (all != '\\'));
	memcpy(half, &all, sizeof half);
	return (half[0] & half[1]) + 1 == 0;
}

static char *add_bytes(char *at, const uint64_t **from)
{
	uint64_t length = *(*from)++;
	size_t place = 0, most = length < MOST_BYTES ? length : MOST_BYTES;
	const uint8_t *bytes = (const uint8_t *)*from;

	if (length == NO_ARRAY)
		return add_text(at, "null");
	*from += (most + 7) / 8;
	*at++ = '"';
	for (; place + 16 <= most && are_plain(bytes + place); place += 16, at += 16)
		memcpy(at, bytes + place, 16);
	for (; place < most; place++) {
		memcpy(at, escapes[bytes[place]], 4);
		at += escapes[bytes[place]][1] ? 4 : 1;
	}
	*at++ = '"';
	return most < length ? add_text(at, "..") : at;
}

static char *add_address(char *at, uint64_t address)
{
	int shift = address ? 60 - __builtin_clzll(address) / 4 * 4 : 0;

	memcpy(at, "0x", 2);
	for (at += 2; shift >= 0; shift -= 4)
		*at++ = "0123456789abcdef"[address >> shift & 15];
	return at;
}

/* Fields of 32 bits, each after its name if it has one. A field without a name is the only one. */
static char *add_fields(char *at, const struct form *form, const uint32_t *fields)
{
	const char *name = form->names;
	uint32_t place;

	if (form->fields == 1)
		return add_number(at, fields[0]);
	*at++ = '{';
	for (place = 0; place < form->fields; place++) {
		if (place > 0)
			*at++ = ' ';
		if (*name) {
			while (*name && *name != ' ')
				*at++ = *name++;
			name += *name == ' ';
			*at++ = '=';
		}
		at = add_number(at, fields[place]);
	}
	*at++ = '}';
	return at;
}

/* An argument or a result, or an item of an array. */
PER_CALL char *add_item(char *at, const struct form *form, const uint64_t **from)
{
	const uint64_t *item = *from;

	if (is_msg(form))
		return add_msg(at, from);
	*from += form->fields > 2 ? (form->fields + 1) / 2 : 1;
	if (form->kind == IN_FIELDS || form->kind == OUT_FIELDS)
		return add_fields(at, form, (const uint32_t *)item);
	if (form->kind == OUT_ADDRESS)
		return add_address(at, *item);
	if (form->kind == SIGNED && (int64_t)*item < 0) {
		*at++ = '-';
		return add_number(at, -*item);
	}
	return add_number(at, item[form->kind == OUT_IOV]);
}

static __attribute__((noinline)) char *add_items(char *at, const struct form *form, const uint64_t **from)
{
	uint64_t count = *(*from)++, item;

	if (count == NO_ARRAY)
		return add_text(at, "null");
	*at++ = '[';
	for (item = 0; item < count && item < MOST_ITEMS; item++) {
		if (item > 0)
			*at++ = ' ';
		at = add_item(at, form, from);
	}
	if (item < count)
		at = add_text(at, " ..");
	*at++ = ']';
	return at;
}

static inline char *add_handle(char *at, uint64_t number)
{
	memcpy(at, "pool -", 6);
	return number ? add_number(at + 5, number) : at + 6;
}

PER_CALL char *add_value(char *at, const struct form *form, const uint64_t **from, int is_array)
{
	if (form->kind == CALLED || form->kind == SEEN)
		return add_handle(at, *(*from)++);
	if (form->kind == IN_BYTES || form->kind == OUT_BYTES)
		return add_bytes(at, from);
	return is_array ? add_items(at, form, from) : add_item(at, form, from);
}

/* A line's beginning: the time since the first pool was opened, and the thread. */
static char prefix[48];
static size_t prefix_length;

static const struct record *set_prefix(const struct record *record, char **at)
{
	unsigned long milliseconds = record->values[0];

	(void)at;
	prefix_length = (size_t)sprintf(prefix, "%lu.%03lu %u ", milliseconds / 1000, milliseconds % 1000, record->pool);
	return (const struct record *)(record->values + 1);
}

PER_CALL char *begin_line(char *at)
{
	memcpy(at, prefix, sizeof prefix);
	return at + prefix_length;
}

/* The line of a record of text, as long as its code says. */
static const struct record *tell_text(const struct record *record, char **at)
{
	*at = begin_line(*at);
	memcpy(*at, record->values, (size_t)record->code);
	*at += record->code;
	*(*at)++ = '\n';
	return (const struct record *)(record->values + (record->code + 7) / 8);
}

/* The line of a call's record. */
PER_CALL const struct record *tell(const struct traced_call *call, const struct record *record, char **line)
{
	const uint64_t *values = record->values;
	char *at = begin_line(*line);
	uint32_t place;

	memcpy(at, call->name, sizeof call->name);
	at = add_handle(at + call->length, record->pool);
#pragma GCC unroll 8
	for (place = 1; place < call->count; place++)
		if (call->forms[place].kind < OUT_BYTES) {
			memcpy(at, ", ", 2);
			at = add_value(at + 2, &call->forms[place], &values, is_array(call, place));
		}
	memcpy(at, ") = STRM_OK", 11);
	at += record->code == STRM_OK ? 11 : 4 + strm_name(record->code, at + 4, 64);
#pragma GCC unroll 8
	for (place = 1; place < call->count; place++)
		if (call->forms[place].kind >= OUT_BYTES && record->code == STRM_OK) {
			*at++ = ' ';
			at = add_value(at, &call->forms[place], &values, is_array(call, place));
		}
	*at++ = '\n';
	*line = at;
	return (const struct record *)values;
}

/* ---- records of calls */

/* Makes room for a record, and looks whether its time is another. */
static __attribute__((noinline)) void prepare(void)
{
	struct timespec now;
	struct record *record;
	uint32_t next;

	if (current->used > CHUNK - MOST_RECORD)
		fill_next();
	next = current->used + MOST_SAME < CHUNK - MOST_RECORD ? current->used + MOST_SAME : CHUNK - MOST_RECORD;
	ring->limit = text_out.is_late ? next : 0;
	clock_gettime(CLOCK_MONOTONIC_COARSE, &now);
	if (now.tv_nsec == then.tv_nsec && now.tv_sec == then.tv_sec && thread == prefixed)
		return;
	then = now;
	prefixed = strm_trace_thread();
	record = (struct record *)(current->words + current->used);
	record->tell = set_prefix;
	record->pool = prefixed;
	record->values[0] = (uint64_t)((now.tv_sec - started.tv_sec) * 1000 + (now.tv_nsec - started.tv_nsec) / 1000000);
	end_record(record->values + 1);
}

PER_CALL struct record *begin_record(teller *tell, uint32_t pool, int code)
{
	struct record *record;

	if (LIKELY(current->used <= ring->limit && thread == prefixed) == 0)
		prepare();
	record = (struct record *)(current->words + atomic_load_explicit(&current->used, memory_order_relaxed));
	record->tell = tell;
	record->pool = pool;
	record->code = code;
	return record;
}

static __attribute__((noinline)) uint64_t *put_label(uint64_t *to, const struct traced *traced, struct strm_msg msg)
{
	size_t length;

	if (strm_is_no_msg(msg) || !traced->labels || msg.head >= traced->mblks)
		return to;
	length = strlen(traced->labels[msg.head]);
	to[-2] |= (uint64_t)length << 32;
	memcpy(to, traced->labels[msg.head], length);
	return to + (length + 7) / 8;
}

/* A message. There are labels if there is a pool to seek them in. */
PER_CALL uint64_t *put_msg(uint64_t *to, const struct traced *labelled, const struct strm_msg *msg)
{
	to[0] = LIKELY(msg->stamp) || !strm_is_no_msg(*msg) ? msg->head : NO_MSG;
	to[1] = msg->stamp;
	return labelled ? put_label(to + 2, labelled, *msg) : to + 2;
}

PER_CALL uint64_t *put_bytes(uint64_t *to, const void *bytes, size_t length)
{
	size_t shown = length < MOST_BYTES ? length : MOST_BYTES;

	*to++ = bytes ? length : NO_ARRAY;
	if (bytes == NULL)
		return to;
	if (shown == MOST_BYTES)
		memcpy(to, bytes, MOST_BYTES);
	else
		memcpy(to, bytes, shown);
	return to + (shown + 7) / 8;
}

PER_CALL uint64_t *put_item(uint64_t *to, const struct traced *labelled, const struct form *form, const void *items, size_t item)
{
	if (is_msg(form))
		return put_msg(to, labelled, (const struct strm_msg *)items + item);
	memcpy(to, (const uint32_t *)items + item * form->fields, form->fields * sizeof(uint32_t));
	return to + (form->fields + 1) / 2;
}

static __attribute__((noinline)) uint64_t *put_items(uint64_t *to, const struct traced *labelled, const struct form *form, const void *items,
	size_t count)
{
	size_t item;

	*to++ = items ? count : NO_ARRAY;
	for (item = 0; items && item < count && item < MOST_ITEMS; item++)
		to = put_item(to, labelled, form, items, item);
	return to;
}

/* An argument after the pool, or a result. */
PER_CALL uint64_t *put_value(uint64_t *to, const struct traced *labelled, const struct traced_call *call, const union value *values, uint32_t place)
{
	const struct form *form = &call->forms[place];
	const union value *value = values + place;

	if (form->kind == IN_BYTES)
		return put_bytes(to, value->at, value[1].number);
	if (form->kind == OUT_BYTES)
		return put_bytes(to, value->at, *count_of(call, values));
	if (is_array(call, place))
		return put_items(to, labelled, form, value->at, form->kind < OUT_BYTES ? value[1].number : *count_of(call, values));
	if (form->kind > OUT_BYTES)
		return put_item(to, labelled, form, value->at, 0);
	if (form->kind == MSG)
		return put_msg(to, labelled, &value->msg);
	*to = value->number;
	if (form->kind == CALLED)
		*to = traced_of(value->at) ? traced_of(value->at)->number : 0;
	return to + 1;
}

/* The record of a call, in its own code if there are no labels. */
PER_CALL void add_record(teller *tell, const struct traced_call *call, const union value *values, int code, int has_labels)
{
	const struct traced *traced = traced_of(values[0].at);
	uint64_t *to = begin_record(tell, LIKELY(traced) ? traced->number : 0, code)->values;
	uint32_t place;

#pragma GCC unroll 8
	for (place = 1; place < call->count; place++)
		if (call->forms[place].kind < OUT_BYTES)
			to = put_value(to, has_labels ? traced : NULL, call, values, place);
	if (has_labels)
		traced = pool_of_results(call, values);
#pragma GCC unroll 8
	for (place = 1; place < call->count; place++)
		if (code == STRM_OK && call->forms[place].kind >= OUT_BYTES)
			to = put_value(to, has_labels ? traced : NULL, call, values, place);
	end_record(to);
}

/* ---- calls */

/* A label ends where another message gets its block. */
static __attribute__((noinline)) void unlabel(const struct traced_call *call, const union value *values)
{
	struct traced *traced = pool_of_results(call, values);
	const size_t *stored = count_of(call, values);
	const struct strm_msg *msgs;
	size_t item;
	uint32_t place;

	for (place = 0; traced && traced->labels && place < call->count; place++)
		for (item = 0, msgs = values[place].at; call->forms[place].kind == OUT_MSG && item < (stored ? *stored : 1); item++)
			if (!strm_is_no_msg(msgs[item]) && !(call->forms[1].kind == MSG && values[1].msg.head == msgs[item].head))
				traced->labels[msgs[item].head][0] = 0;
}

static void look_before(const struct traced_call *call, const union value *values)
{
	struct traced *traced;

	take_lock();
	traced = mode == SCRIPT ? traced_of(values[0].at) : NULL;
	if (traced != NULL && traced->is_recorded)
		strm_script_before(traced, call, values);
	leave_lock();
}

static void look_after(teller *tell, const struct traced_call *call, const union value *values, int code)
{
	struct traced *traced;

	take_lock();
	traced = traced_of(values[0].at);
	if (call->is_new && code == STRM_OK)
		unlabel(call, values);
	if (mode == SCRIPT && traced != NULL)
		strm_script_call(traced, call, values, code);
	else if (has_text())
		add_record(tell, call, values, code, 1);
	write_scripts();
	leave_lock();
}

/* What each argument is, by its type. */
static inline union value of_msg(struct strm_msg msg)
{
	return (union value){ .msg = msg };
}

static inline union value of_number(int64_t number)
{
	return (union value){ .number = (uint64_t)number };
}

static inline union value of_pointer(const void *at)
{
	return (union value){ .at = at };
}

#define KIND(x) _Generic((x), struct strm_pool *: CALLED, const struct strm_pool *: SEEN, struct strm_msg: MSG, uint32_t: NUMBER, \
	int32_t: SIGNED, size_t: LENGTH, const void *: IN_BYTES, const struct strm_msg *: IN_MSGS, void *: OUT_BYTES, \
	const struct strm_block_shape *: IN_FIELDS, \
	struct strm_msg *: OUT_MSG, size_t *: OUT_LENGTH, const uint8_t **: OUT_ADDRESS, uint8_t **: OUT_ADDRESS, \
	struct strm_iov *: OUT_IOV, default: OUT_FIELDS)
#define NAMES(x) _Generic((x), struct strm_block_info *: "type length band room names", \
	const struct strm_block_shape *: "at length type band", struct strm_block_place *: "data at length capacity", struct strm_queued *: "head type band bytes blocks", \
	struct strm_marks *: "hiwat lowat", struct strm_wish *: "id size", struct strm_queue_spec *: "hiwat lowat service next", \
	struct strm_census *: "free queued held", struct strm_class_info *: "size free total", \
	struct strm_queue_info *: "msgs bytes read noenable enabled", struct strm_band_info *: "bytes full wanted", \
	struct strm_service *: "queue next held", default: "")
#define FIELDS(x) (sizeof *_Generic((x), struct strm_msg: "", uint32_t: "", int32_t: "", size_t: "", void *: "", const void *: "", default: (x)) / 4)
#define FORM(x) { KIND(x), FIELDS(x), NAMES(x) },
#define VALUE(x) _Generic((x), struct strm_msg: of_msg, uint32_t: of_number, int32_t: of_number, size_t: of_number, default: of_pointer)(x),
#define LOCAL(x) x __attribute__((unused));
#define ONE(x) 1,

/* What TO makes of each argument. */
#define EACH_1(TO, a) TO(a)
#define EACH_2(TO, a, ...) TO(a) EACH_1(TO, __VA_ARGS__)
#define EACH_3(TO, a, ...) TO(a) EACH_2(TO, __VA_ARGS__)
#define EACH_4(TO, a, ...) TO(a) EACH_3(TO, __VA_ARGS__)
#define EACH_5(TO, a, ...) TO(a) EACH_4(TO, __VA_ARGS__)
#define EACH_6(TO, a, ...) TO(a) EACH_5(TO, __VA_ARGS__)
#define EACH_7(TO, a, ...) TO(a) EACH_6(TO, __VA_ARGS__)
#define EIGHTH(a, b, c, d, e, f, g, name, ...) name
#define EACH(TO, ...) EIGHTH(__VA_ARGS__, EACH_7, EACH_6, EACH_5, EACH_4, EACH_3, EACH_2, EACH_1, 0)(TO, __VA_ARGS__)
#define FORMS(...) EACH(FORM, __VA_ARGS__)
#define VALUES(...) EACH(VALUE, __VA_ARGS__)
#define LOCALS(...) EACH(LOCAL, __VA_ARGS__)
#define COUNT(...) (sizeof (char[]){ EACH(ONE, __VA_ARGS__) })

/* Whether a message that a call returns is new, or one of its parts, and no message of a queue or a name that was there. */
#define IS_NEW(call) (strncmp(#call, "getq", 4) != 0 && strncmp(#call, "rmvq", 4) != 0 && strncmp(#call, "takeq", 5) != 0 \
	&& strcmp(#call, "name_at") != 0 && strcmp(#call, "serve") != 0)

#define OWN(call, arguments) { "strm_" #call "(", sizeof "strm_" #call, IS_NEW(call), COUNT arguments, { FORMS arguments } }

/* Defines the call of a row, and what makes its lines. */
#define DEFINE(call, parameters, arguments, fits) \
	static const struct record *tell_##call(const struct record *record, char **line) \
	{ \
		LOCALS parameters \
		static const struct traced_call own = OWN(call, arguments); \
\
		return tell(&own, record, line); \
	} \
	int strm_##call parameters \
	{ \
		static const struct traced_call own = OWN(call, arguments); \
		int code; \
\
		if (LIKELY(mode == TEXT)) { \
			code = strm_untraced_##call arguments; \
			take_lock(); \
			add_record(tell_##call, &own, (const union value[]){ VALUES arguments }, code, 0); \
			leave_lock(); \
			return code; \
		} \
		if (mode == SCRIPT) \
			look_before(&own, (const union value[]){ VALUES arguments }); \
		code = strm_untraced_##call arguments; \
		if (mode > TEXT) \
			look_after(tell_##call, &own, (const union value[]){ VALUES arguments }, code); \
		return code; \
	}

uint32_t strm_trace_enabled(const struct strm_pool *pool)
{
	uint32_t count = 0, queue;

	while (strm_untraced_run_at(pool, count, &queue) == STRM_OK)
		count++;
	return count;
}

/*
 * strm_serve, for which a script has several calls. Each queue that would rest does so by them, ahead of it: then it gives a message at once, or
 * none. So only the stamps of messages that rest are greater than without a trace.
 */
static int serve_by_calls(struct strm_pool *pool, uint32_t held, struct strm_service *service, struct strm_msg *msg)
{
	const int is_right = mode == SCRIPT && service != NULL && msg != NULL && (void *)service != (void *)msg;
	struct traced *traced = strm_traced(pool);
	struct strm_queue_spec spec;
	struct strm_queued first;
	struct strm_msg own;
	uint32_t queue, enabled, place, yes = 0;

	while (is_right && strm_untraced_run_at(pool, held, &queue) == STRM_OK) {
		strm_untraced_run_at(pool, 0, &queue);
		strm_untraced_queue_spec(pool, queue, &spec);
		if (spec.next == STRM_NO_QUEUE)
			break;
		if (strm_untraced_queued_at(pool, queue, 0, &first) == STRM_OK
		    && (first.type >= STRM_M_IOCACK || (strm_bcanput(pool, spec.next, first.band, &yes) == STRM_OK && yes)))
			break;
		enabled = strm_trace_enabled(pool);
		strm_next_service(pool, &queue);
		if (strm_getq(pool, queue, &own) == STRM_OK)
			strm_putbq(pool, queue, own);
		/* one that woke comes first */
		for (place = 1; enabled == strm_trace_enabled(pool) && place < enabled; place++)
			if (strm_next_service(pool, &queue) == STRM_OK)
				strm_qenable(pool, queue);
	}
	if (is_right && traced != NULL)
		traced->enabled = strm_trace_enabled(pool);
	return strm_untraced_serve(pool, held, service, msg);
}

#define strm_untraced_serve serve_by_calls
#define reader (*pool)
STRM_CALLS(DEFINE)
STRM_LOOKS(DEFINE)
#undef reader
#undef strm_untraced_serve
STRM_MORE_CALLS(DEFINE)

/* What a configuration has, as in a script's header. */
static void tell_config(const struct strm_config *config)
{
	size_t place;

	if (config == NULL)
		return;
	strm_trace_print(&text_out, ", {id=%u mblks=%u", (unsigned)config->id, (unsigned)config->mblks);
	for (place = 0; config->classes && place < config->class_count && place < STRM_MOST_CLASSES; place++)
		strm_trace_print(&text_out, ", class %u %u", (unsigned)config->classes[place].size, (unsigned)config->classes[place].count);
	for (place = 0; config->queues && place < config->queue_count && place < STRM_MOST_QUEUES; place++)
		strm_trace_print(&text_out, ", queue %u %u %c %d", (unsigned)config->queues[place].hiwat, (unsigned)config->queues[place].lowat,
			config->queues[place].service ? 's' : 'n', (int)config->queues[place].next);
	strm_trace_print(&text_out, ", bufcalls %u %u}", (unsigned)config->bufcalls, (unsigned)config->first_id);
}

/* Ends a record of text, which was printed since the record began. */
static void end_text(struct record *record)
{
	record->code = (int)text_out.used;
	memcpy(record->values, text_out.lines, text_out.used);
	text_out.used = 0;
	end_record(record->values + (record->code + 7) / 8);
}

/* A line of a call that opens or closes a pool. */
static void tell_pool(const char *call, const struct traced *traced, const struct strm_config *config, int code)
{
	struct record *record;
	char name[64];

	if (!has_text())
		return;
	record = begin_record(tell_text, 0, 0);
	strm_trace_print(&text_out, "%s(pool %.*u", call, traced != NULL, traced ? traced->number : 0);
	tell_config(config);
	strm_name(code, name, sizeof name);
	strm_trace_print(&text_out, ") = %s", name);
	end_text(record);
}

static int opened(const char *call, const struct strm_pool *pool, const struct strm_config *config, int code)
{
	take_lock();
	if (mode == UNKNOWN)
		begin_trace();
	if (mode != OFF && code == STRM_OK)
		add_pool(pool, config);
	tell_pool(call, code == STRM_OK ? strm_traced(pool) : NULL, config, code);
	write_scripts();
	leave_lock();
	return code;
}

int strm_open(struct strm_pool *pool, const struct strm_config *config)
{
	return opened("strm_open", pool, config, strm_untraced_open(pool, config));
}

int strm_open_with(struct strm_pool *pool, const struct strm_config *config, const struct strm_allocator *allocator)
{
	return opened("strm_open_with", pool, config, strm_untraced_open_with(pool, config, allocator));
}

size_t strm_report(const struct strm_pool *pool, char *text, size_t length)
{
	size_t needed = strm_untraced_report(pool, text, length);
	struct record *record;
	struct traced *traced;

	take_lock();
	if (has_text()) {
		traced = strm_traced(pool);
		record = begin_record(tell_text, 0, 0);
		strm_trace_print(&text_out, "strm_report(pool %.*u, %lu) = %lu", traced != NULL, traced ? traced->number : 0,
			(unsigned long)length, (unsigned long)needed);
		end_text(record);
	}
	leave_lock();
	return needed;
}

int strm_close(struct strm_pool *pool)
{
	struct traced *traced;
	int code;

	take_lock();
	traced = strm_traced(pool);
	if (traced != NULL) {
		if (mode == SCRIPT)
			end_script(traced);
		remove_pool(traced);
	}
	leave_lock();
	/* without the lock, since it calls an allocator of the caller's */
	code = strm_untraced_close(pool);
	take_lock();
	tell_pool("strm_close", traced, NULL, code);
	leave_lock();
	if (traced != NULL)
		free_pool(traced);
	return code;
}

/* A label as it is shown. */
static void copy_label(char *to, const char *label)
{
	unsigned place;

	for (place = 0; place < MOST_LABEL && label[place]; place++)
		to[place] = label[place] >= ' ' && label[place] < 127 ? label[place] : '?';
	to[place] = 0;
}

void strm_trace_label(const struct strm_pool *pool, uint32_t queue, struct strm_msg msg, const char *label)
{
	struct traced *traced;

	take_lock();
	if (mode == TEXT)
		mode = LABELLED;
	traced = strm_traced(pool);
	if (traced != NULL && queue < traced->queues)
		copy_label(traced->queue_labels[queue], label);
	else if (traced != NULL && msg.head < traced->mblks && (traced->labels || (traced->labels = calloc(traced->mblks, sizeof *traced->labels))))
		copy_label(traced->labels[msg.head], label);
	else
		traced = NULL;
	if (traced != NULL && traced->is_recorded)
		strm_script_label(traced, queue, msg);
	write_scripts();
	leave_lock();
}
