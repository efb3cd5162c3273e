/* Fails one call that a program makes to the C library, and counts its calls. It is loaded by LD_PRELOAD. It reads its orders from the
 * file that FAULTS names, and leaves its counts there, however the program ends.
 *
 * A growth is a call of malloc or realloc. A program that Rattle builds imports no other function that allocates, and shim.py refuses one
 * that does. Each block that it frees is one that a growth gave it. It creates threads by pthread_create, reads by read, and writes by write, which has a second name. Only calls from the
 * program's own code count, not what the loader and the C library allocate for themselves, such as a thread's stack. */
#define _GNU_SOURCE
#include <dlfcn.h>
#include <errno.h>
#include <fcntl.h>
#include <link.h>
#include <pthread.h>
#include <stdatomic.h>
#include <stdbool.h>
#include <stddef.h>
#include <stdint.h>
#include <stdlib.h>
#include <sys/mman.h>
#include <sys/syscall.h>
#include <unistd.h>

/* The address from which a function was called. */
#define CALLER ((uintptr_t)__builtin_return_address(0))

/* Calls of one kind: how many were made, and which of them fails, counted from 1, or 0 for none. */
struct calls {
    _Atomic uint64_t made;
    uint64_t failing;
};

/* What the file holds. No write to standard output takes more bytes than `most`. `kept` counts the blocks of memory that the program
 * took and has not freed. */
struct plan {
    struct calls growths, threads, reads, outputs, errors;
    uint64_t most;
    _Atomic int64_t kept;
};

static struct plan no_plan = {.most = UINT64_MAX};
static struct plan *plan = &no_plan;

/* Where the program's own code begins and ends. */
static uintptr_t code, code_end;

/* The C library's malloc, realloc and free. */
extern void *__libc_malloc(size_t size);
extern void *__libc_realloc(void *block, size_t size);
extern void __libc_free(void *block);

/* The program is the first of all objects. */
static int find_code(struct dl_phdr_info *object, size_t size, void *unused)
{
    (void)size, (void)unused;
    for (int k = 0; k < object->dlpi_phnum; k++) {
        const ElfW(Phdr) *part = &object->dlpi_phdr[k];
        if (part->p_type == PT_LOAD && (part->p_flags & PF_X) != 0) {
            code = object->dlpi_addr + part->p_vaddr;
            code_end = code + part->p_memsz;
        }
    }
    return 1;
}

__attribute__((constructor)) static void take_orders(void)
{
    const char *path = getenv("FAULTS");
    int file = path == NULL ? -1 : open(path, O_RDWR);
    void *orders = mmap(NULL, sizeof *plan, PROT_READ | PROT_WRITE, MAP_SHARED, file, 0);
    if (orders != MAP_FAILED)
        plan = orders;
    close(file);
    dl_iterate_phdr(find_code, NULL);
}

static bool is_of_program(uintptr_t caller)
{
    return code <= caller && caller < code_end;
}

/* Counts a call, and returns whether it is the one that fails, with errno set to this error. */
static bool fails(struct calls *calls, int error, uintptr_t caller)
{
    if (!is_of_program(caller) || atomic_fetch_add(&calls->made, 1) + 1 != calls->failing)
        return false;
    errno = error;
    return true;
}

/* Notes that a block came instead of another, where none is NULL. */
static void *replaced(const void *old, void *block, uintptr_t caller)
{
    if (is_of_program(caller) && old == NULL && block != NULL)
        atomic_fetch_add(&plan->kept, 1);
    return block;
}

void *malloc(size_t size)
{
    return fails(&plan->growths, ENOMEM, CALLER) ? NULL : replaced(NULL, __libc_malloc(size), CALLER);
}

void *realloc(void *block, size_t size)
{
    return fails(&plan->growths, ENOMEM, CALLER) ? NULL : replaced(block, __libc_realloc(block, size), CALLER);
}

void free(void *block)
{
    if (is_of_program(CALLER) && block != NULL)
        atomic_fetch_sub(&plan->kept, 1);
    __libc_free(block);
}

int pthread_create(pthread_t *thread, const pthread_attr_t *attributes, void *(*start)(void *), void *argument)
{
    typeof(pthread_create) *create = dlsym(RTLD_NEXT, "pthread_create");
    return fails(&plan->threads, EAGAIN, CALLER) ? EAGAIN : create(thread, attributes, start, argument);
}

ssize_t read(int file, void *bytes, size_t size)
{
    return fails(&plan->reads, EIO, CALLER) ? -1 : syscall(SYS_read, file, bytes, size);
}

static ssize_t put(int file, const void *bytes, size_t size, uintptr_t caller)
{
    bool is_output = file == STDOUT_FILENO;
    if (fails(is_output ? &plan->outputs : &plan->errors, EIO, caller))
        return -1;
    return syscall(SYS_write, file, bytes, is_output && plan->most < size ? plan->most : size);
}

ssize_t write(int file, const void *bytes, size_t size)
{
    return put(file, bytes, size, CALLER);
}

ssize_t __write(int file, const void *bytes, size_t size)
{
    return put(file, bytes, size, CALLER);
}
