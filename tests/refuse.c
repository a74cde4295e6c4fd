/* Loaded before the C library, it refuses one call of a program, or that call and all after it.
 *
 * REFUSE is KIND:FIRST:LAST:ERROR: the calls of this kind with a number from FIRST to LAST, counted
 * from 1, fail with this error; with error 0 a write takes nothing. The kinds are allocation,
 * thread, read, output (a write to standard output) and message (one to standard error). SHORT is
 * the most bytes that a read gives or a write takes, and 0 is no limit. Once a call is refused, a
 * byte is written to the descriptor that TOLD names. */
#define _GNU_SOURCE
#include <dlfcn.h>
#include <errno.h>
#include <pthread.h>
#include <stdatomic.h>
#include <stdio.h>
#include <stdlib.h>
#include <string.h>
#include <sys/syscall.h>
#include <unistd.h>

/* The C library's own names of what stands here in its place. */
void *__libc_malloc(size_t size);
void *__libc_calloc(size_t count, size_t size);
void *__libc_realloc(void *old, size_t size);
void *__libc_memalign(size_t align, size_t size);

typedef int create_call(pthread_t *, const pthread_attr_t *, void *(*)(void *), void *);

static char kind[16];
static unsigned long first, last, most;
static int error, told = -1;
static create_call *create;
static atomic_ulong count;

__attribute__((constructor)) static void read_wishes(void) {
    create = (create_call *)dlsym(RTLD_NEXT, "pthread_create");
    const char *wish = getenv("REFUSE"), *bytes = getenv("SHORT"), *tell = getenv("TOLD");
    most = bytes ? strtoul(bytes, NULL, 10) : 0;
    told = tell ? atoi(tell) : -1;
    if (wish && sscanf(wish, "%15[a-z]:%lu:%lu:%d", kind, &first, &last, &error) != 4)
        _exit(99);
    atomic_store(&count, 0);
}

static int refuses(const char *what) {
    if (!kind[0] || strcmp(kind, what) != 0)
        return 0;
    unsigned long number = atomic_fetch_add(&count, 1) + 1;
    if (number < first || number > last)
        return 0;
    syscall(SYS_write, told, "!", 1);
    errno = error;
    return 1;
}

static int refuses_memory(void) {
    return refuses("allocation");
}

void *malloc(size_t size) {
    return refuses_memory() ? NULL : __libc_malloc(size);
}

void *calloc(size_t number, size_t size) {
    return refuses_memory() ? NULL : __libc_calloc(number, size);
}

void *realloc(void *old, size_t size) {
    return refuses_memory() ? NULL : __libc_realloc(old, size);
}

void *memalign(size_t align, size_t size) {
    return refuses_memory() ? NULL : __libc_memalign(align, size);
}

void *aligned_alloc(size_t align, size_t size) {
    return memalign(align, size);
}

int posix_memalign(void **to, size_t align, size_t size) {
    void *made = memalign(align, size);
    if (!made)
        return ENOMEM;
    *to = made;
    return 0;
}

int pthread_create(pthread_t *to, const pthread_attr_t *how, void *(*start)(void *), void *given) {
    return refuses("thread") ? error : create(to, how, start, given);
}

static size_t cut(size_t size) {
    return most && size > most ? most : size;
}

ssize_t read(int from, void *to, size_t size) {
    return refuses("read") ? -1 : syscall(SYS_read, from, to, cut(size));
}

ssize_t write(int to, const void *bytes, size_t size) {
    if (refuses(to == STDERR_FILENO ? "message" : "output"))
        return error ? -1 : 0;
    return syscall(SYS_write, to, bytes, cut(size));
}
