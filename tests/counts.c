/* Loaded before the C library, it counts what a program asks for, in an order that depends on no timing.
 *
 * At the end of the program a line goes to the file that COUNTED names: how many reads of standard
 * input, writes to standard output, threads, yields and allocations there were, of how many bytes these
 * were in all, and how many bytes the program had the C library copy or fill. A new size of what is
 * allocated counts as an allocation.
 *
 * One thread runs at a time, until it yields, waits for another to end, or ends. Then the next one of
 * those that were made goes on. The program is told of four processors.
 *
 * With AT_ONCE in the environment they run as the system has them, and the last number alone means
 * something: how many yields there were in threads that had yielded before. */
#define _GNU_SOURCE
#include <dlfcn.h>
#include <errno.h>
#include <fcntl.h>
#include <pthread.h>
#include <sched.h>
#include <stdio.h>
#include <stdlib.h>
#include <string.h>
#include <sys/syscall.h>
#include <unistd.h>

/* The C library's own names of what stands here in its place. */
void *__libc_malloc(size_t size);
void *__libc_calloc(size_t count, size_t size);
void *__libc_realloc(void *old, size_t size);
void *__libc_memalign(size_t align, size_t size);

typedef void *copy_call(void *, const void *, size_t);
typedef void *fill_call(void *, int, size_t);
typedef void *start_call(void *);
typedef int create_call(pthread_t *, const pthread_attr_t *, start_call *, void *);
typedef int join_call(pthread_t, void **);

enum { READS, WRITES, THREADS, YIELDS, ALLOCATIONS, BYTES, COPIED, AGAIN, KINDS };
enum { MOST = 4096 };

static unsigned long counts[KINDS];
static copy_call *copy, *move;
static fill_call *fill;
static create_call *create;
static join_call *join;

/* The threads in the order in which they were made. The first is that of the program. */
static struct thread {
    pthread_t name;
    start_call *start;
    void *given;
    int has_ended;
} threads[MOST];
static int made = 1, turn;
static pthread_mutex_t lock = PTHREAD_MUTEX_INITIALIZER;
static pthread_cond_t turned = PTHREAD_COND_INITIALIZER;

/* The number of the thread, and whether it runs code of the program: the C library allocates too. */
static __thread int own __attribute__((tls_model("initial-exec")));
static __thread int counted __attribute__((tls_model("initial-exec")));
static __thread int has_yielded __attribute__((tls_model("initial-exec")));
static int at_once;

__attribute__((constructor)) static void begin(void) {
    copy = (copy_call *)dlsym(RTLD_NEXT, "memcpy");
    move = (copy_call *)dlsym(RTLD_NEXT, "memmove");
    fill = (fill_call *)dlsym(RTLD_NEXT, "memset");
    create = (create_call *)dlsym(RTLD_NEXT, "pthread_create");
    join = (join_call *)dlsym(RTLD_NEXT, "pthread_join");
    at_once = getenv("AT_ONCE") != NULL;
    counted = 1;
}

/* The program ends by this call. */
void _exit(int status) {
    const char *path = getenv("COUNTED");
    int to = path ? open(path, O_WRONLY | O_CREAT | O_TRUNC, 0600) : -1;
    for (int kind = 0; kind < KINDS && to >= 0; kind++)
        dprintf(to, "%lu%c", counts[kind], kind + 1 < KINDS ? ' ' : '\n');
    for (;;)
        syscall(SYS_exit_group, status);
}

static void count(int kind, size_t more) {
    counts[kind] += counted ? more : 0;
}

/* Threads */

static void wait_for_turn(void) {
    while (turn != own)
        pthread_cond_wait(&turned, &lock);
}

/* Lets the next thread go on that hasn't ended. */
static void pass_on(void) {
    do
        turn = (turn + 1) % made;
    while (threads[turn].has_ended);
    pthread_cond_broadcast(&turned);
}

static void give_way(void) {
    pthread_mutex_lock(&lock);
    pass_on();
    wait_for_turn();
    pthread_mutex_unlock(&lock);
}

static void *run(void *number) {
    own = (int)(long)number;
    pthread_mutex_lock(&lock);
    wait_for_turn();
    pthread_mutex_unlock(&lock);
    counted = 1;
    void *result = threads[own].start(threads[own].given);
    counted = 0;
    pthread_mutex_lock(&lock);
    threads[own].has_ended = 1;
    pass_on();
    pthread_mutex_unlock(&lock);
    return result;
}

int pthread_create(pthread_t *to, const pthread_attr_t *how, start_call *start, void *given) {
    count(THREADS, 1);
    if (at_once)
        return create(to, how, start, given);
    if (made == MOST)
        return EAGAIN;
    struct thread *next = &threads[made];
    next->start = start;
    next->given = given;
    counted = 0;
    int error = create(&next->name, how, run, (void *)(long)made);
    counted = 1;
    if (error)
        return error;
    *to = next->name;
    made++;
    return 0;
}

int pthread_join(pthread_t name, void **result) {
    if (at_once)
        return join(name, result);
    int other = made - 1;
    while (other > 0 && !pthread_equal(threads[other].name, name))
        other--;
    while (!threads[other].has_ended)
        give_way();
    counted = 0;
    int error = join(name, result);
    counted = 1;
    return error;
}

int sched_yield(void) {
    count(YIELDS, 1);
    __atomic_fetch_add(&counts[AGAIN], has_yielded, __ATOMIC_RELAXED);
    has_yielded = 1;
    if (at_once)
        return syscall(SYS_sched_yield);
    give_way();
    return 0;
}

int sched_getaffinity(pid_t of, size_t size, cpu_set_t *set) {
    fill(set, 0, size);
    for (int processor = 0; processor < 4; processor++)
        CPU_SET_S(processor, size, set);
    return 0;
}

/* Reads and writes */

ssize_t read(int from, void *to, size_t size) {
    count(READS, from == STDIN_FILENO);
    return syscall(SYS_read, from, to, size);
}

ssize_t write(int to, const void *bytes, size_t size) {
    count(WRITES, to == STDOUT_FILENO);
    return syscall(SYS_write, to, bytes, size);
}

/* Memory */

static size_t allocates(size_t size) {
    count(ALLOCATIONS, 1);
    count(BYTES, size);
    return size;
}

void *malloc(size_t size) {
    return __libc_malloc(allocates(size));
}

void *calloc(size_t number, size_t size) {
    allocates(number * size);
    return __libc_calloc(number, size);
}

void *realloc(void *old, size_t size) {
    return __libc_realloc(old, allocates(size));
}

void *memalign(size_t align, size_t size) {
    return __libc_memalign(align, allocates(size));
}

void *aligned_alloc(size_t align, size_t size) {
    return memalign(align, size);
}

int posix_memalign(void **to, size_t align, size_t size) {
    *to = memalign(align, size);
    return *to ? 0 : ENOMEM;
}

void *memcpy(void *to, const void *from, size_t size) {
    count(COPIED, size);
    return copy(to, from, size);
}

void *memmove(void *to, const void *from, size_t size) {
    count(COPIED, size);
    return move(to, from, size);
}

void *memset(void *to, int byte, size_t size) {
    count(COPIED, size);
    return fill(to, byte, size);
}
