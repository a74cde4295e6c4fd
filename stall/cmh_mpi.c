/* Keeps for each thread of an MPI job which call it is in, with whom, and how many calls it has made, in a file in
   memory that cmh_mpi_reader.py reads without stopping anybody.

       mpicc -shared -fPIC -O2 -o cmh_mpi.so cmh_mpi.c
       mpirun -x LD_PRELOAD=$PWD/cmh_mpi.so -np 8 JOB

   The file has no name in any folder, so that nobody else can make, find or leave it: it is /proc/PID/fd/N of the rank,
   "memfd:cmh_mpi", which root and the job's user may open, and it ends with MPI_Finalize or with the rank. Calls of
   Fortran don't come by here. */
#define _GNU_SOURCE
#include <dirent.h>
#include <fcntl.h>
#include <mpi.h>
#include <pthread.h>
#include <stdint.h>
#include <stdlib.h>
#include <string.h>
#include <sys/mman.h>
#include <sys/stat.h>
#include <sys/syscall.h>
#include <unistd.h>

enum { THREADS = 32, COMMS = 128, OPEN = 128, PLACES = 4096, OWN = 64, NAME = 32, WORDS = 24, LAST = 4 };
/* What a call or a request waits for: its partner; all of a communicator, its root, or as the root all; those before
   it; some of them; what isn't known. Then all, or any, of its requests. A poll has found nothing. On a window it waits
   for who has locked the same target, or EVERY one: it TAKES such a lock, or GIVES it back. KEPT is a request that
   stays when it ends. With ENDS there is no record any more. */
enum { NONE, RECEIVE, SEND, ALL, FROM_ROOT, TO_ROOT, BEFORE, SOME, OTHER, ALL_OF, ANY_OF, POLL, LOCK,
       KEPT = 16, TAKES = 32, GIVES = 64, ENDS = 128 };
enum { WORLD = 0, NOT_KNOWN = -1, EVERY = -9, SEVERAL = -10 };

struct operation { uint64_t handle, number; int32_t kind, comm, partner, tag; };
struct record {
    uint64_t sequence, calls, polls, caller;
    char name[NAME];
    int32_t thread, depth, requests, index;
    struct operation now, open[OPEN];
};
struct comm { /* `held` counts the locks of a window that this rank has or wants: of a target, and alone, or SEVERAL */
    uint64_t handle, id, number, parent, made;
    int32_t size, rank, is_inter, root, held, target, is_alone, unused;
    char name[LAST][NAME]; /* of the last collective calls, each at the place of its number */
};
struct file { /* cmh_mpi_reader.py has the same */
    char magic[8];
    uint64_t request[2][WORDS];
    int32_t pid, rank, size, level, asked, standard, any_source, any_tag, opened, lost, threads[2][OWN];
    struct comm comm[COMMS]; /* communicators, and open windows and files, whose calls have numbers of their own */
    struct record record[THREADS];
    struct operation known[PLACES]; /* the requests that have been begun, each at the place of its handle */
    int32_t ranks[]; /* of each communicator in turn, with room for all ranks of the world */
};

static struct file *file;
static int32_t before[OWN];
static int memory = -1, keyval = MPI_KEYVAL_INVALID;
static struct stat identity; /* of the file in memory, since the job may close it, and open its own under the number */
static struct record nowhere;
static __thread struct record *mine __attribute__((tls_model("initial-exec")));
static pthread_key_t at_end;
static char locked;
static const MPI_Request no_request = MPI_REQUEST_NULL;

#define INLINE static inline __attribute__((always_inline))
#define WRITE(it, value) __atomic_store_n(&(it), (value), __ATOMIC_RELEASE)
#define BITS(it) bits_of(&(it), sizeof(it)) /* of a handle of MPI, which is an address or an int */
INLINE uint64_t bits_of(const void *it, size_t size) {
    uint64_t bits = 0;
    if (it) /* (the job may hand on an address that is none, for MPI to refuse) */
        memcpy(&bits, it, size);
    return bits;
}
static void lock(void) { while (__atomic_test_and_set(&locked, __ATOMIC_ACQUIRE)) {} }
static void unlock(void) { __atomic_clear(&locked, __ATOMIC_RELEASE); }

static int is_open(void) {
    struct stat it;
    return !fstat(memory, &it) && it.st_dev == identity.st_dev && it.st_ino == identity.st_ino;
}

/* The record of this thread. One that finds no room writes to nowhere, and is counted. */
static void leave_thread(void *record) { WRITE(((struct record *)record)->thread, 0); }
static __attribute__((noinline)) struct record *new_record(void) {
    int place = 0;
    lock();
    while (place < THREADS && file->record[place].thread)
        place++;
    file->lost += place == THREADS;
    mine = place < THREADS ? &file->record[place] : &nowhere;
    mine->now.kind = NONE, mine->depth = 0;
    WRITE(mine->thread, syscall(SYS_gettid));
    pthread_setspecific(at_end, mine);
    unlock();
    return mine;
}

/* Communicators: one is learned when it is made, or first used, and forgotten when it is freed. Its id is the same in
   all of its ranks, since it comes of that of its parent, the parent's number of collective calls and its ranks, and 0
   if these aren't known. A file or a window has the ranks of the communicator that it was opened with. */
static int forget(MPI_Comm comm, int key, void *place, void *extra) {
    (void)comm, (void)key, (void)extra;
    WRITE(file->comm[(intptr_t)place].handle, 0);
    return MPI_SUCCESS;
}
static int find(uint64_t handle) {
    for (int i = 0; i < COMMS; i++)
        if (file->comm[i].handle == handle)
            return i;
    return NOT_KNOWN;
}
static void describe(MPI_Comm comm, struct comm *it, uint64_t parent, uint64_t number) {
    MPI_Group group, world; /* (where MPI doesn't give these, nothing is known of it, and the job's call goes on) */
    int32_t *ranks = &file->ranks[(it - file->comm) * file->size];
    *it = (struct comm){.parent = parent, .made = number};
    if (PMPI_Comm_test_inter(comm, &it->is_inter) || PMPI_Comm_rank(comm, &it->rank)
        || (it->is_inter ? PMPI_Comm_remote_group(comm, &group) : PMPI_Comm_group(comm, &group)))
        return;
    int has_world = !PMPI_Comm_group(MPI_COMM_WORLD, &world);
    int is_known = has_world && !PMPI_Group_size(group, &it->size) && it->size <= file->size && is_open()
        && !posix_fallocate(memory, (char *)ranks - (char *)file, it->size * sizeof *ranks)
        && !PMPI_Group_translate_ranks(group, it->size, file->ranks, world, ranks); /* (of the world: 0, 1, ..) */
    PMPI_Group_free(&group);
    if (has_world)
        PMPI_Group_free(&world);
    it->size = is_known ? it->size : 0;
    it->id = (parent * 1099511628211u ^ number) * 1099511628211u;
    for (int rank = 0; rank < it->size; rank++)
        it->id = (it->id ^ (uint32_t)ranks[rank]) * 1099511628211u;
    it->id = parent && is_known && !it->is_inter ? it->id : 0;
}
static int learn(const void *from, uint64_t handle, uint64_t parent, uint64_t number) {
    MPI_Comm comm = MPI_COMM_NULL;
    if (from)
        memcpy(&comm, from, sizeof comm);
    lock();
    int place = comm == MPI_COMM_NULL ? NOT_KNOWN : find(0);
    if (place >= 0) {
        describe(comm, &file->comm[place], parent, number);
        WRITE(file->comm[place].handle, handle);
        if (handle == BITS(comm))
            PMPI_Comm_set_attr(comm, keyval, (void *)(intptr_t)place);
    }
    unlock();
    return place;
}
static int place_of(struct record *r, uint64_t handle, const void *comm) {
    if (!handle || file->comm[r->index].handle == handle)
        return handle ? r->index : NOT_KNOWN;
    int found = find(handle), place = found >= 0 ? found : learn(comm, handle, 0, 0);
    r->index = place >= 0 ? place : WORLD;
    return place;
}

/* A call, with a letter for each of its arguments, up to the last that matters:
       p partner, root or target   t tag   c communicator   w window   f file   C W F where one is made, or freed
       n number of requests   R where those are that it waits for   r such a request   b where one is begun
       d where it says whether, or how many, are done   l type of a lock   a assertion of a fence   - anything else
   What is done for a letter is compiled into those calls that have it. */
struct call { const char *name, *letters; const long *words; int kind; uint64_t caller; };
INLINE const void *at(struct call it, char letter) {
    const char *found = strchr(it.letters, letter);
    return found ? &it.words[found - it.letters] : NULL;
}
INLINE long word(struct call it, char letter) { return at(it, letter) ? *(const long *)at(it, letter) : 0; }
INLINE const void *where(struct call it, char letter) { return (const void *)word(it, letter); }
INLINE const MPI_Request *requests(struct call it) { return at(it, 'r') ? at(it, 'r') : where(it, 'R'); }
INLINE int how_many(struct call it) { return requests(it) ? at(it, 'n') ? (int)word(it, 'n') : 1 : 0; }
INLINE uint64_t made(struct call it) {
    return at(it, 'C') ? bits_of(where(it, 'C'), sizeof(MPI_Comm))
        : at(it, 'W') ? bits_of(where(it, 'W'), sizeof(MPI_Win))
        : at(it, 'F') ? bits_of(where(it, 'F'), sizeof(MPI_File)) : 0;
}
INLINE uint64_t used(struct call it) {
    return at(it, 'c') ? bits_of(at(it, 'c'), sizeof(MPI_Comm))
        : at(it, 'w') ? bits_of(at(it, 'w'), sizeof(MPI_Win))
        : at(it, 'f') ? bits_of(at(it, 'f'), sizeof(MPI_File)) : made(it);
}

/* Requests: who begins one notes it, who sees its end drops it. One whose place another one takes isn't known. */
static struct operation *known(uint64_t handle) { return &file->known[(handle ^ handle >> 7) % PLACES]; }
static void drop(uint64_t handle, int but) {
    if (known(handle)->handle == handle && !(known(handle)->kind & but))
        known(handle)->handle = 0;
}
/* A call waits, for a partner or requests. Those beyond the record's room are dropped. A poll that looks again for what
   wasn't there is no step. */
static void begin(struct record *r, struct call it, struct operation now, const MPI_Request *requests, int number) {
    int is_again = now.kind == POLL && r->now.kind == POLL && r->caller == it.caller && r->requests == number
        && r->now.partner == now.partner;
    for (int i = 0; is_again && i < number && i < OPEN; i++)
        is_again = r->open[i].handle == BITS(requests[i]);
    if (is_again)
        return;
    r->calls += now.kind != POLL && now.kind != LOCK;
    lock();
    WRITE(r->sequence, r->sequence + 1);
    __atomic_thread_fence(__ATOMIC_RELEASE);
    r->now = now, r->requests = number, r->caller = it.caller, r->polls = 0;
    memcpy(r->name, it.name, NAME);
    for (int i = 0; i < number; i++) {
        uint64_t handle = BITS(requests[i]);
        if (i >= OPEN)
            drop(handle, KEPT);
        else if (known(handle)->handle == handle && handle)
            r->open[i] = *known(handle);
        else
            r->open[i] = (struct operation){handle, 0, handle == BITS(no_request) ? NONE : OTHER, -1, -1, -1};
    }
    WRITE(r->sequence, r->sequence + 1);
    unlock();
}
/* Those requests have ended that were there before the call, and aren't any more. */
static void end(const struct record *r, const MPI_Request *requests, int number) {
    for (int i = 0; i < number && i < OPEN; i++)
        if (BITS(requests[i]) == BITS(no_request))
            drop(r->open[i].handle, NONE);
}

/* What is done before a call, and after it. A collective one is told by its number in its communicator. */
INLINE struct operation enter(struct record *r, struct call it) {
    int place = place_of(r, used(it), at(it, 'c'));
    struct comm *comm = place >= 0 ? &file->comm[place] : NULL;
    int kind = it.kind & ~(TAKES | GIVES | ENDS), partner = at(it, 'p') ? word(it, 'p') : kind == LOCK ? EVERY : 0;
    struct operation now = {0, 0, kind, place, partner, word(it, 't')};
    if (at(it, 'l'))
        now.tag = (int)word(it, 'l') == MPI_LOCK_EXCLUSIVE;
    if (word(it, 'a') & MPI_MODE_NOPRECEDE)
        now.kind = SOME;
    if (comm && kind >= ALL && kind <= OTHER) {
        now.number = comm->number + 1;
        memcpy(comm->name[now.number % LAST], it.name, NAME);
        comm->root = partner;
        WRITE(comm->number, now.number);
    }
    if (!at(it, 'b'))
        begin(r, it, now, requests(it), how_many(it));
    if (comm && it.kind & TAKES) {
        lock();
        comm->target = comm->held++ ? SEVERAL : partner, comm->is_alone = now.tag;
        unlock();
    }
    return now;
}
INLINE void leave(struct record *r, struct call it, struct operation now, int error) {
    struct comm *comm = now.comm >= 0 ? &file->comm[now.comm] : NULL;
    if (at(it, 'd') && (!where(it, 'd') || !*(const int *)where(it, 'd'))) {
        r->polls++;
        return;
    }
    lock();
    end(r, requests(it), how_many(it));
    if (at(it, 'b') && !error)
        now.handle = bits_of(where(it, 'b'), sizeof(MPI_Request));
    if (now.handle && now.handle != BITS(no_request))
        *known(now.handle) = now;
    if (comm && it.kind & GIVES)
        comm->held--;
    if (at(it, 'W'))
        file->opened += at(it, 'c') ? 1 : -1;
    unlock();
    if (comm && at(it, 'c') && made(it) && !error)
        learn(at(it, 'C') ? where(it, 'C') : at(it, 'c'), made(it), comm->id, now.number);
    if (comm && !at(it, 'c') && (at(it, 'W') || at(it, 'F')))
        WRITE(comm->handle, 0);
    r->calls += at(it, 'd') || at(it, 'b');
    WRITE(r->now.kind, NONE);
    if (it.kind & ENDS && is_open())
        close(memory);
}

/* All arguments of MPI are integers and addresses, twelve at most, so one form fits each call: in_NAME is MPI_NAME, and
   to_NAME PMPI_NAME, whose own forms mpi.h has. To hand on more arguments than there are does no harm: Linux has the
   first in registers, six on x86-64 and eight on AArch64, and each other one in 8 bytes of the caller's stack. A call
   that another one makes isn't seen. */
_Static_assert(sizeof(long) == 8 && __BYTE_ORDER__ == __ORDER_LITTLE_ENDIAN__, "an int is the first half of its word");
#define ARGUMENTS long a, long b, long c, long d, long e, long f, long g, long h, long i, long j, long k, long l
#define HERE ((uint64_t)(uintptr_t)__builtin_return_address(0))
#define CALL(name, kind, letters) \
    long to_##name(ARGUMENTS) __asm__("PMPI_" #name); \
    long in_##name(ARGUMENTS) __asm__("MPI_" #name); \
    long in_##name(ARGUMENTS) { \
        static const char text[NAME] = #name; \
        const long words[] = {a, b, c, d, e, f, g, h, i, j, k, l}; \
        return see((struct call){text, letters, words, kind, HERE}, to_##name); \
    }
INLINE long see(struct call it, long (*to)(ARGUMENTS)) {
    const long *w = it.words;
    struct record *r = mine ? mine : file ? new_record() : &nowhere;
    struct operation now = {0};
    int is_outer = r->depth++ == 0 && file;
    if (is_outer)
        now = enter(r, it);
    int error = to(w[0], w[1], w[2], w[3], w[4], w[5], w[6], w[7], w[8], w[9], w[10], w[11]);
    if (is_outer)
        leave(r, it, now, error);
    r->depth--;
    return error;
}
#define HIDES(name) CALL(name, OTHER, "")
#define SENDS(name, begun, kept) \
    CALL(name, SEND, "---ptc") CALL(begun, SEND, "---ptcb") CALL(kept, SEND | KEPT, "---ptcb")
#define MEETS(name, begun, kind, letters) CALL(name, kind, letters) CALL(begun, kind, letters "b")
#define NEAR(name, letters) MEETS(Neighbor_##name, Ineighbor_##name, OTHER, letters)
#define ON_FILE(name) CALL(name, OTHER, "f")
#define MOVES(name) ON_FILE(name) ON_FILE(name##_begin) ON_FILE(name##_end)

SENDS(Send, Isend, Send_init) SENDS(Ssend, Issend, Ssend_init) SENDS(Rsend, Irsend, Rsend_init)
HIDES(Bsend) CALL(Ibsend, OTHER, "------b") CALL(Bsend_init, OTHER | KEPT, "------b") HIDES(Buffer_detach)
CALL(Recv, RECEIVE, "---ptc") CALL(Irecv, RECEIVE, "---ptcb") CALL(Recv_init, RECEIVE | KEPT, "---ptcb") HIDES(Mrecv)
CALL(Probe, RECEIVE, "ptc") CALL(Mprobe, RECEIVE, "ptc") CALL(Iprobe, POLL, "ptcd") CALL(Improbe, POLL, "ptcd")
CALL(Wait, ALL_OF, "R") CALL(Waitall, ALL_OF, "nR") CALL(Waitany, ANY_OF, "nR") CALL(Waitsome, ANY_OF, "nR")
CALL(Test, POLL, "Rd") CALL(Testall, POLL, "nRd") CALL(Testany, POLL, "nR-d") CALL(Testsome, POLL, "nRd")
CALL(Request_get_status, POLL, "rd") CALL(Request_free, OTHER, "R") HIDES(Sendrecv_replace)

MEETS(Barrier, Ibarrier, ALL, "c") MEETS(Bcast, Ibcast, FROM_ROOT, "---pc") MEETS(Reduce, Ireduce, TO_ROOT, "-----pc")
MEETS(Gather, Igather, TO_ROOT, "------pc") MEETS(Gatherv, Igatherv, SOME, "-------pc")
MEETS(Scatter, Iscatter, FROM_ROOT, "------pc") MEETS(Scatterv, Iscatterv, SOME, "-------pc")
MEETS(Allgather, Iallgather, ALL, "------c") MEETS(Allgatherv, Iallgatherv, SOME, "-------c")
MEETS(Alltoall, Ialltoall, ALL, "------c") MEETS(Alltoallv, Ialltoallv, SOME, "--------c")
MEETS(Alltoallw, Ialltoallw, SOME, "--------c") MEETS(Allreduce, Iallreduce, ALL, "-----c")
MEETS(Reduce_scatter, Ireduce_scatter, SOME, "-----c") MEETS(Scan, Iscan, BEFORE, "-----c")
MEETS(Reduce_scatter_block, Ireduce_scatter_block, ALL, "-----c") MEETS(Exscan, Iexscan, BEFORE, "-----c")
NEAR(allgather, "------c") NEAR(allgatherv, "-------c")
NEAR(alltoall, "------c") NEAR(alltoallv, "--------c") NEAR(alltoallw, "--------c")

CALL(Comm_dup, ALL, "cC") CALL(Comm_dup_with_info, ALL, "c-C") CALL(Comm_create, ALL, "c-C")
CALL(Comm_split, ALL, "c--C") CALL(Comm_split_type, ALL, "c---C") CALL(Graph_create, ALL, "c----C")
CALL(Cart_create, ALL, "c----C") CALL(Cart_sub, ALL, "c-C") CALL(Dist_graph_create, ALL, "c-------C")
CALL(Dist_graph_create_adjacent, ALL, "c--------C") CALL(Finalize, OTHER | ENDS, "")
HIDES(Comm_create_group) HIDES(Comm_free) HIDES(Comm_disconnect) HIDES(Comm_accept) HIDES(Comm_connect)
HIDES(Comm_join) HIDES(Comm_spawn) HIDES(Comm_spawn_multiple) HIDES(Intercomm_create) HIDES(Intercomm_merge)
HIDES(Lookup_name) HIDES(Publish_name)

/* Calls on a window, but for those that put or get. Its fence needs all, unless it says that it ends nothing. */
CALL(Win_create, ALL, "----cW") CALL(Win_allocate, ALL, "---c-W") CALL(Win_allocate_shared, ALL, "---c-W")
CALL(Win_create_dynamic, ALL, "-cW") CALL(Win_free, ALL, "W") CALL(Win_fence, ALL, "aw")
CALL(Win_lock, LOCK | TAKES, "lp-w") CALL(Win_lock_all, LOCK | TAKES, "-w")
CALL(Win_unlock, LOCK | GIVES, "pw") CALL(Win_unlock_all, LOCK | GIVES, "w") CALL(Win_start, LOCK, "--w")
CALL(Win_flush, LOCK, "pw") CALL(Win_flush_all, LOCK, "w") CALL(Win_complete, LOCK, "w") CALL(Win_wait, LOCK, "w")
CALL(Win_flush_local, LOCK, "pw") CALL(Win_flush_local_all, LOCK, "w")

/* Collective calls on a file, of which MPI says that they needn't wait for all. */
CALL(File_open, OTHER, "c---F") CALL(File_close, OTHER, "F") ON_FILE(File_set_size) ON_FILE(File_preallocate)
ON_FILE(File_set_info) ON_FILE(File_set_atomicity) ON_FILE(File_sync) ON_FILE(File_set_view) ON_FILE(File_seek_shared)
MOVES(File_read_all) MOVES(File_read_at_all) MOVES(File_read_ordered) HIDES(File_read_shared)
MOVES(File_write_all) MOVES(File_write_at_all) MOVES(File_write_ordered) HIDES(File_write_shared)
#if MPI_VERSION > 3 || MPI_SUBVERSION > 0
CALL(File_iread_all, OTHER, "f---b") CALL(File_iread_at_all, OTHER, "f----b")
CALL(File_iwrite_all, OTHER, "f---b") CALL(File_iwrite_at_all, OTHER, "f----b")
#endif

/* What sends and receives is taken apart, so that it is seen which half it is in. */
long in_Sendrecv(ARGUMENTS) __asm__("MPI_Sendrecv");
long in_Sendrecv(ARGUMENTS) {
    static const char begins[NAME] = "Sendrecv", sends[NAME] = "Sendrecv sends", receives[NAME] = "Sendrecv receives";
    MPI_Request it;
    const long in[12] = {f, g, h, i, j, k, (long)&it}, out[12] = {a, b, c, d, e, k}, last[12] = {(long)&it, l, i, j, k};
    int error = see((struct call){begins, "---ptcb", in, RECEIVE, HERE}, to_Irecv);
    if (error)
        return error;
    error = see((struct call){sends, "---ptc", out, SEND, HERE}, to_Send);
    if (error)
        PMPI_Cancel(&it);
    int later = see((struct call){receives, "R-ptc", last, RECEIVE, HERE}, to_Wait);
    if ((int)i == MPI_PROC_NULL) /* whose status MPICH leaves empty in MPI_Wait */
        to_Recv(f, g, h, i, j, k, l, 0, 0, 0, 0, 0);
    return error ? error : later;
}

/* Keeps a request as it is before and after it is complete, where it is an address: that shows its word for this. */
static int no_status(void *extra, MPI_Status *status) { return (void)extra, (void)status, MPI_SUCCESS; }
static int nothing(void *extra) { return (void)extra, MPI_SUCCESS; }
static int no_cancel(void *extra, int done) { return (void)extra, (void)done, MPI_SUCCESS; }
static void keep_request(struct file *it) {
    MPI_Request request;
    if (sizeof request != sizeof(void *) || PMPI_Grequest_start(no_status, nothing, no_cancel, NULL, &request))
        return;
    memcpy(it->request[0], (void *)(uintptr_t)BITS(request), sizeof it->request[0]);
    PMPI_Grequest_complete(request);
    memcpy(it->request[1], (void *)(uintptr_t)BITS(request), sizeof it->request[1]);
    PMPI_Request_free(&request);
}
/* Keeps which threads there are. Those that MPI_Init has begun are MPI's own. */
static void keep_threads(int32_t *threads) {
    int number = 0;
    DIR *folder = opendir("/proc/self/task");
    for (struct dirent *it; folder && number < OWN && (it = readdir(folder));)
        threads[number++] = atoi(it->d_name);
    if (folder)
        closedir(folder);
}
/* Fills in what is known from the start. Returns 0, or that a call has failed. */
static int fill(struct file *it, int size, int asked) {
    int minor;
    it->pid = getpid(), it->size = size, it->asked = asked, it->any_source = MPI_ANY_SOURCE, it->any_tag = MPI_ANY_TAG;
    if (PMPI_Comm_rank(MPI_COMM_WORLD, &it->rank) || PMPI_Query_thread(&it->level)
        || PMPI_Get_version(&it->standard, &minor)
        || PMPI_Comm_create_keyval(MPI_COMM_NULL_COPY_FN, forget, &keyval, NULL))
        return 1;
    for (int rank = 0; rank < size; rank++)
        it->ranks[rank] = rank;
    it->comm[WORLD] = (struct comm){BITS((MPI_Comm){MPI_COMM_WORLD}), .id = 1, .size = size, .rank = it->rank};
    keep_request(it);
    memcpy(it->threads[0], before, sizeof before);
    keep_threads(it->threads[1]);
    memcpy(it->magic, "cmh_mpi3", 8);
    return 0;
}
static void make_record(int asked) {
    int size, made = PMPI_Comm_size(MPI_COMM_WORLD, &size) ? -1 : memfd_create("cmh_mpi", MFD_CLOEXEC);
    if (made < 0)
        return;
    size_t own = sizeof(struct file) + size * sizeof(int32_t), all = own + (COMMS - 1) * size * sizeof(int32_t);
    struct file *it = fstat(made, &identity) || ftruncate(made, all) || posix_fallocate(made, 0, own) ? MAP_FAILED
        : mmap(NULL, all, PROT_READ | PROT_WRITE, MAP_SHARED, made, 0);
    if (it == MAP_FAILED || pthread_key_create(&at_end, leave_thread) || fill(it, size, asked))
        close(made);
    else
        file = it, memory = made;
}
/* A call of ours that fails would end the job, as long as that has said nothing else of faults. */
static int begin_record(int error, int asked) {
    const MPI_Comm comms[] = {MPI_COMM_WORLD, MPI_COMM_SELF};
    MPI_Errhandler handlers[2];
    int number = 0;
    if (error || file)
        return error;
    while (number < 2 && !PMPI_Comm_get_errhandler(comms[number], &handlers[number])
           && !PMPI_Comm_set_errhandler(comms[number], MPI_ERRORS_RETURN))
        number++;
    if (number == 2)
        make_record(asked);
    while (number-- > 0) {
        PMPI_Comm_set_errhandler(comms[number], handlers[number]);
        PMPI_Errhandler_free(&handlers[number]);
    }
    return error;
}
int MPI_Init(int *count, char ***words) {
    keep_threads(before);
    return begin_record(PMPI_Init(count, words), MPI_THREAD_SINGLE);
}
int MPI_Init_thread(int *count, char ***words, int wanted, int *given) {
    keep_threads(before);
    return begin_record(PMPI_Init_thread(count, words, wanted, given), wanted);
}
