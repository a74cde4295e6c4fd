/* Small jobs that stall, and their healthy twins, in which a rank computes first. Usage: calls NAME stuck|slow

   `record NAME stuck|slow` keeps the state of one, as cmh_mpi.so shows it. */
#include <mpi.h>
#include <pthread.h>
#include <semaphore.h>
#include <signal.h>
#include <stdlib.h>
#include <string.h>
#include <time.h>
#include <unistd.h>

enum { TAG = 7, LATER = 8, LAST = 9, MANY = 100000 };
static int rank, size, is_slow, it;
static double *edge;
static MPI_Comm world;

static void compute(void) {
    time_t end = time(NULL) + 600;
    while (time(NULL) < end) {}
}
/* What the rank does on which the others wait: it computes in the healthy one. */
static void be_late(void) {
    if (is_slow)
        compute();
}
static void receive(int from, int tag) { MPI_Recv(&it, 1, MPI_INT, from, tag, world, MPI_STATUS_IGNORE); }
static void send(int to, int tag) { MPI_Send(&it, 1, MPI_INT, to, tag, world); }
static MPI_Request receive_later(int from, int tag) {
    static int boxes[8], used;
    MPI_Request request;
    MPI_Irecv(&boxes[used++], 1, MPI_INT, from, tag, world, &request);
    return request;
}
static int next(void) { return (rank + 1) % size; }
static int before(void) { return (rank + size - 1) % size; }

/* All send long messages round before they receive. */
static void send_ring(void) {
    if (rank == 1)
        be_late();
    if (!is_slow || rank != 1)
        MPI_Send(edge, MANY, MPI_DOUBLE, next(), TAG, world);
    MPI_Recv(edge, MANY, MPI_DOUBLE, before(), TAG, world, MPI_STATUS_IGNORE);
}
/* Rank 0 receives from rank 1, which receives from rank 2, which receives from rank 0. Rank 3 sleeps. */
static void wrong_source(void) {
    if (rank == 3)
        nanosleep(&(struct timespec){600, 0}, NULL);
    if (rank == 2)
        be_late();
    receive(rank == 0 ? 1 : rank == 1 ? 2 : 0, TAG);
}
/* Rank 0 receives one result more than it gets, and the workers wait for it. Rank 3 looks ten times a second for the
   progress that rank 0 tells. */
static void watched(void) {
    int flag = 0;
    while (rank == 3 && !flag) {
        MPI_Iprobe(0, TAG, world, &flag, MPI_STATUS_IGNORE);
        nanosleep(&(struct timespec){0, 100000000}, NULL);
    }
    for (int result = 0; rank == 0 && result < 2; result++)
        receive(MPI_ANY_SOURCE, LATER);
    if (rank == 2)
        be_late();
    if (rank == 1 || rank == 2 && is_slow)
        send(0, LATER);
    if (rank < 3)
        receive(0, TAG);
}
/* Rank 3 looks until rank 0 tells it something, or in the healthy job sends what rank 0 waits for after some time. */
static void nap(void) { nanosleep(&(struct timespec){0, 100000000}, NULL); }
static void guard(MPI_Comm of) {
    for (int flag;;) {
        MPI_Iprobe(0, TAG, of, &flag, MPI_STATUS_IGNORE);
        if (flag)
            break;
        nap();
    }
    receive(0, TAG);
}
static void guard_for_a_time(void) {
    for (int flag, looks = 0; looks < 6000; looks++) {
        MPI_Iprobe(0, TAG, world, &flag, MPI_STATUS_IGNORE);
        if (flag)
            return;
        nap();
    }
    send(0, LATER);
}
static void wait_for_results(void) {
    for (int result = 0; rank == 0 && result < 2; result++)
        receive(MPI_ANY_SOURCE, LATER);
    if (rank == 1)
        send(0, LATER);
    receive(0, TAG);
}
static void guarded(void) { rank < 3 ? wait_for_results() : is_slow ? guard_for_a_time() : guard(world); }
/* The same beside a rank that only sleeps, which in the healthy job sends in the end. */
static void tick(void) {
    for (int ticks = 0; ticks < 6000; ticks++)
        nap();
}
static void tick_and_send(void) {
    tick();
    send(0, LATER);
}
static void ticking(void) { rank < 3 ? wait_for_results() : is_slow ? tick_and_send() : tick(); }
/* Rank 3 looks in the same way beside a thread that sleeps, and in the healthy job then sends. The job hasn't said
   whether such a thread calls MPI. */
static void *beat(void *unused) {
    for (;;)
        usleep(200000);
    return unused;
}
static void *beat_and_send(void *unused) {
    for (;;) {
        sleep(600);
        send(0, LATER);
    }
    return unused;
}
static void beating(void) {
    pthread_t heartbeat;
    if (rank < 3)
        wait_for_results();
    pthread_create(&heartbeat, NULL, is_slow ? beat_and_send : beat, NULL);
    guard(world);
}
/* Healthy: rank 0 sends so many short messages to rank 3 that it waits for room, which that one's next look makes. */
static void look_seldom(void) {
    for (int flag, looks = 0; looks < 100; looks++) {
        MPI_Iprobe(0, TAG, world, &flag, MPI_STATUS_IGNORE);
        if (flag)
            return;
        sleep(60);
    }
}
static void filled(void) {
    for (int sent = 0; rank == 0 && sent < MANY; sent++)
        send(3, LATER);
    for (int other = 1; rank == 0 && other < size; other++)
        send(other, TAG);
    if (rank == 3)
        look_seldom();
    else if (rank > 0)
        receive(0, TAG);
}
/* Rank 0 looks for requests and answers them, and the others wait for an answer. In the healthy job it comes to look
   for another tag, and a message with that is there. */
static void answer(void) {
    for (int flag;;) {
        MPI_Status from;
        MPI_Iprobe(MPI_ANY_SOURCE, LATER, world, &flag, &from);
        if (flag) {
            receive(from.MPI_SOURCE, LATER);
            send(from.MPI_SOURCE, TAG);
        } else
            nap();
    }
}
static void answer_in_turn(void) {
    for (int flag, looks = 0;; looks++) {
        MPI_Status from;
        MPI_Iprobe(MPI_ANY_SOURCE, looks < 6000 ? LATER : LAST, world, &flag, &from);
        if (flag) {
            receive(from.MPI_SOURCE, LAST);
            send(from.MPI_SOURCE, TAG);
        } else
            nap();
    }
}
static void ask(void) {
    send(0, is_slow ? LAST : TAG);
    receive(0, TAG);
}
static void desk(void) { rank > 0 ? ask() : is_slow ? answer_in_turn() : answer(); }
/* Rank 0 is in a broadcast, the others at a barrier. */
static void mismatch(void) {
    if (rank == 0)
        be_late();
    if (rank == 0)
        MPI_Bcast(&it, 1, MPI_INT, 1, world);
    MPI_Barrier(world);
}
/* Rank 0 waits for messages of ranks 1 and 2. That of rank 1 has come, which then computes, or waits for rank 0. */
static void waitall(void) {
    MPI_Request requests[2] = {MPI_REQUEST_NULL, MPI_REQUEST_NULL};
    if (rank == 0) {
        requests[0] = receive_later(1, TAG), requests[1] = receive_later(2, TAG);
        MPI_Waitall(2, requests, MPI_STATUSES_IGNORE);
    } else if (rank == 1) {
        send(0, TAG);
        if (is_slow)
            receive(0, LATER);
        compute();
    } else {
        be_late();
        receive(0, LATER);
    }
}
/* Rank 0 waits for any of two messages. */
static void waitany(void) {
    MPI_Request requests[2];
    int index;
    if (rank == 0) {
        requests[0] = receive_later(1, TAG), requests[1] = receive_later(2, TAG);
        MPI_Waitany(2, requests, &index, MPI_STATUS_IGNORE);
    }
    if (rank == 2)
        be_late();
    receive(0, LATER);
}
static void any_source(void) {
    if (rank == 2)
        be_late();
    receive(rank == 0 ? MPI_ANY_SOURCE : 0, TAG);
}
/* A grid of two rows and two columns: ranks 0 and 3 sum over their rows, 1 and 2 over their columns. */
static void grid(void) {
    MPI_Comm row, column;
    int sum, is_of_row = rank == 0 || rank == 3;
    MPI_Comm_split(world, rank / 2, rank, &row);
    MPI_Comm_split(world, rank % 2, rank, &column);
    if (rank == 1)
        be_late();
    MPI_Allreduce(&rank, &sum, 1, MPI_INT, MPI_SUM, is_of_row || (is_slow && rank == 1) ? row : column);
    MPI_Allreduce(&rank, &sum, 1, MPI_INT, MPI_SUM, is_of_row ? column : row);
}
/* All exchange round, and rank 2 waits for another tag than its neighbour has sent. */
static void sendrecv(void) {
    int other, tag = rank == 2 && !is_slow ? LATER : TAG;
    if (rank == 1)
        be_late();
    MPI_Sendrecv(&it, 1, MPI_INT, next(), TAG, &other, 1, MPI_INT, before(), tag, world, MPI_STATUS_IGNORE);
}
/* All but rank 2 wait for a barrier that they have begun, and rank 2 for a message that rank 0 sends after it. */
static void ibarrier(void) {
    MPI_Request request;
    if (rank == 2) {
        be_late();
        if (!is_slow)
            receive(0, TAG);
    }
    MPI_Ibarrier(world, &request);
    MPI_Wait(&request, MPI_STATUS_IGNORE);
    if (rank == 0)
        send(2, TAG);
}
/* A token goes round and round, or nobody has it. */
static void token(void) {
    if (rank == 0 && is_slow)
        send(next(), TAG);
    for (;;) {
        receive(before(), TAG);
        send(next(), TAG);
    }
}
/* Two ranks poll for a message of each other. */
static void polls(void) {
    MPI_Request request = receive_later(1 - rank, TAG);
    if (rank == 1)
        be_late();
    for (int done = 0; !done;)
        MPI_Test(&request, &done, MPI_STATUS_IGNORE);
}
/* Ranks 0 and 1 receive from each other. Another thread of rank 0 has sent once, and sends again if it is slow. */
static void *help(void *unused) {
    send(0, LATER);
    if (is_slow)
        compute();
    else
        receive(1, LATER);
    return unused;
}
static void threads(void) {
    pthread_t helper;
    if (rank == 0) {
        pthread_create(&helper, NULL, help, NULL);
        receive(0, LATER);
    }
    receive(1 - rank, TAG);
}
/* The same of a job that says to MPI_Init that one thread calls MPI: the other one computes, or waits for ever. */
static void *idle(void *unused) {
    static pthread_mutex_t mutex = PTHREAD_MUTEX_INITIALIZER;
    pthread_mutex_lock(&mutex);
    if (is_slow)
        nanosleep(&(struct timespec){600, 0}, NULL);
    pthread_mutex_lock(&mutex);
    return unused;
}
static void funneled(void) {
    pthread_t helper;
    if (rank == 0)
        pthread_create(&helper, NULL, idle, NULL);
    receive(1 - rank, TAG);
}
/* Rank 0 waits for a message of rank 1, which looks at its window until rank 0 puts something there. */
static void window(void) {
    volatile int *place;
    MPI_Win win;
    MPI_Win_allocate(sizeof *place, sizeof *place, MPI_INFO_NULL, world, &place, &win);
    if (rank == 0)
        receive(1, TAG);
    while (!*place) {}
}
/* Rank 3 hasn't come to a sum whose root is rank 0. The others have given their part, and are at a barrier. */
static void reduce(void) {
    int sum;
    if (rank == 3) {
        be_late();
        receive(0, TAG);
    }
    MPI_Reduce(&rank, &sum, 1, MPI_INT, MPI_SUM, 0, world);
    MPI_Barrier(world);
}
/* Persistent requests: those of the first round are complete and begun again. */
static void persistent(void) {
    MPI_Request requests[2];
    MPI_Recv_init(&it, 1, MPI_INT, before(), TAG, world, &requests[0]);
    MPI_Send_init(&rank, 1, MPI_INT, next(), TAG, world, &requests[1]);
    for (int round = 0;; round++) {
        if (rank == 1 && round == 3) {
            be_late();
            receive(2, LATER);
        }
        MPI_Startall(2, requests);
        MPI_Waitall(2, requests, MPI_STATUSES_IGNORE);
    }
}
/* Each rank frees a communicator once it has its part of a broadcast, which rank 1 hands on to rank 3. */
static void use_and_free(MPI_Comm step) {
    if (rank == 1)
        be_late();
    if (rank == 1 && !is_slow)
        receive(3, LATER);
    MPI_Bcast(&it, 1, MPI_INT, 0, step);
    MPI_Comm_free(&step);
    if (rank == 3)
        send(0, TAG);
    if (rank == 0)
        receive(3, TAG);
}
static void freed(void) {
    MPI_Comm step;
    MPI_Comm_dup(world, &step);
    use_and_free(step);
}
/* The same of one that was made of another one, which is freed too. */
static void freed_twice(void) {
    MPI_Comm copy, step;
    MPI_Comm_dup(world, &copy);
    MPI_Comm_dup(copy, &step);
    MPI_Comm_free(&copy);
    use_and_free(step);
}
/* All write into a file together. The second time rank 2 has nothing to write, and skips that, or computes first. */
static void file(void) {
    MPI_File output;
    MPI_File_open(world, "output", MPI_MODE_CREATE | MPI_MODE_WRONLY, MPI_INFO_NULL, &output);
    for (int round = 0; round < 2; round++) {
        if (rank == 2 && round == 1)
            be_late();
        if (rank != 2 || round == 0 || is_slow)
            MPI_File_write_at_all(output, rank * sizeof rank, &rank, 1, MPI_INT, MPI_STATUS_IGNORE);
    }
    MPI_Barrier(world);
    MPI_File_close(&output);
}
/* They write in the order of ranks, where rank 2 waits for a message of rank 0, or computes first. */
static void file_ordered(void) {
    MPI_File output;
    MPI_Request request;
    MPI_File_open(world, "output", MPI_MODE_CREATE | MPI_MODE_WRONLY, MPI_INFO_NULL, &output);
    MPI_File_set_view(output, 0, MPI_INT, MPI_INT, "native", MPI_INFO_NULL);
    MPI_File_iwrite_at_all(output, rank, &rank, 1, MPI_INT, &request);
    MPI_Wait(&request, MPI_STATUS_IGNORE);
    if (rank == 2)
        be_late();
    if (rank == 2 && !is_slow)
        receive(0, TAG);
    MPI_File_write_ordered(output, &rank, 1, MPI_INT, MPI_STATUS_IGNORE);
    MPI_File_close(&output);
}

/* A message of two gigabytes goes from rank 0 to rank 1, again and again. */
static void transfer(void) {
    int n = 1 << 28;
    double *all = calloc(n, sizeof *all);
    for (int round = 0;; round++)
        if (rank == 0)
            MPI_Send(all, n, MPI_DOUBLE, 1, TAG, world);
        else
            MPI_Recv(all, n, MPI_DOUBLE, 0, TAG, world, MPI_STATUS_IGNORE);
}
/* The same, where rank 0 has begun to send it and is at a barrier. */
static void transfer_begun(void) {
    int n = 1 << 28;
    double *all = calloc(n, sizeof *all);
    MPI_Request request;
    for (int round = 0;; round++) {
        if (rank == 0)
            MPI_Isend(all, n, MPI_DOUBLE, 1, TAG, world, &request);
        else
            MPI_Recv(all, n, MPI_DOUBLE, 0, TAG, world, MPI_STATUS_IGNORE);
        MPI_Barrier(world);
        if (rank == 0)
            MPI_Wait(&request, MPI_STATUS_IGNORE);
    }
}
/* Both exchange messages of two gigabytes, again and again. */
static void exchange(void) {
    int n = 1 << 28;
    double *out = calloc(n, sizeof *out), *in = calloc(n, sizeof *in);
    for (;;)
        MPI_Sendrecv(out, n, MPI_DOUBLE, 1 - rank, TAG, in, n, MPI_DOUBLE, 1 - rank, TAG, world, MPI_STATUS_IGNORE);
}

/* Rank 1 has the lock of rank 0's window for itself, which rank 2 wants, and waits for a message of that, or computes.
   Rank 3 hasn't come to the barrier either: it waits for rank 1. */
static void locks(void) {
    int *place;
    MPI_Win win;
    MPI_Win_allocate(sizeof *place, sizeof *place, MPI_INFO_NULL, world, &place, &win);
    if (rank == 2)
        receive(1, LATER);
    if (rank == 1 || rank == 2)
        MPI_Win_lock(MPI_LOCK_EXCLUSIVE, 0, 0, win);
    if (rank == 1) {
        send(2, LATER);
        be_late();
        receive(2, TAG);
    } else if (rank == 2)
        send(1, TAG);
    if (rank == 1 || rank == 2)
        MPI_Win_unlock(0, win);
    if (rank == 3)
        receive(1, TAG);
    MPI_Win_free(&win);
}
/* All meet at a fence of a window, which rank 2 has skipped: it waits for rank 0, or computes. */
static void fence(void) {
    int *place;
    MPI_Win win;
    MPI_Win_allocate(sizeof *place, sizeof *place, MPI_INFO_NULL, world, &place, &win);
    for (int round = 0; round < 3; round++) {
        if (rank == 2 && round == 2) {
            be_late();
            receive(0, TAG);
        }
        MPI_Win_fence(0, win);
        MPI_Put(&rank, 1, MPI_INT, next(), 0, 1, MPI_INT, win);
    }
}
/* A thread of each waits for its turn to send, which an alarm gives it, or nobody. Rank 0 receives from rank 1, which
   waits for its thread first. */
static sem_t turn;
static void give(int number) { number ? (void)sem_post(&turn) : (void)0; }
static void *send_in_turn(void *unused) {
    sem_wait(&turn);
    send(1 - rank, TAG);
    return unused;
}
static void parked(void) {
    pthread_t sender;
    sem_init(&turn, 0, 0);
    if (is_slow)
        signal(SIGALRM, give), alarm(600);
    pthread_create(&sender, NULL, send_in_turn, NULL);
    if (rank == 1)
        pthread_join(sender, NULL);
    receive(1 - rank, TAG);
}
/* Ranks 1 and 2 wait for each other, or rank 1 computes. The others exchange with all. Each has a heartbeat, of which
   it has said to MPI_Init that it doesn't call MPI. */
static void asked(void) {
    pthread_t heartbeat;
    int numbers[4] = {1, 1, 1, 1}, at[4] = {0, 1, 2, 3}, out[4] = {0}, in[4];
    pthread_create(&heartbeat, NULL, beat, NULL);
    if (rank == 1)
        be_late();
    if (rank == 1 || rank == 2)
        receive(3 - rank, TAG);
    MPI_Alltoallv(out, numbers, at, MPI_INT, in, numbers, at, MPI_INT, world);
}

static const struct { const char *name; int ranks, level; void (*work)(void); } JOBS[] = {
    {"send_ring", 4, 0, send_ring}, {"wrong_source", 4, 0, wrong_source}, {"watched", 4, 0, watched},
    {"guarded", 4, 0, guarded}, {"ticking", 4, 0, ticking}, {"desk", 3, 0, desk},
    {"beating", 4, 0, beating}, {"filled", 4, 0, filled},
    {"mismatch", 3, 0, mismatch},
    {"waitall", 3, 0, waitall}, {"waitany", 3, 0, waitany}, {"any_source", 3, 0, any_source}, {"grid", 4, 0, grid},
    {"sendrecv", 4, 0, sendrecv}, {"ibarrier", 3, 0, ibarrier}, {"token", 4, 0, token}, {"polls", 2, 0, polls},
    {"threads", 2, MPI_THREAD_MULTIPLE, threads}, {"funneled", 2, 0, funneled},
    {"window", 2, 0, window}, {"reduce", 4, 0, reduce}, {"persistent", 4, 0, persistent},
    {"freed", 4, 0, freed}, {"freed_twice", 4, 0, freed_twice}, {"file", 3, 0, file},
    {"file_ordered", 3, 0, file_ordered}, {"locks", 4, 0, locks}, {"fence", 3, 0, fence},
    {"parked", 2, MPI_THREAD_MULTIPLE, parked}, {"asked", 4, MPI_THREAD_FUNNELED, asked},
    {"transfer", 2, 0, transfer}, {"transfer_begun", 2, 0, transfer_begun}, {"exchange", 2, 0, exchange},
    {0},
};

int main(int argc, char **argv) {
    int given, at = 0;
    while (JOBS[at].name && strcmp(JOBS[at].name, argv[1]))
        at++;
    MPI_Init_thread(&argc, &argv, JOBS[at].level, &given);
    MPI_Comm_rank(MPI_COMM_WORLD, &rank);
    MPI_Comm_dup(MPI_COMM_WORLD, &world);
    MPI_Comm_size(world, &size);
    is_slow = !strcmp(argv[2], "slow");
    edge = calloc(MANY, sizeof *edge);
    if (size != JOBS[at].ranks)
        MPI_Abort(world, 2);
    JOBS[at].work();
    MPI_Finalize();
    return argc < 3;
}
