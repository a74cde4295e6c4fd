/* Ranks that hand a number round and sum one in each step, at a steady rate. The first one logs each step: when it
   began, the seconds that it took, and whether all numbers were right. They end once its standard input does.
   Usage: mpirun -np 3 steps STEPS_A_SECOND LOG */
#include <mpi.h>
#include <poll.h>
#include <stdio.h>
#include <stdlib.h>
#include <time.h>
#include <unistd.h>

static double now(clockid_t clock) {
    struct timespec it;
    clock_gettime(clock, &it);
    return it.tv_sec + it.tv_nsec / 1e9;
}

static int has_ended(void) {
    struct pollfd in = {STDIN_FILENO, POLLIN, 0};
    char byte;
    return poll(&in, 1, 0) == 1 && read(STDIN_FILENO, &byte, 1) <= 0;
}

/* How many ranks have met a number that isn't right, or with `ends` that all are to end. */
static long step(int rank, int size, long number, long *ends) {
    long found = -1, sums[3] = {number, 0, rank == 0 ? has_ended() : 0};
    MPI_Sendrecv(&number, 1, MPI_LONG, (rank + 1) % size, 1, &found, 1, MPI_LONG, (rank + size - 1) % size, 1,
                 MPI_COMM_WORLD, MPI_STATUS_IGNORE);
    sums[1] = found != number;
    MPI_Allreduce(MPI_IN_PLACE, sums, 3, MPI_LONG, MPI_SUM, MPI_COMM_WORLD);
    *ends = sums[2];
    return sums[1] + (sums[0] != size * number);
}

int main(int argc, char **argv) {
    int rank, size, pause = 1000000 / atoi(argv[1]);
    MPI_Init(&argc, &argv);
    MPI_Comm_rank(MPI_COMM_WORLD, &rank);
    MPI_Comm_size(MPI_COMM_WORLD, &size);
    FILE *log = rank == 0 ? fopen(argv[2], "a") : NULL;
    printf("ready 0 %d\n", getpid());
    fflush(stdout);
    long ends = 0;
    for (long number = 1; !ends; number++) {
        double began = now(CLOCK_REALTIME), first = now(CLOCK_MONOTONIC);
        long wrong = step(rank, size, number, &ends), is_right = wrong == 0;
        if (log) {
            fprintf(log, "%.6f %.6f %ld\n", began, now(CLOCK_MONOTONIC) - first, is_right);
            fflush(log);
        }
        usleep(pause);
    }
    MPI_Finalize();
}
