/* A halo exchange with work in between: each rank looks with MPI_Request_get_status whether its neighbour's halo is
   there, and meanwhile does a piece of other work. argv[1]: healthy | stuck (who sends only once it has received) */
#include <mpi.h>
#include <sched.h>
#include <stdio.h>
#include <string.h>
#include <unistd.h>


static void other_work(void) {
    usleep(20000);
}

static void await_halo(MPI_Request *request) {
    int done = 0;
    while (!done) {
        MPI_Request_get_status(*request, &done, MPI_STATUS_IGNORE);
        if (!done)
            other_work();
    }
    MPI_Wait(request, MPI_STATUS_IGNORE);
}

int main(int argc, char **argv) {
    int rank, size, healthy = !strcmp(argv[1], "healthy");
    double halo = 0;
    MPI_Request request;
    MPI_Init(&argc, &argv);
    MPI_Comm_rank(MPI_COMM_WORLD, &rank);
    MPI_Comm_size(MPI_COMM_WORLD, &size);
    int before = (rank + size - 1) % size, after = (rank + 1) % size;
    MPI_Irecv(&halo, 1, MPI_DOUBLE, before, 2, MPI_COMM_WORLD, &request);
    if (healthy && rank == 0) {
        sleep(60); /* a slow start */
        MPI_Send(&halo, 1, MPI_DOUBLE, after, 2, MPI_COMM_WORLD);
    }
    await_halo(&request);
    if (!(healthy && rank == 0))
        MPI_Send(&halo, 1, MPI_DOUBLE, after, 2, MPI_COMM_WORLD);
    MPI_Barrier(MPI_COMM_WORLD);
    printf("rank %d done\n", rank);
    fflush(stdout);
    MPI_Finalize();
    return 0;
}
