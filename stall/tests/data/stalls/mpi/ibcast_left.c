/* New parameters go round by MPI_Ibcast while the ranks do other work. Rank 2 waits for the first tile of rank 1, which
   that one makes with the new parameters. argv[1]: healthy (the root computes before it waits) | stuck (rank 1
   wants a report of rank 2 first) */
#include <mpi.h>
#include <stdio.h>
#include <stdlib.h>
#include <string.h>
#include <unistd.h>
enum { N = 200000 };

static void compute(int seconds) { sleep(seconds); }

int main(int argc, char **argv) {
    int rank, healthy = !strcmp(argv[1], "healthy");
    double *parameters = calloc(N, sizeof *parameters), tile = 0;
    MPI_Request request;
    MPI_Init(&argc, &argv);
    MPI_Comm_rank(MPI_COMM_WORLD, &rank);
    if (rank == 2)
        MPI_Recv(&tile, 1, MPI_DOUBLE, 1, 4, MPI_COMM_WORLD, MPI_STATUS_IGNORE);
    MPI_Ibcast(parameters, N, MPI_DOUBLE, 0, MPI_COMM_WORLD, &request);
    if (rank == 0 && healthy)
        compute(60);
    if (rank == 1 && !healthy)
        MPI_Recv(&tile, 1, MPI_DOUBLE, 2, 5, MPI_COMM_WORLD,
                 MPI_STATUS_IGNORE);
    MPI_Wait(&request, MPI_STATUS_IGNORE);
    if (rank == 1)
        MPI_Send(&tile, 1, MPI_DOUBLE, 2, 4, MPI_COMM_WORLD);
    if (rank == 2 && !healthy)
        MPI_Send(&tile, 1, MPI_DOUBLE, 1, 5, MPI_COMM_WORLD);
    printf("rank %d has the parameters\n", rank);
    fflush(stdout);
    MPI_Finalize();
    return 0;
}
