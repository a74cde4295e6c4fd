/* One step of an ocean model. Ranks 0 to 3 hold the ocean and hand their edges round; rank 4 sums;
   rank 5 has nothing to do; rank 6 writes files; rank 7 shows whatever comes first. All meet at the end.
   Usage: mpirun -np 8 halo CELLS SECONDS, with the cells of an edge, and how long rank 2 computes. */
#include <mpi.h>
#include <stdlib.h>
#include <unistd.h>

enum { OCEAN = 4, SUM = 4, WRITER = 6, VIEWER = 7, EDGE = 10, PART = 11, PICTURE = 12 };

static double *edge;

static void compute(int rank, int seconds) {
    sleep(rank == 2 ? seconds : 0);
}

static void send_to(int to, int tag, int cells) {
    MPI_Send(edge, cells, MPI_DOUBLE, to, tag, MPI_COMM_WORLD);
}

static void receive_from(int from, int tag, int cells) {
    MPI_Recv(edge, cells, MPI_DOUBLE, from, tag, MPI_COMM_WORLD, MPI_STATUS_IGNORE);
}

static void receive_from_any(int from, int or_from, int tag) {
    double pictures[2];
    MPI_Request requests[2];
    int index;
    MPI_Irecv(&pictures[0], 1, MPI_DOUBLE, from, tag, MPI_COMM_WORLD, &requests[0]);
    MPI_Irecv(&pictures[1], 1, MPI_DOUBLE, or_from, tag, MPI_COMM_WORLD, &requests[1]);
    MPI_Waitany(2, requests, &index, MPI_STATUS_IGNORE);
}

static void write_files(int seconds) {
    sleep(seconds);
}

static void meet_all(int rank) {
    MPI_Barrier(MPI_COMM_WORLD);
}

int main(int argc, char **argv) {
    int rank, cells = atoi(argv[1]), seconds = atoi(argv[2]);
    MPI_Init(&argc, &argv);
    MPI_Comm_rank(MPI_COMM_WORLD, &rank);
    edge = calloc(cells, sizeof *edge);
    if (rank < OCEAN) {
        compute(rank, seconds);
        send_to((rank + 1) % OCEAN, EDGE, cells);
        receive_from((rank + OCEAN - 1) % OCEAN, EDGE, cells);
        if (rank == 0)
            send_to(SUM, PART, 1);
    } else if (rank == SUM) {
        receive_from(0, PART, 1);
        send_to(VIEWER, PICTURE, 1);
    } else if (rank == WRITER) {
        write_files(60);
    } else if (rank == VIEWER) {
        receive_from_any(SUM, WRITER, PICTURE);
    }
    meet_all(rank);
    MPI_Finalize();
    return 0;
}
