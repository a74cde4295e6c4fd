/* A render farm. Rank 0 gives out tiles; ranks 1 to 3 render, and 1 and 2 swap the overlap of their tiles; rank 5 logs;
   ranks 4 to 7 have a communicator of their own for statistics; rank 8 has nothing to do, and ends.
   Usage: mpirun -np 9 farm CELLS SECONDS, with the cells of an overlap, and how long rank 2 renders. */
#include <mpi.h>
#include <stdlib.h>
#include <unistd.h>

enum { FARM = 0, TILE = 1, OVERLAP = 2, LINE = 3, COUNT = 4 };

static double *overlap;

static void swap_overlap(int other, int cells) {
    MPI_Send(overlap, cells, MPI_DOUBLE, other, OVERLAP, MPI_COMM_WORLD);
    MPI_Recv(overlap, cells, MPI_DOUBLE, other, OVERLAP, MPI_COMM_WORLD, MPI_STATUS_IGNORE);
}

static void coordinate(void) {
    int tile;
    MPI_Recv(&tile, 1, MPI_INT, MPI_ANY_SOURCE, TILE, MPI_COMM_WORLD, MPI_STATUS_IGNORE);
    MPI_Send(&tile, 1, MPI_INT, 3, TILE, MPI_COMM_WORLD);
    MPI_Send(&tile, 1, MPI_INT, 7, COUNT, MPI_COMM_WORLD);
}

static void render_next(void) {
    int tile;
    MPI_Recv(&tile, 1, MPI_INT, FARM, TILE, MPI_COMM_WORLD, MPI_STATUS_IGNORE);
}

static void render(int rank, int seconds) {
    sleep(rank == 2 ? seconds : 0);
}

static void report(void) {
    int tile = 1;
    MPI_Send(&tile, 1, MPI_INT, FARM, TILE, MPI_COMM_WORLD);
    MPI_Send(&tile, 1, MPI_INT, 5, LINE, MPI_COMM_WORLD);
}

static void log_line(void) {
    int line;
    MPI_Recv(&line, 1, MPI_INT, MPI_ANY_SOURCE, LINE, MPI_COMM_WORLD, MPI_STATUS_IGNORE);
}

/* In the communicator of statistics the ranks 4 to 7 of the world are 0 to 3. */
static void sum_up(MPI_Comm statistics) {
    int one = 1, sum;
    MPI_Allreduce(&one, &sum, 1, MPI_INT, MPI_SUM, statistics);
}

static void count_first(MPI_Comm statistics) {
    int counts[2], index;
    MPI_Request requests[2];
    MPI_Irecv(&counts[0], 1, MPI_INT, FARM, COUNT, MPI_COMM_WORLD, &requests[0]);
    MPI_Irecv(&counts[1], 1, MPI_INT, 2, COUNT, statistics, &requests[1]);
    MPI_Waitany(2, requests, &index, MPI_STATUS_IGNORE);
    MPI_Cancel(&requests[1 - index]);
}

int main(int argc, char **argv) {
    int rank, cells = atoi(argv[1]), seconds = atoi(argv[2]);
    MPI_Comm statistics;
    MPI_Init(&argc, &argv);
    MPI_Comm_rank(MPI_COMM_WORLD, &rank);
    MPI_Comm_split(MPI_COMM_WORLD, rank >= 4 && rank <= 7, rank, &statistics);
    overlap = calloc(cells, sizeof *overlap);
    if (rank == FARM) {
        coordinate();
    } else if (rank == 1 || rank == 2) {
        render(rank, seconds);
        swap_overlap(3 - rank, cells);
        report();
    } else if (rank == 3) {
        render_next();
    } else if (rank <= 7) {
        if (rank == 5)
            log_line();
        if (rank == 7)
            count_first(statistics);
        sum_up(statistics);
    }
    MPI_Finalize();
    return 0;
}
