/* Rank 0 waits for a helper over a FIFO, the helper for rank 1, and rank 1 for rank 0. */
#include <fcntl.h>
#include <mpi.h>
#include <unistd.h>

int main(int argc, char **argv) {
    int rank, it;
    char one = 0;
    MPI_Init(&argc, &argv);
    MPI_Comm_rank(MPI_COMM_WORLD, &rank);
    if (rank == 0) {
        it = open("answer", O_RDONLY);
        if (read(it, &one, 1) != 1) return 1;
        MPI_Send(&one, 1, MPI_CHAR, 1, 0, MPI_COMM_WORLD);
    } else {
        it = open("question", O_WRONLY);
        MPI_Recv(&one, 1, MPI_CHAR, 0, 0, MPI_COMM_WORLD, MPI_STATUS_IGNORE);
        if (write(it, &one, 1) != 1) return 1;
    }
    MPI_Finalize();
    return 0;
}
