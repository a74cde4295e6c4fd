/* Output of a weather model. Ranks 0 to 3 hold the grid, and write each variable into one file together. Rank 4 draws
   what rank 0 sends it, and rank 5 keeps the log. All meet at the end.
   A rank without cells of a variable skips the write, though that is a call of all. (As with HDF5 and NetCDF.)
   Usage: mpirun -np 6 output FILE stuck|healthy */
#include <mpi.h>
#include <stdio.h>
#include <stdlib.h>
#include <string.h>
#include <unistd.h>

enum { GRID = 4, CELLS = 4096, DRAWER = 4, LOGGER = 5, PICTURE = 10 };

static double field[CELLS];
static MPI_Comm grid;
static int me, healthy;

/* The snow of the north: rank 3 holds the tropics. */
static int cells_with_snow(void) {
    return me == 3 ? 0 : CELLS;
}

static void compute(int step) {
    for (int i = 0; i < CELLS; i++)
        field[i] = step + me + i * 1e-3;
    if (healthy && me == 3)
        sleep(45);
}

static void write_variable(MPI_File file, int variable, int cells) {
    MPI_Offset at = ((MPI_Offset)variable * GRID + me) * sizeof field;
    MPI_File_write_at_all(file, at, field, cells, MPI_DOUBLE, MPI_STATUS_IGNORE);
}

static double total(double mine) {
    double sum;
    MPI_Allreduce(&mine, &sum, 1, MPI_DOUBLE, MPI_SUM, grid);
    return sum;
}

static void draw(void) {
    double picture[64];
    MPI_Recv(picture, 64, MPI_DOUBLE, 0, PICTURE, MPI_COMM_WORLD, MPI_STATUS_IGNORE);
}

/* Looks each second whether the job is over. */
static void keep_log(int seconds) {
    for (int i = 0; i < seconds; i++)
        sleep(1);
}

static void model(const char *name) {
    MPI_File file;
    MPI_File_open(grid, name, MPI_MODE_CREATE | MPI_MODE_WRONLY, MPI_INFO_NULL, &file);
    write_variable(file, 0, CELLS);
    compute(1);
    int snow = cells_with_snow();
    if (snow > 0 || healthy)
        write_variable(file, 1, snow);
    double all = total(snow);
    if (me == 0) {
        printf("%g cells with snow\n", all);
        MPI_Send(field, 64, MPI_DOUBLE, DRAWER, PICTURE, MPI_COMM_WORLD);
    }
    MPI_File_close(&file);
}

int main(int argc, char **argv) {
    MPI_Init(&argc, &argv);
    MPI_Comm_rank(MPI_COMM_WORLD, &me);
    healthy = !strcmp(argv[2], "healthy");
    MPI_Comm_split(MPI_COMM_WORLD, me < GRID, me, &grid);
    if (me < GRID)
        model(argv[1]);
    else if (me == DRAWER)
        draw();
    else
        keep_log(90);
    MPI_Barrier(MPI_COMM_WORLD);
    MPI_Finalize();
    return 0;
}
