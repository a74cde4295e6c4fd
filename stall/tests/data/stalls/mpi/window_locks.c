/* A task farm with two shared tables, each in a window: the catalogue at rank 0, and the quotas at rank 5. A worker
   locks both for an update; rank 2 begins with the one, and rank 3 with the other.
   Usage: mpirun -np 6 stock stuck|healthy */
#include <mpi.h>
#include <stdio.h>
#include <string.h>
#include <unistd.h>

enum { CATALOGUE = 0, QUOTAS = 5, SLOTS = 64 };

static MPI_Win catalogue, quotas;
static int me, healthy;

/* The memory of a window is at one rank alone. */
static MPI_Win make_window(int owner) {
    MPI_Win window;
    int *table;
    MPI_Win_allocate(me == owner ? SLOTS * sizeof *table : 0, sizeof *table, MPI_INFO_NULL, MPI_COMM_WORLD, &table,
                     &window);
    return window;
}

static void lock_table(int owner) {
    MPI_Win_lock(MPI_LOCK_EXCLUSIVE, owner, 0, owner == CATALOGUE ? catalogue : quotas);
}

static void unlock_table(int owner) {
    MPI_Win_unlock(owner, owner == CATALOGUE ? catalogue : quotas);
}

/* Prices the items that an update needs. */
static void price(int seconds) {
    sleep(seconds);
}

static void update(int first, int second) {
    int one = me;
    lock_table(first);
    price(healthy && me == 2 ? 45 : 1);
    lock_table(second);
    MPI_Put(&one, 1, MPI_INT, first, me, 1, MPI_INT, first == CATALOGUE ? catalogue : quotas);
    MPI_Put(&one, 1, MPI_INT, second, me, 1, MPI_INT, second == CATALOGUE ? catalogue : quotas);
    unlock_table(second);
    unlock_table(first);
}

static void look_up(int owner) {
    int item;
    sleep(2);
    lock_table(owner);
    MPI_Get(&item, 1, MPI_INT, owner, 0, 1, MPI_INT, owner == CATALOGUE ? catalogue : quotas);
    unlock_table(owner);
}

static void write_checkpoint(int seconds) {
    sleep(seconds);
}

static void meet_all(void) {
    MPI_Barrier(MPI_COMM_WORLD);
}

int main(int argc, char **argv) {
    MPI_Init(&argc, &argv);
    MPI_Comm_rank(MPI_COMM_WORLD, &me);
    healthy = !strcmp(argv[1], "healthy");
    catalogue = make_window(CATALOGUE);
    quotas = make_window(QUOTAS);
    meet_all();
    if (me == 1)
        look_up(CATALOGUE);
    else if (me == 2)
        update(CATALOGUE, QUOTAS);
    else if (me == 3 && healthy) {
        sleep(1);
        update(CATALOGUE, QUOTAS);
    } else if (me == 3)
        update(QUOTAS, CATALOGUE);
    else if (me == 4)
        write_checkpoint(90);
    meet_all();
    MPI_Win_free(&quotas);
    MPI_Win_free(&catalogue);
    MPI_Finalize();
    return 0;
}
