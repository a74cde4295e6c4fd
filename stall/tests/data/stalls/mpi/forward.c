/* Makes the calls that cmh_mpi.c sees, with two ranks, and says what comes out otherwise than MPI has it. */
#include <mpi.h>
#include <stdio.h>
#include <stdlib.h>

static int rank, other, faults;
#define WANTED(what, is, wanted) \
    do \
        if ((is) != (wanted)) \
            printf("rank %d: %s: %d and not %d\n", rank, what, (int)(is), (int)(wanted)), faults++; \
    while (0)
#define WORLD MPI_COMM_WORLD

static void messages(void) {
    int in = 0, out = 100 + rank, flag = 0, index, done, indices[2];
    MPI_Request r[2], kept[2];
    MPI_Status s[2];
    MPI_Message message;
    char buffer[4096];
    void *detached;
    if (rank == 0) {
        MPI_Send(&out, 1, MPI_INT, 1, 1, WORLD);
        MPI_Ssend(&out, 1, MPI_INT, 1, 2, WORLD);
        MPI_Buffer_attach(buffer, sizeof buffer);
        MPI_Bsend(&out, 1, MPI_INT, 1, 3, WORLD);
        MPI_Buffer_detach(&detached, &done);
        WANTED("Buffer_detach", detached == buffer && done == sizeof buffer, 1);
        for (int tag = 4; tag < 8; tag++)
            MPI_Send(&tag, 1, MPI_INT, 1, tag, WORLD);
    } else {
        MPI_Recv(&in, 1, MPI_INT, MPI_ANY_SOURCE, MPI_ANY_TAG, WORLD, s);
        WANTED("Recv", in * 1000 + s->MPI_TAG * 10 + s->MPI_SOURCE, 100010);
        MPI_Recv(&in, 1, MPI_INT, 0, 2, WORLD, s);
        MPI_Probe(0, MPI_ANY_TAG, WORLD, s);
        WANTED("Probe", s->MPI_TAG, 3);
        MPI_Recv(&in, 1, MPI_INT, 0, 3, WORLD, MPI_STATUS_IGNORE);
        MPI_Mprobe(0, 4, WORLD, &message, s);
        MPI_Mrecv(&in, 1, MPI_INT, &message, s);
        WANTED("Mrecv", in, 4);
        while (!flag)
            MPI_Iprobe(0, 5, WORLD, &flag, s);
        MPI_Recv(&in, 1, MPI_INT, 0, 5, WORLD, s);
        for (flag = 0; !flag;)
            MPI_Improbe(0, 6, WORLD, &flag, &message, s);
        MPI_Imrecv(&in, 1, MPI_INT, &message, r);
        MPI_Wait(r, s);
        WANTED("Imrecv", in, 6);
        MPI_Irecv(&in, 1, MPI_INT, 0, 7, WORLD, r);
        for (flag = 0; !flag;)
            MPI_Test(r, &flag, s);
        WANTED("Test", in + s->MPI_TAG, 14);
    }
    MPI_Sendrecv(&out, 1, MPI_INT, other, 8, &in, 1, MPI_INT, other, 8, WORLD, s);
    WANTED("Sendrecv", in + s->MPI_SOURCE, 100 + 2 * other);
    MPI_Sendrecv(&out, 1, MPI_INT, MPI_PROC_NULL, 8, &in, 1, MPI_INT, MPI_PROC_NULL, 8, WORLD, s);
    WANTED("Sendrecv of nobody", s->MPI_SOURCE, MPI_PROC_NULL);
    in = out;
    MPI_Sendrecv_replace(&in, 1, MPI_INT, other, 9, other, 9, WORLD, s);
    WANTED("Sendrecv_replace", in, 100 + other);
    int boxes[2] = {0, 0};
    for (int way = 0; way < 6; way++) {
        MPI_Irecv(boxes, 1, MPI_INT, other, way, WORLD, &r[0]);
        way % 2 ? MPI_Issend(&way, 1, MPI_INT, other, way, WORLD, &r[1])
                : MPI_Isend(&way, 1, MPI_INT, other, way, WORLD, &r[1]);
        if (way == 0)
            MPI_Waitall(2, r, s);
        if (way == 1)
            for (int at = 0; at < 2; at++)
                MPI_Waitany(2, r, &index, s);
        if (way == 2)
            for (int left = 2; left; left -= done)
                MPI_Waitsome(2, r, &done, indices, s);
        if (way == 3)
            for (flag = 0; !flag;)
                MPI_Testall(2, r, &flag, s);
        if (way == 4)
            for (int left = 2; left; left -= flag)
                MPI_Testany(2, r, &index, &flag, s);
        if (way == 5)
            for (int left = 2; left; left -= done)
                MPI_Testsome(2, r, &done, indices, s);
        WANTED("a way to wait", boxes[0], way);
        WANTED("its requests", r[0] == MPI_REQUEST_NULL && r[1] == MPI_REQUEST_NULL, 1);
    }
    MPI_Recv_init(boxes, 1, MPI_INT, other, 20, WORLD, &kept[0]);
    MPI_Send_init(&out, 1, MPI_INT, other, 20, WORLD, &kept[1]);
    for (int round = 0; round < 3; round++, out++) {
        MPI_Startall(2, kept);
        MPI_Waitall(2, kept, s);
        WANTED("a persistent request", boxes[0], 100 + other + round);
    }
    MPI_Request_free(&kept[0]);
    MPI_Request_free(&kept[1]);
}

static void meetings(void) {
    int one[2] = {rank, rank + 10}, all[4] = {0}, counts[2] = {1, 1}, places[2] = {0, 1}, sum = 0;
    MPI_Datatype types[2] = {MPI_INT, MPI_INT};
    int bytes[2] = {0, sizeof(int)};
    MPI_Request r;
    MPI_Barrier(WORLD);
    MPI_Ibarrier(WORLD, &r), MPI_Wait(&r, MPI_STATUS_IGNORE);
    int from = rank + 5;
    MPI_Bcast(&from, 1, MPI_INT, 1, WORLD);
    WANTED("Bcast", from, 6);
    from = rank + 7;
    MPI_Ibcast(&from, 1, MPI_INT, 0, WORLD, &r), MPI_Wait(&r, MPI_STATUS_IGNORE);
    WANTED("Ibcast", from, 7);
#define TRY(name, call, wanted) \
    all[0] = all[1] = sum = -1; \
    MPI_##call; \
    WANTED(name, all[0] * 100 + all[1], wanted)
#define TRY_BEGUN(name, call, wanted) \
    all[0] = all[1] = sum = -1; \
    MPI_##call; \
    MPI_Wait(&r, MPI_STATUS_IGNORE); \
    WANTED(name, all[0] * 100 + all[1], wanted)
    TRY("Gather", Gather(one, 1, MPI_INT, all, 1, MPI_INT, 1, WORLD), rank == 1 ? 1 : -101);
    TRY("Gatherv", Gatherv(one, 1, MPI_INT, all, counts, places, MPI_INT, 1, WORLD), rank == 1 ? 1 : -101);
    TRY("Scatter", Scatter(one, 1, MPI_INT, all, 1, MPI_INT, 1, WORLD), rank ? 1099 : 99);
    TRY("Scatterv", Scatterv(one, counts, places, MPI_INT, all, 1, MPI_INT, 1, WORLD), rank ? 1099 : 99);
    TRY("Allgather", Allgather(one, 1, MPI_INT, all, 1, MPI_INT, WORLD), 1);
    TRY("Allgatherv", Allgatherv(one, 1, MPI_INT, all, counts, places, MPI_INT, WORLD), 1);
    TRY("Alltoall", Alltoall(one, 1, MPI_INT, all, 1, MPI_INT, WORLD), rank ? 1011 : 1);
    TRY("Alltoallv", Alltoallv(one, counts, places, MPI_INT, all, counts, places, MPI_INT, WORLD), rank ? 1011 : 1);
    TRY("Alltoallw", Alltoallw(one, counts, bytes, types, all, counts, bytes, types, WORLD), rank ? 1011 : 1);
    TRY("Reduce", Reduce(one, all, 2, MPI_INT, MPI_SUM, 1, WORLD), rank ? 121 : -101);
    TRY("Allreduce", Allreduce(one, all, 2, MPI_INT, MPI_SUM, WORLD), 121);
    TRY("Scan", Scan(one, all, 2, MPI_INT, MPI_SUM, WORLD), rank ? 121 : 10);
    TRY("Exscan", Exscan(one, all, 2, MPI_INT, MPI_SUM, WORLD), rank ? 10 : -101);
    TRY("Reduce_scatter", Reduce_scatter(one, all, counts, MPI_INT, MPI_SUM, WORLD), rank ? 2099 : 99);
    TRY("Reduce_scatter_block", Reduce_scatter_block(one, all, 1, MPI_INT, MPI_SUM, WORLD), rank ? 2099 : 99);
    TRY_BEGUN("Igather", Igather(one, 1, MPI_INT, all, 1, MPI_INT, 1, WORLD, &r), rank == 1 ? 1 : -101);
    TRY_BEGUN("Iscatter", Iscatter(one, 1, MPI_INT, all, 1, MPI_INT, 1, WORLD, &r), rank ? 1099 : 99);
    TRY_BEGUN("Iallgather", Iallgather(one, 1, MPI_INT, all, 1, MPI_INT, WORLD, &r), 1);
    TRY_BEGUN("Ialltoall", Ialltoall(one, 1, MPI_INT, all, 1, MPI_INT, WORLD, &r), rank ? 1011 : 1);
    TRY_BEGUN("Ialltoallv", Ialltoallv(one, counts, places, MPI_INT, all, counts, places, MPI_INT, WORLD, &r),
              rank ? 1011 : 1);
    TRY_BEGUN("Ireduce", Ireduce(one, all, 2, MPI_INT, MPI_SUM, 1, WORLD, &r), rank ? 121 : -101);
    TRY_BEGUN("Iallreduce", Iallreduce(one, all, 2, MPI_INT, MPI_SUM, WORLD, &r), 121);
    TRY_BEGUN("Iscan", Iscan(one, all, 2, MPI_INT, MPI_SUM, WORLD, &r), rank ? 121 : 10);
}

static void put(MPI_Win win) { MPI_Put(&rank, 1, MPI_INT, other, 0, 1, MPI_INT, win); }
/* Each side puts its rank into the window of the other one, in turn by each way. */
static void windows(MPI_Win win, int *base) {
    MPI_Group all, one;
    int got = -1;
    *base = -1;
    MPI_Win_fence(MPI_MODE_NOPRECEDE, win);
    put(win);
    MPI_Win_fence(0, win);
    WANTED("Win_fence", *base, other);
    MPI_Win_fence(MPI_MODE_NOSUCCEED, win);
    MPI_Win_lock(MPI_LOCK_EXCLUSIVE, other, 0, win);
    put(win);
    MPI_Win_flush(other, win), MPI_Win_flush_local(other, win);
    MPI_Win_unlock(other, win);
    MPI_Barrier(WORLD);
    MPI_Win_lock_all(0, win);
    MPI_Get(&got, 1, MPI_INT, other, 0, 1, MPI_INT, win);
    MPI_Win_flush_all(win), MPI_Win_flush_local_all(win);
    MPI_Win_unlock_all(win);
    WANTED("Win_lock_all", got, rank);
    MPI_Comm_group(WORLD, &all);
    MPI_Group_incl(all, 1, &other, &one);
    *base = -1;
    MPI_Barrier(WORLD);
    MPI_Win_post(one, 0, win), MPI_Win_start(one, 0, win);
    put(win);
    MPI_Win_complete(win), MPI_Win_wait(win);
    WANTED("Win_wait", *base, other);
    MPI_Group_free(&one), MPI_Group_free(&all);
}

static void communicators(void) {
    int value = rank, sum, two = 2, ring = 1, number, kept = 1, size;
    MPI_Comm it, part;
    MPI_Group group;
    for (int round = 0; round < 200; round++) {
        MPI_Comm_dup(WORLD, &it);
        MPI_Allreduce(&value, &sum, 1, MPI_INT, MPI_SUM, it);
        WANTED("a sum of a copy", sum, 1);
        MPI_Comm_free(&it);
        WANTED("Comm_free", it == MPI_COMM_NULL, 1);
    }
    MPI_Comm_split(WORLD, rank, 0, &it);
    MPI_Comm_size(it, &size);
    WANTED("Comm_split", size, 1);
    MPI_Comm_split(WORLD, rank ? 0 : MPI_UNDEFINED, 0, &part);
    WANTED("Comm_split of one", part == MPI_COMM_NULL, rank == 0);
    MPI_Comm_group(WORLD, &group);
    MPI_Comm_create(WORLD, group, &part);
    MPI_Comm_create_group(WORLD, group, 3, &part);
    MPI_Comm_rank(part, &number);
    WANTED("Comm_create_group", number, rank);
    MPI_Comm_split_type(WORLD, MPI_COMM_TYPE_SHARED, 0, MPI_INFO_NULL, &part);
    MPI_Cart_create(WORLD, 1, &two, &ring, 0, &part);
    MPI_Cart_sub(part, &kept, &it);
    MPI_Comm_size(it, &size);
    WANTED("Cart_sub", size, 2);
    int near[2] = {-1, -1};
    MPI_Neighbor_allgather(&value, 1, MPI_INT, near, 1, MPI_INT, part);
    WANTED("Neighbor_allgather", near[0], other);
    MPI_Dist_graph_create_adjacent(WORLD, 1, &other, MPI_UNWEIGHTED, 1, &other, MPI_UNWEIGHTED, MPI_INFO_NULL, 0, &it);
    MPI_Neighbor_alltoall(&value, 1, MPI_INT, near, 1, MPI_INT, it);
    WANTED("Neighbor_alltoall", near[0], other);
    MPI_Comm_split(WORLD, rank, 0, &it);
    MPI_Intercomm_create(it, 0, WORLD, other, 5, &part);
    MPI_Sendrecv(&value, 1, MPI_INT, 0, 1, &near[1], 1, MPI_INT, 0, 1, part, MPI_STATUS_IGNORE);
    WANTED("Intercomm_create", near[1], other);
    MPI_Intercomm_merge(part, rank, &it);
    MPI_Comm_rank(it, &number);
    WANTED("Intercomm_merge", number, rank);
    MPI_Win win;
    int *base;
    MPI_Win_allocate(sizeof(int), sizeof(int), MPI_INFO_NULL, WORLD, &base, &win);
    windows(win, base);
    MPI_Win_free(&win);
    MPI_Comm_disconnect(&it);
}

static void files(const char *name) {
    int out[2] = {rank + 1, rank + 5}, in[2];
    MPI_File it;
    MPI_Offset at = rank * sizeof out, size;
    MPI_Request r;
    MPI_Status s;
    MPI_File_open(WORLD, name, MPI_MODE_CREATE | MPI_MODE_RDWR | MPI_MODE_DELETE_ON_CLOSE, MPI_INFO_NULL, &it);
    MPI_File_set_size(it, 0);
    MPI_File_preallocate(it, 2 * sizeof out);
    MPI_File_get_size(it, &size);
    WANTED("File_preallocate", size, (MPI_Offset)(2 * sizeof out));
#define TRY_FILE(name, write, read, wanted) \
    write; \
    MPI_File_sync(it); \
    MPI_Barrier(WORLD); \
    MPI_File_sync(it); \
    in[0] = in[1] = 0; \
    read; \
    WANTED(name, in[0] * 10 + in[1], wanted); \
    MPI_Barrier(WORLD); \
    out[0]++
    int first = out[0] * 10 + out[1];
    TRY_FILE("File_read_at_all", MPI_File_write_at_all(it, at, out, 2, MPI_INT, &s),
             MPI_File_read_at_all(it, at, in, 2, MPI_INT, &s), first);
    TRY_FILE("File_iread_at_all", (MPI_File_iwrite_at_all(it, at, out, 2, MPI_INT, &r), MPI_Wait(&r, &s)),
             (MPI_File_iread_at_all(it, at, in, 2, MPI_INT, &r), MPI_Wait(&r, &s)), first + 10);
    TRY_FILE("File_read_at_all_end",
             (MPI_File_write_at_all_begin(it, at, out, 2, MPI_INT), MPI_File_write_at_all_end(it, out, &s)),
             (MPI_File_read_at_all_begin(it, at, in, 2, MPI_INT), MPI_File_read_at_all_end(it, in, &s)), first + 20);
#define AGAIN MPI_File_set_view(it, at, MPI_INT, MPI_INT, "native", MPI_INFO_NULL)
    AGAIN;
    TRY_FILE("File_read_all", MPI_File_write_all(it, out, 2, MPI_INT, &s),
             (AGAIN, MPI_File_read_all(it, in, 2, MPI_INT, &s)), first + 30);
    AGAIN;
    TRY_FILE("File_iread_all", (MPI_File_iwrite_all(it, out, 2, MPI_INT, &r), MPI_Wait(&r, &s)),
             (AGAIN, MPI_File_iread_all(it, in, 2, MPI_INT, &r), MPI_Wait(&r, &s)), first + 40);
    AGAIN;
    TRY_FILE("File_read_all_end",
             (MPI_File_write_all_begin(it, out, 2, MPI_INT), MPI_File_write_all_end(it, out, &s)),
             (AGAIN, MPI_File_read_all_begin(it, in, 2, MPI_INT), MPI_File_read_all_end(it, in, &s)), first + 50);
    MPI_File_set_view(it, 0, MPI_INT, MPI_INT, "native", MPI_INFO_NULL);
#define BACK MPI_File_seek_shared(it, 0, MPI_SEEK_SET)
    BACK;
    TRY_FILE("File_read_ordered", MPI_File_write_ordered(it, out, 2, MPI_INT, &s),
             (BACK, MPI_File_read_ordered(it, in, 2, MPI_INT, &s)), first + 60);
    BACK;
    TRY_FILE("File_read_ordered_end",
             (MPI_File_write_ordered_begin(it, out, 2, MPI_INT), MPI_File_write_ordered_end(it, out, &s)),
             (BACK, MPI_File_read_ordered_begin(it, in, 2, MPI_INT), MPI_File_read_ordered_end(it, in, &s)), first + 70);
    BACK;
    TRY_FILE("File_read_shared", MPI_File_write_shared(it, in, 0, MPI_INT, &s),
             (BACK, MPI_File_read_shared(it, in, 0, MPI_INT, &s)), 0);
    MPI_File_set_atomicity(it, 1);
    MPI_File_set_info(it, MPI_INFO_NULL);
    MPI_File_close(&it);
    WANTED("File_close", it == MPI_FILE_NULL, 1);
}

int main(int argc, char **argv) {
    MPI_Init(&argc, &argv);
    MPI_Comm_rank(WORLD, &rank);
    other = 1 - rank;
    messages();
    meetings();
    communicators();
    files(argv[1]);
    MPI_Finalize();
    printf("rank %d is through\n", rank);
    return faults != 0;
}
