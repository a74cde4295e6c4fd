/* Loaded before cmh_mpi.so, it lets a function fail that this calls, by the name in FAIL. MPI then does with the job
   what that has asked for. */
#define _GNU_SOURCE
#include <dlfcn.h>
#include <errno.h>
#include <mpi.h>
#include <pthread.h>
#include <stdlib.h>
#include <string.h>
#include <sys/mman.h>
#include <sys/types.h>

static int is_asked(const char *name, void *caller) {
    const char *asked = getenv("FAIL");
    Dl_info found;
    if (!asked || strcmp(asked, name) || !dladdr(caller, &found) || !strstr(found.dli_fname, "cmh_mpi.so"))
        return 0;
    if (!strncmp(name, "PMPI_", 5))
        PMPI_Comm_call_errhandler(MPI_COMM_WORLD, MPI_ERR_OTHER);
    errno = ENOSPC;
    return 1;
}
#define FAILS(type, name, value, arguments, words) \
    type name arguments { \
        if (is_asked(#name, __builtin_return_address(0))) \
            return value; \
        return ((type (*) arguments)dlsym(RTLD_NEXT, #name)) words; \
    }
#define REFUSES(name, arguments, words) FAILS(int, PMPI_##name, MPI_ERR_OTHER, arguments, words)

FAILS(int, memfd_create, -1, (const char *name, unsigned flags), (name, flags))
FAILS(int, ftruncate, -1, (int file, off_t size), (file, size))
FAILS(int, posix_fallocate, ENOSPC, (int file, off_t at, off_t size), (file, at, size))
FAILS(void *, mmap, MAP_FAILED, (void *at, size_t size, int how, int flags, int file, off_t from),
      (at, size, how, flags, file, from))
FAILS(int, pthread_key_create, EAGAIN, (pthread_key_t *key, void (*end)(void *)), (key, end))
REFUSES(Comm_size, (MPI_Comm comm, int *size), (comm, size))
REFUSES(Comm_rank, (MPI_Comm comm, int *rank), (comm, rank))
REFUSES(Query_thread, (int *level), (level))
REFUSES(Get_version, (int *version, int *minor), (version, minor))
REFUSES(Comm_create_keyval, (MPI_Comm_copy_attr_function *copy, MPI_Comm_delete_attr_function *end, int *key, void *it),
        (copy, end, key, it))
REFUSES(Grequest_start, (MPI_Grequest_query_function *query, MPI_Grequest_free_function *end,
                         MPI_Grequest_cancel_function *cancel, void *it, MPI_Request *request),
        (query, end, cancel, it, request))
REFUSES(Comm_test_inter, (MPI_Comm comm, int *flag), (comm, flag))
REFUSES(Comm_group, (MPI_Comm comm, MPI_Group *group), (comm, group))
REFUSES(Group_size, (MPI_Group group, int *size), (group, size))
REFUSES(Group_translate_ranks, (MPI_Group one, int number, const int *ranks, MPI_Group other, int *to),
        (one, number, ranks, other, to))
REFUSES(Comm_set_attr, (MPI_Comm comm, int key, void *value), (comm, key, value))
