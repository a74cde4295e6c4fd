/* Makes calls that MPI refuses, and others beside them, and says what comes of each. Where cmh_mpi.so keeps a file, it
   closes that, and opens one of its own under the number. */
#include <dirent.h>
#include <fcntl.h>
#include <mpi.h>
#include <stdio.h>
#include <stdlib.h>
#include <string.h>
#include <sys/stat.h>
#include <unistd.h>

static void say(const char *name, int error) {
    int class = 0;
    MPI_Error_class(error, &class);
    printf("%s: %s\n", name, class == MPI_SUCCESS ? "done" : "refused");
}

static int file_of_library(void) {
    char path[300], target[300];
    int found = -1;
    DIR *folder = opendir("/proc/self/fd");
    for (struct dirent *it; (it = readdir(folder));) {
        snprintf(path, sizeof path, "/proc/self/fd/%s", it->d_name);
        ssize_t size = readlink(path, target, sizeof target - 1);
        target[size > 0 ? size : 0] = 0;
        found = strncmp(target, "/memfd:cmh_mpi ", 15) ? found : atoi(it->d_name);
    }
    closedir(folder);
    return found;
}

static void refuse(void) {
    int flag = 0, data = 0;
    MPI_Request request = MPI_REQUEST_NULL;
    say("a communicator that is none", MPI_Barrier(MPI_COMM_NULL));
    say("no place for a communicator", MPI_Comm_dup(MPI_COMM_WORLD, NULL));
    say("no place for a request", MPI_Irecv(&data, 1, MPI_INT, 0, 1, MPI_COMM_WORLD, NULL));
    say("no place for an answer", MPI_Test(&request, NULL, MPI_STATUS_IGNORE));
    say("no request", MPI_Wait(NULL, MPI_STATUS_IGNORE));
    say("no requests", MPI_Waitall(2, NULL, MPI_STATUSES_IGNORE));
    say("a number below zero", MPI_Waitall(-1, &request, MPI_STATUSES_IGNORE));
    say("a rank that isn't there", MPI_Send(&data, 1, MPI_INT, 99, 1, MPI_COMM_WORLD));
    say("a test", MPI_Test(&request, &flag, MPI_STATUS_IGNORE));
}

int main(int count, char **words) {
    MPI_Comm other;
    struct stat status;
    MPI_Init(&count, &words);
    if (count > 1) {
        MPI_Comm_set_errhandler(MPI_COMM_WORLD, MPI_ERRORS_RETURN);
        refuse();
    }
    int number = file_of_library(), own = open("/dev/null", O_RDONLY);
    FILE *mine = tmpfile();
    if (number >= 0)
        dup2(fileno(mine), number);
    say("a copy", MPI_Comm_dup(MPI_COMM_WORLD, &other));
    say("a barrier of it", MPI_Barrier(other));
    MPI_Finalize();
    fstat(fileno(mine), &status);
    printf("its own file: %ld, %d\n", (long)status.st_size, number < 0 || fcntl(number, F_GETFD) >= 0);
    close(own);
    return 0;
}
