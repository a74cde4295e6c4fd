// Stalls of threads, each with its healthy twin. Usage: stalls NAME stuck|slow
#include <condition_variable>
#include <cstring>
#include <linux/io_uring.h>
#include <mutex>
#include <pthread.h>
#include <shared_mutex>
#include <string>
#include <sys/mman.h>
#include <sys/ptrace.h>
#include <sys/syscall.h>
#include <sys/wait.h>
#include <thread>
#include <unistd.h>

static bool is_slow;
static std::mutex stock, orders;

static void rest() { sleep(600); }

static void sell() {
    std::lock_guard<std::mutex> first(stock);
    usleep(300000);
    std::lock_guard<std::mutex> second(orders);
}

static void count() {
    std::lock_guard<std::mutex> first(orders);
    usleep(300000);
    if (is_slow) rest();
    std::lock_guard<std::mutex> second(stock);
}

// Two threads take two mutexes in two orders, and a third one joins the first.
static void mutexes() {
    std::thread seller(sell), counter(count);
    seller.join();
    counter.join();
}

// A reader of a lock waits for its writer, which joins the reader.
static void rwlock() {
    static std::shared_mutex lock;
    static std::thread reader;
    std::thread writer([] {
        lock.lock();
        reader = std::thread([] { lock.lock_shared(); });
        usleep(300000);
        if (is_slow) rest();
        reader.join();
    });
    writer.join();
}

// A thread waits for a condition that nobody signals; nobody knows who could.
static void condition() {
    static std::condition_variable changed;
    std::unique_lock<std::mutex> lock(stock);
    if (is_slow) std::thread(rest).detach();
    changed.wait(lock);
}

// A parent is in vfork, and its child reads a pipe that only the two have open.
static void fork_in_place() {
    int ends[2];
    char one;
    if (pipe(ends)) return;
    if (vfork() == 0) {
        if (is_slow) rest();
        if (read(ends[0], &one, 1)) _exit(1);
        _exit(0);
    }
}

// A child has stopped for its tracer, which reads a pipe that only the two have open.
static void traced() {
    int ends[2];
    char one;
    if (pipe(ends)) return;
    if (fork() == 0) {
        ptrace(PTRACE_TRACEME, 0, nullptr, nullptr);
        raise(SIGSTOP);
        _exit(0);
    }
    waitpid(-1, nullptr, 0);
    if (is_slow) rest();
    if (read(ends[0], &one, 1)) _exit(1);
}

// The first thread has ended, and the other one reads a pipe whose other end the process has itself.
static void headless() {
    std::thread([] {
        int ends[2];
        char one;
        if (pipe(ends)) return;
        if (is_slow) rest();
        if (read(ends[0], &one, 1)) _exit(1);
    }).detach();
    pthread_exit(nullptr);
}

// Mutexes of several processes, in memory that they share.
struct Shared {
    pthread_mutex_t stock, orders;
};

static Shared *shared_mutexes(int is_robust, int protocol) {
    auto them = static_cast<Shared *>(
        mmap(nullptr, sizeof(Shared), PROT_READ | PROT_WRITE, MAP_SHARED | MAP_ANONYMOUS, -1, 0));
    pthread_mutexattr_t how;
    pthread_mutexattr_init(&how);
    pthread_mutexattr_setpshared(&how, PTHREAD_PROCESS_SHARED);
    pthread_mutexattr_setrobust(&how, is_robust);
    pthread_mutexattr_setprotocol(&how, protocol);
    pthread_mutex_init(&them->stock, &how);
    pthread_mutex_init(&them->orders, &how);
    return them;
}

static void take_both(pthread_mutex_t *first, pthread_mutex_t *second, bool is_resting) {
    pthread_mutex_lock(first);
    usleep(300000);
    if (is_resting) rest();
    pthread_mutex_lock(second);
}

// Two processes take two mutexes in two orders.
static void shared(int is_robust) {
    Shared *them = shared_mutexes(is_robust, PTHREAD_PRIO_NONE);
    if (fork() == 0) take_both(&them->orders, &them->stock, is_slow);
    take_both(&them->stock, &them->orders, false);
}

// A process waits for a mutex of which the kernel keeps the owner, which reads a pipe of the first one.
static void inherits() {
    Shared *them = shared_mutexes(PTHREAD_MUTEX_STALLED, PTHREAD_PRIO_INHERIT);
    int ends[2];
    char one;
    if (pipe(ends)) return;
    if (fork() == 0) {
        close(ends[1]);
        pthread_mutex_lock(&them->stock);
        if (is_slow) rest();
        if (read(ends[0], &one, 1)) _exit(1);
        rest();
    }
    close(ends[0]);
    usleep(300000);
    pthread_mutex_lock(&them->stock);
}

// A writer waits for a reader of a lock, which joins the writer. glibc doesn't keep who reads.
static void reader() {
    static pthread_rwlock_t lock = PTHREAD_RWLOCK_INITIALIZER;
    pthread_rwlock_rdlock(&lock);
    std::thread writer([] { pthread_rwlock_wrlock(&lock); });
    usleep(300000);
    if (is_slow) rest();
    writer.join();
}

// A thread waits at a barrier for one that joins it.
static void barrier() {
    static pthread_barrier_t line;
    pthread_barrier_init(&line, nullptr, 2);
    std::thread other([] { pthread_barrier_wait(&line); });
    if (is_slow) rest();
    other.join();
}

// A thread of a parent has a mutex while it forks, so that in the child nobody can ever let go of it.
static void forked() {
    std::thread([] {
        stock.lock();
        rest();
    }).detach();
    usleep(300000);
    pid_t child = fork();
    if (child == 0) {
        if (is_slow) rest();
        stock.lock();
    }
    waitpid(child, nullptr, 0);
}

// The io_uring of a process keeps the end of a pipe that the process has closed. The reader of the pipe has the end
// too, and waits. The process waits for the reader.
static void ring() {
    int ends[2], back[2];
    char one;
    if (pipe(ends) || pipe(back)) return;
    if (fork() == 0) {
        close(back[1]);
        close(ends[0]);
        struct io_uring_params how = {};
        int it = syscall(__NR_io_uring_setup, 8, &how);
        syscall(__NR_io_uring_register, it, IORING_REGISTER_FILES, &ends[1], 1);
        close(ends[1]);
        if (is_slow) rest();
        if (read(back[0], &one, 1)) _exit(1);
    }
    close(back[0]);
    if (read(ends[0], &one, 1)) _exit(1);
}

int main(int, char **words) {
    is_slow = !strcmp(words[2], "slow");
    std::string name = words[1];
    if (name == "mutexes") mutexes();
    if (name == "rwlock") rwlock();
    if (name == "condition") condition();
    if (name == "vfork") fork_in_place();
    if (name == "traced") traced();
    if (name == "headless") headless();
    if (name == "shared") shared(PTHREAD_MUTEX_STALLED);
    if (name == "robust") shared(PTHREAD_MUTEX_ROBUST);
    if (name == "inherits") inherits();
    if (name == "reader") reader();
    if (name == "barrier") barrier();
    if (name == "forked") forked();
    if (name == "ring") ring();
    rest();
}
