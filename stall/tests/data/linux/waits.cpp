// A thread at each kind of wait, below functions of its own, for the names that a debugger finds on its stack.
#include <alloca.h>
#include <atomic>
#include <condition_variable>
#include <functional>
#include <future>
#include <mutex>
#include <poll.h>
#include <pthread.h>
#include <semaphore.h>
#include <signal.h>
#include <thread>
#include <unistd.h>
#define OWN __attribute__((noinline))

static volatile long done;
static int line[2];
static std::mutex held;
static sem_t permits;
static pthread_rwlock_t sides = PTHREAD_RWLOCK_INITIALIZER;
static pthread_barrier_t gate;
static std::promise<int> promise;
static std::once_flag flag;

OWN static void lock() { held.lock(); done = done + 1; }
OWN static void turn() {
    std::mutex guard;
    std::condition_variable any;
    std::unique_lock<std::mutex> hold(guard);
    any.wait(hold, [] { return done < 0; });
}
OWN static void permit() { sem_wait(&permits); done = done + 1; }
OWN static void side() { pthread_rwlock_rdlock(&sides); done = done + 1; }
OWN static void meet() { pthread_barrier_wait(&gate); done = done + 1; }
OWN static void answer() { promise.get_future().get(); done = done + 1; }
OWN static void take() { char it[64]; done = done + read(line[0], it, sizeof it); }
OWN static void take_far() { volatile char it[20000]; it[5] = 1; done = done + read(line[0], (char *)it, 64); }
OWN static void take_some() { char *it = (char *)alloca(100 + done % 3); done = done + read(line[0], it, 64); }
OWN static void look() { pollfd it = {line[0], POLLIN, 0}; poll(&it, 1, -1); done = done + 1; }
OWN static void once() { std::call_once(flag, [] { take(); done = done + 1; }); }
OWN static void sleep_long() { sleep(10000); done = done + 1; }
OWN static void call() { std::function<void()> it = [] { take(); done = done + 1; }; it(); done = done + 1; }
OWN static void deep(int depth) { if (depth) deep(depth - 1); else take(); done = done + 1; }
OWN static void dig() { deep(12); done = done + 1; }
OWN static void handle(int) { permit(); done = done + 1; }
OWN static void interrupt() { pthread_kill(pthread_self(), SIGUSR1); done = done + 1; }
OWN static void join() { std::thread it([] { lock(); done = done + 1; }); it.join(); done = done + 1; }

typedef void (*Work)();
static Work all[] = {lock, turn, permit, side, meet, answer, take, take_far, take_some, look, once, sleep_long, call,
                     dig, interrupt, join};

OWN static void *start(void *work) { (*(Work *)work)(); done = done + 1; return nullptr; }

int main() {
    pthread_t it;
    if (pipe(line)) return 1;
    held.lock();
    pthread_rwlock_wrlock(&sides);
    pthread_barrier_init(&gate, nullptr, 99);
    signal(SIGUSR1, handle);
    for (Work &work : all) pthread_create(&it, nullptr, start, &work);
    pthread_join(it, nullptr);
}
