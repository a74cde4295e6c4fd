// Waits of which the kernel knows who may end them at most, each with its healthy twin. Usage: bounds NAME stuck|slow
#include <condition_variable>
#include <csignal>
#include <cstring>
#include <fcntl.h>
#include <mqueue.h>
#include <mutex>
#include <poll.h>
#include <sched.h>
#include <semaphore.h>
#include <string>
#include <sys/ipc.h>
#include <sys/mman.h>
#include <sys/sem.h>
#include <sys/shm.h>
#include <sys/signalfd.h>
#include <sys/socket.h>
#include <sys/wait.h>
#include <thread>
#include <unistd.h>

static bool is_slow;
static sem_t permit;

static void rest() { sleep(600); }

static void take() { sem_wait(&permit); }

// Two workers take jobs, and the main thread waits until all are done. One job isn't counted.
static void pool() {
    static std::mutex lock;
    static std::condition_variable work, done;
    static int jobs = 4, finished = 0;
    for (int i = 0; i < 2; i++)
        std::thread([] {
            std::unique_lock<std::mutex> held(lock);
            for (;;) {
                work.wait(held, [] { return jobs > 0; });
                int job = jobs--;
                if (job == 2 && is_slow) { held.unlock(); rest(); held.lock(); }
                if (job != 2) finished++;
                done.notify_one();
            }
        }).detach();
    std::unique_lock<std::mutex> held(lock);
    done.wait(held, [] { return finished == 4; });
}

// Three workers of one shared memory meet, and who has started them waits. One of four has ended too early.
static void gang() {
    struct Shared { pthread_mutex_t lock; pthread_cond_t turn; int there; };
    int ways = PROT_READ | PROT_WRITE, kind = MAP_SHARED | MAP_ANONYMOUS;
    auto *it = static_cast<Shared *>(mmap(nullptr, sizeof(Shared), ways, kind, -1, 0));
    pthread_mutexattr_t of_lock;
    pthread_condattr_t of_turn;
    pthread_mutexattr_init(&of_lock);
    pthread_condattr_init(&of_turn);
    pthread_mutexattr_setpshared(&of_lock, PTHREAD_PROCESS_SHARED);
    pthread_condattr_setpshared(&of_turn, PTHREAD_PROCESS_SHARED);
    pthread_mutex_init(&it->lock, &of_lock);
    pthread_cond_init(&it->turn, &of_turn);
    for (int i = 0; i < 4; i++)
        if (fork() == 0) {
            if (i == 3 && is_slow) rest();
            if (i == 3) _exit(1);
            pthread_mutex_lock(&it->lock);
            it->there++;
            while (it->there < 4) pthread_cond_wait(&it->turn, &it->lock);
            _exit(0);
        }
    while (wait(nullptr) > 0) continue;
}

// A process that was made by vfork has all memory of its parent, whose threads wait for it alone.
static int give_later(void *) {
    rest();
    sem_post(&permit);
    _exit(0);
}

static void kin() {
    static char stack[65536];
    clone(give_later, stack + sizeof stack, CLONE_VM | SIGCHLD, nullptr);
    std::thread(take).join();
}

// A handler of SIGTERM gives a permit, as where a service waits to be told to end.
static void told() {
    signal(SIGTERM, [](int) { sem_post(&permit); });
    std::thread(take).join();
}

// A worker waits for a named semaphore, and others open that when they have something for it. The one that has made it
// shows it with a name that is gone.
static void named() {
    sem_unlink("/cmh-named");
    sem_t *it = sem_open("/cmh-named", O_CREAT, 0600, 0);
    sem_wait(it);
}

// A server answers each question, and its client asks all before it takes an answer. Both queues are full.
static void queues() {
    struct mq_attr of = {};
    char text[8];
    of.mq_maxmsg = 4;
    of.mq_msgsize = sizeof text;
    mqd_t asks = mq_open("/cmh-asks", O_CREAT | O_RDWR, 0600, &of);
    mqd_t says = mq_open("/cmh-says", O_CREAT | O_RDWR, 0600, &of);
    mq_unlink("/cmh-asks");
    mq_unlink("/cmh-says");
    if (fork() == 0)
        for (int i = 0; mq_receive(asks, text, sizeof text, nullptr) >= 0; i++) {
            if (i == 2 && is_slow) rest();
            mq_send(says, text, 1, 0);
        }
    for (int i = 0; i < 20; i++) mq_send(asks, text, 1, 0);
}

// Two workers take jobs from a queue that others open by its name when they have one. Who has started them waits.
static void jobs() {
    struct mq_attr of = {};
    char text[8];
    of.mq_maxmsg = 4;
    of.mq_msgsize = sizeof text;
    mqd_t it = mq_open("/cmh-jobs", O_CREAT | O_RDWR, 0600, &of);
    for (int i = 0; i < 2; i++)
        if (fork() == 0) {
            mq_receive(it, text, sizeof text, nullptr);
            _exit(0);
        }
    while (wait(nullptr) > 0) continue;
}

// A keeper waits for the end of one of two workers, of which each waits for the other one's message.
static void keeper() {
    int ends[2];
    char one;
    sigset_t set;
    sigemptyset(&set);
    sigaddset(&set, SIGCHLD);
    sigaddset(&set, SIGTERM);
    sigprocmask(SIG_BLOCK, &set, nullptr);
    socketpair(AF_UNIX, SOCK_STREAM, 0, ends);
    for (int i = 0; i < 2; i++)
        if (fork() == 0) {
            close(ends[1 - i]);
            if (i == 1 && is_slow) rest();
            _exit(read(ends[i], &one, 1) != 1);
        }
    close(ends[0]);
    close(ends[1]);
    struct pollfd it = {signalfd(-1, &set, 0), POLLIN, 0};
    poll(&it, 1, -1);
}

// A keeper has taken from its set that it is told of the end of a child: it waits for SIGHUP, as to read its settings.
static void settings() {
    sigset_t set;
    int number;
    sigemptyset(&set);
    sigaddset(&set, SIGHUP);
    sigprocmask(SIG_BLOCK, &set, nullptr);
    std::thread(take).detach();
    sigwait(&set, &number);
    sem_post(&permit);
}

static void take_of(int set, unsigned short number) {
    struct sembuf it = {number, -1, 0};
    semop(set, &it, 1);
}

// Two children take two semaphores of System V in two orders. Nobody but those below the one that made them has them.
static void sets() {
    int set = semget(IPC_PRIVATE, 2, 0600);
    for (int i = 0; i < 2; i++) semctl(set, i, SETVAL, 1);
    for (int i = 0; i < 2; i++)
        if (fork() == 0) {
            take_of(set, i);
            usleep(300000);
            if (i == 1 && is_slow) rest();
            take_of(set, 1 - i);
            _exit(0);
        }
    while (wait(nullptr) > 0) continue;
}

// A process waits for a semaphore of System V that an orphan of it gives in time, in a session of its own.
static void orphan() {
    int set = semget(IPC_PRIVATE, 1, 0600);
    pid_t child = fork();
    if (child == 0) {
        if (fork() || setsid() < 0) _exit(0);
        rest();
    }
    waitpid(child, nullptr, 0);
    take_of(set, 0);
}

// A worker waits for a semaphore in memory of System V. Nobody else can have that once it is destroyed. In the twin it
// isn't, and who has let go of it attaches it again in time.
static void segment() {
    int number = shmget(IPC_PRIVATE, sizeof(sem_t), 0600);
    auto *it = static_cast<sem_t *>(shmat(number, nullptr, 0));
    sem_init(it, 1, 0);
    if (!is_slow) shmctl(number, IPC_RMID, nullptr);
    pid_t worker = fork();
    if (worker == 0) _exit(sem_wait(it));
    if (is_slow && fork() == 0) {
        shmdt(it);
        rest();
        sem_post(static_cast<sem_t *>(shmat(number, nullptr, 0)));
        _exit(0);
    }
    waitpid(worker, nullptr, 0);
}

// Somebody fills a queue of messages alone, as who takes from it is about to be started again.
static void filled() {
    struct mq_attr of = {};
    char text[8];
    of.mq_maxmsg = 4;
    of.mq_msgsize = sizeof text;
    mqd_t it = mq_open("/cmh-filled", O_CREAT | O_RDWR, 0600, &of);
    if (fork() == 0) {
        mq_close(it);
        rest();
        it = mq_open("/cmh-filled", O_RDONLY);
        while (mq_receive(it, text, sizeof text, nullptr) >= 0) continue;
    }
    for (int i = 0; i < 8; i++) mq_send(it, text, 1, 0);
}

// A handler of SIGTERM writes to a pipe at which its own process waits, as where a service waits to be told to end.
static int own_end[2];

static void piped() {
    char one;
    if (pipe(own_end)) return;
    signal(SIGTERM, [](int) { if (write(own_end[1], "x", 1) != 1) _exit(1); });
    _exit(read(own_end[0], &one, 1) != 1);
}

// A worker of another program and session waits for a semaphore of System V that was made before the worker began. Who
// made it gives that in time.
static void supervised() {
    int set = semget(IPC_PRIVATE, 1, 0600);
    std::string take = "semop(" + std::to_string(set) + ", pack('s!3', 0, -1, 0))";
    sleep(5);
    if (fork() == 0) {
        setsid();
        execlp("perl", "perl", "-e", take.c_str(), nullptr);
    }
    rest();
    semctl(set, 0, SETVAL, 1);
}

int main(int, char **words) {
    is_slow = !strcmp(words[2], "slow");
    std::string name = words[1];
    sem_init(&permit, 0, 0);
    if (name == "pool") pool();
    if (name == "gang") gang();
    if (name == "kin") kin();
    if (name == "told") told();
    if (name == "named") named();
    if (name == "queues") queues();
    if (name == "jobs") jobs();
    if (name == "keeper") keeper();
    if (name == "settings") settings();
    if (name == "sets") sets();
    if (name == "orphan") orphan();
    if (name == "segment") segment();
    if (name == "supervised") supervised();
    if (name == "filled") filled();
    if (name == "piped") piped();
    rest();
}
