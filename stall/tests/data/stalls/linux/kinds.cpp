// Threads beside which others go on, of which the machine code tells what kinds of waits they end, each stall with its
// healthy twin. Usage: kinds NAME stuck|slow. The twin of the desk is built with -DON_HUP=open_desk.
#include <condition_variable>
#include <csignal>
#include <cstdio>
#include <mutex>
#include <pthread.h>
#include <semaphore.h>
#include <string>
#include <sys/socket.h>
#include <thread>
#include <unistd.h>

static bool is_slow;
static std::mutex lock, other;
static std::condition_variable turn, lines;
static sem_t belts[2];
static int line[2];
static volatile long waiting, parts;
static volatile sig_atomic_t is_told;

// Says what it was told, and now and then how far all are.
static void keep_log() {
    std::unique_lock<std::mutex> held(lock);
    for (;;) {
        lines.wait_for(held, std::chrono::seconds(600));
        fprintf(stderr, "%ld parts\n", parts);
    }
}

// The same, but an empty belt gets a part.
static void keep_belts() {
    std::unique_lock<std::mutex> held(lock);
    for (;;) {
        lines.wait_for(held, std::chrono::seconds(600));
        if (waiting > 0) sem_post(&belts[0]);
    }
}

static void hand_on(int belt) {
    for (;;) {
        sem_wait(&belts[belt]);
        parts = parts + 1;
        sem_post(&belts[!belt]);
    }
}

// Two belts hand each other a part, which is lost. A log beside them waits with a limit.
static void belts_stop() {
    for (auto &belt : belts) sem_init(&belt, 0, 0);
    std::thread log(is_slow ? keep_belts : keep_log), one(hand_on, 0), two(hand_on, 1);
    one.join();
    two.join();
    log.join();
}

#ifndef ON_HUP
#define ON_HUP note
#endif
void note(int signal) { is_told = signal; }
void open_desk(int) { turn.notify_all(); }

// Two clerks wait for a desk to open. A signal ends the program, or opens that.
static void __attribute__((noinline)) desk() {
    signal(SIGTERM, note);
    signal(SIGHUP, ON_HUP);
    auto work = [] {
        std::unique_lock<std::mutex> held(lock);
        turn.wait(held);
    };
    std::thread one(work), two(work);
    one.join();
    two.join();
}

static void *print(void *) {
    for (;;) {
        sleep(600);
        fputs("going on\n", stderr);
    }
    return nullptr;
}

// Two sides of a line wait for each other's word. Both print, and in the twin the line itself is where one prints to.
static void sides() {
    char word;
    pthread_t clock;
    if (socketpair(AF_UNIX, SOCK_STREAM, 0, line)) return;
    bool is_second = fork() == 0;
    if (is_second) usleep(200000);  // (so that the numbers of all are the same each time)
    close(line[!is_second]);
    if (is_slow) dup2(line[is_second], 2);
    pthread_create(&clock, nullptr, print, nullptr);
    _exit(read(line[is_second], &word, 1) != 1);
}

// Two take two locks in two orders.
static void locks() {
    auto take = [](std::mutex &first, std::mutex &second, bool is_long) {
        first.lock();
        sleep(is_long ? 600 : 1);
        second.lock();
    };
    std::thread one([=] { take(lock, other, is_slow); }), two([=] { take(other, lock, false); });
    one.join();
    two.join();
}

int main(int, char **words) {
    std::string name = words[1];
    is_slow = words[2] == std::string("slow");
    if (name == "belts") belts_stop();
    if (name == "desk") desk();
    if (name == "sides") sides();
    if (name == "locks") locks();
}
