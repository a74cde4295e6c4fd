// Threads that sleep, of which the machine code tells what waits they can never end, each stall with its healthy twin.
// Usage: ticks NAME stuck|slow, or ticks ways: a thread for each way of code to come to a call.
#include <condition_variable>
#include <csignal>
#include <cstdio>
#include <cstdlib>
#include <exception>
#include <functional>
#include <memory>
#include <mutex>
#include <pthread.h>
#include <stdexcept>
#include <string>
#include <sys/mman.h>
#include <sys/socket.h>
#include <sys/syscall.h>
#include <sys/wait.h>
#include <thread>
#include <unistd.h>

static bool is_slow;
static std::mutex lock;
static std::condition_variable turn;
static int line[2];
static volatile long beats;

// Only counts.
static void beat() {
    for (;;) {
        sleep(600);
        beats = beats + 1;
    }
}

static void open_round() {
    sleep(600);
    turn.notify_all();
}

// Two workers wait for a round that nobody opens any more.
static void rounds() {
    std::thread(is_slow ? open_round : beat).detach();
    auto work = [] {
        std::unique_lock<std::mutex> held(lock);
        turn.wait(held);
    };
    std::thread one(work), two(work);
    one.join();
    two.join();
}

static void *call_in(void *) {
    sleep(600);
    return write(line[0], "x", 1) == 1 ? nullptr : &line;
}

static void *keep_time(void *) {
    beat();
    return nullptr;
}

// Two sides of a line wait for each other's word, and each has a clock.
static void sides() {
    char word;
    pthread_t clock;
    if (socketpair(AF_UNIX, SOCK_STREAM, 0, line)) return;
    bool is_second = fork() == 0;
    if (is_second) usleep(200000);  // (so that the numbers of all are the same each time)
    close(line[!is_second]);
    pthread_create(&clock, nullptr, is_slow && !is_second ? call_in : keep_time, nullptr);
    _exit(read(line[is_second], &word, 1) != 1);
}

// Three workers of one shared memory meet, and one is missing. Each has a clock.
static void gang() {
    struct Shared { pthread_mutex_t lock; pthread_cond_t turn; };
    void *at = mmap(nullptr, sizeof(Shared), PROT_READ | PROT_WRITE, MAP_SHARED | MAP_ANONYMOUS, -1, 0);
    auto *it = static_cast<Shared *>(at);
    pthread_mutexattr_t of_lock;
    pthread_condattr_t of_turn;
    pthread_mutexattr_init(&of_lock);
    pthread_condattr_init(&of_turn);
    pthread_mutexattr_setpshared(&of_lock, PTHREAD_PROCESS_SHARED);
    pthread_condattr_setpshared(&of_turn, PTHREAD_PROCESS_SHARED);
    pthread_mutex_init(&it->lock, &of_lock);
    pthread_cond_init(&it->turn, &of_turn);
    for (int i = 0; i < 3; i++)
        if (fork() == 0) {
            std::thread(beat).detach();
            pthread_mutex_lock(&it->lock);
            pthread_cond_wait(&it->turn, &it->lock);
            _exit(0);
        } else {
            usleep(200000);
        }
    if (is_slow) {
        sleep(600);
        pthread_cond_broadcast(&it->turn);
    }
    while (wait(nullptr) > 0) continue;
}

// A worker waits for a round that is opened once the clock has run down.
static void clock_ends() {
    std::thread clock([] {
        sleep(600);
        beats = beats + 1;
    });
    std::thread worker([] {
        std::unique_lock<std::mutex> held(lock);
        turn.wait(held);
    });
    clock.join();
    turn.notify_all();
    worker.join();
}

// Two workers wait for a round that the main thread opens after a while.
static void opens() {
    auto work = [] {
        std::unique_lock<std::mutex> held(lock);
        turn.wait(held);
    };
    std::thread one(work), two(work);
    sleep(600);
    turn.notify_all();
    one.join();
    two.join();
    for (;;) pause();
}

// The ways: what each one can never end stands before it.

// futexes files
static void counts() { beat(); }

// futexes
static void prints() {
    sleep(600);
    printf("%ld\n", beats);
}

// files
static void wakes() {
    sleep(600);
    turn.notify_one();
}

// nothing
static void deeper();
static void __attribute__((noinline)) deepest() { if (write(line[0], "x", 1) > 0) turn.notify_one(); }
static void __attribute__((noinline)) deep() { deepest(); beats = beats + 1; }
static void deeper() {
    sleep(600);
    deep();
    beats = beats + 1;
}

// nothing
static void (*volatile way)() = deepest;
static void points() {
    sleep(600);
    way();
    beats = beats + 1;
}

// nothing
static void holds() {
    std::lock_guard<std::mutex> held(lock);
    if (write(line[0], "x", 1) < 0) beats = beats + 1;
    sleep(600);
    fputs("done\n", stderr);
}

// nothing
static void asks() {
    sleep(600);
    syscall(1, line[0], "x", 1);
}

// nothing
static void jumps() {
    sleep(600);
    switch (beats) {
    case 0: beats = 7; break;
    case 1: deepest(); break;
    case 2: beats = 5; break;
    case 3: printf("3"); break;
    case 4: beats = 9; break;
    case 5: turn.notify_one(); break;
    }
}

// nothing
static int order(const void *, const void *) {
    sleep(600);
    return 0;
}
static void sorts() {
    static int some[2] = {2, 1};
    qsort(some, 2, sizeof some[0], order);
}

// nothing
static void once() {
    static pthread_once_t is_done = PTHREAD_ONCE_INIT;
    pthread_once(&is_done, [] { sleep(600); });
}

// nothing
static void leaves() { exit(0); }

// futexes files
static void sleeps_first() {
    if (beats > 0) turn.notify_one();
    sleep(600);
    beats = beats + 1;
}

// nothing
static void is_told() {
    while (beats >= 0) continue;
    turn.notify_one();
}

// files, by a call as linkers write it in place of one that another library might have answered
extern "C" void open_far() { turn.notify_all(); }
extern "C" void call_far();
asm("call_far: sub $8,%rsp; .byte 0x67; call open_far; add $8,%rsp; ret\n"
    ".type call_far,@function\n.size call_far,.-call_far");
static void is_far() {
    sleep(600);
    call_far();
    beats = beats + 1;
}

// nothing, as the end of its process frees who waits for that
static void traps() {
    sleep(600);
    if (beats == 0) __builtin_trap();
}

// nothing
static void terminates() {
    sleep(600);
    std::terminate();
}

// nothing
struct Pause { ~Pause() { sleep(600); } };
static void __attribute__((noinline)) fails() {
    Pause pause;
    if (beats >= 0) throw std::runtime_error("");
    beats = beats + 1;
}
static void unwinds() {
    try {
        fails();
    } catch (const std::exception &) {
        turn.notify_one();
    }
    beat();
}

// nothing
static std::string text = "abc";
static void __attribute__((optimize("O0"))) throws() {
    try {
        sleep(600);
        text.erase(10);
    } catch (const std::out_of_range &) {
        turn.notify_one();
    }
}

// files, by what a thread lets go of at its end, to which it comes by a jump
struct Told {
    void *it = malloc(8);
    Told() = default;
    Told(Told &&other) : it(other.it) { other.it = nullptr; }
    ~Told() { if (it) turn.notify_one(); }
};
static void __attribute__((noinline)) note(void *it) { beats = beats + (it != nullptr); }

static void name(std::thread thread, const char *name) {
    pthread_setname_np(thread.native_handle(), name);
    thread.detach();
}

// Has a handler return by code of the program's own.
extern "C" void go_back();
asm("go_back: mov $15,%eax; syscall\n.type go_back,@function\n.size go_back,.-go_back");
static void handle(int number, void (*handler)(int)) {
    struct { void (*handler)(int); unsigned long flags; void (*back)(); unsigned long mask; } it = {
        handler, 0x04000000, go_back, 0};
    syscall(SYS_rt_sigaction, number, &it, nullptr, sizeof it.mask);
}

static void ways() {
    if (pipe(line)) return;
    static const std::pair<const char *, void (*)()> all[] = {
        {"counts", counts}, {"prints", prints}, {"wakes", wakes}, {"deeper", deeper}, {"points", points},
        {"holds", holds}, {"asks", asks}, {"jumps", jumps}, {"sorts", sorts}, {"once", once}, {"leaves", leaves},
        {"sleeps_first", sleeps_first}, {"is_told", is_told}, {"is_told_2", is_told}, {"is_far", is_far},
        {"traps", traps}, {"terminates", terminates}, {"unwinds", unwinds}, {"throws", throws}};
    signal(SIGUSR1, [](int) { sleep(600); });
    handle(SIGUSR2, [](int) { sleep(600); });
    atexit([] { sleep(600); });
    for (auto &it : all) {
        std::thread thread(it.second);
        pthread_setname_np(thread.native_handle(), it.first);
        if (it.second == is_told) {
            sleep(1);
            pthread_kill(thread.native_handle(), it.first == std::string("is_told") ? SIGUSR1 : SIGUSR2);
        }
        thread.detach();
    }
    void *some = malloc(8);
    name(std::thread([some, told = Told()] { sleep(600); free(some); }), "tails");
    name(std::thread([some, told = Told()] { sleep(600); note(some); }), "tails_on");
    // nothing, by what it lets go of at its end
    struct Tells { ~Tells() { turn.notify_one(); } };
    auto tells = std::make_shared<Tells>();
    std::thread last([tells] { sleep(600); });
    pthread_setname_np(last.native_handle(), "tells");
    tells.reset();
    last.join();
}

int main(int, char **words) {
    std::string name = words[1];
    is_slow = name != "ways" && words[2] == std::string("slow");
    if (name == "rounds") rounds();
    if (name == "sides") sides();
    if (name == "gang") gang();
    if (name == "clock") clock_ends();
    if (name == "opens") opens();
    if (name == "ways") ways();
    for (;;) sleep(600);
}
