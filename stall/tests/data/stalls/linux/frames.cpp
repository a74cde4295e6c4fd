// Pools of threads, of which the functions on the stacks tell who is at work and who has nothing to do, each stall with
// its healthy twin. Usage: frames NAME stuck|slow
#include <condition_variable>
#include <deque>
#include <functional>
#include <future>
#include <mutex>
#include <pthread.h>
#include <string>
#include <sys/socket.h>
#include <sys/un.h>
#include <thread>
#include <unistd.h>
#define OWN __attribute__((noinline))

static bool is_slow;
static volatile long done;

static void name(const char *it) { pthread_setname_np(pthread_self(), it); }

// Connections that are borrowed, of which each order needs two.
struct Pool {
    std::mutex guard;
    std::condition_variable available;
    int left = 2;
    OWN void borrow() {
        std::unique_lock<std::mutex> hold(guard);
        while (left == 0) available.wait(hold);
        left--;
    }
    OWN void give_back() { std::lock_guard<std::mutex> hold(guard); left++; available.notify_one(); }
};

static Pool pool;

OWN static void record() { pool.borrow(); done++; pool.give_back(); }

OWN static void book() {
    pool.borrow();
    sleep(1);
    if (!is_slow) record();
    pool.give_back();
    done++;
}

// Workers that wait for the next job in their own loops.
static std::mutex line_guard;
static std::condition_variable line_turn;
static std::deque<std::function<void()>> line;

OWN static void work() {
    std::unique_lock<std::mutex> hold(line_guard);
    for (;;) {
        while (line.empty()) line_turn.wait(hold);
        auto job = line.front();
        line.pop_front();
        hold.unlock();
        job();
        hold.lock();
    }
}

OWN static void put(std::function<void()> job) {
    std::lock_guard<std::mutex> hold(line_guard);
    line.push_back(job);
    line_turn.notify_one();
}

OWN static void beat() { name("heartbeat"); for (;;) { usleep(200000); done++; } }

OWN static void serve() {
    name("acceptor");
    int listener = socket(AF_UNIX, SOCK_STREAM, 0);
    sockaddr_un address = {AF_UNIX, "\0frames"};
    bind(listener, (sockaddr *)&address, sizeof address);
    listen(listener, 5);
    for (;;) { accept(listener, nullptr, nullptr); done++; }
}

// Two workers that each have a connection wait for a second one. In the twin none needs a second one, and both rest.
static void borrows() {
    std::thread beats(beat), server(serve);
    std::thread first([] { name("worker-1"); work(); }), second([] { name("worker-2"); work(); });
    put(book);
    put(book);
    name("main");
    first.join();
}

// A job waits for one that it has put into the line of its own worker. In the twin there is a second worker.
static void futures() {
    std::thread beats(beat);
    std::thread first([] { name("worker-1"); work(); });
    if (is_slow) std::thread([] { name("worker-2"); work(); }).detach();
    put([] {
        auto task = std::make_shared<std::packaged_task<void()>>([] { done++; });
        auto answer = task->get_future();
        put([task] { (*task)(); });
        answer.get();
    });
    first.join();
}

int main(int, char **words) {
    std::string story = words[1];
    is_slow = std::string(words[2]) == "slow";
    (story.substr(0, 7) == "futures" ? futures : borrows)();
}
