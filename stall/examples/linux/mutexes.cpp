// Two transfers between two accounts, the other way round. Usage: mutexes stuck|slow
#include <cstring>
#include <mutex>
#include <thread>
#include <unistd.h>

struct Account {
    std::mutex lock;
    long cents;
};

static Account checking, savings;
static bool is_slow;

static void transfer(Account &from, Account &to, long cents) {
    std::lock_guard<std::mutex> first(from.lock);
    usleep(200000);
    if (is_slow && &from == &savings) sleep(600);
    std::lock_guard<std::mutex> second(to.lock);
    from.cents -= cents;
    to.cents += cents;
}

int main(int, char **words) {
    is_slow = !strcmp(words[1], "slow");
    std::thread one([] { transfer(checking, savings, 100); });
    std::thread other([] { transfer(savings, checking, 50); });
    one.join();
    other.join();
}
