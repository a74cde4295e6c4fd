/* The shop of tools/examples/postgres in C, with a connection of libpq for each thread.
 *
 * usage: c_clients stuck|slow
 */
#define _GNU_SOURCE
#include <libpq-fe.h>
#include <pthread.h>
#include <stdio.h>
#include <string.h>
#include <unistd.h>

static pthread_mutex_t cart = PTHREAD_MUTEX_INITIALIZER;
static pthread_barrier_t begun;
static int is_slow;

static PGconn *connection_of(const char *name)
{
    pthread_setname_np(pthread_self(), name);
    const char *keys[] = {"application_name", 0}, *values[] = {name, 0};
    return PQconnectdbParams(keys, values, 0);
}

static void run(PGconn *connection, const char *statement)
{
    PQclear(PQexec(connection, statement));
}

static void *sell(void *unused)
{
    PGconn *connection = connection_of("clerk");
    run(connection, "begin");
    run(connection, "update stock set number = number - 1 where article = 4711");
    pthread_barrier_wait(&begun);
    if (is_slow)
        run(connection, "select pg_sleep(900)");
    pthread_mutex_lock(&cart);
    run(connection, "commit");
    pthread_mutex_unlock(&cart);
    return unused;
}

static void *pack(void *unused)
{
    PGconn *connection = connection_of("packer");
    pthread_mutex_lock(&cart);
    pthread_barrier_wait(&begun);
    run(connection, "begin");
    run(connection, "update stock set number = number + 1 where article = 4711");
    run(connection, "commit");
    pthread_mutex_unlock(&cart);
    return unused;
}

static void *beat(void *unused)
{
    for (;;)
        usleep(500000);
    return unused;
}

int main(int count, char **words)
{
    pthread_t clerk, packer, heartbeat;
    is_slow = count > 1 && !strcmp(words[1], "slow");
    pthread_barrier_init(&begun, 0, 2);
    pthread_create(&heartbeat, 0, beat, 0);
    pthread_create(&clerk, 0, sell, 0);
    pthread_create(&packer, 0, pack, 0);
    pthread_join(clerk, 0);
    pthread_join(packer, 0);
    return 0;
}
