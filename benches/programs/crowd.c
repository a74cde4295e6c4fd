/* A ledger, at whose mutex NUMBER threads wait. Its holder sleeps, or has to lock what another one has who wants the
   ledger. Usage: crowd stuck|slow NUMBER */
#include <pthread.h>
#include <stdio.h>
#include <stdlib.h>
#include <string.h>
#include <unistd.h>

static pthread_mutex_t ledger = PTHREAD_MUTEX_INITIALIZER, audit = PTHREAD_MUTEX_INITIALIZER;
static pthread_barrier_t both;
static int is_stuck;

static void *post(void *none) {
    pthread_mutex_lock(&ledger);
    pthread_mutex_unlock(&ledger);
    return none;
}

static void *close_day(void *none) {
    pthread_mutex_lock(&ledger);
    pthread_barrier_wait(&both);
    if (is_stuck)
        pthread_mutex_lock(&audit);
    else
        sleep(3600);
    pthread_mutex_unlock(&ledger);
    return none;
}

static void *check(void *none) {
    pthread_mutex_lock(&audit);
    pthread_barrier_wait(&both);
    if (is_stuck)
        pthread_mutex_lock(&ledger);
    pthread_mutex_unlock(&audit);
    return none;
}

int main(int count, char **words) {
    pthread_t thread;
    pthread_attr_t small;
    int left = count > 2 ? atoi(words[2]) : 0;

    is_stuck = count > 1 && strcmp(words[1], "stuck") == 0;
    pthread_attr_init(&small);
    pthread_attr_setstacksize(&small, 65536);
    pthread_barrier_init(&both, NULL, 3);
    pthread_create(&thread, &small, check, NULL);
    pthread_create(&thread, &small, close_day, NULL);
    pthread_barrier_wait(&both);
    for (pthread_t other; left > 0; left--)
        if (pthread_create(&other, &small, post, NULL))
            return 1;
    puts("ready");
    fflush(stdout);
    pthread_join(thread, NULL);
    return 0;
}
