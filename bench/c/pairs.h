/* Answers the lines of standard input: "permits THREADS PAIRS" asks for a round of so many pairs by each thread. */
#ifndef PAIRS_H
#define PAIRS_H

#include <pthread.h>
#include <stdio.h>
#include <stdlib.h>

enum { MOST_THREADS = 64 };

/* What a program has of its own: as many permits as threads, a pair by a thread, and the end of the permits. */
static void make_permits(size_t threads);
static void take_and_give(size_t thread);
static void end_permits(size_t threads);

static long pairs_of_each;

static void *pairs_of(void *given) {
    for (long pair = 0; pair < pairs_of_each; pair++) take_and_give((size_t)given);
    return 0;
}

static void run(size_t threads) {
    pthread_t ids[MOST_THREADS];
    make_permits(threads);
    for (size_t i = 0; i < threads; i++)
        if (pthread_create(&ids[i], 0, pairs_of, (void *)i) != 0) abort();
    for (size_t i = 0; i < threads; i++) pthread_join(ids[i], 0);
    end_permits(threads);
}

int main(void) {
    size_t threads;
    while (scanf(" permits %zu %ld", &threads, &pairs_of_each) == 2) {
        if (threads > MOST_THREADS) return 1;
        run(threads);
        printf("permits: %ld pairs\n", (long)threads * pairs_of_each);
        fflush(stdout);
    }
}

#endif
