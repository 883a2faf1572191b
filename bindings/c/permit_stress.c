/* Four threads enter and leave two permits, while an operator retires one and raises it again. There are never more
 * inside than are in use, and all permits come back. An argument says how many seconds this runs. */
#define _POSIX_C_SOURCE 200809L /* for pthread_barrier_t */

#include "resil_permit.h"

#include "holds.h"

#include <pthread.h>
#include <sched.h>
#include <stdatomic.h>
#include <stdlib.h>
#include <time.h>

enum { THREADS = 4, PERMITS = 2, TRIES = 1000000, RETIRES = 10000 };

static _Atomic int inside;
static _Atomic int most;
static _Atomic long entered;
static _Atomic long wrong;
static _Atomic long crowded;
static pthread_barrier_t start;
static time_t end;

/* Whether a thread continues after this many rounds; it makes at least a minimum number of them. */
static bool goes_on(long rounds, long least) {
    return rounds < least || (end != 0 && time(0) < end);
}

static void goes_in(void) {
    int now = atomic_fetch_add(&inside, 1) + 1;
    int seen = atomic_load(&most);
    while (now > seen && !atomic_compare_exchange_weak(&most, &seen, now)) {
    }
}

static void *goes_in_and_out(void *given) {
    resil_permit_pass *pass = given;
    pthread_barrier_wait(&start);
    for (long tries = 0; goes_on(tries, TRIES); tries++) {
        if (!resil_permit_enter(pass)) continue;
        goes_in();
        atomic_fetch_add(&entered, 1);
        atomic_fetch_sub(&inside, 1);
        if (!resil_permit_exit(pass)) atomic_fetch_add(&wrong, 1);
    }
    return 0;
}

/* While a permit is retired, all but one are in use. */
static void *retires_and_raises(void *given) {
    resil_permit_pass *pass = given;
    pthread_barrier_wait(&start);
    for (long round = 0; goes_on(round, RETIRES); round++) {
        while (!resil_permit_enter(pass)) sched_yield();
        if (resil_permit_retire(*pass, pass) != RESIL_PERMIT_RETIRED) atomic_fetch_add(&wrong, 1);
        if (resil_permit_retired(*pass, pass) != 1) atomic_fetch_add(&wrong, 1);
        if (atomic_load(&inside) > PERMITS - 1) atomic_fetch_add(&crowded, 1);
        if (resil_permit_available(*pass, pass) > PERMITS - 1) atomic_fetch_add(&wrong, 1);
        if (resil_permit_raise(*pass, pass) != RESIL_PERMIT_RAISED) atomic_fetch_add(&wrong, 1);
    }
    return 0;
}

int main(int count, char **words) {
    if (count > 1) end = time(0) + atoi(words[1]);
    resil_permit_pass passes[THREADS + 1] = {{0}};
    pthread_t threads[THREADS + 1];
    holds(resil_permit_new(65536, &passes[0]) == RESIL_PERMIT_TOO_MANY, "65,536 permits were made");
    if (resil_permit_new(PERMITS, &passes[0]) != RESIL_PERMIT_MADE) return 1;
    for (int i = 1; i <= THREADS; i++)
        if (resil_permit_split(passes[0], &passes[0], &passes[i]) != RESIL_PERMIT_MADE) return 1;
    pthread_barrier_init(&start, 0, THREADS + 1);
    for (int i = 0; i <= THREADS; i++) {
        void *(*part)(void *) = i < THREADS ? goes_in_and_out : retires_and_raises;
        if (pthread_create(&threads[i], 0, part, &passes[i]) != 0) return 1;
    }
    for (int i = 0; i <= THREADS; i++) pthread_join(threads[i], 0);
    holds(most <= PERMITS, "more were inside than there are permits");
    holds(entered > 0, "nobody entered");
    holds(crowded == 0, "more were inside than were in use");
    holds(wrong == 0, "a permit was not given back, retired or raised");
    holds(resil_permit_available(passes[0], &passes[0]) == PERMITS, "not all permits came back");
    holds(!resil_permit_exit(&passes[1]), "a permit was given back that was not held");
    holds(resil_permit_retire(passes[1], &passes[1]) == RESIL_PERMIT_NONE, "a permit was retired that was not held");
    holds(resil_permit_raise(passes[1], &passes[1]) == RESIL_PERMIT_NONE, "a permit was raised that was not retired");
    for (int i = 0; i <= THREADS; i++) resil_permit_free(passes[i]);
    return failed == 0 ? 0 : 1;
}
