/* Pairs of taking and giving back a permit, by a loop over one word of C11 as a service would write it. */
#include "pairs.h"

#include <stdatomic.h>
#include <stdbool.h>
#include <stdint.h>

static _Atomic uint32_t word;

static void make_permits(size_t threads) {
    atomic_store(&word, (uint32_t)threads);
}

/* Not inlined, as a library's calls aren't. */
__attribute__((noinline)) static bool enter(void) {
    uint32_t free = atomic_load(&word);
    while (free > 0)
        if (atomic_compare_exchange_weak(&word, &free, free - 1)) return true;
    return false;
}

__attribute__((noinline)) static void leave(void) {
    atomic_fetch_add(&word, 1);
}

static void take_and_give(size_t thread) {
    (void)thread;
    if (!enter()) abort();
    leave();
}

static void end_permits(size_t threads) {
    (void)threads;
}
