/* Pairs of taking and giving back a permit, through the static library: each thread has a pass of its own. */
#include "pairs.h"
#include "resil_permit.h"

static resil_permit_pass passes[MOST_THREADS];

static void make_permits(size_t threads) {
    if (resil_permit_new((uint32_t)threads, &passes[0]) != RESIL_PERMIT_MADE) abort();
    for (size_t i = 1; i < threads; i++)
        if (resil_permit_split(passes[0], &passes[0], &passes[i]) != RESIL_PERMIT_MADE) abort();
}

static void take_and_give(size_t thread) {
    if (!resil_permit_enter(&passes[thread]) || !resil_permit_exit(&passes[thread])) abort();
}

static void end_permits(size_t threads) {
    for (size_t i = 0; i < threads; i++) resil_permit_free(passes[i]);
}
