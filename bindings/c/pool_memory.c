/* A million jobs in one pool, in the memory that it began with: only resil_pool_new allocates any. */
#include "resil_pool.h"

#include <stdio.h>
#include <unistd.h>

/* An emulator around the program takes some pages of its own; a byte lost by each job would take 219. */
enum { JOBS = 1000000, CALLERS = 8, PAGES_OF_OTHERS = 16 };

/* The number of resident pages, or -1 if the system doesn't say. */
static long resident_pages(void) {
    long size = 0, resident = -1;
    FILE *file = fopen("/proc/self/statm", "r");
    if (!file) return -1;
    if (fscanf(file, "%ld %ld", &size, &resident) != 2) resident = -1;
    fclose(file);
    return resident;
}

/* Runs jobs until there is none to pick. */
static int work(resil_pool *pool) {
    resil_pool_job job;
    while (resil_pool_pick(*pool, pool, &job) != RESIL_POOL_NONE)
        if (resil_pool_finish(*pool, pool, job.caller, job.number, job.place) != RESIL_POOL_FINISHED) return 0;
    return 1;
}

static int rounds(resil_pool *pool, uint64_t first, uint64_t last) {
    for (uint64_t number = first; number <= last; number++) {
        for (uint16_t caller = 1; caller <= CALLERS; caller++)
            if (resil_pool_submit(*pool, pool, caller, number, number) > RESIL_POOL_EXTRA) return 0;
        if (!work(pool)) return 0;
    }
    return 1;
}

int main(void) {
    resil_pool pool = {0};
    resil_pool_counts counts;
    if (resil_pool_new(2, 4, 100, CALLERS, 1000, &pool) != RESIL_POOL_MADE) return 1;
    if (!rounds(&pool, 1, JOBS / CALLERS / 10)) return 1;
    resident_pages(); /* reading it takes pages of its own, the first time */
    long before = resident_pages();
    if (!rounds(&pool, JOBS / CALLERS / 10 + 1, JOBS / CALLERS)) return 1;
    long after = resident_pages();
    if (resil_pool_numbers(pool, &pool, &counts) != RESIL_POOL_TOLD || counts.finished != JOBS) return 1;
    resil_pool_free(pool);
    if (after - before <= PAGES_OF_OTHERS) return 0;
    printf("pool_memory: %ld pages more\n", after - before);
    return 1;
}
