/* What happened to a pool, as text for the program to judge: ./pool_history | ../bin/resil audit
 *
 * The pool has core size 1, maximum size 2, and one place in its queue. It keeps all its events, which are few. */
#include "resil_pool.h"

#include <inttypes.h>
#include <stdbool.h>
#include <stdio.h>

enum { CORE = 1, MAX = 2, QUEUE = 1, EVENTS = 100, CALLER = 1 };

static bool submit(resil_pool *pool, uint64_t work) {
    uint64_t number;
    return resil_pool_submit_next(*pool, pool, CALLER, work, &number) <= RESIL_POOL_CLOSED;
}

/* Picks and finishes one job after the other, and ends the workers that may end. Returns whether each finish was
 * accepted. */
static bool run_all(resil_pool *pool) {
    resil_pool_job job;
    while (resil_pool_pick(*pool, pool, &job) <= RESIL_POOL_PICKED_QUEUE)
        if (resil_pool_finish(*pool, pool, job.caller, job.number, job.place) != RESIL_POOL_FINISHED) return false;
    while (resil_pool_idle_end(*pool, pool) == RESIL_POOL_ENDED) continue;
    return true;
}

/* Four jobs, one more after a resize, and one after the pool is closed. */
static bool live(resil_pool *pool) {
    for (uint64_t work = 1; work <= 4; work++)
        if (!submit(pool, work)) return false;
    if (!run_all(pool) || resil_pool_resize(*pool, pool, MAX, MAX) != RESIL_POOL_RESIZED_NOW) return false;
    if (!submit(pool, 5) || resil_pool_close(*pool, pool) != RESIL_POOL_CLOSED_NOW) return false;
    return submit(pool, 6) && run_all(pool);
}

/* One line: the event; a job's caller and number; a submission's reply; a resize's new sizes. */
static void tell(const resil_pool_entry *event) {
    printf("%s,", resil_pool_kind_name(event->kind));
    if (event->number > 0) printf("%u", (unsigned)event->caller);
    printf(",");
    if (event->number > 0) printf("%" PRIu64, event->number);
    printf(",%s,", event->kind == RESIL_POOL_SUBMIT ? resil_pool_reply_name(event->reply) : "");
    if (event->kind == RESIL_POOL_RESIZED) printf("%" PRIu32, event->core);
    printf(",");
    if (event->kind == RESIL_POOL_RESIZED) printf("%" PRIu32, event->max);
    printf("\n");
}

int main(void) {
    resil_pool pool = {0};
    resil_pool_entry event;
    uint8_t made = resil_pool_new(CORE, MAX, QUEUE, CALLER, EVENTS, &pool);
    if (made != RESIL_POOL_MADE) {
        fprintf(stderr, "no pool: %s\n", resil_pool_new_name(made));
        return 1;
    }
    if (!live(&pool) || resil_pool_lost(pool, &pool) > 0) return 1;
    printf("core = %d\nmax = %d\nqueue = %d\n---\nevent,caller,number,reply,core,max\n", CORE, MAX, QUEUE);
    for (size_t index = 0; resil_pool_event(pool, &pool, index, &event) == RESIL_POOL_TOLD; index++) tell(&event);
    resil_pool_free(pool);
    return fflush(stdout) != 0 || ferror(stdout);
}
