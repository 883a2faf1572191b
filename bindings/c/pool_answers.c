/* Every reply and error of a pool that refuses something; the numbers stay the same in each case. */
#include "resil_pool.h"

#include "holds.h"

static resil_pool_counts numbers(resil_pool *pool) {
    resil_pool_counts counts = {0};
    holds(resil_pool_numbers(*pool, pool, &counts) == RESIL_POOL_TOLD, "the numbers");
    holds(counts.accepted == counts.running + counts.waiting + counts.finished, "a job is missing");
    return counts;
}

static void ranges(void) {
    resil_pool pool = {0};
    holds(resil_pool_new(0, 1, 1, 1, 0, &pool) == RESIL_POOL_CORE_RANGE, "a core size of 0");
    holds(resil_pool_new(1025, 1025, 1, 1, 0, &pool) == RESIL_POOL_CORE_RANGE, "a core size of 1,025");
    holds(resil_pool_new(2, 1, 1, 1, 0, &pool) == RESIL_POOL_MAX_RANGE, "a maximum size below the core size");
    holds(resil_pool_new(1, 1025, 1, 1, 0, &pool) == RESIL_POOL_MAX_RANGE, "a maximum size of 1,025");
    holds(resil_pool_new(1, 1, 0, 1, 0, &pool) == RESIL_POOL_QUEUE_RANGE, "a queue of 0");
    holds(resil_pool_new(1, 1, 65537, 1, 0, &pool) == RESIL_POOL_QUEUE_RANGE, "a queue of 65,537");
    holds(resil_pool_new(1, 1, 1, 0, 0, &pool) == RESIL_POOL_CALLERS_RANGE, "no caller");
    holds(resil_pool_new(1, 1, 1, 65536, 0, &pool) == RESIL_POOL_CALLERS_RANGE, "65,536 callers");
    holds(pool.at == 0, "a pool was written");
    holds(resil_pool_new(1024, 1024, 65536, 65535, 0, &pool) == RESIL_POOL_MADE, "the largest pool");
    holds(resil_pool_submit(pool, &pool, 65535, 1, 0) == RESIL_POOL_CORE, "its last caller");
    resil_pool_free(pool);
}

/* The largest pool: each of its 1,024 jobs has a worker and a place of its own, and the next one waits. */
static void many(void) {
    enum { WORKERS = 1024 };
    static resil_pool_job jobs[WORKERS];
    static unsigned char taken[WORKERS];
    resil_pool pool = {0};
    resil_pool_job none;
    holds(resil_pool_new(1, WORKERS, 1, 1, 0, &pool) == RESIL_POOL_MADE, "a pool of up to 1,024");
    holds(resil_pool_resize(pool, &pool, WORKERS + 1, WORKERS + 1) == RESIL_POOL_RESIZE_CORE_RANGE, "resized to 1,025");
    holds(resil_pool_resize(pool, &pool, WORKERS, WORKERS) == RESIL_POOL_RESIZED_NOW, "resized to 1,024");
    for (unsigned number = 1; number <= WORKERS; number++)
        holds(resil_pool_submit(pool, &pool, 1, number, number) == RESIL_POOL_CORE, "a worker of its own");
    holds(resil_pool_submit(pool, &pool, 1, WORKERS + 1, 0) == RESIL_POOL_QUEUED, "one more");
    for (unsigned index = 0; index < WORKERS; index++) {
        holds(resil_pool_pick(pool, &pool, &jobs[index]) == RESIL_POOL_PICKED_OWN, "it is picked");
        holds(jobs[index].place < WORKERS && !taken[jobs[index].place]++, "a place of its own");
    }
    holds(resil_pool_pick(pool, &pool, &none) == RESIL_POOL_NONE, "no more run");
    for (unsigned index = 0; index < WORKERS; index++)
        holds(resil_pool_finish(pool, &pool, 1, jobs[index].number, jobs[index].place) == RESIL_POOL_FINISHED, "it ends");
    holds(numbers(&pool).finished == WORKERS && numbers(&pool).workers == WORKERS, "all are finished");
    resil_pool_free(pool);
}

static void submissions(resil_pool *pool) {
    holds(resil_pool_submit(*pool, pool, 0, 1, 0) == RESIL_POOL_NO_CALLER, "caller 0");
    holds(resil_pool_submit(*pool, pool, 3, 1, 0) == RESIL_POOL_NO_CALLER, "caller 3 of 2");
    holds(resil_pool_submit(*pool, pool, 1, 0, 0) == RESIL_POOL_WRONG_NUMBER, "number 0");
    holds(resil_pool_submit(*pool, pool, 1, 2, 0) == RESIL_POOL_WRONG_NUMBER, "a first number of 2");
    holds(numbers(pool).accepted == 0 && numbers(pool).refused == 0, "one of these counted");
    holds(resil_pool_submit(*pool, pool, 1, 1, 11) == RESIL_POOL_CORE, "the first");
    holds(resil_pool_submit(*pool, pool, 1, 1, 11) == RESIL_POOL_WRONG_NUMBER, "the first again");
    holds(resil_pool_submit(*pool, pool, 2, 1, 21) == RESIL_POOL_QUEUED, "the other caller's first");
    holds(resil_pool_submit(*pool, pool, 2, 2, 22) == RESIL_POOL_FULL, "no room");
    holds(numbers(pool).accepted == 2 && numbers(pool).refused == 1, "the refusal counts");
}

static void runs(resil_pool *pool) {
    resil_pool_job first, second;
    holds(resil_pool_finish(*pool, pool, 1, 1, 0) == RESIL_POOL_NOT_OUT, "finished before it was picked");
    holds(resil_pool_pick(*pool, pool, &first) == RESIL_POOL_PICKED_OWN && first.work == 11, "the first job");
    holds(resil_pool_pick(*pool, pool, &second) == RESIL_POOL_NONE, "its worker is busy");
    holds(resil_pool_finish(*pool, pool, 1, 1, first.place + 1) == RESIL_POOL_NOT_OUT, "at another place");
    holds(resil_pool_finish(*pool, pool, 2, 1, first.place) == RESIL_POOL_NOT_OUT, "another job");
    holds(resil_pool_idle_end(*pool, pool) == RESIL_POOL_KEPT, "a busy worker ended");
    holds(resil_pool_finish(*pool, pool, 1, 1, first.place) == RESIL_POOL_FINISHED, "the first ends");
    holds(resil_pool_finish(*pool, pool, 1, 1, first.place) == RESIL_POOL_NOT_OUT, "it ends again");
    holds(resil_pool_pick(*pool, pool, &second) == RESIL_POOL_PICKED_QUEUE && second.work == 21, "the queue");
    holds(resil_pool_finish(*pool, pool, 2, 1, second.place) == RESIL_POOL_FINISHED, "the second ends");
    holds(numbers(pool).finished == 2, "both are finished");
}

static void ends(resil_pool *pool) {
    holds(resil_pool_resize(*pool, pool, 0, 1) == RESIL_POOL_RESIZE_CORE_RANGE, "resized to 0");
    holds(resil_pool_resize(*pool, pool, 65, 65) == RESIL_POOL_RESIZE_CORE_RANGE, "resized to 65");
    holds(resil_pool_resize(*pool, pool, 1, 2) == RESIL_POOL_RESIZE_MAX_RANGE, "resized above the opening");
    holds(resil_pool_resize(*pool, pool, 1, 1) == RESIL_POOL_RESIZED_NOW, "resized to what it is");
    holds(resil_pool_idle_end(*pool, pool) == RESIL_POOL_KEPT, "a worker of the core size ended");
    holds(numbers(pool).closed == 0, "it isn't closed");
    holds(resil_pool_close(*pool, pool) == RESIL_POOL_CLOSED_NOW, "closed");
    holds(resil_pool_close(*pool, pool) == RESIL_POOL_CLOSED_BEFORE, "closed again");
    holds(resil_pool_submit(*pool, pool, 1, 2, 12) == RESIL_POOL_CLOSED, "submitted to a closed pool");
    holds(resil_pool_idle_end(*pool, pool) == RESIL_POOL_ENDED, "the last worker ends");
    holds(numbers(pool).closed == 1 && numbers(pool).workers == 0 && numbers(pool).refused == 2, "the last numbers");
}

/* Whether a submission gets this reply and this number. */
static int is_next(resil_pool *pool, uint16_t caller, uint8_t reply, uint64_t number) {
    uint64_t told = 77;
    return resil_pool_submit_next(*pool, pool, caller, 0, &told) == reply && told == number;
}

/* Each reply of the rule uses up a number, and no other result does. */
static void next_numbers(void) {
    resil_pool pool = {0};
    holds(resil_pool_new(1, 1, 1, 2, 0, &pool) == RESIL_POOL_MADE, "a pool that counts");
    holds(is_next(&pool, 0, RESIL_POOL_NO_CALLER, 77) && is_next(&pool, 3, RESIL_POOL_NO_CALLER, 77), "no caller's");
    holds(is_next(&pool, 1, RESIL_POOL_CORE, 1) && is_next(&pool, 2, RESIL_POOL_QUEUED, 1), "the first of each");
    holds(is_next(&pool, 1, RESIL_POOL_FULL, 2), "a refused one");
    holds(resil_pool_submit(pool, &pool, 1, 2, 0) == RESIL_POOL_WRONG_NUMBER, "its number again");
    holds(resil_pool_submit(pool, &pool, 1, 3, 0) == RESIL_POOL_FULL && is_next(&pool, 1, RESIL_POOL_FULL, 4), "the next");
    holds(resil_pool_close(pool, &pool) == RESIL_POOL_CLOSED_NOW && is_next(&pool, 2, RESIL_POOL_CLOSED, 2), "a late one");
    resil_pool_free(pool);
}

/* A pool that keeps no events, and one that keeps two. */
static void last_events(void) {
    resil_pool none = {0}, two = {0};
    resil_pool_entry event;
    holds(resil_pool_new(1, 1, 1, 1, 0, &none) == RESIL_POOL_MADE, "a pool without events");
    holds(resil_pool_new(1, 1, 1, 1, 2, &two) == RESIL_POOL_MADE, "a pool with two events");
    holds(resil_pool_event_count(two, &two) == 0 && resil_pool_lost(two, &two) == 0, "none was yet");
    for (uint64_t number = 1; number <= 3; number++) {
        const uint8_t reply = number == 3 ? RESIL_POOL_FULL : number == 2 ? RESIL_POOL_QUEUED : RESIL_POOL_CORE;
        holds(resil_pool_submit(none, &none, 1, number, 0) == reply, "a pool without events");
        holds(resil_pool_submit(two, &two, 1, number, 0) == reply, "a pool with two events");
    }
    holds(resil_pool_event_count(none, &none) == 0 && resil_pool_lost(none, &none) == 3, "all are lost");
    holds(resil_pool_event(none, &none, 0, &event) == RESIL_POOL_NO_EVENT, "the first of none");
    holds(resil_pool_event_count(two, &two) == 2 && resil_pool_lost(two, &two) == 1, "one is lost");
    holds(resil_pool_event(two, &two, 0, &event) == RESIL_POOL_TOLD && event.number == 2, "the oldest");
    holds(event.kind == RESIL_POOL_SUBMIT && event.reply == RESIL_POOL_QUEUED && event.caller == 1, "its fields");
    holds(resil_pool_event(two, &two, 2, &event) == RESIL_POOL_NO_EVENT, "the third of two");
    resil_pool_free(none);
    resil_pool_free(two);
}

int main(void) {
    resil_pool pool = {0};
    ranges();
    many();
    holds(resil_pool_new(1, 1, 1, 2, 0, &pool) == RESIL_POOL_MADE, "a pool");
    submissions(&pool);
    runs(&pool);
    ends(&pool);
    resil_pool_free(pool);
    next_numbers();
    last_events();
    return failed == 0 ? 0 : 1;
}
