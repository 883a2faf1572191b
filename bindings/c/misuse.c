/* Every misuse that the headers name: what is returned, and that nothing is written. AddressSanitizer also checks
 * that nothing outside a call's own memory is read or written, and that only what was overwritten is lost. */
#include "resil_permit.h"
#include "resil_pool.h"
#include "resil_retry.h"

#include "holds.h"

/* Every function called with an empty pool or a null pointer returns RESIL_EMPTY or 0, and leaves everything
 * unchanged. */
static void of_no_pool(resil_pool pool, resil_pool *back) {
    resil_pool_job job = {1, 2, 3, 4};
    resil_pool_entry event = {1, 2, 3, 4, 5, 6};
    resil_pool_counts counts = {1, 2, 3, 4, 5, 6, 7, 8, 9, 10, 11};
    uint64_t number = 77;
    holds(resil_pool_submit(pool, back, 1, 1, 5) == RESIL_EMPTY, "submit");
    holds(resil_pool_submit_next(pool, back, 1, 5, &number) == RESIL_EMPTY && number == 77, "submit_next");
    holds(resil_pool_pick(pool, back, &job) == RESIL_EMPTY, "pick");
    holds(resil_pool_finish(pool, back, 1, 1, 0) == RESIL_EMPTY, "finish");
    holds(resil_pool_resize(pool, back, 1, 1) == RESIL_EMPTY, "resize");
    holds(resil_pool_idle_end(pool, back) == RESIL_EMPTY, "idle_end");
    holds(resil_pool_close(pool, back) == RESIL_EMPTY, "close");
    holds(resil_pool_numbers(pool, back, &counts) == RESIL_EMPTY, "numbers");
    holds(resil_pool_event_count(pool, back) == 0, "event_count");
    holds(resil_pool_lost(pool, back) == 0, "lost");
    holds(resil_pool_event(pool, back, 0, &event) == RESIL_EMPTY, "event");
    holds(job.work == 1 && job.number == 2 && job.place == 3 && job.caller == 4, "a job was written");
    holds(event.number == 1 && event.caller == 2 && event.kind == 3 && event.reply == 4 && event.core == 5 && event.max == 6,
          "an event was written");
    holds(counts.accepted == 1 && counts.refused == 2 && counts.finished == 3, "counts were written");
    holds(counts.core == 4 && counts.max == 5 && counts.greatest == 6 && counts.capacity == 7, "sizes were written");
    holds(counts.workers == 8 && counts.running == 9 && counts.waiting == 10 && counts.closed == 11, "numbers were written");
}

static void of_no_pass(resil_permit_pass pass, resil_permit_pass *back) {
    resil_permit_pass out = {0};
    holds(resil_permit_split(pass, back, &out) == RESIL_EMPTY && out.at == 0, "split");
    holds(resil_permit_try_once(pass, back) == RESIL_EMPTY, "try_once");
    holds(resil_permit_leave(pass, back) == RESIL_EMPTY, "leave");
    holds(resil_permit_retire(pass, back) == RESIL_EMPTY, "retire");
    holds(resil_permit_raise(pass, back) == RESIL_EMPTY, "raise");
    holds(resil_permit_retired(pass, back) == 0, "retired");
    holds(resil_permit_available(pass, back) == 0, "available");
    holds(!resil_permit_enter(back), "enter");
    holds(!resil_permit_exit(back), "exit");
}

/* The functions without the header's checks of pointers, as another language calls them. */
#undef resil_pool_close
#undef resil_pool_lost
#undef resil_permit_leave
#undef resil_permit_available

static void empty_handles(void) {
    resil_pool pool = {0};
    resil_permit_pass pass = {0};
    of_no_pool(pool, &pool);
    holds(pool.at == 0, "an empty pool was filled");
    of_no_pass(pass, &pass);
    holds(pass.at == 0, "an empty pass was filled");
    holds(resil_pool_close(pool, &pool) == RESIL_EMPTY, "close of the library");
    holds(resil_pool_lost(pool, &pool) == 0, "lost of the library");
    holds(resil_permit_leave(pass, &pass) == RESIL_EMPTY, "leave of the library");
    holds(resil_permit_available(pass, &pass) == 0, "available of the library");
    resil_pool_free(pool);
    resil_permit_free(pass);
}

/* Null pointers: the pool still has what it had, and still belongs to the caller. */
static void null_pointers(void) {
    resil_pool pool = {0};
    resil_permit_pass pass = {0};
    resil_pool_counts counts;
    holds(resil_pool_new(1, 1, 1, 1, 0, 0) == RESIL_EMPTY, "a pool to nowhere");
    holds(resil_permit_new(1, 0) == RESIL_EMPTY, "a pass to nowhere");
    holds(resil_pool_new(1, 1, 1, 1, 0, &pool) == RESIL_POOL_MADE, "a pool");
    holds(resil_permit_new(1, &pass) == RESIL_PERMIT_MADE, "a pass");
    of_no_pool(pool, 0);
    of_no_pass(pass, 0);
    holds(resil_pool_submit_next(pool, &pool, 1, 5, 0) == RESIL_EMPTY, "a number to nowhere");
    holds(resil_pool_pick(pool, &pool, 0) == RESIL_EMPTY, "a job to nowhere");
    holds(resil_pool_numbers(pool, &pool, 0) == RESIL_EMPTY, "numbers to nowhere");
    holds(resil_pool_event(pool, &pool, 0, 0) == RESIL_EMPTY, "an event to nowhere");
    holds(resil_permit_split(pass, &pass, 0) == RESIL_EMPTY, "a second pass to nowhere");
    holds(resil_pool_numbers(pool, &pool, &counts) == RESIL_POOL_TOLD && counts.accepted == 0, "a job came of it");
    holds(resil_permit_available(pass, &pass) == 1, "a permit was taken");
    resil_pool_free(pool);
    resil_permit_free(pass);
}

/* Freed while in use: a pool with waiting and running jobs, and a pass that holds a permit, which is never given
 * back. */
static void freed_while_it_holds(void) {
    resil_pool pool = {0};
    resil_permit_pass first = {0}, second = {0};
    resil_pool_job job;
    holds(resil_pool_new(1, 2, 1, 1, 3, &pool) == RESIL_POOL_MADE, "a pool");
    for (uint64_t number = 1; number <= 3; number++)
        holds(resil_pool_submit(pool, &pool, 1, number, number) <= RESIL_POOL_EXTRA, "a job");
    holds(resil_pool_pick(pool, &pool, &job) == RESIL_POOL_PICKED_OWN && job.work == 1, "the first job");
    resil_pool_free(pool);
    holds(resil_permit_new(2, &first) == RESIL_PERMIT_MADE, "a first pass");
    holds(resil_permit_split(first, &first, &second) == RESIL_PERMIT_MADE, "a second pass");
    holds(resil_permit_enter(&second), "a permit");
    resil_permit_free(second);
    holds(resil_permit_available(first, &first) == 1, "the permit came back");
    resil_permit_free(first);
}

/* A second pool in the same handle: the first one is lost, unless a copy of the handle was kept to free it. */
static void new_twice(void) {
    resil_pool pool = {0}, kept;
    resil_pool_counts counts;
    holds(resil_pool_new(1, 1, 1, 1, 0, &pool) == RESIL_POOL_MADE, "a pool");
    kept = pool;
    holds(resil_pool_new(2, 3, 4, 5, 6, &pool) == RESIL_POOL_MADE && pool.at != kept.at, "a second one");
    holds(resil_pool_numbers(pool, &pool, &counts) == RESIL_POOL_TOLD && counts.greatest == 3, "the second one is there");
    holds(resil_pool_new(1, 1, 1, 0, 0, &pool) == RESIL_POOL_CALLERS_RANGE, "a third one");
    holds(resil_pool_numbers(pool, &pool, &counts) == RESIL_POOL_TOLD && counts.greatest == 3, "it was overwritten");
    resil_pool_free(pool);
    resil_pool_free(kept);
}

/* Intervals that no function has made, or that are nowhere, and null pointers to write to. */
static void no_intervals(void) {
    resil_retry_interval interval = {0};
    uint64_t wait = 77;
    holds(resil_retry_wait(&interval, 1, &wait) == RESIL_EMPTY, "no interval");
    holds(resil_retry_wait(&interval, 0, &wait) == RESIL_EMPTY, "neither an interval nor an attempt");
    holds(resil_retry_wait(0, 1, &wait) == RESIL_EMPTY, "an interval from nowhere");
    holds(resil_retry_fixed(5, 0) == RESIL_EMPTY, "an interval to nowhere");
    holds(resil_retry_exponential(1, 2, 1, 9, 0) == RESIL_EMPTY, "a growing interval to nowhere");
    holds(resil_retry_fixed(5, &interval) == RESIL_RETRY_MADE, "an interval");
    holds(resil_retry_wait(&interval, 1, 0) == RESIL_EMPTY, "a wait to nowhere");
    interval.initial = RESIL_RETRY_MAX_WAIT + 1;
    holds(resil_retry_wait(&interval, 1, &wait) == RESIL_EMPTY, "a wait that was written too long");
    interval.kind = 3;
    holds(resil_retry_wait(&interval, 1, &wait) == RESIL_EMPTY, "a third kind");
    holds(resil_retry_exponential(1, 2, 1, 9, &interval) == RESIL_RETRY_MADE, "a growing interval");
    interval.denominator = 0;
    holds(resil_retry_wait(&interval, 1, &wait) == RESIL_EMPTY, "a multiplier that was written to be divided by 0");
    holds(wait == 77, "a wait was written");
}

int main(void) {
    empty_handles();
    no_intervals();
    null_pointers();
    freed_while_it_holds();
    new_twice();
    return failed == 0 ? 0 : 1;
}
