/* A stand-in for the static library, which sanitizers can't look into, since Rattle compiles it: the functions that the crate for rustc
 * calls, without their checks of words. It isn't proved.
 *
 * A pass and a pool are plain memory without a lock, and each function writes to it first and last. So two threads that access one
 * without an order between them are found. The number of free permits is atomic, since passes share it. */
#include <stdatomic.h>
#include <stddef.h>
#include <stdint.h>
#include <stdlib.h>
#include <string.h>

typedef struct {
    void *at;
} handle;

/* Permits. */

typedef struct {
    _Atomic int64_t free, passes;
} permits;

typedef struct {
    permits *shared;
    uint32_t held, retired;
    uint64_t writes;
} pass;

static pass *begin(handle h) {
    pass *own = h.at;
    own->writes++;
    return own;
}

static uint8_t end(handle h, handle *back, uint8_t answer) {
    ((pass *)h.at)->writes++;
    *back = h;
    return answer;
}

static uint8_t make_pass(permits *shared, handle *out) {
    pass *made = calloc(1, sizeof *made);
    if (!made) return 1;
    made->shared = shared;
    shared->passes++;
    out->at = made;
    return 0;
}

uint8_t resil_permit_new(uint32_t max, handle *out) {
    permits *shared = calloc(1, sizeof *shared);
    if (!shared) return 1;
    shared->free = max;
    return make_pass(shared, out);
}

uint8_t resil_permit_split(handle h, handle *back, handle *out) {
    return end(h, back, make_pass(begin(h)->shared, out));
}

uint8_t resil_permit_try_once(handle h, handle *back) {
    pass *own = begin(h);
    int64_t free = own->shared->free;
    if (free == 0) return end(h, back, 1);
    if (!atomic_compare_exchange_strong(&own->shared->free, &free, free - 1)) return end(h, back, 2);
    own->held++;
    return end(h, back, 0);
}

/* Takes one from a pass's count, and adds it to another count or to the free permits. */
static uint8_t move(handle h, handle *back, uint32_t *from, uint32_t *to) {
    pass *own = begin(h);
    if (*from == 0) return end(h, back, 1);
    --*from;
    if (to) ++*to;
    else own->shared->free++;
    return end(h, back, 0);
}

uint8_t resil_permit_leave(handle h, handle *back) {
    return move(h, back, &((pass *)h.at)->held, NULL);
}

uint8_t resil_permit_retire(handle h, handle *back) {
    return move(h, back, &((pass *)h.at)->held, &((pass *)h.at)->retired);
}

uint8_t resil_permit_raise(handle h, handle *back) {
    return move(h, back, &((pass *)h.at)->retired, NULL);
}

uint32_t resil_permit_retired(handle h, handle *back) {
    uint32_t retired = begin(h)->retired;
    end(h, back, 0);
    return retired;
}

uint32_t resil_permit_available(handle h, handle *back) {
    int64_t free = begin(h)->shared->free;
    end(h, back, 0);
    return (uint32_t)free;
}

void resil_permit_free(handle h) {
    pass *own = h.at;
    if (--own->shared->passes == 0) free(own->shared);
    free(own);
}

/* A pool: the rule of a thread pool, and a book of its jobs. */

enum { CORE, QUEUED, EXTRA, FULL, CLOSED, MOST = 1024 };

typedef struct {
    uint64_t work, number;
    uint32_t place;
    uint16_t caller;
} job;

typedef struct {
    uint64_t accepted, refused, finished;
    uint32_t core, max, greatest, capacity, workers, running, waiting, closed;
} counts;

typedef struct {
    counts now;
    uint32_t first, own_count;
    job own[MOST], picked[MOST], queue[];
} pool;

static pool *pool_of(handle h, handle *back) {
    *back = h;
    return h.at;
}

uint8_t resil_pool_new(uint32_t core, uint32_t max, uint32_t queue, uint32_t callers, uint32_t kept, handle *out) {
    pool *made = calloc(1, sizeof *made + queue * sizeof(job));
    (void)callers, (void)kept;
    if (!made) return 1;
    made->now = (counts){.core = core, .max = max, .greatest = max, .capacity = queue};
    out->at = made;
    return 0;
}

static uint8_t reply(const counts *now) {
    if (now->closed) return CLOSED;
    if (now->workers < now->core) return CORE;
    if (now->waiting < now->capacity) return QUEUED;
    return now->workers < now->max ? EXTRA : FULL;
}

uint8_t resil_pool_submit(handle h, handle *back, uint16_t caller, uint64_t number, uint64_t work) {
    pool *own = pool_of(h, back);
    counts *now = &own->now;
    job submitted = {work, number, 0, caller};
    uint8_t answer = reply(now);
    *(answer < FULL ? &now->accepted : &now->refused) += 1;
    if (answer == QUEUED) own->queue[(own->first + now->waiting++) % now->capacity] = submitted;
    if (answer == CORE || answer == EXTRA) {
        now->workers++;
        now->running++;
        own->own[own->own_count++] = submitted;
    }
    return answer;
}

uint8_t resil_pool_pick(handle h, handle *back, job *out) {
    pool *own = pool_of(h, back);
    counts *now = &own->now;
    uint8_t is_queued = own->own_count == 0;
    if (is_queued) {
        if (now->waiting == 0 || now->running >= now->workers) return 2;
        *out = own->queue[own->first];
        own->first = (own->first + 1) % now->capacity;
        now->waiting--;
        now->running++;
    } else {
        *out = own->own[0];
        memmove(own->own, own->own + 1, --own->own_count * sizeof *own->own);
    }
    while (own->picked[out->place].number) out->place++;
    own->picked[out->place] = *out;
    return is_queued;
}

uint8_t resil_pool_finish(handle h, handle *back, uint16_t caller, uint64_t number, uint32_t place) {
    pool *own = pool_of(h, back);
    if (own->picked[place].number != number || own->picked[place].caller != caller) return 1;
    own->picked[place].number = 0;
    own->now.running--;
    own->now.finished++;
    return 0;
}

uint8_t resil_pool_resize(handle h, handle *back, uint32_t core, uint32_t max) {
    counts *now = &pool_of(h, back)->now;
    now->core = core;
    now->max = max;
    return 0;
}

uint8_t resil_pool_idle_end(handle h, handle *back) {
    counts *now = &pool_of(h, back)->now;
    if (now->waiting > 0 || now->running == now->workers || (now->workers <= now->core && !now->closed)) return 1;
    now->workers--;
    return 0;
}

uint8_t resil_pool_close(handle h, handle *back) {
    counts *now = &pool_of(h, back)->now;
    return now->closed++ > 0;
}

uint8_t resil_pool_numbers(handle h, handle *back, counts *out) {
    *out = pool_of(h, back)->now;
    return 0;
}

/* It keeps no events. */
size_t resil_pool_event_count(handle h, handle *back) { return pool_of(h, back), 0; }
uint64_t resil_pool_lost(handle h, handle *back) { return pool_of(h, back), 0; }
uint8_t resil_pool_event(handle h, handle *back, size_t index, void *event) { return pool_of(h, back), (void)index, (void)event, 1; }

void resil_pool_free(handle h) { free(h.at); }

/* A retry's waits. */

typedef struct {
    uint64_t initial, cap;
    uint32_t numerator, denominator, kind;
} interval;

uint8_t resil_retry_fixed(uint64_t ms, interval *out) {
    *out = (interval){ms, ms, 0, 0, 0};
    return 0;
}

uint8_t resil_retry_exponential(uint64_t initial, uint32_t numerator, uint32_t denominator, uint64_t cap, interval *out) {
    *out = (interval){initial, cap, numerator, denominator, 1};
    return 0;
}

uint8_t resil_retry_wait(const interval *made, uint32_t attempt, uint64_t *wait) {
    *wait = made->initial;
    for (uint32_t now = 1; now < attempt && made->kind && *wait < made->cap; now++) *wait = *wait * made->numerator / made->denominator;
    *wait = *wait < made->cap ? *wait : made->cap;
    return 0;
}
