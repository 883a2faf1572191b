/* The rule of a thread pool, for C and C++: the proved rule of crates/resil_rule, for programs with their own threads that
 * run for any length of time.
 *
 * The pool keeps track of jobs, and starts no threads. Your program asks it what happens to a submission and which job to
 * run next, and reports when a job has ended; it runs the jobs itself. A job is identified by its caller and by its
 * number, which is counted from 1 by the caller, or by the library in resil_pool_submit_next. It carries 64 bits of your
 * own, its work, which the pool keeps until the job is picked. The rule is that of
 * java.util.concurrent.ThreadPoolExecutor, as described in the manual, docs/FORMATS.md, under 'How rows are carried out'.
 * After CORE or EXTRA your program starts one worker, which begins with that job. Each worker picks, runs and finishes one
 * job after the other; when there is none to pick, it asks with resil_pool_idle_end whether it may end.
 *
 * If a thread can't be started, the pool has that worker all the same: it counts among the pool's workers, and jobs are
 * queued for it. Your program counts the threads that it owes, and submitters make up for them. If the count isn't 0 when
 * a job is accepted (CORE, EXTRA or QUEUED), its submitter starts a thread, which takes one off the count. If it can't, it
 * acts as the worker itself: it picks, runs and finishes until there is no job to pick, and then calls resil_pool_idle_end
 * once; ENDED takes one off the count. So each accepted job is run. The example pool_threads.c does this.
 *
 * resil_pool_new allocates all the memory that the pool will ever have. No other function allocates any, or can fail for
 * lack of it. The pool keeps its numbers and, if asked to, the last events; earlier ones are forgotten.
 *
 * A pool that is {0} is empty. Called with an empty pool, a function returns RESIL_EMPTY, or 0 if it returns a count, and
 * resil_pool_free does nothing. The library ensures this, and it is proved. A null pointer to write to gives the same
 * result: the functions at the end of this header ensure that. In both cases nothing is done or written.
 *
 * The caller must ensure the following, since nothing checks it:
 *   - a pool starts as {0}; one that isn't empty was filled by resil_pool_new, and hasn't been freed since.
 *     resil_pool_free doesn't empty it, so set it to {0} if it may be passed in again;
 *   - writing to `out` overwrites it: a pool in it that hasn't been freed is lost, with its memory;
 *   - `back` points to the pool that is passed in: call resil_pool_close(pool, &pool). Other pointers to write to point
 *     elsewhere;
 *   - a pool isn't copied, and only one call at a time uses it: threads that share it hold one lock around each call;
 *   - what the pointer in a pool points to is neither read nor written;
 *   - malloc, realloc and free belong to the same allocator, and malloc aligns as the C standard requires;
 *   - no function is called from a signal handler, or in the forked child of a process with threads.
 *
 * Link libresil.a, or instead libresil_c.a followed by the toolchain's liblibc_c.a. */
#ifndef RESIL_POOL_H
#define RESIL_POOL_H

#include "resil.h"

#include <stddef.h>
#include <stdint.h>

#ifdef __cplusplus
extern "C" {
#endif

/* A pool: one pointer, which is passed in by value and returned through `back`. */
typedef struct resil_pool {
    void *at;
} resil_pool;

/* A job that was picked. */
typedef struct resil_pool_job {
    uint64_t work;   /* what was submitted with it */
    uint64_t number; /* its number */
    uint32_t place;  /* the place that it keeps until it is finished */
    uint16_t caller; /* its caller */
} resil_pool_job;

/* The pool's numbers, all at one moment: accepted = running + waiting + finished. The 64-bit counts stop at 2^64 - 1,
 * which then also means any larger number. */
typedef struct resil_pool_counts {
    uint64_t accepted; /* how many submissions were accepted */
    uint64_t refused;  /* how many the rule refused, with RESIL_POOL_FULL or RESIL_POOL_CLOSED */
    uint64_t finished; /* how many jobs were finished */
    uint32_t core;     /* the current core size, in workers */
    uint32_t max;      /* the current maximum size, in workers */
    uint32_t greatest; /* the maximum size it was made with, in workers: the limit of a resize */
    uint32_t capacity; /* the capacity of the queue, in jobs */
    uint32_t workers;  /* how many workers there are */
    uint32_t running;  /* how many jobs have a worker, picked yet or not */
    uint32_t waiting;  /* how many jobs wait in the queue */
    uint32_t closed;   /* 1 if the pool is closed, otherwise 0 */
} resil_pool_counts;

/* An event: what happened at one call. */
typedef struct resil_pool_entry {
    uint64_t number; /* the job's number, or 0 if the event has no job */
    uint16_t caller; /* the job's caller, or 0 if the event has no job */
    uint8_t kind;    /* what happened */
    uint8_t reply;   /* a submission's reply, otherwise RESIL_POOL_NO_REPLY */
    uint32_t core;   /* the new core size of RESIL_POOL_RESIZED, otherwise 0 */
    uint32_t max;    /* the new maximum size of RESIL_POOL_RESIZED, otherwise 0 */
} resil_pool_entry;

/* What resil_pool_new returns. */
enum {
    RESIL_POOL_MADE = 0,
    RESIL_POOL_MEMORY = 1,        /* out of memory */
    RESIL_POOL_CORE_RANGE = 2,    /* the core size isn't from 1 to 1,024 */
    RESIL_POOL_MAX_RANGE = 3,     /* the maximum size isn't from the core size to 1,024 */
    RESIL_POOL_QUEUE_RANGE = 4,   /* the queue capacity isn't from 1 to 65,536 */
    RESIL_POOL_CALLERS_RANGE = 5  /* the number of callers isn't from 1 to 65,535 */
};

/* What resil_pool_submit returns. */
enum {
    RESIL_POOL_CORE = 0,         /* accepted: start a worker, there were fewer than the core size */
    RESIL_POOL_QUEUED = 1,       /* accepted: the job waits */
    RESIL_POOL_EXTRA = 2,        /* accepted: start a worker, the queue is full */
    RESIL_POOL_FULL = 3,         /* refused by the rule: it is counted, and is an event */
    RESIL_POOL_CLOSED = 4,       /* refused by the rule: it is counted, and is an event */
    RESIL_POOL_WRONG_NUMBER = 5, /* not one more than the caller's submissions so far; nothing changed */
    RESIL_POOL_NO_CALLER = 6     /* the caller isn't from 1 to the number of callers; nothing changed */
};

/* What resil_pool_pick returns. */
enum {
    RESIL_POOL_PICKED_OWN = 0,   /* a job that has had its own worker since its submission */
    RESIL_POOL_PICKED_QUEUE = 1, /* a job that was taken from the queue */
    RESIL_POOL_NONE = 2          /* there is none to pick; nothing changed */
};

/* What resil_pool_finish returns. */
enum {
    RESIL_POOL_FINISHED = 0,
    RESIL_POOL_NOT_OUT = 1       /* no unfinished job with this id was picked at this place; nothing changed */
};

/* What resil_pool_resize returns. */
enum {
    RESIL_POOL_RESIZED_NOW = 0,       /* even if the sizes stay the same or the pool is closed */
    RESIL_POOL_RESIZE_CORE_RANGE = 1, /* the core size isn't from 1 to 64, or to 1,024 if the maximum size of
                                       * resil_pool_new was above 64; nothing changed */
    RESIL_POOL_RESIZE_MAX_RANGE = 2   /* the maximum size isn't from the core size to that of resil_pool_new; nothing
                                       * changed */
};

/* What resil_pool_idle_end returns. */
enum {
    RESIL_POOL_ENDED = 0,        /* the worker ends */
    RESIL_POOL_KEPT = 1          /* none may end; nothing changed */
};

/* What resil_pool_close returns. */
enum {
    RESIL_POOL_CLOSED_NOW = 0,
    RESIL_POOL_CLOSED_BEFORE = 1 /* nothing changed */
};

/* What resil_pool_numbers and resil_pool_event return. */
enum {
    RESIL_POOL_TOLD = 0,
    RESIL_POOL_NO_EVENT = 1      /* resil_pool_event: the index isn't below the number of kept events; the entry is unchanged */
};

/* The kinds of events. The reply of a submission is one of RESIL_POOL_CORE to RESIL_POOL_CLOSED. */
enum {
    RESIL_POOL_SUBMIT = 0,
    RESIL_POOL_TAKE = 1,         /* a worker took the oldest job in the queue */
    RESIL_POOL_FINISH = 2,
    RESIL_POOL_IDLE_END = 3,
    RESIL_POOL_CLOSE = 4,
    RESIL_POOL_RESIZED = 5,      /* from now on the core size and the maximum size are those of the entry */
    RESIL_POOL_NO_REPLY = 255
};

/* Makes an open pool: core size 1 to 1,024, maximum size from the core size to 1,024, queue capacity 1 to 65,536; for
 * callers from 1 to `callers`, which is 1 to 65,535; and keeping the last `kept` events, 0 for none. Returns MADE, the
 * first of the four ranges that is violated, or MEMORY. Unless it is MADE, `out` is unchanged. */
RESIL_MUST_USE uint8_t resil_pool_new(uint32_t core, uint32_t max, uint32_t queue, uint32_t callers, uint32_t kept,
                                      resil_pool *out);

/* Submits the caller's next job with its work, under the number that the caller has counted. Returns CORE, QUEUED, EXTRA,
 * FULL, CLOSED, WRONG_NUMBER or NO_CALLER. Except after the first three, the pool doesn't have the work. */
RESIL_MUST_USE uint8_t resil_pool_submit(resil_pool pool, resil_pool *back, uint16_t caller, uint64_t number,
                                         uint64_t work);

/* The same with a number counted by the library, which it writes to `number`: one more than the caller's submissions so
 * far. These include FULL and CLOSED ones, which the rule has refused. Returns the same values as resil_pool_submit,
 * WRONG_NUMBER only if 2^64 - 1 has been reached. After that and after NO_CALLER `number` is unchanged. */
RESIL_MUST_USE uint8_t resil_pool_submit_next(resil_pool pool, resil_pool *back, uint16_t caller, uint64_t work,
                                              uint64_t *number);

/* Picks the job to run next: the oldest that has its own worker and wasn't picked yet; otherwise the oldest in the
 * queue, if a worker is idle. Returns PICKED_OWN, PICKED_QUEUE or NONE; `job` is written if one was picked. */
RESIL_MUST_USE uint8_t resil_pool_pick(resil_pool pool, resil_pool *back, resil_pool_job *job);

/* Finishes a job that was picked, given what resil_pool_pick wrote about it. Returns FINISHED or NOT_OUT. */
uint8_t resil_pool_finish(resil_pool pool, resil_pool *back, uint16_t caller, uint64_t number, uint32_t place);

/* Sets the core size and the maximum size, in workers, from now on. The queue's capacity and all jobs stay the same. This
 * starts and ends no worker: a worker starts with a submission, and one above the core size leaves by resil_pool_idle_end.
 * So there may be more workers than the maximum size, but never more than the maximum of resil_pool_new. Returns
 * RESIZED_NOW, or the first of the two ranges that is violated. */
uint8_t resil_pool_resize(resil_pool pool, resil_pool *back, uint32_t core, uint32_t max);

/* Ends an idle worker if no job waits, and there are more workers than the core size or the pool is closed. Returns ENDED
 * or KEPT. */
uint8_t resil_pool_idle_end(resil_pool pool, resil_pool *back);

/* Closes the pool. Accepted jobs are still picked. Returns CLOSED_NOW or CLOSED_BEFORE. */
uint8_t resil_pool_close(resil_pool pool, resil_pool *back);

/* Writes the pool's numbers, all at one moment, to `counts`. Returns TOLD. */
uint8_t resil_pool_numbers(resil_pool pool, resil_pool *back, resil_pool_counts *counts);

/* Returns how many of the last events are kept now: all that have happened, up to `kept` of resil_pool_new. */
size_t resil_pool_event_count(resil_pool pool, resil_pool *back);

/* Returns how many events came before the kept ones and are lost. The count stops at 2^64 - 1. */
uint64_t resil_pool_lost(resil_pool pool, resil_pool *back);

/* Writes one of the kept events to `event`, by its index from 0, oldest first. Returns TOLD or NO_EVENT. */
uint8_t resil_pool_event(resil_pool pool, resil_pool *back, size_t index, resil_pool_entry *event);

/* Frees a pool and everything in it. Does nothing if the pool is empty. */
void resil_pool_free(resil_pool pool);

/* Each returned value as a string to print, "empty" for RESIL_EMPTY. The values of resil_pool_submit and
 * resil_pool_submit_next are named by the reply function, those of resil_pool_numbers and resil_pool_event by the told
 * function. Replies and kinds of events have the names used in the histories that `resil audit` judges. */
static inline const char *resil_pool_new_name(uint8_t answer) {
    static const char *const names[] = {"made",             "out of memory",      "core out of range",
                                        "max out of range", "queue out of range", "callers out of range"};
    return resil_name(names, sizeof names / sizeof *names, answer);
}

static inline const char *resil_pool_reply_name(uint8_t reply) {
    static const char *const names[] = {"core", "queued", "extra", "full", "closed", "wrong number", "no caller"};
    return resil_name(names, sizeof names / sizeof *names, reply);
}

static inline const char *resil_pool_pick_name(uint8_t answer) {
    static const char *const names[] = {"own", "queue", "none"};
    return resil_name(names, sizeof names / sizeof *names, answer);
}

static inline const char *resil_pool_finish_name(uint8_t answer) {
    static const char *const names[] = {"finished", "not out"};
    return resil_name(names, sizeof names / sizeof *names, answer);
}

static inline const char *resil_pool_resize_name(uint8_t answer) {
    static const char *const names[] = {"resized", "core out of range", "max out of range"};
    return resil_name(names, sizeof names / sizeof *names, answer);
}

static inline const char *resil_pool_idle_end_name(uint8_t answer) {
    static const char *const names[] = {"ended", "kept"};
    return resil_name(names, sizeof names / sizeof *names, answer);
}

static inline const char *resil_pool_close_name(uint8_t answer) {
    static const char *const names[] = {"closed", "closed before"};
    return resil_name(names, sizeof names / sizeof *names, answer);
}

static inline const char *resil_pool_told_name(uint8_t answer) {
    static const char *const names[] = {"told", "no event"};
    return resil_name(names, sizeof names / sizeof *names, answer);
}

static inline const char *resil_pool_kind_name(uint8_t kind) {
    static const char *const names[] = {"submit", "take", "finish", "idle", "close", "resize"};
    return resil_name(names, sizeof names / sizeof *names, kind);
}

/* The same functions, which also accept a null pointer. After these lines each name refers to the checked one. */
RESIL_MUST_USE static inline uint8_t resil_pool_new_checked(uint32_t core, uint32_t max, uint32_t queue,
                                                            uint32_t callers, uint32_t kept, resil_pool *out) {
    return out ? resil_pool_new(core, max, queue, callers, kept, out) : RESIL_EMPTY;
}

RESIL_MUST_USE static inline uint8_t resil_pool_submit_checked(resil_pool pool, resil_pool *back, uint16_t caller,
                                                               uint64_t number, uint64_t work) {
    return back ? resil_pool_submit(pool, back, caller, number, work) : RESIL_EMPTY;
}

RESIL_MUST_USE static inline uint8_t resil_pool_submit_next_checked(resil_pool pool, resil_pool *back, uint16_t caller,
                                                                    uint64_t work, uint64_t *number) {
    return back && number ? resil_pool_submit_next(pool, back, caller, work, number) : RESIL_EMPTY;
}

RESIL_MUST_USE static inline uint8_t resil_pool_pick_checked(resil_pool pool, resil_pool *back, resil_pool_job *job) {
    return back && job ? resil_pool_pick(pool, back, job) : RESIL_EMPTY;
}

static inline uint8_t resil_pool_finish_checked(resil_pool pool, resil_pool *back, uint16_t caller, uint64_t number,
                                                uint32_t place) {
    return back ? resil_pool_finish(pool, back, caller, number, place) : RESIL_EMPTY;
}

static inline uint8_t resil_pool_resize_checked(resil_pool pool, resil_pool *back, uint32_t core, uint32_t max) {
    return back ? resil_pool_resize(pool, back, core, max) : RESIL_EMPTY;
}

static inline uint8_t resil_pool_idle_end_checked(resil_pool pool, resil_pool *back) {
    return back ? resil_pool_idle_end(pool, back) : RESIL_EMPTY;
}

static inline uint8_t resil_pool_close_checked(resil_pool pool, resil_pool *back) {
    return back ? resil_pool_close(pool, back) : RESIL_EMPTY;
}

static inline uint8_t resil_pool_numbers_checked(resil_pool pool, resil_pool *back, resil_pool_counts *counts) {
    return back && counts ? resil_pool_numbers(pool, back, counts) : RESIL_EMPTY;
}

static inline size_t resil_pool_event_count_checked(resil_pool pool, resil_pool *back) {
    return back ? resil_pool_event_count(pool, back) : 0;
}

static inline uint64_t resil_pool_lost_checked(resil_pool pool, resil_pool *back) {
    return back ? resil_pool_lost(pool, back) : 0;
}

static inline uint8_t resil_pool_event_checked(resil_pool pool, resil_pool *back, size_t index,
                                               resil_pool_entry *event) {
    return back && event ? resil_pool_event(pool, back, index, event) : RESIL_EMPTY;
}

#define resil_pool_new resil_pool_new_checked
#define resil_pool_submit resil_pool_submit_checked
#define resil_pool_submit_next resil_pool_submit_next_checked
#define resil_pool_pick resil_pool_pick_checked
#define resil_pool_finish resil_pool_finish_checked
#define resil_pool_resize resil_pool_resize_checked
#define resil_pool_idle_end resil_pool_idle_end_checked
#define resil_pool_close resil_pool_close_checked
#define resil_pool_numbers resil_pool_numbers_checked
#define resil_pool_event_count resil_pool_event_count_checked
#define resil_pool_lost resil_pool_lost_checked
#define resil_pool_event resil_pool_event_checked

#ifdef __cplusplus
}
#endif

#endif
