/* The pool of examples/pool_threads.c when some threads, or all, can't be started: accepted jobs are run and
 * answered all the same, and the numbers are those of a pool that has its threads. */
#include <errno.h>
#include <pthread.h>

static int start_some(pthread_t *thread, const pthread_attr_t *how, void *(*work)(void *), void *pool);

#define pthread_create start_some
#define main pool_threads
#include "examples/pool_threads.c"
#undef pthread_create
#undef main

enum { CALLERS = 4, ROUNDS = 200 };

/* A start fails if its bit is set here, the first bit for the first of eight. Starts are made with the pool's lock. */
static unsigned refused_starts, starts;
static _Atomic int failed;

static int start_some(pthread_t *thread, const pthread_attr_t *how, void *(*work)(void *), void *pool) {
    if ((refused_starts >> (starts++ % 8)) & 1) return EAGAIN;
    return pthread_create(thread, how, work, pool);
}

static void holds(bool so, const char *what) {
    if (so) return;
    fprintf(stderr, "pool_unstarted: %s, %#x\n", what, refused_starts);
    failed++;
}

static void open_pool(struct pool *pool, uint32_t core, uint32_t max, uint32_t queue, unsigned refused) {
    refused_starts = refused;
    starts = 0;
    holds(resil_pool_new(core, max, queue, 1, 0, &pool->rule) == RESIL_POOL_MADE, "no pool");
}

/* Closes a pool, whose last numbers must be these. */
static void end_pool(struct pool *pool, uint64_t accepted, uint64_t refused) {
    resil_pool_counts counts = {0};
    close_pool(pool);
    holds(resil_pool_numbers(pool->rule, &pool->rule, &counts) == RESIL_POOL_TOLD, "no numbers");
    holds(counts.accepted == accepted && counts.refused == refused, "a submission is missing");
    holds(counts.finished == accepted && counts.workers == 0 && pool->owed == 0, "a job or a worker is left");
    resil_pool_free(pool->rule);
}

static struct pool pool = {.lock = PTHREAD_MUTEX_INITIALIZER, .changed = PTHREAD_COND_INITIALIZER};
static struct job jobs[7];

static uint64_t next(uint64_t asked) {
    return asked + 1;
}

/* The job with a worker above the core size finds the queue full. */
static uint64_t third(uint64_t asked) {
    holds(submit(&pool, &jobs[4]) == RESIL_POOL_FULL, "the fourth");
    return next(asked);
}

/* While the first job runs, its worker is busy, though it isn't a thread: the second job waits, and the third is an
 * extra. */
static uint64_t first(uint64_t asked) {
    holds(submit(&pool, &jobs[2]) == RESIL_POOL_QUEUED && !jobs[2].is_answered, "the second");
    holds(submit(&pool, &jobs[3]) == RESIL_POOL_EXTRA && jobs[3].is_answered && jobs[2].is_answered, "the third");
    return next(asked);
}

/* At first no thread at all; then the worker that is owed gets one with the next queued job. */
static void no_thread(void) {
    open_pool(&pool, 1, 2, 1, 0x0f);
    for (uint64_t number = 1; number <= 6; number++) jobs[number] = (struct job){.run = next, .asked = number};
    jobs[1].run = first;
    jobs[3].run = third;
    holds(submit(&pool, &jobs[1]) == RESIL_POOL_CORE && jobs[1].is_answered, "the first");
    holds(pool.owed == 1 && pool.threads == 0, "nothing is owed");
    holds(submit(&pool, &jobs[5]) == RESIL_POOL_QUEUED && jobs[5].is_answered, "the fifth");
    starts = 4;
    holds(submit(&pool, &jobs[6]) == RESIL_POOL_QUEUED && pool.owed == 0, "the sixth");
    holds(wait_for(&pool, &jobs[6]) == 7 && jobs[1].answer == 2 && jobs[3].answer == 4, "an answer");
    end_pool(&pool, 5, 1);
}

/* A thread of the test's own. Returns how many of its jobs were accepted. */
static void *submits(void *at) {
    uint64_t *accepted = at;
    for (uint64_t number = 0; number < ROUNDS; number++) {
        struct job job = {.run = next, .asked = number};
        if (submit(&pool, &job) > RESIL_POOL_EXTRA) continue;
        holds(wait_for(&pool, &job) == number + 1, "another answer");
        *accepted += 1;
    }
    return 0;
}

static void some_threads(unsigned refused) {
    pthread_t threads[CALLERS];
    uint64_t accepted[CALLERS] = {0}, all = 0;
    open_pool(&pool, 2, 3, 1, refused);
    for (int i = 0; i < CALLERS; i++) holds(pthread_create(&threads[i], 0, submits, &accepted[i]) == 0, "no thread");
    for (int i = 0; i < CALLERS; i++) {
        holds(pthread_join(threads[i], 0) == 0, "no end");
        all += accepted[i];
    }
    end_pool(&pool, all, CALLERS * ROUNDS - all);
}

int main(void) {
    no_thread();
    for (unsigned refused = 0; refused < 256; refused += 17) some_threads(refused);
    return failed == 0 ? 0 : 1;
}
