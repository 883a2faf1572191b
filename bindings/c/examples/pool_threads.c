/* A pool of threads built on the rule: jobs run on the program's own threads, and the program waits for each answer.
 * If a thread can't be started, the submitter does its work. */
#include "resil_pool.h"

#include <inttypes.h>
#include <pthread.h>
#include <stdbool.h>
#include <stdio.h>

/* A job: a function, its argument, and its answer. It must not move until it is answered. */
struct job {
    uint64_t (*run)(uint64_t asked);
    uint64_t asked, answer;
    bool is_answered;
};

/* The rule and its lock. No job runs while it is locked, and each change here is signalled to all waiters. */
struct pool {
    resil_pool rule;
    pthread_mutex_t lock;
    pthread_cond_t changed;
    unsigned threads; /* threads that act as workers */
    unsigned owed;    /* workers of the rule without a thread */
};

/* Picks, runs and finishes one job after the other until there is none to pick. The pool is locked before and after. */
static void run_jobs(struct pool *pool) {
    resil_pool_job picked;
    while (resil_pool_pick(pool->rule, &pool->rule, &picked) <= RESIL_POOL_PICKED_QUEUE) {
        struct job *job = (struct job *)(uintptr_t)picked.work;
        pthread_mutex_unlock(&pool->lock);
        uint64_t answer = job->run(job->asked);
        pthread_mutex_lock(&pool->lock);
        resil_pool_finish(pool->rule, &pool->rule, picked.caller, picked.number, picked.place);
        job->answer = answer;
        job->is_answered = true;
        pthread_cond_broadcast(&pool->changed);
    }
}

/* A thread of the pool. It exits when its worker may end. */
static void *work(void *at) {
    struct pool *pool = at;
    pthread_mutex_lock(&pool->lock);
    run_jobs(pool);
    while (resil_pool_idle_end(pool->rule, &pool->rule) == RESIL_POOL_KEPT) {
        pthread_cond_wait(&pool->changed, &pool->lock);
        run_jobs(pool);
    }
    pool->threads--;
    pthread_cond_broadcast(&pool->changed);
    pthread_mutex_unlock(&pool->lock);
    return 0;
}

/* Starts the threads that are owed. If one can't be started, this thread does its worker's part. */
static void see_to_workers(struct pool *pool) {
    pthread_t thread;
    while (pool->owed > 0 && pthread_create(&thread, 0, work, pool) == 0) {
        pthread_detach(thread);
        pool->threads++;
        pool->owed--;
    }
    if (pool->owed > 0) {
        pool->threads++;
        run_jobs(pool);
        pool->threads--;
    }
    if (pool->owed > 0 && resil_pool_idle_end(pool->rule, &pool->rule) == RESIL_POOL_ENDED) pool->owed--;
    pthread_cond_broadcast(&pool->changed);
}

/* Submits a job, and returns the rule's reply. All callers are caller 1. */
static uint8_t submit(struct pool *pool, struct job *job) {
    uint64_t number;
    pthread_mutex_lock(&pool->lock);
    uint8_t reply = resil_pool_submit_next(pool->rule, &pool->rule, 1, (uintptr_t)job, &number);
    if (reply == RESIL_POOL_CORE || reply == RESIL_POOL_EXTRA) pool->owed++;
    if (reply <= RESIL_POOL_EXTRA) see_to_workers(pool);
    pthread_mutex_unlock(&pool->lock);
    return reply;
}

static uint64_t wait_for(struct pool *pool, struct job *job) {
    pthread_mutex_lock(&pool->lock);
    while (!job->is_answered) pthread_cond_wait(&pool->changed, &pool->lock);
    pthread_mutex_unlock(&pool->lock);
    return job->answer;
}

/* Closes the pool, and waits until every accepted job is done and no thread is left. */
static void close_pool(struct pool *pool) {
    pthread_mutex_lock(&pool->lock);
    resil_pool_close(pool->rule, &pool->rule);
    pthread_cond_broadcast(&pool->changed);
    while (pool->threads > 0) pthread_cond_wait(&pool->changed, &pool->lock);
    while (pool->owed > 0 && resil_pool_idle_end(pool->rule, &pool->rule) == RESIL_POOL_ENDED) pool->owed--;
    pthread_mutex_unlock(&pool->lock);
}

static uint64_t primes_below(uint64_t limit) {
    uint64_t count = 0;
    for (uint64_t number = 2, divisor; number < limit; number++) {
        for (divisor = 2; number % divisor != 0; divisor++) continue;
        count += divisor == number;
    }
    return count;
}

/* Two threads, up to ten jobs, and one job that comes too late. */
int main(void) {
    static struct pool pool = {.lock = PTHREAD_MUTEX_INITIALIZER, .changed = PTHREAD_COND_INITIALIZER};
    static struct job jobs[10], late = {.run = primes_below, .asked = 2};
    resil_pool_counts counts;
    if (resil_pool_new(2, 4, 8, 1, 0, &pool.rule) != RESIL_POOL_MADE) return 1;
    for (unsigned i = 0; i < 10; i++) {
        jobs[i] = (struct job){.run = primes_below, .asked = 1000 * (i + 1)};
        if (submit(&pool, &jobs[i]) > RESIL_POOL_EXTRA) return 1;
    }
    for (unsigned i = 0; i < 10; i++)
        printf("%" PRIu64 " primes are below %" PRIu64 "\n", wait_for(&pool, &jobs[i]), jobs[i].asked);
    close_pool(&pool);
    printf("a job after the closing: %s\n", resil_pool_reply_name(submit(&pool, &late)));
    if (resil_pool_numbers(pool.rule, &pool.rule, &counts) != RESIL_POOL_TOLD) return 1;
    printf("%" PRIu64 " accepted, %" PRIu64 " refused, %" PRIu64 " finished, %u workers\n", counts.accepted,
           counts.refused, counts.finished, (unsigned)counts.workers);
    resil_pool_free(pool.rule);
    return fflush(stdout) != 0 || ferror(stdout);
}
