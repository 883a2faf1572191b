/* A pool of 1,024 threads built on the rule: jobs that all wait for each other, and sizes that are set under load. An
 * independent counter says how many jobs run at once. */
#include "resil_pool.h"

#include "holds.h"

#include <pthread.h>

enum { MANY = 1024, FEW = 16, LATER = 10 * FEW, STACK = 128 * 1024 };

/* The place where jobs wait for each other: the first ones that come are a group, then the next ones, and so on. */
struct hall {
    pthread_mutex_t lock;
    pthread_cond_t complete;
    unsigned group, came, inside, most;
};

/* Waits until the group is complete. */
static void meet(struct hall *hall) {
    pthread_mutex_lock(&hall->lock);
    const unsigned all = hall->came - hall->came % hall->group + hall->group;
    if (++hall->inside > hall->most) hall->most = hall->inside;
    if (++hall->came == all || hall->came == MANY) pthread_cond_broadcast(&hall->complete);
    while (hall->came < all) pthread_cond_wait(&hall->complete, &hall->lock);
    hall->inside--;
    pthread_mutex_unlock(&hall->lock);
}

/* Waits until this many have come: some groups, or all but this thread. */
static void have_come(struct hall *hall, unsigned count) {
    pthread_mutex_lock(&hall->lock);
    while (hall->came < count) pthread_cond_wait(&hall->complete, &hall->lock);
    pthread_mutex_unlock(&hall->lock);
}

/* The rule and its lock. A change that a thread may wait for is signalled. */
struct pool {
    resil_pool rule;
    pthread_mutex_t lock;
    pthread_cond_t changed;
    unsigned out; /* jobs that were picked and aren't finished */
};

static resil_pool_counts numbers(struct pool *pool) {
    resil_pool_counts counts = {0};
    holds(resil_pool_numbers(pool->rule, &pool->rule, &counts) == RESIL_POOL_TOLD, "the numbers");
    return counts;
}

/* Picks a job that may begin: one with a worker of its own, or the next one of the queue if fewer run than the maximum size
 * says now. */
static bool picks(struct pool *pool, resil_pool_job *picked) {
    const resil_pool_counts counts = numbers(pool);
    if (counts.running >= counts.max && counts.running == pool->out) return false;
    return resil_pool_pick(pool->rule, &pool->rule, picked) <= RESIL_POOL_PICKED_QUEUE;
}

/* A thread of the pool. It exits once the pool is closed and nothing waits. */
static void *work(void *at) {
    struct pool *pool = at;
    resil_pool_job picked;
    pthread_mutex_lock(&pool->lock);
    for (;;) {
        if (picks(pool, &picked)) {
            pool->out++;
            pthread_mutex_unlock(&pool->lock);
            meet((struct hall *)(uintptr_t)picked.work);
            pthread_mutex_lock(&pool->lock);
            pool->out--;
            holds(resil_pool_finish(pool->rule, &pool->rule, picked.caller, picked.number, picked.place) == RESIL_POOL_FINISHED,
                  "a job that ends");
        } else if (numbers(pool).closed && numbers(pool).waiting == 0) {
            break;
        } else {
            pthread_cond_wait(&pool->changed, &pool->lock);
        }
    }
    pthread_mutex_unlock(&pool->lock);
    return 0;
}

static void submit(struct pool *pool, struct hall *hall, unsigned count) {
    uint64_t number;
    pthread_mutex_lock(&pool->lock);
    for (unsigned job = 0; job < count; job++) {
        holds(resil_pool_submit_next(pool->rule, &pool->rule, 1, (uintptr_t)hall, &number) <= RESIL_POOL_EXTRA, "a job accepted");
        pthread_cond_signal(&pool->changed);
    }
    pthread_mutex_unlock(&pool->lock);
}

static void resize(struct pool *pool, unsigned size) {
    pthread_mutex_lock(&pool->lock);
    holds(resil_pool_resize(pool->rule, &pool->rule, size, size) == RESIL_POOL_RESIZED_NOW, "sizes that are set");
    pthread_cond_broadcast(&pool->changed);
    pthread_mutex_unlock(&pool->lock);
}

/* Sets the sizes to few while many jobs run and others wait, and to many again while few run and many wait. The halls stay
 * until all jobs have ended. */
static void shrink_and_grow(struct pool *pool, struct hall halls[3]) {
    const unsigned groups[] = {MANY + 1, FEW, MANY};
    struct hall *held = &halls[0], *later = &halls[1], *all = &halls[2];
    for (unsigned hall = 0; hall < 3; hall++)
        halls[hall] = (struct hall){PTHREAD_MUTEX_INITIALIZER, PTHREAD_COND_INITIALIZER, groups[hall], 0, 0, 0};
    submit(pool, held, MANY);
    have_come(held, MANY);
    submit(pool, later, LATER);
    resize(pool, FEW);
    meet(held); /* as the last one of its group */
    have_come(later, LATER);
    holds(later->most == FEW, "as many at once as the smaller size");
    submit(pool, all, MANY);
    resize(pool, MANY);
    have_come(all, MANY);
    holds(all->most == MANY, "as many at once as the larger size");
}

int main(void) {
    static struct pool pool = {.lock = PTHREAD_MUTEX_INITIALIZER, .changed = PTHREAD_COND_INITIALIZER};
    static struct hall halls[2][3];
    static pthread_t threads[MANY];
    pthread_attr_t small;
    if (resil_pool_new(MANY, MANY, 4 * MANY, 1, 0, &pool.rule) != RESIL_POOL_MADE) return 1;
    if (pthread_attr_init(&small) != 0 || pthread_attr_setstacksize(&small, STACK) != 0) return 1;
    for (unsigned thread = 0; thread < MANY; thread++)
        if (pthread_create(&threads[thread], &small, work, &pool) != 0) return 1;
    shrink_and_grow(&pool, halls[0]);
    shrink_and_grow(&pool, halls[1]);
    pthread_mutex_lock(&pool.lock);
    holds(resil_pool_close(pool.rule, &pool.rule) == RESIL_POOL_CLOSED_NOW, "closed");
    pthread_cond_broadcast(&pool.changed);
    pthread_mutex_unlock(&pool.lock);
    for (unsigned thread = 0; thread < MANY; thread++) pthread_join(threads[thread], 0);
    const resil_pool_counts counts = numbers(&pool);
    holds(counts.workers == MANY && counts.finished == 2 * (2 * MANY + LATER) && counts.refused == 0, "all are finished");
    resil_pool_free(pool.rule);
    return failed == 0 ? 0 : 1;
}
