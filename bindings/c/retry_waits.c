/* The waits of a retry: which intervals are made and which refused, and the wait after each attempt. */
#include "resil_retry.h"

#include "holds.h"

/* What is refused, with the first error if there are several; nothing is written. */
static void refusals(void) {
    const uint64_t most = RESIL_RETRY_MAX_WAIT;
    resil_retry_interval interval = {1, 2, 3, 4, 5};
    holds(resil_retry_fixed(most + 1, &interval) == RESIL_RETRY_TOO_LONG, "a wait above the longest");
    holds(resil_retry_fixed(UINT64_MAX, &interval) == RESIL_RETRY_TOO_LONG, "the greatest number");
    holds(resil_retry_exponential(most + 1, 0, 0, 0, &interval) == RESIL_RETRY_TOO_LONG, "a first wait too long");
    holds(resil_retry_exponential(1, 0, 0, most + 1, &interval) == RESIL_RETRY_TOO_LONG, "a cap too long");
    holds(resil_retry_exponential(9, 1, 0, 1, &interval) == RESIL_RETRY_BAD_MULTIPLIER, "divided by 0");
    holds(resil_retry_exponential(9, 1, 2, 1, &interval) == RESIL_RETRY_BAD_MULTIPLIER, "a multiplier below 1");
    holds(resil_retry_exponential(1, 1001, 1, 9, &interval) == RESIL_RETRY_BAD_MULTIPLIER, "a multiplier of 1,001");
    holds(resil_retry_exponential(9, 2, 1, 8, &interval) == RESIL_RETRY_CAP_BELOW_INITIAL, "a cap below the first wait");
    holds(interval.initial == 1 && interval.cap == 2 && interval.numerator == 3 && interval.denominator == 4 && interval.kind == 5,
          "a refused interval was written");
}

/* Attempts are numbered from 1. */
static void no_attempt(void) {
    resil_retry_interval interval;
    uint64_t wait = 77;
    holds(resil_retry_fixed(5, &interval) == RESIL_RETRY_MADE, "an interval");
    holds(resil_retry_wait(&interval, 0, &wait) == RESIL_RETRY_NO_ATTEMPT && wait == 77, "attempt 0");
}

static void waits(const resil_retry_interval *interval, const uint64_t wanted[], uint32_t count, const char *what) {
    for (uint32_t attempt = 1; attempt <= count; attempt++) {
        uint64_t wait = 0;
        holds(resil_retry_wait(interval, attempt, &wait) == RESIL_RETRY_TOLD && wait == wanted[attempt - 1], what);
    }
}

int main(void) {
    resil_retry_interval interval;
    refusals();
    no_attempt();
    holds(resil_retry_fixed(0, &interval) == RESIL_RETRY_MADE, "no wait");
    waits(&interval, (uint64_t[]){0, 0}, 2, "no wait");
    holds(resil_retry_fixed(RESIL_RETRY_MAX_WAIT, &interval) == RESIL_RETRY_MADE, "the longest wait");
    waits(&interval, (uint64_t[]){RESIL_RETRY_MAX_WAIT, RESIL_RETRY_MAX_WAIT}, 2, "the longest wait");
    holds(resil_retry_exponential(500, 3, 2, RESIL_RETRY_MAX_WAIT, &interval) == RESIL_RETRY_MADE, "times 3/2");
    waits(&interval, (uint64_t[]){500, 750, 1125, 1687, 2530}, 5, "times 3/2, truncated at each step");
    holds(resil_retry_exponential(500, 3, 2, 2000, &interval) == RESIL_RETRY_MADE, "capped");
    waits(&interval, (uint64_t[]){500, 750, 1125, 1687, 2000, 2000}, 6, "capped");
    holds(resil_retry_exponential(1, 3, 2, 9, &interval) == RESIL_RETRY_MADE, "kept by truncation");
    waits(&interval, (uint64_t[]){1, 1, 1}, 3, "kept by truncation");
    return failed == 0 ? 0 : 1;
}
