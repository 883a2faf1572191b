/* A call that is tried up to four times: the wait after the first attempt is 20 ms, and each later one is one and a
 * half times the wait before. */
#define _POSIX_C_SOURCE 200809L /* for nanosleep */

#include "resil_retry.h"

#include <errno.h>
#include <inttypes.h>
#include <stdbool.h>
#include <stdio.h>
#include <time.h>

enum { ATTEMPTS = 4 };

/* The backend, which answers the third call. */
static bool call(uint64_t *answer) {
    static int calls;
    *answer = 42;
    return ++calls == 3;
}

static bool sleep_for(uint64_t ms) {
    struct timespec left = {(time_t)(ms / 1000), (long)(ms % 1000) * 1000000};
    while (nanosleep(&left, &left) != 0)
        if (errno != EINTR) return false;
    return true;
}

/* Calls until there is an answer or no attempt is left. */
static bool call_with_retry(const resil_retry_interval *interval, uint64_t *answer) {
    for (uint32_t attempt = 1; !call(answer); attempt++) {
        uint64_t wait;
        if (attempt == ATTEMPTS || resil_retry_wait(interval, attempt, &wait) != RESIL_RETRY_TOLD) return false;
        printf("attempt %u failed: wait %" PRIu64 " ms\n", (unsigned)attempt, wait);
        if (!sleep_for(wait)) return false;
    }
    return true;
}

int main(void) {
    resil_retry_interval interval;
    uint64_t answer;
    uint8_t made = resil_retry_exponential(20, 3, 2, RESIL_RETRY_MAX_WAIT, &interval);
    if (made != RESIL_RETRY_MADE) {
        fprintf(stderr, "no interval: %s\n", resil_retry_new_name(made));
        return 1;
    }
    if (!call_with_retry(&interval, &answer)) return 1;
    printf("the answer is %" PRIu64 "\n", answer);
    return fflush(stdout) != 0 || ferror(stdout);
}
