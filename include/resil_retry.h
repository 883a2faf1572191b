/* The waits of a retry, for C and C++: the proved intervals of crates/resil_retry, for programs that make the calls and
 * wait themselves.
 *
 * An interval says how long to wait after each attempt, in milliseconds. It is plain data: no function here allocates
 * memory or waits, and an interval can be copied and need not be freed. Attempts are numbered from 1.
 *
 * An interval that is {0} is none, and neither is one whose numbers resil_retry_fixed and resil_retry_exponential would
 * never write: for these resil_retry_wait returns RESIL_EMPTY. The library ensures this, and it is proved. A null
 * pointer gives the same result: the functions at the end of this header ensure that. In both cases nothing is written.
 *
 * The caller must ensure the following, since nothing checks it:
 *   - an interval starts as {0}, or was written as a whole by one of these functions or by the caller;
 *   - what a function writes to doesn't overlap what it reads.
 *
 * Link libresil.a, or instead libresil_c.a followed by the toolchain's liblibc_c.a. */
#ifndef RESIL_RETRY_H
#define RESIL_RETRY_H

#include "resil.h"

#include <stdint.h>

#ifdef __cplusplus
extern "C" {
#endif

/* The longest wait, in milliseconds: 365 days. It is also the usual cap. */
#define RESIL_RETRY_MAX_WAIT UINT64_C(31536000000)

/* An interval, as resil_retry_fixed or resil_retry_exponential writes it. */
typedef struct resil_retry_interval {
    uint64_t initial;     /* the wait after the first attempt, in milliseconds */
    uint64_t cap;         /* the longest wait, in milliseconds; 0 if the interval is fixed */
    uint32_t numerator;   /* each wait is the one before times this; 0 if the interval is fixed */
    uint32_t denominator; /* and then divided by this; 0 if the interval is fixed */
    uint32_t kind;        /* 0 for no interval, 1 for a fixed one, 2 for an exponential one */
} resil_retry_interval;

/* What resil_retry_fixed and resil_retry_exponential return. Unless it is MADE, `out` is unchanged. */
enum {
    RESIL_RETRY_MADE = 0,
    RESIL_RETRY_TOO_LONG = 1,         /* a wait or the cap is above RESIL_RETRY_MAX_WAIT */
    RESIL_RETRY_BAD_MULTIPLIER = 2,   /* not 1 <= denominator <= numerator <= 1,000 */
    RESIL_RETRY_CAP_BELOW_INITIAL = 3 /* the cap is below the wait after the first attempt */
};

/* What resil_retry_wait returns. */
enum {
    RESIL_RETRY_TOLD = 0,
    RESIL_RETRY_NO_ATTEMPT = 1        /* the attempt is 0, and nothing was written */
};

/* Makes the interval of `ms` milliseconds after each attempt. 0 is allowed. Returns MADE or TOO_LONG. */
uint8_t resil_retry_fixed(uint64_t ms, resil_retry_interval *out);

/* Makes the interval of `initial` milliseconds after the first attempt, multiplied by numerator / denominator from
 * attempt to attempt, truncated to whole milliseconds at each step, and at most `cap` milliseconds. Returns MADE, or the
 * first of TOO_LONG, BAD_MULTIPLIER and CAP_BELOW_INITIAL that applies. */
uint8_t resil_retry_exponential(uint64_t initial, uint32_t numerator, uint32_t denominator, uint64_t cap,
                                resil_retry_interval *out);

/* Writes the wait after an attempt, in milliseconds, to `wait`. Returns TOLD or NO_ATTEMPT, or RESIL_EMPTY if there is
 * no interval. */
uint8_t resil_retry_wait(const resil_retry_interval *interval, uint32_t attempt, uint64_t *wait);

/* Each returned value as a string to print, "empty" for RESIL_EMPTY. The first function names the values of
 * resil_retry_fixed and resil_retry_exponential. */
static inline const char *resil_retry_new_name(uint8_t answer) {
    static const char *const names[] = {"made", "too long", "bad multiplier", "cap below initial"};
    return resil_name(names, sizeof names / sizeof *names, answer);
}

static inline const char *resil_retry_wait_name(uint8_t answer) {
    static const char *const names[] = {"told", "no attempt"};
    return resil_name(names, sizeof names / sizeof *names, answer);
}

/* The same functions, which also accept a null pointer. After these lines each name refers to the checked one. */
static inline uint8_t resil_retry_fixed_checked(uint64_t ms, resil_retry_interval *out) {
    return out ? resil_retry_fixed(ms, out) : RESIL_EMPTY;
}

static inline uint8_t resil_retry_exponential_checked(uint64_t initial, uint32_t numerator, uint32_t denominator,
                                                      uint64_t cap, resil_retry_interval *out) {
    return out ? resil_retry_exponential(initial, numerator, denominator, cap, out) : RESIL_EMPTY;
}

static inline uint8_t resil_retry_wait_checked(const resil_retry_interval *interval, uint32_t attempt,
                                               uint64_t *wait) {
    return interval && wait ? resil_retry_wait(interval, attempt, wait) : RESIL_EMPTY;
}

#define resil_retry_fixed resil_retry_fixed_checked
#define resil_retry_exponential resil_retry_exponential_checked
#define resil_retry_wait resil_retry_wait_checked

#ifdef __cplusplus
}
#endif

#endif
