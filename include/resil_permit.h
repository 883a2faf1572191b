/* Permits that threads share, for C and C++: the proved permits of crates/resil_permit.
 *
 * A number of permits is made together with a first pass. Each thread that takes permits has its own pass;
 * resil_permit_split makes one more for each other thread. A pass counts the permits that it holds, and all passes
 * together never hold more than are in use. All permits are in use except the retired ones: a retired permit is
 * kept by its pass, neither free nor held, until the same pass raises it again. No function waits for another
 * thread.
 *
 * A pass that is {0} is empty. Called with an empty pass, a function returns RESIL_EMPTY, or 0 if it returns a
 * count, and resil_permit_free does nothing. The library ensures this, and it is proved. A null pointer to write
 * to gives the same result: the functions at the end of this header ensure that. In both cases nothing is done or
 * written.
 *
 * The caller must ensure the following, since nothing checks it:
 *   - a pass starts as {0}; one that isn't empty was filled by resil_permit_new or resil_permit_split, and hasn't
 *     been freed since. resil_permit_free doesn't empty it, so set it to {0} if it may be passed in again;
 *   - writing to `out` overwrites it: a pass in it that hasn't been freed is lost, with its memory;
 *   - `back` points to the pass that is passed in, and `out` points elsewhere: call resil_permit_leave(pass,
 *     &pass);
 *   - a pass isn't copied, and only one call at a time uses it. It may move to another thread: by a lock, by
 *     starting or joining the thread, or by a sequentially consistent atomic;
 *   - what the pointer in a pass points to is neither read nor written;
 *   - malloc and free belong to the same allocator, and malloc aligns as the C standard requires;
 *   - no function is called from a signal handler, or in the forked child of a process with threads.
 *
 * Link libresil.a, or instead libresil_c.a followed by the toolchain's liblibc_c.a. */
#ifndef RESIL_PERMIT_H
#define RESIL_PERMIT_H

#include "resil.h"

#include <stdbool.h>
#include <stdint.h>

#ifdef __cplusplus
extern "C" {
#endif

/* A thread's pass: one pointer, which is passed in by value and returned through `back`. */
typedef struct resil_permit_pass {
    void *at;
} resil_permit_pass;

/* What resil_permit_new and resil_permit_split return. */
enum {
    RESIL_PERMIT_MADE = 0,     /* `out` has a pass */
    RESIL_PERMIT_MEMORY = 1,   /* out of memory; `out` is unchanged */
    RESIL_PERMIT_TOO_MANY = 2  /* `max` is above 65,535; `out` is unchanged */
};

/* What resil_permit_try_once returns. */
enum {
    RESIL_PERMIT_TAKEN = 0,    /* the pass holds one more permit */
    RESIL_PERMIT_FULL = 1,     /* all permits in use were held */
    RESIL_PERMIT_CONTENDED = 2 /* another thread interfered, and nothing was done: try again */
};

/* What resil_permit_leave, resil_permit_retire and resil_permit_raise return. */
enum {
    RESIL_PERMIT_GIVEN = 0,    /* leave: the pass holds one permit fewer */
    RESIL_PERMIT_RETIRED = 0,  /* retire: the pass holds one permit fewer, and has retired one more */
    RESIL_PERMIT_RAISED = 0,   /* raise: the pass has retired one permit fewer, and one more is free */
    RESIL_PERMIT_NONE = 1      /* the pass holds (raise: has retired) no permit, and nothing was done */
};

/* Makes `max` permits, 0 to 65,535, all free, and their first pass. Returns MADE, MEMORY or TOO_MANY. */
RESIL_MUST_USE uint8_t resil_permit_new(uint32_t max, resil_permit_pass *out);

/* Makes a second pass of the same permits, which holds none. The pass passed in is unchanged. Returns MADE or
 * MEMORY. */
RESIL_MUST_USE uint8_t resil_permit_split(resil_permit_pass pass, resil_permit_pass *back,
                                          resil_permit_pass *out);

/* Tries once to take a permit. Returns TAKEN, FULL or CONTENDED. */
RESIL_MUST_USE uint8_t resil_permit_try_once(resil_permit_pass pass, resil_permit_pass *back);

/* Gives a permit back. Returns GIVEN or NONE. */
uint8_t resil_permit_leave(resil_permit_pass pass, resil_permit_pass *back);

/* Retires a permit that the pass holds: one fewer is in use until this pass raises it again. Returns RETIRED or
 * NONE. */
uint8_t resil_permit_retire(resil_permit_pass pass, resil_permit_pass *back);

/* Raises a permit that the pass has retired, which makes it free. Returns RAISED or NONE. */
uint8_t resil_permit_raise(resil_permit_pass pass, resil_permit_pass *back);

/* Returns how many permits the pass has retired and not raised again. The pass is unchanged. */
uint32_t resil_permit_retired(resil_permit_pass pass, resil_permit_pass *back);

/* Returns the number of free permits at this moment: those in use that no pass holds. */
uint32_t resil_permit_available(resil_permit_pass pass, resil_permit_pass *back);

/* Frees a pass; the permits are freed with their last pass. A permit that the pass holds or has retired is never
 * given back. Does nothing if the pass is empty. */
void resil_permit_free(resil_permit_pass pass);

/* Takes a permit and returns true, trying again while other threads interfere. Returns false if all permits in use
 * were held, if the pass is empty, or if `pass` is null. */
RESIL_MUST_USE static inline bool resil_permit_enter(resil_permit_pass *pass) {
    uint8_t answer = RESIL_PERMIT_CONTENDED;
    while (pass && answer == RESIL_PERMIT_CONTENDED) answer = resil_permit_try_once(*pass, pass);
    return answer == RESIL_PERMIT_TAKEN;
}

/* Gives a permit back and returns true. Returns false if the pass holds none or is empty, or if `pass` is null. */
static inline bool resil_permit_exit(resil_permit_pass *pass) {
    return pass && resil_permit_leave(*pass, pass) == RESIL_PERMIT_GIVEN;
}

/* Each returned value as a string to print, "empty" for RESIL_EMPTY. The first function names the values of
 * resil_permit_new and resil_permit_split, each other one those of the function in its name. */
static inline const char *resil_permit_new_name(uint8_t answer) {
    static const char *const names[] = {"made", "out of memory", "too many"};
    return resil_name(names, sizeof names / sizeof *names, answer);
}

static inline const char *resil_permit_try_once_name(uint8_t answer) {
    static const char *const names[] = {"taken", "full", "contended"};
    return resil_name(names, sizeof names / sizeof *names, answer);
}

static inline const char *resil_permit_leave_name(uint8_t answer) {
    static const char *const names[] = {"given", "none"};
    return resil_name(names, sizeof names / sizeof *names, answer);
}

static inline const char *resil_permit_retire_name(uint8_t answer) {
    static const char *const names[] = {"retired", "none"};
    return resil_name(names, sizeof names / sizeof *names, answer);
}

static inline const char *resil_permit_raise_name(uint8_t answer) {
    static const char *const names[] = {"raised", "none"};
    return resil_name(names, sizeof names / sizeof *names, answer);
}

/* The same functions, which also accept a null pointer. After these lines each name refers to the checked one. */
RESIL_MUST_USE static inline uint8_t resil_permit_new_checked(uint32_t max, resil_permit_pass *out) {
    return out ? resil_permit_new(max, out) : RESIL_EMPTY;
}

RESIL_MUST_USE static inline uint8_t resil_permit_split_checked(resil_permit_pass pass, resil_permit_pass *back,
                                                                resil_permit_pass *out) {
    return back && out ? resil_permit_split(pass, back, out) : RESIL_EMPTY;
}

RESIL_MUST_USE static inline uint8_t resil_permit_try_once_checked(resil_permit_pass pass, resil_permit_pass *back) {
    return back ? resil_permit_try_once(pass, back) : RESIL_EMPTY;
}

static inline uint8_t resil_permit_leave_checked(resil_permit_pass pass, resil_permit_pass *back) {
    return back ? resil_permit_leave(pass, back) : RESIL_EMPTY;
}

static inline uint8_t resil_permit_retire_checked(resil_permit_pass pass, resil_permit_pass *back) {
    return back ? resil_permit_retire(pass, back) : RESIL_EMPTY;
}

static inline uint8_t resil_permit_raise_checked(resil_permit_pass pass, resil_permit_pass *back) {
    return back ? resil_permit_raise(pass, back) : RESIL_EMPTY;
}

static inline uint32_t resil_permit_retired_checked(resil_permit_pass pass, resil_permit_pass *back) {
    return back ? resil_permit_retired(pass, back) : 0;
}

static inline uint32_t resil_permit_available_checked(resil_permit_pass pass, resil_permit_pass *back) {
    return back ? resil_permit_available(pass, back) : 0;
}

#define resil_permit_new resil_permit_new_checked
#define resil_permit_split resil_permit_split_checked
#define resil_permit_try_once resil_permit_try_once_checked
#define resil_permit_leave resil_permit_leave_checked
#define resil_permit_retire resil_permit_retire_checked
#define resil_permit_raise resil_permit_raise_checked
#define resil_permit_retired resil_permit_retired_checked
#define resil_permit_available resil_permit_available_checked

#ifdef __cplusplus
}
#endif

#endif
