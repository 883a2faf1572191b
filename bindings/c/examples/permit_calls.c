/* At most two concurrent calls to a backend: each call is made under a permit, and refused if there is none. Three
 * threads call it at the same time, each with its own pass, and no call ends before all three have asked for a
 * permit. */
#define _POSIX_C_SOURCE 200809L /* for pthread_barrier_t */

#include "resil_permit.h"

#include <pthread.h>
#include <stdio.h>

enum { PERMITS = 2, CALLERS = 3 };

/* A caller: a pass of the backend's permits, and whether its call was made. */
struct caller {
    resil_permit_pass pass;
    bool is_answered;
};

static pthread_barrier_t all_have_asked;

/* The backend, which is slow. */
static void call(void) {
    pthread_barrier_wait(&all_have_asked);
}

/* Returns whether the call was made: it is refused at once if all permits are held. */
static bool call_under_permit(resil_permit_pass *pass) {
    if (!resil_permit_enter(pass)) return false;
    call();
    return resil_permit_exit(pass);
}

static void *calls_once(void *at) {
    struct caller *caller = at;
    caller->is_answered = call_under_permit(&caller->pass);
    if (!caller->is_answered) pthread_barrier_wait(&all_have_asked);
    return 0;
}

int main(void) {
    struct caller callers[CALLERS] = {{{0}, false}};
    pthread_t threads[CALLERS];
    int answered = 0;
    if (resil_permit_new(PERMITS, &callers[0].pass) != RESIL_PERMIT_MADE) return 1;
    for (int i = 1; i < CALLERS; i++)
        if (resil_permit_split(callers[0].pass, &callers[0].pass, &callers[i].pass) != RESIL_PERMIT_MADE) return 1;
    if (pthread_barrier_init(&all_have_asked, 0, CALLERS) != 0) return 1;
    for (int i = 0; i < CALLERS; i++)
        if (pthread_create(&threads[i], 0, calls_once, &callers[i]) != 0) return 1;
    for (int i = 0; i < CALLERS; i++) {
        if (pthread_join(threads[i], 0) != 0) return 1;
        answered += callers[i].is_answered;
    }
    printf("%d calls are answered, and %d refused\n", answered, CALLERS - answered);
    printf("%u permits are free\n", (unsigned)resil_permit_available(callers[0].pass, &callers[0].pass));
    for (int i = 0; i < CALLERS; i++) resil_permit_free(callers[i].pass);
    return fflush(stdout) != 0 || ferror(stdout);
}
