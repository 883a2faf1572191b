/* How these programs report what doesn't hold. */
#include <stdbool.h>
#include <stdio.h>

static _Atomic int failed;

static inline void holds(bool so, const char *what) {
    if (so) return;
    printf("%s\n", what);
    failed++;
}
