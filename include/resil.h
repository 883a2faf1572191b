/* Shared by all headers of Resil: the library's version, the value returned for an empty handle, and the names of returned
 * values. */
#ifndef RESIL_H
#define RESIL_H

#include <stddef.h>
#include <stdint.h>

/* The version of the headers and the library, the same as in its pkg-config file and in the crate for rustc: as 0xMMmmpp, a
 * number that increases, and as a string. */
#define RESIL_VERSION 0x000500
#define RESIL_VERSION_STRING "0.5.0"

/* Returned if the handle passed in is empty, or if a pointer to write to is null: nothing was done and nothing was written.
 * A function that returns a count returns 0 instead. */
#define RESIL_EMPTY 255

/* The compiler warns if the value returned by such a function is ignored: it says whether there is a permit, a handle or a
 * job. Without a permit, don't make the call that it was for. */
#if defined(__cplusplus) && __cplusplus >= 201703L || defined(__STDC_VERSION__) && __STDC_VERSION__ >= 202000L
#define RESIL_MUST_USE [[nodiscard]]
#elif defined(__GNUC__)
#define RESIL_MUST_USE __attribute__((warn_unused_result))
#else
#define RESIL_MUST_USE
#endif

/* The name of a returned value, from the names of its function; "empty" for RESIL_EMPTY, and "unknown" for a value that no
 * function returns. */
static inline const char *resil_name(const char *const names[], size_t count, uint8_t answer) {
    if (answer == RESIL_EMPTY) return "empty";
    return answer < count ? names[answer] : "unknown";
}

#endif
