/* Every returned value, reply and kind of event in the headers, with its name; and a value that is none of them. */
#include "resil_permit.h"
#include "resil_pool.h"
#include "resil_retry.h"

#include "holds.h"

#include <string.h>

static void is(const char *name, const char *wanted) {
    holds(strcmp(name, wanted) == 0, wanted);
}

static void of_permits(void) {
    is(resil_permit_new_name(RESIL_PERMIT_MADE), "made");
    is(resil_permit_new_name(RESIL_PERMIT_MEMORY), "out of memory");
    is(resil_permit_new_name(RESIL_PERMIT_TOO_MANY), "too many");
    is(resil_permit_try_once_name(RESIL_PERMIT_TAKEN), "taken");
    is(resil_permit_try_once_name(RESIL_PERMIT_FULL), "full");
    is(resil_permit_try_once_name(RESIL_PERMIT_CONTENDED), "contended");
    is(resil_permit_leave_name(RESIL_PERMIT_GIVEN), "given");
    is(resil_permit_leave_name(RESIL_PERMIT_NONE), "none");
    is(resil_permit_retire_name(RESIL_PERMIT_RETIRED), "retired");
    is(resil_permit_retire_name(RESIL_PERMIT_NONE), "none");
    is(resil_permit_raise_name(RESIL_PERMIT_RAISED), "raised");
    is(resil_permit_raise_name(RESIL_PERMIT_NONE), "none");
}

static void of_pools(void) {
    is(resil_pool_new_name(RESIL_POOL_MADE), "made");
    is(resil_pool_new_name(RESIL_POOL_MEMORY), "out of memory");
    is(resil_pool_new_name(RESIL_POOL_CORE_RANGE), "core out of range");
    is(resil_pool_new_name(RESIL_POOL_MAX_RANGE), "max out of range");
    is(resil_pool_new_name(RESIL_POOL_QUEUE_RANGE), "queue out of range");
    is(resil_pool_new_name(RESIL_POOL_CALLERS_RANGE), "callers out of range");
    is(resil_pool_reply_name(RESIL_POOL_CORE), "core");
    is(resil_pool_reply_name(RESIL_POOL_QUEUED), "queued");
    is(resil_pool_reply_name(RESIL_POOL_EXTRA), "extra");
    is(resil_pool_reply_name(RESIL_POOL_FULL), "full");
    is(resil_pool_reply_name(RESIL_POOL_CLOSED), "closed");
    is(resil_pool_reply_name(RESIL_POOL_WRONG_NUMBER), "wrong number");
    is(resil_pool_reply_name(RESIL_POOL_NO_CALLER), "no caller");
    is(resil_pool_pick_name(RESIL_POOL_PICKED_OWN), "own");
    is(resil_pool_pick_name(RESIL_POOL_PICKED_QUEUE), "queue");
    is(resil_pool_pick_name(RESIL_POOL_NONE), "none");
    is(resil_pool_finish_name(RESIL_POOL_FINISHED), "finished");
    is(resil_pool_finish_name(RESIL_POOL_NOT_OUT), "not out");
    is(resil_pool_resize_name(RESIL_POOL_RESIZED_NOW), "resized");
    is(resil_pool_resize_name(RESIL_POOL_RESIZE_CORE_RANGE), "core out of range");
    is(resil_pool_resize_name(RESIL_POOL_RESIZE_MAX_RANGE), "max out of range");
    is(resil_pool_idle_end_name(RESIL_POOL_ENDED), "ended");
    is(resil_pool_idle_end_name(RESIL_POOL_KEPT), "kept");
    is(resil_pool_close_name(RESIL_POOL_CLOSED_NOW), "closed");
    is(resil_pool_close_name(RESIL_POOL_CLOSED_BEFORE), "closed before");
    is(resil_pool_told_name(RESIL_POOL_TOLD), "told");
    is(resil_pool_told_name(RESIL_POOL_NO_EVENT), "no event");
}

static void of_events(void) {
    is(resil_pool_kind_name(RESIL_POOL_SUBMIT), "submit");
    is(resil_pool_kind_name(RESIL_POOL_TAKE), "take");
    is(resil_pool_kind_name(RESIL_POOL_FINISH), "finish");
    is(resil_pool_kind_name(RESIL_POOL_IDLE_END), "idle");
    is(resil_pool_kind_name(RESIL_POOL_CLOSE), "close");
    is(resil_pool_kind_name(RESIL_POOL_RESIZED), "resize");
}

static void of_retries(void) {
    is(resil_retry_new_name(RESIL_RETRY_MADE), "made");
    is(resil_retry_new_name(RESIL_RETRY_TOO_LONG), "too long");
    is(resil_retry_new_name(RESIL_RETRY_BAD_MULTIPLIER), "bad multiplier");
    is(resil_retry_new_name(RESIL_RETRY_CAP_BELOW_INITIAL), "cap below initial");
    is(resil_retry_wait_name(RESIL_RETRY_TOLD), "told");
    is(resil_retry_wait_name(RESIL_RETRY_NO_ATTEMPT), "no attempt");
}

int main(void) {
    of_permits();
    of_pools();
    of_events();
    of_retries();
    is(resil_pool_reply_name(RESIL_EMPTY), "empty");
    is(resil_pool_reply_name(RESIL_POOL_NO_CALLER + 1), "unknown");
    return failed == 0 ? 0 : 1;
}
