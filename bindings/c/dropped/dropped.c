/* Ignores the value returned by each function that says whether there is a permit, a handle or a job. A compiler warns about
 * each: tools/check_bindings counts the warnings. No program is built from this file. */
#include "resil_permit.h"
#include "resil_pool.h"

void drop_all(resil_permit_pass *pass, resil_permit_pass *other, resil_pool *pool);

void drop_all(resil_permit_pass *pass, resil_permit_pass *other, resil_pool *pool) {
    uint64_t number;
    resil_pool_job job;
    resil_permit_new(1, pass);
    resil_permit_split(*pass, pass, other);
    resil_permit_try_once(*pass, pass);
    resil_permit_enter(pass);
    resil_pool_new(1, 1, 1, 1, 0, pool);
    resil_pool_submit(*pool, pool, 1, 1, 7);
    resil_pool_submit_next(*pool, pool, 1, 7, &number);
    resil_pool_pick(*pool, pool, &job);
    /* These may be ignored. */
    resil_permit_exit(pass);
    resil_permit_available(*pass, pass);
    resil_pool_close(*pool, pool);
}
