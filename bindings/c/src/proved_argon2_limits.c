/* What a service works out from its settings: limits for stored hashes, and how many hashes fit into its memory. It is
 * tested, not proved. */
#include "driver.h"

typedef proved_argon2_settings settings;
typedef proved_argon2_limits limits;

limits proved_argon2_limits_for(const settings *of)
{
    limits most = of == NULL ? (limits){0} : proved_argon2_default_limits();
    if (most.work == 0) { /* (no build runs on the processor) */
        return most;
    }
    const uint64_t work = (uint64_t)of->mem_cost * of->time_cost;
    most.mem_cost = of->mem_cost > most.mem_cost ? of->mem_cost : most.mem_cost;
    most.time_cost = of->time_cost > most.time_cost ? of->time_cost : most.time_cost;
    most.lanes = of->lanes > most.lanes ? of->lanes : most.lanes;
    most.work = work > most.work ? work : most.work;
    return most;
}

/* A call may allocate whole huge pages (platform.h), so that the last one has a rest that the blocks do not need. */
uint32_t proved_argon2_hashes_at_once(const settings *of, uint64_t bytes)
{
    const uint64_t len = proved_argon2_memory_len(of); /* (less than 2^42, or 0) */
    const uint64_t taken = len < HUGE_PAGE ? len : (len + HUGE_PAGE - 1) / HUGE_PAGE * HUGE_PAGE;
    const uint64_t count = taken == 0 ? 0 : bytes / taken;
    return count < UINT32_MAX ? (uint32_t)count : UINT32_MAX;
}
