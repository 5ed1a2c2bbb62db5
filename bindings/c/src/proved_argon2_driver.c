/* How C's calls compute: this provides memory and threads for the proved calls of proved_argon2_jobs.h, clears what
 * they leave, and returns their results. It is tested, not proved. Much is proved about a model of its threads
 * (crates/argon2_c/specs/Team.antt and Threads.antt). "Moves" names the model's steps that the code takes. */
#include "driver.h"
#include <stdlib.h>
#include <string.h>

#define WORK_FOR_THREADS (2 * HUGE_PAGE) /* bytes of blocks that are written */
#define SHORT_PART 2048                  /* blocks: less work than a thread does before it is preempted */
#define MOST_OPTIONS 4096                /* bytes: no version has larger options */
#define SLICES 4                         /* of the blocks, by RFC 9106, section 3.4 */
#define STACK_BELOW 16384                /* bytes: a call uses two thirds of them */
#define LINE 64                          /* bytes, of a cache */
#define FAR ((size_t)8 << 20)            /* bytes: so many seldom lie in a cache */
#define AHEAD 2048                       /* bytes */

/* Whether memory is mapped. Mapping less than a huge page takes longer than hashing in it. */
static bool is_mapped(uint64_t bytes)
{
    return bytes >= HUGE_PAGE;
}

/* Memory for the blocks of one call, or null. Mapped pages are zero. Smaller memory comes from the heap, uninitialized:
 * overwriting it first would take 2 to 15 % of the call, and the proved calls write each block before they read it. */
static void *take_blocks(uint64_t bytes)
{
    const size_t len = (size_t)bytes;
    if (len != bytes) {
        return NULL;
    }
    return is_mapped(len) ? proved_driver_map_pages(len) : proved_driver_take_lines(len);
}

void *proved_driver_take_buffer(uint64_t bytes)
{
    void *const blocks = take_blocks(bytes);
    if (blocks != NULL && !is_mapped(bytes)) {
        proved_driver_overwrite(blocks, (size_t)bytes);
    }
    return blocks;
}

void proved_argon2_memory_free(void *memory, size_t memory_len)
{
    const caller saved = proved_driver_keep_caller();
    if (memory != NULL && is_mapped(memory_len)) {
        proved_driver_unmap_pages(memory, memory_len);
    } else if (memory != NULL) {
        proved_driver_overwrite(memory, memory_len);
        proved_driver_free_lines(memory);
    }
    proved_driver_restore_caller(saved);
}

/* Whether these are the options of this version, or longer ones of a later version whose further fields are all zero:
 * then the caller wants nothing that is unknown here. Shorter options are invalid, and we would read past their end. */
static bool are_known(const options *with)
{
    const uint8_t *const bytes = (const uint8_t *)with;
    if (with->size < sizeof *with || with->size > MOST_OPTIONS) {
        return false;
    }
    for (size_t i = sizeof *with; i < with->size; i++) {
        if (bytes[i] != 0) {
            return false;
        }
    }
    return true;
}

uint32_t proved_driver_begin_call(struct call *call, const options *with, int is_missing)
{
    *call = (struct call){.saved = proved_driver_keep_caller()};
    /* (so that the loader binds explicit_bzero now, while registers hold no secret to save) */
    proved_driver_overwrite(&call->job, sizeof call->job);
    if (with == NULL || is_missing) {
        return PROVED_ARGON2_NULL_POINTER;
    }
    if (!are_known(with)) {
        return PROVED_ARGON2_WRONG_LENGTH;
    }
    call->with = *with;
    return PROVED_ARGON2_OK;
}

uint32_t proved_driver_take_bytes(struct call *call, uint64_t len)
{
    call->len = (size_t)len;
    call->bytes = call->len == len ? calloc(call->len, 1) : NULL;
    return call->bytes == NULL ? PROVED_ARGON2_OUT_OF_MEMORY : PROVED_ARGON2_OK;
}

/* When the loader binds a name late, it may save registers with parts of blocks on the stack. This function clears that
 * stack. The proved calls clear the stack that they use. */
static __attribute__((noinline)) void clear_stack(void)
{
    unsigned char below[STACK_BELOW];
    proved_driver_overwrite(below, sizeof below);
}

uint32_t proved_driver_end_call(struct call *call, uint32_t code)
{
    const caller saved = call->saved;
    if (call->bytes != NULL) {
        proved_driver_overwrite(call->bytes, call->len);
        free(call->bytes);
    }
    proved_driver_overwrite(call, sizeof *call);
    clear_stack();
    proved_driver_restore_caller(saved);
    return code;
}

/* Claims a worker's part of a step. Exactly one thread succeeds, so that each part is taken once, even if threads are
 * late. Moves: Claims. */
static bool claim(struct filling *filling, uint64_t step, uint32_t number)
{
    uint64_t before = 2 * step;
    return atomic_compare_exchange_strong(&filling->workers[number].state, &before, before + 1);
}

/* Writes a byte at the beginning of each huge page that begins in a segment. The blocks are not yet computed. */
static void touch_pages(block *segment, uint32_t length)
{
    char *const bytes = (char *)segment;
    const size_t len = length * sizeof(block);
    for (size_t at = -(uintptr_t)bytes % HUGE_PAGE; at < len; at += HUGE_PAGE) {
        bytes[at] = 0;
    }
}

static block *slice_of(const struct filling *filling, uint32_t number)
{
    return filling->blocks + number * filling->slice;
}

/* Writes the first blocks of a lane, which are in its segment of the first slice. If there are several threads, each
 * touches other pages first. If two of them touched the same page, the system would clear two pages for them. */
static uint32_t begin_lane(const struct filling *filling, uint32_t lane)
{
    const uint32_t length = filling->job->segment_length;
    for (uint32_t slice = 0; slice < SLICES && filling->tasks > 1; slice++) {
        touch_pages(slice_of(filling, slice) + (size_t)lane * length, length);
    }
    return proved_argon2_job_begin(filling->job, lane, filling->blocks + (size_t)lane * length, length);
}

/* Fills the segments of one lane or two in a slice. The proved call reads the other three slices, which it takes in
 * rising order. */
static uint32_t fill_segments(
    const struct filling *filling, uint32_t pass, uint32_t slice, uint32_t lane, uint32_t lanes)
{
    const uint32_t length = filling->job->segment_length;
    const block *const first = slice_of(filling, slice < 1 ? 1 : 0);
    const block *const second = slice_of(filling, slice < 2 ? 2 : 1);
    const block *const third = slice_of(filling, slice < 3 ? 3 : 2);
    return proved_argon2_job_fill(filling->job, pass, slice, lane, first, filling->slice, second, filling->slice, third,
        filling->slice, slice_of(filling, slice) + (size_t)lane * length, (size_t)lanes * length);
}

/* Takes a step of a lane, or of two if it fills them. Step 0 begins the lane, and step n + 1 fills slice number n,
 * counted over all passes. Moves: Writes. */
static uint32_t take_step_of_lanes(const struct filling *filling, uint64_t step, uint32_t lane, uint32_t lanes)
{
    if (step == 0) {
        return begin_lane(filling, lane);
    }
    return fill_segments(filling, (uint32_t)((step - 1) / SLICES), (uint32_t)((step - 1) % SLICES), lane, lanes);
}

/* A worker's first lane. The lanes of the worker before it end there. */
static uint32_t first_lane(const struct filling *filling, uint32_t number)
{
    return (uint32_t)(((uint64_t)number * filling->job->lanes + filling->tasks - 1) / filling->tasks);
}

/* Takes a step for all lanes of a worker, up to the first that fails. It fills two lanes at a time, which takes less
 * time than one after the other. It clears the registers: the thread may next call a function that is not yet bound,
 * and the loader would save them on the stack. */
CLEARS_REGISTERS static void take_step(struct filling *filling, uint64_t step, uint32_t number)
{
    const uint32_t end = first_lane(filling, number + 1);
    uint32_t code = PROVED_ARGON2_OK, lanes = 1;
    for (uint32_t lane = first_lane(filling, number); lane < end && code == PROVED_ARGON2_OK; lane += lanes) {
        lanes = step > 0 && lane + 1 < end ? 2 : 1;
        code = take_step_of_lanes(filling, step, lane, lanes);
    }
    filling->workers[number].code = code;
    filling->workers[number].state = 2 * step + 2; /* Moves: Completes, Fails, Finishes. */
}

/* Whether a worker's part of a step is so short that its thread may start too late; then others take it. If parts are
 * long, each thread starts before another has finished. */
static bool are_parts_short(const struct filling *filling)
{
    return filling->slice <= (size_t)SHORT_PART * filling->tasks;
}

/* The worker before number; the last precedes the first. */
static uint32_t worker_before(const struct filling *filling, uint32_t number)
{
    return (number == 0 ? filling->tasks : number) - 1;
}

/* Takes a step for worker `number`, and then for the workers before it. Stops at a part that another thread claimed,
 * since that thread goes on from there. Takes at most `own` parts, or all if parts are short. Returns how many it took.
 * Moves: Leaves. */
static uint32_t take_parts(struct filling *filling, uint64_t step, uint32_t number, uint32_t own)
{
    const uint32_t most = are_parts_short(filling) ? filling->tasks : own;
    uint32_t taken = 0, next = number;
    while (taken < most && claim(filling, step, next)) {
        take_step(filling, step, next);
        next = worker_before(filling, next);
        taken++;
    }
    return taken;
}

/* What each thread of the team does. The caller's thread wakes it for each step, and once more at the end. It counts
 * the steps itself: if it is late, other threads have taken its part of a step, and it claims nothing. It wakes the
 * caller's thread once for each part that it took. Moves: Awakes, Enters, Exits, Tells, Waits. */
static void follow(void *arg, team *own, uint32_t number)
{
    struct filling *const filling = arg;
    proved_driver_await(own, number);
    for (uint64_t step = 0; !filling->is_over; step++) {
        for (uint32_t taken = take_parts(filling, step, number, 1); taken > 0; taken--) {
            proved_driver_wake(own, 0);
        }
        proved_driver_await(own, number);
    }
}

/* Wakes each thread of the team, for a step or for the last time. Moves: Wakes, Dismisses. */
static void wake_team(const struct filling *filling)
{
    const uint32_t threads = proved_driver_members(filling->team);
    for (uint32_t i = 1; i <= threads; i++) {
        proved_driver_wake(filling->team, i);
    }
}

/* Takes a step. The caller's thread takes the part of worker 0, and those of the last workers if the system denied
 * them a thread. Then it waits for each part that another thread took. Moves: Begins, Counts. */
static void run_team(struct filling *filling)
{
    wake_team(filling);
    for (uint32_t done = take_parts(filling, filling->step, 0, filling->tasks - proved_driver_members(filling->team));
         done < filling->tasks; done++) {
        proved_driver_await(filling->team, 0);
    }
}

/* Makes each worker take the step once, and tells the progress callback how many slices are filled. */
static uint32_t run_step(struct filling *filling, uint64_t slices)
{
    uint32_t code = PROVED_ARGON2_OK;
    run_team(filling);
    for (uint32_t i = 0; i < filling->tasks && code == PROVED_ARGON2_OK; i++) {
        code = filling->workers[i].code;
    }
    const bool is_reported = code == PROVED_ARGON2_OK && filling->step != 0 && filling->progress != NULL;
    return is_reported && filling->progress(filling->arg, filling->step, slices) != 0 ? PROVED_ARGON2_STOPPED : code;
}

/* Takes all steps, or those before an error, and ends the threads. (A check of the machine code finds what this
 * function may write to, so it is never inlined.) Moves: Advances, Stops, Returns. */
static __attribute__((noinline)) uint32_t fill(struct filling *filling)
{
    const uint64_t slices = SLICES * (uint64_t)filling->job->passes;
    uint32_t code = PROVED_ARGON2_OK;
    filling->workers = calloc(filling->tasks, sizeof(worker));
    if (filling->workers == NULL) {
        return PROVED_ARGON2_OUT_OF_MEMORY;
    }
    filling->team = filling->tasks > 1 ? proved_driver_start_team(filling->tasks - 1, follow, filling) : NULL;
    for (; filling->step <= slices && code == PROVED_ARGON2_OK; filling->step++) {
        code = run_step(filling, slices);
    }
    filling->is_over = true;
    wake_team(filling);
    proved_driver_end_team(filling->team);
    free(filling->workers);
    return code;
}

/* Asks for the lines of a block. Its address may lie behind all memory. */
static void prefetch(uintptr_t address)
{
    for (size_t at = 0; at < sizeof(block); at += LINE) {
        __builtin_prefetch((const void *)(address + at), 1);
    }
}

/* Overwrites blocks. Many blocks seldom lie in a cache. Then each is asked for before it is overwritten: to overwrite
 * all of them at once takes 1.6 times as long, since the processor waits for their lines. */
static __attribute__((noinline)) void overwrite_blocks(block *blocks, size_t len)
{
    const size_t part = len < FAR ? len : sizeof *blocks;
    for (size_t at = 0; at < len; at += part) {
        prefetch((uintptr_t)blocks + at + AHEAD);
        proved_driver_overwrite((char *)blocks + at, part);
    }
}

/* Computes in one call if the caller's thread is alone and nothing reports progress; otherwise in steps. */
static uint32_t compute_over(struct call *call, const uint8_t *hash, uint8_t *tag)
{
    struct filling *const filling = &call->filling;
    const block *const last = filling->blocks + 3 * filling->slice;
    const size_t all = 4 * filling->slice, len = call->job.hash_length;
    const bool is_alone = filling->tasks == 1 && filling->progress == NULL;
    const uint32_t code = is_alone ? PROVED_ARGON2_OK : fill(filling);
    if (code != PROVED_ARGON2_OK) {
        return code;
    }
    /* The proofs assume that what a call writes to is initialized. The calls below do not fail: all was checked. */
    memset(tag, 0, len);
    if (is_alone) {
        return hash == NULL ? proved_argon2_job_hash_over(&call->job, filling->blocks, all, tag, len)
                            : proved_argon2_job_verify_over(&call->job, filling->blocks, all, hash, len, tag, len);
    }
    return hash == NULL ? proved_argon2_job_finish(&call->job, last, filling->slice, tag, len)
                        : proved_argon2_job_verify(&call->job, last, filling->slice, hash, len, tag, len);
}

/* How many threads a call uses of those it may use. With little memory or work, more threads take longer to start and
 * wake than they save (docs/DECISIONS.md). */
static uint32_t tasks_of(const struct call *call, uint64_t bytes)
{
    const uint32_t most = call->with.threads < call->job.lanes ? call->with.threads : call->job.lanes;
    const bool is_paying = is_mapped(bytes) && bytes >= WORK_FOR_THREADS / call->job.passes;
    return most > 1 && is_paying ? most : 1;
}

static uint32_t memory_error(const struct call *call, uint64_t bytes)
{
    const bool is_callers = call->with.memory != NULL;
    if ((uintptr_t)call->filling.blocks % sizeof(uint64_t) != 0) {
        return PROVED_ARGON2_MISALIGNED;
    }
    return call->filling.blocks == NULL || (is_callers && call->with.memory_len < bytes) ? PROVED_ARGON2_OUT_OF_MEMORY
                                                                                         : PROVED_ARGON2_OK;
}

/* Computes in the call's own blocks or the caller's, and leaves nothing in either. */
uint32_t proved_driver_compute(struct call *call, const uint8_t *hash, uint8_t *tag)
{
    const uint64_t bytes = bytes_of(&call->job);
    void *const own = call->with.memory == NULL ? take_blocks(bytes) : NULL;
    call->filling = (struct filling){
        .job = &call->job,
        .blocks = own == NULL ? call->with.memory : own,
        .slice = (size_t)(bytes / sizeof(block) / 4),
        .tasks = tasks_of(call, bytes),
        .progress = call->with.progress,
        .arg = call->with.arg,
    };
    uint32_t code = memory_error(call, bytes);
    if (code == PROVED_ARGON2_OK) {
        code = compute_over(call, hash, tag);
        overwrite_blocks(call->filling.blocks, own == NULL ? (size_t)bytes : 0);
    }
    proved_argon2_memory_free(own, (size_t)bytes);
    return code;
}
