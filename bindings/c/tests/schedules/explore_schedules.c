/* Runs a call of the compiled driver in every way in which it can go, each way in its own run. This file replaces the
 * system (platform.h), the heap, the proved calls, and the caller's progress callback: it chooses what happens, and
 * watches what the driver does (explore.c) and which memory it accesses (accesses.c).
 *
 *     explore_schedules LANES THREADS PASSES SWITCHES    prints how many runs there were, or the first fault with its
 *     choices
 *
 * The models (Team.antt and Threads.antt in crates/argon2_c/specs) must allow each move of a thread; otherwise the move
 * is reported as a fault. The last lines say how often each was made.
 *
 * Threads are run one at a time. Another may run before each part, wait, progress and atomic access, and after each
 * wake and the start of a team, at most SWITCHES times. If a thread cannot go on, the caller's does, or else the first
 * that can. Where the memory comes from and whether a hash is verified changes nothing for the threads, so over the
 * caller's memory and for a verdict one switch is enough. */
#define _GNU_SOURCE
#define PROVED_ARGON2_NULL_H /* (the driver's calls are those here) */
#define PROVED_ARGON2_PASSWORD_H
#include "driver.h"
#include "explore.h"
#include "places.h"
#include <errno.h>
#include <stdio.h>
#include <stdlib.h>
#include <string.h>

enum { TAG = 4, KIB = 1024, KINDS = 32 };
/* So many blocks of a lane in a slice that only its own thread takes them: one more than the driver's SHORT_PART. */
enum { LONG = 2 * KIB + 1 };

/* ---- what is asked */

static struct {
    uint32_t lanes, threads, passes, segment;
    bool is_large, is_callers, is_verdict, has_progress, is_long;
} asked;

/* ---- what a run has come to */

static proved_argon2_job job;
static _Alignas(64) block arena[4 * MOST_THREADS * LONG]; /* of which the first of each segment is written */

enum kind { LINES, PAGES, BYTES, WORKERS };

static struct run {
    uint32_t code;            /* how the call is to end: nothing fails after the first failure */
    uint32_t begun, filled;   /* lanes, a bit for each */
    uint64_t stage, reported; /* slices that are filled, or are being filled, and those that were reported */
    size_t overwritten;       /* bytes of the arena */
    bool is_finished, is_dirty, is_forked;
} run;

static uint32_t all_lanes(void)
{
    return (1u << asked.lanes) - 1;
}

static size_t slice_len(void)
{
    return (size_t)asked.lanes * asked.segment;
}

static size_t arena_len(void)
{
    return 4 * slice_len() * sizeof(block);
}

/* Returns whether something fails here: at most one thing does in a run. */
static bool fails(uint32_t code)
{
    if (run.code != PROVED_ARGON2_OK || choose(2) == 0) {
        return false;
    }
    run.code = code;
    return true;
}

/* ---- the model, which must allow each run */

static struct model {
    const struct filling *filling;
    uint64_t step, woken[MOST_THREADS], entered[MOST_THREADS], state[MOST_THREADS], code[MOST_THREADS];
    uint64_t written[MOST_THREADS]; /* one more than the step in which each lane was written last */
    uint32_t owner[MOST_THREADS];   /* the thread that claimed a worker's part last */
    bool is_over, has_begun;
} model;

#include "team_moves.h" /* the moves of Team.antt (moves.py) */

/* The worker that has a lane. */
static uint64_t worker_of(uint64_t lane)
{
    return lane * model.filling->tasks / asked.lanes;
}

static bool is_at_work(void)
{
    return model.filling != NULL && model.filling->workers != NULL;
}

/* Returns whether Threads.antt covers the run: it has no forked children. */
static bool has_places(void)
{
    return is_at_work() && !run.is_forked;
}

/* Returns whether the running thread counts this step as its own: each thread except the caller's counts the steps that
 * it has entered. */
static bool is_own(uint64_t step)
{
    return current == 0 ? step == model.step : step + 1 == model.entered[current];
}

/* Makes the moves that the driver has made for all workers that are in a step, or for all that are not. */
static void move_workers(bool are_in_step)
{
    for (uint32_t i = 0; i < model.filling->tasks; i++) {
        const worker *const worker = &model.filling->workers[i];
        if (model.state[i] % 2 == are_in_step && model.state[i] != worker->state) {
            const uint64_t step = model.state[i] / 2;
            if (!are_in_step) {
                must(is_own(step) && worker->state == model.state[i] + 1, "Claims");
                make_Claims(step, i);
                model.owner[i] = current;
            } else if (worker->code == 0) {
                must(model.owner[i] == current, "Completes");
                make_Completes(step, i);
            } else {
                must(model.owner[i] == current, "Fails");
                make_Fails(step, i, worker->code);
            }
        }
    }
}

/* Makes the moves of the running thread since the last look. No other thread ran, so their order is known. */
static void look_at_moves(void)
{
    const struct filling *const filling = model.filling;
    if (!is_at_work()) {
        return;
    }
    move_workers(true);
    if (model.step != filling->step && run.code == PROVED_ARGON2_OK) {
        make_Advances();
        if (has_places()) {
            see_advance();
        }
    }
    move_workers(false);
    if (filling->is_over && !model.is_over) {
        make_Stops();
    }
    must(model.is_over == filling->is_over && (model.step == filling->step || run.code != PROVED_ARGON2_OK), "after");
    for (uint32_t i = 0; i < filling->tasks; i++) {
        must(model.state[i] == filling->workers[i].state, "after");
    }
}

/* ---- threads */

struct team {
    uint32_t members;
};

static team one_team;
static bool is_team;
static void (*member_runs)(void *arg, team *own, uint32_t number);
static void *member_arg;
static struct {
    uint32_t woken, waited; /* how often */
} threads[MOST_THREADS];

static void go_on(void)
{
    look_at_moves();
    switch_threads(false);
}

static void run_member(void)
{
    member_runs(member_arg, &one_team, current);
    states[current] = DONE;
    states[0] = states[0] == JOINING ? READY : states[0];
    go_on();
}

team *proved_driver_start_team(uint32_t count, void (*runs)(void *arg, team *own, uint32_t number), void *arg)
{
    must(!is_team && count < asked.threads && count < asked.lanes, "one team, of as many as there may be");
    const uint32_t granted = choose(count + 2);
    if (granted == count + 1) {
        return NULL;
    }
    is_team = true;
    one_team.members = granted;
    member_runs = runs;
    member_arg = arg;
    memset(threads, 0, sizeof threads);
    add_members(granted);
    for (uint32_t i = 1; i <= granted; i++) {
        begin_thread(i, run_member);
    }
    go_on();
    return &one_team;
}

uint32_t proved_driver_members(const team *own)
{
    return own == NULL || run.is_forked ? 0 : own->members;
}

void proved_driver_wake(team *own, uint32_t number)
{
    must(is_team && own == &one_team && !run.is_forked && number <= own->members, "a thread of the team is woken");
    look_at_moves();
    if (number != 0 && !model.is_over) {
        must(current == 0 && model.woken[number] == model.step, "Wakes");
        make_Wakes(number);
    }
    see_wake(current, number);
    threads[number].woken++;
    states[number] = states[number] == WAITING ? READY : states[number];
    go_on();
}

void proved_driver_await(team *own, uint32_t number)
{
    if (own == NULL || run.is_forked) {
        return;
    }
    must(number == current, "a thread waits itself");
    look_at_moves();
    see_wait(number);
    go_on();
    while (threads[number].woken == threads[number].waited) {
        states[number] = WAITING;
        go_on();
    }
    threads[number].waited++;
    see_awake(number);
    if (number != 0 && is_at_work() && !model.filling->is_over) {
        make_Enters(number);
    }
}

void come_to(const void *at)
{
    go_on();
    if (has_places()) {
        see_access(current, at);
    }
}

void proved_driver_end_team(team *own)
{
    must(own == NULL || is_team, "a team ends once");
    must(current == 0, "the caller's thread ends it");
    if (own != NULL && !run.is_forked) {
        must(threads[0].woken == threads[0].waited, "the caller has waited for each part that another took");
        for (uint32_t i = 1; i <= own->members; i++) {
            while (states[i] != DONE) {
                states[0] = JOINING;
                go_on();
            }
            must(run.code != PROVED_ARGON2_OK || threads[i].woken == 4 * asked.passes + 2,
                "a thread is woken for each step, and at the end");
        }
    }
    if (has_places()) {
        see_return();
    }
    is_team = false;
}

/* ---- the rest of the system */

void *proved_driver_take_lines(size_t bytes)
{
    must(!asked.is_large && !asked.is_callers && bytes == arena_len(), "little memory comes from the heap");
    return fails(PROVED_ARGON2_OUT_OF_MEMORY) ? NULL : take(arena, bytes, LINES);
}

void proved_driver_free_lines(void *lines)
{
    give_back(lines, LINES);
    must(!run.is_dirty, "blocks are cleared before they are freed");
}

void *proved_driver_map_pages(size_t bytes)
{
    must(asked.is_large && !asked.is_callers && bytes == arena_len(), "much memory is mapped");
    return fails(PROVED_ARGON2_OUT_OF_MEMORY) ? NULL : take(arena, bytes, PAGES);
}

void proved_driver_unmap_pages(void *pages, size_t bytes)
{
    must(give_back(pages, PAGES) == bytes, "all pages are unmapped");
    run.is_dirty = false;
}

/* The driver overwrites blocks at once or one by one, from the first on. The arena keeps what it has. */
void proved_driver_overwrite(void *bytes, size_t len)
{
    const uintptr_t at = (uintptr_t)bytes - (uintptr_t)arena;
    if (at >= sizeof arena) {
        memset(bytes, 0, len);
    } else if (at == run.overwritten) {
        run.overwritten += len;
        run.is_dirty = run.overwritten != arena_len();
    }
}

void *__real_calloc(size_t count, size_t len);
void __real_free(void *at);

void *__wrap_calloc(size_t count, size_t len)
{
    const enum kind kind = len == 1 ? BYTES : WORKERS;
    return fails(PROVED_ARGON2_OUT_OF_MEMORY) ? NULL : take(__real_calloc(count, len), count * len, kind);
}

static bool is_zero(const unsigned char *bytes, size_t len)
{
    size_t zeros = 0;
    while (zeros < len && bytes[zeros] == 0) {
        zeros++;
    }
    return zeros == len;
}

void __wrap_free(void *at)
{
    const bool are_workers = find_taken(at)->kind == WORKERS;
    const size_t len = give_back(at, are_workers ? WORKERS : BYTES);
    if (are_workers) {
        look_at_moves();
        model.filling = NULL;
    }
    must(are_workers || is_zero(at, len), "bytes are cleared before they are freed");
    __real_free(at);
}

/* ---- the proved calls, which watch in which order they are made */

#define SLICE(number) (arena + (number)*slice_len())

static void look_at_job(const proved_argon2_job *passed_job)
{
    must(memcmp(passed_job, &job, sizeof job) == 0, "a step of this job");
    must(run.code == PROVED_ARGON2_OK, "no step behind a failure");
}

/* Looks at a step of a lane, whose worker's part the thread has claimed. */
static void write_lane(uint64_t step, uint32_t lane)
{
    const uint64_t worker = worker_of(lane);
    go_on();
    must(model.owner[worker] == current, "Writes");
    make_Writes(step, worker, lane + 1);
    if (has_places()) {
        see_write(current, lane);
    }
    model.written[lane] = step + 1;
}

/* A step for a lane, which none has taken yet. */
static void look_at_lane(uint32_t *lanes, uint32_t lane, uint32_t slice, block *own, size_t own_len)
{
    must(lane < asked.lanes && (*lanes >> lane & 1) == 0, "an existing lane, once in a step");
    must(own == SLICE(slice) + lane * asked.segment && own_len == asked.segment, "a lane's own segment");
    *lanes |= 1u << lane;
    run.is_dirty = true;
    own->words[0] = 1;
}

uint32_t proved_argon2_job_begin(const proved_argon2_job *passed_job, uint32_t lane, block *own, size_t own_len)
{
    write_lane(0, lane);
    if (run.code != PROVED_ARGON2_OK) {
        return PROVED_ARGON2_OK; /* (what other threads do after a failure does not matter) */
    }
    look_at_job(passed_job);
    must(run.stage == 0, "first blocks come first");
    look_at_lane(&run.begun, lane, 0, own, own_len);
    return fails(PROVED_ARGON2_NO_JOB) ? PROVED_ARGON2_NO_JOB : PROVED_ARGON2_OK;
}

uint32_t proved_argon2_job_fill(const proved_argon2_job *passed_job, uint32_t pass, uint32_t slice, uint32_t lane,
    const block *first, size_t first_len, const block *second, size_t second_len, const block *third, size_t third_len,
    block *own, size_t own_len)
{
    const size_t len = slice_len(), lanes = own_len == 2 * (size_t)asked.segment ? 2 : 1;
    for (uint32_t i = 0; i < lanes; i++) {
        write_lane(4 * (uint64_t)pass + slice + 1, lane + i);
    }
    if (run.code != PROVED_ARGON2_OK) {
        return PROVED_ARGON2_OK;
    }
    look_at_job(passed_job);
    if (run.stage == 0 || run.filled == all_lanes()) {
        must(run.begun == all_lanes(), "a slice begins once the step before it is done");
        run.stage++;
        run.filled = 0;
    }
    must(4 * (uint64_t)pass + slice + 1 == run.stage && slice < 4 && pass < asked.passes, "slices in their order");
    must(first_len == len && second_len == len && third_len == len, "whole slices");
    must(first == SLICE(slice == 0) && second == SLICE(slice <= 1 ? 2 : 1) && third == SLICE(slice <= 2 ? 3 : 2),
        "the other three slices in rising order");
    must(lanes == 2 || lane + 1 == asked.lanes || worker_of(lane + 1) != worker_of(lane), "two lanes at a time");
    for (uint32_t i = 0; i < lanes; i++) {
        look_at_lane(&run.filled, lane + i, slice, own + (size_t)i * asked.segment, own_len / lanes);
    }
    return fails(PROVED_ARGON2_NO_PLACE) ? PROVED_ARGON2_NO_PLACE : PROVED_ARGON2_OK;
}

static const uint8_t hash[TAG] = {1, 2, 3, 4}, zeros[TAG];

/* Ends a hash, or a verdict on what is verified. `are_blocks` says whether the blocks are as they have to be. */
static uint32_t finish(
    const proved_argon2_job *passed_job, const uint8_t *verified, bool are_blocks, uint8_t *tag, size_t len)
{
    const uint32_t failure = verified == NULL ? PROVED_ARGON2_WRONG_LENGTH : PROVED_ARGON2_MISMATCH;
    look_at_job(passed_job);
    must(verified == (asked.is_verdict ? hash : NULL), "the hash that is verified");
    must(len == TAG && are_blocks && !run.is_finished && current == 0, "a tag of its length, once");
    must(memcmp(tag, zeros, TAG) == 0, "a tag is initialized before a proved call writes it");
    run.is_finished = true;
    if (fails(failure)) {
        return failure;
    }
    memset(tag, 3, len);
    return PROVED_ARGON2_OK;
}

static bool are_filled(const block *last, size_t last_len)
{
    return run.stage == 4 * (uint64_t)asked.passes && run.filled == all_lanes() && last == SLICE(3)
        && last_len == slice_len();
}

static bool are_whole(const block *blocks, size_t blocks_len)
{
    run.is_dirty = true;
    return run.begun == 0 && blocks == arena && blocks_len == 4 * slice_len();
}

uint32_t proved_argon2_job_finish(
    const proved_argon2_job *passed_job, const block *last, size_t last_len, uint8_t *out, size_t out_len)
{
    return finish(passed_job, NULL, are_filled(last, last_len), out, out_len);
}

uint32_t proved_argon2_job_verify(const proved_argon2_job *passed_job, const block *last, size_t last_len,
    const uint8_t *verified, size_t verified_len, uint8_t *tag, size_t tag_len)
{
    return finish(passed_job, verified, verified_len == TAG && are_filled(last, last_len), tag, tag_len);
}

uint32_t proved_argon2_job_hash_over(
    const proved_argon2_job *passed_job, block *blocks, size_t blocks_len, uint8_t *out, size_t out_len)
{
    return finish(passed_job, NULL, are_whole(blocks, blocks_len), out, out_len);
}

uint32_t proved_argon2_job_verify_over(const proved_argon2_job *passed_job, block *blocks, size_t blocks_len,
    const uint8_t *verified, size_t verified_len, uint8_t *tag, size_t tag_len)
{
    return finish(passed_job, verified, verified_len == TAG && are_whole(blocks, blocks_len), tag, tag_len);
}

/* ---- the caller's callback */

/* Goes on, stops, or goes on in a child that was forked here, where there are no other threads. */
static int report_progress(void *arg, uint64_t done, uint64_t all)
{
    must(arg == &asked && run.code == PROVED_ARGON2_OK && done == ++run.reported && all == 4 * (uint64_t)asked.passes,
        "each slice is reported once");
    must(run.filled == all_lanes() && run.stage == done && current == 0, "it is filled then");
    errno = 5;
    go_on();
    if (fails(PROVED_ARGON2_STOPPED)) {
        return -1;
    }
    if (is_team && happens_once(&run.is_forked)) {
        fork_here();
    }
    return 0;
}

/* ---- a run */

static uint32_t make_call(uint8_t *tag)
{
    struct call call;
    options with = PROVED_ARGON2_OPTIONS;
    with.threads = asked.threads;
    with.memory = asked.is_callers ? arena : NULL;
    with.memory_len = asked.is_callers ? arena_len() : 0;
    with.progress = asked.has_progress ? report_progress : NULL;
    with.arg = &asked;
    uint32_t code = proved_driver_begin_call(&call, &with, false);
    model = (struct model){.filling = &call.filling};
    begin_places(&call.filling, model.written, asked.is_long);
    call.job = job;
    if (!asked.is_verdict) {
        code = proved_driver_compute(&call, NULL, tag);
    } else if ((code = proved_driver_take_bytes(&call, TAG)) == PROVED_ARGON2_OK) {
        code = proved_driver_compute(&call, hash, call.bytes);
    }
    code = proved_driver_end_call(&call, code);
    must(is_zero((const unsigned char *)&call, sizeof call), "the call is cleared");
    return code;
}

static void look_at_end(uint32_t code, const uint8_t *tag)
{
    const bool is_written = code == PROVED_ARGON2_OK && !asked.is_verdict;
    must(code == run.code, "the call returns what failed first");
    must(run.is_finished || code != PROVED_ARGON2_OK, "a result is one of a proved call");
    must(!asked.has_progress || code != PROVED_ARGON2_OK || run.reported == 4 * (uint64_t)asked.passes,
        "each slice is reported");
    const uint8_t otherwise = run.is_finished && !asked.is_verdict ? 0 : 9;
    must(tag[0] == (is_written ? 3 : otherwise) && tag[TAG - 1] == tag[0], "a tag is written, or nothing");
    must(!run.is_dirty && !is_team, "the blocks are cleared, and the team has ended");
}

static void run_call(void)
{
    uint8_t tag[TAG] = {9, 9, 9, 9};
    run = (struct run){0};
    const uint32_t code = make_call(tag);
    look_at_end(code, tag);
}

/* A kind of call, a bit each: large, over the caller's memory, a verdict in place of a hash, with progress, and by
 * threads in long parts. */
static uint64_t explore_kind(unsigned kind, uint32_t switches)
{
    char name[100];
    asked.is_large = kind & 1;
    asked.is_callers = kind >> 1 & 1;
    asked.is_verdict = kind >> 2 & 1;
    asked.has_progress = kind >> 3 & 1;
    asked.is_long = kind >> 4 & 1;
    if (asked.is_long && (!asked.is_large || asked.lanes == 1 || asked.threads == 1)) {
        return 0;
    }
    asked.segment = asked.is_long ? LONG : asked.is_large ? (KIB + asked.lanes - 1) / asked.lanes : 2;
    job = (proved_argon2_job){{1}, PROVED_ARGON2_ID, 0x13, asked.lanes, asked.segment, asked.passes, TAG};
    snprintf(name, sizeof name, "a call%s%s%s%s%s", asked.is_large ? " large" : "",
        asked.is_callers ? " caller's memory" : "", asked.is_verdict ? " verdict" : "",
        asked.has_progress ? " progress" : "", asked.is_long ? " long" : "");
    return explore(name, switches > 1 && (asked.is_callers || asked.is_verdict) ? 1 : switches, run_call);
}

uint64_t explore_all(const uint32_t *numbers)
{
    uint64_t runs = 0;
    asked.lanes = numbers[0];
    asked.threads = numbers[1];
    asked.passes = numbers[2];
    for (unsigned kind = 0; kind < KINDS; kind++) {
        runs += explore_kind(kind, numbers[3]);
    }
    print_moves("Team");
    print_moves_of_threads();
    return runs;
}
