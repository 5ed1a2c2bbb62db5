/* Runs callers of kept buffers (proved_argon2_buffers.c) in every way in which they can go, each way in its own run.
 * This file replaces the hashes, the system and the clock: it chooses what happens (explore.c), and watches which
 * buffers the callers use.
 *
 *     explore_buffers CALLERS CALLS MOST SWITCHES    prints how many runs there were, or the first fault
 *
 * Each caller makes CALLS calls with a handle of at most MOST buffers. Callers are run one at a time. Another may run
 * before each atomic access (accesses.c), and during each hash, at most SWITCHES times. In a run one buffer may be
 * denied, the time may pass after which idle buffers are freed, one hash may be stopped or fail, and a hash may fork:
 * its process then goes on as the child, which has no other caller. The callers are the threads from number 1 on.
 * Thread 0 begins them, and looks at what they leave. */
#include "driver.h"
#include "explore.h"

enum { NOBODY, LOST = MOST_THREADS, MOST_BUFFERS = 64, KIB = 1024 };
#define MILLISECOND UINT64_C(1000000) /* in nanoseconds */
#define IDLE (10000 * MILLISECOND)
#define STEP (MILLISECOND * 3 / 2) /* from one look at the clock to the next */

static struct {
    uint32_t callers, calls, most;
} asked;

/* ---- what a run has come to */

static struct buffer {
    uint32_t user;  /* a caller, NOBODY, or LOST if a caller uses it that the child does not have */
    uint64_t since; /* when it became idle */
    char memory[8];
} all[MOST_BUFFERS]; /* in the order in which they were taken */

static struct run {
    uint64_t now;
    uint32_t left; /* callers that are not done */
    bool is_denied, is_late, is_forked, is_ending, has_failed;
    uint32_t codes[MOST_THREADS]; /* what a caller's hash returned last */
    proved_argon2_buffers *handle;
    struct buffer *used[MOST_THREADS]; /* what a caller gives back when it looks at the clock next, or null */
} run;

static uint32_t live(void)
{
    uint32_t count = 0;
    for (size_t i = 0; i < taken_count; i++) {
        count += taken[i].is_live && all[i].user != LOST;
    }
    return count;
}

static struct buffer *buffer_of(const void *memory)
{
    return &all[find_taken(memory) - taken];
}

/* ---- the system, the clock, and what else the buffers need */

void come_to(const void *at)
{
    (void)at;
    switch_threads(false);
}

/* The callers that the child does not have leave what they use as it is. */
static void fork_callers(void)
{
    fork_here();
    run.left = 1;
    for (size_t i = 0; i < taken_count; i++) {
        all[i].user = all[i].user == NOBODY || all[i].user == current ? all[i].user : LOST;
    }
}

void *proved_driver_take_buffer(uint64_t bytes)
{
    must(bytes == KIB && live() < asked.most, "there are no more buffers than allowed");
    if (current != 0 && happens_once(&run.is_denied)) {
        return NULL;
    }
    all[taken_count] = (struct buffer){.user = NOBODY};
    return take(all[taken_count].memory, KIB, 0);
}

void proved_argon2_memory_free(void *memory, size_t len)
{
    if (memory == NULL) {
        return;
    }
    const struct buffer *const buffer = buffer_of(memory);
    must(buffer->user == NOBODY || (buffer->user == LOST && current == 0), "a freed buffer is not in use");
    must(run.is_ending || run.now - buffer->since >= IDLE, "it was idle for ten seconds, unless the handle is freed");
    must(give_back(memory, 0) == len, "all of it is freed");
}

/* The time may pass once, and then once more at the end. */
uint64_t proved_driver_now(void)
{
    if (current != 0 && happens_once(&run.is_late)) {
        run.now += IDLE;
    }
    run.now += STEP;
    if (run.used[current] != NULL) {
        run.used[current]->since = run.now;
        run.used[current] = NULL;
    }
    return run.now;
}

uint64_t proved_argon2_memory_len(const proved_argon2_settings *settings)
{
    return (uint64_t)settings->mem_cost * KIB;
}

uint32_t proved_argon2_check(
    const proved_argon2_settings *settings, uint64_t pwd_len, uint64_t salt_len, uint64_t secret_len, uint64_t ad_len)
{
    return settings->lanes == 1 && pwd_len + secret_len + ad_len == 0 && salt_len == 8 ? PROVED_ARGON2_OK : 1;
}

/* What a hash returns: one in a run is stopped, or fails. */
static uint32_t end_hash(void)
{
    static const uint32_t codes[] = {PROVED_ARGON2_STOPPED, PROVED_ARGON2_MISMATCH};
    run.codes[current] = current != 0 && happens_once(&run.has_failed) ? codes[choose(2)] : PROVED_ARGON2_OK;
    return run.codes[current];
}

/* A hash, in the buffer that the call has, or else in its own memory. */
uint32_t proved_driver_compute(struct call *call, const uint8_t *hash, uint8_t *tag)
{
    (void)hash;
    (void)tag;
    if (call->with.memory == NULL) {
        return end_hash();
    }
    struct buffer *const buffer = buffer_of(call->with.memory);
    must(call->with.memory_len == KIB && buffer->user == NOBODY, "nobody else uses the buffer");
    buffer->user = current;
    switch_threads(false);
    if (current != 0 && happens_once(&run.is_forked)) {
        fork_callers();
    }
    must(buffer_of(call->with.memory) == buffer && buffer->user == current, "a used buffer stays");
    buffer->user = NOBODY;
    run.used[current] = buffer;
    return end_hash();
}

/* ---- a run */

/* Makes a call, and returns whether it was in a buffer. */
static bool make_call(void)
{
    struct call call = {.with = PROVED_ARGON2_OPTIONS, .job = {.lanes = 1, .segment_length = 0}};
    call.with.buffers = run.handle;
    const uint32_t code = proved_driver_compute_kept(&call, NULL, NULL);
    must(code == run.codes[current], "a call returns what its hash does");
    return call.with.memory != NULL;
}

static void call_often(void)
{
    for (uint32_t i = 0; i < asked.calls; i++) {
        (void)make_call();
    }
    states[current] = DONE;
    run.left--;
    states[0] = run.left == 0 ? READY : WAITING;
    switch_threads(true);
}

static void run_callers(void)
{
    run.left = asked.callers;
    for (uint32_t i = 1; i <= asked.callers; i++) {
        begin_thread(i, call_often);
    }
    states[0] = WAITING;
    switch_to(1);
}

/* In how many milliseconds the first of the idle buffers will have been idle for ten seconds, or 0 if there is none. */
static uint64_t time_left(void)
{
    uint64_t next = UINT64_MAX;
    for (size_t i = 0; i < taken_count; i++) {
        next = taken[i].is_live && all[i].since < next ? all[i].since : next;
    }
    return next == UINT64_MAX ? 0 : (next + IDLE - run.now + MILLISECOND - 1) / MILLISECOND;
}

/* At the end each buffer is idle. In a child the places stay taken that other callers had, used or not. */
static void look_at_end(void)
{
    const uint32_t next = proved_argon2_buffers_free_idle(run.handle);
    must(live() <= asked.most, "there are no more buffers than allowed");
    must(run.is_forked || next == time_left(), "a timer waits for the first buffer");
    run.now += IDLE;
    must(proved_argon2_buffers_free_idle(run.handle) == 0, "no buffer is idle for longer");
    must(run.is_forked || (live() == 0 && make_call()), "all buffers are freed, and a later call makes one");
    run.is_ending = true;
    proved_argon2_buffers_free(run.handle);
}

static void run_handle(void)
{
    const proved_argon2_settings settings = {PROVED_ARGON2_ID, 0x13, 1, 1, 1, 32};
    run = (struct run){.now = IDLE};
    must(proved_argon2_buffers_new(&settings, asked.most, &run.handle) == PROVED_ARGON2_OK, "a handle");
    run_callers();
    look_at_end();
}

uint64_t explore_all(const uint32_t *numbers)
{
    asked.callers = numbers[0];
    asked.calls = numbers[1];
    asked.most = numbers[2];
    return explore("kept buffers", numbers[3], run_handle);
}
