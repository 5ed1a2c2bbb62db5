/*
 * Kept buffers (proved_argon2_service.h): which calls use one, when the system gets one back, and a child's copy.
 * schedules/explore_buffers.c has threads, calls that fork, and all buffers in use. The clock is this program's own. It
 * is linked with --wrap for that, and for what it counts and denies.
 */
#include "calls.h"
#include "system.h"

#include <sys/resource.h>
#include <sys/wait.h>
#include <time.h>
#include <unistd.h>

enum { TAG = 24, KIB = 1024, BUFFER = 4096 * KIB, BESIDE = 64 * KIB, IDLE = 10000 };

static const proved_argon2_settings usual = {PROVED_ARGON2_ID, PROVED_ARGON2_VERSION_13, 4096, 1, 2, TAG};
static struct call call;
static uint8_t expected[LONGEST];
static proved_argon2_options with = PROVED_ARGON2_OPTIONS;
static atomic_uint_least64_t milliseconds = 5000000; /* of the clock */

int __wrap_clock_gettime(clockid_t clock, struct timespec *now);

int __wrap_clock_gettime(clockid_t clock, struct timespec *now)
{
    const uint64_t all = milliseconds;
    *now = (struct timespec){(time_t)(all / 1000), (long)(all % 1000) * 1000000};
    return clock == CLOCK_MONOTONIC ? 0 : -1;
}

/* A call with these settings. Its tag is that of libargon2. */
static bool take(const proved_argon2_settings *settings)
{
    call = (struct call){*settings, "password", "somesalt", "pepper", "data", 8, 8, 6, 4};
    return peer(&call, expected);
}

/* Returns whether a hash is right, and made this many requests for memory. */
static bool hashes(const proved_argon2_options *options, size_t count)
{
    uint8_t tag[TAG];
    refuse_nothing();
    const bool is_right = hash_raw(options, &call, tag) == PROVED_ARGON2_OK && memcmp(tag, expected, TAG) == 0;
    if (requests != count) {
        printf("%zu requests in place of %zu\n", (size_t)requests, count);
    }
    return is_right && requests == count;
}

/* Returns how many buffers the handle has. */
static size_t kept(void)
{
    return (held + BESIDE) / BUFFER;
}

/* Begins with a handle for at most this many buffers, and with the usual call. */
static bool begin(uint32_t most)
{
    const bool is_known = take(&usual); /* (libargon2 may make requests) */
    held = most_held = 0;
    refuse_nothing();
    with = (proved_argon2_options)PROVED_ARGON2_OPTIONS;
    return is_known && proved_argon2_buffers_new(&usual, most, &with.buffers) == PROVED_ARGON2_OK && requests == 1;
}

/* Frees the handle. Whether nothing is held then. */
static bool end(void)
{
    proved_argon2_buffers_free(with.buffers);
    return held == 0;
}

/* ---- which calls use one */

static void check_use(void)
{
    static uint8_t own[2 * BUFFER] __attribute__((aligned(64)));
    proved_argon2_settings other = usual;
    bool good = begin(2);
    check(good && kept() == 0, "a new handle has no buffer");
    with.memory = own;
    with.memory_len = sizeof own;
    good = hashes(&with, 0) && kept() == 0;
    with.memory = NULL;
    check(good, "a call in the caller's memory makes no buffer");
    check(hashes(&with, 1) && kept() == 1, "the first call makes a buffer");
    check(hashes(&with, 0) && hashes(&with, 0) && kept() == 1, "later calls use it");
    other.mem_cost = 64;
    check(take(&other) && hashes(&with, 0) && kept() == 1, "so does a call that needs less");
    other.mem_cost = 4104;
    good = take(&other) && hashes(&with, 1);
    check(good && kept() == 1, "a call that needs more allocates its own memory, and keeps none");
    check(end(), "all is freed with the handle");
    good = begin(0) && hashes(&with, 1) && hashes(&with, 1) && kept() == 0;
    check(good && proved_argon2_buffers_free_idle(with.buffers) == 0 && end(), "a handle of no buffers");
}

/* Each call with options: what it holds beside the buffer. */
static void check_each_call(void)
{
    proved_argon2_limits limits = proved_argon2_default_limits();
    proved_argon2_job job;
    uint8_t tag[TAG];
    char text[PROVED_ARGON2_TEXT_SIZE];
    uint32_t wrong = begin(1) && hashes(&with, 1) ? 0 : 1;
    with.limits = &limits;
    most_held = held;
    wrong += hash_encoded(&with, &call, text, sizeof text) != PROVED_ARGON2_OK;
    wrong += verify_encoded(&with, &call, text) != PROVED_ARGON2_OK;
    wrong += verify_raw(&with, &call, expected) != PROVED_ARGON2_OK;
    wrong += proved_argon2_job_make(call.pwd, 8, call.salt, 8, call.secret, 6, call.ad, 4, &usual, &job);
    wrong += proved_argon2_job_run(&with, &job, tag, TAG) != PROVED_ARGON2_OK;
    wrong += proved_argon2_job_run_verify(&with, &job, expected, TAG) != PROVED_ARGON2_OK;
    wrong += proved_argon2_password_hash_with(&with, &usual, text, "password", 8, NULL, 0) != PROVED_ARGON2_OK;
    wrong += proved_argon2_password_verify_with(&with, text, "password", 8, NULL, 0) != PROVED_ARGON2_OK;
    wrong += proved_argon2_password_verify_unknown(&with, &usual, "password", 8, NULL, 0) != PROVED_ARGON2_MISMATCH;
    check(wrong == 0 && memcmp(tag, expected, TAG) == 0 && most_held - held < BESIDE, "each call uses the buffer");
    check(end(), "and gives it back");
}

/* Handles of many buffers keep the first. Numbers of buffers that need more than 8 bits are none of fewer bits. */
static void check_many(void)
{
    static const uint32_t numbers[] = {255, 256, 257, 4096, PROVED_ARGON2_MAX_BUFFERS};
    bool good = true;
    for (size_t i = 0; i < sizeof numbers / sizeof *numbers; i++) {
        good = begin(numbers[i]) && hashes(&with, 1) && kept() == 1 && hashes(&with, 0) && end() && good;
    }
    check(good && PROVED_ARGON2_MAX_BUFFERS == 8192, "handles of up to 8,192 buffers");
}

/* ---- a thread that is cancelled */

static bool is_after;

static void test_cancellation(const void *block)
{
    (void)block;
    pthread_testcancel();
}

static void *free_when_cancelled(void *arg)
{
    pthread_cancel(pthread_self());
    look_at = test_cancellation; /* at each free() */
    proved_argon2_buffers_free(with.buffers);
    look_at = NULL;
    is_after = true;
    pthread_testcancel();
    return arg;
}

static void check_cancelling(void)
{
    void *result = NULL;
    pthread_t thread;
    bool good = begin(2) && hashes(&with, 1);
    good = pthread_create(&thread, NULL, free_when_cancelled, NULL) == 0 && pthread_join(thread, &result) == 0 && good;
    look_at = NULL;
    check(good && result == PTHREAD_CANCELED && is_after && held == 0, "a cancelled thread frees all buffers");
}

/* ---- denied memory */

/* Denies all mappings, or none. */
static void deny_mappings(bool are_denied)
{
    static struct rlimit before;
    if (are_denied) {
        getrlimit(RLIMIT_AS, &before);
    }
    const struct rlimit none = {.rlim_cur = 0, .rlim_max = before.rlim_max};
    setrlimit(RLIMIT_AS, are_denied ? &none : &before);
}

static void check_denied(void)
{
    uint8_t tag[TAG] = {5};
    bool good = begin(1);
    refuse_request(1);
    errno = 77;
    good = hash_raw(&with, &call, tag) == PROVED_ARGON2_OK && memcmp(tag, expected, TAG) == 0 && good;
    check(
        good && requests == 2 && kept() == 0 && errno == 77, "a call that is denied a buffer allocates its own memory");
    check(hashes(&with, 1) && kept() == 1 && hashes(&with, 0), "the next call makes the buffer");
    good = end() && begin(1);
    tag[0] = 5;
    deny_mappings(true);
    const uint32_t code = hash_raw(&with, &call, tag);
    deny_mappings(false);
    check(good && code == PROVED_ARGON2_OUT_OF_MEMORY && tag[0] == 5 && kept() == 0, "all memory is denied");
    check(hashes(&with, 1) && kept() == 1 && end(), "a call after that");
}

/* ---- time */

static bool is_nested_right;

/* Hashes within a hash. */
static int nest(void *arg, uint64_t done, uint64_t all)
{
    proved_argon2_options inner = with;
    uint8_t tag[TAG];
    (void)arg;
    inner.progress = NULL;
    if (done == 1) {
        is_nested_right = hash_raw(&inner, &call, tag) == PROVED_ARGON2_OK && memcmp(tag, expected, TAG) == 0;
    }
    return done > all;
}

/* Two buffers, which two calls have used: one call within the other. The outer one also allocates its
 * workers. */
static bool begin_with_two(void)
{
    bool good = begin(2);
    with.progress = nest;
    good = hashes(&with, 3) && is_nested_right && good;
    with.progress = NULL;
    return good && kept() == 2;
}

static void check_idle(void)
{
    bool good = begin_with_two();
    const size_t before = resident();
    good = proved_argon2_buffers_free_idle(with.buffers) == IDLE && good;
    milliseconds += IDLE - 1;
    check(
        good && proved_argon2_buffers_free_idle(with.buffers) == 1 && kept() == 2, "idle buffers stay for ten seconds");
    milliseconds += 1;
    errno = 77;
    check(proved_argon2_buffers_free_idle(with.buffers) == 0 && kept() == 0 && errno == 77, "then they are freed");
    const size_t after = resident();
    check(before >= after + 2 * BUFFER - BUFFER / 8, "the system has their memory");
    check(hashes(&with, 1) && hashes(&with, 0), "later calls make one anew");
    check(end(), "which is freed");
}

static void check_idle_by_calls(void)
{
    bool good = begin_with_two();
    milliseconds += IDLE / 2;
    good = hashes(&with, 0) && kept() == 2 && good;
    check(proved_argon2_buffers_free_idle(with.buffers) == IDLE / 2 && good, "a call frees no buffer that is not due");
    milliseconds += IDLE / 2;
    good = hashes(&with, 0) && kept() == 1;
    check(good, "a call frees the buffer that is due, and keeps its own");
    check(proved_argon2_buffers_free_idle(with.buffers) == IDLE, "which was used just now");
    check(end() && proved_argon2_buffers_free_idle(NULL) == 0, "no handle has no buffer");
}

/* ---- a forked child */

/* The system copies the buffers of a handle for a child. */
static void check_fork(void)
{
    int status = 1;
    bool good = begin(1) && hashes(&with, 1);
    const pid_t child = fork();
    if (child == 0) {
        _exit(hashes(&with, 0) && end() ? 0 : 1);
    }
    good = child > 0 && waitpid(child, &status, 0) == child && status == 0 && good;
    check(good && hashes(&with, 0) && end(), "a child uses its copy of an idle buffer");
}

/* ---- what is refused */

static void check_refused(void)
{
    proved_argon2_buffers *const before = (proved_argon2_buffers *)&call, *made = before;
    refuse_request(1);
    errno = 77;
    check_code(proved_argon2_buffers_new(&usual, 1, &made), PROVED_ARGON2_OUT_OF_MEMORY, "a denied handle");
    check_code(proved_argon2_buffers_new(&usual, PROVED_ARGON2_MAX_BUFFERS + 1, &made), PROVED_ARGON2_OUT_OF_MEMORY,
        "a handle of more buffers than any has");
    check_code(proved_argon2_buffers_new(&usual, UINT32_MAX, &made), PROVED_ARGON2_OUT_OF_MEMORY, "a handle of all");
    check(made == before && errno == 77 && requests == 1, "nothing is written, and no memory requested for too many");
    proved_argon2_buffers_free(NULL);
}

int main(void)
{
    check_use();
    check_each_call();
    check_many();
    check_cancelling();
    check_denied();
    check_idle();
    check_idle_by_calls();
    check_fork();
    check_refused();
    return finish();
}
