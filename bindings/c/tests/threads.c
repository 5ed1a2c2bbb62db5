/*
 * The calls with options (bindings/c): tags with 1 to 33 threads compared with libargon2's, also in the caller's
 * buffer. results.c tests options and limits, starts.c threads, memory.c memory, and clearing.c what is left in the
 * process.
 *
 *     threads          all checks
 *     threads few      for valgrind's tools: address space, a few tags, and eight hashes at once
 */
#include "calls.h"
#include "system.h"

/* ---- tags */

/* One call compared with libargon2, in its own or the caller's memory, with a callback for half of the thread counts.
 */
static bool agrees(const struct call *call, uint32_t threads, bool is_callers)
{
    uint8_t tag[LONGEST], expected[LONGEST];
    char text[4 * LONGEST];
    proved_argon2_options with = by(threads);
    const size_t len = call->settings.hash_length;
    uint8_t *const buffer = __real_malloc((size_t)call->settings.mem_cost * 1024);
    with.progress = threads % 2 == 0 ? goes_on : NULL;
    with.memory = is_callers ? buffer : NULL;
    with.memory_len = (size_t)call->settings.mem_cost * 1024;
    memset(buffer, 5, with.memory_len);
    bool same = peer(call, expected) && hash_raw(&with, call, tag) == PROVED_ARGON2_OK
        && memcmp(tag, expected, len) == 0;
    same = same && verify_raw(&with, call, expected) == PROVED_ARGON2_OK;
    expected[is_callers ? below((uint32_t)len) : len - 1] ^= (uint8_t)(1 << below(8));
    same = same && verify_raw(&with, call, expected) == PROVED_ARGON2_MISMATCH;
    with.progress = goes_on;
    same = same && verify_raw(&with, call, expected) == PROVED_ARGON2_MISMATCH;
    same = same && hash_encoded(&with, call, text, sizeof text) == PROVED_ARGON2_OK;
    same = same && verify_encoded(&with, call, text) == PROVED_ARGON2_OK;
    free(buffer);
    return same;
}

/* A call large enough for threads. */
static struct call any_large_call(uint32_t most_lanes)
{
    struct call call = any_call(most_lanes);
    call.settings.mem_cost += 2048;
    call.settings.time_cost = 2;
    return call;
}

static void check_tags(uint32_t count, uint32_t most_lanes)
{
    uint32_t good = 0;
    for (uint32_t i = 0; i < count; i++) {
        const struct call call = i % 4 == 0 ? any_large_call(most_lanes) : any_call(most_lanes);
        good += agrees(&call, 1 + i % 33, (most_lanes < 33 ? i / 2 : i / 33) % 2 != 0);
    }
    printf("%u of %u calls by 1 to 33 threads agree with libargon2\n", good, count);
    check(good == count, "tags, verdicts and texts by threads");
}

/* Many passes, in steps: so many that their slices, counted over all passes, need more than 16 bits, and fewer by
 * threads, which need larger memory. Returns whether all tags are those of libargon2. */
static bool agrees_in_many_passes(uint32_t mem_cost, uint32_t passes, uint32_t lanes)
{
    const struct call call = {{PROVED_ARGON2_ID, PROVED_ARGON2_VERSION_13, mem_cost, passes, lanes, 32}, "password",
        "somesalt", "", "", 8, 8, 0, 0};
    proved_argon2_options with = by(lanes);
    uint8_t tag[LONGEST], expected[LONGEST];
    const bool good = peer(&call, expected) && hash_raw(&with, &call, tag) == PROVED_ARGON2_OK
        && memcmp(tag, expected, 32) == 0;
    with.progress = goes_on;
    return hash_raw(&with, &call, tag) == PROVED_ARGON2_OK && memcmp(tag, expected, 32) == 0 && good;
}

static void check_many_passes(void)
{
    check(agrees_in_many_passes(8, 16500, 1), "16,500 passes over 8 blocks");
    refuse_nothing();
    const bool good = agrees_in_many_passes(2048, 300, 4);
    check(good && granted == 2 * 3, "300 passes by four threads");
}

/* A signal handler that runs while a thread waits ends the wait, but the thread must not go on before it is woken. */
static void check_interrupted_waits(void)
{
    const struct call call = {
        {PROVED_ARGON2_ID, PROVED_ARGON2_VERSION_13, 4096, 2, 4, 32}, "password", "somesalt", "", "", 8, 8, 0, 0};
    interrupts_waits = true;
    const bool good = agrees(&call, 4, false);
    interrupts_waits = false;
    check(good && interruptions > 0, "tags by threads whose waits are interrupted");
}

/* ---- eight hashes at once */

enum { LOGINS = 8, THREADS = 4 };

typedef struct login {
    pthread_t thread;
    proved_argon2_options with;
    struct call call;
    bool good;
} login;

static void *log_in(void *arg)
{
    login *const self = arg;
    uint8_t tag[LONGEST], expected[LONGEST];
    self->good = peer(&self->call, expected);
    for (int i = 0; i < 2; i++) {
        self->good &= hash_raw(&self->with, &self->call, tag) == PROVED_ARGON2_OK
            && memcmp(tag, expected, self->call.settings.hash_length) == 0;
    }
    return NULL;
}

static bool log_in_at_once(login *logins)
{
    bool good = true;
    for (size_t i = 0; i < LOGINS; i++) {
        good &= pthread_create(&logins[i].thread, NULL, log_in, &logins[i]) == 0;
    }
    for (size_t i = 0; good && i < LOGINS; i++) {
        good &= pthread_join(logins[i].thread, NULL) == 0 && logins[i].good;
    }
    return good;
}

/* Small hashes in their callers' threads, or large ones by threads of their own. If several callers start and join
 * threads at once, a tool confuses a thread with an earlier one of the same ID, and reports false errors. */
static void check_at_once(uint32_t threads)
{
    login logins[LOGINS];
    for (size_t i = 0; i < LOGINS; i++) {
        logins[i].call = threads == 1 ? any_call(THREADS) : any_large_call(THREADS);
        logins[i].with = by(threads);
    }
    check(log_in_at_once(logins), threads == 1 ? "eight hashes at once" : "eight hashes by threads at once");
}

/* ---- address space */

/* The most address space that this process has had, in KiB. */
static size_t peak_address_space(void)
{
    return kib_in("/proc/self/status", "VmPeak:");
}

/* A call's threads have small stacks, also if the system does not say how small they may be (under valgrind mmap
 * returns EINVAL for too much memory). */
static void check_address_space(void)
{
    enum { MOST_KIB = 256 * 1024 };
    const struct call call = {
        {PROVED_ARGON2_ID, PROVED_ARGON2_VERSION_13, 4096, 1, 4, 32}, "password", "somesalt", "", "", 8, 8, 0, 0};
    uint8_t tag[LONGEST];
    proved_argon2_options with = by(4);
    const size_t before = peak_address_space();
    check_code(hash_raw(&with, &call, tag), PROVED_ARGON2_OK, "a hash of 4 MiB by four threads");
    check(
        before > 0 && peak_address_space() - before < MOST_KIB, "four threads take less than 256 MiB of address space");
}

int main(int argc, char **argv)
{
    if (argc > 1 && strcmp(argv[1], "few") == 0) {
        check_address_space();
        check_tags(5, 4);
        check_interrupted_waits();
        check_at_once(1);
        return finish();
    }
    check_address_space();
    check_tags(400, 100);
    check_many_passes();
    check_interrupted_waits();
    check_at_once(1);
    check_at_once(THREADS);
    return finish();
}
