/*
 * The threads of a call: each blocks the program's signals, has a small stack, and is joined; others fill the lanes of
 * denied threads; none starts if that would be slower; 16,000 use at most eight times one's processor time; and a call
 * ends normally if its thread is cancelled meanwhile. drawn_settings.c counts them. Tags are compared with libargon2's.
 * It is linked with --wrap for what it counts and refuses.
 *
 *     starts              all checks
 *     starts few          all checks except cancelling, which musl does in other places
 *     starts variables    in a program with VARIABLES bytes of thread-local variables, which a system may put into the
 *                         stacks: each thread is started, and has as much stack as in other programs
 */
#include "calls.h"
#include "system.h"
#include <sys/resource.h>
#include <unistd.h>

enum { LARGE = 2400, PASSES = 2, LANES = 4, BESIDE = LANES - 1, MANY = 16000 };

static struct call call;
static uint8_t expected[LONGEST];

static bool make(uint32_t mem_cost, uint32_t passes)
{
    call = (struct call){{PROVED_ARGON2_ID, PROVED_ARGON2_VERSION_13, mem_cost, passes, LANES, 32}, "password",
        "somesalt", "secret", "data", 8, 8, 6, 4};
    return peer(&call, expected);
}

/* Returns whether the caller still blocks only SIGUSR2, as before each call. */
static bool has_its_signals(void)
{
    sigset_t blocked;
    bool good = pthread_sigmask(SIG_SETMASK, NULL, &blocked) == 0;
    for (int signal = 1; signal < 32; signal++) {
        good = good && sigismember(&blocked, signal) == (signal == SIGUSR2);
    }
    return good;
}

/* Returns how many threads a call starts. If one start is denied, it tries no more. */
static bool starts_as_many(size_t beside, size_t refused)
{
    const proved_argon2_options with = by(LANES);
    const size_t allowed = refused != 0 && refused <= beside ? refused - 1 : beside;
    uint8_t tag[LONGEST] = {0};
    if (refused == 0) {
        refuse_nothing();
    } else {
        refuse_starts(refused, SIZE_MAX);
    }
    const uint32_t code = hash_raw(&with, &call, tag);
    const bool good = code == PROVED_ARGON2_OK && memcmp(tag, expected, 32) == 0 && granted == allowed
        && starts == allowed + (allowed < beside) && joins == granted && running == 0 && most_running == allowed
        && open_to_signals == 0 && large_stacks == 0 && has_its_signals();
    if (!good) {
        printf("%u: %zu starts of %zu and %zu joins\n", (unsigned)code, granted, starts, joins);
    }
    return good;
}

static void check_errors(void)
{
    bool good = make(LARGE, PASSES) && starts_as_many(BESIDE, 0);
    for (size_t start = 1; start <= BESIDE + 1; start++) {
        good &= starts_as_many(BESIDE, start);
    }
    check(good, "a hash completes if threads are denied from one on");
}

/* Too little memory or work for threads: only the caller's thread works. */
static void check_small(void)
{
    static const uint32_t sizes[][2] = {{32, 9}, {1024, 3}, {2032, 40}, {2048, 1}, {4080, 1}};
    bool good = true;
    for (size_t i = 0; i < sizeof sizes / sizeof *sizes; i++) {
        good &= make(sizes[i][0], sizes[i][1]) && starts_as_many(0, 0);
    }
    good &= make(4096, 1) && starts_as_many(BESIDE, 0);
    check(good, "a hash starts threads only where they pay");
}

/* The threads that verify an encoded hash, and those for an unknown user, who must not be told from others by them. */
static void check_verifying(void)
{
    enum { EACH = PROVED_ARGON2_MAX_VERIFYING_THREADS };
    static const char text[] = "$argon2id$v=19$m=4096,t=1,p=64$c29tZXNhbHQ$AAAAAAAAAAAAAAAAAAAAAAAAAAAAAAAAAAAAAAAAAAA";
    const proved_argon2_settings settings = {PROVED_ARGON2_ID, PROVED_ARGON2_VERSION_13, 4096, 1, 64, 32};
    const proved_argon2_options with = by(64);
    refuse_nothing();
    const uint32_t known = proved_argon2_password_verify_with(&with, text, "password", 8, NULL, 0);
    check(known == PROVED_ARGON2_MISMATCH && granted == EACH - 1, "16 threads verify an encoded hash of 64 lanes");
    refuse_nothing();
    const uint32_t unknown = proved_argon2_password_verify_unknown(&with, &settings, "password", 8, NULL, 0);
    check(unknown == PROVED_ARGON2_MISMATCH && granted == EACH - 1, "an unknown user has as many");
}

/* A hash's processor time in microseconds with this many threads, without the system's time. */
static int64_t time_of(uint32_t lanes, uint32_t threads)
{
    const proved_argon2_options with = by(threads);
    struct rusage before, after;
    uint8_t tag[LONGEST];
    call.settings.lanes = lanes;
    call.settings.mem_cost = 8 * lanes;
    refuse_nothing();
    getrusage(RUSAGE_SELF, &before);
    const bool good = hash_raw(&with, &call, tag) == PROVED_ARGON2_OK;
    getrusage(RUSAGE_SELF, &after);
    return good ? (after.ru_utime.tv_sec - before.ru_utime.tv_sec) * 1000000LL + after.ru_utime.tv_usec
            - before.ru_utime.tv_usec
                : INT64_MAX;
}

/* A thread's work besides its lanes does not grow with the number of threads. */
static void check_many(void)
{
    const int64_t alone = time_of(MANY, 1), by_threads = time_of(MANY, MANY);
    printf("%lld microseconds by one thread, %lld by %zu more\n", (long long)alone, (long long)by_threads, granted);
    check(by_threads / 8 <= alone, "a hash by very many threads");
}

/* ---- a thread that is cancelled within a call */

typedef struct cancelled {
    pthread_t thread;
    proved_argon2_options with;
    int type;
    uint32_t code;
    uint8_t tag[LONGEST];
    atomic_int is_in, is_cancelled, is_after;
} cancelled;

/* Waits until it has been cancelled, within a call. */
static int wait_here(void *arg, uint64_t done, uint64_t all)
{
    cancelled *const self = arg;
    self->is_in = 1;
    while (!self->is_cancelled) {
        usleep(100);
    }
    pthread_testcancel();
    return done > all;
}

static void *computes(void *arg)
{
    cancelled *const self = arg;
    pthread_setcanceltype(self->type, NULL);
    self->code = hash_raw(&self->with, &call, self->tag);
    self->is_after = 1;
    pthread_testcancel();
    return NULL;
}

/* The call completes, and returns unless cancellation is asynchronous: then the thread ends before the return. */
static bool goes_on_to_its_end(int type, uint32_t threads)
{
    static cancelled one;
    void *result = NULL;
    one = (cancelled){.with = by(threads), .type = type, .code = PROVED_ARGON2_UNKNOWN_NUMBER};
    one.with.progress = wait_here;
    one.with.arg = &one;
    refuse_nothing();
    held = 0;
    bool good = __real_pthread_create(&one.thread, NULL, computes, &one) == 0;
    while (good && !one.is_in) {
        usleep(100);
    }
    good = good && pthread_cancel(one.thread) == 0;
    one.is_cancelled = 1;
    good = good && __real_pthread_join(one.thread, &result) == 0 && result == PTHREAD_CANCELED;
    const bool is_answered = one.code == PROVED_ARGON2_OK || (type == PTHREAD_CANCEL_ASYNCHRONOUS && !one.is_after);
    return good && is_answered && memcmp(one.tag, expected, 32) == 0 && held == 0 && joins == granted && running == 0;
}

static void check_cancelling(int type, const char *name)
{
    bool good = true;
    for (uint32_t n = 0; n < 20; n++) {
        good &= goes_on_to_its_end(type, 1 + n % 4);
    }
    check(good, name);
}

/* Checks that a thread that cannot be cancelled stays so. */
static void check_state(void)
{
    const proved_argon2_options with = by(4);
    uint8_t tag[LONGEST];
    int before_call = -1, after = -1;
    pthread_setcancelstate(PTHREAD_CANCEL_DISABLE, &before_call);
    const uint32_t code = hash_raw(&with, &call, tag);
    pthread_setcancelstate(PTHREAD_CANCEL_ENABLE, &after);
    check(code == PROVED_ARGON2_OK && before_call == PTHREAD_CANCEL_ENABLE && after == PTHREAD_CANCEL_DISABLE,
        "the thread's cancel state is unchanged");
}

/* ---- a program with thread-local variables */

#ifndef VARIABLES
#define VARIABLES 2
#endif
static _Thread_local volatile uint8_t variables[VARIABLES];

static void check_variables(void)
{
    const proved_argon2_options with = by(LANES);
    uint8_t tag[LONGEST];
    variables[VARIABLES - 1] = 1;
    refuse_nothing();
    const bool is_right = make(4096, 1) && hash_raw(&with, &call, tag) == PROVED_ARGON2_OK
        && memcmp(tag, expected, 32) == 0;
    check(is_right && granted == BESIDE && variables[0] == 0, "threads of a program with many thread-local variables");
}

int main(int argc, char **argv)
{
    sigset_t one;
    sigemptyset(&one);
    sigaddset(&one, SIGUSR2);
    pthread_sigmask(SIG_SETMASK, &one, NULL);
    if (argc > 1 && strcmp(argv[1], "variables") == 0) {
        check_variables();
        return finish();
    }
    check_errors();
    check_small();
    check_verifying();
    check_many();
    if (argc > 1 && strcmp(argv[1], "few") == 0) {
        return finish();
    }
    check(make(LARGE, PASSES), "libargon2 computes the tag");
    check_cancelling(PTHREAD_CANCEL_DEFERRED, "a call goes on where its thread is cancelled");
    check_cancelling(PTHREAD_CANCEL_ASYNCHRONOUS, "a call goes on where its thread is cancelled at once");
    check_state();
    return finish();
}
