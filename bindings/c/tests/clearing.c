/*
 * Whether calls that hash or verify leave no secrets except those that SECURITY.md names, whatever they return. It
 * searches what is passed to free and, after a call, the vector registers and all writable memory of the process.
 * proved_clearing.c tests the proved calls. This is linked with --wrap to look at requests and deny them.
 *
 *     clearing            all checks
 *     clearing unwiped    the same with clearing turned off: each check must find something
 *     clearing late       all calls, after which a name is bound late (the program must be linked for that)
 *     clearing few        only calls that complete, without the three password calls, since all take too long
 *     clearing unwiped few
 */
#include "search.h"

enum { NAMES = 15, OF_UNKNOWN = 13, OF_RENEWAL = 14, WITH = 6, PLAIN = 11, MEMORIES = 4, KEPT = 3 };

/* The calls with options, those with none, the two of a password alone, the one for an unknown user, and the one that
 * verifies and renews. */
static const char *const names[NAMES] = {"hash_raw_with", "hash_encoded_with", "job_run", "verify_raw_with",
    "verify_encoded_with", "job_run_verify", "hash_raw", "hash_encoded", "verify_raw", "verify_encoded",
    "verify_encoded_within", "password_hash", "password_verify", "password_verify_unknown", "password_renew"};

static _Alignas(8) uint8_t caller_bytes[2048 * 1024 + 8];
static uint8_t out[512];
static proved_argon2_buffers *kept;

ssize_t __wrap_getrandom(void *buffer, size_t length, unsigned flags);

ssize_t __wrap_getrandom(void *buffer, size_t length, unsigned flags)
{
    fill_bytes(buffer, length, 0x80);
    return flags == 0 ? (ssize_t)length : -1;
}

/* A call, with what decides how it ends. */
struct trial {
    proved_argon2_options with;
    size_t call;
    bool is_right, is_short;    /* the hash that is verified, and the buffer that is written to */
    uint32_t expected, or_else; /* the codes that it may return */
};

static bool is_hashing(size_t name)
{
    return name < 3 || name == 6 || name == 7 || name == 11;
}

/* A run of a job, which the caller clears. */
static uint32_t run_job(const struct trial *trial, bool is_hashing)
{
    static proved_argon2_job job;
    uint32_t code = proved_argon2_job_make(INPUTS_OF(calls[trial->call]), &job);
    code = code      ? code
        : is_hashing ? proved_argon2_job_run(&trial->with, &job, out, trial->is_short ? TAG - 1 : TAG)
                     : proved_argon2_job_run_verify(
                         &trial->with, &job, trial->is_right ? sought->tag : zeros, trial->is_short ? TAG - 1 : TAG);
    __real_explicit_bzero(&job, sizeof job);
    return code;
}

/* Verifies a text, and renews it because its salt is not the longest. */
static uint32_t renew(const struct trial *trial, const char *text)
{
    const struct call *const of = &calls[trial->call];
    proved_argon2_options with = trial->with;
    with.new_settings = &of->settings;
    with.new_salt_len = of->salt_len + 1;
    return proved_argon2_password_renew(&with, text, strlen(text), of->pwd, of->pwd_len, BYTES(*of, secret),
        BYTES(*of, secret), BYTES(*of, ad), (char *)out, sizeof out);
}

#define STORED_OF(call) text, strlen(text), BYTES(call, pwd), BYTES(call, secret), BYTES(call, ad)

static uint32_t answer(size_t name, const struct trial *trial)
{
    const struct call *const of = &calls[trial->call];
    const uint8_t *const hash = trial->is_right ? sought->tag : zeros;
    const char *const text = trial->is_right ? sought->text : sought->other;
    const size_t tag_len = trial->is_short ? TAG - 1 : TAG, text_len = trial->is_short ? TAG - 1 : sizeof out;
    const proved_argon2_limits widest = {UINT32_MAX, UINT32_MAX, UINT32_MAX, UINT64_MAX};
    switch (name) {
    case 0: return proved_argon2_hash_raw_with(&trial->with, INPUTS_OF(*of), out, tag_len);
    case 1: return hash_encoded(&trial->with, of, (char *)out, text_len);
    case 2: return run_job(trial, true);
    case 3: return verify_raw(&trial->with, of, hash);
    case 4: return verify_encoded(&trial->with, of, text);
    case 5: return run_job(trial, false);
    case 6: return proved_argon2_hash_raw(INPUTS_OF(*of), out, tag_len);
    case 7: return proved_argon2_hash_encoded(INPUTS_OF(*of), (char *)out, text_len);
    case 8: return proved_argon2_verify_raw(INPUTS_OF(*of), hash, TAG);
    case 9: return proved_argon2_verify_encoded(STORED_OF(*of));
    case 10:
        return proved_argon2_verify_encoded_within(
            STORED_OF(*of), trial->with.limits == NULL ? &widest : trial->with.limits);
    case 11: return proved_argon2_password_hash((char *)out, of->pwd, of->pwd_len);
    case OF_UNKNOWN:
        return proved_argon2_password_verify_unknown(
            &trial->with, &of->settings, of->pwd, of->pwd_len, of->secret, of->secret_len);
    case OF_RENEWAL: return renew(trial, text);
    default: return proved_argon2_password_verify(text, of->pwd, of->pwd_len);
    }
}

struct asked {
    size_t name;
    const struct trial *trial;
};

static uint32_t answer_asked(const void *arg)
{
    const struct asked *const asked = arg;
    return answer(asked->name, asked->trial);
}

/* Checks that a call returns what it should, leaves nothing but its outputs, and frees all memory. */
static bool is_cleared(size_t name, const struct trial *trial)
{
    seek(trial->call);
    memset(found, 0, sizeof found);
    held = 0;
    look_at = look_at_request;
    const uint32_t code = far_below(answer_asked, &(struct asked){name, trial});
    look_at = NULL;
    __real_explicit_bzero(out, sizeof out);
    look_everywhere();
    const bool is_expected = code == trial->expected || code == trial->or_else;
    if (!is_expected || held != 0) {
        printf("%s answers %u and holds %zu bytes\n", names[name], (unsigned)code, held);
    }
    return is_nothing_found(names[name]) && is_expected && held == 0;
}

/* In mapped memory, the heap, the caller's memory, or a kept buffer. */
static struct trial over(size_t memory, uint32_t threads)
{
    struct trial trial = {.with = by(threads), .call = memory == 1 ? SMALL : MAPPED};
    if (memory == 2) {
        trial.with.memory = caller_bytes;
        trial.with.memory_len = sizeof caller_bytes - 8;
    }
    trial.with.buffers = memory == KEPT ? kept : NULL;
    return trial;
}

/* Returns how many of these memories a call can use: without options it can use only its own. */
static size_t memories_of(size_t name)
{
    return name < WITH ? MEMORIES : name < PLAIN ? 2 : 1;
}

static struct trial trial_of(size_t name, size_t memory, uint32_t threads)
{
    struct trial trial = over(memory, threads);
    trial.call = name < PLAIN || name == OF_RENEWAL ? trial.call : name == OF_UNKNOWN ? UNKNOWN : ALONE;
    trial.expected = trial.or_else = is_hashing(name) ? PROVED_ARGON2_OK : PROVED_ARGON2_MISMATCH;
    return trial;
}

/* What a call returns for the right hash. */
static uint32_t done_of(size_t name)
{
    return name == OF_UNKNOWN ? PROVED_ARGON2_MISMATCH
        : name == OF_RENEWAL  ? PROVED_ARGON2_NEEDS_REHASH
                              : PROVED_ARGON2_OK;
}

static void check_cleared(size_t name, bool good, const char *where)
{
    char said[96];
    snprintf(said, sizeof said, "%s clears what it used, if %s", names[name], where);
    check(good != no_wiping, said);
}

static void check_done(size_t name)
{
    bool good = true;
    for (size_t n = 0; n < memories_of(name) * 8; n++) {
        refuse_nothing();
        struct trial trial = trial_of(name, n / 8, n % 2 == 0 ? 1 : 4);
        trial.with.progress = n / 2 % 2 == 0 ? NULL : goes_on;
        trial.is_right = n / 4 % 2 == 0;
        const bool is_done = is_hashing(name) || trial.is_right;
        trial.expected = trial.or_else = is_done ? done_of(name) : PROVED_ARGON2_MISMATCH;
        good = good && is_cleared(name, &trial);
        n += name < WITH ? 0 : 3; /* (which has no options) */
    }
    check_cleared(name, good, "it completes");
}

static void check_starts(size_t name)
{
    static const size_t from[] = {1, 5, 14, 27};
    bool good = true;
    for (size_t n = 0; n < MEMORIES * 4; n++) {
        refuse_starts(from[n % 4], SIZE_MAX);
        const struct trial trial = trial_of(name, n / 4, 4);
        good = good && is_cleared(name, &trial);
    }
    check_cleared(name, good, "a thread is denied");
}

/* Denies each request in turn, until none is left. */
static bool is_cleared_at_requests(size_t name, size_t memory)
{
    bool good = true;
    for (size_t number = 1; good; number++) {
        refuse_request(number);
        struct trial trial = trial_of(name, memory, 4);
        trial.expected = PROVED_ARGON2_OUT_OF_MEMORY;
        good = is_cleared(name, &trial);
        if (requests < number) {
            return number > 1;
        }
    }
    return false;
}

static void check_requests(size_t name)
{
    bool good = true;
    for (size_t memory = 0; memory < memories_of(name); memory++) {
        good = good && is_cleared_at_requests(name, memory);
    }
    check_cleared(name, good, "memory is refused");
}

static int stops_at(void *arg, uint64_t done, uint64_t all)
{
    const uint64_t *const at = arg;
    return done == *at && done <= all ? 1 : 0;
}

static void check_stops(size_t name)
{
    bool good = true;
    for (size_t n = 0; n < MEMORIES * 8; n++) {
        uint64_t at = n % 8 + 1;
        refuse_nothing();
        struct trial trial = trial_of(name, n / 8, n % 2 == 0 ? 1 : 4);
        trial.with.progress = stops_at;
        trial.with.arg = &at;
        trial.expected = trial.or_else = PROVED_ARGON2_STOPPED;
        good = good && is_cleared(name, &trial);
    }
    check_cleared(name, good, "it is stopped");
}

static uint32_t error_of(size_t name)
{
    return is_hashing(name) || name == 5 ? PROVED_ARGON2_WRONG_LENGTH
        : name == 4 || name == 10        ? PROVED_ARGON2_TOO_COSTLY
                                         : PROVED_ARGON2_MISMATCH;
}

/* A buffer of the wrong size, an encoded hash above limits, and unusable memory. */
static void check_arguments(size_t name)
{
    static const proved_argon2_limits below = {2047, 2, 4, UINT64_MAX};
    refuse_nothing();
    struct trial trial = trial_of(name, 0, 4);
    trial.is_short = true;
    trial.with.limits = &below;
    trial.expected = trial.or_else = error_of(name);
    bool good = is_cleared(name, &trial);
    if (name < WITH) {
        trial = trial_of(name, 2, 4);
        trial.with.memory_len--;
        trial.expected = trial.or_else = PROVED_ARGON2_OUT_OF_MEMORY;
        good = good && is_cleared(name, &trial);
        trial = trial_of(name, 2, 4);
        trial.with.memory = caller_bytes + 4;
        trial.expected = trial.or_else = PROVED_ARGON2_MISALIGNED;
        good = good && is_cleared(name, &trial);
    }
    check_cleared(name, good, "its arguments are rejected");
}

/* Memory that is freed is cleared: here it contains what is sought, byte by byte. */
static void check_memory_free(size_t which)
{
    void *memory = NULL;
    size_t len = 0;
    seek(which);
    memset(found, 0, sizeof found);
    const bool is_made = proved_argon2_memory_new(&calls[which].settings, &memory, &len) == PROVED_ARGON2_OK;
    look_everywhere();
    check(is_nothing_found("memory_new") && is_made, "memory_new leaves no secrets");
    for (size_t i = 0; is_made && i < sought->count * PART; i++) {
        ((volatile uint8_t *)memory)[i] = sought->parts[i / PART].bytes[i % PART] ^ MASK;
    }
    look_at = look_at_request;
    proved_argon2_memory_free(memory, len);
    look_at = NULL;
    look_everywhere();
    check(is_nothing_found("memory_free") != no_wiping && is_made, "memory_free clears the buffer");
}

/* A handle of kept buffers, which hashes in one of them and is freed. Then a handle that the other checks use. */
static void check_buffers(void)
{
    seek(MAPPED);
    memset(found, 0, sizeof found);
    bool is_right = proved_argon2_buffers_new(&calls[MAPPED].settings, 1, &kept) == PROVED_ARGON2_OK;
    look_everywhere();
    check((no_wiping || is_nothing_found("buffers_new")) && is_right, "buffers_new leaves no secrets");
    const size_t before = held;
    struct trial trial = over(KEPT, 1);
    is_right = answer(0, &trial) == PROVED_ARGON2_OK && held > before && is_right;
    __real_explicit_bzero(out, sizeof out);
    look_at = look_at_request;
    proved_argon2_buffers_free(kept);
    look_at = NULL;
    look_everywhere();
    /* An emulator does not show what is left in pages that the call returns to the system. */
    is_right = (no_wiping || is_nothing_found("buffers_free")) && held < before && is_right;
    check(is_right, "buffers_free clears the buffers");
    is_right = proved_argon2_buffers_new(&calls[MAPPED].settings, 1, &kept) == PROVED_ARGON2_OK;
    trial = over(KEPT, 1);
    is_right = answer(0, &trial) == PROVED_ARGON2_OK && is_right;
    __real_explicit_bzero(out, sizeof out);
    check(is_right, "a buffer is kept for the calls");
}

/* ---- signals on an alternate stack, where the system saves the registers */

static uint8_t alternate[1 << 16];

static void handle(int signal)
{
    (void)signal;
}

/* Sets up the handler of a signal. */
static bool has_handler(void)
{
    const stack_t stack = {.ss_sp = alternate, .ss_size = sizeof alternate};
    const struct sigaction action = {.sa_handler = handle, .sa_flags = SA_ONSTACK};
    return sigaltstack(&stack, NULL) == 0 && sigaction(SIGUSR1, &action, NULL) == 0;
}

static int signals(void *arg, uint64_t done, uint64_t all)
{
    return raise(SIGUSR1) != 0 || goes_on(arg, done, all);
}

static void check_signals(size_t name)
{
    bool good = has_handler();
    for (size_t n = 0; n < MEMORIES * 2; n++) {
        refuse_nothing();
        struct trial trial = trial_of(name, n / 2, n % 2 == 0 ? 1 : 4);
        trial.with.progress = signals;
        good = good && is_cleared(name, &trial);
    }
    check_cleared(name, good, "signals use an alternate stack");
}

/* ---- a name that is bound late behind a call */

/* Nothing else here calls getpgrp. */
static void calls_late(void)
{
    (void)!getpgrp();
}

/* Returns whether the loader saves registers when it binds a name late: otherwise nothing here is tested. */
static int is_bound_late(const void *unused)
{
    static uint8_t piece[PART];
    (void)unused;
    seek(MAPPED);
    for (size_t i = 0; i < PART; i++) {
        piece[i] = sought->parts[0].bytes[i] ^ MASK;
    }
    FILL_ONE(piece);
    __real_explicit_bzero(piece, PART);
    calls_late();
    NOTE_ALL();
    look((const uint8_t *)__builtin_frame_address(0) - 8192, 8192);
    return found[OF_H0] + found[OF_SEED] + found[OF_FIRST] != 0 ? 0 : 1;
}

/* Returns whether a call leaves nothing, although a name is bound late after it: in a process of its own, since a name
 * is bound once. */
static int ends_before_a_late_call(const void *arg)
{
    const struct asked *const asked = arg;
    calls_behind = calls_late;
    return is_cleared(asked->name, asked->trial) ? 0 : 1;
}

static bool is_cleared_before_a_late_call(size_t name, const struct trial *trial)
{
    return status_of(ends_before_a_late_call, &(struct asked){name, trial}) == 0;
}

static void check_late(size_t name)
{
    uint64_t at = 1;
    struct trial trial = trial_of(name, 0, 4);
    bool good = is_cleared_before_a_late_call(name, &trial);
    trial.is_right = true;
    trial.expected = trial.or_else = done_of(name);
    good &= is_cleared_before_a_late_call(name, &trial);
    trial.with.progress = stops_at;
    trial.with.arg = &at;
    trial.expected = trial.or_else = PROVED_ARGON2_STOPPED;
    good &= name >= WITH || is_cleared_before_a_late_call(name, &trial);
    for (size_t request = 1; request <= 2; request++) {
        trial = trial_of(name, 0, 1);
        trial.or_else = PROVED_ARGON2_OUT_OF_MEMORY;
        refuse_request(request);
        good &= is_cleared_before_a_late_call(name, &trial);
    }
    refuse_nothing();
    check_cleared(name, good, "a name is bound late behind it");
}

/* ---- the stack of a call that is computed in the caller's thread */

enum { STACK = 1 << 17, PAINT = 0xa5, OWN = 2048, FEW = 256 };

static uint8_t *stack_of_call, *frame_of_call;

static void *verifies(void *unused)
{
    struct trial trial = {.with = by(1)};
    seek(trial.call = SMALL);
    frame_of_call = __builtin_frame_address(0);
    return answer(4, &trial) == PROVED_ARGON2_MISMATCH ? &stack_of_call : unused;
}

/* Below the call's own frames everything written is cleared, except for a few bytes: the addresses in the frames of the
 * recursion that clears. */
static void check_stack(void)
{
    pthread_t thread;
    pthread_attr_t attributes;
    void *result = NULL;
    size_t left = 0, cleared = 0;
    stack_of_call = aligned_alloc(4096, STACK);
    memset(stack_of_call, PAINT, STACK);
    pthread_attr_init(&attributes);
    pthread_attr_setstack(&attributes, stack_of_call, STACK);
    const bool ran = __real_pthread_create(&thread, &attributes, verifies, NULL) == 0
        && __real_pthread_join(thread, &result) == 0 && result != NULL;
    for (const uint8_t *at = stack_of_call; ran && at < frame_of_call - OWN; at++) {
        left += *at != PAINT && *at != 0;
        cleared += *at == 0;
    }
    printf("%zu bytes of the stack are cleared, and %zu are left\n", cleared, left);
    check(ran && left <= FEW && cleared > 8192, "what a call leaves on the stack below");
}

static int check_all_late(void)
{
    check(status_of(is_bound_late, NULL) == 0, "what a register holds is found where a name is bound late");
    for (size_t name = 0; name < NAMES; name++) {
        check_late(name);
    }
    return finish();
}

int main(int argc, char **argv)
{
    const bool is_few = argc > 1 && strcmp(argv[argc - 1], "few") == 0;
    check_nothing_before();
    if (argc > 1 && strcmp(argv[1], "late") == 0) {
        return check_all_late();
    }
    no_wiping = argc > 1 && strcmp(argv[1], "unwiped") == 0;
    if (!no_wiping) {
        check_stack();
        check_memory_free(MAPPED);
    }
    check_memory_free(SMALL);
    check_buffers();
    for (size_t name = 0; name < PLAIN && is_few; name++) {
        check_done(name);
    }
    for (size_t name = 0; name < NAMES && !is_few; name++) {
        check_done(name);
        check_requests(name);
        if (name < WITH) {
            check_starts(name);
            check_stops(name);
            check_signals(name);
        }
        if (name < PLAIN && error_of(name) != PROVED_ARGON2_MISMATCH) {
            check_arguments(name);
        }
    }
    return finish();
}
