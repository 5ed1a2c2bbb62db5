/*
 * Numbers of the header, compared with the library: each error with its message, the recommended settings, the limits
 * for settings, and how many hashes fit into memory. Then lengths of 2^32 bytes and more. results.c has other limits.
 */
#include "checks.h"

#include <sys/mman.h>

#define ABOVE (((size_t)1 << 32) + 32) /* whose low 32 bits are a length that fits */

static const proved_argon2_settings small = {PROVED_ARGON2_ID, PROVED_ARGON2_VERSION_13, 8, 1, 1, 32};

/* ---- errors */

typedef struct known_error {
    uint32_t named, number;
    const char *message;
} known_error;

/* Written by hand, since the header's numbers and the library's own table are written by a script. */
/* clang-format off */
static const known_error known_errors[] = {
    {PROVED_ARGON2_OUTPUT_TOO_SHORT, 1, "Output is too short"},
    {PROVED_ARGON2_OUTPUT_TOO_LONG, 2, "Output is too long"},
    {PROVED_ARGON2_PWD_TOO_SHORT, 3, "Password is too short"},
    {PROVED_ARGON2_PWD_TOO_LONG, 4, "Password is too long"},
    {PROVED_ARGON2_SALT_TOO_SHORT, 5, "Salt is too short"},
    {PROVED_ARGON2_SALT_TOO_LONG, 6, "Salt is too long"},
    {PROVED_ARGON2_AD_TOO_SHORT, 7, "Associated data is too short"},
    {PROVED_ARGON2_AD_TOO_LONG, 8, "Associated data is too long"},
    {PROVED_ARGON2_SECRET_TOO_SHORT, 9, "Secret is too short"},
    {PROVED_ARGON2_SECRET_TOO_LONG, 10, "Secret is too long"},
    {PROVED_ARGON2_TIME_TOO_SMALL, 11, "Time cost is too small"},
    {PROVED_ARGON2_TIME_TOO_LARGE, 12, "Time cost is too large"},
    {PROVED_ARGON2_MEMORY_TOO_LITTLE, 13, "Memory cost is too small"},
    {PROVED_ARGON2_MEMORY_TOO_MUCH, 14, "Memory cost is too large"},
    {PROVED_ARGON2_LANES_TOO_FEW, 15, "Too few lanes"},
    {PROVED_ARGON2_LANES_TOO_MANY, 16, "Too many lanes"},
    {PROVED_ARGON2_INCORRECT_TYPE, 17, "There is no such type of Argon2"},
    {PROVED_ARGON2_INCORRECT_VERSION, 18, "There is no such version of Argon2"},
    {PROVED_ARGON2_DECODING_FAIL, 19, "Decoding failed"},
    {PROVED_ARGON2_OUT_OF_MEMORY, 20, "Out of memory"},
    {PROVED_ARGON2_WORKER_REFUSED, 21, "A worker was refused"},
    {PROVED_ARGON2_MISMATCH, 64, "The password does not match"},
    {PROVED_ARGON2_WRONG_LENGTH, 65, "The buffer has the wrong length"},
    {PROVED_ARGON2_NOT_ASCII, 66, "The encoded hash is not ASCII"},
    {PROVED_ARGON2_UNKNOWN_NUMBER, 67, "There is no error of this number"},
    {PROVED_ARGON2_NEEDS_REHASH, 68, "The encoded hash was made with other settings"},
    {PROVED_ARGON2_TOO_COSTLY, 69, "The encoded hash is above the limits"},
    {PROVED_ARGON2_NO_JOB, 70, "No valid settings have such a job"},
    {PROVED_ARGON2_NO_PLACE, 71, "The job has no such pass, slice or lane"},
    {PROVED_ARGON2_WRONG_BLOCKS, 72, "There are too many or too few blocks"},
    {PROVED_ARGON2_NULL_POINTER, 128, "A pointer is null"},
    {PROVED_ARGON2_NO_RANDOM_BYTES, 129, "There are no random bytes"},
    {PROVED_ARGON2_STOPPED, 130, "The hash was stopped"},
    {PROVED_ARGON2_OLD_PROCESSOR, 131, "The processor is too old"},
    {PROVED_ARGON2_MISALIGNED, 132, "The memory is at an address that is not a multiple of 8"},
};
/* clang-format on */

/* There is a message for success, one for each error of the header, and none for any other number. */
static void check_errors(void)
{
    const char *const unknown = proved_argon2_message(PROVED_ARGON2_UNKNOWN_NUMBER);
    size_t known = 0;
    for (size_t i = 0; i < sizeof known_errors / sizeof *known_errors; i++) {
        const known_error *error = &known_errors[i];
        check(error->named == error->number && strcmp(proved_argon2_message(error->number), error->message) == 0,
            error->message);
    }
    for (uint32_t number = 0; number < 1000; number++)
        known += proved_argon2_message(number) != unknown;
    check(strcmp(proved_argon2_message(PROVED_ARGON2_OK), "No error") == 0, "the message of success says so");
    /* Success has a message of its own, and the unknown number has the one that is not counted. */
    check(known == sizeof known_errors / sizeof *known_errors, "the library has no other error");
}

/* ---- lengths of more than 32 bits, over mostly unreadable inputs */

static uint8_t *far;
static const proved_argon2_options one = PROVED_ARGON2_OPTIONS;
static const uint8_t pwd[32] = "password", salt[32] = "somesalt";
static uint8_t out[512];
static proved_argon2_job job;

static void check_long_inputs(void)
{
    static const uint32_t errors[] = {PROVED_ARGON2_PWD_TOO_LONG, PROVED_ARGON2_SALT_TOO_LONG,
        PROVED_ARGON2_SECRET_TOO_LONG, PROVED_ARGON2_AD_TOO_LONG};
    static const char *const names[] = {"a password", "a salt", "a secret", "data"};
    for (size_t i = 0; i < 4; i++) {
        const uint8_t *of[] = {pwd, salt, pwd, pwd};
        size_t len[] = {8, 8, 8, 8};
        char name[64];
        of[i] = far;
        len[i] = ABOVE;
#define INPUTS_OF_I of[0], len[0], of[1], len[1], of[2], len[2], of[3], len[3], &small
        const bool is_rejected = proved_argon2_hash_raw(INPUTS_OF_I, out, 32) == errors[i]
            && proved_argon2_hash_encoded(INPUTS_OF_I, (char *)out, sizeof out) == errors[i]
            && proved_argon2_verify_raw(INPUTS_OF_I, pwd, 32) == errors[i]
            && proved_argon2_job_make(INPUTS_OF_I, &job) == errors[i];
        snprintf(name, sizeof name, "%s of more than 2^32 bytes", names[i]);
        check(is_rejected, name);
    }
}

#define PWD_AND_SALT pwd, 8, salt, 8, NULL, 0, NULL, 0

static void check_long_tags(void)
{
    check_code(proved_argon2_hash_raw(PWD_AND_SALT, &small, far, ABOVE), PROVED_ARGON2_WRONG_LENGTH, "a tag to write");
    check_code(proved_argon2_hash_raw_with(&one, PWD_AND_SALT, &small, far, ABOVE), PROVED_ARGON2_WRONG_LENGTH,
        "a tag to write, by threads");
    check_code(proved_argon2_verify_raw(PWD_AND_SALT, &small, far, (size_t)PROVED_ARGON2_MAX_HASH_LENGTH + 1),
        PROVED_ARGON2_OUTPUT_TOO_LONG, "a tag to read, a byte too long");
    check_code(proved_argon2_verify_raw_with(&one, PWD_AND_SALT, &small, far, ABOVE), PROVED_ARGON2_OUTPUT_TOO_LONG,
        "a tag to read, by threads");
    check_code(proved_argon2_job_make(PWD_AND_SALT, &small, &job), PROVED_ARGON2_OK, "a job");
    check_code(proved_argon2_job_run(&one, &job, far, ABOVE), PROVED_ARGON2_WRONG_LENGTH, "a job's tag to write");
    check_code(proved_argon2_job_run_verify(&one, &job, far, ABOVE), PROVED_ARGON2_WRONG_LENGTH, "a job's tag to read");
}

/* ---- recommended settings (OWASP, Password Storage Cheat Sheet; RFC 9106, section 4) */

struct preset {
    proved_argon2_settings settings;
    uint32_t mib, passes;
    const char *name;
};

static void check_preset(const struct preset *preset)
{
    const proved_argon2_settings settings = preset->settings;
    check(settings.variant == PROVED_ARGON2_ID && settings.version == PROVED_ARGON2_VERSION_13
            && settings.mem_cost == preset->mib * 1024 && settings.time_cost == preset->passes && settings.lanes == 1
            && settings.hash_length == 32,
        preset->name);
}

/* ---- what a service works out of its settings */

/* A limit is the default one, or that of the settings if that is higher. */
static void check_limits_for(void)
{
    const struct {
        uint32_t mem_cost, time_cost, lanes;
        proved_argon2_limits expected;
        const char *name;
    } rows[] = {{19456, 2, 1, {2097152, 10, 16, 4194304}, "settings below each default limit"},
        {2097152, 2, 16, {2097152, 10, 16, 4194304}, "settings at the default limits"},
        {2097153, 1, 1, {2097153, 10, 16, 4194304}, "memory above its limit"},
        {1024, 11, 1, {2097152, 11, 16, 4194304}, "passes above their limit"},
        {2048, 1, 17, {2097152, 10, 17, 4194304}, "lanes above their limit"},
        {419431, 10, 1, {2097152, 10, 16, 4194310}, "only work above its limit"},
        {UINT32_MAX, UINT32_MAX, 0xFFFFFF, {UINT32_MAX, UINT32_MAX, 0xFFFFFF, 18446744065119617025u},
            "the highest settings"},
        {0, 0, 0, {2097152, 10, 16, 4194304}, "settings that no hash can have"}};
    for (size_t i = 0; i < sizeof rows / sizeof *rows; i++) {
        const proved_argon2_settings settings = {2, 0x13, rows[i].mem_cost, rows[i].time_cost, rows[i].lanes, 32};
        const proved_argon2_limits limits = proved_argon2_limits_for(&settings), *expected = &rows[i].expected;
        check(limits.mem_cost == expected->mem_cost && limits.time_cost == expected->time_cost
                && limits.lanes == expected->lanes && limits.work == expected->work,
            rows[i].name);
    }
    const proved_argon2_limits none = proved_argon2_limits_for(NULL);
    check(none.mem_cost == 0 && none.time_cost == 0 && none.lanes == 0 && none.work == 0, "no settings");
}

/* A hash of 2 MiB or more takes whole huge pages. */
static void check_hashes_at_once(void)
{
    static const uint64_t kib = 1024, mib = 1024 * kib, highest = UINT32_MAX;
    const struct {
        uint32_t mem_cost, lanes;
        uint64_t bytes, expected;
        const char *name;
    } rows[] = {{19456, 1, 200 * mib, 10, "ten hashes of 19 MiB, which take 20 MiB each"},
        {19456, 1, 200 * mib - 1, 9, "a byte less"}, {47104, 1, 46 * mib, 1, "46 MiB are whole huge pages"},
        {47104, 1, 46 * mib - 1, 0, "not one hash"}, {7168, 1, 16 * mib, 2, "7 MiB take 8 MiB"},
        {2047, 1, 2044 * kib, 1, "less than 2 MiB takes what its blocks need"},
        {2051, 1, 2 * mib, 1, "2 MiB take one huge page"}, {2052, 1, 4 * mib, 1, "4 KiB more take two"},
        {2052, 1, 4 * mib - 1, 0, "two are not there"}, {64, 4, 640 * kib, 10, "ten small hashes"},
        {8, 1, highest * 8 * kib - 1, highest - 1, "almost the most"}, {8, 1, highest * 8 * kib, highest, "the most"},
        {8, 1, (highest + 1) * 8 * kib, highest, "one more than the most"}, {8, 1, UINT64_MAX, highest, "many more"},
        {UINT32_MAX, 1, UINT64_MAX, 4194303, "all bytes"}, {8, 1, 0, 0, "no bytes"},
        {7, 1, mib, 0, "settings that no hash can have"}};
    for (size_t i = 0; i < sizeof rows / sizeof *rows; i++) {
        const proved_argon2_settings settings = {2, 0x13, rows[i].mem_cost, 1, rows[i].lanes, 32};
        check(proved_argon2_hashes_at_once(&settings, rows[i].bytes) == rows[i].expected, rows[i].name);
    }
    check(proved_argon2_hashes_at_once(NULL, UINT64_MAX) == 0, "hashes with no settings");
}

int main(void)
{
    far = mmap(NULL, ABOVE, PROT_NONE, MAP_PRIVATE | MAP_ANONYMOUS | MAP_NORESERVE, -1, 0);
    check(far != MAP_FAILED && mprotect(far, 4096, PROT_READ) == 0, "addresses of which few can be read");
    check_errors();
    check_long_inputs();
    check_long_tags();
    /* clang-format off */
    const struct preset presets[] = {
        /* Written by hand, as the numbers of the errors are. */
        {proved_argon2_owasp1(), 46, 1, "OWASP's first recommendation"},
        {proved_argon2_owasp2(), 19, 2, "OWASP's second recommendation"},
        {proved_argon2_owasp3(), 12, 3, "OWASP's third recommendation"},
        {proved_argon2_owasp4(), 9, 4, "OWASP's fourth recommendation"},
        {proved_argon2_owasp5(), 7, 5, "OWASP's fifth recommendation"},
        {proved_argon2_rfc9106(), 2048, 1, "RFC 9106's first recommendation (section 4)"},
        {proved_argon2_rfc9106_low_mem(), 64, 3, "RFC 9106's recommendation for little memory (section 4)"},
    };
    /* clang-format on */
    for (size_t i = 0; i < sizeof presets / sizeof *presets; i++) {
        check_preset(&presets[i]);
    }
    check_limits_for();
    check_hashes_at_once();
    check(proved_argon2_library_version() == PROVED_ARGON2_LIBRARY_VERSION_NUMBER, "the version of the library");
    printf("version %s %u\n", PROVED_ARGON2_LIBRARY_VERSION, (unsigned)PROVED_ARGON2_LIBRARY_VERSION_NUMBER);
    return finish();
}
