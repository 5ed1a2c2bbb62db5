/*
 * Null pointers, call by call: each pointer of the header and of the calls with options is null in turn. The call
 * returns NULL_POINTER before all other errors, and writes nothing; a null pointer with length 0 passes no bytes.
 * test_library.py compares these names with the pointers that the headers declare. Then, without a build for the
 * processor, each call returns OLD_PROCESSOR, and writes nothing. Errors of the system and of callbacks are reported in
 * the order of docs/C.md. It is linked with --wrap=getrandom, so that a salt is the same each time.
 */
#include "../src/builds.h"
#include "arguments.h"

#include <errno.h>

ssize_t __wrap_getrandom(void *buffer, size_t length, unsigned flags);

/* Fails once spoil() made the arguments invalid. */
ssize_t __wrap_getrandom(void *buffer, size_t length, unsigned flags)
{
    fill_bytes(buffer, length, 0x80);
    errno = ENOSYS;
    return options.size == 0 || flags != 0 ? -1 : (ssize_t)length;
}

/* ---- the other calls */

CALL(verify_raw, INPUTS, BYTES(HASH))
CALL(verify_encoded, STORED_TEXT)
CALL(verify_encoded_within, STORED_TEXT, arguments[LIMITS].at)
CALL(read, BYTES(TEXT_READ), arguments[STORED].at)
CALL(read_within, BYTES(TEXT_READ), arguments[LIMITS].at, arguments[STORED].at)
CALL(read_bytes, BYTES(TEXT_READ), BYTES(SALT_WRITTEN), BYTES(HASH_WRITTEN))
CALL(needs_rehash, BYTES(TEXT_READ), arguments[SETTINGS].at)
CALL_AS(check_settings, check, arguments[SETTINGS].at, 8, 8, 8, 8)
CALL(check_encoded, BYTES(TEXT_READ), arguments[LIMITS].at, 8, 8, 8, arguments[STORED].at)
CALL(password_hash, arguments[TEXT_BUFFER].at, BYTES(PASSWORD))
CALL(password_verify, arguments[TEXT_ENDED].at, BYTES(PASSWORD))
CALL(password_hash_with, arguments[OPTIONS].at, arguments[SETTINGS].at, arguments[TEXT_BUFFER].at, BYTES(PASSWORD),
    BYTES(PEPPER))
CALL(password_verify_with, arguments[OPTIONS].at, arguments[TEXT_ENDED].at, BYTES(PASSWORD), BYTES(PEPPER))
CALL(password_verify_unknown, arguments[OPTIONS].at, arguments[SETTINGS].at, BYTES(PASSWORD), BYTES(PEPPER))
CALL_AS(renew, password_renew, arguments[OPTIONS].at, BYTES(TEXT_READ), BYTES(PASSWORD), BYTES(PEPPER),
    BYTES(NEW_PEPPER), BYTES(AD), BYTES(NEW_TEXT))
CALL(job_check, arguments[JOB].at)
CALL(job_read, STORED_TEXT, arguments[JOB_WRITTEN].at, BYTES(SALT_WRITTEN), BYTES(HASH_WRITTEN))
CALL(encode, BYTES(SALT), arguments[SETTINGS].at, BYTES(TAG_READ), BYTES(TEXT_WRITTEN))
CALL(hash_raw_with, arguments[OPTIONS].at, INPUTS, BYTES(OUT))
CALL(hash_encoded_with, arguments[OPTIONS].at, INPUTS, BYTES(TEXT_WRITTEN))
CALL(verify_raw_with, arguments[OPTIONS].at, INPUTS, BYTES(HASH))
CALL(verify_encoded_with, arguments[OPTIONS].at, STORED_TEXT)
CALL(job_run, arguments[OPTIONS].at, arguments[JOB].at, BYTES(TAG_OUT))
CALL(job_run_verify, arguments[OPTIONS].at, arguments[JOB].at, BYTES(HASH))

/* The text is renewed. */
static uint32_t password_renew(void)
{
    options.new_settings = &settings;
    const uint32_t code = renew();
    return code == PROVED_ARGON2_NEEDS_REHASH ? PROVED_ARGON2_OK : code;
}

/* Some return no error: for null settings they return 0, and freeing null does nothing. */
static uint32_t encoded_len(void)
{
    const uint64_t len = proved_argon2_encoded_len(arguments[SETTINGS].at, 8);
    return len == strlen(known.text)     ? PROVED_ARGON2_OK
        : len != 0                       ? PROVED_ARGON2_WRONG_LENGTH
        : arguments[SETTINGS].at == NULL ? PROVED_ARGON2_NULL_POINTER
                                         : PROVED_ARGON2_INCORRECT_TYPE;
}

static uint32_t memory_len(void)
{
    const uint64_t len = proved_argon2_memory_len(arguments[SETTINGS].at);
    return len == sizeof blocks - sizeof *blocks ? PROVED_ARGON2_OK
        : len != 0                               ? PROVED_ARGON2_WRONG_LENGTH
        : arguments[SETTINGS].at == NULL         ? PROVED_ARGON2_NULL_POINTER
                                                 : PROVED_ARGON2_INCORRECT_TYPE;
}

static uint32_t hashes_at_once(void)
{
    const uint32_t count = proved_argon2_hashes_at_once(arguments[SETTINGS].at, sizeof blocks);
    return count == 1                    ? PROVED_ARGON2_OK
        : count != 0                     ? PROVED_ARGON2_WRONG_LENGTH
        : arguments[SETTINGS].at == NULL ? PROVED_ARGON2_NULL_POINTER
                                         : PROVED_ARGON2_INCORRECT_TYPE;
}

/* Frees a buffer that was allocated before. */
static uint32_t memory_free(void)
{
    void *memory = NULL;
    size_t len = 0;
    const uint32_t code = arguments[MEMORY].at == NULL ? PROVED_ARGON2_NULL_POINTER
                                                       : proved_argon2_memory_new(&small, &memory, &len);
    proved_argon2_memory_free(memory, len);
    return code;
}

/* Frees a handle that was made before. */
static uint32_t buffers_free(void)
{
    proved_argon2_buffers *made = NULL;
    const uint32_t code = arguments[BUFFERS].at == NULL ? PROVED_ARGON2_NULL_POINTER
                                                        : proved_argon2_buffers_new(&small, 2, &made);
    proved_argon2_buffers_free(made);
    return code;
}

/* Frees the new handle, if there is one. */
static uint32_t buffers_new(void)
{
    const uint32_t code = proved_argon2_buffers_new(arguments[SETTINGS].at, 2, arguments[BUFFERS].at);
    if (code == PROVED_ARGON2_OK) {
        proved_argon2_buffers_free(written.buffers);
    }
    return code;
}

/* The settings have too little memory for passwords, so nothing is measured. */
static uint32_t tune(void)
{
    const uint32_t code = proved_argon2_tune(arguments[OPTIONS].at, arguments[MOST].at, 0, arguments[TUNING].at);
    return code == PROVED_ARGON2_TOO_COSTLY ? PROVED_ARGON2_OK : code;
}

/* Frees the new buffer, if there is one. Outputs are checked only if the call fails. */
static uint32_t memory_new(void)
{
    const uint32_t code = proved_argon2_memory_new(
        arguments[SETTINGS].at, arguments[MEMORY].at, arguments[MEMORY_LEN].at);
    if (code == PROVED_ARGON2_OK) {
        proved_argon2_memory_free(written.memory, written.memory_len);
    }
    return code;
}

#define OF_INPUTS PWD, SALT, SECRET, AD, SETTINGS
#define OF_TEXT TEXT_READ, PWD, SECRET, AD
/* clang-format off */
#define ROW(name, ...) {#name, name, {__VA_ARGS__}}
/* clang-format on */

static const struct row {
    const char *name;
    uint32_t (*call)(void);
    enum place pointers[10]; /* END is behind the last one */
} rows[] = {ROW(hash_raw, OF_INPUTS, OUT), ROW(hash_encoded, OF_INPUTS, TEXT_WRITTEN), ROW(verify_raw, OF_INPUTS, HASH),
    ROW(verify_encoded, OF_TEXT), ROW(verify_encoded_within, OF_TEXT, LIMITS), ROW(read, TEXT_READ, STORED),
    ROW(read_within, TEXT_READ, LIMITS, STORED), ROW(read_bytes, TEXT_READ, SALT_WRITTEN, HASH_WRITTEN),
    ROW(needs_rehash, TEXT_READ, SETTINGS), ROW(password_hash, TEXT_BUFFER, PASSWORD),
    ROW(password_verify, TEXT_ENDED, PASSWORD),
    ROW(password_hash_with, OPTIONS, SETTINGS, TEXT_BUFFER, PASSWORD, PEPPER),
    ROW(password_verify_with, OPTIONS, TEXT_ENDED, PASSWORD, PEPPER),
    ROW(password_verify_unknown, OPTIONS, SETTINGS, PASSWORD, PEPPER),
    ROW(password_renew, OPTIONS, TEXT_READ, PASSWORD, PEPPER, NEW_PEPPER, AD, NEW_TEXT), ROW(hashes_at_once, SETTINGS),
    ROW(job_check, JOB), ROW(job_make, OF_INPUTS, JOB_WRITTEN),
    ROW(job_read, OF_TEXT, JOB_WRITTEN, SALT_WRITTEN, HASH_WRITTEN), ROW(job_begin, JOB, OWN),
    ROW(job_fill, JOB, FIRST, SECOND, THIRD, OWN), ROW(job_finish, JOB, LAST, OUT),
    ROW(job_verify, JOB, LAST, HASH, TAG_WRITTEN), ROW(encode, SALT, SETTINGS, TAG_READ, TEXT_WRITTEN),
    ROW(hash_raw_with, OPTIONS, OF_INPUTS, OUT), ROW(hash_encoded_with, OPTIONS, OF_INPUTS, TEXT_WRITTEN),
    ROW(verify_raw_with, OPTIONS, OF_INPUTS, HASH), ROW(verify_encoded_with, OPTIONS, OF_TEXT),
    ROW(hash_over, OF_INPUTS, BLOCKS, OUT), ROW(verify_over, OF_INPUTS, BLOCKS, HASH, TAG_WRITTEN),
    ROW(job_hash_over, JOB, BLOCKS, OUT), ROW(job_verify_over, JOB, BLOCKS, HASH, TAG_WRITTEN),
    ROW(job_run, OPTIONS, JOB, TAG_OUT), ROW(job_run_verify, OPTIONS, JOB, HASH),
    ROW(memory_new, SETTINGS, MEMORY, MEMORY_LEN), ROW(memory_free, MEMORY), ROW(buffers_new, SETTINGS, BUFFERS),
    ROW(buffers_free, BUFFERS), ROW(tune, OPTIONS, MOST, TUNING), ROW(encoded_len, SETTINGS), ROW(memory_len, SETTINGS),
    {"check", check_settings, {SETTINGS}}, ROW(check_encoded, TEXT_READ, LIMITS, STORED)};

/* ---- null pointers */

/* Returns whether a call succeeds if all fits, and fails for another reason if all but the pointers is spoilt: then it
 * writes nothing. */
static bool tells_what_fits(const struct row *row)
{
    give_what_fits();
    const uint32_t whole = row->call();
    give_what_fits();
    spoil();
    const uint32_t spoilt = row->call();
    const bool is_kept = memcmp(&written, &written_before, sizeof written) == 0;
    /* The encoded hash has associated data, which these three calls cannot pass: they never match. */
    const bool is_other = row->call == password_verify || row->call == password_verify_with
        || row->call == password_verify_unknown;
    const bool is_done = whole == (is_other ? PROVED_ARGON2_MISMATCH : PROVED_ARGON2_OK);
    const bool is_whole = row->call == memory_free || row->call == buffers_free;
    return is_done && is_kept
        && (is_whole ? spoilt == PROVED_ARGON2_OK : spoilt != whole && spoilt != PROVED_ARGON2_NULL_POINTER);
}

static bool refuses_null(const struct row *row, enum place place, bool is_spoilt)
{
    give_what_fits();
    if (is_spoilt) {
        spoil();
    }
    arguments[place].at = NULL;
    const bool is_refused = row->call() == PROVED_ARGON2_NULL_POINTER;
    return is_refused && memcmp(&written, &written_before, sizeof written) == 0;
}

/* Returns whether a null pointer with length 0 acts like an address with length 0. */
static bool takes_none(const struct row *row, enum place place)
{
    struct written by_address;
    give_what_fits();
    arguments[place].len = 0;
    const uint32_t code = row->call();
    memcpy(&by_address, &written, sizeof written);
    give_what_fits();
    arguments[place].len = 0;
    arguments[place].at = NULL;
    const bool is_same = row->call() == code && code != PROVED_ARGON2_NULL_POINTER;
    return is_same && memcmp(&by_address, &written, sizeof written) == 0;
}

static void check_pointers(const struct row *row)
{
    char name[96];
    snprintf(name, sizeof name, "%s succeeds, or returns another error", row->name);
    check(tells_what_fits(row), name);
    for (size_t i = 0; row->pointers[i] != END; i++) {
        const enum place place = row->pointers[i];
        give_what_fits();
        const bool has_length = arguments[place].len != 0;
        snprintf(name, sizeof name, "%s without %s", row->name, arguments[place].name);
        const bool is_refused = refuses_null(row, place, false) && refuses_null(row, place, true);
        check(is_refused && (!has_length || takes_none(row, place)), name);
    }
}

/* ---- errors of the system and of callbacks */

static int stop(void *arg, uint64_t done, uint64_t all)
{
    (void)arg, (void)done, (void)all;
    return 1;
}

static void check_order(void)
{
    give_what_fits();
    spoil();
    check_code(password_hash_with(), PROVED_ARGON2_NO_RANDOM_BYTES, "random bytes come before the options");
    give_what_fits();
    options = (proved_argon2_options){.size = sizeof options, .memory = blocks, .progress = stop};
    check_code(hash_raw_with(), PROVED_ARGON2_OUT_OF_MEMORY, "memory comes before progress");
    options.memory_len = sizeof blocks;
    check_code(hash_raw_with(), PROVED_ARGON2_STOPPED, "progress comes last");
}

#ifdef __x86_64__ /* (where there are builds to choose from) */
/* Returns whether a call returns PROVED_ARGON2_OLD_PROCESSOR or, if it returns a length, 0. */
static bool refuses_the_processor(const struct row *row)
{
    const bool gives_a_length = row->call == encoded_len || row->call == memory_len || row->call == hashes_at_once;
    give_what_fits();
    const uint32_t code = row->call();
    return code == (gives_a_length ? PROVED_ARGON2_INCORRECT_TYPE : PROVED_ARGON2_OLD_PROCESSOR)
        && memcmp(&written, &written_before, sizeof written) == 0;
}

static void check_without_a_build(void)
{
    char name[96];
    proved_driver_build = NO_BUILD;
    for (size_t i = 0; i < sizeof rows / sizeof *rows; i++) {
        snprintf(name, sizeof name, "%s on an older processor", rows[i].name);
        check(refuses_the_processor(&rows[i]), name);
    }
    spoil();
    check_code(hash_raw_with(), PROVED_ARGON2_WRONG_LENGTH, "the options come before the processor");
    options.size = sizeof options;
    check_code(hash_raw_with(), PROVED_ARGON2_OLD_PROCESSOR, "the processor comes before the variant");
    check(proved_argon2_library_version() == 0 && proved_argon2_default_limits().mem_cost == 0
            && proved_argon2_limits_for(&small).mem_cost == 0 && proved_argon2_limits_for(&small).work == 0
            && proved_argon2_owasp2().version == 0 && proved_argon2_rfc9106().version == 0,
        "calls that return numbers return zeros on an older processor");
}
#endif

int main(void)
{
    check_what_fits();
    for (size_t i = 0; i < sizeof rows / sizeof *rows; i++) {
        check_pointers(&rows[i]);
    }
    check_order();
#ifdef __x86_64__
    check_without_a_build();
#endif
    return finish();
}
