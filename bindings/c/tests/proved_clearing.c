/*
 * Which secrets the proved calls leave in caller-provided memory, which the caller clears, and what they overwrite: see
 * SECURITY.md. Each call runs in a child, which has no secrets before. clearing.c tests the driver's calls, and
 * test_library.py compares the calls that are named in both with those of the headers. This program is linked
 * with --wrap for what it looks at.
 *
 *     proved_clearing            all checks
 *     proved_clearing unwiped    with a library that overwrites nothing: each check of overwriting must find something
 */
#include "search.h"

static uint8_t out[512];
static proved_argon2_job job;
static proved_argon2_stored stored;
static uint8_t hash[TAG], salt[16];
static proved_argon2_block blocks[2048];

#define MANY_CALL calls[MANY]
#define TEXT_READ sought->text, strlen(sought->text)
#define TEXT_OF(call) sought->other, strlen(sought->other), BYTES(call, pwd), BYTES(call, secret), BYTES(call, ad)
/* clang-format off */
#define CALL(name, ...) static uint32_t does_##name(void) { return proved_argon2_##name(__VA_ARGS__); }
/* clang-format on */

CALL(job_make, INPUTS_OF(MANY_CALL), &job)
CALL(job_read, TEXT_OF(MANY_CALL), &job, salt, 16, hash, TAG)
CALL(read, TEXT_READ, &stored)
CALL(read_within, TEXT_READ, &(proved_argon2_limits){2048, 2, 16, 4096}, &stored)
CALL(check, &MANY_CALL.settings, MANY_CALL.pwd_len, MANY_CALL.salt_len, MANY_CALL.secret_len, MANY_CALL.ad_len)
CALL(check_encoded, TEXT_READ, &(proved_argon2_limits){2048, 2, 16, 4096}, MANY_CALL.pwd_len, MANY_CALL.secret_len,
    MANY_CALL.ad_len, &stored)
CALL(read_bytes, TEXT_READ, salt, 16, hash, TAG)
CALL(needs_rehash, TEXT_READ, &MANY_CALL.settings)
CALL(encode, BYTES(MANY_CALL, salt), &MANY_CALL.settings, sought->tag, TAG, (char *)out, sizeof out)
CALL(hash_over, INPUTS_OF(MANY_CALL), blocks, 2048, out, TAG)
CALL(verify_over, INPUTS_OF(MANY_CALL), blocks, 2048, zeros, TAG, out, TAG)

static uint32_t does_job_check(void)
{
    const uint32_t code = does_job_make();
    return code ? code : proved_argon2_job_check(&job);
}

static uint32_t does_message(void)
{
    return strcmp(proved_argon2_message(PROVED_ARGON2_OUT_OF_MEMORY), "Out of memory") == 0 ? 0 : 1;
}

static uint32_t does_encoded_len(void)
{
    return proved_argon2_encoded_len(&MANY_CALL.settings, MANY_CALL.salt_len) == strlen(sought->text) ? 0 : 1;
}

static uint32_t does_hashes_at_once(void)
{
    return proved_argon2_hashes_at_once(&MANY_CALL.settings, sizeof blocks) == 1 ? 0 : 1;
}

static uint32_t does_memory_len(void)
{
    return proved_argon2_memory_len(&MANY_CALL.settings) == sizeof blocks ? 0 : 1;
}

/* Steps of a job. */
static uint32_t takes_steps(uint32_t count)
{
    static known spare;
    uint32_t code = does_job_make();
    for (uint32_t step = 0; step < count && code == PROVED_ARGON2_OK; step++) {
        spare.count = 0;
        code = keep_step(&job, blocks, step, &spare) ? PROVED_ARGON2_OK : PROVED_ARGON2_UNKNOWN_NUMBER;
    }
    return code;
}

static uint32_t does_job_begin(void)
{
    return takes_steps(1);
}

static uint32_t does_job_fill(void)
{
    return takes_steps(9);
}

static uint32_t does_job_finish(void)
{
    const uint32_t code = takes_steps(9);
    return code ? code : proved_argon2_job_finish(&job, blocks + 3 * 512, 512, out, TAG);
}

static uint32_t does_job_verify(void)
{
    const uint32_t code = takes_steps(9);
    return code ? code : proved_argon2_job_verify(&job, blocks + 3 * 512, 512, zeros, TAG, out, TAG);
}

static uint32_t does_job_hash_over(void)
{
    const uint32_t code = does_job_make();
    return code ? code : proved_argon2_job_hash_over(&job, blocks, 2048, out, TAG);
}

static uint32_t does_job_verify_over(void)
{
    const uint32_t code = does_job_make();
    return code ? code : proved_argon2_job_verify_over(&job, blocks, 2048, zeros, TAG, out, TAG);
}

/* These are overwritten after their last use; the first blocks, which stay in memory after job_begin, later. */
enum { SEEDS = 1 << OF_SEED | 1 << OF_LAST, BUFFERS = SEEDS | 1 << OF_FIRST };

/* clang-format off */
#define ROW(name, expected, leaves, overwrites) {#name, does_##name, expected, leaves, overwrites, true}
#define OTHER(name, leaves) {#name, does_##name, 0, leaves, 0, false}
/* clang-format on */

/* The one kind of what it computes or reads that each call leaves, or KINDS for none. */
static const struct row {
    const char *name;
    uint32_t (*does)(void);
    uint32_t expected;
    enum kind leaves;
    int overwrites;
    bool computes; /* so that it overwrites its stack and registers */
} rows[] = {ROW(job_make, 0, OF_H0, 0), ROW(job_read, 0, OF_H0, 0), ROW(job_begin, 0, OF_FIRST, SEEDS),
    ROW(job_fill, 0, OF_BLOCKS, 0), ROW(job_finish, 0, OF_TAG, BUFFERS), ROW(job_verify, 64, OF_TAG, BUFFERS),
    ROW(job_hash_over, 0, OF_TAG, BUFFERS), ROW(job_verify_over, 64, OF_TAG, BUFFERS),
    ROW(hash_over, 0, OF_TAG, BUFFERS), ROW(verify_over, 64, OF_TAG, BUFFERS), OTHER(read, KINDS),
    OTHER(read_within, KINDS), OTHER(read_bytes, OF_TAG), OTHER(needs_rehash, KINDS), OTHER(encode, KINDS),
    OTHER(encoded_len, KINDS), OTHER(memory_len, KINDS), OTHER(hashes_at_once, KINDS), OTHER(message, KINDS),
    OTHER(check, KINDS), OTHER(check_encoded, KINDS), OTHER(job_check, OF_H0)};

static uint32_t does_row(const void *arg)
{
    const struct row *const row = arg;
    return row->does();
}

/* The kinds of which something is found, as bits. */
static int kinds_found(void)
{
    int bits = 0;
    memset(found, 0, sizeof found);
    look_everywhere();
    for (size_t kind = 0; kind < KINDS; kind++) {
        bits |= found[kind] != 0 ? 1 << kind : 0;
    }
    return bits;
}

/* Returns whether blocks that a call returns have the first bytes of its password or secret. */
static bool have_inputs(void)
{
    return memmem(blocks, sizeof blocks, MANY_CALL.pwd, 8) != NULL
        || memmem(blocks, sizeof blocks, MANY_CALL.secret, 8) != NULL;
}

/* Returns whether one of the registers in `general` (search.h) has half of a piece. */
static bool is_in_general_registers(void)
{
    const size_t halves = 2 * sought->count;
    bool is_there = false;
    for (size_t i = 0; i < halves * (sizeof general / sizeof *general); i++) {
        const uint64_t word = general[i / halves] ^ UINT64_MAX / UINT8_MAX * MASK;
        is_there |= memcmp(&word, sought->parts[i % halves / 2].bytes + i % 2 * 8, 8) == 0;
    }
    return is_there;
}

/* Clears the caller's memory, as a caller does. */
static void clear_caller_memory(void)
{
    __real_explicit_bzero(&job, sizeof job);
    __real_explicit_bzero(blocks, sizeof blocks);
    __real_explicit_bzero(out, sizeof out);
    __real_explicit_bzero(hash, sizeof hash);
}

/* A search after a call may find what it leaves, what it should overwrite, and secrets outside the caller's memory.
 * Freed memory may contain none of it. */
enum { LEAVES = 1, OVERWRITES = 2, ELSEWHERE = 4, NO_ANSWER = 8 };

static int what_is_left(const void *arg)
{
    const struct row *const row = arg;
    seek(MANY);
    memset(found, 0, sizeof found);
    look_at = look_at_request;
    if (far_below(does_row, row) != row->expected || !is_nothing_found(row->name)) {
        return NO_ANSWER;
    }
    look_at = NULL;
    const bool is_there = is_in_general_registers();
    memset(general, 0, sizeof general);
    const int bits = kinds_found(), leaves = row->leaves == KINDS ? -1 : 1 << row->leaves;
    const bool overwrites = (bits & row->overwrites) == 0 && !have_inputs();
    clear_caller_memory();
    return (bits & leaves ? LEAVES : 0) | (overwrites ? 0 : OVERWRITES) | (kinds_found() || is_there ? ELSEWHERE : 0);
}

static int overwritten; /* copies of secrets that were still found */

static void check_row(const struct row *row)
{
    char name[96];
    const int left = status_of(what_is_left, row);
    const bool is_none = row->leaves == KINDS, is_over = left >= 0 && left < NO_ANSWER;
    snprintf(name, sizeof name, "%s leaves %s", row->name, is_none ? "no secrets" : of_kinds[row->leaves]);
    check(is_over && (left & LEAVES) == (is_none ? 0 : LEAVES), name);
    if (row->overwrites != 0) {
        snprintf(name, sizeof name, "%s overwrites what it should", row->name);
        check(is_over && (left & OVERWRITES) == (overwritten & OVERWRITES), name);
    }
    if (row->computes) {
        snprintf(name, sizeof name, "%s overwrites its stack and registers", row->name);
        check(is_over && (left & ELSEWHERE) == (overwritten & ELSEWHERE), name);
    }
}

int main(int argc, char **argv)
{
    overwritten = argc > 1 && strcmp(argv[1], "unwiped") == 0 ? OVERWRITES | ELSEWHERE : 0;
    check_nothing_before();
    for (size_t i = 0; i < sizeof rows / sizeof *rows; i++) {
        check_row(&rows[i]);
    }
    return finish();
}
