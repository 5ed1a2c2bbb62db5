/* Shared by the tests of bad input: all arguments of a call, so that one at a time can be spoilt. */
#ifndef ARGUMENTS_H
#define ARGUMENTS_H

#include "checks.h"

enum { TAG = 32, TEXT = 128, LANES = 3, LENGTH = 2, SLICE = LANES * LENGTH, PASSES = 2 };

static const proved_argon2_settings small = {PROVED_ARGON2_ID, PROVED_ARGON2_VERSION_13, 4 * SLICE, PASSES, LANES, TAG};

/* The places of `arguments`. Calls write to those from MEMORY on. MEMORY is the address of a pointer to a buffer, whose
 * length is at MEMORY_LEN; BUFFERS is that of a handle. */
/* clang-format off */
enum place {
    END, OPTIONS, TEXT_READ, TEXT_ENDED, PWD, PASSWORD, SALT, SECRET, PEPPER, NEW_PEPPER, AD, SETTINGS, LIMITS, JOB,
    FIRST, SECOND, THIRD, LAST, HASH, TAG_READ, MOST, MEMORY, MEMORY_LEN, BUFFERS, TUNING, BLOCKS, OUT, TAG_OUT,
    TEXT_WRITTEN, TEXT_BUFFER, NEW_TEXT, STORED, JOB_WRITTEN, OWN, SALT_WRITTEN, HASH_WRITTEN, TAG_WRITTEN, PLACES
};
/* clang-format on */

/* A pointer by the name that the headers give it; its length, in bytes or blocks, is 0 where it has none. */
static struct pointer {
    const char *name;
    void *at;
    size_t len;
} arguments[PLACES];

static uint32_t pass, slice, lane; /* where a step is */
static proved_argon2_options options;
static proved_argon2_settings settings;
static proved_argon2_limits limits;
static proved_argon2_job job;
static proved_argon2_block blocks[4 * SLICE + 1];
static uint8_t inputs[16];
static char text[TEXT];

/* These arguments fit: the job of `small`, its blocks, its tag and its text. */
static struct known {
    proved_argon2_job job;
    proved_argon2_block blocks[4 * SLICE + 1];
    uint8_t tag[TAG];
    char text[TEXT];
} known;

/* The calls write here. Each place has more bytes than they may write. */
static struct written {
    void *memory;
    size_t memory_len;
    proved_argon2_buffers *buffers;
    proved_argon2_tuning tuning;
    proved_argon2_stored stored;
    proved_argon2_job job;
    proved_argon2_block own[3 * LENGTH + 1], blocks[4 * SLICE + 2];
    uint8_t out[TAG + 1], text[TEXT], salt[8], hash[TAG], tag[TAG + 1];
} written, written_before;

#define BYTES(place) arguments[place].at, arguments[place].len
#define INPUTS BYTES(PWD), BYTES(SALT), BYTES(SECRET), BYTES(AD), arguments[SETTINGS].at
#define STORED_TEXT BYTES(TEXT_READ), BYTES(PWD), BYTES(SECRET), BYTES(AD)
#define SLICES BYTES(FIRST), BYTES(SECOND), BYTES(THIRD)
#define CALL(name, ...) CALL_AS(name, name, __VA_ARGS__)
#define CALL_AS(own_name, name, ...) \
    static inline uint32_t own_name(void) \
    { \
        return proved_argon2_##name(__VA_ARGS__); \
    }

CALL(hash_raw, INPUTS, BYTES(OUT))
CALL(hash_encoded, INPUTS, BYTES(TEXT_WRITTEN))
CALL(job_make, INPUTS, arguments[JOB_WRITTEN].at)
CALL(job_begin, arguments[JOB].at, lane, BYTES(OWN))
CALL(job_fill, arguments[JOB].at, pass, slice, lane, SLICES, BYTES(OWN))
CALL(job_finish, arguments[JOB].at, BYTES(LAST), BYTES(OUT))
CALL(job_verify, arguments[JOB].at, BYTES(LAST), BYTES(HASH), BYTES(TAG_WRITTEN))
CALL(job_hash_over, arguments[JOB].at, BYTES(BLOCKS), BYTES(OUT))
CALL(job_verify_over, arguments[JOB].at, BYTES(BLOCKS), BYTES(HASH), BYTES(TAG_WRITTEN))
CALL(hash_over, INPUTS, BYTES(BLOCKS), BYTES(OUT))
CALL(verify_over, INPUTS, BYTES(BLOCKS), BYTES(HASH), BYTES(TAG_WRITTEN))

static inline void give(enum place place, const char *name, void *at, size_t len)
{
    arguments[place] = (struct pointer){name, at, len};
}

static inline void give_to_read(void)
{
    options = (proved_argon2_options)PROVED_ARGON2_OPTIONS;
    settings = small;
    limits = proved_argon2_default_limits();
    job = known.job;
    memcpy(text, known.text, sizeof text);
    memcpy(blocks, known.blocks, sizeof blocks);
    give(OPTIONS, "options", &options, 0);
    give(TEXT_READ, "text", text, strlen(text));
    give(TEXT_ENDED, "text", text, 0);
    give(PWD, "pwd", inputs, 8);
    give(PASSWORD, "password", inputs, 8);
    give(SALT, "salt", inputs + 1, 8);
    give(SECRET, "secret", inputs + 2, 8);
    give(PEPPER, "pepper", inputs + 2, 8);
    give(NEW_PEPPER, "new_pepper", inputs + 4, 8);
    give(AD, "ad", inputs + 3, 8);
    give(SETTINGS, "settings", &settings, 0);
    give(MOST, "most", &settings, 0);
    give(LIMITS, "limits", &limits, 0);
    give(JOB, "job", &job, 0);
    give(FIRST, "first", blocks, SLICE);
    give(SECOND, "second", blocks + SLICE, SLICE);
    give(THIRD, "third", blocks + 2 * SLICE, SLICE);
    give(LAST, "last", blocks + 3 * SLICE, SLICE);
    give(HASH, "hash", known.tag, TAG);
    give(TAG_READ, "tag", known.tag, TAG);
}

/* Fills the places that calls write to with bytes. */
static inline void give_to_write(void)
{
    fill_bytes((uint8_t *)&written, sizeof written, 7);
    memcpy(&written_before, &written, sizeof written);
    give(MEMORY, "memory", &written.memory, 0);
    give(MEMORY_LEN, "memory_len", &written.memory_len, 0);
    give(BUFFERS, "buffers", &written.buffers, 0);
    give(TUNING, "tuning", &written.tuning, 0);
    give(BLOCKS, "blocks", written.blocks, 4 * SLICE);
    give(OUT, "out", written.out, TAG);
    give(TAG_OUT, "tag", written.out, TAG);
    give(TEXT_WRITTEN, "text", written.text, TEXT);
    give(TEXT_BUFFER, "text", written.text, 0);
    give(NEW_TEXT, "new_text", written.text, TEXT);
    give(STORED, "stored", &written.stored, 0);
    give(JOB_WRITTEN, "job", &written.job, 0);
    give(OWN, "own", written.own, LENGTH);
    give(SALT_WRITTEN, "salt", written.salt, 8);
    give(HASH_WRITTEN, "hash", written.hash, TAG);
    give(TAG_WRITTEN, "tag", written.tag, TAG);
}

/* Sets arguments that no call rejects. */
static inline void give_what_fits(void)
{
    give_to_read();
    give_to_write();
}

/* Makes all arguments invalid except pointers: a null pointer must still be the first error. */
static inline void spoil(void)
{
    options.size = 0;
    settings.variant = 3;
    limits = (proved_argon2_limits){0, 0, 0, 0};
    job.lanes = 0;
    text[0] = (char)0xff;
    for (size_t i = 0; i < PLACES; i++) {
        arguments[i].len -= arguments[i].len != 0;
    }
}

static inline bool is_unchanged(void)
{
    return memcmp(&written, &written_before, sizeof written) == 0 && memcmp(blocks, known.blocks, sizeof blocks) == 0;
}

/* All steps of `small`, in their order, over `known.blocks`. */
static inline bool take_steps(void)
{
    proved_argon2_block *const all = known.blocks;
    bool good = true;
    for (uint32_t n = 0; n < (4 * PASSES + 1) * LANES; n++) {
        const uint32_t step = n / LANES;
        lane = n % LANES;
        slice = step == 0 ? 0 : (step - 1) % 4;
        pass = step == 0 ? 0 : (step - 1) / 4;
        give(JOB, "job", &known.job, 0);
        give(FIRST, "first", all + (slice == 0 ? SLICE : 0), SLICE);
        give(SECOND, "second", all + (slice <= 1 ? 2 * SLICE : SLICE), SLICE);
        give(THIRD, "third", all + (slice <= 2 ? 3 * SLICE : 2 * SLICE), SLICE);
        give(OWN, "own", all + slice * SLICE + lane * LENGTH, LENGTH);
        good &= (step == 0 ? job_begin() : job_fill()) == PROVED_ARGON2_OK;
    }
    return good;
}

static inline void check_what_fits(void)
{
    fill_bytes(inputs, sizeof inputs, 1);
    give_what_fits();
    bool good = hash_raw() == PROVED_ARGON2_OK && hash_encoded() == PROVED_ARGON2_OK && job_make() == PROVED_ARGON2_OK;
    memcpy(known.tag, written.out, sizeof known.tag);
    memcpy(known.text, written.text, sizeof known.text);
    known.job = written.job;
    good = good && take_steps();
    give_what_fits();
    check(good && job_verify() == PROVED_ARGON2_OK && memcmp(written.tag, known.tag, TAG) == 0, "what fits");
}

#endif
