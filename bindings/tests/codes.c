/*
 * A library that computes nothing and returns the numbers that a test has set. The tests of the packages for Python,
 * Rust, Go and Java see what these say of each number.
 */
#include "proved_argon2.h"

#include <stdio.h>
#include <stdlib.h>
#include <string.h>

#define PIECE(name) const uint8_t *name, size_t name##_len
#define PWD const void *pwd, size_t pwd_len
#define SHOWN(name) (int)name##_len, (const char *)name
#define SETTINGS "%u %u %u %u %u %u"
#define HASHING "%.*s %.*s %.*s %.*s " SETTINGS
#define INPUTS PWD, PIECE(salt), PIECE(secret), PIECE(ad), const proved_argon2_settings *settings
#define EACH(settings) \
    (settings)->variant, (settings)->version, (settings)->mem_cost, (settings)->time_cost, (settings)->lanes, \
        (settings)->hash_length
#define EACH_INPUT SHOWN(pwd), SHOWN(salt), SHOWN(secret), SHOWN(ad), EACH(settings)

/* The numbers that proved_argon2_check, any call that computes, proved_argon2_read and proved_argon2_memory_new return;
 * and the bytes that each KiB of such a memory takes. */
static uint32_t checking, answer, reading, shortage, kib;

/* The arguments of the last call of each kind: that computes, that checks, and that does neither. */
enum { COMPUTING, JUDGING, TELLING, KINDS };
static char passed[KINDS][400];

/* The last call with options, which must have this version's size: how many threads it asked for; how many bytes of
 * memory, or of each kept buffer, it was passed, or -1; and what its progress callback returned, or -1 without one. */
static uint32_t threads;
static int64_t memory_len, progress_result;

/* Counts the memories that were asked for, that exist now (one that was freed with a wrong length still counts), and
 * that existed at once. */
static uint32_t asked, memories, most_memories;

void set_answers(uint32_t check, uint32_t then, uint32_t read, uint32_t memory, uint32_t kib_size)
{
    checking = check;
    answer = then;
    reading = read;
    shortage = memory;
    kib = kib_size;
    memset(passed, 0, sizeof passed);
    threads = asked = most_memories = 0;
    memory_len = progress_result = -1;
}

/* Returns what was seen since the answers were set. */
const char *seen(void)
{
    static char text[sizeof passed + 200];
    snprintf(text, sizeof text, "%u|%lld|%lld|%u|%u|%u|%s|%s|%s", threads, (long long)memory_len,
        (long long)progress_result, asked, memories, most_memories, passed[JUDGING], passed[TELLING],
        passed[COMPUTING]);
    return text;
}

/* Kept buffers, of which only the length is seen. */
typedef struct proved_argon2_buffers {
    int64_t len;
} buffers;

uint32_t proved_argon2_buffers_new(const proved_argon2_settings *settings, uint32_t most, buffers **made)
{
    *made = most > 0 ? calloc(1, sizeof **made) : NULL;
    if (*made != NULL) (*made)->len = (int64_t)proved_argon2_memory_len(settings);
    return shortage;
}

uint32_t proved_argon2_buffers_free_idle(buffers *of)
{
    return of == NULL;
}

void proved_argon2_buffers_free(buffers *of)
{
    free(of);
}

static void take(const proved_argon2_options *with)
{
    progress_result = with->progress == NULL ? -1 : with->progress(with->arg, 1, 12);
    threads = with->size != sizeof *with ? UINT32_MAX - 1 : with->threads;
    memory_len = with->memory != NULL && (uintptr_t)with->memory % 8 == 0 ? (int64_t)with->memory_len
        : with->memory != NULL || with->memory_len != 0                   ? INT64_MIN
                                                                          : -1;
    if (with->memory == NULL && with->buffers != NULL) memory_len = with->buffers->len;
}

uint32_t proved_argon2_check(
    const proved_argon2_settings *settings, uint64_t pwd_len, uint64_t salt_len, uint64_t secret_len, uint64_t ad_len)
{
    const unsigned lengths[] = {(unsigned)pwd_len, (unsigned)salt_len, (unsigned)secret_len, (unsigned)ad_len};
    snprintf(passed[JUDGING], sizeof *passed, "check " SETTINGS " %u %u %u %u", EACH(settings), lengths[0], lengths[1],
        lengths[2], lengths[3]);
    return checking;
}

uint32_t proved_argon2_hash_raw_with(const proved_argon2_options *with, INPUTS, uint8_t *out, size_t out_len)
{
    take(with);
    snprintf(passed[COMPUTING], sizeof *passed, "raw " HASHING, EACH_INPUT);
    memset(out, 'x', out_len);
    return answer;
}

uint32_t proved_argon2_hash_encoded_with(const proved_argon2_options *with, INPUTS, char *text, size_t text_len)
{
    take(with);
    snprintf(passed[COMPUTING], sizeof *passed, "encoded " HASHING, EACH_INPUT);
    if (text_len > 0) {
        memset(text, 'x', text_len - 1);
        text[text_len - 1] = 0;
    }
    return answer;
}

uint32_t proved_argon2_verify_raw_with(const proved_argon2_options *with, INPUTS, PIECE(hash))
{
    take(with);
    snprintf(passed[COMPUTING], sizeof *passed, "verify " HASHING " %.*s", EACH_INPUT, SHOWN(hash));
    return answer;
}

uint32_t proved_argon2_verify_encoded_with(
    const proved_argon2_options *with, const char *text, size_t text_len, PWD, PIECE(secret), PIECE(ad))
{
    static const proved_argon2_limits none = {0, 0, 0, 0};
    const proved_argon2_limits *const limits = with->limits == NULL ? &none : with->limits;
    take(with);
    snprintf(passed[COMPUTING], sizeof *passed, "text %.*s %.*s %.*s %.*s %u %u %u %llu", SHOWN(text), SHOWN(pwd),
        SHOWN(secret), SHOWN(ad), limits->mem_cost, limits->time_cost, limits->lanes, (unsigned long long)limits->work);
    return answer;
}

uint32_t proved_argon2_password_verify_unknown(
    const proved_argon2_options *with, const proved_argon2_settings *settings, PWD, PIECE(secret))
{
    take(with);
    snprintf(
        passed[COMPUTING], sizeof *passed, "unknown %.*s %.*s " SETTINGS, SHOWN(pwd), SHOWN(secret), EACH(settings));
    return answer;
}

uint32_t proved_argon2_tune(const proved_argon2_options *with, const proved_argon2_settings *most, uint64_t nanoseconds,
    proved_argon2_tuning *tuning)
{
    take(with);
    *tuning = (proved_argon2_tuning){*most, nanoseconds};
    return answer;
}

uint64_t proved_argon2_memory_len(const proved_argon2_settings *settings)
{
    return (uint64_t)settings->mem_cost * kib;
}

uint32_t proved_argon2_memory_new(const proved_argon2_settings *settings, void **memory, size_t *length)
{
    snprintf(passed[TELLING], sizeof *passed, "memory " SETTINGS, EACH(settings));
    asked++;
    if (shortage == PROVED_ARGON2_OK) {
        *length = (size_t)settings->mem_cost * kib;
        *memory = calloc(1, *length);
        memcpy(*memory, length, sizeof *length);
        memories++;
        most_memories = memories > most_memories ? memories : most_memories;
    }
    return shortage;
}

void proved_argon2_memory_free(void *memory, size_t length)
{
    if (memory != NULL && length != 0) {
        memories -= memcmp(memory, &length, sizeof length) == 0;
        free(memory);
    }
}

proved_argon2_limits proved_argon2_default_limits(void)
{
    return (proved_argon2_limits){7, 8, 9, 10};
}

/* The default limits, with the memory of the settings, so that the two differ. */
proved_argon2_limits proved_argon2_limits_for(const proved_argon2_settings *settings)
{
    return (proved_argon2_limits){settings->mem_cost, 8, 9, 10};
}

/* Writes a text if the answer is NEEDS_REHASH. */
uint32_t proved_argon2_password_renew(const proved_argon2_options *with, const char *text, size_t text_len, PWD,
    PIECE(pepper), PIECE(new_pepper), PIECE(ad), char *new_text, size_t new_text_len)
{
    take(with);
    snprintf(passed[COMPUTING], sizeof *passed, "renew %.*s %.*s %.*s %.*s %.*s %u " SETTINGS " %u", SHOWN(text),
        SHOWN(pwd), SHOWN(pepper), SHOWN(new_pepper), SHOWN(ad), with->limits == NULL ? 0 : with->limits->mem_cost,
        EACH(with->new_settings), (unsigned)with->new_salt_len);
    if (answer == PROVED_ARGON2_NEEDS_REHASH) {
        memset(new_text, 'x', new_text_len);
        new_text[new_text_len - 1] = 0;
    }
    return answer;
}

uint32_t proved_argon2_hashes_at_once(const proved_argon2_settings *settings, uint64_t bytes)
{
    return (uint32_t)(bytes / settings->mem_cost);
}

/* Writes seven different numbers, even on an error: then nobody may use them as values. */
uint32_t proved_argon2_read(const char *text, size_t text_len, proved_argon2_stored *stored)
{
    snprintf(passed[TELLING], sizeof *passed, "read %.*s", SHOWN(text));
    *stored = (proved_argon2_stored){{2, 19, 64, 3, 4, 5}, 6};
    return reading;
}

uint32_t proved_argon2_needs_rehash(const char *text, size_t text_len, const proved_argon2_settings *settings)
{
    snprintf(passed[TELLING], sizeof *passed, "rehash %.*s " SETTINGS, SHOWN(text), EACH(settings));
    return answer;
}

uint64_t proved_argon2_encoded_len(const proved_argon2_settings *settings, uint32_t salt_len)
{
    snprintf(passed[TELLING], sizeof *passed, "length " SETTINGS " %u", EACH(settings), salt_len);
    return 12;
}

/* N and the number's three digits. */
const char *proved_argon2_message(uint32_t number)
{
    static char text[5];
    snprintf(text, sizeof text, "N%03u", (unsigned)(number % 1000));
    return text;
}

uint32_t proved_argon2_library_version(void)
{
    return PROVED_ARGON2_LIBRARY_VERSION_NUMBER;
}
