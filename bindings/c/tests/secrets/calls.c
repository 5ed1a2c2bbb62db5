/* Makes calls of the library for C over secrets that are marked as undefined. Memcheck marks everything
   computed from them, and reports each branch and each address that depends on it. Lengths, the salt, the
   associated data, the settings and an encoded hash up to its tag are public, and stay defined.

   usage: valgrind --tool=memcheck calls <QUESTIONS >ANSWERS

   Both are raw structs, so that reading and writing them takes the same instructions for all secrets
   (test_instructions.py). Without valgrind, as in test_wiping.py, nothing is marked. */
#include "proved_argon2.h"

#include <errno.h>
#include <pthread.h>
#include <stdio.h>
#include <stdlib.h>
#include <unistd.h>
#include <valgrind/memcheck.h>

enum { CAPACITY = 4096, MAX_BLOCKS = 4096 };
enum { HASH_RAW, HASH_ENCODED, VERIFY_RAW, VERIFY_ENCODED, WITHIN };
enum { PASSWORD_HASH = WITHIN + 1, PASSWORD_VERIFY, HASH_OVER, VERIFY_OVER };
enum { PASSWORD, SALT, SECRET, AD, VERIFIED, FIELDS }; /* the last is the hash or the text that is verified */

/* The call, its options, and how many bytes of what is verified are public. */
static struct {
    uint32_t call, options, open;
    proved_argon2_settings settings;
    struct {
        uint32_t length;
        uint8_t at[CAPACITY];
    } fields[FIELDS];
} question;

/* This counts the reports and the calls of the caller's functions. Then it has the code, whether that is undefined,
   what was written, and which of its bits are undefined. */
static struct {
    uint32_t reports, calls_back, code, undefined;
    uint8_t out[CAPACITY], bits[CAPACITY];
} answer;

static proved_argon2_block blocks[MAX_BLOCKS];

static int tell_here(void *arg, uint64_t done, uint64_t all)
{
    ++*(uint32_t *)arg;
    return done > all;
}

/* No text exceeds these limits, but each call must compare them. */
static const proved_argon2_limits WIDEST = {UINT32_MAX, UINT32_MAX, UINT32_MAX, UINT64_MAX};

/* In order of OPTIONS: a plain call, which makes one proved call; a call in a reusable buffer; one in steps in this
   thread, with a progress callback; one by four threads; and one in this program's memory, with at most one thread
   per lane, and its progress callback. */
static proved_argon2_options REUSED = {.size = sizeof REUSED, .limits = &WIDEST};
static const proved_argon2_options PROGRESS = {
    .size = sizeof PROGRESS, .limits = &WIDEST, .threads = 1, .progress = tell_here, .arg = &answer.calls_back};
static const proved_argon2_options THREADS = {.size = sizeof THREADS, .limits = &WIDEST, .threads = 4};
static const proved_argon2_options CALLER = {.size = sizeof CALLER,
    .limits = &WIDEST,
    .threads = UINT32_MAX,
    .memory = blocks,
    .memory_len = sizeof blocks,
    .progress = tell_here,
    .arg = &answer.calls_back};
static const proved_argon2_options *const OPTIONS[] = {NULL, &REUSED, &PROGRESS, &THREADS, &CALLER};

#define IN(field) question.fields[field].at, question.fields[field].length
#define TEXT(field) (const char *)IN(field)
#define INPUTS IN(PASSWORD), IN(SALT), IN(SECRET), IN(AD), &question.settings
#define OF_TEXT TEXT(VERIFIED), IN(PASSWORD), IN(SECRET), IN(AD)
#define OUT_TEXT (char *)answer.out
#define CALL(name, ...) (with ? proved_argon2_##name##_with(with, __VA_ARGS__) : proved_argon2_##name(__VA_ARGS__))

static uint32_t make_call(const proved_argon2_options *with)
{
    static uint8_t tag[CAPACITY];
    const uint32_t length = question.settings.hash_length;
    const size_t count = proved_argon2_memory_len(&question.settings) / sizeof *blocks;
    switch (question.call) {
    case HASH_RAW: return CALL(hash_raw, INPUTS, answer.out, length);
    case HASH_ENCODED: return CALL(hash_encoded, INPUTS, OUT_TEXT, CAPACITY);
    case VERIFY_RAW: return CALL(verify_raw, INPUTS, IN(VERIFIED));
    case VERIFY_ENCODED: return CALL(verify_encoded, OF_TEXT);
    case WITHIN: return proved_argon2_verify_encoded_within(OF_TEXT, &WIDEST);
    case PASSWORD_HASH: return proved_argon2_password_hash(OUT_TEXT, TEXT(PASSWORD));
    case PASSWORD_VERIFY:
        return proved_argon2_password_verify((const char *)question.fields[VERIFIED].at, TEXT(PASSWORD));
    case HASH_OVER: return proved_argon2_hash_over(INPUTS, blocks, count, answer.out, length);
    case VERIFY_OVER: return proved_argon2_verify_over(INPUTS, blocks, count, IN(VERIFIED), tag, length);
    default: abort();
    }
}

static void hide(const void *at, size_t length)
{
    (void)VALGRIND_MAKE_MEM_UNDEFINED(at, length);
}

static void hide_secrets(void)
{
    hide(IN(PASSWORD));
    hide(IN(SECRET));
    hide(&question.fields[VERIFIED].at[question.open], question.fields[VERIFIED].length - question.open);
}

/* The driver tries which stack is large enough, with a guard that is too large to map (room_for_variables). Under
   valgrind each try returns EINVAL, whatever the stack. So we reject the guard at once, as musl does. */
int pthread_attr_setguardsize(pthread_attr_t *attributes, size_t size)
{
    (void)attributes;
    return size > 0 ? EINVAL : 0;
}

int main(void)
{
    const proved_argon2_settings largest = {PROVED_ARGON2_ID, PROVED_ARGON2_VERSION_13, MAX_BLOCKS, 1, 1, 4};
    if (proved_argon2_memory_new(&largest, &REUSED.memory, &REUSED.memory_len) != PROVED_ARGON2_OK) abort();
    hide(blocks, sizeof blocks);
    while (fread(&question, sizeof question, 1, stdin) == 1) {
        answer = (__typeof__(answer)){.reports = VALGRIND_COUNT_ERRORS};
        hide_secrets();
        answer.code = make_call(OPTIONS[question.options]);
        answer.reports = VALGRIND_COUNT_ERRORS - answer.reports;
        (void)VALGRIND_GET_VBITS(&answer.code, &answer.undefined, sizeof answer.code);
        (void)VALGRIND_GET_VBITS(answer.out, answer.bits, sizeof answer.bits);
        (void)VALGRIND_MAKE_MEM_DEFINED(&answer, sizeof answer);
        fwrite(&answer, sizeof answer, 1, stdout);
    }
    proved_argon2_memory_free(REUSED.memory, REUSED.memory_len);
    fflush(stdout);
    _exit(EXIT_SUCCESS); /* (search.c replaces _exit; exit would not call that) */
}
