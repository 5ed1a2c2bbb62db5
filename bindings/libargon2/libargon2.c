/* libargon2's interface (argon2.h) over the calls of proved_argon2.h: it makes libargon2's checks in their order, and
 * translates errors. Proved calls compute tags and verdicts. Differences on purpose are in docs/LIBARGON2.md. */
#define _GNU_SOURCE
#include "argon2.h"
#include "platform.h"
#include <inttypes.h>
#include <proved_argon2.h>
#include <proved_argon2_threads.h>
#include <stdio.h>
#include <stdlib.h>
#include <string.h>

#define INPUTS \
    const uint32_t t_cost, const uint32_t m_cost, const uint32_t parallelism, const void *pwd, const size_t pwdlen, \
        const void *salt, const size_t saltlen
#define OF_INPUTS t_cost, m_cost, parallelism, pwd, pwdlen, salt, saltlen

int FLAG_clear_internal_memory = 1;

const char *argon2_type2string(argon2_type type, int uppercase)
{
    static const char names[][2][9] = {{"argon2d", "Argon2d"}, {"argon2i", "Argon2i"}, {"argon2id", "Argon2id"}};
    return (unsigned)type > Argon2_id ? NULL : names[type][uppercase != 0];
}

/* ---- errors */

const char *argon2_error_message(int error_code)
{
    static const char *const messages[] = {/* of 0, -1, -2 .. */
        "OK", "Output pointer is NULL", "Output is too short", "Output is too long", "Password is too short",
        "Password is too long", "Salt is too short", "Salt is too long", "Associated data is too short",
        "Associated data is too long", "Secret is too short", "Secret is too long", "Time cost is too small",
        "Time cost is too large", "Memory cost is too small", "Memory cost is too large", "Too few lanes",
        "Too many lanes", "Password pointer is NULL, but password length is not 0",
        "Salt pointer is NULL, but salt length is not 0", "Secret pointer is NULL, but secret length is not 0",
        "Associated data pointer is NULL, but ad length is not 0", "Memory allocation error",
        "The free memory callback is NULL", "The allocate memory callback is NULL", "Argon2_Context context is NULL",
        "There is no such version of Argon2", "Output pointer mismatch", "Not enough threads", "Too many threads",
        "Missing arguments", "Encoding failed", "Decoding failed", "Threading failure",
        "Some of encoded parameters are too long or too short", "The password does not match the supplied hash"};
    return error_code == -PROVED_ARGON2_OLD_PROCESSOR           ? "The processor is too old"
        : error_code > 0 || error_code < ARGON2_VERIFY_MISMATCH ? "Unknown error code"
                                                                : messages[-error_code];
}

/* libargon2's code for a proved call's code; an unknown version is a wrong parameter. */
static int code_of(uint32_t code)
{
    switch (code) {
    case PROVED_ARGON2_OK: return ARGON2_OK;
    case PROVED_ARGON2_MISMATCH: return ARGON2_VERIFY_MISMATCH;
    case PROVED_ARGON2_OUT_OF_MEMORY: return ARGON2_MEMORY_ALLOCATION_ERROR;
    case PROVED_ARGON2_DECODING_FAIL:
    case PROVED_ARGON2_NOT_ASCII: return ARGON2_DECODING_FAIL;
    case PROVED_ARGON2_OLD_PROCESSOR: return -PROVED_ARGON2_OLD_PROCESSOR; /* for which libargon2 has no code */
    default: return ARGON2_INCORRECT_PARAMETER;
    }
}

/* The first error that libargon2 would report for a context. */
static int judge(const argon2_context *c)
{
    if (c == NULL) return ARGON2_INCORRECT_PARAMETER;
    if (c->out == NULL) return ARGON2_OUTPUT_PTR_NULL;
    if (c->outlen < ARGON2_MIN_OUTLEN) return ARGON2_OUTPUT_TOO_SHORT;
    if (c->pwd == NULL && c->pwdlen != 0) return ARGON2_PWD_PTR_MISMATCH;
    if (c->salt == NULL && c->saltlen != 0) return ARGON2_SALT_PTR_MISMATCH;
    if (c->saltlen < ARGON2_MIN_SALT_LENGTH) return ARGON2_SALT_TOO_SHORT;
    if (c->secret == NULL && c->secretlen != 0) return ARGON2_SECRET_PTR_MISMATCH;
    if (c->ad == NULL && c->adlen != 0) return ARGON2_AD_PTR_MISMATCH;
    if (c->m_cost < ARGON2_MIN_MEMORY) return ARGON2_MEMORY_TOO_LITTLE;
    if (c->m_cost < 8 * c->lanes) return ARGON2_MEMORY_TOO_LITTLE; /* modulo 2^32, as in libargon2: see lanes below */
    if (c->t_cost < ARGON2_MIN_TIME) return ARGON2_TIME_TOO_SMALL;
    if (c->lanes < ARGON2_MIN_LANES) return ARGON2_LANES_TOO_FEW;
    if (c->lanes > ARGON2_MAX_LANES) return ARGON2_LANES_TOO_MANY;
    if (c->threads < ARGON2_MIN_THREADS) return ARGON2_THREADS_TOO_FEW;
    if (c->threads > ARGON2_MAX_THREADS) return ARGON2_THREADS_TOO_MANY;
    if (c->allocate_cbk != NULL && c->free_cbk == NULL) return ARGON2_FREE_MEMORY_CBK_NULL;
    if (c->allocate_cbk == NULL && c->free_cbk != NULL) return ARGON2_ALLOCATE_MEMORY_CBK_NULL;
    return ARGON2_OK;
}

/* ---- a context's tag, and the verdict on a hash */

static proved_argon2_settings settings_of(const argon2_context *c, argon2_type type)
{
    return (proved_argon2_settings){(uint32_t)type, c->version, c->m_cost, c->t_cost, c->lanes, c->outlen};
}

static void give_memory_back(const argon2_context *c, const proved_argon2_options *with)
{
    if (c->free_cbk == NULL)
        proved_argon2_memory_free(with->memory, with->memory_len);
    else if (with->memory != NULL)
        c->free_cbk(with->memory, with->memory_len);
}

/* Without a callback the driver allocates the memory. If flags ask to clear inputs, it is allocated here, before that,
 * so that the caller can retry if memory runs out. */
static int take_memory(const argon2_context *c, const proved_argon2_settings *settings, proved_argon2_options *with)
{
    uint8_t *memory = NULL;
    if (c->allocate_cbk == NULL) {
        return c->flags == ARGON2_DEFAULT_FLAGS
            ? ARGON2_OK
            : code_of(proved_argon2_memory_new(settings, &with->memory, &with->memory_len));
    }
    with->memory_len = (size_t)proved_argon2_memory_len(settings);
    c->allocate_cbk(&memory, with->memory_len);
    with->memory = memory;
    const int is_fit = memory != NULL && (uintptr_t)memory % _Alignof(proved_argon2_block) == 0;
    if (!is_fit) give_memory_back(c, with);
    return is_fit ? ARGON2_OK : ARGON2_MEMORY_ALLOCATION_ERROR;
}

static void clear_if(uint32_t is_asked, uint8_t *bytes, uint32_t *len)
{
    if (is_asked && bytes != NULL) {
        explicit_bzero(bytes, *len);
        *len = 0;
    }
}

/* Writes the tag to out if hash is null. */
static int compute(argon2_context *c, argon2_type type, const uint8_t *hash)
{
    proved_argon2_options with = PROVED_ARGON2_OPTIONS;
    proved_argon2_job job;
    int code = judge(c);
    if (code != ARGON2_OK) return code;
    if ((unsigned)type > Argon2_id) return ARGON2_INCORRECT_TYPE;
    const proved_argon2_settings settings = settings_of(c, type);
    with.threads = c->threads;
    code = code_of(proved_argon2_job_make(
        c->pwd, c->pwdlen, c->salt, c->saltlen, c->secret, c->secretlen, c->ad, c->adlen, &settings, &job));
    code = code != ARGON2_OK ? code : take_memory(c, &settings, &with);
    if (code == ARGON2_OK) {
        clear_if(c->flags & ARGON2_FLAG_CLEAR_PASSWORD, c->pwd, &c->pwdlen);
        clear_if(c->flags & ARGON2_FLAG_CLEAR_SECRET, c->secret, &c->secretlen);
        code = code_of(hash == NULL ? proved_argon2_job_run(&with, &job, c->out, c->outlen)
                                    : proved_argon2_job_run_verify(&with, &job, hash, c->outlen));
        give_memory_back(c, &with);
    }
    explicit_bzero(&job, sizeof job);
    return code;
}

int argon2_ctx(argon2_context *context, argon2_type type)
{
    return compute(context, type, NULL);
}

/* If hash is the tag, copies it to out; the driver has cleared any other tag. */
int argon2_verify_ctx(argon2_context *context, const char *hash, argon2_type type)
{
    const int code = hash == NULL ? ARGON2_INCORRECT_PARAMETER : compute(context, type, (const uint8_t *)hash);
    if (code == ARGON2_OK) memmove(context->out, hash, context->outlen);
    if (code == ARGON2_VERIFY_MISMATCH) explicit_bzero(context->out, context->outlen);
    return code;
}

/* ---- encoded hashes */

size_t argon2_encodedlen(
    uint32_t t_cost, uint32_t m_cost, uint32_t parallelism, uint32_t saltlen, uint32_t hashlen, argon2_type type)
{
    const proved_argon2_settings settings = {type, ARGON2_VERSION_NUMBER, m_cost, t_cost, parallelism, hashlen};
    return proved_argon2_encoded_len(&settings, saltlen) + 1;
}

/* Writes the encoded hash and its zero, and nothing after it. If it does not fit, writes zeros. */
static int encode(const argon2_context *c, argon2_type type, char *encoded, size_t capacity)
{
    const proved_argon2_settings settings = settings_of(c, type);
    const size_t needed = proved_argon2_encoded_len(&settings, c->saltlen) + 1;
    const uint32_t code = proved_argon2_encode(
        c->salt, c->saltlen, &settings, c->out, c->outlen, encoded, capacity < needed ? capacity : needed);
    if (code != PROVED_ARGON2_OK) explicit_bzero(encoded, capacity);
    return code == PROVED_ARGON2_OK ? ARGON2_OK : ARGON2_ENCODING_FAIL;
}

CLEARS_REGISTERS int argon2_hash(INPUTS, void *hash, const size_t hashlen, char *encoded, const size_t encodedlen,
    argon2_type type, const uint32_t version)
{
    if (pwdlen > ARGON2_MAX_PWD_LENGTH) return ARGON2_PWD_TOO_LONG;
    if (saltlen > ARGON2_MAX_SALT_LENGTH) return ARGON2_SALT_TOO_LONG;
    if (hashlen > ARGON2_MAX_OUTLEN) return ARGON2_OUTPUT_TOO_LONG;
    if (hashlen < ARGON2_MIN_OUTLEN) return ARGON2_OUTPUT_TOO_SHORT;
    uint8_t *const out = malloc(hashlen);
    if (out == NULL) return ARGON2_MEMORY_ALLOCATION_ERROR;
    argon2_context c = {/* without flags, so that nothing writes to the password */
        .out = out,
        .outlen = (uint32_t)hashlen,
        .pwd = (uint8_t *)(uintptr_t)pwd,
        .pwdlen = (uint32_t)pwdlen,
        .salt = (uint8_t *)(uintptr_t)salt,
        .saltlen = (uint32_t)saltlen,
        .t_cost = t_cost,
        .m_cost = m_cost,
        .lanes = parallelism,
        .threads = parallelism,
        .version = version};
    int code = argon2_ctx(&c, type);
    if (code == ARGON2_OK && hash != NULL) memcpy(hash, out, hashlen);
    if (code == ARGON2_OK && encoded != NULL && encodedlen != 0) code = encode(&c, type, encoded, encodedlen);
    explicit_bzero(out, hashlen);
    free(out);
    return code;
}

/* Returns whether an encoded hash begins as libargon2 writes these settings: the library below accepts more forms. */
static int is_spelled(const char *text, const proved_argon2_settings *its, argon2_type type)
{
    char version[16] = "", begin[80];
    if (strstr(text, "$v=") != NULL) snprintf(version, sizeof version, "$v=%" PRIu32, its->version);
    const int len = snprintf(begin, sizeof begin, "$%s%s$m=%" PRIu32 ",t=%" PRIu32 ",p=%" PRIu32 "$",
        argon2_type2string(type, 0), version, its->mem_cost, its->time_cost, its->lanes);
    return strncmp(text, begin, (size_t)len) == 0;
}

int argon2_verify(const char *encoded, const void *pwd, const size_t pwdlen, argon2_type type)
{
    proved_argon2_stored stored = {0};
    const proved_argon2_settings *const its = &stored.settings;
    if (pwdlen > ARGON2_MAX_PWD_LENGTH) return ARGON2_PWD_TOO_LONG;
    if (encoded == NULL) return ARGON2_DECODING_FAIL;
    if ((unsigned)type > Argon2_id) return ARGON2_INCORRECT_TYPE;
    const size_t len = strlen(encoded);
    int code = code_of(proved_argon2_read(encoded, len, &stored));
    if (code == -PROVED_ARGON2_OLD_PROCESSOR) return code;
    if (code != ARGON2_OK || !is_spelled(encoded, its, type)) return ARGON2_DECODING_FAIL;
    uint8_t any; /* only the lengths of salt and hash are checked */
    const argon2_context c = {.out = &any,
        .outlen = its->hash_length,
        .pwd = (uint8_t *)(uintptr_t)pwd,
        .pwdlen = (uint32_t)pwdlen,
        .salt = &any,
        .saltlen = stored.salt_length,
        .t_cost = its->time_cost,
        .m_cost = its->mem_cost,
        .lanes = its->lanes,
        .threads = its->lanes};
    const proved_argon2_options with = {.size = sizeof with, .threads = its->lanes};
    code = judge(&c);
    return code != ARGON2_OK
        ? code
        : code_of(proved_argon2_verify_encoded_with(&with, encoded, len, pwd, pwdlen, NULL, 0, NULL, 0));
}

/* ---- the calls of one type */

#define CALLS_OF(variant, type) \
    int variant##_ctx(argon2_context *c) \
    { \
        return argon2_ctx(c, type); \
    } \
    int variant##_verify_ctx(argon2_context *c, const char *hash) \
    { \
        return argon2_verify_ctx(c, hash, type); \
    } \
    int variant##_hash_encoded(INPUTS, const size_t hashlen, char *encoded, const size_t encodedlen) \
    { \
        return argon2_hash(OF_INPUTS, NULL, hashlen, encoded, encodedlen, type, ARGON2_VERSION_NUMBER); \
    } \
    int variant##_hash_raw(INPUTS, void *hash, const size_t hashlen) \
    { \
        return argon2_hash(OF_INPUTS, hash, hashlen, NULL, 0, type, ARGON2_VERSION_NUMBER); \
    } \
    int variant##_verify(const char *encoded, const void *pwd, const size_t pwdlen) \
    { \
        return argon2_verify(encoded, pwd, pwdlen, type); \
    }
CALLS_OF(argon2d, Argon2_d)
CALLS_OF(argon2i, Argon2_i)
CALLS_OF(argon2id, Argon2_id)
