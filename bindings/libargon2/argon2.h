/*
 * libargon2's interface, over the proved Argon2 of proved_argon2.h: the same constants, types and calls. A program
 * built for libargon2 20171227 or 20190702 runs over this library unchanged.
 *
 * docs/LIBARGON2.md says what differs on purpose. New programs use proved_argon2.h.
 */
#ifndef ARGON2_H
#define ARGON2_H

#include <limits.h>
#include <stddef.h>
#include <stdint.h>

#ifdef __cplusplus
extern "C" {
#endif

#if defined(__GNUC__)
#define ARGON2_PUBLIC __attribute__((visibility("default")))
#define ARGON2_LOCAL __attribute__((visibility("hidden")))
#else
#define ARGON2_PUBLIC
#define ARGON2_LOCAL
#endif

/* Limits. Lengths are in bytes, and memory is in KiB, which is a block each. */
#define ARGON2_MIN_LANES UINT32_C(1)
#define ARGON2_MAX_LANES UINT32_C(0xFFFFFF)
#define ARGON2_MIN_THREADS UINT32_C(1)
#define ARGON2_MAX_THREADS UINT32_C(0xFFFFFF)
#define ARGON2_SYNC_POINTS UINT32_C(4) /* the slices of a pass */
#define ARGON2_MIN_OUTLEN UINT32_C(4)
#define ARGON2_MAX_OUTLEN UINT32_C(0xFFFFFFFF)
#define ARGON2_MIN_MEMORY (2 * ARGON2_SYNC_POINTS) /* for each lane */
#define ARGON2_MIN(a, b) ((a) < (b) ? (a) : (b))
#define ARGON2_MAX_MEMORY_BITS ARGON2_MIN(UINT32_C(32), (sizeof(void *) * CHAR_BIT - 10 - 1))
#define ARGON2_MAX_MEMORY ARGON2_MIN(UINT32_C(0xFFFFFFFF), UINT64_C(1) << ARGON2_MAX_MEMORY_BITS)
#define ARGON2_MIN_TIME UINT32_C(1)
#define ARGON2_MAX_TIME UINT32_C(0xFFFFFFFF)
#define ARGON2_MIN_PWD_LENGTH UINT32_C(0)
#define ARGON2_MAX_PWD_LENGTH UINT32_C(0xFFFFFFFF)
#define ARGON2_MIN_AD_LENGTH UINT32_C(0)
#define ARGON2_MAX_AD_LENGTH UINT32_C(0xFFFFFFFF)
#define ARGON2_MIN_SALT_LENGTH UINT32_C(8)
#define ARGON2_MAX_SALT_LENGTH UINT32_C(0xFFFFFFFF)
#define ARGON2_MIN_SECRET UINT32_C(0)
#define ARGON2_MAX_SECRET UINT32_C(0xFFFFFFFF)

/* What a context's flags ask for: that an input is cleared, and its length set to 0, before the memory is filled. */
#define ARGON2_DEFAULT_FLAGS UINT32_C(0)
#define ARGON2_FLAG_CLEAR_PASSWORD (UINT32_C(1) << 0)
#define ARGON2_FLAG_CLEAR_SECRET (UINT32_C(1) << 1)

/* Only in the static library, and without effect: memory is always cleared. */
extern int FLAG_clear_internal_memory;

typedef enum Argon2_ErrorCodes {
    ARGON2_OK = 0,
    ARGON2_OUTPUT_PTR_NULL = -1,
    ARGON2_OUTPUT_TOO_SHORT = -2,
    ARGON2_OUTPUT_TOO_LONG = -3,
    ARGON2_PWD_TOO_SHORT = -4, /* never returned */
    ARGON2_PWD_TOO_LONG = -5,
    ARGON2_SALT_TOO_SHORT = -6,
    ARGON2_SALT_TOO_LONG = -7,
    ARGON2_AD_TOO_SHORT = -8,      /* never returned */
    ARGON2_AD_TOO_LONG = -9,       /* never returned */
    ARGON2_SECRET_TOO_SHORT = -10, /* never returned */
    ARGON2_SECRET_TOO_LONG = -11,  /* never returned */
    ARGON2_TIME_TOO_SMALL = -12,
    ARGON2_TIME_TOO_LARGE = -13, /* never returned */
    ARGON2_MEMORY_TOO_LITTLE = -14,
    ARGON2_MEMORY_TOO_MUCH = -15, /* never returned */
    ARGON2_LANES_TOO_FEW = -16,
    ARGON2_LANES_TOO_MANY = -17,
    ARGON2_PWD_PTR_MISMATCH = -18, /* null pointer with a length above 0; likewise the next three */
    ARGON2_SALT_PTR_MISMATCH = -19,
    ARGON2_SECRET_PTR_MISMATCH = -20,
    ARGON2_AD_PTR_MISMATCH = -21,
    ARGON2_MEMORY_ALLOCATION_ERROR = -22,
    ARGON2_FREE_MEMORY_CBK_NULL = -23,
    ARGON2_ALLOCATE_MEMORY_CBK_NULL = -24,
    ARGON2_INCORRECT_PARAMETER = -25, /* no context, hash or such version */
    ARGON2_INCORRECT_TYPE = -26,
    ARGON2_OUT_PTR_MISMATCH = -27, /* never returned */
    ARGON2_THREADS_TOO_FEW = -28,
    ARGON2_THREADS_TOO_MANY = -29,
    ARGON2_MISSING_ARGS = -30, /* only by libargon2's command */
    ARGON2_ENCODING_FAIL = -31,
    ARGON2_DECODING_FAIL = -32,
    ARGON2_THREAD_FAIL = -33,          /* never returned: other threads do the work of a denied one */
    ARGON2_DECODING_LENGTH_FAIL = -34, /* never returned */
    ARGON2_VERIFY_MISMATCH = -35
} argon2_error_codes;

/* Sets *memory to the address of that many bytes, a multiple of 8, or leaves it null. Its result is ignored. */
typedef int (*allocate_fptr)(uint8_t **memory, size_t bytes_to_allocate);
typedef void (*deallocate_fptr)(uint8_t *memory, size_t bytes_to_allocate);

typedef struct Argon2_Context {
    uint8_t *out; /* what the tag is written to */
    uint32_t outlen;
    uint8_t *pwd;
    uint32_t pwdlen;
    uint8_t *salt;
    uint32_t saltlen;
    uint8_t *secret; /* or null */
    uint32_t secretlen;
    uint8_t *ad; /* associated data, or null */
    uint32_t adlen;
    uint32_t t_cost;            /* the passes */
    uint32_t m_cost;            /* the memory in KiB */
    uint32_t lanes;             /* the degree of parallelism, which the tag depends on */
    uint32_t threads;           /* at most this many at once */
    uint32_t version;           /* an argon2_version */
    allocate_fptr allocate_cbk; /* where the memory comes from, or null */
    deallocate_fptr free_cbk;   /* frees the memory, which holds no blocks; or null */
    uint32_t flags;
} argon2_context;

typedef enum Argon2_type { Argon2_d = 0, Argon2_i = 1, Argon2_id = 2 } argon2_type;

typedef enum Argon2_version {
    ARGON2_VERSION_10 = 0x10,
    ARGON2_VERSION_13 = 0x13,
    ARGON2_VERSION_NUMBER = ARGON2_VERSION_13
} argon2_version;

/* The name of a type, `argon2id` or `Argon2id`; null for an unknown type. */
ARGON2_PUBLIC const char *argon2_type2string(argon2_type type, int uppercase);

/* The message of an error code, which is never freed. */
ARGON2_PUBLIC const char *argon2_error_message(int error_code);

/* The size of an encoded hash, with its final zero. */
ARGON2_PUBLIC size_t argon2_encodedlen(
    uint32_t t_cost, uint32_t m_cost, uint32_t parallelism, uint32_t saltlen, uint32_t hashlen, argon2_type type);

/* Writes the tag of a context to its out. Returns ARGON2_OK, or an error; then out is unchanged. */
ARGON2_PUBLIC int argon2_ctx(argon2_context *context, argon2_type type);
ARGON2_PUBLIC int argon2d_ctx(argon2_context *context);
ARGON2_PUBLIC int argon2i_ctx(argon2_context *context);
ARGON2_PUBLIC int argon2id_ctx(argon2_context *context);

/*
 * Whether hash, of outlen bytes, is the context's tag: ARGON2_OK only if it is (out gets the tag), and
 * ARGON2_VERIFY_MISMATCH only if it is not (out gets zeros).
 */
ARGON2_PUBLIC int argon2_verify_ctx(argon2_context *context, const char *hash, argon2_type type);
ARGON2_PUBLIC int argon2d_verify_ctx(argon2_context *context, const char *hash);
ARGON2_PUBLIC int argon2i_verify_ctx(argon2_context *context, const char *hash);
ARGON2_PUBLIC int argon2id_verify_ctx(argon2_context *context, const char *hash);

/*
 * Writes the tag to hash unless that is null, and the encoded hash to encoded unless encodedlen is 0. If encodedlen is
 * less than argon2_encodedlen says, it returns ARGON2_ENCODING_FAIL and fills encoded with zeros.
 */
ARGON2_PUBLIC int argon2_hash(const uint32_t t_cost, const uint32_t m_cost, const uint32_t parallelism, const void *pwd,
    const size_t pwdlen, const void *salt, const size_t saltlen, void *hash, const size_t hashlen, char *encoded,
    const size_t encodedlen, argon2_type type, const uint32_t version);

/* Whether an encoded hash is of this type and this password: ARGON2_OK only where it is. */
ARGON2_PUBLIC int argon2_verify(const char *encoded, const void *pwd, const size_t pwdlen, argon2_type type);

/* The same for one type. The hashing calls use version 0x13. */
#define ARGON2_CALLS_OF(variant) \
    ARGON2_PUBLIC int variant##_hash_encoded(const uint32_t t_cost, const uint32_t m_cost, const uint32_t parallelism, \
        const void *pwd, const size_t pwdlen, const void *salt, const size_t saltlen, const size_t hashlen, \
        char *encoded, const size_t encodedlen); \
    ARGON2_PUBLIC int variant##_hash_raw(const uint32_t t_cost, const uint32_t m_cost, const uint32_t parallelism, \
        const void *pwd, const size_t pwdlen, const void *salt, const size_t saltlen, void *hash, \
        const size_t hashlen); \
    ARGON2_PUBLIC int variant##_verify(const char *encoded, const void *pwd, const size_t pwdlen)
ARGON2_CALLS_OF(argon2d);
ARGON2_CALLS_OF(argon2i);
ARGON2_CALLS_OF(argon2id);
#undef ARGON2_CALLS_OF

#ifdef __cplusplus
}
#endif
#endif
