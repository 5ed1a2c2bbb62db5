/*
 * Argon2 password hashing (RFC 9106) for C, over the proved Rattle crate `argon2_c`.
 *
 * The library computes Argon2d, Argon2i and Argon2id, versions 0x10 and 0x13, with a secret and associated data. The
 * calls here use one thread, whatever the number of lanes. The calls of proved_argon2_threads.h can use several threads
 * or a reusable buffer, and can be stopped. The calls that hash or verify are C code around proved calls
 * (proved_argon2_jobs.h). The calls that only read, check or compare an encoded hash are proved themselves. No proved
 * call allocates memory or starts a thread. This header includes all others.
 *
 * Passing bytes. Pass bytes as a pointer and then a length. A password may be text or bytes, so its pointer is const
 * void *. A null pointer with the length 0 passes no bytes. For any other null pointer a call returns
 * PROVED_ARGON2_NULL_POINTER, before all other errors. The caller owns all memory that it passes, and no call keeps a
 * pointer to it. Memory that a call writes to must not overlap any other argument.
 *
 * Errors. A call that can fail returns PROVED_ARGON2_OK (0) or the number of one error. After an error its outputs are
 * unchanged, byte for byte, but a reusable buffer may have been cleared. A mismatch is not an error. Only the first
 * error is reported, in this order: wrong options, an unknown variant, an unknown version, the encoded hash, its
 * limits, settings in the order of the MIN and MAX constants below, the buffer's length, and memory. A call that makes
 * a salt does so before it checks any of these. No call prints, ends the process or changes errno. A call waits only
 * for its own threads and, if it makes a salt, for the system's random bytes. It reads only its arguments and, if it
 * has kept buffers or tunes, a clock. The first call of a process also finds out which of the library's builds the
 * processor can run, and reads the environment variable PROVED_ARGON2_CPU, with which tests choose a build. If none can
 * run, each call that can fail returns PROVED_ARGON2_OLD_PROCESSOR before it reads variant, version or encoded hash,
 * and calls that return lengths, limits, settings or the version return zeros.
 *
 * Memory. A call that hashes or verifies allocates at most the settings' mem_cost KiB for its blocks if that is less
 * than 2 MiB, and otherwise at most the next multiple of 2 MiB, the size of a huge page. (Such blocks use huge pages if
 * the system has some. A short rest uses small pages.) It also allocates memory for the tag, and for the hash and the
 * salt of an encoded hash. All memory is freed before the call returns. It is
 * overwritten first, or returned to the system, which clears it. Such a call also overwrites the stack below it and, if
 * compiled by GCC 11, clang 15 or newer, the vector registers.
 *
 * Threads. Calls are thread-safe, as long as nothing writes to what a call is passed: an encoded hash that changes
 * while it is read may end the process. The only state of the library is which build it runs. Deferred cancellation
 * never ends a call. Do not cancel a thread asynchronously during a call. Calls are not async-signal-safe, so make none
 * from a signal handler. In the forked child of a process with threads, calls are safe if malloc is, as with the GNU C
 * library.
 *
 * Symbols. Each symbol of the library begins with proved_, so that a program can link libargon2 too.
 */
#ifndef PROVED_ARGON2_H
#define PROVED_ARGON2_H

#include <stddef.h>
#include <stdint.h>

#ifdef __cplusplus
extern "C" {
#endif

#if defined(__GNUC__)
#define PROVED_ARGON2_CHECKED __attribute__((warn_unused_result))
#else
#define PROVED_ARGON2_CHECKED
#endif

/* The version of the library; as a number, 1000000 * major + 1000 * minor + patch. */
#define PROVED_ARGON2_LIBRARY_VERSION "1.0.0"
#define PROVED_ARGON2_LIBRARY_VERSION_NUMBER UINT32_C(1000000)

/* The bytes of stack to provide for a call. A call uses less than half of them (tested), except in the library
 * translated to C. */
#define PROVED_ARGON2_STACK_SIZE 65536

/* Limits (RFC 9106, 3.1; libargon2's MIN_SALT_LENGTH). Lengths in bytes, memory in KiB. */
#define PROVED_ARGON2_MIN_LANES UINT32_C(1)
#define PROVED_ARGON2_MAX_LANES UINT32_C(0xFFFFFF)
#define PROVED_ARGON2_MIN_MEMORY_PER_LANE UINT32_C(8)
#define PROVED_ARGON2_MIN_TIME UINT32_C(1)
#define PROVED_ARGON2_MAX_PWD_LENGTH UINT32_C(0xFFFFFFFF)
#define PROVED_ARGON2_MIN_SALT_LENGTH UINT32_C(8)
#define PROVED_ARGON2_MAX_SALT_LENGTH UINT32_C(0xFFFFFFFF)
#define PROVED_ARGON2_MAX_SECRET_LENGTH UINT32_C(0xFFFFFFFF)
#define PROVED_ARGON2_MAX_AD_LENGTH UINT32_C(0xFFFFFFFF)
#define PROVED_ARGON2_MIN_HASH_LENGTH UINT32_C(4)
#define PROVED_ARGON2_MAX_HASH_LENGTH UINT32_C(0xFFFFFFFF)

/* The variants (RFC 9106, 1). They differ in what selects the earlier block that a new block is computed from: */
enum proved_argon2_variant {
    PROVED_ARGON2_D = 0, /* the blocks, and so the password */
    PROVED_ARGON2_I = 1, /* only the block's position */
    PROVED_ARGON2_ID = 2 /* the position in the first half of the first pass, then the blocks; choose this one */
};

/* The versions of Argon2. */
enum proved_argon2_version {
    PROVED_ARGON2_VERSION_10 = 0x10, /* a later pass overwrites the blocks */
    PROVED_ARGON2_VERSION_13 = 0x13  /* RFC 9106; choose this one */
};

/* What a call returns. The numbers never change. */
enum proved_argon2_code {
    PROVED_ARGON2_OK = 0,
    /* errors, by .ci/pages/presets */
    PROVED_ARGON2_OUTPUT_TOO_SHORT = 1,   /* the hash is shorter than 4 bytes */
    PROVED_ARGON2_OUTPUT_TOO_LONG = 2,    /* the hash is longer than 2^32 - 1 bytes */
    PROVED_ARGON2_PWD_TOO_SHORT = 3,      /* never returned */
    PROVED_ARGON2_PWD_TOO_LONG = 4,       /* the password is longer than 2^32 - 1 bytes */
    PROVED_ARGON2_SALT_TOO_SHORT = 5,     /* the salt is shorter than 8 bytes */
    PROVED_ARGON2_SALT_TOO_LONG = 6,      /* the salt is longer than 2^32 - 1 bytes */
    PROVED_ARGON2_AD_TOO_SHORT = 7,       /* never returned */
    PROVED_ARGON2_AD_TOO_LONG = 8,        /* the associated data is longer than 2^32 - 1 bytes */
    PROVED_ARGON2_SECRET_TOO_SHORT = 9,   /* never returned */
    PROVED_ARGON2_SECRET_TOO_LONG = 10,   /* the secret is longer than 2^32 - 1 bytes */
    PROVED_ARGON2_TIME_TOO_SMALL = 11,    /* there is no pass */
    PROVED_ARGON2_TIME_TOO_LARGE = 12,    /* never returned */
    PROVED_ARGON2_MEMORY_TOO_LITTLE = 13, /* there are fewer than 8 KiB a lane */
    PROVED_ARGON2_MEMORY_TOO_MUCH = 14,   /* never returned */
    PROVED_ARGON2_LANES_TOO_FEW = 15,     /* there is no lane */
    PROVED_ARGON2_LANES_TOO_MANY = 16,    /* there are more than 2^24 - 1 lanes */
    PROVED_ARGON2_INCORRECT_TYPE = 17,    /* no variant has this number */
    PROVED_ARGON2_INCORRECT_VERSION = 18, /* no version has this number */
    PROVED_ARGON2_DECODING_FAIL = 19,     /* the string is not an encoded hash */
    PROVED_ARGON2_OUT_OF_MEMORY = 20,     /* memory could not be allocated, or the buffer of the options is too small */
    PROVED_ARGON2_WORKER_REFUSED = 21,    /* never returned */
    PROVED_ARGON2_MISMATCH = 64,          /* the password does not match */
    PROVED_ARGON2_WRONG_LENGTH = 65,      /* a buffer has the wrong length, or the options have an unknown size */
    PROVED_ARGON2_NOT_ASCII = 66,         /* the string has a byte above 127 */
    PROVED_ARGON2_UNKNOWN_NUMBER = 67,    /* never returned; its message is used for unknown numbers */
    PROVED_ARGON2_NEEDS_REHASH = 68,      /* the encoded hash was made with other settings */
    PROVED_ARGON2_TOO_COSTLY = 69,        /* the encoded hash is above the limits */
    PROVED_ARGON2_NO_JOB = 70,            /* the numbers of the job belong to no valid settings */
    PROVED_ARGON2_NO_PLACE = 71,          /* the job has no such pass, slice or lane */
    PROVED_ARGON2_WRONG_BLOCKS = 72,      /* there are more or fewer blocks than the settings require */
    /* end */
    /* Only C code returns these, never proved code: */
    /* errors of the driver, by .ci/pages/presets */
    PROVED_ARGON2_NULL_POINTER = 128,    /* a pointer is null, and its length is not 0 */
    PROVED_ARGON2_NO_RANDOM_BYTES = 129, /* the system had no random bytes for a salt */
    PROVED_ARGON2_STOPPED = 130,         /* the progress callback stopped the call */
    PROVED_ARGON2_OLD_PROCESSOR = 131,   /* the library has no build for this processor */
    PROVED_ARGON2_MISALIGNED = 132,      /* the address of the blocks or of the buffer is not a multiple of 8 */
    /* end */
};

/* The settings of a hash. A field that an initializer leaves out is 0, and version 0 is rejected. */
typedef struct proved_argon2_settings {
    uint32_t variant;     /* an enum proved_argon2_variant */
    uint32_t version;     /* an enum proved_argon2_version */
    uint32_t mem_cost;    /* the memory in KiB, rounded down to a multiple of 4 KiB a lane */
    uint32_t time_cost;   /* the passes over the memory */
    uint32_t lanes;       /* the degree of parallelism, which a tag depends on */
    uint32_t hash_length; /* the length of the tag in bytes */
} proved_argon2_settings;

/*
 * The highest memory, passes and lanes that an encoded hash may name, and the highest product of memory and passes. A
 * field that an initializer leaves out is 0, and such a limit rejects every encoded hash.
 */
typedef struct proved_argon2_limits {
    uint32_t mem_cost;  /* the memory in KiB */
    uint32_t time_cost; /* the passes over the memory */
    uint32_t lanes;     /* the degree of parallelism */
    uint64_t work;      /* the memory in KiB times the passes, which the time is proportional to */
} proved_argon2_limits;

/* What an encoded hash decodes to. */
typedef struct proved_argon2_stored {
    proved_argon2_settings settings; /* hash_length is the length of its hash */
    uint32_t salt_length;            /* the length of its salt in bytes */
} proved_argon2_stored;

/* clang-format off */
/*
 * The recommended settings: Argon2id, version 0x13, one lane and a tag of 32 bytes. OWASP's Password Storage Cheat
 * Sheet calls its five equal in strength; begin with proved_argon2_owasp2. RFC 9106, section 4, recommends its two
 * settings with four lanes: set lanes to 4 for these.
 */
/* presets, by .ci/pages/presets */
proved_argon2_settings proved_argon2_owasp1(void); /* 46 MiB, 1 pass */
proved_argon2_settings proved_argon2_owasp2(void); /* 19 MiB, 2 passes */
proved_argon2_settings proved_argon2_owasp3(void); /* 12 MiB, 3 passes */
proved_argon2_settings proved_argon2_owasp4(void); /* 9 MiB, 4 passes */
proved_argon2_settings proved_argon2_owasp5(void); /* 7 MiB, 5 passes */
proved_argon2_settings proved_argon2_rfc9106(void); /* 2 GiB, 1 pass */
proved_argon2_settings proved_argon2_rfc9106_low_mem(void); /* 64 MiB, 3 passes */
/* end */

/* PROVED_ARGON2_LIBRARY_VERSION_NUMBER of the library that runs, which may be newer than the header. */
uint32_t proved_argon2_library_version(void);

/*
 * Writes the tag of a password (RFC 9106, 3.2) to out.
 *
 * out_len must be settings->hash_length: for any other length the call returns PROVED_ARGON2_WRONG_LENGTH. The salt
 * must have at least 8 bytes, as in libargon2. For passwords RFC 9106, 3.1, recommends 16.
 */
PROVED_ARGON2_CHECKED
uint32_t proved_argon2_hash_raw(
    const void *pwd, size_t pwd_len,
    const uint8_t *salt, size_t salt_len,
    const uint8_t *secret, size_t secret_len,
    const uint8_t *ad, size_t ad_len,
    const proved_argon2_settings *settings,
    uint8_t *out, size_t out_len);

/*
 * Writes the encoded hash (PHC string) of a password, `$argon2id$v=19$m=256,t=2,p=1$salt$hash` with the salt and the
 * tag in unpadded base64 (RFC 4648), and then zeros up to text_len.
 *
 * text_len must be greater than proved_argon2_encoded_len(settings, salt_len), so that at least one zero ends the
 * string. For any other length the call returns PROVED_ARGON2_WRONG_LENGTH. The encoded hash contains neither the
 * secret nor the associated data.
 */
PROVED_ARGON2_CHECKED
uint32_t proved_argon2_hash_encoded(
    const void *pwd, size_t pwd_len,
    const uint8_t *salt, size_t salt_len,
    const uint8_t *secret, size_t secret_len,
    const uint8_t *ad, size_t ad_len,
    const proved_argon2_settings *settings,
    char *text, size_t text_len);

/*
 * Verifies a password against a raw hash of hash_len bytes. It returns PROVED_ARGON2_OK only if hash is the tag, and
 * PROVED_ARGON2_MISMATCH only if it is not. Any other number means that nothing was compared.
 *
 * Compare the result with PROVED_ARGON2_OK and accept nothing else. settings->hash_length is ignored. For a hash of
 * fewer than 4 bytes the call returns PROVED_ARGON2_OUTPUT_TOO_SHORT.
 */
PROVED_ARGON2_CHECKED
uint32_t proved_argon2_verify_raw(
    const void *pwd, size_t pwd_len,
    const uint8_t *salt, size_t salt_len,
    const uint8_t *secret, size_t secret_len,
    const uint8_t *ad, size_t ad_len,
    const proved_argon2_settings *settings,
    const uint8_t *hash, size_t hash_len);

/*
 * Verifies a password against an encoded hash, with this secret and this associated data. As above, it returns
 * PROVED_ARGON2_OK only if the password matches, and PROVED_ARGON2_MISMATCH only if it does not.
 *
 * text_len is the length of the string without its terminating zero. The call returns PROVED_ARGON2_NOT_ASCII for a
 * string with a byte above 127, and PROVED_ARGON2_DECODING_FAIL for any other string that is not an encoded hash. Then
 * it checks the settings, before it allocates memory. It uses the memory and the passes that the encoded hash names, up
 * to 4 TiB and 2^32 - 1: for a hash that others may have written, use proved_argon2_verify_encoded_within.
 */
PROVED_ARGON2_CHECKED
uint32_t proved_argon2_verify_encoded(
    const char *text, size_t text_len,
    const void *pwd, size_t pwd_len,
    const uint8_t *secret, size_t secret_len,
    const uint8_t *ad, size_t ad_len);

/*
 * 2 GiB, 10 passes, 16 lanes, and the work of 4 GiB in one pass. These allow the settings of RFC 9106, section 4,
 * OWASP, libsodium and Django.
 */
proved_argon2_limits proved_argon2_default_limits(void);

/*
 * The default limits, each raised to that of these settings if that is higher: so a hash that is made with them is
 * always within them. For null settings all limits are 0.
 */
proved_argon2_limits proved_argon2_limits_for(const proved_argon2_settings *settings);

/*
 * proved_argon2_verify_encoded within limits. It returns PROVED_ARGON2_TOO_COSTLY only if the encoded hash names more
 * memory, passes or lanes than the limits allow, or more memory times passes. Then it allocates no memory and compares
 * nothing. The errors above, for a string that is not an encoded hash, come first.
 */
PROVED_ARGON2_CHECKED
uint32_t proved_argon2_verify_encoded_within(
    const char *text, size_t text_len,
    const void *pwd, size_t pwd_len,
    const uint8_t *secret, size_t secret_len,
    const uint8_t *ad, size_t ad_len,
    const proved_argon2_limits *limits);

/*
 * Decodes an encoded hash into stored, and verifies nothing. Settings that no hash can have are decoded too. For a
 * string that is not an encoded hash it returns the errors above. A length above 2^32 - 1 is reported as 2^32 - 1.
 */
PROVED_ARGON2_CHECKED
uint32_t proved_argon2_read(const char *text, size_t text_len, proved_argon2_stored *stored);

/* The same within limits: above them it returns PROVED_ARGON2_TOO_COSTLY. */
PROVED_ARGON2_CHECKED
uint32_t proved_argon2_read_within(
    const char *text, size_t text_len, const proved_argon2_limits *limits, proved_argon2_stored *stored);

/*
 * Writes the salt and the hash of an encoded hash to buffers of the lengths that proved_argon2_read reports. For any
 * other length it returns PROVED_ARGON2_WRONG_LENGTH, and the errors above for a string that is not an encoded hash.
 */
PROVED_ARGON2_CHECKED
uint32_t proved_argon2_read_bytes(
    const char *text, size_t text_len, uint8_t *salt, size_t salt_len, uint8_t *hash, size_t hash_len);

/*
 * Whether an encoded hash was made with these settings: PROVED_ARGON2_OK only if its variant, version, memory cost,
 * passes, lanes and length of the hash are the given ones, and PROVED_ARGON2_NEEDS_REHASH only if one differs. The
 * settings' variant and version are checked first, then the string, as above. The other settings may be invalid. Call
 * it after the password has matched.
 */
PROVED_ARGON2_CHECKED
uint32_t proved_argon2_needs_rehash(
    const char *text, size_t text_len, const proved_argon2_settings *settings);

/*
 * Whether a hash with these settings can be made from inputs of these lengths. It returns the error that hashing
 * such inputs would return for a length or a setting, and otherwise PROVED_ARGON2_OK. It does not check buffers or
 * memory, computes nothing, and is passed no input.
 */
PROVED_ARGON2_CHECKED
uint32_t proved_argon2_check(
    const proved_argon2_settings *settings, uint64_t pwd_len, uint64_t salt_len, uint64_t secret_len, uint64_t ad_len);

/*
 * The same for a call that verifies an encoded hash within limits, with inputs of these lengths. It decodes into
 * stored as proved_argon2_read_within does. The errors of proved_argon2_read_within come first.
 */
PROVED_ARGON2_CHECKED
uint32_t proved_argon2_check_encoded(
    const char *text, size_t text_len, const proved_argon2_limits *limits,
    uint64_t pwd_len, uint64_t secret_len, uint64_t ad_len, proved_argon2_stored *stored);

/*
 * The length in bytes of the encoded hash that proved_argon2_hash_encoded writes for a salt of salt_len bytes, without
 * the terminating zero. It returns 0 if no variant or no version has the given number, and for null settings.
 */
PROVED_ARGON2_CHECKED
uint64_t proved_argon2_encoded_len(const proved_argon2_settings *settings, uint32_t salt_len);

/* The constant message of a number that a call returns: "No error" for PROVED_ARGON2_OK, and the message of
 * PROVED_ARGON2_UNKNOWN_NUMBER for a number that no call returns. */
const char *proved_argon2_message(uint32_t number);

/* clang-format on */
#ifdef __cplusplus
}
#endif
#include "proved_argon2_jobs.h"
#include "proved_argon2_threads.h"
#include "proved_argon2_service.h"
#include "proved_argon2_password.h"
#endif
