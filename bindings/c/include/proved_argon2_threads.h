/*
 * The calls of proved_argon2.h with options: with several threads, in a reusable buffer, or with a progress callback. A
 * job can be run with options too. proved_argon2.h includes this header.
 *
 * These calls are C code that is tested, not proved, around the proved calls (proved_argon2_jobs.h). Each returns what
 * the call without _with returns, unless an option changes that. If memory cannot be allocated, it returns
 * PROVED_ARGON2_OUT_OF_MEMORY. If the system denies a thread, the other threads do its work.
 *
 * Before a call returns, whatever it returns, it clears what depends on secrets. The blocks are overwritten, or
 * returned to the system, which clears them. H0, the stack that the calls used, and any tag computed for a comparison
 * are overwritten. On Linux, core dumps leave out the blocks while a call runs, if the call allocated them itself
 * and they are 2 MiB or more.
 */
/* (in front of the guard, so that any of these headers can be included first) */
#include "proved_argon2.h"

#ifndef PROVED_ARGON2_THREADS_H
#define PROVED_ARGON2_THREADS_H

#ifdef __cplusplus
extern "C" {
#endif

/*
 * The progress callback. The calling thread calls it after each slice: done is the number of filled slices, from 1
 * on, and all is the number of all slices. If it returns anything but 0, the call stops and returns
 * PROVED_ARGON2_STOPPED. It must return, and not leave by longjmp or an exception.
 */
typedef int proved_argon2_progress(void *arg, uint64_t done, uint64_t all);

/* A verification uses at most this many threads, since an attacker's hash could ask for millions of lanes. */
/* most threads of a string, by .ci/pages/presets */
#define PROVED_ARGON2_MAX_VERIFYING_THREADS 16
/* end */

/* A handle of kept buffers, which calls take and give back (proved_argon2_service.h). */
typedef struct proved_argon2_buffers proved_argon2_buffers;

/* How a call computes. A field that an initializer leaves out is 0; its comment says what that means. */
typedef struct proved_argon2_options {
    /* sizeof(proved_argon2_options), which PROVED_ARGON2_OPTIONS sets. The call also accepts a larger size, as a later
     * version may have, if it is at most 4096 and all bytes behind the fields of this version are zero. For any other
     * size, 0 or a smaller one included, it returns PROVED_ARGON2_WRONG_LENGTH. */
    size_t size;
    /* the maximum number of threads. It is limited to the number of lanes and, if the call verifies an encoded hash or
     * an unknown user, to PROVED_ARGON2_MAX_VERIFYING_THREADS. 0 means 1. The calling thread counts as one of them, and
     * a small hash uses only that thread. */
    uint32_t threads;
    /* a buffer for the blocks, or null: then the call allocates memory. Its address must be a multiple of 8 (otherwise
     * the call returns PROVED_ARGON2_MISALIGNED), preferably of 64. The call clears what it used before it returns. */
    void *memory;
    /* the length of the buffer in bytes. If the settings need more, the call returns PROVED_ARGON2_OUT_OF_MEMORY. */
    size_t memory_len;
    /* the limits of an encoded hash, or null for none. For a hash above one of them the call returns
     * PROVED_ARGON2_TOO_COSTLY. */
    const proved_argon2_limits *limits;
    /* the progress callback, or null. The calling thread calls it after each slice, with the numbers of filled slices
     * and of all slices. If it returns anything but 0, the call returns PROVED_ARGON2_STOPPED. */
    proved_argon2_progress *progress;
    /* the first argument of progress */
    void *arg;
    /* the settings of new hashes, or null. If the password matches, but the encoded hash was made with other settings
     * than these, a call that verifies it returns PROVED_ARGON2_NEEDS_REHASH instead of PROVED_ARGON2_OK. Let the user
     * in then too, and hash the password again. */
    const proved_argon2_settings *new_settings;
    /* kept buffers, or null (proved_argon2_service.h). They are not used if memory is set. */
    proved_argon2_buffers *buffers;
    /* the length of new salts, or 0. If new_settings is set, an encoded hash with a salt of another length counts as
     * one with other settings. 0 means that lengths of salts are not compared. */
    size_t new_salt_len;
} proved_argon2_options;

/* clang-format off */
#define PROVED_ARGON2_OPTIONS {sizeof(proved_argon2_options), 0, NULL, 0, NULL, NULL, NULL, NULL, NULL, 0}

/* proved_argon2_hash_raw with options. */
PROVED_ARGON2_CHECKED
uint32_t proved_argon2_hash_raw_with(
    const proved_argon2_options *options,
    const void *pwd, size_t pwd_len,
    const uint8_t *salt, size_t salt_len,
    const uint8_t *secret, size_t secret_len,
    const uint8_t *ad, size_t ad_len,
    const proved_argon2_settings *settings,
    uint8_t *out, size_t out_len);

/* proved_argon2_hash_encoded with options. */
PROVED_ARGON2_CHECKED
uint32_t proved_argon2_hash_encoded_with(
    const proved_argon2_options *options,
    const void *pwd, size_t pwd_len,
    const uint8_t *salt, size_t salt_len,
    const uint8_t *secret, size_t secret_len,
    const uint8_t *ad, size_t ad_len,
    const proved_argon2_settings *settings,
    char *text, size_t text_len);

/* proved_argon2_verify_raw with options. */
PROVED_ARGON2_CHECKED
uint32_t proved_argon2_verify_raw_with(
    const proved_argon2_options *options,
    const void *pwd, size_t pwd_len,
    const uint8_t *salt, size_t salt_len,
    const uint8_t *secret, size_t secret_len,
    const uint8_t *ad, size_t ad_len,
    const proved_argon2_settings *settings,
    const uint8_t *hash, size_t hash_len);

/* proved_argon2_verify_encoded with options, which may have limits and the settings of new hashes. */
PROVED_ARGON2_CHECKED
uint32_t proved_argon2_verify_encoded_with(
    const proved_argon2_options *options,
    const char *text, size_t text_len,
    const void *pwd, size_t pwd_len,
    const uint8_t *secret, size_t secret_len,
    const uint8_t *ad, size_t ad_len);

/*
 * Writes the tag of a job, which proved_argon2_job_make or proved_argon2_job_read made. Once the job exists you can
 * clear the password, before the memory is filled. tag_len must be job->hash_length. The caller has to clear the job.
 */
PROVED_ARGON2_CHECKED
uint32_t proved_argon2_job_run(
    const proved_argon2_options *options, const proved_argon2_job *job, uint8_t *tag, size_t tag_len);

/* Whether hash is the tag of a job, as proved_argon2_verify_raw returns it. hash_len must be job->hash_length. */
PROVED_ARGON2_CHECKED
uint32_t proved_argon2_job_run_verify(
    const proved_argon2_options *options, const proved_argon2_job *job, const uint8_t *hash, size_t hash_len);

/*
 * proved_argon2_password_hash and proved_argon2_password_verify with a pepper and options; the first call also with
 * settings. The pepper is one secret for all hashes, and no hash contains it. Pass null and 0 if you have no pepper. If
 * the options have no limits, no encoded hash is too costly: the default limits do not apply. The first call writes
 * PROVED_ARGON2_TEXT_SIZE bytes to text. For settings whose encoded hash does not fit, it returns
 * PROVED_ARGON2_WRONG_LENGTH.
 */
PROVED_ARGON2_CHECKED
uint32_t proved_argon2_password_hash_with(
    const proved_argon2_options *options, const proved_argon2_settings *settings,
    char *text, const void *password, size_t length, const uint8_t *pepper, size_t pepper_len);

PROVED_ARGON2_CHECKED
uint32_t proved_argon2_password_verify_with(
    const proved_argon2_options *options,
    const char *text, const void *password, size_t length, const uint8_t *pepper, size_t pepper_len);

/*
 * For a login: verifies a password against an encoded hash that was made with this pepper and this associated data. If
 * the password matches, and text is outdated, it writes the encoded hash to store in place of text. A text is outdated
 * if new_pepper_len is not 0, or if the text has other settings than options->new_settings or, unless
 * options->new_salt_len is 0, a salt of another length. The call returns
 *
 *     PROVED_ARGON2_OK            if the password matches, and there is nothing to store
 *     PROVED_ARGON2_NEEDS_REHASH  if the password matches, and new_text contains the encoded hash to store
 *     PROVED_ARGON2_MISMATCH      if the password does not match
 *
 * or an error of proved_argon2_verify_encoded_with, which it calls with these options. Then nothing was compared, and
 * nothing is written.
 *
 * Pass new_pepper if the pepper of new hashes is another one than that of text, and otherwise null and 0: then a new
 * hash has the same pepper as text. A new hash has these new settings, the same associated data, and a salt of
 * new_salt_len random bytes (0 means PROVED_ARGON2_SALT_SIZE). Zeros follow it up to new_text_len. If no new hash can
 * be made, for example because no hash can have the settings, the system has no random bytes, or the progress callback
 * stops it, the call returns PROVED_ARGON2_OK: the user can log in with the old hash.
 *
 * options->new_settings must not be null. new_text_len must be greater than the length of the encoded hash, as
 * proved_argon2_encoded_len returns it: for any other length the call returns PROVED_ARGON2_WRONG_LENGTH. If it is 0,
 * the call makes no new hash.
 */
PROVED_ARGON2_CHECKED
uint32_t proved_argon2_password_renew(
    const proved_argon2_options *options,
    const char *text, size_t text_len,
    const void *password, size_t length,
    const uint8_t *pepper, size_t pepper_len,
    const uint8_t *new_pepper, size_t new_pepper_len,
    const uint8_t *ad, size_t ad_len,
    char *new_text, size_t new_text_len);

/*
 * For a login whose user does not exist: computes a hash of the password with these settings, so that it takes as long
 * as proved_argon2_password_verify_with does for a stored hash with these settings, and never matches. It returns
 * PROVED_ARGON2_MISMATCH, or the error that prevented a hash. The limits and new_settings of the options have no
 * effect.
 */
PROVED_ARGON2_CHECKED
uint32_t proved_argon2_password_verify_unknown(
    const proved_argon2_options *options, const proved_argon2_settings *settings,
    const void *password, size_t length, const uint8_t *pepper, size_t pepper_len);

/*
 * Allocates a reusable buffer, for options.memory and options.memory_len. It is large enough for these settings and for
 * all that need less. If it has 2 MiB or more, it uses huge pages if the system has some and, on Linux, core dumps
 * leave it out. The call checks the settings as proved_argon2_hash_raw does. Use a buffer for one call at a time.
 */
PROVED_ARGON2_CHECKED
uint32_t proved_argon2_memory_new(const proved_argon2_settings *settings, void **memory, size_t *memory_len);

/* Clears and frees a buffer of proved_argon2_memory_new. For null it does nothing. */
void proved_argon2_memory_free(void *memory, size_t memory_len);

/* clang-format on */
#ifdef __cplusplus
}
#endif
#endif
