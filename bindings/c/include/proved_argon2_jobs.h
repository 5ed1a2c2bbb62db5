/*
 * The proved calls: they compute a hash in memory that the caller provides, in one call or in steps by the caller's
 * threads. proved_argon2.h includes this header. None of these calls allocates memory, starts a thread or keeps a
 * state.
 *
 * The memory consists of four slices. Each slice has job.lanes segments, lane after lane, and each segment has
 * job.segment_length blocks: 4 * lanes * segment_length blocks in all. Their contents do not matter. The steps are
 *
 *     proved_argon2_job_make or proved_argon2_job_read
 *     for each lane: proved_argon2_job_begin
 *     for each pass from 0 to job.passes - 1, for each slice from 0 to 3, for each lane: proved_argon2_job_fill
 *     proved_argon2_job_finish or proved_argon2_job_verify
 *
 * You may begin lanes, and fill the lanes of one slice, in any order or at the same time. Begin all lanes before the
 * first slice, and complete each slice before the next. If each step returned PROVED_ARGON2_OK,
 * proved_argon2_job_finish writes the tag of RFC 9106, and proved_argon2_job_verify returns whether the hash is that
 * tag. The theorems EveryRunGivesTheTag and EveryRunGivesTheVerdict prove this for any order of a slice's lanes. It
 * is argued, not proved, that concurrent steps leave the same blocks. Nothing is claimed about the tag after any other
 * sequence of steps, or if anything else wrote to the blocks. proved_argon2_job_hash_over and
 * proved_argon2_job_verify_over do all steps except the first in one call, and fill two lanes by turns.
 * proved_argon2_hash_over and proved_argon2_verify_over do the first step too.
 *
 * Each call checks the numbers and lengths that it is passed, in this order, and returns
 *
 *     PROVED_ARGON2_MISALIGNED    if blocks are at an address that is not a multiple of 8
 *     PROVED_ARGON2_NO_JOB        if no valid settings have a job with these numbers
 *     PROVED_ARGON2_NO_PLACE      if the job has no such pass, slice or lane
 *     PROVED_ARGON2_WRONG_BLOCKS  if the memory, a slice or a segment has more or fewer blocks
 *     PROVED_ARGON2_WRONG_LENGTH  if a tag has another length
 *
 * Errors of settings and encoded hashes come right after PROVED_ARGON2_MISALIGNED. After each of these errors the
 * outputs are unchanged. No call can check that the blocks exist, or that no other thread writes to them meanwhile.
 *
 * Each call that computes overwrites the stack below it before it returns and, if compiled by GCC 11, clang 15 or
 * newer, the registers that it may change. The caller has to clear the memory that it provided. The job contains H0:
 * whoever reads it can test a password guess with one BLAKE2b. Guesses can be tested against the blocks, too.
 * proved_argon2_job_run (proved_argon2_threads.h) provides memory and threads for a job, and clears memory.
 */
/* (in front of the guard, so that any of these headers can be included first) */
#include "proved_argon2.h"

#ifndef PROVED_ARGON2_JOBS_H
#define PROVED_ARGON2_JOBS_H

#ifdef __cplusplus
extern "C" {
#endif

/* 1 KiB of the memory (RFC 9106, 3.2). */
typedef struct proved_argon2_block {
    uint64_t words[128];
} proved_argon2_block;

/* Everything that the blocks and the tag depend on. */
typedef struct proved_argon2_job {
    uint8_t prehash[64]; /* H0, the hash of all inputs (RFC 9106, 3.2, step 1) */
    uint32_t variant;    /* an enum proved_argon2_variant */
    uint32_t version;    /* an enum proved_argon2_version */
    uint32_t lanes;
    uint32_t segment_length; /* the blocks that a lane has in a slice */
    uint32_t passes;
    uint32_t hash_length; /* the length of the tag in bytes */
} proved_argon2_job;

/* clang-format off */
/* Checks the settings as proved_argon2_hash_raw does, and writes their job. */
PROVED_ARGON2_CHECKED
uint32_t proved_argon2_job_make(
    const void *pwd, size_t pwd_len,
    const uint8_t *salt, size_t salt_len,
    const uint8_t *secret, size_t secret_len,
    const uint8_t *ad, size_t ad_len,
    const proved_argon2_settings *settings,
    proved_argon2_job *job);

/*
 * Checks an encoded hash as proved_argon2_verify_encoded does, and writes its salt, its hash and the job that verifies
 * it. proved_argon2_read reports the lengths of salt and hash. For any other length the call returns
 * PROVED_ARGON2_WRONG_LENGTH, after all other errors of the encoded hash.
 */
PROVED_ARGON2_CHECKED
uint32_t proved_argon2_job_read(
    const char *text, size_t text_len,
    const void *pwd, size_t pwd_len,
    const uint8_t *secret, size_t secret_len,
    const uint8_t *ad, size_t ad_len,
    proved_argon2_job *job,
    uint8_t *salt, size_t salt_len,
    uint8_t *hash, size_t hash_len);

/* Returns PROVED_ARGON2_OK only if valid settings have a job with these numbers, otherwise PROVED_ARGON2_NO_JOB. */
PROVED_ARGON2_CHECKED
uint32_t proved_argon2_job_check(const proved_argon2_job *job);

/* Writes a lane's first two blocks. own is the lane's segment of slice 0, and own_len is job->segment_length. */
PROVED_ARGON2_CHECKED
uint32_t proved_argon2_job_begin(
    const proved_argon2_job *job, uint32_t lane, proved_argon2_block *own, size_t own_len);

/*
 * Fills a lane's segment of a slice in a pass. own is that segment. If own is instead this segment and that of the next
 * lane, 2 * segment_length blocks, the call fills both, by turns, which takes less time than two calls. first, second
 * and third are the other three slices in rising order, each of lanes * segment_length blocks.
 */
PROVED_ARGON2_CHECKED
uint32_t proved_argon2_job_fill(
    const proved_argon2_job *job, uint32_t pass, uint32_t slice, uint32_t lane,
    const proved_argon2_block *first, size_t first_len,
    const proved_argon2_block *second, size_t second_len,
    const proved_argon2_block *third, size_t third_len,
    proved_argon2_block *own, size_t own_len);

/* Writes the tag. last is the complete slice 3, and out_len is job->hash_length. */
PROVED_ARGON2_CHECKED
uint32_t proved_argon2_job_finish(
    const proved_argon2_job *job, const proved_argon2_block *last, size_t last_len, uint8_t *out, size_t out_len);

/*
 * Returns whether hash is the tag, like proved_argon2_verify_raw. The call also writes the tag to tag, which the
 * caller has to clear. hash_len and tag_len must be job->hash_length.
 */
PROVED_ARGON2_CHECKED
uint32_t proved_argon2_job_verify(
    const proved_argon2_job *job, const proved_argon2_block *last, size_t last_len,
    const uint8_t *hash, size_t hash_len, uint8_t *tag, size_t tag_len);

/* Fills blocks (the job's whole memory), and writes the tag. out_len is job->hash_length. */
PROVED_ARGON2_CHECKED
uint32_t proved_argon2_job_hash_over(
    const proved_argon2_job *job, proved_argon2_block *blocks, size_t blocks_len, uint8_t *out, size_t out_len);

/* The same, but returns whether hash is the tag, and writes the tag, as proved_argon2_job_verify does. */
PROVED_ARGON2_CHECKED
uint32_t proved_argon2_job_verify_over(
    const proved_argon2_job *job, proved_argon2_block *blocks, size_t blocks_len,
    const uint8_t *hash, size_t hash_len, uint8_t *tag, size_t tag_len);

/*
 * How many bytes the blocks of a hash with these settings need: 1024 for each block. It returns 0 if no hash can have
 * these settings, whatever its inputs, and for null settings. proved_argon2_check also checks the lengths of the
 * inputs.
 */
PROVED_ARGON2_CHECKED
uint64_t proved_argon2_memory_len(const proved_argon2_settings *settings);

/*
 * Writes the tag of a password as proved_argon2_hash_raw does, but computes it in the caller's blocks, and so never
 * runs out of memory. If there are more or fewer blocks than the settings need, it returns PROVED_ARGON2_WRONG_BLOCKS,
 * before it checks the length of the buffer.
 */
PROVED_ARGON2_CHECKED
uint32_t proved_argon2_hash_over(
    const void *pwd, size_t pwd_len,
    const uint8_t *salt, size_t salt_len,
    const uint8_t *secret, size_t secret_len,
    const uint8_t *ad, size_t ad_len,
    const proved_argon2_settings *settings,
    proved_argon2_block *blocks, size_t blocks_len,
    uint8_t *out, size_t out_len);

/* Whether hash is the tag, computed in the caller's blocks; writes the tag too. tag_len must be hash_len;
 * settings->hash_length is ignored. */
PROVED_ARGON2_CHECKED
uint32_t proved_argon2_verify_over(
    const void *pwd, size_t pwd_len,
    const uint8_t *salt, size_t salt_len,
    const uint8_t *secret, size_t secret_len,
    const uint8_t *ad, size_t ad_len,
    const proved_argon2_settings *settings,
    proved_argon2_block *blocks, size_t blocks_len,
    const uint8_t *hash, size_t hash_len,
    uint8_t *tag, size_t tag_len);

/*
 * Writes the encoded hash of a given tag as proved_argon2_hash_encoded does. It checks the settings and the salt's
 * length as that call does, but no length of a password, a secret or associated data. If tag_len is not
 * settings->hash_length, it returns PROVED_ARGON2_WRONG_LENGTH too.
 */
PROVED_ARGON2_CHECKED
uint32_t proved_argon2_encode(
    const uint8_t *salt, size_t salt_len, const proved_argon2_settings *settings,
    const uint8_t *tag, size_t tag_len, char *text, size_t text_len);

/* clang-format on */
#ifdef __cplusplus
}
#endif
#endif
