/*
 * The steps of a hash over caller-provided blocks: tags by lanes in three orders, and the job of an encoded hash.
 * invalid_steps.c tests numbers, lengths and addresses that do not fit.
 *
 * The tags are those of RFC 9106, section 5, and of the tests of the C reference implementation.
 */
#include "checks.h"

#include <stdlib.h>

static const proved_argon2_settings rfc = {PROVED_ARGON2_ID, PROVED_ARGON2_VERSION_13, 32, 3, 4, 32};
static const char tag_of_rfc[] = "0d640df58d78766c08c037a34a8b53c9d01ef0452d75b65eb52520e96b01e659";
static const char stored[] = "$argon2i$v=19$m=256,t=2,p=2$c29tZXNhbHQ$T/XOJ2mh1/TIpJHfCdQan76Q5esCFVoT5MAeIM1Oq2E";

enum { MOST = 256 };
static proved_argon2_block blocks[MOST];

enum order { RISING, FALLING, TWO_AT_A_TIME, ORDERS };

/* All steps in blocks with arbitrary contents. */
static bool take_steps(const proved_argon2_job *job, enum order order)
{
    bool good = 4 * (size_t)job->lanes * job->segment_length <= MOST;
    fill_bytes((uint8_t *)blocks, sizeof blocks, 7);
    for (uint32_t n = 0; good && n <= 4 * job->passes; n++) {
        uint32_t lanes = 1;
        for (uint32_t i = 0; i < job->lanes; i += lanes) {
            lanes = order == TWO_AT_A_TIME && n > 0 && i + 1 < job->lanes ? 2 : 1;
            const uint32_t lane = order == FALLING ? job->lanes - 1 - i : i;
            good &= take_step(job, blocks, n, lane, lanes) == PROVED_ARGON2_OK;
        }
    }
    return good;
}

static uint32_t make(const proved_argon2_settings *settings, proved_argon2_job *job)
{
    uint8_t pwd[32], salt[16], secret[8], ad[12];
    memset(pwd, 1, sizeof pwd);
    memset(salt, 2, sizeof salt);
    memset(secret, 3, sizeof secret);
    memset(ad, 4, sizeof ad);
    return proved_argon2_job_make(
        pwd, sizeof pwd, salt, sizeof salt, secret, sizeof secret, ad, sizeof ad, settings, job);
}

/* All steps in one call, in blocks with arbitrary contents. */
static void check_over(const proved_argon2_job *job)
{
    uint8_t pwd[32], salt[16], secret[8], ad[12], tag[32], again[32];
    memset(pwd, 1, sizeof pwd);
    memset(salt, 2, sizeof salt);
    memset(secret, 3, sizeof secret);
    memset(ad, 4, sizeof ad);
    check(proved_argon2_memory_len(&rfc) == 32 * 1024, "the bytes of its blocks");
    check_code(proved_argon2_job_hash_over(job, blocks, 32, tag, 32), PROVED_ARGON2_OK, "its tag in one call");
    check(is_hex(tag, 32, tag_of_rfc), "the right tag");
    fill_bytes((uint8_t *)blocks, sizeof blocks, 9);
    check_code(proved_argon2_job_verify_over(job, blocks, 32, tag, 32, again, 32), PROVED_ARGON2_OK, "its verdict");
    check(memcmp(tag, again, 32) == 0, "and its tag is there");
    check_code(proved_argon2_verify_over(pwd, 32, salt, 16, secret, 8, ad, 12, &rfc, blocks, 32, tag, 32, again, 32),
        PROVED_ARGON2_OK, "the verdict of its inputs");
    tag[31] ^= 1;
    check_code(
        proved_argon2_job_verify_over(job, blocks, 32, tag, 32, again, 32), PROVED_ARGON2_MISMATCH, "another hash");
    check_code(proved_argon2_verify_over(pwd, 32, salt, 16, secret, 8, ad, 12, &rfc, blocks, 32, tag, 32, again, 32),
        PROVED_ARGON2_MISMATCH, "another hash of its inputs");
    check(is_hex(again, 32, tag_of_rfc), "its tag is there");
    check_code(proved_argon2_hash_over(pwd, 32, salt, 16, secret, 8, ad, 12, &rfc, blocks, 32, tag, 32),
        PROVED_ARGON2_OK, "the tag of its inputs");
    check(is_hex(tag, 32, tag_of_rfc), "the tag as well");
}

/* Runs a job after its inputs were cleared. */
static void check_runs(const proved_argon2_job *job)
{
    const proved_argon2_job same = *job;
    proved_argon2_options with = PROVED_ARGON2_OPTIONS;
    uint8_t tag[32];
    for (with.threads = 1; with.threads <= 4; with.threads++) {
        memset(tag, 0, sizeof tag);
        check_code(proved_argon2_job_run(&with, job, tag, 32), PROVED_ARGON2_OK, "its run");
        check(is_hex(tag, 32, tag_of_rfc), "run: the tag");
        check_code(proved_argon2_job_run_verify(&with, job, tag, 32), PROVED_ARGON2_OK, "run: the verdict");
        tag[31] ^= 1;
        check_code(proved_argon2_job_run_verify(&with, job, tag, 32), PROVED_ARGON2_MISMATCH, "run: another hash");
        memset(tag, 9, sizeof tag);
        check_code(proved_argon2_job_run(&with, job, tag, 31), PROVED_ARGON2_WRONG_LENGTH, "run: write 31 bytes");
        check_code(proved_argon2_job_run_verify(&with, job, tag, 31), PROVED_ARGON2_WRONG_LENGTH, "run: verify 31");
        check(tag[0] == 9 && tag[31] == 9 && memcmp(job, &same, sizeof same) == 0, "tag and job are unchanged");
    }
}

static void check_tags(void)
{
    const proved_argon2_block *const last = blocks + 3 * 8;
    proved_argon2_job job;
    uint8_t tag[32], again[32];
    char text[128], other[128];
    check_code(make(&rfc, &job), PROVED_ARGON2_OK, "a job of RFC 9106's settings");
    check(job.lanes == 4 && job.segment_length == 2 && job.passes == 3 && job.hash_length == 32, "its numbers");
    proved_argon2_job none = job;
    none.lanes = 0;
    check_code(proved_argon2_job_check(&job), PROVED_ARGON2_OK, "it is a job");
    check_code(proved_argon2_job_check(&none), PROVED_ARGON2_NO_JOB, "a job without lanes is invalid");
    for (enum order order = RISING; order < ORDERS; order++) {
        check(take_steps(&job, order), "its steps");
        check_code(proved_argon2_job_finish(&job, last, 8, tag, 32), PROVED_ARGON2_OK, "its end");
        check(is_hex(tag, 32, tag_of_rfc), "its tag");
    }
    check_over(&job);
    check_runs(&job);
    check_code(proved_argon2_job_verify(&job, last, 8, tag, 32, again, 32), PROVED_ARGON2_OK, "its tag is verified");
    check(memcmp(tag, again, 32) == 0, "and is there");
    for (size_t i = 0; i < 32; i++) {
        tag[i] ^= 1;
        check_code(proved_argon2_job_verify(&job, last, 8, tag, 32, again, 32), PROVED_ARGON2_MISMATCH, "another byte");
        tag[i] ^= 1;
    }
    check_code(proved_argon2_encode(bytes_of("somesalt"), 8, &rfc, tag, 32, text, 128), PROVED_ARGON2_OK, "its text");
    check(text[0] == '$' && strlen(text) == proved_argon2_encoded_len(&rfc, 8), "of its length");
    memcpy(other, text, 128);
    check_code(proved_argon2_encode(bytes_of("somesalt"), 8, &rfc, tag, 31, text, 128), PROVED_ARGON2_WRONG_LENGTH,
        "a tag of 31 bytes");
    check_code(proved_argon2_encode(bytes_of("somesalt"), 8, &rfc, tag, 32, text, strlen(text)),
        PROVED_ARGON2_WRONG_LENGTH, "no room");
    check_code(proved_argon2_encode(bytes_of("some"), 4, &rfc, tag, 32, text, 128), PROVED_ARGON2_SALT_TOO_SHORT,
        "a short salt");
    check(memcmp(text, other, 128) == 0, "the text is as it was");
}

static uint32_t read_job(
    const char *text, size_t len, const char *pwd, proved_argon2_job *job, uint8_t *hash, size_t hash_len)
{
    uint8_t salt[8];
    memset(salt, 9, sizeof salt);
    const uint32_t code = proved_argon2_job_read(
        text, len, bytes_of(pwd), 8, NULL, 0, NULL, 0, job, salt, sizeof salt, hash, hash_len);
    const char *const expected = code == PROVED_ARGON2_OK ? "somesalt" : "\t\t\t\t\t\t\t\t";
    return memcmp(salt, expected, sizeof salt) == 0 ? code : PROVED_ARGON2_UNKNOWN_NUMBER;
}

static void check_text(void)
{
    proved_argon2_job job, same;
    uint8_t hash[32], tag[32];
    memset(hash, 9, sizeof hash);
    memset(&job, 5, sizeof job);
    same = job;
    check_code(read_job(stored, strlen(stored), "password", &job, hash, 31), PROVED_ARGON2_WRONG_LENGTH, "31 bytes");
    check_code(read_job(stored, strlen(stored) - 1, "password", &job, hash, 32), PROVED_ARGON2_DECODING_FAIL, "a part");
    check_code(read_job("\xff", 1, "password", &job, hash, 32), PROVED_ARGON2_NOT_ASCII, "no text");
    check(memcmp(&job, &same, sizeof job) == 0 && hash[0] == 9 && hash[31] == 9, "job and hash are as they were");
    for (int wrong = 0; wrong < 2; wrong++) {
        check_code(read_job(stored, strlen(stored), wrong ? "Password" : "password", &job, hash, 32), PROVED_ARGON2_OK,
            "a job of a text");
        check(take_steps(&job, RISING), "its steps");
        check_code(proved_argon2_job_verify(&job, blocks + 192, 64, hash, 32, tag, 32),
            wrong ? PROVED_ARGON2_MISMATCH : PROVED_ARGON2_OK, "its verdict");
    }
}

int main(void)
{
    check_tags();
    check_text();
    return finish();
}
