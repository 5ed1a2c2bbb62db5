/* Shared by the tests in C: a check prints its name and whether it passed; at its end a program returns finish(). */
#ifndef CHECKS_H
#define CHECKS_H

#include "proved_argon2.h"

#include <stdbool.h>
#include <stdio.h>
#include <stdlib.h>
#include <string.h>

static int checks_made, checks_failed;
static bool is_finished;

static inline void check(bool holds, const char *name)
{
    printf("%s: %s\n", holds ? "passed" : "FAILED", name);
    fflush(stdout); /* (if a program is stopped, the last line tells where) */
    checks_made++;
    checks_failed += !holds;
}

/* A program's status at its end: 0 if it made checks, and all of them passed. */
static inline int finish(void)
{
    is_finished = true;
    return checks_made == 0 || checks_failed != 0;
}

/* A program that does not call finish fails. */
__attribute__((destructor)) static void end_unfinished(void)
{
    if (!is_finished) {
        _Exit(3);
    }
}

/* Checks that a code is the expected number, and prints it otherwise. */
static inline void check_code(uint32_t code, uint32_t expected, const char *name)
{
    if (code != expected) {
        printf("%s: %u in place of %u\n", name, (unsigned)code, (unsigned)expected);
    }
    check(code == expected, name);
}

static inline const uint8_t *bytes_of(const char *text)
{
    return (const uint8_t *)text;
}

/* Bytes that differ in any two nearby places: seed + i + i / 256 at index i. */
static inline void fill_bytes(uint8_t *bytes, size_t len, uint8_t seed)
{
    for (size_t i = 0; i < len; i++) {
        bytes[i] = (uint8_t)(seed + i + i / 256);
    }
}

/* Returns what a step of a job returns for a lane, or for two lanes from it on. Step 0 begins a lane, and step n + 1
 * fills slice number n. */
static inline uint32_t take_step(
    const proved_argon2_job *job, proved_argon2_block *blocks, uint32_t n, uint32_t lane, uint32_t lanes)
{
    const size_t length = job->segment_length, whole = job->lanes * length;
    const uint32_t slice = (n + 3) % 4;
    const proved_argon2_block *others[3];
    if (n == 0) {
        return proved_argon2_job_begin(job, lane, blocks + lane * length, length);
    }
    for (size_t i = 0; i < 3; i++) {
        others[i] = blocks + (i < slice ? i : i + 1) * whole;
    }
    return proved_argon2_job_fill(job, (n - 1) / 4, slice, lane, others[0], whole, others[1], whole, others[2], whole,
        blocks + slice * whole + lane * length, lanes * length);
}

/* Returns whether bytes are those of a text of hexadecimal digits. */
static inline bool is_hex(const uint8_t *bytes, size_t len, const char *expected)
{
    char digits[3];
    for (size_t i = 0; i < len; i++) {
        snprintf(digits, sizeof digits, "%02x", (unsigned)bytes[i]);
        if (strncmp(digits, expected + 2 * i, 2) != 0) {
            return false;
        }
    }
    return strlen(expected) == 2 * len;
}

#endif
