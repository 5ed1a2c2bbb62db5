/*
 * Wrong arguments of a job's steps: each number, length and address alone, and a few with others that are wrong. Each
 * returns its error, in the order of the header, and nothing is written. The theorems about these calls cover all
 * combinations; here we see that the way to them mixes up no arguments.
 */
#include "arguments.h"

/* Returns whether a step returns this number, and writes nothing, or its own blocks if it succeeds. */
static bool answers(uint32_t (*step)(void), uint32_t expected, size_t from, size_t len)
{
    const uint32_t code = step();
    if (code == PROVED_ARGON2_OK) {
        memcpy((uint8_t *)&written_before + from, (const uint8_t *)&written + from, len);
    }
    const bool good = code == expected && is_unchanged();
    if (!good) {
        printf("%u in place of %u in pass %u, slice %u, lane %u, or more was written\n", (unsigned)code,
            (unsigned)expected, (unsigned)pass, (unsigned)slice, (unsigned)lane);
    }
    return good;
}

#define ITS(field, len) offsetof(struct written, field), len

/* The order of the header. An invalid job comes first. */
static uint32_t expected_of(bool has_place, bool has_blocks, bool has_length)
{
    return !has_place ? PROVED_ARGON2_NO_PLACE
        : !has_blocks ? PROVED_ARGON2_WRONG_BLOCKS
        : !has_length ? PROVED_ARGON2_WRONG_LENGTH
                      : PROVED_ARGON2_OK;
}

static void give_place(uint32_t place)
{
    pass = slice = lane = place;
}

/* Numbers at which there is no pass, slice or lane, alone and with wrong lengths. */
static void check_places(void)
{
    static const struct {
        const char *name;
        uint32_t (*step)(void);
        uint32_t *number, end;
    } rows[] = {{"job_begin: lane", job_begin, &lane, LANES}, {"job_fill: lane", job_fill, &lane, LANES},
        {"job_fill: slice", job_fill, &slice, 4}, {"job_fill: pass", job_fill, &pass, PASSES}};
    for (size_t i = 0; i < sizeof rows / sizeof *rows; i++) {
        const uint32_t values[] = {rows[i].end, rows[i].end + 1, UINT32_MAX};
        bool good = true;
        for (size_t n = 0; n < 6; n++) {
            give_what_fits();
            give_place(0);
            *rows[i].number = values[n / 2];
            arguments[OWN].len -= n % 2;
            good &= answers(rows[i].step, PROVED_ARGON2_NO_PLACE, 0, 0);
        }
        check(good, rows[i].name);
    }
}

CALL(job_run, arguments[OPTIONS].at, arguments[JOB].at, BYTES(OUT))
CALL(job_run_verify, arguments[OPTIONS].at, arguments[JOB].at, BYTES(HASH))

/* clang-format off */
#define ROW(name, ...) {#name, name, {__VA_ARGS__}}
/* clang-format on */

/* Each step, and its blocks and bytes that have one length that fits. (verify_over takes a hash of any length, and then
 * computes another tag. Blocks of a run are tested as the driver's memory.) */
static const struct row {
    const char *name;
    uint32_t (*step)(void);
    enum place places[5]; /* END is behind the last one */
} rows[] = {ROW(job_begin, OWN), ROW(job_fill, FIRST, SECOND, THIRD, OWN), ROW(job_finish, LAST, OUT),
    ROW(job_verify, LAST, HASH, TAG_WRITTEN), ROW(job_hash_over, BLOCKS, OUT),
    ROW(job_verify_over, BLOCKS, HASH, TAG_WRITTEN), ROW(job_run, OUT), ROW(job_run_verify, HASH),
    ROW(hash_over, BLOCKS, OUT), ROW(verify_over, BLOCKS, TAG_WRITTEN)};

enum { OF_A_JOB = 8 }; /* the first rows */

static bool is_of_blocks(enum place place)
{
    return place != OUT && place != HASH && place != TAG_WRITTEN;
}

/* Wrong lengths, one at a time. In the last lane there is no second one to fill. */
static bool refuses_lengths(const struct row *row, enum place place)
{
    give_what_fits();
    const size_t fits = arguments[place].len, others[] = {0, 1, fits - 1, fits + 1, 3 * fits, SIZE_MAX / 1024};
    bool good = true;
    for (size_t i = 0; i < sizeof others / sizeof *others; i++) {
        give_what_fits();
        give_place(0);
        lane = LANES - 1;
        arguments[place].len = others[i];
        good &= answers(row->step, is_of_blocks(place) ? PROVED_ARGON2_WRONG_BLOCKS : PROVED_ARGON2_WRONG_LENGTH, 0, 0);
    }
    return good;
}

/* Blocks at an address between two words: rejected before all other errors, except a null pointer. */
static bool refuses_addresses(const struct row *row, enum place place)
{
    bool good = true;
    for (size_t n = 0; n < 3 * 7; n++) {
        give_what_fits();
        give_place(0);
        arguments[place].at = (uint8_t *)arguments[place].at + 1 + n / 3;
        if (n % 3 == 1) {
            spoil();
        } else if (n % 3 == 2) {
            arguments[JOB].at = arguments[SETTINGS].at = NULL;
        }
        const bool is_refused = row->step() == (n % 3 == 2 ? PROVED_ARGON2_NULL_POINTER : PROVED_ARGON2_MISALIGNED);
        good &= is_refused && memcmp(&written, &written_before, sizeof written) == 0;
    }
    return good;
}

static void check_row(const struct row *row)
{
    char name[96];
    for (size_t i = 0; row->places[i] != END; i++) {
        const enum place place = row->places[i];
        snprintf(name, sizeof name, "%s: the length and the address of %s", row->name, arguments[place].name);
        check(refuses_lengths(row, place) && (!is_of_blocks(place) || refuses_addresses(row, place)), name);
    }
}

/* Several wrong lengths; then two lanes, which are filled except from the last one on. */
static void check_lengths(void)
{
    give_what_fits();
    give_place(0);
    arguments[LAST].len = arguments[OUT].len = arguments[TAG_WRITTEN].len = arguments[BLOCKS].len = 1;
    check(answers(job_finish, PROVED_ARGON2_WRONG_BLOCKS, 0, 0) && answers(job_verify, PROVED_ARGON2_WRONG_BLOCKS, 0, 0)
            && answers(job_hash_over, PROVED_ARGON2_WRONG_BLOCKS, 0, 0)
            && answers(job_verify_over, PROVED_ARGON2_WRONG_BLOCKS, 0, 0),
        "blocks come before bytes");
    arguments[OWN].len = 2 * LENGTH;
    check(answers(job_fill, PROVED_ARGON2_OK, ITS(own, 2 * LENGTH * 1024)), "two lanes");
    lane = LANES - 1;
    check(answers(job_fill, PROVED_ARGON2_WRONG_BLOCKS, 0, 0), "two lanes, of which the second does not exist");
}

/* A number that a job has, by the name of its field. */
struct number {
    const char *name;
    uint32_t *at, value;
};

/* One more than each limit, or one less: with 3 lanes, 4 slices of segments of 357913942 blocks are above 4 TiB. */
static const struct number of_no_job[] = {{"variant", &job.variant, 3}, {"variant", &job.variant, UINT32_MAX},
    {"version", &job.version, 0}, {"version", &job.version, 0xf}, {"version", &job.version, 0x11},
    {"version", &job.version, 0x12}, {"version", &job.version, 0x14}, {"version", &job.version, UINT32_MAX},
    {"lanes", &job.lanes, 0}, {"lanes", &job.lanes, PROVED_ARGON2_MAX_LANES + 1}, {"lanes", &job.lanes, UINT32_MAX},
    {"segment_length", &job.segment_length, 0}, {"segment_length", &job.segment_length, 1},
    {"segment_length", &job.segment_length, 357913942}, {"segment_length", &job.segment_length, UINT32_MAX},
    {"passes", &job.passes, 0}, {"hash_length", &job.hash_length, 0}, {"hash_length", &job.hash_length, 3}};

/* The first of these are another job's, whose blocks and tags have other lengths. */
static const struct number of_a_job[] = {{"lanes", &job.lanes, 1}, {"lanes", &job.lanes, PROVED_ARGON2_MAX_LANES},
    {"segment_length", &job.segment_length, 3}, {"segment_length", &job.segment_length, 357913941},
    {"hash_length", &job.hash_length, 4}, {"hash_length", &job.hash_length, UINT32_MAX},
    {"variant", &job.variant, PROVED_ARGON2_D}, {"variant", &job.variant, PROVED_ARGON2_I},
    {"version", &job.version, PROVED_ARGON2_VERSION_10}, {"passes", &job.passes, 1},
    {"passes", &job.passes, UINT32_MAX}};

/* A job with a number that no valid settings have: each step rejects it first. */
static void check_no_job(const struct number *number)
{
    bool good = true;
    char name[96];
    for (size_t n = 0; n < 2 * OF_A_JOB; n++) {
        give_what_fits();
        give_place(0);
        if (n >= OF_A_JOB) {
            spoil();
            give_place(UINT32_MAX);
        }
        job.lanes = LANES;
        *number->at = number->value;
        options = (proved_argon2_options)PROVED_ARGON2_OPTIONS;
        good &= answers(rows[n % OF_A_JOB].step, PROVED_ARGON2_NO_JOB, 0, 0);
    }
    snprintf(name, sizeof name, "no job: %s %u", number->name, (unsigned)number->value);
    check(good, name);
}

/* A valid job with another number: its blocks or lengths are wrong. */
static void check_a_job(const struct number *number)
{
    char name[96];
    give_what_fits();
    give_place(0);
    *number->at = number->value;
    const bool has_blocks = job.lanes == LANES && job.segment_length == LENGTH, has_length = job.hash_length == TAG;
    bool good = answers(job_begin, expected_of(true, job.segment_length == LENGTH, true), ITS(own, LENGTH * 1024));
    good &= answers(job_fill, expected_of(true, has_blocks, true), ITS(own, LENGTH * 1024));
    good &= answers(job_finish, expected_of(true, has_blocks, has_length), ITS(out, TAG));
    snprintf(name, sizeof name, "a job: %s %u", number->name, (unsigned)number->value);
    check(good, name);
}

static void check_jobs(void)
{
    for (size_t i = 0; i < sizeof of_no_job / sizeof *of_no_job; i++) {
        check_no_job(&of_no_job[i]);
    }
    for (size_t i = 0; i < sizeof of_a_job / sizeof *of_a_job; i++) {
        check_a_job(&of_a_job[i]);
    }
}

int main(void)
{
    check_what_fits();
    check_places();
    for (size_t i = 0; i < sizeof rows / sizeof *rows; i++) {
        check_row(&rows[i]);
    }
    check_lengths();
    check_jobs();
    return finish();
}
