/*
 * The search for settings, by this program's own clock and hashes: it finds what a table says, also if one hash is
 * disturbed, and ends at errors, at a stop, and soon if hashes take far too long. It is linked with --wrap for that.
 * Then it measures real hashes.
 */
#include "checks.h"

#include <time.h>

#define MILLISECOND UINT64_C(1000000)

enum { MOST_HASHES = 64 };

static const proved_argon2_settings most = {PROVED_ARGON2_ID, PROVED_ARGON2_VERSION_13, 65536, 0, 1, 32};

/* The hashes: one takes 3 milliseconds for each MiB, times its passes to this power, and times `slower` if it is one of
 * the disturbed ones, which are bits by number. So are those that are denied memory, before they begin. */
static struct {
    uint64_t now; /* in nanoseconds */
    uint32_t power;
    uint64_t disturbed, slower, denied;
    uint32_t hashes, code; /* how many there were, and what they return unless they are stopped */
    proved_argon2_options with;
    proved_argon2_settings tried[MOST_HASHES];
    bool is_real;
} own;

int __wrap_clock_gettime(clockid_t clock, struct timespec *now);
int __real_clock_gettime(clockid_t clock, struct timespec *now);
uint32_t __wrap_proved_argon2_password_verify_unknown(const proved_argon2_options *options,
    const proved_argon2_settings *settings, const void *password, size_t length, const uint8_t *pepper,
    size_t pepper_len);
uint32_t __real_proved_argon2_password_verify_unknown(const proved_argon2_options *options,
    const proved_argon2_settings *settings, const void *password, size_t length, const uint8_t *pepper,
    size_t pepper_len);

int __wrap_clock_gettime(clockid_t clock, struct timespec *now)
{
    if (own.is_real) {
        return __real_clock_gettime(clock, now);
    }
    *now = (struct timespec){(time_t)(own.now / 1000000000), (long)(own.now % 1000000000)};
    return 0;
}

uint32_t __wrap_proved_argon2_password_verify_unknown(const proved_argon2_options *options,
    const proved_argon2_settings *settings, const void *password, size_t length, const uint8_t *pepper,
    size_t pepper_len)
{
    if (own.is_real) {
        return __real_proved_argon2_password_verify_unknown(options, settings, password, length, pepper, pepper_len);
    }
    const uint32_t number = own.hashes++ % MOST_HASHES;
    const uint64_t slices = 4 * (uint64_t)settings->time_cost;
    uint64_t time = 3 * MILLISECOND * settings->mem_cost / 1024;
    for (uint32_t i = 0; i < own.power; i++) {
        time *= settings->time_cost;
    }
    time *= own.disturbed >> number & 1 ? own.slower : 1;
    own.with = *options;
    own.tried[number] = *settings;
    if ((own.denied >> number & 1) != 0) {
        return PROVED_ARGON2_OUT_OF_MEMORY;
    }
    for (uint64_t done = 1; done <= slices; done++) {
        own.now += done * time / slices - (done - 1) * time / slices;
        if (options->progress(options->arg, done, slices) != 0) {
            return PROVED_ARGON2_STOPPED;
        }
    }
    return own.code;
}

/* Begins with undisturbed hashes. */
static void begin(uint32_t power)
{
    memset(&own, 0, sizeof own);
    own.now = 1000 * MILLISECOND;
    own.power = power;
    own.code = PROVED_ARGON2_MISMATCH;
}

static uint32_t tune(uint32_t milliseconds, uint32_t memory, proved_argon2_tuning *found)
{
    static const proved_argon2_options options = PROVED_ARGON2_OPTIONS;
    proved_argon2_settings settings = most;
    settings.mem_cost = memory;
    memset(found, 0, sizeof *found);
    return proved_argon2_tune(&options, &settings, milliseconds * MILLISECOND, found);
}

/* ---- the table */

static const struct row {
    uint32_t milliseconds, memory, power;
    uint32_t found_memory, found_passes; /* or zeros, if no settings are strong enough */
} rows[] = {
    {200, 65536, 1, 65536, 1},
    {400, 65536, 1, 65536, 2},
    {60000, 8192, 0, 8192, 10},
    {60000, 2097152, 0, 2097152, 2},
    {150, 65536, 1, 16384, 3},
    {125, 65536, 1, 8192, 5},
    {150, 19456, 1, 19456, 2},
    {105, 7168, 1, 7168, 5},
    {189, 7168, 1, 7168, 9},
    {200, 7168, 1, 7168, 9},
    {191, 65536, 0, 32768, 3},
    {700, 65536, 2, 65536, 1},
    {800, 65536, 2, 65536, 2},
    {20, 7168, 0, 0, 0},
    {104, 7168, 1, 0, 0},
    {113, 19456, 1, 0, 0},
    {137, 47104, 1, 0, 0},
};

enum { ROWS = sizeof rows / sizeof *rows };

/* Returns whether the search finds the settings of a row, and how long a hash takes. */
static bool is_found(const struct row *row)
{
    proved_argon2_tuning found;
    const uint32_t code = tune(row->milliseconds, row->memory, &found);
    const bool is_right = found.settings.mem_cost == row->found_memory && found.settings.time_cost == row->found_passes;
    uint64_t time = 3 * MILLISECOND * row->found_memory / 1024;
    for (uint32_t i = 0; i < row->power; i++) {
        time *= row->found_passes;
    }
    if (!is_right) {
        printf("%u %u %u: %u KiB, %u passes\n", row->milliseconds, row->memory, row->power, found.settings.mem_cost,
            found.settings.time_cost);
    }
    return is_right && found.nanoseconds == time
        && code == (row->found_memory == 0 ? PROVED_ARGON2_TOO_COSTLY : PROVED_ARGON2_OK);
}

static void check_table(void)
{
    bool good = true;
    for (size_t i = 0; i < ROWS; i++) {
        begin(rows[i].power);
        good = is_found(&rows[i]) && good;
    }
    check(good, "the search finds what the table says");
}

/* One hash after another takes a hundred times as long, or two of each three take three times as long. */
static void check_disturbed(void)
{
    bool by_one = true, by_two = true;
    for (size_t i = 0; i < ROWS; i++) {
        for (uint32_t hash = 0; hash < 12; hash++) {
            begin(rows[i].power);
            own.slower = 100;
            own.disturbed = UINT64_C(1) << hash;
            by_one = is_found(&rows[i]) && by_one;
        }
    }
    check(by_one, "one disturbed hash, even the first, changes nothing");
    begin(1);
    own.slower = 3;
    own.disturbed = UINT64_C(0xB6DB6DB6DB6DB6DB); /* (of each three bits the first two) */
    by_two = is_found(&(struct row){200, 65536, 1, 65536, 1});
    check(by_two, "of three hashes the fastest counts");
}

/* Returns whether the search keeps the variant, the version, the lanes and the length of the hash: in the settings of
 * each hash that it tries, and in those that it finds. */
static bool keeps(const proved_argon2_settings *asked)
{
    static const proved_argon2_options options = PROVED_ARGON2_OPTIONS;
    proved_argon2_tuning found;
    begin(1);
    bool good = proved_argon2_tune(&options, asked, 200 * MILLISECOND, &found) == PROVED_ARGON2_OK && own.hashes > 0;
    for (uint32_t i = 0; i <= own.hashes && i < MOST_HASHES; i++) {
        const proved_argon2_settings *const is = i < own.hashes ? &own.tried[i] : &found.settings;
        good = good && is->variant == asked->variant && is->version == asked->version && is->lanes == asked->lanes
            && is->hash_length == asked->hash_length;
    }
    if (!good) {
        printf("%u KiB: variant %u, version %u, %u lanes, %u bytes\n", asked->mem_cost, found.settings.variant,
            found.settings.version, found.settings.lanes, found.settings.hash_length);
    }
    return good;
}

/* Each variant and version, with odd and even memory, one lane to many, and hashes from the shortest to long ones. */
static void check_kept(void)
{
    static const uint32_t memory[] = {7168, 19455, 19456, 32767, 65535, 65536, 65537}, lanes[] = {1, 4, 9, 64},
                          lengths[] = {4, 16, 31, 32, 33, 64, 1024};
    bool good = true;
    for (uint32_t i = 0; i < 3 * 2 * 7 * 4 * 7; i++) {
        const proved_argon2_settings asked = {i % 3,
            i / 3 % 2 == 0 ? PROVED_ARGON2_VERSION_10 : PROVED_ARGON2_VERSION_13, memory[i / 6 % 7], 0,
            lanes[i / 42 % 4], lengths[i / 168]};
        good = keeps(&asked) && good;
    }
    check(good, "the search keeps what it is asked for beside memory and passes");
}

/* ---- how long it takes */

static void check_far(void)
{
    proved_argon2_tuning found;
    begin(1);
    const uint64_t began = own.now;
    uint32_t code = tune(30, 2097152, &found);
    /* From 2 GiB to 64 MiB, it goes a quarter of a pass at a time. Below, a hash takes less than four times as long. */
    uint64_t longest = 0;
    for (uint32_t memory = 2097152; memory >= 7168; memory /= 2) {
        const uint64_t slice = 3 * MILLISECOND * memory / 1024 / 4;
        longest += 3 * (4 * 30 * MILLISECOND + slice);
    }
    check(code == PROVED_ARGON2_TOO_COSTLY && own.now - began < longest, "a hash that takes far too long is stopped");
    begin(1);
    code = tune(20, 1048576, &found);
    uint32_t of_first = 0;
    for (uint32_t i = 0; i < own.hashes; i++) {
        of_first += own.tried[i].mem_cost == 1048576;
    }
    check(code == PROVED_ARGON2_TOO_COSTLY && of_first == 2, "two such hashes end a measurement");
    begin(1);
    code = tune(150, 19456, &found);
    check(code == PROVED_ARGON2_OK && own.hashes == 3, "what is too slow by the time of a pass is not tried");
}

/* ---- what it passes on, and how it ends */

static uint64_t told, told_all;

static int counts(void *arg, uint64_t done, uint64_t all)
{
    told += done;
    told_all = all;
    return *(uint64_t *)arg == told;
}

static void check_options(void)
{
    uint64_t stop_at = UINT64_MAX;
    proved_argon2_options options = PROVED_ARGON2_OPTIONS;
    const proved_argon2_settings settings = {PROVED_ARGON2_D, PROVED_ARGON2_VERSION_10, 32768, 7, 4, 24};
    proved_argon2_tuning found;
    options.threads = 3;
    options.memory = &found;
    options.memory_len = 5;
    options.buffers = (proved_argon2_buffers *)&stop_at;
    options.progress = counts;
    options.arg = &stop_at;
    begin(1);
    uint32_t code = proved_argon2_tune(&options, &settings, 300 * MILLISECOND, &found);
    const proved_argon2_settings *const is = &found.settings;
    check(code == PROVED_ARGON2_OK && is->variant == PROVED_ARGON2_D && is->version == PROVED_ARGON2_VERSION_10
            && is->mem_cost == 32768 && is->time_cost == 3 && is->lanes == 4 && is->hash_length == 24,
        "other settings are kept");
    check(memcmp(is, &own.tried[own.hashes - 1], sizeof *is) == 0 && own.with.threads == 3 && own.with.memory == &found
            && own.with.memory_len == 5 && own.with.buffers == options.buffers,
        "hashes have these settings and options");
    check(told != 0 && told_all == 12, "the callback is called for each slice of each hash");
    begin(1);
    told = 0;
    stop_at = 8 * 9 / 2 + 3; /* the second slice of the second hash, of eight each */
    memset(&found, 7, sizeof found);
    const proved_argon2_tuning before = found;
    code = proved_argon2_tune(&options, &settings, 300 * MILLISECOND, &found);
    check(code == PROVED_ARGON2_STOPPED && own.hashes == 2, "the callback stops it");
    check(memcmp(&found, &before, sizeof found) == 0, "after an error nothing is written");
}

static void check_errors(void)
{
    static const proved_argon2_options options = PROVED_ARGON2_OPTIONS;
    proved_argon2_settings bad = most;
    proved_argon2_tuning found;
    begin(1);
    own.code = PROVED_ARGON2_OUT_OF_MEMORY;
    check_code(tune(200, 65536, &found), PROVED_ARGON2_OUT_OF_MEMORY, "an error of a hash ends it");
    check(own.hashes == 1 && found.settings.mem_cost == 0, "at once");
    begin(1);
    own.denied = 2;
    check_code(tune(20, 1048576, &found), PROVED_ARGON2_OUT_OF_MEMORY, "also behind a hash that was stopped");
    begin(1);
    bad.variant = 3;
    check_code(proved_argon2_tune(&options, &bad, 1, &found), PROVED_ARGON2_INCORRECT_TYPE, "no such variant");
    bad = most, bad.hash_length = 3;
    check_code(proved_argon2_tune(&options, &bad, 1, &found), PROVED_ARGON2_OUTPUT_TOO_SHORT, "too short a tag");
    bad = most, bad.lanes = 0;
    check_code(proved_argon2_tune(&options, &bad, 1, &found), PROVED_ARGON2_LANES_TOO_FEW, "no lanes");
    check_code(tune(200, 7, &found), PROVED_ARGON2_MEMORY_TOO_LITTLE, "less memory than a lane has");
    check_code(tune(200, 7167, &found), PROVED_ARGON2_TOO_COSTLY, "too little memory for passwords");
    check(own.hashes == 0, "nothing is measured then");
    bad = most, bad.lanes = 2048;
    check_code(proved_argon2_tune(&options, &bad, 20 * MILLISECOND, &found), PROVED_ARGON2_TOO_COSTLY, "many lanes");
    check(own.tried[own.hashes - 1].mem_cost == 16384, "keep their 8 KiB each");
}

/* The longest and the shortest time. */
static void check_ends(void)
{
    static const proved_argon2_options options = PROVED_ARGON2_OPTIONS;
    proved_argon2_tuning found;
    begin(1);
    uint32_t code = proved_argon2_tune(&options, &most, UINT64_MAX, &found);
    check(code == PROVED_ARGON2_OK && found.settings.mem_cost == 65536 && found.settings.time_cost == 10,
        "without a limit all passes are taken");
    code = proved_argon2_tune(&options, &most, 0, &found);
    check_code(code, PROVED_ARGON2_TOO_COSTLY, "no time is too little");
}

/* Real hashes in a real minute, which is enough for all passes. */
static void check_real(void)
{
    proved_argon2_tuning found;
    own.is_real = true;
    const uint32_t code = tune(60000, 8192, &found);
    check(code == PROVED_ARGON2_OK && found.settings.mem_cost == 8192 && found.settings.time_cost == 10
            && found.nanoseconds > MILLISECOND && found.nanoseconds < 60000 * MILLISECOND,
        "real hashes are measured");
}

int main(void)
{
    check_table();
    check_disturbed();
    check_kept();
    check_far();
    check_options();
    check_errors();
    check_ends();
    check_real();
    return finish();
}
