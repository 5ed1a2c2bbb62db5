/*
 * What the calls return for the inputs of RFC 9106, section 5, and for encoded hashes of rust-argon2's tests; errors by
 * their numbers, with unchanged outputs; what is read from encoded hashes; and null pointers with length 0.
 */
#include "checks.h"

/* ---- the size of each structure of the header, and the place of each field, where addresses have 64 bits */

#if SIZE_MAX > UINT32_MAX
#define AT(type, field, place, bytes) \
    _Static_assert(offsetof(type, field) == (place) && sizeof(((type *)0)->field) == (bytes), #type "." #field)

AT(proved_argon2_settings, variant, 0, 4);
AT(proved_argon2_settings, version, 4, 4);
AT(proved_argon2_settings, mem_cost, 8, 4);
AT(proved_argon2_settings, time_cost, 12, 4);
AT(proved_argon2_settings, lanes, 16, 4);
AT(proved_argon2_settings, hash_length, 20, 4);
AT(proved_argon2_stored, settings, 0, 24);
AT(proved_argon2_stored, salt_length, 24, 4);
AT(proved_argon2_limits, mem_cost, 0, 4);
AT(proved_argon2_limits, time_cost, 4, 4);
AT(proved_argon2_limits, lanes, 8, 4);
AT(proved_argon2_limits, work, 16, 8);
AT(proved_argon2_block, words, 0, 1024);
AT(proved_argon2_job, prehash, 0, 64);
AT(proved_argon2_job, variant, 64, 4);
AT(proved_argon2_job, version, 68, 4);
AT(proved_argon2_job, lanes, 72, 4);
AT(proved_argon2_job, segment_length, 76, 4);
AT(proved_argon2_job, passes, 80, 4);
AT(proved_argon2_job, hash_length, 84, 4);
/* None of these moves; new options come behind them. */
AT(proved_argon2_options, size, 0, 8);
AT(proved_argon2_options, threads, 8, 4);
AT(proved_argon2_options, memory, 16, 8);
AT(proved_argon2_options, memory_len, 24, 8);
AT(proved_argon2_options, limits, 32, 8);
AT(proved_argon2_options, progress, 40, 8);
AT(proved_argon2_options, arg, 48, 8);
AT(proved_argon2_options, new_settings, 56, 8);
AT(proved_argon2_options, buffers, 64, 8);
AT(proved_argon2_options, new_salt_len, 72, 8);
AT(proved_argon2_tuning, settings, 0, 24);
AT(proved_argon2_tuning, nanoseconds, 24, 8);
_Static_assert(sizeof(proved_argon2_options) >= 80, "proved_argon2_options");
_Static_assert(sizeof(proved_argon2_settings) == 24, "proved_argon2_settings");
_Static_assert(sizeof(proved_argon2_stored) == 28, "proved_argon2_stored");
_Static_assert(sizeof(proved_argon2_limits) == 24, "proved_argon2_limits");
_Static_assert(sizeof(proved_argon2_block) == 1024, "proved_argon2_block");
_Static_assert(sizeof(proved_argon2_job) == 88, "proved_argon2_job");
#endif

enum { SEVENS = 100 };

static const char text_of_rfc[] =
    "$argon2id$v=19$m=32,t=3,p=4$AgICAgICAgICAgICAgICAg$DWQN9Y14dmwIwDejSotTydAe8EUtdbZetSUg6WsB5lk";
static const char of_16_lanes[] =
    "$argon2id$v=19$m=256,t=2,p=16$c29tZXNhbHQ$0gasyPnKXiBHQ5bft/bd4jrmy2DdtrLTX3JR9co7fRY";
static const char older[] = "$argon2d$m=256,t=2,p=1$c29tZXNhbHQ$vUBIaP8AxS51Q8gzLmp3KlckiS1+Mo1c8lO7yOcms3E";

static uint8_t pwd[32], salt[16], secret[8], ad[12];

static proved_argon2_settings settings_of_rfc(uint32_t variant)
{
    const proved_argon2_settings settings = {variant, 0x13, 32, 3, 4, 32};
    return settings;
}

/* Returns whether a buffer contains a string and only zeros after it. */
static bool holds_text(const char *buffer, size_t len, const char *text)
{
    static const uint8_t zeros[SEVENS];
    const size_t end = strlen(text);
    return end < len && memcmp(buffer, text, end) == 0 && memcmp(buffer + end, zeros, len - end) == 0;
}

/* Returns whether a buffer is as it was filled first. */
static bool is_untouched(const void *buffer, size_t len)
{
    uint8_t sevens[SEVENS];
    memset(sevens, 7, sizeof sevens);
    return memcmp(buffer, sevens, len) == 0;
}

static uint32_t verify(const char *text, const char *guess)
{
    return proved_argon2_verify_encoded(text, strlen(text), bytes_of(guess), strlen(guess), NULL, 0, NULL, 0);
}

/* ---- hashes and verdicts */

static void check_tag(uint32_t variant, const char *expected, const char *name)
{
    uint8_t tag[32] = {0};
    const proved_argon2_settings settings = settings_of_rfc(variant);
    uint32_t code = proved_argon2_hash_raw(pwd, 32, salt, 16, secret, 8, ad, 12, &settings, tag, sizeof tag);
    check(code == 0 && is_hex(tag, sizeof tag, expected), name);
    code = proved_argon2_verify_raw(pwd, 32, salt, 16, secret, 8, ad, 12, &settings, tag, sizeof tag);
    check_code(code, 0, "its password");
    code = proved_argon2_verify_raw(pwd, 32, salt, 16, ad, 12, secret, 8, &settings, tag, sizeof tag);
    check_code(code, 64, "the secret in place of the associated data");
}

static void check_text(void)
{
    char text[SEVENS];
    const proved_argon2_settings settings = settings_of_rfc(2);
    const char *const written = text_of_rfc;
    const size_t len = strlen(text_of_rfc);
    memset(text, 7, sizeof text);
    check(proved_argon2_encoded_len(&settings, 16) == len, "the length of a text");
    uint32_t code = proved_argon2_hash_encoded(pwd, 32, salt, 16, secret, 8, ad, 12, &settings, text, sizeof text);
    check(code == 0 && holds_text(text, sizeof text, text_of_rfc), "a text, and zeros behind it");
    check_code(proved_argon2_verify_encoded(written, len, pwd, 32, secret, 8, ad, 12), 0, "its password");
    code = proved_argon2_verify_encoded(written, len, bytes_of("guess"), 5, secret, 8, ad, 12);
    check_code(code, 64, "another password");
    code = proved_argon2_verify_encoded(written, len, pwd, 32, ad, 12, secret, 8);
    check_code(code, 64, "the secret in place of the associated data");
    code = proved_argon2_verify_encoded(written, len, pwd, 32, NULL, 0, NULL, 0);
    check_code(code, 64, "no secret and no associated data");
    check_code(verify(of_16_lanes, "password"), 0, "a text of 16 lanes");
    check_code(verify(of_16_lanes, "Password"), 64, "a text of 16 lanes, another password");
    check_code(verify(older, "password"), 0, "a text without a version");
    check_code(verify(older, "Password"), 64, "a text without a version, another password");
}

/* ---- refusals */

/* If the library accepts them, we make no hash, which could take all memory. */
static void check_refused(proved_argon2_settings settings, uint32_t number, const char *name)
{
    uint8_t out[32];
    char written[32];
    const uint32_t judged = proved_argon2_check(&settings, 8, 8, 0, 0);
    check_code(judged, number, name);
    if (judged == PROVED_ARGON2_OK) {
        return;
    }
    memset(out, 7, sizeof out);
    memset(written, 7, sizeof written);
    uint32_t raw = proved_argon2_hash_raw(
        bytes_of("password"), 8, bytes_of("somesalt"), 8, NULL, 0, NULL, 0, &settings, out, sizeof out);
    uint32_t text = proved_argon2_hash_encoded(
        bytes_of("password"), 8, bytes_of("somesalt"), 8, NULL, 0, NULL, 0, &settings, written, sizeof written);
    check(raw == number && text == number && is_untouched(out, sizeof out) && is_untouched(written, sizeof written),
        "the calls that hash return the same");
}

/* Settings that are beyond a limit of the header. */
static void check_errors(void)
{
    enum { MOST = PROVED_ARGON2_MAX_LANES, LEAST_MEMORY = MOST * PROVED_ARGON2_MIN_MEMORY_PER_LANE };
    static const struct {
        proved_argon2_settings settings;
        uint32_t number;
        const char *name;
    } refused[] = {{{3, 0x13, 32, 3, 4, 32}, 17, "no such variant"}, {{2, 0x11, 32, 3, 4, 32}, 18, "no such version"},
        {{2, 0x13, 32, 3, PROVED_ARGON2_MIN_LANES - 1, 32}, 15, "no lanes"},
        {{2, 0x13, LEAST_MEMORY, 3, MOST + 1, 32}, 16, "too many lanes"},
        {{2, 0x13, LEAST_MEMORY - 1, 3, MOST, 32}, 13, "too little memory"},
        {{2, 0x13, 32, PROVED_ARGON2_MIN_TIME - 1, 4, 32}, 11, "no passes"},
        {{2, 0x13, 32, 3, 4, PROVED_ARGON2_MIN_HASH_LENGTH - 1}, 1, "too short a hash"}};
    const proved_argon2_settings of_version_0 = {2, 0, 32, 3, 4, 32};
    for (size_t i = 0; i < sizeof refused / sizeof *refused; i++) {
        check_refused(refused[i].settings, refused[i].number, refused[i].name);
    }
    check(proved_argon2_encoded_len(&refused[0].settings, 16) == 0 && proved_argon2_encoded_len(&of_version_0, 16) == 0,
        "no text of an unknown variant, or of a version 0");
}

/* The least and the greatest settings and lengths, and lengths that are beyond a limit, of which the first counts. */
static void check_limits_of_inputs(void)
{
    enum { MOST = PROVED_ARGON2_MAX_LANES };
    const proved_argon2_settings least = {2, 0x13, PROVED_ARGON2_MIN_MEMORY_PER_LANE, PROVED_ARGON2_MIN_TIME,
        PROVED_ARGON2_MIN_LANES, PROVED_ARGON2_MIN_HASH_LENGTH};
    const proved_argon2_settings greatest = {
        2, 0x13, MOST * PROVED_ARGON2_MIN_MEMORY_PER_LANE, UINT32_MAX, MOST, PROVED_ARGON2_MAX_HASH_LENGTH};
    const uint64_t pwd_end = UINT64_C(1) + PROVED_ARGON2_MAX_PWD_LENGTH, least_salt = PROVED_ARGON2_MIN_SALT_LENGTH,
                   salt_end = UINT64_C(1) + PROVED_ARGON2_MAX_SALT_LENGTH,
                   secret_end = UINT64_C(1) + PROVED_ARGON2_MAX_SECRET_LENGTH,
                   ad_end = UINT64_C(1) + PROVED_ARGON2_MAX_AD_LENGTH;
    check_code(proved_argon2_check(&least, 0, least_salt, 0, 0), 0, "the least numbers");
    check_code(proved_argon2_check(&greatest, pwd_end - 1, salt_end - 1, secret_end - 1, ad_end - 1), 0,
        "the greatest numbers");
    check_code(proved_argon2_check(&least, pwd_end, 0, secret_end, ad_end), 4, "too long a password");
    check_code(proved_argon2_check(&least, 0, least_salt - 1, secret_end, ad_end), 5, "too short a salt");
    check_code(proved_argon2_check(&least, 0, salt_end, secret_end, ad_end), 6, "too long a salt");
    check_code(proved_argon2_check(&least, 0, least_salt, secret_end, ad_end), 10, "too long a secret");
    check_code(proved_argon2_check(&least, 0, least_salt, 0, ad_end), 8, "too much associated data");
}

static uint32_t check_encoded(const char *text, uint64_t pwd_len, uint32_t passes, proved_argon2_stored *stored)
{
    const proved_argon2_limits limits = {256, passes, 16, 512};
    return proved_argon2_check_encoded(text, strlen(text), &limits, pwd_len, 0, 0, stored);
}

static void check_checking(void)
{
    const proved_argon2_settings settings = {2, 0x13, 256, 2, 16, 32};
    const uint64_t most = UINT32_MAX;
    proved_argon2_stored stored;
    memset(&stored, 7, sizeof stored);
    check_code(check_encoded("\xff", most + 1, 1, &stored), 66, "what is not ASCII is not checked");
    check_code(check_encoded("$argon2id$", most + 1, 1, &stored), 19, "the beginning of a text is not checked");
    check_code(check_encoded(of_16_lanes, most + 1, 1, &stored), 69, "a text above the limits, before its password");
    check_code(check_encoded(of_16_lanes, most + 1, 2, &stored), 4, "too long a password for a text");
    check_code(
        check_encoded("$argon2id$v=19$m=8,t=0,p=1$c29tZXNhbHQ$AAAAAA", 0, 2, &stored), 11, "a text of no passes");
    check_code(
        check_encoded("$argon2id$v=19$m=8,t=1,p=1$c29tZXNhbA$AAAAAA", 0, 2, &stored), 5, "a text of a short salt");
    check_code(
        check_encoded("$argon2id$v=19$m=8,t=1,p=1$c29tZXNhbHQ$AAAA", 0, 2, &stored), 1, "a text of a short hash");
    check(is_untouched(&stored, sizeof stored), "nothing is written for these");
    const uint32_t code = check_encoded(of_16_lanes, most, 2, &stored);
    check(code == 0 && memcmp(&stored.settings, &settings, sizeof settings) == 0 && stored.salt_length == 8,
        "a text that can be verified");
}

static const proved_argon2_settings small = {PROVED_ARGON2_ID, PROVED_ARGON2_VERSION_13, 8, 1, 1, 32};

/* An encoded hash with seven different numbers, with which no hash can be made. */
static const char text[] = "$argon2i$v=19$m=4294967295,t=0,p=6$c29tZXNhbHQ$AAAAAAAAAAAAAAAA";
static const proved_argon2_settings settings_of_text = {
    PROVED_ARGON2_I,
    PROVED_ARGON2_VERSION_13,
    4294967295,
    0,
    6,
    12,
};

static uint32_t needs_rehash(const proved_argon2_settings *settings)
{
    return proved_argon2_needs_rehash(text, strlen(text), settings);
}

/* ---- encoded hashes that are only decoded */

static void check_reading(void)
{
    proved_argon2_stored stored;
    memset(&stored, 7, sizeof stored);
    uint32_t code = proved_argon2_read(text, strlen(text), &stored);
    check_code(code, PROVED_ARGON2_OK, "a text of settings that no hash is made with is read");
    check(memcmp(&stored.settings, &settings_of_text, sizeof settings_of_text) == 0, "its settings");
    check(stored.salt_length == 8, "the length of its salt");
    const char *older = "$Argon2d$m=+064,t=2,p=1$$";
    const proved_argon2_settings settings_of_older = {PROVED_ARGON2_D, PROVED_ARGON2_VERSION_10, 64, 2, 1, 0};
    code = proved_argon2_read(older, strlen(older), &stored);
    check(code == PROVED_ARGON2_OK && memcmp(&stored.settings, &settings_of_older, sizeof settings_of_older) == 0
            && stored.salt_length == 0,
        "a text without a version, a salt and a hash");
}

/* A string that is no encoded hash returns an error, and outputs are unchanged. */
static void check_unread(const char *text, uint32_t error, const char *name)
{
    const proved_argon2_limits none = {0, 0, 0, 0};
    proved_argon2_stored stored, before;
    memset(&stored, 7, sizeof stored);
    memset(&before, 7, sizeof before);
    uint32_t code = proved_argon2_read(text, strlen(text), &stored);
    check(code == error && memcmp(&stored, &before, sizeof stored) == 0
            && proved_argon2_needs_rehash(text, strlen(text), &small) == error
            && proved_argon2_verify_encoded(text, strlen(text), NULL, 0, NULL, 0, NULL, 0) == error
            && proved_argon2_verify_encoded_within(text, strlen(text), NULL, 0, NULL, 0, NULL, 0, &none) == error,
        name);
}

static void check_rehash(void)
{
    check_code(needs_rehash(&settings_of_text), PROVED_ARGON2_OK, "the settings of the text");
    for (size_t i = 0; i < 6; i++) {
        static const char *const names[6] = {"another variant", "another version", "another memory",
            "another number of passes", "another number of lanes", "another length of the hash"};
        uint32_t numbers[6] = {PROVED_ARGON2_I, PROVED_ARGON2_VERSION_13, 4294967295, 0, 6, 12};
        proved_argon2_settings other;
        const uint32_t others[6] = {PROVED_ARGON2_D, PROVED_ARGON2_VERSION_10, 8, 1, 12, 6};
        numbers[i] = others[i];
        memcpy(&other, numbers, sizeof other);
        check_code(needs_rehash(&other), PROVED_ARGON2_NEEDS_REHASH, names[i]);
    }
    proved_argon2_settings unknown = settings_of_text;
    unknown.version = 0x11;
    check_code(proved_argon2_needs_rehash("\xff", 1, &unknown), 18, "an unknown version comes before the text");
    unknown.variant = 3;
    check_code(proved_argon2_needs_rehash("\xff", 1, &unknown), 17, "an unknown variant before that");
}

/* ---- the bytes of a text */

static void check_bytes(void)
{
    static const char loose[] = "$argon2d$m=64,t=2,p=1$$AAAA";
    uint8_t salt[17], hash[33];
    memset(salt, 7, sizeof salt);
    memset(hash, 7, sizeof hash);
    for (size_t len = 15; len <= 17; len += 2) {
        check_code(proved_argon2_read_bytes(text_of_rfc, strlen(text_of_rfc), salt, len, hash, 32),
            PROVED_ARGON2_WRONG_LENGTH, "a salt of another length");
        check_code(proved_argon2_read_bytes(text_of_rfc, strlen(text_of_rfc), salt, 16, hash, len + 16),
            PROVED_ARGON2_WRONG_LENGTH, "a hash of another length");
    }
    check_code(proved_argon2_read_bytes(text_of_rfc, strlen(text_of_rfc) - 1, salt, 16, hash, 32),
        PROVED_ARGON2_DECODING_FAIL, "a part of a text");
    check_code(proved_argon2_read_bytes("\xff", 1, salt, 16, hash, 32), PROVED_ARGON2_NOT_ASCII, "no ASCII");
    check(
        is_hex(salt, 17, "0707070707070707070707070707070707") && hash[0] == 7 && hash[32] == 7, "nothing is written");
    uint32_t code = proved_argon2_read_bytes(text_of_rfc, strlen(text_of_rfc), salt, 16, hash, 32);
    check(code == PROVED_ARGON2_OK && is_hex(salt, 16, "02020202020202020202020202020202") && salt[16] == 7,
        "the salt of a text");
    check(is_hex(hash, 32, "0d640df58d78766c08c037a34a8b53c9d01ef0452d75b65eb52520e96b01e659") && hash[32] == 7,
        "the hash of a text");
    code = proved_argon2_read_bytes(loose, strlen(loose), NULL, 0, hash, 3);
    check(code == PROVED_ARGON2_OK && is_hex(hash, 4, "000000f5"), "no salt, and a hash that is too short");
}

/* ---- limits */

/* What all calls with limits say of a text, or that they disagree. */
enum verdict_of_limits { WITHIN_LIMITS, TOO_COSTLY, DISAGREED };

static enum verdict_of_limits verdict_of_limits(const char *text, const proved_argon2_limits *limits)
{
    proved_argon2_options with = PROVED_ARGON2_OPTIONS;
    proved_argon2_stored stored, expected;
    memset(&stored, 7, sizeof stored);
    memset(&expected, 7, sizeof expected);
    with.limits = limits;
    const bool is_costly = proved_argon2_verify_encoded_with(&with, text, strlen(text), NULL, 0, NULL, 0, NULL, 0)
        == PROVED_ARGON2_TOO_COSTLY;
    const uint32_t within = proved_argon2_verify_encoded_within(text, strlen(text), NULL, 0, NULL, 0, NULL, 0, limits);
    const uint32_t read = proved_argon2_read_within(text, strlen(text), limits, &stored);
    const uint32_t expected_read = is_costly ? PROVED_ARGON2_TOO_COSTLY
                                             : proved_argon2_read(text, strlen(text), &expected);
    const bool is_read = read == expected_read && memcmp(&stored, &expected, sizeof stored) == 0;
    const bool is_agreed = is_read && is_costly == (within == PROVED_ARGON2_TOO_COSTLY);
    return !is_agreed ? DISAGREED : is_costly ? TOO_COSTLY : WITHIN_LIMITS;
}

/* Each number of a text at its limit, and above it. */
static void check_limits(void)
{
    static const char passes[] = "$argon2i$v=19$m=0,t=7,p=0$$", lanes[] = "$argon2i$v=19$m=0,t=0,p=4294967295$$",
                      work[] = "$argon2i$v=19$m=4294967295,t=4294967295,p=0$$";
    const uint64_t product = (uint64_t)UINT32_MAX * UINT32_MAX;
    const struct {
        const char *text;
        proved_argon2_limits limits;
        enum verdict_of_limits expected;
        const char *name;
    } rows[] = {{text, {UINT32_MAX, 0, 6, 0}, WITHIN_LIMITS, "numbers at their limits"},
        {text, {UINT32_MAX - 1, 0, 6, 0}, TOO_COSTLY, "memory above its limit"},
        {text, {UINT32_MAX, 0, 5, 0}, TOO_COSTLY, "lanes above their limit"},
        {lanes, {0, 0, UINT32_MAX - 1, 0}, TOO_COSTLY, "very many lanes above their limit"},
        {passes, {0, 7, 0, 0}, WITHIN_LIMITS, "passes at their limit"},
        {passes, {0, 6, 0, 0}, TOO_COSTLY, "passes above their limit"},
        {work, {UINT32_MAX, UINT32_MAX, 0, product}, WITHIN_LIMITS, "the greatest work, at its limit"},
        {work, {UINT32_MAX, UINT32_MAX, 0, product - 1}, TOO_COSTLY, "the greatest work, above its limit"}};
    const proved_argon2_limits limits = proved_argon2_default_limits();
    const size_t len = strlen(text_of_rfc);
    for (size_t i = 0; i < sizeof rows / sizeof *rows; i++) {
        check(verdict_of_limits(rows[i].text, &rows[i].limits) == rows[i].expected, rows[i].name);
    }
    uint32_t code = proved_argon2_verify_encoded_within(text_of_rfc, len, pwd, 32, secret, 8, ad, 12, &limits);
    check_code(code, PROVED_ARGON2_OK, "a text within limits matches");
    code = proved_argon2_verify_encoded_within(text_of_rfc, len, pwd, 31, secret, 8, ad, 12, &limits);
    check_code(code, PROVED_ARGON2_MISMATCH, "another password does not");
    check(limits.mem_cost == 2097152 && limits.time_cost == 10 && limits.lanes == 16 && limits.work == 4194304,
        "the default limits");
}

/* A text of this many characters, whose salt of zeros fills it. */
static const char *text_of_length(size_t length)
{
    static const char beginning[] = "$argon2id$v=19$m=8,t=1000,p=1$", end[] = "$AAAAAAA";
    static char made[100001];
    memset(made, 'A', length);
    memcpy(made, beginning, strlen(beginning));
    memcpy(made + length - strlen(end), end, sizeof end);
    return made;
}

/* Limits hold for a text of any length. */
static void check_limits_of_long_texts(void)
{
    static const size_t lengths[] = {200, 1000, 100000};
    static const proved_argon2_limits at = {8, 1000, 1, 8000}, below = {8, 999, 1, 8000};
    char name[64];
    for (size_t i = 0; i < sizeof lengths / sizeof *lengths; i++) {
        const char *const text = text_of_length(lengths[i]);
        snprintf(name, sizeof name, "a text of %zu characters at its limits", lengths[i]);
        check(verdict_of_limits(text, &at) == WITHIN_LIMITS, name);
        snprintf(name, sizeof name, "a text of %zu characters above a limit", lengths[i]);
        check(verdict_of_limits(text, &below) == TOO_COSTLY, name);
        snprintf(name, sizeof name, "a text of %zu characters above the default limits", lengths[i]);
        check_code(proved_argon2_password_verify(text, "", 0), PROVED_ARGON2_TOO_COSTLY, name);
    }
}

/* Null pointers with length 0, also where null_pointers.c does not run. */
static void check_null_inputs(void)
{
    proved_argon2_stored stored;
    uint32_t code = proved_argon2_hash_raw(NULL, 0, NULL, 0, NULL, 0, NULL, 0, &small, NULL, 0);
    check_code(code, PROVED_ARGON2_SALT_TOO_SHORT, "no salt");
    code = proved_argon2_hash_raw(NULL, 0, bytes_of("somesalt"), 8, NULL, 0, NULL, 0, &small, NULL, 0);
    check_code(code, PROVED_ARGON2_WRONG_LENGTH, "no buffer for a tag");
    code = proved_argon2_verify_encoded(NULL, 0, NULL, 0, NULL, 0, NULL, 0);
    check_code(code, PROVED_ARGON2_DECODING_FAIL, "no text to verify");
    check_code(proved_argon2_read(NULL, 0, &stored), PROVED_ARGON2_DECODING_FAIL, "no text to read");
}

/* A buffer of the wrong length, or too short for an encoded hash, is rejected and unchanged. */
static void check_buffers(void)
{
    uint8_t buffer[128], before[128];
    char text[128];
    memset(buffer, 7, sizeof buffer);
    memset(text, 7, sizeof text);
    memset(before, 7, sizeof before);
    const size_t len = (size_t)proved_argon2_encoded_len(&small, 8);
    uint32_t shorter = proved_argon2_hash_raw(NULL, 0, bytes_of("somesalt"), 8, NULL, 0, NULL, 0, &small, buffer, 31);
    uint32_t longer = proved_argon2_hash_raw(NULL, 0, bytes_of("somesalt"), 8, NULL, 0, NULL, 0, &small, buffer, 33);
    uint32_t full = proved_argon2_hash_encoded(NULL, 0, bytes_of("somesalt"), 8, NULL, 0, NULL, 0, &small, text, len);
    check(memcmp(buffer, before, sizeof buffer) == 0 && memcmp(text, before, sizeof text) == 0,
        "refused buffers are as they were");
    check_code(shorter, 65, "a buffer of one byte less than the tag");
    check_code(longer, 65, "a buffer of one byte more than the tag");
    check_code(full, 65, "a buffer without room for a zero");
}

/* ---- the sizes of options */

enum { MOST_TRIED = 200, MOST_SIZE = 4096 };

/* Returns what verifying a string returns with options of some size. All bytes behind them are 255, so that a call
 * which follows a pointer there crashes. */
static uint32_t verify_with_size(const char *text, size_t size, uint8_t last)
{
    union {
        proved_argon2_options options;
        uint8_t bytes[MOST_SIZE + 1];
    } with;
    memset(with.bytes, 0, sizeof with.bytes);
    memset(with.bytes + size, 0xFF, sizeof with.bytes - size);
    if (size > 0) {
        with.bytes[size - 1] = last;
    }
    with.options.size = size;
    return proved_argon2_verify_encoded_with(&with.options, text, strlen(text), NULL, 0, NULL, 0, NULL, 0);
}

/* Options have this version's size, or are longer with zeros in unknown fields, up to a size that none will have. */
static void check_sizes_of_options(void)
{
    static const size_t own = SIZE_MAX > UINT32_MAX ? 80 : 40;
    char stored[128];
    uint32_t wrong = 0, wrong_unknown = 0;
    uint32_t code = proved_argon2_hash_encoded(
        NULL, 0, bytes_of("somesalt"), 8, NULL, 0, NULL, 0, &small, stored, sizeof stored);
    check_code(code, PROVED_ARGON2_OK, "an encoded hash to verify");
    for (size_t size = 0; size <= MOST_TRIED; size++) {
        const uint32_t expected = size < own ? PROVED_ARGON2_WRONG_LENGTH : PROVED_ARGON2_OK;
        wrong += verify_with_size(stored, size, 0) != expected;
        wrong_unknown += size > own && verify_with_size(stored, size, 1) != PROVED_ARGON2_WRONG_LENGTH;
    }
    check(wrong == 0, "options of each size from 0 to 200 bytes");
    check(wrong_unknown == 0, "longer options with a byte that is unknown");
    check_code(verify_with_size(stored, MOST_SIZE, 0), PROVED_ARGON2_OK, "options of the greatest size");
    check_code(verify_with_size(stored, MOST_SIZE + 1, 0), PROVED_ARGON2_WRONG_LENGTH, "options of a byte more");
}

/* ---- new buffers */

/* A new buffer is zero, also if the heap has other bytes there. */
static void check_new_buffer(uint32_t kib, const char *name)
{
    const proved_argon2_settings settings = {PROVED_ARGON2_ID, PROVED_ARGON2_VERSION_13, kib, 1, 1, 32};
    const size_t size = (size_t)kib * 1024;
    volatile uint8_t *const before = malloc(size); /* (volatile, or else the compiler drops what is freed unread) */
    void *memory = NULL;
    size_t len = 0, others = 0;
    for (size_t i = 0; before != NULL && i < size; i++) {
        before[i] = 5;
    }
    free((void *)before);
    const uint32_t code = proved_argon2_memory_new(&settings, &memory, &len);
    for (size_t i = 0; code == PROVED_ARGON2_OK && i < len; i++) {
        others += ((const uint8_t *)memory)[i] != 0;
    }
    check(code == PROVED_ARGON2_OK && len == size && others == 0, name);
    proved_argon2_memory_free(memory, len);
}

int main(void)
{
    static const char argon2d[] = "512b391b6f1162975371d30919734294f868e3be3984f3c1a13a4db9fabe4acb";
    static const char argon2i[] = "c814d9d1dc7f37aa13f0d77f2494bda1c8de6b016dd388d29952a4c4672b6ce8";
    static const char argon2id[] = "0d640df58d78766c08c037a34a8b53c9d01ef0452d75b65eb52520e96b01e659";
    memset(pwd, 1, sizeof pwd);
    memset(salt, 2, sizeof salt);
    memset(secret, 3, sizeof secret);
    memset(ad, 4, sizeof ad);
    check_tag(0, argon2d, "the tag of Argon2d");
    check_tag(1, argon2i, "the tag of Argon2i");
    check_tag(2, argon2id, "the tag of Argon2id");
    check_text();
    check_errors();
    check_limits_of_inputs();
    check_checking();
    check_reading();
    check_unread("\xff", 66, "what is not UTF-8");
    check_unread("$argon2id$\xc3\xa9", PROVED_ARGON2_NOT_ASCII, "UTF-8 that is not ASCII");
    check_unread("", 19, "an empty text");
    check_unread("$argon2id$", PROVED_ARGON2_DECODING_FAIL, "the beginning of a text");
    check_unread("$argon2id$v=19$m=8,t=1,p=1$c29tZXNhbHQ", PROVED_ARGON2_DECODING_FAIL, "a text without a hash");
    check_unread("$argon2id$v=19$m=8,t=1,p=1$c29tZXNhbHQ$AAAAA", PROVED_ARGON2_DECODING_FAIL, "a faulty hash");
    check_rehash();
    check_bytes();
    check_limits();
    check_limits_of_long_texts();
    check_null_inputs();
    check_buffers();
    check_sizes_of_options();
    check_new_buffer(64, "a new buffer of 64 KiB is zero");
    check_new_buffer(3072, "a new buffer of 3 MiB is zero");
    return finish();
}
