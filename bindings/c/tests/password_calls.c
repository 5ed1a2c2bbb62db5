/* Hashing and verifying in one call each. It is linked with --wrap=getrandom, so that the salt is known. That all bytes
 * of passwords and peppers count, and exactly which settings make a rehash due, is checked in the machine code (the way
 * of a verdict, docs/CLAIMS.md). */
#include "checks.h"

#include <errno.h>
#include <time.h>

ssize_t __wrap_getrandom(void *buffer, size_t length, unsigned flags);

static int no_random_bytes, interruptions;
static size_t asked_for, missing;

/* 0x80, 0x81 and so on. */
ssize_t __wrap_getrandom(void *buffer, size_t length, unsigned flags)
{
    asked_for = length;
    if (no_random_bytes || interruptions > 0 || flags != 0) {
        errno = interruptions > 0 ? EINTR : ENOSYS;
        interruptions -= interruptions > 0;
        return -1;
    }
    fill_bytes((uint8_t *)buffer, length, 0x80);
    return (ssize_t)(length - missing);
}

/* ---- passwords */

static void check_password(void)
{
    static const char beginning[] = "$argon2id$v=19$m=19456,t=2,p=1$gIGCg4SFhoeIiYqLjI2Ojw$";
    const proved_argon2_settings settings = proved_argon2_owasp2();
    const proved_argon2_limits most = proved_argon2_default_limits();
    char text[PROVED_ARGON2_TEXT_SIZE], other[PROVED_ARGON2_TEXT_SIZE];
    uint8_t salt[16];
    memset(text, 7, sizeof text);
    check_code(proved_argon2_password_hash(text, "pass\0word", 9), PROVED_ARGON2_OK, "a password is hashed");
    check(asked_for == 16 && strncmp(text, beginning, strlen(beginning)) == 0, "its settings and its salt");
    fill_bytes(salt, sizeof salt, 0x80);
    uint32_t code = proved_argon2_hash_encoded(
        bytes_of("pass\0word"), 9, salt, 16, NULL, 0, NULL, 0, &settings, other, sizeof other);
    check(code == PROVED_ARGON2_OK && memcmp(text, other, sizeof text) == 0, "it is as hash_encoded writes it");
    check_code(proved_argon2_password_verify(text, "pass\0word", 9), PROVED_ARGON2_OK, "it verifies");
    check_code(proved_argon2_password_verify(text, "pass\0wore", 9), PROVED_ARGON2_MISMATCH, "another one does not");
    check_code(proved_argon2_password_verify(text, "pass", 4), PROVED_ARGON2_MISMATCH, "its beginning does not");
    check_code(proved_argon2_password_verify(text, NULL, 0), PROVED_ARGON2_MISMATCH, "an empty one does not");
    check_code(proved_argon2_password_verify("x", "pass", 4), PROVED_ARGON2_DECODING_FAIL, "what is no text");
    const uint64_t by_work = most.work / most.mem_cost, passes = by_work < most.time_cost ? by_work : most.time_cost;
    for (unsigned above = 0; above < 2; above++) {
        snprintf(other, sizeof other, "$argon2id$v=19$m=%u,t=%u,p=%u$AAAAAAA$AAAAAAA", most.mem_cost,
            (unsigned)passes + above, most.lanes);
        check_code(proved_argon2_password_verify(other, "pass", 4),
            above ? PROVED_ARGON2_TOO_COSTLY : PROVED_ARGON2_SALT_TOO_SHORT, "a text at the default limits, one above");
    }
    code = proved_argon2_password_hash(text, NULL, 0);
    check(code == PROVED_ARGON2_OK && proved_argon2_password_verify(text, "", 0) == PROVED_ARGON2_OK, "the empty one");
    memcpy(other, text, sizeof text);
    no_random_bytes = 1;
    errno = 77;
    code = proved_argon2_password_hash(text, "password", 8);
    no_random_bytes = 0;
    check_code(code, PROVED_ARGON2_NO_RANDOM_BYTES, "no random bytes");
    missing = 1;
    code = proved_argon2_password_hash(text, "password", 8);
    missing = 0;
    check_code(code, PROVED_ARGON2_NO_RANDOM_BYTES, "a random byte too few");
    check(memcmp(text, other, sizeof text) == 0 && errno == 77, "the text is as it was, and so is errno");
    interruptions = 3;
    code = proved_argon2_password_hash(text, "password", 8);
    check(code == PROVED_ARGON2_OK && errno == 77, "a signal is no error");
}

/* ---- a rehash that is due */

static const proved_argon2_options with = PROVED_ARGON2_OPTIONS;
static const proved_argon2_settings small = {PROVED_ARGON2_ID, PROVED_ARGON2_VERSION_13, 8, 1, 1, 4};
static const uint8_t pepper[32];

static int stop(void *arg, uint64_t done, uint64_t all)
{
    (void)arg, (void)done, (void)all;
    return 1;
}

/* The result of verifying a text with these options, this guess and this many bytes of the pepper. */
static uint32_t rehash_verdict(proved_argon2_options options, const char *text, const char *guess, size_t pepper_len)
{
    return proved_argon2_password_verify_with(&options, text, guess, strlen(guess), pepper, pepper_len);
}

static void check_rehash(void)
{
    static const char old[] = "$argon2i$m=256,t=2,p=2$c29tZXNhbHQ$tsEVYKap1h6scGt5ovl9aLRGOqOth+AMB+KwHpDFZPs";
    static const char endless[] = "$argon2i$m=8,t=4294967295,p=1$c29tZXNhbHQ$AAAAAA";
    static uint64_t one_block[128];
    const proved_argon2_settings new_settings = proved_argon2_owasp2();
    const proved_argon2_limits least = {8, 1, 1, 8};
    proved_argon2_options options = {.size = sizeof options, .new_settings = &new_settings};
    char text[PROVED_ARGON2_TEXT_SIZE];
    const uint32_t code = proved_argon2_password_hash_with(&with, &small, text, "password", 8, pepper, 5);
    check_code(code, PROVED_ARGON2_OK, "a text with a pepper");
    proved_argon2_options of_small = {.size = sizeof of_small, .new_settings = &small, .new_salt_len = 16};
    check_code(rehash_verdict(of_small, text, "password", 5), PROVED_ARGON2_OK, "its settings and its salt are new");
    check_code(rehash_verdict(of_small, text, "password", 4), PROVED_ARGON2_MISMATCH, "a part of the pepper");
    of_small.new_salt_len = 15;
    check_code(rehash_verdict(of_small, text, "password", 5), PROVED_ARGON2_NEEDS_REHASH, "another length of the salt");
    check_code(rehash_verdict(options, old, "password", 0), PROVED_ARGON2_NEEDS_REHASH, "a text of libargon2");
    check_code(rehash_verdict(options, old, "Password", 0), PROVED_ARGON2_MISMATCH, "a wrong password of it");
    check_code(rehash_verdict(options, old + 1, "password", 0), PROVED_ARGON2_DECODING_FAIL, "no text");
    options.limits = &least;
    check_code(rehash_verdict(options, old, "password", 0), PROVED_ARGON2_TOO_COSTLY, "a text above limits");
    options.limits = NULL;
    options.memory = one_block;
    options.memory_len = sizeof one_block;
    check_code(rehash_verdict(options, old, "password", 0), PROVED_ARGON2_OUT_OF_MEMORY, "a buffer that is too small");
    options.memory = NULL;
    options.progress = stop;
    check_code(rehash_verdict(options, old, "password", 0), PROVED_ARGON2_STOPPED, "a call that is stopped");
    check_code(rehash_verdict(options, endless, "password", 0), PROVED_ARGON2_STOPPED, "no limit of work");
}

/* ---- a hash that is verified and renewed */

/* "password" in tests of rust-argon2, with the secret "secret" and the associated data "ad". */
static const char stored[] = "$argon2i$v=19$m=4096,t=3,p=1$c29tZXNhbHQ$OlcSvlN20Lz43sK3jhCJ9K04oejhiY0AmI+ck6nuETo";
static const proved_argon2_settings of_stored = {PROVED_ARGON2_I, PROVED_ARGON2_VERSION_13, 4096, 3, 1, 32};

/* What a login is passed, which each check changes, and the new hash. */
static struct login {
    proved_argon2_options with;
    const char *text, *password, *pepper, *new_pepper, *ad;
    size_t new_text_len;
} login;
static char new_text[PROVED_ARGON2_TEXT_SIZE + 1];

/* A login whose hash is up to date. */
static void begin_login(void)
{
    const proved_argon2_options own = {.size = sizeof own, .new_settings = &of_stored, .new_salt_len = 8};
    login = (struct login){own, stored, "password", "secret", "", "ad", PROVED_ARGON2_TEXT_SIZE};
}

#define BYTES(text) bytes_of(text), strlen(text)

/* Logs in, and returns whether the code is this one, and whether new_text is written only for NEEDS_REHASH. */
static bool gives(uint32_t expected)
{
    memset(new_text, 7, sizeof new_text);
    const uint32_t code = proved_argon2_password_renew(&login.with, login.text, strlen(login.text),
        BYTES(login.password), BYTES(login.pepper), BYTES(login.new_pepper), BYTES(login.ad), new_text,
        login.new_text_len);
    bool is_kept = true;
    for (size_t i = code == PROVED_ARGON2_NEEDS_REHASH ? login.new_text_len : 0; i < sizeof new_text; i++) {
        is_kept = is_kept && new_text[i] == 7;
    }
    return code == expected && is_kept;
}

/* Whether the login writes the encoded hash with these settings, a salt of this length and the pepper of new hashes. */
static bool renews(const proved_argon2_settings *settings, size_t salt_len)
{
    char expected[PROVED_ARGON2_TEXT_SIZE] = {0};
    uint8_t salt[32];
    const char *const pepper_now = *login.new_pepper == 0 ? login.pepper : login.new_pepper;
    fill_bytes(salt, sizeof salt, 0x80);
    login.with.new_settings = settings;
    return gives(PROVED_ARGON2_NEEDS_REHASH)
        && proved_argon2_hash_encoded(BYTES(login.password), salt, salt_len, BYTES(pepper_now), BYTES(login.ad),
               settings, expected, login.new_text_len)
        == PROVED_ARGON2_OK
        && memcmp(new_text, expected, login.new_text_len) == 0;
}

static void check_renewals(void)
{
    const proved_argon2_settings new_settings = proved_argon2_owasp5();
    begin_login();
    check(gives(PROVED_ARGON2_OK), "a hash that is up to date stays");
    login.with.new_salt_len = 0;
    check(gives(PROVED_ARGON2_OK), "so it does if no length of the salt is named");
    check(renews(&new_settings, 16), "one with other settings is renewed, with a salt of 16 bytes");
    begin_login();
    login.with.new_salt_len = 9;
    check(renews(&of_stored, 9), "one with another length of the salt is renewed, with that length");
    begin_login();
    login.new_pepper = "new";
    check(renews(&of_stored, 8), "one with another pepper is renewed, with the new pepper");
    login.text = strdup(new_text);
    login.pepper = "new";
    login.new_pepper = "";
    check(gives(PROVED_ARGON2_OK), "the new hash is up to date");
    login.new_pepper = "new";
    check(renews(&of_stored, 8), "a new pepper always renews a hash");
    free((char *)login.text);
}

static void check_other_verdicts(void)
{
    static const char *const others[] = {"", "Password", "password1", "passwor"};
    begin_login();
    login.new_pepper = "new";
    for (size_t i = 0; i < sizeof others / sizeof *others; i++) {
        login.password = others[i];
        check(gives(PROVED_ARGON2_MISMATCH), "another password never matches");
    }
    login.password = "password";
    login.pepper = "new";
    check(gives(PROVED_ARGON2_MISMATCH), "the new pepper does not verify the old hash");
    login.pepper = "secret";
    login.ad = "bd";
    check(gives(PROVED_ARGON2_MISMATCH), "nor do other data");
    begin_login();
    login.text = stored + 1;
    check(gives(PROVED_ARGON2_DECODING_FAIL), "a text that is no hash");
    begin_login();
    const proved_argon2_limits least = {4096, 3, 1, 12287};
    login.with.limits = &least;
    check(gives(PROVED_ARGON2_TOO_COSTLY), "a hash above the limits");
    begin_login();
    login.with.new_settings = NULL;
    check(gives(PROVED_ARGON2_NULL_POINTER), "no new settings");
    begin_login();
    login.with.size--;
    check(gives(PROVED_ARGON2_WRONG_LENGTH), "options of a wrong size");
}

/* Stops a call after this many slices. */
static int stop_at(void *arg, uint64_t done, uint64_t all)
{
    int *const left = arg;
    return done <= all && --*left == 0;
}

/* The new hash has 95 characters. */
static void check_new_hashes_that_fail(void)
{
    proved_argon2_settings other = of_stored;
    int left = 0;
    begin_login();
    login.with.new_salt_len = 16;
    login.new_text_len = 95;
    check(gives(PROVED_ARGON2_WRONG_LENGTH), "no room for a new hash, although none is needed");
    login.new_text_len = 0;
    check(gives(PROVED_ARGON2_OK), "no new hash is wanted");
    login.new_text_len = 96;
    check(renews(&of_stored, 16), "there is just enough room");
    no_random_bytes = 1;
    check(gives(PROVED_ARGON2_OK), "a password matches although the system has no random bytes");
    no_random_bytes = 0;
    missing = 1;
    check(gives(PROVED_ARGON2_OK), "or too few");
    missing = 0;
    login.with.progress = stop_at;
    login.with.arg = &left;
    left = 12;
    check(gives(PROVED_ARGON2_STOPPED), "the verification is stopped");
    left = 13;
    check(gives(PROVED_ARGON2_OK) && left == 0, "the new hash is stopped");
    left = 25;
    check(gives(PROVED_ARGON2_NEEDS_REHASH) && left == 1, "both report their progress");
    login.with.progress = NULL;
    login.with.new_settings = &other;
    login.new_text_len = PROVED_ARGON2_TEXT_SIZE;
    other.time_cost = 0;
    check(gives(PROVED_ARGON2_OK), "no hash can have the new settings");
    other = of_stored;
    other.variant = 3;
    check(gives(PROVED_ARGON2_OK), "or their variant");
    other = of_stored;
    login.with.new_salt_len = (size_t)UINT32_MAX + 1;
    asked_for = 0;
    const bool is_too_long = login.with.new_salt_len > UINT32_MAX; /* (where addresses have 64 bits) */
    check(gives(is_too_long ? PROVED_ARGON2_OK : PROVED_ARGON2_NEEDS_REHASH) && (!is_too_long || asked_for == 0),
        "or such a long salt, which is not made");
}

/* ---- a user who does not exist */

/* The least processor time, in seconds, of calls that return a mismatch. */
static double time_of(const char *text, const proved_argon2_settings *settings)
{
    double least = 1e9;
    for (int turn = 0; turn < 5; turn++) {
        const clock_t begun = clock();
        const uint32_t code = text == NULL
            ? proved_argon2_password_verify_unknown(&with, settings, "password", 8, pepper, 5)
            : proved_argon2_password_verify_with(&with, text, "Password", 8, pepper, 5);
        const double time = (double)(clock() - begun) / CLOCKS_PER_SEC;
        least = code == PROVED_ARGON2_MISMATCH && time < least ? time : least;
    }
    return least;
}

static void check_unknown(void)
{
    const proved_argon2_settings settings = proved_argon2_owasp2();
    const proved_argon2_settings invalid = {PROVED_ARGON2_ID, PROVED_ARGON2_VERSION_13, 8, 0, 1, 32};
    char text[PROVED_ARGON2_TEXT_SIZE];
    uint32_t code = proved_argon2_password_hash_with(&with, &settings, text, "password", 8, pepper, 5);
    const double known = time_of(text, &settings), unknown = time_of(NULL, &settings);
    printf("%f s for a stored hash, %f s without one\n", known, unknown);
    check(code == PROVED_ARGON2_OK && unknown > known / 2 && unknown < 2 * known,
        "an unknown user takes as long as a wrong password");
    code = proved_argon2_password_verify_unknown(&with, &settings, "", 0, NULL, 0);
    check_code(code, PROVED_ARGON2_MISMATCH, "an unknown user never matches, even without a password or a pepper");
    code = proved_argon2_password_verify_unknown(&with, &invalid, "password", 8, NULL, 0);
    check_code(code, PROVED_ARGON2_TIME_TOO_SMALL, "an unknown user with settings that no hash has");
    code = proved_argon2_password_verify_unknown(&with, &settings, "", 0, pepper, (size_t)UINT32_MAX + 1);
    check_code(code, PROVED_ARGON2_SECRET_TOO_LONG, "an unknown user with a pepper that is too long");
    const proved_argon2_settings long_tag = {PROVED_ARGON2_ID, PROVED_ARGON2_VERSION_13, 64, 1, 1, 1000};
    code = proved_argon2_password_verify_unknown(&with, &long_tag, "password", 8, NULL, 0);
    check_code(code, PROVED_ARGON2_MISMATCH, "an unknown user with a tag longer than the text of other calls");
    const proved_argon2_options stopped = {.size = sizeof stopped, .progress = stop};
    code = proved_argon2_password_verify_unknown(&stopped, &settings, "password", 8, NULL, 0);
    check_code(code, PROVED_ARGON2_STOPPED, "a call for an unknown user can be stopped");
}

int main(void)
{
    check_password();
    check_rehash();
    check_renewals();
    check_other_verdicts();
    check_new_hashes_that_fail();
    check_unknown();
    return finish();
}
