/* The calls for C that hash or verify. They combine proved calls, and are themselves tested, not proved. */
#include "driver.h"

static const options plain = PROVED_ARGON2_OPTIONS; /* one thread, and memory that the call allocates */

/* Makes the job of a hash, which checks its inputs. If the output has a wrong length, an error of the inputs comes
 * first. */
static uint32_t make_job(struct call *call, INPUTS, bool is_length_right)
{
    if (is_length_right) {
        return proved_argon2_job_make(OF_INPUTS, &call->job);
    }
    const uint32_t code = proved_argon2_check(settings, pwd_len, salt_len, secret_len, ad_len);
    return code == PROVED_ARGON2_OK ? PROVED_ARGON2_WRONG_LENGTH : code;
}

uint32_t proved_argon2_hash_raw_with(const options *with, INPUTS, uint8_t *out, size_t out_len)
{
    struct call call;
    uint32_t code = proved_driver_begin_call(&call, with, ARE_INPUTS_MISSING || IS_MISSING(out));
    if (code != PROVED_ARGON2_OK) {
        goto end;
    }
    code = make_job(&call, OF_INPUTS, out_len == settings->hash_length);
    if (code != PROVED_ARGON2_OK) {
        goto end;
    }
    code = proved_driver_compute_kept(&call, NULL, out);
end:
    return proved_driver_end_call(&call, code);
}

uint32_t proved_argon2_hash_raw(INPUTS, uint8_t *out, size_t out_len)
{
    return proved_argon2_hash_raw_with(&plain, OF_INPUTS, out, out_len);
}

uint32_t proved_argon2_hash_encoded_with(const options *with, INPUTS, char *text, size_t text_len)
{
    struct call call;
    uint32_t code = proved_driver_begin_call(&call, with, ARE_INPUTS_MISSING || IS_MISSING(text));
    if (code != PROVED_ARGON2_OK) {
        goto end;
    }
    code = make_job(&call, OF_INPUTS, text_len > proved_argon2_encoded_len(settings, (uint32_t)salt_len));
    if (code != PROVED_ARGON2_OK) {
        goto end;
    }
    code = proved_driver_take_bytes(&call, call.job.hash_length);
    if (code != PROVED_ARGON2_OK) {
        goto end;
    }
    code = proved_driver_compute_kept(&call, NULL, call.bytes);
    if (code != PROVED_ARGON2_OK) {
        goto end;
    }
    memset(text, 0, text_len); /* (the proof of encode assumes initialized memory, and encode does not fail here) */
    code = proved_argon2_encode(salt, salt_len, settings, call.bytes, call.len, text, text_len);
end:
    return proved_driver_end_call(&call, code);
}

uint32_t proved_argon2_hash_encoded(INPUTS, char *text, size_t text_len)
{
    return proved_argon2_hash_encoded_with(&plain, OF_INPUTS, text, text_len);
}

uint32_t proved_argon2_verify_raw_with(const options *with, INPUTS, const uint8_t *hash, size_t hash_len)
{
    struct call call;
    uint32_t code = proved_driver_begin_call(&call, with, ARE_INPUTS_MISSING || IS_MISSING(hash));
    if (code != PROVED_ARGON2_OK) {
        goto end;
    }
    proved_argon2_settings own = *settings;
    own.hash_length = hash_len > UINT32_MAX ? UINT32_MAX : (uint32_t)hash_len;
    code = proved_argon2_job_make(OF_BYTES, &own, &call.job);
    if (code == PROVED_ARGON2_OK && hash_len > UINT32_MAX) {
        code = PROVED_ARGON2_OUTPUT_TOO_LONG;
    }
    if (code != PROVED_ARGON2_OK) {
        goto end;
    }
    code = proved_driver_take_bytes(&call, hash_len);
    if (code != PROVED_ARGON2_OK) {
        goto end;
    }
    code = proved_driver_compute_kept(&call, hash, call.bytes);
end:
    return proved_driver_end_call(&call, code);
}

uint32_t proved_argon2_verify_raw(INPUTS, const uint8_t *hash, size_t hash_len)
{
    return proved_argon2_verify_raw_with(&plain, OF_INPUTS, hash, hash_len);
}

static bool are_same(const proved_argon2_settings *one, const proved_argon2_settings *other)
{
    return one->variant == other->variant && one->version == other->version && one->mem_cost == other->mem_cost
        && one->time_cost == other->time_cost && one->lanes == other->lanes && one->hash_length == other->hash_length;
}

/* Whether an encoded hash has the settings of new hashes, and a salt as long as theirs if the options name a length. */
static bool is_new(const proved_argon2_stored *stored, const options *with)
{
    const bool is_salt_new = with->new_salt_len == 0 || stored->salt_length == with->new_salt_len;
    return is_salt_new && are_same(&stored->settings, with->new_settings);
}

/* Reads the job of an encoded hash. The call's bytes then contain the stored tag, room for the computed tag, and the
 * salt. The encoded hash is checked first, so that a rejected one costs no memory. */
static uint32_t read_text(struct call *call, STORED)
{
    static const proved_argon2_limits none = {UINT32_MAX, UINT32_MAX, UINT32_MAX, UINT64_MAX};
    const proved_argon2_limits *const limits = call->with.limits != NULL ? call->with.limits : &none;
    proved_argon2_stored stored = {0};
    uint32_t code = proved_argon2_check_encoded(text, text_len, limits, pwd_len, secret_len, ad_len, &stored);
    if (code != PROVED_ARGON2_OK) {
        return code;
    }
    call->is_rehash_due = call->with.new_settings != NULL && !is_new(&stored, &call->with);
    const size_t len = stored.settings.hash_length, salt_len = stored.salt_length;
    code = proved_driver_take_bytes(call, 2 * (uint64_t)len + salt_len);
    if (code != PROVED_ARGON2_OK) {
        return code;
    }
    return proved_argon2_job_read(OF_STORED, &call->job, call->bytes + 2 * len, salt_len, call->bytes, len);
}

static void limit_threads(struct call *call)
{
    if (call->with.threads > PROVED_ARGON2_MAX_VERIFYING_THREADS) {
        call->with.threads = PROVED_ARGON2_MAX_VERIFYING_THREADS;
    }
}

uint32_t proved_argon2_verify_encoded_with(const options *with, STORED)
{
    struct call call;
    uint32_t code = proved_driver_begin_call(&call, with, IS_STORED_MISSING);
    if (code != PROVED_ARGON2_OK) {
        goto end;
    }
    limit_threads(&call);
    code = read_text(&call, OF_STORED);
    if (code != PROVED_ARGON2_OK) {
        goto end;
    }
    code = proved_driver_compute_kept(&call, call.bytes, call.bytes + call.job.hash_length);
    /* (is_rehash_due comes first: so no branch depends on the verdict, unless the caller asked about a rehash.) */
    if (call.is_rehash_due && code == PROVED_ARGON2_OK) {
        code = PROVED_ARGON2_NEEDS_REHASH;
    }
end:
    return proved_driver_end_call(&call, code);
}

uint32_t proved_argon2_verify_encoded(STORED)
{
    return proved_argon2_verify_encoded_with(&plain, OF_STORED);
}

uint32_t proved_argon2_verify_encoded_within(STORED, const proved_argon2_limits *limits)
{
    const options with = {.size = sizeof with, .limits = limits};
    return proved_argon2_verify_encoded_with(limits == NULL ? NULL : &with, OF_STORED);
}

/* Copies a job. The copy passes through vector registers, so they are cleared: a signal that arrives in a callback
 * would otherwise save them on its stack. */
static CLEARS_REGISTERS void take_job(struct call *call, const proved_argon2_job *job)
{
    call->job = *job;
}

/* Computes the tag of a job. If hash is not null, returns whether hash equals the tag. */
static uint32_t run(const options *with, const proved_argon2_job *job, const uint8_t *hash, uint8_t *tag, size_t len)
{
    struct call call;
    uint32_t code = proved_driver_begin_call(&call, with, job == NULL || (hash == NULL && tag == NULL && len != 0));
    if (code != PROVED_ARGON2_OK) {
        goto end;
    }
    take_job(&call, job);
    code = proved_argon2_job_check(&call.job);
    if (code == PROVED_ARGON2_OK && len != call.job.hash_length) {
        code = PROVED_ARGON2_WRONG_LENGTH;
    }
    if (code == PROVED_ARGON2_OK && hash != NULL) {
        code = proved_driver_take_bytes(&call, len);
    }
    if (code != PROVED_ARGON2_OK) {
        goto end;
    }
    code = proved_driver_compute_kept(&call, hash, hash == NULL ? tag : call.bytes);
end:
    return proved_driver_end_call(&call, code);
}

uint32_t proved_argon2_job_run(const options *with, const proved_argon2_job *job, uint8_t *tag, size_t tag_len)
{
    return run(with, job, NULL, tag, tag_len);
}

uint32_t proved_argon2_job_run_verify(
    const options *with, const proved_argon2_job *job, const uint8_t *hash, size_t hash_len)
{
    return run(with, job, hash, NULL, hash_len);
}

uint32_t proved_argon2_password_hash_with(const options *with, const proved_argon2_settings *settings, char *text,
    const void *password, size_t length, const uint8_t *pepper, size_t pepper_len)
{
    uint8_t salt[PROVED_ARGON2_SALT_SIZE];
    if (with == NULL || settings == NULL || text == NULL || (password == NULL && length != 0) || IS_MISSING(pepper)) {
        return PROVED_ARGON2_NULL_POINTER;
    }
    const caller saved = proved_driver_keep_caller();
    const bool has_salt = proved_driver_take_random(salt, sizeof salt);
    proved_driver_restore_caller(saved);
    if (!has_salt) {
        return PROVED_ARGON2_NO_RANDOM_BYTES;
    }
    return proved_argon2_hash_encoded_with(with, password, length, salt, sizeof salt, pepper, pepper_len, NULL, 0,
        settings, text, PROVED_ARGON2_TEXT_SIZE);
}

uint32_t proved_argon2_password_hash(char text[PROVED_ARGON2_TEXT_SIZE], const void *password, size_t length)
{
    const proved_argon2_settings settings = proved_argon2_owasp2();
    return proved_argon2_password_hash_with(&plain, &settings, text, password, length, NULL, 0);
}

uint32_t proved_argon2_password_verify_with(const options *with, const char *text, const void *password, size_t length,
    const uint8_t *pepper, size_t pepper_len)
{
    return proved_argon2_verify_encoded_with(text == NULL ? NULL : with, text, text == NULL ? 0 : strlen(text),
        password, length, pepper, pepper_len, NULL, 0);
}

uint32_t proved_argon2_password_verify(const char *text, const void *password, size_t length)
{
    const proved_argon2_limits limits = proved_argon2_default_limits();
    const options with = {.size = sizeof with, .limits = &limits};
    return proved_argon2_password_verify_with(&with, text, password, length, NULL, 0);
}

/* Computes what the verification of a hash with these settings computes. The salt is fixed: nobody learns the tag. */
uint32_t proved_argon2_password_verify_unknown(const options *with, const proved_argon2_settings *settings,
    const void *password, size_t length, const uint8_t *pepper, size_t pepper_len)
{
    static const uint8_t salt[PROVED_ARGON2_SALT_SIZE] = {0};
    const bool is_missing = settings == NULL || (password == NULL && length != 0) || IS_MISSING(pepper);
    struct call call;
    uint32_t code = proved_driver_begin_call(&call, with, is_missing);
    if (code != PROVED_ARGON2_OK) {
        goto end;
    }
    limit_threads(&call);
    code = make_job(&call, password, length, salt, sizeof salt, pepper, pepper_len, NULL, 0, settings, true);
    if (code != PROVED_ARGON2_OK) {
        goto end;
    }
    code = proved_driver_take_bytes(&call, call.job.hash_length);
    if (code != PROVED_ARGON2_OK) {
        goto end;
    }
    code = proved_driver_compute_kept(&call, NULL, call.bytes);
end:
    code = proved_driver_end_call(&call, code);
    return code == PROVED_ARGON2_OK ? PROVED_ARGON2_MISMATCH : code;
}

/* Writes a hash with the new settings and a new salt. The settings are checked before the salt is allocated, which
 * might be huge. */
static uint32_t hash_anew(struct call *call, const options *with, size_t salt_len, const void *pwd, size_t pwd_len,
    const uint8_t *pepper, size_t pepper_len, const uint8_t *ad, size_t ad_len, char *text, size_t text_len)
{
    uint32_t code = proved_argon2_check(with->new_settings, pwd_len, salt_len, pepper_len, ad_len);
    if (code == PROVED_ARGON2_OK) {
        code = proved_driver_take_bytes(call, salt_len);
    }
    if (code == PROVED_ARGON2_OK && !proved_driver_take_random(call->bytes, salt_len)) {
        code = PROVED_ARGON2_NO_RANDOM_BYTES;
    }
    if (code != PROVED_ARGON2_OK) {
        return code;
    }
    return proved_argon2_hash_encoded_with(
        with, pwd, pwd_len, call->bytes, salt_len, pepper, pepper_len, ad, ad_len, with->new_settings, text, text_len);
}

uint32_t proved_argon2_password_renew(const options *with, const char *text, size_t text_len, const void *password,
    size_t length, const uint8_t *pepper, size_t pepper_len, const uint8_t *new_pepper, size_t new_pepper_len,
    const uint8_t *ad, size_t ad_len, char *new_text, size_t new_text_len)
{
    struct call call;
    const bool is_missing = IS_MISSING(text) || (password == NULL && length != 0) || IS_MISSING(pepper)
        || IS_MISSING(new_pepper) || IS_MISSING(ad) || IS_MISSING(new_text);
    const bool has_new = new_pepper_len != 0;
    uint32_t code = proved_driver_begin_call(&call, with, is_missing);
    if (code == PROVED_ARGON2_OK && with->new_settings == NULL) {
        code = PROVED_ARGON2_NULL_POINTER;
    }
    if (code != PROVED_ARGON2_OK) {
        goto end;
    }
    const size_t salt_len = with->new_salt_len == 0 ? PROVED_ARGON2_SALT_SIZE : with->new_salt_len;
    if (new_text_len != 0 && new_text_len <= proved_argon2_encoded_len(with->new_settings, (uint32_t)salt_len)) {
        code = PROVED_ARGON2_WRONG_LENGTH;
        goto end;
    }
    code = proved_argon2_verify_encoded_with(with, text, text_len, password, length, pepper, pepper_len, ad, ad_len);
    if (code == PROVED_ARGON2_NEEDS_REHASH || (code == PROVED_ARGON2_OK && has_new)) {
        const bool is_renewed = new_text_len != 0
            && hash_anew(&call, with, salt_len, password, length, has_new ? new_pepper : pepper,
                   has_new ? new_pepper_len : pepper_len, ad, ad_len, new_text, new_text_len)
                == PROVED_ARGON2_OK;
        code = is_renewed ? PROVED_ARGON2_NEEDS_REHASH : PROVED_ARGON2_OK;
    }
end:
    return proved_driver_end_call(&call, code);
}
