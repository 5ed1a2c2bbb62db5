/* Runs the code of docs/C.md: hashes and verifies a password, in a call each; with the caller's salt, settings and
 * limits; for a user who may not exist, in a kept buffer. It also verifies an encoded hash of rust-argon2's tests, and
 * makes a call of a job, so that it makes a call of each header. It compiles as C and as C++. */
#include <proved_argon2.h>
#include <stdbool.h>
#include <string.h>

/* Writes the encoded hash to store for a new password. */
static bool make_hash(const char *password, char stored[PROVED_ARGON2_TEXT_SIZE])
{
    return proved_argon2_password_hash(stored, password, strlen(password)) == PROVED_ARGON2_OK;
}

/* Returns whether to let a user in who typed this password. */
static bool is_right(const char *password, const char *stored)
{
    return proved_argon2_password_verify(stored, password, strlen(password)) == PROVED_ARGON2_OK;
}

static bool make_hash_of_bytes(const uint8_t *pwd, size_t pwd_len, const uint8_t salt[16], char *text, size_t text_len)
{
    const proved_argon2_settings settings = proved_argon2_rfc9106_low_mem(); /* 64 MiB, 3 passes */
    const uint32_t code = proved_argon2_hash_encoded(
        pwd, pwd_len, salt, 16, NULL, 0, NULL, 0, &settings, text, text_len);
    return code == PROVED_ARGON2_OK;
}

static bool are_right_bytes(const uint8_t *pwd, size_t pwd_len, const char *text)
{
    const proved_argon2_limits limits = {65536, 3, 4, 196608}; /* KiB, passes, lanes, KiB times passes */
    const uint32_t code = proved_argon2_verify_encoded_within(
        text, strlen(text), pwd, pwd_len, NULL, 0, NULL, 0, &limits);
    return code == PROVED_ARGON2_OK;
}

/* All threads of a service share this. */
struct service {
    proved_argon2_settings new_settings;
    proved_argon2_limits limits;
    proved_argon2_options options;
};

static bool begin_service(struct service *service)
{
    const proved_argon2_options options = PROVED_ARGON2_OPTIONS;
    service->new_settings = proved_argon2_owasp2();
    service->limits = proved_argon2_default_limits();
    service->options = options;
    service->options.new_settings = &service->new_settings;
    service->options.limits = &service->limits;
    return proved_argon2_buffers_new(&service->new_settings, 8, &service->options.buffers) == PROVED_ARGON2_OK;
}

/* Returns the verdict of a login. `stored` is NULL for unknown users: the call takes as long, and never matches. */
static uint32_t log_in(const struct service *service, const char *stored, const char *password, size_t length)
{
    return stored == NULL
        ? proved_argon2_password_verify_unknown(&service->options, &service->new_settings, password, length, NULL, 0)
        : proved_argon2_password_verify_with(&service->options, stored, password, length, NULL, 0);
}

/* Returns whether the job of an encoded hash can be made. */
static bool has_job(const uint8_t *pwd, size_t pwd_len, const uint8_t *salt)
{
    const proved_argon2_settings settings = proved_argon2_owasp2();
    proved_argon2_job job;
    return proved_argon2_job_make(pwd, pwd_len, salt, 16, NULL, 0, NULL, 0, &settings, &job) == PROVED_ARGON2_OK;
}

int main(void)
{
    static const char outside[] =
        "$argon2id$v=19$m=256,t=2,p=16$c29tZXNhbHQ$0gasyPnKXiBHQ5bft/bd4jrmy2DdtrLTX3JR9co7fRY";
    static const uint8_t salt[16] = {1}, bytes[4] = {0, 1, 0xff, 0};
    char stored[PROVED_ARGON2_TEXT_SIZE], costly[PROVED_ARGON2_TEXT_SIZE];
    struct service service;
    bool holds = begin_service(&service) && is_right("password", outside) && !is_right("Password", outside);
    holds = holds && make_hash("correct horse", stored) && is_right("correct horse", stored);
    holds = holds && log_in(&service, stored, "correct horse", 13) == PROVED_ARGON2_OK;
    holds = holds && log_in(&service, stored, "wrong horse", 11) == PROVED_ARGON2_MISMATCH;
    holds = holds && log_in(&service, NULL, "correct horse", 13) == PROVED_ARGON2_MISMATCH;
    holds = holds && make_hash_of_bytes(bytes, 4, salt, costly, sizeof costly) && are_right_bytes(bytes, 4, costly);
    holds = holds && !are_right_bytes(bytes, 3, costly) && has_job(bytes, 4, salt);
    proved_argon2_buffers_free(service.options.buffers);
    return holds ? 0 : 1;
}
