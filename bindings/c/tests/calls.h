/* For tests of the calls with options: their inputs, libargon2's tag, and a progress callback. */
#ifndef CALLS_H
#define CALLS_H

#include "checks.h"

#include <argon2.h>
#include <stdarg.h>
#include <stdlib.h>

enum { LONGEST = 5002, INPUTS = LONGEST, SHORT = 40 };

struct call {
    proved_argon2_settings settings;
    uint8_t pwd[INPUTS], salt[INPUTS], secret[INPUTS], ad[INPUTS];
    uint32_t pwd_len, salt_len, secret_len, ad_len;
};

static uint64_t state = 88172645463325252u;

static inline uint32_t below(uint32_t end)
{
    state ^= state << 13;
    state ^= state >> 7;
    state ^= state << 17;
    return (uint32_t)(state % end);
}

/* A random length of at least this: half of them are short, and half are near lengths at which code may branch. */
static inline uint32_t length(uint32_t least)
{
    static const uint32_t lengths[] = {8, 32, 64, 72, 128, 200, 300, 1000, 5000};
    const uint32_t near = lengths[below(sizeof lengths / sizeof *lengths)] + below(5) - 2;
    return below(2) ? least + below(SHORT - least) : near < least ? least : near;
}

static inline uint32_t some(uint8_t *bytes, uint32_t least)
{
    const uint32_t len = length(least);
    for (size_t i = 0; i < len; i++) {
        bytes[i] = (uint8_t)below(256);
    }
    return len;
}

static inline struct call any_call(uint32_t most_lanes)
{
    struct call call;
    const uint32_t lanes = 1 + below(below(2) ? most_lanes : 8), version = below(2) ? 0x10 : 0x13;
    call.settings = (proved_argon2_settings){below(3), version, 8 * lanes + below(300), 1 + below(3), lanes, length(4)};
    call.pwd_len = some(call.pwd, 0);
    call.salt_len = some(call.salt, 8);
    call.secret_len = some(call.secret, 0);
    call.ad_len = some(call.ad, 0);
    return call;
}

static inline uint32_t hash_raw(const proved_argon2_options *with, const struct call *call, uint8_t *out)
{
    return proved_argon2_hash_raw_with(with, call->pwd, call->pwd_len, call->salt, call->salt_len, call->secret,
        call->secret_len, call->ad, call->ad_len, &call->settings, out, call->settings.hash_length);
}

static inline uint32_t hash_encoded(const proved_argon2_options *with, const struct call *call, char *text, size_t len)
{
    return proved_argon2_hash_encoded_with(with, call->pwd, call->pwd_len, call->salt, call->salt_len, call->secret,
        call->secret_len, call->ad, call->ad_len, &call->settings, text, len);
}

static inline uint32_t verify_raw(const proved_argon2_options *with, const struct call *call, const uint8_t *hash)
{
    return proved_argon2_verify_raw_with(with, call->pwd, call->pwd_len, call->salt, call->salt_len, call->secret,
        call->secret_len, call->ad, call->ad_len, &call->settings, hash, call->settings.hash_length);
}

static inline uint32_t verify_encoded(const proved_argon2_options *with, const struct call *call, const char *text)
{
    return proved_argon2_verify_encoded_with(
        with, text, strlen(text), call->pwd, call->pwd_len, call->secret, call->secret_len, call->ad, call->ad_len);
}

#if defined(__linux__) && !defined(__GLIBC__)
/* A function of the GNU C library that Debian's static libargon2 calls, for programs with musl. */
int __sprintf_chk(char *text, int flag, size_t len, const char *format, ...)
{
    va_list all;
    va_start(all, format);
    const int written = vsnprintf(text, flag ? len : len, format, all);
    va_end(all);
    return written;
}
#endif

/* The tag of libargon2. */
static inline bool peer(const struct call *call, uint8_t *out)
{
    struct call own = *call;
    argon2_context context = {.out = out,
        .outlen = own.settings.hash_length,
        .pwd = own.pwd,
        .pwdlen = own.pwd_len,
        .salt = own.salt,
        .saltlen = own.salt_len,
        .secret = own.secret,
        .secretlen = own.secret_len,
        .ad = own.ad,
        .adlen = own.ad_len,
        .t_cost = own.settings.time_cost,
        .m_cost = own.settings.mem_cost,
        .lanes = own.settings.lanes,
        .threads = 1,
        .version = own.settings.version,
        .flags = ARGON2_DEFAULT_FLAGS};
    return argon2_ctx(&context, (argon2_type)own.settings.variant) == ARGON2_OK;
}

/* A progress callback with which a call goes on. It computes in steps then, even in one thread. */
static inline int goes_on(void *arg, uint64_t done, uint64_t all)
{
    (void)arg;
    return done > all;
}

static inline proved_argon2_options by(uint32_t threads)
{
    proved_argon2_options with = PROVED_ARGON2_OPTIONS;
    with.threads = threads;
    return with;
}

#endif
