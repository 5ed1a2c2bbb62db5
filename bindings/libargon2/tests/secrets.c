/* Checks that calls of libargon2.so.1 leave nothing of H0, blocks or the tag in writable memory or registers, even if a
 * symbol is bound lazily after them. With H0 a password guess costs one BLAKE2b. The proved calls
 * (libproved_argon2.a) say what to search for. It is linked with --wrap for what system.h replaces. */
#define _GNU_SOURCE
#include "search.h"

#include <sys/resource.h>

static uint8_t out[TEXT];

#define OF_ALONE \
    calls[ALONE].settings.time_cost, calls[ALONE].settings.mem_cost, 1, calls[ALONE].pwd, calls[ALONE].pwd_len, \
        calls[ALONE].salt, calls[ALONE].salt_len

static int does_hash(void)
{
    return argon2id_hash_raw(OF_ALONE, out, TAG);
}

static int does_hash_encoded(void)
{
    return argon2id_hash_encoded(OF_ALONE, TAG, (char *)out, TEXT);
}

static int does_verify(void)
{
    return argon2id_verify(sought->text, calls[ALONE].pwd, calls[ALONE].pwd_len);
}

static argon2_context context_of(struct call *call)
{
    return (argon2_context){.out = out,
        .outlen = TAG,
        .pwd = call->pwd,
        .pwdlen = call->pwd_len,
        .salt = call->salt,
        .saltlen = call->salt_len,
        .secret = call->secret,
        .secretlen = call->secret_len,
        .ad = call->ad,
        .adlen = call->ad_len,
        .t_cost = call->settings.time_cost,
        .m_cost = call->settings.mem_cost,
        .lanes = call->settings.lanes,
        .threads = call->settings.lanes,
        .version = call->settings.version};
}

/* The inputs are not written to, since there are no flags. */
static int does_ctx(void)
{
    argon2_context c = context_of((struct call *)(uintptr_t)&calls[SMALL]);
    return argon2id_ctx(&c);
}

static int does_verify_ctx(void)
{
    argon2_context c = context_of((struct call *)(uintptr_t)&calls[SMALL]);
    return argon2id_verify_ctx(&c, (const char *)zeros);
}

static const struct row {
    const char *name;
    int (*does)(void);
    size_t call;
    int expected;
} rows[] = {{"a hash", does_hash, ALONE, ARGON2_OK}, {"an encoded hash", does_hash_encoded, ALONE, ARGON2_OK},
    {"a verified one", does_verify, ALONE, ARGON2_OK}, {"a context", does_ctx, SMALL, ARGON2_OK},
    {"a verified context", does_verify_ctx, SMALL, ARGON2_VERIFY_MISMATCH},
    {"a hash without memory", does_hash, ALONE, ARGON2_MEMORY_ALLOCATION_ERROR},
    {"a verified one without memory", does_verify, ALONE, ARGON2_MEMORY_ALLOCATION_ERROR}};

static uint32_t does_row(const void *row)
{
    return (uint32_t)((const struct row *)row)->does();
}

/* Nothing else here calls getpgrp. */
static void calls_late(void)
{
    (void)!getpgrp();
}

/* In a process of its own, since a name is bound once, and what is denied stays so. */
static int leaves_something(const void *arg)
{
    const struct row *const row = arg;
    const struct rlimit none = {1 << 20, RLIM_INFINITY};
    seek(row->call);
    if (row->expected == ARGON2_MEMORY_ALLOCATION_ERROR) {
        setrlimit(RLIMIT_AS, &none);
    }
    const int code = (int)far_below(does_row, row);
    __real_explicit_bzero(out, sizeof out);
    setrlimit(RLIMIT_AS, &(struct rlimit){RLIM_INFINITY, RLIM_INFINITY});
    look_everywhere();
    return is_nothing_found(row->name) && code == row->expected ? 0 : 1;
}

int main(void)
{
    check_nothing_before();
    for (size_t i = 0; i < sizeof rows / sizeof *rows; i++) {
        calls_behind = NULL;
        check(status_of(leaves_something, &rows[i]) == 0, rows[i].name);
        calls_behind = calls_late;
        check(status_of(leaves_something, &rows[i]) == 0, "the same where a name is bound late");
    }
    return finish();
}
