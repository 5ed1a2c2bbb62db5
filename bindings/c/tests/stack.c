/*
 * How much stack each call uses, measured on a painted stack. It must be less than half of PROVED_ARGON2_STACK_SIZE,
 * whatever the settings; or at most the bytes that the argument names.
 */
#include "checks.h"

#include <pthread.h>
#include <stdlib.h>

enum { STACK = 1 << 20, PAINT = 0xa5 };

static const proved_argon2_settings settings = {PROVED_ARGON2_ID, PROVED_ARGON2_VERSION_13, 4096, 2, 4, 64};
static const proved_argon2_settings long_tag = {PROVED_ARGON2_I, PROVED_ARGON2_VERSION_10, 1024, 3, 1, 8192};

static char text[16384];
static uint8_t tag[8192], salt[4096];
static uint32_t answer;

static void *nothing(void *unused)
{
    answer = PROVED_ARGON2_OK;
    return unused;
}

static void *hash_raw(void *unused)
{
    answer = proved_argon2_hash_raw(
        salt, sizeof salt, salt, sizeof salt, salt, sizeof salt, salt, sizeof salt, &long_tag, tag, sizeof tag);
    return unused;
}

static void *hash_encoded(void *unused)
{
    answer = proved_argon2_hash_encoded(salt, 32, salt, sizeof salt, NULL, 0, NULL, 0, &settings, text, sizeof text);
    return unused;
}

static void *verify_raw(void *unused)
{
    answer = proved_argon2_verify_raw(
        salt, sizeof salt, salt, sizeof salt, salt, sizeof salt, salt, sizeof salt, &long_tag, tag, sizeof tag);
    return unused;
}

static void *verify_encoded(void *unused)
{
    answer = proved_argon2_verify_encoded(text, strlen(text), salt, 32, NULL, 0, NULL, 0);
    return unused;
}

static int tells(void *arg, uint64_t done, uint64_t all)
{
    (void)arg;
    return done > all;
}

/* In steps, and by threads with stacks of their own. */
static void *hash_raw_with(void *unused)
{
    proved_argon2_options with = PROVED_ARGON2_OPTIONS;
    with.progress = tells;
    answer = proved_argon2_hash_raw_with(
        &with, salt, sizeof salt, salt, sizeof salt, salt, sizeof salt, salt, sizeof salt, &long_tag, tag, sizeof tag);
    return unused;
}

static void *verify_encoded_with(void *unused)
{
    proved_argon2_options with = PROVED_ARGON2_OPTIONS;
    with.threads = 4;
    answer = proved_argon2_verify_encoded_with(&with, text, strlen(text), salt, 32, NULL, 0, NULL, 0);
    return unused;
}

static void *read(void *unused)
{
    proved_argon2_stored stored;
    answer = proved_argon2_read(text, strlen(text), &stored);
    return unused;
}

static void *needs_rehash(void *unused)
{
    answer = proved_argon2_needs_rehash(text, strlen(text), &settings);
    return unused;
}

static void *small_calls(void *unused)
{
    const proved_argon2_settings recommended = proved_argon2_owasp2();
    answer = proved_argon2_encoded_len(&recommended, 16) == 0;
    answer |= proved_argon2_message(PROVED_ARGON2_MISMATCH) == NULL;
    return unused;
}

/* Returns how many bytes of a painted stack a call used, including its thread's own. */
static size_t depth_of(void *(*call)(void *))
{
    pthread_t thread;
    pthread_attr_t attributes;
    uint8_t *stack = (uint8_t *)aligned_alloc(4096, STACK);
    size_t untouched = 0;
    if (stack == NULL || pthread_attr_init(&attributes) != 0) {
        return SIZE_MAX;
    }
    memset(stack, PAINT, STACK);
    answer = PROVED_ARGON2_UNKNOWN_NUMBER;
    if (pthread_attr_setstack(&attributes, stack, STACK) != 0 || pthread_create(&thread, &attributes, call, NULL) != 0
        || pthread_join(thread, NULL) != 0) {
        return SIZE_MAX;
    }
    while (untouched < STACK && stack[untouched] == PAINT) {
        untouched++;
    }
    pthread_attr_destroy(&attributes);
    free(stack);
    return STACK - untouched;
}

static size_t most = PROVED_ARGON2_STACK_SIZE / 2 - 1;

static void check_depth(void *(*call)(void *), size_t idle, const char *name)
{
    const size_t depth = depth_of(call);
    const size_t taken = depth - idle;
    printf("%s: %zu bytes of stack\n", name, taken);
    check(answer == PROVED_ARGON2_OK && depth >= idle && taken <= most, name);
}

int main(int argc, char **argv)
{
    most = argc > 1 ? strtoul(argv[1], NULL, 10) : most;
    depth_of(nothing); /* (the first thread of a process also binds what the C library calls) */
    const size_t idle = depth_of(nothing);
    check_depth(hash_raw, idle, "stack of hash_raw");
    check_depth(hash_encoded, idle, "stack of hash_encoded");
    check_depth(verify_raw, idle, "stack of verify_raw");
    check_depth(verify_encoded, idle, "stack of verify_encoded");
    check_depth(hash_raw_with, idle, "stack of hash_raw_with");
    check_depth(verify_encoded_with, idle, "stack of verify_encoded_with");
    check_depth(read, idle, "stack of read");
    check_depth(needs_rehash, idle, "stack of needs_rehash");
    check_depth(small_calls, idle, "stack of the calls without memory");
    return finish();
}
