/* The proved calls, as portable C, for proved_argon2_table.c: each runs the module that is translated in
 * module_code.h, with a stack of its own, over the caller's memory. It is tested and not proved. */
#include "driver.h"

#include "module.h"
#include "module_code.h"

#pragma GCC visibility push(hidden)

#define STACK_BELOW 16384 /* bytes: the translated functions' own variables take less */
#define WORD 4
#define WORDS 6 /* of settings, and of a job behind its H0 */
#define ROUNDED_DOWN(address, to) ((address) - (address) % (to))

/* What a call's module has: its stack, its data, and the structures that it is passed, laid out as WebAssembly's; and
 * the caller's structures for its results. */
struct instance {
    Z_proved_instance_t module;
    u8 stack[MODULE_STACK + 16];
    u8 data[sizeof module_data];
    u8 settings[WORDS * WORD];
    u8 limits[6 * WORD];
    u8 stored[(WORDS + 1) * WORD];
    u8 job[64 + WORDS * WORD];
    proved_argon2_job *to_job;
    proved_argon2_stored *to_stored;
};

_Static_assert(sizeof(proved_argon2_settings) == WORDS * WORD && sizeof(proved_argon2_job) == 64 + WORDS * WORD
        && sizeof(proved_argon2_stored) == (WORDS + 1) * WORD,
    "structures without padding");

static void open_instance(struct instance *instance)
{
    const u64 data = ADDRESS(instance->data);
    memcpy(instance->data, module_data, sizeof instance->data);
    for (size_t i = 0; i < sizeof module_addresses / sizeof *module_addresses; i++) {
        const u16 at = module_addresses[i];
        Z_memoryZ_i64_store(NULL, data, data + Z_memoryZ_i64_load(NULL, data, at), at);
    }
    instance->module.Z_memory_instance = NULL;
    instance->module.w2c___stack_pointer = ROUNDED_DOWN(ADDRESS(instance->stack + sizeof instance->stack), 16);
    instance->module.w2c_data = data;
    instance->module.w2c_is_in_call = 0;
    instance->to_job = NULL;
    instance->to_stored = NULL;
}

/* Writes zeros that no compiler leaves out: it cannot know that this is memset. */
static void *(*const volatile fill)(void *, int, size_t) = memset;

#if defined(__has_attribute)
#if __has_attribute(noinline) && __has_attribute(zero_call_used_regs)
#define LAST __attribute__((noinline, zero_call_used_regs("all")))
#elif __has_attribute(noinline)
#define LAST __attribute__((noinline))
#endif
#endif
#ifndef LAST
#define LAST
#endif

/* Clears what the translated functions left of their own variables, and the registers where the compiler can do so. */
LAST static void clear_below(void)
{
    u8 below[STACK_BELOW];
    fill(below, 0, sizeof below);
}

/* ---- structures */

/* Copies words from this processor's order to WebAssembly's, or back. */
static void copy_words(void *to, const void *from, size_t count)
{
    for (size_t i = 0; i < count; i++) {
        u32 word;
        memcpy(&word, (const u8 *)from + i * WORD, WORD);
        Z_memoryZ_i32_store(NULL, ADDRESS(to), word, i * WORD);
    }
}

static u64 settings_in(struct instance *instance, const proved_argon2_settings *settings)
{
    copy_words(instance->settings, settings, WORDS);
    return ADDRESS(instance->settings);
}

static u64 limits_in(struct instance *instance, const proved_argon2_limits *limits)
{
    copy_words(instance->limits, limits, 3);
    Z_memoryZ_i64_store(NULL, ADDRESS(instance->limits), limits->work, 4 * WORD);
    return ADDRESS(instance->limits);
}

static void copy_job(void *to, const void *from)
{
    memcpy(to, from, 64);
    copy_words((u8 *)to + 64, (const u8 *)from + 64, WORDS);
}

static u64 job_in(struct instance *instance, const proved_argon2_job *job)
{
    copy_job(instance->job, job);
    return ADDRESS(instance->job);
}

/* Ends a call with its code: hands over what it wrote, and clears all else. */
static u32 close_instance(struct instance *instance, u32 code)
{
    if (code == PROVED_ARGON2_OK && instance->to_job != NULL) {
        copy_job(instance->to_job, instance->job);
    }
    if (code == PROVED_ARGON2_OK && instance->to_stored != NULL) {
        copy_words(instance->to_stored, instance->stored, WORDS + 1);
    }
    fill(instance, 0, sizeof *instance);
    clear_below();
    return code;
}

/* ---- the calls */

#define ARGUMENTS(...) __VA_ARGS__
#define BYTES(name) ADDRESS(name), name##_len
#define BYTES_OF_INPUTS BYTES(pwd), BYTES(salt), BYTES(secret), BYTES(ad)
#define SETTINGS(settings) settings_in(&its, settings)
#define LIMITS(limits) limits_in(&its, limits)
#define JOB(job) job_in(&its, job)
#define TO_JOB(job) (its.to_job = job, ADDRESS(its.job))
#define TO_STORED(stored) (its.to_stored = stored, ADDRESS(its.stored))
#define CALL(name, given, is_missing, passed) \
    uint32_t proved_portable_##name given \
    { \
        struct instance its; \
        open_instance(&its); \
        return close_instance(&its, w2c_proved_argon2_##name(&its.module, ARGUMENTS passed)); \
    }
#define COMPUTES(name, given, is_missing, is_misaligned, passed) CALL(name, given, is_missing, passed)
#define LENGTH(name, given, passed) \
    uint64_t proved_portable_##name given \
    { \
        struct instance its; \
        open_instance(&its); \
        return w2c_proved_argon2_##name(&its.module, ARGUMENTS passed); \
    }
#define PRESET(name) \
    proved_argon2_settings proved_portable_##name(void) \
    { \
        struct instance its; \
        proved_argon2_settings settings; \
        open_instance(&its); \
        w2c_proved_argon2_##name(&its.module, ADDRESS(its.settings)); \
        copy_words(&settings, its.settings, WORDS); \
        return settings; \
    }
#include "proved_calls.h"

uint32_t proved_portable_library_version(void)
{
    struct instance its;
    open_instance(&its);
    return w2c_proved_argon2_library_version(&its.module);
}

proved_argon2_limits proved_portable_default_limits(void)
{
    struct instance its;
    proved_argon2_limits limits;
    open_instance(&its);
    w2c_proved_argon2_default_limits(&its.module, ADDRESS(its.limits));
    copy_words(&limits, its.limits, 3);
    limits.work = Z_memoryZ_i64_load(NULL, ADDRESS(its.limits), 4 * WORD);
    return limits;
}
