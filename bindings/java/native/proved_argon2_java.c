/* The calls of the library for Java. Only the package's own class Native makes them. It passes null only for what stops
 * a call. Arrays are copied, since the garbage collector may move them while a hash is computed, and
 * copies are cleared. This is tested, not proved. */
#include <jni.h>
#include "proved_argon2.h"
#include <stdbool.h>
#include <stdlib.h>

/* A call that the class declares. (Compilers ask for a declaration in front.) */
#define CALL(type, name, ...) \
    JNIEXPORT type JNICALL Java_proved_argon2_Native_##name(JNIEnv *env, jclass class, __VA_ARGS__); \
    JNIEXPORT type JNICALL Java_proved_argon2_Native_##name( \
        JNIEnv *env, __attribute__((unused)) jclass class, __VA_ARGS__)

/* The order of Native.Call. */
enum { HASH, HASH_RAW, VERIFY, VERIFY_UNKNOWN, NEEDS_REHASH, RENEW };

/* The arrays of a call, and their copies. A hash that is renewed is passed no salt. */
enum { PASSWORD, SALT, NEW_PEPPER = SALT, PEPPER, DATA, TEXT, OUTPUT, ARRAYS };
typedef struct bytes {
    uint8_t *at;
    size_t len;
} bytes;
#define BYTES(name) of[name].at, of[name].len

/* What must_stop needs to ask Java: a BooleanSupplier, since shrinkers rename no method of Java's own interfaces. */
typedef struct caller {
    JNIEnv *env;
    jobject is_stopped;
    jmethodID get;
} caller;

/* Copies arrays, and returns whether there is memory. */
static bool copy(JNIEnv *env, const jbyteArray *arrays, bytes *of)
{
    for (size_t i = 0; i < ARRAYS; i++) {
        const jsize len = (*env)->GetArrayLength(env, arrays[i]);
        of[i].at = malloc((size_t)len + 1);
        if (of[i].at == NULL) return false;
        of[i].len = (size_t)len;
        (*env)->GetByteArrayRegion(env, arrays[i], 0, len, (jbyte *)of[i].at);
    }
    return true;
}

/* Clears and frees copies. */
static void discard(bytes *of)
{
    for (size_t i = 0; i < ARRAYS; i++) {
        for (volatile uint8_t *at = of[i].at; of[i].len > 0; of[i].len--) {
            *at++ = 0;
        }
        free(of[i].at);
    }
}

/* The settings, and the length of new salts. */
static proved_argon2_stored settings_of(JNIEnv *env, jintArray numbers)
{
    uint32_t of[7];
    (*env)->GetIntArrayRegion(env, numbers, 0, 7, (jint *)of);
    return (proved_argon2_stored){{of[0], of[1], of[2], of[3], of[4], of[5]}, of[6]};
}

static proved_argon2_limits limits_of(JNIEnv *env, jlongArray numbers)
{
    jlong of[4];
    (*env)->GetLongArrayRegion(env, numbers, 0, 4, of);
    return (proved_argon2_limits){(uint32_t)of[0], (uint32_t)of[1], (uint32_t)of[2], (uint64_t)of[3]};
}

/* Stops the call if nobody waits for it any more, or if asking throws an exception, as on a full stack. */
static int must_stop(void *arg, __attribute__((unused)) uint64_t done, __attribute__((unused)) uint64_t all)
{
    const caller *const self = arg;
    const jboolean is_stopped = (*self->env)->CallBooleanMethod(self->env, self->is_stopped, self->get);
    return (*self->env)->ExceptionCheck(self->env) || is_stopped;
}

/* Lets Java stop the call, if something can. Returns whether the call may begin. */
static bool ask_caller(caller *self, proved_argon2_options *options)
{
    if (self->is_stopped == NULL) return true;
    const jclass supplier = (*self->env)->GetObjectClass(self->env, self->is_stopped);
    self->get = (*self->env)->GetMethodID(self->env, supplier, "getAsBoolean", "()Z");
    options->progress = must_stop;
    options->arg = self;
    return self->get != NULL && !must_stop(self, 0, 0);
}

static proved_argon2_buffers *buffers_of(jlong handle)
{
    return (proved_argon2_buffers *)(intptr_t)handle;
}

/* Whether an encoded hash has other settings, or a salt of another length. */
static uint32_t needs_rehash(const bytes *of, const proved_argon2_options *today)
{
    proved_argon2_stored stored = {0};
    uint32_t code = proved_argon2_needs_rehash((char *)of[TEXT].at, of[TEXT].len, today->new_settings);
    if (code == PROVED_ARGON2_OK) code = proved_argon2_read((char *)of[TEXT].at, of[TEXT].len, &stored);
    const bool has_other_salt = code == PROVED_ARGON2_OK && stored.salt_length != today->new_salt_len;
    return has_other_salt ? PROVED_ARGON2_NEEDS_REHASH : code;
}

/* Makes a call, with copied inputs. */
static uint32_t compute(jint call, const proved_argon2_options *options, const bytes *of)
{
    if (call == NEEDS_REHASH) return needs_rehash(of, options);
    if (call == VERIFY)
        return proved_argon2_verify_encoded_with(
            options, (char *)of[TEXT].at, of[TEXT].len, BYTES(PASSWORD), BYTES(PEPPER), BYTES(DATA));
    if (call == VERIFY_UNKNOWN)
        return proved_argon2_password_verify_unknown(options, options->new_settings, BYTES(PASSWORD), BYTES(PEPPER));
    if (call == RENEW)
        return proved_argon2_password_renew(options, (char *)of[TEXT].at, of[TEXT].len, BYTES(PASSWORD), BYTES(PEPPER),
            BYTES(NEW_PEPPER), BYTES(DATA), (char *)of[OUTPUT].at, of[OUTPUT].len);
    if (call == HASH_RAW)
        return proved_argon2_hash_raw_with(
            options, BYTES(PASSWORD), BYTES(SALT), BYTES(PEPPER), BYTES(DATA), options->new_settings, BYTES(OUTPUT));
    return proved_argon2_hash_encoded_with(options, BYTES(PASSWORD), BYTES(SALT), BYTES(PEPPER), BYTES(DATA),
        options->new_settings, (char *)of[OUTPUT].at, of[OUTPUT].len);
}

CALL(jint, check, jintArray settings)
{
    const proved_argon2_stored of = settings_of(env, settings);
    return (jint)proved_argon2_check(&of.settings, 0, of.salt_length, 0, 0);
}

CALL(jlong, encodedLength, jintArray settings)
{
    const proved_argon2_stored of = settings_of(env, settings);
    return (jlong)proved_argon2_encoded_len(&of.settings, of.salt_length);
}

CALL(void, limitsFor, jintArray settings, jlongArray limits)
{
    const proved_argon2_stored of = settings_of(env, settings);
    const proved_argon2_limits most = proved_argon2_limits_for(&of.settings);
    const jlong numbers[] = {most.mem_cost, most.time_cost, most.lanes, (jlong)most.work};
    (*env)->SetLongArrayRegion(env, limits, 0, 4, numbers);
}

CALL(jlong, hashesAtOnce, jintArray settings, jlong bytes)
{
    const proved_argon2_stored of = settings_of(env, settings);
    return proved_argon2_hashes_at_once(&of.settings, (uint64_t)bytes);
}

CALL(jint, make, jint call, jintArray settings, jlongArray limits, jlong buffers, jobject is_stopped,
    jbyteArray password, jbyteArray salt, jbyteArray pepper, jbyteArray data, jbyteArray text, jbyteArray output)
{
    const proved_argon2_stored new_settings = settings_of(env, settings);
    const proved_argon2_limits within = limits_of(env, limits);
    caller self = {env, is_stopped, NULL};
    proved_argon2_options options = {.size = sizeof options,
        .threads = UINT32_MAX,
        .limits = &within,
        .new_settings = &new_settings.settings,
        .buffers = buffers_of(buffers),
        .new_salt_len = new_settings.salt_length};
    bytes of[ARRAYS] = {{NULL, 0}};
    uint32_t code = PROVED_ARGON2_OUT_OF_MEMORY;
    if (!ask_caller(&self, &options)) return PROVED_ARGON2_STOPPED;
    if (copy(env, (jbyteArray[]){password, salt, pepper, data, text, output}, of)) {
        code = compute(call, &options, of);
    }
    if (code == PROVED_ARGON2_OK || code == PROVED_ARGON2_NEEDS_REHASH) {
        (*env)->SetByteArrayRegion(env, output, 0, (jsize)of[OUTPUT].len, (const jbyte *)of[OUTPUT].at);
    }
    discard(of);
    return (jint)code;
}

CALL(jint, tune, jintArray settings, jlong nanoseconds, jobject is_stopped, jlongArray found)
{
    const proved_argon2_stored most = settings_of(env, settings);
    caller self = {env, is_stopped, NULL};
    proved_argon2_options options = {.size = sizeof options, .threads = UINT32_MAX};
    proved_argon2_tuning tuning = {0};
    if (!ask_caller(&self, &options)) return PROVED_ARGON2_STOPPED;
    const uint32_t code = proved_argon2_tune(&options, &most.settings, (uint64_t)nanoseconds, &tuning);
    const jlong numbers[] = {tuning.settings.mem_cost, tuning.settings.time_cost, (jlong)tuning.nanoseconds};
    (*env)->SetLongArrayRegion(env, found, 0, 3, numbers);
    return (jint)code;
}

CALL(jlong, newBuffers, jintArray settings, jint most)
{
    const proved_argon2_stored of = settings_of(env, settings);
    const uint32_t kept = most < PROVED_ARGON2_MAX_BUFFERS ? (uint32_t)most : PROVED_ARGON2_MAX_BUFFERS;
    proved_argon2_buffers *buffers = NULL;
    const uint32_t code = proved_argon2_buffers_new(&of.settings, kept, &buffers);
    return code == PROVED_ARGON2_OK ? (jlong)(intptr_t)buffers : 0;
}

CALL(void, freeIdle, jlong buffers)
{
    if (env != NULL) (void)proved_argon2_buffers_free_idle(buffers_of(buffers));
}

CALL(void, freeBuffers, jlong buffers)
{
    if (env != NULL) proved_argon2_buffers_free(buffers_of(buffers));
}

CALL(jstring, message, jint number)
{
    return (*env)->NewStringUTF(env, proved_argon2_message((uint32_t)number));
}
