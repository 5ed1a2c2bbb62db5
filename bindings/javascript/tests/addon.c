/* Runs Node's addon without Node: that of a file, on a system without Node, such as with musl or on ARM64; or the one
 * that is linked with this program, where it also denies threads, and is slow to free memory (--wrap). It has the part
 * of Node-API that the addon calls to hash, and a loop for one thread of JavaScript. It prints each check. */
#include "node_api.h"
#include "proved_argon2.h"

#pragma GCC diagnostic ignored "-Wunused-parameter"

#include <dlfcn.h>
#include <errno.h>
#include <pthread.h>
#include <stdatomic.h>
#include <stdio.h>
#include <string.h>
#include <unistd.h>

enum { RUNS = 8, WAIT = 1000, LOOKING = 50 * WAIT, SMALL = 4096, LARGE = 8192 };

static int failed;

static void expect(bool holds, const char *what)
{
    printf("%s: %s\n", holds ? "passed" : "FAILED", what);
    failed += !holds;
}

/* ---- threads, which are counted and denied */

int __real_pthread_create(pthread_t *thread, const pthread_attr_t *attributes, void *(*run)(void *), void *arg);
int __wrap_pthread_create(pthread_t *thread, const pthread_attr_t *attributes, void *(*run)(void *), void *arg);
static _Atomic int most_threads, started;

int __wrap_pthread_create(pthread_t *thread, const pthread_attr_t *attributes, void *(*run)(void *), void *arg)
{
    if (started == most_threads) return EAGAIN;
    started++;
    return __real_pthread_create(thread, attributes, run, arg);
}

/* (It is not linked where the addon is that of a file.) */
__attribute__((weak)) uint32_t __real_proved_argon2_buffers_free_idle(proved_argon2_buffers *of);
uint32_t __wrap_proved_argon2_buffers_free_idle(proved_argon2_buffers *of);
static _Atomic bool is_slow;

/* What a thread does after a run, slow enough that the next run comes meanwhile. */
uint32_t __wrap_proved_argon2_buffers_free_idle(proved_argon2_buffers *of)
{
    usleep(is_slow ? LOOKING : 0);
    return __real_proved_argon2_buffers_free_idle(of);
}

/* ---- a thread of JavaScript: what the addon is passed, and what it hears */

struct napi_value__ {
    void *at;
    size_t len;
    double number;
};

struct napi_threadsafe_function__ {
    struct call *call;
    void *context;
    napi_threadsafe_function_call_js hear;
    _Atomic bool is_told;
};

typedef struct call {
    uint32_t control[4], settings[6];
    uint8_t tag[32];
    void (*abandon)(void *run);
    void *run;
    double code;
    unsigned reports;
    bool is_heard;
} call;

struct napi_env__ {
    call *call; /* the one that begins, or hears */
};

static struct napi_env__ env;
static struct napi_value__ values[10], numbers[3 * RUNS];
static struct napi_threadsafe_function__ functions[RUNS];
static size_t used_numbers;
static napi_callback hash;

/* A call that does nothing. */
#define NOTHING(name, ...) \
    unsigned name(__VA_ARGS__) \
    { \
        return 0; \
    }
NOTHING(napi_create_string_utf8, napi_env of, const char *text, size_t length, napi_value *value)
NOTHING(napi_set_named_property, napi_env of, napi_value object, const char *name, napi_value value)
NOTHING(napi_remove_env_cleanup_hook, napi_env of, void (*hook)(void *arg), void *arg)

unsigned napi_get_cb_info(
    napi_env of, napi_callback_info info, size_t *count, napi_value *taken, napi_value *receiver, void **data)
{
    for (size_t i = 0; i < *count; i++) {
        taken[i] = &values[i];
    }
    return 0;
}

unsigned napi_get_typedarray_info(
    napi_env of, napi_value array, unsigned *type, size_t *len, void **data, napi_value *buffer, size_t *offset)
{
    *len = array->len;
    *data = array->at;
    return 0;
}

unsigned napi_get_undefined(napi_env of, napi_value *value)
{
    *value = NULL;
    return 0;
}

unsigned napi_create_double(napi_env of, double number, napi_value *value)
{
    *value = &numbers[used_numbers++ % (3 * RUNS)];
    (*value)->number = number;
    return 0;
}

unsigned napi_create_function(
    napi_env of, const char *name, size_t len, napi_callback function, void *data, napi_value *value)
{
    if (strcmp(name, "hash") == 0) hash = function;
    return 0;
}

unsigned napi_add_env_cleanup_hook(napi_env of, void (*hook)(void *arg), void *arg)
{
    of->call->abandon = hook;
    of->call->run = arg;
    return 0;
}

unsigned napi_create_threadsafe_function(napi_env of, napi_value listener, napi_value resource, napi_value name,
    size_t queue, size_t threads, void *data, napi_finalize finalize, void *context,
    napi_threadsafe_function_call_js hear, napi_threadsafe_function *function)
{
    napi_threadsafe_function next = functions;
    while (next->call != NULL) {
        next++;
    }
    *next = (struct napi_threadsafe_function__){of->call, context, hear, false};
    *function = next;
    return 0;
}

unsigned napi_call_threadsafe_function(napi_threadsafe_function function, void *data, unsigned mode)
{
    if (data == NULL) {
        function->is_told = true;
    } else {
        function->call->reports++;
    }
    return 0;
}

unsigned napi_release_threadsafe_function(napi_threadsafe_function function, unsigned mode)
{
    if (mode == ABORT) function->call = NULL;
    return 0;
}

unsigned napi_call_function(
    napi_env of, napi_value receiver, napi_value listener, size_t count, const napi_value *passed, napi_value *result)
{
    of->call->code = passed[1]->number;
    return 0;
}

/* Begins a hash over this many KiB, of which each slice is reported, and returns the code. */
static double begin_hash(call *self, uint32_t kib, bool can_stop)
{
    *self = (call){.control = {0, 1, can_stop, can_stop}, .settings = {PROVED_ARGON2_ID, 0x13, kib, 2, 2, 32}};
    const struct napi_value__ passed[] = {{self->control, 4, 0}, {"password", 8, 0}, {"somesalt", 8, 0}, {NULL, 0, 0},
        {NULL, 0, 0}, {self->settings, 6, 0}, {self->tag, 32, 0}};
    memcpy(values, passed, sizeof passed);
    env.call = self;
    return hash(&env, NULL)->number;
}

/* Passes on to JavaScript what threads have told, until all of these calls have ended. */
static void hear_all(call *calls, size_t count)
{
    for (size_t ended = 0; ended < count; usleep(WAIT)) {
        ended = 0;
        for (napi_threadsafe_function each = functions; each < functions + RUNS; each++) {
            if (each->call != NULL && each->is_told) {
                env.call = each->call;
                each->hear(&env, NULL, each->context, NULL);
                each->call->is_heard = true;
                each->call = NULL;
            }
        }
        for (size_t i = 0; i < count; i++) {
            ended += calls[i].is_heard;
        }
    }
}

/* ---- the checks */

static void check_hash(void)
{
    call one;
    const double begun = begin_hash(&one, 256, true);
    hear_all(&one, 1);
    expect(begun == PROVED_ARGON2_OK && one.code == PROVED_ARGON2_OK && one.reports == 8, "each slice is reported");
    for (size_t i = 0; i < sizeof one.tag; i++) {
        printf("%02x", one.tag[i]);
    }
    printf("\n");
}

/* Returns how many of these hashes, which begin at the same time, have the tag of the first. */
static size_t hash_at_once(size_t count)
{
    static call calls[RUNS];
    size_t same = 0;
    for (size_t i = 0; i < count; i++) {
        if (begin_hash(&calls[i], SMALL, false) != PROVED_ARGON2_OK) return 0;
    }
    hear_all(calls, count);
    for (size_t i = 0; i < count; i++) {
        same += calls[i].code == PROVED_ARGON2_OK && memcmp(calls[i].tag, calls->tag, sizeof calls->tag) == 0;
    }
    return same;
}

static void check_threads(void)
{
    call lonely, two[2];
    expect(begin_hash(&lonely, SMALL, false) == PROVED_ARGON2_WORKER_REFUSED, "without any thread a call is an error");
    most_threads = 1;
    expect(hash_at_once(RUNS) == RUNS && started == 1, "one thread computes what eight would");
    const double begun = begin_hash(&two[0], LARGE, false) + begin_hash(&two[1], LARGE, false);
    two[1].abandon(two[1].run);
    hear_all(two, 2);
    expect(begun == 2 * PROVED_ARGON2_OK && two[0].code == PROVED_ARGON2_OK && two[1].code == PROVED_ARGON2_STOPPED,
        "a queued run that is abandoned ends");
    most_threads = 2;
    is_slow = true;
    const size_t right = hash_at_once(1) + hash_at_once(1) + hash_at_once(1);
    is_slow = false;
    expect(right == 3 && started == 1, "one thread computes three runs that come one after another");
    most_threads = RUNS;
    expect(hash_at_once(RUNS) == RUNS && started > 1, "more threads compute once they may start");
}

/* The code of a run that is stopped as soon as it has begun. */
static double code_of_stopped(bool can_stop)
{
    call stopped;
    begin_hash(&stopped, LARGE, can_stop);
    atomic_store((_Atomic uint32_t *)stopped.control, 1);
    hear_all(&stopped, 1);
    return stopped.code;
}

int main(int argc, char **argv)
{
    napi_value (*begin)(napi_env of, napi_value exports);
    void *const addon = dlopen(argc == 2 ? argv[1] : NULL, RTLD_NOW);
    void *const call = addon == NULL ? NULL : dlsym(addon, "napi_register_module_v1");
    if (call == NULL) {
        fprintf(stderr, "%s\n", dlerror());
        return 1;
    }
    memcpy(&begin, &call, sizeof begin);
    begin(&env, NULL);
    if (argc == 1) check_threads();
    check_hash();
    expect(code_of_stopped(true) == PROVED_ARGON2_STOPPED, "a run that something can stop is stopped");
    expect(code_of_stopped(false) == PROVED_ARGON2_OK, "a run that nothing can stop has no callback");
    return failed != 0;
}
