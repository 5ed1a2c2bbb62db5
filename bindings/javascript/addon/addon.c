/* The library as an addon of Node: its calls, and runs in threads of its own. Only the package's own code calls it
 * (src/native.js). It passes typed arrays of the right lengths, and changes none but a run's control until the end.
 * The addon is tested and not proved. */
#define _GNU_SOURCE
#include "node_api.h"
#include <errno.h>
#include <proved_argon2.h>
#include <pthread.h>
#include <signal.h>
#include <stdatomic.h>
#include <stdlib.h>
#include <time.h>
#include <unistd.h>

#define MOST_PARTS 10
#define MOST_IDLE 8
#define STACK ((size_t)1 << 20)
#define KEPT_KIB 65536 /* the largest hash whose memory is kept */

/* A typed array: where its elements are, and how many. */
typedef struct part {
    void *at;
    size_t len;
} part;

/* What JavaScript writes for a run, also while it computes. */
typedef struct control {
    _Atomic uint32_t is_stopped;
    uint32_t threads;
    uint32_t is_reported;
    uint32_t can_stop;
} control;

/* A kind of run: how many arrays it is passed, and the function that computes, which may add to the options. */
typedef struct kind {
    size_t parts;
    uint32_t (*compute)(proved_argon2_options *with, const part *parts);
} kind;

typedef struct run {
    part parts[MOST_PARTS];
    const kind *kind;
    napi_threadsafe_function listener;
    struct run *next;
    _Atomic uint64_t slices;
    uint32_t code;
    bool is_queued;            /* no thread computes it yet */
    bool is_over;              /* no thread of the pool looks at it any more */
    _Atomic bool is_abandoned; /* the thread of JavaScript ends */
} run;

/* Threads that compute one run after another, since a new thread is slow in its first milliseconds. */
static struct {
    pthread_mutex_t lock;
    pthread_cond_t has_run, is_over;
    run *first, **end; /* runs that no thread computes yet, in their order */
    size_t queued;     /* how many these are */
    size_t threads;    /* all threads */
    size_t idle;       /* those that wait for a run */
} pool = {.lock = PTHREAD_MUTEX_INITIALIZER, .is_over = PTHREAD_COND_INITIALIZER, .end = &pool.first};

/* The memory that runs use one after another, or null: then each allocates its own. */
static proved_argon2_buffers *kept;

/* Reads this many arguments, which are arrays, and returns the argument after them. */
static napi_value take(napi_env env, napi_callback_info info, part *parts, size_t count)
{
    size_t passed = MOST_PARTS;
    napi_value values[MOST_PARTS];
    napi_get_cb_info(env, info, &passed, values, NULL, NULL);
    for (size_t i = 0; i < count; i++) {
        parts[i] = (part){NULL, 0};
        napi_get_typedarray_info(env, values[i], NULL, &parts[i].len, &parts[i].at, NULL, NULL);
    }
    return values[count];
}

static napi_value number(napi_env env, uint64_t value)
{
    napi_value made = NULL;
    napi_create_double(env, (double)value, &made);
    return made;
}

/* ---- calls that take no time */

static napi_value check(napi_env env, napi_callback_info info)
{
    part of[2];
    take(env, info, of, 2);
    const uint64_t *const lengths = of[1].at;
    return number(env, proved_argon2_check(of[0].at, lengths[0], lengths[1], lengths[2], lengths[3]));
}

static napi_value needs_rehash(napi_env env, napi_callback_info info)
{
    part of[2];
    take(env, info, of, 2);
    return number(env, proved_argon2_needs_rehash(of[0].at, of[0].len, of[1].at));
}

static napi_value encoded_len(napi_env env, napi_callback_info info)
{
    part of[2];
    take(env, info, of, 2);
    return number(env, proved_argon2_encoded_len(of[1].at, (uint32_t)of[0].len));
}

static napi_value check_encoded(napi_env env, napi_callback_info info)
{
    part of[4];
    take(env, info, of, 4);
    const uint64_t *const lengths = of[2].at;
    return number(
        env, proved_argon2_check_encoded(of[0].at, of[0].len, of[1].at, lengths[0], lengths[1], lengths[2], of[3].at));
}

static napi_value hashes_at_once(napi_env env, napi_callback_info info)
{
    part of[2];
    take(env, info, of, 2);
    const uint64_t *const bytes = of[1].at;
    return number(env, proved_argon2_hashes_at_once(of[0].at, *bytes));
}

/* ---- runs */

static uint32_t compute_hash(proved_argon2_options *with, const part *of)
{
    return proved_argon2_hash_raw_with(with, of[1].at, of[1].len, of[2].at, of[2].len, of[3].at, of[3].len, of[4].at,
        of[4].len, of[5].at, of[6].at, of[6].len);
}

static uint32_t compute_encoded(proved_argon2_options *with, const part *of)
{
    return proved_argon2_hash_encoded_with(with, of[1].at, of[1].len, of[2].at, of[2].len, of[3].at, of[3].len,
        of[4].at, of[4].len, of[5].at, of[6].at, of[6].len);
}

static uint32_t compute_verdict(proved_argon2_options *with, const part *of)
{
    with->limits = of[5].at;
    return proved_argon2_verify_encoded_with(
        with, of[2].at, of[2].len, of[1].at, of[1].len, of[3].at, of[3].len, of[4].at, of[4].len);
}

/* (New salts have the default length.) */
static uint32_t compute_renewal(proved_argon2_options *with, const part *of)
{
    with->limits = of[5].at;
    with->new_settings = of[7].at;
    with->new_salt_len = PROVED_ARGON2_SALT_SIZE;
    return proved_argon2_password_renew(with, of[2].at, of[2].len, of[1].at, of[1].len, of[3].at, of[3].len, of[6].at,
        of[6].len, of[4].at, of[4].len, of[8].at, of[8].len);
}

static uint32_t compute_unknown(proved_argon2_options *with, const part *of)
{
    return proved_argon2_password_verify_unknown(with, of[3].at, of[1].at, of[1].len, of[2].at, of[2].len);
}

/* (A search is passed the settings with the most memory, and the time in nanoseconds, and writes what it finds.) */
static uint32_t compute_tuning(proved_argon2_options *with, const part *of)
{
    return proved_argon2_tune(with, of[1].at, *(const uint64_t *)of[2].at, of[3].at);
}

static const kind hashing = {7, compute_hash};
static const kind hashing_encoded = {7, compute_encoded};
static const kind verifying = {6, compute_verdict};
static const kind renewing = {9, compute_renewal};
static const kind verifying_unknown = {4, compute_unknown};
static const kind searching = {4, compute_tuning};

/* Reports the progress, and says whether to stop. */
static int report_progress(void *arg, uint64_t done, uint64_t all)
{
    run *const self = arg;
    control *const shared = self->parts[0].at;
    self->slices = all;
    if (shared->is_reported) {
        napi_call_threadsafe_function(self->listener, (void *)(uintptr_t)done, NONBLOCKING);
    }
    return atomic_load(&shared->is_stopped) != 0 || self->is_abandoned;
}

/* Tells JavaScript that a run has ended. */
static void report_end(run *self)
{
    napi_call_threadsafe_function(self->listener, NULL, NONBLOCKING);
    napi_release_threadsafe_function(self->listener, RELEASE);
}

/* Computes a run in kept memory. It has a callback only if something can stop it: without one, a hash of one lane is
 * one proved call. */
static void compute(run *self)
{
    const control *const shared = self->parts[0].at;
    proved_argon2_options with = PROVED_ARGON2_OPTIONS;
    with.threads = shared->threads;
    with.buffers = kept;
    with.progress = shared->can_stop ? report_progress : NULL;
    with.arg = self;
    self->code = self->kind->compute(&with, self->parts);
    report_end(self);
}

/* Waits for a run. Frees the kept memory that has been idle for too long meanwhile. The thread counts as idle before it
 * leaves the lock, so that the next run starts no further thread: with more threads than processors, the system often
 * wakes one on a processor that computes, while another processor is idle. The pool is locked. */
static void wait_for_run(void)
{
    proved_argon2_buffers *const own = kept;
    pool.idle++;
    pthread_mutex_unlock(&pool.lock);
    const uint32_t milliseconds = proved_argon2_buffers_free_idle(own);
    struct timespec end;
    clock_gettime(CLOCK_MONOTONIC, &end);
    end.tv_sec += milliseconds / 1000 + 1;
    pthread_mutex_lock(&pool.lock);
    if (pool.first == NULL && milliseconds == 0) {
        pthread_cond_wait(&pool.has_run, &pool.lock);
    } else if (pool.first == NULL) {
        pthread_cond_timedwait(&pool.has_run, &pool.lock, &end);
    }
    pool.idle--;
}

/* Takes a queued run out of the queue. The pool is locked. */
static void unqueue(run *self)
{
    run **place = &pool.first;
    while (*place != self) {
        place = &(*place)->next;
    }
    *place = self->next;
    pool.end = self->next == NULL ? place : pool.end;
    pool.queued--;
    self->is_queued = false;
}

/* The first queued run, once there is one, or null if enough other threads wait for it. The pool is locked. */
static run *next_run(void)
{
    while (pool.first == NULL) {
        if (pool.idle == MOST_IDLE) {
            return NULL;
        }
        wait_for_run();
    }
    run *const next = pool.first;
    unqueue(next);
    return next;
}

/* A thread of the pool. */
static void *compute_all(void *arg)
{
    pthread_mutex_lock(&pool.lock);
    for (run *self; (self = next_run()) != NULL;) {
        pthread_mutex_unlock(&pool.lock);
        compute(self);
        pthread_mutex_lock(&pool.lock);
        self->is_over = true;
        pthread_cond_broadcast(&pool.is_over);
    }
    pool.threads--;
    pthread_cond_signal(&pool.has_run); /* (wakes a waiting thread, which will free the memory kept here) */
    pthread_mutex_unlock(&pool.lock);
    return arg;
}

static void await_end(run *self)
{
    pthread_mutex_lock(&pool.lock);
    while (!self->is_over) {
        pthread_cond_wait(&pool.is_over, &pool.lock);
    }
    pthread_mutex_unlock(&pool.lock);
}

/* Stops a run before the JavaScript thread with its arrays ends. A queued run does not begin, since it would wait for
 * runs that end later. */
static void abandon(void *arg)
{
    run *const self = arg;
    self->is_abandoned = true;
    pthread_mutex_lock(&pool.lock);
    if (self->is_queued) {
        unqueue(self);
        self->code = PROVED_ARGON2_STOPPED;
        self->is_over = true;
        report_end(self);
    }
    pthread_mutex_unlock(&pool.lock);
    await_end(self);
}

/* In the JavaScript thread: passes the listener how many slices are filled and how many there are. At the end, it
 * passes 0 and the code. */
static void hear(napi_env env, napi_value listener, void *context, void *data)
{
    run *const self = context;
    const bool is_over = data == NULL;
    if (env != NULL) {
        napi_value receiver = NULL, result;
        napi_get_undefined(env, &receiver);
        const napi_value values[] = {number(env, (uintptr_t)data), number(env, is_over ? self->code : self->slices)};
        napi_call_function(env, receiver, listener, 2, values, &result);
    }
    if (!is_over) return;
    await_end(self);
    if (!self->is_abandoned) napi_remove_env_cleanup_hook(env, abandon, self);
    free(self);
}

/* Starts a thread of the pool, which takes no signals of the program. */
static int start(void)
{
    sigset_t all, before;
    pthread_attr_t small;
    pthread_t thread;
    sigfillset(&all);
    pthread_attr_init(&small);
    pthread_attr_setstacksize(&small, STACK);
    pthread_attr_setdetachstate(&small, PTHREAD_CREATE_DETACHED);
    pthread_sigmask(SIG_SETMASK, &all, &before);
    const int denied = pthread_create(&thread, &small, compute_all, NULL);
    pthread_sigmask(SIG_SETMASK, &before, NULL);
    pthread_attr_destroy(&small);
    return denied;
}

/* Queues a run. If more runs are queued than threads wait, it starts a thread. If that is denied, the existing threads
 * compute the run in its turn. Returns whether there is a thread. */
static bool submit(run *self)
{
    pthread_mutex_lock(&pool.lock);
    self->is_queued = true;
    *pool.end = self;
    pool.end = &self->next;
    pool.queued++;
    if (pool.queued <= pool.idle) {
        pthread_cond_signal(&pool.has_run);
    } else if (start() == 0) {
        pool.threads++;
    }
    const bool has_thread = pool.threads > 0;
    if (!has_thread) {
        unqueue(self);
    }
    pthread_mutex_unlock(&pool.lock);
    return has_thread;
}

/* Begins a run of some arrays. The listener, which is passed behind them, hears of it. */
static napi_value begin(napi_env env, napi_callback_info info, const kind *kind)
{
    napi_value name = NULL;
    run *const self = calloc(1, sizeof *self);
    if (self == NULL) return number(env, PROVED_ARGON2_OUT_OF_MEMORY);
    self->kind = kind;
    const napi_value listener = take(env, info, self->parts, kind->parts);
    napi_create_string_utf8(env, "proved-argon2", AUTO_LENGTH, &name);
    if (napi_create_threadsafe_function(env, listener, NULL, name, 0, 1, NULL, NULL, self, hear, &self->listener)
        != 0) {
        free(self);
        return number(env, PROVED_ARGON2_OUT_OF_MEMORY);
    }
    if (!submit(self)) {
        napi_release_threadsafe_function(self->listener, ABORT);
        free(self);
        return number(env, PROVED_ARGON2_WORKER_REFUSED);
    }
    napi_add_env_cleanup_hook(env, abandon, self);
    return number(env, PROVED_ARGON2_OK);
}

static napi_value hash(napi_env env, napi_callback_info info)
{
    return begin(env, info, &hashing);
}

static napi_value hash_encoded(napi_env env, napi_callback_info info)
{
    return begin(env, info, &hashing_encoded);
}

static napi_value renew(napi_env env, napi_callback_info info)
{
    return begin(env, info, &renewing);
}

static napi_value verify(napi_env env, napi_callback_info info)
{
    return begin(env, info, &verifying);
}

static napi_value verify_unknown(napi_env env, napi_callback_info info)
{
    return begin(env, info, &verifying_unknown);
}

static napi_value tune(napi_env env, napi_callback_info info)
{
    return begin(env, info, &searching);
}

/* Idle threads wait by the monotonic clock, which nobody sets. Without memory for the handle, none is kept. */
static void make_pool(void)
{
    const proved_argon2_settings largest = {PROVED_ARGON2_ID, PROVED_ARGON2_VERSION_13, KEPT_KIB, 1, 1, 32};
    const long processors = sysconf(_SC_NPROCESSORS_ONLN);
    if (proved_argon2_buffers_new(&largest, processors < 1 ? 1 : (uint32_t)processors, &kept) != PROVED_ARGON2_OK) {
        kept = NULL;
    }
    pthread_condattr_t monotonic;
    pthread_condattr_init(&monotonic);
    pthread_condattr_setclock(&monotonic, CLOCK_MONOTONIC);
    pthread_cond_init(&pool.has_run, &monotonic);
    pthread_condattr_destroy(&monotonic);
}

napi_value napi_register_module_v1(napi_env env, napi_value exports);
napi_value napi_register_module_v1(napi_env env, napi_value exports)
{
    static const struct {
        const char *name;
        napi_callback call;
    } calls[] = {{"check", check}, {"checkEncoded", check_encoded}, {"needsRehash", needs_rehash},
        {"encodedLength", encoded_len}, {"hashesAtOnce", hashes_at_once}, {"hash", hash}, {"hashEncoded", hash_encoded},
        {"verify", verify}, {"renew", renew}, {"verifyUnknown", verify_unknown}, {"tune", tune}};
    static pthread_once_t once = PTHREAD_ONCE_INIT;
    pthread_once(&once, make_pool);
    for (size_t i = 0; i < sizeof calls / sizeof *calls; i++) {
        napi_value function = NULL;
        napi_create_function(env, calls[i].name, AUTO_LENGTH, calls[i].call, NULL, &function);
        napi_set_named_property(env, exports, calls[i].name, function);
    }
    return exports;
}
