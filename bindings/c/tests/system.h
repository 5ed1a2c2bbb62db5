/* Replaces system functions in programs linked with --wrap: it counts and denies starts of threads and requests for
 * memory and mappings, interrupts waits, counts what is held, and looks at memory before it is freed. */
#ifndef SYSTEM_H
#define SYSTEM_H

#include "checks.h"

#include <errno.h>
#include <malloc.h>
#include <pthread.h>
#include <semaphore.h>
#include <signal.h>
#include <stdatomic.h>
#include <stdlib.h>
#include <sys/mman.h>

int __real_pthread_create(pthread_t *thread, const pthread_attr_t *attributes, void *(*run)(void *), void *arg);
int __wrap_pthread_create(pthread_t *thread, const pthread_attr_t *attributes, void *(*run)(void *), void *arg);
int __real_pthread_join(pthread_t thread, void **result);
int __wrap_pthread_join(pthread_t thread, void **result);
int __real_sem_wait(sem_t *semaphore);
int __wrap_sem_wait(sem_t *semaphore);
void *__real_mmap(void *at, size_t len, int protection, int flags, int file, off_t offset);
void *__wrap_mmap(void *at, size_t len, int protection, int flags, int file, off_t offset);
int __real_munmap(void *at, size_t len);
int __wrap_munmap(void *at, size_t len);
int __real_madvise(void *at, size_t len, int advice);
int __wrap_madvise(void *at, size_t len, int advice);
void *__real_aligned_alloc(size_t alignment, size_t len);
void *__wrap_aligned_alloc(size_t alignment, size_t len);
void *__real_malloc(size_t len);
void *__wrap_malloc(size_t len);
void *__real_calloc(size_t count, size_t len);
void *__wrap_calloc(size_t count, size_t len);
void __real_free(void *block);
void __wrap_free(void *block);
void __real_explicit_bzero(void *bytes, size_t len);
void __wrap_explicit_bzero(void *bytes, size_t len);

static atomic_size_t starts;       /* of threads, that were asked for */
static atomic_size_t granted;      /* starts that were granted */
static atomic_size_t joins;        /* of threads */
static atomic_size_t running;      /* threads that run now */
static atomic_size_t most_running; /* the most threads that ran at once */
static atomic_size_t bursts;       /* how often a thread was started while none ran */

/* Threads that were started while some signal was not blocked, and starts that requested a stack that is not small. */
static atomic_size_t open_to_signals, large_stacks;

/* If the first is set, each wait is interrupted once. The second counts these. */
static bool interrupts_waits;
static atomic_size_t interruptions;

/* The starts from the first to the last are refused. They are counted from 1; 0 means none. */
static size_t first_refused, last_refused;

/* Requests for memory and for mappings, and which one of them is refused, counted from 1. */
static atomic_size_t requests;
static size_t refused_request;

/* Requests to allocate pages before they are touched, and the bytes for which huge pages were requested. */
static atomic_size_t populatings, in_huge_pages;

/* If this is set, the system denies to unmap memory. */
static bool refuses_to_unmap;

/* The bytes that are held now, and that were at most. */
static atomic_size_t held, most_held;

/* The last mapping that was given. */
static void *last_mapped;
static size_t last_mapped_len;

/* The first turns clearing off. The second looks at bytes before they are freed. */
static bool no_wiping;
static void (*look_at)(const void *block);

/* The number of KiB behind a name in a file of the system, or 0 if there is none. */
static inline size_t kib_in(const char *path, const char *name)
{
    FILE *const file = fopen(path, "r");
    char line[256];
    size_t kib = 0;
    while (file != NULL && kib == 0 && fgets(line, sizeof line, file) != NULL) {
        kib = strncmp(line, name, strlen(name)) == 0 ? strtoul(line + strlen(name), NULL, 10) : 0;
    }
    if (file != NULL) {
        fclose(file);
    }
    return kib;
}

/* This process's resident bytes, as the system counts them page by page. */
static inline size_t resident(void)
{
    return kib_in("/proc/self/smaps_rollup", "Rss:") * 1024;
}

/* Counts from 0 and refuses nothing. */
static inline void refuse_nothing(void)
{
    starts = granted = joins = most_running = bursts = open_to_signals = large_stacks = requests = 0;
    populatings = in_huge_pages = 0;
    first_refused = last_refused = refused_request = 0;
}

/* Refuses this many starts, from number `first` on. */
static inline void refuse_starts(size_t first, size_t count)
{
    refuse_nothing();
    first_refused = first;
    last_refused = count > SIZE_MAX - first ? SIZE_MAX : first + count - 1;
}

static inline void refuse_request(size_t number)
{
    refuse_nothing();
    refused_request = number;
}

/* Returns whether the calling thread blocks the signals that come from outside. Threads that it starts do so too. */
static inline bool has_blocked_signals(void)
{
    static const int from_outside[] = {SIGHUP, SIGINT, SIGTERM, SIGALRM, SIGCHLD, SIGUSR1, SIGUSR2, SIGPIPE};
    sigset_t blocked;
    bool all = pthread_sigmask(SIG_SETMASK, NULL, &blocked) == 0;
    for (size_t i = 0; i < sizeof from_outside / sizeof *from_outside; i++) {
        all = all && sigismember(&blocked, from_outside[i]) == 1;
    }
    return all;
}

static inline bool has_small_stack(const pthread_attr_t *attributes)
{
    size_t size = 0;
    return attributes != NULL && pthread_attr_getstacksize(attributes, &size) == 0 && size / (256 * 1024) == 1;
}

/* Returns whether a start asks only whether such a stack would be large enough. */
static inline bool is_question(const pthread_attr_t *attributes)
{
    int state = PTHREAD_CREATE_JOINABLE;
    return attributes != NULL && pthread_attr_getdetachstate(attributes, &state) == 0
        && state == PTHREAD_CREATE_DETACHED;
}

int __wrap_pthread_create(pthread_t *thread, const pthread_attr_t *attributes, void *(*run)(void *), void *arg)
{
    if (is_question(attributes)) {
        return __real_pthread_create(thread, attributes, run, arg);
    }
    const size_t number = ++starts;
    large_stacks += has_small_stack(attributes) ? 0 : 1;
    if (first_refused != 0 && number >= first_refused && number <= last_refused) {
        return EAGAIN;
    }
    const int status = __real_pthread_create(thread, attributes, run, arg);
    if (status == 0) {
        open_to_signals += has_blocked_signals() ? 0 : 1;
        granted++;
        const size_t now = ++running;
        bursts += now == 1 ? 1 : 0;
        most_running = now > most_running ? now : most_running;
    }
    return status;
}

int __wrap_pthread_join(pthread_t thread, void **result)
{
    joins++;
    running--;
    return __real_pthread_join(thread, result);
}

/* This is as if a signal handler had run. */
int __wrap_sem_wait(sem_t *semaphore)
{
    static _Thread_local bool was_interrupted;
    was_interrupted = interrupts_waits && !was_interrupted;
    if (was_interrupted) {
        interruptions++;
        errno = EINTR;
        return -1;
    }
    return __real_sem_wait(semaphore);
}

static inline bool is_refused(void)
{
    return ++requests == refused_request;
}

static inline void hold(size_t more)
{
    const size_t now = atomic_fetch_add(&held, more) + more;
    most_held = now > most_held ? now : most_held;
}

static inline void *hold_block(void *block)
{
    hold(block == NULL ? 0 : malloc_usable_size(block));
    return block;
}

/* The result of a denied request. */
static inline void *nothing(void)
{
    errno = ENOMEM;
    return NULL;
}

void *__wrap_mmap(void *at, size_t len, int protection, int flags, int file, off_t offset)
{
    if (is_refused()) {
        nothing();
        return MAP_FAILED;
    }
    populatings += (flags & MAP_POPULATE) != 0;
    last_mapped = __real_mmap(at, len, protection, flags, file, offset);
    last_mapped_len = len;
    hold(last_mapped == MAP_FAILED ? 0 : len);
    return last_mapped;
}

int __wrap_munmap(void *at, size_t len)
{
    if (refuses_to_unmap) {
        nothing();
        return -1;
    }
    const int status = __real_munmap(at, len);
    held -= status == 0 ? len : 0;
    return status;
}

int __wrap_madvise(void *at, size_t len, int advice)
{
    enum { POPULATE_READ = 22, POPULATE_WRITE = 23 }; /* of Linux 5.14 */
    populatings += advice == POPULATE_READ || advice == POPULATE_WRITE;
    in_huge_pages += advice == MADV_HUGEPAGE ? len : 0;
    return __real_madvise(at, len, advice);
}

void *__wrap_malloc(size_t len)
{
    return is_refused() ? nothing() : hold_block(__real_malloc(len));
}

void *__wrap_aligned_alloc(size_t alignment, size_t len)
{
    return is_refused() ? nothing() : hold_block(__real_aligned_alloc(alignment, len));
}

void *__wrap_calloc(size_t count, size_t len)
{
    return is_refused() ? nothing() : hold_block(__real_calloc(count, len));
}

void __wrap_free(void *block)
{
    if (look_at != NULL && block != NULL) {
        look_at(block);
    }
    held -= block == NULL ? 0 : malloc_usable_size(block);
    __real_free(block);
}

void __wrap_explicit_bzero(void *bytes, size_t len)
{
    if (!no_wiping) {
        __real_explicit_bzero(bytes, len);
    }
}

#endif
