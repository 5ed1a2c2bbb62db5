/* The driver's platform for other systems than Linux and Windows, such as macOS and FreeBSD: POSIX, and C for memory.
 * It is tested and not proved. */
#include "platform.h"

#include <errno.h>
#include <pthread.h>
#include <signal.h>
#include <stdlib.h>
#include <string.h>
#ifdef __APPLE__
#include <sys/random.h>
#endif
#include <time.h>
#include <unistd.h>

#define LINE 64
#define SECOND UINT64_C(1000000000) /* in nanoseconds */

/* Writes zeros that no compiler leaves out: it cannot know that this is memset. */
static void *(*const volatile fill)(void *, int, size_t) = memset;

caller proved_driver_keep_caller(void)
{
    caller saved = {.error = errno};
    pthread_setcancelstate(PTHREAD_CANCEL_DISABLE, &saved.cancel);
    return saved;
}

void proved_driver_restore_caller(caller saved)
{
    errno = saved.error;
    pthread_setcancelstate(saved.cancel, NULL);
}

void *proved_driver_take_lines(size_t bytes)
{
    return aligned_alloc(LINE, (bytes + LINE - 1) / LINE * LINE);
}

void proved_driver_free_lines(void *lines)
{
    free(lines);
}

void *proved_driver_map_pages(size_t bytes)
{
    void *const pages = proved_driver_take_lines(bytes);
    if (pages != NULL) {
        proved_driver_overwrite(pages, bytes);
    }
    return pages;
}

void proved_driver_unmap_pages(void *pages, size_t bytes)
{
    proved_driver_overwrite(pages, bytes);
    proved_driver_free_lines(pages);
}

bool proved_driver_take_random(uint8_t *bytes, size_t len)
{
    return getentropy(bytes, len) == 0;
}

uint64_t proved_driver_now(void)
{
    struct timespec now = {0};
    clock_gettime(CLOCK_MONOTONIC, &now);
    return (uint64_t)now.tv_sec * SECOND + (uint64_t)now.tv_nsec;
}

void proved_driver_overwrite(void *bytes, size_t len)
{
    fill(bytes, 0, len);
}

/* ---- threads: with condition variables, since macOS has no unnamed semaphores */

typedef struct member {
    team *own;
    pthread_t thread;
    pthread_cond_t is_woken;
    uint64_t wakes; /* how often it was woken and has not waited yet */
} member;

struct team {
    pid_t process;        /* that started the threads; a forked child has none of them */
    pthread_mutex_t lock; /* of all wakes */
    uint32_t threads;     /* beside the caller's */
    void (*run)(void *arg, team *own, uint32_t number);
    void *arg;
    member members[]; /* the caller's thread first */
};

static bool is_here(const team *own)
{
    return own != NULL && own->process == getpid();
}

static void *run_member(void *arg)
{
    member *const self = arg;
    self->own->run(self->own->arg, self->own, (uint32_t)(self - self->own->members));
    return NULL;
}

static bool start_member(team *own, member *next)
{
    next->own = own;
    if (pthread_cond_init(&next->is_woken, NULL) != 0) {
        return false;
    }
    if (pthread_create(&next->thread, NULL, run_member, next) != 0) {
        pthread_cond_destroy(&next->is_woken);
        return false;
    }
    return true;
}

static team *make_team(uint32_t threads)
{
    team *const own = calloc(1, sizeof *own + (threads + 1) * sizeof *own->members);
    if (own == NULL || pthread_mutex_init(&own->lock, NULL) != 0) {
        free(own);
        return NULL;
    }
    if (pthread_cond_init(&own->members[0].is_woken, NULL) != 0) {
        pthread_mutex_destroy(&own->lock);
        free(own);
        return NULL;
    }
    return own;
}

team *proved_driver_start_team(uint32_t threads, void (*run)(void *arg, team *own, uint32_t number), void *arg)
{
    sigset_t all, before;
    team *const own = make_team(threads);
    if (own == NULL) {
        return NULL;
    }
    own->process = getpid();
    own->run = run;
    own->arg = arg;
    /* (The threads block all signals, which the program's own threads handle.) */
    sigfillset(&all);
    pthread_sigmask(SIG_SETMASK, &all, &before);
    while (own->threads < threads && start_member(own, &own->members[own->threads + 1])) {
        own->threads++;
    }
    pthread_sigmask(SIG_SETMASK, &before, NULL);
    return own;
}

uint32_t proved_driver_members(const team *own)
{
    return is_here(own) ? own->threads : 0;
}

void proved_driver_wake(team *own, uint32_t number)
{
    member *const woken = &own->members[number];
    pthread_mutex_lock(&own->lock);
    woken->wakes++;
    pthread_cond_signal(&woken->is_woken);
    pthread_mutex_unlock(&own->lock);
}

void proved_driver_await(team *own, uint32_t number)
{
    if (!is_here(own)) {
        return;
    }
    member *const self = &own->members[number];
    pthread_mutex_lock(&own->lock);
    while (self->wakes == 0) {
        pthread_cond_wait(&self->is_woken, &own->lock);
    }
    self->wakes--;
    pthread_mutex_unlock(&own->lock);
}

void proved_driver_end_team(team *own)
{
    const uint32_t threads = proved_driver_members(own);
    for (uint32_t i = 1; i <= threads; i++) {
        pthread_join(own->members[i].thread, NULL);
        pthread_cond_destroy(&own->members[i].is_woken);
    }
    if (is_here(own)) {
        pthread_cond_destroy(&own->members[0].is_woken);
        pthread_mutex_destroy(&own->lock);
    }
    free(own);
}
