/* Implements platform.h with POSIX and what Linux adds. It is tested, not proved. */
#define _GNU_SOURCE
#include "platform.h"

#include <errno.h>
#include <pthread.h>
#include <semaphore.h>
#include <signal.h>
#include <stdlib.h>
#include <string.h>
#include <sys/mman.h>
#include <sys/random.h>
#include <time.h>
#include <unistd.h>

#define LINE 64
#define SECOND UINT64_C(1000000000)   /* in nanoseconds */
#define LONG_REST ((size_t)768 << 10) /* bytes behind the last whole huge page (docs/DECISIONS.md) */
#define STACK (128 * 1024) /* bytes for a thread's calls; as many or more are added for thread-local variables */
#define MOST_VARIABLES ((size_t)1 << 30)
#define NO_MEMORY (SIZE_MAX / 16 * 15) /* bytes: more than any address space has */

caller proved_driver_keep_caller(void)
{
    caller saved = {.error = errno};
    pthread_setcancelstate(PTHREAD_CANCEL_DISABLE, &saved.cancel);
    return saved;
}

void proved_driver_restore_caller(caller saved)
{
    errno = saved.error;
    pthread_setcancelstate(saved.cancel, NULL);
}

void *proved_driver_take_lines(size_t bytes)
{
    return aligned_alloc(LINE, bytes);
}

void proved_driver_free_lines(void *lines)
{
    free(lines);
}

static void *take_pages(size_t bytes)
{
    void *const pages = mmap(NULL, bytes, PROT_READ | PROT_WRITE, MAP_PRIVATE | MAP_ANONYMOUS, -1, 0);
    return pages == MAP_FAILED ? NULL : pages;
}

/* How many bytes are mapped for this many: whole pages. A long rest gets a huge page too, which the system allocates in
 * less time than many small pages. */
static size_t mapped_len(size_t bytes)
{
    const size_t page = bytes % HUGE_PAGE < LONG_REST ? (size_t)sysconf(_SC_PAGESIZE) : HUGE_PAGE;
    return (bytes + page - 1) / page * page;
}

void *proved_driver_map_pages(size_t bytes)
{
    if (bytes > SIZE_MAX - 2 * HUGE_PAGE) {
        return NULL;
    }
    const size_t whole = mapped_len(bytes);
    char *const all = take_pages(whole + HUGE_PAGE);
    if (all == NULL) {
        return NULL;
    }
    const size_t before = (HUGE_PAGE - (uintptr_t)all % HUGE_PAGE) % HUGE_PAGE;
    munmap(all, before);
    munmap(all + before + whole, HUGE_PAGE - before);
    madvise(all + before, whole / HUGE_PAGE * HUGE_PAGE, MADV_HUGEPAGE);
    madvise(all + before, whole, MADV_DONTDUMP);
    return all + before;
}

/* The system may have joined the pages with mappings beside them. To unmap them, it then splits that mapping, which it
 * denies if the process has as many mappings as it may have. The pages then stay, but give back what they hold. */
void proved_driver_unmap_pages(void *pages, size_t bytes)
{
    if (munmap(pages, mapped_len(bytes)) != 0) {
        proved_driver_overwrite(pages, bytes);
        madvise(pages, mapped_len(bytes), MADV_DONTNEED);
    }
}

bool proved_driver_take_random(uint8_t *bytes, size_t len)
{
    ssize_t received;
    do {
        received = getrandom(bytes, len, 0);
    } while (received < 0 && errno == EINTR);
    return received == (ssize_t)len;
}

uint64_t proved_driver_now(void)
{
    struct timespec now = {0};
    clock_gettime(CLOCK_MONOTONIC, &now);
    return (uint64_t)now.tv_sec * SECOND + (uint64_t)now.tv_nsec;
}

void proved_driver_overwrite(void *bytes, size_t len)
{
    explicit_bzero(bytes, len);
}

/* ---- threads */

typedef struct member {
    team *own;
    pthread_t thread;
    sem_t woken;
} member;

struct team {
    pid_t *process;   /* the ID of the starting process; zero in a forked child, whose own ID may be the same */
    uint32_t threads; /* beside the caller's */
    void (*run)(void *arg, team *own, uint32_t number);
    void *arg;
    member members[]; /* the caller's thread first */
};

static void *run_member(void *arg)
{
    member *const self = arg;
    self->own->run(self->own->arg, self->own, (uint32_t)(self - self->own->members));
    return NULL;
}

static void *end_at_once(void *arg)
{
    return arg;
}

/* Whether a stack has room for the thread-local variables of the program: glibc takes them from a thread's own stack,
 * and pthread_create returns EINVAL if they do not fit. If they fit, it returns another error, since the guard is
 * larger than the address space. So no thread ever starts. (musl rejects this guard. It allocates the variables beside
 * the stack.) */
static bool has_room_for_variables(size_t stack)
{
    pthread_t none;
    pthread_attr_t unlimited;
    pthread_attr_init(&unlimited);
    pthread_attr_setdetachstate(&unlimited, PTHREAD_CREATE_DETACHED);
    pthread_attr_setstacksize(&unlimited, stack);
    const bool has_room = pthread_attr_setguardsize(&unlimited, NO_MEMORY) != 0
        || pthread_create(&none, &unlimited, end_at_once, NULL) != EINVAL;
    pthread_attr_destroy(&unlimited);
    return has_room;
}

/* How many bytes of a stack the thread-local variables may take. We find out by trying, since dl_iterate_phdr, which
 * lists the variables, waits for a lock that a forked child may find taken for ever. Under valgrind every try returns
 * EINVAL, as mmap does there for such a guard: this says nothing about the variables, so we use the usual stack. */
static size_t room_for_variables(void)
{
    for (size_t room = STACK; room < MOST_VARIABLES; room *= 2) {
        if (has_room_for_variables(room)) {
            return room;
        }
    }
    return STACK;
}

/* Starts threads until one is denied. They block all signals, which the program's own threads handle. */
static void start_members(team *own, uint32_t threads)
{
    sigset_t all, before;
    pthread_attr_t small;
    sigfillset(&all);
    pthread_sigmask(SIG_SETMASK, &all, &before);
    pthread_attr_init(&small);
    pthread_attr_setstacksize(&small, STACK + room_for_variables());
    for (member *next = own->members + 1; own->threads < threads; own->threads++, next++) {
        next->own = own;
        sem_init(&next->woken, 0, 0);
        if (pthread_create(&next->thread, &small, run_member, next) != 0) {
            break;
        }
    }
    pthread_sigmask(SIG_SETMASK, &before, NULL);
    pthread_attr_destroy(&small);
}

static pid_t *mark_process(void)
{
    pid_t *const mark = take_pages(sizeof *mark);
    if (mark != NULL) {
        madvise(mark, sizeof *mark, MADV_WIPEONFORK);
        *mark = getpid();
    }
    return mark;
}

team *proved_driver_start_team(uint32_t threads, void (*run)(void *arg, team *own, uint32_t number), void *arg)
{
    team *const own = calloc(1, sizeof *own + (threads + 1) * sizeof *own->members);
    pid_t *const process = own == NULL ? NULL : mark_process();
    if (process == NULL) {
        free(own);
        return NULL;
    }
    own->process = process;
    own->run = run;
    own->arg = arg;
    sem_init(&own->members[0].woken, 0, 0);
    start_members(own, threads);
    return own;
}

/* Whether the threads exist in this process. A forked child has none of them. */
static bool is_here(const team *own)
{
    return own != NULL && *own->process == getpid();
}

uint32_t proved_driver_members(const team *own)
{
    return is_here(own) ? own->threads : 0;
}

void proved_driver_wake(team *own, uint32_t number)
{
    sem_post(&own->members[number].woken);
}

void proved_driver_await(team *own, uint32_t number)
{
    while (is_here(own) && sem_wait(&own->members[number].woken) != 0) {
        /* (A signal handler ran, which ends the wait.) */
    }
}

void proved_driver_end_team(team *own)
{
    const uint32_t threads = proved_driver_members(own);
    for (uint32_t i = 1; i <= threads; i++) {
        pthread_join(own->members[i].thread, NULL);
        sem_destroy(&own->members[i].woken);
    }
    if (is_here(own)) {
        sem_destroy(&own->members[0].woken);
    }
    if (own != NULL) {
        munmap(own->process, sizeof *own->process);
    }
    free(own);
}
