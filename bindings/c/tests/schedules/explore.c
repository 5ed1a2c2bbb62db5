#define _GNU_SOURCE
#include "explore.h"
#include "platform.h"
#include <errno.h>
#include <sanitizer/asan_interface.h>
#include <sanitizer/common_interface_defs.h>
#include <stdio.h>
#include <stdlib.h>
#include <string.h>
#include <ucontext.h>

enum { MOST_CHOICES = 512, MOST_TAKEN = 64, ERROR_BEFORE = 77, CANCEL = 5, STACK = 1 << 16 };

static const char *explored; /* the kind of run */
static uint32_t most_switches;

static struct {
    uint32_t switches; /* how often it switched threads without need */
    bool has_failed_spuriously, is_caller_saved;
} run;

/* ---- choices. The first run takes the first way of each. Later runs take all others, depth first. */

static struct {
    unsigned way, ways;
} choices[MOST_CHOICES];
static size_t depth, known;

unsigned choose(unsigned ways)
{
    if (depth == known) {
        choices[known].way = 0;
        choices[known++].ways = ways;
    }
    return choices[depth++].way;
}

bool happens_once(bool *has_happened)
{
    const bool happens = !*has_happened && choose(2) == 1;
    *has_happened = *has_happened || happens;
    return happens;
}

bool fails_spuriously(void)
{
    return happens_once(&run.has_failed_spuriously);
}

/* Goes to the next way of the last choice that has one, if any has. */
static bool has_another_run(void)
{
    known = depth;
    depth = 0;
    while (known > 0 && ++choices[known - 1].way == choices[known - 1].ways) {
        known--;
    }
    return known > 0;
}

_Noreturn void report(const char *what)
{
    printf("violated: %s; %s, at", what, explored);
    for (size_t i = 0; i < depth; i++) {
        printf(" %u", choices[i].way);
    }
    puts("");
    exit(1);
}

/* ---- threads */

static struct thread {
    ucontext_t context;
    void *fake;
    void (*runs)(void);
    _Alignas(16) char stack[STACK];
} threads[MOST_THREADS];

enum state states[MOST_THREADS];
uint32_t current;

/* The stack of the process, which the first thread has. */
static const void *own_stack;
static size_t own_stack_len;

void switch_to(uint32_t next)
{
    struct thread *const before = &threads[current];
    if (next == current) {
        return;
    }
    __sanitizer_start_switch_fiber(states[current] == DONE ? NULL : &before->fake,
        next == 0 ? own_stack : threads[next].stack, next == 0 ? own_stack_len : STACK);
    current = next;
    swapcontext(&before->context, &threads[next].context);
    __sanitizer_finish_switch_fiber(before->fake, NULL, NULL);
}

static void run_thread(void)
{
    __sanitizer_finish_switch_fiber(
        NULL, own_stack == NULL ? &own_stack : NULL, own_stack_len == 0 ? &own_stack_len : NULL);
    threads[current].runs();
}

void begin_thread(uint32_t number, void (*runs)(void))
{
    struct thread *const thread = &threads[number];
    __asan_unpoison_memory_region(thread->stack, STACK);
    getcontext(&thread->context);
    thread->context.uc_stack = (stack_t){.ss_sp = thread->stack, .ss_size = STACK};
    makecontext(&thread->context, run_thread, 0);
    thread->runs = runs;
    states[number] = READY;
}

void switch_threads(bool is_free)
{
    uint32_t ready[MOST_THREADS], count = 0;
    for (uint32_t i = 0; i < MOST_THREADS; i++) {
        const uint32_t next = i == 0 ? current : i - (i <= current);
        if (states[next] == READY) {
            ready[count++] = next;
        }
    }
    must(count > 0, "some thread can go on");
    const unsigned way = count > 1 && (is_free || run.switches < most_switches) ? choose(count) : 0;
    run.switches += way != 0 && !is_free;
    switch_to(ready[way]);
}

void fork_here(void)
{
    for (uint32_t i = 1; i < MOST_THREADS; i++) {
        states[i] = i == current ? READY : DONE;
    }
}

/* ---- what is taken */

struct taken taken[MOST_TAKEN];
size_t taken_count;

void *take(void *at, size_t len, int kind)
{
    must(taken_count < MOST_TAKEN, "few things are taken");
    taken[taken_count++] = (struct taken){at, len, kind, true};
    return at;
}

struct taken *find_taken(const void *at)
{
    for (size_t i = 0; i < taken_count; i++) {
        if (taken[i].at == at && taken[i].is_live) {
            return &taken[i];
        }
    }
    report("what is used or freed was taken");
}

size_t give_back(const void *at, int kind)
{
    struct taken *const of = find_taken(at);
    must(of->kind == kind, "what is freed was allocated in the same way");
    of->is_live = false;
    return of->len;
}

/* ---- the caller's thread */

caller proved_driver_keep_caller(void)
{
    run.is_caller_saved = true;
    return (caller){.error = errno, .cancel = CANCEL};
}

void proved_driver_restore_caller(caller saved)
{
    must(saved.cancel == CANCEL, "what was saved of the caller is restored");
    errno = saved.error;
}

/* ---- runs */

static void begin_run(void)
{
    memset(&run, 0, sizeof run);
    memset(states, 0, sizeof states);
    states[0] = READY;
    taken_count = 0;
    errno = ERROR_BEFORE;
}

static void look_at_end(void)
{
    must(errno == ERROR_BEFORE && run.is_caller_saved && current == 0, "the caller's thread is as it was");
    for (size_t i = 0; i < taken_count; i++) {
        must(!taken[i].is_live, "what was taken is freed");
    }
}

uint64_t explore(const char *kind, uint32_t switches, void (*runs)(void))
{
    uint64_t count = 0;
    explored = kind;
    most_switches = switches;
    do {
        begin_run();
        runs();
        look_at_end();
        count++;
    } while (has_another_run());
    return count;
}

int main(int count, char **words)
{
    uint32_t numbers[NUMBERS];
    if (count != 1 + NUMBERS) {
        return 2;
    }
    for (int i = 0; i < NUMBERS; i++) {
        numbers[i] = (uint32_t)atoi(words[1 + i]);
    }
    printf("%llu runs\n", (unsigned long long)explore_all(numbers));
    return 0;
}
