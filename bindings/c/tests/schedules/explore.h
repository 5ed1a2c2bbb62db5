/* What explore_schedules.c and explore_buffers.c share (explore.c). They run a part of the driver in every way in which
 * it can go, each way in its own run: its choices, its threads, of which one runs at a time, and what it takes. */
#ifndef EXPLORE_H
#define EXPLORE_H

#include <stdbool.h>
#include <stddef.h>
#include <stdint.h>

enum { MOST_THREADS = 4, NUMBERS = 4 };

/* ---- what each program defines */

/* Explores what the numbers of the command ask for, and returns how many runs there were. */
uint64_t explore_all(const uint32_t *numbers);

/* The running thread is about to access an atomic variable (accesses.c). Another may run first. */
void come_to(const void *at);

/* ---- runs */

/* Runs this in all ways, each with at most so many switches of threads without need, and returns how many ways there
 * were. After a run, whatever was taken must be freed, and the caller's thread must be as it was. */
uint64_t explore(const char *kind, uint32_t switches, void (*runs)(void));

/* Chooses one of `ways` ways: the first and, in later runs, each of the others. */
unsigned choose(unsigned ways);

/* Chooses whether this happens, unless it has happened in this run. */
bool happens_once(bool *has_happened);

/* Returns whether a weak exchange fails spuriously: at most one does in a run. */
bool fails_spuriously(void);

/* Prints what is violated, the kind of run and its choices, and ends the program. */
_Noreturn void report(const char *what);

static inline void must(bool holds, const char *what)
{
    if (!holds) {
        report(what);
    }
}

/* ---- threads. The first is the process's own: it is ready when a run begins, and the others are done. */

enum state { DONE, READY, WAITING, JOINING };

extern enum state states[MOST_THREADS];
extern uint32_t current;

/* Makes a thread ready that runs this, which does not return. */
void begin_thread(uint32_t number, void (*runs)(void));

void switch_to(uint32_t next);

/* Goes on with the running thread, or with another that is ready. If the running one is not, the first that is goes on.
 * Each other choice counts as a switch without need, unless the switch is free. */
void switch_threads(bool is_free);

/* Goes on in a child, which has only the running thread and the process's own. */
void fork_here(void);

/* ---- what is taken in a run, in its order */

extern struct taken {
    void *at;
    size_t len;
    int kind;
    bool is_live;
} taken[];
extern size_t taken_count;

/* Notes what is taken, and returns it. */
void *take(void *at, size_t len, int kind);

/* Finds what is there, and must not have been freed. */
struct taken *find_taken(const void *at);

/* Notes that it is freed, and returns its length. */
size_t give_back(const void *at, int kind);

#endif
