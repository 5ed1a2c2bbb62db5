/* What the driver needs from the system. platform_posix.c implements it with POSIX and what Linux adds. It is tested,
 * not proved. */
#ifndef PLATFORM_H
#define PLATFORM_H

#include <stdbool.h>
#include <stddef.h>
#include <stdint.h>

#define HUGE_PAGE ((size_t)2 << 20) /* bytes */

/* Marks a function that clears, before it returns, the registers that its caller does not need. */
#if __has_attribute(zero_call_used_regs)
#define CLEARS_REGISTERS __attribute__((noinline, zero_call_used_regs("all")))
#else
#define CLEARS_REGISTERS
#endif

/* The state of the caller's thread that a call changes: errno, and whether the thread can be cancelled. */
typedef struct caller {
    int error, cancel;
} caller;

/* The threads of a call. The thread that started them has the number 0. A null pointer is a team without threads. */
typedef struct team team;

/* (The long prefix avoids clashes of names in a program that links the archive.) */
#pragma GCC visibility push(hidden)

/* Saves what a call changes, and disables cancellation of the thread. The second call restores both. */
caller proved_driver_keep_caller(void);
void proved_driver_restore_caller(caller saved);

/* Allocates memory at a multiple of 64, the size of a cache line, or returns null. The second call frees it. */
void *proved_driver_take_lines(size_t bytes);
void proved_driver_free_lines(void *lines);

/* Maps 2 MiB or more at a multiple of 2 MiB, or returns null. The memory is zero and in no core dump. It uses huge
 * pages where the system has them, and small pages for a short rest. The system allocates a page once it is touched. */
void *proved_driver_map_pages(size_t bytes);

/* Returns pages to the system, which clears them. */
void proved_driver_unmap_pages(void *pages, size_t bytes);

/* Reads random bytes from the system. Returns whether there were enough. */
bool proved_driver_take_random(uint8_t *bytes, size_t len);

/* The time in nanoseconds by a clock that nobody sets. */
uint64_t proved_driver_now(void);

/* Overwrites bytes with zeros. The compiler cannot remove this. */
void proved_driver_overwrite(void *bytes, size_t len);

/* Starts this many threads, or fewer if one is denied. Thread i, from 1 on, calls run(arg, own, i) once. */
team *proved_driver_start_team(uint32_t threads, void (*run)(void *arg, team *own, uint32_t number), void *arg);

/* The number of threads that were started. In a child that was forked meanwhile it is 0. */
uint32_t proved_driver_members(const team *own);

/* Wakes a thread of a team: ends its present wait, or the next one. */
void proved_driver_wake(team *own, uint32_t number);

/* Waits until the calling thread, which has this number, is woken. */
void proved_driver_await(team *own, uint32_t number);

/* Waits until all threads have returned, and frees the team. */
void proved_driver_end_team(team *own);

#pragma GCC visibility pop

#endif
