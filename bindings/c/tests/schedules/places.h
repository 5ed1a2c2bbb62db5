/* Watches where each thread of a call is (places.c): the model Threads.antt must allow each of its moves. Another
 * thread is current only where explore_schedules.c switches, so each event is told before any other can happen. */
#ifndef PLACES_H
#define PLACES_H

#include "driver.h"
#include "explore.h"

/* A call begins in the caller's thread alone, in long parts or not. `written` has, for each lane, one more than the
 * step that wrote it last. */
void begin_places(const struct filling *filling, const uint64_t *written, bool is_long);

/* So many threads wait beside the caller's. */
void add_members(uint32_t members);

/* A thread wakes another one. */
void see_wake(uint32_t thread, uint32_t woken);

/* A thread begins to wait, and was woken. */
void see_wait(uint32_t thread);
void see_awake(uint32_t thread);

/* A thread is about to access an atomic variable, and no other thread runs before it has done so. */
void see_access(uint32_t thread, const void *at);

/* A thread writes the segment of a lane. */
void see_write(uint32_t thread, uint32_t lane);

/* The caller's thread goes on to the next step, and returns. */
void see_advance(void);
void see_return(void);

/* Prints how often each move was made. */
void print_moves_of_threads(void);

#endif
