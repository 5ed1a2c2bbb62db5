/* The state of Threads.antt, which follows what the driver does. moves.py writes each move from that file. A move that
 * no other thread can notice is made before the thread's next. */
#include "places.h"
#include <stdio.h>

enum name { Waking, Taking, Working, Telling, Waiting, Woken, Counting, Left, Ending, Ended };

/* A place with its numbers. */
#define NUMBER(name, first, second) (((uint64_t)(name) << 32) + ((uint64_t)(first) << 16) + (uint64_t)(second))

static struct {
    const struct filling *filling;
    const uint64_t *written;
    uint64_t members, place[MOST_THREADS], wakes[MOST_THREADS];
    uint64_t step, woken[MOST_THREADS], entered[MOST_THREADS], state[MOST_THREADS], code[MOST_THREADS];
    bool is_long, is_over, has_begun;
} model;

static void goes(uint64_t thread, uint64_t place)
{
    model.place[thread] = place;
}

static void wakes_for(uint64_t woken, uint64_t thread, uint64_t place)
{
    model.wakes[woken]++;
    goes(thread, place);
}

static void waits_for(uint64_t thread, uint64_t place)
{
    model.wakes[thread]--;
    goes(thread, place);
}

#include "threads_moves.h" /* (moves.py) */

static enum name name_of(uint32_t thread)
{
    return (enum name)(model.place[thread] >> 32);
}

static uint64_t first_of(uint32_t thread)
{
    return model.place[thread] >> 16 & 0xffff;
}

static uint64_t second_of(uint32_t thread)
{
    return model.place[thread] & 0xffff;
}

void begin_places(const struct filling *filling, const uint64_t *written, bool is_long)
{
    memset(&model, 0, sizeof model);
    model.filling = filling;
    model.written = written;
    model.is_long = is_long;
    model.place[0] = NUMBER(Waking, 1, 0);
}

void add_members(uint32_t members)
{
    model.members = members;
    for (uint32_t thread = 1; thread <= members; thread++) {
        model.place[thread] = NUMBER(Waiting, 0, 0);
    }
}

/* Leaves the step if the thread has claimed as many parts as it may: it tries no further one. */
static void leave(uint32_t thread)
{
    if (name_of(thread) == Taking) {
        make_Leaves(thread, first_of(thread), second_of(thread));
    }
}

void see_wake(uint32_t thread, uint32_t woken)
{
    if (thread != 0) {
        leave(thread);
        must(woken == 0 && name_of(thread) == Telling, "Tells");
        make_Tells(thread, first_of(thread) - 1);
    } else if (model.is_over) {
        make_Dismisses(woken);
    } else {
        make_Wakes(woken);
    }
}

void see_wait(uint32_t thread)
{
    leave(thread);
    if (thread != 0 && name_of(thread) != Waiting) {
        make_Waits(thread);
    }
}

void see_awake(uint32_t thread)
{
    if (thread == 0) {
        make_Counts(first_of(0));
    } else {
        make_Awakes(thread);
    }
}

/* The caller's thread ends the steps, or another one looks whether they have ended. */
static void see_access_to_end(uint32_t thread)
{
    leave(thread);
    if (thread == 0) {
        make_Stops();
    } else if (model.is_over) {
        make_Exits(thread);
    } else {
        make_Enters(thread);
    }
}

/* A thread marks its part as done, or tries to claim one, or finds that it is claimed. */
static void see_access_to_part(uint32_t thread, uint64_t part)
{
    if (name_of(thread) == Waking) {
        make_Begins();
    }
    const worker *const worker = &model.filling->workers[part];
    const uint64_t step = thread == 0 ? model.step : model.entered[thread] - 1, taken = second_of(thread);
    must(worker->state == model.state[part], "Claims"); /* (a claim is one access, which changes the state) */
    if (name_of(thread) == Working) {
        make_Finishes(thread, part, taken, worker->code);
    } else if (worker->state == 2 * step) {
        make_Claims(thread, part, taken);
    } else {
        make_Leaves(thread, part, taken);
    }
}

void see_access(uint32_t thread, const void *at)
{
    if (at == &model.filling->is_over) {
        see_access_to_end(thread);
    }
    for (uint32_t part = 0; part < model.filling->tasks; part++) {
        if (at == &model.filling->workers[part].state) {
            see_access_to_part(thread, part);
        }
    }
}

void see_write(uint32_t thread, uint32_t lane)
{
    make_Writes(thread, first_of(thread), second_of(thread), lane + 1);
}

void see_advance(void)
{
    leave(0);
    make_Advances();
}

void see_return(void)
{
    make_Returns();
}

void print_moves_of_threads(void)
{
    print_moves("Threads");
}
