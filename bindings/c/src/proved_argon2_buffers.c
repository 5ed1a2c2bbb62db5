/* Buffers that several hashes use one after another: kept buffers (proved_argon2_service.h), and memory_new. Each kept
 * buffer has a place. The state of a place is one atomic number, so that no lock exists which a forked child could find
 * taken. The places that another thread of the parent has taken stay taken in the child. This is tested, not proved. */
#include "driver.h"
#include <stdlib.h>

#define MILLISECOND UINT64_C(1000000) /* in nanoseconds */
#define LONGEST_IDLE (10 * 1000 * MILLISECOND)
#define EMPTY UINT64_C(0) /* the place has no buffer */
#define TAKEN UINT64_MAX  /* one thread uses the place; only this one reads and writes `memory` */

typedef struct place {
    _Atomic uint64_t state; /* EMPTY, TAKEN, or since when its buffer is idle, in nanoseconds */
    void *memory;           /* the buffer, or null */
} place;

typedef struct proved_argon2_buffers {
    uint64_t len;  /* of each buffer, in bytes */
    uint32_t most; /* how many there may be */
    place places[];
} buffers;

/* Finds the length of the buffers for these settings, if a hash can have them. */
static uint32_t find_len(const proved_argon2_settings *settings, uint64_t *len)
{
    *len = proved_argon2_memory_len(settings);
    return proved_argon2_check(settings, 0, PROVED_ARGON2_MIN_SALT_LENGTH, 0, 0);
}

uint32_t proved_argon2_memory_new(const proved_argon2_settings *settings, void **memory, size_t *memory_len)
{
    if (settings == NULL || memory == NULL || memory_len == NULL) {
        return PROVED_ARGON2_NULL_POINTER;
    }
    uint64_t len;
    const uint32_t code = find_len(settings, &len);
    if (code != PROVED_ARGON2_OK) {
        return code;
    }
    const caller saved = proved_driver_keep_caller();
    void *const blocks = proved_driver_take_buffer(len);
    proved_driver_restore_caller(saved);
    if (blocks == NULL) {
        return PROVED_ARGON2_OUT_OF_MEMORY;
    }
    *memory = blocks;
    *memory_len = (size_t)len;
    return PROVED_ARGON2_OK;
}

uint32_t proved_argon2_buffers_new(const proved_argon2_settings *settings, uint32_t most, buffers **made)
{
    if (settings == NULL || made == NULL) {
        return PROVED_ARGON2_NULL_POINTER;
    }
    uint64_t len;
    const uint32_t code = find_len(settings, &len);
    if (code != PROVED_ARGON2_OK) {
        return code;
    }
    if (most > PROVED_ARGON2_MAX_BUFFERS) {
        return PROVED_ARGON2_OUT_OF_MEMORY;
    }
    const caller saved = proved_driver_keep_caller();
    buffers *const all = calloc(1, sizeof(buffers) + most * sizeof(place));
    proved_driver_restore_caller(saved);
    if (all == NULL) {
        return PROVED_ARGON2_OUT_OF_MEMORY;
    }
    all->len = len;
    all->most = most;
    *made = all;
    return PROVED_ARGON2_OK;
}

/* Takes a place in this state, if it is still in it. */
static bool take(place *from, uint64_t state)
{
    return atomic_compare_exchange_strong(&from->state, &state, TAKEN);
}

/* Takes the first place whose buffer is idle, or that has none. Returns null if there is no such place. */
static place *take_first(buffers *from, bool is_idle)
{
    for (uint32_t i = 0; i < from->most; i++) {
        const uint64_t state = from->places[i].state;
        if (state != TAKEN && (state != EMPTY) == is_idle && take(&from->places[i], state)) {
            return &from->places[i];
        }
    }
    return NULL;
}

/* Takes a place that has a buffer of this length, or returns null. (A check of the machine code leaves out this
 * function and free_due, so they are never inlined.) */
static __attribute__((noinline)) place *take_buffer(buffers *from, uint64_t len)
{
    if (from == NULL || len > from->len) {
        return NULL;
    }
    place *const idle = take_first(from, true), *const taken = idle != NULL ? idle : take_first(from, false);
    if (taken != NULL && taken->memory == NULL) {
        taken->memory = proved_driver_take_buffer(from->len);
    }
    if (taken != NULL && taken->memory == NULL) {
        taken->state = EMPTY;
        return NULL;
    }
    return taken;
}

/* Frees the buffer of a taken place, and leaves the place. */
static void free_buffer(place *taken, uint64_t len)
{
    void *const memory = taken->memory;
    taken->memory = NULL; /* (first, so that a child that is forked now does not free it again) */
    proved_argon2_memory_free(memory, (size_t)len);
    taken->state = EMPTY;
}

/* Frees the buffer of a place if it has been idle for too long. Returns in how many nanoseconds it will have been, or
 * the most if it is not idle. */
static uint64_t free_if_due(place *of, uint64_t len, uint64_t now)
{
    const uint64_t since = of->state;
    if (since == EMPTY || since == TAKEN) {
        return UINT64_MAX;
    }
    const uint64_t idle = now > since ? now - since : 0; /* (another thread may have left after `now`) */
    if (idle < LONGEST_IDLE) {
        return LONGEST_IDLE - idle;
    }
    if (take(of, since)) {
        free_buffer(of, len);
    }
    return UINT64_MAX;
}

/* Frees all buffers that have been idle for too long. Returns when the next one will have been, as above. */
static __attribute__((noinline)) uint64_t free_due(buffers *of, uint64_t now)
{
    uint64_t next = UINT64_MAX;
    for (uint32_t i = 0; i < of->most; i++) {
        const uint64_t left = free_if_due(&of->places[i], of->len, now);
        next = left < next ? left : next;
    }
    return next;
}

uint32_t proved_argon2_buffers_free_idle(buffers *of)
{
    if (of == NULL) {
        return 0;
    }
    const caller saved = proved_driver_keep_caller();
    const uint64_t next = free_due(of, proved_driver_now());
    proved_driver_restore_caller(saved);
    return next == UINT64_MAX ? 0 : (uint32_t)((next - 1) / MILLISECOND + 1);
}

void proved_argon2_buffers_free(buffers *of)
{
    const caller saved = proved_driver_keep_caller();
    for (uint32_t i = 0; of != NULL && i < of->most; i++) {
        free_buffer(&of->places[i], of->len);
    }
    free(of);
    proved_driver_restore_caller(saved);
}

uint32_t proved_driver_compute_kept(struct call *call, const uint8_t *hash, uint8_t *tag)
{
    buffers *const from = call->with.memory == NULL ? call->with.buffers : NULL;
    place *const taken = take_buffer(from, bytes_of(&call->job));
    if (taken == NULL) {
        return proved_driver_compute(call, hash, tag);
    }
    call->with.memory = taken->memory;
    call->with.memory_len = (size_t)from->len;
    const uint32_t code = proved_driver_compute(call, hash, tag);
    const uint64_t now = proved_driver_now();
    taken->state = now;
    free_due(from, now);
    return code;
}
