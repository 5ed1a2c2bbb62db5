/* What the parts of the driver share: proved_argon2_driver.c computes, proved_argon2_calls.c implements the calls that
 * hash or verify, proved_argon2_buffers.c keeps buffers, and proved_argon2_tune.c searches for settings. The driver is
 * tested, not proved. */
#ifndef DRIVER_H
#define DRIVER_H

#define _GNU_SOURCE
#include "proved_argon2.h"

#include "platform.h"
#include <stdatomic.h>
#include <string.h>

#define INPUTS \
    const void *pwd, size_t pwd_len, const uint8_t *salt, size_t salt_len, const uint8_t *secret, size_t secret_len, \
        const uint8_t *ad, size_t ad_len, const proved_argon2_settings *settings
#define OF_BYTES pwd, pwd_len, salt, salt_len, secret, secret_len, ad, ad_len
#define OF_INPUTS OF_BYTES, settings
#define STORED \
    const char *text, size_t text_len, const void *pwd, size_t pwd_len, const uint8_t *secret, size_t secret_len, \
        const uint8_t *ad, size_t ad_len
#define OF_STORED text, text_len, pwd, pwd_len, secret, secret_len, ad, ad_len
#define IS_MISSING(name) ((name) == NULL && name##_len != 0)
#define ARE_INPUTS_MISSING \
    (IS_MISSING(pwd) || IS_MISSING(salt) || IS_MISSING(secret) || IS_MISSING(ad) || settings == NULL)
#define IS_STORED_MISSING (IS_MISSING(text) || IS_MISSING(pwd) || IS_MISSING(secret) || IS_MISSING(ad))

typedef proved_argon2_block block;
typedef proved_argon2_options options;

/* A share of the lanes, which are neighbours. */
typedef struct worker {
    _Atomic uint64_t state; /* 2 n before step n, 2 n + 1 while a thread takes that step, 2 n + 2 after it */
    uint32_t code;
} worker;

/* What filling the blocks needs, and all that the threads of a call share. It has neither the hash that is verified nor
 * the tag nor the options, so that the code which fills blocks cannot change a verdict. */
struct filling {
    const proved_argon2_job *job;
    block *blocks;
    size_t slice; /* how many blocks each of the four slices has */
    worker *workers;
    uint32_t tasks;      /* how many workers there are */
    team *team;          /* the call's own threads: one for each worker from 1 on, unless it was denied */
    uint64_t step;       /* step 0 writes the first blocks, and step n + 1 fills slice number n, over all passes */
    atomic_bool is_over; /* no further step follows */
    proved_argon2_progress *progress;
    void *arg;
};

/* The state of a call. The call overwrites this state at its end. */
struct call {
    options with;
    proved_argon2_job job;
    uint8_t *bytes; /* what the call allocates for a hash, a tag and a salt */
    size_t len;
    bool is_rehash_due; /* the encoded hash has other settings than the options' */
    caller saved;
    struct filling filling;
};

/* The size of the blocks of a job in bytes, which may be more than the address space has. */
static inline uint64_t bytes_of(const proved_argon2_job *job)
{
    return (uint64_t)4 * sizeof(block) * job->lanes * job->segment_length;
}

#pragma GCC visibility push(hidden)

/* Begins a call with options. A missing pointer is the first error, and wrong options are the second. */
uint32_t proved_driver_begin_call(struct call *call, const options *with, int is_missing);

/* Allocates len zeroed bytes. The end of the call clears and frees them. */
uint32_t proved_driver_take_bytes(struct call *call, uint64_t len);

/* Computes the tag of a job that was checked. If hash is not null, returns whether it matches. */
uint32_t proved_driver_compute(struct call *call, const uint8_t *hash, uint8_t *tag);

/* The same in a kept buffer of the call's options, if one can be had. */
uint32_t proved_driver_compute_kept(struct call *call, const uint8_t *hash, uint8_t *tag);

/* Ends a call with its result: clears its bytes, its job, the stack and the registers. */
CLEARS_REGISTERS uint32_t proved_driver_end_call(struct call *call, uint32_t code);

/* Returns zeroed memory for blocks that a caller keeps, or null; proved_argon2_memory_free frees it. */
void *proved_driver_take_buffer(uint64_t bytes);

#pragma GCC visibility pop

#endif
