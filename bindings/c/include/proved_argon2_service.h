/*
 * For services: buffers that calls take and give back, how many hashes fit into memory, and a search for settings.
 * proved_argon2.h includes this header.
 *
 * These calls are C code that is tested, not proved, like those of proved_argon2_threads.h.
 *
 * Kept buffers are an option of any number of calls in any threads. They save the time in which the system maps,
 * clears and unmaps the memory of each hash.
 *
 * - A call takes an idle buffer. If none is idle, and fewer exist than the handle may have, it makes one. If all are in
 *   use, if its settings need more memory than the handle's, or if the system denies a new buffer, the call allocates
 *   its own memory, as it does without this option.
 * - Before the call returns, it clears what it used, and gives the buffer back.
 * - A buffer that has been idle for ten seconds is returned to the system: by the next call that gives one back, or by
 *   proved_argon2_buffers_free_idle.
 * - A forked child can use the handle too. It has its own copies of the buffers that were idle. It never uses the copy
 *   of a buffer that another thread of its parent was using.
 */
/* (in front of the guard, so that any of these headers can be included first) */
#include "proved_argon2.h"

#ifndef PROVED_ARGON2_SERVICE_H
#define PROVED_ARGON2_SERVICE_H

#ifdef __cplusplus
extern "C" {
#endif

/* The most buffers of a handle. Each call looks at all of them, and a processor computes one hash at a time. */
#define PROVED_ARGON2_MAX_BUFFERS 8192

/* Settings that proved_argon2_tune found. */
typedef struct proved_argon2_tuning {
    proved_argon2_settings settings; /* the settings */
    uint64_t nanoseconds;            /* the time of a hash with them, the least of several */
} proved_argon2_tuning;

/* clang-format off */
/*
 * Writes a handle for at most `most` kept buffers, each as large as these settings need. It makes no buffer yet. The
 * call checks the settings as proved_argon2_hash_raw does. If `most` is above PROVED_ARGON2_MAX_BUFFERS, it returns
 * PROVED_ARGON2_OUT_OF_MEMORY.
 */
PROVED_ARGON2_CHECKED
uint32_t proved_argon2_buffers_new(
    const proved_argon2_settings *settings, uint32_t most, proved_argon2_buffers **buffers);

/*
 * Returns the buffers that have been idle for ten seconds to the system. It returns in how many milliseconds it will
 * have the next one to return, or 0 if none is idle. Let a timer call it: else the buffers of a service's last calls
 * stay until its next call.
 */
uint32_t proved_argon2_buffers_free_idle(proved_argon2_buffers *buffers);

/* Frees a handle and its buffers. No call may be using it, or use it later. For null it does nothing. */
void proved_argon2_buffers_free(proved_argon2_buffers *buffers);

/*
 * How many hashes with these settings fit into this many bytes of memory at a time. Each counts as what it allocates
 * for its blocks: if they need 2 MiB or more, the next multiple of 2 MiB. Threads and inputs do not count. It returns 0
 * for settings that no hash can have, and for null settings, and UINT32_MAX if there are more.
 */
PROVED_ARGON2_CHECKED
uint32_t proved_argon2_hashes_at_once(const proved_argon2_settings *settings, uint64_t bytes);

/*
 * Measures hashes on this machine, and writes strong settings whose hash takes at most this time. They have the memory
 * of `most`, halved until a hash is fast enough, and then as many passes as there is time for, within the default
 * limits; the variant, the version, the lanes and the length of the hash are those of `most`. They have at least as
 * much memory, and as much work (memory times passes), as the weakest settings that OWASP recommends.
 *
 * Each hash is computed by proved_argon2_password_verify_unknown with these options. If their progress callback stops
 * it, the call returns PROVED_ARGON2_STOPPED. For settings that no hash can have, whatever their passes, it returns
 * their error. If even the weakest settings take longer, or need more memory than `most`, it returns
 * PROVED_ARGON2_TOO_COSTLY.
 */
PROVED_ARGON2_CHECKED
uint32_t proved_argon2_tune(
    const proved_argon2_options *options, const proved_argon2_settings *most, uint64_t nanoseconds,
    proved_argon2_tuning *tuning);

/* clang-format on */
#ifdef __cplusplus
}
#endif
#endif
