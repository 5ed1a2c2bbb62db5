/*
 * The logins of a service, as docs/USE.md describes them. The file that includes this one has the array `pepper`, a key
 * from a secret store.
 */
#include "proved_argon2.h"

#include <semaphore.h>
#include <stdbool.h>
#include <stdint.h>
#include <stdio.h>
#include <string.h>

enum {
    LONGEST = 1024, /* the longest password, in bytes */
    PLACES = 2,     /* logins that compute at a time */
    WAITING = 64    /* logins that wait for a place */
};

/* What to answer: let the user in; reject with HTTP status 401; for BUSY and ERROR "try again later", with 503. */
enum verdict { MATCHES, DIFFERS, BUSY, ERROR };

struct logins {
    sem_t room, places;             /* how many more logins may be here, and how many places are free */
    proved_argon2_buffers *buffers; /* kept buffers, or null */
};

/* Call it once. If the system denies memory for the handle, each login allocates and frees its own memory. */
static bool begin_logins(struct logins *logins)
{
    const proved_argon2_settings new_settings = proved_argon2_owasp2();
    if (proved_argon2_buffers_new(&new_settings, PLACES, &logins->buffers) != PROVED_ARGON2_OK) {
        logins->buffers = NULL;
    }
    return sem_init(&logins->room, 0, PLACES + WAITING) == 0 && sem_init(&logins->places, 0, PLACES) == 0;
}

/* Waits for a place. Returns false at once if too many logins wait. */
static bool enter(struct logins *logins)
{
    if (sem_trywait(&logins->room) != 0) {
        return false;
    }
    while (sem_wait(&logins->places) != 0) {
        /* a signal has interrupted it */
    }
    return true;
}

static void leave(struct logins *logins)
{
    sem_post(&logins->places);
    sem_post(&logins->room);
}

/* Writes one line to the log. A name can neither begin another line nor fill the disk. */
static void note(const char *event, const char *user)
{
    char name[65] = "";
    for (size_t at = 0; at < sizeof name - 1 && user[at] != '\0'; at++) {
        name[at] = user[at] >= ' ' && user[at] <= '~' ? user[at] : '?';
    }
    fprintf(stderr, "%s: %s\n", event, name);
}

/* Verifies a password, and writes the new hash over `stored` if the old one has other settings than new hashes. */
static uint32_t verify(
    proved_argon2_options options, const char *user, const void *password, size_t length, char *stored)
{
    if (stored == NULL) {
        return proved_argon2_password_verify_unknown(
            &options, options.new_settings, password, length, pepper, sizeof pepper);
    }
    const uint32_t code = proved_argon2_password_verify_with(&options, stored, password, length, pepper, sizeof pepper);
    if (code != PROVED_ARGON2_NEEDS_REHASH) {
        return code;
    }
    options.progress = NULL; /* the password matches, whether or not the client is still there */
    if (proved_argon2_password_hash_with(
            &options, options.new_settings, stored, password, length, pepper, sizeof pepper)
        != PROVED_ARGON2_OK) {
        note("not hashed again", user);
    }
    return PROVED_ARGON2_OK;
}

/*
 * Logs in a user with a password of `length` bytes, any of which may be zero. `stored` is the user's encoded hash, with
 * room for PROVED_ARGON2_TEXT_SIZE bytes, or NULL if there is no such user. `has_left(client)` returns 1 if the client
 * has left.
 */
static enum verdict log_in(struct logins *logins, const char *user, const void *password, size_t length, char *stored,
    proved_argon2_progress *has_left, void *client)
{
    const proved_argon2_settings new_settings = proved_argon2_owasp2();
    const proved_argon2_limits limits = proved_argon2_default_limits();
    proved_argon2_options options = {.size = sizeof options, .limits = &limits, .new_settings = &new_settings};
    if (length > LONGEST) {
        note("too long a password", user);
        return DIFFERS;
    }
    if (!enter(logins)) {
        note("busy", user);
        return BUSY;
    }
    options.progress = has_left;
    options.arg = client;
    options.buffers = logins->buffers;
    const uint32_t code = verify(options, user, password, length, stored);
    leave(logins);
    note(code == PROVED_ARGON2_OK ? "logged in" : proved_argon2_message(code), user);
    return code == PROVED_ARGON2_OK ? MATCHES : code == PROVED_ARGON2_MISMATCH ? DIFFERS : ERROR;
}
