/*
 * More logins at a time than docs/examples/log_in.h has places. Ends with status 0 if each verdict was right, some
 * logins waited, others were told to try again, and no more memory was used than the places need.
 */
#include "proved_argon2.h"

#include <pthread.h>
#include <stdatomic.h>
#include <stdbool.h>
#include <stdio.h>
#include <string.h>
#include <sys/random.h>
#include <sys/syscall.h>
#include <time.h>
#include <unistd.h>

static const uint8_t pepper[] = {'p', 'e', 'p', 'p', 'e', 'r'};

#include "log_in.h"

#define SECONDS 3
#define AT_ONCE (PLACES + WAITING) /* logins of which none is told to try again */
#define THREADS (AT_ONCE + 8)
#define SLACK_KIB (24 * 1024) /* for the stacks of all threads, and what malloc keeps */

static struct logins logins;
static pthread_barrier_t begin;
static char older[PROVED_ARGON2_TEXT_SIZE], unreadable[] = "$argon2id$v=19$m=4096,t=1,p=1$";
static atomic_int seen[ERROR + 1], wrong;
static bool has_no_random_bytes;

/* In place of the C library's, so that a salt can fail. */
ssize_t getrandom(void *bytes, size_t length, unsigned flags)
{
    return has_no_random_bytes ? -1 : syscall(SYS_getrandom, bytes, length, flags);
}

static int has_left(void *client, uint64_t done, uint64_t all)
{
    (void)done, (void)all;
    return *(const int *)client;
}

/* Writes a hash of the password with this memory in KiB, which is not that of the new settings. */
static bool hash(const char *password, size_t length, uint32_t mem_cost, char *stored)
{
    const proved_argon2_options options = PROVED_ARGON2_OPTIONS;
    const proved_argon2_settings settings = {PROVED_ARGON2_ID, PROVED_ARGON2_VERSION_13, mem_cost, 1, 1, 32};
    return proved_argon2_password_hash_with(&options, &settings, stored, password, length, pepper, sizeof pepper)
        == PROVED_ARGON2_OK;
}

/* Returns whether a login with the right password has this verdict. The client has left if `client` is not 0. */
static bool gives(enum verdict expected, const char *user, const char *password, size_t length, int client)
{
    char stored[PROVED_ARGON2_TEXT_SIZE];
    return hash(password, length, 4096, stored)
        && log_in(&logins, user, password, length, stored, has_left, &client) == expected;
}

/* No password is longer than LONGEST, no name begins a line of the log, and no client that has left keeps a place. */
static bool is_bounded(void)
{
    char longest[LONGEST + 1];
    memset(longest, 'a', sizeof longest);
    bool holds = gives(DIFFERS, "somebody", longest, LONGEST + 1, 0)
        && gives(MATCHES, "x\nlogged in: root", longest, LONGEST, 0);
    for (int turn = 0; turn <= PLACES; turn++) {
        holds = holds && gives(ERROR, "somebody", "password", 8, 1);
    }
    return holds && gives(MATCHES, "somebody", "password", 8, 0);
}

/* Returns whether the bytes after a zero byte matter. */
static bool takes_all_bytes(void)
{
    char stored[PROVED_ARGON2_TEXT_SIZE];
    return hash("correct", 7, 4096, stored)
        && log_in(&logins, "somebody", "correct\0more", 12, stored, NULL, NULL) == DIFFERS
        && gives(MATCHES, "somebody", "correct\0more", 12, 0);
}

/* Returns whether a hash that is too large for the buffer is verified, and nobody gets in without a stored hash. */
static bool verifies_what_is_larger_and_nothing(void)
{
    char stored[PROVED_ARGON2_TEXT_SIZE];
    return hash("password", 8, 2 * proved_argon2_owasp2().mem_cost, stored)
        && log_in(&logins, "somebody", "password", 8, stored, NULL, NULL) == MATCHES
        && strstr(stored, "m=19456,") != NULL && log_in(&logins, "nobody", "password", 8, NULL, NULL, NULL) == DIFFERS;
}

/* Returns whether a right password still matches if it cannot be hashed again, and the old hash is kept. */
static bool keeps_the_old_hash(void)
{
    char stored[PROVED_ARGON2_TEXT_SIZE];
    strcpy(stored, older);
    has_no_random_bytes = true;
    return log_in(&logins, "somebody", "password", 8, stored, NULL, NULL) == MATCHES && strcmp(stored, older) == 0;
}

static void log_in_once(unsigned turn)
{
    char stored[PROVED_ARGON2_TEXT_SIZE] = {0};
    const int is_right = turn % 3 == 0, is_unreadable = turn % 7 == 0;
    strcpy(stored, is_unreadable ? unreadable : older);
    const enum verdict verdict = log_in(&logins, "somebody", is_right ? "password" : "Password", 8, stored, NULL, NULL);
    const enum verdict expected = is_unreadable ? ERROR : is_right ? MATCHES : DIFFERS;
    const int is_renewed = strstr(stored, "m=19456,t=2,p=1") != NULL;
    seen[verdict]++;
    if (verdict == BUSY) {
        usleep(1000); /* as a client that tries again later */
    }
    wrong += (verdict != expected && verdict != BUSY) || is_renewed != (verdict == MATCHES);
}

static void *log_in_often(void *arg)
{
    const time_t end = time(NULL) + SECONDS;
    for (unsigned turn = *(const unsigned *)arg; time(NULL) < end; turn++) {
        log_in_once(turn);
    }
    return NULL;
}

static void *log_in_at_once(void *arg)
{
    pthread_barrier_wait(&begin);
    log_in_once(*(const unsigned *)arg);
    return NULL;
}

/* Runs a function in this many threads, and waits for them. */
static bool run(void *(*function)(void *), unsigned count)
{
    static unsigned firsts[THREADS];
    static pthread_t threads[THREADS];
    for (unsigned at = 0; at < count; at++) {
        firsts[at] = at;
        if (pthread_create(&threads[at], NULL, function, &firsts[at]) != 0) {
            return false;
        }
    }
    for (unsigned at = 0; at < count; at++) {
        pthread_join(threads[at], NULL);
    }
    return true;
}

/* Returns whether none of AT_ONCE simultaneous logins is told to try again. */
static bool serves_all_who_wait(void)
{
    const int busy = seen[BUSY];
    return pthread_barrier_init(&begin, NULL, AT_ONCE) == 0 && run(log_in_at_once, AT_ONCE) && seen[BUSY] == busy;
}

/* getrusage counts the memory of the process that began this one. */
static long peak_kib(void)
{
    long kib = 0;
    char line[128];
    FILE *const status = fopen("/proc/self/status", "r");
    while (status != NULL && kib == 0 && fgets(line, sizeof line, status) != NULL)
        sscanf(line, "VmHWM: %ld", &kib);
    if (status != NULL) fclose(status);
    return kib;
}

int main(void)
{
    if (!hash("password", 8, 4096, older) || !begin_logins(&logins)) {
        return 2;
    }
    const long before = peak_kib();
    const bool is_run = run(log_in_often, THREADS) && serves_all_who_wait() && is_bounded();
    const long grown = peak_kib() - before, most = PLACES * (long)proved_argon2_owasp2().mem_cost + SLACK_KIB;
    printf("%d match, %d differ, %d busy, %d errors; %d wrong; %ld KiB of %ld\n", seen[MATCHES], seen[DIFFERS],
        seen[BUSY], seen[ERROR], wrong, grown, most);
    return !(is_run && seen[MATCHES] && seen[DIFFERS] && seen[BUSY] && seen[ERROR] && !wrong && grown > 0
        && grown <= most && takes_all_bytes() && verifies_what_is_larger_and_nothing() && keeps_the_old_hash());
}
