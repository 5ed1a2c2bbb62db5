/*
 * Whether the library chooses the newest build that the processor can run, as the compiler's builtins see it, or the
 * one that the environment names; if none can run, each call must return an error. Each choice has its own process.
 *
 *     builds             the checks
 *     builds --name      prints the numbers of the chosen build and of the newest
 */
#include "../src/builds.h"
#include "checks.h"

#include <pthread.h>
#include <stdlib.h>
#include <sys/wait.h>
#include <unistd.h>

enum { THREADS = 8 };

static const char variable[] = "PROVED_ARGON2_CPU";

/* Returns whether hashing returns the known tag, or an error without a build. */
static bool hashes(int build)
{
    const proved_argon2_settings settings = {PROVED_ARGON2_D, PROVED_ARGON2_VERSION_13, 256, 2, 2, 32};
    uint8_t tag[32] = {0};
    const uint32_t code = proved_argon2_hash_raw(
        bytes_of("password"), 8, bytes_of("somesalt"), 8, NULL, 0, NULL, 0, &settings, tag, sizeof tag);
    return build == NO_BUILD
        ? code == PROVED_ARGON2_OLD_PROCESSOR && proved_argon2_library_version() == 0
        : code == PROVED_ARGON2_OK && proved_argon2_library_version() == PROVED_ARGON2_LIBRARY_VERSION_NUMBER
            && is_hex(tag, sizeof tag, "7b69c92d7c3889aad1281dbc8baefc12cc37c80f1c75e33ef2c2d40c28ebc573");
}

static int newest_build(void)
{
    __builtin_cpu_init();
    return __builtin_cpu_supports("x86-64-v4") ? X86_64_V4
        : __builtin_cpu_supports("x86-64-v3")  ? X86_64_V3
        : __builtin_cpu_supports("x86-64-v2")  ? X86_64_V2
                                               : NO_BUILD;
}

static void name_build(const char *name)
{
    if (name == NULL) {
        unsetenv(variable);
    } else {
        setenv(variable, name, 1);
    }
}

/* Returns whether a process chooses a build if the environment has this name, and keeps it when the name changes. */
static bool is_taken(const char *name, int build)
{
    name_build(name);
    const bool before = proved_driver_build == NOT_CHOSEN && hashes(build) && proved_driver_build == build;
    name_build(name == NULL ? "x86-64-v2" : NULL);
    return before && hashes(build) && proved_driver_build == build;
}

static void *hash_in_thread(void *build)
{
    return hashes(*(int *)build) ? build : NULL;
}

/* Returns whether threads that choose at the same time take one build. */
static bool is_taken_by_threads(const char *name, int build)
{
    pthread_t threads[THREADS];
    void *answer;
    bool good = true;
    name_build(name);
    for (size_t i = 0; i < THREADS; i++) {
        good &= pthread_create(&threads[i], NULL, hash_in_thread, &build) == 0;
    }
    for (size_t i = 0; i < THREADS; i++) {
        good &= pthread_join(threads[i], &answer) == 0 && answer != NULL;
    }
    return good && proved_driver_build == build;
}

static void check_in_process(bool (*holds)(const char *, int), const char *name, int build, const char *what)
{
    int status = 1;
    const pid_t child = fork();
    if (child == 0) {
        _exit(holds(name, build) ? 0 : 1);
    }
    check(child > 0 && waitpid(child, &status, 0) == child && status == 0, what);
}

int main(int count, char **words)
{
    const int newest = newest_build(), second = newest < X86_64_V2 ? newest : X86_64_V2;
    const int third = newest < X86_64_V3 ? NO_BUILD : X86_64_V3, fourth = newest < X86_64_V4 ? NO_BUILD : X86_64_V4;
    if (count > 1 && strcmp(words[1], "--name") == 0) {
        printf("%d of %d\n", build_here(), newest);
        fflush(stdout);
        _Exit(0);
    }
    check_in_process(is_taken, NULL, newest, "without a name, the newest build for the processor");
    check_in_process(is_taken, "", newest, "an empty name is none");
    check_in_process(is_taken, "x86-64-v2", second, "the build for x86-64-v2, where it is named");
    check_in_process(
        is_taken, "x86-64-v3", third, "the build for x86-64-v3, where it is named and the processor has it");
    check_in_process(is_taken, "x86-64-v4", fourth, "likewise the build for x86-64-v4");
    check_in_process(is_taken, "x86-64-v1", NO_BUILD, "no build, if the name is unknown");
    check_in_process(is_taken, "x86-64-v2 ", NO_BUILD, "no build, if a space follows the name");
    check_in_process(is_taken_by_threads, NULL, newest, "threads that choose at the same time take one build");
    check_in_process(is_taken_by_threads, "x86-64-v2", second, "threads take the named build");
    check_in_process(is_taken_by_threads, "none", NO_BUILD, "threads take no unknown build");
    return finish();
}
