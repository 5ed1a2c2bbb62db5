/*
 * The forked children of a process with threads: while two threads hash with threads and another lists the program's
 * objects, like an unwinder, the parent forks one child after another. Each hashes with threads in its copy of the
 * parent's reusable buffer, as the parent does. Then a progress callback forks. It is linked with --wrap=getpid.
 */
#include "checks.h"

#include <link.h>
#include <pthread.h>
#include <stdatomic.h>
#include <sys/wait.h>
#include <unistd.h>

#define CHILDREN 30
#define HASHING 2

static const proved_argon2_settings settings = {PROVED_ARGON2_ID, PROVED_ARGON2_VERSION_13, 16640, 1, 4, 32};
static const char expected[] = "48e662b158c775b082bfc3c9d27c547c05815eb221f43e318e10710a21809956"; /* by libargon2 */
static atomic_bool ends;
static atomic_uint hashed, listed;

pid_t __wrap_getpid(void);

/* Every process has the ID 1, like the first of a namespace. */
pid_t __wrap_getpid(void)
{
    return 1;
}

/* Options of four threads, with a reusable buffer. */
static proved_argon2_options with_memory(void)
{
    proved_argon2_options with = PROVED_ARGON2_OPTIONS;
    const uint32_t code = proved_argon2_memory_new(&settings, &with.memory, &with.memory_len);
    with.threads = 4;
    return code == PROVED_ARGON2_OK ? with : (proved_argon2_options){0};
}

static bool is_right(const proved_argon2_options *with)
{
    uint8_t tag[32];
    return proved_argon2_hash_raw_with(
               with, bytes_of("password"), 8, bytes_of("somesalt"), 8, NULL, 0, NULL, 0, &settings, tag, sizeof tag)
        == PROVED_ARGON2_OK
        && is_hex(tag, sizeof tag, expected);
}

static void *hash_on(void *unused)
{
    bool right = true;
    (void)unused;
    while (!ends) {
        const proved_argon2_options with = with_memory();
        right = right && is_right(&with);
        proved_argon2_memory_free(with.memory, with.memory_len);
        hashed++;
    }
    return right ? &ends : NULL;
}

static int count_object(struct dl_phdr_info *object, size_t size, void *count)
{
    (void)object;
    (void)size;
    ++*(atomic_uint *)count;
    return 0;
}

static void *list_on(void *unused)
{
    (void)unused;
    while (!ends) {
        dl_iterate_phdr(count_object, &listed);
    }
    return &ends;
}

static bool ends_well(pid_t child)
{
    int status;
    return child > 0 && waitpid(child, &status, 0) == child && WIFEXITED(status) && WEXITSTATUS(status) == 0;
}

/* Returns whether a child hashes twice in the buffer, frees it, and hashes once more. */
static bool child_is_right(const proved_argon2_options *with)
{
    static const proved_argon2_options without = PROVED_ARGON2_OPTIONS;
    const pid_t child = fork();
    if (child == 0) {
        alarm(30);
        bool right = is_right(with) && is_right(with);
        proved_argon2_memory_free(with->memory, with->memory_len);
        _exit(right && is_right(&without) ? 0 : 1);
    }
    return ends_well(child);
}

static int fork_in_the_middle(void *child, uint64_t done, uint64_t all)
{
    if (2 * done == all) {
        *(pid_t *)child = fork();
        alarm(*(pid_t *)child == 0 ? 30 : 0);
    }
    return 0;
}

/* Returns whether the callback's child goes on alone despite having the parent's process ID, and the parent goes on
 * with two threads. Parts are long, so neither thread takes the other's. */
static bool both_go_on(void)
{
    pid_t child = -1;
    proved_argon2_options with = PROVED_ARGON2_OPTIONS;
    with.threads = 2;
    with.progress = fork_in_the_middle;
    with.arg = &child;
    const bool right = is_right(&with);
    if (child == 0) {
        _exit(right ? 0 : 1);
    }
    return ends_well(child) && right;
}

static void check_children(void)
{
    pthread_t threads[HASHING + 1];
    void *right[HASHING + 1] = {NULL};
    const proved_argon2_options with = with_memory();
    bool began = true, children = true, parent = is_right(&with);
    for (int i = 0; i <= HASHING; i++) {
        began = pthread_create(&threads[i], NULL, i < HASHING ? hash_on : list_on, NULL) == 0 && began;
    }
    check(began && with.memory != NULL, "three threads begin, and a memory is kept");
    for (int i = 0; i < CHILDREN && children; i++) {
        children = child_is_right(&with) && children;
        parent = is_right(&with) && parent;
    }
    ends = true;
    for (int i = 0; i <= HASHING; i++) {
        pthread_join(threads[i], &right[i]);
    }
    proved_argon2_memory_free(with.memory, with.memory_len);
    check(children, "each child hashes over its copy of the memory");
    check(parent, "the parent hashes over its own");
    check(hashed >= HASHING && listed >= CHILDREN && right[0] != NULL && right[1] != NULL, "the threads go on");
}

int main(void)
{
    check_children();
    check(both_go_on(), "a child of the progress callback goes on, and so does the parent");
    return finish();
}
