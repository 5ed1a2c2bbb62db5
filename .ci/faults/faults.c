/* Makes things go wrong in a program that preloads this. It reports each event in a line on standard error, so that a
   run without events is seen to have tested nothing. A request for memory says `request` or `refused`, a freed block
   `freed`, and a thread start `start`, `refused` or, if the system refuses it, `denied`. The program's exit says how
   much memory was resident at most: the line `VmHWM` of /proc/self/status.

   REFUSE_REQUEST N  refuses the N-th request for memory
   REFUSE_START N    refuses the N-th thread start
   REFUSE_TRIES N    refuses this many in a row, since callers try again; without it, one
   DELAY N           each new thread waits up to N microseconds (each its own time) before it begins and ends, and says
                     `late`

   A Rattle program allocates only by malloc and realloc, and ends by _exit, which runs no destructor. pthread_create
   allocates by calloc, which is not replaced here. */
#include <dlfcn.h>
#include <errno.h>
#include <fcntl.h>
#include <pthread.h>
#include <stdlib.h>
#include <string.h>
#include <unistd.h>

/* The C library's own. */
extern __typeof__(realloc) __libc_realloc;
extern __typeof__(free) __libc_free;

static unsigned long requests, starts;

static void say(const char *line)
{
    write(STDERR_FILENO, line, strlen(line));
}

static unsigned long number_in(const char *name, unsigned long other)
{
    const char *number = getenv(name);
    return number ? strtoul(number, NULL, 10) : other;
}

/* Returns whether to refuse this event: the N-th, or one of the tries that follow it. */
static int is_refused(const char *name, unsigned long *count)
{
    const unsigned long first = number_in(name, 0), number = __atomic_add_fetch(count, 1, __ATOMIC_SEQ_CST);
    if (first == 0 || number < first || number - first >= number_in("REFUSE_TRIES", 1)) return 0;
    say("refused\n");
    errno = ENOMEM;
    return 1;
}

void free(void *block)
{
    if (block) say("freed\n");
    __libc_free(block);
}

static void *request(void *block, size_t bytes)
{
    if (is_refused("REFUSE_REQUEST", &requests)) return NULL;
    say(block ? "request\nfreed\n" : "request\n");
    return __libc_realloc(block, bytes);
}

void *malloc(size_t bytes)
{
    return request(NULL, bytes);
}

void *realloc(void *block, size_t bytes)
{
    return request(block, bytes);
}

struct start {
    void *(*run)(void *);
    void *argument;
    unsigned wait;
};

static void *run_late(void *argument)
{
    const struct start start = *(struct start *)argument;
    __libc_free(argument);
    usleep(start.wait);
    void *const result = start.run(start.argument);
    usleep(start.wait);
    say("late\n");
    return result;
}

/* The waits are from random() without a seed: the same each run. */
int pthread_create(pthread_t *thread, const pthread_attr_t *attributes, void *(*run)(void *), void *argument)
{
    __typeof__(pthread_create) *const next = dlsym(RTLD_NEXT, "pthread_create");
    const long delay = (long)number_in("DELAY", 0);
    if (is_refused("REFUSE_START", &starts)) return EAGAIN;
    if (delay) {
        struct start *const late = __libc_realloc(NULL, sizeof *late);
        *late = (struct start){run, argument, (unsigned)(random() % delay) + 1};
        run = run_late, argument = late;
    }
    const int code = next(thread, attributes, run, argument);
    say(code == 0 ? "start\n" : "denied\n");
    return code;
}

void _exit(int status)
{
    char said[4096] = "";
    read(open("/proc/self/status", O_RDONLY), said, sizeof said - 1);
    const char *const line = strstr(said, "VmHWM:");
    if (line) write(STDERR_FILENO, line, strcspn(line, "\n") + 1);
    _Exit(status);
}
