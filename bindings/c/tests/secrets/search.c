/* Preloaded into a program, this looks for pieces of what the program computes. At the program's end it searches all
   private writable memory, with the stacks of ended threads that the C library keeps. It also searches each freed
   block and, when a listed function returns, the stack below the stack pointer and the callers' frames above it. The
   file PLAN has the number of pieces, the places of calls to leave out and of returns, and the pieces. On standard
   error it prints how often each piece is found: a row of `found`, the piece, and a number. It replaces _exit, since a
   Rattle program ends by _exit, which runs no destructor. */
#include <fcntl.h>
#include <link.h>
#include <malloc.h>
#include <signal.h>
#include <stdint.h>
#include <stdio.h>
#include <stdlib.h>
#include <string.h>
#include <sys/mman.h>
#include <ucontext.h>
#include <unistd.h>

enum { MOST_PIECES = 512, MOST_PLACES = 1024, MOST_OF_MAPS = 1 << 20 };
enum { STACK_SIZE = 1 << 16, BELOW = 1 << 15, ABOVE = 1 << 16 };
enum { LEFT, FREED, IN_CALLERS, AT_STOPS };

/* The C library's own. */
extern void *const __libc_stack_end;
extern __typeof__(free) __libc_free;

/* A piece. Comparing by words keeps it out of vector registers, which might be saved on the stack. */
typedef struct __attribute__((packed, may_alias)) {
    uint64_t low, high;
} piece;

/* Places end with 0. */
struct plan {
    uint32_t count, dropped[MOST_PLACES], stops[MOST_PLACES];
    piece pieces[MOST_PIECES];
};
static const struct plan *plan;
static const uint8_t *program;
static unsigned found[(AT_STOPS + MOST_PLACES) * MOST_PIECES];
static uint8_t begins[1 << 16]; /* whether a piece begins with these two bytes, so that few places are compared */
static char maps[MOST_OF_MAPS];

static void look(const uint8_t *from, const uint8_t *to, size_t row)
{
    for (; from + sizeof(piece) <= to; from++) {
        const piece *const at = (const piece *)from, *const sought = plan->pieces;
        for (size_t i = 0; begins[(uint16_t)at->low] && i < plan->count; i++)
            if (at->low == sought[i].low && at->high == sought[i].high)
                __atomic_fetch_add(&found[row * MOST_PIECES + i], 1, __ATOMIC_RELAXED);
    }
}

/* All that can be written and is not shared. */
static void look_everywhere(void)
{
    const int file = open("/proc/self/maps", O_RDONLY);
    size_t length = 0;
    for (long more; (more = read(file, maps + length, MOST_OF_MAPS - 1 - length)) > 0;)
        length += (size_t)more;
    for (char *line = maps; line[0]; line = strchr(line, '\n') + 1) {
        char *rest;
        const uint8_t *const from = (const uint8_t *)strtoul(line, &rest, 16);
        const uint8_t *const to = (const uint8_t *)strtoul(rest + 1, &rest, 16);
        if (rest[1] == 'r' && rest[2] == 'w' && rest[4] == 'p') look(from, to, LEFT);
    }
}

__attribute__((noreturn)) static void report_and_exit(int status)
{
    look_everywhere();
    dprintf(STDERR_FILENO, "sought %u\n", plan->count);
    for (size_t at = 0; at < sizeof found / sizeof *found; at++)
        if (found[at]) dprintf(STDERR_FILENO, "%zu %zu %u\n", at / MOST_PIECES, at % MOST_PIECES, found[at]);
    _Exit(status);
}

/* The program ends with a breakpoint, so that the search runs on the signal's stack, and its frames overwrite none of
   the program's. */
__attribute__((noreturn, naked)) void _exit(int status)
{
    (void)status;
    __asm__("int3");
}

/* Searches the stack if this is the first thread. Then returns, as the instruction replaced by the breakpoint would. */
static void stop(int signal, siginfo_t *information, void *context)
{
    greg_t *const words = ((ucontext_t *)context)->uc_mcontext.gregs;
    const uint8_t *const top = (const uint8_t *)words[REG_RSP], *const end = __libc_stack_end;
    size_t number = 0;
    (void)signal;
    (void)information;
    if (words[REG_RIP] == (greg_t)_exit + 1) report_and_exit((int)words[REG_RDI]);
    while (program + plan->stops[number] != (uint8_t *)words[REG_RIP] - 1)
        number += 1;
    if (gettid() == getpid()) {
        look(top - BELOW, top, AT_STOPS + number);
        look(top, top + ABOVE < end ? top + ABOVE : end, IN_CALLERS);
    }
    words[REG_RIP] = *(const greg_t *)top;
    words[REG_RSP] += (greg_t)sizeof(greg_t);
}

void free(void *block)
{
    if (block) look(block, (uint8_t *)block + malloc_usable_size(block), FREED);
    __libc_free(block);
}

/* Makes dropped calls do nothing, dropped jumps return, and listed returns stop. */
static void change_program(void)
{
    static const uint8_t jump = 0xE9, nothing[] = {0x0F, 0x1F, 0x44, 0, 0}, returns[sizeof nothing] = {0xC3};
    const int memory = open("/proc/self/mem", O_RDWR);
    for (const uint32_t *at = plan->dropped; *at; at++)
        pwrite(memory, program[*at] == jump ? returns : nothing, sizeof nothing, (off_t)(program + *at));
    for (const uint32_t *at = plan->stops; *at; at++)
        pwrite(memory, "\xCC", 1, (off_t)(program + *at));
    close(memory);
}

/* The signal's stack is shared memory, which is not searched. The program has no other shared memory. */
__attribute__((constructor)) static void begin(void)
{
    const int file = open(getenv("PLAN"), O_RDONLY);
    plan = mmap(NULL, sizeof *plan, PROT_READ, MAP_PRIVATE, file, 0);
    close(file);
    for (size_t i = 0; i < plan->count; i++)
        begins[(uint16_t)plan->pieces[i].low] = 1;
    program = (const uint8_t *)_r_debug.r_map->l_addr; /* (the first is the program) */
    change_program();
    void *const stack = mmap(NULL, STACK_SIZE, PROT_READ | PROT_WRITE, MAP_SHARED | MAP_ANONYMOUS, -1, 0);
    sigaltstack(&(stack_t){.ss_sp = stack, .ss_size = STACK_SIZE}, NULL);
    sigaction(SIGTRAP, &(struct sigaction){.sa_sigaction = stop, .sa_flags = SA_ONSTACK | SA_SIGINFO}, NULL);
}
