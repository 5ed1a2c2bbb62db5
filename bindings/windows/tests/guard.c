/* Checks that the proved calls extend a stack page by page. Windows requires this: below the touched pages it has one
 * guard page, and no more pages. The test runs on Linux with such a stack, since the machine code is the same. Needs
 * GNU C. */
#include "checks.h"

#include <pthread.h>
#include <signal.h>
#include <sys/mman.h>

enum { PAGE = 4096, STACK = 256 * 1024, PASSES = 2, LANES = 2, BLOCKS = 8 * LANES, TAG = 64, TEXT = 256 };

static const proved_argon2_settings settings = {PROVED_ARGON2_ID, PROVED_ARGON2_VERSION_13, BLOCKS, PASSES, LANES, TAG};
static const uint8_t bytes[600];
static proved_argon2_block blocks[BLOCKS];
static proved_argon2_job job;
static uint8_t tag[TAG], salt[16], computed[TAG];
static char text[TEXT];
static size_t text_len;

#define SOME bytes, sizeof bytes

/* ---- the stack of a call */

static char *stack, *lowest; /* the lowest page that is there */
static size_t jumps;         /* how often a page below the guard was touched first */

static void add_page(int number, siginfo_t *info, void *context)
{
    char *const touched = info->si_addr;
    (void)context;
    if (touched < stack || touched >= lowest) {
        signal(number, SIG_DFL);
        return;
    }
    jumps += touched < lowest - PAGE;
    while (touched < lowest) {
        lowest -= PAGE;
        mprotect(lowest, PAGE, PROT_READ | PROT_WRITE);
    }
}

static void (*running)(void);

static void *run(void *unused)
{
    static char other[64 * 1024];
    const stack_t aside = {.ss_sp = other, .ss_size = sizeof other};
    const struct sigaction action = {.sa_sigaction = add_page, .sa_flags = SA_SIGINFO | SA_ONSTACK};
    sigaltstack(&aside, NULL);
    sigaction(SIGSEGV, &action, NULL);
    lowest = (char *)((uintptr_t)__builtin_frame_address(0) / PAGE * PAGE) - PAGE;
    mprotect(stack, (size_t)(lowest - stack), PROT_NONE);
    running();
    return unused;
}

/* Runs something with a stack of its own, and returns whether that grew page by page. */
static bool comes_down(void (*some)(void))
{
    pthread_t thread;
    pthread_attr_t attributes;
    running = some;
    jumps = 0;
    mprotect(stack, STACK, PROT_READ | PROT_WRITE);
    pthread_attr_init(&attributes);
    pthread_attr_setstack(&attributes, stack, STACK);
    return pthread_create(&thread, &attributes, run, NULL) == 0 && pthread_join(thread, NULL) == 0 && jumps == 0;
}

/* ---- what is run */

static uint32_t code;

static void make_job(void)
{
    code = proved_argon2_job_make(SOME, bytes, 16, SOME, SOME, &settings, &job);
}

static void hash_job(void)
{
    code = proved_argon2_job_hash_over(&job, blocks, BLOCKS, tag, TAG);
}

static void verify_job(void)
{
    code = proved_argon2_job_verify_over(&job, blocks, BLOCKS, tag, TAG, computed, TAG);
}

static void hash(void)
{
    code = proved_argon2_hash_over(SOME, bytes, 16, SOME, SOME, &settings, blocks, BLOCKS, tag, TAG);
}

static void verify(void)
{
    code = proved_argon2_verify_over(SOME, bytes, 16, SOME, SOME, &settings, blocks, BLOCKS, tag, TAG, computed, TAG);
}

static void encode(void)
{
    code = proved_argon2_encode(bytes, 16, &settings, tag, TAG, text, TEXT);
    text_len = strlen(text);
}

static void read_text(void)
{
    code = proved_argon2_read_bytes(text, text_len, salt, sizeof salt, tag, TAG);
}

static void read_job(void)
{
    code = proved_argon2_job_read(text, text_len, SOME, SOME, SOME, &job, salt, sizeof salt, tag, TAG);
}

static void ask_for_rehash(void)
{
    code = proved_argon2_needs_rehash(text, text_len, &settings);
}

/* Skips pages: it first touches a byte three pages below. */
static void jump(void)
{
    char far[3 * PAGE];
    *(volatile char *)far = 1;
}

#define CHECK_CALL(some) \
    code = PROVED_ARGON2_UNKNOWN_NUMBER; \
    check(comes_down(some) && code == PROVED_ARGON2_OK, #some " comes down page by page")

int main(void)
{
    stack = mmap(NULL, STACK, PROT_READ | PROT_WRITE, MAP_PRIVATE | MAP_ANONYMOUS, -1, 0);
    if (stack == MAP_FAILED) {
        return 2;
    }
    CHECK_CALL(make_job);
    CHECK_CALL(hash_job);
    CHECK_CALL(verify_job);
    CHECK_CALL(hash);
    CHECK_CALL(verify);
    CHECK_CALL(encode);
    CHECK_CALL(read_text);
    CHECK_CALL(read_job);
    CHECK_CALL(ask_for_rehash);
    check(!comes_down(jump), "a jump is found");
    return finish();
}
