/* For Windows. Makes the driver's calls in new threads with stacks of PROVED_ARGON2_STACK_SIZE bytes, of which one page
 * is committed at first; measures the stack that they use; and checks that salts differ and that buffers are kept. */
#define WIN32_LEAN_AND_MEAN
#include "checks.h"

#include <windows.h>

enum { PAGE = 4096, MARGIN = 1024, PAINT = 0xa5, TAG = 32, TEXT = 128 };

static const proved_argon2_settings settings = {PROVED_ARGON2_ID, PROVED_ARGON2_VERSION_13, 4096, 2, 4, TAG};
static const uint8_t bytes[600];
static uint8_t tag[TAG];
static char text[TEXT];

#define SOME bytes, sizeof bytes
#define INPUTS SOME, SOME, SOME, SOME

static uint32_t hash_raw(void)
{
    return proved_argon2_hash_raw(INPUTS, &settings, tag, TAG);
}

static uint32_t verify_raw(void)
{
    return proved_argon2_verify_raw(INPUTS, &settings, tag, TAG);
}

static uint32_t hash_by_threads(void)
{
    proved_argon2_options with = PROVED_ARGON2_OPTIONS;
    with.threads = 4;
    return proved_argon2_hash_raw_with(&with, INPUTS, &settings, tag, TAG);
}

static uint32_t hash_encoded(void)
{
    return proved_argon2_hash_encoded(SOME, bytes, 16, SOME, SOME, &settings, text, TEXT);
}

static uint32_t verify_encoded(void)
{
    return proved_argon2_verify_encoded(text, strlen(text), SOME, SOME, SOME);
}

static proved_argon2_buffers *buffers;

static uint32_t hash_in_kept(void)
{
    proved_argon2_options with = PROVED_ARGON2_OPTIONS;
    with.buffers = buffers;
    return proved_argon2_hash_raw_with(&with, INPUTS, &settings, tag, TAG);
}

/* ---- stacks */

static uint32_t (*running)(void);
static uint32_t code;
static size_t taken;

/* The end of a thread's stack, a page above the guard at its bottom. */
static uint8_t *end_of_stack(void)
{
    MEMORY_BASIC_INFORMATION of_stack = {0};
    VirtualQuery(&of_stack, &of_stack, sizeof of_stack);
    return (uint8_t *)of_stack.AllocationBase + 4 * PAGE;
}

static DWORD WINAPI run(void *unused)
{
    (void)unused;
    code = running();
    return 0;
}

/* The same on a painted stack; measures how much was overwritten. */
static DWORD WINAPI run_over_paint(void *unused)
{
    volatile uint8_t *const here = __builtin_frame_address(0), *const end = end_of_stack(), *at = here - MARGIN;
    (void)unused;
    while (at > end) {
        *--at = PAINT;
    }
    code = running();
    while (*at == PAINT) {
        at++;
    }
    taken = (size_t)(here - at);
    return 0;
}

/* Runs something in a new thread, and returns whether it succeeded. */
static bool is_well(uint32_t (*some)(void), LPTHREAD_START_ROUTINE how)
{
    running = some;
    code = PROVED_ARGON2_UNKNOWN_NUMBER;
    const HANDLE thread = CreateThread(
        NULL, PROVED_ARGON2_STACK_SIZE, how, NULL, STACK_SIZE_PARAM_IS_A_RESERVATION, NULL);
    if (thread == NULL) {
        return false;
    }
    WaitForSingleObject(thread, INFINITE);
    CloseHandle(thread);
    return code == PROVED_ARGON2_OK;
}

static void check_call(uint32_t (*some)(void), const char *name)
{
    check(is_well(some, run), name);
    check(
        is_well(some, run_over_paint) && taken < PROVED_ARGON2_STACK_SIZE / 2, "it takes less than half of its stack");
    printf("%s: %u bytes of stack\n", name, (unsigned)taken);
}

static void check_salts(void)
{
    char other[PROVED_ARGON2_TEXT_SIZE];
    check(proved_argon2_password_hash(text, "password", 8) == PROVED_ARGON2_OK
            && proved_argon2_password_hash(other, "password", 8) == PROVED_ARGON2_OK
            && memcmp(text, other, sizeof other) != 0,
        "each password has a salt of its own");
    check(proved_argon2_password_verify(text, "password", 8) == PROVED_ARGON2_OK
            && proved_argon2_password_verify(other, "password", 8) == PROVED_ARGON2_OK,
        "both verify");
    check(proved_argon2_password_verify(text, "passwort", 8) == PROVED_ARGON2_MISMATCH, "another one does not");
}

/* A kept buffer is freed once it has been idle for ten seconds, by the system's clock. */
static void check_kept(void)
{
    check(proved_argon2_buffers_new(&settings, 1, &buffers) == PROVED_ARGON2_OK
            && proved_argon2_buffers_free_idle(buffers) == 0,
        "a handle of kept buffers");
    check_call(hash_in_kept, "hash_raw_with");
    const uint32_t left = proved_argon2_buffers_free_idle(buffers);
    check(verify_raw() == PROVED_ARGON2_OK && left > 5000 && left <= 10000, "it is right, and the buffer idle");
    Sleep(left + 100);
    check(proved_argon2_buffers_free_idle(buffers) == 0, "the buffer is freed ten seconds later");
    proved_argon2_buffers_free(buffers);
}

int main(void)
{
    check_call(hash_raw, "hash_raw");
    check_call(verify_raw, "verify_raw");
    check_call(hash_by_threads, "hash_raw_with");
    check_call(hash_encoded, "hash_encoded");
    check_call(verify_encoded, "verify_encoded");
    check_salts();
    check_kept();
    return finish();
}
