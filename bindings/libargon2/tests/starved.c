/* Calls of libargon2.so.1 in a process that is denied address space, except for 16 MiB and 8 MiB times NUMBER: each
 * returns the memory error, and leaves its inputs unchanged. The calls are repeated, and the process must not grow.
 *
 *     starved NUMBER     prints what happened; the status is 0 if all is right
 */
#define _GNU_SOURCE
#include "../argon2.h"
#include <stdio.h>
#include <stdlib.h>
#include <string.h>
#include <sys/resource.h>
#include <unistd.h>

#define LENGTH 32
#define FIRST 20 /* calls, in which the heap settles */
#define TIMES 30
#define MOST_GROWTH (4 << 20) /* bytes: a call that leaked its memory would exceed this */
#define GREAT (1 << 18)       /* KiB, more than the process may have */

static const char password[] = "password", salt[] = "somesaltsomesalt";

static size_t size_of_process(void)
{
    size_t pages = 0;
    FILE *const file = fopen("/proc/self/statm", "r");
    if (file == NULL || fscanf(file, "%zu", &pages) != 1) {
        printf("FAILED: the size of the process cannot be read\n");
        exit(1);
    }
    fclose(file);
    return pages * (size_t)sysconf(_SC_PAGESIZE);
}

static argon2_context context_of(uint8_t *tag, char *own)
{
    strcpy(own, password);
    return (argon2_context){.out = tag,
        .outlen = LENGTH,
        .pwd = (uint8_t *)own,
        .pwdlen = sizeof password - 1,
        .salt = (uint8_t *)(uintptr_t)salt,
        .saltlen = sizeof salt - 1,
        .t_cost = 1,
        .m_cost = GREAT,
        .lanes = 1,
        .threads = 1,
        .version = ARGON2_VERSION_13,
        .flags = ARGON2_FLAG_CLEAR_PASSWORD};
}

/* Returns whether a context's calls return the memory error, and leave the password, its length and out unchanged. */
static int is_denied(void)
{
    static const uint8_t zeros[LENGTH];
    uint8_t tag[LENGTH] = {0};
    char own[sizeof password];
    argon2_context c = context_of(tag, own);
    return argon2id_ctx(&c) == ARGON2_MEMORY_ALLOCATION_ERROR
        && argon2id_verify_ctx(&c, (const char *)zeros) == ARGON2_MEMORY_ALLOCATION_ERROR
        && c.pwdlen == sizeof password - 1 && strcmp(own, password) == 0 && memcmp(tag, zeros, LENGTH) == 0;
}

static int is_right_without_memory(void)
{
    uint8_t tag[LENGTH] = {0};
    char encoded[128] = "";
    return argon2id_hash_raw(1, GREAT, 1, password, 8, salt, 16, tag, LENGTH) == ARGON2_MEMORY_ALLOCATION_ERROR
        && argon2id_hash_encoded(1, GREAT, 1, password, 8, salt, 16, LENGTH, encoded, sizeof encoded)
        == ARGON2_MEMORY_ALLOCATION_ERROR
        && argon2id_verify("$argon2id$v=19$m=262144,t=1,p=1$c29tZXNhbHRzb21lc2FsdA$"
                           "AAAAAAAAAAAAAAAAAAAAAAAAAAAAAAAAAAAAAAAAAAA",
               password, 8)
        == ARGON2_MEMORY_ALLOCATION_ERROR
        && is_denied();
}

int main(int count, char **words)
{
    const rlim_t left = ((rlim_t)16 + 8 * (count == 2 ? strtoul(words[1], NULL, 10) : 0)) << 20;
    const struct rlimit space = {size_of_process() + left, RLIM_INFINITY};
    int right = 0;
    if (count != 2 || setrlimit(RLIMIT_AS, &space) != 0) {
        return 2;
    }
    for (int i = 0; i < FIRST; i++) {
        right += is_right_without_memory();
    }
    const size_t before = size_of_process();
    for (int i = 0; i < TIMES; i++) {
        right += is_right_without_memory();
    }
    const size_t after = size_of_process(), growth = after > before ? after - before : 0;
    printf("%d of %d right, %zu bytes of growth\n", right, TIMES + FIRST, growth);
    return right != TIMES + FIRST || growth >= MOST_GROWTH;
}
