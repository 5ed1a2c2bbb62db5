/* Looks through the memory of the process and its vector registers for pieces of what a call computes: H0, blocks, the
 * tag and the inputs. */
#ifndef SEARCH_H
#define SEARCH_H

#include "calls.h"
#include "registers.h"
#include "system.h"

#include <sys/wait.h>
#include <unistd.h>

/* ---- what is looked for */

enum { PART = 16, PARTS = 64, MASK = 0x5A, TAG = 32, TEXT = 256 };
enum kind { OF_H0, OF_SEED, OF_FIRST, OF_CHAIN, OF_BLOCKS, OF_LAST, OF_TAG, OF_INPUTS, KINDS };

static const char *const of_kinds[KINDS] = {"H0", "what a first block is hashed from", "first blocks of the first pass",
    "the last hashes of a first block's chain", "blocks", "the combined last blocks", "the tag", "the inputs"};

/* The calls: in mapped memory, in the heap, as password_hash and password_verify_unknown compute, and with many lanes.
 * Their inputs are in read-only memory, so the search does not find them. */
enum { MAPPED, SMALL, ALONE, UNKNOWN, MANY, CALLS };

static const struct call calls[CALLS] = {
    {{PROVED_ARGON2_ID, 0x13, 2048, 2, 4, TAG}, "the password that is looked for", "a salt of 16 byt",
        "the secret that is looked for", "data", 31, 16, 29, 4},
    {{PROVED_ARGON2_ID, 0x13, 64, 2, 4, TAG}, "the password that is looked for", "a salt of 16 byt",
        "the secret that is looked for", "data", 31, 16, 29, 4},
    {{PROVED_ARGON2_ID, 0x13, 19456, 2, 1, TAG}, "the password that is looked for",
        {0x80, 0x81, 0x82, 0x83, 0x84, 0x85, 0x86, 0x87, 0x88, 0x89, 0x8a, 0x8b, 0x8c, 0x8d, 0x8e, 0x8f}, "", "", 31,
        16, 0, 0},
    {{PROVED_ARGON2_ID, 0x13, 2048, 2, 1, TAG}, "the password that is looked for", {0}, "the secret that is looked for",
        "", 31, 16, 29, 0},
    {{PROVED_ARGON2_ID, 0x13, 2048, 2, 16, TAG}, "the password that is looked for", "a salt of 16 byt",
        "the secret that is looked for", "data", 31, 16, 29, 4},
};

#define BYTES(call, what) (call).what, (call).what##_len
#define INPUTS_OF(call) BYTES(call, pwd), BYTES(call, salt), BYTES(call, secret), BYTES(call, ad), &(call).settings

/* A call's tag, its encoded hash, that of a tag of zeros, and the pieces, which MASK hides from the search here. */
typedef struct known {
    uint8_t tag[TAG];
    char text[TEXT], other[TEXT];
    size_t count;
    struct {
        enum kind kind;
        uint8_t bytes[PART];
    } parts[PARTS];
} known;

static known *all_known, *sought;
static const uint8_t zeros[TAG];

static inline void keep(known *to, enum kind kind, const void *bytes)
{
    for (size_t i = 0; i < PART; i++) {
        to->parts[to->count].bytes[i] = ((const uint8_t *)bytes)[i] ^ MASK;
    }
    to->parts[to->count++].kind = kind;
}

/* Keeps parts of the hash chains of the last lane's first two blocks: of the last hash, and of the hash before it,
 * whose first half is in the block. */
static inline void keep_chains(const proved_argon2_block *first, known *to)
{
    for (size_t column = 0; column < 2; column++) {
        keep(to, OF_CHAIN, first[column].words + 116);
        keep(to, OF_CHAIN, first[column].words + 120);
    }
}

/* Takes a step of a job and keeps some of the slice that it has written, with its last bytes. */
static inline bool keep_step(const proved_argon2_job *job, proved_argon2_block *blocks, uint32_t step, known *to)
{
    const size_t length = job->segment_length, slice = job->lanes * length;
    proved_argon2_block *const own = blocks + (step == 0 ? 0 : (step - 1) % 4) * slice;
    bool good = true;
    for (uint32_t lane = 0; lane < job->lanes; lane++) {
        good &= take_step(job, blocks, step, lane, 1) == PROVED_ARGON2_OK;
    }
    const enum kind kind = step == 0 ? OF_FIRST : OF_BLOCKS;
    keep(to, kind, own[step == 0 ? 0 : length - 1].words);
    keep(to, kind, own[slice - length + 1].words + 100);
    if (step == 0) {
        keep_chains(own + slice - length, to);
    } else {
        keep(to, OF_BLOCKS, own[slice - 1].words + 126);
    }
    return good;
}

/* The first two blocks of the last lane are hashed from H0, and behind it the column and the lane. */
static inline void keep_seeds(const proved_argon2_job *job, known *to)
{
    for (uint8_t column = 0; column < 2; column++) {
        uint8_t seed[PART] = {[8] = column, [12] = (uint8_t)(job->lanes - 1)};
        memcpy(seed, job->prehash + sizeof job->prehash - 8, 8);
        keep(to, OF_SEED, seed);
    }
}

/* The exclusive or of the last blocks; with one lane, it is in the matrix. */
static inline void keep_last(const proved_argon2_job *job, const proved_argon2_block *slice, known *to)
{
    uint64_t words[PART / 8] = {0};
    for (size_t lane = 1; lane <= job->lanes; lane++) {
        for (size_t i = 0; i < PART / 8; i++) {
            words[i] ^= slice[lane * job->segment_length - 1].words[i];
        }
    }
    if (job->lanes > 1) {
        keep(to, OF_LAST, words);
    }
}

static inline bool spell(const struct call *call, const uint8_t *tag, char *text)
{
    return proved_argon2_encode(
               call->salt, call->salt_len, &call->settings, tag, call->settings.hash_length, text, TEXT)
        == PROVED_ARGON2_OK;
}

/* Computes a call by its steps, to know what to look for. */
static inline bool know(const struct call *call, known *to)
{
    const size_t size = (size_t)call->settings.mem_cost * 1024, len = call->settings.hash_length;
    proved_argon2_block *const blocks = mmap(NULL, size, PROT_READ | PROT_WRITE, MAP_PRIVATE | MAP_ANONYMOUS, -1, 0);
    proved_argon2_job job;
    bool good = proved_argon2_job_make(INPUTS_OF(*call), &job) == PROVED_ARGON2_OK;
    for (uint32_t step = 0; good && step <= 4 * job.passes; step++) {
        good = keep_step(&job, blocks, step, to);
    }
    const size_t slice = (size_t)job.lanes * job.segment_length;
    good = good && proved_argon2_job_finish(&job, blocks + 3 * slice, slice, to->tag, len) == PROVED_ARGON2_OK;
    good = good && spell(call, to->tag, to->text) && spell(call, zeros, to->other);
    for (size_t i = 0; i < 4; i++) {
        keep(to, OF_H0, job.prehash + PART * i);
    }
    keep_seeds(&job, to);
    keep_last(&job, blocks + 3 * slice, to);
    for (size_t at = 0; at + PART <= len; at += PART) {
        keep(to, OF_TAG, to->tag + at);
    }
    keep(to, OF_INPUTS, call->pwd + 1);
    if (call->secret_len != 0) {
        keep(to, OF_INPUTS, call->secret + 1);
    }
    return good;
}

/* A child computes, so that this process has none of it except in a read-only page. */
static inline bool know_all(void)
{
    const size_t size = CALLS * sizeof(known);
    int status = 1;
    all_known = mmap(NULL, size, PROT_READ | PROT_WRITE, MAP_SHARED | MAP_ANONYMOUS, -1, 0);
    const pid_t child = fork();
    if (child == 0) {
        bool good = true;
        for (size_t i = 0; i < CALLS; i++) {
            good = good && know(&calls[i], &all_known[i]);
        }
        _exit(good ? 0 : 1);
    }
    return child > 0 && waitpid(child, &status, 0) == child && status == 0 && mprotect(all_known, size, PROT_READ) == 0;
}

/* ---- looking */

static uint8_t first_two[1 << 13]; /* a bit for each two bytes with which a piece begins */
static size_t found[KINDS];

static inline void seek(size_t which)
{
    sought = &all_known[which];
    memset(first_two, 0, sizeof first_two);
    for (size_t i = 0; i < sought->count; i++) {
        const unsigned two = sought->parts[i].bytes[0] | (unsigned)sought->parts[i].bytes[1] << 8;
        first_two[two >> 3] |= (uint8_t)(1 << (two & 7));
    }
}

/* Returns whether a piece begins here, byte by byte, so that it is copied nowhere. */
static inline bool is_part(const uint8_t *at, const uint8_t *masked)
{
    size_t i = 0;
    while (i < PART && (at[i] ^ MASK) == masked[i]) {
        i++;
    }
    return i == PART;
}

static inline void look(const uint8_t *bytes, size_t len)
{
    for (size_t at = 0; at + PART <= len; at++) {
        const unsigned two = (bytes[at] ^ MASK) | (unsigned)(bytes[at + 1] ^ MASK) << 8;
        for (size_t i = 0; (first_two[two >> 3] >> (two & 7) & 1) != 0 && i < sought->count; i++) {
            found[sought->parts[i].kind] += is_part(bytes + at, sought->parts[i].bytes);
        }
    }
}

static inline void look_at_request(const void *block)
{
    look(block, malloc_usable_size((void *)(uintptr_t)block));
}

/* Looks through the memory of the process that can be written. */
static inline void look_everywhere(void)
{
    FILE *const maps = fopen("/proc/self/maps", "r");
    char line[256];
    while (maps != NULL && fgets(line, sizeof line, maps) != NULL) {
        unsigned long from, to;
        char mode[5];
        if (sscanf(line, "%lx-%lx %4s", &from, &to, mode) == 3 && mode[0] == 'r' && mode[1] == 'w') {
            look((const uint8_t *)from, to - from);
        }
    }
    if (maps == NULL || fclose(maps) != 0) {
        abort();
    }
}

/* A program calls this after a call, if it is set. If its name is bound late, the loader saves the registers. */
static void (*calls_behind)(void);

/* The contents, after a call, of other registers that it may change. */
static uint64_t general[18];

/* The address is in a register that calls keep, so that it replaces none of the others. */
/* clang-format off */
#if defined(__aarch64__)
#define NOTE_ALL_GENERAL() \
    register uint64_t *const noted __asm__("x19") = general; \
    __asm__ volatile("stp x0, x1, [%0]; stp x2, x3, [%0, 16]; stp x4, x5, [%0, 32]; stp x6, x7, [%0, 48]; " \
        "stp x8, x9, [%0, 64]; stp x10, x11, [%0, 80]; stp x12, x13, [%0, 96]; stp x14, x15, [%0, 112]; " \
        "stp x16, x17, [%0, 128]" : : "r"(noted) : "memory")
#else
#define NOTE_ALL_GENERAL() \
    register uint64_t *const noted __asm__("rbx") = general; \
    __asm__ volatile("mov %%rax, (%0); mov %%rcx, 8(%0); mov %%rdx, 16(%0); mov %%rsi, 24(%0); mov %%rdi, 32(%0); " \
        "mov %%r8, 40(%0); mov %%r9, 48(%0); mov %%r10, 56(%0); mov %%r11, 64(%0)" : : "r"(noted) : "memory")
#endif
/* clang-format on */

/* Makes a call far down the stack, so that the frames of the later search do not overwrite the call's frames. */
__attribute__((noinline)) static uint32_t far_below(uint32_t (*does)(const void *), const void *arg)
{
    volatile uint8_t space[1 << 16];
    space[0] = 0;
    const uint32_t code = does(arg);
    NOTE_ALL_GENERAL();
    if (calls_behind != NULL) {
        calls_behind();
    }
    NOTE_ALL();
    return code + space[0];
}

/* Returns whether nothing is found. Prints the first few findings. */
static inline bool is_nothing_found(const char *after)
{
    static int reported;
    bool is_nothing = true;
    for (size_t kind = 0; kind < KINDS; kind++) {
        if (found[kind] != 0 && ++reported <= 10) {
            printf("%zu pieces of %s are left by %s\n", found[kind], of_kinds[kind], after);
        }
        is_nothing = is_nothing && found[kind] == 0;
    }
    return is_nothing;
}

/* Runs a function in a child, where it may leave anything, and returns its status. */
static inline int status_of(int (*work)(const void *), const void *arg)
{
    int status = 0;
    fflush(stdout);
    const pid_t child = fork();
    if (child == 0) {
        _exit(work(arg));
    }
    return child > 0 && waitpid(child, &status, 0) == child && WIFEXITED(status) ? WEXITSTATUS(status) : -1;
}

/* Finds out what to look for, and checks that nothing is found before any call. */
static inline void check_nothing_before(void)
{
    pthread_attr_t attributes;
    pthread_attr_init(&attributes);
    pthread_attr_setstacksize(&attributes, 4 * PROVED_ARGON2_STACK_SIZE);
    pthread_setattr_default_np(&attributes); /* (so that there is less to look through) */
    check(know_all(), "what to look for");
    seek(MAPPED);
    look_everywhere();
    check(is_nothing_found("nobody"), "nothing is found before a call");
    printf("searched registers: %s\n", REGISTERS);
}

#endif
