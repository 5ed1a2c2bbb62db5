/*
 * Random calls of all sizes: up to a gibibyte or a quarter of the free memory, hundreds of lanes and threads, and a tag
 * of a mebibyte. Each must return libargon2's tag, and start the threads, request the memory and write the blocks that
 * its settings require, so no call is rejected, truncated or repeated above some size. It is linked with --wrap for
 * what it counts, and over a library in which each block that is written adds one to a number (plant_leak.py).
 *
 *     drawn_settings [SEED]           the seed is printed
 *     drawn_settings large [SEED]     over a library that only counts the blocks: from 2 GiB on
 */
#include "calls.h"
#include "system.h"

#include <time.h>

enum {
    DRAWS = 15,
    LARGE_DRAWS = 8,
    MOST_LANES = 400,
    MOST_PASSES = 8,
    MOST_TAG = 1 << 20,
    MOST_FOR_A_TEXT = 16,
    BLOCK = 1024,
    WORDS_AT_ONCE = 128,
    WAYS = 6,
    SLACK = 4 << 20,
    LEAST_FOR_THREADS = 2 << 20,
    LEAST_WORK_FOR_THREADS = 4 << 20
};

/* KiB: up to more than a machine has. Only the first pages of each lane are touched. */
#define LARGE ((uint32_t)2 << 20)
#define MOST_LARGE ((uint32_t)32 << 20)

/* The library counts here the blocks that it writes. */
#define COUNTER 0x10000000

static atomic_size_t *written;
static uint8_t tag[MOST_TAG], expected[MOST_TAG];
static char text[2 * MOST_TAG];
static uint32_t most_memory; /* KiB */

/* A number of a drawn magnitude. */
static uint32_t drawn(uint32_t least, uint32_t most)
{
    uint32_t magnitudes = 0;
    do {
        magnitudes++;
    } while (most >> magnitudes >= least);
    const uint32_t from = least << below(magnitudes), to = most / 2 < from ? most : 2 * from;
    return from + below(to - from + 1);
}

static struct call drawn_call(uint32_t draw)
{
    struct call call = any_call(1);
    const uint32_t lanes = draw == 0 ? MOST_LANES : drawn(1, MOST_LANES);
    const uint32_t memory = draw <= 1 ? most_memory : drawn(8 * lanes, most_memory);
    const uint32_t passes = most_memory / memory < MOST_PASSES ? most_memory / memory : MOST_PASSES;
    call.settings.lanes = lanes;
    call.settings.mem_cost = memory;
    call.settings.time_cost = drawn(1, passes);
    call.settings.hash_length = draw == 2 ? MOST_TAG : drawn(4, MOST_TAG);
    return call;
}

/* ---- what is to be counted */

/* Returns how many blocks a segment has. */
static size_t length_of(const proved_argon2_settings *of)
{
    return of->mem_cost / (4 * of->lanes);
}

/* Returns how many blocks are compressed: the matrix in each pass, without each lane's first two in the first pass. A
 * segment whose references depend on no block (RFC 9106, 3.4.1.2) adds two per 128 pseudorandom numbers, unless it has
 * only those first two. */
static size_t blocks_of(const proved_argon2_settings *of)
{
    const size_t all = 4 * of->lanes * length_of(of),
                 drawing = 2 * ((length_of(of) + WORDS_AT_ONCE - 1) / WORDS_AT_ONCE);
    const size_t slices = of->variant == PROVED_ARGON2_D
        ? 0
        : (of->variant == PROVED_ARGON2_ID ? 2 : 4 * of->time_cost) - (length_of(of) == 2 ? 1 : 0);
    return all * of->time_cost - 2 * of->lanes + drawing * slices * of->lanes;
}

/* The four calls with threads; the first without options; and the same twice in a buffer of memory_new. */
enum way { RAW, ENCODED, VERIFY, VERIFY_ENCODED, PLAIN, REUSED };

/* Returns how many threads it uses, up to `most`: only the caller's if more are slower. */
static size_t threads_of(const proved_argon2_settings *of, uint32_t most)
{
    const size_t bytes = 4 * length_of(of) * of->lanes * BLOCK;
    const bool is_paying = bytes >= LEAST_FOR_THREADS && bytes >= LEAST_WORK_FOR_THREADS / of->time_cost;
    return !is_paying ? 1 : most < of->lanes ? most : of->lanes;
}

typedef struct counted {
    size_t starts, requests, blocks, most_held;
} counted;

static counted counts_of(const struct call *call, enum way way, uint32_t threads)
{
    const proved_argon2_settings *const of = &call->settings;
    const uint32_t most = way == PLAIN                       ? 1
        : way == VERIFY_ENCODED && threads > MOST_FOR_A_TEXT ? MOST_FOR_A_TEXT
                                                             : threads;
    const size_t tasks = threads_of(of, most), calls_made = way == REUSED ? 2 : 1;
    const size_t beside = way == ENCODED || way == VERIFY || way == VERIFY_ENCODED ? 1 : 0;
    return (counted){.starts = calls_made * (tasks - 1),
        .requests = 1 + beside + (tasks == 1 ? 0 : 3 * calls_made),
        .blocks = calls_made * blocks_of(of),
        .most_held = 4 * length_of(of) * of->lanes * BLOCK};
}

/* ---- the calls */

static uint32_t hash_over_buffer(const proved_argon2_options *by_threads, const struct call *call)
{
    proved_argon2_options with = *by_threads;
    uint32_t code = proved_argon2_memory_new(&call->settings, &with.memory, &with.memory_len);
    for (int n = 0; n < 2 && code == PROVED_ARGON2_OK; n++) {
        memset(tag, n, call->settings.hash_length);
        code = hash_raw(&with, call, tag);
    }
    proved_argon2_memory_free(with.memory, with.memory_len);
    return code;
}

static uint32_t answer(const struct call *call, enum way way, uint32_t threads)
{
    const proved_argon2_options with = by(threads);
    memset(tag, 0, call->settings.hash_length);
    switch (way) {
    case RAW: return hash_raw(&with, call, tag);
    case ENCODED: return hash_encoded(&with, call, text, sizeof text);
    case VERIFY: return verify_raw(&with, call, expected);
    case VERIFY_ENCODED: return verify_encoded(&with, call, text);
    case PLAIN:
        return proved_argon2_hash_raw(call->pwd, call->pwd_len, call->salt, call->salt_len, call->secret,
            call->secret_len, call->ad, call->ad_len, &call->settings, tag, call->settings.hash_length);
    default: return hash_over_buffer(&with, call);
    }
}

/* Returns whether a call returns and uses exactly what it should. */
static bool is_as_counted(const struct call *call, enum way way, uint32_t threads)
{
    const counted to_be = counts_of(call, way, threads);
    refuse_nothing();
    held = most_held = *written = 0;
    const uint32_t code = answer(call, way, threads);
    const bool has_tag = way == RAW || way == PLAIN || way == REUSED;
    const bool good = code == PROVED_ARGON2_OK && (!has_tag || memcmp(tag, expected, call->settings.hash_length) == 0)
        && starts == to_be.starts && granted == starts && joins == starts && requests == to_be.requests
        && *written == to_be.blocks && held == 0 && most_held >= to_be.most_held
        && most_held <= to_be.most_held + SLACK + sizeof text;
    if (!good) {
        printf("%u by way %u, %u threads: %zu starts of %zu, %zu requests of %zu, %zu blocks of %zu, %zu bytes of %zu, "
               "%zu held\n",
            (unsigned)code, (unsigned)way, (unsigned)threads, starts, to_be.starts, requests, to_be.requests, *written,
            to_be.blocks, most_held, to_be.most_held, held);
    }
    return good;
}

/* This many bytes of the longest tag are left in its memory when that is freed. */
static size_t left;

static void look_at_room(const void *block)
{
    const uint8_t *const bytes = block;
    const size_t len = malloc_usable_size((void *)(uintptr_t)block) < MOST_TAG ? 0 : MOST_TAG;
    for (size_t i = 0; i < len; i++) {
        left += bytes[i] != 0;
    }
}

/* Returns whether nothing of a tag was left, and verifying compares the last byte too. */
static bool is_judged_whole(const struct call *call, uint32_t threads)
{
    const proved_argon2_options with = by(threads);
    expected[call->settings.hash_length - 1] ^= 1;
    return left == 0 && verify_raw(&with, call, expected) == PROVED_ARGON2_MISMATCH && left == 0;
}

static void check_draw(uint32_t draw)
{
    char name[128];
    const struct call call = drawn_call(draw);
    const proved_argon2_settings *const of = &call.settings;
    const uint32_t threads = draw <= 1 ? of->lanes : drawn(1, MOST_LANES);
    look_at = draw == 2 ? look_at_room : NULL;
    bool good = peer(&call, expected) && is_as_counted(&call, ENCODED, threads)
        && is_as_counted(&call, VERIFY_ENCODED, threads);
    const enum way way = draw <= 2 ? REUSED : (enum way)below(WAYS);
    good = good && (way == ENCODED || way == VERIFY_ENCODED || is_as_counted(&call, way, threads));
    good = good && (draw != 2 || is_judged_whole(&call, threads));
    snprintf(name, sizeof name, "variant %u, %u KiB, %u passes, %u lanes, %u threads, a tag of %u bytes",
        (unsigned)of->variant, (unsigned)of->mem_cost, (unsigned)of->time_cost, (unsigned)of->lanes, (unsigned)threads,
        (unsigned)of->hash_length);
    check(good, name);
}

/* A call of Argon2i, which reads no block to choose another one, over memory that the system does not reserve. */
static void check_large_draw(void *memory, uint32_t draw)
{
    char name[128];
    struct call call = any_call(1);
    proved_argon2_settings *const of = &call.settings;
    const uint32_t threads = 1 + draw % 2;
    of->variant = PROVED_ARGON2_I;
    of->lanes = 1 + below(4);
    of->mem_cost = drawn(LARGE, MOST_LARGE);
    of->time_cost = 1;
    of->hash_length = 32;
    proved_argon2_options with = by(threads);
    with.memory = memory;
    with.memory_len = (size_t)MOST_LARGE * BLOCK;
    refuse_nothing();
    *written = 0;
    const uint32_t code = hash_raw(&with, &call, tag);
    snprintf(name, sizeof name, "%u KiB, %u lanes, %u threads: code %u, %zu blocks of %zu", (unsigned)of->mem_cost,
        (unsigned)of->lanes, (unsigned)threads, (unsigned)code, *written, blocks_of(of));
    check(code == PROVED_ARGON2_OK && starts == threads_of(of, threads) - 1 && *written == blocks_of(of), name);
}

static int check_large(void)
{
    const int how = MAP_PRIVATE | MAP_ANONYMOUS | MAP_NORESERVE;
    void *const memory = __real_mmap(NULL, (size_t)MOST_LARGE * BLOCK, PROT_READ | PROT_WRITE, how, -1, 0);
    no_wiping = true; /* (which would touch all of it) */
    for (uint32_t draw = 0; draw < LARGE_DRAWS; draw++) {
        check_large_draw(memory, draw);
    }
    return finish();
}

/* KiB: a quarter of what the system can give, or a gibibyte. */
static uint32_t memory_to_take(void)
{
    const size_t quarter = kib_in("/proc/meminfo", "MemAvailable:") / 4;
    return quarter < 1 << 20 ? (uint32_t)quarter : 1 << 20;
}

int main(int argc, char **argv)
{
    const bool is_large = argc > 1 && strcmp(argv[1], "large") == 0;
    const char *const word = argv[is_large ? 2 : 1];
    const uint64_t seed = word != NULL ? strtoull(word, NULL, 10) : (uint64_t)time(NULL);
    printf("seed %llu\n", (unsigned long long)seed);
    state = seed * 2 + 1; /* (which may not be 0) */
    most_memory = memory_to_take();
    written = __real_mmap((void *)COUNTER, sizeof *written, PROT_READ | PROT_WRITE,
        MAP_PRIVATE | MAP_ANONYMOUS | MAP_FIXED_NOREPLACE, -1, 0);
    if (written == MAP_FAILED) {
        return 2;
    }
    if (is_large) {
        return check_large();
    }
    for (uint32_t draw = 0; draw < DRAWS; draw++) {
        check_draw(draw);
    }
    return finish();
}
