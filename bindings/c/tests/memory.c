/*
 * Memory: what each call allocates, that each allocation may fail, that a call holds little more than the blocks, and
 * that it frees everything; and reusable buffers. kept_buffers.c makes calls in one. It is linked with --wrap for
 * what it counts and denies.
 */
#include "calls.h"
#include "system.h"

enum { TAG = 32, SMALL = 256, LARGE = 3072, FAR = 8192, HUGE_PAGE = 2 << 20, LONG_REST = 768 << 10 };

/* A call may write to this buffer. An error leaves it unchanged. */
static uint8_t buffer[256], before[256];

/* The call, with 4 lanes and some memory cost; its tag, encoded hash and job. */
static struct call call;
static uint8_t tag[TAG];
static char text[256], written[256];
static proved_argon2_job job;
static proved_argon2_options with;

#define INPUTS \
    call.pwd, call.pwd_len, call.salt, call.salt_len, call.secret, call.secret_len, call.ad, call.ad_len, &call.settings
#define STORED text, strlen(text), call.pwd, call.pwd_len, call.secret, call.secret_len, call.ad, call.ad_len
/* clang-format off */
#define CALL(name, ...) static uint32_t does_##name(void) { return proved_argon2_##name(__VA_ARGS__); }
/* clang-format on */

CALL(hash_raw, INPUTS, buffer, TAG)
CALL(hash_encoded, INPUTS, written, sizeof written)
CALL(verify_raw, INPUTS, tag, TAG)
CALL(verify_encoded, STORED)
CALL(verify_encoded_within, STORED, &(proved_argon2_limits){LARGE, 2, 4, 2 * LARGE})
CALL(hash_raw_with, &with, INPUTS, buffer, TAG)
CALL(hash_encoded_with, &with, INPUTS, written, sizeof written)
CALL(verify_raw_with, &with, INPUTS, tag, TAG)
CALL(verify_encoded_with, &with, STORED)
CALL(job_run, &with, &job, buffer, TAG)
CALL(job_run_verify, &with, &job, tag, TAG)

/* clang-format off */
#define ROW(name, bytes, is_by_threads) {#name, does_##name, bytes, is_by_threads}
/* clang-format on */

/* Each call, how many requests it makes besides those for its blocks, and whether it may use several threads. */
static const struct row {
    const char *name;
    uint32_t (*does)(void);
    size_t bytes;
    bool is_by_threads;
} rows[] = {ROW(hash_raw, 0, false), ROW(hash_encoded, 1, false), ROW(verify_raw, 1, false),
    ROW(verify_encoded, 1, false), ROW(verify_encoded_within, 1, false), ROW(hash_raw_with, 0, true),
    ROW(hash_encoded_with, 1, true), ROW(verify_raw_with, 1, true), ROW(verify_encoded_with, 1, true),
    ROW(job_run, 0, true), ROW(job_run_verify, 1, true)};

/* Returns how many bytes the driver allocates for this many blocks. A long rest behind the last huge page gets a huge
 * page. */
static size_t whole_of(uint32_t mem_cost)
{
    const size_t bytes = (size_t)mem_cost * 1024, rest = bytes % HUGE_PAGE;
    return bytes > HUGE_PAGE && rest >= LONG_REST ? bytes - rest + HUGE_PAGE : bytes;
}

static void make(uint32_t mem_cost)
{
    refuse_nothing();
    const proved_argon2_options alone = by(1);
    call = (struct call){{PROVED_ARGON2_ID, PROVED_ARGON2_VERSION_13, mem_cost, 2, 4, TAG}, "password", "somesalt",
        "secret", "data", 8, 8, 6, 4};
    const bool good = peer(&call, tag) && hash_encoded(&alone, &call, text, sizeof text) == PROVED_ARGON2_OK
        && proved_argon2_job_make(INPUTS, &job) == PROVED_ARGON2_OK;
    check(good, "the inputs are valid");
}

/* Returns whether a call succeeds: it wrote the tag or the encoded hash. */
static bool is_value(uint32_t code)
{
    const bool is_untouched = memcmp(buffer, before, sizeof buffer) == 0;
    return code == PROVED_ARGON2_OK
        && (is_untouched || memcmp(buffer, tag, TAG) == 0 || memcmp(buffer, text, sizeof buffer) == 0);
}

/* A call with one request denied. It returns the memory error and writes nothing or, if it did not need that request (a
 * team of threads), succeeds. It holds no memory, and errno is unchanged. */
static bool ends_well(const struct row *row, size_t number, size_t needed)
{
    fill_bytes(buffer, sizeof buffer, 7);
    memcpy(before, buffer, sizeof buffer);
    held = most_held = 0;
    refuse_request(number);
    errno = 77;
    const uint32_t code = row->does();
    const bool is_errno = errno == 77;
    const bool is_short = code == PROVED_ARGON2_OUT_OF_MEMORY && memcmp(buffer, before, sizeof buffer) == 0;
    return is_errno && held == 0 && (number > needed ? is_value(code) : is_short);
}

/* Denies the first request, the second and so on, until no more are made. */
static void check_call(const struct row *row, uint32_t threads)
{
    const size_t blocks = whole_of(call.settings.mem_cost);
    const bool has_team = threads > 1 && call.settings.mem_cost == LARGE;
    const size_t needed = 1 + row->bytes + (has_team || with.progress != NULL ? 1 : 0);
    const size_t expected = needed + (has_team ? 2 : 0);
    size_t number = 1;
    bool good = true;
    char name[96];
    with.threads = threads;
    do {
        good = ends_well(row, number, needed);
    } while (good && requests >= number++ && number < 100);
    /* A mapping is cut out of one that has a huge page more. */
    const size_t most = blocks + 2048 + (blocks < HUGE_PAGE ? 0 : HUGE_PAGE);
    snprintf(name, sizeof name, "%s of %u KiB by %u threads makes %zu requests, each of which may be refused",
        row->name, (unsigned)call.settings.mem_cost, (unsigned)threads, expected);
    check(good && requests == expected && most_held >= blocks && most_held <= most, name);
}

/* Returns whether a hash requests huge pages for all its whole ones. It lets the system allocate each page once it is
 * touched: while the system populates a range, calls of other threads cannot map memory. */
static bool maps_well(uint32_t mem_cost, uint32_t threads)
{
    const size_t whole = whole_of(mem_cost), most = whole + HUGE_PAGE + 2048;
    call.settings.mem_cost = mem_cost;
    with = by(threads);
    refuse_nothing();
    held = most_held = 0;
    const bool is_hash = does_hash_raw_with() == PROVED_ARGON2_OK;
    return is_hash && held == 0 && most_held >= whole && most_held <= most && populatings == 0
        && in_huge_pages == whole / HUGE_PAGE * HUGE_PAGE;
}

/* Sizes below and from the shortest rest that gets a huge page. */
static void check_huge_pages(void)
{
    enum { SHORT = 2800, LONG = 2816, TWO = 4096 };
    make(LARGE);
    check(maps_well(SHORT, 1) && maps_well(SHORT, 4), "a short rest gets small pages");
    check(maps_well(LONG, 1) && maps_well(LONG, 4), "a long rest gets a huge page");
    check(maps_well(TWO, 1) && maps_well(TWO, 4), "no rest gets no page");
}

/* munmap fails if it would have to split a mapping and the process has its maximum number of mappings. */
static void check_denied_unmapping(void)
{
    size_t others = 0;
    make(LARGE);
    with = by(1);
    refuses_to_unmap = true;
    const uint32_t code = does_hash_raw_with();
    refuses_to_unmap = false;
    for (size_t i = 0; i < last_mapped_len; i++) {
        others += ((const uint8_t *)last_mapped)[i] != 0;
    }
    check(code == PROVED_ARGON2_OK && others == 0, "blocks that the system does not unmap are overwritten");
    munmap(last_mapped, last_mapped_len);
}

/* ---- how much memory the system needs for a hash */

static int measures(void *arg, uint64_t done, uint64_t all)
{
    *(size_t *)arg = resident();
    return done > all;
}

/* Returns whether a hash takes no more memory than its memory cost in whole pages, plus a little for each thread. */
static bool takes_no_more(uint32_t mem_cost, uint32_t threads)
{
    enum { BESIDE = 64 * 1024, OF_A_THREAD = 48 * 1024 };
    size_t at_its_end = 0;
    call.settings = (proved_argon2_settings){PROVED_ARGON2_ID, PROVED_ARGON2_VERSION_13, mem_cost, 1, 4, TAG};
    with = by(threads);
    with.progress = measures;
    with.arg = &at_its_end;
    bool good = resident() != 0 && does_hash_raw_with() == PROVED_ARGON2_OK;
    const size_t before = resident(), blocks = (size_t)mem_cost * 1024, whole = whole_of(mem_cost);
    good = good && does_hash_raw_with() == PROVED_ARGON2_OK && at_its_end >= before;
    const size_t more = at_its_end - before, most = whole + BESIDE + threads * OF_A_THREAD;
    if (!good || more < blocks || more > most) {
        printf("%u KiB by %u threads took %zu bytes more\n", (unsigned)mem_cost, (unsigned)threads, more);
    }
    return good && more >= blocks && more <= most;
}

/* Sizes around multiples of a huge page, and the ones that presets have. */
static void check_resident(void)
{
    static const uint32_t sizes[] = {2048, 2064, 3072, 4080, 4096, 4112, 6128, 6160, 7168, 9216, 12288, 19456, 65552};
    bool good = true, by_threads = true;
    refuse_nothing();
    for (size_t i = 0; i < sizeof sizes / sizeof *sizes; i++) {
        good &= takes_no_more(sizes[i], 1);
        by_threads &= takes_no_more(sizes[i], 4);
    }
    check(good, "a hash takes the memory of its settings, and little more");
    check(by_threads, "a hash by threads takes the memory of its settings, and little more");
}

static int tells_nothing(void *arg, uint64_t done, uint64_t all)
{
    (void)arg;
    return done > all;
}

static void check_calls(uint32_t mem_cost)
{
    make(mem_cost);
    for (size_t i = 0; i < sizeof rows / sizeof *rows; i++) {
        with = by(1);
        check_call(&rows[i], 1);
        if (rows[i].is_by_threads) {
            check_call(&rows[i], 4);
            with.progress = tells_nothing;
            check_call(&rows[i], 1);
        }
    }
}

/* ---- reusable buffers */

/* Returns whether the mapping at an address has a flag, such as " dd ": a core dump leaves it out. */
static inline bool has_flag(const void *address, const char *flag)
{
    FILE *const maps = fopen("/proc/self/smaps", "r");
    char line[512];
    bool is_in = false, has = false;
    while (maps != NULL && fgets(line, sizeof line, maps) != NULL) {
        unsigned long from, to;
        if (sscanf(line, "%lx-%lx ", &from, &to) == 2) {
            is_in = from <= (uintptr_t)address && (uintptr_t)address < to;
        }
        has |= is_in && strncmp(line, "VmFlags:", 8) == 0 && strstr(line, flag) != NULL;
    }
    if (maps != NULL) {
        fclose(maps);
    }
    return has;
}

/* Allocating the buffer is the only request: it has as many bytes as the settings need, at an aligned address. A core
 * dump leaves out all of a mapping. */
static void check_memory_new(uint32_t mem_cost, size_t multiple, bool shows_flags)
{
    void *memory = &memory;
    size_t len = 5;
    call.settings.mem_cost = mem_cost;
    held = 0;
    refuse_request(1);
    errno = 77;
    uint32_t code = proved_argon2_memory_new(&call.settings, &memory, &len);
    check(code == PROVED_ARGON2_OUT_OF_MEMORY && memory == &memory && len == 5 && errno == 77 && held == 0,
        "a memory that is refused");
    refuse_nothing();
    code = proved_argon2_memory_new(&call.settings, &memory, &len);
    check(code == PROVED_ARGON2_OK && requests == 1 && held >= len && errno == 77, "a memory is one request");
    check(len == (size_t)mem_cost * 1024 && len == proved_argon2_memory_len(&call.settings)
            && (uintptr_t)memory % multiple == 0,
        "its length and its address");
    const bool is_left_out = has_flag(memory, " dd ") && has_flag((uint8_t *)memory + len - 1, " dd ");
    check(!shows_flags || is_left_out == (multiple == HUGE_PAGE), "a core dump leaves out a mapping");
    memset(memory, 5, len);
    errno = 77; /* (which the look at the flags may change) */
    proved_argon2_memory_free(memory, len);
    check(held == 0 && errno == 77, "and is given back");
    proved_argon2_memory_free(NULL, 0);
    proved_argon2_memory_free(NULL, len);
    check(held == 0, "freeing null frees nothing");
}

static size_t count_of(uint8_t byte, const uint8_t *bytes, size_t len)
{
    size_t count = 0;
    for (size_t i = 0; i < len; i++) {
        count += bytes[i] == byte;
    }
    return count;
}

/* A call overwrites its blocks in a larger buffer, and nothing behind them. Where they are many, it does so in another
 * way. */
static void check_overwriting(uint32_t mem_cost)
{
    enum { MORE = 1024 * 1024 };
    const size_t used = (size_t)mem_cost * 1024;
    make(mem_cost);
    with = by(1);
    proved_argon2_settings larger = call.settings;
    larger.mem_cost += MORE / 1024;
    check_code(proved_argon2_memory_new(&larger, &with.memory, &with.memory_len), PROVED_ARGON2_OK, "a larger buffer");
    memset(with.memory, 5, with.memory_len);
    const bool good = hash_raw(&with, &call, buffer) == PROVED_ARGON2_OK && memcmp(buffer, tag, TAG) == 0;
    check(good && count_of(0, with.memory, used) == used && count_of(5, (uint8_t *)with.memory + used, MORE) == MORE,
        "the blocks are overwritten");
    proved_argon2_memory_free(with.memory, with.memory_len);
}

/* The archive's own memmove and memset, by which all its objects move and set bytes. */
void *proved_driver_memmove(void *to, const void *from, size_t len);
void *proved_driver_memset(void *to, int byte, size_t len);

/* Bytes are moved as by the system's memmove, for each short length and overlap. */
static void check_moving(void)
{
    enum { PLACES = 33 };
    uint8_t moved[2 * PLACES], expected[2 * PLACES];
    bool good = true;
    for (size_t n = 0; n < PLACES * PLACES * PLACES; n++) {
        const size_t len = n % PLACES, from = n / PLACES % PLACES, to = n / PLACES / PLACES;
        fill_bytes(moved, sizeof moved, 1);
        fill_bytes(expected, sizeof expected, 1);
        proved_driver_memmove(moved + to, moved + from, len);
        memmove(expected + to, expected + from, len);
        good &= memcmp(moved, expected, sizeof moved) == 0;
    }
    check(good, "bytes that overlap are moved");
}

/* Bytes are set as by the system's memset, for each short length. Of a number, only the lowest byte counts. */
static void check_setting(void)
{
    enum { PLACES = 40 };
    static const int numbers[] = {0, 7, 255, 300, -2};
    uint8_t set[PLACES], expected[PLACES];
    bool good = true;
    for (size_t n = 0; n < PLACES * sizeof numbers / sizeof *numbers; n++) {
        const int number = numbers[n / PLACES];
        fill_bytes(set, sizeof set, 1);
        fill_bytes(expected, sizeof expected, 1);
        proved_driver_memset(set, number, n % PLACES);
        memset(expected, number, n % PLACES);
        good &= memcmp(set, expected, sizeof set) == 0;
    }
    check(good, "bytes are set");
}

#define REFUSED_TEXT(text) text, strlen(text), NULL, 0, NULL, 0, NULL, 0

/* Calls that allocate nothing, and errors that are returned before anything is allocated, even if that would fail. */
static void check_without_memory(void)
{
    static const char no_passes[] = "$argon2d$m=256,t=0,p=1$c29tZXNhbHQ$AAAAAA",
                      no_hash[] = "$argon2d$m=256,t=2,p=1$c2";
    static const char right[] = "$argon2d$m=256,t=2,p=1$c29tZXNhbHQ$vUBIaP8AxS51Q8gzLmp3KlckiS1+Mo1c8lO7yOcms3E";
    const proved_argon2_limits below = {256, 2, 1, 511};
    proved_argon2_settings refused = call.settings;
    proved_argon2_stored stored;
    proved_argon2_job job;
    uint8_t salt[8], hash[32];
    void *memory;
    size_t len;
    refused.lanes = 0;
    with = by(4);
    with.limits = &below;
    refuse_request(1);
    const uint32_t little = proved_argon2_hash_raw(NULL, 0, call.salt, 8, NULL, 0, NULL, 0, &refused, buffer, TAG);
    const uint32_t shorter = proved_argon2_hash_raw(
        NULL, 0, call.salt, 8, NULL, 0, NULL, 0, &call.settings, buffer, TAG - 1);
    const size_t without_zero = (size_t)proved_argon2_encoded_len(&call.settings, 8);
    const uint32_t full = proved_argon2_hash_encoded(
        NULL, 0, call.salt, 8, NULL, 0, NULL, 0, &call.settings, written, without_zero);
    const uint32_t text_of_none = proved_argon2_verify_encoded(REFUSED_TEXT(no_passes));
    const uint32_t costly = proved_argon2_verify_encoded_within(REFUSED_TEXT(right), &below);
    const uint32_t costly_with = proved_argon2_verify_encoded_with(&with, REFUSED_TEXT(right));
    const uint32_t no_memory = proved_argon2_memory_new(&refused, &memory, &len);
    const uint32_t made = proved_argon2_job_make(NULL, 0, call.salt, 8, NULL, 0, NULL, 0, &call.settings, &job);
    const uint32_t run = made ? made : proved_argon2_job_run(&with, &job, buffer, TAG - 1);
    check(requests == 0 && little == PROVED_ARGON2_LANES_TOO_FEW && shorter == PROVED_ARGON2_WRONG_LENGTH
            && full == PROVED_ARGON2_WRONG_LENGTH && text_of_none == PROVED_ARGON2_TIME_TOO_SMALL
            && costly == PROVED_ARGON2_TOO_COSTLY && costly_with == costly && no_memory == little && run == shorter,
        "rejected calls allocate nothing");
    const uint32_t fault = proved_argon2_read(no_hash, strlen(no_hash), &stored);
    const uint32_t read = proved_argon2_read(right, strlen(right), &stored);
    const uint32_t bytes = proved_argon2_read_bytes(right, strlen(right), salt, 8, hash, 32);
    const uint32_t rehash = proved_argon2_needs_rehash(right, strlen(right), &call.settings);
    check(requests == 0 && fault == PROVED_ARGON2_DECODING_FAIL && read == PROVED_ARGON2_OK && bytes == PROVED_ARGON2_OK
            && rehash == PROVED_ARGON2_NEEDS_REHASH && proved_argon2_message(0) != NULL
            && proved_argon2_encoded_len(&call.settings, 8) > 0 && proved_argon2_memory_len(&call.settings) > 0,
        "nor do calls that neither hash nor verify");
}

/* With the word `few`, neither resident memory nor flags are checked: an emulator's pages would count, and it does not
 * show the flags. */
int main(int argc, char **argv)
{
    const bool is_few = argc > 1 && strcmp(argv[1], "few") == 0;
    check_calls(SMALL);
    check_calls(LARGE);
    check_huge_pages();
    check_denied_unmapping();
    if (!is_few) {
        check_resident();
    }
    check_memory_new(SMALL, 64, !is_few);
    check_memory_new(LARGE, HUGE_PAGE, !is_few);
    check_overwriting(LARGE);
    check_overwriting(FAR);
    check_moving();
    check_setting();
    check_without_memory();
    return finish();
}
