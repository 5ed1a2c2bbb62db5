/* Chooses the newest build that this processor can run. The first call does so: nothing runs when a program or a
 * library is loaded. It is tested, not proved. */
#define _GNU_SOURCE
#include "builds.h"
#include <stdlib.h>
#include <string.h>

#ifdef __x86_64__

#include <cpuid.h>

/* The features of a processor as bits of registers that cpuid fills, 32 bits each. They are numbered from 32 on, so
 * that 0 can end a list. The names of the features are those of Linux. */
enum { LEAF_1 = 32, LEAF_7 = 64, LEAF_80000001 = 96, END = 128 };
#define BIT(leaf, bit) ((leaf) + __builtin_ctz(bit))
enum {
    PNI = BIT(LEAF_1, bit_SSE3),
    SSSE3 = BIT(LEAF_1, bit_SSSE3),
    FMA = BIT(LEAF_1, bit_FMA),
    CX16 = BIT(LEAF_1, bit_CMPXCHG16B),
    SSE4_1 = BIT(LEAF_1, bit_SSE4_1),
    SSE4_2 = BIT(LEAF_1, bit_SSE4_2),
    MOVBE = BIT(LEAF_1, bit_MOVBE),
    POPCNT = BIT(LEAF_1, bit_POPCNT),
    AVX = BIT(LEAF_1, bit_AVX),
    F16C = BIT(LEAF_1, bit_F16C),
    BMI1 = BIT(LEAF_7, bit_BMI),
    AVX2 = BIT(LEAF_7, bit_AVX2),
    BMI2 = BIT(LEAF_7, bit_BMI2),
    AVX512F = BIT(LEAF_7, bit_AVX512F),
    AVX512DQ = BIT(LEAF_7, bit_AVX512DQ),
    AVX512CD = BIT(LEAF_7, bit_AVX512CD),
    AVX512BW = BIT(LEAF_7, bit_AVX512BW),
    AVX512VL = BIT(LEAF_7, bit_AVX512VL),
    LAHF_LM = BIT(LEAF_80000001, bit_LAHF_LM),
    ABM = BIT(LEAF_80000001, 1u << 5), /* (compilers give it different names) */
};

/* The registers that the system has to save for each thread: XMM and YMM; for AVX-512 also masks and ZMM. */
enum { OF_YMM = 0x6, OF_ZMM = 0xE6 };

/* Finds the features of this processor. As in Linux, AVX and AVX-512 are absent if the system does not save their
 * registers. */
static void find_bits(unsigned words[END / 32])
{
    unsigned eax, ebx, ecx, edx, saved = 0;
    if (__get_cpuid(1, &eax, &ebx, &words[LEAF_1 / 32], &edx) && (words[LEAF_1 / 32] & bit_OSXSAVE) != 0) {
        __asm__ volatile("xgetbv" : "=a"(saved), "=d"(edx) : "c"(0));
    }
    __get_cpuid_count(7, 0, &eax, &words[LEAF_7 / 32], &ecx, &edx);
    __get_cpuid(0x80000001, &eax, &ebx, &words[LEAF_80000001 / 32], &edx);
    if ((saved & OF_YMM) != OF_YMM) {
        words[LEAF_1 / 32] &= ~bit_AVX;
    }
    if ((saved & OF_ZMM) != OF_ZMM) {
        words[LEAF_7 / 32] &= ~bit_AVX512F;
    }
}

#else /* Every ARM64 processor can run all builds for it. */

enum { END = 32 };

static void find_bits(unsigned words[END / 32])
{
    (void)words;
}

#endif

/* The features that a build needs beyond those of the build before it, followed by zeros. */
enum { MOST_BITS = 16 };
/* clang-format off */
static const struct {
    const char *name;
    unsigned char bits[MOST_BITS];
} builds[] = {
#ifdef __aarch64__
    /* builds for ARM64, by .ci/pages/presets */
    [ARMV8_A] = {.name = "armv8-a"},
    WITH_KERNEL([ARMV8_A_NEON] = {.name = "armv8-a-neon"},)
/* end */
#else
    /* builds, by .ci/pages/presets */
    [X86_64_V2] = {"x86-64-v2", {CX16, LAHF_LM, POPCNT, PNI, SSE4_1, SSE4_2, SSSE3}},
    [X86_64_V3] = {"x86-64-v3", {ABM, AVX, AVX2, BMI1, BMI2, F16C, FMA, MOVBE}},
    WITH_KERNEL([X86_64_V4] = {"x86-64-v4", {AVX512BW, AVX512CD, AVX512DQ, AVX512F, AVX512VL}},)
    /* end */
#endif
};
/* clang-format on */

_Atomic int proved_driver_build;

static int has_all(const unsigned *words, const unsigned char *bits)
{
    for (int i = 0; i < MOST_BITS && bits[i] != 0; i++) {
        if ((words[bits[i] / 32] >> bits[i] % 32 & 1) == 0) {
            return 0;
        }
    }
    return 1;
}

static int newest_build(void)
{
    const int count = sizeof builds / sizeof *builds;
    unsigned words[END / 32] = {0};
    int build = NO_BUILD;
    find_bits(words);
    while (build + 1 < count && has_all(words, builds[build + 1].bits)) {
        build++;
    }
    return build;
}

int proved_driver_choose_build(void)
{
    const char *const named = secure_getenv("PROVED_ARGON2_CPU"); /* the only build to use */
    int build = newest_build();
    while (named != NULL && named[0] != 0 && build != NO_BUILD && strcmp(named, builds[build].name) != 0) {
        build--;
    }
    atomic_store_explicit(&proved_driver_build, build, memory_order_relaxed);
    return build;
}
