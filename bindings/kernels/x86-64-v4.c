/* The compression function G for processors with AVX-512: two blocks in, one block out (RFC 9106, 3.5 and 3.6).
 *
 * build/add_kernel puts the machine code of this file in the place of the proved functions for x86-64-v3: `fill_words`,
 * and `proved_argon2_fill_ahead`, which also prefetches next, and the reference of the block after it. This code is not
 * proved. Instead, its machine code is checked for all inputs (docs/CLAIMS.md).
 *
 * The layout: a block is a square of 8 rows by 8 columns. Each place holds two words, so a row is 16 consecutive words.
 * G first permutes each row and then each column with P, which treats its 16 words as a 4 by 4 matrix: a has words 0 to
 * 3, b words 4 to 7, c words 8 to 11, and d words 12 to 15.
 *
 * A vector holds 8 words: words 4k to 4k + 3 of row 2i, and behind them the same words of row 2i + 1.
 *
 *     place in the vector    0        1        2        3        4        5        6        7
 *     row                    2i       2i       2i       2i       2i + 1   2i + 1   2i + 1   2i + 1
 *     word of the row        4k       4k + 1   4k + 2   4k + 3   4k       4k + 1   4k + 2   4k + 3
 *     column                 2k       2k       2k + 1   2k + 1   2k       2k       2k + 1   2k + 1
 *     word of the column     4i       4i + 1   4i       4i + 1   4i + 2   4i + 3   4i + 2   4i + 3
 *
 * So the vector also holds words 4i to 4i + 3 of two columns. For rows, k says whether the vector is a part of a, b, c
 * or d. For columns, i says so. That is why nothing has to be rearranged between the two steps: only the diagonals of
 * the matrices are turned into columns and back.
 *
 * Each step handles all four groups of vectors before the next step begins. The steps of a single group depend on each
 * other, so handling one group after another takes 1.5 times as long. */
#include <immintrin.h>
#include <stddef.h>
#include <stdint.h>

typedef __m512i vector;

enum { GROUPS = 4, WORDS = 8, TWO_ROWS = GROUPS * WORDS, BLOCK = 128 * sizeof(uint64_t), LINE = 64 };

#define INLINED static inline __attribute__((always_inline))
#define SUM(x, y) _mm512_xor_si512(x, y)
#define SUM_OF_THREE(x, y, z) _mm512_ternarylogic_epi64(x, y, z, 0x96)
#define FIRST_HALVES(x, y) _mm512_shuffle_i64x2(x, y, 0x44)
#define LAST_HALVES(x, y) _mm512_shuffle_i64x2(x, y, 0xEE)
/* These move the four words of each row, or of each column, by one, two or three places to the left. */
#define ROWS_BY_1(x) _mm512_permutex_epi64(x, 0x39)
#define ROWS_BY_2(x) _mm512_permutex_epi64(x, 0x4E)
#define ROWS_BY_3(x) _mm512_permutex_epi64(x, 0x93)
#define COLUMNS_BY_1(x) _mm512_permutexvar_epi64(places(0x0207000506030401), x)
#define COLUMNS_BY_2(x) _mm512_shuffle_i64x2(x, x, 0x4E)
#define COLUMNS_BY_3(x) _mm512_permutexvar_epi64(places(0x0603040102070005), x)

INLINED vector words_at(const uint64_t *block, int at)
{
    return _mm512_loadu_si512(block + WORDS * at);
}

/* Expands a number whose byte j names the word for place j. The assembly hides the number from the compiler, which
 * would otherwise put the vector into a section for constants: build/add_kernel copies the function alone. */
INLINED vector places(uint64_t bytes)
{
    __asm__("" : "+r"(bytes));
    return _mm512_cvtepu8_epi64(_mm_cvtsi64_si128((long long)bytes));
}

/* A quarter of G: multiplies and adds to x, and rotates the sum of that and z. */
INLINED void quarter(vector *x, const vector *y, vector *z, const int count)
{
    for (int i = 0; i < GROUPS; i++) {
        const vector product = _mm512_mul_epu32(x[i], y[i]);
        x[i] = _mm512_add_epi64(_mm512_add_epi64(x[i], y[i]), _mm512_add_epi64(product, product));
    }
    for (int i = 0; i < GROUPS; i++) {
        z[i] = _mm512_ror_epi64(SUM(z[i], x[i]), count);
    }
}

/* What the reference of the block after next depends on, in a memory of one lane. `size` is how many blocks its
 * reference set has. `columns` is how many the lane has before next and, in its upper half, in all. `added` is what is
 * added to word 0 of the permuted columns to make word 0 of next. */
typedef struct ahead {
    const uint64_t *next;
    uint64_t size, columns, added;
} ahead;

INLINED void prefetch(const void *block)
{
    _Pragma("GCC unroll 16") for (int i = 0; i < BLOCK / LINE; i++)
    {
        _mm_prefetch((const char *)block + LINE * i, _MM_HINT_T0);
    }
    /* Without this, gcc would prefetch last, since nothing waits for it. */
    __asm__ volatile("");
}

/* Prefetches that reference (RFC 9106, 3.4.2), given word 0 of the permuted columns. */
INLINED void prefetch_reference(const ahead *at, uint64_t word)
{
    const uint64_t low = (uint32_t)(word ^ at->added), back = at->size * (low * low >> 32) >> 32;
    const uint64_t turn = back < (uint32_t)at->columns ? 0 : at->columns >> 32;
    prefetch((const void *)((uintptr_t)at->next + BLOCK * (turn - back - 1)));
}

/* G. With `at`, passes on the first word of a, which is then the second one of its vector, as soon as it is known. */
INLINED void mix(vector *a, vector *b, vector *c, vector *d, const ahead *at)
{
    quarter(a, b, d, 32);
    quarter(c, d, b, 24);
    quarter(a, b, d, 16);
    if (at) {
        prefetch_reference(at, (uint64_t)_mm_extract_epi64(_mm512_castsi512_si128(a[0]), 1));
    }
    quarter(c, d, b, 63);
}

/* Applies P to all rows. P turns b by one place, c by two and d by three, to make columns of the diagonals. Here all
 * four are turned by three places more, so b stays in place: a mix computes b last, so turning b would have to wait. */
INLINED void permute_rows(vector *a, vector *b, vector *c, vector *d)
{
    mix(a, b, c, d, NULL);
    for (int i = 0; i < GROUPS; i++) {
        a[i] = ROWS_BY_3(a[i]), c[i] = ROWS_BY_1(c[i]), d[i] = ROWS_BY_2(d[i]);
    }
    mix(a, b, c, d, NULL);
    for (int i = 0; i < GROUPS; i++) {
        a[i] = ROWS_BY_1(a[i]), c[i] = ROWS_BY_3(c[i]), d[i] = ROWS_BY_2(d[i]);
    }
}

/* Applies P to all columns, in the same way. With `at`, passes on word 0. */
INLINED void permute_columns(vector *a, vector *b, vector *c, vector *d, const ahead *at)
{
    mix(a, b, c, d, NULL);
    for (int i = 0; i < GROUPS; i++) {
        a[i] = COLUMNS_BY_3(a[i]), c[i] = COLUMNS_BY_1(c[i]), d[i] = COLUMNS_BY_2(d[i]);
    }
    mix(a, b, c, d, at);
    for (int i = 0; i < GROUPS; i++) {
        a[i] = COLUMNS_BY_1(a[i]), c[i] = COLUMNS_BY_3(c[i]), d[i] = COLUMNS_BY_2(d[i]);
    }
}

/* Reads two rows of the sum of two blocks into the four vectors of a group. */
INLINED void read_rows(const uint64_t *prev, const uint64_t *reference, vector *group)
{
    vector sums[GROUPS];
    for (int i = 0; i < GROUPS; i++) {
        sums[i] = SUM(words_at(prev, i), words_at(reference, i));
    }
    group[0] = FIRST_HALVES(sums[0], sums[2]);
    group[1] = LAST_HALVES(sums[0], sums[2]);
    group[2] = FIRST_HALVES(sums[1], sums[3]);
    group[3] = LAST_HALVES(sums[1], sums[3]);
}

/* Adds two rows of the blocks' sum to a group, and those of next if with_old, and writes the result to next. */
INLINED void write_rows(
    const vector *group, const uint64_t *prev, const uint64_t *reference, uint64_t *next, uint32_t with_old)
{
    const vector rows[GROUPS] = {FIRST_HALVES(group[0], group[1]), FIRST_HALVES(group[2], group[3]),
        LAST_HALVES(group[0], group[1]), LAST_HALVES(group[2], group[3])};
    for (int i = 0; i < GROUPS; i++) {
        const vector sum = SUM_OF_THREE(rows[i], words_at(prev, i), words_at(reference, i));
        _mm512_storeu_si512(next + WORDS * i, with_old ? SUM(sum, words_at(next, i)) : sum);
    }
}

INLINED void fill(const uint64_t *prev, const uint64_t *reference, uint64_t *next, uint32_t with_old, const ahead *at)
{
    vector of_columns[GROUPS][4], of_rows[4][GROUPS];
    for (int i = 0; i < GROUPS; i++) {
        read_rows(prev + TWO_ROWS * i, reference + TWO_ROWS * i, of_columns[i]);
        for (int k = 0; k < 4; k++) {
            of_rows[k][i] = of_columns[i][k];
        }
    }
    permute_rows(of_rows[0], of_rows[1], of_rows[2], of_rows[3]);
    for (int i = 0; i < GROUPS; i++) {
        for (int k = 0; k < 4; k++) {
            of_columns[i][k] = of_rows[k][i];
        }
    }
    permute_columns(of_columns[0], of_columns[1], of_columns[2], of_columns[3], at);
    for (int i = 0; i < GROUPS; i++) {
        write_rows(of_columns[i], prev + TWO_ROWS * i, reference + TWO_ROWS * i, next + TWO_ROWS * i, with_old);
    }
}

/* (This attribute clears the vector registers that only AVX-512 has. The driver clears the others when a call ends.) */
#define CLEARING __attribute__((zero_call_used_regs("used")))

CLEARING void fill_words(const uint64_t *prev, const uint64_t *reference, uint64_t *next, uint32_t with_old)
{
    fill(prev, reference, next, with_old, NULL);
}

CLEARING void proved_argon2_fill_ahead(
    const uint64_t *prev, const uint64_t *reference, uint64_t *next, uint64_t size, uint64_t columns, uint32_t with_old)
{
    const ahead at = {next, size, columns, prev[0] ^ reference[0] ^ (with_old ? next[0] : 0)};
    prefetch(next);
    fill(prev, reference, next, with_old, &at);
}
