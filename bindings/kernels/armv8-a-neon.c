/* The compression function G for ARM64: two blocks in, one block out (RFC 9106, 3.5 and 3.6).
 *
 * build/add_kernel puts the machine code of this file in the place of the proved `fill_words` for ARMv8-A. This code is
 * not proved. Instead, its machine code is checked for all inputs (docs/CLAIMS.md).
 *
 * A block is a square of 8 rows by 8 columns, with two words in each place. G first permutes each row and then each
 * column with P, which treats its 16 words as a 4 by 4 matrix: a has words 0 to 3, b words 4 to 7, and so on. A vector
 * holds the two words of one place, so the eight vectors of a row and those of a column are permuted in the same way.
 *
 * Two rows, or two columns, are permuted side by side, since each step of a single one waits for the step before. */
#include <arm_neon.h>
#include <stdint.h>

typedef uint64x2_t vector;

enum { TWO = 2, VECTORS = 8, WORDS = 128, ROW = 16 };

#define INLINED static inline __attribute__((always_inline))
#define EACH(i, count) _Pragma("GCC unroll 8") for (int i = 0; i < (count); i++)
#define SUM(x, y) veorq_u64(x, y)
#define HALVES(x) vreinterpretq_u32_u64(x)
#define LOWER_HALVES(x, y) vuzp1q_u32(HALVES(x), HALVES(y))
/* Two instructions each: the second shifts to the right, and inserts or adds what it shifted. */
#define ROTATED(x, count) vsriq_n_u64(vshlq_n_u64(x, 64 - (count)), x, count)
#define ROTATED_BY_63(x) vsraq_n_u64(vaddq_u64(x, x), x, 63)
#define ROTATED_BY_32(x) vreinterpretq_u64_u32(vrev64q_u32(HALVES(x)))

/* Adds y and twice the product of the lower halves, in two vectors. To multiply and add twice takes fewer instructions
 * than to double the product. */
INLINED void multiply_add(vector *x, const vector *y)
{
    const uint32x4_t lower_x = LOWER_HALVES(x[0], x[1]), lower_y = LOWER_HALVES(y[0], y[1]);
    x[0] = vmlal_u32(vaddq_u64(x[0], y[0]), vget_low_u32(lower_x), vget_low_u32(lower_y));
    x[1] = vmlal_high_u32(vaddq_u64(x[1], y[1]), lower_x, lower_y);
    x[0] = vmlal_u32(x[0], vget_low_u32(lower_x), vget_low_u32(lower_y));
    x[1] = vmlal_high_u32(x[1], lower_x, lower_y);
}

/* Mixes four columns of two matrices. Vectors 0 and 1 of each matrix are a, 2 and 3 are b, 4 and 5 c, 6 and 7 d. */
INLINED void mix(vector (*v)[VECTORS])
{
    EACH(k, TWO) multiply_add(v[k], v[k] + 2);
    EACH(k, TWO) EACH(i, 2) v[k][6 + i] = ROTATED_BY_32(SUM(v[k][6 + i], v[k][i]));
    EACH(k, TWO) multiply_add(v[k] + 4, v[k] + 6);
    EACH(k, TWO) EACH(i, 2) v[k][2 + i] = ROTATED(SUM(v[k][2 + i], v[k][4 + i]), 24);
    EACH(k, TWO) multiply_add(v[k], v[k] + 2);
    EACH(k, TWO) EACH(i, 2) v[k][6 + i] = ROTATED(SUM(v[k][6 + i], v[k][i]), 16);
    EACH(k, TWO) multiply_add(v[k] + 4, v[k] + 6);
    EACH(k, TWO) EACH(i, 2) v[k][2 + i] = ROTATED_BY_63(SUM(v[k][2 + i], v[k][4 + i]));
}

/* Moves four words by one place to the left. */
INLINED void turn_by_1(vector *x)
{
    const vector first = x[0];
    x[0] = vextq_u64(first, x[1], 1), x[1] = vextq_u64(x[1], first, 1);
}

INLINED void turn_by_2(vector *x)
{
    const vector first = x[0];
    x[0] = x[1], x[1] = first;
}

INLINED void turn_by_3(vector *x)
{
    const vector first = x[0];
    x[0] = vextq_u64(x[1], first, 1), x[1] = vextq_u64(first, x[1], 1);
}

/* Applies P to two matrices: to their columns, and then to their diagonals, which become columns in between. */
INLINED void permute(vector (*v)[VECTORS])
{
    mix(v);
    EACH(k, TWO) turn_by_1(v[k] + 2), turn_by_2(v[k] + 4), turn_by_3(v[k] + 6);
    mix(v);
    EACH(k, TWO) turn_by_3(v[k] + 2), turn_by_2(v[k] + 4), turn_by_1(v[k] + 6);
}

INLINED vector sum_at(const uint64_t *prev, const uint64_t *reference, int at)
{
    return SUM(vld1q_u64(prev + at), vld1q_u64(reference + at));
}

void fill_words(const uint64_t *prev, const uint64_t *reference, uint64_t *next, uint32_t with_old)
{
    uint64_t rows[WORDS] __attribute__((aligned(16)));
    vector v[TWO][VECTORS];
    EACH(pair, VECTORS / TWO)
    {
        EACH(k, TWO) EACH(i, VECTORS) v[k][i] = sum_at(prev, reference, ROW * (TWO * pair + k) + 2 * i);
        permute(v);
        EACH(k, TWO) EACH(i, VECTORS) vst1q_u64(rows + ROW * (TWO * pair + k) + 2 * i, v[k][i]);
    }
    /* The rows stay in memory. Otherwise the compiler tries to keep them in registers, and there are too few. */
    __asm__ volatile("" : : "r"(rows) : "memory");
    EACH(pair, VECTORS / TWO)
    {
        EACH(k, TWO) EACH(i, VECTORS) v[k][i] = vld1q_u64(rows + ROW * i + 2 * (TWO * pair + k));
        permute(v);
        EACH(k, TWO) EACH(i, VECTORS)
        {
            const int at = ROW * i + 2 * (TWO * pair + k);
            const vector sum = SUM(v[k][i], sum_at(prev, reference, at));
            vst1q_u64(next + at, with_old ? SUM(sum, vld1q_u64(next + at)) : sum);
        }
    }
}
