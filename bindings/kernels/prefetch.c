/* Tells the processor that a block will be read or overwritten soon, by the address of its first word.
 *
 * build/add_kernel puts the machine code of this file in the place of the proved `proved_argon2_expect`, which reads
 * that word. This code is not proved. Instead, its machine code is checked to be prefetches and a return
 * (docs/CLAIMS.md). */
#include <stdint.h>

enum { WORDS_IN_BLOCK = 128, WORDS_IN_LINE = 8, LINES = WORDS_IN_BLOCK / WORDS_IN_LINE };

void proved_argon2_expect(const uint64_t *first)
{
#pragma GCC unroll LINES
    for (int line = 0; line < LINES; line++)
        __builtin_prefetch(first + WORDS_IN_LINE * line);
}
