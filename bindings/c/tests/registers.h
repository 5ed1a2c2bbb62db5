/* The vector registers: what they hold, and which of them a processor has. */
#ifndef REGISTERS_H
#define REGISTERS_H

#include <stdint.h>

/* The contents of all that the processor has, at the last NOTE_ALL. */
static uint8_t registers[32][64];

/* clang-format off */
#define EACH_BY(note, first) note(first##0); note(first##1); note(first##2); note(first##3); note(first##4); \
    note(first##5); note(first##6); note(first##7); note(first##8); note(first##9)
#define EACH_OF_16(note) EACH_BY(note, ); note(10); note(11); note(12); note(13); note(14); note(15)
#define EACH_OF_32(note) EACH_BY(note, ); EACH_BY(note, 1); EACH_BY(note, 2); note(30); note(31)
#define NOTE_AS(instruction, number) __asm__ volatile(instruction #number ", %0" : "=m"(registers[number]))
/* clang-format on */
#if defined(__aarch64__)
#define NOTE(number) NOTE_AS("str q", number)
#define NOTE_ALL() EACH_OF_32(NOTE)
#define REGISTERS "v0 to v31"
#define FILL_ONE(bytes) __asm__ volatile("ldr q7, %0" : : "m"(bytes) : "v7") /* (which the loader saves) */
#else
#define FILL_ONE(bytes) __asm__ volatile("movdqu %0, %%xmm15" : : "m"(bytes) : "xmm15")
#define NOTE(number) NOTE_AS("vmovdqu64 %%zmm", number)
#define NOTE_LOWER(number) NOTE_AS("vmovdqu %%ymm", number)
#define NOTE_LOWEST(number) NOTE_AS("movdqu %%xmm", number)
/* clang-format off */
#define NOTE_ALL() if (__builtin_cpu_supports("avx512f")) { EACH_OF_32(NOTE); } \
    else if (__builtin_cpu_supports("avx")) { EACH_OF_16(NOTE_LOWER); } else { EACH_OF_16(NOTE_LOWEST); }
#define REGISTERS (__builtin_cpu_supports("avx512f") ? "zmm0 to zmm31" \
    : __builtin_cpu_supports("avx") ? "ymm0 to ymm15; this processor has no zmm0 to zmm31" \
    : "xmm0 to xmm15; this processor has no ymm0 to ymm15 and no zmm0 to zmm31")
/* clang-format on */
#endif

#endif
