/* What the translated module (module_code.h) uses: numbers, and memory by address, whose bytes are in WebAssembly's
 * order on every machine. It is tested and not proved. */
#ifndef MODULE_H
#define MODULE_H

#include <stdint.h>
#include <stdlib.h>
#include <string.h>

typedef uint8_t u8;
typedef int8_t s8;
typedef uint16_t u16;
typedef uint32_t u32;
typedef int32_t s32;
typedef uint64_t u64;
typedef int64_t s64;

#define FUNC_PROLOGUE
#define FUNC_EPILOGUE
#define UNREACHABLE ((void)instance, abort()) /* what is proved to be reached by no call */
#define DIV_U(x, y) ((y) == 0 ? (abort(), 0) : (x) / (y))
#define REM_U(x, y) ((y) == 0 ? (abort(), 0) : (x) % (y))
#define I64_ROTL(x, y) ((x) << ((y)&63) | (x) >> ((64 - (y)) & 63))

static inline u32 I64_CTZ(u64 word)
{
    u32 zeros = 0;
    while (zeros < 64 && (word >> zeros & 1) == 0) {
        zeros++;
    }
    return zeros;
}

/* ---- memory: addresses are those of the C program's own memory */

#define ADDRESS(pointer) ((u64)(uintptr_t)(pointer))

static inline void *place(u64 address, u64 offset)
{
    return (void *)(uintptr_t)(address + offset);
}

/* (compilers evaluate this) */
static inline int is_big_endian(void)
{
    const u16 one = 1;
    u8 first;
    memcpy(&first, &one, 1);
    return first == 0;
}

static inline u8 swapped_u8(u8 byte)
{
    return byte;
}

static inline u16 swapped_u16(u16 word)
{
    return (u16)(word << 8 | word >> 8);
}

static inline u32 swapped_u32(u32 word)
{
    return (u32)swapped_u16((u16)word) << 16 | swapped_u16((u16)(word >> 16));
}

static inline u64 swapped_u64(u64 word)
{
    return (u64)swapped_u32((u32)word) << 32 | swapped_u32((u32)(word >> 32));
}

/* A load instruction: the types of its result, of the word in memory, and to which that word is converted first. */
#define LOAD(name, type, stored, read) \
    static inline type Z_memoryZ_##name(const void *none, u64 address, u64 offset) \
    { \
        stored word; \
        (void)none; \
        memcpy(&word, place(address, offset), sizeof word); \
        return (type)(read)(is_big_endian() ? swapped_##stored(word) : word); \
    }

#define STORE(name, type, stored) \
    static inline void Z_memoryZ_##name(const void *none, u64 address, type value, u64 offset) \
    { \
        const stored word = is_big_endian() ? swapped_##stored((stored)value) : (stored)value; \
        (void)none; \
        memcpy(place(address, offset), &word, sizeof word); \
    }

LOAD(i32_load, u32, u32, u32)
LOAD(i32_load16_u, u32, u16, u32)
LOAD(i32_load8_s, u32, u8, s8)
LOAD(i32_load8_u, u32, u8, u32)
LOAD(i64_load, u64, u64, u64)
LOAD(i64_load32_u, u64, u32, u64)
LOAD(i64_load8_u, u64, u8, u64)
STORE(i32_store, u32, u32)
STORE(i32_store16, u32, u16)
STORE(i32_store8, u32, u8)
STORE(i64_store, u64, u64)
STORE(i64_store32, u64, u32)
STORE(i64_store8, u64, u8)

/* (the system's may leave what they copied in registers that nothing clears) */
void *proved_driver_memmove(void *to, const void *from, size_t len);
void *proved_driver_memset(void *to, int byte, size_t len);

static inline void Z_memoryZ_copy(const void *none, u64 to, u64 from, u64 bytes)
{
    (void)none;
    proved_driver_memmove(place(to, 0), place(from, 0), (size_t)bytes);
}

static inline void Z_memoryZ_fill(const void *none, u64 to, u32 byte, u64 bytes)
{
    (void)none;
    proved_driver_memset(place(to, 0), (int)byte, (size_t)bytes);
}

#endif
