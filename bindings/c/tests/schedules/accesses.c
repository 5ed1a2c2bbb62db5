/* Watches how the driver accesses memory. gcc's -fsanitize=thread compiles each access to a call of these functions,
 * which are usually those of libtsan. Here another thread may run before each atomic access. Memory is sequentially
 * consistent. */
#include "explore.h"
#include <sanitizer/asan_interface.h>

/* gcc declares these functions itself, with other types. */
#pragma GCC diagnostic ignored "-Wbuiltin-declaration-mismatch"

static void access_bytes(const void *at, size_t len)
{
    const char *const last = (const char *)at + len - 1;
    must(!__asan_address_is_poisoned(at) && !__asan_address_is_poisoned(last), "memory that exists");
}

static void access_atomically(const void *at, size_t len)
{
    come_to(at);
    access_bytes(at, len);
}

/* This is called before main. */
void __tsan_init(void)
{
}

void __tsan_read_range(void *at, size_t len)
{
    access_bytes(at, len);
}

void __tsan_write_range(void *at, size_t len)
{
    access_bytes(at, len);
}

/* clang-format off */
#define ACCESS(bytes) \
    void __tsan_read##bytes(void *at) { access_bytes(at, bytes); } \
    void __tsan_write##bytes(void *at) { access_bytes(at, bytes); }
#define ATOMIC(bits, number) \
    number __tsan_atomic##bits##_load(number *at, int order) \
    { \
        (void)order; \
        access_atomically(at, sizeof *at); \
        return __atomic_load_n(at, __ATOMIC_SEQ_CST); \
    } \
    void __tsan_atomic##bits##_store(number *at, number value, int order) \
    { \
        (void)order; \
        access_atomically(at, sizeof *at); \
        __atomic_store_n(at, value, __ATOMIC_SEQ_CST); \
    } \
    int __tsan_atomic##bits##_compare_exchange_strong( \
        number *at, number *before, number after, int order, int failure_order) \
    { \
        (void)order; \
        (void)failure_order; \
        access_atomically(at, sizeof *at); \
        return __atomic_compare_exchange_n(at, before, after, 0, __ATOMIC_SEQ_CST, __ATOMIC_SEQ_CST); \
    } \
    int __tsan_atomic##bits##_compare_exchange_weak( \
        number *at, number *before, number after, int order, int failure_order) \
    { \
        return !fails_spuriously() \
            && __tsan_atomic##bits##_compare_exchange_strong(at, before, after, order, failure_order); \
    }
/* clang-format on */

ACCESS(1)
ACCESS(2)
ACCESS(4)
ACCESS(8)
ACCESS(16)
ATOMIC(8, uint8_t)
ATOMIC(64, uint64_t)
