/* The proved code calls these to copy and set bytes, by Linux's calling convention (build/write_coff). It is tested and
 * not proved. */
#include <string.h>

#define SYSV __attribute__((sysv_abi))

SYSV void *proved_sysv_memcpy(void *restrict to, const void *restrict from, size_t len);
SYSV void *proved_sysv_memmove(void *to, const void *from, size_t len);
SYSV void *proved_sysv_memset(void *to, int byte, size_t len);

SYSV void *proved_sysv_memcpy(void *restrict to, const void *restrict from, size_t len)
{
    return memcpy(to, from, len);
}

SYSV void *proved_sysv_memmove(void *to, const void *from, size_t len)
{
    return memmove(to, from, len);
}

SYSV void *proved_sysv_memset(void *to, int byte, size_t len)
{
    return memset(to, byte, len);
}
