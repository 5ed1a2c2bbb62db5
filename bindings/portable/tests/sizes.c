/* Asks for 2 GiB up to 4 TiB; addresses of 32 bits reach 4 GiB. A call that returns memory returns all of it, and one
 * that needs more than there are addresses returns none. It is linked with --wrap=proved_argon2_check_encoded. */
#include "proved_argon2.h"

#include <stdio.h>

uint32_t __wrap_proved_argon2_check_encoded(const char *text, size_t text_len, const proved_argon2_limits *limits,
    uint64_t pwd_len, uint64_t secret_len, uint64_t ad_len, proved_argon2_stored *stored);

/* Claims that a text has a tag of 2 GiB; the library keeps two. */
uint32_t __wrap_proved_argon2_check_encoded(const char *text, size_t text_len, const proved_argon2_limits *limits,
    uint64_t pwd_len, uint64_t secret_len, uint64_t ad_len, proved_argon2_stored *stored)
{
    (void)text, (void)text_len, (void)limits, (void)pwd_len, (void)secret_len, (void)ad_len;
    *stored = (proved_argon2_stored){{PROVED_ARGON2_ID, PROVED_ARGON2_VERSION_13, 8, 1, 1, UINT32_C(1) << 31}, 8};
    return PROVED_ARGON2_OK;
}

static int is_memory_right(uint32_t mem_cost)
{
    const proved_argon2_settings settings = {PROVED_ARGON2_ID, PROVED_ARGON2_VERSION_13, mem_cost, 1, 1, 32};
    void *memory = NULL;
    size_t len = 0;
    const uint32_t code = proved_argon2_memory_new(&settings, &memory, &len);
    if (code != PROVED_ARGON2_OK) {
        return code == PROVED_ARGON2_OUT_OF_MEMORY && memory == NULL && len == 0;
    }
    if (len != proved_argon2_memory_len(&settings)) {
        return 0;
    }
    ((volatile char *)memory)[0] = ((volatile char *)memory)[len - 1] = 1;
    proved_argon2_memory_free(memory, len);
    return 1;
}

/* With addresses of 64 bits there may be as much memory. */
static int is_text_right(void)
{
    static const char text[] = "$argon2id$v=19$m=8,t=1,p=1$c29tZXNhbHQ$AAAAAAAA";
    return sizeof(size_t) > 4
        || proved_argon2_verify_encoded(text, sizeof text - 1, (const uint8_t *)"password", 8, NULL, 0, NULL, 0)
        == PROVED_ARGON2_OUT_OF_MEMORY;
}

int main(void)
{
    static const uint32_t sizes[] = {2097148, 2097152, 4190208, 4192252, 4192256, 4192260, 4193000, 4194300, 4194303,
        4194304, 4194308, 8388608, UINT32_MAX};
    int wrong = !is_text_right();
    for (size_t i = 0; i < sizeof sizes / sizeof *sizes; i++) {
        const int is_wrong = !is_memory_right(sizes[i]);
        printf("%lu KiB: %s\n", (unsigned long)sizes[i], is_wrong ? "wrong" : "right");
        wrong += is_wrong;
    }
    printf("%d wrong\n", wrong);
    return wrong;
}
