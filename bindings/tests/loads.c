/*
 * Loads the shared object that is named, as Python does, and prints the encoded hash of a call by threads.
 */
#include "proved_argon2_threads.h"

#include <dlfcn.h>
#include <stdio.h>
#include <string.h>

typedef uint32_t hash_encoded_with(const proved_argon2_options *, const uint8_t *, size_t, const uint8_t *, size_t,
    const uint8_t *, size_t, const uint8_t *, size_t, const proved_argon2_settings *, char *, size_t);

int main(int argc, char **argv)
{
    const proved_argon2_settings settings = {PROVED_ARGON2_ID, PROVED_ARGON2_VERSION_13, 256, 2, 2, 32};
    const proved_argon2_options options = {.size = sizeof options, .threads = 2};
    const uint8_t password[] = "password", salt[] = "somesalt";
    char text[PROVED_ARGON2_TEXT_SIZE];
    hash_encoded_with *hash;
    void *library = argc == 2 ? dlopen(argv[1], RTLD_NOW) : NULL;
    void *call = library == NULL ? NULL : dlsym(library, "proved_argon2_hash_encoded_with");
    if (call == NULL) {
        fprintf(stderr, "%s\n", dlerror());
        return 1;
    }
    memcpy(&hash, &call, sizeof hash);
    const uint32_t code = hash(&options, password, strlen((const char *)password), salt, strlen((const char *)salt),
        NULL, 0, NULL, 0, &settings, text, sizeof text);
    printf("%u %s\n", code, code == PROVED_ARGON2_OK ? text : "");
    return code != PROVED_ARGON2_OK;
}
