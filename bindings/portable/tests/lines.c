/* The library's answers to the calls of a file, a line each (CONTRIBUTING.md): `lines raw FILE COUNT`
 * hashes and verifies by one thread and by two, and `lines texts FILE COUNT` verifies strings. Exactly COUNT lines
 * have to be right. */
#include "proved_argon2.h"

#include <stdio.h>
#include <stdlib.h>
#include <string.h>

enum { LINE = 16384, BYTES = 2048, INPUTS = 4 };

struct inputs {
    uint8_t bytes[INPUTS][BYTES];
    size_t len[INPUTS];
};

static size_t read_hex(const char *text, uint8_t *to)
{
    size_t len = 0;
    for (unsigned byte; len < BYTES && sscanf(text + 2 * len, "%2x", &byte) == 1; len++) {
        to[len] = (uint8_t)byte;
    }
    return len;
}

/* Returns whether a number is that of an error with this message. */
static int is_error(uint32_t code, const char *message)
{
    return strcmp(proved_argon2_message(code), message) == 0;
}

static uint32_t variant_of(const char *name)
{
    return strcmp(name, "argon2d") == 0 ? PROVED_ARGON2_D
        : strcmp(name, "argon2i") == 0  ? PROVED_ARGON2_I
                                        : PROVED_ARGON2_ID;
}

#define ALL_OF(inputs) \
    (inputs)->bytes[0], (inputs)->len[0], (inputs)->bytes[1], (inputs)->len[1], (inputs)->bytes[2], (inputs)->len[2], \
        (inputs)->bytes[3], (inputs)->len[3]

/* Returns whether calls with this many threads return the tag, accept it, and reject another one. */
static int gives(
    uint32_t threads, const struct inputs *inputs, const proved_argon2_settings *settings, const char *result)
{
    uint8_t tag[BYTES], expected[BYTES];
    proved_argon2_options with = PROVED_ARGON2_OPTIONS;
    with.threads = threads;
    const uint32_t code = proved_argon2_hash_raw_with(&with, ALL_OF(inputs), settings, tag, settings->hash_length);
    if (strncmp(result, "ERR ", 4) == 0) {
        return is_error(code, result + 4);
    }
    const size_t len = read_hex(result, expected);
    if (code != PROVED_ARGON2_OK || len != settings->hash_length || memcmp(tag, expected, len) != 0
        || proved_argon2_verify_raw_with(&with, ALL_OF(inputs), settings, expected, len) != PROVED_ARGON2_OK) {
        return 0;
    }
    expected[len - 1] ^= 1;
    return proved_argon2_verify_raw_with(&with, ALL_OF(inputs), settings, expected, len) == PROVED_ARGON2_MISMATCH;
}

static int is_right_raw(char *line)
{
    static char fields[INPUTS][LINE];
    static struct inputs inputs;
    char variant[9];
    int result = 0;
    proved_argon2_settings settings;
    const int read = sscanf(line, "%8s %u %u %u %u %u %8191s %8191s %8191s %8191s %n", variant, &settings.version,
        &settings.time_cost, &settings.mem_cost, &settings.lanes, &settings.hash_length, fields[0], fields[1],
        fields[2], fields[3], &result);
    settings.variant = variant_of(variant);
    for (size_t i = 0; i < INPUTS; i++) {
        inputs.len[i] = read_hex(fields[i], inputs.bytes[i]);
    }
    return read == 10 && gives(1, &inputs, &settings, line + result) && gives(2, &inputs, &settings, line + result);
}

static int is_right_text(char *line)
{
    static const uint8_t pwd[] = "password";
    char *const verdict = strchr(line, '\t');
    if (verdict == NULL) {
        return 0;
    }
    *verdict = 0;
    uint32_t code = proved_argon2_verify_encoded(line, strlen(line), pwd, sizeof pwd - 1, NULL, 0, NULL, 0);
    if (code == PROVED_ARGON2_NOT_ASCII) {
        code = PROVED_ARGON2_DECODING_FAIL; /* The other library has one error for all strings that are no hash. */
    }
    return strcmp(verdict + 1, "true") == 0 ? code == PROVED_ARGON2_OK
        : strcmp(verdict + 1, "false") == 0 ? code == PROVED_ARGON2_MISMATCH
                                            : is_error(code, verdict + 1 + strlen("ERR "));
}

int main(int count, char **words)
{
    static char line[LINE];
    unsigned right = 0, wrong = 0;
    FILE *const file = count == 4 ? fopen(words[2], "r") : NULL;
    if (file == NULL) {
        return 2;
    }
    while (fgets(line, sizeof line, file) != NULL) {
        line[strcspn(line, "\r\n")] = 0;
        const int is_right = strcmp(words[1], "raw") == 0 ? is_right_raw(line) : is_right_text(line);
        right += is_right != 0;
        wrong += is_right == 0;
        if (!is_right) {
            printf("wrong: %s\n", line);
        }
    }
    printf("%u right, %u wrong\n", right, wrong);
    return wrong != 0 || right == 0 || right != strtoul(words[3], NULL, 10);
}
