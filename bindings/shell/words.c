/* argon2_tool: the commands of docs/SHELL.md over the library for C. Tags and verdicts are the library's; the code here
 * is tested, not proved. Tests expect the same answers of it as of the proved program (crates/argon2_program). */
#define _GNU_SOURCE
#include <errno.h>
#include <proved_argon2.h>
#include <stdio.h>
#include <stdlib.h>
#include <string.h>
#include <unistd.h>

#define DIGITS "0123456789"
#define HEX DIGITS "abcdefABCDEF"
#define SLICES 4                      /* of a pass */
#define NANOSECONDS UINT64_C(1000000) /* of a millisecond */

enum status { TRUE, FALSE, REFUSED, USAGE, STREAM, TOO_COSTLY };
enum action { HASH, VERIFY, REHASH, TUNE };

/* A command: the kinds of its arguments, and whether it has limits. */
static const struct command {
    const char *name, *kinds, *takes;
    enum action does;
    int is_limited;
} commands[] = {
    {"new", "vrnnnnmx", "new takes VARIANT VERSION T M P LEN MODE, or nothing", HASH, 1},
    {"check", "s", "check takes one argument, the encoded hash", VERIFY, 1},
    {"hash", "vrnnnnms", "hash takes VARIANT VERSION T M P LEN MODE SALT", HASH, 0},
    {"verify", "s", "verify takes one argument, the encoded hash", VERIFY, 0},
    {"rehash", "vrnnnns", "rehash takes VARIANT VERSION T M P LEN TEXT", REHASH, 0},
    {"tune", "vrnnnnmn", "tune takes VARIANT VERSION T M P LEN MODE MILLISECONDS", TUNE, 0},
    {NULL, NULL, NULL, HASH, 0},
};

static const struct command *command = commands;
static size_t most_read; /* bytes: one more than the longest password */
static proved_argon2_settings settings;
static proved_argon2_options with = PROVED_ARGON2_OPTIONS;
static uint32_t milliseconds;
/* where the numbers of the arguments VARIANT VERSION T M P LEN MODE MILLISECONDS go */
static uint32_t *const read_to[8] = {&settings.variant, &settings.version, &settings.time_cost, &settings.mem_cost,
    &settings.lanes, &settings.hash_length, &with.threads, &milliseconds};
static uint8_t *password;
static size_t password_len;

static int end(enum status status, const char *line)
{
    fprintf(stderr, "%s\n", line);
    return status;
}

static int refuse(uint32_t code)
{
    if (code == PROVED_ARGON2_NOT_ASCII) code = PROVED_ARGON2_DECODING_FAIL; /* such a string is no encoded hash */
    const enum status status = code == PROVED_ARGON2_TOO_COSTLY ? TOO_COSTLY : REFUSED;
    end(status, proved_argon2_message(code));
    if (code == PROVED_ARGON2_DECODING_FAIL)
        end(status, "an encoded hash begins with $argon2, and needs single quotes");
    if (status == TOO_COSTLY)
        end(status, "check and new take at most 2 GiB, 10 passes, 16 lanes and the work of 4 GiB in one pass");
    return status;
}

/* ---- the words */

static int is_number(const char *word, uint32_t *number)
{
    const char *const digits = word + (*word == '+');
    errno = 0;
    const unsigned long value = strtoul(digits, NULL, 10);
    *number = (uint32_t)value;
    return *digits != 0 && digits[strspn(digits, DIGITS)] == 0 && errno == 0 && value <= UINT32_MAX;
}

static int is_variant(const char *word, uint32_t *number)
{
    static const char *const names[] = {"argon2d", "argon2i", "argon2id", "Argon2d", "Argon2i", "Argon2id"};
    uint32_t name = 0;
    while (name < 6 && strcmp(word, names[name]) != 0)
        name++;
    *number = name % 3;
    return name < 6;
}

static int is_mode(const char *word, uint32_t *threads)
{
    *threads = strcmp(word, "par") == 0 ? UINT32_MAX : 1;
    return *threads == UINT32_MAX || strcmp(word, "seq") == 0
        || (strncmp(word, "max", 3) == 0 && is_number(word + 3, threads));
}

/* Returns what this kind of word should be, or NULL if it is right. */
static const char *fault_of(char kind, const char *word, uint32_t *number)
{
    switch (kind) {
    case 'v': return is_variant(word, number) ? NULL : "a variant: argon2id, argon2i or argon2d";
    case 'r':
        return is_number(word, number) && !strcmp(word, *number == 16 ? "16" : "19") ? NULL : "a version: 19 or 16";
    case 'n': return is_number(word, number) ? NULL : "a number of decimal digits, at most 4294967295";
    case 'm': return is_mode(word, number) ? NULL : "a mode: seq, par, or max and a number, as max4";
    case 'x': return strlen(word) % 2 || word[strspn(word, HEX)] ? "pairs of hexadecimal digits" : NULL;
    default: return NULL;
    }
}

/* Returns how many bytes a character has in UTF-8 (RFC 3629, section 4), or 0 if none begins here. The first byte
 * decides the length, and bounds the second byte. */
static size_t utf8_length(const unsigned char *text)
{
    static const struct {
        unsigned char first, last, least, most, length;
    } kinds[] = {{0x01, 0x7f, 0, 0, 1}, {0xc2, 0xdf, 0x80, 0xbf, 2}, {0xe0, 0xe0, 0xa0, 0xbf, 3},
        {0xe1, 0xec, 0x80, 0xbf, 3}, {0xed, 0xed, 0x80, 0x9f, 3}, {0xee, 0xef, 0x80, 0xbf, 3},
        {0xf0, 0xf0, 0x90, 0xbf, 4}, {0xf1, 0xf3, 0x80, 0xbf, 4}, {0xf4, 0xf4, 0x80, 0x8f, 4}};
    size_t kind = 0, length = 2;
    while (kind < sizeof kinds / sizeof *kinds && (text[0] < kinds[kind].first || text[0] > kinds[kind].last))
        kind++;
    if (kind == sizeof kinds / sizeof *kinds) return 0;
    if (kinds[kind].length == 1) return 1;
    if (text[1] < kinds[kind].least || text[1] > kinds[kind].most) return 0;
    while (length < kinds[kind].length && (text[length] & 0xc0) == 0x80)
        length++;
    return length == kinds[kind].length ? length : 0;
}

static int is_utf8(const char *word)
{
    const unsigned char *text = (const unsigned char *)word;
    while (*text != 0) {
        const size_t length = utf8_length(text);
        if (length == 0) return 0;
        text += length;
    }
    return 1;
}

/* Finds the command and reads its settings. Reports what is wrong with the arguments. */
static int is_command(int count, char **word)
{
    with.threads = UINT32_MAX; /* one per lane, but at most 16 for an encoded hash */
    for (int i = 0; i < count; i++)
        if (!is_utf8(word[i])) return fputs("usage\nan argument is not UTF-8\n", stderr), 0;
    if (count == 0) return fputs("usage\nthere is no command; see --help\n", stderr), 0;
    while (command->name != NULL && strcmp(command->name, word[0]) != 0)
        command++;
    if (command->name == NULL) return fprintf(stderr, "usage\nthere is no command '%s'; see --help\n", word[0]), 0;
    if ((size_t)count != strlen(command->kinds) + 1)
        return fprintf(stderr, "usage\n%s; see --help\n", command->takes), 0;
    for (int i = 1; i < count; i++) {
        const char *const fault = fault_of(command->kinds[i - 1], word[i], read_to[i - 1]);
        if (fault != NULL) return fprintf(stderr, "usage\n'%s' is not %s; see --help\n", word[i], fault), 0;
    }
    /* (where addresses have 32 bits, no password has 2^32 bytes) */
    most_read = command->is_limited ? 65537 : SIZE_MAX > UINT32_MAX ? (size_t)UINT32_MAX + 1 : SIZE_MAX;
    return 1;
}

/* ---- the streams */

/* Makes room for this many bytes of the password, and clears the old place, which realloc would not do. */
static int make_room(size_t capacity)
{
    uint8_t *const longer = malloc(capacity);
    if (longer == NULL) return 0;
    if (password != NULL) {
        memcpy(longer, password, password_len);
        explicit_bzero(password, password_len);
        free(password);
    }
    password = longer;
    return 1;
}

/* Reads standard input up to its end, and at most most_read bytes. */
static int read_password(void)
{
    for (size_t capacity = 0; password_len < most_read;) {
        if (password_len == capacity) {
            capacity = capacity == 0 ? 4096 : capacity < most_read / 2 ? 2 * capacity : most_read;
            if (!make_room(capacity)) return refuse(PROVED_ARGON2_OUT_OF_MEMORY);
        }
        const ssize_t got = read(STDIN_FILENO, password + password_len, capacity - password_len);
        if (got == 0) return TRUE;
        if (got < 0 && errno != EINTR)
            return errno == ENOMEM ? refuse(PROVED_ARGON2_OUT_OF_MEMORY) : end(STREAM, "input");
        password_len += got < 0 ? 0 : (size_t)got;
    }
    return command->is_limited ? refuse(PROVED_ARGON2_PWD_TOO_LONG) : TRUE;
}

/* Returns whether all output was written. A write may succeed after an earlier one has failed, so the last one is not
 * enough. */
static int is_written(void)
{
    return fflush(stdout) == 0 && !ferror(stdout);
}

static int answer(uint32_t code, uint32_t yes, uint32_t no)
{
    if (code != yes && code != no) return refuse(code);
    puts(code == yes ? "true" : "false");
    return !is_written() ? STREAM : code == yes ? TRUE : FALSE;
}

/* The tag and the encoded hash, of one computation. Invalid settings are rejected before memory is allocated. */
static int hash(char *word, const proved_argon2_limits *most)
{
    const int is_hex = command->is_limited;
    uint8_t *const salt = (uint8_t *)word;
    const size_t salt_len = is_hex ? strlen(word) / 2 : strlen(word), tag_len = settings.hash_length;
    const int is_above = settings.mem_cost > most->mem_cost || settings.time_cost > most->time_cost
        || settings.lanes > most->lanes || (uint64_t)settings.mem_cost * settings.time_cost > most->work;
    if (is_hex && is_above) return refuse(PROVED_ARGON2_TOO_COSTLY);
    for (size_t i = 0; is_hex && i < salt_len; i++)
        sscanf(word + 2 * i, "%2hhx", salt + i); /* (each in the place of its digits) */
    uint32_t code = proved_argon2_check(&settings, password_len, salt_len, 0, 0);
    if (code != PROVED_ARGON2_OK) return refuse(code);
    const size_t text_len = proved_argon2_encoded_len(&settings, (uint32_t)salt_len) + 1;
    uint8_t *const tag = malloc(tag_len);
    char *const text = malloc(text_len);
    code = tag == NULL || text == NULL ? PROVED_ARGON2_OUT_OF_MEMORY
                                       : proved_argon2_hash_raw_with(&with, password, password_len, salt, salt_len,
                                           NULL, 0, NULL, 0, &settings, tag, tag_len);
    code = code ? code : proved_argon2_encode(salt, salt_len, &settings, tag, tag_len, text, text_len);
    for (size_t i = 0; i < tag_len && code == PROVED_ARGON2_OK; i++)
        printf("%02x", tag[i]);
    if (code != PROVED_ARGON2_OK) return refuse(code);
    printf("\n%s\n", text);
    return is_written() ? TRUE : STREAM;
}

/* Returns whether the password is that of an encoded hash. */
static int verify(const char *text)
{
    const uint32_t code = proved_argon2_verify_encoded_with(
        &with, text, strlen(text), password, password_len, NULL, 0, NULL, 0);
    return answer(code, PROVED_ARGON2_OK, PROVED_ARGON2_MISMATCH);
}

/* Says on a terminal what is measured, after the first slice of each hash. */
static int show_passes(void *arg, uint64_t done, uint64_t all)
{
    (void)arg;
    if (done == 1) fprintf(stderr, "\r\033[Kmeasuring a hash with %llu passes", (unsigned long long)all / SLICES);
    return 0;
}

/* Prints the passes and the memory of the strongest settings within MILLISECONDS and M, and how long a hash took. */
static int tune(const proved_argon2_limits *most)
{
    proved_argon2_tuning found;
    if (settings.mem_cost > most->mem_cost) return TOO_COSTLY;
    if (isatty(STDERR_FILENO)) with.progress = show_passes;
    const uint32_t code = proved_argon2_tune(&with, &settings, milliseconds * NANOSECONDS, &found);
    if (with.progress != NULL) fputs("\r\033[K", stderr);
    if (code == PROVED_ARGON2_TOO_COSTLY) return FALSE;
    if (code != PROVED_ARGON2_OK) return refuse(code);
    printf("%lu %lu %llu\n", (unsigned long)found.settings.time_cost, (unsigned long)found.settings.mem_cost,
        (unsigned long long)((found.nanoseconds + NANOSECONDS - 1) / NANOSECONDS));
    return is_written() ? TRUE : STREAM;
}

int main(int count, char **word)
{
    const proved_argon2_limits most = proved_argon2_default_limits();
    if (!is_command(count - 1, word + 1)) return USAGE;
    /* Where the library has no build for this processor, these limits are zeros. */
    if (most.lanes == 0) return refuse(PROVED_ARGON2_OLD_PROCESSOR);
    char *const last = word[count - 1];
    int status = command->does == REHASH || command->does == TUNE ? TRUE : read_password();
    with.limits = command->is_limited ? &most : NULL;
    if (status == TRUE) {
        status = command->does == HASH ? hash(last, &most)
            : command->does == TUNE    ? tune(&most)
            : command->does == REHASH  ? answer(proved_argon2_needs_rehash(last, strlen(last), &settings),
                   PROVED_ARGON2_NEEDS_REHASH, PROVED_ARGON2_OK)
                                       : verify(last);
    }
    if (password != NULL) explicit_bzero(password, password_len);
    return status;
}
