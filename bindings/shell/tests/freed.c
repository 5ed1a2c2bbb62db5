/* To be preloaded: ends the program if a block that it frees, or gives to realloc, has the password of the test. */
#include <malloc.h>
#include <stdlib.h>
#include <string.h>
#include <unistd.h>

#define PASSWORD "correct horse"
#define FOUND 99

void __libc_free(void *block);
void *__libc_realloc(void *block, size_t size);

static void look(void *block)
{
    if (block != NULL && memmem(block, malloc_usable_size(block), PASSWORD, strlen(PASSWORD)) != NULL) _exit(FOUND);
}

void free(void *block)
{
    look(block);
    __libc_free(block);
}

void *realloc(void *block, size_t size)
{
    look(block);
    return __libc_realloc(block, size);
}
