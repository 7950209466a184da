/* Shared code of the library tests: CHECK, which reports a failed check, and a heap that counts its blocks. The linker replaces
   malloc, realloc and free with the functions below (-Wl,--wrap), so that a test can refuse requests and count blocks. */
#ifndef RIBJASPER_TESTING_H
#define RIBJASPER_TESTING_H

#include <stdio.h>
#include <stdlib.h>
#include <string.h>

#define CHECK(condition) check((condition) ? 1 : 0, #condition, __FILE__, __LINE__)

static int failed;
/* The number of requests so far, the number of the request that fails, or -1, and the number of allocated blocks. */
static long requests;
static long refused = -1;
static long held;

#ifdef __cplusplus
extern "C" {
#endif
void *__real_malloc(size_t size);
void *__real_realloc(void *at, size_t size);
void __real_free(void *at);
void *__wrap_malloc(size_t size);
void *__wrap_realloc(void *at, size_t size);
void __wrap_free(void *at);
#ifdef __cplusplus
}
#endif

void *__wrap_malloc(size_t size)
{
    void *at = requests++ == refused ? NULL : __real_malloc(size);
    held += at != NULL;
    return at;
}

void *__wrap_realloc(void *at, size_t size)
{
    void *moved = requests++ == refused ? NULL : __real_realloc(at, size);
    held += at == NULL && moved != NULL;
    return moved;
}

void __wrap_free(void *at)
{
    held -= at != NULL;
    __real_free(at);
}

static void check(int condition, const char *text, const char *file, int line)
{
    if (!condition) {
        printf("%s: line %d: %s\n", file, line, text);
        failed = 1;
    }
}

#endif
