/* Refuses one memory request of a program: the one whose number, counted from 0, is in the variable REFUSE. The library is loaded
   with LD_PRELOAD. When the program ends, the library writes the number of requests to the file whose name is in COUNT. */
#define _GNU_SOURCE
#include <dlfcn.h>
#include <errno.h>
#include <stddef.h>
#include <stdio.h>
#include <stdlib.h>

static long requests;
static long refused = -1;
static int ready;

static int is_refused(void) {
    if (!ready) {
        const char *text = getenv("REFUSE");
        if (text) refused = atol(text);
        ready = 1;
    }
    return requests++ == refused;
}

static void *original(const char *name) { return dlsym(RTLD_NEXT, name); }

void *malloc(size_t size) {
    static void *(*real)(size_t);
    if (!real) real = (void *(*)(size_t))original("malloc");
    if (is_refused()) { errno = ENOMEM; return NULL; }
    return real(size);
}

void *realloc(void *at, size_t size) {
    static void *(*real)(void *, size_t);
    if (!real) real = (void *(*)(void *, size_t))original("realloc");
    if (is_refused()) { errno = ENOMEM; return NULL; }
    return real(at, size);
}

void *aligned_alloc(size_t align, size_t size) {
    static void *(*real)(size_t, size_t);
    if (!real) real = (void *(*)(size_t, size_t))original("aligned_alloc");
    if (is_refused()) { errno = ENOMEM; return NULL; }
    return real(align, size);
}

int posix_memalign(void **to, size_t align, size_t size) {
    static int (*real)(void **, size_t, size_t);
    if (!real) real = (int (*)(void **, size_t, size_t))original("posix_memalign");
    if (is_refused()) return ENOMEM;
    return real(to, align, size);
}

__attribute__((destructor)) static void write_count(void) {
    const char *name = getenv("COUNT");
    FILE *file = name ? fopen(name, "w") : NULL;
    if (!file) return;
    fprintf(file, "%ld\n", requests);
    fclose(file);
}
