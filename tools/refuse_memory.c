/* A library that is loaded before the C library's: the growth of memory whose number is in REFUSED_GROWTH (from 1 on) is refused. The number of growths
   that were asked for is written to the file that GROWTHS_FILE names when the program ends. Of growths of fewer bytes than LEAST_GROWTH none is refused or
   counted. */
#define _GNU_SOURCE
#include <dlfcn.h>
#include <errno.h>
#include <stdio.h>
#include <stdlib.h>

static void *(*next_malloc)(size_t);
static void *(*next_realloc)(void *, size_t);
static void *(*next_calloc)(size_t, size_t);
static int (*next_posix_memalign)(void **, size_t, size_t);
static void *(*next_aligned_alloc)(size_t, size_t);
static long asked, refused;
static size_t least;
static int ready;

__attribute__((constructor)) static void begin(void) {
    const char *number = getenv("REFUSED_GROWTH");
    const char *bytes = getenv("LEAST_GROWTH");
    next_malloc = dlsym(RTLD_NEXT, "malloc");
    next_realloc = dlsym(RTLD_NEXT, "realloc");
    next_calloc = dlsym(RTLD_NEXT, "calloc");
    next_posix_memalign = dlsym(RTLD_NEXT, "posix_memalign");
    next_aligned_alloc = dlsym(RTLD_NEXT, "aligned_alloc");
    refused = number ? atol(number) : 0;
    least = bytes ? (size_t)atol(bytes) : 0;
    ready = 1;
}

__attribute__((destructor)) static void end(void) {
    const char *name = getenv("GROWTHS_FILE");
    FILE *file;
    ready = 0;
    file = name ? fopen(name, "w") : NULL;
    if (file) {
        fprintf(file, "%ld\n", asked);
        fclose(file);
    }
}

/* Whether the growth that is asked for now, to so many bytes, is to be refused. */
static int is_refused(size_t size) {
    if (ready && size >= least && ++asked == refused) {
        errno = ENOMEM;
        return 1;
    }
    return 0;
}

extern void *__libc_malloc(size_t);
extern void *__libc_calloc(size_t, size_t);
extern void *__libc_realloc(void *, size_t);

void *malloc(size_t size) {
    if (is_refused(size)) {
        return NULL;
    }
    return next_malloc ? next_malloc(size) : __libc_malloc(size);
}

void *calloc(size_t count, size_t size) {
    if (is_refused(count * size)) {
        return NULL;
    }
    return next_calloc ? next_calloc(count, size) : __libc_calloc(count, size);
}

void *realloc(void *old, size_t size) {
    if (is_refused(size)) {
        return NULL;
    }
    return next_realloc ? next_realloc(old, size) : __libc_realloc(old, size);
}

int posix_memalign(void **place, size_t alignment, size_t size) {
    if (is_refused(size)) {
        return ENOMEM;
    }
    return next_posix_memalign(place, alignment, size);
}

void *aligned_alloc(size_t alignment, size_t size) {
    if (is_refused(size)) {
        return NULL;
    }
    return next_aligned_alloc(alignment, size);
}
