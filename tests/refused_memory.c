// An allocator that refuses one request, put in front of the C library's by LD_PRELOAD: the request with the number in the
// variable REFUSED, counted from 1. The file that the variable COUNTED names gets the number of all requests at the end.
#define _GNU_SOURCE
#include <dlfcn.h>
#include <errno.h>
#include <stdio.h>
#include <stdlib.h>

static unsigned long requests;

static int refuses(void) {
    static long refused = -1;
    if (refused < 0) {
        const char *words = getenv("REFUSED");
        refused = words ? atol(words) : 0;
    }
    requests += 1;
    return refused > 0 && requests == (unsigned long)refused;
}

#define REAL(name) ((__typeof__(&name))dlsym(RTLD_NEXT, #name))

void *malloc(size_t size) {
    if (refuses()) {
        errno = ENOMEM;
        return NULL;
    }
    return REAL(malloc)(size);
}

void *realloc(void *old, size_t size) {
    if (refuses()) {
        errno = ENOMEM;
        return NULL;
    }
    return REAL(realloc)(old, size);
}

void *aligned_alloc(size_t align, size_t size) {
    if (refuses()) {
        errno = ENOMEM;
        return NULL;
    }
    return REAL(aligned_alloc)(align, size);
}

int posix_memalign(void **out, size_t align, size_t size) {
    if (refuses())
        return ENOMEM;
    return REAL(posix_memalign)(out, align, size);
}

__attribute__((destructor)) static void tell(void) {
    unsigned long all = requests;
    const char *name = getenv("COUNTED");
    FILE *file = name ? fopen(name, "w") : NULL;
    if (file) {
        fprintf(file, "%lu\n", all);
        fclose(file);
    }
}
