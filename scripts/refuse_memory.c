/* Replaces calls of the C library through LD_PRELOAD. It refuses allocation number REFUSED (from 1)
   and reports that on standard error. A growth counts as an allocation; a shrink or a release
   doesn't. */
#define _GNU_SOURCE
#include <dlfcn.h>
#include <malloc.h>
#include <stdlib.h>
#include <unistd.h>

static unsigned long asked;

static int is_refused(void) {
    static unsigned long refused;
    static const char met[] = "memory was refused\n";
    if (!refused) {
        const char *number = getenv("REFUSED");
        refused = number ? strtoul(number, 0, 10) : 0;
    }
    if (++asked != refused) return 0;
    if (write(2, met, sizeof met - 1) < 0) abort();
    return 1;
}

void *malloc(size_t size) {
    static void *(*next)(size_t);
    if (!next) next = dlsym(RTLD_NEXT, "malloc");
    return is_refused() ? 0 : next(size);
}

void *realloc(void *old, size_t size) {
    static void *(*next)(void *, size_t);
    if (!next) next = dlsym(RTLD_NEXT, "realloc");
    if (old && size <= malloc_usable_size(old)) return next(old, size);
    return is_refused() ? 0 : next(old, size);
}
