/* The allocator that compiled code calls, over that of the C library, for machines for which the
   kit brings none. Alignments are at most 16. */
#include <stdint.h>
#include <stdlib.h>

struct tried {
    uint64_t ok;
    void *at;
};

struct tried rattle_alloc(size_t size, size_t align);
struct tried rattle_realloc(void *at, size_t kept, size_t size, size_t align);
void rattle_dealloc(void *at);

/* Where a refused allocation is said to be: no one reads it. */
static char nothing[16];

struct tried rattle_alloc(size_t size, size_t align) {
    void *at = malloc(size ? size : align);
    struct tried result = {at != NULL, at ? at : nothing};
    return result;
}

struct tried rattle_realloc(void *at, size_t kept, size_t size, size_t align) {
    void *other = realloc(at, size ? size : align);
    struct tried result = {other != NULL, other ? other : nothing};
    (void)kept;
    return result;
}

void rattle_dealloc(void *at) { free(at); }
