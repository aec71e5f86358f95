/* The heap of the page's module, which replaces the C library's.

   Blocks lie one after another above the stack, each behind a header of 16 bytes. A list has the
   free blocks by address; free neighbours merge. The memory grows if no free block is large enough.
 */
typedef unsigned long u64;
typedef struct block {
    u64 size;
    struct block *next;
} block; /* size: the bytes after the header, a multiple of 16 */
typedef struct {
    u64 ok, at;
} tried;

/* No block reaches beyond this. Addresses stay below 2^32, and the last 64 MB below 2^32 are never
   memory, so that a stack overflow traps. */
#define MOST 0xfc000000ul

extern unsigned char __heap_base;
static block *first_free;
static u64 end, limit, live, peak;

static u64 rounded(u64 n) { return n < 16 ? 16 : (n + 15) & ~15ul; }
static block *header(u64 at) { return (block *)(at - 16); }
static u64 behind(block *b) { return (u64)b + 16 + b->size; }

static void count(u64 more) {
    live += more;
    if (live > peak) peak = live;
}

/* Grows the memory by some pages. After the lowering to 32 bits, 2^32 - 1 means a refusal. */
static int grow(u64 pages) { return (unsigned)__builtin_wasm_memory_grow(0, pages) != ~0u; }

/* Makes the memory reach to an address. Grows by at least an eighth, if the host grants that. */
static int reach(u64 to) {
    if (!limit) limit = __builtin_wasm_memory_size(0) << 16;
    if (to <= limit) return 1;
    u64 pages = (to - limit + 0xffff) >> 16, ample = limit >> 19;
    if (pages < ample && grow(ample)) {
        limit += ample << 16;
        return 1;
    }
    if (!grow(pages)) return 0;
    limit += pages << 16;
    return 1;
}

/* Takes a block from the free list, which keeps the rest of it. 0 if no block is large enough. */
static block *reuse(u64 n) {
    for (block **at = &first_free, *b; (b = *at); at = &b->next) {
        if (b->size < n) continue;
        if (b->size < n + 64) {
            *at = b->next;
            return b;
        }
        block *rest = (block *)((u64)b + 16 + n);
        rest->size = b->size - n - 16;
        rest->next = b->next;
        b->size = n;
        *at = rest;
        return b;
    }
    return 0;
}

static u64 take(u64 n) {
    if (!end) end = ((u64)&__heap_base + 15) & ~15ul;
    block *b = n > MOST ? 0 : reuse(n);
    if (!b) {
        if (n > MOST || end + 16 + n > MOST || !reach(end + 16 + n)) return 0;
        b = (block *)end;
        b->size = n;
        end += 16 + n;
    }
    count(b->size);
    return (u64)b + 16;
}

static void give(block *b) {
    live -= b->size;
    block **at = &first_free, *before = 0;
    while (*at && *at < b) {
        before = *at;
        at = &before->next;
    }
    b->next = *at;
    *at = b;
    if (b->next && behind(b) == (u64)b->next) {
        b->size += 16 + b->next->size;
        b->next = b->next->next;
    }
    if (before && behind(before) == (u64)b) {
        before->size += 16 + b->size;
        before->next = b->next;
        b = before;
    }
    if (behind(b) == end) { /* the last block becomes unused memory */
        end = (u64)b;
        for (at = &first_free; *at != b; at = &(*at)->next) {
        }
        *at = 0;
    }
}

/* The allocator that compiled code calls. Alignments are at most 16. */
tried rattle_alloc(u64 n, u64 align) {
    (void)align;
    u64 at = take(n > MOST ? n : rounded(n));
    return (tried){at != 0, at ? at : 16};
}

void rattle_dealloc(u64 at) { give(header(at)); }

tried rattle_realloc(u64 at, u64 kept, u64 n, u64 align) {
    (void)align;
    block *b = header(at);
    u64 want = n > MOST ? n : rounded(n);
    if (want <= b->size) return (tried){1, at};
    if (behind(b) == end && want <= MOST && (u64)b + 16 + want <= MOST &&
        reach((u64)b + 16 + want)) { /* the last block grows in place */
        count(want - b->size);
        b->size = want;
        end = behind(b);
        return (tried){1, at};
    }
    u64 to = take(want);
    if (!to) return (tried){0, at};
    __builtin_memcpy((void *)to, (void *)at, kept);
    give(b);
    return (tried){1, to};
}

/* The page calls these: memory for a text, and the peak of the memory in use. */
u64 page_alloc(u64 n) { return n > MOST ? 0 : take(rounded(n)); }
u64 page_peak(void) { return peak; }
