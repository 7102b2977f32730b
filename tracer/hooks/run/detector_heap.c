#ifdef SPBAGS_INSIDE
#include "run/detector_heap.h"

#include "../include/spbags_inside.h"
#include "base/tell.h"

#include <malloc.h>

int __real_munmap(void *at, size_t size);
void *__real_mremap(void *at, size_t before, size_t size, int flags, ...);

/* The heap is that of the C library, where memory comes again. The tracer's own malloc stands before it, so no other
   code calls it. */
static void *(*library_malloc)(size_t);
static void *(*library_realloc)(void *, size_t);
static void (*library_free)(void *);

/* What that heap maps would lie where the program's own mappings lie in a run without the detector. So it has the
   memory behind the program's variables, of which it takes much at once and gives none back. */
static void keep_mappings_away(void) {
    enum { PIECE_OF_HEAP = 16 << 20 };
    mallopt(M_ARENA_MAX, 1);
    mallopt(M_MMAP_MAX, 0);
    mallopt(M_TOP_PAD, PIECE_OF_HEAP);
    mallopt(M_TRIM_THRESHOLD, INT_MAX);
}

void detector_heap_begin(void) {
    keep_mappings_away();
    library_malloc = dlsym(RTLD_NEXT, "malloc");
    library_realloc = dlsym(RTLD_NEXT, "realloc");
    library_free = dlsym(RTLD_NEXT, "free");
    if (!library_malloc || !library_realloc || !library_free)
        tell_fault("the C library has no heap for the detector");
}

/* ---- What the detector's thread alone calls ---- */

/* A block of so many bytes or more has memory of its own, which begins with a large page: the system takes large pages
   for it where it has some, since the detector goes through all of its memory. Few such blocks live at once; those that
   are too many are the library's too. */
enum { LARGE = 2 << 20, MOST_LARGE = 32 };
static struct large_block {
    void *first;
    size_t size;
} large_blocks[MOST_LARGE];

/* The large block that begins here; with null one that may be taken. Null if there is none. */
static struct large_block *large_block_at(const void *first) {
    for (size_t at = 0; at < MOST_LARGE; at++)
        if (large_blocks[at].first == first)
            return &large_blocks[at];
    return NULL;
}

/* Addresses that begin with a large page, or null; they are of our own where the system has them free. */
static void *large_addresses(size_t size) {
    static uintptr_t wish = (uintptr_t)3 << 45;
    char *found = mmap((void *)wish, size + LARGE, PROT_NONE, MAP_PRIVATE | MAP_ANONYMOUS | MAP_NORESERVE, -1, 0);
    if (found == MAP_FAILED)
        return NULL;
    size_t before = -(uintptr_t)found & (LARGE - 1);
    if (before > 0)
        __real_munmap(found, before);
    __real_munmap(found + before + size, LARGE - before);
    wish += size;
    return found + before;
}

/* The block takes another size; one that may be taken gets its first. The block's address, or null. */
static void *resize_large(struct large_block *block, size_t size) {
    size = (size + LARGE - 1) & ~(size_t)(LARGE - 1);
    void *first = large_addresses(size);
    if (!first)
        return NULL;
    bool done = block->first
                    ? __real_mremap(block->first, block->size, size, MREMAP_MAYMOVE | MREMAP_FIXED, first) == first
                    : mprotect(first, size, PROT_READ | PROT_WRITE) == 0;
    /* The addresses stay reserved: after a mremap that failed they may be another one's. */
    if (!done)
        return NULL;
    madvise(first, size, MADV_HUGEPAGE);
    *block = (struct large_block){first, size};
    return first;
}

/* A block of the library's that grows to be a large one, which is taken. */
static void *become_large(struct large_block *large, void *block, size_t kept, size_t size) {
    void *first = resize_large(large, size);
    if (first) {
        memcpy(first, block, kept);
        library_free(block);
    }
    return first;
}

static struct rattle_block answer_with(void *block) {
    static max_align_t nothing;
    return block ? (struct rattle_block){true, block} : (struct rattle_block){false, &nothing};
}

struct rattle_block rattle_alloc(size_t size, size_t alignment) {
    struct large_block *large = size >= LARGE ? large_block_at(NULL) : NULL;
    return answer_with(large ? resize_large(large, size) : library_malloc(size > 0 ? size : alignment));
}

struct rattle_block rattle_realloc(void *block, size_t kept, size_t size, size_t alignment) {
    if (size == 0)
        size = alignment;
    struct large_block *large = large_block_at(block), *taken = size >= LARGE ? large_block_at(NULL) : NULL;
    if (large)
        return answer_with(resize_large(large, size));
    return answer_with(taken ? become_large(taken, block, kept, size) : library_realloc(block, size));
}

void rattle_dealloc(void *block) {
    struct large_block *large = large_block_at(block);
    if (large) {
        __real_munmap(block, large->size);
        *large = (struct large_block){NULL, 0};
    } else
        library_free(block);
}
#endif
