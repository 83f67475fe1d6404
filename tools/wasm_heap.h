/* The heap of puffgrit.c as WebAssembly, for tools/portable.py: blocks one after the other, of which the last grows and is freed in place.
   The host starts it anew before each call, after what it has put in memory; so nothing else has to be freed. */
#include <stddef.h>
#include <stdint.h>

#define PUFFGRIT_MALLOC heap_malloc
#define PUFFGRIT_REALLOC heap_realloc
#define PUFFGRIT_FREE heap_release
#define PUFFGRIT_MALLOC_ALIGNS

/* Where the next block begins, and where the last one does; 0 if it is freed. */
static uint64_t heap_top, heap_last;

static uint64_t heap_after(uint64_t at) { return (at + 15) & ~(uint64_t)15; }

__attribute__((export_name("puffgrit_heap"))) void heap_start(uint32_t at) {
    heap_top = heap_after(at);
    heap_last = 0;
}

/* Whether memory reaches up to there; it grows if it has to. */
static int heap_reaches(uint64_t end) {
    const uint64_t has = (uint64_t)__builtin_wasm_memory_size(0) << 16;
    if (end <= has) return 1;
    if (end > (uint64_t)0xffff << 16) return 0;
    return __builtin_wasm_memory_grow(0, (size_t)((end - has + 0xffff) >> 16)) != (size_t)-1;
}

static void *heap_malloc(size_t bytes) {
    const uint64_t end = heap_after(heap_top + bytes);
    if (!heap_reaches(end)) return 0;
    heap_last = heap_top;
    heap_top = end;
    return (void *)(uintptr_t)heap_last;
}

/* What is copied may go past the old block, up to the new one or into it: that is in memory, and nothing looks at it. */
static void *heap_realloc(void *block, size_t bytes) {
    void *made;
    if ((uintptr_t)block == heap_last) {
        const uint64_t end = heap_after(heap_last + bytes);
        if (!heap_reaches(end)) return 0;
        heap_top = end;
        return block;
    }
    made = heap_malloc(bytes);
    if (made) __builtin_memmove(made, block, bytes);
    return made;
}

static void heap_release(void *block) {
    if ((uintptr_t)block != heap_last) return;
    heap_top = heap_last;
    heap_last = 0;
}

