/* A heap whose calls answer a double free, a foreign pointer and a stale one with an error, in place and in constant time.
 *
 *     cc -std=c11 -O2 -Iinclude examples/guarded.c crates/rlsf_malloc/out/librlsf_malloc.a -o guarded && ./guarded
 *
 * A bit for each 16 bytes of the memory says whether a live payload begins there. The bits lie outside of the memory, where a write past a
 * payload doesn't reach them. A stale pointer isn't found if a new payload has its address. */
#include "rlsf.h"
#include <stdio.h>
#include <string.h>

/* The number of bytes that the bits for a memory take. */
#define GUARDED_BITS(LEN) ((LEN) / 128 + 1)

typedef struct {
    rlsf_heap *heap;
    size_t start; /* the memory, from the first multiple of 16 on */
    size_t len;
    size_t pool; /* the number of bytes of the memory's pool */
    unsigned char *bits;
} guarded;

/* Makes a heap as rlsf_heap_init does. Returns whether there is such a kind and enough memory. */
static int guarded_init(guarded *all, void *handle, size_t kind, void *memory, size_t len, unsigned char *bits) {
    size_t skipped = (0 - (size_t)memory) % 16;
    all->heap = rlsf_heap_begin(handle, kind);
    if (!all->heap) return 0;
    all->pool = rlsf_heap_add(all->heap, memory, len);
    if (!all->pool) return 0;
    all->start = (size_t)memory + skipped;
    all->len = len - skipped;
    all->bits = memset(bits, 0, GUARDED_BITS(len));
    return 1;
}

/* Whether a live payload begins at a pointer, which may be any. */
static int guarded_is_live(const guarded *all, const void *payload) {
    size_t place = (size_t)payload - all->start;
    return place < all->len && place % 16 == 0 && all->bits[place / 128] >> place / 16 % 8 & 1;
}

static void *turn(guarded *all, void *payload) {
    size_t place = (size_t)payload - all->start;
    if (payload) all->bits[place / 128] ^= (unsigned char)(1 << place / 16 % 8);
    return payload;
}

static void *guarded_malloc(guarded *all, size_t size) { return turn(all, rlsf_malloc(all->heap, size)); }

/* Returns whether there was such a payload; otherwise nothing changes. */
static int guarded_free(guarded *all, void *payload) {
    if (!guarded_is_live(all, payload)) return 0;
    rlsf_free(all->heap, turn(all, payload));
    return 1;
}

/* Returns NULL also if there is no such payload. */
static void *guarded_realloc(guarded *all, void *payload, size_t size) {
    void *moved = guarded_is_live(all, payload) ? rlsf_realloc(all->heap, payload, size) : NULL;
    if (!moved) return NULL;
    turn(all, payload);
    return turn(all, moved);
}

/* Returns 0 if there is no such payload. */
static size_t guarded_usable_size(const guarded *all, const void *payload) {
    return guarded_is_live(all, payload) ? rlsf_usable_size(all->heap, payload) : 0;
}

static int is_right(guarded *all, char *memory, size_t len) {
    char *first = guarded_malloc(all, 100), *second = guarded_malloc(all, 100), *moved;
    int right = first && second && guarded_usable_size(all, first) >= 100;
    /* No payload begins at any other address of the memory or beside it. */
    for (char *at = memory - 64; at < memory + len + 64; at++)
        if (at != first && at != second) right &= !guarded_free(all, at) && !guarded_realloc(all, at, 5) && !guarded_usable_size(all, at);
    right &= !guarded_free(all, NULL) && !guarded_free(all, &right);
    moved = guarded_realloc(all, first, 5000);
    right &= moved && moved != first && !guarded_free(all, first);
    right &= guarded_free(all, moved) && !guarded_free(all, moved) && guarded_free(all, second) && !guarded_free(all, second);
    return right && rlsf_heap_stats(all->heap, memory + 1, all->pool).payloads == 0;
}

int main(void) {
    static rlsf_small_handle handle;
    static char memory[64 + 20000 + 64];
    static unsigned char bits[GUARDED_BITS(20000)];
    guarded all;
    if (!guarded_init(&all, &handle, RLSF_SMALL, memory + 65, 19998, bits) || !is_right(&all, memory + 64, 20000)) return 1;
    puts("guarded: each wrong pointer is refused");
    return 0;
}
