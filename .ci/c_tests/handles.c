/* rlsf_heap_check of a handle that was overwritten: it finds each flipped bit of the lists' beginnings and of their bitmaps, but those that no call
 * reads. A flipped link leads it to no address outside of the pools: most can't be read. */
#include "rlsf.h"
#include "want.h"

static _Alignas(64) unsigned char memory[1 << 16];
static rlsf_large_handle handle;
static rlsf_range pools[1];

/* Before the bitmaps: the kind, three words on the memory, the number of payloads, and whether bytes are lent. */
enum { BEFORE = 6 * 8 };

/* The number of bits of which rlsf_heap_check doesn't say that they are flipped. */
static size_t unseen_flips(rlsf_heap *heap, size_t kind) {
    size_t unseen = 0, n, bit;
    for (n = BEFORE; n < rlsf_heap_size(kind); n++)
        for (bit = 0; bit < 8; bit++) {
            handle.bytes[n] ^= (unsigned char)(1 << bit);
            unseen += (size_t)rlsf_heap_check(heap, pools, 1);
            handle.bytes[n] ^= (unsigned char)(1 << bit);
        }
    return unseen;
}

static void with_kind(size_t kind, size_t unseen) {
    rlsf_heap *heap = rlsf_heap_init(&handle, kind, memory, sizeof memory);
    void *payloads[50];
    pools[0] = (rlsf_range){(size_t)memory, sizeof memory};
    for (size_t n = 0; n < 50; n++) payloads[n] = rlsf_malloc(heap, 10 + n * 20);
    for (size_t n = 0; n < 50; n += 2) rlsf_free(heap, payloads[n]);
    WANT(rlsf_heap_check(heap, pools, 1), 1);
    WANT(unseen_flips(heap, kind), unseen);
    WANT(rlsf_heap_check(heap, pools, 1), 1);
    for (size_t n = 1; n < 50; n += 2) rlsf_free(heap, payloads[n]);
    rlsf_heap_end(heap);
}

int main(void) {
    /* A bitmap has 128 bits. A small heap has one for its 12 rows and one for the 16 classes of each; a large one has 64 of each. */
    with_kind(RLSF_SMALL, (128 - 12) + 12 * (128 - 16));
    with_kind(RLSF_LARGE, (128 - 64) + 64 * (128 - 64));
    return 0;
}
