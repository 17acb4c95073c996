/* rlsf_heap_remove removes a pool exactly if no payload is live in it. Its bytes are the program's then, which may unmap them, and can be lent again,
 * there or elsewhere. */
#define _GNU_SOURCE
#include "rlsf.h"
#include "want.h"
#include <string.h>
#include <sys/mman.h>

enum { LEN = 1 << 15, MOST = 200 };
static _Alignas(64) unsigned char memory[3 * LEN];
static rlsf_large_handle handle;

/* A mapping with room that can't be read before and behind it. */
static unsigned char *map(void) {
    unsigned char *all = mmap(NULL, 3 * LEN, PROT_NONE, MAP_PRIVATE | MAP_ANONYMOUS, -1, 0);
    WANT(all != MAP_FAILED, 1);
    WANT(mprotect(all + LEN, LEN, PROT_READ | PROT_WRITE), 0);
    return all + LEN;
}
static void unmap(unsigned char *range) { WANT(munmap(range - LEN, 3 * LEN), 0); }

/* Fills the heap with payloads of all lengths, each in one of some ranges, and frees them. Returns how many bytes they had together. */
static size_t fill(rlsf_heap *heap, unsigned char **ranges, size_t count) {
    static unsigned char *payloads[MOST];
    static size_t lens[MOST];
    size_t live = 0, all = 0;
    for (size_t size = 4000; size >= 16; size = size * 3 / 4)
        while (live < MOST && (payloads[live] = rlsf_malloc(heap, size))) {
            size_t n = 0;
            lens[live] = rlsf_usable_size(heap, payloads[live]);
            while (n < count && (payloads[live] < ranges[n] || payloads[live] + lens[live] > ranges[n] + LEN)) n++;
            WANT(n < count, 1);
            memset(payloads[live], (int)live, lens[live]);
            all += lens[live++];
        }
    for (size_t n = 0; n < live; n++) {
        for (size_t k = 0; k < lens[n]; k++) WANT(payloads[n][k], (unsigned char)n);
        rlsf_free(heap, payloads[n]);
    }
    return all;
}

/* Pools that lie apart: a static array and two mappings. Each is removed and unmapped, and lent again at another place. */
static void apart(size_t kind) {
    unsigned char *ranges[3] = {memory + LEN, map(), map()};
    rlsf_range pools[3];
    static rlsf_large_handle moved;
    rlsf_heap *heap = rlsf_heap_begin(&handle, kind);
    for (size_t n = 0; n < 3; n++) WANT(rlsf_heap_try_add(heap, pools, n, ranges[n], LEN), RLSF_ADD_OK);
    for (size_t round = 0; round < 6; round++) {
        size_t n = round % 3;
        unsigned char *old = ranges[n], *payload;
        WANT(fill(heap, ranges, 3) > 2 * LEN, 1);
        WANT(rlsf_heap_check(heap, pools, 3), 1);
        /* The handle may be copied to another place. */
        memcpy(round % 2 ? &handle : &moved, heap, sizeof handle);
        heap = round % 2 ? &handle.heap : &moved.heap;
        payload = rlsf_aligned_alloc(heap, 64, 20000);
        for (size_t k = 0; k < 3; k++)
            if (payload >= ranges[k] && payload < ranges[k] + LEN) WANT(rlsf_heap_remove(heap, ranges[k], LEN), 0);
        rlsf_free(heap, payload);
        WANT(rlsf_heap_remove(heap, old, LEN), 1);
        if (n) unmap(old);
        else memset(old, 0xee, LEN);
        ranges[n] = ranges[(n + 1) % 3];
        WANT(fill(heap, ranges, 3) > LEN, 1);
        ranges[n] = n ? map() : round ? memory + LEN : memory; /* below the others */
        WANT(rlsf_heap_add(heap, ranges[n], LEN), LEN);
        pools[n] = (rlsf_range){(size_t)ranges[n], LEN};
    }
    for (size_t n = 0; n < 2; n++) WANT(rlsf_heap_remove(heap, ranges[n], LEN), 1);
    WANT(rlsf_malloc(heap, LEN / 2) >= (void *)ranges[2], 1);
    unmap(ranges[1]);
    unmap(ranges[2]);
}

/* Pools side by side: each may be removed and added again, in each order; also several of them at once. */
static void adjacent(size_t kind) {
    static const size_t orders[6][3] = {{0, 1, 2}, {0, 2, 1}, {1, 0, 2}, {1, 2, 0}, {2, 0, 1}, {2, 1, 0}};
    rlsf_heap *heap = rlsf_heap_begin(&handle, kind);
    for (size_t n = 0; n < 3; n++) WANT(rlsf_heap_add(heap, memory + n * LEN, LEN), LEN);
    for (size_t order = 0; order < 6; order++)
        for (size_t removed = 1; removed <= 3; removed++) {
            rlsf_range pools[4];
            size_t count = 0;
            for (size_t n = 0; n < 3; n++) {
                size_t place = orders[order][n];
                if (n < removed) WANT(rlsf_heap_remove(heap, memory + place * LEN, LEN), 1);
                else pools[count++] = (rlsf_range){(size_t)(memory + place * LEN), LEN};
            }
            WANT(rlsf_heap_check(heap, pools, count), 1);
            for (size_t n = 0; n < removed; n++) {
                unsigned char *pool = memory + orders[order][n] * LEN;
                memset(pool, 0xee, LEN);
                if (count) WANT(rlsf_heap_try_add(heap, pools, count, memory, sizeof memory), RLSF_ADD_OVERLAPS);
                WANT(rlsf_heap_try_add(heap, pools, count++, pool, LEN), RLSF_ADD_OK);
            }
            for (size_t n = 0; n < 3; n++) WANT(rlsf_heap_stats(heap, memory + n * LEN, LEN).free, LEN - 32);
            WANT(rlsf_heap_stats(heap, memory, 3 * LEN).free, 3 * (LEN - 32));
        }
    WANT(rlsf_heap_remove(heap, memory, 2 * LEN), 1);
    WANT(rlsf_heap_add(heap, memory, 2 * LEN), 2 * LEN);
    WANT(rlsf_heap_remove(heap, memory, 3 * LEN), 1);
    WANT(rlsf_malloc(heap, 1) == NULL, 1);
    rlsf_heap_end(heap);
}

/* A pool in which a payload is live stays. */
static void in_use(size_t kind) {
    void *payloads[3];
    rlsf_heap *heap = rlsf_heap_begin(&handle, kind);
    for (size_t n = 0; n < 3; n++) {
        WANT(rlsf_heap_add(heap, memory + n * LEN, LEN), LEN);
        payloads[n] = rlsf_malloc(heap, 30000);
        WANT((unsigned char *)payloads[n] - memory - n * LEN < LEN, 1);
    }
    rlsf_free(heap, payloads[1]);
    for (size_t n = 0; n < 3; n += 2) WANT(rlsf_heap_remove(heap, memory + n * LEN, LEN), 0);
    WANT(rlsf_heap_remove(heap, memory, 3 * LEN), 0);
    WANT(rlsf_heap_stats(heap, memory, 3 * LEN).payloads, 2);
    WANT(rlsf_heap_remove(heap, memory + LEN, LEN), 1);
    memset(memory + LEN, 0xee, LEN);
    WANT(rlsf_malloc(heap, 30000) == NULL, 1);
    WANT(rlsf_heap_add(heap, memory + LEN, LEN), LEN);
    WANT(rlsf_malloc(heap, 30000) == payloads[1], 1);
    for (size_t n = 0; n < 3; n++) rlsf_free(heap, payloads[n]);
    rlsf_heap_end(heap);
}

/* An ended heap has given both of its pools back, whole, and not the one that was removed before. */
static void ended(size_t kind) {
    unsigned char *ranges[3] = {memory, map(), map()};
    rlsf_heap *heap = rlsf_heap_begin(&handle, kind);
    for (size_t n = 0; n < 3; n++) WANT(rlsf_heap_add(heap, ranges[n], LEN), LEN);
    WANT(rlsf_heap_remove(heap, ranges[1], LEN), 1);
    unmap(ranges[1]);
    rlsf_heap_end(heap);
    memset(&handle, 0x5a, sizeof handle);
    memset(ranges[0], 1, LEN);
    memset(ranges[2], 2, LEN);
    heap = rlsf_heap_init(&handle, kind, ranges[2], LEN);
    WANT(rlsf_heap_stats(heap, ranges[2], LEN).free, LEN - 32);
    unmap(ranges[2]);
}

int main(void) {
    static void (*const tests[])(size_t) = {apart, adjacent, in_use, ended};
    for (size_t n = 0; n < sizeof tests / sizeof *tests; n++) {
        tests[n](RLSF_SMALL);
        tests[n](RLSF_LARGE);
    }
    return 0;
}
