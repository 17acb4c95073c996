/* Lists and checks of the blocks of a heap: they agree with the payloads that the program holds, in each of several pools. A check finds
 * words that were overwritten. */
#include "rlsf.h"
#include <stdio.h>
#include <stdlib.h>
#include <string.h>

enum { PAYLOADS = 200, POOLS = 3, LEN = 1 << 16, MOST = 400 };
_Static_assert(sizeof(rlsf_small_handle) == RLSF_SMALL_HEAP_SIZE && sizeof(rlsf_large_handle) == RLSF_LARGE_HEAP_SIZE, "sizes of handles");

static _Alignas(64) unsigned char memory[POOLS * LEN];
static rlsf_large_handle handle;
static rlsf_range pools[POOLS];
static int failures;

static void want(const char *what, size_t got, size_t wanted) {
    if (got != wanted) {
        printf("%s: %zu, wanted %zu\n", what, got, wanted);
        failures++;
    }
}
#define WANT(call, wanted) want(#call, (size_t)(call), (size_t)(wanted))

static unsigned char *pool(size_t i) { return memory + i * LEN; }

/* A heap with pools that don't touch each other. */
static rlsf_heap *with_pools(size_t kind) {
    rlsf_heap *heap = rlsf_heap_begin(&handle, kind);
    for (size_t i = 0; i < POOLS; i++) WANT(rlsf_heap_try_add(heap, pools, i, pool(i), LEN - 64), RLSF_ADD_OK);
    return heap;
}

/* The blocks of all pools in arrays of `most`: each payload has one used block, and no other block is used. */
static void lists(rlsf_heap *heap, void **live, size_t most) {
    static rlsf_span spans[MOST + 1];
    size_t found = 0, held = 0;
    for (size_t i = 0; i < PAYLOADS; i++) held += live[i] != NULL;
    for (size_t i = 0; i < POOLS; i++) {
        size_t at = (size_t)pool(i), got, before = found, used = 0, unused = 0;
        do {
            memset(spans, 7, sizeof spans);
            got = rlsf_heap_walk(heap, pool(i), pools[i].len, (void *)at, spans, most);
            WANT(spans[got].start, 0x0707070707070707u);
            for (size_t j = 0; j < got; j++) {
                WANT(spans[j].start >= at && spans[j].start + spans[j].len <= (size_t)pool(i) + pools[i].len, 1);
                at = spans[j].start + spans[j].len;
                *(spans[j].used ? &used : &unused) += spans[j].len;
                size_t payloads = 0;
                for (size_t k = 0; k < PAYLOADS; k++) payloads += live[k] && (size_t)live[k] >= spans[j].start && (size_t)live[k] < at;
                WANT(spans[j].used, payloads);
                found += payloads;
            }
        } while (got == most);
        rlsf_totals totals = rlsf_heap_stats(heap, pool(i), pools[i].len);
        WANT(totals.payloads, found - before);
        WANT(totals.used, used);
        WANT(totals.free, unused);
    }
    WANT(rlsf_heap_check(heap, pools, POOLS), 1);
    WANT(found, held);
}

/* Each wrong word in a header of a pool is found, and the heap is right again once the word is written back. */
static void overruns(rlsf_heap *heap, size_t i) {
    static rlsf_span spans[MOST];
    size_t count = rlsf_heap_walk(heap, pool(i), pools[i].len, NULL, spans, MOST), words = 0;
    WANT(rlsf_heap_check(heap, pools, POOLS), 1);
    for (size_t n = 0; n < count; n++) {
        size_t *word = (size_t *)spans[n].start;
        for (size_t j = 0; j < (spans[n].used ? 2 : 4); j++, words++) {
            size_t right = word[j];
            word[j] = right ^ 0x4545454545454545u;
            WANT(rlsf_heap_check(heap, pools, POOLS), 0);
            word[j] = right ? right + 32 : (size_t)memory + 64;
            WANT(rlsf_heap_check(heap, pools, POOLS), 0);
            word[j] = right;
            WANT(rlsf_heap_check(heap, pools, POOLS), 1);
        }
    }
    WANT(words > 20, 1);
}

static void run(size_t kind) {
    rlsf_heap *heap = with_pools(kind);
    static void *live[PAYLOADS];
    srand(1);
    for (size_t i = 0; i < PAYLOADS; i++) live[i] = rlsf_aligned_alloc(heap, (size_t)16 << (i % 4), (size_t)rand() % 1500);
    for (size_t i = 0; i < PAYLOADS; i += 3) {
        rlsf_free(heap, live[i]);
        live[i] = NULL;
    }
    lists(heap, live, MOST);
    lists(heap, live, 7);
    lists(heap, live, 1);
    rlsf_span none[1];
    WANT(rlsf_heap_walk(heap, pool(0), pools[0].len, NULL, none, 0), 0);
    for (size_t i = 0; i < POOLS; i++) overruns(heap, i);
    rlsf_heap_end(heap);
}

int main(void) {
    WANT(rlsf_small_size() + sizeof(rlsf_heap), RLSF_SMALL_HEAP_SIZE);
    WANT(rlsf_large_size() + sizeof(rlsf_heap), RLSF_LARGE_HEAP_SIZE);
    run(RLSF_SMALL);
    run(RLSF_LARGE);
    if (failures) return 1;
    puts("walks: the lists and checks agree with the payloads");
    return 0;
}
