/* rlsf_heap_add takes exactly the bytes that make a pool, wherever they lie. rlsf_heap_try_add refuses a range outside of the addresses of a heap
 * and one that overlaps a pool, by name, and nothing else. */
#include "rlsf.h"
#include "want.h"
#include <string.h>

enum { LEN = 1 << 16 };
static _Alignas(64) unsigned char memory[4 * LEN];
static rlsf_large_handle handle;

/* A refused add leaves the pools, the record behind them and the bytes as they are. */
static void refuses(rlsf_heap *heap, rlsf_range *pools, size_t count, void *start, size_t len, rlsf_add_error error) {
    static unsigned char before[sizeof memory];
    static rlsf_large_handle was;
    rlsf_range record = pools[count];
    memcpy(before, memory, sizeof memory);
    was = handle;
    WANT(rlsf_heap_try_add(heap, pools, count, start, len), error);
    WANT(memcmp(before, memory, sizeof memory) || memcmp(&was, &handle, sizeof handle), 0);
    WANT(pools[count].start == record.start && pools[count].len == record.len, 1);
}

/* Of several errors the first is returned. */
static void errors(size_t kind) {
    rlsf_range pools[4] = {{0, 0}, {1, 2}, {3, 4}, {5, 7}};
    const size_t past = (size_t)1 << 58;
    rlsf_heap *heap = rlsf_heap_begin(&handle, kind);
    refuses(heap, pools, 0, (void *)16, 64, RLSF_ADD_OUTSIDE);
    refuses(heap, pools, 0, (void *)31, 0, RLSF_ADD_OUTSIDE);
    refuses(heap, pools, 0, (void *)32, 63, RLSF_ADD_TOO_SHORT);
    refuses(heap, pools, 0, (void *)(past - 64), 65, RLSF_ADD_OUTSIDE);
    refuses(heap, pools, 0, (void *)(past - 63), 63, RLSF_ADD_TOO_SHORT);
    refuses(heap, pools, 0, (void *)past, 0, RLSF_ADD_TOO_SHORT);
    refuses(heap, pools, 0, (void *)past, 1, RLSF_ADD_OUTSIDE);
    refuses(heap, pools, 0, (void *)(past + 1), 0, RLSF_ADD_OUTSIDE);
    refuses(heap, pools, 0, memory, (size_t)0 - 64, RLSF_ADD_OUTSIDE);
    WANT(rlsf_malloc(heap, 1) == NULL, 1);
    for (size_t n = 0; n < 3; n++) {
        WANT(rlsf_heap_try_add(heap, pools, n, memory + (2 - n) * LEN, 4096), RLSF_ADD_OK);
        WANT(pools[n].start == (size_t)(memory + (2 - n) * LEN) && pools[n].len == 4096, 1);
    }
    for (size_t n = 0; n < 3; n++) {
        unsigned char *pool = memory + n * LEN;
        refuses(heap, pools, 3, pool, 4096, RLSF_ADD_OVERLAPS);
        refuses(heap, pools, 3, pool, 1, RLSF_ADD_OVERLAPS);
        refuses(heap, pools, 3, pool + 4095, 1, RLSF_ADD_OVERLAPS);
        refuses(heap, pools, 3, pool + 4095, LEN - 4000, RLSF_ADD_OVERLAPS);
        refuses(heap, pools, 3, pool + 4096, 63, RLSF_ADD_TOO_SHORT);
        refuses(heap, pools, 3, pool + 5000, 0, RLSF_ADD_TOO_SHORT);
    }
    refuses(heap, pools, 3, memory + LEN - 64, 65, RLSF_ADD_OVERLAPS);
    refuses(heap, pools, 3, memory, sizeof memory, RLSF_ADD_OVERLAPS);
    refuses(heap, pools, 3, (void *)32, past - 32, RLSF_ADD_OVERLAPS);
    refuses(heap, pools, 3, (void *)32, past - 31, RLSF_ADD_OUTSIDE);
    WANT(rlsf_heap_try_add(heap, pools, 3, memory + LEN - 64, 64), RLSF_ADD_OK);
    WANT(rlsf_heap_check(heap, pools, 4), 1);
    rlsf_heap_end(heap);
}

/* Ranges of each length, at each start modulo 32: a pool reaches from the first multiple of 32 to the last one, if these are 64 bytes apart. Its
 * length counts from the start of the range. No byte before or behind it changes, and the next pool may begin at its end. */
static void at_each_start(size_t kind) {
    rlsf_range pools[2] = {{0, 0}, {0, 0}};
    rlsf_heap *heap = rlsf_heap_begin(&handle, kind);
    for (size_t from = 0; from < 32; from++)
        for (size_t len = 0; len < 160; len++) {
            size_t start = (from + 31) / 32 * 32, end = (from + len) / 32 * 32, taken = end >= start + 64 ? end - from : 0;
            unsigned char *range = memory + 4096 + from, *payload;
            memset(memory, 0xa5, 8192);
            pools[0].len = 7;
            WANT(rlsf_heap_try_add(heap, pools, 0, range, len), taken ? RLSF_ADD_OK : RLSF_ADD_TOO_SHORT);
            WANT(pools[0].len, taken ? taken : 7);
            payload = rlsf_malloc(heap, 16);
            WANT(payload != NULL, taken != 0);
            if (payload) memset(payload, 1, rlsf_usable_size(heap, payload));
            for (unsigned char *byte = memory; byte < memory + 8192; byte++)
                if (byte < memory + 4096 + start || byte >= range + (taken ? taken - 16 : 0)) WANT(*byte, 0xa5);
            if (!taken) continue;
            WANT(rlsf_heap_remove(heap, range, taken), 0);
            rlsf_free(heap, payload);
            WANT(rlsf_heap_stats(heap, range, taken).free, end - start - 32);
            WANT(rlsf_heap_try_add(heap, pools, 1, range + taken, 64), RLSF_ADD_OK);
            WANT(rlsf_heap_remove(heap, range, taken), 1);
            WANT(rlsf_heap_remove(heap, range + taken, 64), 1);
            WANT(rlsf_heap_add(heap, range, len), taken);
            WANT(rlsf_heap_remove(heap, range, taken), 1);
        }
    WANT(rlsf_malloc(heap, 0) == NULL, 1);
    rlsf_heap_end(heap);
}

/* An appended range is taken but for what is past a multiple of 32; in a small heap it becomes chunks of its own. */
static void appends(size_t kind) {
    static const size_t lens[] = {0, 31, 32, 63, 64, 95, 4096, 4127, 4128};
    for (size_t n = 0; n < sizeof lens / sizeof *lens; n++) {
        size_t taken = lens[n] / 32 * 32;
        rlsf_heap *heap = rlsf_heap_begin(&handle, kind);
        if (kind == RLSF_SMALL && taken < 64) taken = 0;
        memset(memory, 0xa5, 16384);
        WANT(rlsf_heap_add(heap, memory + 5, 4091), 4091);
        WANT(rlsf_heap_append(heap, memory + 4096, lens[n]), taken);
        rlsf_totals totals = rlsf_heap_stats(heap, memory + 5, 4091 + taken);
        WANT(totals.free, 4096 - 64 + taken - (kind == RLSF_SMALL && taken ? 32 : 0));
        WANT(totals.longest, kind == RLSF_LARGE || taken < 4096 ? 4096 - 64 + (kind == RLSF_LARGE ? taken : 0) : taken - 32);
        WANT(rlsf_malloc(heap, 7500) != NULL, kind == RLSF_LARGE && taken >= 4096);
        for (size_t k = 4096 + taken; k < 16384; k++) WANT(memory[k], 0xa5);
        WANT(rlsf_heap_remove(heap, memory + 5, 4091 + taken), kind == RLSF_SMALL || taken < 4096);
        rlsf_heap_end(heap);
    }
}

/* A heap of few bytes has room from 64 on. There are two kinds: with another number the handle is unchanged. */
static void of_few_bytes(size_t kind) {
    static rlsf_large_handle before;
    for (size_t len = 0; len < 80; len++) WANT(rlsf_malloc(rlsf_heap_init(&handle, kind, memory, len), 16) != NULL, len >= 64);
    memset(&before, 0xa5, sizeof before);
    handle = before;
    WANT(rlsf_heap_size(3 * kind) == 0 && !rlsf_heap_init(&handle, 3 * kind, memory, LEN) && !rlsf_heap_begin(&handle, 3 * kind), 1);
    WANT(memcmp(&handle, &before, sizeof handle), 0);
}

/* A pool of the length for a payload serves it once. A shorter one doesn't: a class begins each 32, 64 or 4,096 bytes there. */
static void lengths(size_t kind) {
    static const size_t sizes[] = {0, 1, 17, 100, 1000, 1100, 65536, 126960}, aligns[] = {1, 8, 32, 16, 64, 16, 4096, 1};
    static const size_t small[] = {64, 64, 96, 160, 1120, 1184, 69664, 127008}, large[] = {64, 64, 96, 160, 1120, 1152, 69664, 127008};
    const size_t *lens = kind == RLSF_SMALL ? small : large;
    for (size_t n = 0; n < sizeof sizes / sizeof *sizes; n++) {
        WANT(rlsf_heap_pool_size(kind, sizes[n], aligns[n]), lens[n]);
        WANT(rlsf_aligned_alloc(rlsf_heap_init(&handle, kind, memory, lens[n] - 32), aligns[n], sizes[n]) == NULL, 1);
        WANT(rlsf_aligned_alloc(rlsf_heap_init(&handle, kind, memory, lens[n]), aligns[n], sizes[n]) != NULL, 1);
    }
    WANT(rlsf_heap_pool_size(kind, 126961, 1), kind == RLSF_SMALL ? 0 : 128032);
    WANT(rlsf_heap_pool_size(kind, 100, 0) + rlsf_heap_pool_size(kind, 100, 24) + rlsf_heap_pool_size(3 * kind, 100, 16), 0);
    WANT(rlsf_heap_pool_size(kind, (size_t)-1, 16) + rlsf_heap_pool_size(kind, (size_t)-1 / 2, 16), 0);
}

/* A pool for a budget of 10 payloads with 2,048 bytes together, of up to 700 bytes each. A class begins at their block of 736 bytes, so each of
 * 11 free ranges has up to 704, and the rest of the sum is 32 bytes twice. It refuses none, in any order: 20,000 calls keep to it. */
static void for_budgets(size_t kind) {
    static void *payloads[11];
    static size_t blocks[11];
    size_t len = rlsf_heap_pool_size_for_budget(kind, 10, 2048, 700, 16), count = 0, bytes = 0;
    unsigned seed = 1;
    WANT(len, 32 + 2048 + 11 * 704 + 32);
    rlsf_heap *heap = rlsf_heap_init(&handle, kind, memory, len);
    for (size_t n = 0; n < 20000; n++) {
        seed = seed * 1103515245 + 12345;
        size_t i = seed / 65536 % 11, size = seed / 64 % (n % 2 ? 60 : 701);
        if (payloads[i]) {
            rlsf_free(heap, payloads[i]);
            payloads[i] = NULL;
            count--;
            bytes -= blocks[i];
        } else if (count <= 10 && bytes <= 2048) {
            payloads[i] = rlsf_malloc(heap, size);
            WANT(payloads[i] != NULL, 1);
            blocks[i] = (size + 16 + 31) / 32 * 32;
            count++;
            bytes += blocks[i];
        }
    }
    for (size_t i = 0; i < 11; i++) {
        rlsf_free(heap, payloads[i]);
        payloads[i] = NULL;
    }
    WANT(rlsf_heap_pool_size_for_budget(kind, 0, 0, 16, 16), 64);
    WANT(rlsf_heap_pool_size_for_budget(kind, 10, 131072, 700, 16), kind == RLSF_SMALL ? 0 : 138880);
    WANT(rlsf_heap_pool_size_for_budget(kind, (size_t)-1, 0, 700, 16) + rlsf_heap_pool_size_for_budget(kind, 0, (size_t)-1, 700, 16), 0);
    WANT(rlsf_heap_pool_size_for_budget(kind, 10, 2048, 700, 24) + rlsf_heap_pool_size_for_budget(3 * kind, 10, 2048, 700, 16), 0);
}

int main(void) {
    static void (*const tests[])(size_t) = {errors, at_each_start, appends, of_few_bytes, lengths, for_budgets};
    for (size_t n = 0; n < sizeof tests / sizeof *tests; n++) {
        tests[n](RLSF_SMALL);
        tests[n](RLSF_LARGE);
    }
    return 0;
}
