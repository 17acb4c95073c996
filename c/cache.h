/* The small payloads that a thread freed last. The next one that it allocates for a block of the same length is one of these, without a call on
 * the heap: so both take a few instructions. To the heap they are live.
 *
 * So a heap needs at most as much memory as if CACHED_EACH more payloads of each such length were live: 77 KiB in 272 blocks. All of them are freed
 * when the system has no memory, when the thread ends, and by malloc_trim. */
#ifndef RLSF_CACHE_H
#define RLSF_CACHE_H

#include "segments.h"

#define CACHED_SIZE ((size_t)528) /* the greatest size of these payloads: their blocks have up to 544 bytes */
#define CACHED_EACH 16
#define CACHED_LENGTHS ((CACHED_SIZE + 47) / 32 + 1)

struct cached {
    struct cached *next;
};

/* Those with blocks of one length, a multiple of 32. Other threads read `count`. */
struct bin {
    struct cached *first;
    size_t count;
};

static inline void set_count(struct bin *bin, size_t count) { __atomic_store_n(&bin->count, count, __ATOMIC_RELAXED); }

/* Returns the payload that was freed last, or NULL. */
static inline void *take_first(struct bin *bin) {
    struct cached *payload = bin->first;
    if (!payload) return NULL;
    bin->first = payload->next;
    set_count(bin, bin->count - 1);
    return payload;
}

/* Returns one with room for `size` bytes, at most CACHED_SIZE, or NULL. A block has 16 bytes more, rounded up. */
static inline void *take_cached(struct bin *bins, size_t size) { return take_first(&bins[(size + 47) / 32]); }

/* Keeps a payload that is freed. Returns 0 if it isn't small, has an alignment above 16, or there are enough of its length. */
static inline int keep_cached(struct bin *bins, void *payload) {
    size_t length = ((size_t *)payload)[-2] / 32;
    struct cached *kept = payload;
    struct bin *bin;
    if ((size_t)payload % 32 == 0 || length >= CACHED_LENGTHS) return 0;
    bin = &bins[length];
    if (bin->count == CACHED_EACH) return 0;
    kept->next = bin->first;
    bin->first = kept;
    set_count(bin, bin->count + 1);
    return 1;
}

/* The bytes of their blocks. */
static size_t cached_bytes(const struct bin *bins) {
    size_t bytes = 0;
    for (size_t n = 0; n < CACHED_LENGTHS; n++) bytes += 32 * n * __atomic_load_n(&bins[n].count, __ATOMIC_RELAXED);
    return bytes;
}

#endif
