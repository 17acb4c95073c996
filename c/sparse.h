/* Segments in which few payloads live. Each long free block of such a segment is set aside: it becomes a payload of this library, whose pages are
 * returned to the system. So no byte is touched that is the heap's, and what is allocated next lies where other payloads do. The blocks are put
 * back when the heap would refuse a payload, or the segment has none. Set aside bytes count as free.
 *
 * It happens when a segment's used bytes fall to SPARSE, and again at each half of what they were. It begins anew when they have been above
 * FILLED, but in each second at most once: a program whose memory goes up and down doesn't pay for it at each turn.
 *
 * The bound on its work in one call of free: at most LOOKED_AT blocks are allocated, and at most 512 of them lie in the segment. */
#ifndef RLSF_SPARSE_H
#define RLSF_SPARSE_H

#include "segments.h"

#define SPARSE ((size_t)64 << 10)
#define FILLED ((size_t)128 << 10)
#define LONG ((size_t)64 << 10) /* the pages of shorter free blocks stay */
#define LOOKED_AT 1000

/* A payload of this library: the next one of its list. */
struct aside {
    struct aside *next;
};

/* Returns the complete pages between two addresses to the system. When they are read again, they are zeros. */
static void drop_pages(const char *start, const char *end) {
    size_t first = whole_pages((size_t)start), last = (size_t)end & ~(page() - 1);
    if (first < last) madvise((void *)first, last - first, MADV_DONTNEED);
}

/* Allocates all of a free block of `len` bytes or more. Returns NULL if there is none. The payload gets the least block first, and then what is
 * left behind it: the size word of a free block is its length (docs/TLSF.md). */
static struct aside *allocate_block(rlsf_heap *heap, size_t len) {
    struct aside *payload = rlsf_malloc(heap, len - 16);
    const size_t *rest;
    if (!payload) return NULL;
    len = block_len(payload);
    rest = block_of(payload) + len / sizeof *rest;
    if (!(*rest & 1)) rlsf_realloc_in_place(heap, payload, len + *rest - 16);
    return payload;
}

/* Frees a list of payloads. Returns whether there was one. */
static int put_back(rlsf_heap *heap, struct aside **list) {
    struct aside *payload;
    int found = *list != NULL;
    while ((payload = *list)) {
        *list = payload->next;
        rlsf_free(heap, payload);
    }
    return found;
}

/* Sets aside the long free blocks of a segment. The heap allocates those of any segment, the longest first: the others are free again at the end. */
static void set_aside(rlsf_heap *heap, struct segment *segment) {
    struct aside *others = NULL, *payload;
    size_t count = 0;
    for (size_t len = SEGMENT_MOST; len >= LONG; len /= 2)
        while (count++ < LOOKED_AT && (payload = allocate_block(heap, len))) {
            struct aside **list = segment_of(payload) == segment ? &segment->aside : &others;
            payload->next = *list;
            *list = payload;
            if (list != &others) drop_pages((char *)(payload + 1), (char *)payload + usable(payload));
        }
    put_back(heap, &others);
}

/* A segment has so many used bytes that it counts as filled again. */
static __attribute__((noinline)) void become_filled(struct segment *segment) {
    segment->low = SPARSE;
    segment->high = SIZE_MAX;
}

/* Whether this is the first time in this second. */
static int is_new_second(struct segment *segment) {
    struct timespec now;
    time_t before = segment->dropped;
    clock_gettime(CLOCK_MONOTONIC_COARSE, &now);
    segment->dropped = now.tv_sec;
    return now.tv_sec != before;
}

/* A segment's used bytes have fallen to `low`, and some are left. Blocks that were set aside before are joined with what was freed since. */
static void become_sparse(rlsf_heap *heap, struct segment *segment) {
    int error = errno;
    if (segment->low == SPARSE && !is_new_second(segment)) return;
    put_back(heap, &segment->aside);
    set_aside(heap, segment);
    segment->low = segment->used / 2;
    segment->high = FILLED;
    errno = error;
}

#endif
