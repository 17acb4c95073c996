/* What malloc.c says of its memory: glibc's mallinfo2, mallinfo, malloc_info, malloc_stats, malloc_trim and mallopt. */
#ifndef RLSF_FIGURES_H
#define RLSF_FIGURES_H

#include "checks.h"
#include <malloc.h>

struct figures {
    size_t heaps;
    size_t left; /* the heaps without an owner */
    size_t segments;
    size_t held;         /* the bytes of segments */
    size_t used;         /* the bytes of blocks with payloads in them, but for cached ones */
    size_t empty;        /* the bytes of segments without a payload */
    size_t singles;      /* the payloads with a segment of their own */
    size_t single_bytes; /* the bytes of these segments */
};

/* Counts what all heaps have. Other threads allocate meanwhile. */
static struct figures count_all(void) {
    struct figures found = {0};
    size_t cached = 0;
    acquire();
    for (struct heap *heap = all; heap; heap = heap->next, found.heaps++) {
        cached += cached_bytes(heap->bins);
        for (struct segment *segment = heap->segments; segment; segment = segment->next, found.segments++) {
            size_t used = __atomic_load_n(&segment->used, __ATOMIC_RELAXED);
            found.held += segment->len;
            found.used += used;
            if (!used) found.empty += segment->len;
        }
    }
    found.used -= cached < found.used ? cached : found.used;
    for (struct heap *heap = left; heap; heap = heap->next_left) found.left++;
    release();
    found.singles = __atomic_load_n(&single_count, __ATOMIC_RELAXED);
    found.single_bytes = __atomic_load_n(&single_bytes, __ATOMIC_RELAXED);
    return found;
}

#if __GLIBC_PREREQ(2, 33)
struct mallinfo2 mallinfo2(void) {
    struct figures found = count_all();
    return (struct mallinfo2){.arena = found.held, .ordblks = found.segments, .hblks = found.singles, .hblkhd = found.single_bytes,
                              .uordblks = found.used, .fordblks = found.held - found.used, .keepcost = found.empty};
}
#endif

/* As mallinfo2, in numbers that can't count more than 2 GiB. */
struct mallinfo mallinfo(void) {
    struct figures found = count_all();
    return (struct mallinfo){.arena = (int)found.held, .ordblks = (int)found.segments, .hblks = (int)found.singles, .hblkhd = (int)found.single_bytes,
                             .uordblks = (int)found.used, .fordblks = (int)(found.held - found.used), .keepcost = (int)found.empty};
}

int malloc_info(int options, FILE *to) {
    struct figures found = count_all();
    if (options) return EINVAL;
    fprintf(to, "<malloc version=\"rlsf " RLSF_VERSION "\">\n<heaps count=\"%zu\" left=\"%zu\"/>\n", found.heaps, found.left);
    fprintf(to, "<segments count=\"%zu\" size=\"%zu\" used=\"%zu\" empty=\"%zu\"/>\n", found.segments, found.held, found.used, found.empty);
    fprintf(to, "<total type=\"mmap\" count=\"%zu\" size=\"%zu\"/>\n", found.singles, found.single_bytes);
    fprintf(to, "<system type=\"current\" size=\"%zu\"/>\n</malloc>\n", found.held + found.single_bytes);
    return 0;
}

void malloc_stats(void) {
    struct figures found = count_all();
    fprintf(stderr, "rlsf " RLSF_VERSION ": %zu heaps, %zu without a thread\n", found.heaps, found.left);
    fprintf(stderr, "segments     = %10zu\nsystem bytes = %10zu\nin use bytes = %10zu\n", found.segments, found.held, found.used);
    fprintf(stderr, "mmap regions = %10zu\nmmap bytes   = %10zu\n", found.singles, found.single_bytes);
}

/* No parameter can be changed. */
int mallopt(int parameter, int value) {
    (void)parameter, (void)value;
    return 0;
}

/* Whether the system has memory for one of the complete pages between two addresses. */
static int is_resident(const char *start, const char *end) {
    unsigned char resident[1024];
    size_t at = whole_pages((size_t)start), last = (size_t)end & ~(page() - 1);
    while (at < last) {
        size_t count = (last - at) / page();
        if (count > sizeof resident) count = sizeof resident;
        if (!mincore((void *)at, count * page(), resident))
            for (size_t n = 0; n < count; n++)
                if (resident[n] & 1) return 1;
        at += count * page();
    }
    return 0;
}

/* Returns the pages of a heap's free blocks to the system. Each block becomes a payload for so long, the long ones first: so no byte is touched
 * that is the heap's. Returns whether the system had memory for one of them. */
static int drop_free_pages(struct heap *heap) {
    struct returned *blocks = NULL, *block;
    int dropped = 0;
    for (size_t size = SEGMENT_MOST; size >= page(); size -= size / 16)
        while ((block = rlsf_malloc(&heap->handle.heap, size))) {
            const char *start = (char *)(block + 1), *end = (char *)block + usable(block);
            dropped |= is_resident(start, end);
            drop_pages(start, end);
            block->next = blocks;
            blocks = block;
        }
    while ((block = blocks)) {
        blocks = block->next;
        rlsf_free(&heap->handle.heap, block);
    }
    return dropped;
}

static int trim_heap(struct heap *heap) {
    int trimmed;
    free_all(heap);
    trimmed = heap->empty && !heap->empty->used && unmap_segment(heap, heap->empty);
    return drop_free_pages(heap) | trimmed;
}

/* As glibc's: returns memory without payloads to the system, of this thread's heap and of those without a thread. Returns whether there was some. */
int malloc_trim(size_t unused) {
    int trimmed = 0;
    (void)unused;
    if (mine) trimmed |= trim_heap(mine);
    if (is_checked()) {
        enter_checks();
        trimmed |= trim_heap(checked);
        pthread_mutex_unlock(&checks_lock);
    }
    acquire();
    for (struct heap *heap = forks ? NULL : left; heap; heap = heap->next_left) trimmed |= trim_heap(heap);
    release();
    return trimmed;
}

#endif
