/* Memory that malloc.c gets from the system. A segment begins at a multiple of SEGMENT_ALIGN, so one mask finds the segment of a payload.
 * Its first bytes name the heap that owns it. A segment without an owner holds a single large payload. */
#ifndef RLSF_SEGMENTS_H
#define RLSF_SEGMENTS_H

#include "rlsf.h"
#include <errno.h>
#include <stdint.h>
#include <sys/mman.h>
#include <time.h>
#include <unistd.h>

#define SEGMENT_ALIGN ((size_t)64 << 20)
#define SEGMENT_LEAST ((size_t)512 << 10) /* the lengths of segments of a heap */
#define SEGMENT_MOST ((size_t)32 << 20)
#define PLACES ((size_t)1 << 44) /* how many bytes of addresses are tried before the first ones are tried again */

struct heap;
struct aside;

struct segment {
    struct heap *owner;
    size_t len;             /* of the mapping, from the segment's first byte on */
    size_t lent;            /* the bytes behind this struct that the heap has */
    struct segment *next;   /* of the same heap */
    struct segment *before; /* NULL: it is the first */
    _Alignas(64) size_t used; /* the bytes of blocks that hold payloads: only the owner writes it */
    size_t low;             /* sparse.h says what is done when `used` falls to this, */
    size_t high;            /* or rises above this */
    time_t dropped;         /* the second in which pages of a filled segment were dropped */
    struct aside *aside;    /* the payloads that sparse.h keeps */
};

/* The single payloads of all threads, and the bytes of their segments. */
static size_t single_count, single_bytes;

static size_t page(void) { return (size_t)sysconf(_SC_PAGESIZE); }

/* Rounds up to whole pages. Returns 0 if that is no size_t. */
static size_t whole_pages(size_t len) {
    size_t more = page() - 1;
    return len > SIZE_MAX - more ? 0 : (len + more) & ~more;
}

/* The segment of a payload. A payload whose alignment is SEGMENT_ALIGN or more lies one such length behind its segment's start. */
static inline struct segment *segment_of(const void *payload) {
    return (struct segment *)(((size_t)payload - 1) & ~(SEGMENT_ALIGN - 1));
}

/* The block of a payload (docs/TLSF.md): it begins 16 bytes before the payload, or the word before the payload names it. */
static inline const size_t *block_of(const void *payload) {
    return (size_t)payload % 32 ? (const size_t *)payload - 2 : ((size_t *const *)payload)[-1];
}

/* The length of a payload's block. Any thread may read it while the payload is live. Between two calls the size word is the block's length and
 * 1 (`HasSizes` of crates/rlsf_blocks/specs/InBand.antt), a call on another payload keeps the block (`Allocates`, `Frees` and `ResizesAny` of
 * crates/rlsf_malloc_calls/specs), and the size words that a call writes are those of blocks that it makes, cuts or joins. */
static inline size_t block_len(const void *payload) { return *block_of(payload) & ~(size_t)31; }

/* Maps bytes at a multiple of SEGMENT_ALIGN where the system chooses: it maps more, and unmaps both ends. */
static void *map_and_cut(size_t len, int access) {
    size_t all, skipped;
    char *found;
    if (__builtin_add_overflow(len, SEGMENT_ALIGN, &all)) return NULL;
    found = mmap(NULL, all, access, MAP_PRIVATE | MAP_ANONYMOUS | MAP_NORESERVE, -1, 0);
    if (found == MAP_FAILED) return NULL;
    skipped = (0 - (size_t)found) & (SEGMENT_ALIGN - 1);
    if (skipped) munmap(found, skipped);
    munmap(found + skipped + len, SEGMENT_ALIGN - skipped);
    return found + skipped;
}

/* Maps bytes at a multiple of SEGMENT_ALIGN. It tries free places one after another, from half of this library's own address on: there the
 * system maps nothing by itself. So under a limit on addresses no more is asked for than is needed. */
static void *map_aligned(size_t len, int access) {
    static size_t tried;
    size_t first = ((size_t)&tried / 2 & ~(SEGMENT_ALIGN - 1)) + SEGMENT_ALIGN;
    for (int tries = 0; tries < 8 && len < PLACES; tries++) {
        size_t place = __atomic_fetch_add(&tried, (len + SEGMENT_ALIGN - 1) & ~(SEGMENT_ALIGN - 1), __ATOMIC_RELAXED) % PLACES;
        void *found = mmap((void *)(first + place), len, access, MAP_PRIVATE | MAP_ANONYMOUS, -1, 0);
        if (found == MAP_FAILED) return NULL;
        if ((size_t)found % SEGMENT_ALIGN == 0) return found;
        munmap(found, len);
    }
    return map_and_cut(len, access);
}

/* Counts a single payload and the bytes of its segment. */
static void count_single(size_t count, size_t len) {
    __atomic_fetch_add(&single_count, count, __ATOMIC_RELAXED);
    __atomic_fetch_add(&single_bytes, len, __ATOMIC_RELAXED);
}

/* Maps a segment for a payload whose alignment is above SEGMENT_ALIGN, and returns where it begins. */
static char *map_wide(size_t len, size_t align) {
    size_t all, start;
    char *found;
    if (__builtin_add_overflow(len, align, &all)) return NULL;
    found = mmap(NULL, all, PROT_READ | PROT_WRITE, MAP_PRIVATE | MAP_ANONYMOUS | MAP_NORESERVE, -1, 0);
    if (found == MAP_FAILED) return NULL;
    start = (((size_t)found + SEGMENT_ALIGN + align - 1) & ~(align - 1)) - SEGMENT_ALIGN;
    if (start != (size_t)found) munmap(found, start - (size_t)found);
    if ((size_t)found + all != start + len) munmap((char *)start + len, (size_t)found + all - start - len);
    return (char *)start;
}

/* Maps a payload by itself. Its bytes are zeros. */
static void *map_single(size_t align, size_t size) {
    size_t skipped = align <= sizeof(struct segment) ? sizeof(struct segment) : align < SEGMENT_ALIGN ? align : SEGMENT_ALIGN, len;
    struct segment *segment;
    if (!size) size = 1; /* so that no address is just behind the mapping */
    if (__builtin_add_overflow(size, skipped, &len) || !(len = whole_pages(len))) return NULL;
    segment = align > SEGMENT_ALIGN ? (void *)map_wide(len, align) : map_aligned(len, PROT_READ | PROT_WRITE);
    if (!segment) return NULL;
    segment->len = len;
    count_single(1, len);
    return (char *)segment + skipped;
}

static void unmap_single(struct segment *segment) {
    count_single((size_t)-1, 0 - segment->len);
    munmap(segment, segment->len);
}

/* Moves the pages of a segment to another place, with another length. Returns NULL if there is none. */
static struct segment *move_pages(struct segment *segment, size_t len) {
    void *place = map_aligned(len, PROT_NONE), *moved;
    if (!place) return NULL;
    moved = mremap(segment, segment->len, len, MREMAP_MAYMOVE | MREMAP_FIXED, place);
    if (moved != MAP_FAILED) return moved;
    munmap(place, len);
    return NULL;
}

/* Changes the size of a single payload. Its distance from the segment's start stays, and so its alignment up to SEGMENT_ALIGN. */
static void *remap_single(char *payload, size_t size) {
    struct segment *segment = segment_of(payload);
    size_t skipped = (size_t)(payload - (char *)segment), len, old = segment->len;
    if (__builtin_add_overflow(size, skipped, &len) || !(len = whole_pages(len))) return NULL;
    if (mremap(segment, old, len, 0) == MAP_FAILED && !(segment = move_pages(segment, len))) return NULL;
    segment->len = len;
    count_single(0, len - old);
    return (char *)segment + skipped;
}

/* The number of a payload's bytes, from its pointer on. */
static size_t usable(const void *payload) {
    const struct segment *segment = segment_of(payload);
    if (!segment->owner) return (size_t)((const char *)segment + segment->len - (const char *)payload);
    return (size_t)((const char *)block_of(payload) + block_len(payload) - (const char *)payload);
}

#endif
