/* The heaps of malloc.c: each belongs to one thread, and only its owner calls it, so no call takes a lock. A lock orders what heaps share: which
 * of them no thread owns, and the lists of segments, which are only changed when the system is asked for memory or gets some back. */
#ifndef RLSF_HEAPS_H
#define RLSF_HEAPS_H

#include "cache.h"
#include "sparse.h"
#include <pthread.h>
#include <signal.h>

#define LARGE ((size_t)1 << 20) /* a payload of so many bytes gets a segment of its own */
#define COLLECTED 2  /* how many returned payloads an allocation frees */
#define LOOKS_EACH 16 /* how many allocations pass between two looks at the list of returned payloads */

/* A payload that another thread freed. Its first word names the next one. */
struct returned {
    struct returned *next;
};

struct heap {
    size_t countdown;           /* the allocations until the next look, with that one */
    struct returned *taken;     /* those that the owner took from the list, and didn't free yet */
    struct returned *kept;      /* those that a fork took from the list (forks.h) */
    struct segment *segments;
    struct segment *empty;      /* a segment that was kept without a payload; it may have some again */
    size_t held;                /* the bytes of all segments */
    struct heap *next_left;     /* the next one without an owner */
    struct heap *next;          /* of all heaps */
    _Alignas(64) struct bin bins[CACHED_LENGTHS];
    _Alignas(64) struct returned *returned; /* what other threads freed: they push by compare-and-swap, and the owner takes all */
    _Alignas(64) rlsf_large_handle handle;
};

#define THREAD_LOCAL static __thread __attribute__((tls_model("initial-exec")))
THREAD_LOCAL struct heap *mine;
THREAD_LOCAL int ended;                    /* whether this thread left its heap: then it borrows one for each allocation */
THREAD_LOCAL volatile sig_atomic_t inside; /* how often this thread holds the lock, or waits for it */

static pthread_mutex_t lock = PTHREAD_MUTEX_INITIALIZER;
/* What the lock protects: */
static struct heap *all;  /* the heaps, by `next` */
static struct heap *left; /* those without an owner, by `next_left`. During a fork it stays as it is */
static struct heap *left_meanwhile; /* those left during a fork */
static struct heap *visited;        /* the last of `left` whose returned payloads were freed */
static int forks;                   /* how many forks run */

static struct heap *checked; /* the heap of all threads if calls are checked (checks.h), else NULL */

static void notice_child(void);

static void acquire(void) {
    notice_child();
    if (!inside++) pthread_mutex_lock(&lock);
}
static void release(void) {
    if (inside == 1) pthread_mutex_unlock(&lock);
    inside--;
}

/* Returns a payload to its heap, from any thread. It may try again while others do the same, and never waits for the owner. */
static void give_back(struct heap *heap, void *payload) {
    struct returned *first = __atomic_load_n(&heap->returned, __ATOMIC_RELAXED);
    do
        ((struct returned *)payload)->next = first;
    while (!__atomic_compare_exchange_n(&heap->returned, &first, payload, 1, __ATOMIC_RELEASE, __ATOMIC_RELAXED));
}

/* Takes a segment out of its heap, and unmaps it. Returns whether it had no payload. */
static int unmap_segment(struct heap *heap, struct segment *segment) {
    if (!rlsf_heap_remove(&heap->handle.heap, segment + 1, segment->lent)) return 0;
    acquire();
    if (segment->before) segment->before->next = segment->next;
    else heap->segments = segment->next;
    if (segment->next) segment->next->before = segment->before;
    heap->held -= segment->len;
    if (heap->empty == segment) heap->empty = NULL;
    release();
    munmap(segment, segment->len);
    return 1;
}

/* Keeps a segment that has no payload any more, and unmaps the one that was kept before, if it still has none. */
static void keep_empty(struct heap *heap, struct segment *segment) {
    int error = errno;
    struct segment *empty = heap->empty;
    if (empty && empty != segment && !empty->used) unmap_segment(heap, empty);
    heap->empty = segment;
    errno = error;
}

static inline void set_used(struct segment *segment, size_t used) { __atomic_store_n(&segment->used, used, __ATOMIC_RELAXED); }

/* A segment has few payloads left, or none. */
static void look_closer(struct heap *heap, struct segment *segment) {
    if (segment->used) become_sparse(&heap->handle.heap, segment);
    else put_back(&heap->handle.heap, &segment->aside), keep_empty(heap, segment);
}

/* Frees one of the last payloads of a segment. */
static __attribute__((noinline)) void free_of_few(struct heap *heap, struct segment *segment, void *payload) {
    rlsf_free(&heap->handle.heap, payload);
    look_closer(heap, segment);
}

/* Frees a payload of this thread's heap. */
static inline void free_own(struct heap *heap, struct segment *segment, void *payload) {
    size_t used = segment->used - block_len(payload);
    set_used(segment, used);
    if (used > segment->low) rlsf_large_free(&heap->handle.heap + 1, (size_t)payload);
    else free_of_few(heap, segment, payload);
}

/* Frees at most `most` of the payloads that other threads returned, or caches them. Returns whether there was one. */
static int collect(struct heap *heap, size_t most) {
    int found;
    notice_child();
    if (!heap->taken && heap->kept) {
        heap->taken = heap->kept;
        heap->kept = NULL;
    }
    if (!heap->taken && __atomic_load_n(&heap->returned, __ATOMIC_RELAXED)) heap->taken = __atomic_exchange_n(&heap->returned, NULL, __ATOMIC_ACQUIRE);
    found = heap->taken != NULL;
    for (; most && heap->taken; most--) {
        struct returned *payload = heap->taken;
        heap->taken = payload->next;
        __builtin_prefetch(heap->taken, 1);
        if (!keep_cached(heap->bins, payload)) free_own(heap, segment_of(payload), payload);
    }
    heap->countdown = heap->taken ? 1 : LOOKS_EACH;
    return found;
}

/* Before an allocation in a heap. */
static inline void count_down(struct heap *heap) {
    if (!--heap->countdown) collect(heap, COLLECTED);
}

/* Frees all cached payloads. Returns whether there was one. */
static int free_cached(struct heap *heap) {
    int found = 0;
    for (size_t n = 0; n < CACHED_LENGTHS; n++)
        for (void *payload; (payload = take_first(&heap->bins[n])); found = 1) free_own(heap, segment_of(payload), payload);
    return found;
}

/* The same for all of them. */
static int collect_all(struct heap *heap) {
    int found = collect(heap, SIZE_MAX);
    while (collect(heap, SIZE_MAX)) continue;
    return found;
}

/* Frees all returned and cached payloads. */
static void free_all(struct heap *heap) {
    collect_all(heap);
    free_cached(heap);
}

/* Frees what was returned to one heap without an owner: each time to another. */
static void collect_left(void) {
    acquire();
    if (!forks && left) {
        visited = visited && visited->next_left ? visited->next_left : left;
        free_all(visited);
    }
    release();
}

/* Maps a segment of `len` bytes, or if the system refuses of fewer, down to `need`. */
static struct segment *map_segment(size_t len, size_t need) {
    struct segment *segment;
    while (!(segment = map_aligned(len, PROT_READ | PROT_WRITE))) {
        if (len == need) return NULL;
        len = whole_pages(len / 2);
        if (len < need) len = need;
    }
    segment->len = len;
    return segment;
}

/* Adds a segment with room for a payload. Returns 0 if the system refuses. */
static int grow(struct heap *heap, size_t align, size_t size) {
    /* The heap takes a block only from a class whose blocks are all long enough: 1/64 more. The rest is for headers and their alignment. */
    size_t need = whole_pages(size + align + (size + align) / 32 + 2 * sizeof(struct segment)), len = whole_pages(heap->held / 8);
    struct segment *segment;
    if (len < SEGMENT_LEAST) len = SEGMENT_LEAST;
    if (len > SEGMENT_MOST) len = SEGMENT_MOST;
    collect_left();
    segment = map_segment(len > need ? len : need, need);
    if (!segment) return 0;
    segment->owner = heap;
    segment->high = FILLED;
    segment->lent = rlsf_heap_add(&heap->handle.heap, segment + 1, segment->len - sizeof *segment);
    acquire();
    segment->next = heap->segments;
    if (segment->next) segment->next->before = segment;
    heap->segments = segment;
    heap->held += segment->len;
    release();
    return 1;
}

/* Counts a new payload, whose block has `len` bytes. Returns it. */
static inline void *count_used(void *payload, size_t len) {
    struct segment *segment = segment_of(payload);
    size_t used = segment->used + len;
    set_used(segment, used);
    if (used > segment->high) become_filled(segment);
    return payload;
}

/* Places a payload in what the heap has. Each payload has room for a struct returned: one of no bytes would have none at a greater alignment. */
static void *place(struct heap *heap, size_t align, size_t size) {
    void *payload = align > 16 ? rlsf_aligned_alloc(&heap->handle.heap, align, size ? size : 1) : rlsf_malloc(&heap->handle.heap, size);
    return payload ? count_used(payload, block_len(payload)) : NULL;
}

/* Puts back the blocks that were set aside, one segment after another, until there is room for a payload. */
static void *place_aside(struct heap *heap, size_t align, size_t size) {
    void *payload = NULL;
    for (struct segment *segment = heap->segments; segment && !payload; segment = segment->next)
        if (put_back(&heap->handle.heap, &segment->aside)) payload = place(heap, align, size);
    return payload;
}

/* Places a payload in the heap. Before that fails, all returned payloads are freed or cached, and no block is set aside. */
static void *place_in_all(struct heap *heap, size_t align, size_t size) {
    void *payload = place(heap, align, size);
    if (!payload && collect_all(heap)) payload = place(heap, align, size);
    return payload ? payload : place_aside(heap, align, size);
}

/* The same. If there is no room, it asks the system for memory, and if that refuses, it frees what is cached. */
static void *place_or_grow(struct heap *heap, size_t align, size_t size) {
    void *payload = place_in_all(heap, align, size);
    if (!payload && grow(heap, align, size)) payload = place(heap, align, size);
    return payload || !free_cached(heap) ? payload : place_or_grow(heap, align, size);
}

/* Makes a heap without memory. */
static struct heap *make_heap(void) {
    struct heap *heap = mmap(NULL, sizeof *heap, PROT_READ | PROT_WRITE, MAP_PRIVATE | MAP_ANONYMOUS, -1, 0);
    if (heap == MAP_FAILED) return NULL;
    rlsf_heap_begin(&heap->handle, RLSF_LARGE);
    heap->countdown = LOOKS_EACH;
    acquire();
    heap->next = all;
    all = heap;
    release();
    return heap;
}

/* Takes over a heap without an owner, or makes one. */
static struct heap *own_heap(void) {
    struct heap *heap;
    acquire();
    heap = forks ? NULL : left;
    if (heap) left = heap->next_left;
    visited = NULL;
    release();
    return heap ? heap : make_heap();
}

/* Leaves a heap to the next thread that begins. Only one of those that are left keeps a segment without a payload. */
static void leave(struct heap *heap) {
    struct heap **to;
    free_all(heap);
    acquire();
    if (left && heap->empty && !heap->empty->used) unmap_segment(heap, heap->empty);
    to = forks ? &left_meanwhile : &left;
    heap->next_left = *to;
    *to = heap;
    release();
}

/* Allocates a payload; `align` is a power of two and at least 16. Returns NULL if the system has no memory. */
static void *allocate_in(struct heap *heap, size_t align, size_t size) {
    void *payload = NULL;
    if (heap) count_down(heap);
    if (heap && size < LARGE && align < LARGE) return place_or_grow(heap, align, size);
    payload = map_single(align, size);
    if (!payload && heap) {
        free_cached(heap);
        payload = place_in_all(heap, align, size);
    }
    return payload;
}

#endif
