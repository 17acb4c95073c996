/* The whole of malloc's interface, for programs with threads: no thread waits for another. Build it as a shared object, and run a program on it:
 *
 *     cc -O2 -fPIC -shared -Iinclude c/malloc.c crates/rlsf_malloc/out/librlsf_malloc.a -lpthread -o librlsf_malloc.so
 *     LD_PRELOAD=./librlsf_malloc.so python3 -c 'print(sum(range(10)))'
 *
 * Each thread has a heap of its own (heaps.h). A payload that another thread frees is pushed on a list of its heap, and the owner frees two of
 * these in each of its allocations. The heap of a thread that ended is left to the next one that begins. Only what asks the system for memory,
 * and the begin and the end of a thread, take a lock. A thread's few last small frees don't reach its heap (cache.h).
 *
 * Payloads below LARGE bytes lie in segments of a heap (segments.h), which are unmapped when they have no payload. If they have few, the pages
 * between these are returned to the system (sparse.h). Each larger payload has a segment of its own: calloc touches none of its pages, realloc
 * moves pages and copies no byte, and free returns it to the system. If there is no memory for one, it is placed in what the heap has.
 *
 * With RLSF_CHECK=1 in the environment, wrong calls are reported (checks.h). */
#define _GNU_SOURCE
#include "heaps.h"
#include "forks.h"
#include "checks.h"
#include "figures.h"
#include <string.h>
#include <stdlib.h>

static pthread_key_t ends; /* calls end_thread when a thread ends */
static pthread_once_t began = PTHREAD_ONCE_INIT;

/* Other destructors of the thread may allocate behind this one: they borrow a heap. */
static void end_thread(void *heap) {
    mine = NULL;
    ended = 1;
    leave(heap);
}

static void begin_first(void) {
    begin_checks();
    if (pthread_key_create(&ends, end_thread)) ends = (pthread_key_t)-1; /* then each thread borrows */
}

/* Returns a heap for a thread that has none: its own from now on, unless it ended, or its end wouldn't be noticed. NULL if there is none, or if
 * calls are checked. */
static struct heap *begin_thread(void) {
    struct heap *heap;
    pthread_once(&began, begin_first);
    if (is_checked()) return NULL;
    heap = own_heap();
    if (heap && !ended) {
        mine = heap; /* the next call may allocate */
        if (pthread_setspecific(ends, heap)) mine = NULL;
    }
    return heap;
}

/* Allocates a payload. On failure it says why as C does. */
static __attribute__((noinline)) void *allocate(size_t align, size_t size) {
    int error = errno;
    struct heap *heap = mine ? mine : begin_thread();
    void *payload = checked ? checked_allocate(align, size) : allocate_in(heap, align, size);
    if (heap && !mine) leave(heap);
    errno = payload ? error : ENOMEM;
    return payload;
}

/* Allocates fewer than LARGE bytes in this thread's heap. */
static inline void *allocate_in_heap(struct heap *heap, size_t size) {
    void *payload = (void *)rlsf_large_malloc(&heap->handle.heap + 1, size);
    return payload ? count_used(payload, ((size_t *)payload)[-2] & ~(size_t)31) : allocate(16, size);
}
static __attribute__((noinline)) void *allocate_uncached(struct heap *heap, size_t size) { return allocate_in_heap(heap, size); }

/* As malloc. The compiler takes a call of malloc before memset for one of calloc, which is what calls this. */
static inline void *allocate_at_16(size_t size) {
    struct heap *heap = mine;
    void *payload;
    if (!heap || size >= LARGE) return allocate(16, size);
    count_down(heap);
    if (size > CACHED_SIZE) return allocate_in_heap(heap, size);
    payload = take_cached(heap->bins, size);
    return payload ? payload : allocate_uncached(heap, size);
}

void *malloc(size_t size) { return allocate_at_16(size); }

void *calloc(size_t count, size_t size) {
    size_t total;
    void *payload;
    if (__builtin_mul_overflow(count, size, &total)) total = SIZE_MAX;
    payload = allocate_at_16(total);
    if (payload && (total < LARGE || segment_of(payload)->owner)) memset(payload, 0, total);
    return payload;
}

/* Frees a payload that isn't of this thread's heap. */
static __attribute__((noinline)) void free_other(void *payload) {
    int error = errno;
    struct segment *segment;
    if (!payload) return;
    segment = segment_of(payload);
    if (is_checked()) checked_free(payload, "free");
    else if (segment->owner) give_back(segment->owner, payload);
    else unmap_single(segment);
    errno = error;
}

void free(void *payload) {
    struct heap *heap = mine;
    if (heap && payload) {
        struct segment *segment = segment_of(payload);
        if (segment->owner == heap) {
            if (!keep_cached(heap->bins, payload)) free_own(heap, segment, payload);
            return;
        }
    }
    free_other(payload);
}

size_t malloc_usable_size(void *payload) {
    if (!payload) return 0;
    return !mine && is_checked() ? checked_size(payload, "malloc_usable_size") : usable(payload);
}

/* Changes the size of a payload of this thread's heap. */
static inline void *resize_own(struct heap *heap, void *payload, size_t size) {
    struct segment *segment = segment_of(payload);
    size_t len = block_len(payload);
    void *resized = (void *)rlsf_large_reallocate(&heap->handle.heap + 1, (size_t)payload, size);
    if (!resized || (resized == payload && block_len(payload) == len)) return resized;
    set_used(segment, segment->used - len);
    count_used(resized, block_len(resized));
    if (segment->used <= segment->low) look_closer(heap, segment);
    return resized;
}

/* Changes the size of a payload that stays in its heap, if that is this thread's, or in a segment of its own. */
static void *resize(void *payload, size_t size) {
    struct heap *owner = segment_of(payload)->owner;
    if (!owner) return remap_single(payload, size);
    if (owner == mine) return resize_own(owner, payload, size);
    return size <= usable(payload) ? payload : NULL;
}

/* Allocates another payload in place of an old one. */
static void *move(void *payload, size_t size) {
    size_t len = usable(payload);
    void *moved = allocate_at_16(size);
    if (!moved) return NULL;
    memcpy(moved, payload, len < size ? len : size);
    free(payload);
    return moved;
}

/* Changes the size of a payload that moves, or is large. */
static __attribute__((noinline)) void *resize_or_move(void *payload, size_t size) {
    int error = errno, is_single = !segment_of(payload)->owner;
    void *resized = is_single && size >= LARGE ? resize(payload, size) : NULL;
    if (!resized) resized = move(payload, size);
    if (!resized) resized = resize(payload, size);
    errno = resized ? error : ENOMEM;
    return resized;
}

/* As glibc's: a size of 0 frees the payload. */
void *realloc(void *payload, size_t size) {
    struct heap *heap = mine;
    if (!payload) return malloc(size);
    if (!size) {
        free(payload);
        return NULL;
    }
    if (!heap && is_checked()) return checked_realloc(payload, size);
    if (heap && size < LARGE && segment_of(payload)->owner == heap) {
        void *resized;
        count_down(heap);
        resized = resize_own(heap, payload, size);
        if (resized) return resized;
    }
    return resize_or_move(payload, size);
}

void *reallocarray(void *payload, size_t count, size_t size) {
    size_t total;
    if (__builtin_mul_overflow(count, size, &total)) total = SIZE_MAX;
    return realloc(payload, total);
}

/* As glibc's: an alignment that is no power of two becomes the next one. */
void *aligned_alloc(size_t align, size_t size) {
    size_t power = 16;
    if (align > SIZE_MAX / 2 + 1) {
        errno = EINVAL;
        return NULL;
    }
    while (power < align) power *= 2;
    return power > 16 ? allocate(power, size) : malloc(size);
}

void *memalign(size_t align, size_t size) { return aligned_alloc(align, size); }
void *valloc(size_t size) { return aligned_alloc(page(), size); }
void *pvalloc(size_t size) {
    size_t total;
    if (__builtin_add_overflow(size, page() - 1, &total)) total = SIZE_MAX;
    return aligned_alloc(page(), total - total % page());
}

int posix_memalign(void **to, size_t align, size_t size) {
    int error = errno;
    void *payload;
    if (align < sizeof(void *) || (align & (align - 1))) return EINVAL;
    payload = aligned_alloc(align, size);
    errno = error;
    if (!payload) return ENOMEM;
    *to = payload;
    return 0;
}
