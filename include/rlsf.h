/* An allocator (version 0.2.0) over memory that the caller lends it, range by range. A payload is used in place: its address is a pointer.
 * docs/C.md shows how to link it. The archive is librlsf_malloc.a. It needs only memmove and memset.
 *
 * A pool is a range that is lent to a heap: the address that rlsf_heap_add was passed, and the length that it returned, with those that
 * rlsf_heap_append returned added. Pools may lie anywhere, side by side or apart.
 *
 * Conditions on the caller. No call tests them:
 *   - `heap` is a heap that rlsf_heap_init or rlsf_heap_begin returned. rlsf_heap_end wasn't called on it since, and only the library
 *     writes to its handle. A handle holds no address of itself: between two calls it may be copied to another place, aligned to 8. Then
 *     only the copy is a heap.
 *   - `payload` is NULL, or a pointer that a call on this heap returned. It is live: it wasn't freed since, and no rlsf_realloc or
 *     rlsf_aligned_realloc of it succeeded since.
 *   - Only the library writes to the bytes of a pool, except to those of live payloads: rlsf_usable_size of them from the pointer on. The last
 *     16 bytes of a pool, too, are nobody's to write.
 *   - The bytes that rlsf_heap_add and rlsf_heap_append are passed are the caller's, and no pool's. Each has a value, as in static, mapped and
 *     allocated memory. They lie between the addresses 32 and 2^58, and can be read and written until they are removed or the heap ends.
 *   - Where a call is passed a pool, that is one, or several that follow each other.
 *   - When rlsf_heap_end is called, no payload is live.
 *   - One call on a heap runs at a time. A lock orders the calls of several threads.
 *
 * Who owns the bytes. A pool's bytes belong to the heap until rlsf_heap_remove or rlsf_heap_end. A call that returns a payload passes the
 * payload's bytes to its caller, and rlsf_free takes them back. A call on the heap accesses no byte of a payload that is out, but for the one
 * that it is passed. So each thread may read and write its payloads while another thread's call runs under the lock.
 *
 * The crate crates/rlsf_malloc proves what each call does, with this ownership, under these conditions.
 *
 * The inline functions below aren't proved. They do this and no more:
 *   - They pass a pointer to an exported function as the number (size_t)pointer, and cast the returned number back.
 *   - They store the kind at the start of the handle, and choose the exported function by it.
 *   - rlsf_heap_init and rlsf_heap_try_add call several: the second calls one for each pool of an array. */
#ifndef RLSF_H
#define RLSF_H

#include <stddef.h>

#ifdef __cplusplus
extern "C" {
#endif

#define RLSF_VERSION_MAJOR 0
#define RLSF_VERSION_MINOR 2
#define RLSF_VERSION_PATCH 0
#define RLSF_VERSION "0.2.0"
#define RLSF_MALLOC_VERSION RLSF_VERSION

/* How the functions of this header are defined. The shared library has them as functions of its own. */
#ifndef RLSF_INLINE
#define RLSF_INLINE static inline
#endif

/* Kinds of heaps. A small heap has 12 first-level rows of 16 size classes, for payloads of at most 126,960 bytes. A large heap has 64 rows of 64
 * classes, for payloads of all sizes; its choice of blocks is finer. */
#define RLSF_SMALL ((size_t)1)
#define RLSF_LARGE ((size_t)2)

/* The size of a handle of each kind in bytes. A handle is aligned to 8. */
#define RLSF_SMALL_HEAP_SIZE 1792
#define RLSF_LARGE_HEAP_SIZE 33856

/* The totals of some blocks. */
typedef struct {
    size_t payloads; /* the number of live payloads, one in each used block */
    size_t used;     /* the bytes of all used blocks, with their headers */
    size_t free;     /* the bytes of all free blocks */
    size_t longest;  /* the bytes of the longest free block, or 0 if there is none */
} rlsf_totals;

/* A block of a list. */
typedef struct {
    size_t start; /* the address at which it begins, 16 bytes before its payload's if the payload's alignment is 16 */
    size_t len;   /* its length in bytes, with its header */
    size_t used;  /* 1 if it holds a live payload, else 0 */
} rlsf_span;

/* The exported functions. Each takes the handle's bytes behind an rlsf_heap. */
#define RLSF_KIND_DECLARES(KIND)                                                                      \
    size_t rlsf_##KIND##_size(void);                                                                  \
    size_t rlsf_##KIND##_pool_size(size_t size, size_t align);                                        \
    size_t rlsf_##KIND##_pool_size_for_budget(size_t count, size_t bytes, size_t size, size_t align); \
    void rlsf_##KIND##_init(void *heap, void *block, size_t start, size_t len);                       \
    void rlsf_##KIND##_end(void *heap);                                                               \
    size_t rlsf_##KIND##_add(void *heap, size_t start, size_t len);                                   \
    size_t rlsf_##KIND##_append(void *heap, size_t start, size_t len);                                \
    size_t rlsf_##KIND##_remove(void *heap, size_t start, size_t len);                                \
    size_t rlsf_##KIND##_malloc(void *heap, size_t size);                                             \
    size_t rlsf_##KIND##_allocate(void *heap, size_t size, size_t align);                             \
    size_t rlsf_##KIND##_allocate_zeroed(void *heap, size_t count, size_t size);                      \
    size_t rlsf_##KIND##_reallocate(void *heap, size_t payload, size_t size);                         \
    size_t rlsf_##KIND##_reallocate_aligned(void *heap, size_t payload, size_t size, size_t align);   \
    size_t rlsf_##KIND##_reallocate_in_place(void *heap, size_t payload, size_t size);                \
    void rlsf_##KIND##_free(void *heap, size_t payload);                                              \
    size_t rlsf_##KIND##_usable(void *heap, size_t payload);                                          \
    rlsf_totals rlsf_##KIND##_stats(void *heap, size_t start, size_t len);                            \
    size_t rlsf_##KIND##_list(void *heap, size_t start, size_t len, size_t from, size_t *numbers, size_t room); \
    size_t rlsf_##KIND##_check(void *heap, const size_t *numbers, size_t count);
RLSF_KIND_DECLARES(small)
RLSF_KIND_DECLARES(large)
#undef RLSF_KIND_DECLARES
size_t rlsf_range_is_outside(size_t start, size_t len);
size_t rlsf_ranges_overlap(size_t start, size_t len, size_t other, size_t other_len);

/* A pool: where it begins, and its length. The program keeps those of a heap; a handle has no list of them. */
typedef struct {
    size_t start;
    size_t len;
} rlsf_range;

/* A heap at its handle, and behind it what the exported functions use. */
typedef struct rlsf_heap {
    size_t kind;
} rlsf_heap;

/* Handles of each kind, for a handle that is static or on the stack. */
typedef union {
    rlsf_heap heap;
    unsigned char bytes[RLSF_SMALL_HEAP_SIZE];
} rlsf_small_handle;
typedef union {
    rlsf_heap heap;
    unsigned char bytes[RLSF_LARGE_HEAP_SIZE];
} rlsf_large_handle;

/* Returns the size of a handle of a kind in bytes, or 0 if there is no such kind. */
RLSF_INLINE size_t rlsf_heap_size(size_t kind) {
    return kind == RLSF_SMALL ? RLSF_SMALL_HEAP_SIZE : kind == RLSF_LARGE ? RLSF_LARGE_HEAP_SIZE : 0;
}

/* Returns the least length in bytes of a pool, from a multiple of 32 on, in which a first payload of a size and an alignment is not refused.
 * Returns 0 if no pool has it, the alignment is no power of two, or there is no such kind. The call takes constant time. */
RLSF_INLINE size_t rlsf_heap_pool_size(size_t kind, size_t size, size_t align) {
    return kind == RLSF_SMALL ? rlsf_small_pool_size(size, align) : kind == RLSF_LARGE ? rlsf_large_pool_size(size, align) : 0;
}

/* Returns the length in bytes of a pool, from a multiple of 32 on, that refuses no payload of up to `size` bytes and an alignment of up to
 * `align`. This holds while, before each allocation and each reallocation, at most `count` payloads are live, and their blocks have at most
 * `bytes` bytes together. The block of a payload has its size and 16 bytes more, rounded up to a multiple of 32. An alignment above 16 counts as
 * `align - 16` more bytes of the size.
 *
 * Returns 0 if no pool has this length, the alignment is no power of two, or there is no such kind. The call takes constant time. */
RLSF_INLINE size_t rlsf_heap_pool_size_for_budget(size_t kind, size_t count, size_t bytes, size_t size, size_t align) {
    return kind == RLSF_SMALL   ? rlsf_small_pool_size_for_budget(count, bytes, size, align)
           : kind == RLSF_LARGE ? rlsf_large_pool_size_for_budget(count, bytes, size, align)
                                : 0;
}

/* What the exported functions use of a heap, also in a call that leaves it as it is. */
RLSF_INLINE void *rlsf_heap_state(const rlsf_heap *heap) { return (void *)(size_t)(heap + 1); }

/* Creates a heap at a handle, without a pool. No memory is needed yet: rlsf_heap_add adds it. The call takes constant time.
 *
 * Returns NULL exactly if there is no such kind; then nothing changes. The handle has rlsf_heap_size(kind) bytes and is aligned to 8. */
RLSF_INLINE rlsf_heap *rlsf_heap_begin(void *handle, size_t kind) {
    rlsf_heap *heap = (rlsf_heap *)handle;
    /* A heap over the addresses from 32 up to 2^58, at themselves: none of their bytes is its own. */
    if (kind == RLSF_SMALL)
        rlsf_small_init(heap + 1, (void *)(size_t)32, 32, ((size_t)1 << 58) - 32);
    else if (kind == RLSF_LARGE)
        rlsf_large_init(heap + 1, (void *)(size_t)32, 32, ((size_t)1 << 58) - 32);
    else
        return NULL;
    heap->kind = kind;
    return heap;
}

/* Adds the `len` bytes at `memory` as a pool, in a time that doesn't depend on them. In a small heap, the time grows by a few word
 * accesses for each 128 KiB. Returns the number of bytes from `memory` to the end of the pool, or 0 if there are too few bytes: then nothing
 * changes. Bytes behind the pool, at most 63, stay the caller's.
 *
 * A pool ends at a multiple of 32, and its part from the first multiple of 32 on has at least 64 bytes. In a small heap that part is cut into
 * chunks of 128 KiB and one of the rest, if the rest has 64 bytes. So a large heap has too few bytes exactly if that part has below 64. */
RLSF_INLINE size_t rlsf_heap_add(rlsf_heap *heap, void *memory, size_t len) {
    return heap->kind == RLSF_SMALL ? rlsf_small_add(heap + 1, (size_t)memory, len) : rlsf_large_add(heap + 1, (size_t)memory, len);
}

/* Appends the `len` bytes at `memory`, where a pool ends. Returns by how many bytes the pool is longer, or 0 if there are too few bytes: then
 * nothing changes. In a large heap it grows by all bytes but those past a multiple of 32, in constant time, and a payload may lie across the old
 * end. In a small heap the bytes become chunks of their own, as by rlsf_heap_add. Bytes behind the pool stay the caller's. */
RLSF_INLINE size_t rlsf_heap_append(rlsf_heap *heap, void *memory, size_t len) {
    return heap->kind == RLSF_SMALL ? rlsf_small_append(heap + 1, (size_t)memory, len) : rlsf_large_append(heap + 1, (size_t)memory, len);
}

/* What rlsf_heap_try_add returns. */
typedef enum rlsf_add_error {
    RLSF_ADD_OK = 0,
    RLSF_ADD_OUTSIDE = 1,  /* the bytes begin below the address 32, or end past 2^58 or past the greatest address */
    RLSF_ADD_OVERLAPS = 2, /* a byte lies in a pool */
    RLSF_ADD_TOO_SHORT = 3 /* there are too few bytes */
} rlsf_add_error;

/* Adds the `len` bytes at `memory` as rlsf_heap_add does. The first `count` of `pools` are the heap's pools. The one behind them becomes the
 * new pool. After an error nothing has changed; if more than one applies, the call returns the first. The time grows with `count`. */
RLSF_INLINE rlsf_add_error rlsf_heap_try_add(rlsf_heap *heap, rlsf_range *pools, size_t count, void *memory, size_t len) {
    size_t start = (size_t)memory, taken, n;
    if (rlsf_range_is_outside(start, len)) return RLSF_ADD_OUTSIDE;
    for (n = 0; n < count; n++)
        if (rlsf_ranges_overlap(start, len, pools[n].start, pools[n].len)) return RLSF_ADD_OVERLAPS;
    taken = rlsf_heap_add(heap, memory, len);
    if (!taken) return RLSF_ADD_TOO_SHORT;
    pools[count].start = start;
    pools[count].len = taken;
    return RLSF_ADD_OK;
}

/* Removes the pool of `len` bytes at `memory` if no payload is live in it, and returns 1: its bytes are the caller's again, who may unmap
 * them. Otherwise returns 0, and nothing changes. The time grows with the number of blocks. */
RLSF_INLINE int rlsf_heap_remove(rlsf_heap *heap, void *memory, size_t len) {
    return (int)(heap->kind == RLSF_SMALL ? rlsf_small_remove(heap + 1, (size_t)memory, len) : rlsf_large_remove(heap + 1, (size_t)memory, len));
}

/* Creates a heap at a handle, and adds the `len` bytes at `memory` as a pool, as rlsf_heap_begin and rlsf_heap_add do. If there are too few
 * bytes, the heap has no pool. Returns NULL exactly if there is no such kind; then nothing changes. */
RLSF_INLINE rlsf_heap *rlsf_heap_init(void *handle, size_t kind, void *memory, size_t len) {
    rlsf_heap *heap = rlsf_heap_begin(handle, kind);
    if (heap) (void)rlsf_heap_add(heap, memory, len);
    return heap;
}

/* Ends a heap. Its pools and its handle are the caller's again. */
RLSF_INLINE void rlsf_heap_end(rlsf_heap *heap) {
    if (heap->kind == RLSF_SMALL)
        rlsf_small_end(heap + 1);
    else
        rlsf_large_end(heap + 1);
}

/* Allocates a payload of `size` bytes and less than 32 more, at a multiple of `align`. An alignment below 16 counts as 16. Its bytes may
 * have any values. All other payloads and their bytes are unchanged.
 *
 * Returns NULL exactly in these cases, and then nothing changes:
 *   - `align` is above 16 and no power of two, or `size` is above 2^63 - align.
 *   - No free block has a class that reaches the sought size (docs/SIZING.md). */
RLSF_INLINE void *rlsf_aligned_alloc(rlsf_heap *heap, size_t align, size_t size) {
    return (void *)(heap->kind == RLSF_SMALL ? rlsf_small_allocate(heap + 1, size, align) : rlsf_large_allocate(heap + 1, size, align));
}

/* Allocates a payload, as rlsf_aligned_alloc does with an alignment of 16. */
RLSF_INLINE void *rlsf_malloc(rlsf_heap *heap, size_t size) {
    return (void *)(heap->kind == RLSF_SMALL ? rlsf_small_malloc(heap + 1, size) : rlsf_large_malloc(heap + 1, size));
}

/* Allocates a payload of `count * size` bytes and less than 32 more, at a multiple of 16. All of them are zeros.
 *
 * Returns NULL exactly if rlsf_malloc of `count * size` bytes does, and if that product is no size_t. */
RLSF_INLINE void *rlsf_calloc(rlsf_heap *heap, size_t count, size_t size) {
    return (void *)(heap->kind == RLSF_SMALL ? rlsf_small_allocate_zeroed(heap + 1, count, size)
                                             : rlsf_large_allocate_zeroed(heap + 1, count, size));
}

/* Deallocates a payload. All other payloads and their bytes are unchanged. Does nothing if `payload` is NULL. */
RLSF_INLINE void rlsf_free(rlsf_heap *heap, void *payload) {
    if (heap->kind == RLSF_SMALL)
        rlsf_small_free(heap + 1, (size_t)payload);
    else
        rlsf_large_free(heap + 1, (size_t)payload);
}

/* Changes the size of a payload to `size` bytes and less than 32 more, and returns its address, at which it may be new. As many of its
 * first bytes as both sizes have are kept. All other payloads and their bytes are unchanged. Allocates a payload if `payload` is NULL, as
 * rlsf_malloc does.
 *
 * The library doesn't store alignments. So a payload that was requested with an alignment above 16 stays at its address, and keeps its
 * alignment, if its usable bytes and those of a free block behind it suffice. Otherwise it moves, and its new alignment is 16: exactly if the
 * returned address is another one. Compare both to know the alignment that a later rlsf_aligned_realloc needs. rlsf_aligned_realloc itself
 * keeps the alignment.
 *
 * Returns NULL exactly if `size` is above 2^63 - 16 or there is no room. Then nothing changes, and `payload` is still live. */
RLSF_INLINE void *rlsf_realloc(rlsf_heap *heap, void *payload, size_t size) {
    return (void *)(heap->kind == RLSF_SMALL ? rlsf_small_reallocate(heap + 1, (size_t)payload, size)
                                             : rlsf_large_reallocate(heap + 1, (size_t)payload, size));
}

/* Changes the size of a payload as rlsf_realloc does, and keeps its alignment. Allocates a payload if `payload` is NULL, as
 * rlsf_aligned_alloc does. `payload` must have the alignment `align`: the requested one, or 16 if it moved by rlsf_realloc. An alignment
 * below 16 counts as 16.
 *
 * Returns NULL exactly if `size` is above 2^63 - align or there is no room. Then nothing changes, and `payload` is still live. */
RLSF_INLINE void *rlsf_aligned_realloc(rlsf_heap *heap, void *payload, size_t align, size_t size) {
    return (void *)(heap->kind == RLSF_SMALL ? rlsf_small_reallocate_aligned(heap + 1, (size_t)payload, size, align)
                                             : rlsf_large_reallocate_aligned(heap + 1, (size_t)payload, size, align));
}

/* Changes the size of a payload as rlsf_realloc does, without moving it. Returns `payload`.
 *
 * Returns NULL exactly if rlsf_realloc would move it or return NULL, or if `payload` is NULL. Then nothing changes. */
RLSF_INLINE void *rlsf_realloc_in_place(rlsf_heap *heap, void *payload, size_t size) {
    return (void *)(heap->kind == RLSF_SMALL ? rlsf_small_reallocate_in_place(heap + 1, (size_t)payload, size)
                                             : rlsf_large_reallocate_in_place(heap + 1, (size_t)payload, size));
}

/* Returns the number of bytes of a payload, from its pointer on, that may be read and written; or 0 if `payload` is NULL. */
RLSF_INLINE size_t rlsf_usable_size(const rlsf_heap *heap, const void *payload) {
    return heap->kind == RLSF_SMALL ? rlsf_small_usable(rlsf_heap_state(heap), (size_t)payload) : rlsf_large_usable(rlsf_heap_state(heap), (size_t)payload);
}

/* Returns the totals of the blocks of the pool of `len` bytes at `memory`. The time grows with the number of these blocks. */
RLSF_INLINE rlsf_totals rlsf_heap_stats(const rlsf_heap *heap, const void *memory, size_t len) {
    return heap->kind == RLSF_SMALL ? rlsf_small_stats(rlsf_heap_state(heap), (size_t)memory, len)
                                    : rlsf_large_stats(rlsf_heap_state(heap), (size_t)memory, len);
}

/* Fills an array with the blocks of the pool of `len` bytes at `memory` that begin at `from` or behind it, in address order, and returns the
 * number of filled ones: all of them, or `count` if there are more. The others stay as they are. To go on behind a full array, pass the last
 * block's start + len as `from`. The time grows with the number of blocks up to the last listed one. */
RLSF_INLINE size_t rlsf_heap_walk(const rlsf_heap *heap, const void *memory, size_t len, const void *from, rlsf_span *blocks, size_t count) {
    return heap->kind == RLSF_SMALL ? rlsf_small_list(rlsf_heap_state(heap), (size_t)memory, len, (size_t)from, &blocks->start, 3 * count)
                                    : rlsf_large_list(rlsf_heap_state(heap), (size_t)memory, len, (size_t)from, &blocks->start, 3 * count);
}

/* For debugging: reads the words of each block again, the links of free blocks, and the lists' beginnings in the handle. Returns 1 if they
 * agree. Otherwise returns 0: the program wrote to bytes that it may not write to, and no other call on the heap is defined. Whatever the
 * words are, only the pools and the handle are read, whose first 48 bytes must be right.
 *
 * It finds each wrong header of a block, each missing sentinel, two free blocks side by side, and a free block whose neighbours in its list
 * don't name it. Of the handle it finds each flipped bit of the lists' beginnings and of their bitmaps. It checks no payload, nor the words
 * before payloads with an alignment above 16, but a wrong link may lead into one. So no other thread may write to the pools meanwhile.
 *
 * The first `count` of `pools`, which isn't NULL, are all pools. The time grows with their blocks times their number. */
RLSF_INLINE int rlsf_heap_check(const rlsf_heap *heap, const rlsf_range *pools, size_t count) {
    return (int)(heap->kind == RLSF_SMALL ? rlsf_small_check(rlsf_heap_state(heap), &pools->start, 2 * count)
                                          : rlsf_large_check(rlsf_heap_state(heap), &pools->start, 2 * count));
}

#ifdef __cplusplus
}
#endif

#endif
