/* An allocator (version 0.2.0) whose calls take a bounded number of steps, and whose contracts a prover has checked.
 * It returns addresses, which are numbers of a memory of its own. rlsf_pool_write copies bytes there, and rlsf_pool_read copies them back.
 * docs/C.md shows how to link it.
 *
 * Conditions on the caller, in each call. No call tests them:
 *   - The handle has RLSF_POOL_SIZE bytes, aligned as a pointer. rlsf_pool_init was called with it, or its bytes are all 0 (tested). Since then
 *     nothing but the library wrote to it.
 *   - One call on a handle runs at a time. Another thread may use the handle next, if a lock, or the thread's start or end, orders the two.
 *   - `bytes` and `into` aren't null, even if `len` is 0. They point to `len` bytes, less than 2^63, that may be read,
 *     and for `into` also written. These bytes are no part of a pool or of its handle, and no other call writes to them during the call.
 *   - malloc, realloc and free belong to one allocator, and align as C requires. No call comes from a signal handler, or from a forked
 *     child of a process with threads.
 * All other conditions are tested: every number may be passed as an address, a size, an alignment, an offset or a range.
 *
 * In a comment, no contract can state the sentences after the mark (tested); tests check them. Everything else about results and effects is
 * proved. */
#ifndef RLSF_POOL_H
#define RLSF_POOL_H

#include <stddef.h>

#ifdef __cplusplus
extern "C" {
#endif

#define RLSF_VERSION_MAJOR 0
#define RLSF_VERSION_MINOR 2
#define RLSF_VERSION_PATCH 0
#define RLSF_VERSION "0.2.0"

/* A pool at its handle. */
typedef struct rlsf_pool rlsf_pool;

/* Kinds of pools. A small pool has 12 first-level rows of 16 size classes, for payloads below 128 KiB. A large pool has 64 rows of 64
 * classes, for payloads of all sizes; its choice of blocks is finer. */
#define RLSF_SMALL ((size_t)1)
#define RLSF_LARGE ((size_t)2)

/* Errors. If more than one applies, a call returns the first that its comment lists. After an error nothing has changed.
 * The last range is the last inserted range with everything appended to it. */
typedef enum rlsf_pool_error {
    RLSF_OK = 0,
    RLSF_OUT_OF_MEMORY = 2,   /* the system is out of memory */
    RLSF_UNKNOWN_ADDRESS = 3, /* no payload is live at the address */
    RLSF_OUT_OF_RANGE = 4,    /* the bytes go past those of the payload */
    RLSF_OUTSIDE_MEMORY = 5,  /* the range doesn't lie in the memory */
    RLSF_NOT_BEHIND = 6,      /* the range begins before the end of the last range */
    RLSF_NOT_NEXT = 7,        /* the range doesn't begin at the end of the last range, or this is empty: none was inserted, or it was removed */
    RLSF_TOO_SHORT = 8,       /* no part of the range can be used */
    RLSF_NO_LAYOUT = 9,       /* the alignment is no power of two, or size and alignment together are above 2^63 */
    RLSF_NO_ROOM = 10,        /* there is no room */
    RLSF_NO_KIND = 11,        /* there is no such kind of pool */
    RLSF_ZERO_START = 12,     /* the start is 0, which is no address */
    RLSF_TOO_LONG = 13,       /* the end lies past the greatest address */
    RLSF_NO_BLOCK = 14,       /* no block begins at the address or behind it */
    RLSF_IN_USE = 15,         /* a payload is live in the range */
    RLSF_NOT_CHUNKS = 16      /* the range isn't an inserted one, with everything appended to it */
} rlsf_pool_error;

/* Returns the text of an error, in lower case and without a full stop. Returns "unknown error" if no error has the number. The text is
 * static. The function isn't proved. */
static inline const char *rlsf_pool_error_text(size_t error) {
    switch (error) {
    case RLSF_OK: return "success";
    case RLSF_OUT_OF_MEMORY: return "the system is out of memory";
    case RLSF_UNKNOWN_ADDRESS: return "no payload is live at the address";
    case RLSF_OUT_OF_RANGE: return "the bytes go past those of the payload";
    case RLSF_OUTSIDE_MEMORY: return "the range doesn't lie in the memory";
    case RLSF_NOT_BEHIND: return "the range begins before the end of the last range";
    case RLSF_NOT_NEXT: return "the range doesn't begin at the end of the last range";
    case RLSF_TOO_SHORT: return "no part of the range can be used";
    case RLSF_NO_LAYOUT: return "no layout has the size and the alignment";
    case RLSF_NO_ROOM: return "there is no room";
    case RLSF_NO_KIND: return "there is no such kind of pool";
    case RLSF_ZERO_START: return "the start is 0, which is no address";
    case RLSF_TOO_LONG: return "the end lies past the greatest address";
    case RLSF_NO_BLOCK: return "no block begins at the address or behind it";
    case RLSF_IN_USE: return "a payload is live in the range";
    case RLSF_NOT_CHUNKS: return "the range isn't an inserted one";
    default: return "unknown error";
    }
}

/* A number, or an error. On an error, `value` is 0. */
typedef struct {
    size_t error;
    size_t value;
} rlsf_pool_answer;

/* A block, or an error. On an error, the other fields are 0. */
typedef struct {
    size_t error;
    size_t start; /* the address at which it begins */
    size_t len;   /* its length in bytes, with the header that the allocator uses */
    size_t used;  /* 1 if it holds a live payload, else 0 */
} rlsf_pool_block;

/* The totals of some blocks. */
typedef struct {
    size_t payloads; /* the number of live payloads, one in each used block */
    size_t used;     /* the bytes of all used blocks, with their headers */
    size_t free;     /* the bytes of all free blocks */
    size_t longest;  /* the bytes of the longest free block, or 0 if there is none */
} rlsf_pool_statistics;

/* A block of a list. */
typedef struct {
    size_t start; /* the address at which it begins */
    size_t len;   /* its length in bytes, with the header that the allocator uses */
    size_t used;  /* 1 if it holds a live payload, else 0 */
} rlsf_pool_span;

/* The size of a handle of either kind in bytes. */
#define RLSF_POOL_SIZE 33928

/* Room for a handle that is static or on the stack: pass (rlsf_pool *)&handle to each call. (tested) A handle whose bytes are all 0, as a
 * static one begins, is that of an ended pool: rlsf_pool_destroy does nothing there. */
typedef union {
    rlsf_pool *aligned; /* never used */
    unsigned char pool[RLSF_POOL_SIZE];
} rlsf_pool_handle;

/* Returns the size of a handle in bytes, which is RLSF_POOL_SIZE. */
size_t rlsf_pool_size(void);

/* Returns the length in bytes of a range in which a pool of the kind refuses no payload within some bounds. Each payload has up to `size`
 * bytes and an alignment of up to `align`. At most `count` are live before each rlsf_pool_allocate and each rlsf_pool_realloc. The order of the calls
 * doesn't matter.
 *
 * Insert the range at a multiple of 32, before the first payload. If `align` is at most 16, it is the least such length. docs/SIZING.md has
 * the formula.
 *
 * Returns 0 exactly in these cases:
 *   - There is no such kind.
 *   - RLSF_NO_LAYOUT applies to `size` and `align`.
 *   - No block is sure to be long enough.
 *   - The length is above the greatest size_t or, in a small pool, above 131072. */
size_t rlsf_pool_length_for_payloads(size_t kind, size_t count, size_t size, size_t align);

/* Returns the length in bytes of a range in which a pool of the kind refuses no payload of up to `size` bytes and an alignment of up to `align`.
 * At most `count` are live before each rlsf_pool_allocate and each rlsf_pool_realloc, and their blocks have at most `bytes` bytes together. The block
 * of a payload has its size and 16 bytes more, rounded up to a multiple of 32; an alignment above 16 counts as `align - 16` more bytes of the size.
 *
 * Insert the range at a multiple of 32. Returns 0 in the cases of rlsf_pool_length_for_payloads. */
size_t rlsf_pool_length_for_budget(size_t kind, size_t count, size_t bytes, size_t size, size_t align);

/* Returns the least length in bytes of a range in which such a payload can be allocated while no other is live there. Insert it in the
 * same way.
 *
 * Returns 0 exactly if there is no such kind, RLSF_NO_LAYOUT applies to `size` and `align`, or there is no such length. */
size_t rlsf_pool_length_for_allocation(size_t kind, size_t size, size_t align);

/* Makes a pool at a handle, over a memory with the addresses from `start` up to `start + len`. No range of it is inserted yet.
 *
 * Returns RLSF_NO_KIND, RLSF_ZERO_START or RLSF_TOO_LONG, each exactly if it applies, or RLSF_OUT_OF_MEMORY. After an error, all calls find
 * a pool without an address, and rlsf_pool_destroy must still be called.
 *
 * (tested) The call requests len + len / 16 bytes and a few more from malloc. After it, only rlsf_pool_insert requests any, for a list of ranges,
 * and not for the first range. The memory begins as zeros. */
size_t rlsf_pool_init(rlsf_pool *pool, size_t kind, size_t start, size_t len);

/* Ends a pool. The handle can be used for a new pool. Until then all calls find a pool without an address, and another rlsf_pool_destroy does
 * nothing. (tested) The memory is freed. */
void rlsf_pool_destroy(rlsf_pool *pool);

/* Does nothing. Call it only after rlsf_pool_destroy, or not at all; no call tests that. It is for proofs: its contract says that the handle of an
 * ended pool can be used for a new one. */
void rlsf_pool_room(rlsf_pool *pool);

/* Frees all payloads and removes all ranges. The pool is as after rlsf_pool_init, but (tested) the bytes of its memory stay. If rlsf_pool_init made no
 * pool or rlsf_pool_destroy ended it, nothing changes. The time grows with the memory: one byte is written for each 16 addresses. */
void rlsf_pool_reset(rlsf_pool *pool);

/* Returns the number of addresses of the memory: `len`, or 0 if rlsf_pool_init made no memory. */
size_t rlsf_pool_len(const rlsf_pool *pool);

/* Inserts a range of the memory. Its aligned part becomes free, in chunks of at least 64 bytes. Returns the number of bytes from its start
 * to the end of its last chunk. Payloads and their bytes are unchanged.
 *
 * Returns RLSF_OUTSIDE_MEMORY or RLSF_NOT_BEHIND, each exactly if it applies, else RLSF_OUT_OF_MEMORY, or RLSF_TOO_SHORT exactly if it applies. While
 * the last range is empty, no memory is requested. */
rlsf_pool_answer rlsf_pool_insert(rlsf_pool *pool, size_t start, size_t len);

/* Removes an inserted range: `start` is its start as inserted, and `len` the length that rlsf_pool_insert returned, and what rlsf_pool_append has
 * returned for it since then. Payloads and their bytes are unchanged.
 *
 * If it was the last range, that is empty then and has the same start, so the range can be inserted again. Otherwise the last range is unchanged,
 * and rlsf_pool_insert refuses the removed one, because it isn't behind the last range. The time grows with the numbers of ranges and of blocks of
 * this one.
 *
 * Returns RLSF_NOT_CHUNKS exactly if it applies, as to a part of a range or to several, else RLSF_IN_USE exactly if it applies. */
size_t rlsf_pool_remove(rlsf_pool *pool, size_t start, size_t len);

/* Removes the last range. Then the last range is empty and has the same start, so the range can be inserted again. Payloads and their bytes
 * are unchanged. If no range was inserted, nothing changes. The time grows with the number of blocks of the last range.
 *
 * Returns RLSF_IN_USE exactly if it applies. */
size_t rlsf_pool_remove_last(rlsf_pool *pool);

/* Appends a range, which begins at the end of the last range, to that range. Returns the number of bytes taken. In a large pool these are
 * all but those past a multiple of 32; in a small pool it takes them as rlsf_pool_insert does. Payloads and their bytes are unchanged.
 *
 * Returns RLSF_OUTSIDE_MEMORY, RLSF_NOT_NEXT or RLSF_TOO_SHORT, each exactly if it applies. */
rlsf_pool_answer rlsf_pool_append(rlsf_pool *pool, size_t start, size_t len);

/* Allocates a payload of `size` bytes and less than 32 more, at a multiple of `align`. Returns its address, at which no payload was live.
 * Its bytes may have any values. All other payloads and their bytes are unchanged.
 *
 * Returns RLSF_NO_LAYOUT exactly if it applies, else RLSF_NO_ROOM exactly if no free block has a class that reaches the sought size
 * (docs/SIZING.md). */
rlsf_pool_answer rlsf_pool_allocate(rlsf_pool *pool, size_t size, size_t align);

/* Allocates a payload as rlsf_pool_allocate does. All of its bytes are zeros. */
rlsf_pool_answer rlsf_pool_allocate_zeroed(rlsf_pool *pool, size_t size, size_t align);

/* Deallocates a payload. All other payloads and their bytes are unchanged.
 *
 * Returns RLSF_UNKNOWN_ADDRESS exactly if it applies. An address that was freed and allocated again is live, so it isn't refused. */
size_t rlsf_pool_free(rlsf_pool *pool, size_t addr);

/* Changes the size of a payload to `size` bytes and less than 32 more, and keeps its alignment. The payload may move. Returns its address.
 * As many of its first bytes as both sizes have are kept. All other payloads and their bytes are unchanged.
 *
 * Returns RLSF_UNKNOWN_ADDRESS or RLSF_NO_LAYOUT, each exactly if it applies, else RLSF_NO_ROOM exactly if there is no room. */
rlsf_pool_answer rlsf_pool_realloc(rlsf_pool *pool, size_t addr, size_t size);

/* Changes the size of a payload as rlsf_pool_realloc does, without moving it. Returns RLSF_NO_ROOM exactly if its block and a free one behind
 * it don't suffice. */
rlsf_pool_answer rlsf_pool_realloc_no_move(rlsf_pool *pool, size_t addr, size_t size);

/* Returns the number of bytes of a payload that may be read and written.
 *
 * Returns RLSF_UNKNOWN_ADDRESS exactly if it applies. */
rlsf_pool_answer rlsf_pool_usable(const rlsf_pool *pool, size_t addr);

/* Reads `len` bytes of a payload into `into`, from an offset on.
 *
 * Returns RLSF_UNKNOWN_ADDRESS or RLSF_OUT_OF_RANGE, each exactly if it applies. Then `into` is unchanged. */
size_t rlsf_pool_read(const rlsf_pool *pool, size_t addr, size_t offset, void *into, size_t len);

/* Overwrites `len` bytes of a payload, from an offset on. All other bytes of payloads are unchanged.
 *
 * Returns RLSF_UNKNOWN_ADDRESS or RLSF_OUT_OF_RANGE, each exactly if it applies. */
size_t rlsf_pool_write(rlsf_pool *pool, size_t addr, size_t offset, const void *bytes, size_t len);

/* Copies the first `len` bytes of the payload at `from` over the first `len` bytes of the payload at `to`. All other bytes of payloads are
 * unchanged. Both may be the same payload.
 *
 * Returns RLSF_UNKNOWN_ADDRESS exactly if it applies to one of the addresses, else RLSF_OUT_OF_RANGE exactly if one of the payloads has
 * fewer bytes. */
size_t rlsf_pool_copy(rlsf_pool *pool, size_t from, size_t to, size_t len);

/* Returns the totals of the used and free blocks of all ranges. The time grows with the numbers of blocks and ranges. */
rlsf_pool_statistics rlsf_pool_stats(const rlsf_pool *pool);

/* Returns the first block, of any range, that begins at `from` or behind it. To iterate, begin at 0 and continue at each block's
 * start + len. The time grows with the numbers of blocks and ranges up to that one.
 *
 * Returns RLSF_NO_BLOCK exactly if it applies. */
rlsf_pool_block rlsf_pool_walk(const rlsf_pool *pool, size_t from);

/* Lists the blocks of all ranges that begin at `from` or behind it, in address order, as three numbers each: start, length, and 1 if
 * used, else 0. Returns the number of listed blocks: all of them, or `len / 3` if there are more. The numbers behind those of the listed
 * blocks are unchanged. The time grows with the numbers of blocks and ranges.
 *
 * The condition for `into` applies to `numbers`, which has room for `len` numbers, less than 2^60. */
size_t rlsf_pool_list(const rlsf_pool *pool, size_t from, size_t *numbers, size_t len);

/* Fills an array of `count` blocks as rlsf_pool_list does, and returns the number of filled ones. To go on behind a full array, pass the last
 * block's start + len as `from`. 3 * count is less than 2^60. The function only calls rlsf_pool_list. */
static inline size_t rlsf_pool_blocks(const rlsf_pool *pool, size_t from, rlsf_pool_span *blocks, size_t count) {
    return rlsf_pool_list(pool, from, &blocks->start, 3 * count);
}

#ifdef __cplusplus
}
#endif

#endif
