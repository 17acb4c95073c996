/* An allocator of ranges of a space that it never accesses, as the memory of a GPU, a file, or identifiers. It is a part of librlsf_pool.a, whose
 * calls take a bounded number of steps, and whose contracts a prover has checked. docs/C.md shows how to link it.
 *
 * It counts in units. Choose what a unit stands for: 256 bytes, a page, one identifier. An offset, a length and an alignment are numbers of units,
 * so a program that counts in bytes multiplies and divides by its unit.
 *
 * Live ranges lie in the space, and no two of them have a unit in common. A range has exactly as many units as were asked for, and at least one. A
 * range with an alignment of `a` units may keep up to `a - 1` units in front of it from others, until it is freed.
 *
 * Conditions on the caller, in each call. No call tests them:
 *   - The handle has RLSF_OFFSETS_SIZE bytes, aligned as a pointer. rlsf_offsets_init was called with it, or its bytes are all 0 (tested). Since
 *     then nothing but the library wrote to it.
 *   - One call on a handle runs at a time. Another thread may use the handle next, if a lock, or the thread's start or end, orders the two.
 *   - malloc, realloc and free belong to one allocator, and align as C requires. No call comes from a signal handler, or from a forked
 *     child of a process with threads.
 * All other conditions are tested: every number may be passed as an offset, a length or an alignment.
 *
 * In a comment, no contract can state the sentences after the mark (tested); tests check them. Everything else about results and effects is
 * proved. */
#ifndef RLSF_OFFSETS_H
#define RLSF_OFFSETS_H

#include <stddef.h>

#ifdef __cplusplus
extern "C" {
#endif

/* A space at its handle. */
typedef struct rlsf_offsets rlsf_offsets;

/* Errors. If more than one applies, a call returns RLSF_OFFSETS_NO_SPACE, or else the first that its comment lists. After an error nothing has
 * changed. */
typedef enum rlsf_offsets_error {
    RLSF_OFFSETS_OK = 0,
    RLSF_OFFSETS_BAD_ALIGN = 2,      /* the alignment is no power of two */
    RLSF_OFFSETS_UNKNOWN_OFFSET = 3, /* no range is live at the offset */
    RLSF_OFFSETS_TOO_LONG = 4,       /* the space has fewer units or, where it is made or grows, can't have as many */
    RLSF_OFFSETS_TOO_SHORT = 5,      /* the space has more units */
    RLSF_OFFSETS_NO_ROOM = 6,        /* there is no room */
    RLSF_OFFSETS_OUT_OF_MEMORY = 7,  /* the system is out of memory */
    RLSF_OFFSETS_NO_SPACE = 8        /* there is no space: rlsf_offsets_init made none, or it ended */
} rlsf_offsets_error;

/* A number, or an error. On an error, `value` is 0. */
typedef struct {
    size_t error;
    size_t value;
} rlsf_offsets_answer;

/* The totals of a space, in units but for the first. */
typedef struct {
    size_t ranges;  /* the number of live ranges */
    size_t used;    /* those of live ranges, with those that their alignments keep in front */
    size_t free;    /* those of free ranges */
    size_t longest; /* those of the longest free range, or 0 if there is none */
} rlsf_offsets_statistics;

/* The size of a handle in bytes. */
#define RLSF_OFFSETS_SIZE 4800

/* Room for a handle that is static or on the stack: pass (rlsf_offsets *)&handle to each call. (tested) A handle whose bytes are all 0, as a
 * static one begins, is that of an ended space: rlsf_offsets_destroy does nothing there. */
typedef union {
    rlsf_offsets *aligned; /* never used */
    unsigned char space[RLSF_OFFSETS_SIZE];
} rlsf_offsets_handle;

/* Returns the size of a handle in bytes, which is RLSF_OFFSETS_SIZE. */
size_t rlsf_offsets_size(void);

/* Makes a space of `units` units at a handle, all of which are free. It can grow to `limit` units; if `limit` is less than `units`, it can't grow.
 *
 * Returns RLSF_OFFSETS_TOO_LONG exactly if `units` or `limit` is above 2^56, or RLSF_OFFSETS_OUT_OF_MEMORY. After an error, there is no space, and
 * rlsf_offsets_destroy must still be called.
 *
 * (tested) For each unit that the space can get, the call requests 33 bytes from malloc, and writes one of them. The others become resident only where
 * the space is used. No other call requests any. */
size_t rlsf_offsets_init(rlsf_offsets *space, size_t units, size_t limit);

/* Ends a space. The handle can be used for a new one. Until then there is no space, and another rlsf_offsets_destroy does nothing. (tested) What
 * rlsf_offsets_init requested is freed. */
void rlsf_offsets_destroy(rlsf_offsets *space);

/* Does nothing. Call it only after rlsf_offsets_destroy, or not at all; no call tests that. It is for proofs: its contract says that the handle of an
 * ended space can be used for a new one. */
void rlsf_offsets_room(rlsf_offsets *space);

/* Returns the number of units of the space, or 0 if there is no space. */
size_t rlsf_offsets_units(const rlsf_offsets *space);

/* Allocates a range of `units` units, or of one if `units` is 0, at a multiple of `align`. Returns its offset, at which no range was live. All other
 * ranges are unchanged. It makes at most 27 word accesses.
 *
 * Returns RLSF_OFFSETS_BAD_ALIGN or RLSF_OFFSETS_TOO_LONG, each exactly if it applies, else RLSF_OFFSETS_NO_ROOM exactly if no free range has a class
 * that reaches units + align - 1 (docs/SIZING.md), with 8 classes for each power of two. */
rlsf_offsets_answer rlsf_offsets_allocate(rlsf_offsets *space, size_t units, size_t align);

/* Deallocates a range. All other ranges are unchanged. It makes at most 33 word accesses.
 *
 * Returns RLSF_OFFSETS_UNKNOWN_OFFSET exactly if it applies. An offset that was freed and allocated again is live, so it isn't refused. */
size_t rlsf_offsets_free(rlsf_offsets *space, size_t offset);

/* Changes the number of units of a range, which stays at its offset. All other ranges are unchanged. It makes at most 26 word accesses.
 *
 * Returns RLSF_OFFSETS_UNKNOWN_OFFSET exactly if it applies, else RLSF_OFFSETS_NO_ROOM exactly if the range had fewer units, and no free range that begins
 * at its end has the rest. */
size_t rlsf_offsets_resize(rlsf_offsets *space, size_t offset, size_t units);

/* Makes the space `units` units long. The new ones are free, and all ranges are unchanged. It makes at most 34 word accesses.
 *
 * Returns RLSF_OFFSETS_TOO_LONG exactly if `units` is above the limit, or RLSF_OFFSETS_TOO_SHORT exactly if it applies. */
size_t rlsf_offsets_grow(rlsf_offsets *space, size_t units);

/* Returns the number of units of a range.
 *
 * Returns RLSF_OFFSETS_UNKNOWN_OFFSET exactly if it applies. */
rlsf_offsets_answer rlsf_offsets_len(const rlsf_offsets *space, size_t offset);

/* Returns the totals of the space, which are 0 if there is none. The time grows with the number of ranges. */
rlsf_offsets_statistics rlsf_offsets_stats(const rlsf_offsets *space);

#ifdef __cplusplus
}
#endif

#endif
