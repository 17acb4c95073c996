/* Each call of include/rlsf_offsets.h, used well and badly, and 300,000 random calls, many of them wrong, against a table of ranges. */
#include "rlsf_offsets.h"
#include "want.h"
#include <stdint.h>
#include <string.h>

/* An answer: its error, and its value. */
#define ANSWER(call, e, v)                    \
    do {                                      \
        rlsf_offsets_answer a_ = (call);      \
        want(#call " error", a_.error, e);    \
        want(#call " value", a_.value, v);    \
    } while (0)

enum { CALLS = 300000, UNITS = 3000, LIMIT = 4000 };

static rlsf_offsets_handle handle;
static rlsf_offsets *const space = (rlsf_offsets *)&handle;
static size_t units_at[LIMIT]; /* of the live range that begins there, or 0 */
static unsigned char taken[LIMIT];
static size_t count, units = UNITS;
static uint64_t state = 0x9E3779B97F4A7C15u;

_Static_assert(RLSF_OFFSETS_SIZE % sizeof(size_t) == 0, "handles in an array are aligned");

static void numbers(void) {
    WANT(RLSF_OFFSETS_OK, 0);
    WANT(RLSF_OFFSETS_BAD_ALIGN, 2);
    WANT(RLSF_OFFSETS_UNKNOWN_OFFSET, 3);
    WANT(RLSF_OFFSETS_TOO_LONG, 4);
    WANT(RLSF_OFFSETS_TOO_SHORT, 5);
    WANT(RLSF_OFFSETS_NO_ROOM, 6);
    WANT(RLSF_OFFSETS_OUT_OF_MEMORY, 7);
    WANT(RLSF_OFFSETS_NO_SPACE, 8);
    WANT(sizeof(rlsf_offsets_handle), RLSF_OFFSETS_SIZE);
    WANT(rlsf_offsets_size(), RLSF_OFFSETS_SIZE);
}

/* What each call returns where there is no space. */
static void without_space(void) {
    rlsf_offsets_statistics totals = rlsf_offsets_stats(space);
    WANT(rlsf_offsets_units(space), 0);
    ANSWER(rlsf_offsets_allocate(space, 1, 1), RLSF_OFFSETS_NO_SPACE, 0);
    ANSWER(rlsf_offsets_allocate(space, 1, 3), RLSF_OFFSETS_NO_SPACE, 0);
    ANSWER(rlsf_offsets_len(space, 0), RLSF_OFFSETS_NO_SPACE, 0);
    WANT(rlsf_offsets_free(space, 0), RLSF_OFFSETS_NO_SPACE);
    WANT(rlsf_offsets_resize(space, 0, 1), RLSF_OFFSETS_NO_SPACE);
    WANT(rlsf_offsets_grow(space, 1), RLSF_OFFSETS_NO_SPACE);
    WANT(totals.ranges + totals.used + totals.free + totals.longest, 0);
}

/* A space of 16 units that can grow to 24. */
static void few_units(void) {
    WANT(rlsf_offsets_init(space, ((size_t)1 << 56) + 1, 0), RLSF_OFFSETS_TOO_LONG);
    without_space();
    rlsf_offsets_destroy(space);
    WANT(rlsf_offsets_init(space, 16, (size_t)1 << 56), RLSF_OFFSETS_OUT_OF_MEMORY);
    without_space();
    rlsf_offsets_destroy(space);
    WANT(rlsf_offsets_init(space, 16, 24), RLSF_OFFSETS_OK);
    WANT(rlsf_offsets_units(space), 16);
    ANSWER(rlsf_offsets_allocate(space, 5, 1), RLSF_OFFSETS_OK, 0);
    ANSWER(rlsf_offsets_allocate(space, 0, 4), RLSF_OFFSETS_OK, 8);
    ANSWER(rlsf_offsets_len(space, 8), RLSF_OFFSETS_OK, 1);
    ANSWER(rlsf_offsets_len(space, 7), RLSF_OFFSETS_UNKNOWN_OFFSET, 0);
    ANSWER(rlsf_offsets_allocate(space, 1, 0), RLSF_OFFSETS_BAD_ALIGN, 0);
    ANSWER(rlsf_offsets_allocate(space, 17, 6), RLSF_OFFSETS_BAD_ALIGN, 0);
    ANSWER(rlsf_offsets_allocate(space, 17, 1), RLSF_OFFSETS_TOO_LONG, 0);
    ANSWER(rlsf_offsets_allocate(space, 16, 1), RLSF_OFFSETS_NO_ROOM, 0);
    ANSWER(rlsf_offsets_allocate(space, 1, (size_t)1 << 63), RLSF_OFFSETS_NO_ROOM, 0);
    WANT(rlsf_offsets_resize(space, 8, 8), RLSF_OFFSETS_OK);
    WANT(rlsf_offsets_resize(space, 8, 9), RLSF_OFFSETS_NO_ROOM);
    WANT(rlsf_offsets_resize(space, 9, 1), RLSF_OFFSETS_UNKNOWN_OFFSET);
    WANT(rlsf_offsets_grow(space, 15), RLSF_OFFSETS_TOO_SHORT);
    WANT(rlsf_offsets_grow(space, 25), RLSF_OFFSETS_TOO_LONG);
    WANT(rlsf_offsets_grow(space, 24), RLSF_OFFSETS_OK);
    WANT(rlsf_offsets_resize(space, 8, 9), RLSF_OFFSETS_OK);
    rlsf_offsets_statistics totals = rlsf_offsets_stats(space);
    WANT(totals.ranges, 2);
    WANT(totals.used, 17);
    WANT(totals.free, 7);
    WANT(totals.longest, 7);
    WANT(rlsf_offsets_free(space, 8), RLSF_OFFSETS_OK);
    WANT(rlsf_offsets_free(space, 8), RLSF_OFFSETS_UNKNOWN_OFFSET);
    WANT(rlsf_offsets_stats(space).longest, 19);
    rlsf_offsets_destroy(space);
    rlsf_offsets_destroy(space);
    without_space();
}

static uint64_t draw(void) {
    state ^= state << 13;
    state ^= state >> 7;
    state ^= state << 17;
    return state * 0x2545F4914F6CDD1Du;
}
static size_t below(size_t n) { return (size_t)(draw() >> 20) % n; }

/* Notes that a range has some units, after a look that each of them was free. */
static void take(size_t offset, size_t n) {
    WANT(offset + n <= units, 1);
    for (size_t i = offset; i < offset + n; i++) {
        WANT(taken[i], 0);
        taken[i] = 1;
    }
    units_at[offset] = n;
    count++;
}

static void give(size_t offset) {
    memset(taken + offset, 0, units_at[offset]);
    units_at[offset] = 0;
    count--;
}

/* An offset: of a live range where one is found soon, or any. */
static size_t some_offset(void) {
    size_t offset = below(units);
    if (below(16) == 0) return (size_t)draw();
    for (int i = 0; i < 40 && !units_at[offset]; i++) offset = (offset + 1) % units;
    return offset;
}
static size_t live_units(size_t offset) { return offset < LIMIT ? units_at[offset] : 0; }

static void random_allocation(void) {
    size_t n = below(30) ? below(40) : (size_t)draw();
    size_t align = below(8) ? (size_t)1 << below(6) : below(70);
    rlsf_offsets_answer answer = rlsf_offsets_allocate(space, n, align);
    int power = align && !(align & (align - 1));
    WANT(answer.error == RLSF_OFFSETS_BAD_ALIGN, !power);
    if (power) WANT(answer.error == RLSF_OFFSETS_TOO_LONG, n > units);
    if (answer.error) {
        WANT(answer.value, 0);
        return;
    }
    WANT(answer.value % align, 0);
    take(answer.value, n ? n : 1);
}

static void random_resize(void) {
    size_t offset = some_offset(), n = below(30) ? below(60) : (size_t)draw(), had = live_units(offset);
    size_t error = rlsf_offsets_resize(space, offset, n);
    WANT(error == RLSF_OFFSETS_UNKNOWN_OFFSET, !had);
    if (n <= had) WANT(error, had ? RLSF_OFFSETS_OK : RLSF_OFFSETS_UNKNOWN_OFFSET);
    if (error) return;
    give(offset);
    take(offset, n ? n : 1);
}

static void random_growth(void) {
    size_t n = units + below(40);
    size_t error = rlsf_offsets_grow(space, below(10) ? n : n - 40);
    if (error == RLSF_OFFSETS_OK) units = rlsf_offsets_units(space);
    else WANT(error == RLSF_OFFSETS_TOO_LONG || error == RLSF_OFFSETS_TOO_SHORT, 1);
    WANT(units <= LIMIT, 1);
}

static void random_call(void) {
    size_t kind = below(1000), offset = some_offset(), had = live_units(offset);
    if (kind < 450) random_allocation();
    else if (kind < 600) random_resize();
    else if (kind < 602) random_growth();
    else if (kind < 700) ANSWER(rlsf_offsets_len(space, offset), had ? RLSF_OFFSETS_OK : RLSF_OFFSETS_UNKNOWN_OFFSET, had);
    else {
        WANT(rlsf_offsets_free(space, offset), had ? RLSF_OFFSETS_OK : RLSF_OFFSETS_UNKNOWN_OFFSET);
        if (had) give(offset);
    }
}

static void totals(void) {
    rlsf_offsets_statistics totals = rlsf_offsets_stats(space);
    size_t live = 0;
    for (size_t i = 0; i < units; i++) live += taken[i];
    WANT(totals.ranges, count);
    WANT(totals.used + totals.free, units);
    WANT(totals.used >= live, 1);
    WANT(totals.longest <= totals.free, 1);
}

int main(void) {
    without_space();
    numbers();
    few_units();
    WANT(rlsf_offsets_init(space, UNITS, LIMIT), RLSF_OFFSETS_OK);
    for (int i = 0; i < CALLS; i++) {
        random_call();
        if (i % 1000 == 0) totals();
    }
    for (size_t offset = 0; offset < units; offset++)
        if (units_at[offset]) {
            WANT(rlsf_offsets_free(space, offset), RLSF_OFFSETS_OK);
            give(offset);
        }
    /* All units are one free range again. */
    WANT(rlsf_offsets_stats(space).longest, units);
    rlsf_offsets_destroy(space);
    return 0;
}
