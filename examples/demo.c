/* Each call of the library, used well and badly: what it answers is compared with what the header says, its constants among it. */
#include "rlsf_pool.h"
#include <stdio.h>
#include <stdlib.h>
#include <string.h>

static int failures;

static void want(const char *what, size_t got, size_t wanted) {
    if (got != wanted) {
        printf("%s: %zu, wanted %zu\n", what, got, wanted);
        failures++;
    }
}
#define WANT(call, wanted) want(#call, (size_t)(call), (size_t)(wanted))
/* An answer: its error, and its value. */
#define ANSWER(call, e, v)               \
    do {                                 \
        rlsf_pool_answer a_ = (call);         \
        want(#call " error", a_.error, e); \
        want(#call " value", a_.value, v); \
    } while (0)

static rlsf_pool *room(void) {
    rlsf_pool *pool = malloc(rlsf_pool_size());
    if (!pool) abort();
    return pool;
}

/* The errors as numbers: who links a library by another header finds out here. */
static void numbers(void) {
    WANT(RLSF_OK, 0);
    WANT(RLSF_OUT_OF_MEMORY, 2);
    WANT(RLSF_UNKNOWN_ADDRESS, 3);
    WANT(RLSF_OUT_OF_RANGE, 4);
    WANT(RLSF_OUTSIDE_MEMORY, 5);
    WANT(RLSF_NOT_BEHIND, 6);
    WANT(RLSF_NOT_NEXT, 7);
    WANT(RLSF_TOO_SHORT, 8);
    WANT(RLSF_NO_LAYOUT, 9);
    WANT(RLSF_NO_ROOM, 10);
    WANT(RLSF_NO_KIND, 11);
    WANT(RLSF_ZERO_START, 12);
    WANT(RLSF_TOO_LONG, 13);
    WANT(RLSF_NO_BLOCK, 14);
    WANT(RLSF_IN_USE, 15);
    WANT(RLSF_NOT_CHUNKS, 16);
    WANT(sizeof(rlsf_pool_handle), RLSF_POOL_SIZE);
    WANT(rlsf_pool_size(), RLSF_POOL_SIZE);
    WANT(sizeof(rlsf_pool_span), 3 * sizeof(size_t));
}
_Static_assert(RLSF_POOL_SIZE % sizeof(size_t) == 0, "handles in an array are aligned");

/* The text of each number, with an error and without one. */
static void texts(void) {
    static const char *const all[] = {
        "success",
        "unknown error",
        "the system is out of memory",
        "no payload is live at the address",
        "the bytes go past those of the payload",
        "the range doesn't lie in the memory",
        "the range begins before the end of the last range",
        "the range doesn't begin at the end of the last range",
        "no part of the range can be used",
        "no layout has the size and the alignment",
        "there is no room",
        "there is no such kind of pool",
        "the start is 0, which is no address",
        "the end lies past the greatest address",
        "no block begins at the address or behind it",
        "a payload is live in the range",
        "the range isn't an inserted one",
        "unknown error",
    };
    for (size_t i = 0; i < sizeof all / sizeof *all; i++) WANT(strcmp(rlsf_pool_error_text(i), all[i]), 0);
    WANT(strcmp(rlsf_pool_error_text((size_t)-1), "unknown error"), 0);
    char version[16];
    snprintf(version, sizeof version, "%d.%d.%d", RLSF_VERSION_MAJOR, RLSF_VERSION_MINOR, RLSF_VERSION_PATCH);
    WANT(strcmp(version, RLSF_VERSION), 0);
}

/* A pool that wasn't made has no address, and its handle is ended like any. */
static void no_pool(size_t kind, size_t start, size_t len, size_t error) {
    rlsf_pool *p = room();
    unsigned char byte = 7;
    WANT(rlsf_pool_init(p, kind, start, len), error);
    WANT(rlsf_pool_len(p), 0);
    ANSWER(rlsf_pool_insert(p, 4096, 4096), RLSF_OUTSIDE_MEMORY, 0);
    ANSWER(rlsf_pool_append(p, 4096, 4096), RLSF_OUTSIDE_MEMORY, 0);
    ANSWER(rlsf_pool_allocate(p, 1, 3), RLSF_NO_LAYOUT, 0);
    ANSWER(rlsf_pool_allocate(p, 1, 1), RLSF_NO_ROOM, 0);
    WANT(rlsf_pool_free(p, 4112), RLSF_UNKNOWN_ADDRESS);
    ANSWER(rlsf_pool_realloc(p, 4112, 1), RLSF_UNKNOWN_ADDRESS, 0);
    ANSWER(rlsf_pool_realloc_no_move(p, 4112, 1), RLSF_UNKNOWN_ADDRESS, 0);
    ANSWER(rlsf_pool_usable(p, 4112), RLSF_UNKNOWN_ADDRESS, 0);
    WANT(rlsf_pool_read(p, 4112, 0, &byte, 1), RLSF_UNKNOWN_ADDRESS);
    WANT(rlsf_pool_write(p, 4112, 0, &byte, 1), RLSF_UNKNOWN_ADDRESS);
    WANT(byte, 7);
    rlsf_pool_statistics s = rlsf_pool_stats(p);
    WANT(s.payloads + s.used + s.free + s.longest, 0);
    WANT(rlsf_pool_walk(p, 0).error, RLSF_NO_BLOCK);
    rlsf_pool_span span = {7, 7, 7};
    WANT(rlsf_pool_blocks(p, 0, &span, 1), 0);
    WANT(span.start + span.len + span.used, 21);
    ANSWER(rlsf_pool_allocate_zeroed(p, 1, 3), RLSF_NO_LAYOUT, 0);
    ANSWER(rlsf_pool_allocate_zeroed(p, 1, 1), RLSF_NO_ROOM, 0);
    WANT(rlsf_pool_copy(p, 4112, 4112, 0), RLSF_UNKNOWN_ADDRESS);
    WANT(rlsf_pool_remove_last(p), RLSF_OK);
    WANT(rlsf_pool_remove(p, 4096, 4096), RLSF_NOT_CHUNKS);
    WANT(rlsf_pool_remove(p, 0, 0), RLSF_NOT_CHUNKS);
    rlsf_pool_reset(p);
    WANT(rlsf_pool_len(p), 0);
    rlsf_pool_destroy(p);
    rlsf_pool_destroy(p);
    WANT(rlsf_pool_len(p), 0);
    free(p);
}

/* A pool that was ended has no address, and another end does nothing. A handle may be used again, and may be static. */
static void ends(size_t kind) {
    static rlsf_pool_handle handle;
    rlsf_pool *p = (rlsf_pool *)&handle;
    if (kind == RLSF_SMALL) {                                   /* its bytes are zeros */
        WANT(rlsf_pool_len(p), 0);
        rlsf_pool_destroy(p);
    }
    for (int i = 0; i < 2; i++) {
        WANT(rlsf_pool_init(p, kind, 4096, 4096), RLSF_OK);
        WANT(rlsf_pool_insert(p, 4096, 4096).error, RLSF_OK);
        WANT(rlsf_pool_allocate(p, 16, 16).error, RLSF_OK);
        rlsf_pool_destroy(p);
        WANT(rlsf_pool_len(p), 0);
        ANSWER(rlsf_pool_allocate(p, 16, 16), RLSF_NO_ROOM, 0);
        WANT(rlsf_pool_free(p, 4112), RLSF_UNKNOWN_ADDRESS);
        rlsf_pool_destroy(p);
        rlsf_pool_reset(p);
        rlsf_pool_destroy(p);
    }
}

/* All blocks in one call, in parts, and by rlsf_pool_walk. */
static void lists(size_t kind) {
    enum { PAYLOADS = 100, MOST = 300 };
    static rlsf_pool_span spans[MOST + 1];
    rlsf_pool *p = room();
    size_t live[PAYLOADS], count = 0;
    WANT(rlsf_pool_init(p, kind, 4096, 1 << 20), RLSF_OK);
    WANT(rlsf_pool_insert(p, 4096, 1 << 20).error, RLSF_OK);
    for (size_t i = 0; i < PAYLOADS; i++) live[i] = rlsf_pool_allocate(p, 10 * i, 16).value;
    for (size_t i = 0; i < PAYLOADS; i += 3) WANT(rlsf_pool_free(p, live[i]), RLSF_OK);
    memset(spans, 7, sizeof spans);
    size_t all = rlsf_pool_blocks(p, 0, spans, MOST);
    for (rlsf_pool_block b = rlsf_pool_walk(p, 0); b.error == RLSF_OK; b = rlsf_pool_walk(p, b.start + b.len), count++) {
        WANT(spans[count].start, b.start);
        WANT(spans[count].len, b.len);
        WANT(spans[count].used, b.used);
    }
    WANT(all, count);
    WANT(spans[count].start == 0x0707070707070707u && spans[count].used == 0x0707070707070707u, 1);
    rlsf_pool_span part[7];
    size_t from = 0, found = 0, got;
    do {
        part[6].len = 5;
        got = rlsf_pool_blocks(p, from, part, 6);
        WANT(part[6].len, 5);
        for (size_t i = 0; i < got; i++) WANT(memcmp(&part[i], &spans[found + i], sizeof *part), 0);
        found += got;
        if (got) from = part[got - 1].start + part[got - 1].len;
    } while (got == 6);
    WANT(found, all);
    WANT(rlsf_pool_blocks(p, 0, part, 0), 0);
    size_t numbers[5] = {1, 2, 3, 4, 5};
    WANT(rlsf_pool_list(p, 0, numbers, 5), 1);
    WANT(numbers[0], spans[0].start);
    WANT(numbers[3] == 4 && numbers[4] == 5, 1);
    WANT(rlsf_pool_list(p, spans[3].start + 1, numbers, 3), 1);
    WANT(numbers[0], spans[4].start);
    WANT(rlsf_pool_list(p, (size_t)-1, numbers, 5), 0);
    rlsf_pool_destroy(p);
    free(p);
}

/* Payloads of zeros where others were, and copies between payloads. */
static void zeroed(size_t kind) {
    rlsf_pool *p = room();
    unsigned char in[64], out[64];
    memset(in, 7, sizeof in);
    WANT(rlsf_pool_init(p, kind, 4096, 4096), RLSF_OK);
    WANT(rlsf_pool_insert(p, 4096, 4096).error, RLSF_OK);
    size_t addr = rlsf_pool_allocate(p, 60, 16).value, usable = rlsf_pool_usable(p, addr).value;
    WANT(usable >= 60 && usable <= 64 + 31, 1);
    WANT(rlsf_pool_write(p, addr, 0, in, 60), RLSF_OK);
    WANT(rlsf_pool_free(p, addr), RLSF_OK);
    ANSWER(rlsf_pool_allocate_zeroed(p, 60, 16), RLSF_OK, addr);
    for (size_t i = 0; i < usable; i++) {
        WANT(rlsf_pool_read(p, addr, i, out, 1), RLSF_OK);
        WANT(out[0], 0);
    }
    ANSWER(rlsf_pool_allocate_zeroed(p, 60, 3), RLSF_NO_LAYOUT, 0);
    ANSWER(rlsf_pool_allocate_zeroed(p, 1 << 20, 16), RLSF_NO_ROOM, 0);
    size_t other = rlsf_pool_allocate(p, 32, 32).value, most = rlsf_pool_usable(p, other).value;
    WANT(rlsf_pool_write(p, other, 0, in, 32), RLSF_OK);
    WANT(rlsf_pool_copy(p, other, addr, 20), RLSF_OK);
    WANT(rlsf_pool_read(p, addr, 0, out, 60), RLSF_OK);
    for (size_t i = 0; i < 60; i++) WANT(out[i], i < 20 ? 7 : 0);
    WANT(rlsf_pool_copy(p, other, addr, most + 1), RLSF_OUT_OF_RANGE);
    WANT(rlsf_pool_copy(p, addr, other, most + 1), RLSF_OUT_OF_RANGE);
    WANT(rlsf_pool_copy(p, addr, other, (size_t)-1), RLSF_OUT_OF_RANGE);
    WANT(rlsf_pool_copy(p, addr, addr + 1, 1), RLSF_UNKNOWN_ADDRESS);
    WANT(rlsf_pool_copy(p, 0, addr, 1), RLSF_UNKNOWN_ADDRESS);
    WANT(rlsf_pool_copy(p, addr, 0, (size_t)-1), RLSF_UNKNOWN_ADDRESS);
    WANT(rlsf_pool_copy(p, other, other, most), RLSF_OK);
    WANT(rlsf_pool_copy(p, addr, other, 0), RLSF_OK);
    WANT(rlsf_pool_read(p, other, 0, out, 32), RLSF_OK);
    WANT(memcmp(in, out, 32), 0);
    rlsf_pool_destroy(p);
    free(p);
}

/* The last range is removed once no payload lives in it. A reset removes all. */
static void removals(size_t kind) {
    rlsf_pool *p = room();
    WANT(rlsf_pool_init(p, kind, 4096, 65536), RLSF_OK);
    WANT(rlsf_pool_remove_last(p), RLSF_OK);
    ANSWER(rlsf_pool_insert(p, 4096, 96), RLSF_OK, 96);
    ANSWER(rlsf_pool_allocate(p, 48, 16), RLSF_OK, 4112);
    ANSWER(rlsf_pool_insert(p, 8201, 4096), RLSF_OK, 4096 - 9);      /* from 8224 to 12288 */
    size_t addr = rlsf_pool_allocate(p, 1000, 16).value;
    WANT(addr >= 8224, 1);
    WANT(rlsf_pool_remove_last(p), RLSF_IN_USE);
    ANSWER(rlsf_pool_usable(p, addr), RLSF_OK, rlsf_pool_usable(p, addr).value);
    WANT(rlsf_pool_stats(p).payloads, 2);                             /* one in each range */
    rlsf_pool_span spans[4];
    WANT(rlsf_pool_blocks(p, 0, spans, 4), 3);                        /* of the first range one, and of the other two */
    WANT(spans[0].start == 4096 && spans[0].len == 64 && spans[0].used == 1, 1);
    WANT(spans[1].start == 8224 && spans[1].len == 1024 && spans[1].used == 1, 1);
    WANT(spans[2].start == 9248 && spans[2].len == 3008 && spans[2].used == 0, 1);
    WANT(rlsf_pool_walk(p, 4097).start, 8224);
    WANT(rlsf_pool_free(p, addr), RLSF_OK);
    WANT(rlsf_pool_remove_last(p), RLSF_OK);
    WANT(rlsf_pool_stats(p).free, 0);
    ANSWER(rlsf_pool_allocate(p, 1000, 16), RLSF_NO_ROOM, 0);
    WANT(rlsf_pool_remove_last(p), RLSF_OK);                          /* it is empty */
    ANSWER(rlsf_pool_append(p, 8201, 4096), RLSF_NOT_NEXT, 0);
    ANSWER(rlsf_pool_insert(p, 8200, 4096), RLSF_NOT_BEHIND, 0);
    ANSWER(rlsf_pool_insert(p, 8201, 4096), RLSF_OK, 4096 - 9);
    WANT(rlsf_pool_allocate(p, 1000, 16).error, RLSF_OK);
    WANT(rlsf_pool_usable(p, 4112).error, RLSF_OK);
    rlsf_pool_reset(p);
    WANT(rlsf_pool_len(p), 65536);
    WANT(rlsf_pool_usable(p, 4112).error, RLSF_UNKNOWN_ADDRESS);
    WANT(rlsf_pool_stats(p).used + rlsf_pool_stats(p).free, 0);
    ANSWER(rlsf_pool_allocate(p, 1, 1), RLSF_NO_ROOM, 0);
    ANSWER(rlsf_pool_insert(p, 4096, 96), RLSF_OK, 96);
    ANSWER(rlsf_pool_allocate(p, 48, 16), RLSF_OK, 4112);
    rlsf_pool_destroy(p);
    free(p);
}

/* Each inserted range is removed once no payload lives in it, as it has grown, and nothing else is. */
static void ranges(size_t kind) {
    rlsf_pool *p = room();
    WANT(rlsf_pool_init(p, kind, 4096, 65536), RLSF_OK);
    WANT(rlsf_pool_remove(p, 4096, 1024), RLSF_NOT_CHUNKS);
    ANSWER(rlsf_pool_insert(p, 4096, 1024), RLSF_OK, 1024);
    size_t addr = rlsf_pool_allocate(p, 900, 16).value;
    ANSWER(rlsf_pool_insert(p, 8192, 1024), RLSF_OK, 1024);
    ANSWER(rlsf_pool_insert(p, 9216, 1024), RLSF_OK, 1024);           /* contiguous with the range before */
    size_t wrong[][2] = {{0, 0}, {4096, 0}, {4096, 992}, {4096, 1025}, {4128, 992}, {4064, 1056}, {4095, 1025}, {5120, 1024}, {8192, 1536},
                         {8704, 512}, {9216, 1056}, {8192, 2048}, {8185, 1031}, {69632, 0}, {4096, (size_t)-1}, {(size_t)-1, (size_t)-1}};
    for (size_t i = 0; i < sizeof wrong / sizeof *wrong; i++) WANT(rlsf_pool_remove(p, wrong[i][0], wrong[i][1]), RLSF_NOT_CHUNKS);
    WANT(rlsf_pool_remove(p, 4096, 1024), RLSF_IN_USE);
    WANT(rlsf_pool_remove(p, 8192, 1024), RLSF_OK);
    WANT(rlsf_pool_remove(p, 8192, 1024), RLSF_NOT_CHUNKS);           /* twice */
    WANT(rlsf_pool_stats(p).free, 1024 - 32 + 1024 - 32 - 928);
    ANSWER(rlsf_pool_insert(p, 8192, 1024), RLSF_NOT_BEHIND, 0);
    ANSWER(rlsf_pool_append(p, 10240, 64), RLSF_OK, 64);              /* the last range is unchanged */
    WANT(rlsf_pool_usable(p, addr).error, RLSF_OK);
    WANT(rlsf_pool_remove(p, 9216, 1024), RLSF_NOT_CHUNKS);           /* a part of it */
    WANT(rlsf_pool_remove(p, 9216, 1088), RLSF_OK);
    ANSWER(rlsf_pool_allocate(p, 900, 16), RLSF_NO_ROOM, 0);
    ANSWER(rlsf_pool_append(p, 9216, 64), RLSF_NOT_NEXT, 0);
    ANSWER(rlsf_pool_insert(p, 9216, 1088), RLSF_OK, 1088);
    WANT(rlsf_pool_allocate(p, 900, 16).error, RLSF_OK);
    WANT(rlsf_pool_free(p, addr), RLSF_OK);
    WANT(rlsf_pool_remove(p, 4096, 1024), RLSF_OK);                   /* a payload lives in the other range */
    WANT(rlsf_pool_stats(p).payloads, 1);
    rlsf_pool_destroy(p);
    free(p);
}

/* A chunk with room for two payloads; ranges that aren't taken. */
static rlsf_pool *two_blocks(size_t kind) {
    rlsf_pool *p = room();
    WANT(rlsf_pool_init(p, kind, 4096, 4096), RLSF_OK);
    WANT(rlsf_pool_len(p), 4096);
    ANSWER(rlsf_pool_allocate(p, 1, 1), RLSF_NO_ROOM, 0);         /* no range yet */
    ANSWER(rlsf_pool_append(p, 4096, 96), RLSF_NOT_NEXT, 0);      /* none to make longer */
    ANSWER(rlsf_pool_insert(p, 8000, 1000), RLSF_OUTSIDE_MEMORY, 0);
    ANSWER(rlsf_pool_insert(p, 4096, 63), RLSF_TOO_SHORT, 0);
    ANSWER(rlsf_pool_insert(p, 4096, 96), RLSF_OK, 96);
    ANSWER(rlsf_pool_insert(p, 4096, 96), RLSF_NOT_BEHIND, 0);    /* twice */
    ANSWER(rlsf_pool_append(p, 4224, 96), RLSF_NOT_NEXT, 0);
    ANSWER(rlsf_pool_append(p, 4192, 31), RLSF_TOO_SHORT, 0);
    return p;
}

/* Payloads in the two blocks. */
static void payloads(size_t kind) {
    rlsf_pool *p = two_blocks(kind);
    ANSWER(rlsf_pool_allocate(p, 0, 3), RLSF_NO_LAYOUT, 0);
    ANSWER(rlsf_pool_allocate(p, (size_t)1 << 63, 1), RLSF_NO_LAYOUT, 0);
    ANSWER(rlsf_pool_allocate(p, 0, 1), RLSF_OK, 4112);
    ANSWER(rlsf_pool_allocate(p, 0, 1), RLSF_OK, 4144);
    ANSWER(rlsf_pool_allocate(p, 0, 1), RLSF_NO_ROOM, 0);
    ANSWER(rlsf_pool_usable(p, 4112), RLSF_OK, 16);
    ANSWER(rlsf_pool_usable(p, 4113), RLSF_UNKNOWN_ADDRESS, 0);
    WANT(rlsf_pool_free(p, 4113), RLSF_UNKNOWN_ADDRESS);
    WANT(rlsf_pool_free(p, 0), RLSF_UNKNOWN_ADDRESS);
    WANT(rlsf_pool_free(p, (size_t)-1), RLSF_UNKNOWN_ADDRESS);
    WANT(rlsf_pool_free(p, 4112), RLSF_OK);
    WANT(rlsf_pool_free(p, 4112), RLSF_UNKNOWN_ADDRESS);          /* twice */
    ANSWER(rlsf_pool_allocate(p, 0, 1), RLSF_OK, 4112);
    rlsf_pool_destroy(p);
    free(p);
}

/* The bytes of one of them, and its size. */
static void bytes(size_t kind) {
    rlsf_pool *p = two_blocks(kind);
    unsigned char in[16] = "fifteen bytes..", out[16] = {0};
    ANSWER(rlsf_pool_allocate(p, 0, 1), RLSF_OK, 4112);
    ANSWER(rlsf_pool_allocate(p, 0, 1), RLSF_OK, 4144);
    WANT(rlsf_pool_write(p, 4112, 0, in, 16), RLSF_OK);
    WANT(rlsf_pool_read(p, 4112, 0, out, 16), RLSF_OK);
    WANT(memcmp(in, out, 16), 0);
    WANT(rlsf_pool_read(p, 4112, 8, out, 8), RLSF_OK);
    WANT(memcmp(in + 8, out, 8), 0);
    WANT(rlsf_pool_write(p, 4112, 1, in, 16), RLSF_OUT_OF_RANGE); /* past its end */
    WANT(rlsf_pool_write(p, 4112, (size_t)-1, in, 2), RLSF_OUT_OF_RANGE);
    WANT(rlsf_pool_write(p, 4128, 0, in, 1), RLSF_UNKNOWN_ADDRESS);
    WANT(rlsf_pool_read(p, 4112, 17, out, 0), RLSF_OUT_OF_RANGE);
    WANT(rlsf_pool_read(p, 4112, 16, out, 0), RLSF_OK);
    ANSWER(rlsf_pool_realloc_no_move(p, 4112, 16), RLSF_OK, 4112);
    ANSWER(rlsf_pool_realloc_no_move(p, 4112, 17), RLSF_NO_ROOM, 0);
    ANSWER(rlsf_pool_realloc(p, 4112, 17), RLSF_NO_ROOM, 0);
    ANSWER(rlsf_pool_realloc(p, 4112, (size_t)1 << 63), RLSF_NO_LAYOUT, 0);
    ANSWER(rlsf_pool_realloc(p, 4128, (size_t)1 << 63), RLSF_UNKNOWN_ADDRESS, 0);
    WANT(rlsf_pool_read(p, 4112, 0, out, 16), RLSF_OK);
    WANT(memcmp(in, out, 16), 0);
    rlsf_pool_destroy(p);
    free(p);
}

/* A payload that grows, and moves; the blocks beside it. */
static void blocks(size_t kind) {
    rlsf_pool *p = room();
    unsigned char in[16] = "fifteen bytes..", out[16] = {0};
    WANT(rlsf_pool_init(p, kind, 4096, 65536), RLSF_OK);
    ANSWER(rlsf_pool_insert(p, 4096, 1024), RLSF_OK, 1024);
    ANSWER(rlsf_pool_append(p, 5120, 1024), RLSF_OK, 1024);
    rlsf_pool_answer first = rlsf_pool_allocate(p, 16, 1), second = rlsf_pool_allocate(p, 16, 64);
    WANT(first.error, RLSF_OK);
    WANT(second.error, RLSF_OK);
    WANT(second.value % 64, 0);
    WANT(rlsf_pool_write(p, first.value, 0, in, 16), RLSF_OK);
    rlsf_pool_answer moved = rlsf_pool_realloc(p, first.value, 200);
    WANT(moved.error, RLSF_OK);
    WANT(rlsf_pool_read(p, moved.value, 0, out, 16), RLSF_OK);
    WANT(memcmp(in, out, 16), 0);
    rlsf_pool_statistics s = rlsf_pool_stats(p);
    WANT(s.payloads, 2);
    WANT(s.used + s.free, 2048 - (kind == RLSF_SMALL ? 64 : 32)); /* each chunk ends in 32 bytes that are no block */
    size_t used = 0, free_bytes = 0, longest = 0, payloads = 0, end = 0;
    for (rlsf_pool_block b = rlsf_pool_walk(p, 0); b.error == RLSF_OK; b = rlsf_pool_walk(p, b.start + b.len)) {
        WANT(b.start >= end, 1);
        end = b.start + b.len;
        payloads += b.used;
        *(b.used ? &used : &free_bytes) += b.len;
        if (!b.used && b.len > longest) longest = b.len;
    }
    WANT(s.payloads, payloads);
    WANT(s.used, used);
    WANT(s.free, free_bytes);
    WANT(s.longest, longest);
    WANT(rlsf_pool_walk(p, 4097).start > 4096, 1);
    WANT(rlsf_pool_walk(p, 6144).error, RLSF_NO_BLOCK);
    rlsf_pool_destroy(p);
    free(p);
}

/* The memory begins as zeros: of the first payload the allocator has had 16 bytes at most, the links of the block that was free. */
static void zeros(size_t kind) {
    static unsigned char bytes[3000];
    size_t others = 0;
    rlsf_pool *p = room();
    WANT(rlsf_pool_init(p, kind, 4096, 65536), RLSF_OK);
    WANT(rlsf_pool_insert(p, 4096, 65536).error, RLSF_OK);
    rlsf_pool_answer first = rlsf_pool_allocate(p, sizeof bytes, 1);
    memset(bytes, 7, sizeof bytes);
    WANT(rlsf_pool_read(p, first.value, 0, bytes, sizeof bytes), RLSF_OK);
    for (size_t i = 16; i < sizeof bytes; i++) others += bytes[i] != 0;
    WANT(others, 0);
    rlsf_pool_destroy(p);
    free(p);
}

/* Lengths of pools: 2 * 32 + 10 * 32 bytes for 10 payloads of 16 bytes, each in a block of 32; 736 + 32 + 10 * (736 + 736 - 32) bytes for
 * 10 of 700, each in a block of up to 736. The first 11 are allocated, and no more, since 11 blocks and 32 bytes fill the range. */
static void lengths(size_t kind) {
    rlsf_pool *p = room();
    WANT(rlsf_pool_length_for_payloads(kind, 10, 16, 16), 384);
    WANT(rlsf_pool_length_for_payloads(kind, 10, 700, 16), 15168);
    WANT(rlsf_pool_length_for_payloads(kind, 10, 16, 3), 0);
    WANT(rlsf_pool_length_for_payloads(kind, (size_t)-1, 16, 16), 0);
    WANT(rlsf_pool_length_for_payloads(3, 10, 16, 16), 0);
    WANT(rlsf_pool_length_for_budget(kind, 10, 2048, 700, 16), 32 + 2048 + 11 * 704 + 32);
    WANT(rlsf_pool_length_for_budget(kind, 10, 2048, 700, 3) + rlsf_pool_length_for_budget(3, 10, 2048, 700, 16), 0);
    WANT(rlsf_pool_length_for_budget(kind, 10, (size_t)-1, 700, 16), 0);
    WANT(rlsf_pool_length_for_allocation(kind, 700, 16), 768);
    WANT(rlsf_pool_length_for_allocation(kind, 16, 0), 0);
    WANT(rlsf_pool_length_for_allocation(0, 16, 16), 0);
    WANT(rlsf_pool_init(p, kind, 4096, 4096), RLSF_OK);
    ANSWER(rlsf_pool_insert(p, 4096, 384), RLSF_OK, 384);
    for (int i = 0; i < 11; i++) WANT(rlsf_pool_allocate(p, 16, 16).error, RLSF_OK);
    ANSWER(rlsf_pool_allocate(p, 16, 16), RLSF_NO_ROOM, 0);
    rlsf_pool_destroy(p);
    free(p);
}

int main(void) {
    numbers();
    texts();
    no_pool(0, 4096, 4096, RLSF_NO_KIND);
    no_pool(3, 0, 0, RLSF_NO_KIND);
    no_pool(RLSF_SMALL, 0, 4096, RLSF_ZERO_START);
    no_pool(RLSF_LARGE, 0, (size_t)-1, RLSF_ZERO_START);
    no_pool(RLSF_SMALL, 4096, (size_t)-4096, RLSF_TOO_LONG);
    no_pool(RLSF_LARGE, 4096, (size_t)1 << 62, RLSF_OUT_OF_MEMORY);
    payloads(RLSF_SMALL);
    payloads(RLSF_LARGE);
    bytes(RLSF_SMALL);
    bytes(RLSF_LARGE);
    blocks(RLSF_SMALL);
    blocks(RLSF_LARGE);
    zeros(RLSF_SMALL);
    zeros(RLSF_LARGE);
    lengths(RLSF_SMALL);
    lengths(RLSF_LARGE);
    ends(RLSF_SMALL);
    ends(RLSF_LARGE);
    lists(RLSF_SMALL);
    lists(RLSF_LARGE);
    zeroed(RLSF_SMALL);
    zeroed(RLSF_LARGE);
    removals(RLSF_SMALL);
    removals(RLSF_LARGE);
    ranges(RLSF_SMALL);
    ranges(RLSF_LARGE);
    if (failures) return 1;
    puts("demo: all calls answered as the header says");
    return 0;
}
