/* A million random calls, many of them wrong, against a table: what lives where, and which bytes it has. */
#include "rlsf_pool.h"
#include <stdint.h>
#include <stdio.h>
#include <stdlib.h>
#include <string.h>

enum { CALLS = 500000, MOST = 400, START = 4000, LEN = 1 << 17 };

typedef struct {
    size_t addr, align, usable;
    unsigned char *bytes; /* what was written, and zeros of which nothing is known */
    unsigned char *known; /* 1 where a byte was written */
} payload;

static payload live[MOST];
static size_t count;
static size_t pool_end, inserted; /* what was handed in last */
static uint64_t state = 0x9E3779B97F4A7C15u;
static size_t tally[16];

static uint64_t draw(void) {
    state ^= state << 13;
    state ^= state >> 7;
    state ^= state << 17;
    return state * 0x2545F4914F6CDD1Du;
}
static size_t below(size_t n) { return (size_t)(draw() >> 20) % n; }

static void fail(const char *what, size_t number) {
    printf("random calls: %s (%zu)\n", what, number);
    exit(1);
}
static void want(int holds, const char *what, size_t number) {
    if (!holds) fail(what, number);
}

/* The place of an address in the table, or MOST. */
static size_t place_of(size_t addr) {
    for (size_t i = 0; i < count; i++)
        if (live[i].addr == addr) return i;
    return MOST;
}
/* An address: of a payload, near one, of the memory, or any. */
static size_t some_address(void) {
    switch (below(8)) {
    case 0: return (size_t)draw();
    case 1: return START + below(LEN);
    case 2: return below(4) ? below(64) : (size_t)0 - below(64);
    case 3: return count ? live[below(count)].addr + below(40) - 20 : 0;
    default: return count ? live[below(count)].addr : 16;
    }
}
static size_t some_size(void) {
    switch (below(16)) {
    case 0: return (size_t)draw();
    case 1: return ((size_t)1 << 63) - below(70);
    case 2: return below(LEN);
    default: return below(600);
    }
}
static size_t some_align(void) { return below(10) ? (size_t)1 << below(8) : below(2) ? below(100) : (size_t)1 << below(64); }
static int is_layout(size_t size, size_t align) {
    return align && !(align & (align - 1)) && align <= (size_t)1 << 63 && size <= ((size_t)1 << 63) - align;
}

static void set_size(payload *p, size_t usable) {
    p->bytes = realloc(p->bytes, usable + 1);
    p->known = realloc(p->known, usable + 1);
    if (!p->bytes || !p->known) abort();
    if (usable > p->usable) memset(p->known + p->usable, 0, usable - p->usable);
    p->usable = usable;
}
/* A payload has its bytes, lies in what was handed in, and shares none with any other. */
static void is_well(rlsf_pool *pool, size_t place, size_t size) {
    payload *p = &live[place];
    rlsf_pool_answer usable = rlsf_pool_usable(pool, p->addr);
    want(usable.error == RLSF_OK && usable.value >= size && usable.value < size + 32, "usable size", usable.value);
    set_size(p, usable.value);
    want(p->addr % p->align == 0, "alignment", p->addr);
    want(p->addr >= START && p->addr + p->usable <= pool_end, "outside of what was handed in", p->addr);
    for (size_t i = 0; i < count; i++)
        want(i == place || live[i].addr + live[i].usable <= p->addr || p->addr + p->usable <= live[i].addr, "payloads overlap", p->addr);
}
static void has_bytes(rlsf_pool *pool, payload *p) {
    unsigned char *got = malloc(p->usable + 1);
    if (!got) abort();
    want(rlsf_pool_read(pool, p->addr, 0, got, p->usable) == RLSF_OK, "read of a payload", p->addr);
    for (size_t i = 0; i < p->usable; i++) want(!p->known[i] || got[i] == p->bytes[i], "another byte", p->addr + i);
    free(got);
}

static void hand_in(rlsf_pool *pool, size_t kind) {
    size_t start = below(3) ? pool_end : START - 50 + below(LEN + 100), len = below(20) ? below(3000) : (size_t)draw();
    int within = start >= START && start <= START + LEN && len <= START + LEN - start;
    int appends = (int)below(2);
    rlsf_pool_answer a = appends ? rlsf_pool_append(pool, start, len) : rlsf_pool_insert(pool, start, len);
    tally[a.error]++;
    if (!within) return want(a.error == RLSF_OUTSIDE_MEMORY, "a range outside", start);
    if (appends && (!inserted || start != pool_end)) return want(a.error == RLSF_NOT_NEXT, "a range that isn't next", start);
    if (!appends && start < pool_end) return want(a.error == RLSF_NOT_BEHIND, "a range that isn't behind", start);
    if (a.error) return want(a.error == RLSF_TOO_SHORT && len < (appends && kind == RLSF_LARGE ? 32 : 95), "a range that is long enough", len);
    want(a.value <= len && a.value + 32 > (len >= 64 ? len - 64 : 0), "the bytes that were taken", a.value);
    pool_end = start + a.value;
    inserted = 1;
}
static void allocate(rlsf_pool *pool) {
    size_t size = some_size(), align = some_align();
    rlsf_pool_answer a = rlsf_pool_allocate(pool, size, align);
    tally[a.error]++;
    if (!is_layout(size, align)) return want(a.error == RLSF_NO_LAYOUT && !a.value, "no layout", size);
    if (a.error) return want(a.error == RLSF_NO_ROOM && !a.value, "an error of allocate", a.error);
    want(place_of(a.value) == MOST, "an address that is live", a.value);
    if (count == MOST) return want(rlsf_pool_free(pool, a.value) == RLSF_OK, "a payload too many", a.value);
    live[count] = (payload){a.value, align, 0, 0, 0};
    count++;
    is_well(pool, count - 1, size);
}
static void forget(size_t place) {
    free(live[place].bytes);
    free(live[place].known);
    live[place] = live[--count];
}
static void give_back(rlsf_pool *pool) {
    size_t addr = some_address(), place = place_of(addr);
    if (place != MOST) has_bytes(pool, &live[place]);
    size_t error = rlsf_pool_free(pool, addr);
    tally[error]++;
    want(error == (place == MOST ? RLSF_UNKNOWN_ADDRESS : RLSF_OK), "free", addr);
    if (place != MOST) forget(place);
}
static void resize(rlsf_pool *pool, int may_move) {
    size_t addr = some_address(), size = some_size(), place = place_of(addr);
    rlsf_pool_answer a = may_move ? rlsf_pool_realloc(pool, addr, size) : rlsf_pool_realloc_no_move(pool, addr, size);
    tally[a.error]++;
    if (place == MOST) return want(a.error == RLSF_UNKNOWN_ADDRESS, "a payload that isn't live", addr);
    if (!is_layout(size, live[place].align)) return want(a.error == RLSF_NO_LAYOUT, "no layout for a payload", size);
    if (!a.error) {
        want(may_move || a.value == addr, "a move", a.value);
        live[place].addr = a.value;
        is_well(pool, place, size);
    } else
        want(a.error == RLSF_NO_ROOM, "an error of realloc", a.error);
    has_bytes(pool, &live[place]);
}
static void copy(rlsf_pool *pool, int writes) {
    static unsigned char bytes[800];
    size_t addr = some_address(), place = place_of(addr), len = below(sizeof bytes), offset = below(4) ? below(300) : (size_t)draw();
    for (size_t i = 0; i < len; i++) bytes[i] = (unsigned char)draw();
    unsigned char before = bytes[0];
    size_t error = writes ? rlsf_pool_write(pool, addr, offset, bytes, len) : rlsf_pool_read(pool, addr, offset, bytes, len);
    tally[error]++;
    if (place == MOST) return want(error == RLSF_UNKNOWN_ADDRESS && bytes[0] == before, "bytes of no payload", addr);
    payload *p = &live[place];
    if (offset > p->usable || len > p->usable - offset) return want(error == RLSF_OUT_OF_RANGE && bytes[0] == before, "bytes past the end", offset);
    want(error == RLSF_OK, "bytes of a payload", error);
    if (writes) {
        memcpy(p->bytes + offset, bytes, len);
        memset(p->known + offset, 1, len);
    } else
        for (size_t i = 0; i < len; i++) want(!p->known[offset + i] || bytes[i] == p->bytes[offset + i], "another byte is read", addr);
}
/* The blocks of all ranges, and their totals; each payload has one of them. */
static void look(rlsf_pool *pool) {
    rlsf_pool_statistics s = rlsf_pool_stats(pool), sum = {0, 0, 0, 0};
    size_t end = 0, alive = 0;
    for (rlsf_pool_block b = rlsf_pool_walk(pool, 0); !b.error; b = rlsf_pool_walk(pool, end)) {
        want(b.start >= end && b.start >= START && b.start + b.len <= pool_end, "a block's place", b.start);
        end = b.start + b.len;
        sum.payloads += b.used;
        *(b.used ? &sum.used : &sum.free) += b.len;
        if (!b.used && b.len > sum.longest) sum.longest = b.len;
        for (size_t i = 0; i < count; i++)
            if (live[i].addr > b.start && live[i].addr <= end) { /* a payload without bytes lies at its block's end */
                want(b.used == 1 && live[i].addr + live[i].usable == end, "a payload's block", b.start);
                alive++;
            }
    }
    want(alive == s.payloads, "payloads in blocks", alive);
    want(alive == count, "payloads without a block", alive);
    want(!memcmp(&s, &sum, sizeof s), "statistics", s.payloads);
}

static void run(size_t kind) {
    rlsf_pool *pool = malloc(rlsf_pool_size());
    if (!pool) abort();
    pool_end = START;
    inserted = count = 0;
    want(rlsf_pool_init(pool, kind, START, LEN) == RLSF_OK, "init", kind);
    for (size_t i = 0; i < CALLS; i++) {
        size_t k = below(100);
        if (k < 2) hand_in(pool, kind);
        else if (k < 30) allocate(pool);
        else if (k < 55) give_back(pool);
        else if (k < 70) resize(pool, 1);
        else if (k < 80) resize(pool, 0);
        else copy(pool, k < 90);
        if (i % 5000 == 0) look(pool);
    }
    while (count) {
        has_bytes(pool, &live[0]);
        want(rlsf_pool_free(pool, live[0].addr) == RLSF_OK, "free at the end", live[0].addr);
        forget(0);
    }
    want(rlsf_pool_stats(pool).payloads == 0, "payloads at the end", 0);
    rlsf_pool_destroy(pool);
    free(pool);
}

int main(void) {
    run(RLSF_SMALL);
    run(RLSF_LARGE);
    printf("random calls:");
    for (size_t e = 0; e < 16; e++)
        if (tally[e]) printf(" %zu times %zu", tally[e], e);
    puts("");
    return 0;
}
