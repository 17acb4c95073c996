/* A TLSF with its nodes outside of the space that it divides, beside which `tools/measure offsets` measures an `OffsetTlsf`: rows of 8 classes, the
 * newest free range of the first class that reaches, and no alignment above a unit. A node has where its range begins and how long it is, the
 * ranges before and behind it, and its neighbours in the list of its class. Free nodes are kept for later. It tests nothing.
 *
 * usage: offsets LIVE STEPS      fills LIVE slots with ranges of a space of 2^24 units, replaces STEPS of them, and prints what `offsets.txt`
 * prints: the sum of all offsets, and how many ranges were refused. */
#include <stdint.h>
#include <stdio.h>
#include <stdlib.h>

enum { UNITS = 1 << 24, ROWS = 32, CLASSES = 8, NONE = 0 };

typedef struct {
    uint32_t start, len;     /* in units */
    uint32_t before, behind; /* neighbours in the space */
    uint32_t newer, older;   /* neighbours in the list of the class, if it is free */
    uint32_t is_free;
} node;

static node *nodes;
static uint32_t spare, made;
static uint32_t heads[ROWS][CLASSES], row_bits, class_bits[ROWS];

/* The class that a length has. */
static void class_of(uint32_t len, uint32_t *row, uint32_t *class) {
    *row = 31 - (uint32_t)__builtin_clz(len);
    *class = (uint32_t)((((uint64_t)len << 3) >> *row) & 7);
}

static void link_node(uint32_t n) {
    uint32_t row, class;
    class_of(nodes[n].len, &row, &class);
    uint32_t head = heads[row][class];
    nodes[n].is_free = 1;
    nodes[n].newer = NONE;
    nodes[n].older = head;
    if (head != NONE) nodes[head].newer = n;
    heads[row][class] = n;
    class_bits[row] |= 1u << class;
    row_bits |= 1u << row;
}

static void unlink_node(uint32_t n) {
    uint32_t newer = nodes[n].newer, older = nodes[n].older;
    nodes[n].is_free = 0;
    if (older != NONE) nodes[older].newer = newer;
    if (newer != NONE) {
        nodes[newer].older = older;
        return;
    }
    uint32_t row, class;
    class_of(nodes[n].len, &row, &class);
    heads[row][class] = older;
    if (older != NONE) return;
    class_bits[row] &= ~(1u << class);
    if (class_bits[row] == 0) row_bits &= ~(1u << row);
}

static uint32_t new_node(uint32_t start, uint32_t len, uint32_t before, uint32_t behind) {
    uint32_t n = spare;
    if (n != NONE)
        spare = nodes[n].older;
    else
        n = ++made;
    nodes[n] = (node){start, len, before, behind, NONE, NONE, 0};
    if (before != NONE) nodes[before].behind = n;
    if (behind != NONE) nodes[behind].before = n;
    return n;
}

/* The second node's range becomes the end of the first one's, which lies before it. */
static void join(uint32_t n, uint32_t next) {
    nodes[n].len += nodes[next].len;
    nodes[n].behind = nodes[next].behind;
    if (nodes[n].behind != NONE) nodes[nodes[n].behind].before = n;
    nodes[next].older = spare;
    spare = next;
}

/* Returns the node of a new range, or NONE. */
__attribute__((noinline)) uint32_t offsets_allocate(uint32_t len) {
    uint32_t row = 31 - (uint32_t)__builtin_clz(len);
    uint64_t step = row < 3 ? 0 : ((uint64_t)1 << (row - 3)) - 1, class;
    uint64_t sought = len + step;
    row = 63 - (uint32_t)__builtin_clzll(sought);
    class = ((sought << 3) >> row) & 7;
    uint32_t bits = class_bits[row] & (~0u << class);
    if (bits == 0) {
        uint32_t rows = row + 1 < ROWS ? row_bits & (~0u << (row + 1)) : 0;
        if (rows == 0) return NONE;
        row = (uint32_t)__builtin_ctz(rows);
        bits = class_bits[row];
    }
    uint32_t n = heads[row][__builtin_ctz(bits)];
    unlink_node(n);
    if (nodes[n].len > len) {
        uint32_t rest = new_node(nodes[n].start + len, nodes[n].len - len, n, nodes[n].behind);
        nodes[n].len = len;
        link_node(rest);
    }
    return n;
}

__attribute__((noinline)) void offsets_deallocate(uint32_t n) {
    uint32_t before = nodes[n].before, behind = nodes[n].behind;
    if (before != NONE && nodes[before].is_free) {
        unlink_node(before);
        join(before, n);
        n = before;
    }
    if (behind != NONE && nodes[behind].is_free) {
        unlink_node(behind);
        join(n, behind);
    }
    link_node(n);
}

/* The next number that looks random. */
static uint64_t next(uint64_t state) {
    state ^= state << 13;
    state ^= state >> 7;
    return state ^ (state << 17);
}

int main(int count, char **words) {
    if (count != 3) return 2;
    uint64_t live = strtoull(words[1], NULL, 10), steps = strtoull(words[2], NULL, 10), random = 88172645463325252u, sum = 0, refused = 0;
    uint32_t *slots = calloc(live, sizeof *slots);
    nodes = calloc(2 * live + 3, sizeof *nodes);
    if (live == 0 || slots == NULL || nodes == NULL) return 1;
    link_node(new_node(0, UNITS, NONE, NONE));
    for (uint64_t i = 0; i < live + steps; i++) {
        random = next(random);
        uint64_t slot = i < live ? i : (random >> 20) % live;
        if (slots[slot] != NONE) offsets_deallocate(slots[slot]);
        random = next(random);
        slots[slot] = offsets_allocate((uint32_t)((random >> 20) % (UNITS / live)) + 1);
        if (slots[slot] == NONE)
            refused++;
        else
            sum += (uint64_t)nodes[slots[slot]].start * 256;
    }
    printf("%llu %llu\n", (unsigned long long)sum, (unsigned long long)refused);
    return 0;
}
