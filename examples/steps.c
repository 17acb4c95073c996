/* The steps of rlsf_bench in its mode `free`, over the library, over malloc or over neither, to count instructions:
 *
 *     valgrind --tool=callgrind --callgrind-out-file=/dev/null ./steps small 100000
 *
 * A step draws one of 1,000 slots. Where it holds a payload, that is freed; else one of up to 511 bytes is allocated. */
#include "rlsf_pool.h"
#include <stdint.h>
#include <stdio.h>
#include <stdlib.h>
#include <string.h>

enum { SLOTS = 1000, LEN = 1 << 25 };

static uint64_t state = 0x9E3779B97F4A7C15u;

static uint64_t draw(void) {
    state ^= state << 13;
    state ^= state >> 7;
    state ^= state << 17;
    return state * 0x2545F4914F6CDD1Du;
}

static size_t over_pool(rlsf_pool *pool, size_t kind, size_t steps) {
    size_t live[SLOTS] = {0}, refused = 0;
    if (rlsf_pool_init(pool, kind, 4096, LEN) || rlsf_pool_insert(pool, 4096, LEN).error) abort();
    for (size_t i = 0; i < steps; i++) {
        uint64_t d = draw();
        size_t slot = (size_t)(d >> 32) % SLOTS;
        if (live[slot]) {
            if (rlsf_pool_free(pool, live[slot])) abort();
            live[slot] = 0;
        } else {
            rlsf_pool_answer a = rlsf_pool_allocate(pool, d % 512, 1);
            live[slot] = a.value;
            refused += a.error != 0;
        }
    }
    rlsf_pool_destroy(pool);
    return refused;
}

static size_t over_malloc(size_t steps) {
    void *live[SLOTS] = {0};
    size_t refused = 0;
    for (size_t i = 0; i < steps; i++) {
        uint64_t d = draw();
        size_t slot = (size_t)(d >> 32) % SLOTS;
        if (live[slot]) {
            free(live[slot]);
            live[slot] = 0;
        } else {
            live[slot] = malloc(d % 512);
            refused += !live[slot];
        }
    }
    return refused;
}

static size_t over_nothing(size_t steps) {
    size_t live[SLOTS] = {0}, refused = 0;
    for (size_t i = 0; i < steps; i++) {
        uint64_t d = draw();
        size_t slot = (size_t)(d >> 32) % SLOTS;
        live[slot] = live[slot] ? 0 : d % 512 + 1;
        refused += live[slot] == 1000;
    }
    return refused;
}

int main(int argc, char **argv) {
    const char *over = argc > 1 ? argv[1] : "small";
    size_t steps = argc > 2 ? strtoul(argv[2], 0, 10) : 100000, refused;
    rlsf_pool *pool = malloc(rlsf_pool_size());
    if (!pool) abort();
    if (!strcmp(over, "malloc")) refused = over_malloc(steps);
    else if (!strcmp(over, "nothing")) refused = over_nothing(steps);
    else refused = over_pool(pool, strcmp(over, "large") ? RLSF_SMALL : RLSF_LARGE, steps);
    free(pool);
    printf("steps: %zu refused\n", refused);
    return 0;
}
