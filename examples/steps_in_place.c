/* The steps of rlsf_bench in its mode `free`, in place: over a heap, over malloc or over neither, to count instructions and time:
 *
 *     valgrind --tool=callgrind --callgrind-out-file=/dev/null ./steps_in_place large 512 100000
 *
 * A step draws one of 1,000 slots. Where it holds a payload, that is freed; else one of a length below the second argument is allocated. */
#define _POSIX_C_SOURCE 199309L
#include "rlsf.h"
#include <stdint.h>
#include <stdio.h>
#include <stdlib.h>
#include <string.h>
#include <time.h>

enum { SLOTS = 1000 };
#define LEN ((size_t)1 << 28)

static uint64_t state = 0x9E3779B97F4A7C15u;

static uint64_t draw(void) {
    state ^= state << 13;
    state ^= state >> 7;
    state ^= state << 17;
    return state * 0x2545F4914F6CDD1Du;
}

/* The same steps with other calls. */
#define STEPS(NAME, ALLOCATE, FREE)                                        \
    static size_t NAME(rlsf_heap *heap, size_t longest, size_t steps) {    \
        static void *live[SLOTS];                                          \
        size_t refused = 0;                                                \
        (void)heap;                                                        \
        for (size_t i = 0; i < steps; i++) {                               \
            uint64_t d = draw();                                           \
            size_t slot = (size_t)(d >> 32) % SLOTS;                       \
            if (live[slot]) {                                              \
                FREE;                                                      \
                live[slot] = 0;                                            \
            } else {                                                       \
                live[slot] = ALLOCATE;                                     \
                refused += !live[slot];                                    \
            }                                                              \
        }                                                                  \
        return refused;                                                    \
    }
STEPS(over_heap, rlsf_malloc(heap, d % longest), rlsf_free(heap, live[slot]))
STEPS(over_malloc, malloc(d % longest), free(live[slot]))
STEPS(over_nothing, (void *)(d % longest + 1), (void)0)

static double now(void) {
    struct timespec t;
    clock_gettime(CLOCK_MONOTONIC, &t);
    return (double)t.tv_sec * 1e9 + (double)t.tv_nsec;
}

int main(int argc, char **argv) {
    static rlsf_large_handle handle;
    const char *over = argc > 1 ? argv[1] : "small";
    size_t longest = argc > 2 ? strtoul(argv[2], 0, 10) : 512;
    size_t steps = argc > 3 ? strtoul(argv[3], 0, 10) : 100000, refused;
    void *memory = malloc(LEN);
    rlsf_heap *heap = rlsf_heap_init(&handle, strcmp(over, "large") ? RLSF_SMALL : RLSF_LARGE, memory, LEN);
    /* Volatile, so that the compiler doesn't know the function, and no loop becomes a part of main. There its length depends on what the
     * header's functions leave in registers: the handle's address was fetched again in each step, or not. */
    size_t (*volatile run)(rlsf_heap *, size_t, size_t) = over_heap;
    double begun;
    if (!longest || !heap) abort();
    if (!strcmp(over, "malloc")) run = over_malloc;
    if (!strcmp(over, "nothing")) run = over_nothing;
    begun = now();
    refused = run(heap, longest, steps);
    printf("%zu refused, %.1f ns a step\n", refused, (now() - begun) / (double)steps);
    return 0;
}
