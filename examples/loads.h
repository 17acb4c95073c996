/* The loads of loads.c: each is a function that makes one call of the allocator, and draws from a random state which one. */
#ifndef LOADS_H
#define LOADS_H

#include <stdint.h>
#include <stdlib.h>
#include <string.h>
#ifdef STEPPED
#include "stepped.h"
#elif defined MARKED
#include "marked.h"
#elif defined TIMED
#if defined __x86_64__
#include <x86intrin.h>
#else
#include <time.h>
#endif
#endif

/* More bytes than all caches of a core hold. */
enum { OTHERS = 48 << 20 };

/* A place for a payload, which is empty if `at` is null. */
struct slot {
    unsigned char *at;
    size_t size;
};

struct run {
    void (*step)(struct run *);
    struct slot *slots;
    size_t slot_count;
    uint64_t state;
    size_t call; /* the number of the call that is made, from 0 */
    size_t place; /* how far a load is that goes through its slots in order */
    size_t calls;
    size_t refused;
    size_t wrong;
    uint32_t *ticks; /* how long each call took, if that is measured */
    unsigned char *others; /* memory that is written before each call, so that nothing else is in the caches; null in most loads */
};

void *own_memory(size_t len);

static inline uint32_t draw(struct run *run) {
    run->state = run->state * 6364136223846793005u + 1442695040888963407u;
    return (uint32_t)(run->state >> 33);
}

/* The time, in the unit that is finest here. On an x86-64 these are the ticks of a counter of constant speed. With -DSTEPPED it is the number
 * of instructions that were counted. */
static inline uint64_t ticks(void) {
#ifdef STEPPED
    return steps;
#elif !defined TIMED
    return 0;
#elif defined __x86_64__
    _mm_lfence();
    uint64_t time = __rdtsc();
    _mm_lfence();
    return time;
#else
    struct timespec time;
    clock_gettime(CLOCK_MONOTONIC, &time);
    return (uint64_t)time.tv_sec * 1000000000u + (uint64_t)time.tv_nsec;
#endif
}

static inline void note(struct run *run, uint64_t begun) {
    uint64_t taken = ticks() - begun;
    if (run->ticks) run->ticks[run->call] = taken > UINT32_MAX ? UINT32_MAX : (uint32_t)taken;
    run->calls++;
}

#ifdef COUNTED
#define CALL static __attribute__((noinline, optimize("no-optimize-sibling-calls")))
#else
#define CALL static inline
#endif
#ifdef STEPPED
CALL void *counted_malloc(size_t size) { return stepping ? in_steps((size_t)malloc, size, 0) : malloc(size); }
CALL void *counted_realloc(void *at, size_t size) { return stepping ? in_steps((size_t)realloc, (size_t)at, size) : realloc(at, size); }
CALL void counted_free(void *at) {
    if (stepping) in_steps((size_t)free, (size_t)at, 0);
    else free(at);
}
#elif defined MARKED
CALL void *marked(int call, void *at, size_t size) {
    mark_call(call);
    void *result = call == MALLOC ? malloc(size) : call == REALLOC ? realloc(at, size) : (free(at), NULL);
    mark_call(END);
    return result;
}
CALL void *counted_malloc(size_t size) { return marked(MALLOC, NULL, size); }
CALL void *counted_realloc(void *at, size_t size) { return marked(REALLOC, at, size); }
CALL void counted_free(void *at) { marked(FREE, at, 0); }
#else
CALL void *counted_malloc(size_t size) { return malloc(size); }
CALL void *counted_realloc(void *at, size_t size) { return realloc(at, size); }
CALL void counted_free(void *at) { free(at); }
#endif

static inline void mark(struct slot *slot) {
    slot->at[0] = (unsigned char)slot->size;
    slot->at[slot->size - 1] = (unsigned char)slot->size;
}

static inline void check(struct run *run, const struct slot *slot) {
    run->wrong += slot->at[0] != (unsigned char)slot->size || slot->at[slot->size - 1] != (unsigned char)slot->size;
}

static inline void fill(struct run *run, struct slot *slot, size_t size) {
    uint64_t begun = ticks();
    unsigned char *at = counted_malloc(size);
    note(run, begun);
    *slot = (struct slot){at, size};
    if (at) mark(slot);
    else run->refused++;
}

static inline void empty(struct run *run, struct slot *slot) {
    check(run, slot);
    uint64_t begun = ticks();
    counted_free(slot->at);
    note(run, begun);
    slot->at = NULL;
}

static inline void resize(struct run *run, struct slot *slot, size_t size) {
    check(run, slot);
    uint64_t begun = ticks();
    unsigned char *at = counted_realloc(slot->at, size);
    note(run, begun);
    if (!at) {
        run->refused++;
        return;
    }
    run->wrong += at[0] != (unsigned char)slot->size;
    *slot = (struct slot){at, size};
    mark(slot);
}

/* Frees the payload of a random slot, or fills the slot with one of up to 512 bytes. */
static void step_small(struct run *run) {
    struct slot *slot = &run->slots[draw(run) % run->slot_count];
    size_t size = draw(run) % 512 + 1;
    if (slot->at) empty(run, slot);
    else fill(run, slot, size);
}

/* The same with sizes from 8 bytes to 64 KiB, each power of two as often as each other. */
static void step_all(struct run *run) {
    struct slot *slot = &run->slots[draw(run) % run->slot_count];
    uint32_t least = 8u << draw(run) % 13, size = least + draw(run) % least;
    if (slot->at) empty(run, slot);
    else fill(run, slot, size < 65536 ? size : 65536);
}

/* Fills all slots with 24 to 88 bytes, frees them in the same order, then allocates 20,000 bytes and frees them. The last slot is for these. */
static void step_freed(struct run *run) {
    size_t small = run->slot_count - 1, at = run->place++ % (2 * small + 2);
    struct slot *slot = &run->slots[at < small ? at : at < 2 * small ? at - small : small];
    if (slot->at) empty(run, slot);
    else fill(run, slot, at < small ? 24 + at % 5 * 16 : 20000);
}

/* Doubles a random vector, from 16 bytes on, up to a limit of its own of at most 64 KiB. At its limit it is freed. */
static void step_vectors(struct run *run) {
    size_t chosen = draw(run) % run->slot_count;
    struct slot *slot = &run->slots[chosen];
    if (!slot->at) fill(run, slot, 16);
    else if (slot->size >= (size_t)32 << chosen % 12) empty(run, slot);
    else resize(run, slot, 2 * slot->size);
}

/* Grows the payload of a random slot by `realloc`, from 16 bytes on, and frees it when it has more than 200. Only the calls of `realloc` are
 * measured. */
static void grow(struct run *run, size_t times, size_t more) {
    struct slot *slot = &run->slots[draw(run) % run->slot_count];
    if (slot->at && slot->size <= 200) {
        resize(run, slot, times * slot->size + more);
        return;
    }
    if (slot->at) empty(run, slot);
    else fill(run, slot, 16);
    if (run->ticks) run->ticks[run->call] = 0;
}
static void step_byte(struct run *run) { grow(run, 1, 1); }
static void step_word(struct run *run) { grow(run, 1, 8); }
static void step_double(struct run *run) { grow(run, 2, 0); }

/* A step of `small` that finds empty caches. The payload isn't read before it is freed, since its header lies beside it. */
static void step_cold(struct run *run) {
    struct slot *slot = &run->slots[draw(run) % run->slot_count];
    size_t size = draw(run) % 512 + 1;
    if (run->ticks)
        for (size_t at = 0; at < OTHERS; at += 64) run->others[at]++;
    if (!slot->at) {
        fill(run, slot, size);
        return;
    }
    uint64_t begun = ticks();
    counted_free(slot->at);
    note(run, begun);
    slot->at = NULL;
}

/* Fills all slots, and frees each second one: what is freed lies between payloads that stay. */
static void fill_apart(struct run *run) {
    for (size_t n = 0; n < 2 * run->slot_count; n++) {
        struct slot *slot = &run->slots[n % run->slot_count];
        if (n < run->slot_count) fill(run, slot, draw(run) % 512 + 1);
        else if (n % 2) empty(run, slot);
    }
}

static const struct load {
    const char *name;
    void (*step)(struct run *);
    size_t slots;
    int apart;
} loads[] = {
    {"small", step_small, 20000, 0},
    {"all", step_all, 20000, 0},
    {"freed", step_freed, 20001, 0},
    {"vectors", step_vectors, 3000, 0},
    {"byte", step_byte, 1000, 0},
    {"word", step_word, 1000, 0},
    {"double", step_double, 1000, 0},
    {"fragmented", step_small, 200000, 1},
    {"live:", step_small, 0, 1},
    {"cold:", step_cold, 0, 1},
};

/* Begins a load, in a thread with a number. The loads live:N and cold:N have N live payloads, or some more or less. */
static void begin_run(struct run *run, const char *name, size_t thread) {
    const struct load *load = loads;
    while (load < loads + sizeof loads / sizeof *loads && strncmp(name, load->name, strlen(load->name))) load++;
    if (load == loads + sizeof loads / sizeof *loads) exit(2);
    run->step = load->step;
    run->slot_count = load->slots ? load->slots : 2 * strtoul(name + 5, NULL, 10);
    run->slots = own_memory(run->slot_count * sizeof *run->slots);
    run->others = load->step == step_cold ? own_memory(OTHERS) : NULL;
    run->state = 12345 + thread;
    if (load->apart) fill_apart(run);
    for (size_t n = 0; run->others && n < 4 * run->slot_count; n++) run->step(run);
    run->calls = 0;
}

static void end_run(struct run *run) {
    for (size_t n = 0; n < run->slot_count; n++)
        if (run->slots[n].at) empty(run, &run->slots[n]);
}

#endif
