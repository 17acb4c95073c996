/* Random calls of a heap, with payloads written and read in place, against a table of what is live. Each thread has payloads of its own,
 * which it writes and reads without the lock; all threads share one heap.
 *
 *     cc -std=c11 -O2 -Iinclude examples/random_mallocs.c crates/rlsf_malloc/out/librlsf_malloc.a -lpthread -o random_mallocs
 *     ./random_mallocs 1000000 4
 *
 * The arguments are the number of calls and of threads. It tries both kinds of heaps. */
#include "rlsf.h"
#include <pthread.h>
#include <stdint.h>
#include <stdio.h>
#include <stdlib.h>
#include <string.h>

#define SLOTS 300
#define MOST_THREADS 16

static void fail(const char *what) {
    printf("%s\n", what);
    exit(1);
}

static void want(int holds, const char *what) {
    if (!holds) fail(what);
}

/* What is known of a payload: the bytes that were asked for have the value `mark` plus their index. */
typedef struct {
    unsigned char *at;
    size_t size;
    size_t align;
    unsigned char mark;
} slot;

typedef struct {
    pthread_mutex_t *lock;
    rlsf_heap *heap;
    unsigned char *memory;
    size_t len;
    size_t calls;
    uint64_t random;
    size_t longest;
    slot slots[SLOTS];
} worker;

static uint64_t next(worker *w) {
    w->random ^= w->random << 13;
    w->random ^= w->random >> 7;
    w->random ^= w->random << 17;
    return w->random;
}

static void enter(worker *w) { pthread_mutex_lock(w->lock); }
static void leave(worker *w) { pthread_mutex_unlock(w->lock); }

static void mark(worker *w, slot *s) {
    s->mark = (unsigned char)next(w);
    for (size_t i = 0; i < s->size; i++) s->at[i] = (unsigned char)(s->mark + i);
}

/* The first bytes are those that were written. */
static void check(const slot *s, size_t len) {
    for (size_t i = 0; i < len; i++) want(s->at[i] == (unsigned char)(s->mark + i), "a byte of a payload changed");
}

/* The payload lies in the memory, at its alignment, and has as many bytes as were asked for and less than 32 more. */
static void fits(worker *w, const unsigned char *at, size_t size, size_t align, size_t usable) {
    want(at >= w->memory && at + usable <= w->memory + w->len, "a payload lies outside the memory");
    want((size_t)at % (align < 16 ? 16 : align) == 0, "a payload isn't aligned");
    want(usable >= size && usable < size + 32, "a payload has another length");
}

static size_t length(worker *w) {
    uint64_t r = next(w);
    return r % 16 == 0 ? next(w) % w->longest : r % 200;
}

static void allocate(worker *w, slot *s) {
    size_t size = length(w), usable = 0, count = next(w) % 4 + 1;
    int zeroed = next(w) % 4 == 0;
    unsigned char *at;
    s->align = next(w) % 3 ? 16 : (size_t)1 << next(w) % 13;
    enter(w);
    if (zeroed) {
        s->align = 16;
        at = rlsf_calloc(w->heap, count, size / count);
        size = size / count * count;
    } else if (s->align == 16)
        at = rlsf_malloc(w->heap, size);
    else
        at = rlsf_aligned_alloc(w->heap, s->align, size);
    if (at) usable = rlsf_usable_size(w->heap, at);
    leave(w);
    if (!at) return;
    fits(w, at, size, s->align, usable);
    if (zeroed)
        for (size_t i = 0; i < usable; i++) want(at[i] == 0, "a byte of a zeroed payload isn't zero");
    s->at = at;
    s->size = size;
    mark(w, s);
}

static void release(worker *w, slot *s) {
    check(s, s->size);
    memset(s->at, 0xee, s->size);
    enter(w);
    rlsf_free(w->heap, s->at);
    leave(w);
    s->at = NULL;
}

/* By one of the three reallocations. */
static void resize(worker *w, slot *s) {
    size_t size = length(w), least = size < s->size ? size : s->size, usable = 0, old;
    int how = (int)(next(w) % 3);
    unsigned char *at;
    enter(w);
    old = rlsf_usable_size(w->heap, s->at);
    at = how == 0   ? rlsf_realloc(w->heap, s->at, size)
         : how == 1 ? rlsf_aligned_realloc(w->heap, s->at, s->align, size)
                    : rlsf_realloc_in_place(w->heap, s->at, size);
    if (at) usable = rlsf_usable_size(w->heap, at);
    leave(w);
    if (!at) {
        want(how != 2 || size > old, "a payload doesn't shrink where it is");
        check(s, s->size);
        return;
    }
    want(how != 2 || at == s->at, "a payload moved");
    want(size > old || at == s->at, "a payload moved though its bytes suffice");
    if (how != 1 && s->align > 16 && at != s->at) s->align = 16;
    fits(w, at, size, s->align, usable);
    s->at = at;
    check(s, least);
    s->size = size;
    mark(w, s);
}

static void *work(void *with) {
    worker *w = with;
    for (size_t i = 0; i < w->calls; i++) {
        slot *s = &w->slots[next(w) % SLOTS];
        if (!s->at)
            allocate(w, s);
        else if (next(w) % 2)
            release(w, s);
        else
            resize(w, s);
    }
    for (size_t i = 0; i < SLOTS; i++)
        if (w->slots[i].at) release(w, &w->slots[i]);
    return NULL;
}

/* Calls whose answers are known. */
static void known(rlsf_heap *heap) {
    void *payload;
    rlsf_free(heap, NULL);
    want(rlsf_usable_size(heap, NULL) == 0, "NULL has bytes");
    want(rlsf_realloc_in_place(heap, NULL, 5) == NULL, "NULL is resized in place");
    want(rlsf_malloc(heap, SIZE_MAX) == NULL, "there is room for SIZE_MAX bytes");
    want(rlsf_calloc(heap, SIZE_MAX / 2, 3) == NULL, "a product that is no size_t is allocated");
    want(rlsf_aligned_alloc(heap, 48, 5) == NULL, "48 is an alignment");
    payload = rlsf_realloc(heap, NULL, 5);
    want(payload != NULL, "realloc of NULL doesn't allocate");
    want(rlsf_realloc(heap, payload, SIZE_MAX) == NULL, "a payload grows to SIZE_MAX bytes");
    rlsf_free(heap, payload);
    payload = rlsf_aligned_realloc(heap, NULL, 64, 5);
    want(payload != NULL && (size_t)payload % 64 == 0, "an aligned realloc of NULL doesn't allocate");
    rlsf_free(heap, payload);
    payload = rlsf_malloc(heap, 0);
    want(payload != NULL, "there is no payload of 0 bytes");
    rlsf_free(heap, payload);
}

static void try(void *handle, size_t kind, size_t len, size_t longest, size_t calls, size_t threads) {
    static pthread_mutex_t lock = PTHREAD_MUTEX_INITIALIZER;
    static worker workers[MOST_THREADS];
    pthread_t running[MOST_THREADS];
    unsigned char *block = malloc(len + 1);
    rlsf_heap *heap;
    rlsf_totals before, after;
    size_t taken;
    void *all;
    want(block != NULL, "the system has no memory");
    heap = rlsf_heap_begin(handle, kind);
    want(heap != NULL, "there is no such kind");
    /* At an odd address: the first block begins at the next multiple of 32. */
    taken = rlsf_heap_add(heap, block + 1, len);
    want(taken <= len && taken > len - 64, "another length is added");
    before = rlsf_heap_stats(heap, block + 1, taken);
    want(before.payloads == 0 && before.free > len - 200 && before.free < len, "a new heap has other totals");
    known(heap);
    all = rlsf_malloc(heap, longest);
    want(all != NULL, "there is no room in a new heap");
    after = rlsf_heap_stats(heap, block + 1, taken);
    want(after.payloads == 1 && after.used >= longest && after.used + after.free == before.free, "a payload isn't in the totals");
    rlsf_free(heap, all);
    for (size_t i = 0; i < threads; i++) {
        worker w = {&lock, heap, block + 1, len, calls / threads, 88172645463325252u + i * 7919, longest, {{0}}};
        workers[i] = w;
        want(pthread_create(&running[i], NULL, work, &workers[i]) == 0, "no thread starts");
    }
    for (size_t i = 0; i < threads; i++) pthread_join(running[i], NULL);
    after = rlsf_heap_stats(heap, block + 1, taken);
    want(after.payloads == 0 && after.used == 0 && after.free == before.free && after.longest == before.longest, "a heap without payloads has other totals");
    /* Every byte is back: what fitted at first fits, at the same place. */
    want(rlsf_malloc(heap, longest) == all, "a heap without payloads isn't as it was");
    rlsf_free(heap, all);
    rlsf_heap_end(heap);
    memset(block, 0, len + 1);
    free(block);
}

int main(int count, char **words) {
    static rlsf_small_handle small;
    static rlsf_large_handle large;
    size_t calls = count > 1 ? strtoul(words[1], NULL, 10) : 100000;
    size_t threads = count > 2 ? strtoul(words[2], NULL, 10) : 4;
    if (threads < 1 || threads > MOST_THREADS) threads = 1;
    want(rlsf_small_size() + sizeof(rlsf_heap) == RLSF_SMALL_HEAP_SIZE && rlsf_heap_size(RLSF_SMALL) == sizeof small, "a small handle has another size");
    want(rlsf_large_size() + sizeof(rlsf_heap) == RLSF_LARGE_HEAP_SIZE && rlsf_heap_size(RLSF_LARGE) == sizeof large, "a large handle has another size");
    want(rlsf_heap_size(3) == 0 && rlsf_heap_init(&large, 3, &large, 99) == NULL && rlsf_heap_begin(&large, 3) == NULL, "there is a kind 3");
    try(&small, RLSF_SMALL, 120000, 100000, calls / 2, threads);
    try(&large, RLSF_LARGE, 3000000, 300000, calls / 2, threads);
    return 0;
}
