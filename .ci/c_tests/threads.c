/* Threads that begin and end, and free what others allocated: a million calls, in which each payload keeps its bytes. At the end nothing is
 * allocated that wasn't before, and there are as many heaps as there were threads at a time. */
#define _GNU_SOURCE
#include "want.h"
#include <malloc.h>
#include "info.h"
#include <pthread.h>
#include <stdatomic.h>
#include <string.h>

enum { THREADS = 8, SLOTS = 1024 };
static size_t generations = 10, calls = 12500;

struct payload {
    size_t size;
    size_t seed;
    unsigned char bytes[];
};
static _Atomic(struct payload *) slots[SLOTS];

static size_t draw(size_t *random) {
    *random ^= *random << 13, *random ^= *random >> 7, *random ^= *random << 17;
    return *random;
}

static void fill(struct payload *payload, size_t size, size_t seed) {
    payload->size = size;
    payload->seed = seed;
    for (size_t n = 0; n < size - sizeof *payload; n++) payload->bytes[n] = (unsigned char)(seed + n);
}

static void check(const struct payload *payload, size_t len) {
    for (size_t n = 0; n < len - sizeof *payload; n++) WANT(payload->bytes[n], (unsigned char)(payload->seed + n));
}

/* Some of up to 600 bytes, fewer of up to 20,000, and one in 4,096 with a segment of its own. */
static size_t draw_size(size_t *random) {
    size_t drawn = draw(random);
    return sizeof(struct payload) + (drawn % 4096 == 0 ? 1100000 : drawn % 64 == 0 ? drawn / 64 % 20000 : drawn / 64 % 600);
}

static struct payload *allocate(size_t *random, size_t size) {
    size_t how = draw(random) % 4, align = (size_t)1 << (4 + draw(random) % 9);
    struct payload *payload = how == 0 ? calloc(1, size) : how == 1 ? aligned_alloc(align, size) : malloc(size);
    WANT(payload != NULL, 1);
    WANT((size_t)payload % (how == 1 ? align : 16), 0);
    WANT(malloc_usable_size(payload) >= size, 1);
    for (size_t n = 0; how == 0 && n < size - sizeof *payload; n++) WANT(payload->bytes[n], 0);
    return payload;
}

static struct payload *reallocate(struct payload *payload, size_t size) {
    size_t least = size < payload->size ? size : payload->size;
    payload = realloc(payload, size);
    WANT(payload != NULL, 1);
    check(payload, least);
    return payload;
}

static void *work(void *seed) {
    size_t random = 88172645463325252u + (size_t)seed * 7919;
    for (size_t n = 0; n < calls; n++) {
        _Atomic(struct payload *) *slot = &slots[draw(&random) % SLOTS];
        size_t size = draw_size(&random);
        struct payload *payload = atomic_exchange(slot, NULL);
        if (payload) check(payload, payload->size);
        if (payload && draw(&random) % 3) {
            free(payload);
            continue;
        }
        payload = payload ? reallocate(payload, size) : allocate(&random, size);
        fill(payload, size, draw(&random));
        free(atomic_exchange(slot, payload));
    }
    return NULL;
}

static void run_threads(size_t generation, void *(*run)(void *)) {
    pthread_t threads[THREADS];
    for (size_t n = 0; n < THREADS; n++) WANT(pthread_create(&threads[n], NULL, run, (void *)(generation * THREADS + n)), 0);
    for (size_t n = 0; n < THREADS; n++) WANT(pthread_join(threads[n], NULL), 0);
}

/* All threads have a heap at the same time. */
static pthread_barrier_t met;
static void *meet(void *unused) {
    free(malloc(100));
    pthread_barrier_wait(&met);
    return unused;
}

static void want_heaps(size_t wanted, size_t wanted_left) {
    size_t heaps, left;
    read_heaps(&heaps, &left);
    WANT(heaps, wanted);
    WANT(left, wanted_left);
}

static size_t used(void) {
    malloc_trim(0);
    struct mallinfo2 found = mallinfo2();
    return found.uordblks + found.hblkhd;
}

/* What another thread freed is free before more memory is asked for. */
static void *payloads[20];
static void *free_all(void *unused) {
    for (size_t n = 0; n < 20; n++) free(payloads[n]);
    return unused;
}
static void freed_before_growth(void) {
    pthread_t thread;
    size_t held;
    for (size_t n = 0; n < 20; n++) payloads[n] = malloc(900000);
    held = mallinfo2().arena;
    WANT(held > 20 * 900000, 1);
    WANT(pthread_create(&thread, NULL, free_all, NULL), 0);
    WANT(pthread_join(thread, NULL), 0);
    WANT(mallinfo2().arena >= held, 1);
    for (size_t n = 0; n < 12; n++) payloads[n] = malloc(900000);
    WANT(mallinfo2().arena <= held, 1);
    for (size_t n = 0; n < 12; n++) free(payloads[n]);
}

/* What a thread allocated keeps its bytes when the thread has ended, and may be freed. What is freed then goes back to the system when another
 * thread asks it for memory. */
static void *allocate_all(void *unused) {
    for (size_t n = 0; n < 20; n++) payloads[n] = memset(malloc(900000), (int)n, 900000);
    return unused;
}
static void payloads_of_an_ended_thread(void) {
    void *others[15];
    pthread_t thread;
    size_t held;
    WANT(pthread_create(&thread, NULL, allocate_all, NULL), 0);
    WANT(pthread_join(thread, NULL), 0);
    held = mallinfo2().arena;
    for (size_t n = 0; n < 20; n++) {
        const unsigned char *payload = payloads[n];
        for (size_t k = 0; k < 900000; k += 999) WANT(payload[k], n);
        free(payloads[n]);
    }
    WANT(mallinfo2().arena, held);
    for (size_t n = 0; n < 15; n++) others[n] = malloc(900000);
    WANT(mallinfo2().arena < held, 1);
    for (size_t n = 0; n < 15; n++) free(others[n]);
}

/* Of what other threads freed, an allocation frees two payloads: from the 16th one behind their frees on, until there is none left. */
static void two_in_each_allocation(void) {
    enum { BLOCK = 1024 };
    void *others[40];
    pthread_t thread;
    size_t before, first = 0;
    for (size_t n = 0; n < 20; n++) payloads[n] = malloc(1000);
    before = mallinfo2().uordblks;
    WANT(pthread_create(&thread, NULL, free_all, NULL), 0);
    WANT(pthread_join(thread, NULL), 0);
    WANT(mallinfo2().uordblks, before);
    for (size_t n = 0; n < 40; n++) {
        others[n] = malloc(1000);
        size_t freed = (before + (n + 1) * BLOCK - mallinfo2().uordblks) / BLOCK;
        if (!freed) first = n + 1;
        WANT(freed, n < first ? 0 : n < first + 10 ? 2 * (n - first + 1) : 20);
    }
    WANT(first < 16, 1);
    for (size_t n = 0; n < 40; n++) free(others[n]);
}

/* Of the heaps that threads left at the same time, one keeps a segment without a payload. */
static void one_segment_is_kept(void) {
    void *payload = malloc(1000);
    size_t segments;
    malloc_trim(0);
    segments = mallinfo2().ordblks;
    run_threads(0, meet);
    WANT(mallinfo2().ordblks, segments + 1);
    malloc_trim(0);
    WANT(mallinfo2().ordblks, segments);
    free(payload);
}

/* Payloads of no bytes have room for what another thread writes when it frees them. */
static void empty_payloads(void) {
    pthread_t thread;
    unsigned char *kept[20];
    for (size_t n = 0; n < 20; n++) {
        payloads[n] = aligned_alloc((size_t)16 << n % 10, 0);
        kept[n] = memset(malloc(40), (int)n, 40);
        WANT(malloc_usable_size(payloads[n]) >= sizeof(void *), 1);
    }
    WANT(pthread_create(&thread, NULL, free_all, NULL), 0);
    WANT(pthread_join(thread, NULL), 0);
    for (size_t n = 0; n < 20; n++) {
        WANT(kept[n][0] == n && kept[n][39] == n && malloc_usable_size(kept[n]) < 40 + 32, 1);
        free(kept[n]);
    }
}

/* A destructor of a thread runs behind malloc's own, and allocates while another thread has the heap that was left. */
static pthread_key_t key;
static pthread_t second;
static size_t shorter = 1;
static void *fill_many(void *seed) {
    static __thread unsigned char *many[64];
    for (size_t n = 0; n < 40000 / shorter; n++) {
        unsigned char **place = &many[n % 64];
        if (*place) WANT((*place)[0] == (unsigned char)(n + (size_t)seed) && (*place)[n % 64 + 90] == (unsigned char)(n + (size_t)seed), 1);
        free(*place);
        *place = memset(malloc(200 + n % 300), (int)(n + 64 + (size_t)seed), 200);
    }
    for (size_t n = 0; n < 64; n++) free(many[n]);
    return NULL;
}
static void on_end(void *value) {
    WANT(pthread_create(&second, NULL, fill_many, (void *)1), 0);
    fill_many(value);
}
static void *end_busily(void *unused) {
    free(malloc(1));
    WANT(pthread_setspecific(key, &key), 0);
    return unused;
}
static void destructors_allocate(void) {
    pthread_t first;
    WANT(pthread_key_create(&key, on_end), 0);
    for (size_t n = 0; n < 5; n++) {
        WANT(pthread_create(&first, NULL, end_busily, NULL), 0);
        WANT(pthread_join(first, NULL), 0);
        WANT(pthread_join(second, NULL), 0);
    }
    WANT(pthread_key_delete(key), 0);
}

int main(int count, char **words) {
    if (count > 1) calls = strtoul(words[1], NULL, 10), shorter = 20;
    free(malloc(1));
    WANT(pthread_barrier_init(&met, NULL, THREADS), 0);
    run_threads(0, meet);
    want_heaps(THREADS + 1, THREADS);
    one_segment_is_kept();
    freed_before_growth();
    payloads_of_an_ended_thread();
    two_in_each_allocation();
    empty_payloads();
    destructors_allocate();
    size_t before = used();
    for (size_t n = 0; n < generations; n++) run_threads(n, work);
    for (size_t n = 0; n < SLOTS; n++) {
        if (slots[n]) check(slots[n], slots[n]->size);
        free(slots[n]);
    }
    WANT(used(), before);
    want_heaps(THREADS + 1, THREADS);
    return 0;
}
