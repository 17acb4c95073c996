/* Heaps of threads that end: what their threads freed goes back to the system, each heap is used again, and none is lost where a thread's end can't be
 * noticed, or lasts. Each test wants the heaps that were left, and what their threads have allocated, as the tests before it left them. */
#define _GNU_SOURCE
#include "want.h"
#include <dlfcn.h>
#include <errno.h>
#include <malloc.h>
#include "info.h"
#include <pthread.h>
#include <semaphore.h>
#include <string.h>
#include <sys/resource.h>

enum { EACH = 10, LONG = 900000, THREADS = 3 };
static sem_t begun, go_on[THREADS];
static pthread_t threads[THREADS];
static void *payloads[THREADS][EACH];

/* This takes the place of the C library's. */
static int refuses;
int pthread_setspecific(pthread_key_t key, const void *value) {
    static int (*real)(pthread_key_t, const void *);
    if (refuses) return ENOMEM;
    if (!real) *(void **)&real = dlsym(RTLD_NEXT, "pthread_setspecific");
    return real(key, value);
}

static void in_thread(void *(*run)(void *)) {
    pthread_t thread;
    WANT(pthread_create(&thread, NULL, run, NULL), 0);
    WANT(pthread_join(thread, NULL), 0);
}

/* Begins threads that have a heap at the same time, the first one first. */
static void begin(size_t count, void *(*run)(void *)) {
    for (size_t n = 0; n < count; n++) {
        WANT(pthread_create(&threads[n], NULL, run, (void *)n), 0);
        while (sem_wait(&begun)) continue;
    }
}

static void end(size_t n) {
    sem_post(&go_on[n]);
    WANT(pthread_join(threads[n], NULL), 0);
}

static void *wait_for_end(size_t n) {
    sem_post(&begun);
    while (sem_wait(&go_on[n])) continue;
    return NULL;
}

/* What a thread freed last doesn't keep its segment from being empty. */
static void *free_small(void *unused) {
    void *small[100];
    for (size_t n = 0; n < 100; n++) small[n] = malloc(100);
    for (size_t n = 0; n < 100; n++) free(small[n]);
    return unused;
}
static void cached_are_freed(void) {
    in_thread(free_small);
    WANT(mallinfo2().keepcost, 512 << 10);
    malloc_trim(0);
    WANT(mallinfo2().keepcost, 0);
}

/* Each time that a thread asks the system for memory, what was returned to another of the heaps that were left is freed. So two times are enough
 * for two heaps, which have 18 MB, and keep a segment each. */
static void *allocate_long(void *n) {
    for (size_t k = 0; k < EACH; k++) payloads[(size_t)n][k] = malloc(LONG);
    return wait_for_end((size_t)n);
}
static void left_in_turn(void) {
    size_t before = mallinfo2().arena;
    void *grown[2];
    begin(2, allocate_long);
    end(1);
    end(0);
    WANT(mallinfo2().arena >= before + 2 * EACH * LONG, 1);
    for (size_t n = 0; n < 2 * EACH; n++) free(payloads[n / EACH][n % EACH]);
    for (size_t n = 0; n < 2; n++) grown[n] = malloc(LONG);
    WANT(mallinfo2().arena <= before + 5 * LONG, 1);
    for (size_t n = 0; n < 2; n++) free(grown[n]);
    malloc_trim(0);
}

/* What a thread keeps in a heap that it took over is its own, also if the heap is the next one whose payloads would be freed. It has room there. */
static void *wait_with_a_heap(void *n) {
    payloads[(size_t)n][0] = malloc(1000);
    return wait_for_end((size_t)n);
}
static void *keep_two(void *n) {
    void *first = malloc(100), *second = malloc(100);
    free(first);
    free(second);
    wait_for_end((size_t)n);
    WANT(malloc(100) == second, 1);
    WANT(malloc(100) == first, 1);
    free(first);
    free(second);
    return NULL;
}
static void taken_over(void) {
    void *grown[2];
    begin(THREADS, wait_with_a_heap);
    for (size_t n = THREADS; n-- > 0;) end(n);
    grown[0] = malloc(LONG);
    begin(2, keep_two);
    grown[1] = malloc(LONG);
    for (size_t n = 0; n < 2; n++) end(n), free(grown[n]);
    for (size_t n = 0; n < THREADS; n++) free(payloads[n][0]);
    malloc_trim(0);
}

/* A payload of another thread's heap gets shorter where it lies, if there is no memory for another one. */
static void shorter_in_another_heap(void) {
    struct rlimit before, none;
    begin(1, allocate_long);
    WANT(getrlimit(RLIMIT_AS, &before), 0);
    none = (struct rlimit){1, before.rlim_max};
    WANT(setrlimit(RLIMIT_AS, &none), 0);
    WANT(realloc(payloads[0][0], LONG - 100000) == payloads[0][0], 1);
    WANT(realloc(payloads[0][0], LONG + 100000) == NULL, 1);
    WANT(setrlimit(RLIMIT_AS, &before), 0);
    end(0);
    for (size_t n = 0; n < EACH; n++) free(payloads[0][n]);
    malloc_trim(0);
}

/* A segment that realloc leaves without a payload is empty, too: the payload moves to another one, which had none. */
static void *move_out(void *unused) {
    char *moved = malloc(1000), *other = malloc(LONG);
    size_t all;
    free(other);
    all = mallinfo2().arena;
    moved = realloc(moved, LONG / 2 + 100000);
    WANT(mallinfo2().arena, all);
    malloc_trim(0);
    WANT(mallinfo2().arena, all - (512 << 10));
    free(moved);
    return unused;
}

/* No heap is lost: neither of a thread that allocates in each round of its destructors, nor where the C library has no memory for a thread's value. */
static pthread_key_t key;
static void allocate_again(void *value) {
    free_small(NULL);
    pthread_setspecific(key, value);
}
static void *allocate_to_the_end(void *unused) {
    free_small(NULL);
    WANT(pthread_setspecific(key, &key), 0);
    return unused;
}
static void none_is_lost(void) {
    size_t before, left, after, left_after;
    read_heaps(&before, &left);
    WANT(pthread_key_create(&key, allocate_again), 0);
    for (size_t n = 0; n < 20; n++) in_thread(allocate_to_the_end);
    WANT(pthread_key_delete(key), 0);
    refuses = 1;
    for (size_t n = 0; n < 20; n++) in_thread(free_small);
    refuses = 0;
    read_heaps(&after, &left_after);
    WANT(after, before);
    WANT(left_after, left);
}

int main(void) {
    char *held = malloc(1000);
    WANT(sem_init(&begun, 0, 0), 0);
    for (size_t n = 0; n < THREADS; n++) WANT(sem_init(&go_on[n], 0, 0), 0);
    cached_are_freed();
    taken_over();
    left_in_turn();
    shorter_in_another_heap();
    in_thread(move_out);
    none_is_lost();
    free(held);
    return 0;
}
