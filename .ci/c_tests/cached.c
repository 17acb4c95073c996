/* The small payloads that a thread keeps when it frees them: how many, which, for how long, and that they count as free. Each test is a thread with
 * a heap of its own, whose first segment has 512 KiB: 128 bytes of its own, 963 blocks of 544 bytes, 256 bytes and a sentinel. */
#define _GNU_SOURCE
#include "want.h"
#include <malloc.h>
#include <pthread.h>
#include <string.h>
#include <sys/resource.h>
#include <sys/wait.h>

enum { EACH = 16, COUNT = 963 };
static char *payloads[COUNT];

static size_t used(void) { return mallinfo2().uordblks; }
static size_t held(void) { return mallinfo2().arena; }

/* Payloads of `size` bytes, one behind another. */
static void fill(size_t count, size_t size) {
    for (size_t n = 0; n < count; n++) payloads[n] = memset(malloc(size), (int)n, size);
}
static void free_all(size_t count) {
    for (size_t n = 0; n < count; n++) free(payloads[n]);
}

/* The first 16 of one length that are freed are allocated next, the last one first: of 1 to 528 bytes. */
static void *newest_first(void *unused) {
    for (size_t size = 1; size <= 528; size += 31) {
        fill(40, size);
        free_all(EACH);
        for (size_t n = 40; n-- > EACH;) free(payloads[n]);
        for (size_t n = EACH; n-- > 0;) WANT(malloc(size) == payloads[n], 1);
        free_all(EACH);
    }
    return unused;
}

/* Those of other lengths and alignments are free for any size at once. */
static void *others_are_joined(void *unused) {
    char *wide, *behind;
    fill(40, 529);
    free_all(40);
    WANT((behind = malloc(20000)) == payloads[0], 1);
    free(behind);
    wide = aligned_alloc(64, 64), behind = malloc(8000);
    free(wide);
    free(behind);
    WANT((behind = malloc(8000)) == payloads[0], 1);
    free(behind);
    return unused;
}

/* They count as free. A trim frees them, and so does the end of the thread: then a segment is empty. */
static void *count_as_free(void *unused) {
    size_t before = used(), segments = held();
    fill(100, 100);
    WANT(used(), before + 100 * 128);
    free_all(100);
    WANT(used(), before);
    WANT(held(), segments + (512 << 10));
    malloc_trim(0);
    WANT(held(), segments);
    fill(100, 100);
    free_all(100);
    return unused;
}

static struct rlimit before;
static void refuse_memory(void) {
    WANT(getrlimit(RLIMIT_AS, &before), 0);
    struct rlimit none = {1, before.rlim_max};
    WANT(setrlimit(RLIMIT_AS, &none), 0);
}

/* They are freed if the system has no memory, in a child, too. */
static void *freed_under_a_limit(void *unused) {
    int status = 1;
    fill(COUNT, 512);
    size_t segments = held();
    free_all(EACH);
    pid_t child = fork();
    refuse_memory();
    WANT(malloc(8000) == payloads[0], 1);
    if (!child) _exit(0);
    WANT(setrlimit(RLIMIT_AS, &before), 0);
    WANT(held(), segments);
    WANT(waitpid(child, &status, 0), child);
    WANT(status, 0);
    return unused;
}

/* So they are for a payload that would get a segment of its own. The heap's only segment has 1.5 MB, of which the kept one leaves less than 1.1 MB.
 * Where another payload was, calloc's is zeros, too. */
static void *freed_for_a_large_one(void *unused) {
    char *wide = memset(aligned_alloc(512 << 10, 1000000), 0xff, 1000000), *first, *kept, *large;
    free(wide);
    first = malloc(500000), kept = malloc(500);
    free(first);
    free(kept);
    refuse_memory();
    large = calloc(1300, 1000);
    WANT(setrlimit(RLIMIT_AS, &before), 0);
    WANT(large != NULL, 1);
    for (size_t n = 0; n < 1300000; n++) WANT(large[n], 0);
    WANT(mallinfo2().hblks, 0);
    free(large);
    return unused;
}

static void *allocate_one(void *unused) {
    fill(1, 100);
    return unused;
}

static void in_thread(void *(*run)(void *)) {
    pthread_t thread;
    WANT(pthread_create(&thread, NULL, run, NULL), 0);
    WANT(pthread_join(thread, NULL), 0);
}

/* A heap without a thread keeps none: its segment is empty when another thread has asked the system for memory. */
static void heap_without_thread(void) {
    char *large;
    in_thread(allocate_one);
    malloc_trim(0);
    WANT(mallinfo2().keepcost, 0);
    free(payloads[0]);
    large = malloc(900000);
    WANT(mallinfo2().keepcost, 512 << 10);
    free(large);
}

int main(void) {
    free(malloc(1000));
    in_thread(count_as_free);
    malloc_trim(0);
    size_t segments = held();
    in_thread(count_as_free);
    malloc_trim(0);
    WANT(held(), segments);
    in_thread(newest_first);
    in_thread(others_are_joined);
    heap_without_thread();
    malloc_trim(0);
    in_thread(freed_for_a_large_one);
    malloc_trim(0);
    in_thread(freed_under_a_limit);
    return 0;
}
