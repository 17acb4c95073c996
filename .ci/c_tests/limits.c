/* Allocates until the system refuses, under a limit on addresses or data that was set before the program began: each call that fails returns
 * NULL with ENOMEM, in each of four threads, and what is freed can be had again. The argument N instead wants N MiB in payloads of 100 bytes. */
#define _GNU_SOURCE
#include "want.h"
#include <errno.h>
#include <malloc.h>
#include <pthread.h>
#include <string.h>
#include <sys/mman.h>
#include <sys/resource.h>

#define MOST 80000

static void *call(size_t n, size_t size) {
    void *payload = NULL;
    switch (n % 8) {
    case 0: return malloc(size);
    case 1: return calloc(size / 8, 8);
    case 2: return realloc(NULL, size);
    case 3: return aligned_alloc(64, size);
    case 4: return memalign(4096, size);
    case 5: return valloc(size);
    case 6: return pvalloc(size);
    default: errno = posix_memalign(&payload, 32, size); return payload;
    }
}

/* Allocates until all eight calls fail, and frees everything. Returns how many payloads there were. */
static size_t fill(size_t size) {
    static __thread char *payloads[MOST];
    size_t count = 0, refused = 0;
    for (size_t n = 0; refused < 8 && count < MOST; n++) {
        errno = 0;
        char *payload = call(n, size);
        refused = payload ? 0 : refused + 1;
        if (!payload) WANT(errno, ENOMEM);
        if (payload) memset(payloads[count++] = payload, (int)n, 8);
    }
    WANT(refused, 8);
    if (count) WANT(realloc(payloads[0], (size_t)1 << 40) == NULL && errno == ENOMEM, 1);
    for (size_t n = 0; n < count; n++) free(payloads[n]);
    return count;
}

static void *work(void *size) {
    for (int round = 0; round < 3; round++) fill(*(size_t *)size);
    return NULL;
}

/* Small payloads get nearly all of what a limit allows: each takes a block of 128 bytes. */
static void fill_with_small(size_t mib) {
    size_t count = 0;
    while (malloc(100)) count++;
    WANT(count * 100 >> 20 >= mib, 1);
}

/* Addresses stay free for other mappings, and for a thread under a limit that is set later. */
static void addresses_stay_free(void) {
    struct rlimit before, later;
    pthread_t thread;
    size_t size = 1000;
    free(malloc(1000));
    void *half = mmap(NULL, 400 << 20, PROT_READ, MAP_PRIVATE | MAP_ANONYMOUS, -1, 0);
    WANT(half != MAP_FAILED, 1);
    munmap(half, 400 << 20);
    WANT(getrlimit(RLIMIT_AS, &before), 0);
    later = before;
    later.rlim_cur = 64 << 20;
    WANT(setrlimit(RLIMIT_AS, &later), 0);
    WANT(pthread_create(&thread, NULL, work, &size), 0);
    WANT(pthread_join(thread, NULL), 0);
    WANT(setrlimit(RLIMIT_AS, &before), 0);
}

int main(int count, char **words) {
    static size_t sizes[] = {20000, 300000, 2000000, 50000000};
    if (count > 1) return fill_with_small(strtoul(words[1], NULL, 10)), 0;
    addresses_stay_free();
    for (size_t n = 0; n < 4; n++) {
        pthread_t threads[4];
        size_t first = fill(sizes[n]);
        WANT(first > 0, 1);
        for (size_t k = 0; k < 4; k++) WANT(pthread_create(&threads[k], NULL, work, &sizes[n]), 0);
        for (size_t k = 0; k < 4; k++) pthread_join(threads[k], NULL);
        WANT(fill(sizes[n]) * 4 > first * 3, 1);
    }
    return 0;
}
