/* Wrong calls, which a malloc with checks reports: the argument is the number of one. It prints the report, or what it begins with. Without one, the
 * calls are right, in four threads and a child. */
#define _GNU_SOURCE
#include "want.h"
#include <malloc.h>
#include <pthread.h>
#include <signal.h>
#include <stdatomic.h>
#include <string.h>
#include <sys/mman.h>
#include <sys/resource.h>
#include <sys/syscall.h>
#include <sys/wait.h>

static const char inside[] = "this lies inside a payload", nothing[] = "no payload lives here: it was freed, or never allocated";
static const char behind[] = "bytes behind this payload were overwritten";

static void announce(const char *call, const void *payload, const char *what) {
    printf("rlsf: %s(%p): %s\n", call, payload, what);
}

/* The bytes from an offset on are written, and the payload is freed. */
static void write_behind(size_t size, size_t offset) {
    volatile char *payload = malloc(size);
    payload[offset] ^= 1;
    announce("free", (const void *)payload, behind);
    free((void *)payload);
}

/* A header of the heap is overwritten, far from the payloads that are freed behind it. */
static void write_header(void) {
    volatile size_t *payload = malloc(1000);
    void *next = malloc(1000), *after = malloc(1000);
    payload[((size_t)next - (size_t)payload) / 8 - 2] ^= 64;
    printf("rlsf: free(0x");
    for (size_t n = 0; after && n < 2000; n++) free(malloc(10));
}

static void misuse(size_t number) {
    static char nobody[64] __attribute__((aligned(16)));
    char *volatile payload = malloc(100), *volatile large = malloc(3000000);
    switch (number) {
    case 1: free(payload), announce("free", payload, nothing), free(payload); break;
    case 2: announce("free", payload + 16, inside), free(payload + 16); break;
    case 3: announce("free", nobody, nothing), free(nobody); break;
    case 4: announce("free", (char *)0x123450, nothing), free((void *)0x123450); break;
    case 5: free(large), announce("free", large, nothing), free(large); break;
    case 6: announce("realloc", payload + 32, inside), payload = realloc(payload + 32, 200); break;
    case 7: free(payload), announce("realloc", payload, nothing), payload = realloc(payload, 200); break;
    case 8: free(payload), announce("malloc_usable_size", payload, nothing), (void)!malloc_usable_size(payload); break;
    case 9: write_behind(100, 100); break;
    case 10: write_behind(101, 108); break;
    case 11: write_behind(3000000, 3000000); break;
    case 12: write_header(); break;
    case 13: write_behind(100, 143); break;
    }
}

/* The usable size is what was asked for, unless a child of several threads has no checks. */
static atomic_int begun;
static void *work(void *is_child) {
    free(malloc(1));
    begun++;
    for (size_t n = 0; n < 3000; n++) {
        size_t size = n * 37 % 5000 + (n % 500 == 0) * 2000000;
        char *payload = n % 3 == 0 ? malloc(size) : n % 3 == 1 ? calloc(1, size) : aligned_alloc(256, size);
        WANT(payload != NULL && malloc_usable_size(payload) >= size && (is_child || malloc_usable_size(payload) == size), 1);
        memset(payload, 1, size);
        payload = realloc(payload, size + n % 300 + 1);
        WANT(payload != NULL && malloc_usable_size(payload) > size, 1);
        for (size_t k = 0; k < size; k += 50) WANT(payload[k], 1);
        free(payload);
    }
    return is_child;
}

/* Runs a child, and returns its status. */
static int status_of(void (*run)(void)) {
    int status = 1;
    pid_t child = fork();
    if (child == 0) {
        alarm(60);
        run();
        _exit(0);
    }
    WANT(waitpid(child, &status, 0), child);
    return status;
}

static void in_child_of_one(void) { work(NULL); }

/* While `slow`, whoever maps memory is long in a call, under the lock of the checks. */
static volatile int slow;
void *mmap(void *at, size_t len, int access, int flags, int file, off_t offset) {
    if (slow) slow = 2, usleep(300000);
    return (void *)syscall(SYS_mmap, at, len, access, flags, file, offset);
}
static void free_twice(void) {
    char *volatile payload = malloc(100);
    free(payload);
    free(payload);
}

/* No call is checked: so the usable bytes are those of the block, of 128 bytes, and a wrong size isn't seen. */
static void in_child_of_several(void) {
    slow = 0;
    char *volatile payload = malloc(100);
    WANT(malloc_usable_size(payload), 112);
    memset(payload, 1, 112);
    free(payload);
    work(&begun);
}

/* A thread that didn't call yet forks while the only one that did is in the middle of a call. */
static void *fork_beside(void *status) {
    while (slow < 2) usleep(100);
    *(int *)status = status_of(in_child_of_several);
    return NULL;
}
static void fork_in_a_call(void) {
    pthread_t thread;
    int status = 1;
    WANT(pthread_create(&thread, NULL, fork_beside, &status), 0);
    slow = 1;
    free(malloc(3000000));
    WANT(pthread_join(thread, NULL), 0);
    slow = 0;
    WANT(status, 0);
}

/* A child of one thread is checked as its parent is, and one of several threads isn't. */
static void right_calls(void) {
    pthread_t threads[4];
    free(malloc(1));
    WANT(status_of(in_child_of_one), 0);
    WANT(status_of(free_twice), SIGABRT);
    fork_in_a_call();
    for (size_t n = 0; n < 4; n++) WANT(pthread_create(&threads[n], NULL, work, NULL), 0);
    while (begun < 4) usleep(100);
    for (size_t n = 0; n < 20; n++) WANT(status_of(in_child_of_several), 0);
    WANT(malloc_usable_size(memset(malloc(100), 1, 100)), 100);
    for (size_t n = 0; n < 4; n++) WANT(pthread_join(threads[n], NULL), 0);
}

int main(int count, char **words) {
    struct rlimit none = {0, 0}; /* a report leaves no core */
    setrlimit(RLIMIT_CORE, &none);
    setvbuf(stdout, NULL, _IONBF, 0);
    if (count > 1) misuse(strtoul(words[1], NULL, 10));
    else right_calls();
    return 0;
}
