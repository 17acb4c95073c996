/* malloc and its kin over a large heap, to be preloaded into a program that measures. The heap's memory is one mapped range of LEN bytes.
 * Without another flag there is no lock, so only one thread may call.
 *
 *     -DTOUCHED    all pages of the memory are mapped at the start
 *     -DLOCKED     a mutex is held in each call
 *     -DEACH       each thread has a heap of its own, of which other threads free nothing: such frees do nothing
 *     -DNAMED      a function says where the handle and the blocks lie (examples/marked.h) */
#define _GNU_SOURCE
#include "rlsf.h"
#include <errno.h>
#include <pthread.h>
#include <stdint.h>
#include <stdlib.h>
#include <string.h>
#include <sys/mman.h>

#ifdef EACH
#define OWNER __thread __attribute__((tls_model("initial-exec")))
#else
#define OWNER
#endif
#ifdef TOUCHED
#define HOW MAP_POPULATE
#else
#define HOW MAP_NORESERVE
#endif

static OWNER rlsf_heap *heap;
static OWNER unsigned char *memory;
#ifdef LOCKED
static pthread_mutex_t lock = PTHREAD_MUTEX_INITIALIZER;
#endif

static void *of_system(size_t len, int how) {
    void *at = mmap(NULL, len, PROT_READ | PROT_WRITE, MAP_PRIVATE | MAP_ANONYMOUS | how, -1, 0);
    if (at == MAP_FAILED) abort();
    return at;
}

static __attribute__((noinline, cold)) void make(void) {
    memory = of_system(LEN, HOW);
    heap = rlsf_heap_init(of_system(rlsf_heap_size(RLSF_LARGE), MAP_POPULATE), RLSF_LARGE, memory, LEN);
}

static inline void enter(void) {
#ifdef LOCKED
    pthread_mutex_lock(&lock);
#endif
    if (__builtin_expect(!heap, 0)) make();
}

static inline void leave(void) {
#ifdef LOCKED
    pthread_mutex_unlock(&lock);
#endif
}

/* Whether a payload is of the heap that is in use here. */
static inline int is_own(void *payload) {
#ifdef EACH
    return (size_t)((unsigned char *)payload - memory) < LEN;
#else
    return payload != NULL;
#endif
}

static inline void *returned(void *payload) {
    leave();
    if (!payload) errno = ENOMEM;
    return payload;
}

void *malloc(size_t size) {
    enter();
    return returned(rlsf_malloc(heap, size));
}

void free(void *payload) {
    if (!is_own(payload)) return;
    enter();
    rlsf_free(heap, payload);
    leave();
}

size_t malloc_usable_size(void *payload) { return rlsf_usable_size(heap, payload); }

void *calloc(size_t count, size_t size) {
    size_t len;
    if (__builtin_mul_overflow(count, size, &len)) return NULL;
    enter();
    void *payload = returned(rlsf_malloc(heap, len));
    return payload ? memset(payload, 0, len) : NULL;
}

void *realloc(void *payload, size_t size) {
    enter();
    return returned(rlsf_realloc(heap, payload, size));
}

void *aligned_alloc(size_t align, size_t size) {
    enter();
    return returned(rlsf_aligned_alloc(heap, align, size));
}

void *memalign(size_t align, size_t size) { return aligned_alloc(align, size); }

int posix_memalign(void **payload, size_t align, size_t size) {
    *payload = aligned_alloc(align, size);
    return *payload ? 0 : ENOMEM;
}

#ifdef NAMED
void name_places(void (*name)(const char *, const void *, size_t)) {
    name("handle", heap, rlsf_heap_size(RLSF_LARGE));
    name("blocks", memory, LEN);
}
#endif
