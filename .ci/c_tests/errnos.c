/* What malloc's calls say of a failure: EINVAL of an alignment that can't be, ENOMEM of too many bytes, as glibc's own tests want it. Of a success
 * they say nothing, whatever the system did to errno meanwhile. */
#define _GNU_SOURCE
#include "want.h"
#include <errno.h>
#include <malloc.h>
#include <stdarg.h>
#include <stdint.h>
#include <string.h>
#include <sys/mman.h>
#include <sys/resource.h>
#include <sys/syscall.h>

/* Numbers that the compiler can't see. */
static volatile size_t most = SIZE_MAX, half = (size_t)1 << 33;

/* The call returns NULL with an error. */
#define FAILS(call, error) \
    do { \
        errno = 0; \
        WANT((call) == NULL, 1); \
        WANT(errno, error); \
    } while (0)

/* The call returns a payload at a multiple of `align`, and leaves errno as it is. */
#define SERVES(call, align) \
    do { \
        void *payload; \
        errno = 77; \
        payload = (call); \
        WANT(payload != NULL, 1); \
        WANT((size_t)payload % (align), 0); \
        WANT(errno, 77); \
        free(payload); \
        WANT(errno, 77); \
    } while (0)

/* These take the place of the C library's. Each changes errno. */
static volatile size_t mapped, unmapped, dropped, moved;
void *mmap(void *at, size_t len, int access, int flags, int file, off_t offset) {
    void *found = (void *)syscall(SYS_mmap, at, len, access, flags, file, offset);
    if (found != MAP_FAILED) errno = EIO;
    mapped++;
    return found;
}
int munmap(void *at, size_t len) {
    long error = syscall(SYS_munmap, at, len);
    errno = EIO;
    unmapped++;
    return (int)error;
}
int madvise(void *at, size_t len, int advice) {
    long error = syscall(SYS_madvise, at, len, advice);
    errno = EIO;
    dropped++;
    return (int)error;
}
void *mremap(void *at, size_t len, size_t new_len, int flags, ...) {
    va_list words;
    va_start(words, flags);
    void *to = va_arg(words, void *), *found = (void *)syscall(SYS_mremap, at, len, new_len, flags, to);
    va_end(words);
    if (found != MAP_FAILED) errno = EIO;
    moved++;
    return found;
}

/* Calls that return pages and segments to the system, or ask it for some, leave errno as it is. */
static void errno_is_kept(void) {
    enum { COUNT = 4000 };
    static void *payloads[COUNT];
    static const size_t sizes[] = {10, 1000, 900000, 1500000, 70000000, 2000000, 1000, 3000000, 16};
    size_t mapped_before = mapped, unmapped_before = unmapped, dropped_before = dropped, moved_before = moved;
    void *payload = NULL;
    errno = 77;
    for (size_t n = 0; n < COUNT; n++) payloads[n] = malloc(1000);
    WANT(errno, 77);
    for (size_t n = 0; n < COUNT; n++) {
        if (n % 100) free(payloads[n]);
        WANT(errno, 77);
    }
    WANT(dropped > dropped_before, 1);
    for (size_t n = 0; n < COUNT; n += 100) {
        free(payloads[n]);
        WANT(errno, 77);
    }
    for (size_t n = 0; n < sizeof sizes / sizeof *sizes; n++) {
        payload = realloc(payload, sizes[n]);
        WANT(payload != NULL && errno == 77, 1);
    }
    free(payload);
    WANT(errno, 77);
    WANT(mapped > mapped_before && unmapped > unmapped_before, 1);
    WANT(moved > moved_before || getenv("RLSF_CHECK"), 1);
}

/* A payload gets shorter also where the system has no memory for another one, and then nothing failed. */
static void shorter_without_memory(void) {
    struct rlimit before, none;
    char *payload = malloc(900000);
    memset(payload, 7, 900000);
    malloc_trim(0);
    WANT(getrlimit(RLIMIT_AS, &before), 0);
    none = (struct rlimit){1, before.rlim_max};
    WANT(setrlimit(RLIMIT_AS, &none), 0);
    errno = 77;
    WANT(realloc(payload, 800000) == payload && errno == 77, 1);
    FAILS(realloc(payload, 2000000), ENOMEM);
    WANT(setrlimit(RLIMIT_AS, &before), 0);
    for (size_t n = 0; n < 800000; n++) WANT(payload[n], 7);
    free(payload);
}

static void posix(size_t page) {
    void *payload = &page;
    errno = 77;
    WANT(posix_memalign(&payload, 24, 8), EINVAL);
    WANT(posix_memalign(&payload, 4, 8), EINVAL);
    WANT(posix_memalign(&payload, 0, 8), EINVAL);
    WANT(posix_memalign(&payload, page, most), ENOMEM);
    WANT(payload == &page, 1);
    WANT(errno, 77);
    WANT(posix_memalign(&payload, page, 8), 0);
    WANT((size_t)payload % page, 0);
    free(payload);
}

static void reallocations(void) {
    char *volatile payload = strcpy(malloc(10), "unchanged");
    FAILS(realloc(payload, most), ENOMEM);
    FAILS(realloc(payload, (size_t)1 << 60), ENOMEM);
    FAILS(reallocarray(payload, most / 2, 3), ENOMEM);
    FAILS(reallocarray(payload, most / 8 + 2, 8), ENOMEM); /* the product wraps to 8 */
    FAILS(calloc(most / 8 + 2, 8), ENOMEM);
    WANT(strcmp(payload, "unchanged"), 0);
    payload = realloc(payload, 5000000);
    FAILS(realloc(payload, most), ENOMEM);
    FAILS(realloc(payload, (size_t)1 << 60), ENOMEM);
    WANT(strcmp(payload, "unchanged"), 0);
    errno = 77;
    WANT(realloc(payload, 0) == NULL, 1);
    WANT(errno, 77);
}

int main(void) {
    size_t page = (size_t)sysconf(_SC_PAGESIZE);
    FAILS(memalign(most, page), EINVAL);
    FAILS(aligned_alloc(most, 8), EINVAL);
    FAILS(memalign(sizeof(void *), most), ENOMEM);
    FAILS(memalign(page, 0 - page), ENOMEM);
    FAILS(aligned_alloc((size_t)1 << 63, 8), ENOMEM);
    FAILS(valloc(most), ENOMEM);
    FAILS(pvalloc(most), ENOMEM);
    FAILS(pvalloc(0 - page), ENOMEM);
    FAILS(malloc(most), ENOMEM);
    FAILS(malloc((size_t)1 << 60), ENOMEM);
    FAILS(calloc(half, half), ENOMEM);
    SERVES(memalign(sizeof(void *), 0), 16);
    SERVES(memalign(0x100, 10), 0x100);
    SERVES(aligned_alloc(24, 8), 16);
    SERVES(aligned_alloc(5000, 8), 8192);
    SERVES(aligned_alloc(0, 8), 16);
    SERVES(pvalloc(1), page);
    SERVES(memalign(1 << 22, 10), 1 << 22);
    SERVES(malloc(3000000), 16);
    posix(page);
    reallocations();
    errno_is_kept();
    shorter_without_memory();
    return 0;
}
