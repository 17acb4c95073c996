/* Segments in which few payloads live: the pages between these go back to the system, what lives keeps its bytes, and a program whose memory goes
 * up and down doesn't lose them at each turn. With the argument `pages` only the resident memory is looked at. */
#define _GNU_SOURCE
#include "want.h"
#include <malloc.h>
#include <pthread.h>
#include <string.h>
#include <sys/mman.h>
#include <sys/resource.h>
#include <sys/syscall.h>
#include <time.h>

enum { PAGE = 4096, PAGES = 128 };
/* Calls of malloc and free read and write these, which the C library's headers tell the compiler they don't. */
static volatile time_t second = 1000;
static volatile size_t drops;
static volatile unsigned char dropped[PAGES];

/* These two take the place of the C library's: a test says which second it is, and sees what is dropped. */
int clock_gettime(clockid_t clock, struct timespec *to) {
    if (clock != CLOCK_MONOTONIC_COARSE) return (int)syscall(SYS_clock_gettime, clock, to);
    *to = (struct timespec){.tv_sec = second};
    return 0;
}
int madvise(void *at, size_t len, int advice) {
    size_t first = (size_t)at % (64 << 20) / PAGE;
    drops++;
    for (size_t n = first; n < PAGES && n < first + len / PAGE; n++) dropped[n] = 1;
    return (int)syscall(SYS_madvise, at, len, advice);
}

/* A segment of 512 KiB has 128 bytes of its own, 511 blocks of 1,024 bytes, one of 864, and a sentinel. Four payloads are kept, which leave four
 * gaps of 100 blocks and one of 107. */
enum { BLOCKS = 511, SIZE = 1008 };
static unsigned char *payloads[BLOCKS];

static int is_kept(size_t n) { return n == 100 || n == 201 || n == 302 || n == 403; }

static void fill(size_t count) {
    for (size_t n = 0; n < BLOCKS && count; n++) {
        if (payloads[n]) continue;
        payloads[n] = memset(malloc(SIZE), (int)n % 255 + 1, SIZE);
        count--;
    }
}

/* Frees all payloads but the four and one other. Returns how often pages were dropped: in one call for at most five blocks. */
static size_t empty_but(size_t other) {
    size_t all = 0;
    for (size_t n = 0; n < PAGES; n++) dropped[n] = 0;
    for (size_t n = 0; n < BLOCKS; n++) {
        if (is_kept(n) || n == other) continue;
        drops = 0;
        free(payloads[n]);
        payloads[n] = NULL;
        WANT(drops <= 5, 1);
        all += drops;
    }
    for (size_t n = 0; n < BLOCKS; n++)
        for (size_t k = 0; is_kept(n) && k < SIZE; k++) WANT(payloads[n][k], n % 255 + 1);
    return all;
}
static size_t empty(void) { return empty_but(BLOCKS); }

/* Of the pages of the segment, how many are dropped, and how many have memory. */
static void want_pages(size_t wanted, size_t wanted_resident) {
    unsigned char resident[PAGES], *segment = payloads[100] - (size_t)payloads[100] % (64 << 20);
    size_t found = 0, here = 0;
    WANT(mincore(segment, PAGES * PAGE, resident), 0);
    for (size_t n = 0; n < PAGES; n++) found += dropped[n], here += resident[n] & 1;
    WANT(found, wanted);
    WANT(here, wanted_resident);
}

/* The gap behind a payload can be had also where the system has no memory, and no other place has so much. */
static void grow_in_place(void) {
    struct rlimit before, none;
    WANT(getrlimit(RLIMIT_AS, &before), 0);
    none = (struct rlimit){1, before.rlim_max};
    WANT(setrlimit(RLIMIT_AS, &none), 0);
    WANT(realloc(payloads[403], 108 * 1024 - 16) == payloads[403], 1);
    WANT(setrlimit(RLIMIT_AS, &before), 0);
    WANT(realloc(payloads[403], SIZE) == payloads[403], 1);
}

/* 64 blocks are left when pages are dropped for the first time: of the four gaps of 100, while that behind them has only 47 blocks. Then 32, 16, 8
 * and 4 blocks are left, and five gaps. At the end the pages 0, 25, 50, 75, 100, 101 and 127 stay: those with the segment's head, with a kept
 * payload or the header behind one, and with the sentinel. Another segment keeps its pages. */
static void *exact_pages(void *unused) {
    fill(BLOCKS);
    free(memset(malloc(700000), 1, 700000));
    WANT(empty(), 4 + 4 * 5);
    want_pages(121, 7);
    malloc_trim(0);

    /* In the same second nothing is dropped. In the next one the first free makes up for it. */
    fill(BLOCKS);
    WANT(empty_but(7), 0);
    want_pages(0, PAGES);
    second++;
    WANT(empty(), 5);
    want_pages(121, 7);

    /* 128 blocks don't fill it again, and 129 do. */
    second++;
    fill(124);
    WANT(empty(), 0);
    fill(125);
    WANT(empty() > 0, 1);
    want_pages(121, 7);
    grow_in_place();
    fill(BLOCKS);
    for (size_t n = 0; n < BLOCKS; n++) {
        for (size_t k = 0; k < SIZE; k++) WANT(payloads[n][k], n % 255 + 1);
        free(payloads[n]);
    }
    return unused;
}

/* 49 MiB of payloads, of which 50 are kept: one of each 1,000. */
enum { COUNT = 50000, KEPT_EACH = 1000 };
static unsigned char *many[COUNT];

static void fill_many(void) {
    for (size_t n = 0; n < COUNT; n++)
        if (!many[n]) many[n] = memset(malloc(SIZE), (int)(n % 251 + 1), SIZE);
}

static void check_many(void) {
    for (size_t n = 0; n < COUNT; n++)
        for (size_t k = 0; many[n] && k < SIZE; k++) WANT(many[n][k], n % 251 + 1);
}

/* Frees them in the order of their allocation, against it, or in another one. Of each `kept_each` one is kept. */
static void free_many(size_t order, size_t kept_each) {
    for (size_t n = 0; n < COUNT; n++) {
        size_t next = order == 0 ? n : order == 1 ? COUNT - 1 - n : n * 7919 % COUNT;
        if (next % kept_each == kept_each / 2) continue;
        free(many[next]);
        many[next] = NULL;
    }
}

/* When a segment's pages were dropped last, at most twice as many payloads lived there as are kept. So of each kept payload at most two gaps are
 * shorter than 64 KiB, and of each segment one. With at most 40 segments these are 6.25 and 2.5 MiB. */
static void pages_go_back(void) {
    fill_many();
    free_many(0, 2 * COUNT);
    malloc_trim(0);
    size_t held = mallinfo2().arena, used = mallinfo2().uordblks, before = resident();
    for (size_t order = 0; order < 3; order++) {
        second++;
        fill_many();
        WANT(resident() >= before + 47, 1);
        free_many(order, KEPT_EACH);
        WANT(resident() <= before + 9, 1);
        WANT(mallinfo2().uordblks - used < COUNT / KEPT_EACH * 1100, 1);
        check_many();
    }
    fill_many();
    check_many();
    free_many(2, 2 * COUNT);
    WANT(mallinfo2().uordblks, used);
    malloc_trim(0);
    WANT(mallinfo2().arena, held);
}

int main(int count, char **words) {
    pthread_t thread;
    if (count < 2 || strcmp(words[1], "pages")) {
        WANT(pthread_create(&thread, NULL, exact_pages, NULL), 0);
        WANT(pthread_join(thread, NULL), 0);
    }
    pages_go_back();
    return 0;
}
