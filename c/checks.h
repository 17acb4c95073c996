/* The calls of malloc.c for those who look for a bug: with RLSF_CHECK=1 in the environment, a call with a pointer at which no payload lives, and
 * bytes that were overwritten behind a payload, end the program with a message.
 *
 * All threads share one heap then, under a lock, and no thread has one of its own: so the calls of malloc.c come here. A table outside of the
 * heap has each live payload and the size that was asked for. The bytes behind a payload, of which there are GUARD to 4 * GUARD, are looked at when
 * it is freed, and all of the heap's headers each CALLS_EACH frees. */
#ifndef RLSF_CHECKS_H
#define RLSF_CHECKS_H

#include "forks.h"
#include <stdio.h>
#include <stdlib.h>
#include <string.h>

#define GUARD ((size_t)16)
#define GUARD_BYTE 0xa7
#define CALLS_EACH 1000
#define POOLS_CHECKED 1024 /* a heap of more segments isn't looked at */

struct record {
    const void *payload; /* NULL: the entry is free */
    size_t size;
};

static pthread_mutex_t checks_lock = PTHREAD_MUTEX_INITIALIZER;
static struct heap checked_heap;
static struct record *records; /* each payload lies at the first free entry from its hash on */
static size_t record_count, record_room;
static const char *first_thread; /* a variable of the first thread that called */
static int several_threads;
THREAD_LOCAL char here;

/* Ends the program. The message needs no memory. */
static void report(const char *call, const void *payload, const char *what) {
    char line[200];
    int len = snprintf(line, sizeof line, "rlsf: %s(%p): %s\n", call, payload, what);
    if (write(2, line, (size_t)len) < 0) abort();
    abort();
}

static size_t entry_of(const void *payload) { return ((size_t)payload / 16 * 0x9e3779b97f4a7c15u) >> 20 & (record_room - 1); }

/* The entry of a payload, or the free one where it would lie. */
static size_t find(const void *payload) {
    size_t n = entry_of(payload);
    while (records[n].payload && records[n].payload != payload) n = (n + 1) & (record_room - 1);
    return n;
}

/* Makes room for one more record. Returns 0 if the system refuses. */
static int make_room(void) {
    struct record *old = records;
    size_t old_room = record_room, room = old_room ? 2 * old_room : 4096;
    if (2 * record_count < old_room) return 1;
    records = mmap(NULL, room * sizeof *records, PROT_READ | PROT_WRITE, MAP_PRIVATE | MAP_ANONYMOUS, -1, 0);
    if (records == MAP_FAILED) {
        records = old;
        return 0;
    }
    record_room = room;
    for (size_t n = 0; n < old_room; n++)
        if (old[n].payload) records[find(old[n].payload)] = old[n];
    if (old) munmap(old, old_room * sizeof *old);
    return 1;
}

/* Removes a record. Those behind it move up, so that each lies at the first free entry again. */
static void forget(size_t n) {
    records[n].payload = NULL;
    record_count--;
    for (n = (n + 1) & (record_room - 1); records[n].payload; n = (n + 1) & (record_room - 1)) {
        struct record moved = records[n];
        records[n].payload = NULL;
        records[find(moved.payload)] = moved;
    }
}

/* Whether a pointer lies in a live payload behind its first byte. */
static int lies_inside(const void *payload) {
    for (size_t n = 0; n < record_room; n++)
        if (records[n].payload && (size_t)payload - (size_t)records[n].payload < records[n].size) return 1;
    return 0;
}

/* The entry of a live payload. Otherwise the program ends. */
static size_t find_live(const void *payload, const char *call) {
    size_t n = record_room ? find(payload) : 0;
    if (record_room && records[n].payload) return n;
    report(call, payload, lies_inside(payload) ? "this lies inside a payload" : "no payload lives here: it was freed, or never allocated");
    return n;
}

/* The length of the bytes behind a payload that were set. */
static size_t guard_len(const void *payload, size_t size) {
    size_t len = usable(payload) - size;
    return len < 4 * GUARD ? len : 4 * GUARD;
}

static void look_behind(const void *payload, size_t size, const char *call) {
    const unsigned char *behind = (const unsigned char *)payload + size;
    for (size_t n = 0; n < guard_len(payload, size); n++)
        if (behind[n] != GUARD_BYTE) report(call, payload, "bytes behind this payload were overwritten");
}

/* Looks at the whole heap, each CALLS_EACH calls. */
static void look_at_heap(const void *payload, const char *call) {
    static rlsf_range pools[POOLS_CHECKED];
    static size_t calls;
    size_t count = 0;
    if (++calls % CALLS_EACH) return;
    for (struct segment *segment = checked->segments; segment; segment = segment->next) {
        if (count == POOLS_CHECKED) return;
        pools[count++] = (rlsf_range){(size_t)(segment + 1), segment->lent};
    }
    if (!rlsf_heap_check(&checked->handle.heap, pools, count)) report(call, payload, "words between payloads were overwritten");
}

/* Whether calls are checked. To be asked first: in a child they may not be any more, and then no call may enter. */
static int is_checked(void) {
    notice_child();
    return checked != NULL;
}

static void enter_checks(void) {
    pthread_mutex_lock(&checks_lock);
    if (!first_thread) first_thread = &here;
    several_threads |= first_thread != &here;
}

static void *checked_allocate(size_t align, size_t size) {
    void *payload = NULL;
    enter_checks();
    if (size <= SIZE_MAX - GUARD && make_room()) payload = allocate_in(checked, align, size + GUARD);
    if (payload) {
        memset((char *)payload + size, GUARD_BYTE, guard_len(payload, size));
        records[find(payload)] = (struct record){payload, size};
        record_count++;
    }
    pthread_mutex_unlock(&checks_lock);
    return payload;
}

static void checked_free(void *payload, const char *call) {
    struct segment *segment;
    size_t n;
    enter_checks();
    n = find_live(payload, call);
    look_behind(payload, records[n].size, call);
    look_at_heap(payload, call);
    forget(n);
    segment = segment_of(payload);
    if (segment->owner) free_own(checked, segment, payload);
    else unmap_single(segment);
    pthread_mutex_unlock(&checks_lock);
}

static size_t checked_size(const void *payload, const char *call) {
    size_t size;
    enter_checks();
    size = records[find_live(payload, call)].size;
    pthread_mutex_unlock(&checks_lock);
    return size;
}

static __attribute__((noinline)) void *checked_realloc(void *payload, size_t size) {
    size_t len = checked_size(payload, "realloc");
    int error = errno;
    void *moved = checked_allocate(16, size);
    if (!moved) {
        errno = size <= len ? error : ENOMEM;
        return size <= len ? payload : NULL;
    }
    memcpy(moved, payload, len < size ? len : size);
    checked_free(payload, "realloc");
    errno = error;
    return moved;
}

/* If another thread than the one that forks called, it may have been in the middle of a call, and hold checks_lock: then no further call is checked
 * in the child, so that none takes the lock, and what lives is kept. */
static void in_child_of_checks(void) {
    if (!checked) return;
    if (several_threads || (first_thread && first_thread != &here)) checked = NULL;
    else know_heap(checked);
}

static void begin_checks(void) {
    const char *wanted = getenv("RLSF_CHECK");
    if (!wanted || strcmp(wanted, "1")) return;
    rlsf_heap_begin(&checked_heap.handle, RLSF_LARGE);
    checked_heap.countdown = LOOKS_EACH;
    know_heap(&checked_heap);
    checked = &checked_heap;
}

#endif
