/* Records the calls of malloc, free and their kin that a program makes, as the lines of a trace (docs/TRACES.md):
 *
 *     cc -O2 -shared -fPIC examples/record.c -o record.so
 *     RLSF_RECORD=calls LD_PRELOAD=./record.so PROGRAM
 *
 * writes calls.PID for each process of the program, without the trace's first line and its `insert`. A process that replaces itself by
 * another program begins its file again. A child that only forks isn't recorded. The calls of several threads are written in an order in
 * which no address is live twice. `tools/measure traces` uses this, and needs glibc. */
#define _GNU_SOURCE
#include <errno.h>
#include <fcntl.h>
#include <pthread.h>
#include <stdarg.h>
#include <stdint.h>
#include <stdio.h>
#include <stdlib.h>
#include <string.h>
#include <sys/mman.h>
#include <unistd.h>

extern void *__libc_malloc(size_t);
extern void __libc_free(void *);
extern void *__libc_realloc(void *, size_t);
extern void *__libc_calloc(size_t, size_t);
extern void *__libc_memalign(size_t, size_t);

/* The alignment of malloc. */
enum { ALIGN = 16, SLOTS = 1 << 24 };

/* A live payload: its address, and its name in the trace. A slot without one has address 0. */
struct live {
    uintptr_t addr;
    uint64_t name;
};

static pthread_mutex_t lock = PTHREAD_MUTEX_INITIALIZER;
static struct live *table;
static uint64_t names;
static int file = -1;
static pid_t recorded;
static char text[1 << 16];
static size_t written;

static void *of_system(size_t len) {
    void *at = mmap(NULL, len, PROT_READ | PROT_WRITE, MAP_PRIVATE | MAP_ANONYMOUS | MAP_NORESERVE, -1, 0);
    return at == MAP_FAILED ? NULL : at;
}

/* Opens the file at the first call. Nothing here may allocate. */
static void begin(void) {
    static int begun;
    if (begun) return;
    begun = 1;
    const char *path = getenv("RLSF_RECORD");
    char name[4096];
    if (!path || strlen(path) > sizeof name - 32) return;
    snprintf(name, sizeof name, "%s.%ld", path, (long)getpid());
    table = of_system(SLOTS * sizeof *table);
    if (!table) return;
    file = open(name, O_CREAT | O_WRONLY | O_TRUNC | O_CLOEXEC, 0644);
    recorded = getpid();
}

/* Whether this process is recorded: a child has its parent's table, but not its file. */
static int is_recorded(void) {
    begin();
    return file >= 0 && getpid() == recorded;
}

static void write_out(void) {
    size_t done = 0;
    while (done < written) {
        ssize_t n = write(file, text + done, written - done);
        if (n <= 0) break;
        done += (size_t)n;
    }
    written = 0;
}

static void say(const char *format, ...) __attribute__((format(printf, 1, 2)));
static void say(const char *format, ...) {
    if (written > sizeof text - 128) write_out();
    va_list words;
    va_start(words, format);
    written += (size_t)vsnprintf(text + written, 128, format, words);
    va_end(words);
}

static size_t home(uintptr_t addr) { return (size_t)((addr >> 4) * 0x9E3779B97F4A7C15u >> 40) % SLOTS; }

/* The slot of an address, or the empty one where it would go. */
static size_t slot_of(uintptr_t addr) {
    size_t at = home(addr);
    while (table[at].addr && table[at].addr != addr) at = (at + 1) % SLOTS;
    return at;
}

/* Empties a slot, and closes the gap: what could no longer be found moves into it. */
static void empty(size_t gap) {
    table[gap].addr = 0;
    for (size_t at = (gap + 1) % SLOTS; table[at].addr; at = (at + 1) % SLOTS) {
        size_t from_home = (at - home(table[at].addr)) % SLOTS;
        if (from_home < (at - gap) % SLOTS) continue;
        table[gap] = table[at];
        table[at].addr = 0;
        gap = at;
    }
}

static void put(void *payload, uint64_t name) {
    table[slot_of((uintptr_t)payload)] = (struct live){(uintptr_t)payload, name};
}

/* Takes a payload out of the table. Returns its name, or 0 if it was allocated before the recording. */
static uint64_t take(void *payload) {
    size_t at = slot_of((uintptr_t)payload);
    uint64_t name = table[at].addr ? table[at].name : 0;
    if (name) empty(at);
    return name;
}

static void *allocated(void *payload, size_t size, size_t align) {
    if (!payload) return NULL;
    pthread_mutex_lock(&lock);
    if (is_recorded()) {
        put(payload, ++names);
        say("alloc %lu %zu %zu\n", (unsigned long)names, size, align);
    }
    pthread_mutex_unlock(&lock);
    return payload;
}

void *malloc(size_t size) { return allocated(__libc_malloc(size), size, ALIGN); }

void *calloc(size_t count, size_t size) { return allocated(__libc_calloc(count, size), count * size, ALIGN); }

/* The line is written first: afterwards another thread may be given the address. */
void free(void *payload) {
    int error = errno;
    if (!payload) return;
    pthread_mutex_lock(&lock);
    uint64_t name = is_recorded() ? take(payload) : 0;
    if (name) say("free %lu\n", (unsigned long)name);
    pthread_mutex_unlock(&lock);
    errno = error;
    __libc_free(payload);
}

/* The lock is held throughout, since the call may free one address and take another. */
void *realloc(void *payload, size_t size) {
    if (!payload) return malloc(size);
    if (!size) {
        free(payload);
        return NULL;
    }
    pthread_mutex_lock(&lock);
    uint64_t name = is_recorded() ? take(payload) : 0;
    void *moved = __libc_realloc(payload, size);
    if (name) put(moved ? moved : payload, name);
    if (name && moved) say("realloc %lu %zu\n", (unsigned long)name, size);
    pthread_mutex_unlock(&lock);
    return moved;
}

void *reallocarray(void *payload, size_t count, size_t size) {
    size_t len;
    if (__builtin_mul_overflow(count, size, &len)) {
        errno = ENOMEM;
        return NULL;
    }
    return realloc(payload, len);
}

void *memalign(size_t align, size_t size) { return allocated(__libc_memalign(align, size), size, align); }

void *aligned_alloc(size_t align, size_t size) { return memalign(align, size); }

void *valloc(size_t size) { return memalign((size_t)getpagesize(), size); }

int posix_memalign(void **payload, size_t align, size_t size) {
    if (align % sizeof(void *) || align & (align - 1) || !align) return EINVAL;
    void *made = memalign(align, size);
    if (!made) return ENOMEM;
    *payload = made;
    return 0;
}

__attribute__((destructor)) static void end(void) {
    pthread_mutex_lock(&lock);
    if (is_recorded()) write_out();
    pthread_mutex_unlock(&lock);
}
