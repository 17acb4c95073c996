/* Makes the allocations, reallocations and frees of a trace (docs/TRACES.md) with malloc, and prints the greatest heap: how many bytes the
 * C library had of the system at once. It needs glibc.
 *
 *     cc -O2 examples/heap_of_trace.c -o heap_of_trace && ./heap_of_trace TRACE
 *
 * Lines of other calls are passed over. The program's own tables aren't in the heap. */
#define _GNU_SOURCE
#include <fcntl.h>
#include <malloc.h>
#include <stdio.h>
#include <stdlib.h>
#include <string.h>
#include <sys/mman.h>
#include <sys/stat.h>
#include <unistd.h>

/* From this size on malloc may map a payload on its own, which moves no break. */
enum { MAPPED = 1 << 16 };

static size_t greatest, refused;
static void *last_break;

static size_t heap(void) {
    struct mallinfo2 info = mallinfo2();
    return info.arena + info.hblkhd;
}

/* Looks at the heap where a call may have made it longer. */
static void look(size_t size) {
    if (size < MAPPED && sbrk(0) == last_break) return;
    last_break = sbrk(0);
    size_t len = heap();
    if (len > greatest) greatest = len;
}

static void allocate(void **payload, size_t size, size_t align) {
    *payload = align > 16 ? aligned_alloc(align, size) : malloc(size);
    refused += !*payload;
    look(size);
}

static void resize(void **payload, size_t size) {
    void *moved = realloc(*payload, size);
    refused += !moved && size;
    if (moved) *payload = moved;
    look(size);
}

static void make_call(const char *line, void **names, size_t most) {
    const char *word = strchr(line, ' ');
    char *rest;
    size_t name = word ? strtoul(word, &rest, 10) : most;
    if (name >= most) return;
    if (!strncmp(line, "alloc ", 6)) {
        size_t size = strtoul(rest, &rest, 10);
        allocate(&names[name], size, strtoul(rest, NULL, 10));
    } else if (!strncmp(line, "realloc ", 8)) {
        resize(&names[name], strtoul(rest, NULL, 10));
    } else if (!strncmp(line, "free ", 5)) {
        free(names[name]);
        names[name] = NULL;
    }
}

static void *mapped(size_t len) {
    void *at = mmap(NULL, len, PROT_READ | PROT_WRITE, MAP_PRIVATE | MAP_ANONYMOUS | MAP_NORESERVE, -1, 0);
    if (at == MAP_FAILED) exit(1);
    return at;
}

int main(int count, char **words) {
    struct stat about;
    int file = count > 1 ? open(words[1], O_RDONLY) : -1;
    if (file < 0 || fstat(file, &about) || !about.st_size) return 2;
    size_t len = (size_t)about.st_size;
    char *text = mapped(len + 1);
    void **names = mapped(len * sizeof *names);
    for (size_t done = 0; done < len;) {
        ssize_t n = read(file, text + done, len - done);
        if (n <= 0) return 1;
        done += (size_t)n;
    }
    last_break = sbrk(0);
    size_t before = heap();
    for (const char *line = text; line; line = strchr(line, '\n')) {
        line += *line == '\n';
        make_call(line, names, len);
    }
    printf("%zu bytes, %zu refused\n", greatest > before ? greatest - before : 0, refused);
    return 0;
}
