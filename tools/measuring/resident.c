/* Makes the allocations, reallocations and frees of a trace (docs/TRACES.md) with malloc, and writes every byte of each payload. Prints how
 * many calls there were, how many failed, how many bytes were lost, the most bytes that were live at once, and the most bytes of resident
 * memory, without those that were resident before the first call. `tools/measure memory` runs it under each allocator:
 *
 *     resident TRACE
 *
 * Resident memory is what the kernel counts as anonymous in smaps_rollup: no code, and no page that was never touched. The kernel has this
 * number for the moment only, so it is read after each call in which a page fault occurred. Without one no page was added. Huge pages are
 * off, since one write would make all of theirs resident. The program's own memory is mapped before the first call. It needs Linux. */
#define _GNU_SOURCE
#include <fcntl.h>
#include <stdio.h>
#include <stdlib.h>
#include <string.h>
#include <sys/mman.h>
#include <sys/prctl.h>
#include <sys/resource.h>
#include <sys/stat.h>
#include <unistd.h>

enum kind { ALLOC, REALLOC, FREE };

struct call {
    enum kind kind;
    size_t name, size, align;
};

struct payload {
    unsigned char *at;
    size_t size;
};

static struct {
    size_t failed, lost, live, most_live, most_resident;
} found;

static void *mapped(size_t len) {
    void *at = mmap(NULL, len, PROT_READ | PROT_WRITE, MAP_PRIVATE | MAP_ANONYMOUS | MAP_POPULATE, -1, 0);
    if (at == MAP_FAILED) exit(1);
    return at;
}

/* The bytes of resident anonymous memory. */
static size_t resident(void) {
    static char text[4096];
    int file = open("/proc/self/smaps_rollup", O_RDONLY);
    ssize_t len = read(file, text, sizeof text - 1);
    close(file);
    char *line = len > 0 ? strstr(text, "\nAnonymous:") : NULL;
    if (!line) exit(1);
    return strtoul(line + strlen("\nAnonymous:"), NULL, 10) * 1024;
}

/* Looks at the resident memory if a page was added since the last look. */
static void look(void) {
    static long faults;
    struct rusage use;
    getrusage(RUSAGE_SELF, &use);
    if (use.ru_minflt == faults) return;
    faults = use.ru_minflt;
    size_t len = resident();
    if (len > found.most_resident) found.most_resident = len;
}

/* Each payload has the same byte everywhere. */
static unsigned char mark(size_t name) { return (unsigned char)(name % 255 + 1); }

/* Counts the bytes of a payload that aren't as they were written. */
static void compare(const struct payload *payload, size_t name) {
    for (size_t i = 0; i < payload->size; i++) found.lost += payload->at[i] != mark(name);
}

/* Writes the bytes of a payload that a call added, after a look at those that it kept. */
static void resize(struct payload *payload, const struct call *call, unsigned char *at) {
    if (!at) {
        found.failed++;
        return;
    }
    size_t kept = payload->size < call->size ? payload->size : call->size;
    *payload = (struct payload){.at = at, .size = kept};
    compare(payload, call->name);
    memset(at + kept, mark(call->name), call->size - kept);
    payload->size = call->size;
}

static void make_call(const struct call *call, struct payload *payload) {
    found.live -= payload->size;
    if (call->kind == ALLOC) {
        resize(payload, call, call->align > 16 ? aligned_alloc(call->align, call->size) : malloc(call->size));
    } else if (call->kind == REALLOC) {
        /* realloc with size 0 may free the payload, which stays live in the trace. */
        resize(payload, call, realloc(payload->at, call->size ? call->size : 1));
    } else {
        compare(payload, call->name);
        free(payload->at);
        *payload = (struct payload){0};
    }
    found.live += payload->size;
    if (found.live > found.most_live) found.most_live = found.live;
}

/* Reads a line; returns whether it is a call of malloc, realloc or free. */
static int read_line(char *line, struct call *call) {
    static const char *words[] = {"alloc ", "realloc ", "free "};
    for (enum kind kind = ALLOC; kind <= FREE; kind++) {
        if (strncmp(line, words[kind], strlen(words[kind]))) continue;
        char *rest = line + strlen(words[kind]);
        *call = (struct call){.kind = kind, .name = strtoul(rest, &rest, 10)};
        if (kind != FREE) call->size = strtoul(rest, &rest, 10);
        if (kind == ALLOC) call->align = strtoul(rest, &rest, 10);
        return 1;
    }
    return 0;
}

/* The text of a file, with a byte 0 behind it. */
static char *text_of(const char *path, size_t *len) {
    struct stat about;
    int file = open(path, O_RDONLY);
    if (file < 0 || fstat(file, &about)) exit(2);
    *len = (size_t)about.st_size;
    char *text = mapped(*len + 1);
    for (size_t done = 0; done < *len;) {
        ssize_t n = read(file, text + done, *len - done);
        if (n <= 0) exit(1);
        done += (size_t)n;
    }
    close(file);
    return text;
}

int main(int count, char **words) {
    if (count != 2) return 2;
    if (!prctl(PR_GET_THP_DISABLE, 0, 0, 0, 0) && !prctl(PR_SET_THP_DISABLE, 1, 0, 0, 0)) execv("/proc/self/exe", words);
    size_t len, calls = 0, names = 1;
    char *text = text_of(words[1], &len);
    /* The shortest line of a call, "free 1", has seven bytes with its end. */
    struct call *made = mapped((len / 7 + 1) * sizeof *made);
    for (char *line = text; line; line = strchr(line, '\n')) {
        line += *line == '\n';
        if (!read_line(line, &made[calls])) continue;
        if (made[calls].name >= names) names = made[calls].name + 1;
        calls++;
    }
    struct payload *payloads = mapped(names * sizeof *payloads);
    free(malloc(1));
    look();
    size_t before = found.most_resident = resident();
    for (size_t i = 0; i < calls; i++) {
        make_call(&made[i], &payloads[made[i].name]);
        look();
    }
    printf("%zu calls, %zu failed, %zu bytes lost, %zu live\n%zu resident\n", calls, found.failed, found.lost, found.most_live,
           found.most_resident - before);
    return 0;
}
