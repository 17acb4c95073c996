/* A malloc that touches known lines of 64 bytes, for .ci/lines. Freed bytes are never used again. Built with -DLIBRARY it is the part that
 * lies in an archive. Each function begins a line of code, and NEXT_LINE begins another. */
#include <stddef.h>

#define HIDDEN __attribute__((visibility("hidden")))
#define LINE __attribute__((aligned(64)))
#define NEXT_LINE __asm__ volatile(".p2align 6, 0x90" ::: "memory")

extern HIDDEN char handle[256], blocks[1 << 22];
HIDDEN void *library_malloc(size_t size);

#ifdef LIBRARY
LINE char handle[256];
LINE char blocks[1 << 22];
static size_t used;

/* Two lines of code. Of data two of the handle, two of the block, whose size is written across the end of a line, and that of `used`. */
LINE void *library_malloc(size_t size) {
    char *block = blocks + used;
    ((volatile char *)handle)[0]++;
    ((volatile char *)handle)[63]++;
    NEXT_LINE;
    ((volatile char *)handle)[64]++;
    used += (size + 511) / 256 * 256;
    *(volatile size_t *)(block + 60) = size;
    return block + 192;
}
#else
LINE static volatile size_t calls;

/* Three lines of code, and one of data: the size is in a line that library_malloc touches, too. */
LINE void *malloc(size_t size) {
    calls++;
    NEXT_LINE;
    char *payload = library_malloc(size);
    NEXT_LINE;
    *(volatile char *)(payload - 132) = (char)size;
    return payload;
}

/* One line of code, and one of data. */
LINE void free(void *payload) {
    if (payload) *(volatile char *)payload = 0;
}

void name_places(void (*name)(const char *, const void *, size_t)) {
    name("handle", handle, sizeof handle);
    name("blocks", blocks, sizeof blocks);
}
#endif
