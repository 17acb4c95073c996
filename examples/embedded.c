/* A small heap in a static buffer, without malloc and without the C library: a queue of messages of all lengths.
 *
 *     cc -O2 -ffreestanding -nostdlib -static -Iinclude examples/embedded.c crates/rlsf_malloc/out/librlsf_malloc.a -o embedded
 *     ./embedded; echo $?
 *
 * It prints nothing, and its status is 0 if each message came back as it was sent. The archive needs memset and memmove of the system;
 * here they are below. The start is that of Linux on x86-64. */
#include "rlsf.h"

void *memset(void *to, int value, size_t len) {
    unsigned char *bytes = to;
    while (len--) bytes[len] = (unsigned char)value;
    return to;
}

void *memmove(void *to, const void *from, size_t len) {
    unsigned char *t = to;
    const unsigned char *f = from;
    if ((size_t)t < (size_t)f)
        for (size_t i = 0; i < len; i++) t[i] = f[i];
    else
        while (len--) t[len] = f[len];
    return to;
}

typedef struct message {
    struct message *next;
    size_t len;
    unsigned char bytes[];
} message;

static rlsf_small_handle handle;
static _Alignas(16) unsigned char memory[64 << 10];
static rlsf_heap *heap;
static message *first, **last = &first;

/* Queues a message whose bytes are all its length, or returns 0 if there is no room. */
static int send(size_t len) {
    message *m = rlsf_malloc(heap, sizeof(message) + len);
    if (!m) return 0;
    m->next = NULL;
    m->len = len;
    memset(m->bytes, (int)(len & 255), len);
    *last = m;
    last = &m->next;
    return 1;
}

/* Takes a message out. Returns whether it is as it was sent. */
static int receive(void) {
    message *m = first;
    int same = 1;
    for (size_t i = 0; i < m->len; i++) same &= m->bytes[i] == (m->len & 255);
    first = m->next;
    if (!first) last = &first;
    rlsf_free(heap, m);
    return same;
}

static int run(void) {
    heap = rlsf_heap_init(&handle, RLSF_SMALL, memory, sizeof memory);
    if (!heap) return 1;
    for (size_t round = 0; round < 1000; round++) {
        for (size_t len = round % 7; send(len); len = (len * 5 + 3) % 1500) {}
        while (first)
            if (!receive()) return 2;
    }
    /* All messages are gone, so a long one fits again. */
    if (!send(40000) || !receive()) return 3;
    rlsf_heap_end(heap);
    return 0;
}

__attribute__((naked)) void _start(void) { __asm__("xor %ebp, %ebp\n and $-16, %rsp\n call begin"); }

__attribute__((noreturn, used)) void begin(void) {
    int status = run();
    __asm__ volatile("syscall" : : "a"(60), "D"(status) : "rcx", "r11", "memory");
    __builtin_unreachable();
}
