/* Exports of the library for C, for .ci/paths. What is wrong with them is chosen: a loop by -DLOOP, an indirect jump by -DINDIRECT, a call of
 * another library by -DOUTSIDE, and too many instructions by -DLONGER. */
#include <stddef.h>
#include <string.h>

#ifdef LONGER
#define MORE __asm__ volatile(".rept 100\n inc %%rcx\n .endr" : : : "rcx")
#else
#define MORE (void)0
#endif
size_t rlsf_large_usable(void *heap, size_t payload) {
    MORE;
    return heap ? payload : 0;
}

#ifdef INDIRECT
size_t rlsf_large_malloc(void *heap, size_t size) { return (*(size_t (**)(size_t))heap)(size); }
#elif defined OUTSIDE
size_t rlsf_large_malloc(void *heap, size_t size) { return (size_t)memmove(heap, (char *)heap + 1, size); }
#elif defined LOOP
size_t rlsf_large_malloc(void *heap, size_t size) {
    const volatile size_t *word = heap;
    while (*word < size) word++;
    return (size_t)word;
}
#else
size_t rlsf_large_malloc(void *heap, size_t size) { return size < 100 ? (size_t)heap + size : 0; }
#endif
