/* The malloc of c/malloc.c, with a function that says where this thread's handle and blocks lie (examples/marked.h). */
#include "../../c/malloc.c"

void name_places(void (*name)(const char *, const void *, size_t)) {
    name("handle", &mine->handle, sizeof mine->handle);
    for (struct segment *segment = mine->segments; segment; segment = segment->next) name("blocks", segment + 1, segment->lent);
}
