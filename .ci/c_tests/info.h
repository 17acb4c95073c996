/* What malloc_info says of the heaps. To be included behind malloc.h. */
#include <string.h>

/* Reads the number of heaps, and of those without a thread. */
static void read_heaps(size_t *heaps, size_t *left) {
    char text[1000] = {0};
    FILE *to = fmemopen(text, sizeof text, "w");
    WANT(malloc_info(0, to), 0);
    fclose(to);
    const char *found = strstr(text, "<heaps ");
    WANT(found && sscanf(found, "<heaps count=\"%zu\" left=\"%zu\"/>", heaps, left) == 2, 1);
}
