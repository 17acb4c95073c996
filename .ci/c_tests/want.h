/* What the tests of this folder share: a comparison that ends the program with a message, and the resident memory. */
#include <stdio.h>
#include <stdlib.h>
#include <unistd.h>

static void want(const char *what, size_t got, size_t wanted) {
    if (got == wanted) return;
    /* Without stdio: the heap may be what is broken. */
    char line[200];
    int len = snprintf(line, sizeof line, "%s: %zu, wanted %zu\n", what, got, wanted);
    if (write(2, line, (size_t)len) < 0) abort();
    _exit(1);
}
#define WANT(call, wanted) want(#call, (size_t)(call), (size_t)(wanted))

/* The resident memory of this process in MB. */
static inline size_t resident(void) {
    char line[100] = {0};
    unsigned long all, here;
    FILE *file = fopen("/proc/self/statm", "r");
    if (!file || !fgets(line, sizeof line, file) || sscanf(line, "%lu %lu", &all, &here) != 2) abort();
    fclose(file);
    return here * (size_t)sysconf(_SC_PAGESIZE) >> 20;
}
