/* Marks single calls in a trace of all that a program reads, writes and executes, as `valgrind --tool=lackey --trace-mem=yes` prints it. A
 * store to one of `marks` begins a call, and a store to the last one ends it. The linker places them at an address that tools/measure knows. */
#ifndef MARKED_H
#define MARKED_H

#include <dlfcn.h>
#include <stdint.h>
#include <stdio.h>
#include <stdlib.h>

enum { MALLOC, REALLOC, FREE, END, MARKS };

static volatile uint64_t marks[MARKS] __attribute__((section(".marks"), aligned(64))) = {0};
static int marking;

static inline void mark_call(int call) {
    if (marking) marks[call] = 1;
}

static FILE *places;

static void write_place(const char *name, const void *at, size_t len) { fprintf(places, "%s %zx %zx\n", name, (size_t)at, len); }

/* Writes what lies at which addresses: the mappings of the process, the mark `stack`, and what a preloaded allocator names of its own. */
static void write_places(const char *path) {
    char line[4096];
    FILE *maps = fopen("/proc/self/maps", "r");
    void (*named)(void (*)(const char *, const void *, size_t)) = dlsym(RTLD_DEFAULT, "name_places");
    places = fopen(path, "w");
    if (!maps || !places) abort();
    write_place("stack", line, sizeof line);
    if (named) named(write_place);
    while (fgets(line, sizeof line, maps)) fputs(line, places);
    if (fclose(maps) || fclose(places)) abort();
}

#endif
