/* Makes calls of malloc, realloc and free in a fixed order, to measure whichever allocator the program runs with. tools/measure builds it
 * in five ways and runs it:
 *
 *     loads LOAD CALLS THREADS               makes the calls, in each of some threads; prints how many there were, and what failed
 *     loads LOAD CALLS touched|fresh FILE    (-DTIMED) writes to a file how long each call took, in ticks of the processor's counter
 *     loads LOAD CALLS touched|fresh FILE    (-DSTEPPED) makes many calls, then writes how many instructions each of CALLS more executed
 *     loads LOAD CALLS fresh FILE            (-DMARKED, under lackey) makes many calls, then marks CALLS more; writes what lies at which addresses
 *     loads LOAD CALLS touched|fresh N..     (-DCOUNTED, under callgrind) dumps what each of the calls number N.. executed, from 0
 *     loads live:N CALLS count               (-DCOUNTED, under callgrind) makes many calls, then turns the counting on and makes CALLS more
 *
 * The calls that are counted are made by functions named counted_..
 *
 * With `touched` all calls are made once before, so that the allocator has touched its memory. After each call the first and the last
 * byte of the payload are written, and they are read before it is freed. The program itself takes its memory from mmap. */
#define _GNU_SOURCE
#include "loads.h"
#include <pthread.h>
#include <stdio.h>
#include <string.h>
#include <sys/mman.h>
#include <time.h>
#ifdef COUNTED
#include <valgrind/callgrind.h>
#endif

void *own_memory(size_t len) {
    void *at = mmap(NULL, len, PROT_READ | PROT_WRITE, MAP_PRIVATE | MAP_ANONYMOUS | MAP_POPULATE, -1, 0);
    if (at == MAP_FAILED) abort();
    return at;
}

/* The order of the calls, and their results, of one thread. */
struct thread {
    pthread_t id;
    const char *load;
    size_t calls;
    struct run run;
};

static void make_calls(struct run *run, size_t calls) {
    for (size_t call = 0; call < calls; call++) {
        run->call = call;
        run->step(run);
    }
}

static void *in_thread(void *at) {
    struct thread *thread = at;
    make_calls(&thread->run, thread->calls);
    return NULL;
}

static void report(const struct run *run, double seconds) {
    printf("%zu calls, %zu refused, %zu wrong bytes", run->calls, run->refused, run->wrong);
    if (seconds > 0) printf(", %.6f seconds", seconds);
    putchar('\n');
}

static double now(void) {
    struct timespec time;
    clock_gettime(CLOCK_MONOTONIC, &time);
    return (double)time.tv_sec + (double)time.tv_nsec * 1e-9;
}

#if defined COUNTED || defined STEPPED || defined MARKED
/* Makes so many calls that what was there at the start no longer matters. */
static void settle(struct run *run) {
#ifdef MARKED
    make_calls(run, 4 * run->slot_count); /* as few as serve, since the trace is slow */
#else
    make_calls(run, 10000 + 4 * run->slot_count);
#endif
    run->calls = 0;
}
#endif

/* Runs some threads beside each other, and reports all of them together. */
static __attribute__((unused)) void run_threads(const char *load, size_t calls, size_t count) {
    struct thread *threads = own_memory(count * sizeof *threads);
    struct run total = {0};
    for (size_t n = 0; n < count; n++) threads[n] = (struct thread){.load = load, .calls = calls};
    for (size_t n = 0; n < count; n++) begin_run(&threads[n].run, load, n);
#ifdef COUNTED
    settle(&threads[0].run);
    CALLGRIND_START_INSTRUMENTATION;
#endif
    double begun = now();
    for (size_t n = 1; n < count; n++)
        if (pthread_create(&threads[n].id, NULL, in_thread, &threads[n])) abort();
    in_thread(&threads[0]);
    for (size_t n = 1; n < count; n++) pthread_join(threads[n].id, NULL);
    double seconds = now() - begun;
    for (size_t n = 0; n < count; n++) {
        total.calls += threads[n].run.calls;
        total.refused += threads[n].run.refused;
        total.wrong += threads[n].run.wrong;
    }
    report(&total, seconds);
}

/* Makes all calls before they are measured, and frees what is left of them. */
static void touch(const char *load, size_t calls) {
    struct run before = {0};
    begin_run(&before, load, 0);
    make_calls(&before, calls);
    end_run(&before);
}

#if defined TIMED || defined STEPPED
static void write_ticks(const struct run *run, size_t calls, const char *path) {
    FILE *file = fopen(path, "wb");
    if (!file || fwrite(run->ticks, sizeof *run->ticks, calls, file) != calls || fclose(file)) abort();
}
#endif

#ifdef STEPPED
static void run_stepped(const char *load, size_t calls, const char *path) {
    struct run run = {0};
    begin_run(&run, load, 0);
    settle(&run);
    run.ticks = own_memory(calls * sizeof *run.ticks);
    begin_steps();
    make_calls(&run, calls);
    report(&run, 0);
    write_ticks(&run, calls, path);
}
#endif

#ifdef MARKED
static void run_marked(const char *load, size_t calls, const char *path) {
    struct run run = {0};
    begin_run(&run, load, 0);
    settle(&run);
    marking = 1;
    make_calls(&run, calls);
    marking = 0;
    report(&run, 0);
    write_places(path);
}
#endif

#ifdef TIMED
/* The least ticks between two looks at the counter. */
static uint64_t empty_ticks(void) {
    uint64_t least = UINT64_MAX;
    for (int n = 0; n < 1000; n++) {
        uint64_t begun = ticks(), taken = ticks() - begun;
        if (taken < least) least = taken;
    }
    return least;
}

static void run_timed(const char *load, size_t calls, const char *path) {
    struct run run = {0};
    begin_run(&run, load, 0);
    run.ticks = own_memory(calls * sizeof *run.ticks);
    double begun = now();
    uint64_t from = ticks();
    make_calls(&run, calls);
    uint64_t taken = ticks() - from;
    fprintf(stderr, "%.0f ticks a second, %lu ticks to look\n", (double)taken / (now() - begun), (unsigned long)empty_ticks());
    report(&run, 0);
    write_ticks(&run, calls, path);
}
#endif

#ifdef COUNTED
/* Dumps the instructions of some calls, whose numbers ascend. */
static void run_dumped(const char *load, size_t calls, char **numbers) {
    struct run run = {0};
    begin_run(&run, load, 0);
    for (size_t call = 0; call < calls && *numbers; call++) {
        int dumped = call == strtoul(*numbers, NULL, 10);
        run.call = call;
        if (dumped) CALLGRIND_ZERO_STATS;
        run.step(&run);
        if (!dumped) continue;
        CALLGRIND_DUMP_STATS_AT("call");
        numbers++;
    }
    report(&run, 0);
}
#endif

int main(int count, char **words) {
    if (count < 4) return 2;
    const char *load = words[1];
    size_t calls = strtoul(words[2], NULL, 10);
    /* What an allocator does once, before its first call, isn't measured. */
    void *volatile first = malloc(1);
    free(first);
    if (!strcmp(words[3], "touched")) touch(load, calls);
#ifdef STEPPED
    run_stepped(load, calls, words[4]);
#elif defined MARKED
    run_marked(load, calls, words[4]);
#elif defined TIMED
    run_timed(load, calls, words[4]);
#elif defined COUNTED
    if (strcmp(words[3], "count")) run_dumped(load, calls, words + 4);
    else run_threads(load, calls, 1);
#else
    run_threads(load, calls, strtoul(words[3], NULL, 10));
#endif
    return 0;
}
