/* Threads that allocate and free. With `own` each thread frees what it allocated, with `cross` a random one does. Prints how many million steps
 * a second all threads make: half of them allocate, and half free.
 *
 *     own_and_cross THREADS STEPS own|cross MOST        MOST is the greatest size
 *
 * With -DSTEPPED it counts the instructions of calls in one of the threads (examples/stepped.h): in STEPS steps, behind as many that aren't
 * counted. It prints the number of calls of malloc, their mean, and the worst one in which the system neither maps nor unmaps memory; and those
 * three of free. A counted thread is a thousand times slower than others, so the threads take turns: each makes as many steps as the next. */
#define _GNU_SOURCE
#include <pthread.h>
#include <stdatomic.h>
#include <stdint.h>
#include <stdio.h>
#include <stdlib.h>
#include <string.h>
#include <time.h>

enum { SLOTS = 4096, MOST_THREADS = 64 };
static _Atomic(unsigned char *) slots[MOST_THREADS][SLOTS];
static size_t threads, steps_wanted, most;
static int crosses;

#ifdef STEPPED
#include "../../examples/stepped.h"
#include <semaphore.h>
#include <sys/mman.h>

enum { STEPS_OF_A_TURN = 16 };
void *own_memory(size_t len) { return mmap(NULL, len, PROT_READ | PROT_WRITE, MAP_PRIVATE | MAP_ANONYMOUS, -1, 0); }

struct counted {
    size_t calls, all, worst;
};
static struct counted of_malloc, of_free;
static volatile int done;
static __thread int counts;
static sem_t turns[MOST_THREADS];

static void *count(struct counted *of, size_t function, size_t argument) {
    size_t before = steps;
    void *result;
    mapped = 0;
    result = in_steps(function, argument, 0);
    of->calls++;
    of->all += steps - before;
    if (!mapped && steps - before > of->worst) of->worst = steps - before;
    return result;
}
static void *call_malloc(size_t size) { return counts ? count(&of_malloc, (size_t)malloc, size) : malloc(size); }
static void call_free(void *payload) {
    if (counts) count(&of_free, (size_t)free, (size_t)payload);
    else free(payload);
}

/* The first thread is counted behind as many steps that aren't. The others end with it. */
static int goes_on(size_t me, size_t step) {
    if (!me && step == steps_wanted) begin_steps(), counts = 1;
    if (!me && step == 2 * steps_wanted) done = 1;
    return !done;
}
static void begin_turns(void) {
    for (size_t n = 0; n < threads; n++) sem_init(&turns[n], 0, n == 0);
}
static void wait_for_turn(size_t me, size_t step) {
    if (step % STEPS_OF_A_TURN) return;
    if (step) sem_post(&turns[(me + 1) % threads]);
    while (sem_wait(&turns[me])) continue;
}
static void end_turns(size_t me) { sem_post(&turns[(me + 1) % threads]); }
static void print_counted(const struct counted *of) { printf("%zu %.1f %zu\n", of->calls, (double)of->all / (double)of->calls, of->worst); }
static void print_result(double time) {
    (void)time;
    print_counted(&of_malloc);
    print_counted(&of_free);
}
#else
static int goes_on(size_t me, size_t step) { return (void)me, step < steps_wanted; }
static void begin_turns(void) {}
static void wait_for_turn(size_t me, size_t step) { (void)me, (void)step; }
static void end_turns(size_t me) { (void)me; }
static void print_result(double time) { printf("%.2f\n", (double)(threads * steps_wanted) / time / 1e6); }
#define call_malloc malloc
#define call_free free
#endif

static void make_step(size_t me, size_t step, uint64_t random) {
    _Atomic(unsigned char *) *slot = &slots[crosses ? (random >> 40) % threads : me][random % SLOTS];
    unsigned char *payload = atomic_exchange(slot, NULL);
    if (payload) {
        call_free(payload);
        return;
    }
    payload = call_malloc(1 + (random >> 20) % most);
    payload[0] = (unsigned char)step;
    payload = atomic_exchange(slot, payload);
    if (payload) call_free(payload);
}

static void *work(void *number) {
    size_t me = (size_t)number;
    uint64_t random = 88172645463325252u + me * 7919;
    for (size_t step = 0; goes_on(me, step); step++) {
        random ^= random << 13, random ^= random >> 7, random ^= random << 17;
        wait_for_turn(me, step);
        make_step(me, step, random);
    }
    end_turns(me);
    return NULL;
}

static double seconds(void) {
    struct timespec now;
    clock_gettime(CLOCK_MONOTONIC, &now);
    return (double)now.tv_sec + (double)now.tv_nsec / 1e9;
}

int main(int count, char **words) {
    pthread_t all[MOST_THREADS];
    if (count != 5 || (threads = strtoul(words[1], NULL, 10)) > MOST_THREADS) return 2;
    steps_wanted = strtoul(words[2], NULL, 10);
    crosses = !strcmp(words[3], "cross");
    most = strtoul(words[4], NULL, 10);
    begin_turns();
    double begun = seconds();
    for (size_t n = 0; n < threads; n++)
        if (pthread_create(&all[n], NULL, work, (void *)n)) return 1;
    for (size_t n = 0; n < threads; n++) pthread_join(all[n], NULL);
    print_result(seconds() - begun);
    return 0;
}
