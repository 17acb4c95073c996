/* Forks beside calls of malloc: none of these programs may wait for ever, and each child may allocate. The argument names the program. */
#define _GNU_SOURCE
#include "want.h"
#include <errno.h>
#include <malloc.h>
#include "info.h"
#include <pthread.h>
#include <sched.h>
#include <signal.h>
#include <stdint.h>
#include <stdatomic.h>
#include <string.h>
#include <sys/mman.h>
#include <sys/syscall.h>
#include <sys/wait.h>
#include <time.h>

static volatile int done;
static volatile int raises; /* whether a fork raises a signal */
static volatile int slow;   /* whether malloc's lock is held for long */
static atomic_int unmaps;   /* how many threads return memory, in which malloc's lock is held */

static void wait_for(pid_t child) {
    int status = 0, error = errno;
    while (waitpid(child, &status, 0) < 0) WANT(errno, EINTR);
    WANT(status, 0);
    errno = error;
}

/* A handler that forks, as in glibc's tst-mallocfork and tst-mallocfork2. */
static void fork_in_handler(int number) {
    int raised = raises;
    (void)number;
    raises = 0;
    pid_t child = fork();
    if (child == 0) _exit(0);
    WANT(child > 0, 1);
    wait_for(child);
    raises = raised;
}

/* Allocates and frees in the heap and outside, and keeps some payloads. */
static void allocate_some(size_t round) {
    static __thread unsigned char *kept[64];
    for (size_t n = 0; n < 64; n++) {
        size_t size = (n * 37 + round * 11) % 3000 + 1;
        if (kept[n]) WANT(kept[n][0], (unsigned char)n);
        if ((n + round) % 3) kept[n] = realloc(kept[n], size);
        else free(kept[n]), kept[n] = malloc(n == 5 ? 2000000 : size);
        memset(kept[n], (int)n, size);
    }
}

/* Allocates in a child, before malloc's own handler runs there, or frees what the test of given payloads allocated. */
static volatile int early, frees_early, frees_meanwhile;
static void *free_all(void *unused);
static void allocate_others(void);
static void in_thread(void *(*run)(void *));
static void allocate_early(void) {
    static char *kept[400];
    if (frees_early) free_all(NULL);
    if (frees_meanwhile) allocate_others();
    if (!early) return;
    (void)mallinfo2(); /* takes the lock, as a free may that returns memory */
    for (size_t n = 0; n < 400; n++) kept[n] = memset(malloc(n * 50 + 1), (int)n, n * 50 + 1);
    for (size_t n = 0; n < 400; n++) {
        WANT(kept[n][n * 50], (char)n);
        free(kept[n]);
    }
}

/* What is registered first runs last: after what malloc does before a fork, and before what it does behind one. So there is a signal in each
 * fork, or another thread has malloc's lock then. */
static void before_fork(void) {
    if (raises) raise(SIGUSR1);
    if (frees_meanwhile) in_thread(free_all);
    for (size_t n = 0; slow && !unmaps && n < 200; n++) usleep(100);
}
static void watch_forks(void) { pthread_atfork(before_fork, NULL, allocate_early); }
__attribute__((section(".preinit_array"), used)) static void (*before_constructors)(void) = watch_forks;

/* A signal while malloc asks the system for memory, or returns some: these functions take the place of the C library's there. */
void *mmap(void *at, size_t len, int access, int flags, int file, off_t offset) {
    if (raises) raise(SIGUSR1);
    return (void *)syscall(SYS_mmap, at, len, access, flags, file, offset);
}
int munmap(void *at, size_t len) {
    if (raises) raise(SIGUSR1);
    unmaps++;
    if (slow) usleep(3000);
    unmaps--;
    return (int)syscall(SYS_munmap, at, len);
}

/* Signals come at any time: in malloc, in free, and in a fork. */
static void in_handlers(void) {
    struct sigaction action = {.sa_handler = fork_in_handler, .sa_flags = SA_RESTART};
    static void *kept[1000];
    pid_t parent = getpid(), sender;
    WANT(sigaction(SIGUSR1, &action, NULL), 0);
    sender = fork();
    if (sender == 0) {
        for (size_t n = 0; n < 40 && !kill(parent, SIGUSR1); n++) usleep(2000);
        _exit(0);
    }
    raises = 1;
    for (size_t n = 0; n < 1000; n++) WANT((kept[n] = malloc(90000)) != NULL, 1);
    for (size_t n = 0; n < 1000; n++) free(kept[n]);
    for (size_t round = 0; round < 200; round++) {
        allocate_some(round);
        if (round % 10) continue;
        pid_t child = fork();
        if (child == 0) {
            signal(SIGUSR1, SIG_IGN);
            allocate_some(round + 1);
            _exit(0);
        }
        wait_for(child);
    }
    while (waitpid(sender, NULL, 0) < 0) WANT(errno, EINTR);
}

static void *flush(void *unused) {
    while (!done) fflush(NULL);
    return unused;
}

/* Reads lines, for which getline allocates under the lock of its stream. */
static void *read_lines(void *unused) {
    static char text[3000];
    memset(text, 'x', sizeof text);
    while (!done) {
        FILE *file = fmemopen(text, sizeof text, "r");
        char *line = NULL;
        size_t size = 0;
        WANT(file != NULL, 1);
        WANT(getline(&line, &size, file), sizeof text);
        free(line);
        fclose(file);
    }
    return unused;
}

static void *allocate(void *unused) {
    for (size_t round = 0; !done; round++) allocate_some(round);
    return unused;
}

/* What the main thread allocated is freed by others, while it forks. */
enum { GIVEN = 1024 };
static _Atomic(unsigned char *) given[GIVEN];
static void *free_given(void *unused) {
    while (!done)
        for (size_t n = 0; n < GIVEN; n++) {
            unsigned char *payload = atomic_exchange(&given[n], NULL);
            if (!payload) continue;
            WANT(payload[0], (unsigned char)n);
            free(payload);
            sched_yield();
        }
    return unused;
}
static void *give(void *unused) {
    for (size_t n = 0; n < GIVEN; n++)
        if (!given[n]) given[n] = memset(malloc(200), (int)n, 200);
    return unused;
}
static void *free_all(void *unused) {
    for (size_t n = 0; n < GIVEN; n++) free(atomic_exchange(&given[n], NULL));
    return unused;
}

static size_t used(void) {
    malloc_trim(0);
    return mallinfo2().uordblks;
}

static void in_thread(void *(*run)(void *)) {
    pthread_t thread;
    WANT(pthread_create(&thread, NULL, run, NULL), 0);
    WANT(pthread_join(thread, NULL), 0);
}

/* What another thread frees during a fork isn't used in the child: there it may lie in the middle of a call. */
static unsigned char *were[GIVEN];
static void allocate_others(void) {
    for (size_t n = 0; n < GIVEN; n++) {
        unsigned char *other = malloc(200);
        for (size_t k = 0; k < GIVEN; k++) WANT(other != were[k], 1);
    }
}

/* What was freed before a fork is free in the child, too: in the heap of the thread that forks, and in one without a thread. So is what is freed in
 * the child before malloc's own handler runs there. */
static void free_before_fork(void) {
    for (size_t round = 0; round < 4; round++) {
        size_t before = used();
        if (round == 1 || round == 2) in_thread(give);
        else give(NULL);
        for (size_t n = 0; n < GIVEN; n++) were[n] = given[n];
        if (round == 0) in_thread(free_all);
        if (round == 1) free_all(NULL);
        frees_early = round == 2;
        frees_meanwhile = round == 3;
        WANT(mallinfo2().uordblks >= before + GIVEN * 200, 1);
        pid_t child = fork();
        if (child == 0) {
            WANT(round == 3 || used() == before, 1);
            _exit(0);
        }
        wait_for(child);
        frees_early = frees_meanwhile = 0;
        if (round == 2) free_all(NULL);
        WANT(used(), before);
    }
}

/* A child of threads that free: what lives keeps its bytes, and what is allocated is nobody else's. */
static void in_child_of_givers(unsigned char *const *kept) {
    for (size_t n = 0; n < 2000; n++) memset(malloc(n % 300), 0xee, n % 300);
    for (size_t n = 0; n < 256; n++) WANT(kept[n][0] == (unsigned char)n && kept[n][299] == (unsigned char)n, 1);
    _exit(0);
}

/* Nothing that is freed during a fork is lost, or is freed twice. */
static void give_during_forks(void) {
    static unsigned char *kept[256];
    pthread_t threads[4];
    size_t before;
    for (size_t n = 0; n < 4; n++) WANT(pthread_create(&threads[n], NULL, free_given, NULL), 0);
    for (size_t n = 0; n < 256; n++) memset(kept[n] = malloc(300), (int)n, 300);
    before = used();
    for (size_t round = 0; round < 100; round++) {
        give(NULL);
        pid_t child = fork();
        if (child == 0) in_child_of_givers(kept);
        wait_for(child);
    }
    for (size_t n = 0; n < GIVEN; n++)
        while (given[n]) usleep(100);
    done = 1;
    for (size_t n = 0; n < 4; n++) WANT(pthread_join(threads[n], NULL), 0);
    WANT(used(), before);
    free_before_fork();
}

/* Begins threads that end: malloc's lock is held while they return memory. */
static void *allocate_once(void *unused) {
    free(malloc(100));
    return unused;
}
static void *begin_often(void *unused) {
    while (!done) {
        pthread_t thread;
        WANT(pthread_create(&thread, NULL, allocate_once, NULL), 0);
        WANT(pthread_join(thread, NULL), 0);
    }
    return unused;
}

/* Forks beside four threads; each child allocates, too. */
static void beside(void *(*first)(void *), void *(*second)(void *)) {
    pthread_t threads[4];
    time_t begun = time(NULL);
    for (size_t n = 0; n < 4; n++) WANT(pthread_create(&threads[n], NULL, n % 2 ? second : first, NULL), 0);
    for (size_t round = 0; round < 600 && time(NULL) < begun + 2; round++) {
        pid_t child = fork();
        if (child == 0) {
            allocate_some(round);
            _exit(0);
        }
        WANT(child > 0, 1);
        allocate_some(round);
        wait_for(child);
    }
    done = 1;
    for (size_t n = 0; n < 4; n++) WANT(pthread_join(threads[n], NULL), 0);
    /* Each heap but this thread's was left, also where its thread ended during a fork. */
    size_t heaps, left;
    read_heaps(&heaps, &left);
    WANT(heaps, left + 1);
}

/* Four threads fork, and allocate meanwhile. */
static void *fork_often(void *unused) {
    for (size_t round = 0; round < 100; round++) {
        allocate_some(round);
        pid_t child = fork();
        if (child == 0) {
            allocate_some(round + 1);
            _exit(0);
        }
        wait_for(child);
    }
    return unused;
}

int main(int count, char **words) {
    if (count > 1 && !strcmp(words[1], "handlers")) in_handlers();
    else if (count > 1 && !strcmp(words[1], "streams")) beside(flush, read_lines);
    else if (count > 1 && !strcmp(words[1], "given")) give_during_forks();
    else if (count > 1 && !strcmp(words[1], "early")) early = slow = 1, beside(begin_often, begin_often);
    else if (count > 1 && !strcmp(words[1], "several")) beside(fork_often, fork_often);
    else beside(allocate, allocate);
    return 0;
}
