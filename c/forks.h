/* Forks and malloc.c. A child has only the thread that forked: its heap is as it was, since a heap is only changed by its owner. So are the
 * heaps without an owner, which stay as they are while a fork runs. The heaps of other threads may be in the middle of a call: the child
 * keeps their payloads, and what it frees of them isn't used again.
 *
 * No lock is held while a fork runs: the fork waits for locks of the C library then, whose holders may allocate. As with glibc, a signal
 * handler may fork unless several threads run. */
#ifndef RLSF_FORKS_H
#define RLSF_FORKS_H

#include "heaps.h"

THREAD_LOCAL int forking; /* how many forks of this thread run: a signal handler may fork in a fork */
THREAD_LOCAL pid_t forker; /* the process that forks */

/* Takes the list of returned payloads. Others push meanwhile, and the child may see the list's beginning without its end, so it drops it. */
static void keep_returned(struct heap *heap) {
    if (!heap->kept) heap->kept = __atomic_exchange_n(&heap->returned, NULL, __ATOMIC_ACQUIRE);
}

/* Below, a thread that is inside forks in a signal handler, in the middle of a call: in the child it ends this call, too. */
static void before_fork(void) {
    if (inside) return;
    acquire();
    if (!forks++)
        for (struct heap *heap = left; heap; heap = heap->next_left) keep_returned(heap);
    release();
    if (mine) keep_returned(mine);
    forker = getpid();
    forking++;
}

static void in_parent(void) {
    if (inside) return;
    acquire();
    if (forks) forks--; /* 0 in the child of a signal handler that forked during this fork */
    while (!forks && left_meanwhile) {
        struct heap *heap = left_meanwhile;
        left_meanwhile = heap->next_left;
        heap->next_left = left;
        left = heap;
    }
    release();
    if (forking) forking--;
}

/* Makes a heap one of those that the child knows. */
static void know_heap(struct heap *heap) {
    heap->returned = NULL;
    heap->next = all;
    all = heap;
}

static void in_child_of_checks(void);

/* A thread that isn't here may hold the lock, and may have changed what it protects. */
static void in_child(void) {
    if (inside || !forking) return;
    forking = 0;
    pthread_mutex_init(&lock, NULL);
    forks = 0;
    all = left_meanwhile = visited = NULL;
    in_child_of_checks();
    if (mine) know_heap(mine);
    for (struct heap *heap = left; heap; heap = heap->next_left) know_heap(heap);
}

/* In a child, handlers that were registered before in_child run before it, and may allocate. */
static void notice_child(void) {
    if (forking && getpid() != forker) in_child();
}

__attribute__((constructor)) static void watch_forks(void) { pthread_atfork(before_fork, in_parent, in_child); }

#endif
