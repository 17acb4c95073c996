/* Counts the instructions of single calls, by the processor's trap flag: while it is set, each instruction ends in a trap, and a signal
 * handler counts it. The count has all instructions of the called function and of those that it calls, up to its return. It has none of the
 * kernel's, and each round of a repeated instruction (`rep stos`). Only for x86-64, and with _GNU_SOURCE. */
#ifndef STEPPED_H
#define STEPPED_H

#include <signal.h>
#include <stddef.h>
#include <stdlib.h>
#include <sys/syscall.h>
#include <ucontext.h>

void *own_memory(size_t len);

enum { HANDLER_STACK = 1 << 16 };

static volatile size_t steps;
static size_t steps_beside; /* what is counted of a call beside the called function */
static int stepping;
static volatile int mapped; /* whether the system mapped or unmapped memory in a call since this was 0 */

/* Calls a function with two numbers, and sets the trap flag meanwhile. */
size_t call_in_steps(size_t first, size_t second, size_t function);
void return_at_once(void);
__asm__(".text\n"
        "call_in_steps:\n"
        "    sub $8, %rsp\n"
        "    pushfq\n"
        "    orq $0x100, (%rsp)\n"
        "    popfq\n"
        "    call *%rdx\n"
        "    pushfq\n"
        "    andq $~0x100, (%rsp)\n"
        "    popfq\n"
        "    add $8, %rsp\n"
        "    ret\n"
        "return_at_once:\n"
        "    ret\n");

static int is_of_memory(long number) {
    return number == SYS_mmap || number == SYS_munmap || number == SYS_mremap || number == SYS_brk || number == SYS_madvise;
}

/* Looks at the instruction that comes next: `syscall` has the number of the system's call in rax. */
static void on_step(int number, siginfo_t *info, void *context) {
    const greg_t *registers = ((ucontext_t *)context)->uc_mcontext.gregs;
    const unsigned char *next = (const unsigned char *)registers[REG_RIP];
    (void)number, (void)info;
    if (next[0] == 0x0f && next[1] == 0x05 && is_of_memory(registers[REG_RAX])) mapped = 1;
    steps++;
}

/* The calls that are made from now on are counted. */
static void begin_steps(void) {
    stack_t stack = {.ss_sp = own_memory(HANDLER_STACK), .ss_size = HANDLER_STACK};
    struct sigaction action = {.sa_sigaction = on_step, .sa_flags = SA_ONSTACK | SA_SIGINFO};
    if (sigaltstack(&stack, NULL) || sigaction(SIGTRAP, &action, NULL)) abort();
    call_in_steps(0, 0, (size_t)return_at_once);
    steps_beside = steps - 1;
    stepping = 1;
}

static inline void *in_steps(size_t function, size_t first, size_t second) {
    size_t result = call_in_steps(first, second, function);
    steps -= steps_beside;
    return (void *)result;
}

#endif
