/* A library to preload: counts the instructions of each call of one function of the program, by the processor's trap flag, and prints their
 * number, the mean and the longest, and how many of them call the kernel. The program ends when all are counted.
 *
 * STEPPED has three words: the address of the function in the file, in hexadecimal, as `nm` prints it; how many calls run at full speed
 * first; and how many are counted. Only one thread may call the function. A count has what the function calls, up to its return. It has none
 * of the kernel's instructions, and each round of a repeated instruction (`rep stos`). Only for x86-64. */
#define _GNU_SOURCE
#include <link.h>
#include <signal.h>
#include <stdio.h>
#include <stdlib.h>
#include <sys/mman.h>
#include <ucontext.h>
#include <unistd.h>

enum { BREAKPOINT = 0xcc };
static const greg_t TRAP_FLAG = 0x100;

static unsigned char *start; /* of the function */
static unsigned char code;   /* its first byte, in whose place the breakpoint is */
static int inside;           /* whether a call is being executed */
static greg_t frame, back;   /* the stack at its start, and the address that it returns to */
static long skip, count, done, steps, sum, longest, with_kernel;
static int calls_kernel;

static void print_and_end(void) {
    char line[160];
    int length = snprintf(line, sizeof line, "%ld calls, mean %.1f, longest %ld, with calls of the kernel: %ld\n", done, (double)sum / done, longest, with_kernel);
    _exit(write(STDERR_FILENO, line, length) != length);
}

/* Counts a call that has returned, and sets the breakpoint again. */
static void end_call(greg_t *registers) {
    registers[REG_EFL] &= ~TRAP_FLAG;
    *start = BREAKPOINT;
    inside = 0;
    if (skip) {
        skip--;
        return;
    }
    done++;
    sum += steps;
    longest = steps > longest ? steps : longest;
    with_kernel += calls_kernel;
    if (done == count) print_and_end();
}

/* Comes at the breakpoint, and after each instruction of the call. */
static void on_trap(int number, siginfo_t *info, void *context) {
    greg_t *registers = ((ucontext_t *)context)->uc_mcontext.gregs;
    (void)number, (void)info;
    if (!inside) {
        registers[REG_RIP] = (greg_t)start;
        registers[REG_EFL] |= TRAP_FLAG;
        frame = registers[REG_RSP];
        back = *(greg_t *)frame;
        *start = code;
        inside = 1;
        steps = calls_kernel = 0;
    } else {
        steps++;
        if (registers[REG_RIP] == back && registers[REG_RSP] > frame) return end_call(registers);
    }
    const unsigned char *next = (const unsigned char *)registers[REG_RIP];
    calls_kernel |= next[0] == 0x0f && next[1] == 0x05;
}

/* What is added to the addresses in the program's file. The program comes first. */
static int add_base(struct dl_phdr_info *program, size_t size, void *found) {
    (void)size;
    *(unsigned long *)found += program->dlpi_addr;
    return 1;
}

__attribute__((constructor)) static void begin(void) {
    unsigned long offset;
    const char *words = getenv("STEPPED");
    if (!words || sscanf(words, "%lx %ld %ld", &offset, &skip, &count) != 3) return;
    dl_iterate_phdr(add_base, &offset);
    start = (unsigned char *)offset;
    size_t page = sysconf(_SC_PAGESIZE);
    struct sigaction action = {.sa_sigaction = on_trap, .sa_flags = SA_SIGINFO};
    if (mprotect((void *)((size_t)start & -page), 2 * page, PROT_READ | PROT_WRITE | PROT_EXEC) || sigaction(SIGTRAP, &action, NULL)) abort();
    code = *start;
    *start = BREAKPOINT;
}
