/* Counts the instructions between visits of an address of a program, one by one, with ptrace: the mean and the longest.
 *
 * usage: single_steps SKIP COUNT OFFSET PROGRAM ARGS..
 *
 * The program runs to visit SKIP at full speed but for a breakpoint; then COUNT intervals are counted in the thread that made that visit.
 * OFFSET is the address in the file, in hexadecimal, as of `objdump -d`. The program may start threads. */
#define _GNU_SOURCE
#include <signal.h>
#include <stddef.h>
#include <stdio.h>
#include <stdlib.h>
#include <sys/personality.h>
#include <sys/ptrace.h>
#include <sys/user.h>
#include <sys/wait.h>
#include <unistd.h>

/* The address where the program's file is mapped. */
static unsigned long base_of(pid_t pid)
{
    char path[64];
    unsigned long base = 0;
    snprintf(path, sizeof path, "/proc/%d/maps", pid);
    FILE *maps = fopen(path, "r");
    if (!maps || fscanf(maps, "%lx", &base) != 1)
        exit(1);
    fclose(maps);
    return base;
}

/* Lets the program run until the visit after `skip` ones. Returns the thread that makes it, stopped at the address with its own code. */
static pid_t visit(pid_t pid, unsigned long at, long skip)
{
    long code = ptrace(PTRACE_PEEKTEXT, pid, at, 0), trap = (code & ~0xffL) | 0xcc;
    ptrace(PTRACE_POKETEXT, pid, at, trap);
    ptrace(PTRACE_CONT, pid, 0, 0);
    for (;;) {
        int status;
        pid_t thread = waitpid(-1, &status, __WALL);
        if (thread < 0 || (thread == pid && !WIFSTOPPED(status)))
            return 0;
        if (!WIFSTOPPED(status))
            continue;
        struct user_regs_struct registers;
        ptrace(PTRACE_GETREGS, thread, 0, &registers);
        if (WSTOPSIG(status) == SIGTRAP && !(status >> 16) && registers.rip - 1 == at) {
            registers.rip--;
            ptrace(PTRACE_SETREGS, thread, 0, &registers);
            ptrace(PTRACE_POKETEXT, thread, at, code);
            if (skip-- == 0)
                return thread;
            ptrace(PTRACE_SINGLESTEP, thread, 0, 0);
            waitpid(thread, &status, __WALL);
            ptrace(PTRACE_POKETEXT, thread, at, trap);
        }
        ptrace(PTRACE_CONT, thread, 0, 0);
    }
}

int main(int argc, char **argv)
{
    if (argc < 5)
        return 2;
    long skip = atol(argv[1]), count = atol(argv[2]);
    pid_t pid = fork();
    if (pid == 0) {
        personality(ADDR_NO_RANDOMIZE);
        ptrace(PTRACE_TRACEME, 0, 0, 0);
        execv(argv[4], argv + 4);
        _exit(127);
    }
    int status;
    waitpid(pid, &status, 0);
    ptrace(PTRACE_SETOPTIONS, pid, 0, PTRACE_O_TRACECLONE | PTRACE_O_EXITKILL);
    unsigned long at = base_of(pid) + strtoul(argv[3], 0, 16);
    pid_t thread = visit(pid, at, skip);
    long done = 0, steps = 0, sum = 0, longest = 0, long_ones = 0;
    while (thread && done < count) {
        ptrace(PTRACE_SINGLESTEP, thread, 0, 0);
        if (waitpid(thread, &status, __WALL) < 0 || !WIFSTOPPED(status))
            break;
        steps++;
        if (ptrace(PTRACE_PEEKUSER, thread, offsetof(struct user_regs_struct, rip), 0) != (long)at)
            continue;
        done++;
        sum += steps;
        long_ones += steps > 400;
        longest = steps > longest ? steps : longest;
        steps = 0;
    }
    printf("%ld intervals, mean %.1f, longest %ld, over 400: %ld\n", done, done ? (double)sum / done : 0.0, longest, long_ones);
    kill(pid, SIGKILL);
    return done < count;
}
