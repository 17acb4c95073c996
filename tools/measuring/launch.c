/* Runs a program, and writes its processor time in microseconds and its peak resident memory in KB behind what it prints. This process is small:
 * the peak that the kernel gives includes what the process had before it became the program.
 *
 *     launch LIBRARY PROGRAM [WORD..]        LIBRARY is preloaded, unless it is empty */
#define _GNU_SOURCE
#include <stdio.h>
#include <stdlib.h>
#include <sys/resource.h>
#include <sys/wait.h>
#include <unistd.h>

int main(int count, char **words) {
    struct rusage used;
    int status = 1;
    pid_t child = count > 2 ? fork() : -1;
    if (child == 0) {
        if (words[1][0]) setenv("LD_PRELOAD", words[1], 1);
        execvp(words[2], words + 2);
        _exit(127);
    }
    if (child < 0 || wait4(child, &status, 0, &used) != child || status) return 1;
    printf("\n%ld %ld\n", (used.ru_utime.tv_sec + used.ru_stime.tv_sec) * 1000000 + used.ru_utime.tv_usec + used.ru_stime.tv_usec, used.ru_maxrss);
    return 0;
}
