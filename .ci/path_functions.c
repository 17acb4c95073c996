/* Functions whose longest paths are known by hand, for .ci/paths, since each instruction is written out. `wanted:` has the instructions and
 * the memory operands of the longest path, then the instructions of the longest path that returns 0. `refused:` has a part of the error. */
#define FUNCTION(NAME, CODE) \
    __attribute__((naked)) void NAME(void) { __asm__(CODE); }

/* wanted: straight 4 1. Padding doesn't count, and `lea` reads no memory. */
FUNCTION(straight, "mov (%rdi), %rax\n nopw 0(%rax)\n lea 8(%rax), %rax\n add $1, %rax\n ret")
/* wanted: diamond 7 2. The left side has 4 instructions, the right side 2 with an access each. */
FUNCTION(diamond, "cmp %rsi, %rdi\n jb 1f\n inc %rcx\n inc %rcx\n inc %rcx\n jmp 2f\n 1: mov (%rdi), %rax\n mov %rax, (%rsi)\n 2: ret")
/* wanted: loop 6 1. The 3 instructions of the loop count once. */
FUNCTION(loop, "xor %ecx, %ecx\n 1: add (%rdi,%rsi,8), %rcx\n dec %rsi\n jne 1b\n mov %rcx, %rax\n ret")
/* wanted: repeated 3 1. A repeated instruction is a loop. */
FUNCTION(repeated, "mov %rsi, %rcx\n rep stosb\n ret")
/* wanted: calls 11 2 */
FUNCTION(calls, "call straight\n call straight\n ret")
/* wanted: jumps 10 2. It goes on in another function. */
FUNCTION(jumps, "inc %rdi\n inc %rsi\n jmp diamond")
/* wanted: clears 6 1 4 */
FUNCTION(clears, "test %rdi, %rdi\n je 1f\n mov (%rdi), %rax\n add $8, %rax\n and $-16, %rax\n ret\n 1: xor %eax, %eax\n ret")
/* wanted: finds_none 5 1 4. Where the jump leads, the loaded word is 0. */
FUNCTION(finds_none, "mov (%rdi), %rax\n test %rax, %rax\n je 1f\n add $16, %rax\n 1: ret")

/* refused: jumps_anywhere an indirect jump */
FUNCTION(jumps_anywhere, "inc %rdi\n jmp *%rdi")
/* refused: calls_anything an indirect call */
FUNCTION(calls_anything, "call *(%rdi)\n ret")
/* refused: calls_itself recursion */
FUNCTION(calls_itself, "dec %rdi\n je 1f\n call calls_itself\n 1: ret")
/* refused: calls_another recursion */
FUNCTION(calls_another, "call calls_back\n ret")
FUNCTION(calls_back, "call calls_another\n ret")
/* refused: never_returns never returns */
FUNCTION(never_returns, "1: jmp 1b")
