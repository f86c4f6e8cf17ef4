/* The start of the program. That of the C library asks for glibc 2.34, on which it was compiled; this one asks for a call that
 * glibc has had on x86-64 from the first day. Its older form leaves it to the program to run its constructors, one of which
 * keeps the words of the command line; a newer glibc runs them itself only where a program hands over no function of its own. */
#include <stddef.h>

typedef void constructor(int count, char **words, char **environment);

/* (the linker sets both) */
extern constructor *const __init_array_start[] __attribute__((visibility("hidden")));
extern constructor *const __init_array_end[] __attribute__((visibility("hidden")));

int main(int count, char **words, char **environment);

__asm__(".symver __libc_start_main, __libc_start_main@GLIBC_2.2.5");
int __libc_start_main(int (*main)(int, char **, char **), int count, char **words, constructor *begin, void (*end)(void),
                      void (*end_of_loader)(void), void *stack_end);

/* Where the kernel and the loader begin: at the top of the stack stands the number of words, and then the words. */
__asm__(".text\n"
        ".globl _start\n"
        ".type _start, @function\n"
        "_start:\n"
        "    xorl %ebp, %ebp\n"
        "    movq %rsp, %rdi\n"
        "    movq %rdx, %rsi\n"
        "    andq $-16, %rsp\n"
        "    call start_main\n"
        ".size _start, . - _start\n");

static void run_constructors(int count, char **words, char **environment) {
    /* (compared as pointers, the beginnings of two arrays would always differ) */
    ptrdiff_t constructors = __init_array_end - __init_array_start;
    for (ptrdiff_t i = 0; i < constructors; i++) {
        __init_array_start[i](count, words, environment);
    }
}

/* (the loader runs destructors, so there is no function for the end) */
__attribute__((noreturn, used, visibility("hidden"))) void start_main(long *top, void (*end_of_loader)(void)) {
    __libc_start_main(main, (int)*top, (char **)(top + 1), run_constructors, NULL, end_of_loader, top);
    __builtin_unreachable();
}
