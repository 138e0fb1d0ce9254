/* A program's start and its calls to the system, where that is Linux on aarch64 or RV32. */
#include "machine.h"

/* The numbers of the calls are the same on both. */
enum { READ = 63, WRITE = 64, EXIT = 94, SIGNAL_ACTION = 134, PROTECT = 226 };

#if defined(__aarch64__)
static long system_call(long number, long a, long b, long c, long d)
{
    register long x8 __asm__("x8") = number, x0 __asm__("x0") = a, x1 __asm__("x1") = b, x2 __asm__("x2") = c,
                  x3 __asm__("x3") = d;

    __asm__ volatile("svc 0" : "+r"(x0) : "r"(x8), "r"(x1), "r"(x2), "r"(x3) : "memory");
    return x0;
}
__asm__(".globl _start\n_start:\n\tmov x0, sp\n\tbl enter\n");
#define HAS_RESTORER
#else
static long system_call(long number, long a, long b, long c, long d)
{
    register long a7 __asm__("a7") = number, a0 __asm__("a0") = a, a1 __asm__("a1") = b, a2 __asm__("a2") = c,
                  a3 __asm__("a3") = d;

    __asm__ volatile("ecall" : "+r"(a0) : "r"(a7), "r"(a1), "r"(a2), "r"(a3) : "memory");
    return a0;
}
__asm__(".globl _start\n_start:\n\tmv a0, sp\n\tcall enter\n");
#endif

/* On the stack the system has put the number of words, then the words. */
__attribute__((used)) void enter(long *words)
{
    exit(main((int)words[0], (char **)(words + 1)));
}

void exit(int status)
{
    for (;;)
        system_call(EXIT, status, 0, 0, 0);
}

long read(int file, void *to, size_t n)
{
    return system_call(READ, file, (long)to, (long)n, 0);
}

long write(int file, const void *from, size_t n)
{
    return system_call(WRITE, file, (long)from, (long)n, 0);
}

int mprotect(void *at, size_t n, int allowed)
{
    return (int)system_call(PROTECT, (long)at, (long)n, allowed, 0);
}

/* A handler that is set here never returns, so no way back is set. */
struct action {
    void (*handler)(int);
    unsigned long flags;
#ifdef HAS_RESTORER
    void (*restorer)(void);
#endif
    uint64_t masked;
};

void (*signal(int number, void (*handler)(int)))(int)
{
    struct action action = {.handler = handler};

    system_call(SIGNAL_ACTION, number, (long)&action, 0, sizeof action.masked);
    return NULL;
}
