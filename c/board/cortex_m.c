/* A program's start on a bare Cortex-M, and what it needs of the world around it, which comes by semihosting: the
 * emulator, or a debugger at a board, reads and writes for it. A panel's own firmware has its serial line here. */
#include "machine.h"

/* ---- Semihosting ---------------------------------------------------------------------------- */

enum { OPEN = 1, WRITE = 5, READ = 6, COMMAND_LINE = 0x15, EXIT = 0x20, EXITED = 0x20026 };

static int ask(int what, const void *words)
{
    register int r0 __asm__("r0") = what;
    register const void *r1 __asm__("r1") = words;

    __asm__ volatile("bkpt 0xAB" : "+r"(r0) : "r"(r1) : "memory");
    return r0;
}

static uint32_t word(const void *pointer)
{
    return (uint32_t)(uintptr_t)pointer;
}

/* The files of numbers 0 and 1. */
static uint32_t input, output;

static uint32_t opened(const char *name, uint32_t how)
{
    return (uint32_t)ask(OPEN, (const uint32_t[]){word(name), how, (uint32_t)strlen(name)});
}

/* Both give back how many bytes were left. */
long read(int file, void *to, size_t n)
{
    (void)file;
    return (long)(n - (size_t)ask(READ, (const uint32_t[]){input, word(to), (uint32_t)n}));
}

long write(int file, const void *from, size_t n)
{
    (void)file;
    return (long)(n - (size_t)ask(WRITE, (const uint32_t[]){output, word(from), (uint32_t)n}));
}

void exit(int status)
{
    for (;;)
        ask(EXIT, (const uint32_t[]){EXITED, (uint32_t)status});
}

/* ---- Memory that may not be touched --------------------------------------------------------- */

#define REGISTER(at) (*(volatile uint32_t *)(at))
#define MPU_CONTROL REGISTER(0xE000ED94)
#define MPU_NUMBER REGISTER(0xE000ED98)
#define MPU_BASE REGISTER(0xE000ED9C)
#define MPU_SIZE REGISTER(0xE000EDA0)
enum { MPU_ON_WITH_DEFAULT = 5, REGION_ON = 1, LEAST_POWER = 5, REGIONS = 8 };

/* A region that nobody may touch. Its size is a power of two, and its start a multiple of it. */
int mprotect(void *at, size_t n, int allowed)
{
    static uint32_t regions;
    uint32_t power = LEAST_POWER;

    while (power < 31 && (size_t)1 << power < n)
        power++;
    if (allowed != 0 || regions == REGIONS || (size_t)1 << power != n || (uintptr_t)at % n != 0)
        return -1;
    MPU_NUMBER = regions++;
    MPU_BASE = word(at);
    MPU_SIZE = (power - 1) << 1 | REGION_ON;
    MPU_CONTROL = MPU_ON_WITH_DEFAULT;
    __asm__ volatile("dsb\n\tisb" ::: "memory");
    return 0;
}

static void (*told)(int);

void (*signal(int number, void (*handler)(int)))(int)
{
    (void)number;
    told = handler;
    return NULL;
}

static void fault(void)
{
    if (told != NULL)
        told(SYS_NOT_ALLOWED);
    printf("a fault\n");
    exit(1);
}

/* ---- The start ------------------------------------------------------------------------------ */

/* The words of the command line. */
#define WORDS 16
#define LINE 256
static char line[LINE];
static char *words[WORDS];

static int split(void)
{
    char *at = line;
    int many = 0;

    while (*at != 0 && many < WORDS - 1) {
        char *first = at;

        while (*at != 0 && *at != ' ')
            at++;
        if (*at != 0)
            *at++ = 0;
        words[many++] = first;
    }
    return many;
}

/* Where the linker has put things; cortex_m.ld says it. */
extern uint8_t stack_top[], data_kept[], data_start[], data_end[], bss_start[], bss_end[];

void reset(void);

void reset(void)
{
    memcpy(data_start, data_kept, (size_t)(data_end - data_start));
    memset(bss_start, 0, (size_t)(bss_end - bss_start));
#ifdef __ARM_FP
    /* the registers for floats, which an archive for hard floats may use */
    REGISTER(0xE000ED88) |= 0xFu << 20;
    __asm__ volatile("dsb\n\tisb" ::: "memory");
#endif
#if __ARM_ARCH == 6
    /* this processor faults where a number does not stand at a multiple of its width; a larger one can be told to */
    REGISTER(0xE000ED14) |= 1u << 3;
#endif
    input = opened(":tt", 0);
    output = opened(":tt", 4);
    ask(COMMAND_LINE, (const uint32_t[]){word(line), LINE});
    exit(main(split(), words));
}

__attribute__((section(".vectors"), used)) static void *const vectors[16] = {
    stack_top, reset, fault, fault, fault, fault, fault
};
