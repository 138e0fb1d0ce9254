/* Measures how much stack a call of each function needs. The call is made on a stack of its own that was
 * painted before; how far down the paint was changed is how deep the call went. Each function is
 * called with many inputs, and the deepest call counts. What a call reserves and never writes is not
 * seen, so the figures are what was used; tools/footprint has the bounds, which these may not pass.
 *
 *     stack [TURNS]
 *
 * Changing to the painted stack takes four instructions of each processor. In a program whose C library is
 * bound at a function's first call, that call shows what the loader needs; c/build binds it before. */
#include "amp.h"
#include "captures.h"
#include "sys.h"

/* ---- Arguments and calls -------------------------------------------------------------------- */

/* All arguments stand in one struct, so that what makes a call needs next to no stack itself, and the
 * compiler knows by one pointer what a call may change. */
#define LENGTH 4096u
struct arguments {
    uint32_t family;
    uint8_t capture[LENGTH];
    const uint8_t *bytes;
    size_t n;
    size_t place;
    size_t told;
    uint32_t starts[LENGTH];
    int64_t row[AMP_ROW];
    uint8_t out[160];
    amp_reader reader;
};

static void call_fresh(struct arguments *a) { amp_fresh(&a->reader, a->family); }
static void call_feed(struct arguments *a) { amp_feed(&a->reader, a->bytes, a->n, a->row, AMP_ROW); }
static void call_close(struct arguments *a) { amp_close(&a->reader); }
static void call_read(struct arguments *a) { amp_read(a->family, a->bytes, a->n, a->row, AMP_ROW); }
static void call_enable(struct arguments *a) { amp_write_enable(a->out, sizeof a->out, &a->told); }

static void call_list(struct arguments *a)
{
    amp_list(a->family, a->capture, LENGTH, a->starts, LENGTH, &a->told);
}

static void call_list_short(struct arguments *a)
{
    amp_list(a->family, a->capture, LENGTH, a->starts, 3, &a->told);
}

static void call_next(struct arguments *a)
{
    a->n = amp_next(a->family, a->capture, LENGTH, a->place, 0, &a->told);
}

static void call_next_report(struct arguments *a)
{
    amp_next(a->family, a->capture, LENGTH, a->place, 1, &a->told);
}

static void call_stamps(struct arguments *a)
{
    a->told = amp_stamp_order((uint32_t)a->n, (uint32_t)a->place);
}

static void call_write(struct arguments *a)
{
    amp_write((uint32_t)a->row[AMP_KIND], (uint32_t)a->row[AMP_CODE], a->row + AMP_VALUES,
              AMP_STATUS_VALUES, a->out, sizeof a->out, &a->told);
}

/* ---- The painted stack ---------------------------------------------------------------------- */

/* A call that needed all of it would have gone beyond; the status is then 1. */
#define STACK 16384u
#define PAINT 0xA5

static uint8_t painted[STACK] __attribute__((aligned(64)));
static struct arguments a;

typedef void call(struct arguments *);

/* Makes a call on the painted stack. A register that the called function gives back keeps the old one. */
static void call_on_painted(call *made)
{
#if defined(__x86_64__)
    struct arguments *first = &a;

    __asm__ volatile("movq %%rsp, %%rbx\n\tmovq %1, %%rsp\n\tcall *%2\n\tmovq %%rbx, %%rsp"
                     : "+D"(first)
                     : "r"(painted + STACK), "r"(made)
                     : "rbx", "rax", "rcx", "rdx", "rsi", "r8", "r9", "r10", "r11", "memory", "cc",
                       "xmm0", "xmm1", "xmm2", "xmm3", "xmm4", "xmm5", "xmm6", "xmm7", "xmm8", "xmm9",
                       "xmm10", "xmm11", "xmm12", "xmm13", "xmm14", "xmm15");
#elif defined(__aarch64__)
    register struct arguments *first __asm__("x0") = &a;

    __asm__ volatile("mov x19, sp\n\tmov sp, %1\n\tblr %2\n\tmov sp, x19"
                     : "+r"(first)
                     : "r"(painted + STACK), "r"(made)
                     : "x19", "x1", "x2", "x3", "x4", "x5", "x6", "x7", "x8", "x9", "x10", "x11", "x12", "x13",
                       "x14", "x15", "x16", "x17", "x18", "x30", "memory", "cc", "v0", "v1", "v2", "v3", "v4",
                       "v5", "v6", "v7", "v16", "v17", "v18", "v19", "v20", "v21", "v22", "v23", "v24", "v25",
                       "v26", "v27", "v28", "v29", "v30", "v31");
#elif defined(__arm__)
    register struct arguments *first __asm__("r0") = &a;

    __asm__ volatile("mov r4, sp\n\tmov sp, %1\n\tblx %2\n\tmov sp, r4"
                     : "+r"(first)
                     : "r"(painted + STACK), "r"(made)
                     : "r4", "r1", "r2", "r3", "r12", "lr", "memory", "cc");
#else
    register struct arguments *first __asm__("a0") = &a;

    __asm__ volatile("mv s1, sp\n\tmv sp, %1\n\tjalr %2\n\tmv sp, s1"
                     : "+r"(first)
                     : "r"(painted + STACK), "r"(made)
                     : "s1", "ra", "a1", "a2", "a3", "a4", "a5", "a6", "a7", "t0", "t1", "t2", "t3", "t4", "t5",
                       "t6", "memory");
#endif
}

/* How many bytes of stack a call changed, in whole words, with its return address and what it is passed
 * on the stack. Only those are painted again, as the paint below is fresh. */
static size_t depth_of(call *made)
{
    size_t i = 0;

    call_on_painted(made);
    while (i < STACK && painted[i] == PAINT)
        i++;
    i = i / 8 * 8;
    memset(painted + i, PAINT, STACK - i);
    return STACK - i;
}

enum { FRESH, FEED, CLOSE, READ, LIST, NEXT, WRITE, ENABLE, STAMPS, FUNCTIONS };

static const char *const names[FUNCTIONS] = {
    "amp_fresh", "amp_feed", "amp_close", "amp_read", "amp_list", "amp_next", "amp_write",
    "amp_write_enable", "amp_stamp_order"
};

static size_t deepest[FUNCTIONS];
static unsigned long calls[FUNCTIONS];

static void measure(unsigned which, call *made)
{
    size_t depth = depth_of(made);

    calls[which]++;
    if (depth > deepest[which])
        deepest[which] = depth;
}

/* ---- Inputs --------------------------------------------------------------------------------- */

/* A frame read and written again, then with a value that no field carries. */
static void measure_frame(void)
{
    measure(READ, call_read);
    measure(WRITE, call_write);
    a.row[AMP_VALUES + a.place % AMP_STATUS_VALUES] += 100000;
    measure(WRITE, call_write);
}

/* The capture listed with room and without, and walked frame by frame. */
static void measure_capture(void)
{
    measure(LIST, call_list);
    measure(LIST, call_list_short);
    a.place = 0;
    do {
        measure(NEXT, call_next_report);
        measure(NEXT, call_next);
        a.bytes = a.capture + a.told;
        a.place = a.told + a.n;
        measure_frame();
        measure(STAMPS, call_stamps);
    } while (a.n > 0);
}

/* Offers what a call is to offer, until the reader wants other bytes or is done. */
static void measure_offer(const uint8_t *from, size_t many)
{
    a.bytes = from;
    a.n = many;
    do {
        measure(FEED, call_feed);
        a.bytes += a.row[AMP_TAKEN];
        a.n -= (size_t)a.row[AMP_TAKEN];
    } while (a.row[AMP_KIND] != AMP_MORE && a.row[AMP_KIND] != AMP_DONE);
}

/* The capture as a stream in calls of a size, closed and drained. */
static void measure_stream(size_t piece)
{
    size_t at;

    measure(FRESH, call_fresh);
    for (at = 0; at < LENGTH; at += piece)
        measure_offer(a.capture + at, piece < LENGTH - at ? piece : LENGTH - at);
    measure(CLOSE, call_close);
    measure_offer(a.capture, 0);
}

static void measure_all(unsigned turns)
{
    unsigned kind, seed;

    for (a.family = 1; a.family <= 4; a.family++)
        for (kind = 0; kind < KINDS; kind++)
            for (seed = 0; seed < turns; seed++) {
                make_capture(a.family, kind, seed, a.capture, LENGTH);
                measure_capture();
                measure_stream(1 + seed * 3);
                measure_stream(LENGTH);
            }
    measure(ENABLE, call_enable);
}

int main(int argc, char **argv)
{
    unsigned i;

    memset(painted, PAINT, STACK);
    measure_all(argc > 1 ? (unsigned)strtoull(argv[1], NULL, 10) : 10);
    printf("deepest stack in bytes, and the calls that were made\n");
    for (i = 0; i < FUNCTIONS; i++)
        printf("%-16s %6lu %8lu\n", names[i], (unsigned long)deepest[i], calls[i]);
    for (i = 0; i < FUNCTIONS; i++)
        if (deepest[i] == STACK)
            return 1;
    return 0;
}
