/* What the compiler calls by itself on a processor of 32 bits, where a maker's own compiler brings a library of them:
 * shifts, products and quotients that take more than an instruction, and on Arm copies under names of its own.
 * None may need what it is itself, so all of it is done by halves. */
#include "machine.h"

#if __SIZEOF_POINTER__ == 4

union halves {
    uint64_t whole;
    struct {
        uint32_t low, high;
    };
};

/* ---- Shifts --------------------------------------------------------------------------------- */

static uint64_t to_left(uint64_t number, int by)
{
    union halves n = {number};

    if (by >= 32) {
        n.high = n.low << (by - 32);
        n.low = 0;
    } else if (by > 0) {
        n.high = n.high << by | n.low >> (32 - by);
        n.low <<= by;
    }
    return n.whole;
}

static uint64_t to_right(uint64_t number, int by)
{
    union halves n = {number};

    if (by >= 32) {
        n.low = n.high >> (by - 32);
        n.high = 0;
    } else if (by > 0) {
        n.low = n.low >> by | n.high << (32 - by);
        n.high >>= by;
    }
    return n.whole;
}

/* ---- Products ------------------------------------------------------------------------------- */

/* The product of two halves, by quarters. */
static uint64_t product(uint32_t a, uint32_t b)
{
    uint32_t low = (a & 0xFFFF) * (b & 0xFFFF), high = (a >> 16) * (b >> 16);
    uint32_t one = (a >> 16) * (b & 0xFFFF), other = (a & 0xFFFF) * (b >> 16);
    uint32_t middle = (low >> 16) + (one & 0xFFFF) + (other & 0xFFFF);
    union halves n;

    n.low = (low & 0xFFFF) | middle << 16;
    n.high = high + (one >> 16) + (other >> 16) + (middle >> 16);
    return n.whole;
}

static uint64_t times(uint64_t a, uint64_t b)
{
    union halves x = {a}, y = {b}, n = {product(x.low, y.low)};

    n.high += x.low * y.high + x.high * y.low;
    return n.whole;
}

/* ---- Quotients ------------------------------------------------------------------------------ */

/* The quotient, and where it is wanted the rest; by 0 they are anything. */
static uint64_t quotient(uint64_t number, uint64_t by, uint64_t *rest)
{
    uint64_t found = 0, left = 0;
    int bits = 64;

    for (; bits > 8 && number >> 56 == 0; bits -= 8)
        number <<= 8;
    for (; bits > 0; bits--) {
        uint64_t carried = left >> 63;

        left = left << 1 | number >> 63;
        number <<= 1;
        found <<= 1;
        if (carried || left >= by) {
            left -= by;
            found |= 1;
        }
    }
    if (rest != NULL)
        *rest = left;
    return found;
}

/* ---- Their names ---------------------------------------------------------------------------- */

#ifdef __arm__
uint64_t __aeabi_llsl(uint64_t number, int by) { return to_left(number, by); }
uint64_t __aeabi_llsr(uint64_t number, int by) { return to_right(number, by); }
uint64_t __aeabi_lmul(uint64_t a, uint64_t b) { return times(a, b); }
uint32_t __aeabi_uidiv(uint32_t number, uint32_t by) { return (uint32_t)quotient(number, by, NULL); }

/* The quotient comes back in the low half, and the rest in the high one. */
uint64_t __aeabi_uidivmod(uint32_t number, uint32_t by)
{
    uint64_t rest;
    union halves n = {quotient(number, by, &rest)};

    n.high = (uint32_t)rest;
    return n.whole;
}

/* The quotient comes back in r0 and r1, and the rest in r2 and r3, which C cannot say. */
__attribute__((used)) uint64_t long_quotient(uint64_t number, uint64_t by, uint64_t *rest)
{
    return quotient(number, by, rest);
}
__asm__(".thumb_func\n.globl __aeabi_uldivmod\n__aeabi_uldivmod:\n"
        "\tpush {r4, lr}\n\tsub sp, #16\n\tadd r4, sp, #8\n\tstr r4, [sp]\n\tbl long_quotient\n"
        "\tldr r2, [sp, #8]\n\tldr r3, [sp, #12]\n\tadd sp, #16\n\tpop {r4, pc}\n");

void __aeabi_memcpy(void *to, const void *from, size_t n) { memcpy(to, from, n); }
void __aeabi_memcpy4(void *to, const void *from, size_t n) { memcpy(to, from, n); }
void __aeabi_memcpy8(void *to, const void *from, size_t n) { memcpy(to, from, n); }
void __aeabi_memmove(void *to, const void *from, size_t n) { memmove(to, from, n); }
void __aeabi_memmove4(void *to, const void *from, size_t n) { memmove(to, from, n); }
void __aeabi_memmove8(void *to, const void *from, size_t n) { memmove(to, from, n); }
void __aeabi_memset(void *to, size_t n, int byte) { memset(to, byte, n); }
void __aeabi_memset4(void *to, size_t n, int byte) { memset(to, byte, n); }
void __aeabi_memset8(void *to, size_t n, int byte) { memset(to, byte, n); }
void __aeabi_memclr(void *to, size_t n) { memset(to, 0, n); }
void __aeabi_memclr4(void *to, size_t n) { memset(to, 0, n); }
void __aeabi_memclr8(void *to, size_t n) { memset(to, 0, n); }
#else
uint64_t __ashldi3(uint64_t number, int by) { return to_left(number, by); }
uint64_t __lshrdi3(uint64_t number, int by) { return to_right(number, by); }
uint64_t __muldi3(uint64_t a, uint64_t b) { return times(a, b); }
uint64_t __udivdi3(uint64_t number, uint64_t by) { return quotient(number, by, NULL); }

uint64_t __umoddi3(uint64_t number, uint64_t by)
{
    uint64_t rest;

    quotient(number, by, &rest);
    return rest;
}
#endif

#endif
