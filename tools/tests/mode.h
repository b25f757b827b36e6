/* Ways in which a processor may be set otherwise than the library needs it. */
#ifndef TESTS_MODE_H
#define TESTS_MODE_H

#include <stdint.h>
#include <xmmintrin.h>

/* Bits of MXCSR: rounds down, up, to zero; flushes subnormal results to zero; takes subnormal operands for zero. X87_DOWN stands for rounding down of the x87 control word. */
enum { DOWN = 0x2000, UP = 0x4000, TO_ZERO = 0x6000, FLUSH = 0x8000, DENORMALS = 0x40, X87_DOWN = 0x10000 };

static const unsigned modes[] = {DOWN, UP, TO_ZERO, FLUSH, DENORMALS, X87_DOWN};

/* Sets the mode; 0 is the usual one. */
static inline void mode_set(unsigned mode)
{
    uint16_t word = mode & X87_DOWN ? 0x77F : 0x37F;
    _mm_setcsr(0x1F80 | (mode & 0xFFFF));
    __asm__ volatile("fldcw %0" : : "m"(word));
}

#endif
