/* The thread's float control word as a host sets it, without the flags of what has happened. */
#ifndef CONTROL_H
#define CONTROL_H

#include "masoritun.h"

#ifdef __x86_64__
enum { FTZ = 0x8000, DAZ = 0x0040, ROUND_UP = 0x4000, TRAPS = 0x1F80, PLAIN = 0x1F80, FLAGS = 0x003F };

static inline unsigned control(void) { return _mm_getcsr() & ~(unsigned)FLAGS; }
static inline void set_control(unsigned word) { _mm_setcsr(word); }
#else
/* FZ is FTZ and DAZ in one; a processor without traps keeps their bits at 0. */
enum { FTZ = 1 << 24, DAZ = FTZ, ROUND_UP = 1 << 22, TRAPS = 0x9F00, PLAIN = 0 };

static inline unsigned control(void) {
    uint64_t word;
    __asm__ __volatile__("mrs %0, fpcr" : "=r"(word) : : "memory");
    return (unsigned)word;
}
static inline void set_control(unsigned word) { __asm__ __volatile__("msr fpcr, %0" : : "r"((uint64_t)word) : "memory"); }
#endif

#endif
