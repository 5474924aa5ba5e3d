/* Faults of the guard for fuzz/planted: included before word.c, it puts another guard in the place of the header's. */
#ifndef FUZZ_PLANTED_GUARD_H
#define FUZZ_PLANTED_GUARD_H

#include "masoritun.h"

#ifdef __x86_64__
enum { PLANTED_FTZ = 0x8000, PLANTED_ROUNDING = 0x6000, PLANTED_FLAGS = 0x3F };
static inline uint64_t planted_word(void) { return _mm_getcsr(); }
static inline void planted_set(uint64_t word) { _mm_setcsr((unsigned)word); }
#else
enum { PLANTED_FTZ = 1 << 24, PLANTED_ROUNDING = 3 << 22 };
static inline uint64_t planted_word(void) {
    uint64_t word;
    __asm__ __volatile__("mrs %0, fpcr" : "=r"(word) : : "memory");
    return word;
}
static inline void planted_set(uint64_t word) { __asm__ __volatile__("msr fpcr, %0" : : "r"(word) : "memory"); }
#endif

/* The calls run with the host's FTZ. */
static inline mst_guard planted_enter(void) {
    const uint64_t host = planted_word();
    const mst_guard guard = mst_guard_enter();
#ifdef FAULT_enter_keeps_ftz
    planted_set(planted_word() | (host & PLANTED_FTZ));
#else
    (void)host;
#endif
    return guard;
}

/* The host's rounding mode is lost, or the calls' flags stay. */
static inline void planted_leave(mst_guard guard) {
#ifdef FAULT_leave_keeps_flags
#ifdef __x86_64__
    planted_set((guard.word & ~(uint64_t)PLANTED_FLAGS) | (planted_word() & PLANTED_FLAGS));
#else
    planted_set(guard.word);
#endif
#else
    mst_guard_leave(guard);
#endif
#ifdef FAULT_leave_loses_rounding
    planted_set(planted_word() & ~(uint64_t)PLANTED_ROUNDING);
#endif
}

#define mst_guard_enter planted_enter
#define mst_guard_leave planted_leave

#endif
