/* Preloaded into a host (LD_PRELOAD): sets FTZ and DAZ (on aarch64 FZ) before the host starts, as audio hosts do on their threads, and
   tells at the end whether the host's word is still so. Build: cc -shared -fPIC examples/ladspa/flush.c -o flush.so */
#include <float.h>
#include <stdint.h>
#include <stdio.h>
#if defined(__x86_64__)
#include <xmmintrin.h>

static const uint64_t flushing = 0x8040; /* FTZ, DAZ */

static uint64_t word(void) { return _mm_getcsr(); }
static void set_word(uint64_t to) { _mm_setcsr((unsigned)to); }

#elif defined(__aarch64__)

static const uint64_t flushing = 0x01000000; /* FZ */

static uint64_t word(void) {
    uint64_t held;
    __asm__ __volatile__("mrs %0, fpcr" : "=r"(held) : : "memory");
    return held;
}

static void set_word(uint64_t to) { __asm__ __volatile__("msr fpcr, %0" : : "r"(to) : "memory"); }

#else
#error "flush.c knows the float control word of x86-64 and of aarch64 only"
#endif

/* Whether the bits are set, and do what they are for: half of the least normal number is zero. */
static int flushes(void) {
    volatile float least = FLT_MIN;
    volatile float half = least * 0.5f;
    return (word() & flushing) == flushing && half == 0.0f;
}

static int before, set;

__attribute__((constructor)) static void start(void) {
    before = flushes();
    set_word(word() | flushing);
    set = flushes();
}

__attribute__((destructor)) static void end(void) {
    fprintf(stderr, "flush: %s before, %s at the start, %s at the end\n", before ? "on" : "off", set ? "on" : "off",
            flushes() ? "on" : "off");
}
