#include "word.h"
#include "check.h"
#include "masoritun.h"

struct word {
    uint64_t control, flags;
};

enum { HOST_FLUSH = 1, HOST_FLUSH_TOO = 2, HOST_ROUNDING = 12, HOST_TRAPS = 16, HOST_REST = 32 };

#ifdef __x86_64__

enum { FTZ = 0x8000, DAZ = 0x40, ROUNDING_AT = 13, MASKS = 0x1F80, FLAGS = 0x3F };
static const struct word plain = {MASKS, 0};

static struct word word_now(void) {
    const unsigned both = _mm_getcsr();
    const struct word now = {both & ~(unsigned)FLAGS, both & FLAGS};
    return now;
}

static void word_set(struct word word) { _mm_setcsr((unsigned)(word.control | word.flags)); }

static uint64_t host_control(unsigned chosen) {
    return (chosen & HOST_FLUSH ? FTZ : 0) | (chosen & HOST_FLUSH_TOO ? DAZ : 0) | (chosen & HOST_TRAPS ? 0 : MASKS) |
           (chosen & HOST_ROUNDING) >> 2 << ROUNDING_AT;
}

#else

/* REST: NEP, AH and FIZ. A processor without traps, or without these, keeps the bits at 0. */
enum { FZ = 1 << 24, DN_FZ16 = 1 << 25 | 1 << 19, ROUNDING_AT = 22, TRAPS = 0x9F00, REST = 7, FLAGS = 0x9F };
static const struct word plain = {0, 0};

static struct word word_now(void) {
    struct word now;
    __asm__ __volatile__("mrs %0, fpcr\n\tmrs %1, fpsr" : "=&r"(now.control), "=r"(now.flags) : : "memory");
    return now;
}

static void word_set(struct word word) {
    __asm__ __volatile__("msr fpcr, %0\n\tmsr fpsr, %1" : : "r"(word.control), "r"(word.flags) : "memory");
}

static uint64_t host_control(unsigned chosen) {
    return (chosen & HOST_FLUSH ? FZ : 0) | (chosen & HOST_FLUSH_TOO ? DN_FZ16 : 0) | (chosen & HOST_TRAPS ? TRAPS : 0) |
           (chosen & HOST_REST ? REST : 0) | (uint64_t)(chosen & HOST_ROUNDING) >> 2 << ROUNDING_AT;
}

#endif

void word_set_plain(void) { word_set(plain); }

bool word_is_plain(void) { return word_now().control == plain.control; }

uint64_t word_under_host(struct input *in, make_call make, const void *args) {
    const unsigned chosen = input_byte(in);
    const struct word host = {host_control(chosen), input_byte(in) & FLAGS};
    word_set(host);
    const struct word before = word_now();
    const mst_guard guard = mst_guard_enter();
    const uint64_t answer = make(args);
    mst_guard_leave(guard);
    const struct word after = word_now();
    word_set_plain();
    if (after.control != before.control)
        fail("the guard gave the host's word 0x%llx back as 0x%llx", (unsigned long long)before.control,
             (unsigned long long)after.control);
    if (after.flags != before.flags)
        fail("the guard gave the host's flags 0x%llx back as 0x%llx", (unsigned long long)before.flags,
             (unsigned long long)after.flags);
    return answer;
}
