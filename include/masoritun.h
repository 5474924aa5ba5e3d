/* Masoritun from C and C++, for Linux on x86-64 and on aarch64. The archive is libmasoritun.a (`tools/library`); the rule behind each
   call, step by step, is in docs/RULES.md, and more on use in docs/USE.md.

   THE BITS. Every answer is the same, bit for bit, where each float operation is rounded to nearest, ties to even, and subnormal
   numbers are kept. Another rounding mode, FTZ (small results become zero) and DAZ (small operands count as zero) change bits; on
   aarch64 FZ is both. Audio hosts set them on their threads, and a program linked with -ffast-math starts with them: put a guard,
   at the end of this file, around the calls.

   LEVELS AND GAINS. A level is a natural logarithm: dB times 0.11513 (ln 10 / 20). A gain g is applied as g / 32768. Join the bands in
   double, or whole-number samples in 64-bit integers: there nothing is rounded, and the whole comes back. In f32 every product and sum
   is rounded: of a million samples of six bands 24 % came back as others (examples/joining.c).

   IN A PLUG-IN. Nothing is allocated, locked, kept or global: any thread may call at any time, in an audio callback too. A call takes at
   most 2,880 bytes of stack (a table's move), mst_split 1,136, a kernel 352 (tools/stack). Link the archive with
   -Wl,--exclude-libs,ALL, so that the plug-in does not export mst_ names of its own to the host.

   WHAT IS LENT. A slice is a pointer and a length in elements. Lent slices must not overlap: what a call writes must lie apart
   from all else that is lent to it. No pointer is kept after the call.

   NULL WITH LENGTH 0 is an empty slice, in every call: it is not followed. Operators, softmax, normalize and quantize answer 0 and
   write nothing; sums give +0; extremes give +infinity and -infinity; a feeding keeps the meter; split answers 7; writing answers 1
   (no gains) or 9 (no bytes); reading answers 9 (no bytes) or 1 (no gains); a move answers 9 (no bytes, or no result). A setting
   that is not finite is refused all the same. Tried by examples/calls.c. A pointer without a length (result, least, count, bands, ..)
   is always followed: never NULL.

   REFUSALS. Any refusal keeps every lent buffer and number unchanged. `result`, `least` and `largest` of sums and extremes are
   part of the answer, not lent: they are written on every call, +0 where it refuses. "Refuses 1, 2, 4" names the numbers that a
   call may answer beside 0; where several apply, the one named first is given. */
#ifndef MASORITUN_H
#define MASORITUN_H

#if defined(_WIN32) || defined(__APPLE__) || defined(__ILP32__) || defined(__AARCH64EB__)
#define MST_ELSEWHERE
#elif !defined(__x86_64__) && !defined(__aarch64__)
#define MST_ELSEWHERE
#endif
#ifdef MST_ELSEWHERE
#error "Masoritun is for Linux with 64-bit pointers, on x86-64 or on aarch64 (little-endian): there is no library for this system"
#endif

#include <math.h> /* INFINITY */
#ifndef __cplusplus
#include <stdbool.h>
#endif
#include <stddef.h>
#include <stdint.h>
#if defined(__x86_64__) && !defined(MST_ELSEWHERE)
#include <xmmintrin.h>
#endif

#ifdef __cplusplus
extern "C" {
#endif

/* 10000 times the first number, 100 times the second, and the third. */
#define MST_VERSION 200
#define MST_VERSION_TEXT "0.2.0"

/* The numbers a call may answer, and the place of each; where none is named it is 0. */
enum {
    MST_DONE = 0,           /* done */
    MST_LENGTH = 1,         /* lent slices differ from the needed length */
    MST_TOO_MANY = 2,       /* over 16,384 elements, or the meter's count would pass 4,294,967,295 */
    MST_NOT_FINITE = 3,     /* alpha, offset, inv_scale or a setting not finite; meter float NaN, sum of squares below zero
                               or more overs than samples */
    MST_DOMAIN = 4,         /* element outside the domain; place: the first such */
    MST_MASKED = 5,         /* all masked: split; or softmax of one or more elements, flush off */
    MST_RESULT = 6,         /* normalize would yield NaN; place: the first such */
    MST_COUNT = 7,          /* bands outside 1..64, or rows outside 1..1,024 */
    MST_ROW_TOTAL = 8,      /* row not adding up to 32768, or in form 2 stored gains that pass it; place: the row, from 0 through
                               the table */
    MST_STORED_LENGTH = 9,  /* stored length wrong */
    MST_CHECK = 10,         /* check wrong; place: the block */
    MST_HEADER = 11,        /* form, block number, bands or rows wrong (one band in form 2 too), or form, bands or rows unlike
                               block 0; place: the block */
    MST_UNUSED = 12,        /* unused byte not zero; place: the block */
    MST_ONE_BAND = 15       /* a one-band table has no form 2 */
};

enum {
    MST_MOST_ELEMENTS = 16384, /* of a kernel or a feeding */
    MST_PARTS = 32768,         /* the total of a split's gains and of a table's row */
    MST_MOST_BANDS = 64,
    MST_MOST_ROWS = 1024,
    MST_BLOCK_BYTES = 512,
    MST_BLOCK_GAINS = 250      /* room of a block, for whole rows of stored gains */
};

/* An answer is one word: the number in the low 8 bits, the place above. It is 0 exactly when the call is done. */
static inline unsigned mst_number(uint64_t answer) { return answer & 255u; }
static inline size_t mst_place(uint64_t answer) { return answer >> 8; }

/* What a number says, for a log or a message. */
static inline const char *mst_text(unsigned number) {
    switch (number) {
    case MST_DONE: return "done";
    case MST_LENGTH: return "lent slices differ from the needed length";
    case MST_TOO_MANY: return "over 16,384 elements in a kernel or feeding, or meter count would pass 4,294,967,295";
    case MST_NOT_FINITE:
        return "alpha, offset, inv_scale or a setting not finite; meter float NaN, sum of squares below zero or more overs than samples";
    case MST_DOMAIN: return "element outside the domain";
    case MST_MASKED: return "all masked, in split or in softmax of one or more elements with flush off";
    case MST_RESULT: return "normalize would yield NaN";
    case MST_COUNT: return "bands outside 1..64, or rows outside 1..1,024";
    case MST_ROW_TOTAL: return "row not adding up to 32768, or in form 2 stored gains that pass it";
    case MST_STORED_LENGTH: return "stored length wrong";
    case MST_CHECK: return "check wrong";
    case MST_HEADER: return "form, block number, bands or rows wrong, or form, bands or rows unlike block 0";
    case MST_UNUSED: return "unused byte not zero";
    case MST_ONE_BAND: return "a one-band table has no form 2";
    }
    return "not a number of the list";
}

/* MST_VERSION of the library that the program runs with: a shared one may not be that of this header. */
uint32_t mst_version(void);

/* ---- Operators: dst[i] is the operator at src[i]. The domain is finite numbers. Each refuses 1 (m is not n), 2, 4. In what
   follows Exp, Sigmoid, Tanh and Erf are these operators themselves, and each sum, product and quotient is rounded once.

   "Within" is the largest error against the exact function over every f32 of the domain, measured, not proved: in units of the last
   place (ULP) where that says most, else absolute. docs/ACCURACY.md has both, and where they are. */

/* e to the x; +infinity at or above 104, +0 at or below -104. Within 1.17 ULP. */
uint64_t mst_exp(const float *src, size_t n, float *dst, size_t m);
/* e to the x, domain also at most zero; +0 strictly below the cutoff (about -87.67). Within 1.15 ULP where the result is
   normal. */
uint64_t mst_reduced_range_exp(const float *src, size_t n, float *dst, size_t m);
/* 1 / (1 + Exp(-x)). Within 2.49 ULP where the result is normal, 8.94e-8. */
uint64_t mst_sigmoid(const float *src, size_t n, float *dst, size_t m);
/* x / (1 + Exp(-x)): x divided by the rounded sum, not x times the sigmoid. Within 2.47 ULP from -88.7 up, 1.28e-6. */
uint64_t mst_silu(const float *src, size_t n, float *dst, size_t m);
/* x Sigmoid(x alpha). Refuses 1, 2, 3 (alpha not finite), 4. With alpha 1.702 within 7.41e-7, 8.11 ULP from -5 up. */
uint64_t mst_swish(float alpha, const float *src, size_t n, float *dst, size_t m);
/* x at or above zero, else alpha (Exp(x) - 1). Refuses 1, 2, 3 (alpha not finite), 4. With alpha 1 within 5.93e-8. */
uint64_t mst_elu(float alpha, const float *src, size_t n, float *dst, size_t m);
/* Hyperbolic tangent, with the sign of x: +0 gives +0, and -0 gives -0. Within 2.25 ULP. */
uint64_t mst_tanh(const float *src, size_t n, float *dst, size_t m);
/* The error function, by a polynomial. Within 6.63e-7; near 0 all digits of a small result may be lost. */
uint64_t mst_erf(const float *src, size_t n, float *dst, size_t m);
/* (x 0.5) (Erf(x r) + 1), with r = 1 / root 2 as an f32. Within 4.71e-7 of x times the normal distribution. */
uint64_t mst_gelu(const float *src, size_t n, float *dst, size_t m);
/* (x 0.5) (Tanh((c 0.044715 + x) 0.79788456) + 1), with c = (x x) x. Within 4.34e-7 of that formula. */
uint64_t mst_approx_gelu(const float *src, size_t n, float *dst, size_t m);
/* Sine, domain also below 48,000 in size. It reaches 1.0000002 in size. Within 6.58e-7, up to 100 in size 2.76e-7. */
uint64_t mst_sin(const float *src, size_t n, float *dst, size_t m);
/* Cosine, likewise; at 0 it is 0x3f7ffffe. Within 6.47e-7, up to 100 in size 3.29e-7. */
uint64_t mst_cos(const float *src, size_t n, float *dst, size_t m);

/* ---- Sums run from the first element to the last, each step rounded. The domain is finite numbers. Each refuses 2, 4. */

/* The sum of the elements. result: written on every call, +0 where it refuses. */
uint64_t mst_sum(const float *src, size_t n, float *result);
/* Of their squares. result: written on every call, +0 where it refuses. */
uint64_t mst_sum_square(const float *src, size_t n, float *result);
/* Of their sizes. result: written on every call, +0 where it refuses. */
uint64_t mst_sum_abs(const float *src, size_t n, float *result);
/* Of the squares of element less offset. result: written on every call, +0 where it refuses. Refuses 2, 3 (offset), 4. */
uint64_t mst_sum_square_sub(float offset, const float *src, size_t n, float *result);
/* Of e to the element less offset. result: written on every call, +0 where it refuses. Refuses 2, 3 (offset), 4. */
uint64_t mst_sum_exp_sub(float offset, const float *src, size_t n, float *result);

/* ---- Extremes: an element replaces the held one only if strictly beyond it. The domain is all but NaN. Each refuses 2, 4.

   Peaks may be gathered in any grouping: mst_min_num of the chunks' least ones and mst_max_num of their largest, in the chunks' order,
   are those of the whole, to the bit, also where the whole is longer than one call takes. In another order the numbers are equal; a
   zero may change sign (examples/peaks.c). */

/* Least and largest; of nothing +infinity and -infinity. Both: written on every call, +0 where it refuses. */
uint64_t mst_min_max(const float *src, size_t n, float *least, float *largest);
/* The largest; of nothing -infinity. result: written on every call, +0 where it refuses. */
uint64_t mst_max_num(const float *src, size_t n, float *result);
/* The least; of nothing +infinity. result: written on every call, +0 where it refuses. */
uint64_t mst_min_num(const float *src, size_t n, float *result);

/* ---- Softmax, normalize, quantize */

/* Weights between 0 and 1. The domain is finite or minus infinity, which is masked and weighs zero. With flush on, all masked
   gives zeros. For the monitor path: the weights of n elements, not all masked, added up exactly differ from 1 by at most
   (n + 2) * 2^-24, 0.000004 for 64. Of 6,000,000 lists of up to 64 no weight was farther than 6.28e-7 from the exact one
   (docs/ACCURACY.md). Gains that make exactly the whole are mst_split's.
   Refuses 1 (m is not n), 2, 4, 5 (all masked, flush off). */
uint64_t mst_softmax(bool flush, const float *src, size_t n, float *dst, size_t m);
/* The same in place. Refuses 2, 4, 5. */
uint64_t mst_softmax_in_place(bool flush, float *buf, size_t n);
/* (x - pre_scale_bias) times the scale, plus the bias. A per-element scale multiplies `scale`, a per-element bias is added to
   `bias`. A slice marked absent (has_scale, has_bias false) isn't looked at, its length included. With a per-element scale, no
   per-element bias and bias +0 or -0 no addition happens, so a -0 product stays -0. The domain is finite numbers, in src and in
   each slice in use; the place is the lowest index bad in any of them. Refuses 1 (a length in use is not n), 2, 3, 4, 6. */
uint64_t mst_normalize(float pre_scale_bias, float scale, float bias, bool has_scale, const float *element_scale, size_t ns,
                       bool has_bias, const float *element_bias, size_t nb, const float *src, size_t n, float *dst, size_t m);
/* The same in place. Refuses 1, 2, 3, 4, 6. */
uint64_t mst_normalize_in_place(float pre_scale_bias, float scale, float bias, bool has_scale, const float *element_scale,
                                size_t ns, bool has_bias, const float *element_bias, size_t nb, float *buf, size_t n);
/* x times inv_scale, rounded; to the nearest whole number, ties to even; plus zero_point; held to 0..255. The domain is finite
   numbers. Refuses 1 (m is not n), 2, 3 (inv_scale not finite), 4. */
uint64_t mst_quantize(float inv_scale, uint8_t zero_point, const float *src, size_t n, uint8_t *dst, size_t m);

/* ---- Split */

/* Gains of 1 to 64 bands that add up to exactly 32768; no whole numbers with that total lie nearer to the exact shares of the
   softmax weights (in steps of 2^-30), and equal remainders favour the lower band. The domain is finite or minus infinity
   (masked: gain 0). Refuses 7 (n outside 1..64), 1 (m is not n), 4, 5 (all masked). */
uint64_t mst_split(const float *levels, size_t n, uint16_t *gains, size_t m);

/* ---- Meter */

/* Feeds n samples to the meter in the five numbers: count, overs, sum of squares, least and largest. An over is a sample whose
   size is at least 1.0, full scale; -1.0 is one too. The domain is finite numbers. Feeding pieces in order gives the meter of
   feeding them joined, where the joined feeding isn't refused. Refuses 2 (n, or the count), 3, 4; the meter is kept then. */
uint64_t mst_meter_feed(uint32_t *count, uint32_t *overs, float *sum_squares, float *least, float *largest, const float *src,
                        size_t n);

typedef struct {
    uint32_t count, overs;
    float sum_squares, least, largest;
} mst_meter;

/* The meter of no samples: 0, 0, +0, +infinity, -infinity. */
static inline mst_meter mst_meter_new(void) {
    mst_meter meter = {0, 0, 0.0f, INFINITY, -INFINITY};
    return meter;
}

/* mst_meter_feed over a meter's own fields. */
static inline uint64_t mst_feed(mst_meter *meter, const float *src, size_t n) {
    return mst_meter_feed(&meter->count, &meter->overs, &meter->sum_squares, &meter->least, &meter->largest, src, n);
}

/* ---- Stored table: rows of gains that each add up to 32768, in blocks of 512 bytes. Form 1, of 1 to 64 bands, stores every gain;
   form 2, of 2 to 64 bands, leaves each row's last one out, and the reader works it out. All blocks of a table have one form, and
   each but the last holds floor(250 / stored gains of a row) rows. */

/* The bytes of a table of that form; 0 where there is none (form not 1 or 2, bands or rows outside). */
static inline size_t mst_table_length(uint32_t form, uint32_t bands, uint32_t rows) {
    const uint32_t stored = form == 2 && bands > 0 ? bands - 1 : form == 1 ? bands : 0;
    if (stored < 1 || bands > MST_MOST_BANDS || rows < 1 || rows > MST_MOST_ROWS)
        return 0;
    const uint32_t held = MST_BLOCK_GAINS / stored;
    return (size_t)((rows + held - 1) / held) * MST_BLOCK_BYTES;
}
/* The bytes that mst_table_write needs: mst_table_length in form 1. */
static inline size_t mst_table_bytes(uint32_t bands, uint32_t rows) { return mst_table_length(1, bands, rows); }
/* The bytes that the table in `bytes` takes in that form, by the bands and rows of its first header, which is not judged here; 0
   where n is below 8 or there is no such table. */
static inline size_t mst_table_length_in(uint32_t form, const uint8_t *bytes, size_t n) {
    return n < 8 ? 0 : mst_table_length(form, bytes[4] + 256u * bytes[5], bytes[6] + 256u * bytes[7]);
}
/* The gains that mst_table_read needs for the table in `bytes`, rows times bands by its first header, which is not judged here; 0
   where n is below 8 or there is no such table. */
static inline size_t mst_table_gains(const uint8_t *bytes, size_t n) {
    return mst_table_length_in(1, bytes, n) == 0 ? 0 : (size_t)(bytes[4] + 256u * bytes[5]) * (bytes[6] + 256u * bytes[7]);
}

/* Writes rows times bands gains, row after row, in form 1. Refuses 7, 1 (n is not rows times bands), 9 (m is not
   mst_table_length(1, bands, rows)), 8. */
uint64_t mst_table_write(uint32_t bands, uint32_t rows, const uint16_t *gains, size_t n, uint8_t *bytes, size_t m);
/* Reads a whole table of either form: gains, bands and rows, all kept on a refusal. Refuses 9 (empty or no multiple of 512), then
   blocks upward, in each 10, 11, for block 0 also 9 (not as many blocks as it says) and 1 (m is not rows times bands), then 8, then
   12. */
uint64_t mst_table_read(const uint8_t *bytes, size_t n, uint16_t *gains, size_t m, uint32_t *bands, uint32_t *rows);
/* Reads one block of either form, which should be block `number`: its header and `held`, the rows it holds, all kept on a refusal.
   Refuses 9 (n is not 512), 10, 11, 8, 12; the place of 10, 11 and 12 is `number`, that of 8 the row through the table. */
uint64_t mst_table_read_block(uint32_t number, const uint8_t *bytes, size_t n, uint32_t *form, uint32_t *bands, uint32_t *rows,
                              uint32_t *held);
/* Moves a table of either form to form 1: the same rows. One that has that form is copied; there and back gives the same bytes.
   result is lent: kept on a refusal. Refuses as mst_table_read, but for 1; then 9 (m is not mst_table_length_in(1, bytes, n)). */
uint64_t mst_table_to_form_1(const uint8_t *bytes, size_t n, uint8_t *result, size_t m);
/* The same to form 2. Refuses as mst_table_read, but for 1; then 15 (one band); then 9 (m is not
   mst_table_length_in(2, bytes, n)). */
uint64_t mst_table_to_form_2(const uint8_t *bytes, size_t n, uint8_t *result, size_t m);

#ifdef __cplusplus
}
#endif

/* ---- Guard: once around a callback's calls. It saves this thread's float control word (MXCSR; on aarch64 FPCR), sets round to
   nearest with no flushing and every exception masked (an unmasked one would trap inside a call), and puts the whole word back,
   exception flags too (on aarch64 those of FPSR). It is for the calls above, not for filters of your own, which want the host's
   FTZ; and the compiler may move float arithmetic of your own past it. A pair took 12 ns on a Neoverse-N1 (bench/guard). */

#if defined(MST_ELSEWHERE)

/* The error above is then the only one of a program that uses the guard. */
typedef struct {
    unsigned word;
} mst_guard;

static inline mst_guard mst_guard_enter(void) {
    mst_guard guard = {0};
    return guard;
}

static inline void mst_guard_leave(mst_guard guard) { (void)guard; }

#elif defined(__x86_64__)

typedef struct {
    unsigned word;
} mst_guard;

enum {
    MST_WORD_FREE = 0xE040, /* FTZ, rounding mode, DAZ: cleared */
    MST_WORD_MASK = 0x1F80  /* the six exceptions: masked */
};

static inline mst_guard mst_guard_enter(void) {
    mst_guard guard;
    guard.word = _mm_getcsr();
    _mm_setcsr((guard.word & ~(unsigned)MST_WORD_FREE) | MST_WORD_MASK);
    return guard;
}

static inline void mst_guard_leave(mst_guard guard) { _mm_setcsr(guard.word); }

#else

typedef struct {
    uint64_t word, flags;
} mst_guard;

enum {
    MST_WORD_FREE = 0x03C89F07 /* DN, FZ, rounding mode, FZ16, the six traps, FEAT_AFP's NEP, AH and FIZ: cleared */
};

/* "memory" keeps the calls between the two: none that reads or writes what the program can see is moved past. */
static inline mst_guard mst_guard_enter(void) {
    mst_guard guard;
    __asm__ __volatile__("mrs %0, fpcr\n\tmrs %1, fpsr" : "=&r"(guard.word), "=r"(guard.flags) : : "memory");
    __asm__ __volatile__("msr fpcr, %0" : : "r"(guard.word & ~(uint64_t)MST_WORD_FREE) : "memory");
    return guard;
}

static inline void mst_guard_leave(mst_guard guard) {
    __asm__ __volatile__("msr fpcr, %0\n\tmsr fpsr, %1" : : "r"(guard.word), "r"(guard.flags) : "memory");
}

#endif

#ifdef __cplusplus
namespace masoritun {
/* Guards from where it stands to the end of its scope, by return or by exception. */
class guard {
public:
    guard() : held(mst_guard_enter()) {}
    ~guard() { mst_guard_leave(held); }

private:
    guard(const guard &);
    guard &operator=(const guard &);
    const mst_guard held;
};
}
#endif

#endif
