/* Document 01's steps in C without a branch inside a loop, so that the compiler can use lanes. One rounding for each operation: -ffp-contract=off. */
#include "job.h"

#define IN static inline __attribute__((always_inline))

IN uint32_t bits(float x) {
    uint32_t u;
    memcpy(&u, &x, 4);
    return u;
}
IN float from(uint32_t u) {
    float x;
    memcpy(&x, &u, 4);
    return x;
}
IN float neg(float x) { return from(bits(x) ^ 0x80000000u); }
IN float size(float x) { return from(bits(x) & 0x7fffffffu); }
IN float lesser(float a, float b) { return b < a ? b : a; }
IN float larger(float a, float b) { return b > a ? b : a; }

#define MAGIC 12582912.0f

/* The polynomial; k from the pattern of the sum with MAGIC, which spares a cast. */
IN float exp_parts(float x, uint32_t *k) {
    const float t = x * 1.44269504088896340736f + MAGIC, j = t - MAGIC;
    float r = j * -6.93145752e-1f + x;
    r = j * -1.42860677e-6f + r;
    float p = 1.37805939e-3f;
    p = p * r + 8.37312452e-3f;
    p = p * r + 4.16695364e-2f;
    p = p * r + 1.66664720e-1f;
    p = p * r + 4.99999851e-1f;
    p = p * r + 1.0f;
    *k = bits(t) - 0x4b400000u;
    return p * r + 1.0f;
}
IN float exp_of(float x) {
    uint32_t k;
    const float p = exp_parts(x, &k);
    const uint32_t a = (int32_t)k > 0 ? 0u : 0x83000000u;
    float y = (p * from(a + 0x7f000000u)) * from((k << 23) - a);
    y = x >= 104.0f ? INFINITY : y;
    return x <= -104.0f ? 0.0f : y;
}
/* p times 2^k with one multiplication; k from -126 to 127. */
IN float exp_once(float x) {
    uint32_t k;
    const float p = exp_parts(x, &k);
    return p * from((k + 127u) << 23);
}
IN float reduced_range_exp_of(float x) {
    const float y = exp_once(x);
    return x < from(0xc2af58a3u) ? 0.0f : y;
}
IN float sigmoid_of(float x) { return 1.0f / (1.0f + exp_of(neg(x))); }
IN float elu_of(float alpha, float x) {
    const float y = alpha * (exp_of(x) - 1.0f);
    return x >= 0.0f ? x : y;
}
IN float tanh_of(float x) {
    const float a = size(x), q = x * x;
    float s = 1.5497927553951740264892578125e-2f * q + -5.21197654306888580322265625e-2f;
    s = s * q + 0.13310669362545013427734375f;
    s = s * q + -0.33332359790802001953125f;
    s = s * q + 0.999999940395355224609375f;
    s = s * a;
    /* Used for 2a from 1.1 to 18.04 only: k is above 0, and Exp's two multiplications are exact. */
    const float e = exp_once(a * 2.0f), m = (e - 1.0f) / (e + 1.0f);
    float y = a >= 9.02f ? 1.0f : m;
    y = a <= 0.55f ? s : y;
    y = x <= 0.0f ? neg(y) : y;
    return a <= 0.0004f ? x : y;
}
IN float erf_of(float x) {
    const float a = size(x), t = 1.0f / (a * 0.3275911f + 1.0f);
    float p = 1.061405429f * t + -1.453152027f;
    p = p * t + 1.421413741f;
    p = p * t + -0.284496736f;
    p = p * t + 0.254829592f;
    p = p * t;
    const float y = 1.0f - p * reduced_range_exp_of(neg(a * a));
    return x < 0.0f ? neg(y) : y;
}
IN float gelu_of(float x) { return (x * 0.5f) * (erf_of(x * from(0x3f3504f3u)) + 1.0f); }
IN float approx_gelu_of(float x) {
    const float c = (x * x) * x;
    return (x * 0.5f) * (tanh_of((c * 0.044715f + x) * 0.7978845608028654f) + 1.0f);
}
/* x less its turns; below 48,000 in size MAGIC rounds the turns to even, the sign put back for zero. */
IN float turned(float x) {
    const float t = (x * 0.15915494f + MAGIC) - MAGIC;
    const float k = from((bits(t) & 0x7fffffffu) | (bits(x) & 0x80000000u));
    return (x - k * 6.28125f) - k * 1.9353072e-3f;
}
IN float sine_of(float r) {
    const float pi = 3.1415927f;
    r = lesser(r, pi - r);
    r = larger(r, -pi - r);
    r = lesser(r, pi - r);
    const float q = r * r;
    const float upper = (q * (q * 3.2340581529e-03f + -1.3314664364e-01f) + 1.0f) * r;
    const float lower = q * (q * 4.8770775902e-04f + 3.3519912511e-02f) + 1.0f;
    return upper / lower;
}

MAP(exp, exp_of(x))
MAP(reduced_range_exp, reduced_range_exp_of(x))
MAP(sigmoid, sigmoid_of(x))
MAP(silu, x / (1.0f + exp_of(neg(x))))
MAP(swish, x * sigmoid_of(x * alpha))
MAP(elu, elu_of(alpha, x))
MAP(tanh, tanh_of(x))
MAP(erf, erf_of(x))
MAP(gelu, gelu_of(x))
MAP(approx_gelu, approx_gelu_of(x))
MAP(sin, sine_of(turned(x)))
MAP(cos, sine_of(1.5707964f - turned(x)))

FOLD(sum, 0.0f, h + x)
FOLD(sum_square, 0.0f, x * x + h)
FOLD(sum_abs, 0.0f, h + size(x))
FOLD(sum_square_sub, 0.0f, (x - offset) * (x - offset) + h)
FOLD(max_num, -INFINITY, larger(h, x))
FOLD(min_num, INFINITY, lesser(h, x))

/* The exponentials in runs, so that only the additions are in order. */
static void sum_exp_sub_loop(const struct job *j) {
    enum { RUN = 256 };
    float e[RUN], h = 0.0f;
    for (size_t at = 0; at < j->n; at += RUN) {
        const size_t m = j->n - at < RUN ? j->n - at : RUN;
        for (size_t i = 0; i < m; i++) e[i] = exp_of(j->src[at + i] - j->offset);
        for (size_t i = 0; i < m; i++) h = h + e[i];
    }
    *(float *)j->dst = h;
}

EXTREMES(lesser, larger)

/* In any order: only the sign of a zero can tell, and that reaches no weight. */
IN float largest_of(const float *s, size_t n) {
    enum { LANES = 16 };
    float m[LANES];
    size_t i = 0;
    for (int l = 0; l < LANES; l++) m[l] = -3.40282347e38f;
    for (; i + LANES <= n; i += LANES)
        for (int l = 0; l < LANES; l++) m[l] = larger(m[l], s[i + l]);
    for (int l = 1; l < LANES; l++) m[0] = larger(m[0], m[l]);
    for (; i < n; i++) m[0] = larger(m[0], s[i]);
    return m[0];
}
IN void weigh(float *d, size_t n) {
    float h = 0.0f;
    for (size_t i = 0; i < n; i++) h = h + d[i];
    const float factor = 1.0f / h;
    for (size_t i = 0; i < n; i++) d[i] = d[i] * factor;
}
IN void exponentials(float m, const float *restrict s, float *restrict d, size_t n) {
    for (size_t i = 0; i < n; i++) d[i] = reduced_range_exp_of(s[i] - m);
}
static void softmax_loop(const struct job *j) {
    exponentials(largest_of(j->src, j->n), j->src, j->dst, j->n);
    weigh(j->dst, j->n);
}
/* dst is a copy of src each time, which every contender makes. */
static void softmax_in_place_loop(const struct job *j) {
    float *d = j->dst;
    memcpy(d, j->src, j->n * sizeof *d);
    const float m = largest_of(d, j->n);
    for (size_t i = 0, n = j->n; i < n; i++) d[i] = reduced_range_exp_of(d[i] - m);
    weigh(d, j->n);
}

NORMALIZE_ALL

/* Held to 1024 in size before it is rounded, so that no cast can wrap. */
IN void codes(float by, float zero, const float *restrict s, uint8_t *restrict d, size_t n) {
    for (size_t i = 0; i < n; i++) {
        const float p = lesser(larger(s[i] * by, -1024.0f), 1024.0f);
        const float q = ((p + MAGIC) - MAGIC) + zero;
        d[i] = (uint8_t)(int32_t)lesser(larger(q, 0.0f), 255.0f);
    }
}
static void quantize_loop(const struct job *j) { codes(j->inv_scale, j->zero_point, j->src, j->dst, j->n); }

const struct loop branch_free[] = {
    ROW(exp) ROW(reduced_range_exp) ROW(sigmoid) ROW(silu) ROW(swish) ROW(elu) ROW(tanh) ROW(erf) ROW(gelu) ROW(approx_gelu)
    ROW(sin) ROW(cos) ROW(sum) ROW(sum_square) ROW(sum_abs) ROW(sum_square_sub) ROW(sum_exp_sub) ROW(min_max) ROW(max_num) ROW(min_num)
    ROW(softmax) ROW(softmax_in_place) ROW(normalize) ROW(normalize_scale) ROW(normalize_both) ROW(quantize) ROW(meter_feed)
    {0, 0}};
