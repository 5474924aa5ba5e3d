/* The same kernels as plain loops, over the C library's functions where it has them: other bits. */
#include "job.h"

MAP(exp, expf(x))
MAP(sigmoid, 1.0f / (1.0f + expf(-x)))
MAP(silu, x / (1.0f + expf(-x)))
MAP(swish, x / (1.0f + expf(-alpha * x)))
MAP(elu, x >= 0.0f ? x : alpha * expm1f(x))
MAP(tanh, tanhf(x))
MAP(erf, erff(x))
MAP(gelu, 0.5f * x * (1.0f + erff(x * 0.70710678f)))
MAP(approx_gelu, 0.5f * x * (1.0f + tanhf(0.79788456f * (x + 0.044715f * x * x * x))))
MAP(sin, sinf(x))
MAP(cos, cosf(x))

FOLD(sum, 0.0f, h + x)
FOLD(sum_square, 0.0f, h + x * x)
FOLD(sum_abs, 0.0f, h + fabsf(x))
FOLD(sum_square_sub, 0.0f, h + (x - offset) * (x - offset))
FOLD(sum_exp_sub, 0.0f, h + expf(x - offset))
FOLD(max_num, -INFINITY, fmaxf(h, x))
FOLD(min_num, INFINITY, fminf(h, x))
EXTREMES(fminf, fmaxf)
NORMALIZE_ALL

static void weights(float *d, const float *s, size_t n) {
    float m = -INFINITY, h = 0.0f;
    for (size_t i = 0; i < n; i++) m = s[i] > m ? s[i] : m;
    for (size_t i = 0; i < n; i++) h += d[i] = expf(s[i] - m);
    const float factor = 1.0f / h;
    for (size_t i = 0; i < n; i++) d[i] *= factor;
}
static void softmax_loop(const struct job *j) { weights(j->dst, j->src, j->n); }
static void softmax_in_place_loop(const struct job *j) {
    memcpy(j->dst, j->src, j->n * sizeof(float));
    weights(j->dst, j->dst, j->n);
}

static void quantize_loop(const struct job *j) {
    uint8_t *d = j->dst;
    for (size_t i = 0; i < j->n; i++) {
        const long q = lrintf(j->src[i] * j->inv_scale) + j->zero_point;
        d[i] = (uint8_t)(q < 0 ? 0 : q > 255 ? 255 : q);
    }
}

const struct loop glibc[] = {
    ROW(exp) {"reduced_range_exp", exp_loop}, ROW(sigmoid) ROW(silu) ROW(swish) ROW(elu) ROW(tanh) ROW(erf) ROW(gelu) ROW(approx_gelu)
    ROW(sin) ROW(cos) ROW(sum) ROW(sum_square) ROW(sum_abs) ROW(sum_square_sub) ROW(sum_exp_sub) ROW(min_max) ROW(max_num) ROW(min_num)
    ROW(softmax) ROW(softmax_in_place) ROW(normalize) ROW(normalize_scale) ROW(normalize_both) ROW(quantize) ROW(meter_feed)
    {0, 0}};
