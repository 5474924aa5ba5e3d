/* The twelve operators: the call, the function in double, the domain, the ranges, and what others say. */
#include <float.h>

#include "accuracy.h"

static const float swish_alpha = 1.702f, elu_alpha = 1.0f;
static const double root_2 = 1.41421356237309504880, root_2_by_pi = 0.79788456080286535588;

static uint64_t call_swish(const float *src, size_t n, float *dst, size_t m) {
    return mst_swish(swish_alpha, src, n, dst, m);
}
static uint64_t call_elu(const float *src, size_t n, float *dst, size_t m) { return mst_elu(elu_alpha, src, n, dst, m); }

static double exact_sigmoid(double x) { return 1 / (1 + exp(-x)); }
static double exact_silu(double x) { return x / (1 + exp(-x)); }
static double exact_swish(double x) { return x / (1 + exp(-(double)swish_alpha * x)); }
static double exact_elu(double x) { return x < 0 ? elu_alpha * expm1(x) : x; }
static double exact_gelu(double x) { return 0.5 * x * erfc(-x / root_2); }
/* 0.5 x (1 + tanh u), without its cancellation where u is far below zero. */
static double exact_approx_gelu(double x) {
    const double u = root_2_by_pi * (x + 0.044715 * x * x * x);
    return x / (1 + exp(-2 * u));
}

#define WHOLE {"whole domain", BY_INPUT, -INFINITY, INFINITY}
/* From the least normal f32 to the last double below 2^128. */
#define NORMAL {"result normal", BY_RESULT_SIZE, 0x1p-126, 0x1.fffffffffffffp127}
#define FROM(text, least) {"x >= " text, BY_INPUT, least, INFINITY}
#define SIZE_FROM(text, least) {"\\|x\\| >= " text, BY_INPUT_SIZE, least, INFINITY}
#define SIZE_TO(text, most) {"\\|x\\| <= " text, BY_INPUT_SIZE, 0, most}
#define END {0, BY_INPUT, 0, 0}

static const struct range of_exp[] = {WHOLE, NORMAL, END};
/* Below these Exp is infinite, or the sigmoid within is subnormal. */
static const struct range of_silu[] = {WHOLE, FROM("-88.7", -88.7), END};
static const struct range of_swish[] = {WHOLE, FROM("-51", -51), FROM("-5", -5), END};
static const struct range of_elu[] = {WHOLE, {"x <= -0.5", BY_INPUT, -INFINITY, -0.5}, END};
static const struct range of_tanh[] = {WHOLE, SIZE_TO("0.55", 0.55), END};
static const struct range of_erf[] = {WHOLE, SIZE_FROM("0.5", 0.5), SIZE_FROM("1", 1), END};
static const struct range of_gelu[] = {WHOLE, FROM("-1", -1), END};
static const struct range of_sin[] = {WHOLE, {"\\|result\\| >= 0.5", BY_RESULT_SIZE, 0.5, 2},
                                      SIZE_TO("3.1415927", 3.1415927f), SIZE_TO("100", 100), END};

/* 48,000 itself is outside. */
#define BELOW_48000 47999.99609375f
#define FINITE -FLT_MAX, FLT_MAX

const struct operation operations[] = {
    {"exp", mst_exp, exp, FINITE, of_exp,
     "\"a maximum error of 1 ULP compared to `f32::exp` in the Rust standard library\"", "1.0 ULP (`expf_u10`)"},
    {"reduced_range_exp", mst_reduced_range_exp, exp, -FLT_MAX, 0, of_exp, "nothing", "1.0 ULP (`expf_u10`)"},
    {"sigmoid", mst_sigmoid, exact_sigmoid, FINITE, of_exp,
     "\"a maximum error of 4 ULPs compared to a reference implementation using `1. / (1. + (-x).exp())`\"", "none"},
    {"silu", mst_silu, exact_silu, FINITE, of_silu, "nothing", "none"},
    {"swish", call_swish, exact_swish, FINITE, of_swish, "nothing", "none"},
    {"elu", call_elu, exact_elu, FINITE, of_elu, "nothing", "none (`expm1f_u10`: 1.0 ULP)"},
    {"tanh", mst_tanh, tanh, FINITE, of_tanh,
     "of 0.55, \"Threshold below which `tanh(x) = (exp(2x) - 1) / (exp(2x) + 1)` method produces errors >= 2 ULP\"; no bound",
     "1.0 ULP (`tanhf_u10`), 3.5 ULP (`tanhf_u35`)"},
    {"erf", mst_erf, erf, FINITE, of_erf,
     "\"a maximum absolute error of 6.631017e-7 when comparing to `libm::erff`\"", "1.0 ULP (`erff_u10`)"},
    {"gelu", mst_gelu, exact_gelu, FINITE, of_gelu, "nothing", "none"},
    {"approx_gelu", mst_approx_gelu, exact_approx_gelu, FINITE, of_gelu, "nothing", "none"},
    {"sin", mst_sin, sin, -BELOW_48000, BELOW_48000, of_sin,
     "\"a maximum absolute error of 2.98e-7 (2.5 * f32::EPSILON)\"", "1.0 ULP (`sinf_u10`), 3.5 ULP (`sinf_u35`)"},
    {"cos", mst_cos, cos, -BELOW_48000, BELOW_48000, of_sin,
     "\"a maximum absolute error of 4.17e-7 (3.5 * f32::EPSILON)\"", "1.0 ULP (`cosf_u10`), 3.5 ULP (`cosf_u35`)"},
    {0, 0, 0, 0, 0, 0, 0, 0}};
