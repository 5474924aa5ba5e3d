/* SLEEF's deterministic functions for SSE2, four lanes: other bits. u10 is 1.0 ulp, u35 3.5 ulp, which is nearer to ours for tanh, sin and cos. */
#include "job.h"
#if defined(__SSE2__) && defined(WITH_SLEEF)
#include <emmintrin.h>
#include <sleef.h>

typedef __m128 V;
#define ALL _mm_set1_ps
#define EXP Sleef_cinz_expf4_u10sse2
#define ERF Sleef_cinz_erff4_u10sse2
#define TANH Sleef_cinz_tanhf4_u35sse2

/* n is a multiple of 4 in this benchmark. */
#define LANES(name, E)                                   \
    static void name##_loop(const struct job *j) {       \
        const V alpha = ALL(j->alpha);                   \
        (void)alpha;                                     \
        float *d = j->dst;                               \
        for (size_t i = 0; i < j->n; i += 4) {           \
            const V x = _mm_loadu_ps(j->src + i);        \
            _mm_storeu_ps(d + i, (E));                   \
        }                                                \
    }
LANES(exp, EXP(x))
LANES(sigmoid, ALL(1) / (ALL(1) + EXP(-x)))
LANES(silu, x / (ALL(1) + EXP(-x)))
LANES(swish, x / (ALL(1) + EXP(-alpha * x)))
LANES(tanh, TANH(x))
LANES(erf, ERF(x))
LANES(gelu, ALL(.5f) * x * (ALL(1) + ERF(x * ALL(0.70710678f))))
LANES(approx_gelu, ALL(.5f) * x * (ALL(1) + TANH(ALL(0.79788456f) * (x + ALL(0.044715f) * x * x * x))))
LANES(sin, Sleef_cinz_sinf4_u35sse2(x))
LANES(cos, Sleef_cinz_cosf4_u35sse2(x))

static void softmax_loop(const struct job *j) {
    const float *s = j->src;
    float *d = j->dst, t[4];
    V m = ALL(-3.40282347e38f), h = ALL(0);
    for (size_t i = 0; i < j->n; i += 4) m = _mm_max_ps(m, _mm_loadu_ps(s + i));
    _mm_storeu_ps(t, m);
    for (int l = 1; l < 4; l++) t[0] = t[l] > t[0] ? t[l] : t[0];
    m = ALL(t[0]);
    for (size_t i = 0; i < j->n; i += 4) {
        const V e = EXP(_mm_loadu_ps(s + i) - m);
        h += e;
        _mm_storeu_ps(d + i, e);
    }
    _mm_storeu_ps(t, h);
    const V factor = ALL(1.0f / (t[0] + t[1] + t[2] + t[3]));
    for (size_t i = 0; i < j->n; i += 4) _mm_storeu_ps(d + i, _mm_loadu_ps(d + i) * factor);
}

const struct loop sleef[] = {
    ROW(exp) {"reduced_range_exp", exp_loop}, ROW(sigmoid) ROW(silu) ROW(swish) ROW(tanh) ROW(erf) ROW(gelu) ROW(approx_gelu) ROW(sin) ROW(cos) ROW(softmax)
    {0, 0}};
#else
const struct loop sleef[] = {{0, 0}};
#endif
