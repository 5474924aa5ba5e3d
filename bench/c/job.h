/* What one timed call is given; src/job.rs has the same. */
#ifndef BENCH_JOB_H
#define BENCH_JOB_H
#include <math.h>
#include <stddef.h>
#include <stdint.h>
#include <string.h>

struct job {
    size_t n;
    const float *src, *scales, *biases;
    const void *table; /* no loop here has one */
    void *dst; /* everything that the call gives, from its start on */
    float alpha, offset, inv_scale, pre_scale_bias, scale, bias;
    uint8_t zero_point;
};

/* A list of these ends with a NULL kernel. */
struct loop {
    const char *kernel;
    void (*call)(const struct job *);
};

/* A loop over src and dst, y = E of x. `restrict` counts for parameters only, hence two functions. */
#define MAP(name, E)                                                                                                  \
    static inline void name##_over(float alpha, const float *restrict s, float *restrict d, size_t n) {               \
        (void)alpha;                                                                                                  \
        for (size_t i = 0; i < n; i++) {                                                                              \
            const float x = s[i];                                                                                     \
            d[i] = (E);                                                                                               \
        }                                                                                                             \
    }                                                                                                                 \
    static void name##_loop(const struct job *j) { name##_over(j->alpha, j->src, j->dst, j->n); }

/* A fold in order over src from START, E of the held h and x. */
#define FOLD(name, START, E)                                                                                          \
    static void name##_loop(const struct job *j) {                                                                    \
        const float offset = j->offset;                                                                               \
        float h = (START);                                                                                            \
        (void)offset;                                                                                                 \
        for (size_t i = 0, n = j->n; i < n; i++) {                                                                    \
            const float x = j->src[i];                                                                                \
            h = (E);                                                                                                  \
        }                                                                                                             \
        *(float *)j->dst = h;                                                                                         \
    }

/* Both extremes, and with them the squares' sum and the overs: a feeding of a new meter. */
#define EXTREMES(LESSER, LARGER)                                                                                      \
    static void min_max_loop(const struct job *j) {                                                                   \
        float least = INFINITY, largest = -INFINITY, *d = j->dst;                                                     \
        for (size_t i = 0, n = j->n; i < n; i++) {                                                                    \
            least = LESSER(least, j->src[i]);                                                                         \
            largest = LARGER(largest, j->src[i]);                                                                     \
        }                                                                                                             \
        d[0] = least;                                                                                                 \
        d[1] = largest;                                                                                               \
    }                                                                                                                 \
    static void meter_feed_loop(const struct job *j) {                                                                \
        float sum = 0.0f, least = INFINITY, largest = -INFINITY, *d = j->dst;                                         \
        uint32_t count[2] = {(uint32_t)j->n, 0};                                                                      \
        for (size_t i = 0, n = j->n; i < n; i++) {                                                                    \
            const float x = j->src[i];                                                                                \
            sum = x * x + sum;                                                                                        \
            count[1] += fabsf(x) >= 1.0f;                                                                             \
            least = LESSER(least, x);                                                                                 \
            largest = LARGER(largest, x);                                                                             \
        }                                                                                                             \
        memcpy(d, count, sizeof count);                                                                               \
        d[2] = sum;                                                                                                   \
        d[3] = least;                                                                                                 \
        d[4] = largest;                                                                                               \
    }

/* E of y = x less the bias before scaling, u and b being the scale and the bias of an element. */
#define NORMALIZE(name, E)                                                                                                \
    static inline void name##_over(float pre, float scale, float bias, const float *restrict u, const float *restrict b,  \
                                   const float *restrict s, float *restrict d, size_t n) {                                \
        (void)u, (void)b, (void)bias;                                                                                     \
        for (size_t i = 0; i < n; i++) {                                                                                  \
            const float y = s[i] - pre;                                                                                   \
            d[i] = (E);                                                                                                   \
        }                                                                                                                 \
    }                                                                                                                     \
    static void name##_loop(const struct job *j) {                                                                        \
        name##_over(j->pre_scale_bias, j->scale, j->bias, j->scales, j->biases, j->src, j->dst, j->n);                    \
    }
/* The arms of document 01. */
#define NORMALIZE_ALL                                \
    NORMALIZE(normalize, y * scale + bias)           \
    NORMALIZE(normalize_scale, y * (u[i] * scale))   \
    NORMALIZE(normalize_both, y * (u[i] * scale) + (b[i] + bias))

#define ROW(name) {#name, name##_loop},
#endif
