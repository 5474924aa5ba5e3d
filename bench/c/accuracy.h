/* How exact each operator is: what the parts of the program share. */
#ifndef ACCURACY_H
#define ACCURACY_H
#include <math.h>
#include <stddef.h>
#include <stdint.h>
#include <stdio.h>
#include <string.h>

#include "masoritun.h"

/* The largest error seen, and the place of it: an input's pattern, or a list's length and an index. */
struct worst {
    double error; /* below zero: none yet */
    uint64_t place;
};

/* One result's errors. */
struct errors {
    double ulps, absolute;
};

/* What a range goes by. */
enum range_by { BY_INPUT, BY_INPUT_SIZE, BY_RESULT_SIZE };

/* Where least <= that number <= most. */
struct range {
    const char *name;
    enum range_by by;
    double least, most;
};

enum { MOST_RANGES = 4 };

struct operation {
    const char *name;
    uint64_t (*call)(const float *src, size_t n, float *dst, size_t m);
    double (*exact)(double x);
    float least, most;          /* the domain, ends included */
    const struct range *ranges; /* the whole domain first; a NULL name ends them */
    const char *rust;           /* what the comments of rten-vecmath say of the error */
    const char *sleef;          /* what the names of SLEEF's functions promise */
};

/* A NULL name ends them. */
extern const struct operation operations[];

struct result {
    struct worst ulps[MOST_RANGES], absolute[MOST_RANGES];
    uint64_t inputs;
};

/* Goes through every stride-th pattern of the operator's domain. */
struct result scan(const struct operation *operation, uint32_t stride);
/* Softmax's lists, one in `thin` of them, and their table. */
void softmax_table(FILE *out, unsigned thin);

/* An error in ULP, rounded up: two decimals, from 10,000 on three digits and a power of ten. */
void print_ulps(FILE *out, double error);
/* An absolute error, rounded up: three digits and a power of ten. */
void print_absolute(FILE *out, double error);
/* Ends the program, with one line on standard error. */
void fail(const char *what);
/* The same where a call refuses. */
void done_or_fail(const char *name, uint64_t answer);

static inline float of_pattern(uint32_t pattern) {
    float x;
    memcpy(&x, &pattern, sizeof x);
    return x;
}

/* One by the f32 unit in the last place at a size of at most 2^128. A power of two counts to the binade below it. */
static inline double per_unit(double size) {
    uint64_t bits;
    double inverse;
    if (size <= 0x1p-126)
        return 0x1p149;
    memcpy(&bits, &size, sizeof bits);
    bits = (1023 + 1023 + 23 - ((bits - 1) >> 52)) << 52;
    memcpy(&inverse, &bits, sizeof inverse);
    return inverse;
}

/* Infinity, and what lies beyond 2^128, counts as 2^128. */
static inline double held_to_2_128(double x) { return x > 0x1p128 ? 0x1p128 : x < -0x1p128 ? -0x1p128 : x; }

/* The errors of a result, where `exact` is what it should be; a NaN's are infinite. */
static inline struct errors errors_of(float result, double exact) {
    const double rounds_to_infinity = 0x1p128 - 0x1p103;
    struct errors errors = {0.0, 0.0};
    if (isinf(result) && (result > 0 ? exact >= rounds_to_infinity : exact <= -rounds_to_infinity))
        return errors;
    exact = held_to_2_128(exact);
    errors.absolute = fabs(held_to_2_128(result) - exact);
    if (isnan(errors.absolute))
        errors.absolute = INFINITY;
    errors.ulps = errors.absolute * per_unit(fabs(exact));
    return errors;
}

/* Keeps the larger of the two; of equal ones the lower place. */
static inline void keep(struct worst *held, double error, uint64_t place) {
    if (error > held->error || (error == held->error && place < held->place)) {
        held->error = error;
        held->place = place;
    }
}

#endif
