#include "lend.h"
#include "masoritun.h"
#include "sequences.h"
#include <math.h>
#include <string.h>

/* ---- Softmax */

struct softmax_call {
    bool flush;
    const float *src;
    float *dst;
    size_t n, m;
};

static uint64_t make_softmax(const void *args) {
    const struct softmax_call *c = args;
    return mst_softmax(c->flush, c->src, c->n, c->dst, c->m);
}

static uint64_t make_softmax_in_place(const void *args) {
    const struct softmax_call *c = args;
    return mst_softmax_in_place(c->flush, c->dst, c->n);
}

static bool is_masked(float x) { return isinf(x) && x < 0; }

static size_t masked_of(const float *src, size_t n) {
    size_t masked = 0;
    for (size_t i = 0; i < n; i++)
        masked += is_masked(src[i]);
    return masked;
}

static uint64_t expected_softmax(bool flush, const float *src, size_t n, size_t m) {
    if (n != m)
        return answer_of(MST_LENGTH, 0);
    if (n > MST_MOST_ELEMENTS)
        return answer_of(MST_TOO_MANY, 0);
    for (size_t i = 0; i < n; i++)
        if (!isfinite(src[i]) && !is_masked(src[i]))
            return answer_of(MST_DOMAIN, i);
    return n > 0 && !flush && masked_of(src, n) == n ? answer_of(MST_MASKED, 0) : 0;
}

/* The sum in double is out by far less than the slack of 2^-30. */
static void check_weights(const float *src, const float *weights, size_t n) {
    double total = 0;
    for (size_t i = 0; i < n; i++) {
        if (!(weights[i] >= 0 && weights[i] <= 1) || signbit(weights[i]))
            fail("gave the weight %a", (double)weights[i]);
        if (is_masked(src[i]) && weights[i] != 0)
            fail("gave a masked element the weight %a", (double)weights[i]);
        total += (double)weights[i];
    }
    if (masked_of(src, n) < n && fabs(total - 1) > ((double)n + 2) * 0x1p-24 + 0x1p-30)
        fail("gave weights that add up to %.9f", total);
}

uint64_t try_softmax(struct input *in, bool flush, const float *src, size_t n, float *dst, size_t m) {
    struct softmax_call c = {flush, NULL, NULL, n, m};
    lend_none();
    c.src = lend(in, SOURCE, src, n * sizeof *src);
    c.dst = lend(in, LENT, NULL, m * sizeof *dst);
    const uint64_t answer = made(in, CALL_SOFTMAX, make_softmax, &c, expected_softmax(flush, src, n, m));
    if (answer != 0)
        return answer;
    copy_bytes(dst, c.dst, n * sizeof *dst);
    check_weights(src, dst, n);
    return 0;
}

void check_softmax(struct input *in) {
    static float src[INPUT_MOST], dst[INPUT_MOST];
    const bool flush = input_rarely(in, 128);
    const size_t n = input_length(in), m = input_near(in, n);
    struct softmax_call c = {flush, NULL, NULL, n, n};
    input_floats(in, src, n);
    if (input_rarely(in, 8))
        for (size_t i = 0; i < n; i++)
            src[i] = -INFINITY;
    const uint64_t answer = try_softmax(in, flush, src, n, dst, m);
    lend_none();
    c.dst = lend(in, LENT, src, n * sizeof *src);
    const uint64_t in_place =
        made(in, CALL_SOFTMAX_IN_PLACE, make_softmax_in_place, &c, expected_softmax(flush, src, n, n));
    if (in_place == 0 && answer == 0 && !same_floats(c.dst, dst, n))
        fail("gave other bits than mst_softmax");
}

/* ---- Normalize */

struct normalize_call {
    float before, scale, bias;
    bool has_scale, has_bias;
    const float *scales, *biases, *src;
    float *dst;
    size_t scales_n, biases_n, n, m;
};

static uint64_t make_normalize(const void *args) {
    const struct normalize_call *c = args;
    return mst_normalize(c->before, c->scale, c->bias, c->has_scale, c->scales, c->scales_n, c->has_bias, c->biases,
                         c->biases_n, c->src, c->n, c->dst, c->m);
}

static uint64_t make_normalize_in_place(const void *args) {
    const struct normalize_call *c = args;
    return mst_normalize_in_place(c->before, c->scale, c->bias, c->has_scale, c->scales, c->scales_n, c->has_bias,
                                  c->biases, c->biases_n, c->dst, c->n);
}

/* By RULES, Normalize: the three arms in their order. */
static float normalized(const struct normalize_call *c, size_t i) {
    const float y = c->src[i] - c->before;
    if (!c->has_scale && !c->has_bias)
        return y * c->scale + c->bias;
    const float scale = (c->has_scale ? c->scales[i] : 1) * c->scale;
    if (c->has_scale && !c->has_bias && c->bias == 0)
        return y * scale;
    return y * scale + ((c->has_bias ? c->biases[i] : 0) + c->bias);
}

/* `c` names plain arrays here. Fills `want` where the call is done. */
static uint64_t expected_normalize(const struct normalize_call *c, float *want) {
    if (c->n != c->m || (c->has_scale && c->scales_n != c->n) || (c->has_bias && c->biases_n != c->n))
        return answer_of(MST_LENGTH, 0);
    if (c->n > MST_MOST_ELEMENTS)
        return answer_of(MST_TOO_MANY, 0);
    if (!isfinite(c->before) || !isfinite(c->scale) || !isfinite(c->bias))
        return answer_of(MST_NOT_FINITE, 0);
    size_t bad = first_not_finite(c->src, c->n);
    if (c->has_scale)
        bad = first_not_finite(c->scales, bad);
    if (c->has_bias)
        bad = first_not_finite(c->biases, bad);
    if (bad < c->n)
        return answer_of(MST_DOMAIN, bad);
    for (size_t i = 0; i < c->n; i++) {
        want[i] = normalized(c, i);
        if (isnan(want[i]))
            return answer_of(MST_RESULT, i);
    }
    return 0;
}

/* An absent slice is an address that may not be followed, with any length. */
static const float *lend_optional(struct input *in, bool has, const float *slice, size_t n) {
    return has ? lend(in, SOURCE, slice, n * sizeof *slice) : lend_no_access();
}

static void try_normalize(struct input *in, struct normalize_call c, bool in_place) {
    static float want[INPUT_MOST];
    const size_t bytes = c.n * sizeof *c.src;
    if (in_place)
        c.m = c.n;
    const uint64_t expected = expected_normalize(&c, want);
    lend_none();
    c.scales = lend_optional(in, c.has_scale, c.scales, c.scales_n);
    c.biases = lend_optional(in, c.has_bias, c.biases, c.biases_n);
    if (in_place)
        c.dst = lend(in, LENT, c.src, bytes);
    else {
        c.src = lend(in, SOURCE, c.src, bytes);
        c.dst = lend(in, LENT, NULL, c.m * sizeof *c.dst);
    }
    const uint64_t answer = in_place ? made(in, CALL_NORMALIZE_IN_PLACE, make_normalize_in_place, &c, expected)
                                     : made(in, CALL_NORMALIZE, make_normalize, &c, expected);
    if (answer == 0 && !same_floats(c.dst, want, c.n))
        fail("gave other bits than its rule");
}

void check_normalize(struct input *in) {
    static float src[INPUT_MOST], scales[INPUT_MOST], biases[INPUT_MOST];
    struct normalize_call c = {0, 0, 0, false, false, scales, biases, src, NULL, 0, 0, 0, 0};
    c.has_scale = input_rarely(in, 128);
    c.has_bias = input_rarely(in, 128);
    c.before = input_setting(in);
    c.scale = input_setting(in);
    c.bias = input_rarely(in, 64) ? -0.0f : input_setting(in);
    c.n = input_length(in);
    c.m = input_near(in, c.n);
    c.scales_n = input_near(in, c.n);
    c.biases_n = input_near(in, c.n);
    input_floats(in, src, c.n);
    input_floats(in, scales, c.scales_n);
    input_floats(in, biases, c.biases_n);
    try_normalize(in, c, false);
    try_normalize(in, c, true);
}
