#include "lend.h"
#include "masoritun.h"
#include "sequences.h"
#include <math.h>

struct fold_call {
    enum call_id id;
    float offset;
    const float *src;
    size_t n;
    float *first, *second;
};

static uint64_t make_fold(const void *args) {
    const struct fold_call *c = args;
    switch (c->id) {
    case CALL_SUM: return mst_sum(c->src, c->n, c->first);
    case CALL_SUM_SQUARE: return mst_sum_square(c->src, c->n, c->first);
    case CALL_SUM_ABS: return mst_sum_abs(c->src, c->n, c->first);
    case CALL_SUM_SQUARE_SUB: return mst_sum_square_sub(c->offset, c->src, c->n, c->first);
    case CALL_SUM_EXP_SUB: return mst_sum_exp_sub(c->offset, c->src, c->n, c->first);
    case CALL_MAX_NUM: return mst_max_num(c->src, c->n, c->first);
    case CALL_MIN_NUM: return mst_min_num(c->src, c->n, c->first);
    default: return mst_min_max(c->src, c->n, c->first, c->second);
    }
}

size_t first_not_finite(const float *src, size_t n) {
    size_t i = 0;
    while (i < n && isfinite(src[i]))
        i++;
    return i;
}

static size_t first_nan(const float *src, size_t n) {
    size_t i = 0;
    while (i < n && !isnan(src[i]))
        i++;
    return i;
}

static uint64_t expected_answer(const struct fold_call *c, const float *src) {
    const bool extreme = c->id == CALL_MIN_MAX || c->id == CALL_MAX_NUM || c->id == CALL_MIN_NUM;
    const bool with_offset = c->id == CALL_SUM_SQUARE_SUB || c->id == CALL_SUM_EXP_SUB;
    if (c->n > MST_MOST_ELEMENTS)
        return answer_of(MST_TOO_MANY, 0);
    if (with_offset && !isfinite(c->offset))
        return answer_of(MST_NOT_FINITE, 0);
    const size_t bad = extreme ? first_nan(src, c->n) : first_not_finite(src, c->n);
    return bad < c->n ? answer_of(MST_DOMAIN, bad) : 0;
}

/* `second` is mst_min_max's alone. */
static uint64_t try_fold(struct input *in, enum call_id id, float offset, const float *src, size_t n, float *first,
                         float *second) {
    struct fold_call c = {id, offset, NULL, n, NULL, NULL};
    lend_none();
    c.src = lend(in, SOURCE, src, n * sizeof *src);
    c.first = lend(in, RESULT, NULL, sizeof *first);
    if (id == CALL_MIN_MAX)
        c.second = lend(in, RESULT, NULL, sizeof *second);
    const uint64_t answer = made(in, id, make_fold, &c, expected_answer(&c, src));
    *first = *c.first;
    if (id == CALL_MIN_MAX)
        *second = *c.second;
    return answer;
}

static float added(enum call_id id, float held, float offset, float x) {
    switch (id) {
    case CALL_SUM_SQUARE: return x * x + held;
    case CALL_SUM_ABS: return held + fabsf(x);
    case CALL_SUM_SQUARE_SUB: return (x - offset) * (x - offset) + held;
    default: return held + x;
    }
}

/* Replaces each element by mst_exp of it less the offset; past 104 in size that is the same for all. */
static void exps_of(struct input *in, float offset, float *x, size_t n) {
    for (size_t i = 0; i < n; i++) {
        const float difference = x[i] - offset;
        x[i] = difference > 104 ? 104 : difference < -104 ? -104 : difference;
    }
    try_operator(in, CALL_EXP, 0, x, n, x, n);
}

void check_sums(struct input *in) {
    static float src[INPUT_MOST];
    const enum call_id id = (enum call_id)(CALL_SUM + input_below(in, CALL_SUM_EXP_SUB - CALL_SUM + 1));
    const float offset = input_setting(in);
    const size_t n = input_length(in);
    float given, unused, want = 0;
    input_floats(in, src, n);
    if (try_fold(in, id, offset, src, n, &given, &unused) != 0)
        return;
    if (id == CALL_SUM_EXP_SUB)
        exps_of(in, offset, src, n);
    for (size_t i = 0; i < n; i++)
        want = added(id, want, offset, src[i]);
    if (isnan(given) || !same_floats(&given, &want, 1))
        fail("%s of %zu elements gave %a, not %a", call_name(id), n, (double)given, (double)want);
}

/* The least or the largest, kept where the next one is only equal. */
static float extreme_of(bool least, const float *src, size_t n) {
    float held = least ? INFINITY : -INFINITY;
    for (size_t i = 0; i < n; i++)
        if (least ? src[i] < held : src[i] > held)
            held = src[i];
    return held;
}

static void expect_extreme(bool least, float given, float want, const char *of) {
    if (!same_floats(&given, &want, 1))
        fail("gave %a as the %s of %s, not %a", (double)given, least ? "least" : "largest", of, (double)want);
}

/* Extremes of the chunks, and over these: for any length. */
static void check_chunks(struct input *in, const float *src, size_t n, float least, float largest) {
    enum { CHUNKS = 8 };
    float leasts[CHUNKS], largests[CHUNKS], joined, unused;
    size_t chunks = 0, from = 0;
    while (chunks < CHUNKS) {
        const size_t left = n - from, part = chunks + 1 == CHUNKS ? left : input_below(in, (uint32_t)left + 1);
        if (try_fold(in, CALL_MIN_MAX, 0, src + from, part, &leasts[chunks], &largests[chunks]) != 0)
            return;
        chunks++;
        from += part;
    }
    try_fold(in, CALL_MIN_NUM, 0, leasts, chunks, &joined, &unused);
    expect_extreme(true, joined, least, "chunks");
    try_fold(in, CALL_MAX_NUM, 0, largests, chunks, &joined, &unused);
    expect_extreme(false, joined, largest, "chunks");
}

void check_extremes(struct input *in) {
    static float src[INPUT_MOST];
    const enum call_id id = (enum call_id)(CALL_MIN_MAX + input_below(in, CALL_MIN_NUM - CALL_MIN_MAX + 1));
    const size_t n = input_length(in);
    float first, second;
    input_floats(in, src, n);
    const bool refused = try_fold(in, id, 0, src, n, &first, &second) != 0;
    const float least = extreme_of(true, src, n), largest = extreme_of(false, src, n);
    if (!refused && id != CALL_MAX_NUM)
        expect_extreme(true, first, least, "the slice");
    if (!refused && id != CALL_MIN_NUM)
        expect_extreme(false, id == CALL_MIN_MAX ? second : first, largest, "the slice");
    if (first_nan(src, n) == n && input_rarely(in, 128))
        check_chunks(in, src, n, least, largest);
}
