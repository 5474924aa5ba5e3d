#include "lend.h"
#include "masoritun.h"
#include "sequences.h"
#include <math.h>

struct operator_call {
    enum call_id id;
    float alpha;
    const float *src;
    float *dst;
    size_t n, m;
};

static uint64_t make_operator(const void *args) {
    static uint64_t (*const plain[])(const float *, size_t, float *, size_t) = {
        [CALL_EXP] = mst_exp,   [CALL_REDUCED_RANGE_EXP] = mst_reduced_range_exp,
        [CALL_SIGMOID] = mst_sigmoid, [CALL_SILU] = mst_silu,
        [CALL_TANH] = mst_tanh, [CALL_ERF] = mst_erf,
        [CALL_GELU] = mst_gelu, [CALL_APPROX_GELU] = mst_approx_gelu,
        [CALL_SIN] = mst_sin,   [CALL_COS] = mst_cos,
    };
    const struct operator_call *c = args;
    if (c->id == CALL_SWISH)
        return mst_swish(c->alpha, c->src, c->n, c->dst, c->m);
    if (c->id == CALL_ELU)
        return mst_elu(c->alpha, c->src, c->n, c->dst, c->m);
    return plain[c->id](c->src, c->n, c->dst, c->m);
}

static bool in_domain(enum call_id id, float x) {
    switch (id) {
    case CALL_REDUCED_RANGE_EXP: return isfinite(x) && x <= 0;
    case CALL_SIN:
    case CALL_COS: return fabsf(x) < 48000;
    default: return isfinite(x);
    }
}

static uint64_t expected_answer(enum call_id id, float alpha, const float *src, size_t n, size_t m) {
    if (n != m)
        return answer_of(MST_LENGTH, 0);
    if (n > MST_MOST_ELEMENTS)
        return answer_of(MST_TOO_MANY, 0);
    if ((id == CALL_SWISH || id == CALL_ELU) && !isfinite(alpha))
        return answer_of(MST_NOT_FINITE, 0);
    for (size_t i = 0; i < n; i++)
        if (!in_domain(id, src[i]))
            return answer_of(MST_DOMAIN, i);
    return 0;
}

/* What the header says of the results' range. */
static bool in_range(enum call_id id, float y) {
    switch (id) {
    case CALL_EXP: return y >= 0;
    case CALL_REDUCED_RANGE_EXP:
    case CALL_SIGMOID: return y >= 0 && y <= 1;
    case CALL_TANH: return fabsf(y) <= 1;
    case CALL_SIN:
    case CALL_COS: return fabsf(y) <= 1.0000002f;
    default: return !isnan(y);
    }
}

uint64_t try_operator(struct input *in, enum call_id id, float alpha, const float *src, size_t n, float *dst, size_t m) {
    struct operator_call c = {id, alpha, NULL, NULL, n, m};
    lend_none();
    c.src = lend(in, SOURCE, src, n * sizeof *src);
    c.dst = lend(in, LENT, NULL, m * sizeof *dst);
    const uint64_t answer = made(in, id, make_operator, &c, expected_answer(id, alpha, src, n, m));
    if (answer != 0)
        return answer;
    copy_bytes(dst, c.dst, m * sizeof *dst);
    for (size_t i = 0; i < m; i++)
        if (!in_range(id, dst[i]))
            fail("gave %a at %a", (double)dst[i], (double)src[i]);
    return 0;
}

/* The operator that another one is made of, or the operator itself. */
static enum call_id inner_of(enum call_id id) {
    switch (id) {
    case CALL_SIGMOID:
    case CALL_SILU:
    case CALL_ELU: return CALL_EXP;
    case CALL_SWISH: return CALL_SIGMOID;
    case CALL_GELU: return CALL_ERF;
    case CALL_APPROX_GELU: return CALL_TANH;
    default: return id;
    }
}

static float inner_argument(enum call_id id, float alpha, float x) {
    switch (id) {
    case CALL_ELU: return x;
    case CALL_SWISH: return x * alpha;
    case CALL_GELU: return x * (1.0f / 1.41421356f);
    case CALL_APPROX_GELU: return ((x * x) * x * 0.044715f + x) * 0.79788456f;
    default: return -x;
    }
}

static float outer(enum call_id id, float alpha, float x, float inner) {
    switch (id) {
    case CALL_SIGMOID: return 1.0f / (1.0f + inner);
    case CALL_SILU: return x / (1.0f + inner);
    case CALL_SWISH: return x * inner;
    case CALL_ELU: return x >= 0 ? x : alpha * (inner - 1.0f);
    default: return (x * 0.5f) * (inner + 1.0f);
    }
}

/* Compares with what the header makes of the inner operator. An argument that overflows is outside of that one's domain. */
static void check_composed(struct input *in, enum call_id id, float alpha, const float *src, const float *dst, size_t n) {
    static float arguments[INPUT_MOST], inner[INPUT_MOST];
    if (inner_of(id) == id)
        return;
    for (size_t i = 0; i < n; i++) {
        const float argument = inner_argument(id, alpha, src[i]);
        arguments[i] = isfinite(argument) ? argument : 0;
    }
    try_operator(in, inner_of(id), 0, arguments, n, inner, n);
    for (size_t i = 0; i < n; i++) {
        const float want = outer(id, alpha, src[i], inner[i]);
        if (isfinite(inner_argument(id, alpha, src[i])) && !same_floats(&want, dst + i, 1))
            fail("%s at %a is %a, not %a", call_name(id), (double)src[i], (double)dst[i], (double)want);
    }
}

void check_operators(struct input *in) {
    static float src[INPUT_MOST], dst[INPUT_MOST], piece[INPUT_MOST];
    const enum call_id id = (enum call_id)(CALL_EXP + input_below(in, CALL_ELU + 1));
    const float alpha = input_setting(in);
    const size_t n = input_length(in), m = input_near(in, n);
    input_floats(in, src, n);
    if (try_operator(in, id, alpha, src, n, dst, m) != 0)
        return;
    if (input_rarely(in, 128)) {
        const size_t cut = input_below(in, (uint32_t)n + 1);
        try_operator(in, id, alpha, src + cut, n - cut, piece, n - cut);
        if (!same_floats(dst + cut, piece, n - cut))
            fail("gave other bits for a piece of the slice");
    }
    if (input_rarely(in, 128))
        check_composed(in, id, alpha, src, dst, n);
}
