#include "lend.h"
#include "masoritun.h"
#include "sequences.h"
#include <math.h>

struct quantize_call {
    float inv_scale;
    uint8_t zero_point;
    const float *src;
    uint8_t *dst;
    size_t n, m;
};

static uint64_t make_quantize(const void *args) {
    const struct quantize_call *c = args;
    return mst_quantize(c->inv_scale, c->zero_point, c->src, c->n, c->dst, c->m);
}

static uint64_t expected_answer(float inv_scale, const float *src, size_t n, size_t m) {
    if (n != m)
        return answer_of(MST_LENGTH, 0);
    if (n > MST_MOST_ELEMENTS)
        return answer_of(MST_TOO_MANY, 0);
    if (!isfinite(inv_scale))
        return answer_of(MST_NOT_FINITE, 0);
    const size_t bad = first_not_finite(src, n);
    return bad < n ? answer_of(MST_DOMAIN, bad) : 0;
}

/* rint rounds ties to even under the plain word; infinities saturate. */
static double code_of(float product, uint8_t zero_point) {
    const double code = rint((double)product) + zero_point;
    return code < 0 ? 0 : code > 255 ? 255 : code;
}

void check_quantize(struct input *in) {
    static float src[INPUT_MOST];
    const float inv_scale = input_setting(in);
    const uint8_t zero_point = input_byte(in);
    const size_t n = input_length(in), m = input_near(in, n);
    struct quantize_call c = {inv_scale, zero_point, NULL, NULL, n, m};
    input_floats(in, src, n);
    lend_none();
    c.src = lend(in, SOURCE, src, n * sizeof *src);
    c.dst = lend(in, LENT, NULL, m);
    if (made(in, CALL_QUANTIZE, make_quantize, &c, expected_answer(inv_scale, src, n, m)) != 0)
        return;
    for (size_t i = 0; i < n; i++) {
        const float product = src[i] * inv_scale;
        if (c.dst[i] != code_of(product, zero_point))
            fail("gave %u for %a with the zero point %u", c.dst[i], (double)product, zero_point);
    }
}
