#include "lend.h"
#include "masoritun.h"
#include "sequences.h"
#include <math.h>
#include <string.h>

/* ---- Split */

struct split_call {
    const float *levels;
    uint16_t *gains;
    size_t n, m;
};

static uint64_t make_split(const void *args) {
    const struct split_call *c = args;
    return mst_split(c->levels, c->n, c->gains, c->m);
}

static uint64_t expected_split(const float *levels, size_t n, size_t m) {
    bool sounding = false;
    if (n < 1 || n > MST_MOST_BANDS)
        return answer_of(MST_COUNT, 0);
    if (n != m)
        return answer_of(MST_LENGTH, 0);
    for (size_t i = 0; i < n; i++) {
        if (!isfinite(levels[i]) && !(levels[i] < 0))
            return answer_of(MST_DOMAIN, i);
        sounding = sounding || isfinite(levels[i]);
    }
    return sounding ? 0 : answer_of(MST_MASKED, 0);
}

/* What must hold of gains without a look at weights. */
static void check_gains(const float *levels, const uint16_t *gains, size_t n) {
    unsigned total = 0;
    for (size_t i = 0; i < n; i++) {
        total += gains[i];
        if (isinf(levels[i]) && gains[i] != 0)
            fail("gave a masked band the gain %u", gains[i]);
        for (size_t j = 0; j < n; j++) {
            if (levels[i] > levels[j] && gains[i] + 1 < gains[j])
                fail("gave a louder band %u and a quieter one %u", gains[i], gains[j]);
            if (levels[i] == levels[j] && i < j && (gains[i] < gains[j] || gains[i] > gains[j] + 1))
                fail("gave bands of one level %u and then %u", gains[i], gains[j]);
        }
    }
    if (total != MST_PARTS)
        fail("gave gains that add up to %u", total);
}

/* By RULES, Split: whole parts of the shares, then one part each to the largest remainders, the lower band first. */
static void shared_out(const float *weights, size_t n, unsigned *gains) {
    uint64_t steps[MST_MOST_BANDS], rest[MST_MOST_BANDS], total = 0;
    unsigned left = MST_PARTS;
    for (size_t i = 0; i < n; i++) {
        steps[i] = (uint64_t)rint((double)weights[i] * 0x1p30);
        total += steps[i];
    }
    for (size_t i = 0; i < n; i++) {
        gains[i] = (unsigned)(steps[i] * MST_PARTS / total);
        rest[i] = steps[i] * MST_PARTS % total + 1;
        left -= gains[i];
    }
    for (; left > 0; left--) {
        size_t largest = 0;
        for (size_t i = 1; i < n; i++)
            if (rest[i] > rest[largest])
                largest = i;
        gains[largest]++;
        rest[largest] = 0;
    }
}

void check_split(struct input *in) {
    static float levels[INPUT_MOST], weights[INPUT_MOST];
    unsigned want[MST_MOST_BANDS];
    const size_t n = input_rarely(in, 230) ? input_below(in, MST_MOST_BANDS + 2) : input_length(in), m = input_near(in, n);
    struct split_call c = {NULL, NULL, n, m};
    input_floats(in, levels, n);
    if (input_rarely(in, 8))
        for (size_t i = 0; i < n; i++)
            levels[i] = -INFINITY;
    lend_none();
    c.levels = lend(in, SOURCE, levels, n * sizeof *levels);
    c.gains = lend(in, LENT, NULL, m * sizeof *c.gains);
    if (made(in, CALL_SPLIT, make_split, &c, expected_split(levels, n, m)) != 0)
        return;
    uint16_t gains[MST_MOST_BANDS];
    memcpy(gains, c.gains, n * sizeof *gains);
    check_gains(levels, gains, n);
    try_softmax(in, false, levels, n, weights, n);
    shared_out(weights, n, want);
    for (size_t i = 0; i < n; i++)
        if (gains[i] != want[i])
            fail("mst_split gave band %zu of %zu %u parts, not %u", i, n, gains[i], want[i]);
}

/* ---- Meter */

struct feed_call {
    uint32_t *count, *overs;
    float *sum_squares, *least, *largest;
    const float *src;
    size_t n;
};

static uint64_t make_feed(const void *args) {
    const struct feed_call *c = args;
    return mst_meter_feed(c->count, c->overs, c->sum_squares, c->least, c->largest, c->src, c->n);
}

static uint64_t expected_feed(const mst_meter *meter, const float *src, size_t n) {
    if (n > MST_MOST_ELEMENTS || meter->count + (uint64_t)n > UINT32_MAX)
        return answer_of(MST_TOO_MANY, 0);
    if (isnan(meter->sum_squares) || isnan(meter->least) || isnan(meter->largest) || meter->sum_squares < 0 ||
        meter->overs > meter->count)
        return answer_of(MST_NOT_FINITE, 0);
    const size_t bad = first_not_finite(src, n);
    return bad < n ? answer_of(MST_DOMAIN, bad) : 0;
}

static mst_meter fed(mst_meter meter, const float *src, size_t n) {
    for (size_t i = 0; i < n; i++) {
        meter.count++;
        meter.overs += fabsf(src[i]) >= 1;
        meter.sum_squares = src[i] * src[i] + meter.sum_squares;
        if (src[i] < meter.least)
            meter.least = src[i];
        if (src[i] > meter.largest)
            meter.largest = src[i];
    }
    return meter;
}

static uint64_t try_feed(struct input *in, mst_meter *meter, const float *src, size_t n) {
    const uint64_t expected = expected_feed(meter, src, n);
    struct feed_call c = {NULL, NULL, NULL, NULL, NULL, NULL, n};
    lend_none();
    c.count = lend(in, LENT, &meter->count, sizeof meter->count);
    c.overs = lend(in, LENT, &meter->overs, sizeof meter->overs);
    c.sum_squares = lend(in, LENT, &meter->sum_squares, sizeof meter->sum_squares);
    c.least = lend(in, LENT, &meter->least, sizeof meter->least);
    c.largest = lend(in, LENT, &meter->largest, sizeof meter->largest);
    c.src = lend(in, SOURCE, src, n * sizeof *src);
    const uint64_t answer = made(in, CALL_METER_FEED, make_feed, &c, expected);
    if (answer != 0)
        return answer;
    const mst_meter given = {*c.count, *c.overs, *c.sum_squares, *c.least, *c.largest};
    const mst_meter want = fed(*meter, src, n);
    if (given.count != want.count || given.overs != want.overs)
        fail("counted %u samples and %u overs, not %u and %u", given.count, given.overs, want.count, want.overs);
    if (memcmp(&given, &want, sizeof given) != 0)
        fail("gave other bits than its rule");
    *meter = given;
    return 0;
}

static mst_meter input_meter(struct input *in) {
    mst_meter meter = mst_meter_new();
    const uint8_t kind = input_byte(in);
    if (kind < 128)
        return meter;
    meter.count = kind < 160 ? UINT32_MAX - input_below(in, 600) : input_word(in);
    meter.overs = kind % 8 == 0 ? input_word(in) : input_below(in, meter.count | 1);
    meter.sum_squares = kind % 8 == 1 ? input_setting(in) : fabsf(input_setting(in));
    meter.least = input_setting(in);
    meter.largest = input_setting(in);
    return meter;
}

void check_meter(struct input *in) {
    static float src[INPUT_MOST];
    const mst_meter start = input_meter(in);
    mst_meter whole = start, pieces = start;
    const size_t n = input_length(in);
    input_floats(in, src, n);
    if (try_feed(in, &whole, src, n) != 0)
        return;
    const size_t cut = input_below(in, (uint32_t)n + 1);
    if (try_feed(in, &pieces, src, cut) != 0 || try_feed(in, &pieces, src + cut, n - cut) != 0)
        fail("refused a piece of what it took as a whole");
    if (memcmp(&whole, &pieces, sizeof whole) != 0)
        fail("gave another meter for two pieces than for the whole");
}
