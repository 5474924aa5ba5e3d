/* Every call once on a short slice and once with NULL and length 0: the answer, then what the call wrote; floats as patterns. */
#include "show.h"

enum { N = 3 };

/* What one round lends; in the second every pointer is NULL and every length 0. */
struct lent {
    size_t n, bytes_n;
    const float *src, *scales, *biases;
    float *dst;
    uint8_t *codes, *bytes, *moved;
    uint16_t *gains;
};

static void told(const char *name, uint64_t answer, const float *written, size_t n) {
    show_answer(name, answer);
    show_floats(written, n);
    printf("\n");
}

static void operators(const struct lent *l) {
    static const struct {
        const char *name;
        uint64_t (*call)(const float *, size_t, float *, size_t);
    } plain[] = {
        {"exp", mst_exp},   {"reduced_range_exp", mst_reduced_range_exp},
        {"sigmoid", mst_sigmoid}, {"silu", mst_silu},
        {"tanh", mst_tanh}, {"erf", mst_erf},
        {"gelu", mst_gelu}, {"approx_gelu", mst_approx_gelu},
        {"sin", mst_sin},   {"cos", mst_cos},
    };
    const size_t one = l->n / N;
    for (size_t i = 0; i < sizeof plain / sizeof *plain; i++)
        told(plain[i].name, plain[i].call(l->src, l->n, l->dst, l->n), l->dst, l->n);
    told("swish", mst_swish(-1, l->src, one, l->dst, one), l->dst, one);
    told("elu", mst_elu(-1, l->src, one, l->dst, one), l->dst, one);
}

/* `x` is part of the answer: it is written with length 0 too. */
static void sums_and_extremes(const struct lent *l) {
    float x[2] = {7, 7};
    told("sum", mst_sum(l->src, l->n, x), x, 1);
    told("sum_square", mst_sum_square(l->src, l->n, x), x, 1);
    told("sum_abs", mst_sum_abs(l->src, l->n, x), x, 1);
    told("sum_square_sub", mst_sum_square_sub(-1, l->src, l->n, x), x, 1);
    told("sum_exp_sub", mst_sum_exp_sub(-1, l->src, l->n, x), x, 1);
    told("min_max", mst_min_max(l->src, l->n, &x[0], &x[1]), x, 2);
    told("max_num", mst_max_num(l->src, l->n, x), x, 1);
    told("min_num", mst_min_num(l->src, l->n, x), x, 1);
}

static float *copied(const struct lent *l) {
    for (size_t i = 0; i < l->n; i++)
        l->dst[i] = l->src[i];
    return l->dst;
}

static void other_kernels(const struct lent *l) {
    const size_t n = l->n;
    told("softmax", mst_softmax(false, l->src, n, l->dst, n), l->dst, n);
    told("softmax_in_place", mst_softmax_in_place(true, copied(l), n), l->dst, n);
    told("normalize", mst_normalize(1, 2, 0.5f, true, l->scales, n, true, l->biases, n, l->src, n, l->dst, n), l->dst, n);
    /* the scales are absent: neither NULL nor 99 is looked at */
    told("normalize_in_place", mst_normalize_in_place(1, 2, 0.5f, false, NULL, 99, true, l->biases, n, copied(l), n), l->dst, n);
    show_answer("quantize", mst_quantize(2, 10, l->src, n, l->codes, n));
    for (size_t i = 0; i < n; i++)
        printf(" %u", l->codes[i]);
    printf("\n");
}

/* A table of one row: header and stored gains, then the checks. */
static void told_table(const char *name, uint64_t answer, const uint8_t *bytes, size_t n, size_t stored) {
    show_answer(name, answer);
    for (size_t i = 0; i < n; i = i + 1 == 8 + 2 * stored ? 508 : i + 1)
        printf(" %02x", bytes[i]);
    printf("\n");
}

static void tables(const struct lent *l) {
    const size_t n = l->bytes_n;
    uint32_t form = 77, bands = 77, rows = 77, held = 77;
    told_table("table_write", mst_table_write(N, 1, l->gains, l->n, l->bytes, n), l->bytes, n, N);
    show_answer("table_read", mst_table_read(l->bytes, n, l->gains, l->n, &bands, &rows));
    printf(" %u %u\n", bands, rows);
    show_answer("table_read_block", mst_table_read_block(0, l->bytes, n, &form, &bands, &rows, &held));
    printf(" %u %u %u %u\n", form, bands, rows, held);
    told_table("table_to_form_2", mst_table_to_form_2(l->bytes, n, l->moved, n), l->moved, n, N - 1);
    told_table("table_to_form_1", mst_table_to_form_1(l->moved, n, l->bytes, n), l->bytes, n, N);
}

static void ours(const struct lent *l) {
    mst_meter meter = mst_meter_new();
    show_answer("split", mst_split(l->src, l->n, l->gains, l->n));
    for (size_t i = 0; i < l->n; i++)
        printf(" %u", l->gains[i]);
    printf("\n");
    show_answer("meter_feed", mst_feed(&meter, l->src, l->n));
    printf(" %u %u %08x %08x %08x\n", meter.count, meter.overs, bits(meter.sum_squares), bits(meter.least), bits(meter.largest));
    tables(l);
}

static void all(const char *title, const struct lent *l) {
    printf("%s\n", title);
    operators(l);
    sums_and_extremes(l);
    other_kernels(l);
    ours(l);
}

int main(void) {
    static const float src[N] = {-1, -0.5f, -2}, scales[N] = {1, 2, 4}, biases[N] = {0.25f, 0.5f, -1};
    static float dst[N];
    static uint8_t codes[N], bytes[MST_BLOCK_BYTES], moved[MST_BLOCK_BYTES];
    static uint16_t gains[N];
    const struct lent some = {N, MST_BLOCK_BYTES, src, scales, biases, dst, codes, bytes, moved, gains};
    const struct lent none = {0, 0, NULL, NULL, NULL, NULL, NULL, NULL, NULL, NULL};
    const float masked[2] = {-INFINITY, -INFINITY};
    uint32_t bands = 77, rows = 77;

    all("short slices", &some);
    told("softmax, all masked, flush on", mst_softmax(true, masked, 2, dst, 2), dst, 2);
    all("NULL with length 0", &none);
    told("swish of nothing, alpha infinite", mst_swish(INFINITY, NULL, 0, NULL, 0), NULL, 0);
    printf("NULL with length 0 for one of the two\n");
    told("operator without dst", mst_exp(src, N, NULL, 0), NULL, 0);
    told("split without gains", mst_split(src, N, NULL, 0), NULL, 0);
    told("table_write without bytes", mst_table_write(N, 1, gains, N, NULL, 0), NULL, 0);
    told("table_read without gains", mst_table_read(bytes, sizeof bytes, NULL, 0, &bands, &rows), NULL, 0);
    told("table_to_form_1 without result", mst_table_to_form_1(bytes, sizeof bytes, NULL, 0), NULL, 0);
    told("table_to_form_2 without result", mst_table_to_form_2(bytes, sizeof bytes, NULL, 0), NULL, 0);
    return 0;
}
