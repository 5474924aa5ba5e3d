/* Softmax's weights over many lists, against softmax in double. */

#include "accuracy.h"

struct kind {
    const char *name;
    unsigned lists, most; /* lengths are 1 to most */
    float (*level)(void);
};

/* Half of one of the split's 32768 parts. */
static const double half_part = 0x1p-16;

static uint64_t state;

/* The next of a fixed sequence (splitmix64). */
static uint64_t next(void) {
    uint64_t z = (state += 0x9e3779b97f4a7c15u);
    z = (z ^ (z >> 30)) * 0xbf58476d1ce4e5b9u;
    z = (z ^ (z >> 27)) * 0x94d049bb133111ebu;
    return z ^ (z >> 31);
}

/* From 0 to below 1, in steps of 2^-32. */
static double uniform(void) { return (double)(next() >> 32) * 0x1p-32; }

static float to_24(void) { return (float)(-24 * uniform()); }
static float to_100(void) { return (float)(-100 * uniform()); }
static float close_by(void) { return (float)(-0.01 * uniform()); }
static float offset(void) { return (float)(1000 - 24 * uniform()); }
/* Twelve uniform ones less 6: nearly normal, mean 0, spread 1. */
static float normal(void) {
    double sum = -6;
    for (int i = 0; i < 12; i++)
        sum += uniform();
    return (float)sum;
}
static float masked(void) { return next() >> 62 == 0 ? -INFINITY : to_24(); }

static const struct kind kinds[] = {
    {"uniform, -24 to 0", 1000000, 64, to_24},
    {"uniform, -100 to 0", 1000000, 64, to_100},
    {"uniform, -0.01 to 0", 1000000, 64, close_by},
    {"uniform, 976 to 1000", 1000000, 64, offset},
    {"nearly normal, mean 0, spread 1", 1000000, 64, normal},
    {"uniform, -24 to 0, one in four masked", 1000000, 64, masked},
    {"uniform, -24 to 0, long lists", 4000, MST_MOST_ELEMENTS, to_24},
    {"nearly normal, long lists", 4000, MST_MOST_ELEMENTS, normal},
    {0, 0, 0, 0}};

struct found {
    struct worst ulps, large_ulps, absolute; /* the place: the length times 65536, plus the index */
};

static float levels[MST_MOST_ELEMENTS], weights[MST_MOST_ELEMENTS];
static double exact[MST_MOST_ELEMENTS];

/* The weights in double, each with two roundings more than its exponential. */
static void work_out_exact(size_t n) {
    double most = -INFINITY, sum = 0;
    for (size_t i = 0; i < n; i++)
        most = fmax(most, levels[i]);
    for (size_t i = 0; i < n; i++)
        sum += exact[i] = exp(levels[i] - most);
    for (size_t i = 0; i < n; i++)
        exact[i] /= sum;
}

static void one_list(const struct kind *kind, struct found *found) {
    const size_t n = 1 + next() % kind->most;
    for (size_t i = 0; i < n; i++)
        levels[i] = kind->level();
    if (isinf(levels[0])) /* one element at least is not masked */
        levels[0] = to_24();
    done_or_fail("softmax", mst_softmax(false, levels, n, weights, n));
    work_out_exact(n);
    for (size_t i = 0; i < n; i++) {
        const struct errors errors = errors_of(weights[i], exact[i]);
        const uint64_t place = (uint64_t)n << 16 | i;
        keep(&found->ulps, errors.ulps, place);
        keep(&found->absolute, errors.absolute, place);
        if (exact[i] >= half_part)
            keep(&found->large_ulps, errors.ulps, place);
    }
}

static void print_place(FILE *out, uint64_t place) {
    fprintf(out, " | %u, %u |", (unsigned)(place >> 16), (unsigned)(place & 65535));
}

static void print_row(FILE *out, const struct kind *kind, unsigned lists, const struct found *found) {
    fprintf(out, "| %s | %u of 1 to %u | ", kind->name, lists, kind->most);
    print_ulps(out, found->large_ulps.error);
    print_place(out, found->large_ulps.place);
    fputc(' ', out);
    print_ulps(out, found->ulps.error);
    print_place(out, found->ulps.place);
    fputc(' ', out);
    print_absolute(out, found->absolute.error);
    print_place(out, found->absolute.place);
    fputc('\n', out);
}

void softmax_table(FILE *out, unsigned thin) {
    fputs("| levels | lists, lengths | largest ULP, weights from 2^-16 | length, index | largest ULP, all weights | length, index"
          " | largest absolute | length, index |\n|---|---|---|---|---|---|---|---|\n", out);
    for (const struct kind *kind = kinds; kind->name; kind++) {
        struct found found = {{-1, 0}, {-1, 0}, {-1, 0}};
        const unsigned lists = kind->lists / thin;
        state = (uint64_t)(kind - kinds);
        for (unsigned i = 0; i < lists; i++)
            one_list(kind, &found);
        print_row(out, kind, lists, &found);
    }
}
