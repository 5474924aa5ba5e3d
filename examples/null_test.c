/* The null test: 24-bit samples go through bands whose gains change with each bin, and the bands are added up again. With the
   gains of mst_split the dry signal comes back exactly; with each gain rounded by itself it does not. */
#include "show.h"
#include <stdlib.h>

enum { BINS = 256, SAMPLES = 8 };

struct tally {
    const char *name;
    size_t bands;
    int bins_off, samples_off, first_bin;
    long peak;
    uint16_t first[MST_MOST_BANDS];
};

/* Pseudo-random, 32 bits; examples/expected.py draws the same. */
static uint32_t draw(void) {
    static uint32_t state = 1;
    state = state * 1664525u + 1013904223u;
    return state;
}

static unsigned sum_of(size_t bands, const uint16_t *gains) {
    unsigned sum = 0;
    for (size_t band = 0; band < bands; band++)
        sum += gains[band];
    return sum;
}

/* A sample through all bands and back: each band holds gain times x in 64 bits, a whole is 32768 parts. */
static int32_t rebuilt(size_t bands, const uint16_t *gains, int32_t x) {
    int64_t total = 0;
    for (size_t band = 0; band < bands; band++)
        total += (int64_t)gains[band] * x;
    return (int32_t)(total / MST_PARTS);
}

static void run_bin(struct tally *t, int bin, const uint16_t *gains, const int32_t *dry) {
    if (sum_of(t->bands, gains) != MST_PARTS && t->bins_off++ == 0) {
        t->first_bin = bin;
        memcpy(t->first, gains, sizeof t->first);
    }
    for (int i = 0; i < SAMPLES; i++) {
        long off = labs((long)rebuilt(t->bands, gains, dry[i]) - dry[i]);
        t->samples_off += off != 0;
        t->peak = off > t->peak ? off : t->peak;
    }
}

static void show(const struct tally *t) {
    printf("%s: %d bins do not add up to 32768, %d samples differ, by %ld at most\n", t->name, t->bins_off, t->samples_off, t->peak);
    if (t->bins_off == 0)
        return;
    printf("  first in bin %d:", t->first_bin);
    for (size_t band = 0; band < t->bands; band++)
        printf(" %u", t->first[band]);
    printf(", sum %u\n", sum_of(t->bands, t->first));
}

static int run(size_t bands) {
    struct tally split = {.name = "split", .bands = bands}, alone = {.name = "each gain rounded by itself", .bands = bands};
    for (int bin = 0; bin < BINS; bin++) {
        float levels[MST_MOST_BANDS], weights[MST_MOST_BANDS];
        uint16_t gains[MST_MOST_BANDS] = {0}, rounded[MST_MOST_BANDS] = {0};
        int32_t dry[SAMPLES];
        for (size_t band = 0; band < bands; band++)
            levels[band] = -(float)(draw() >> 22) / 64;
        for (int i = 0; i < SAMPLES; i++)
            dry[i] = (int32_t)(draw() >> 8) - 8388608;
        if (mst_split(levels, bands, gains, bands) || mst_softmax(false, levels, bands, weights, bands))
            return 1;
        for (size_t band = 0; band < bands; band++)
            rounded[band] = (uint16_t)(MST_PARTS * (double)weights[band] + 0.5);
        run_bin(&split, bin, gains, dry);
        run_bin(&alone, bin, rounded, dry);
    }
    printf("%d bins, %zu bands, %d samples of 24 bits\n", BINS, bands, BINS * SAMPLES);
    show(&split);
    show(&alone);
    return 0;
}

int main(void) {
    return run(6) || run(MST_MOST_BANDS);
}
