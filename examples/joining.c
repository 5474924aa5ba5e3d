/* In what to add the bands up: 24-bit samples go through six bands with the gains of mst_split and are joined again. In f32 many do not
   come back, though the gains make exactly the whole, since each product and each sum is rounded. In double and in 64-bit integers
   nothing is rounded, and all come back.

   Build with -ffp-contract=off: a fused multiply-add rounds once where f32 steps round twice, and other samples differ then. */
#include "masoritun.h"
#include <stdio.h>

enum { BANDS = 6, SPLITS = 2000, SAMPLES = 500, HALF = 8388608 }; /* a 24-bit sample is -HALF to HALF - 1 */

struct tally {
    const char *name;
    long differ;
};

/* Pseudo-random, 32 bits; examples/joining_expected.py draws the same. */
static uint32_t draw(void) {
    static uint32_t state = 1;
    state = state * 1664525u + 1013904223u;
    return state;
}

static float joined_f32(const uint16_t *gains, float x) {
    float sum = 0.0f;
    for (int band = 0; band < BANDS; band++) {
        const float part = x * (gains[band] / 32768.0f);
        sum += part;
    }
    return sum;
}

static double joined_double(const uint16_t *gains, double x) {
    double sum = 0.0;
    for (int band = 0; band < BANDS; band++)
        sum += x * (gains[band] / 32768.0);
    return sum;
}

static int64_t joined_integers(const uint16_t *gains, int64_t x) {
    int64_t sum = 0;
    for (int band = 0; band < BANDS; band++)
        sum += gains[band] * x;
    return sum / MST_PARTS;
}

static uint64_t draw_split(uint16_t *gains) {
    float levels[BANDS];
    for (int band = 0; band < BANDS; band++)
        levels[band] = -(float)(draw() >> 22) / 64;
    mst_guard guard = mst_guard_enter();
    const uint64_t answer = mst_split(levels, BANDS, gains, BANDS);
    mst_guard_leave(guard);
    return answer;
}

int main(void) {
    struct tally f32 = {"f32", 0}, wide = {"double", 0}, whole = {"64-bit integers", 0};
    const struct tally *tallies[] = {&f32, &wide, &whole};
    const long samples = (long)SPLITS * SAMPLES;
    for (int split = 0; split < SPLITS; split++) {
        uint16_t gains[BANDS];
        if (draw_split(gains) != MST_DONE)
            return 1;
        for (int i = 0; i < SAMPLES; i++) {
            const int32_t sample = (int32_t)(draw() >> 8) - HALF;
            const float x = (float)sample / HALF; /* exact */
            f32.differ += joined_f32(gains, x) != x;
            wide.differ += joined_double(gains, x) != x;
            whole.differ += joined_integers(gains, sample) != sample;
        }
    }
    printf("%ld samples of 24 bits, %d bands, %d splits\n", samples, BANDS, SPLITS);
    for (size_t i = 0; i < sizeof tallies / sizeof *tallies; i++)
        printf("joined in %s: %ld differ, %.1f %%\n", tallies[i]->name, tallies[i]->differ, 100.0 * tallies[i]->differ / samples);
    return 0;
}
