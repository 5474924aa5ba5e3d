/* A clipped sine, fed to meters whole, in blocks and one sample at a time: the same five numbers, however it is cut. Overs are the
   samples at full scale, which clipping makes of all that would have passed it. */
#include "show.h"

enum { SAMPLES = 1000 };

static void show_meter(const char *name, const mst_meter *meter) {
    printf("%s: count %u, overs %u, sum of squares, least and largest", name, meter->count, meter->overs);
    show_floats(&meter->sum_squares, 1);
    show_floats(&meter->least, 1);
    show_floats(&meter->largest, 1);
    printf("\n");
}

/* Blocks of up to `block` samples, in order. */
static void feed_in_blocks(const char *name, const float *wave, size_t block) {
    mst_meter meter = mst_meter_new();
    for (size_t i = 0; i < SAMPLES; i += block) {
        size_t n = SAMPLES - i < block ? SAMPLES - i : block;
        if (mst_feed(&meter, wave + i, n) != MST_DONE)
            printf("refused\n");
    }
    show_meter(name, &meter);
}

int main(void) {
    static float phase[SAMPLES], wave[SAMPLES];
    mst_meter claimed = mst_meter_new();
    for (size_t i = 0; i < SAMPLES; i++)
        phase[i] = (float)i / 16.0f;
    mst_sin(phase, SAMPLES, wave, SAMPLES);
    for (size_t i = 0; i < SAMPLES; i++)
        wave[i] = 1.25f * wave[i];
    feed_in_blocks("before the clip", wave, SAMPLES);
    for (size_t i = 0; i < SAMPLES; i++)
        wave[i] = wave[i] > 1.0f ? 1.0f : wave[i] < -1.0f ? -1.0f : wave[i];
    feed_in_blocks("clipped, whole", wave, SAMPLES);
    feed_in_blocks("in blocks of 64", wave, 64);
    feed_in_blocks("one by one", wave, 1);

    /* A meter that claims more overs than it has samples is refused, and kept. */
    claimed.overs = 1;
    show_answer("more overs than samples", mst_feed(&claimed, wave, SAMPLES));
    printf("\n");
    show_meter("kept", &claimed);
    return 0;
}
