/* A LADSPA plug-in of two to sixteen bands, labels mst_null_2 to mst_null_16: a null test in a real host. A control is a band's level
   in dB, its gain is mst_split's, and every band carries the input, so the bands joined must be the input, bit for bit.

   cc -shared -fPIC -O2 -Iinclude examples/ladspa/mst_null.c target/lib/$(uname -m)/libmasoritun.a -Wl,--exclude-libs,ALL -o mst_null.so

   With -DEACH_ROUNDED each gain is rounded by itself, which is the usual mistake: three equal bands then make 32769 parts. */
#include "masoritun.h"
#include <ladspa.h>
#include <stdlib.h>

enum { IN, OUT, FIRST_LEVEL, MOST_BANDS = 16, MOST_PORTS = FIRST_LEVEL + MOST_BANDS };

struct plug {
    size_t bands;
    LADSPA_Data *port[MOST_PORTS];
};

static LADSPA_Handle make(const LADSPA_Descriptor *kind, unsigned long rate) {
    struct plug *plug = calloc(1, sizeof *plug);
    (void)rate;
    if (plug)
        plug->bands = kind->PortCount - FIRST_LEVEL;
    return plug;
}

static void connect_port(LADSPA_Handle handle, unsigned long port, LADSPA_Data *at) {
    struct plug *plug = handle;
    plug->port[port] = at;
}

#ifdef EACH_ROUNDED
static void gains_of(const float *levels, size_t bands, uint16_t *gains) {
    float weights[MOST_BANDS];
    if (mst_softmax(false, levels, bands, weights, bands) != MST_DONE)
        return;
    for (size_t band = 0; band < bands; band++)
        gains[band] = (uint16_t)(MST_PARTS * (double)weights[band] + 0.5);
}
#else
/* A refusal keeps the gains, so its number is not looked at. */
static void gains_of(const float *levels, size_t bands, uint16_t *gains) {
    mst_split(levels, bands, gains, bands);
}
#endif

/* Each band's share of the whole. Of a control that is NaN there is no split: the first band then carries the whole signal. */
static void set_shares(const struct plug *plug, double *shares) {
    const float to_natural = 0.11512925f; /* ln 10 / 20: dB to a natural logarithm */
    float levels[MOST_BANDS] = {0};
    uint16_t gains[MOST_BANDS] = {MST_PARTS};
    for (size_t band = 0; band < plug->bands; band++)
        levels[band] = *plug->port[FIRST_LEVEL + band] * to_natural;
    mst_guard guard = mst_guard_enter();
    gains_of(levels, plug->bands, gains);
    mst_guard_leave(guard);
    for (size_t band = 0; band < plug->bands; band++)
        shares[band] = gains[band] / (double)MST_PARTS;
}

/* Exact in double for a finite sample: 24 bits of it times 15 of the gain, and no partial sum is larger than the sample. The sum
   starts at a product, not at +0, so that -0 stays -0. A subnormal sample is zero where the host sets DAZ. */
static float joined(float sample, const double *shares, size_t bands) {
    double sum = sample * shares[0];
    for (size_t band = 1; band < bands; band++)
        sum += sample * shares[band];
    return (float)sum;
}

/* The host may lend one buffer as input and output: a sample is read before its place is written. */
static void run(LADSPA_Handle handle, unsigned long samples) {
    const struct plug *plug = handle;
    double shares[MOST_BANDS];
    set_shares(plug, shares);
    for (unsigned long i = 0; i < samples; i++)
        plug->port[OUT][i] = joined(plug->port[IN][i], shares, plug->bands);
}

static void cleanup(LADSPA_Handle handle) {
    free(handle);
}

#define FROM_TWO(EACH) EACH(2) EACH(3) EACH(4) EACH(5) EACH(6) EACH(7) EACH(8) EACH(9) EACH(10) \
    EACH(11) EACH(12) EACH(13) EACH(14) EACH(15) EACH(16)

#define LEVEL_KIND(band) LADSPA_PORT_INPUT | LADSPA_PORT_CONTROL,
static const LADSPA_PortDescriptor kinds[MOST_PORTS] = {
    LADSPA_PORT_INPUT | LADSPA_PORT_AUDIO, LADSPA_PORT_OUTPUT | LADSPA_PORT_AUDIO, LEVEL_KIND(1) FROM_TWO(LEVEL_KIND)
};

#define LEVEL_NAME(band) "Level of band " #band " (dB)",
static const char *const names[MOST_PORTS] = {"Input", "Output", LEVEL_NAME(1) FROM_TWO(LEVEL_NAME)};

#define LEVEL_HINT(band) {LADSPA_HINT_BOUNDED_BELOW | LADSPA_HINT_BOUNDED_ABOVE | LADSPA_HINT_DEFAULT_0, -60.0f, 0.0f},
static const LADSPA_PortRangeHint hints[MOST_PORTS] = {{0, 0, 0}, {0, 0, 0}, LEVEL_HINT(1) FROM_TWO(LEVEL_HINT)};

/* Identifiers below 1000 are for plug-ins that are not published. */
#define PLUG(bands) {900 + bands, "mst_null_" #bands, LADSPA_PROPERTY_HARD_RT_CAPABLE, "Null test of " #bands " bands", "Masoritun", \
    "None", FIRST_LEVEL + bands, kinds, names, hints, NULL, make, connect_port, NULL, run, NULL, NULL, NULL, cleanup},
static const LADSPA_Descriptor plugs[] = {FROM_TWO(PLUG)};

const LADSPA_Descriptor *ladspa_descriptor(unsigned long index) {
    return index < sizeof plugs / sizeof *plugs ? &plugs[index] : NULL;
}
