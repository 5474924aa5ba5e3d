// An audio callback in C++: one masoritun::guard at its top serves every call below it, however the scope is left.
#include "control.h"
#include "show.h"
#include <stdexcept>

static const unsigned FTZ_AND_DAZ = FTZ | DAZ;

struct state {
    mst_meter meter;
    float weights[2];
};

static void callback(state &s, const float *samples, size_t n) {
    masoritun::guard guard;
    const float levels[2] = {0.0f, -87.5f};
    if (mst_feed(&s.meter, samples, n) != MST_DONE)
        throw std::runtime_error("refused");
    mst_softmax(false, levels, 2, s.weights, 2);
}

int main() {
    const float samples[4] = {0.5f, -1.0f, 0.25f, 1e-22f}; // the last one's square is subnormal
    const float bad[2] = {0.0f, INFINITY};
    state s = {mst_meter_new(), {0.0f, 0.0f}};
    set_control(control() | FTZ_AND_DAZ);

    callback(s, samples + 3, 1);
    printf("meter: %u %u %08x, weights", s.meter.count, s.meter.overs, bits(s.meter.sum_squares));
    show_floats(s.weights, 2);
    callback(s, samples, 3);
    printf("\nmeter: %u %u", s.meter.count, s.meter.overs);
    show_floats(&s.meter.sum_squares, 1);
    show_floats(&s.meter.least, 1);
    show_floats(&s.meter.largest, 1);
    try {
        callback(s, bad, 2);
    } catch (const std::runtime_error &e) {
        printf("\n%s: count %u, flushing as the host set it: %s\n", e.what(), s.meter.count,
               (control() & FTZ_AND_DAZ) == FTZ_AND_DAZ ? "yes" : "no");
    }
    return 0;
}
