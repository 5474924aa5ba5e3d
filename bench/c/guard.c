/* What the guard takes: ns for a pair of enter and leave, on a thread whose word is plain and on one that flushes, beside a split of six
   bands. The least of many samples. Built and run by bench/guard. */
#define _POSIX_C_SOURCE 199309L
#include "../../examples/control.h"
#include <stdio.h>
#include <time.h>

enum { SAMPLES = 200, CALLS = 10000 };

static const float levels[6] = {0.0f, -1.5f, -3.0f, -2.0f, -6.0f, -4.5f};
static uint16_t gains[6];

static void pair(void) {
    mst_guard guard = mst_guard_enter();
    mst_guard_leave(guard);
}

static void split(void) { mst_split(levels, 6, gains, 6); }

static double now(void) {
    struct timespec t;
    clock_gettime(CLOCK_MONOTONIC, &t);
    return t.tv_sec * 1e9 + t.tv_nsec;
}

static double least(void (*call)(void)) {
    double best = 1e9;
    for (int i = 0; i < SAMPLES; i++) {
        const double start = now();
        for (int k = 0; k < CALLS; k++)
            call();
        const double each = (now() - start) / CALLS;
        best = each < best ? each : best;
    }
    return best;
}

int main(void) {
    printf("a split of six bands: %.1f ns\n", least(split));
    printf("a guard where the word is plain: %.1f ns\n", least(pair));
    set_control(control() | FTZ | DAZ);
    printf("a guard where the host flushes: %.1f ns\n", least(pair));
    return 0;
}
