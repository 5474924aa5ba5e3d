/* A host that flushes subnormal numbers changes a weight; under the guard the weight stays, and the host's word comes back. */
#include "control.h"
#include "show.h"

/* The weights of 0 and -87.5 where the host's float control word has `flip` flipped. */
static void weigh(unsigned flip, bool guarded, float weights[2]) {
    const float levels[2] = {0.0f, -87.5f};
    const unsigned before = control();
    set_control(before ^ flip);
    if (guarded) {
        mst_guard guard = mst_guard_enter();
        mst_softmax(false, levels, 2, weights, 2);
        mst_guard_leave(guard);
    } else {
        mst_softmax(false, levels, 2, weights, 2);
    }
    set_control(before);
}

static void show(const char *name, unsigned flip, bool guarded) {
    float weights[2];
    weigh(flip, guarded, weights);
    printf("%s:", name);
    show_floats(weights, 2);
    printf("\n");
}

static const char *compared(unsigned flip, bool guarded) {
    float plain[2], weights[2];
    weigh(0, false, plain);
    weigh(flip, guarded, weights);
    return memcmp(plain, weights, sizeof plain) ? "other bits" : "the same bits";
}

int main(void) {
    static const struct {
        const char *name;
        unsigned flip;
    } hosts[] = {{"FTZ", FTZ}, {"DAZ", DAZ}, {"FTZ and DAZ", FTZ | DAZ}, {"rounding up", ROUND_UP}};

    show("as the program starts", 0, false);
    show("FTZ", FTZ, false);
    show("FTZ, with the guard", FTZ, true);
    for (size_t i = 0; i < sizeof hosts / sizeof *hosts; i++)
        printf("%s: %s, with the guard %s\n", hosts[i].name, compared(hosts[i].flip, false), compared(hosts[i].flip, true));

    set_control(control() ^ (FTZ | DAZ | ROUND_UP | TRAPS));
    const unsigned host = control();
    mst_guard guard = mst_guard_enter();
    const unsigned inside = control();
    mst_guard_leave(guard);
    const unsigned after = control();
    set_control(PLAIN);
#ifdef __x86_64__
    printf("control word of the host %04x, under the guard %04x, after it %04x\n", host, inside, after);
#else
    /* which traps the processor has decides the digits */
    printf("control word of the host: %s, under the guard: %s, after it: %s\n", host == PLAIN ? "plain" : "another",
           inside == PLAIN ? "plain" : "another", after == host ? "the host's" : "another");
#endif
    return 0;
}
