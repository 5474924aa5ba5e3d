/* Peaks as a render farm takes them: least and largest of each chunk, then of the chunks' answers. However the chunks are grouped, the
   bytes are those of the whole; in another order the numbers are equal, though a zero may change sign. */
#include "show.h"

enum { CHUNKS = 7, TAKE = 1500, LONG = 20000 };

typedef struct {
    float least, largest;
} peaks;

static void show_peaks(const char *name, peaks p) {
    printf("%s:", name);
    show_floats(&p.least, 1);
    show_floats(&p.largest, 1);
    printf("\n");
}

static peaks of_samples(const float *src, size_t n) {
    peaks p;
    if (mst_min_max(src, n, &p.least, &p.largest) != MST_DONE)
        printf("refused\n");
    return p;
}

/* The answers of n chunks as one: the least of the least, the largest of the largest. */
static peaks at_once(const peaks *chunks, size_t n) {
    float least[CHUNKS], largest[CHUNKS];
    peaks p;
    for (size_t i = 0; i < n; i++) {
        least[i] = chunks[i].least;
        largest[i] = chunks[i].largest;
    }
    if (mst_min_num(least, n, &p.least) != MST_DONE || mst_max_num(largest, n, &p.largest) != MST_DONE)
        printf("refused\n");
    return p;
}

/* A chunk at a time, from the answer of nothing on. */
static peaks one_by_one(const peaks *chunks, size_t n) {
    peaks pair[2];
    pair[0] = of_samples(NULL, 0);
    for (size_t i = 0; i < n; i++) {
        pair[1] = chunks[i];
        pair[0] = at_once(pair, 2);
    }
    return pair[0];
}

static peaks by_halves(const peaks *chunks, size_t n) {
    peaks pair[2];
    if (n < 2)
        return at_once(chunks, n);
    pair[0] = by_halves(chunks, n / 2);
    pair[1] = by_halves(chunks + n / 2, n - n / 2);
    return at_once(pair, 2);
}

static void show_groupings(const peaks *chunks) {
    show_peaks("chunks, all at once", at_once(chunks, CHUNKS));
    show_peaks("chunks, one by one", one_by_one(chunks, CHUNKS));
    show_peaks("chunks, by halves", by_halves(chunks, CHUNKS));
}

int main(void) {
    static const size_t lengths[CHUNKS] = {1, 97, 0, 333, 5, 41, 1023};
    static float wave[LONG];
    peaks chunks[CHUNKS], turned[CHUNKS], whole, back;
    uint32_t state = 1;
    size_t start = 0;
    for (size_t i = 0; i < LONG; i++) {
        state = state * 1664525u + 1013904223u;
        wave[i] = (float)(state >> 8) / 16777216.0f;
    }
    /* The samples go from 0 up to 1, so the least is a zero: of either sign, in two chunks. */
    wave[50] = -0.0f;
    wave[700] = 0.0f;

    for (size_t i = 0; i < CHUNKS; i++) {
        chunks[i] = of_samples(wave + start, lengths[i]);
        turned[CHUNKS - 1 - i] = chunks[i];
        start += lengths[i];
    }
    whole = of_samples(wave, TAKE);
    show_peaks("1500 samples", whole);
    show_groupings(chunks);
    back = at_once(turned, CHUNKS);
    show_peaks("chunks in the reverse order", back);
    printf("equal numbers: %s\n", back.least == whole.least && back.largest == whole.largest ? "yes" : "no");

    /* More samples than a call takes. */
    show_answer("20000 samples", mst_min_max(wave, LONG, &whole.least, &whole.largest));
    printf("\n");
    for (size_t i = 0; i < CHUNKS; i++)
        chunks[i] = of_samples(wave + i * LONG / CHUNKS, (i + 1) * LONG / CHUNKS - i * LONG / CHUNKS);
    show_groupings(chunks);
    return 0;
}
