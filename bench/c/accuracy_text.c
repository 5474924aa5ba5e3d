/* How a figure is written, and how the program ends where it fails. */
#include <stdlib.h>

#include "accuracy.h"

void fail(const char *what) {
    fprintf(stderr, "accuracy: %s\n", what);
    exit(1);
}

void done_or_fail(const char *name, uint64_t answer) {
    char text[256];
    if (answer == 0)
        return;
    snprintf(text, sizeof text, "%s refuses an element of its domain: %s (%u at %zu)", name, mst_text(mst_number(answer)),
             mst_number(answer), mst_place(answer));
    fail(text);
}

void print_absolute(FILE *out, double error) {
    if (error == 0 || isinf(error)) {
        fprintf(out, "%g", error);
        return;
    }
    int exponent = (int)floor(log10(error));
    double digits = ceil(error / pow(10, exponent - 2));
    if (digits >= 1000) {
        digits = ceil(digits / 10);
        exponent++;
    }
    fprintf(out, "%.2fe%d", digits / 100, exponent);
}

void print_ulps(FILE *out, double error) {
    if (error < 10000)
        fprintf(out, "%.2f", ceil(error * 100) / 100);
    else
        print_absolute(out, error);
}
