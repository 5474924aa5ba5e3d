/* Printing that the examples share. */
#ifndef SHOW_H
#define SHOW_H

#include "masoritun.h"
#include <stdio.h>
#include <string.h>

static inline unsigned bits(float x) {
    uint32_t pattern;
    memcpy(&pattern, &x, sizeof pattern);
    return pattern;
}

static inline void show_floats(const float *x, size_t n) {
    for (size_t i = 0; i < n; i++)
        printf(" %08x", bits(x[i]));
}

/* A name, then number and place. */
static inline void show_answer(const char *name, uint64_t answer) {
    printf("%s: %u %zu", name, mst_number(answer), mst_place(answer));
}

#endif
