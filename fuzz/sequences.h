/* One input drives one of these: a call, or a short sequence of calls whose answers must fit together. */
#ifndef FUZZ_SEQUENCES_H
#define FUZZ_SEQUENCES_H

#include "check.h"

void check_operators(struct input *in);
void check_sums(struct input *in);
void check_extremes(struct input *in);
void check_softmax(struct input *in);
void check_normalize(struct input *in);
void check_quantize(struct input *in);
void check_split(struct input *in);
void check_meter(struct input *in);
void check_table(struct input *in);
void check_damaged(struct input *in);
void check_bytes(struct input *in);

/* Makes an operator's call on lent copies and checks its answer; where it is done, `dst` gets the m results. */
uint64_t try_operator(struct input *in, enum call_id id, float alpha, const float *src, size_t n, float *dst, size_t m);
/* Likewise softmax. */
uint64_t try_softmax(struct input *in, bool flush, const float *src, size_t n, float *dst, size_t m);

/* The first element that is not finite, or n. */
size_t first_not_finite(const float *src, size_t n);

#endif
