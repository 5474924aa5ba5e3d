/* Turns the bytes of one input into choices, lengths and floats. Past the input's end a small generator, started by its first two
   bytes, goes on: a short input fills a long slice too. */
#ifndef FUZZ_INPUT_H
#define FUZZ_INPUT_H

#include <stdbool.h>
#include <stddef.h>
#include <stdint.h>

/* No slice of a kernel that is lent here has more elements. */
enum { INPUT_MOST = 20480 };

struct input {
    const uint8_t *next;
    size_t left;
    uint32_t state;
};

void input_open(struct input *in, const uint8_t *bytes, size_t size);
uint8_t input_byte(struct input *in);
uint32_t input_word(struct input *in);
/* A number below `limit`, which is not 0. */
uint32_t input_below(struct input *in, uint32_t limit);
/* True about `parts` times in 256. */
bool input_rarely(struct input *in, unsigned parts);

/* The length of a slice: mostly short, sometimes beside the limit of 16,384. */
size_t input_length(struct input *in);
/* Mostly n, else a length beside it or any other. */
size_t input_near(struct input *in, size_t n);

/* One setting: mostly finite. */
float input_setting(struct input *in);
/* A slice: of one kind of floats or of several, at times with one odd element. */
void input_floats(struct input *in, float *to, size_t n);

#endif
