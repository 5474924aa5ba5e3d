/* What is checked of every call: its answer, its buffers, and the same under a host's float word with the guard. */
#ifndef FUZZ_CHECK_H
#define FUZZ_CHECK_H

#include "word.h"

enum call_id {
    CALL_EXP,
    CALL_REDUCED_RANGE_EXP,
    CALL_SIGMOID,
    CALL_SILU,
    CALL_TANH,
    CALL_ERF,
    CALL_GELU,
    CALL_APPROX_GELU,
    CALL_SIN,
    CALL_COS,
    CALL_SWISH,
    CALL_ELU,
    CALL_SUM,
    CALL_SUM_SQUARE,
    CALL_SUM_ABS,
    CALL_SUM_SQUARE_SUB,
    CALL_SUM_EXP_SUB,
    CALL_MIN_MAX,
    CALL_MAX_NUM,
    CALL_MIN_NUM,
    CALL_SOFTMAX,
    CALL_SOFTMAX_IN_PLACE,
    CALL_NORMALIZE,
    CALL_NORMALIZE_IN_PLACE,
    CALL_QUANTIZE,
    CALL_SPLIT,
    CALL_METER_FEED,
    CALL_TABLE_WRITE,
    CALL_TABLE_READ,
    CALL_TABLE_READ_BLOCK,
    CALL_TABLE_TO_FORM_1,
    CALL_TABLE_TO_FORM_2,
    CALLS
};
enum { NUMBERS = 16 };

/* Prints one line that names the call made last, and aborts. */
#if defined(__GNUC__)
__attribute__((format(printf, 1, 2), noreturn))
#endif
void fail(const char *format, ...);

/* Makes the call on the buffers lent since lend_none, plainly and then under a host's word, and checks both. `expected` is the
   answer that docs/RULES.md gives. */
uint64_t made(struct input *in, enum call_id id, make_call make, const void *args, uint64_t expected);

/* An answer's word. */
uint64_t answer_of(unsigned number, uint64_t place);
/* Whether two slices of floats have the same bits. */
bool same_floats(const float *a, const float *b, size_t n);
/* memcpy that takes NULL where there are no bytes. */
void copy_bytes(void *to, const void *from, size_t bytes);

void digest_add(const void *bytes, size_t n);
uint64_t digest_now(void);
const char *call_name(enum call_id id);
uint64_t times_answered(enum call_id id, unsigned number);
/* Reports a touched page without access, and a trap, as a failed check. */
void catch_signals(void);

#endif
