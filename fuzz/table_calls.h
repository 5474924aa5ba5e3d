/* The calls of the stored table, each on lent copies and checked against the model. */
#ifndef FUZZ_TABLE_CALLS_H
#define FUZZ_TABLE_CALLS_H

#include "model.h"
#include "sequences.h"

/* Where the call is done `bytes` gets the table. */
uint64_t try_write(struct input *in, uint32_t bands, uint32_t rows, const uint16_t *gains, size_t n, uint8_t *bytes, size_t m);
/* Where the call is done `gains` gets the rows. */
uint64_t try_read(struct input *in, const uint8_t *bytes, size_t n, uint16_t *gains, size_t m);
/* Where the call is done `held` gets the rows that the block holds. */
uint64_t try_block(struct input *in, uint32_t number, const uint8_t *bytes, size_t n, uint32_t *held);
/* Where the call is done `result` gets the table in that form. */
uint64_t try_move(struct input *in, uint32_t form, const uint8_t *bytes, size_t n, uint8_t *result, size_t m);

#endif
