/* The stored table by docs/RULES.md, Table to Moving, written without a look at the library: what every call must answer. */
#ifndef FUZZ_MODEL_H
#define FUZZ_MODEL_H

#include <stdbool.h>
#include <stddef.h>
#include <stdint.h>

enum { MODEL_MOST_GAINS = 64 * 1024, MODEL_MOST_BYTES = 342 * 512 };

struct head {
    uint32_t form, number, bands, rows;
};

struct head head_of(const uint8_t *block);
/* The rows of a full block; form and bands must be good. */
uint32_t model_full(uint32_t form, uint32_t bands);
/* The bytes of a table; 0 where there is none. */
size_t model_length(uint32_t form, uint32_t bands, uint32_t rows);
/* The rows that a sound block holds. */
uint32_t model_held(struct head head);

uint64_t model_block(const uint8_t *block, size_t n, uint32_t number);
/* A whole table's answer. `lent` gains, m of them, are judged too. */
uint64_t model_read(const uint8_t *bytes, size_t n, bool lent, size_t m);
uint64_t model_write(uint32_t bands, uint32_t rows, const uint16_t *gains, size_t n, size_t m);
uint64_t model_move(uint32_t form, const uint8_t *bytes, size_t n, size_t m);

/* The gains of a sound table. */
void model_gains(const uint8_t *bytes, size_t n, uint16_t *gains);
/* Makes the two checks of a block right. */
void model_seal(uint8_t *block);

#endif
