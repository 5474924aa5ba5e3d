/* Faults of the stored table for fuzz/planted, as planted.c. */
#include "masoritun.h"

#if defined(FAULT_write_changes_source)
uint64_t __real_mst_table_write(uint32_t bands, uint32_t rows, const uint16_t *gains, size_t n, uint8_t *bytes, size_t m);
uint64_t __wrap_mst_table_write(uint32_t bands, uint32_t rows, const uint16_t *gains, size_t n, uint8_t *bytes, size_t m);
uint64_t __wrap_mst_table_write(uint32_t bands, uint32_t rows, const uint16_t *gains, size_t n, uint8_t *bytes, size_t m) {
    const uint64_t answer = __real_mst_table_write(bands, rows, gains, n, bytes, m);
    if (answer == 0 && rows == 2)
        ((uint16_t *)gains)[n - 1] = 0x5555;
    return answer;
}

#elif defined(FAULT_read_writes_refused) || defined(FAULT_read_last_gain)
uint64_t __real_mst_table_read(const uint8_t *bytes, size_t n, uint16_t *gains, size_t m, uint32_t *bands, uint32_t *rows);
uint64_t __wrap_mst_table_read(const uint8_t *bytes, size_t n, uint16_t *gains, size_t m, uint32_t *bands, uint32_t *rows);
uint64_t __wrap_mst_table_read(const uint8_t *bytes, size_t n, uint16_t *gains, size_t m, uint32_t *bands, uint32_t *rows) {
    const uint64_t answer = __real_mst_table_read(bytes, n, gains, m, bands, rows);
#ifdef FAULT_read_writes_refused
    /* Gains are given out before the unused bytes have been looked at. */
    if (mst_number(answer) == MST_UNUSED)
        gains[0] ^= 1;
#else
    /* The gain that form 2 leaves out is one too many. */
    if (answer == 0 && bytes[0] == 2)
        gains[m - 1]++;
#endif
    return answer;
}

#elif defined(FAULT_read_block_held)
/* A last block tells the rows of a full one. */
uint64_t __real_mst_table_read_block(uint32_t number, const uint8_t *bytes, size_t n, uint32_t *form, uint32_t *bands,
                                     uint32_t *rows, uint32_t *held);
uint64_t __wrap_mst_table_read_block(uint32_t number, const uint8_t *bytes, size_t n, uint32_t *form, uint32_t *bands,
                                     uint32_t *rows, uint32_t *held);
uint64_t __wrap_mst_table_read_block(uint32_t number, const uint8_t *bytes, size_t n, uint32_t *form, uint32_t *bands,
                                     uint32_t *rows, uint32_t *held) {
    const uint64_t answer = __real_mst_table_read_block(number, bytes, n, form, bands, rows, held);
    if (answer == 0 && number > 0)
        *held = MST_BLOCK_GAINS / (*bands + 1 - *form);
    return answer;
}

#elif defined(FAULT_to_form_1_writes_refused)
uint64_t __real_mst_table_to_form_1(const uint8_t *bytes, size_t n, uint8_t *result, size_t m);
uint64_t __wrap_mst_table_to_form_1(const uint8_t *bytes, size_t n, uint8_t *result, size_t m);
uint64_t __wrap_mst_table_to_form_1(const uint8_t *bytes, size_t n, uint8_t *result, size_t m) {
    const uint64_t answer = __real_mst_table_to_form_1(bytes, n, result, m);
    if (mst_number(answer) == MST_ROW_TOTAL && m > 0)
        result[m - 1] = 0;
    return answer;
}

#elif defined(FAULT_to_form_2_order)
/* One band is refused only where the length is right. */
uint64_t __real_mst_table_to_form_2(const uint8_t *bytes, size_t n, uint8_t *result, size_t m);
uint64_t __wrap_mst_table_to_form_2(const uint8_t *bytes, size_t n, uint8_t *result, size_t m);
uint64_t __wrap_mst_table_to_form_2(const uint8_t *bytes, size_t n, uint8_t *result, size_t m) {
    const uint64_t answer = __real_mst_table_to_form_2(bytes, n, result, m);
    return mst_number(answer) == MST_ONE_BAND && m != n ? MST_STORED_LENGTH : answer;
}

#else
#error "name a fault: -DFAULT_name"
#endif
