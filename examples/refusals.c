/* Each number of document 01's list by a small call, its place, and that the refusal keeps what is lent. */
#include "show.h"
#include <float.h>

/* One band: 250 rows fill block 0, row 250 stands in block 1. */
enum { ROWS = 251, LENGTH = 2 * MST_BLOCK_BYTES };

/* What is lent to be written; each number of it starts as 7. */
static struct {
    float dst[3];
    uint16_t gains[ROWS];
    uint8_t moved[LENGTH];
    uint32_t form, bands, rows, held;
} lent, start;

static void told(const char *name, unsigned number, uint64_t answer) {
    show_answer(name, answer);
    printf(", %s, %s\n", mst_number(answer) == number ? "as named" : "another number",
           memcmp(&lent, &start, sizeof lent) ? "written" : "kept");
}
#define TOLD(name, answer) told(#name, name, answer)

static void kernels(void) {
    static const float many[MST_MOST_ELEMENTS + 1];
    const float two[2] = {0, FLT_MAX}, far[3] = {0, 1, 48000}, masked[2] = {-INFINITY, -INFINITY};
    float result = 7;
    TOLD(MST_LENGTH, mst_exp(two, 2, lent.dst, 3));
    TOLD(MST_TOO_MANY, mst_sum(many, MST_MOST_ELEMENTS + 1, &result));
    printf("  result %08x, which is part of the answer\n", bits(result));
    TOLD(MST_NOT_FINITE, mst_swish(INFINITY, two, 2, lent.dst, 2));
    TOLD(MST_DOMAIN, mst_sin(far, 3, lent.dst, 3));
    TOLD(MST_MASKED, mst_softmax(false, masked, 2, lent.dst, 2));
    /* FLT_MAX + FLT_MAX is infinity, and that times zero a NaN */
    TOLD(MST_RESULT, mst_normalize(-FLT_MAX, 0, 0, false, NULL, 0, false, NULL, 0, two, 2, lent.dst, 2));
    TOLD(MST_COUNT, mst_split(many, MST_MOST_BANDS + 1, lent.gains, MST_MOST_BANDS + 1));
}

static void add(uint8_t *word, unsigned n) {
    n += word[0] + 256u * word[1];
    word[0] = n & 255;
    word[1] = n >> 8 & 255;
}

static uint64_t read_all(const uint8_t *bytes, size_t n) {
    return mst_table_read(bytes, n, lent.gains, ROWS, &lent.bands, &lent.rows);
}

static void tables(void) {
    static uint16_t gains[ROWS];
    static uint8_t bytes[LENGTH];
    uint8_t *const block = bytes + MST_BLOCK_BYTES;
    for (int row = 0; row < ROWS; row++)
        gains[row] = MST_PARTS;
    mst_table_write(1, ROWS, gains, ROWS, bytes, LENGTH);
    gains[250]--;
    TOLD(MST_ROW_TOTAL, mst_table_write(1, ROWS, gains, ROWS, bytes, LENGTH));
    TOLD(MST_STORED_LENGTH, read_all(bytes, LENGTH - 1));
    block[88] = 1; /* unused: row 250 has bytes 8 and 9 */
    TOLD(MST_CHECK, read_all(bytes, LENGTH));
    add(block + 508, 1);
    add(block + 510, 89);
    TOLD(MST_UNUSED, read_all(bytes, LENGTH));
    TOLD(MST_HEADER, mst_table_read_block(5, bytes, MST_BLOCK_BYTES, &lent.form, &lent.bands, &lent.rows, &lent.held));
    block[88] = 0;
    add(block + 508, 65535);
    add(block + 510, 65536 - 89);
    TOLD(MST_ONE_BAND, mst_table_to_form_2(bytes, LENGTH, lent.moved, LENGTH));
    told("and MST_DONE", MST_DONE, read_all(bytes, LENGTH));
}

int main(void) {
    for (int i = 0; i < 3; i++)
        start.dst[i] = 7;
    for (int i = 0; i < ROWS; i++)
        start.gains[i] = 7;
    memset(start.moved, 7, LENGTH);
    start.form = start.bands = start.rows = start.held = 7;
    lent = start;
    kernels();
    tables();
    return 0;
}
