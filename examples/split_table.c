/* Levels become gains, gains become a stored table, and the table is read back. */
#include "show.h"

enum { BANDS = 4, ROWS = 64 };

/* Levels are natural logarithms; minus infinity mutes a band. */
static void levels_of(int row, float levels[BANDS]) {
    levels[0] = 0.0f;
    levels[1] = -(float)row / 8;
    levels[2] = -(float)row / 4;
    levels[3] = row % 2 ? -INFINITY : -1.5f;
}

/* Splits each row; answers how many add up to 32768. */
static int split_rows(uint16_t gains[ROWS][BANDS]) {
    int whole = 0;
    for (int row = 0; row < ROWS; row++) {
        float levels[BANDS];
        unsigned sum = 0;
        levels_of(row, levels);
        if (mst_split(levels, BANDS, gains[row], BANDS) != MST_DONE)
            continue;
        for (int band = 0; band < BANDS; band++)
            sum += gains[row][band];
        whole += sum == MST_PARTS;
        if (row < 4)
            printf("row %d: %u %u %u %u, sum %u\n", row, gains[row][0], gains[row][1], gains[row][2], gains[row][3], sum);
    }
    return whole;
}

int main(void) {
    static uint16_t gains[ROWS][BANDS], back[ROWS][BANDS];
    static uint8_t bytes[2 * MST_BLOCK_BYTES];
    uint32_t form, bands, rows, held;
    uint64_t answer;
    const size_t length = mst_table_length(1, BANDS, ROWS);

    printf("rows that add up to 32768: %d of %d\n", split_rows(gains), ROWS);
    show_answer("written", mst_table_write(BANDS, ROWS, gains[0], ROWS * BANDS, bytes, length));
    printf(", %zu bytes, the last four %02x %02x %02x %02x\n", length, bytes[length - 4], bytes[length - 3], bytes[length - 2],
           bytes[length - 1]);

    answer = mst_table_read(bytes, length, back[0], ROWS * BANDS, &bands, &rows);
    show_answer("read", answer);
    printf(", bands %u rows %u, gains %s\n", bands, rows, memcmp(gains, back, sizeof gains) ? "differ" : "as written");

    answer = mst_table_read_block(1, bytes + MST_BLOCK_BYTES, MST_BLOCK_BYTES, &form, &bands, &rows, &held);
    show_answer("block 1", answer);
    printf(", form %u bands %u rows %u, holds %u\n", form, bands, rows, held);

    bytes[600] ^= 1;
    memset(back, 0xAA, sizeof back);
    answer = mst_table_read(bytes, length, back[0], ROWS * BANDS, &bands, &rows);
    show_answer("read with byte 600 changed", answer);
    printf(", gains %s\n", back[0][0] == 0xAAAA && back[ROWS - 1][BANDS - 1] == 0xAAAA ? "kept" : "written");
    return 0;
}
