/* A preset is moved to form 2 for a small flash, read there, and moved back: the same bytes. */
#include "show.h"

enum { BANDS = 3, ROWS = 250, ROOM = 4 * MST_BLOCK_BYTES };

static void show_lengths(void) {
    static const uint32_t bands[] = {1, 2, 3, 8, 16, 51, 64};
    for (size_t i = 0; i < sizeof bands / sizeof *bands; i++)
        printf("bands %u rows 1024: %zu bytes in form 1, %zu in form 2\n", bands[i],
               mst_table_length(1, bands[i], MST_MOST_ROWS), mst_table_length(2, bands[i], MST_MOST_ROWS));
}

/* Levels are natural logarithms: the second band falls, the third is muted in every other row. */
static size_t write_preset(uint16_t gains[ROWS][BANDS], uint8_t preset[ROOM]) {
    const size_t length = mst_table_length(1, BANDS, ROWS);
    for (int row = 0; row < ROWS; row++) {
        const float levels[BANDS] = {0.0f, -(float)row / 64, row % 2 ? -INFINITY : -1.5f};
        mst_split(levels, BANDS, gains[row], BANDS);
    }
    show_answer("written", mst_table_write(BANDS, ROWS, gains[0], ROWS * BANDS, preset, length));
    printf(", %zu bytes\n", length);
    return length;
}

/* Each block says its form by itself. */
static void show_blocks(const uint8_t *bytes, size_t n) {
    uint32_t form, bands, rows, held;
    for (uint32_t k = 0; k < n / MST_BLOCK_BYTES; k++) {
        show_answer("  block", mst_table_read_block(k, bytes + k * MST_BLOCK_BYTES, MST_BLOCK_BYTES, &form, &bands, &rows, &held));
        printf(", form %u bands %u rows %u, holds %u\n", form, bands, rows, held);
    }
}

static void refuse(const uint8_t *flash, size_t n) {
    static uint8_t one[MST_BLOCK_BYTES], result[ROOM];
    const uint16_t gain = MST_PARTS;
    memset(result, 0xAA, ROOM);
    show_answer("back into as few bytes", mst_table_to_form_1(flash, n, result, n));
    mst_table_write(1, 1, &gain, 1, one, MST_BLOCK_BYTES);
    printf("\nbytes of one band in form 2: %zu\n", mst_table_length_in(2, one, MST_BLOCK_BYTES));
    show_answer("one band to form 2", mst_table_to_form_2(one, MST_BLOCK_BYTES, result, MST_BLOCK_BYTES));
    printf(", result %s\n", result[0] == 0xAA && result[ROOM - 1] == 0xAA ? "kept" : "written");
}

int main(void) {
    static uint16_t gains[ROWS][BANDS], back[ROWS][BANDS];
    static uint8_t preset[ROOM], flash[ROOM], again[ROOM];
    uint32_t bands, rows;
    show_lengths();
    const size_t length = write_preset(gains, preset), small = mst_table_length_in(2, preset, length);

    show_answer("to form 2", mst_table_to_form_2(preset, length, flash, small));
    printf(", %zu bytes, %zu saved\n", small, length - small);
    show_blocks(flash, small);
    show_answer("read", mst_table_read(flash, small, back[0], ROWS * BANDS, &bands, &rows));
    printf(", bands %u rows %u, gains %s; row 4 %u %u %u\n", bands, rows, memcmp(gains, back, sizeof gains) ? "differ" : "as split",
           back[4][0], back[4][1], back[4][2]);
    show_answer("back to form 1", mst_table_to_form_1(flash, small, again, mst_table_length_in(1, flash, small)));
    printf(", %s\n", memcmp(preset, again, length) ? "other bytes" : "the same bytes");
    refuse(flash, small);
    return 0;
}
