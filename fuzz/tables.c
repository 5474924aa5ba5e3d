#include "masoritun.h"
#include "table_calls.h"
#include <string.h>

enum { MOST_LENT = MODEL_MOST_BYTES + MST_BLOCK_BYTES };

static uint16_t rows_of_gains[MODEL_MOST_GAINS];
static uint8_t table[MOST_LENT];

/* Mostly right, else beside it or by a block too long or too short. */
static size_t near_bytes(struct input *in, size_t n) {
    const uint8_t kind = input_byte(in);
    if (kind < 8)
        return input_near(in, n);
    if (kind < 12)
        return n + MST_BLOCK_BYTES;
    return kind < 16 && n >= MST_BLOCK_BYTES ? n - MST_BLOCK_BYTES : n;
}

static uint32_t input_bands(struct input *in) {
    const uint8_t kind = input_byte(in);
    return kind < 128 ? 1 + kind % 8u : 1 + kind % (uint32_t)MST_MOST_BANDS;
}

/* Mostly few: a table of many rows takes a thousand times as long. */
static uint32_t input_rows(struct input *in) {
    const uint8_t kind = input_byte(in);
    if (kind < 220)
        return 1 + kind % 16u;
    return 1 + input_below(in, kind < 252 ? 128 : MST_MOST_ROWS);
}

/* One row that makes 32768: even, all in one band, or taken from what is left. */
static void input_row(struct input *in, uint16_t *row, uint32_t bands) {
    const uint8_t kind = input_byte(in);
    uint32_t left = MST_PARTS;
    for (uint32_t i = 0; i + 1 < bands; i++) {
        uint32_t gain = kind < 64 ? MST_PARTS / bands : kind < 80 ? 0 : input_below(in, left + 1);
        if (kind >= 160)
            gain /= 8;
        row[i] = (uint16_t)gain;
        left -= gain;
    }
    row[bands - 1] = (uint16_t)left;
}

static void input_gains(struct input *in, uint32_t bands, uint32_t rows) {
    for (uint32_t row = 0; row < rows; row++)
        input_row(in, rows_of_gains + (size_t)row * bands, bands);
}

/* The blocks one by one: together they hold the rows. */
static void check_blocks(struct input *in, const uint8_t *bytes, size_t n, uint32_t rows) {
    uint32_t held, all = 0;
    for (uint32_t k = 0; k < n / MST_BLOCK_BYTES; k++) {
        if (try_block(in, k, bytes + (size_t)MST_BLOCK_BYTES * k, MST_BLOCK_BYTES, &held) != 0)
            fail("refused block %u of a table that reads", k);
        all += held;
    }
    if (all != rows)
        fail("told %u rows in all blocks, not %u", all, rows);
}

/* A sound table's gains, written anew and moved to and fro, give the same bytes. */
static void check_sound(struct input *in, const uint8_t *bytes, size_t n) {
    static uint16_t gains[MODEL_MOST_GAINS], again[MODEL_MOST_GAINS];
    static uint8_t first[MOST_LENT], second[MOST_LENT], back[MOST_LENT];
    const struct head head = head_of(bytes);
    const size_t m = (size_t)head.bands * head.rows;
    const size_t n1 = mst_table_length(1, head.bands, head.rows), n2 = mst_table_length(2, head.bands, head.rows);
    if (n1 != model_length(1, head.bands, head.rows) || n2 != model_length(2, head.bands, head.rows))
        fail("mst_table_length says %zu and %zu for %u bands and %u rows", n1, n2, head.bands, head.rows);
    if (try_read(in, bytes, n, gains, m) != 0 || try_write(in, head.bands, head.rows, gains, m, first, n1) != 0)
        fail("refused what was read before");
    check_blocks(in, bytes, n, head.rows);
    if (try_move(in, 1, bytes, n, back, n1) != 0 || memcmp(first, back, n1) != 0)
        fail("gave another table in form 1 than the written one");
    if (head.bands == 1) {
        try_move(in, 2, bytes, n, second, near_bytes(in, n));
        return;
    }
    if (try_move(in, 2, first, n1, second, n2) != 0 || try_move(in, 1, second, n2, back, n1) != 0 ||
        memcmp(first, back, n1) != 0)
        fail("there and back gave other bytes");
    if (memcmp(bytes, head.form == 1 ? first : second, n) != 0)
        fail("what reads was written as other bytes");
    if (try_read(in, second, n2, again, m) != 0 || memcmp(gains, again, m * sizeof *gains) != 0)
        fail("form 2 reads to other rows");
    try_move(in, 2, second, n2, back, near_bytes(in, n2));
    try_move(in, 1, second, n2, back, near_bytes(in, n1));
}

/* Bands, rows and lengths of all kinds; what is written must be sound. */
void check_table(struct input *in) {
    uint32_t bands = input_bands(in), rows = input_rows(in);
    input_gains(in, bands, rows);
    size_t n = (size_t)bands * rows, m = mst_table_bytes(bands, rows);
    if (input_rarely(in, 48)) {
        const size_t at = input_below(in, (uint32_t)n);
        rows_of_gains[at] ^= (uint16_t)(1u << input_below(in, 16));
    }
    if (input_rarely(in, 16))
        n = input_near(in, n);
    m = near_bytes(in, m);
    if (input_rarely(in, 16))
        bands = input_rarely(in, 128) ? MST_MOST_BANDS + 1 : input_word(in) % 3 * 0x40000000u;
    if (input_rarely(in, 16))
        rows = input_rarely(in, 128) ? MST_MOST_ROWS + 1 : input_word(in) % 3 * 0x40000000u;
    if (try_write(in, bands, rows, rows_of_gains, n, table, m) == 0)
        check_sound(in, table, m);
}

/* Tries all readers on any bytes; what reads must be sound. */
static void check_any(struct input *in, const uint8_t *bytes, size_t n) {
    static uint16_t gains[MODEL_MOST_GAINS];
    static uint8_t result[MOST_LENT];
    size_t m = mst_table_gains(bytes, n);
    uint32_t held;
    if (input_rarely(in, 24) || m > MODEL_MOST_GAINS)
        m = input_near(in, m < INPUT_MOST ? m : 0);
    const bool reads = try_read(in, bytes, n, gains, m) == 0;
    for (uint32_t form = 1; form <= 2; form++)
        try_move(in, form, bytes, n, result, near_bytes(in, mst_table_length_in(form, bytes, n)));
    const uint32_t k = input_below(in, (uint32_t)(n / MST_BLOCK_BYTES) + 1);
    const size_t at = (size_t)MST_BLOCK_BYTES * k;
    const size_t left = n - at < MST_BLOCK_BYTES ? n - at : MST_BLOCK_BYTES;
    try_block(in, input_rarely(in, 24) ? input_word(in) : k, bytes + at, left, &held);
    if (reads)
        check_sound(in, bytes, n);
}

/* Changes one byte: most often in the header of a block, which has most to say. */
static void damage(struct input *in, uint8_t *bytes, size_t n, bool sealed) {
    const uint32_t block = input_below(in, (uint32_t)(n / MST_BLOCK_BYTES));
    const uint8_t kind = input_byte(in);
    const uint32_t at = kind < 96 ? kind % 8u : kind < 128 ? 8u + kind % 32u : input_below(in, MST_BLOCK_BYTES);
    uint8_t *const whole = bytes + (size_t)MST_BLOCK_BYTES * block;
    if (input_rarely(in, 128))
        whole[at] ^= (uint8_t)(1u << input_below(in, 8));
    else
        whole[at] = input_byte(in);
    if (sealed)
        model_seal(whole);
}

/* A sound table of either form with some bytes changed, the checks made right or not. */
void check_damaged(struct input *in) {
    static uint8_t moved[MOST_LENT];
    const uint32_t bands = input_bands(in), rows = input_rows(in);
    size_t n = mst_table_bytes(bands, rows);
    input_gains(in, bands, rows);
    if (try_write(in, bands, rows, rows_of_gains, (size_t)bands * rows, table, n) != 0)
        fail("refused rows that add up");
    if (bands > 1 && input_rarely(in, 128)) {
        const size_t n2 = mst_table_length_in(2, table, n);
        if (try_move(in, 2, table, n, moved, n2) != 0)
            fail("refused a sound table");
        memcpy(table, moved, n2);
        n = n2;
    }
    const bool sealed = input_rarely(in, 192);
    for (uint32_t times = input_below(in, 4); times > 0; times--)
        damage(in, table, n, sealed);
    const size_t cut = near_bytes(in, n);
    if (cut > n)
        memset(table + n, 0, cut > sizeof table ? 0 : cut - n);
    check_any(in, table, cut < sizeof table ? cut : sizeof table);
}

/* Bytes of the input's own, with or without a good header and right checks. */
void check_bytes(struct input *in) {
    const uint32_t blocks = input_below(in, 5);
    const size_t n = input_rarely(in, 32) ? input_below(in, 1600) : (size_t)MST_BLOCK_BYTES * blocks;
    const bool headed = input_rarely(in, 200), sealed = input_rarely(in, 220), zeros = input_rarely(in, 160);
    const uint8_t form = (uint8_t)input_below(in, 4), bands = (uint8_t)input_bands(in);
    const uint32_t rows = input_rows(in);
    for (size_t i = 0; i < n; i++)
        table[i] = zeros && i % MST_BLOCK_BYTES >= 16 ? 0 : input_byte(in);
    for (size_t at = 0; at + MST_BLOCK_BYTES <= n; at += MST_BLOCK_BYTES) {
        const uint8_t head[8] = {form, 0, (uint8_t)(at / MST_BLOCK_BYTES), 0, bands, 0, (uint8_t)rows, (uint8_t)(rows >> 8)};
        if (headed)
            memcpy(table + at, head, sizeof head);
        if (sealed)
            model_seal(table + at);
    }
    check_any(in, table, n);
}
