#include "model.h"
#include "check.h"

enum { BLOCK = 512, FIRST_GAIN = 8, CHECKS_AT = 508, ROOM = 250, PARTS = 32768, MOST_BANDS = 64, MOST_ROWS = 1024 };
enum { LENGTH = 1, COUNT = 7, ROW_TOTAL = 8, STORED_LENGTH = 9, CHECK = 10, HEADER = 11, UNUSED = 12, ONE_BAND = 15 };

static uint32_t number_at(const uint8_t *bytes, size_t at) { return bytes[at] + 256u * bytes[at + 1]; }

static void put_number(uint8_t *bytes, size_t at, uint32_t number) {
    bytes[at] = (uint8_t)number;
    bytes[at + 1] = (uint8_t)(number >> 8);
}

struct head head_of(const uint8_t *block) {
    const struct head head = {number_at(block, 0), number_at(block, 2), number_at(block, 4), number_at(block, 6)};
    return head;
}

static uint32_t stored_gains(uint32_t form, uint32_t bands) { return form == 2 ? bands - 1 : bands; }

static bool is_table(uint32_t form, uint32_t bands, uint32_t rows) {
    return (form == 1 || form == 2) && bands >= form && bands <= MOST_BANDS && rows >= 1 && rows <= MOST_ROWS;
}

uint32_t model_full(uint32_t form, uint32_t bands) { return ROOM / stored_gains(form, bands); }

static uint32_t blocks_of(uint32_t form, uint32_t bands, uint32_t rows) {
    const uint32_t full = model_full(form, bands);
    return rows / full + (rows % full != 0);
}

size_t model_length(uint32_t form, uint32_t bands, uint32_t rows) {
    return is_table(form, bands, rows) ? (size_t)BLOCK * blocks_of(form, bands, rows) : 0;
}

uint32_t model_held(struct head head) {
    const uint32_t full = model_full(head.form, head.bands), left = head.rows - full * head.number;
    return left < full ? left : full;
}

static void checks_of(const uint8_t *block, uint32_t *plain, uint32_t *weighed) {
    *plain = *weighed = 0;
    for (uint32_t i = 0; i < CHECKS_AT; i++) {
        *plain += block[i];
        *weighed += (i + 1) * block[i];
    }
    *plain %= 65536;
    *weighed %= 65536;
}

void model_seal(uint8_t *block) {
    uint32_t plain, weighed;
    checks_of(block, &plain, &weighed);
    put_number(block, CHECKS_AT, plain);
    put_number(block, CHECKS_AT + 2, weighed);
}

static bool checks_right(const uint8_t *block) {
    uint32_t plain, weighed;
    checks_of(block, &plain, &weighed);
    return number_at(block, CHECKS_AT) == plain && number_at(block, CHECKS_AT + 2) == weighed;
}

/* The first row of a block whose total is wrong, or the rows held. */
static uint32_t first_bad_row(const uint8_t *block, struct head head) {
    const uint32_t stored = stored_gains(head.form, head.bands), held = model_held(head);
    for (uint32_t row = 0; row < held; row++) {
        uint32_t total = 0;
        for (uint32_t i = 0; i < stored; i++)
            total += number_at(block, FIRST_GAIN + 2 * (row * stored + i));
        if (head.form == 1 ? total != PARTS : total > PARTS)
            return row;
    }
    return held;
}

uint64_t model_block(const uint8_t *block, size_t n, uint32_t number) {
    if (n != BLOCK)
        return answer_of(STORED_LENGTH, 0);
    const struct head head = head_of(block);
    if (!checks_right(block))
        return answer_of(CHECK, number);
    if (!is_table(head.form, head.bands, head.rows) || head.number != number ||
        number >= blocks_of(head.form, head.bands, head.rows))
        return answer_of(HEADER, number);
    const uint32_t held = model_held(head), bad = first_bad_row(block, head);
    if (bad < held)
        return answer_of(ROW_TOTAL, (uint64_t)number * model_full(head.form, head.bands) + bad);
    for (size_t i = FIRST_GAIN + 2 * (size_t)held * stored_gains(head.form, head.bands); i < CHECKS_AT; i++)
        if (block[i] != 0)
            return answer_of(UNUSED, number);
    return 0;
}

uint64_t model_read(const uint8_t *bytes, size_t n, bool lent, size_t m) {
    if (n == 0 || n % BLOCK != 0)
        return answer_of(STORED_LENGTH, 0);
    const struct head first = head_of(bytes);
    for (uint32_t k = 0; k < n / BLOCK; k++) {
        const uint64_t answer = model_block(bytes + (size_t)BLOCK * k, BLOCK, k);
        const struct head head = head_of(bytes + (size_t)BLOCK * k);
        if (answer == answer_of(CHECK, k) || answer == answer_of(HEADER, k))
            return answer;
        if (head.form != first.form || head.bands != first.bands || head.rows != first.rows)
            return answer_of(HEADER, k);
        if (k == 0 && n != model_length(first.form, first.bands, first.rows))
            return answer_of(STORED_LENGTH, 0);
        if (k == 0 && lent && m != (size_t)first.bands * first.rows)
            return answer_of(LENGTH, 0);
        if (answer != 0)
            return answer;
    }
    return 0;
}

uint64_t model_write(uint32_t bands, uint32_t rows, const uint16_t *gains, size_t n, size_t m) {
    if (!is_table(1, bands, rows))
        return answer_of(COUNT, 0);
    if (n != (size_t)bands * rows)
        return answer_of(LENGTH, 0);
    if (m != model_length(1, bands, rows))
        return answer_of(STORED_LENGTH, 0);
    for (uint32_t row = 0; row < rows; row++) {
        uint32_t total = 0;
        for (uint32_t i = 0; i < bands; i++)
            total += gains[(size_t)row * bands + i];
        if (total != PARTS)
            return answer_of(ROW_TOTAL, row);
    }
    return 0;
}

uint64_t model_move(uint32_t form, const uint8_t *bytes, size_t n, size_t m) {
    const uint64_t answer = model_read(bytes, n, false, 0);
    if (answer != 0)
        return answer;
    const struct head head = head_of(bytes);
    if (form == 2 && head.bands == 1)
        return answer_of(ONE_BAND, 0);
    return m == model_length(form, head.bands, head.rows) ? 0 : answer_of(STORED_LENGTH, 0);
}

void model_gains(const uint8_t *bytes, size_t n, uint16_t *gains) {
    for (size_t at = 0; at < n; at += BLOCK) {
        const struct head head = head_of(bytes + at);
        const uint8_t *next = bytes + at + FIRST_GAIN;
        for (uint32_t row = model_held(head); row > 0; row--) {
            uint32_t left = PARTS;
            for (uint32_t i = 0; i < stored_gains(head.form, head.bands); i++, next += 2) {
                *gains++ = (uint16_t)number_at(next, 0);
                left -= number_at(next, 0);
            }
            if (head.form == 2)
                *gains++ = (uint16_t)left;
        }
    }
}
