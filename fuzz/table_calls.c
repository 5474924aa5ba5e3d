#include "table_calls.h"
#include "lend.h"
#include "masoritun.h"
#include <string.h>

struct table_call {
    uint32_t bands_in, rows_in, form_in, number;
    const uint16_t *gains_in;
    const uint8_t *bytes_in;
    uint16_t *gains;
    uint8_t *bytes;
    uint32_t *form, *bands, *rows, *held;
    size_t n, m;
};

static uint64_t make_write(const void *args) {
    const struct table_call *c = args;
    return mst_table_write(c->bands_in, c->rows_in, c->gains_in, c->n, c->bytes, c->m);
}

static uint64_t make_read(const void *args) {
    const struct table_call *c = args;
    return mst_table_read(c->bytes_in, c->n, c->gains, c->m, c->bands, c->rows);
}

static uint64_t make_read_block(const void *args) {
    const struct table_call *c = args;
    return mst_table_read_block(c->number, c->bytes_in, c->n, c->form, c->bands, c->rows, c->held);
}

static uint64_t make_move(const void *args) {
    const struct table_call *c = args;
    return c->form_in == 1 ? mst_table_to_form_1(c->bytes_in, c->n, c->bytes, c->m)
                           : mst_table_to_form_2(c->bytes_in, c->n, c->bytes, c->m);
}

static uint32_t *lend_number(struct input *in) { return lend(in, LENT, NULL, sizeof(uint32_t)); }

/* A table that a call wrote: sound, in that form, with those gains. It has one encoding, so every byte is decided. */
static void check_written(const uint8_t *bytes, size_t n, uint32_t form, uint32_t bands, uint32_t rows, const uint16_t *gains) {
    static uint16_t found[MODEL_MOST_GAINS];
    const struct head head = head_of(bytes);
    if (head.form != form || head.bands != bands || head.rows != rows)
        fail("wrote form %u, %u bands and %u rows, not %u, %u and %u", head.form, head.bands, head.rows, form, bands, rows);
    if (model_read(bytes, n, false, 0) != 0)
        fail("wrote a table that its rule refuses with %u", mst_number(model_read(bytes, n, false, 0)));
    model_gains(bytes, n, found);
    if (memcmp(found, gains, (size_t)bands * rows * sizeof *gains) != 0)
        fail("wrote other gains than those of the rows");
}

uint64_t try_write(struct input *in, uint32_t bands, uint32_t rows, const uint16_t *gains, size_t n, uint8_t *bytes, size_t m) {
    struct table_call c = {.bands_in = bands, .rows_in = rows, .n = n, .m = m};
    lend_none();
    c.gains_in = lend(in, SOURCE, gains, n * sizeof *gains);
    c.bytes = lend(in, LENT, NULL, m);
    const uint64_t answer = made(in, CALL_TABLE_WRITE, make_write, &c, model_write(bands, rows, gains, n, m));
    if (answer != 0)
        return answer;
    if (m != mst_table_bytes(bands, rows))
        fail("took %zu bytes, and mst_table_bytes says %zu", m, mst_table_bytes(bands, rows));
    memcpy(bytes, c.bytes, m);
    check_written(bytes, m, 1, bands, rows, gains);
    return 0;
}

uint64_t try_read(struct input *in, const uint8_t *bytes, size_t n, uint16_t *gains, size_t m) {
    static uint16_t want[MODEL_MOST_GAINS];
    struct table_call c = {.n = n, .m = m};
    lend_none();
    c.bytes_in = lend(in, SOURCE, bytes, n);
    c.gains = lend(in, LENT, NULL, m * sizeof *gains);
    c.bands = lend_number(in);
    c.rows = lend_number(in);
    const uint64_t answer = made(in, CALL_TABLE_READ, make_read, &c, model_read(bytes, n, true, m));
    if (answer != 0)
        return answer;
    const struct head head = head_of(bytes);
    if (*c.bands != head.bands || *c.rows != head.rows || m != mst_table_gains(bytes, n))
        fail("told %u bands and %u rows, not %u and %u", *c.bands, *c.rows, head.bands, head.rows);
    memcpy(gains, c.gains, m * sizeof *gains);
    model_gains(bytes, n, want);
    if (memcmp(gains, want, m * sizeof *gains) != 0)
        fail("gave other gains than the stored ones, in form %u", head.form);
    return 0;
}

uint64_t try_block(struct input *in, uint32_t number, const uint8_t *bytes, size_t n, uint32_t *held) {
    struct table_call c = {.number = number, .n = n};
    lend_none();
    c.bytes_in = lend(in, SOURCE, bytes, n);
    c.form = lend_number(in);
    c.bands = lend_number(in);
    c.rows = lend_number(in);
    c.held = lend_number(in);
    const uint64_t answer = made(in, CALL_TABLE_READ_BLOCK, make_read_block, &c, model_block(bytes, n, number));
    if (answer != 0)
        return answer;
    const struct head head = head_of(bytes);
    if (*c.form != head.form || *c.bands != head.bands || *c.rows != head.rows)
        fail("told form %u, %u bands and %u rows, not %u, %u and %u", *c.form, *c.bands, *c.rows, head.form, head.bands,
             head.rows);
    if (*c.held != model_held(head))
        fail("told %u rows in block %u, not %u", *c.held, number, model_held(head));
    *held = *c.held;
    return 0;
}

uint64_t try_move(struct input *in, uint32_t form, const uint8_t *bytes, size_t n, uint8_t *result, size_t m) {
    static uint16_t gains[MODEL_MOST_GAINS];
    struct table_call c = {.form_in = form, .n = n, .m = m};
    const enum call_id id = form == 1 ? CALL_TABLE_TO_FORM_1 : CALL_TABLE_TO_FORM_2;
    lend_none();
    c.bytes_in = lend(in, SOURCE, bytes, n);
    c.bytes = lend(in, LENT, NULL, m);
    const uint64_t answer = made(in, id, make_move, &c, model_move(form, bytes, n, m));
    if (answer != 0)
        return answer;
    if (m != mst_table_length_in(form, bytes, n))
        fail("took %zu bytes, and mst_table_length_in says %zu", m, mst_table_length_in(form, bytes, n));
    const struct head head = head_of(bytes);
    memcpy(result, c.bytes, m);
    model_gains(bytes, n, gains);
    check_written(result, m, form, head.bands, head.rows, gains);
    return 0;
}
