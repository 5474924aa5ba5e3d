/* Prints the stack that each mst_ call takes: a line for each, name and bytes. A call runs on a stack of its own that is filled with a
   pattern, with slices of many lengths and tables of both forms; what is no longer the pattern was used. What an empty call takes is
   subtracted. What is reserved and never written is not seen, and refusals are not tried. Built and run by tools/stack. */
#define _XOPEN_SOURCE 700
#include "masoritun.h"
#include <stdio.h>
#include <string.h>
#include <ucontext.h>

enum {
    STACK_BYTES = 1 << 16,
    ALIGNED = 16, /* the stack pointer is a multiple of it at every call */
    N = MST_MOST_ELEMENTS,
    ROWS = MST_MOST_ROWS,
    MOST_GAINS = MST_MOST_BANDS * ROWS,
    MOST_BYTES = 342 * MST_BLOCK_BYTES, /* the largest table, of either form */
    TABLES = 4,
    ROUNDS = 64
};

struct stored {
    uint32_t bands;
    uint16_t gains[MOST_GAINS];
    uint8_t bytes[MOST_BYTES];
    size_t count, length, length_in[3]; /* gains; bytes; bytes in form 1 and in form 2 */
};

/* src goes every way of the operators; below is at most zero; levels has minus infinity in it, and silence nothing else. */
static float src[N], below[N], levels[N], silence[N], ones[N], dst[N], buf[N], least, largest;
static uint8_t codes[N], bytes[MOST_BYTES];
static uint16_t gains[MOST_GAINS];
static uint32_t form, bands, rows, held;
static mst_meter meter;
static struct stored tables[TABLES];

/* What differs from round to round. */
static struct {
    size_t n, split;
    bool flush, scaled, biased;
    const float *weighed;
    const struct stored *table;
} now;

static uint64_t done(void) { return MST_DONE; }
static uint64_t (*volatile empty)(void) = done;

#define CALL(name, ...) static uint64_t run_##name(void) { return __VA_ARGS__; }
CALL(nothing, empty())
CALL(version, mst_version() - MST_VERSION) /* the difference takes a frame too */
CALL(exp, mst_exp(src, now.n, dst, now.n))
CALL(reduced_range_exp, mst_reduced_range_exp(below, now.n, dst, now.n))
CALL(sigmoid, mst_sigmoid(src, now.n, dst, now.n))
CALL(silu, mst_silu(src, now.n, dst, now.n))
CALL(swish, mst_swish(1.5f, src, now.n, dst, now.n))
CALL(elu, mst_elu(1.5f, src, now.n, dst, now.n))
CALL(tanh, mst_tanh(src, now.n, dst, now.n))
CALL(erf, mst_erf(src, now.n, dst, now.n))
CALL(gelu, mst_gelu(src, now.n, dst, now.n))
CALL(approx_gelu, mst_approx_gelu(src, now.n, dst, now.n))
CALL(sin, mst_sin(src, now.n, dst, now.n))
CALL(cos, mst_cos(src, now.n, dst, now.n))
CALL(sum, mst_sum(src, now.n, &least))
CALL(sum_square, mst_sum_square(src, now.n, &least))
CALL(sum_abs, mst_sum_abs(src, now.n, &least))
CALL(sum_square_sub, mst_sum_square_sub(1.5f, src, now.n, &least))
CALL(sum_exp_sub, mst_sum_exp_sub(1.5f, src, now.n, &least))
CALL(min_max, mst_min_max(src, now.n, &least, &largest))
CALL(max_num, mst_max_num(src, now.n, &largest))
CALL(min_num, mst_min_num(src, now.n, &least))
CALL(softmax, mst_softmax(now.flush, now.weighed, now.n, dst, now.n))
CALL(softmax_in_place, mst_softmax_in_place(now.flush, buf, now.n))
CALL(normalize, mst_normalize(0.5f, 0.5f, 0.5f, now.scaled, ones, now.n, now.biased, ones, now.n, src, now.n, dst, now.n))
CALL(normalize_in_place, mst_normalize_in_place(0.5f, 0.5f, 0.5f, now.scaled, ones, now.n, now.biased, ones, now.n, below, now.n))
CALL(quantize, mst_quantize(1.5f, 3, src, now.n, codes, now.n))
CALL(split, mst_split(levels, now.split, gains, now.split))
CALL(meter_feed, mst_feed(&meter, src, now.n))
CALL(table_write, mst_table_write(now.table->bands, ROWS, now.table->gains, now.table->count, bytes, now.table->length_in[1]))
CALL(table_read, mst_table_read(now.table->bytes, now.table->length, gains, now.table->count, &bands, &rows))
CALL(table_read_block, mst_table_read_block(0, now.table->bytes, MST_BLOCK_BYTES, &form, &bands, &rows, &held))
CALL(table_to_form_1, mst_table_to_form_1(now.table->bytes, now.table->length, bytes, now.table->length_in[1]))
CALL(table_to_form_2, mst_table_to_form_2(now.table->bytes, now.table->length, bytes, now.table->length_in[2]))

#define LINE(name) {"mst_" #name, run_##name}
static const struct {
    const char *name;
    uint64_t (*call)(void);
} lines[] = {
    LINE(version), LINE(exp), LINE(reduced_range_exp), LINE(sigmoid), LINE(silu), LINE(swish), LINE(elu), LINE(tanh), LINE(erf),
    LINE(gelu), LINE(approx_gelu), LINE(sin), LINE(cos), LINE(sum), LINE(sum_square), LINE(sum_abs), LINE(sum_square_sub),
    LINE(sum_exp_sub), LINE(min_max), LINE(max_num), LINE(min_num), LINE(softmax), LINE(softmax_in_place), LINE(normalize),
    LINE(normalize_in_place), LINE(quantize), LINE(split), LINE(meter_feed), LINE(table_write), LINE(table_read),
    LINE(table_read_block), LINE(table_to_form_1), LINE(table_to_form_2)
};

static uint8_t stack[STACK_BYTES];
static uint8_t pattern;
static size_t untouched;
static uint64_t (*current)(void), answer;
static ucontext_t outside, inside;

/* Looks before it returns: what returning takes is not the call's. */
static void enter(void) {
    answer = current();
    for (untouched = 0; untouched < STACK_BYTES && stack[untouched] == pattern; untouched++)
        ;
}

/* Bytes of the stack that were written; 0 where the call was refused or the stack is too small. */
static size_t used_once(uint64_t (*call)(void), uint8_t filling) {
    pattern = filling;
    memset(stack, filling, sizeof stack);
    if (getcontext(&inside) != 0)
        return 0;
    inside.uc_stack.ss_sp = stack;
    inside.uc_stack.ss_size = sizeof stack;
    inside.uc_link = &outside;
    current = call;
    makecontext(&inside, enter, 0);
    if (swapcontext(&outside, &inside) != 0 || answer != MST_DONE || untouched == 0)
        return 0;
    return STACK_BYTES - untouched;
}

/* The first rounds have short slices, the others the longest ones, of every remainder by 32. */
static void set_round(int round) {
    const bool all_masked = round % 4 == 3;
    now.n = round < ROUNDS / 2 ? (size_t)round + 1 : (size_t)(N - (round - ROUNDS / 2));
    now.split = (size_t)round + 1;
    now.flush = round % 2 == 1;
    now.scaled = round % 2 == 0;
    now.biased = round / 2 % 2 == 0;
    now.weighed = all_masked ? silence : levels;
    now.table = &tables[round % TABLES];
    memcpy(buf, now.weighed, sizeof buf);
    meter = mst_meter_new();
}

/* The most of all rounds, with two patterns, since a call may write one of them itself; 0 where one failed. */
static size_t used(uint64_t (*call)(void)) {
    size_t most = 0;
    for (int round = 0; round < ROUNDS; round++)
        for (int i = 0; i < 2; i++) {
            set_round(round);
            const size_t once = used_once(call, i == 0 ? 0xEE : 0x11);
            if (once == 0)
                return 0;
            most = once > most ? once : most;
        }
    return most;
}

static void fill_slices(void) {
    for (int i = 0; i < N; i++) {
        const float scale = i % 5 == 0 ? 1.0f / 4096 : i % 5 == 1 ? 1.0f / 256 : 1.0f;
        src[i] = (float)(i % 241 - 120) * scale;
        below[i] = -(float)(i % 97);
        levels[i] = i % 7 == 3 ? -INFINITY : -(float)(i % 97) / 8;
        silence[i] = -INFINITY;
        ones[i] = 1.0f;
    }
}

/* 64 and 2 bands, each in form 1 and in form 2; the gains of a row are equal. */
static bool fill_tables(void) {
    for (int i = 0; i < TABLES; i++) {
        struct stored *t = &tables[i];
        t->bands = i < 2 ? MST_MOST_BANDS : 2;
        t->count = (size_t)t->bands * ROWS;
        for (size_t k = 0; k < t->count; k++)
            t->gains[k] = (uint16_t)(MST_PARTS / t->bands);
        t->length_in[1] = mst_table_length(1, t->bands, ROWS);
        t->length_in[2] = mst_table_length(2, t->bands, ROWS);
        t->length = t->length_in[1 + i % 2];
        if (mst_table_write(t->bands, ROWS, t->gains, t->count, bytes, t->length_in[1]) != MST_DONE)
            return false;
        if (i % 2 == 0)
            memcpy(t->bytes, bytes, t->length);
        else if (mst_table_to_form_2(bytes, t->length_in[1], t->bytes, t->length) != MST_DONE)
            return false;
    }
    return true;
}

int main(void) {
    fill_slices();
    if (!fill_tables()) {
        fprintf(stderr, "stack: a table could not be made: the archive is not that of include/masoritun.h\n");
        return 1;
    }
    const size_t base = used(run_nothing);
    for (size_t i = 0; i < sizeof lines / sizeof *lines; i++) {
        const size_t all = used(lines[i].call);
        if (base == 0 || all < base) {
            fprintf(stderr, "stack: %s was refused or took all the stack: is the archive that of include/masoritun.h?\n", lines[i].name);
            return 1;
        }
        printf("%-24s %6zu\n", lines[i].name, (all - base + ALIGNED - 1) / ALIGNED * ALIGNED);
    }
    return 0;
}
