#define _DEFAULT_SOURCE
#include "check.h"
#include "lend.h"
#include "masoritun.h"
#include <signal.h>
#include <stdarg.h>
#include <stdio.h>
#include <stdlib.h>
#include <string.h>
#include <unistd.h>

#define N(number) (1u << (number))
enum {
    UNARY = N(1) | N(2) | N(4),
    FOLD = N(2) | N(4),
    SETTING = N(3),
    READING = N(9) | N(10) | N(11) | N(8) | N(12),
    PLACED = N(4) | N(6) | N(8) | N(10) | N(11) | N(12)
};

/* The refusals that the header names for each call. */
static const struct {
    const char *name;
    unsigned refusals;
} calls[CALLS] = {
    [CALL_EXP] = {"mst_exp", UNARY},
    [CALL_REDUCED_RANGE_EXP] = {"mst_reduced_range_exp", UNARY},
    [CALL_SIGMOID] = {"mst_sigmoid", UNARY},
    [CALL_SILU] = {"mst_silu", UNARY},
    [CALL_TANH] = {"mst_tanh", UNARY},
    [CALL_ERF] = {"mst_erf", UNARY},
    [CALL_GELU] = {"mst_gelu", UNARY},
    [CALL_APPROX_GELU] = {"mst_approx_gelu", UNARY},
    [CALL_SIN] = {"mst_sin", UNARY},
    [CALL_COS] = {"mst_cos", UNARY},
    [CALL_SWISH] = {"mst_swish", UNARY | SETTING},
    [CALL_ELU] = {"mst_elu", UNARY | SETTING},
    [CALL_SUM] = {"mst_sum", FOLD},
    [CALL_SUM_SQUARE] = {"mst_sum_square", FOLD},
    [CALL_SUM_ABS] = {"mst_sum_abs", FOLD},
    [CALL_SUM_SQUARE_SUB] = {"mst_sum_square_sub", FOLD | SETTING},
    [CALL_SUM_EXP_SUB] = {"mst_sum_exp_sub", FOLD | SETTING},
    [CALL_MIN_MAX] = {"mst_min_max", FOLD},
    [CALL_MAX_NUM] = {"mst_max_num", FOLD},
    [CALL_MIN_NUM] = {"mst_min_num", FOLD},
    [CALL_SOFTMAX] = {"mst_softmax", UNARY | N(5)},
    [CALL_SOFTMAX_IN_PLACE] = {"mst_softmax_in_place", FOLD | N(5)},
    [CALL_NORMALIZE] = {"mst_normalize", UNARY | SETTING | N(6)},
    [CALL_NORMALIZE_IN_PLACE] = {"mst_normalize_in_place", UNARY | SETTING | N(6)},
    [CALL_QUANTIZE] = {"mst_quantize", UNARY | SETTING},
    [CALL_SPLIT] = {"mst_split", N(7) | N(1) | N(4) | N(5)},
    [CALL_METER_FEED] = {"mst_meter_feed", FOLD | SETTING},
    [CALL_TABLE_WRITE] = {"mst_table_write", N(7) | N(1) | N(9) | N(8)},
    [CALL_TABLE_READ] = {"mst_table_read", READING | N(1)},
    [CALL_TABLE_READ_BLOCK] = {"mst_table_read_block", READING},
    [CALL_TABLE_TO_FORM_1] = {"mst_table_to_form_1", READING},
    [CALL_TABLE_TO_FORM_2] = {"mst_table_to_form_2", READING | N(15)},
};

static const char *current = "no call yet";
static uint64_t digest = 0x6d61736f72697475;
static uint64_t answered[CALLS][NUMBERS];

/* libFuzzer counts these like covered code: an input that brings a new refusal of a call is kept. */
__attribute__((section("__libfuzzer_extra_counters"))) static uint8_t reached[CALLS][NUMBERS];

void fail(const char *format, ...) {
    va_list list;
    va_start(list, format);
    fprintf(stderr, "fuzz: %s: ", current);
    vfprintf(stderr, format, list);
    fprintf(stderr, "\n");
    va_end(list);
    abort();
}

static void on_signal(int number) {
    if (number == SIGFPE)
        fail("a float operation trapped");
    fail("touched memory that was not lent (signal %d)", number);
}

void catch_signals(void) {
    static const int numbers[] = {SIGSEGV, SIGBUS, SIGFPE};
    struct sigaction action;
    memset(&action, 0, sizeof action);
    action.sa_handler = on_signal;
    for (size_t i = 0; i < sizeof numbers / sizeof *numbers; i++)
        sigaction(numbers[i], &action, NULL);
}

uint64_t answer_of(unsigned number, uint64_t place) { return place << 8 | number; }

bool same_floats(const float *a, const float *b, size_t n) { return n == 0 || memcmp(a, b, n * sizeof *a) == 0; }

void copy_bytes(void *to, const void *from, size_t bytes) {
    if (bytes > 0)
        memcpy(to, from, bytes);
}

static void digest_word(uint64_t word) {
    digest = (digest ^ word) * 0x100000001b3;
    digest ^= digest >> 29;
}

void digest_add(const void *bytes, size_t n) {
    const uint8_t *next = bytes;
    uint64_t word;
    for (; n >= sizeof word; n -= sizeof word, next += sizeof word) {
        memcpy(&word, next, sizeof word);
        digest_word(word);
    }
    for (; n > 0; n--)
        digest_word(*next++);
}

uint64_t digest_now(void) { return digest; }
const char *call_name(enum call_id id) { return calls[id].name; }
uint64_t times_answered(enum call_id id, unsigned number) { return answered[id][number]; }

static void judge_answer(enum call_id id, uint64_t answer, uint64_t expected) {
    const unsigned number = mst_number(answer);
    const unsigned long long place = mst_place(answer);
    if (number >= NUMBERS || (N(number) & (calls[id].refusals | N(0))) == 0)
        fail("answered %u, which is not in its list", number);
    if ((N(number) & PLACED) == 0 && place != 0)
        fail("answered %u, which has no place, at %llu", number, place);
    if (answer != expected)
        fail("answered %u at %llu, not %u at %llu", number, place, mst_number(expected),
             (unsigned long long)mst_place(expected));
    answered[id][number]++;
    reached[id][number]++;
}

uint64_t made(struct input *in, enum call_id id, make_call make, const void *args, uint64_t expected) {
    current = calls[id].name;
    lent_before();
    const uint64_t answer = make(args);
    const bool plain = word_is_plain();
    word_set_plain();
    if (!plain)
        fail("left the thread's float control word changed");
    judge_answer(id, answer, expected);
    lent_judge(answer != 0);
    lent_rewind();
    const uint64_t again = word_under_host(in, make, args);
    if (again != answer)
        fail("answered %u, and %u under a host's word with the guard", mst_number(answer), mst_number(again));
    lent_judge(answer != 0);
    if (!lent_as_noted())
        fail("gave other bits under a host's word with the guard");
    digest_add(&answer, sizeof answer);
    lent_digest();
    return answer;
}
