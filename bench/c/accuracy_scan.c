/* Goes through the patterns of an operator's domain, in two threads. */
#include <pthread.h>
#include <stdatomic.h>

#include "accuracy.h"

enum { THREADS = 2, PIECE = 1 << 20 /* patterns that a thread takes at a time */ };

struct share {
    const struct operation *operation;
    uint32_t stride;
    atomic_uint *pieces_taken;
    struct result result;
    /* The elements of one call. */
    uint32_t patterns[MST_MOST_ELEMENTS];
    float src[MST_MOST_ELEMENTS], dst[MST_MOST_ELEMENTS];
    size_t held;
};

static double range_number(enum range_by by, double x, double exact) {
    return by == BY_INPUT ? x : fabs(by == BY_INPUT_SIZE ? x : exact);
}

/* Calls the library with what is held and compares its results. */
static void call_held(struct share *share) {
    const struct operation *operation = share->operation;
    done_or_fail(operation->name, operation->call(share->src, share->held, share->dst, share->held));
    share->result.inputs += share->held;
    for (size_t i = 0; i < share->held; i++) {
        const double x = share->src[i], exact = operation->exact(x);
        const struct errors errors = errors_of(share->dst[i], exact);
        for (int r = 0; operation->ranges[r].name; r++) {
            const struct range *range = &operation->ranges[r];
            const double number = range_number(range->by, x, exact);
            if (number >= range->least && number <= range->most) {
                keep(&share->result.ulps[r], errors.ulps, share->patterns[i]);
                keep(&share->result.absolute[r], errors.absolute, share->patterns[i]);
            }
        }
    }
    share->held = 0;
}

static void hold(struct share *share, uint32_t pattern) {
    const float x = of_pattern(pattern);
    if (!(x >= share->operation->least && x <= share->operation->most))
        return;
    share->patterns[share->held] = pattern;
    share->src[share->held++] = x;
    if (share->held == MST_MOST_ELEMENTS)
        call_held(share);
}

static void *work(void *given) {
    struct share *share = given;
    const uint64_t patterns = (((uint64_t)1 << 32) + share->stride - 1) / share->stride;
    for (;;) {
        const uint64_t first = (uint64_t)atomic_fetch_add(share->pieces_taken, 1) * PIECE;
        if (first >= patterns)
            break;
        for (uint64_t i = first; i < patterns && i < first + PIECE; i++)
            hold(share, (uint32_t)(i * share->stride));
    }
    call_held(share);
    return 0;
}

static void clear(struct result *result) {
    const struct worst none = {-1, 0};
    for (int r = 0; r < MOST_RANGES; r++)
        result->ulps[r] = result->absolute[r] = none;
    result->inputs = 0;
}

struct result scan(const struct operation *operation, uint32_t stride) {
    static struct share shares[THREADS];
    pthread_t threads[THREADS];
    atomic_uint pieces_taken = 0;
    struct result result;
    clear(&result);
    for (int t = 0; t < THREADS; t++) {
        shares[t].operation = operation;
        shares[t].stride = stride;
        shares[t].pieces_taken = &pieces_taken;
        shares[t].held = 0;
        clear(&shares[t].result);
        if (pthread_create(&threads[t], 0, work, &shares[t]) != 0)
            fail("the system gives no thread");
    }
    for (int t = 0; t < THREADS; t++) {
        pthread_join(threads[t], 0);
        result.inputs += shares[t].result.inputs;
        for (int r = 0; r < MOST_RANGES; r++) {
            keep(&result.ulps[r], shares[t].result.ulps[r].error, shares[t].result.ulps[r].place);
            keep(&result.absolute[r], shares[t].result.absolute[r].error, shares[t].result.absolute[r].place);
        }
    }
    return result;
}
