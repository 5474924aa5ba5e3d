/* Faults for fuzz/planted, one for each build: -DFAULT_name, and the linker's --wrap puts it around the call. */
#include "masoritun.h"
#include <string.h>

#if defined(FAULT_split_total)
/* One part is lost. */
uint64_t __real_mst_split(const float *levels, size_t n, uint16_t *gains, size_t m);
uint64_t __wrap_mst_split(const float *levels, size_t n, uint16_t *gains, size_t m);
uint64_t __wrap_mst_split(const float *levels, size_t n, uint16_t *gains, size_t m) {
    const uint64_t answer = __real_mst_split(levels, n, gains, m);
    if (answer == 0 && n == 3 && gains[1] > 7)
        gains[1]--;
    return answer;
}

#elif defined(FAULT_split_tie)
/* Of equal remainders a higher band is favoured. */
uint64_t __real_mst_split(const float *levels, size_t n, uint16_t *gains, size_t m);
uint64_t __wrap_mst_split(const float *levels, size_t n, uint16_t *gains, size_t m);
uint64_t __wrap_mst_split(const float *levels, size_t n, uint16_t *gains, size_t m) {
    const uint64_t answer = __real_mst_split(levels, n, gains, m);
    if (answer == 0 && n > 1 && levels[0] == levels[1] && gains[0] == gains[1] + 1) {
        gains[0]--;
        gains[1]++;
    }
    return answer;
}

#elif defined(FAULT_quantize_reads_past)
uint64_t __real_mst_quantize(float inv_scale, uint8_t zero_point, const float *src, size_t n, uint8_t *dst, size_t m);
uint64_t __wrap_mst_quantize(float inv_scale, uint8_t zero_point, const float *src, size_t n, uint8_t *dst, size_t m);
uint64_t __wrap_mst_quantize(float inv_scale, uint8_t zero_point, const float *src, size_t n, uint8_t *dst, size_t m) {
    if (n > 0)
        (void)*(const volatile float *)(src + n);
    return __real_mst_quantize(inv_scale, zero_point, src, n, dst, m);
}

#elif defined(FAULT_softmax_writes_before)
uint64_t __real_mst_softmax(bool flush, const float *src, size_t n, float *dst, size_t m);
uint64_t __wrap_mst_softmax(bool flush, const float *src, size_t n, float *dst, size_t m);
uint64_t __wrap_mst_softmax(bool flush, const float *src, size_t n, float *dst, size_t m) {
    const uint64_t answer = __real_mst_softmax(flush, src, n, dst, m);
    if (answer == 0 && n == 5)
        *(volatile float *)(dst - 1) = 0;
    return answer;
}

#elif defined(FAULT_softmax_in_place_bit)
/* Another last bit than from one slice into another. */
uint64_t __real_mst_softmax_in_place(bool flush, float *buf, size_t n);
uint64_t __wrap_mst_softmax_in_place(bool flush, float *buf, size_t n);
uint64_t __wrap_mst_softmax_in_place(bool flush, float *buf, size_t n) {
    const uint64_t answer = __real_mst_softmax_in_place(flush, buf, n);
    if (answer == 0 && n == 7 && buf[6] > 0)
        buf[6] *= 1 - 0x1p-24f;
    return answer;
}

#elif defined(FAULT_normalize_reads_absent)
uint64_t __real_mst_normalize(float before, float scale, float bias, bool has_scale, const float *scales, size_t ns,
                              bool has_bias, const float *biases, size_t nb, const float *src, size_t n, float *dst, size_t m);
uint64_t __wrap_mst_normalize(float before, float scale, float bias, bool has_scale, const float *scales, size_t ns,
                              bool has_bias, const float *biases, size_t nb, const float *src, size_t n, float *dst, size_t m);
uint64_t __wrap_mst_normalize(float before, float scale, float bias, bool has_scale, const float *scales, size_t ns,
                              bool has_bias, const float *biases, size_t nb, const float *src, size_t n, float *dst, size_t m) {
    if (nb > 0)
        (void)*(const volatile float *)biases;
    return __real_mst_normalize(before, scale, bias, has_scale, scales, ns, has_bias, biases, nb, src, n, dst, m);
}

#elif defined(FAULT_max_num_number)
/* A number that is not in the call's list. */
uint64_t __real_mst_max_num(const float *src, size_t n, float *result);
uint64_t __wrap_mst_max_num(const float *src, size_t n, float *result);
uint64_t __wrap_mst_max_num(const float *src, size_t n, float *result) {
    const uint64_t answer = __real_mst_max_num(src, n, result);
    return mst_number(answer) == MST_TOO_MANY ? MST_LENGTH : answer;
}

#elif defined(FAULT_min_num_later_zero)
/* Of two zeros the later one. */
uint64_t __real_mst_min_num(const float *src, size_t n, float *result);
uint64_t __wrap_mst_min_num(const float *src, size_t n, float *result);
uint64_t __wrap_mst_min_num(const float *src, size_t n, float *result) {
    const uint64_t answer = __real_mst_min_num(src, n, result);
    for (size_t i = 0; answer == 0 && i < n; i++)
        if (src[i] == 0 && *result == 0)
            *result = src[i];
    return answer;
}

#elif defined(FAULT_sum_order)
/* From the last element to the first. */
uint64_t __real_mst_sum(const float *src, size_t n, float *result);
uint64_t __wrap_mst_sum(const float *src, size_t n, float *result);
uint64_t __wrap_mst_sum(const float *src, size_t n, float *result) {
    const uint64_t answer = __real_mst_sum(src, n, result);
    float sum = 0;
    for (size_t i = n; answer == 0 && i > 0; i--)
        sum += src[i - 1];
    *result = sum;
    return answer;
}

#elif defined(FAULT_sum_abs_refused_result)
/* A refusal that gives a number back. */
uint64_t __real_mst_sum_abs(const float *src, size_t n, float *result);
uint64_t __wrap_mst_sum_abs(const float *src, size_t n, float *result);
uint64_t __wrap_mst_sum_abs(const float *src, size_t n, float *result) {
    const uint64_t answer = __real_mst_sum_abs(src, n, result);
    if (mst_number(answer) == MST_DOMAIN && mst_place(answer) > 0)
        *result = 1;
    return answer;
}

#elif defined(FAULT_tanh_place)
/* The place after the right one. */
uint64_t __real_mst_tanh(const float *src, size_t n, float *dst, size_t m);
uint64_t __wrap_mst_tanh(const float *src, size_t n, float *dst, size_t m);
uint64_t __wrap_mst_tanh(const float *src, size_t n, float *dst, size_t m) {
    const uint64_t answer = __real_mst_tanh(src, n, dst, m);
    return mst_number(answer) == MST_DOMAIN && mst_place(answer) == 9 ? answer + 256 : answer;
}

#elif defined(FAULT_sin_by_index)
/* The eighth element is worked out in another way. */
uint64_t __real_mst_sin(const float *src, size_t n, float *dst, size_t m);
uint64_t __wrap_mst_sin(const float *src, size_t n, float *dst, size_t m);
uint64_t __wrap_mst_sin(const float *src, size_t n, float *dst, size_t m) {
    const uint64_t answer = __real_mst_sin(src, n, dst, m);
    if (answer == 0 && n > 7)
        dst[7] *= 1 - 0x1p-23f;
    return answer;
}

#elif defined(FAULT_silu_product)
/* x times the sigmoid, not x divided by the sum. */
uint64_t __real_mst_silu(const float *src, size_t n, float *dst, size_t m);
uint64_t __wrap_mst_silu(const float *src, size_t n, float *dst, size_t m);
uint64_t __wrap_mst_silu(const float *src, size_t n, float *dst, size_t m) {
    const uint64_t answer = mst_sigmoid(src, n, dst, m);
    for (size_t i = 0; answer == 0 && i < n; i++)
        dst[i] *= src[i];
    return answer;
}

#elif defined(FAULT_exp_sets_ftz)
/* The thread's word is left with FTZ. */
uint64_t __real_mst_exp(const float *src, size_t n, float *dst, size_t m);
uint64_t __wrap_mst_exp(const float *src, size_t n, float *dst, size_t m);
uint64_t __wrap_mst_exp(const float *src, size_t n, float *dst, size_t m) {
#ifdef __x86_64__
    _mm_setcsr(_mm_getcsr() | 0x8000);
#else
    __asm__ __volatile__("msr fpcr, %0" : : "r"((uint64_t)1 << 24) : "memory");
#endif
    return __real_mst_exp(src, n, dst, m);
}

#elif defined(FAULT_meter_forgets_over)
/* -1.0 is not counted. */
uint64_t __real_mst_meter_feed(uint32_t *count, uint32_t *overs, float *squares, float *least, float *largest, const float *src,
                               size_t n);
uint64_t __wrap_mst_meter_feed(uint32_t *count, uint32_t *overs, float *squares, float *least, float *largest, const float *src,
                               size_t n);
uint64_t __wrap_mst_meter_feed(uint32_t *count, uint32_t *overs, float *squares, float *least, float *largest, const float *src,
                               size_t n) {
    const uint64_t answer = __real_mst_meter_feed(count, overs, squares, least, largest, src, n);
    for (size_t i = 0; answer == 0 && i < n; i++)
        *overs -= src[i] == -1;
    return answer;
}

#else
#error "name a fault: -DFAULT_name"
#endif
