#include "input.h"
#include <string.h>

/* Zeros, ends of the subnormal and of the normal range, full scale, the bounds named in docs/RULES.md, and what is not finite. */
static const uint32_t odd[] = {
    0x00000000, 0x80000000, 0x00000001, 0x80000001, 0x007fffff, 0x00800000, 0x3f800000, 0xbf800000, 0x3f7fffff, 0xbf7fffff,
    0x3f800001, 0x3f000000, 0x42d00000, 0xc2d00000, 0xc2af5dc0, 0x473b8000, 0x473b7fff, 0x39d1b717, 0x3f0ccccd, 0x411051ec,
    0x4b000000, 0x4f000000, 0x7f7fffff, 0xff7fffff, 0x7f800000, 0xff800000, 0x7fc00000, 0x7f800001, 0xffc00001,
};
enum { ODD_ALL = sizeof odd / sizeof *odd, ODD_FINITE = ODD_ALL - 5 };

enum style { COARSE, FINE, WIDE, SMALL, ODD, LEVELS, MIXED, ANY, STYLES };

void input_open(struct input *in, const uint8_t *bytes, size_t size) {
    in->next = bytes;
    in->left = size;
    in->state = 1;
    const uint32_t low = input_byte(in);
    const uint32_t high = input_byte(in);
    in->state = 0x10000u + 256u * high + low;
}

uint8_t input_byte(struct input *in) {
    if (in->left > 0) {
        in->left--;
        return *in->next++;
    }
    in->state ^= in->state << 13;
    in->state ^= in->state >> 17;
    in->state ^= in->state << 5;
    return (uint8_t)(in->state >> 11);
}

uint32_t input_word(struct input *in) {
    uint32_t word = 0;
    for (int i = 0; i < 4; i++)
        word = word << 8 | input_byte(in);
    return word;
}

uint32_t input_below(struct input *in, uint32_t limit) {
    return limit <= 256 ? input_byte(in) % limit : input_word(in) % limit;
}

bool input_rarely(struct input *in, unsigned parts) { return input_byte(in) < parts; }

size_t input_length(struct input *in) {
    static const size_t limits[] = {16384, 16385, 16383, 16384, 20000, 8192, 4097, 1024};
    const uint8_t kind = input_byte(in);
    if (kind < 200)
        return kind % 40;
    if (kind < 248)
        return input_below(in, 300);
    return limits[kind % 8];
}

size_t input_near(struct input *in, size_t n) {
    const uint8_t kind = input_byte(in);
    if (kind < 236)
        return n;
    if (kind < 242)
        return n + 1;
    if (kind < 248 && n > 0)
        return n - 1;
    return input_length(in);
}

static float float_of(uint32_t pattern) {
    float x;
    memcpy(&x, &pattern, sizeof x);
    return x;
}

/* Finite: an exponent of all ones becomes the one below. */
static uint32_t finite_pattern(uint32_t pattern) {
    return (pattern & 0x7f800000u) == 0x7f800000u ? pattern & ~0x00800000u : pattern;
}

static float element(struct input *in, enum style style) {
    switch (style) {
    case COARSE: return (float)(int8_t)input_byte(in) / 4;
    case FINE: return (float)((int)input_below(in, 65536) - 32768) / 256;
    case WIDE: return float_of(finite_pattern(input_word(in)));
    case SMALL: return float_of(input_word(in) & 0x81ffffffu);
    case ODD: return float_of(odd[input_below(in, ODD_FINITE)]);
    case LEVELS: return input_rarely(in, 40) ? float_of(0xff800000u) : element(in, COARSE);
    case MIXED: return element(in, (enum style)input_below(in, LEVELS));
    default: return input_rarely(in, 128) ? float_of(input_word(in)) : float_of(odd[input_below(in, ODD_ALL)]);
    }
}

float input_setting(struct input *in) {
    const enum style style = (enum style)input_below(in, STYLES);
    if (input_rarely(in, 192) && (style == LEVELS || style == ANY))
        return element(in, FINE);
    return element(in, style);
}

/* Domains have a side: at times all of a slice lies on one. */
static void set_signs(float *x, size_t n, bool negative) {
    for (size_t i = 0; i < n; i++) {
        uint32_t pattern;
        memcpy(&pattern, x + i, sizeof pattern);
        x[i] = float_of(negative ? pattern | 0x80000000u : pattern & 0x7fffffffu);
    }
}

void input_floats(struct input *in, float *to, size_t n) {
    const enum style style = (enum style)input_below(in, STYLES);
    const uint8_t sign = input_byte(in);
    const bool one_odd = input_rarely(in, 32);
    for (size_t i = 0; i < n; i++)
        to[i] = element(in, style);
    if (sign < 96)
        set_signs(to, n, sign < 64);
    if (one_odd && n > 0) {
        const size_t at = input_below(in, (uint32_t)n);
        to[at] = float_of(odd[input_below(in, ODD_ALL)]);
    }
}
