#!/usr/bin/env python3
"""Writes crates/normalize_cases/stdin and stdout: cases of three elements, and what document 01 gives for them. Run it at the top of the repository."""
from case_files import words, write_lines
from exact import INF, MASK, NAN, ONE, SIGN, is_finite, is_nan, plus, times

MOST, ZERO, MINUS_ZERO, TWO, HALF, MINUS_ONE, MINUS_MOST = 0x7F7FFFFF, 0, 0x80000000, 0x40000000, 0x3F000000, 0xBF800000, 0xFF7FFFFF


def result(shift, scale, bias, e, b, x):
    """One of the three arms; e and b are None where the slice is absent."""
    y = plus(x, shift ^ SIGN)
    if e is None and b is None:
        return plus(times(y, scale), bias)
    factor = times(ONE if e is None else e, scale)
    if b is None and bias & MASK == 0:
        return times(y, factor)
    return plus(times(y, factor), plus(ZERO if b is None else b, bias))


def normalize(settings, scales, biases, data):
    """Number, place and the results; scales and biases are None where absent."""
    if not all(map(is_finite, settings)):
        return 3, 0, None
    used = [s for s in (data, scales, biases) if s is not None]
    for i in range(3):
        if not all(is_finite(s[i]) for s in used):
            return 4, i, None
    out = [result(*settings, scales and scales[i], biases and biases[i], data[i]) for i in range(3)]
    for i in range(3):
        if is_nan(out[i]):
            return 6, i, None
    return 0, 0, out


SETTINGS = [
    (ZERO, ONE, ZERO), (ONE, TWO, HALF), (HALF, MINUS_ONE, MINUS_ZERO), (MOST, ZERO, ZERO), (MINUS_MOST, TWO, ONE), (MINUS_MOST, ZERO, MINUS_ZERO),
    (NAN, ONE, ZERO), (ONE, INF, ZERO), (ONE, ONE, NAN),
]
ROWS = [(ONE, TWO, HALF), (MINUS_ZERO, ZERO, MINUS_ONE), (ONE, MOST, MINUS_MOST), (ZERO, HALF, MOST), (ONE, NAN, ONE), (ONE, ONE, INF)]

asked, told = [], []
for settings in SETTINGS:
    # a bad setting is refused before a bad element
    for data in ROWS if all(map(is_finite, settings)) else ROWS[4:5]:
        for scales in None, ROWS[1], ROWS[2], ROWS[4]:
            for biases in None, ROWS[1], ROWS[5]:
                # an absent slice holds NaN, which is not looked at
                given = [*settings, int(scales is not None), int(biases is not None), *(scales or (NAN,) * 3), *(biases or (NAN,) * 3), *data]
                asked.append(words(given))
                number, place, out = normalize(settings, scales, biases, data)
                for kept in (0x40E00000,) * 3, data:
                    told.append(f"{number} {place} " + words(kept if out is None else out))
write_lines("crates/normalize_cases/stdin", asked)
write_lines("crates/normalize_cases/stdout", told)
