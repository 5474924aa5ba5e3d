"""What joining.c prints, by docs/RULES.md and by no code of the library. For expected.py.

The gains come from tools/exact.py. A sample is a whole number of 2^-23, a gain one of 2^-15, so every product and every sum is a whole
number of 2^-38. Rounding to a float is rounding to its 24 or 53 digits, since none of these numbers is subnormal: all of it is done in
whole numbers.
"""
from fractions import Fraction

import exact
from expected_calls import drawn

BANDS, SPLITS, SAMPLES = 6, 2000, 500


def rounded(n, digits):
    """The whole number of at most so many binary digits that is nearest to n, with zeros after them; ties to even."""
    over = abs(n).bit_length() - digits
    if over <= 0:
        return n
    low, rest, half = n >> over, n & (1 << over) - 1, 1 << over - 1
    return low + (rest > half or rest == half and low & 1) << over


def joined(gains, sample, digits):
    total = 0
    for gain in gains:
        total = rounded(total + rounded(sample * gain, digits), digits)
    return total


def joined_in_integers(gains, sample):
    """As in C the quotient is cut toward zero."""
    total = sum(gain * sample for gain in gains)
    return -(-total // 32768) if total < 0 else total // 32768


def joining():
    draw = drawn()
    differ = {"f32": 0, "double": 0, "64-bit integers": 0}
    for _ in range(SPLITS):
        gains = exact.gains([exact.pattern(Fraction(-(next(draw) >> 22), 64)) for _ in range(BANDS)])
        for _ in range(SAMPLES):
            sample = (next(draw) >> 8) - 2**23
            differ["f32"] += joined(gains, sample, 24) != sample * 32768
            differ["double"] += joined(gains, sample, 53) != sample * 32768
            differ["64-bit integers"] += joined_in_integers(gains, sample) != sample
    samples = SPLITS * SAMPLES
    yield f"{samples} samples of 24 bits, {BANDS} bands, {SPLITS} splits"
    for name, count in differ.items():
        yield f"joined in {name}: {count} differ, {100 * count / samples:.1f} %"
