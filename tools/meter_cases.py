#!/usr/bin/env python3
"""Writes crates/meter_cases/stdin and stdout: feedings, and the meter that document 01 gives after each. Run it at the top of the repository."""
from case_files import words, write_lines
from exact import INF, MASK, MINUS_INF, NAN, ONE, is_finite, is_nan, plus, times

MINUS_ZERO, MINUS_ONE = 0x80000000, 0xBF800000
NEW = (0, 0, 0, INF, MINUS_INF)
FULL = 4294967295
STORED = 12
SAMPLES = [
    0x3F000000, 0xBF800000, 0x00000000, 0x80000000, 0x3DCCCCCD, 0xBE99999A, 0x3F7FBE77, 0x00000001, 0xC0490FDB, 0x3A83126F, 0xBF666666, 0x3F8CCCCD,
]


def key(n):
    """Orders patterns as numbers; both zeros are equal."""
    return -(n & MASK) if n >> 31 else n


def feed(meter, samples):
    """Number, place and the meter afterwards."""
    count, overs, squares, least, largest = meter
    if len(samples) > 16384 or count + len(samples) > FULL:
        return 2, 0, meter
    if is_nan(squares) or is_nan(least) or is_nan(largest) or key(squares) < 0 or overs > count:
        return 3, 0, meter
    for i, x in enumerate(samples):
        if not is_finite(x):
            return 4, i, meter
    for x in samples:
        overs += (x & MASK) >= ONE
        squares = plus(times(x, x), squares)
        least = x if key(x) < key(least) else least
        largest = x if key(x) > key(largest) else largest
    return 0, 0, (count + len(samples), overs, squares, least, largest)


def cases():
    """The meter that is given, None for the held one, and the samples."""
    yield None, []
    yield None, SAMPLES
    yield NEW, SAMPLES[:6]
    yield None, SAMPLES[6:]
    for i, sample in enumerate(SAMPLES):
        yield None if i else NEW, [sample]
    # the limits of a feeding and of the count
    yield NEW, [ONE] * 16385
    yield NEW, [ONE] * 16384
    yield (FULL, 0, 0, 0, 0), [ONE]
    yield (FULL, FULL, 0, 0, 0), []
    yield (FULL - 1, FULL - 1, 0, 0, 0), [ONE]
    yield (FULL - 5, 0, 0, 0, 0), SAMPLES[:6]
    yield (FULL - 6, 0, 0, 0, 0), SAMPLES[:6]
    yield (FULL - 16384, FULL - 16384, 0, 0, 0), [ONE] * 16384
    yield (FULL - 16383, 0, 0, 0, 0), [ONE] * 16384
    # meters that are refused, and those that are not
    for bad in (NAN, 0, 0), (0, NAN, 0), (0, 0, NAN), (0x7F800001, 0xFFFFFFFF, NAN), (MINUS_ONE, 0, 0), (MINUS_INF, 0, 0), (0x80000001, 0, 0):
        yield (1, 0, *bad), []
    for good in (MINUS_ZERO, 0, 0), (INF, 0, 0), (0, INF, INF), (0, MINUS_INF, MINUS_INF), (0, ONE, MINUS_ONE):
        yield (1, 0, *good), []
        yield None, SAMPLES[:2]
    # overs: of the count and past it, an empty feeding too; at 1.0 and beside it; none of what is small
    for count, overs in (0, 1), (5, 6), (5, FULL), (5, 5), (FULL - 2, FULL - 1), (FULL - 2, FULL - 2):
        yield (count, overs, 0, 0, 0), []
        yield None, SAMPLES[:2]
    for sample in ONE, MINUS_ONE, ONE - 1, MINUS_ONE - 1, ONE + 1, MINUS_ONE + 1, 0, MINUS_ZERO, 1, 0x80000001, 0x007FFFFF, 0x7F7FFFFF:
        yield NEW, [sample]
        yield None, [0x3F000000, sample]
    # samples that are refused, and those that are not
    yield NEW, [ONE, 0x40000000, NAN, NAN]
    yield NEW, [INF]
    yield NEW, [ONE, MINUS_INF]
    yield NEW, [0x80000000, 0]
    yield NEW, [0, 0x80000000]
    yield NEW, [0x7F7FFFFF]
    yield None, [0xFF7FFFFF, 1]
    # several at once: 2 before 3 before 4
    yield (FULL, 0, NAN, 0, 0), [NAN]
    yield (0, 0, NAN, 0, 0), [NAN] + [ONE] * 16384
    yield (0, 0, NAN, 0, 0), [NAN]
    yield (1, 0, MINUS_ONE, 0, 0), [ONE, 0x40000000, NAN, NAN]
    yield (FULL - 1, FULL, 0, 0, 0), [NAN, NAN]
    yield (0, 1, 0, 0, 0), [NAN] + [ONE] * 16384
    yield (0, 1, 0, 0, 0), [NAN]
    yield (0, 1, 0, 0, 0), [ONE]


def main():
    asked, told, held = [], [], NEW
    for given, samples in cases():
        assert all(x == ONE for x in samples[STORED:])
        stored = (samples + [ONE] * STORED)[:STORED]
        asked.append(words([int(given is None), *(given or (0,) * 5), len(samples), *stored]))
        number, place, held = feed(given or held, samples)
        # a NaN is written as 7fc00000, whatever its pattern was
        told.append(f"{number} {place} {held[0]} {held[1]} " + words(NAN if is_nan(w) else w for w in held[2:]))
    told.append(f"{len(asked)} cases")
    write_lines("crates/meter_cases/stdin", asked)
    write_lines("crates/meter_cases/stdout", told)


if __name__ == "__main__":
    main()
