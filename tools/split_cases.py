#!/usr/bin/env python3
"""Writes crates/split_cases/stdin and stdout: levels, and what document 01 gives for them. Run it at the top of the repository."""
import random
from fractions import Fraction

from case_files import words, write_lines
from exact import INF, MINUS_INF, NAN, drawn, pattern, split

LEVELS = [0, 0x80000000, 0x3F800000, 0xBF800000, 0x3DCCCCCD, 0x40490FDB, 0xC1200000, 0x42C80000, 0xC2C80000, 0x7F7FFFFF, 0xFF7FFFFF, 1]
WIDE = 17, 63, 64


def refused():
    """Refusals, and their order."""
    yield 0, []
    yield 3, []
    yield 65, [0] * 65
    yield 64, [0] * 65
    yield 1, [NAN] * 65
    yield 3, [0, 0]
    yield 1, [0, NAN]
    yield 2, [0, NAN]
    yield 3, [0, 0x7F800001, INF]
    yield 2, [MINUS_INF, INF]
    yield 2, [MINUS_INF] * 2
    yield 1, [MINUS_INF]
    yield 16, [MINUS_INF] * 16
    for n in WIDE:
        yield n - 1, [0] * n
        yield n + 1, [NAN] * n
        yield n, [0] * (n - 1) + [NAN]
        yield n, [MINUS_INF] * (n - 1) + [INF]
        yield n, [MINUS_INF] * n


def spread():
    """Huge spreads, and levels that fall step by step."""
    yield [0x7F7FFFFF, 0xFF7FFFFF]
    yield [0xFF7FFFFF, MINUS_INF]
    yield [0x7F7FFFFF, 0x7F7FFFFF, 0]
    yield [0, 0xC2AF58A3, 0xC2AF58A4]
    for n in WIDE:
        yield [0xFF7FFFFF] * (n - 1) + [0x7F7FFFFF]
        yield [0x7F7FFFFF, 0xFF7FFFFF] * (n // 2) + [0] * (n % 2)
        yield [MINUS_INF] * (n - 1) + [0xFF7FFFFF]
        for step in Fraction(1, 64), Fraction(1, 4), Fraction(3, 2):
            yield [pattern(-i * step) for i in range(n)]


def of_draws(n, draw):
    for size in 2, 20, 90:
        levels = [drawn(draw, size) for _ in range(n)]
        yield levels
        yield [MINUS_INF if draw.randrange(3) == 0 else x for x in levels]


def cases():
    """The gains lent, and the levels."""
    # document 01's worked cases
    for levels in [0], [0, 0], [0, 0xC2C80000], [0, MINUS_INF, 0]:
        yield len(levels), levels
    for level in LEVELS:
        yield 3, [level] * 3
        yield 5, [level] * 5
    for n in range(1, 65):
        yield n, [0x3F333333] * n
    yield from refused()
    for levels in spread():
        yield len(levels), levels
    # -0.27 beside 0, and 0 beside -4.99: a tie in steps of 2^-24, none in finer ones
    for level in 0xBE8A3D71, 0xC09FAE14:
        yield 2, [level, 0]
        yield 2, [0, level]
    # one level far above the others, by less and less
    for k in range(1, 26):
        yield 4, [0, 0xBF000000 + (k << 20), 0xBF000000 + (k << 20), MINUS_INF]
    draw = random.Random("split")
    for n in *range(1, 17), *WIDE:
        for levels in of_draws(n, draw):
            yield n, levels


def main():
    asked, told = [], []
    for lent, levels in cases():
        asked.append(words([lent, len(levels), *levels]))
        number, place, left = split(levels, lent)
        told.append(f"{number} {place}:" + "".join(f" {g}" for g in left) + f", sum {sum(left)}")
    write_lines("crates/split_cases/stdin", asked)
    write_lines("crates/split_cases/stdout", told)


if __name__ == "__main__":
    main()
