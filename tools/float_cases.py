#!/usr/bin/env python3
"""Writes crates/float_cases/stdout: what document 01 gives on the inputs that stand in crates/float_cases/src/main.rt.

Run it at the top of the repository.
"""
import re

from case_files import words, write_lines
from exact import MASK, SIGN, is_finite, is_nan, pattern, value, whole

SOURCE = open("crates/float_cases/src/main.rt", encoding="utf-8").read()


def table(name):
    body = re.search(r"const %s: \[u32; \d+\] = \[(.*?)\];" % name, SOURCE, re.S)[1]
    return [int(x, 16) for x in re.findall(r"0x[0-9a-f]{8}", body)]


def rounded(n):
    """To the nearest whole number, its sign kept."""
    return n & SIGN | pattern(whole(value(n & MASK))) if is_finite(n) else n


lines = []
for n in table("FLOATS"):
    away = n if is_nan(n) else n & MASK
    lines.append(words([n, rounded(n), away, away]) + (" finite" if is_finite(n) else " not finite"))
for a in table("WORDS"):
    for b in table("WORDS"):
        lines.append(words([a, b, (a + b) % 2**32, (a - b) % 2**32, a * 2**23 % 2**32]))
write_lines("crates/float_cases/stdout", lines)
