#!/usr/bin/env python3
"""Writes crates/unary_cases/stdin and stdout: calls of the operators, and what documents 01 and 02 give for them.

Refusals follow document 01's numbered list and domains; the values are the steps of exp.rs, tanh.rs and sin_cos.rs by its readings.
Run it at the top of the repository.
"""
from case_files import words, write_lines
from exact import INF, MASK, MINUS_INF, NAN, ONE, SIGN, exp_parts, is_finite, near, pattern, reduced_range_exp, rounded, sin_cos, value

ROOM, LIMIT, SEVEN = 16385, 16384, 0x40E00000
ZERO, MINUS_ZERO, MINUS_ONE, HALF, LEAST, MINUS_MOST = 0, 0x80000000, 0xBF800000, 0x3F000000, 1, 0xFF7FFFFF
OPERATORS = "exp reduced_range_exp sigmoid silu swish elu tanh erf gelu approx_gelu sin cos".split()


# exp.rs
def exp(n):
    """Exp of a pattern: x at or above 104 gives +infinity, at or below -104 gives +0."""
    x = value(n)
    if abs(x) >= 104:
        return INF if x > 0 else ZERO
    k, p = exp_parts(x)
    # the scale factors come from 32-bit patterns that wrap
    low = 0 if k > 0 else 0x83000000
    s, t = (low + 0x7F000000) % 2**32, ((k << 23) - low) % 2**32
    return pattern(rounded(p * value(s)) * value(t))


# tanh.rs, in two of its arms: |x| from 9.02 on gives 1, to 0.0004 |x|; the sign is that of x, of a zero too (document 02, L4)
def tanh(n):
    size = value(n & MASK)
    assert size >= near("9.02") or size <= near("0.0004")
    return (ONE if size >= near("9.02") else n & MASK) | n & SIGN


VALUES = {
    "exp": exp, "reduced_range_exp": lambda n: pattern(reduced_range_exp(value(n))), "tanh": tanh,
    "sin": lambda n: pattern(sin_cos(value(n), False)), "cos": lambda n: pattern(sin_cos(value(n), True)),
}


def in_domain(op, n):
    """Finite; also at most zero for ReducedRangeExp; also below 48,000 in size for Sin and Cos."""
    if not is_finite(n):
        return False
    return {"reduced_range_exp": value(n) <= 0, "sin": abs(value(n)) < 48000, "cos": abs(value(n)) < 48000}.get(op, True)


def apply(op, alpha, src, lent):
    """Number, place and what is written: the lowest of 1 to 4 that applies is given, and empty input succeeds."""
    if len(src) != lent:
        return 1, 0, None
    if len(src) > LIMIT:
        return 2, 0, None
    if op in ("swish", "elu") and not is_finite(alpha):
        return 3, 0, None
    for i, n in enumerate(src):
        if not in_domain(op, n):
            return 4, i, None
    known = {n: VALUES[op](n) for n in set(src)}
    return 0, 0, [known[n] for n in src]


def values_and_ends():
    """The operator, alpha, the elements of src and of dst that are lent, src's first three."""
    # document 01's sums by hand
    yield "reduced_range_exp", 0, 3, 3, (ZERO, MINUS_ZERO, MINUS_ONE)
    yield "exp", 0, 3, 3, (0x42D00000, 0xC2D00000, ZERO)
    yield "tanh", 0, 3, 3, (ZERO, MINUS_ZERO, 0x41180000)
    yield "sin", 0, 3, 3, (0x473B8000, ZERO, ZERO)
    yield "exp", 0, 16384, 16384, (ZERO,) * 3
    yield "exp", 0, 16385, 16385, (ZERO,) * 3
    # each side of an end of a domain, and of what an operator gives
    yield "exp", 0, 3, 3, (0x42CFFFFF, 0xC2CFFFFF, 0x42B17217)
    yield "exp", 0, 3, 3, (0x42B17218, 0xC2AEAC50, MINUS_MOST)
    yield "reduced_range_exp", 0, 3, 3, (0xC2AF58A3, 0xC2AF58A4, MINUS_MOST)
    yield "reduced_range_exp", 0, 3, 3, (ZERO, LEAST, ZERO)
    yield "reduced_range_exp", 0, 3, 3, (ZERO, MINUS_ONE, HALF)
    yield "reduced_range_exp", 0, 3, 3, (MINUS_INF, ZERO, ZERO)
    yield "tanh", 0, 3, 3, (0x411051EC, 0xC11051EC, 0x80000001)
    for op in "sin", "cos":
        yield op, 0, 3, 3, (0x473B7FFF, 0xC73B7FFF, ZERO)
        yield op, 0, 3, 3, (ZERO, 0xC73B8000, 0x473B8000)


def refusals():
    """What is refused, and what only looks so."""
    # what is not finite, in each operator
    for op in OPERATORS:
        yield op, 0, 3, 3, (MINUS_ONE, NAN, INF)
        yield op, 0, 3, 3, (MINUS_ONE, MINUS_ONE, INF)
        yield op, 0, 3, 3, (MINUS_INF, 0x7F800001, 0xFFFFFFFF)
    # nothing, and lengths that differ
    for op in OPERATORS:
        yield op, 0, 0, 0, (NAN,) * 3
        yield op, 0, 0, 1, (ZERO,) * 3
        yield op, 0, 3, 2, (MINUS_ONE,) * 3
    # alpha is looked at also where there is nothing, and only where the operator has one
    for alpha in NAN, INF, MINUS_INF:
        for op in "swish", "elu":
            yield op, alpha, 0, 0, (ZERO,) * 3
            yield op, alpha, 3, 3, (ZERO,) * 3
        yield "exp", alpha, 3, 3, (ZERO,) * 3
    # several at once: 1 before 2 before 3 before 4
    yield "elu", NAN, 3, 3, (NAN, ZERO, ZERO)
    yield "elu", NAN, 3, 2, (NAN,) * 3
    yield "elu", NAN, 16385, 3, (NAN,) * 3
    yield "swish", NAN, 16385, 16385, (ZERO,) * 3
    yield "swish", NAN, 16385, 16385, (NAN,) * 3
    yield "exp", 0, 16385, 16385, (NAN,) * 3
    yield "exp", 0, 16385, 3, (ZERO,) * 3
    yield "exp", 0, 3, 16385, (ZERO,) * 3
    yield "tanh", 0, 3, 3, (ONE, NAN, NAN)
    yield "exp", 0, 3, 3, (ONE, ONE, INF)


def line(op, alpha, n, lent, first):
    number, place, out = apply(op, alpha, (list(first) + [ZERO] * ROOM)[:n], lent)
    dst = (out or []) + [SEVEN] * (ROOM - len(out or []))
    runs = [f"{i}:{dst[i]:08x}" for i in range(ROOM) if i == 0 or dst[i] != dst[i - 1]]
    return " ".join([str(number), str(place), *runs])


def main():
    asked, told = [], []
    for op, alpha, n, lent, first in [*values_and_ends(), *refusals()]:
        asked.append(words([OPERATORS.index(op), alpha, n, lent, *first]))
        told.append(line(op, alpha, n, lent, first))
    told.append(f"{len(asked)} cases")
    write_lines("crates/unary_cases/stdin", asked)
    write_lines("crates/unary_cases/stdout", told)


if __name__ == "__main__":
    main()
