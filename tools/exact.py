"""f32 by exact fractions, for the programs that make expected files, and the steps of document 01 that several of them need.

A pattern is a 32-bit word. It becomes a fraction, and each product, sum or quotient is rounded once to the nearest f32, ties to even.
Nothing here comes from Rattle or from a float of this machine.
"""
import functools
from fractions import Fraction

NAN, INF, MINUS_INF, SIGN, MASK = 0x7FC00000, 0x7F800000, 0xFF800000, 0x80000000, 0x7FFFFFFF
ONE = 0x3F800000


def is_nan(n):
    return n & MASK > INF


def is_finite(n):
    return n & MASK < INF


def value(n):
    """A finite pattern's value."""
    field, digits = n >> 23 & 255, n & 0x7FFFFF
    size = Fraction(digits + (0x800000 if field else 0)) * Fraction(2) ** (max(field, 1) - 150)
    return -size if n & SIGN else size


def whole(q):
    """The nearest whole number, ties to the even one."""
    low = q.numerator // q.denominator
    rest = q - low
    return low + (1 if rest > Fraction(1, 2) or (rest == Fraction(1, 2) and low % 2) else 0)


def digits(v):
    """m and e: the f32 nearest to v is m 2^e, |m| at most 2^24, were the range without end."""
    size = abs(v)
    e = max(-149, size.numerator.bit_length() - size.denominator.bit_length() - 24)
    while size >= Fraction(2) ** (e + 24):
        e += 1
    return whole(v / Fraction(2) ** e), e


def rounded(v):
    """The value of the f32 nearest to v, were the range without end."""
    m, e = digits(v)
    return m * Fraction(2) ** e


def pattern(v):
    """The pattern of the f32 nearest to v: infinite past the range, +0 for 0."""
    m, e = digits(v)
    size = abs(m)
    # with all 24 digits the one that isn't stored adds 1 to the field
    return (SIGN if v < 0 else 0) | min(INF, size if size < 1 << 23 else (e + 149 << 23) + size)


def times(a, b):
    """The pattern of the product of two patterns."""
    sign, sizes = (a ^ b) & SIGN, (a & MASK, b & MASK)
    if is_nan(a) or is_nan(b) or INF in sizes and 0 in sizes:
        return NAN
    return sign | (INF if INF in sizes else pattern(abs(value(a) * value(b))))


def plus(a, b):
    """The pattern of the sum of two patterns."""
    if is_nan(a) or is_nan(b) or {a, b} == {INF, MINUS_INF}:
        return NAN
    for n in a, b:
        if not is_finite(n):
            return n
    return pattern(value(a) + value(b)) if value(a) + value(b) else a & b & SIGN


def near(text):
    """The f32 nearest to a decimal."""
    return rounded(Fraction(text))


def mul_add(a, b, c):
    return rounded(rounded(a * b) + c)


def drawn(draw, size):
    """The pattern of a number of up to `size` on either side of 0."""
    return (draw.randrange(2) << 31) + pattern(Fraction(draw.randrange(1 << 24), 1 << 24) * size)


# exp.rs
LOG2_E, LN_2, MAGIC = near("1.442695040888963407"), near("0.693147180559945309"), Fraction(12582912)
HI, LO = near("-6.93145752e-1"), near("-1.42860677e-6")
POLY = [near(t) for t in "1.37805939e-3 8.37312452e-3 4.16695364e-2 1.66664720e-1 4.99999851e-1 1 1".split()]
CUTOFF = rounded(rounded(Fraction("-126.5") * LN_2) + near("0.01"))


def exp_parts(x):
    """k, and the polynomial of the rest."""
    j = rounded(mul_add(x, LOG2_E, MAGIC) - MAGIC)
    r = mul_add(j, LO, mul_add(j, HI, x))
    p = POLY[0]
    for c in POLY[1:]:
        p = mul_add(p, r, c)
    return int(j), p


@functools.lru_cache(None)
def reduced_range_exp(x):
    if x < CUTOFF:
        return Fraction(0)
    k, p = exp_parts(x)
    return rounded(p * Fraction(2) ** k)


# sin_cos.rs
PI, HALF_PI = near("3.1415927"), near("1.5707964")


def sin_cos(x, is_cos):
    """Sin or Cos of a value, as a value; a zero loses its sign."""
    k = whole(rounded(x * near("0.15915494")))
    r = rounded(x - rounded(k * near("6.28125")))
    r = rounded(r - rounded(k * near("1.9353072e-3")))
    if is_cos:
        r = rounded(HALF_PI - r)
    r = min(r, rounded(PI - r))
    r = max(r, rounded(-PI - r))
    r = min(r, rounded(PI - r))
    s = rounded(r * r)
    p = rounded(mul_add(s, mul_add(s, near("3.2340581529e-03"), near("-1.3314664364e-01")), Fraction(1)) * r)
    q = mul_add(s, mul_add(s, near("4.8770775902e-04"), near("3.3519912511e-02")), Fraction(1))
    return rounded(p / q)


# softmax.rs
def weights(levels):
    """Softmax: minus infinity weighs 0."""
    largest = max(value(n) for n in levels if n != MINUS_INF)
    # a difference past the range's end is minus infinity, which weighs 0 as any number below the cutoff
    exps = [Fraction(0) if n == MINUS_INF else reduced_range_exp(rounded(value(n) - largest)) for n in levels]
    total = Fraction(0)
    for e in exps:
        total = rounded(total + e)
    part = rounded(1 / total)
    return [rounded(e * part) for e in exps]


# document 01, "Split", in the steps of request L6, with the limit of request L7
STEPS, BAND_LIMIT = 2**30, 64


def gains(levels):
    steps = [whole(w * STEPS) for w in weights(levels)]
    total = sum(steps)
    out = [32768 * a // total for a in steps]
    rests = sorted(range(len(steps)), key=lambda i: (-(32768 * steps[i] % total), i))
    for i in rests[:32768 - sum(out)]:
        out[i] += 1
    return out


def split(levels, lent):
    """Number, place, and what the lent gains, sevens, are afterwards."""
    kept = [7] * lent
    if not 1 <= len(levels) <= BAND_LIMIT:
        return 7, 0, kept
    if lent != len(levels):
        return 1, 0, kept
    for i, n in enumerate(levels):
        if is_nan(n) or n == INF:
            return 4, i, kept
    if all(n == MINUS_INF for n in levels):
        return 5, 0, kept
    return 0, 0, gains(levels)
