#!/usr/bin/env python3
"""Writes examples/expected/: what each example prints by the words of documents 01 and 02, by no code of the library. Run it at the top of the
repository.

Splits, softmax and the sine of overs.c come from tools/exact.py (exact fractions, each step rounded once), stored bytes from tools/stored_table.py,
the operators from the stored answers of the Rust text in crates/replay_unary/stdin.
"""
import re
import sys
from fractions import Fraction

sys.dont_write_bytecode = True
sys.path.insert(0, "tools")
import exact
import stored_table
from exact import INF, MINUS_INF, pattern
from expected_calls import calls, drawn, hexes, line, refusals
from joining_expected import joining


# ---- split_table.c

def split_table():
    rows = []
    for r in range(64):
        rows.append(exact.gains([0, pattern(Fraction(-r, 8)), pattern(Fraction(-r, 4)), MINUS_INF if r % 2 else pattern(Fraction(-3, 2))]))
        if r < 4:
            yield f"row {r}: {' '.join(map(str, rows[r]))}, sum {sum(rows[r])}"
    yield f"rows that add up to 32768: {sum(sum(row) == 32768 for row in rows)} of 64"
    data = bytearray(b"".join(stored_table.stored(4, rows)))
    yield f"written: 0 0, {len(data)} bytes, the last four {data[-4:].hex(' ')}"
    yield "read: 0 0, bands 4 rows 64, gains as written"
    yield f"block 1: 0 0, form 1 bands 4 rows 64, holds {64 - 250 // 4}"
    data[600] ^= 1
    yield "read with byte 600 changed: " + stored_table.listed(bytes(data)).strip().removeprefix("refused ") + ", gains kept"


# ---- flash.c

def told(call, *given):
    """Number and place of a call that is refused."""
    try:
        call(*given)
    except stored_table.Refused as refused:
        return "{} {}".format(*refused.args)
    return "0 0"


def length(form, bands, rows):
    """0 where there is no such table."""
    return 512 * stored_table.blocks_of(form, bands, rows) if bands > stored_table.LEFT_OUT[form] else 0


def flash():
    for bands in 1, 2, 3, 8, 16, 51, 64:
        yield f"bands {bands} rows 1024: {length(1, bands, 1024)} bytes in form 1, {length(2, bands, 1024)} in form 2"
    rows = [exact.gains([0, pattern(Fraction(-r, 64)), MINUS_INF if r % 2 else pattern(Fraction(-3, 2))]) for r in range(250)]
    preset = b"".join(stored_table.stored(3, rows))
    small = stored_table.moved(preset, 2)
    yield f"written: 0 0, {len(preset)} bytes"
    yield f"to form 2: 0 0, {len(small)} bytes, {len(preset) - len(small)} saved"
    per = stored_table.rows_a_block(2, 3)
    for k in range(len(small) // 512):
        yield f"  block: 0 0, form 2 bands 3 rows 250, holds {min(per, 250 - k * per)}"
    yield f"read: 0 0, bands 3 rows 250, gains as split; row 4 {' '.join(map(str, stored_table.read(small)[1][4]))}"
    yield f"back to form 1: 0 0, {'the same' if stored_table.moved(small, 1) == preset else 'other'} bytes"
    yield "back into as few bytes: " + told(stored_table.moved, small, 1, len(small))
    one = b"".join(stored_table.stored(1, [[32768]]))
    yield f"bytes of one band in form 2: {length(2, 1, 1)}"
    yield f"one band to form 2: {told(stored_table.moved, one, 2)}, result kept"


# ---- null_test.c

BINS, SAMPLES = 256, 8


def tallied(name, bins):
    """The lines of one run, from the gains and the samples of each bin."""
    off = [(k, gains) for k, (gains, _) in enumerate(bins) if sum(gains) != 32768]
    apart = []
    for gains, dry in bins:
        for x in dry:
            size = sum(g * abs(x) for g in gains) // 32768
            apart.append(abs(size - abs(x)))
    yield f"{name}: {len(off)} bins do not add up to 32768, {sum(d != 0 for d in apart)} samples differ, by {max(apart)} at most"
    if off:
        k, gains = off[0]
        yield f"  first in bin {k}: {' '.join(map(str, gains))}, sum {sum(gains)}"


def null_test():
    draw = drawn()
    for bands in 6, exact.BAND_LIMIT:
        split, alone = [], []
        for _ in range(BINS):
            levels = [pattern(Fraction(-(next(draw) >> 22), 64)) for _ in range(bands)]
            dry = [(next(draw) >> 8) - 2**23 for _ in range(SAMPLES)]
            split.append((exact.gains(levels), dry))
            alone.append(([(32768 * w + Fraction(1, 2)).__floor__() for w in exact.weights(levels)], dry))
        yield f"{BINS} bins, {bands} bands, {BINS * SAMPLES} samples of 24 bits"
        yield from tallied("split", split)
        yield from tallied("each gain rounded by itself", alone)


# ---- overs.c

def metered(name, wave):
    squares = Fraction(0)
    for x in wave:
        squares = exact.rounded(squares + exact.rounded(x * x))
    floats = " ".join(hexes(map(pattern, [squares, min(wave), max(wave)])))
    return f"{name}: count {len(wave)}, overs {sum(abs(x) >= 1 for x in wave)}, sum of squares, least and largest {floats}"


def overs():
    wave = [exact.rounded(Fraction(5, 4) * exact.sin_cos(Fraction(i, 16), False)) for i in range(1000)]
    clipped = [max(min(x, Fraction(1)), Fraction(-1)) for x in wave]
    yield metered("before the clip", wave)
    for cut in "clipped, whole", "in blocks of 64", "one by one":
        yield metered(cut, clipped)
    yield "more overs than samples: 3 0"
    yield "kept: count 0, overs 1, sum of squares, least and largest " + " ".join(hexes([0, INF, MINUS_INF]))


# ---- peaks.c

def strictly_beyond(patterns, beyond):
    """Document 01's fold: a later one is held only if it lies strictly beyond the held one."""
    held = patterns[0]
    for x in patterns[1:]:
        if beyond(exact.value(x), exact.value(held)):
            held = x
    return held


def extremes(name, patterns):
    return f"{name}: " + " ".join(hexes([strictly_beyond(patterns, lambda x, y: x < y), strictly_beyond(patterns, lambda x, y: x > y)]))


def peaks():
    draw = drawn()
    wave = [pattern(Fraction(next(draw) >> 8, 2**24)) for _ in range(20000)]
    wave[50], wave[700] = exact.SIGN, 0
    groupings = ["chunks, " + how for how in ("all at once", "one by one", "by halves")]
    for name in "1500 samples", *groupings:
        yield extremes(name, wave[:1500])
    turned, end = [], 1500
    for length in 1023, 41, 5, 333, 0, 97, 1:
        turned += wave[end - length:end]
        end -= length
    yield extremes("chunks in the reverse order", turned)
    yield "equal numbers: yes"
    yield line("20000 samples", 2, 0)
    for name in groupings:
        yield extremes(name, wave)


# ---- small.c

def small():
    texts = {0: "done"}
    with open("bindings/rust/src/refusal.rs", encoding="utf-8") as file:
        texts.update((int(number), text) for number, text in re.findall(r'^    (\d+) \w+(?:\(.*\))? "(.*)";$', file.read(), re.M))
    for number in range(17):
        yield f"{number}: {texts.get(number, 'not a number of the list')}"
    with open("bindings/rust/Cargo.toml", encoding="utf-8") as file:
        version = re.search(r'^version = "(.*)"$', file.read(), re.M)[1]
    yield f"version {version}, header and library agree"
    for bands, rows, blocks in (1, 1, 1), (3, 250, 4), (64, 1024, 342), (65, 1, 0), (0, 1, 0):
        yield f"{bands} bands, {rows} rows: {512 * blocks} bytes"
    yield "750 gains: done, 3 bands, 250 rows"
    yield f"750 gains: {texts[10]}, 0 bands, 0 rows"
    yield f"0 gains: {texts[9]}, 0 bands, 0 rows"


# ---- ftz.c, callback.cpp

def small_weights():
    return exact.weights([0, pattern(Fraction(-175, 2))])


def flushed(v):
    return Fraction(0) if v < Fraction(2) ** -126 else v


def guarded_lines():
    plain = " ".join(hexes(map(pattern, small_weights())))
    yield "as the program starts: " + plain
    yield "FTZ: " + " ".join(hexes(pattern(flushed(w)) for w in small_weights()))
    yield "FTZ, with the guard: " + plain
    # DAZ: the small exponential counts as zero when it is scaled. Rounding up: 1 plus it is above 1, so the first weight is below 1.
    for host in "FTZ", "DAZ", "FTZ and DAZ", "rounding up":
        yield f"{host}: other bits, with the guard the same bits"


def ftz():
    yield from guarded_lines()
    # FTZ, rounding up and DAZ with every exception unmasked; all masked and nothing else; the first again
    yield "control word of the host c040, under the guard 1f80, after it c040"


def ftz_aarch64():
    yield from guarded_lines()
    yield "control word of the host: another, under the guard: plain, after it: the host's"


def callback():
    square = exact.rounded(exact.near("1e-22") ** 2)
    total = square
    for x in Fraction(1, 2), Fraction(-1), Fraction(1, 4):
        total = exact.rounded(total + x * x)
    yield f"meter: 1 0 {pattern(square):08x}, weights " + " ".join(hexes(map(pattern, small_weights())))
    yield "meter: 4 1 " + " ".join(hexes(map(pattern, [total, Fraction(-1), Fraction(1, 2)])))
    yield "refused: count 4, flushing as the host set it: yes"


for example in calls, small, refusals, split_table, flash, null_test, joining, overs, peaks, ftz, ftz_aarch64, callback:
    with open(f"examples/expected/{example.__name__}.txt", "w", encoding="ascii") as file:
        file.writelines(text + "\n" for text in example())
