#!/usr/bin/env python3
"""Writes crates/tabulate_cases/args, data and stdout, and crates/tabulate/args, stdin and stdout: levels, and the table or the refusal for each.

Rows are split and stored by the functions of exact.py and stored_table.py, which follow document 01; the rest follows
docs/DECISIONS.md, point 12. Run it at the top of the repository.
"""
import random
import re
import struct

from case_files import write
from exact import BAND_LIMIT, INF, MINUS_INF, NAN, drawn, split
from stored_table import stored

CASES, PROGRAM = "crates/tabulate_cases", "crates/tabulate"


def tabulated(word, data):
    """The bytes of the table, or the line of the refusal."""
    bands = int(word) if re.fullmatch(b"[0-9]+", word) else 0
    if not 1 <= bands <= BAND_LIMIT:
        return b"refused 7 0\n"
    rows = -(-len(data) // (4 * bands))
    if not 1 <= rows <= 1024:
        return b"refused 7 0\n"
    if len(data) % (4 * bands):
        return b"refused 9 0\n"
    gains, known = [], {}
    for r in range(rows):
        levels = struct.unpack_from(f"<{bands}I", data, 4 * bands * r)
        if levels not in known:
            known[levels] = split(levels, bands)
        number, place, row = known[levels]
        if number:
            return f"refused {number} {r * bands + place}\n".encode()
        gains.append(row)
    return b"".join(stored(bands, gains))


def packed(levels):
    return struct.pack(f"<{len(levels)}I", *levels)


def drawn_rows(bands, rows, size):
    """Rows of levels, each up to `size` beside 0; the same 40 rows come again and again."""
    draw = random.Random(f"tabulate {bands} {rows}")
    some = [[drawn(draw, size) for _ in range(bands)] for _ in range(40)]
    return [level for r in range(rows) for level in some[r % 40]]


# the example: equal bands, one far above the others, a band masked, a band masked with two equal ones, a mix of no pattern
EXAMPLE = [0, 0, 0] + [0x41200000, 0, 0] + [0, MINUS_INF, 0x3F800000] + [MINUS_INF, 0xC0400000, 0xC0400000] + [0xBF8CCCCD, 0x40133333, 0xBE99999A]
FULL = packed(drawn_rows(64, 1024, 8))
WIDE = drawn_rows(64, 7, 8)
FILES = {
    "three": packed(EXAMPLE),
    "empty": b"",
    "one": packed([0xC2C80000]),
    "cut": packed(EXAMPLE[:6]) + b"\0\0\x80\x3f\0",
    "rows_1025": packed(drawn_rows(1, 1025, 100)),
    "full": FULL,
    "full_and_one": FULL + b"\0",
    "full_and_row": FULL + FULL[:256],
    "full_16": packed(drawn_rows(16, 1024, 8)),
    "wide_17": packed(drawn_rows(17, 40, 8)),
    "wide_63": packed(drawn_rows(63, 10, 8)),
    "wide_64": packed(WIDE),
    "wide_65": packed(drawn_rows(65, 3, 8)),
    "wide_equal": packed([0x3F333333] * 64 + [MINUS_INF] * 63 + [0xFF7FFFFF] + [0x7F7FFFFF] + [0xFF7FFFFF] * 63),
    "wide_nan": packed(WIDE[:383] + [NAN] + WIDE[384:]),
    "wide_masked_row": packed(WIDE[:128] + [MINUS_INF] * 64 + WIDE[192:]),
    "masked_bands": packed([MINUS_INF, 0, MINUS_INF, 0x3F000000, MINUS_INF] + [0x7F7FFFFF, 0xFF7FFFFF, 1, 0x80000000, MINUS_INF]),
    "nan": packed(EXAMPLE[:6] + [0, NAN, INF]),
    "nan_patterns": packed([0, 0, 0xFFFFFFFF, 0x7F800001]),
    "infinity": packed(EXAMPLE + [0, 0, INF] + [NAN, 0, 0]),
    "masked_row": packed(EXAMPLE + [MINUS_INF] * 3),
    "masked_then_nan": packed([0, 0] + [MINUS_INF] * 2 + [NAN, NAN]),
}
# three has no row of 17, 63 or 64: those words are taken, and its length is wrong
WORDS = [b"", b"0", b"17", b"63", b"64", b"65", b"640", b"x", b"+3", b"-3", b"3 ", b"3/", b"3:", b"03", b"00000000000000000000003"]
WORDS += [b"18446744073709551619"]
RUNS = [("three", word) for word in WORDS] + [
    ("empty", b"3"),
    ("one", b"1"),
    ("cut", b"3"),
    ("rows_1025", b"1"),
    ("full", b"64"),
    ("full", b"63"),
    ("full_and_one", b"64"),
    ("full_and_row", b"64"),
    ("full_16", b"16"),
    ("full_16", b"15"),
    ("wide_17", b"17"),
    ("wide_63", b"63"),
    ("wide_64", b"64"),
    ("wide_64", b"63"),
    ("wide_65", b"65"),
    ("wide_equal", b"64"),
    ("wide_nan", b"64"),
    ("wide_masked_row", b"64"),
    ("three", b"3"),
    ("masked_bands", b"5"),
    ("nan", b"3"),
    ("nan_patterns", b"2"),
    ("infinity", b"3"),
    ("masked_row", b"3"),
    ("masked_then_nan", b"2"),
]


def main():
    for name, data in FILES.items():
        write(f"{CASES}/data/{name}", data)
    write(f"{CASES}/args", b"".join(name.encode() + b"\n" + word + b"\n" for name, word in RUNS))
    told = [name.encode() + b" " + word + b"\n" + tabulated(word, FILES[name]) for name, word in RUNS]
    write(f"{CASES}/stdout", b"".join(told) + b"%d cases\n" % len(told))
    write(f"{PROGRAM}/args", b"3\n")
    write(f"{PROGRAM}/stdin", FILES["three"])
    write(f"{PROGRAM}/stdout", tabulated(b"3", FILES["three"]))


if __name__ == "__main__":
    main()
