"""What calls.c and refusals.c print, for expected.py: every call, and every number of the list. The lines that the others share stand here too."""
from fractions import Fraction

import exact
import stored_table
from exact import INF, MINUS_INF, pattern


def drawn():
    """The pseudo-random words that the examples draw."""
    state = 1
    while True:
        state = (state * 1664525 + 1013904223) % 2**32
        yield state


def hexes(patterns):
    return [f"{n:08x}" for n in patterns]


def line(name, number, place, words=()):
    return " ".join([f"{name}: {number} {place}", *map(str, words)])


# ---- calls.c

PLAIN = {"exp": 0, "reduced_range_exp": 1, "sigmoid": 2, "silu": 3, "tanh": 6, "erf": 7, "gelu": 8, "approx_gelu": 9, "sin": 10, "cos": 11}
SOURCE = [Fraction(-1), Fraction(-1, 2), Fraction(-2)]


def stored_answers():
    """(operator, alpha, x) to the answer, all as words."""
    with open("crates/replay_unary/stdin", encoding="ascii") as file:
        return {tuple(words[:3]): words[3] for words in (text.split() for text in file)}


def operators():
    known, src = stored_answers(), hexes(map(pattern, SOURCE))
    for name, code in PLAIN.items():
        yield line(name, 0, 0, [known[f"{code:08x}", "00000000", x] for x in src])
    for name, code in ("swish", 4), ("elu", 5):
        yield line(name, 0, 0, [known[f"{code:08x}", "bf800000", "bf800000"]])


def sums():
    known, e = stored_answers(), Fraction(0)
    for x in SOURCE:
        e = exact.rounded(e + exact.value(int(known["00000000", "00000000", hexes([pattern(x + 1)])[0]], 16)))
    totals = {
        "sum": sum(SOURCE), "sum_square": sum(x * x for x in SOURCE), "sum_abs": sum(map(abs, SOURCE)),
        "sum_square_sub": sum((x + 1) ** 2 for x in SOURCE), "sum_exp_sub": e,
    }
    for name, total in totals.items():
        yield line(name, 0, 0, hexes([pattern(total)]))
    for name, values in ("min_max", [min(SOURCE), max(SOURCE)]), ("max_num", [max(SOURCE)]), ("min_num", [min(SOURCE)]):
        yield line(name, 0, 0, hexes(map(pattern, values)))


def normalized(scales, biases):
    """Every step is exact on these numbers."""
    return hexes(pattern((x - 1) * (s * 2) + (b + Fraction(1, 2))) for x, s, b in zip(SOURCE, scales, biases))


def other_kernels():
    biases = [Fraction(1, 4), Fraction(1, 2), Fraction(-1)]
    weights = hexes(map(pattern, exact.weights([pattern(x) for x in SOURCE])))
    yield line("softmax", 0, 0, weights)
    yield line("softmax_in_place", 0, 0, weights)
    yield line("normalize", 0, 0, normalized([1, 2, 4], biases))
    yield line("normalize_in_place", 0, 0, normalized([1, 1, 1], biases))
    yield line("quantize", 0, 0, [x * 2 + 10 for x in SOURCE])


def told_table(name, block, stored):
    return line(name, 0, 0, [f"{b:02x}" for b in block[:8 + 2 * stored] + block[508:]])


def ours():
    gains = exact.gains([pattern(x) for x in SOURCE])
    block = stored_table.stored(3, [gains])[0]
    yield line("split", 0, 0, gains)
    yield line("meter_feed", 0, 0, [3, 2, *hexes(map(pattern, [sum(x * x for x in SOURCE), min(SOURCE), max(SOURCE)]))])
    yield told_table("table_write", block, 3)
    yield line("table_read", 0, 0, [3, 1])
    yield line("table_read_block", 0, 0, [1, 3, 1, 3 // 3])
    small = stored_table.moved(block, 2)
    yield told_table("table_to_form_2", small, 2)
    yield told_table("table_to_form_1", stored_table.moved(small, 1), 3)


# document 01, "Empty input", and the orders of refusals; 77 and the new meter are what the numbers hold before the call
EMPTY = {
    "min_max": (0, hexes([INF, MINUS_INF])), "max_num": (0, hexes([MINUS_INF])), "min_num": (0, hexes([INF])),
    "split": (7, []), "meter_feed": (0, [0, 0, *hexes([0, INF, MINUS_INF])]),
    "table_write": (1, []), "table_read": (9, [77] * 2), "table_read_block": (9, [77] * 4),
    "table_to_form_1": (9, []), "table_to_form_2": (9, []),
}
EMPTY.update((name, (0, hexes([0]))) for name in ("sum", "sum_square", "sum_abs", "sum_square_sub", "sum_exp_sub"))


def calls():
    some = [*operators(), *sums(), *other_kernels(), *ours()]
    yield "short slices"
    yield from some
    yield line("softmax, all masked, flush on", 0, 0, hexes([0, 0]))
    yield "NULL with length 0"
    for name in (text.split(":")[0] for text in some):
        number, words = EMPTY.get(name, (0, []))
        yield line(name, number, 0, words)
    yield line("swish of nothing, alpha infinite", 3, 0)
    yield "NULL with length 0 for one of the two"
    yield line("operator without dst", 1, 0)
    yield line("split without gains", 1, 0)
    yield line("table_write without bytes", 9, 0)
    yield line("table_read without gains", 1, 0)
    yield line("table_to_form_1 without result", 9, 0)
    yield line("table_to_form_2 without result", 9, 0)


# ---- refusals.c

PLACES = {
    "LENGTH": (1, 0), "TOO_MANY": (2, 0), "NOT_FINITE": (3, 0), "DOMAIN": (4, 2), "MASKED": (5, 0), "RESULT": (6, 1), "COUNT": (7, 0),
    "ROW_TOTAL": (8, 250), "STORED_LENGTH": (9, 0), "CHECK": (10, 1), "UNUSED": (12, 1), "HEADER": (11, 5),
    "ONE_BAND": (15, 0),
}


def refusals():
    for name, (number, place) in PLACES.items():
        yield line("MST_" + name, number, place) + ", as named, kept"
        if name == "TOO_MANY":
            yield "  result 00000000, which is part of the answer"
    yield line("and MST_DONE", 0, 0) + ", as named, written"
