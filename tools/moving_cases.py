#!/usr/bin/env python3
"""Writes crates/moving_cases/data and stdout: stored tables of both forms, good and damaged, and what moving each to either form gives.

Run it at the top of the repository.
"""
from case_files import write
from lister_cases import gains, put, wide
from stored_table import Refused, moved, stored

CASES = "crates/moving_cases"


def tables():
    """The files that are moved, as blocks. Three bands have 83 rows in a block of form 1 and 125 in one of form 2."""
    three = gains(3, 126)
    one, two = stored(3, three), stored(3, three, 2)
    last = stored(2, [[32768, 0], [0, 32768], [32767, 1]])
    return {
        "one_band": stored(1, [[32768]]),
        "form_1": one,
        "form_2": two,
        "last_gain_0": last,
        "wide_1": wide(64, 4),
        "wide_2": wide(64, 4, 2),
        "wide_17": wide(17, 16, 2),
        "empty": [],
        "short": [two[0][:511]],
        "few": two[:1],
        "check": [two[0][:100] + bytes([two[0][100] ^ 1]) + two[0][101:], two[1]],
        "mixed_1": [one[0], two[1]],
        "mixed_2": [two[0], one[1]],
        "form_3": put(two, 0, 0, 3),
        "one_band_2": put(stored(2, [[32768, 0]], 2), 0, 4, 1),
        "past": put(two, 1, 8, 32769),
        "not_whole": put(one, 1, 8, three[83][0] ^ 1),
        "unused": put(two, 1, 506, 1),
    }


def answered(data, form, lent):
    """The line of a move, and the bytes where it is done."""
    try:
        return b"%d 0 0\n" % form + moved(data, form, lent)
    except Refused as refused:
        return b"%d %d %d\n" % (form, *refused.args)


def main():
    told = []
    for name, blocks in tables().items():
        data = b"".join(blocks)
        write(f"{CASES}/data/{name}", data)
        told.append(name.encode() + b"\n" + b"".join(answered(data, form, lent) for form in (1, 2) for lent in (None, 0)))
    write(f"{CASES}/stdout", b"".join(told))


if __name__ == "__main__":
    main()
