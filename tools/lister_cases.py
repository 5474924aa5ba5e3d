#!/usr/bin/env python3
"""Writes crates/lister_cases/data and stdout, and crates/lister/stdin and stdout: stored tables, good and damaged, and the lister's lines for each.

Run it at the top of the repository.
"""
import random

from case_files import write
from stored_table import listed, listed_again, sealed, stored, word

CASES, PROGRAM = "crates/lister_cases", "crates/lister"


def damaged(blocks, k, at):
    """The blocks with one byte of block k changed, its checks as they were."""
    return blocks[:k] + [blocks[k][:at] + bytes([blocks[k][at] ^ 1]) + blocks[k][at + 1:]] + blocks[k + 1:]


def changed(blocks, k, at):
    """The same, the checks made anew."""
    return blocks[:k] + [sealed(damaged(blocks, k, at)[k][:508])] + blocks[k + 1:]


def put(blocks, k, at, n):
    """The blocks with the number at a place of block k replaced, the checks made anew."""
    return blocks[:k] + [sealed(blocks[k][:at] + word(n) + blocks[k][at + 2:508])] + blocks[k + 1:]


def gains(bands, rows):
    """Rows of gains that each add up to 32768, some of them 0 and some of one digit."""
    seed, out = 12345, []
    for r in range(rows):
        left, row = 32768, []
        for j in range(bands - 1):
            seed = (seed * 1103515245 + 12345) % 2147483648
            g = seed // 65536 % (left + 1) if (r + j) % 3 else seed // 65536 % 11 % (left + 1)
            row.append(g)
            left -= g
        out.append(row + [left])
    return out


def wide(bands, rows, form=1):
    """The blocks of a table whose rows are the parts between drawn cuts; the same 40 rows come again and again."""
    draw, some = random.Random(f"lister {bands} {rows}"), []
    for _ in range(40):
        cuts = [0, *sorted(draw.randrange(32769) for _ in range(bands - 1)), 32768]
        some.append([b - a for a, b in zip(cuts, cuts[1:])])
    return stored(bands, [some[r % 40] for r in range(rows)], form)


def joined(tables):
    return {name: b"".join(blocks) for name, blocks in tables.items()}


def form_1_tables(two):
    """The files that are listed, as blocks."""
    full, most = stored(16, gains(16, 1024)), wide(64, 1024)
    return {
        "one": stored(1, [[32768]]),
        "two_blocks": two,
        "full": full,
        "empty": [],
        "too_long": full + [b"\0"],
        "short": full[:1] + [full[1][:511]],
        "blocks": full[:68],
        "check": damaged(full, 3, 100),
        "header": full[:2] + [full[5]] + full[3:],
        "row": changed(full, 1, 8),
        "unused": changed(full, 68, 507),
        "wide_17": wide(17, 40),
        "wide_63": wide(63, 10),
        "wide_64": most,
        "wide_65": wide(65, 3),
        "longer": most + most[:1],
        "late": damaged(most, 340, 100),
    }


def form_2_tables(three, in_form_1):
    """Those of form 2; three bands and 300 rows take three blocks, in form 1 four."""
    few, most = stored(3, [[0, 0, 32768], [16384, 16384, 0], [1, 2, 32765]], 2), wide(64, 7, 2)
    return {
        # a block of two bands has room for 250 rows, and the last gain may be 0
        "form_2_two": stored(2, gains(2, 250) + [[32768, 0]], 2),
        "form_2_three": three,
        # five rows of 50 gains fill a block
        "form_2_51": wide(51, 11, 2),
        "form_2_64": most,
        "form_2_few": few,
        "form_2_65": wide(65, 3, 2),
        "form_2_one_band": [sealed(word(2) + word(0) + word(1) + word(1) + bytes(500))],
        "form_0": put(few, 0, 0, 0),
        "form_3": put(few, 0, 0, 3),
        "form_258": put(few, 0, 0, 258),
        "form_2_check": damaged(three, 1, 100),
        # one part past 32768, and a gain that alone passes it
        "form_2_past": put(few, 0, 12, 16385),
        "form_2_past_later": put(three, 1, 8 + 4 * 7, 65535),
        "form_2_mixed": three[:1] + in_form_1[1:2] + three[2:],
        "form_1_mixed": in_form_1[:1] + three[1:2] + in_form_1[2:],
        "form_2_blocks": three + [put(three, 2, 2, 3)[2]],
        "form_1_blocks": in_form_1[:3],
        "form_2_unused": changed(three, 2, 507),
        # of 64 bands the gain behind three rows of 63 is unused, where form 1 has the row's end
        "form_2_unused_gain": put(most, 1, 8 + 2 * 189, 1),
    }


def second_readings(two, in_form_1):
    """What else two_blocks or form_2_three may have become when it is read again."""
    files = {"changed_row": changed(two, 1, 8), "changed_first": damaged(two, 0, 100), "cut": two[:1] + [two[1][:100]]}
    return files | {"form_1_three": in_form_1}


# listed as named files only: one that is not there, and a folder
UNREADABLE = "no_such_file", "."
AGAIN = [("two_blocks", name) for name in ("changed_row", "changed_first", "one", "cut", "empty")]
# the other form, the same rows, from block 0 or from block 1 on
AGAIN += [("form_2_three", "form_1_three"), ("form_1_three", "form_2_three"), ("form_2_three", "form_2_mixed"), ("form_1_three", "form_1_mixed")]


def main():
    two, rows = stored(3, gains(3, 100)), gains(3, 300)
    three, in_form_1 = stored(3, rows, 2), stored(3, rows)
    tables = joined(form_1_tables(two) | form_2_tables(three, in_form_1))
    files = tables | joined(second_readings(two, in_form_1))
    for name, data in files.items():
        write(f"{CASES}/data/{name}", data)
    # each as standard input, then as a named file
    text = [f"{name}\n" + 2 * listed(data) for name, data in tables.items()]
    text += [f"{name}\n{listed(b'')}" for name in UNREADABLE]
    text += [f"{first}\n{second}\n" + listed_again(files[first], files[second]) for first, second in AGAIN]
    write(f"{CASES}/stdout", "".join(text).encode())
    # document 01's table of one band, one row
    write(f"{PROGRAM}/stdin", files["one"])
    write(f"{PROGRAM}/stdout", listed(files["one"]).encode())


if __name__ == "__main__":
    main()
