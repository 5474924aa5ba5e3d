"""The stored table by the words of documents 01 and 02, for the programs that make expected files: blocks of both forms, their checks, the moves
between the forms, and the lister's text for any bytes. Nothing here comes from Rattle.
"""
from exact import BAND_LIMIT

# how many gains of a row a form leaves out, from the last on (request L8)
LEFT_OUT = {1: 0, 2: 1}


def word(n):
    return bytes([n % 256, n // 256])


def number(block, i):
    return block[i] + 256 * block[i + 1]


def checks(block):
    """The two checks of a block's bytes 0 to 507."""
    return sum(block[:508]) % 65536, sum((i + 1) * block[i] for i in range(508)) % 65536


def sealed(body):
    """A block of 508 bytes with its checks."""
    a, b = checks(body)
    return body + word(a) + word(b)


def width(form, bands):
    """How many gains of a row are stored."""
    return bands - LEFT_OUT[form]


def rows_a_block(form, bands):
    return 250 // width(form, bands)


def blocks_of(form, bands, rows):
    """How many blocks a table has."""
    return -(-rows // rows_a_block(form, bands))


def stored(bands, rows, form=1):
    """The blocks of a table."""
    per = rows_a_block(form, bands)
    blocks = []
    for k in range(blocks_of(form, bands, len(rows))):
        held = rows[k * per:(k + 1) * per]
        body = word(form) + word(k) + word(bands) + word(len(rows)) + b"".join(word(g) for row in held for g in row[:width(form, bands)])
        blocks.append(sealed(body + bytes(508 - len(body))))
    return blocks


class Refused(Exception):
    """Number and place."""

    def line(self):
        return "refused {} {}\n".format(*self.args)


def sizes(data):
    """Form, bands and rows of a header."""
    return number(data, 0), number(data, 4), number(data, 6)


def judge_head(block, k, form, bands, rows):
    """Refuses a block that is not block k of a table of that form, with so many bands and rows."""
    if checks(block) != (number(block, 508), number(block, 510)):
        raise Refused(10, k)
    inside = form in LEFT_OUT and LEFT_OUT[form] < bands <= BAND_LIMIT and 1 <= rows <= 1024
    if not inside or number(block, 2) != k or sizes(block) != (form, bands, rows):
        raise Refused(11, k)


def rows_of(block, k, form, bands, rows):
    """The rows of block k, whose head is good, with the gains that are left out."""
    per, kept = rows_a_block(form, bands), width(form, bands)
    held = min(per, rows - k * per)
    found = []
    for r in range(held):
        gains = [number(block, 8 + 2 * (r * kept + j)) for j in range(kept)]
        gains += [32768 - sum(gains)] * LEFT_OUT[form]
        if sum(gains) != 32768 or gains[-1] < 0:
            raise Refused(8, k * per + r)
        found.append(gains)
    if any(block[8 + 2 * held * kept:508]):
        raise Refused(12, k)
    return found


def read(data):
    """Bands and rows of a table, or what reading refuses with nothing lent."""
    if not data or len(data) % 512:
        raise Refused(9, 0)
    form, bands, rows = sizes(data)
    found = []
    for k in range(len(data) // 512):
        block = data[512 * k:512 * k + 512]
        judge_head(block, k, form, bands, rows)
        if k == 0 and len(data) != 512 * blocks_of(form, bands, rows):
            raise Refused(9, 0)
        found += rows_of(block, k, form, bands, rows)
    return bands, found


def moved(data, form, lent=None):
    """The table in a form, or what the move refuses; `lent` is the length of the lent result, None where it is the right one."""
    bands, rows = read(data)
    if bands <= LEFT_OUT[form]:
        raise Refused(15, 0)
    result = b"".join(stored(bands, rows, form))
    if lent not in (None, len(result)):
        raise Refused(9, 0)
    return result


def first_line(bands, rows):
    return f"bands {bands} rows {rows}\n"


def lines(start, rows):
    """A line for each row, the first being row `start`."""
    return "".join(" ".join(map(str, [start + r, *gains])) + "\n" for r, gains in enumerate(rows))


def listed(data):
    """The lister's text for an input."""
    try:
        bands, rows = read(data)
    except Refused as refused:
        return refused.line()
    return first_line(bands, len(rows)) + lines(0, rows)


def listed_again(first, second):
    """The lister's text for a file that is `second` when it is read again, after `first`, which is judged.

    A sound table's lines come from the second reading, judged by the form, bands and rows of the first, up to the first block that is cut or
    does not pass; where that is block 0, its refusal.
    """
    try:
        read(first)
    except Refused as refused:
        return refused.line()
    form, bands, rows = sizes(first)
    text = [first_line(bands, rows)]
    for k in range(blocks_of(form, bands, rows)):
        block = second[512 * k:512 * k + 512]
        try:
            if len(block) < 512:
                raise Refused(9, 0)
            judge_head(block, k, form, bands, rows)
            text.append(lines(k * rows_a_block(form, bands), rows_of(block, k, form, bands, rows)))
        except Refused as refused:
            return "".join(text) if k else refused.line()
    return "".join(text)
