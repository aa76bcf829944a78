"""UTF-8 on each side of Unicode's table 3-7, and what Python's decoder makes of it: for tools/vectors and tools/expect."""

# What an ill-formed sequence is read as: one past the last code point.
ILL = 0x110000

# Unicode's table 3-7, well-formed byte sequences: the bounds of each byte, row by row.
TAIL = (0x80, 0xBF)
TABLE_3_7 = [
    [(0x00, 0x7F)],
    [(0xC2, 0xDF), TAIL],
    [(0xE0, 0xE0), (0xA0, 0xBF), TAIL],
    [(0xE1, 0xEC), TAIL, TAIL],
    [(0xED, 0xED), (0x80, 0x9F), TAIL],
    [(0xEE, 0xEF), TAIL, TAIL],
    [(0xF0, 0xF0), (0x90, 0xBF), TAIL, TAIL],
    [(0xF1, 0xF3), TAIL, TAIL, TAIL],
    [(0xF4, 0xF4), (0x80, 0x8F), TAIL, TAIL],
]


def of_row(row):
    """Each byte on both sides of its bounds, the others at one bound, with a character behind; and the row cut short."""
    for bound in (0, 1):
        whole = [b[bound] for b in row]
        for i, (lo, hi) in enumerate(row):
            for byte in (lo - 1, lo, hi, hi + 1):
                if 0 <= byte <= 255:
                    yield bytes(whole[:i] + [byte] + whole[i + 1:] + [0x41])
        for n in range(1, len(whole)):
            yield bytes(whole[:n])
            yield bytes(whole[:n] + [0x41])


def sequences():
    return list(dict.fromkeys(s for row in TABLE_3_7 for s in of_row(row)))


def decoded(given):
    """The characters of some bytes by Python's decoder, up to the first ill-formed sequence and with it."""
    try:
        return [ord(c) for c in given.decode()]
    except UnicodeDecodeError as e:
        return [ord(c) for c in given[:e.start].decode()] + [ILL]
