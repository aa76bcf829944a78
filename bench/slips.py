"""Mixed slips for the benchmarks.

The same slips come at each run. Of 100 slips 10 are bare roots (36 bytes), 30 are a root with a salt and a title of
five bytes (45 bytes), 40 are records of some pairs and pruned parts (to about 2 KB), 5 are chains of height 16, 12 are
records of about 6 KB and 3 of about 30 KB. Each twentieth slip, or as many as are asked for, is then damaged: cut,
lengthened or a bit turned.
"""
import os, random, sys

# the writer of slips stands in tools/; the benchmarks have it from here
sys.path.append(os.path.join(os.path.dirname(os.path.abspath(__file__)), "..", "tools"))

from entries import bits_of, leaf, node, packed

LETTERS = [chr(c) for c in [*range(0x20, 0x7F), *range(0xC0, 0x100)]]
KINDS = ["bare"] * 10 + ["title"] * 30 + ["record"] * 40 + ["chain"] * 5 + ["middle"] * 12 + ["large"] * 3
SIZES = {"record": 1500, "middle": 6000, "large": 30000}


def dangling(rng):
    return leaf(0, rng.randbytes(32))


def salt(rng):
    return leaf(1, rng.randbytes(32))


def internal(children):
    """The entries of a node: those of its children, one after the other, and its own."""
    return [e for child in children for e in child] + [node(len(children))]


def text(rng, length):
    data = b""
    while len(data) < length:
        letter = rng.choice(LETTERS).encode()
        data += letter if len(data) + len(letter) <= length else b" "
    return data


def some_leaf(rng):
    """A pair with text or raw bytes, mostly short, and now and then a pruned part."""
    if rng.random() < 0.2:
        return [dangling(rng)]
    length = rng.choice([0, 5, 12, 20, 33, 60, 120, 300])
    if rng.random() < 0.6:
        return [leaf(rng.randint(2, 511), text(rng, length))]
    return [leaf(rng.randint(512, 1023), rng.randbytes(length))]


def record(rng, size, height=2):
    """A node with a salt, of about `size` bytes."""
    children = [[salt(rng)]]
    made = 36
    while made < size and len(children) < 32:
        if size > 400 and height < 12 and rng.random() < 0.4:
            child = record(rng, rng.randint(200, max(200, size // 3)), height + 1)
        else:
            child = some_leaf(rng)
        children.append(child)
        made += bits_of(child) // 8
    return internal(children)


def large(rng, size):
    """Records below records, until the size is reached."""
    records, made = [], 0
    while made < size and len(records) < 31:
        records.append(record(rng, min(size - made, 1000)))
        made += bits_of(records[-1]) // 8
    return internal(records)


def rows_of(rng, kind):
    if kind == "bare":
        return [dangling(rng)]
    if kind == "title":
        return internal([[salt(rng)], [leaf(2, text(rng, 5))]])
    if kind == "chain":
        chain = [dangling(rng)]
        for _ in range(15):
            chain = internal([chain])
        return chain
    if kind == "record":
        return record(rng, rng.randint(60, SIZES[kind]))
    return large(rng, rng.randint(SIZES[kind] * 3 // 4, SIZES[kind]))


def damaged(rng, slip):
    how = rng.randrange(3)
    if how == 0:
        return slip[: rng.randrange(len(slip))]
    if how == 1:
        return slip + b"\0"
    at = rng.randrange(8 * len(slip))
    turned = bytearray(slip)
    turned[at // 8] ^= 128 >> at % 8
    return bytes(turned)


def slips(count, damage=20):
    rng = random.Random(1)
    for n in range(count):
        rows = rows_of(rng, KINDS[n * 37 % len(KINDS)])
        assert len(rows) <= 1023
        slip = packed(rows)
        assert len(slip) <= 32768
        yield damaged(rng, slip) if n % damage == damage - 1 else slip
