"""A slip's entries by document 01: their bits, their columns and the slip that they make.

The tests, the model and the benchmarks share this. It keeps to no limit: what it writes may be refused.
"""
from collections import namedtuple

# An internal node has children and no value; a leaf has a value, a dangling node's is its label.
Entry = namedtuple("Entry", "type children value")


def node(children):
    return Entry(0, children, b"")


def leaf(type, value):
    return Entry(type, 0, value)


def bits(number, width):
    return f"{number:0{width}b}"


def entry_bits(entry):
    if entry.children:
        return "1" + bits(entry.children - 1, 5)
    length = "" if entry.type == 0 else bits(len(entry.value), 9)
    return "0" + bits(entry.type, 10) + length + "".join(bits(b, 8) for b in entry.value)


def bits_of(entries):
    """How many bits the entries take."""
    return sum(6 if e.children else (11 if e.type == 0 else 20) + 8 * len(e.value) for e in entries)


def packed(entries):
    text = bits(1, 6) + bits(len(entries), 10) + "".join(map(entry_bits, entries))
    text += "0" * (-len(text) % 8)
    return int(text, 2).to_bytes(len(text) // 8, "big")


def columns(entries):
    """Types, counts, lengths and the values end to end."""
    cells = [(e.type, e.children, len(e.value)) for e in entries]
    return [[c[k] for c in cells] for k in range(3)] + [b"".join(e.value for e in entries)]
