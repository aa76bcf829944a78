#!/usr/bin/env python3
"""A model of the check, from document 01 alone: plain Python, no limit read from the crates.

As a program, run in the repository's root, it puts the check cases of data/cases.jsonl to the model and says how many
differ.
"""
import hashlib, json, sys
from collections import namedtuple

Answer = namedtuple("Answer", "number place blocks label")
Node = namedtuple("Node", "type label height")


class Refused(Exception):
    pass


class Bits:
    """The bits of a slip, the most significant first. An entry's number is the place of a bit that is missing."""

    def __init__(self, data):
        self.number = int.from_bytes(data, "big")
        self.left = 8 * len(data)

    def take(self, count, place):
        if self.left < count:
            raise Refused(2, place)
        self.left -= count
        return self.number >> self.left & (1 << count) - 1

    def bytes(self, count, place):
        return self.take(8 * count, place).to_bytes(count, "big")


def composed(value):
    """Whether a text value is well-formed, in the repertoire, and has no mark."""
    try:
        text = value.decode("utf-8")
    except UnicodeDecodeError:
        return False
    return all(0x20 <= ord(c) <= 0x7E or 0xA0 <= ord(c) <= 0xFF for c in text)


def salt_rule(children):
    first = children[0]
    salted = first.type == 1 and len(first.label) == 32
    return all(
        (child.type != 1 or (i == 0 and salted)) and (child.type < 2 or salted) for i, child in enumerate(children)
    )


def internal(bits, place, waiting):
    """An internal node of the last entries waiting, and the blocks that its label takes."""
    count = bits.take(5, place) + 1
    if len(waiting) < count:
        raise Refused(5, place)
    children = waiting[-count:]
    del waiting[-count:]
    height = 1 + max(child.height for child in children)
    if height > 16:
        raise Refused(6, place)
    if not salt_rule(children):
        raise Refused(7, place)
    prelabel = b"".join(
        child.type.to_bytes(2, "big") + len(child.label).to_bytes(2, "big") + child.label for child in children
    )
    waiting.append(Node(0, hashlib.sha256(prelabel).digest(), height))
    return (len(prelabel) + 72) // 64


def leaf(bits, place, waiting):
    type = bits.take(10, place)
    length = 32 if type == 0 else bits.take(9, place)
    value = bits.bytes(length, place)
    if 2 <= type <= 511 and not composed(value):
        raise Refused(8, place)
    waiting.append(Node(type, value, 1))
    return 0


def entries(bits):
    edition, count = bits.take(6, 0), bits.take(10, 0)
    if edition != 1:
        raise Refused(3, 0)
    if count == 0:
        raise Refused(4, 0)
    waiting, blocks = [], 0
    for place in range(count):
        blocks += internal(bits, place, waiting) if bits.take(1, place) else leaf(bits, place, waiting)
    if len(waiting) != 1 or waiting[0].type != 0:
        raise Refused(9, 0)
    if bits.left > 7 or bits.take(bits.left, 0) != 0:
        raise Refused(10, 0)
    return Answer(0, 0, blocks, waiting[0].label)


def check(slip):
    try:
        if len(slip) > 32768:
            raise Refused(1, 0)
        return entries(Bits(slip))
    except Refused as refusal:
        number, place = refusal.args
        return Answer(number, place, 0, bytes(32))


def main():
    cases = [json.loads(line) for line in open("data/cases.jsonl")]
    cases = [c for c in cases if c["call"] == "check" and not c.get("label")]
    wrong = 0
    for c in cases:
        a, e = check(bytes.fromhex(c["in"]["slip"])), c["expect"]
        wrong += a != Answer(e["number"], e["place"], e["blocks"], bytes.fromhex(e["label"]))
    print(f"{len(cases)} cases, {wrong} differ")
    sys.exit(1 if wrong else 0)


if __name__ == "__main__":
    main()
