"""Cases on each side of document 01's limits, with their answers from the model of the check and from the document.

They have the form of data/cases.jsonl; tools/cases puts them behind the cases of that file. No join is refused with 14:
nobody can show two texts with one SHA-256. crates/label_cases has such joins under another label function.
"""
from check_model import check
from entries import bits_of, columns, leaf, node, packed

SALT = leaf(1, bytes(range(32)))
ROOM = 65535
ROOMS = {f"cap_{name}": ROOM for name in ("types", "counts", "lengths", "values")}


def case(call, given, answer, **out):
    return {"call": call, "in": given, "expect": answer | {"out": out}}


def answer(number, place, length=0, blocks=0, label=bytes(32), side=0):
    return dict(number=number, place=place, second=0, side=side, length=length, blocks=blocks, label=label.hex())


def checked(data):
    a = check(data)
    return answer(a.number, a.place, len(data) if a.number == 0 else 0, a.blocks, a.label)


def table(entries):
    types, counts, lengths, values = columns(entries)
    return dict(types=types, counts=counts, lengths=lengths, values=values.hex())


def taken(entries):
    """Check, pack and unpack of an accepted slip."""
    data = packed(entries)
    assert check(data).number == 0
    yield case("check", {"slip": data.hex()}, checked(data))
    yield case("pack", table(entries) | {"outlen": ROOM}, checked(data), out=data.hex())
    yield case("unpack", {"slip": data.hex()} | ROOMS, checked(data), **table(entries))


def unpacked(entries, number, place):
    """A table that the packer refuses."""
    return case("pack", table(entries) | {"outlen": ROOM}, answer(number, place))


def chain(height):
    return [leaf(0, bytes(32))] + [node(1)] * (height - 1)


def pairs(count):
    """A node with a salt and empty pairs, `count` children in all."""
    return [SALT] + [leaf(600, b"")] * (count - 1) + [node(count)]


def full(total):
    """A slip with values of `total` bytes: three nodes of a salt and 31 raw values each."""
    entries, left = [], total
    for _ in range(3):
        entries.append(SALT)
        for _ in range(31):
            entries.append(leaf(600, bytes(min(511, left))))
            left -= min(511, left)
        entries.append(node(32))
    assert left == 0
    return entries + [node(3)]


def too_long(data):
    """Each call on a slip of over 32,768 bytes; a join says on which side it stands."""
    slip, other = data.hex(), packed(pairs(2)).hex()
    yield case("check", {"slip": slip}, answer(1, 0))
    yield case("unpack", {"slip": slip} | ROOMS, answer(1, 0))
    yield case("prune", {"slip": slip, "list": [], "outlen": ROOM}, answer(1, 0))
    yield case("join", {"a": slip, "b": other, "outlen": ROOM}, answer(1, 0, side=1))
    yield case("join", {"a": other, "b": slip, "outlen": ROOM}, answer(1, 0, side=2))


def joined(first, second):
    """The join of what shows only the first and only the second subtree of a record, at the limit or past it."""
    gone = [[leaf(0, check(packed(half)).label)] for half in (first, second)]
    whole, left, right = (a + b + [node(2)] for a, b in ((first, second), (first, gone[1]), (gone[0], second)))
    data, slips = packed(whole), [packed(left), packed(right)]
    assert all(check(slip).number == 0 for slip in slips)
    given = dict(a=slips[0].hex(), b=slips[1].hex(), outlen=ROOM)
    if len(whole) == 1024 or len(data) == 32769:
        return case("join", given, answer(15, 0))
    assert len(whole) == 1023 or len(data) == 32768
    return case("join", given, checked(data), out=data.hex())


def raw(total):
    """A node with a salt and 31 raw values of `total` bytes together."""
    sizes = [min(511, max(0, total - 511 * i)) for i in range(31)]
    assert sum(sizes) == total
    return [SALT] + [leaf(600, bytes(n)) for n in sizes] + [node(32)]


def edges():
    title = [SALT, leaf(2, b"title"), node(2)]
    assert len(packed(title)) == 45 and bits_of(title) + 16 == 358
    yield from taken(title)
    # heights 16 and 17
    yield from taken(chain(16))
    yield case("check", {"slip": packed(chain(17)).hex()}, answer(6, 16))
    yield unpacked(chain(17), 6, 16)
    # 1,023 rows and 1,024; 32 children and 33
    rows = pairs(32) * 30 + pairs(31) + [node(31)]
    assert len(rows) == 1023
    yield from taken(rows)
    yield unpacked([SALT] + rows, 16, 0)
    yield unpacked([SALT] + [leaf(600, b"")] * 32 + [node(33)], 16, 33)
    # values of 511 bytes and 512
    yield from taken([SALT, leaf(2, b"e" * 511), leaf(1023, bytes(511)), node(3)])
    yield unpacked([SALT, leaf(2, b"e" * 512), node(2)], 16, 1)
    # 32,768 bytes and 32,769
    most = full(32427)
    assert len(packed(most)) == 32768
    yield from taken(most)
    yield from too_long(packed(most) + bytes(1))
    yield unpacked(full(32428), 1, 0)
    # a join of 1,023 nodes and of 1,024, of 32,768 bytes and of 32,769
    half, rest = pairs(32) * 15 + [node(15)], pairs(32) * 15
    yield joined(half, rest + pairs(29) + [node(16)])
    yield joined(half, rest + pairs(30) + [node(16)])
    most = raw(31 * 511)
    yield joined(most, most + raw(744) + [node(2)])
    yield joined(most, most + raw(745) + [node(2)])
