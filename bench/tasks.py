"""Tasks for crates/call_bench and bench/calls.rs: slips of bench/slips.py, prunings of them and joins of two prunings.

As a program, bench/tasks.py writes crates/call_bench/stdin and stdout: some small tasks, and the line that the Rust twin
makes of them.
"""
import hashlib, os, random, subprocess

from slips import KINDS, bits_of, damaged, internal, leaf, packed, record, rows_of, salt, slips

CHECK, PRUNE, JOIN = range(3)
ROOM = 65535


def task(call, first, second=b"", times=1, room=ROOM):
    numbers = (call, times, len(first), len(second), room)
    return b"".join(n.to_bytes(2, "big") for n in numbers) + first + second


def cells(names):
    return b"".join(n.to_bytes(2, "big") for n in names)


class Tree:
    """A slip's rows, and of each row its subtree's first row and its label."""

    def __init__(self, rows):
        self.rows, self.firsts, self.labels = rows, [], []
        waiting = []
        for i, row in enumerate(rows):
            below = waiting[len(waiting) - row.children :]
            del waiting[len(waiting) - row.children :]
            self.firsts.append(self.firsts[below[0]] if below else i)
            self.labels.append(self.label(row, below))
            waiting.append(i)

    def label(self, row, below):
        if not below:
            return row.value
        digest = hashlib.sha256()
        for i in below:
            label = self.labels[i]
            digest.update(self.rows[i].type.to_bytes(2, "big") + len(label).to_bytes(2, "big") + label)
        return digest.digest()

    def internals(self):
        return [i for i, row in enumerate(self.rows) if row.children]

    def pruned(self, names):
        """The slip with the named nodes dangling."""
        left, end = [], len(self.rows)
        while end:
            end -= 1
            if end in names:
                left.append(leaf(0, self.labels[end]))
                end = self.firsts[end]
            else:
                left.append(self.rows[end])
        return packed(left[::-1])


def some(rng, tree, share):
    return sorted(i for i in tree.internals() if rng.random() < share)


def faulty(rng, names, rows):
    """A list that most often has a fault: a name twice, out of order, out of range or of a leaf."""
    extra = rng.choice(names + [0, rows - 1, rows, 65535, rng.randrange(rows)])
    return [*names[: rng.randint(0, len(names))], extra, *names[rng.randint(0, len(names)) :]]


def wide(rng):
    """A node of many pairs whose values are empty: many rows in few bytes."""
    pairs = [leaf(rng.randint(2, 1023), b"") for _ in range(rng.randint(20, 31))]
    return internal([[salt(rng)], *([p] for p in pairs)])


def grove(rng, kind):
    """A record; two kinds are such that the join of two small enough prunings has too many nodes, or bytes."""
    if kind == "wide":
        return internal([internal([wide(rng) for _ in range(rng.randint(5, 25))]) for _ in range(2)])
    if kind == "heavy":
        return internal([record(rng, 1400) for _ in range(rng.randint(20, 32))])
    return rows_of(rng, kind)


def kinds(rng):
    return rng.choice(KINDS + ["wide"] * 12 + ["heavy"] * 8)


def fits(rows):
    return len(rows) <= 1023 and bits_of(rows) + 16 <= 8 * 32768


def mixed(rng, count):
    """Tasks of every call, some refused, of records of many sizes; a record may be too large for a slip, and its
    prunings then small enough."""
    for n in range(count):
        tree = Tree(grove(rng, kinds(rng)))
        share = rng.choice([0, 0.02, 0.1, 0.3, 0.7, 1])
        sides = [tree.pruned(some(rng, tree, share)) for _ in range(2)]
        if max(map(len, sides)) > ROOM:
            continue
        hurt = [damaged(rng, s) if rng.random() < 0.06 else s for s in sides]
        room = rng.choice([ROOM] * 6 + [0, len(sides[0]), max(0, len(sides[0]) - 1), rng.randrange(32769)])
        if n % 20 == 0:
            yield task(CHECK, hurt[0])
        elif n % 2:
            other = packed(rows_of(rng, "title")) if rng.random() < 0.03 else hurt[1]
            yield task(JOIN, hurt[0], other, room=room)
        elif fits(tree.rows):
            names = some(rng, tree, share)
            listed = faulty(rng, names, len(tree.rows)) if rng.random() < 0.15 else names
            slip = packed(tree.rows)
            yield task(PRUNE, damaged(rng, slip) if rng.random() < 0.05 else slip, cells(listed), room=room)


def main():
    given, expected = (f"crates/call_bench/{name}" for name in ("stdin", "stdout"))
    rng = random.Random(2)
    with open(given, "wb") as f:
        f.writelines(t for t in mixed(rng, 200) if len(t) < 1200)
        f.writelines(task(CHECK, slip, room=0) for slip in [*slips(20, 3), b""])
    rust = "target/bench/calls_rust"
    os.makedirs("target/bench", exist_ok=True)
    subprocess.run(["rustc", "--edition", "2021", "-O", "-o", rust, "bench/calls.rs"], check=True)
    with open(given, "rb") as f, open(expected, "wb") as out:
        subprocess.run([rust], stdin=f, stdout=out, check=True)


if __name__ == "__main__":
    main()
