"""What bench/prune and bench/join share: the proved call against the plain Rust one, and against a check.

The two programs do the same mixed tasks, a third of them refused, and must write the same line. They are timed on slips
of about 4 KiB: the call, and a check of the same slips by the same program.
"""
import random

from slips import large, packed
from tasks import CHECK, JOIN, PRUNE, Tree, cells, mixed, some, task
from timing import build, race, said

COUNT, TIMES, MIXED = 60, 150, 3000
LEAST, MOST = 3900, 4300


def write(path, tasks):
    with open(path, "wb") as f:
        f.writelines(tasks)
    return path


def fitting(slip):
    return LEAST <= len(slip) <= MOST


def prunes(rng):
    """Each slip with an empty list, with a few names or with many in turn."""
    made = 0
    while made < COUNT:
        tree = Tree(large(rng, 4000))
        slip = packed(tree.rows)
        if fitting(slip):
            yield slip, cells(some(rng, tree, (0, 0.1, 0.4)[made % 3]))
            made += 1


def trimmed(rng, tree):
    """A pruning of at most 4 KiB: nodes are named one after the other until it is no larger."""
    names, slip = set(), packed(tree.rows)
    for node in rng.sample(tree.internals(), len(tree.internals())):
        if len(slip) <= MOST:
            return slip
        names.add(node)
        slip = tree.pruned(names)
    return slip


def joins(rng):
    """Two different prunings of one record of 5 to 7 KB."""
    made = 0
    while made < COUNT:
        tree = Tree(large(rng, rng.randint(5000, 7000)))
        sides = [trimmed(rng, tree) for _ in range(2)]
        if sides[0] != sides[1] and all(map(fitting, sides)):
            yield sides
            made += 1


def bench(name):
    call, make = {"prune": (PRUNE, prunes), "join": (JOIN, joins)}[name]
    programs = build(name, "call_bench", "calls")
    rng = random.Random(name)
    pairs = list(make(rng))
    alike = write(f"target/bench/{name}-mixed", mixed(rng, MIXED))
    calls = write(f"target/bench/{name}-calls", (task(call, a, b, TIMES) for a, b in pairs))
    checks = write(f"target/bench/{name}-checks", (task(CHECK, a, b"", TIMES) for a, _ in pairs))
    best, lines = race(name, programs, [alike, calls, checks])
    accepted, refused = lines[alike].split()[:2]
    sizes = sorted(len(a) for a, _ in pairs)
    print(f"mixed tasks alike: {int(accepted)} accepted, {int(refused)} refused")
    print(f"{COUNT} slips of {sizes[0]} to {sizes[-1]} bytes, {TIMES} times each")
    said(name, *(best[p, calls] for p in programs), best[programs[0], checks])
