#!/usr/bin/env python3
"""Binds columns with the plain version and with an oracle that runs the original, and compares the trees.

usage: against.py ORACLE LIST [COLUMNS]
ORACLE and LIST are programs that answer a line `bind house mill KIND cells` with the nodes of the tree."""

import random
import subprocess
import sys

KINDS = {f"{s}{w}": (0 if s == "u" else -(1 << w - 1), (1 << w) - 1 if s == "u" else (1 << w - 1) - 1)
         for s in "ui" for w in (8, 16, 32, 64)}
LENGTHS = [0, 1, 2, 3, 5, 8, 12, 40, 63, 64, 65, 127, 128, 129, 300, 1023, 1024, 1025, 1500, 2500, 5000, 20000, 70000, 108800, 131072]


def values(rng, kind, rows):
    """One of the families of values."""
    low, high = KINDS[kind]
    clip = lambda v: max(low, min(high, v))
    family = rng.randrange(9)
    few = [rng.randint(low, high) for _ in range(rng.choice([1, 2, 3, 5, 9, 40, 256, 257, 700]))]
    if family == 0:
        return [rng.choice(few) for _ in range(rows)]
    if family == 1:  # runs of few values
        out = []
        length = rng.choice([3, 4, 5, 12, 200])
        while len(out) < rows:
            out += [rng.choice(few)] * rng.randint(1, 2 * length)
        return out[:rows]
    if family == 2:  # rising
        step, at = rng.choice([1, 1, 3, 40]), rng.randint(low // 2, high // 2)
        out = []
        for _ in range(rows):
            at = clip(at + (rng.randint(0, step) if rng.random() < 0.2 else 0))
            out.append(at)
        return out
    if family == 3:  # near one another
        base, span = rng.randint(low, high), rng.choice([1, 7, 100, 1000, 1 << 20])
        return [clip(base + rng.randint(0, span)) for _ in range(rows)]
    if family == 4:
        return [rng.randint(low, high) for _ in range(rows)]
    if family == 5:  # multiples
        step = rng.choice([2, 50, 1000])
        return [clip(step * rng.randint(0, 400)) for _ in range(rows)]
    if family == 6:
        return [few[0]] * rows
    if family == 7:  # each a few times, in runs
        out, at = [], low
        while len(out) < rows:
            out += [clip(at)] * rng.randint(3, 9)
            at += rng.randint(1, 5)
        return out[:rows]
    return [clip(r // rng.choice([4, 5])) for r in range(rows)]


def column(rng, rows):
    kind = rng.choice(list(KINDS))
    cells = values(rng, kind, rows)
    blanks = rng.choice([0, 0, 0.01, 0.3, 0.9, 1 if rows < 3000 else 0.5])
    runs = rng.random() < 0.5
    fields, blank = [], False
    for cell in cells:
        if not runs or rng.random() < 0.1:
            blank = rng.random() < blanks
        fields.append("_" if blank else str(cell))
    text = ",".join(fields)
    return f"bind house mill {kind}" + (f" {text}" if text else "")


def answers(program, lines):
    run = subprocess.run([program], input="\n".join(lines) + "\n", capture_output=True, text=True, check=True)
    return run.stdout.splitlines()


def main():
    oracle, ours = sys.argv[1:3]
    count = int(sys.argv[3]) if len(sys.argv) > 3 else 600
    rng = random.Random(20261127)
    lines = [column(rng, LENGTHS[i % len(LENGTHS)]) for i in range(count)]
    wanted, got = answers(oracle, lines), answers(ours, lines)
    assert len(wanted) == len(got) == count
    wrong = [i for i in range(count) if wanted[i] != got[i]]
    for i in wrong[:5]:
        print(lines[i][:300], wanted[i], got[i], sep="\n  ")
    shapes = {}
    for tree in wanted:
        shape = " ".join(node.split(",")[0] + ":" + node.split(",")[1] for node in tree[3:].split(";"))
        shapes[shape] = shapes.get(shape, 0) + 1
    print(f"{count} columns, {len(wrong)} differ, {len(shapes)} shapes of trees")
    for shape, times in sorted(shapes.items(), key=lambda pair: -pair[1]):
        print(f"  {times:5} {shape}")
    sys.exit(1 if wrong else 0)


main()
