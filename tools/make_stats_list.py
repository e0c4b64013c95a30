#!/usr/bin/env python3
"""Writes the list of the original's statistics that the program `statslist` replays.

    make_stats_list.py ORACLE > crates/statslist/stdin
    make_stats_list.py ORACLE 50 | crates/statslist/out/statslist     # fifty such lists, each from another seed

ORACLE is a driver over the original's own files (docs/DIFFERENCES.md, "What was compared by running"). It answers one line for
each command: `stats KIND WISH CELLS`, `span KIND CELLS` (max_minus_min) and `facts KIND CELLS` (min_is_zero, min_is_negative,
max_ilog2); cells are joined by commas, `_` is a blank, `?c` a blank with the cell c under it.

A line of the list is WISH|COLUMN|STATISTICS|SPAN|FACTS, COLUMN as `colstats` reads it. SPAN is `-` where there is no value, since
the original's answer is wrong there. The columns are fixed by the seed.
"""
import random
import subprocess
import sys

KINDS = ["u8", "u16", "u32", "u64", "i8", "i16", "i32", "i64"]


def bounds(kind):
    bits = int(kind[1:])
    return (0, 2**bits - 1) if kind[0] == "u" else (-(2 ** (bits - 1)), 2 ** (bits - 1) - 1)


def runs(rng, rows, values, longest):
    out = []
    while len(out) < rows:
        out += [rng.choice(values)] * rng.randint(1, longest)
    return out[:rows]


def blanked(rng, cells, share):
    return [None if rng.random() < share else c for c in cells]


def columns(kind, rng):
    low, high = bounds(kind)
    some = [low, low + 1, low + 2, (low + high) // 2, high - 1, high]
    yield []
    yield [None]
    yield [None] * 65
    yield [low]
    yield [high, low]
    yield [0, None, 0]
    yield [None, high, None, None, high, low, None]
    yield [some[2], some[1], some[2], some[1], some[3]]
    yield [7, 7, 7, 9, 9, 9, 7]
    if low < 0:
        yield [-1, -1, -2]
        yield [-1, 0, None, 1]
    for rows in (63, 64, 65, 127, 128, 129):
        yield runs(rng, rows, some, 9)
        yield blanked(rng, runs(rng, rows, some[:3], 20), 0.3)
    yield [some[0]] * 64 + [some[1]] * 64 + [some[1]]
    yield [some[0]] * 63 + [None] + [some[0]] * 3
    yield [None] * 64 + [some[4]] * 64 + [None] * 64 + [some[4], some[5]]
    yield blanked(rng, [rng.randint(low, high) for _ in range(150)], 0.1)
    yield [rng.randint(max(low, 0), min(high, 300)) for _ in range(200)]


def make(oracle, seed):
    rng = random.Random(seed)
    asked, shown = [], []
    for kind in KINDS:
        low, high = bounds(kind)
        for cells in columns(kind, rng):
            # hidden cells are handed to the original as well: they must not change its answer
            hidden = ",".join(f"?{rng.randint(low, high)}" if c is None else str(c) for c in cells)
            tail = (" " + hidden) if cells else ""
            line = ",".join([kind] + ["" if c is None else str(c) for c in cells])
            for wish in (0, 1):
                asked += [f"stats {kind} {wish}{tail}", f"span {kind}{tail}", f"facts {kind}{tail}"]
                shown.append((wish, line, any(c is not None for c in cells)))
    answers = subprocess.run([oracle], input="\n".join(asked) + "\n", capture_output=True, text=True, check=True).stdout.splitlines()
    assert len(answers) == len(asked)
    for i, (wish, line, value) in enumerate(shown):
        stats, span, facts = answers[3 * i : 3 * i + 3]
        assert not stats.startswith(("panic", "error")) and not facts.startswith(("panic", "error")), (line, stats, facts)
        print(f"{wish}|{line}|{stats}|{span if value else '-'}|{facts}")


for round in range(int(sys.argv[2]) if len(sys.argv) > 2 else 1):
    make(sys.argv[1], 20 + round)
