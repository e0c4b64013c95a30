#!/usr/bin/env python3
"""Writes the list of the original's answers on bound trees that the program `treeslist` replays.

    make_trees_list.py ORACLE > crates/treeslist/stdin
    make_trees_list.py ORACLE 50 | crates/treeslist/out/treeslist     # fifty such lists, each from another seed

ORACLE is a driver over the original's own files (docs/DIFFERENCES.md, "What was compared by running"). It answers one line for
each command: `bind BANK DRAWS KIND CELLS` and `leaf ..` (four levels and one), `trace ..` (what happened in a bind), `dict KIND CELLS`,
`samplecount ROWS`, `strata ROWS COUNT`, `draws DRAWS ROWS`, `validity NAME` (how later columns say which rows are valid); cells are
joined by commas, `?c` is a blank with the cell c under it, `c*n` repeats.

A line of the list is COMMAND|COLUMN or numbers|ANSWER:

    tree BANK DRAWS LEVELS|COLUMN|ANSWER    the nodes in the order of their bytes, or the refusal
    dict|COLUMN|ANSWER                      `skip`, or the ratio's bits
    count|ROWS|ANSWER    strata|ROWS COUNT|ANSWER    draws DRAWS|ROWS|ANSWER

A COLUMN is the name of its kind and then, after a comma each,

    CELL or nothing     a row, as `colstats` reads it
    CELL*TIMES          so many such rows
    each LOW STEP COUNT TIMES ROUNDS                   LOW, LOW + STEP and so on, COUNT numbers, each TIMES times; all that ROUNDS times
    drawn SEED LOW STEP COUNT RUNS LONGEST BLANKS      RUNS times one of those numbers, up to LONGEST times; of a hundred rows BLANKS are blank

What is drawn comes from the source Mill, begun at SEED: for each run which number, how often, and for each of its rows, if BLANKS is
not 0, a number below 100: the row is a blank where it is below BLANKS. Everything is fixed by the seed of the list.
"""
import random
import subprocess
import sys

KINDS = ["u8", "u16", "u32", "u64", "i8", "i16", "i32", "i64"]
HOUSE_AND_TRIAL = [("house", "mill"), ("trial", "mill")]
ALL_FOUR = [(bank, draws) for bank in ("house", "trial") for draws in ("mill", "centre")]
MOST = 131072


def bounds(kind):
    bits = int(kind[1:])
    return (0, 2**bits - 1) if kind[0] == "u" else (-(2 ** (bits - 1)), 2 ** (bits - 1) - 1)


class Mill:
    def __init__(self, seed):
        self.state = seed

    def draw(self, low, high):
        self.state = (self.state * 6364136223846793005 + 1442695040888963407) % 2**64
        return low + (self.state >> 33) % (high - low + 1)


def drawn(seed, low, step, count, runs, longest, blanks):
    mill = Mill(seed)
    for _ in range(runs):
        cell = low + step * mill.draw(0, count - 1)
        for _ in range(mill.draw(1, longest)):
            yield None if blanks and mill.draw(0, 99) < blanks else cell


def rows_of(item):
    words = item.split(" ")
    if words[0] == "each":
        low, step, count, times, rounds = map(int, words[1:])
        return [low + step * i for i in range(count) for _ in range(times)] * rounds
    if words[0] == "drawn":
        return list(drawn(*map(int, words[1:])))
    cell, _, times = item.partition("*")
    return [int(cell) if cell else None] * int(times or 1)


def expand(items):
    return [row for item in items for row in rows_of(item)]


# ---- columns, each a kind and items


def plain_items(cells):
    """Cells as items, equal neighbours as one."""
    items, i = [], 0
    while i < len(cells):
        j = i
        while j < len(cells) and cells[j] == cells[i]:
            j += 1
        cell = "" if cells[i] is None else str(cells[i])
        items.append(cell if j - i == 1 else f"{cell}*{j - i}")
        i = j
    return items


def wide_step(kind, count):
    """A step with which COUNT numbers from the least on spread over the whole kind."""
    low, high = bounds(kind)
    return max((high - low) // max(count - 1, 1), 1)


def a_drawn(rng, kind, count, rows, longest, blanks):
    """An item of about so many rows, of up to COUNT numbers of the kind."""
    low, high = bounds(kind)
    count = min(count, high - low + 1)
    step = rng.choice([1, 1, rng.randint(1, wide_step(kind, count)), wide_step(kind, count)])
    first = rng.choice([low, high - step * (count - 1), rng.randint(low, high - step * (count - 1))])
    runs = max(2 * rows // (longest + 1), 1)
    return f"drawn {rng.randint(1, 2**31)} {first} {step} {count} {runs} {longest} {blanks}"


def short_columns(kind):
    """Columns that no sample is drawn of, the same in each list."""
    low, high = bounds(kind)
    step = wide_step(kind, 5)
    for cells in (
        [], [None], [None] * 65, [7], [7, 7], [7, None], [7, 7, None], [None, 7, 7, 7], [low] * 300, [high] * 64 + [None] * 64,
        [1, 1, 2, 2], [1, 2, 2, 1, 3], [1, 13], [13], [13, 13], [1, 1, 13, 13], [None, 13, 12], [12, 14], [low, high], [low] * 5 + [high] * 5,
        [5] * 20 + [6] * 20, [5] * 3 + [6] * 4, [5] * 4 + [6] * 4, [5] * 4 + [6] * 3 + [7] * 4, [low] * 16 + [high] * 16 + [0] * 16,
        [0, 1] * 32, [low + step * (i % 5) for i in range(40)], [low + step * (i // 9 % 5) for i in range(90)],
        [1] * 13 + [2] * 13, [2] * 12 + [3] * 40, [0, 13] * 20 + [0] * 30, [i % 14 for i in range(70)], [14, 27] * 9, [0] * 13 + [None] * 13 + [1] * 13,
    ):
        yield kind, plain_items(cells)


def block_columns(rng, kind):
    """About multiples of 64 rows, with and without blanks."""
    for rows in (63, 64, 65, 127, 128, 129, 191, 192, 193):
        cells = expand([a_drawn(rng, kind, rng.choice([2, 3, 9, 200]), 2 * rows, rng.choice([1, 3, 12]), rng.choice([0, 30]))])
        cells += [rng.randint(0, 100)] * rows
        yield kind, plain_items(cells[:rows])


def code_columns(rng, kind):
    """Dictionaries about the sizes where codes widen or take another bit."""
    low, high = bounds(kind)
    for count in (2, 3, 4, 15, 16, 17, 127, 128, 129, 255, 256, 257, 300, 511, 512, 513):
        if count <= high - low + 1:
            step = rng.choice([1, wide_step(kind, count)])
            rows = rng.choice([3 * count, 5 * count, 700])
            yield kind, [f"each {low} {step} {count} 1 1", f"drawn {rng.randint(1, 2**31)} {low} {step} {count} {rows} {rng.choice([1, 2, 9])} {rng.choice([0, 0, 10])}"]


def edge_columns(kind):
    """Frame's k about the width and half of it."""
    low, _ = bounds(kind)
    bits = int(kind[1:])
    for k in (1, bits // 2, bits // 2 + 1, bits - 1, bits):
        for span in (2 ** (k - 1), 2**k - 1):
            yield kind, [str(low), f"each {low} {max(span // 40, 1)} {min(span, 40) + 1} 1 1", str(low + span)]


def middle_column(rng, kind):
    """About 1,024 rows and more, where samples are drawn."""
    rows = rng.choice([1024, 1025, 1026, 1088, 1100, 1500, 2000, 3000, 5000])
    longest = rng.choice([1, 2, 5, 7, 8, 9, 20, 80])
    blanks = rng.choice([0, 0, 0, 5, 50])
    count = rng.choice([2, 3, 5, 8, 17, 60, 120, 256, 257, 1000])
    items = [a_drawn(rng, kind, count, rows, longest, blanks)]
    if rng.random() < 0.3:
        items.append(a_drawn(rng, kind, rng.choice([1, 2, 30]), rng.choice([30, 400]), rng.choice([1, 10, 200]), blanks))
    if rng.random() < 0.3:
        items.insert(0, rng.choice(["13", "13*3", "13*13", "*5", f"12*{rng.randint(2, 400)}"]))
    return kind, items


def trial_column(rng, kind):
    """Others beat Stern, or 13 stands among values, codes or ends."""
    rows = rng.choice([20, 200, 900, 1030, 3000])
    shape = rng.randrange(7)
    value = rng.choice([1, 13, 12])
    if shape == 0:
        return kind, [f"5*{rows}", f"{value}*{rng.choice([1, 8, 13])}", f"6*{rows}"]
    if shape == 1:
        return kind, [f"each 0 1 {rng.choice([13, 14, 20])} {rng.choice([4, 5, 13, 100])} 1", f"9*{rows}"]
    if shape == 2:
        return kind, [f"{20 + i % 3}*{rng.choice([4, 13, 26])}" for i in range(rng.choice([3, 30, 90]))] + [f"20*{rows}"]
    if shape == 3:
        return kind, [f"drawn {rng.randint(1, 2**31)} 0 1 {rng.choice([5, 12, 13, 14, 30])} {rows} {rng.choice([1, 8, 30])} {rng.choice([0, 20])}"]
    if shape == 4:
        return kind, [f"7*{rows}", f"*{rng.choice([1, 13])}", f"8*{rng.choice([13, 14])}", f"7*{rows}"]
    # a dictionary's ratio above 1,000
    if shape == 5:
        return rng.choice(["u64", "i64"]), [f"{value}*{rng.choice([1600, 2500])}", f"{2**50}*{rng.choice([1700, 2500])}"]
    return "u64", [f"each {2**40} {2**40} {rng.choice([13, 14])} 2000 1"]


def order_column(rng):
    """Few of the codes stand in the rows sampled, so which ones decides the choice below."""
    wide = sorted(rng.randint(0, 2**62) for _ in range(8))
    a, b = sorted(rng.sample(wide, 2))
    rest = [f"{v}*{rng.choice([1, 2, 7])}" for v in wide]
    return "u64", [f"each {a} {b - a} 2 4 {rng.choice([200, 370, 740])}"] + rest


def large_column(rng, kind):
    """Twenty thousand rows to the most."""
    rows, longest, blanks = rng.choice([20000, 50000, 90000, 115000]), rng.choice([1, 5, 9, 40, 500]), rng.choice([0, 0, 3])
    items = [a_drawn(rng, kind, rng.choice([2, 13, 40, 300, 5000, 60000]), rows, longest, blanks)]
    if rng.random() < 0.3:
        items.append(f"{rng.choice([12, 13, 99])}*{MOST - len(expand(items))}")
    return kind, items


def large_columns(rng):
    """Two strata counts, and the most rows."""
    yield "u16", [f"each 0 3 300 200 1", "drawn 5 0 3 300 9000 9 3", "900*3799"]
    yield "u32", ["drawn 9 1000000 977 40 10000 20 0", "3*2", "drawn 11 0 1 2 1500 3 0"]
    yield "u64", [f"each {2**40} {2**41 + 1} 65536 1 2"]
    yield "i64", [f"{-(2**60)}*65536", f"{2**60}*65536"]
    yield "i32", [f"drawn {rng.randint(1, 2**31)} -70000 1 65000 108799 1 0"]
    yield "i32", [f"drawn {rng.randint(1, 2**31)} -70000 1 65000 108800 1 0"]
    yield "u8", ["each 0 1 256 512 1"]


# ---- asking


def ask(oracle, commands):
    answers = subprocess.run([oracle], input="\n".join(commands) + "\n", capture_output=True, text=True, check=True).stdout.splitlines()
    assert len(answers) == len(commands)
    for command, answer in zip(commands, answers):
        assert not answer.startswith(("panic", "error")), (command[:200], answer)
    return answers


def handed(rng, kind, items):
    """The column as the driver takes it, with random cells under the blanks: they must not change its answer."""
    low, high = bounds(kind)
    cells = expand(items)
    assert len(cells) <= MOST, (kind, items, len(cells))
    fields = [item if item and item[0] != "*" else f"?{rng.randint(low, high)}{item}" for item in plain_items(cells)]
    return kind + (" " + ",".join(fields) if fields else "")


def telling(answers, traces):
    """What a column shows that few do."""
    found = []
    if any(word.startswith("win:") and word.endswith(":0") for trace in traces for word in trace.split(" ")):
        found.append("given up")
    if any(answer.startswith("refused") and answer.endswith("sample 1") for answer in answers):
        found.append("refused in a sample")
    if any(answer.startswith("refused") and "level 0" not in answer for answer in answers):
        found.append("refused below")
    if len(answers) == 4 and answers[0] != answers[1]:
        found.append("mill and centre differ")
    if len(answers) == 4 and answers[2] != answers[3]:
        found.append("mill and centre differ in the trial bank")
    if any(answer.startswith("ok") and answer.count(";") > 3 for answer in answers):
        found.append("deep")
    if any(f",{form}," in answer for answer in answers[len(answers) // 2 :] for form in (16, 17) if answer.startswith("ok 0,%d" % form)):
        found.append("another than Stern in the trial bank")
    return found


def tree_lines(oracle, rng, columns, wanted=None):
    """Lines of the columns; with WANTED, of columns until there are so many for each thing that a column may tell."""
    verbs = ("bind", "leaf") if wanted is None else ("bind", "leaf", "trace")
    commands, spans = [], []
    for kind, items in columns:
        text = handed(rng, kind, items)
        ways = ALL_FOUR if len(expand(items)) > 1024 else HOUSE_AND_TRIAL
        commands.append("validity " + rng.choice(["least", "nullable", "bits"]))
        spans.append((kind, items, ways, len(commands)))
        for verb in verbs:
            commands += [f"{verb} {bank} {draws} {text}" for bank, draws in ways]
    answers = ask(oracle, commands)
    seen = {}
    for kind, items, ways, at in spans:
        n = len(ways)
        binds, leaves, traces = answers[at : at + n], answers[at + n : at + 2 * n], answers[at + 2 * n : at + 3 * n]
        if wanted is not None:
            tells = telling(binds, traces)
            if not any(seen.get(t, 0) < wanted for t in tells):
                continue
            for t in tells:
                seen[t] = seen.get(t, 0) + 1
        column = ",".join([kind] + items)
        for (bank, draws), answer in zip(ways, binds):
            yield f"tree {bank} {draws} 4|{column}|{answer}"
        # one level over the ground, of every third column
        if rng.random() < 0.34:
            yield f"tree {ways[0][0]} {ways[0][1]} 1|{column}|{leaves[0]}"


def dict_lines(oracle, rng, columns):
    columns = list(columns)
    answers = ask(oracle, [f"dict {handed(rng, kind, items)}" for kind, items in columns])
    for (kind, items), answer in zip(columns, answers):
        yield f"dict|{','.join([kind] + items)}|{answer}"


def number_lines(oracle, rng):
    edges = [0, 1, 63, 64, 1023, 1024, 1025, 1026, 2047, 6400, 102399, 102400, 102401, 108799, 108800, 108801, 131071, 131072]
    rows = edges + sorted(rng.randint(1, MOST) for _ in range(8))
    for n, answer in zip(rows, ask(oracle, [f"samplecount {n}" for n in rows])):
        yield f"count|{n}|{answer}"
    pairs = [(n, 32 if n >= 108800 else 16) for n in rows if n > 1024] + [(64, 7), (129, 16), (1000, 3), (1025, 1), (2048, 31)]
    for (n, k), answer in zip(pairs, ask(oracle, [f"strata {n} {k}" for n, k in pairs])):
        yield f"strata|{n} {k}|{answer}"
    for draws in ("mill", "centre"):
        asked = [n for n in rows if n > 1000]
        for n, answer in zip(asked, ask(oracle, [f"draws {draws} {n}" for n in asked])):
            yield f"draws {draws}|{n}|{answer}"


def some(rng, share, columns):
    return [c for c in columns if rng.random() < share]


def make(oracle, seed, first):
    rng = random.Random(seed)
    fixed = [c for kind in KINDS for c in [*short_columns(kind), *edge_columns(kind)]]
    blocks = [c for kind in KINDS for c in block_columns(rng, kind)]
    codes = [c for kind in KINDS for c in code_columns(rng, kind)]
    share = 0.25 if first else 1
    if first:
        yield from number_lines(oracle, rng)
        yield from tree_lines(oracle, rng, some(rng, 0.3, fixed))
        yield from tree_lines(oracle, rng, large_columns(rng))
    yield from tree_lines(oracle, rng, some(rng, share, blocks))
    yield from tree_lines(oracle, rng, some(rng, share, codes))
    yield from tree_lines(oracle, rng, [middle_column(rng, rng.choice(KINDS)) for _ in range(150)], 6 if first else None)
    yield from tree_lines(oracle, rng, [trial_column(rng, rng.choice(KINDS)) for _ in range(150)], 6 if first else None)
    yield from tree_lines(oracle, rng, [order_column(rng) for _ in range(12)], 2 if first else None)
    yield from dict_lines(oracle, rng, some(rng, 0.12, fixed + blocks + codes))
    if not first:
        yield from tree_lines(oracle, rng, [large_column(rng, rng.choice(KINDS)) for _ in range(3)])


for round in range(int(sys.argv[2]) if len(sys.argv) > 2 else 1):
    for line in make(sys.argv[1], 20 + round, round == 0):
        print(line)
