#!/usr/bin/env python3
"""Respells the definitions and lemmas of specs/ and proofs/ in snake case, wherever they are named.

usage: python3 tools/snake_case_names.py [--dry]      at the top of the repository, once, after the kit's port.py

A name is respelled where one of its parts (between dashes, underscores and dots) begins with a small letter and has a capital in it:
`packedLen` becomes `packed_len`, `all-keepIf` becomes `all-keep_if`. Types, modules and constructors keep their capital, numbers and
texts in quotes are left alone. Sources in Rust's own words have no such names, so only clauses, ghost lines and comments change there.
It goes over crates/ (.rt, .antt and the must-fail edits), docs/ and README.md, and says which new names stood in a file before.
"""

import os
import re
import sys

WORD = re.compile(r"(?<![A-Za-z0-9_'-])[A-Za-z_][A-Za-z0-9_'-]*")
PART = re.compile(r"[A-Za-z0-9']+")
HUMP = re.compile(r"(?<=[a-z0-9])[A-Z]")
TEXT = re.compile(r'"(?:[^"\\\n]|\\.)*"')
# Where a parameter has the new name already, the definition goes by another one in that file: (file, old name): alias.
ALIASES = {("crates/node/src/payloads.rt", "hasBlank"): "blank_among"}


def part(m):
    p = m[0]
    return HUMP.sub(lambda h: "_" + h[0].lower(), p) if p[0].islower() and HUMP.search(p) else p


def spelled(word):
    return PART.sub(part, word)


def turned(text, clashes, aliases):
    kept = set(WORD.findall(text))
    ghost = [i for i, l in enumerate(text.split("\n")) if l.startswith("ghost use ")]
    for old, alias in aliases.items():
        lines = text.split("\n")
        for i, l in enumerate(lines):
            lines[i] = re.sub(rf"\b{old}\b", f"{spelled(old)} as {alias}" if i in ghost else alias, l)
        text = "\n".join(lines)

    def one(m):
        new = spelled(m[0])
        if new != m[0] and new in kept:
            clashes.add((m[0], new))
        return new

    out, at = [], 0
    for t in TEXT.finditer(text):
        out += [WORD.sub(one, text[at : t.start()]), t[0]]
        at = t.end()
    return "".join(out) + WORD.sub(one, text[at:])


def files():
    for top in ("crates", "docs"):
        for folder, dirs, names in os.walk(top):
            dirs[:] = sorted(d for d in dirs if d != "out")
            for n in sorted(names):
                if n.endswith((".rt", ".antt", ".edit", ".md")):
                    yield os.path.join(folder, n)
    yield "README.md"


def main(argv):
    dry = "--dry" in argv
    for path in files():
        with open(path, encoding="utf-8") as f:
            old = f.read()
        clashes = set()
        new = turned(old, clashes, {n: a for (p, n), a in ALIASES.items() if p == path})
        for a, b in sorted(clashes):
            print(f"look: {path}: {a} becomes {b}, which stood there before")
        if new != old and not dry:
            with open(path, "w", encoding="utf-8") as f:
                f.write(new)


if __name__ == "__main__":
    main(sys.argv[1:])
