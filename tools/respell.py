#!/usr/bin/env python3
"""Brings the definitions and lemmas of this repository to today's spelling: words in snake case, types in camel case, and a dash
only between a function and what it is of (length-zeros). Run once, at the top, after the kit's own port.py.

tools/respell.txt has a line for each name, old and new. Names stand in .antt files and in the clauses of .rt files; strings, and
names of the code, stay as they are (none of them has a dash).

It was run once, before proofs had today's names of goals and steps. It is kept to show what was renamed, and is not to be run again:
`write-answer` and `new-card`, which were names of lemmas, are names of steps in some answers now."""
import re, pathlib

TOP = pathlib.Path(__file__).resolve().parent.parent
TABLE = dict(line.split() for line in (TOP / "tools/respell.txt").read_text().splitlines() if line.strip())
TOKEN = re.compile(r'"(?:[^"\\\n]|\\.)*"|[A-Za-z0-9_\'ℕ][A-Za-z0-9_\'ℕ+-]*')


def respell(text):
    return TOKEN.sub(lambda m: TABLE.get(m.group(0), m.group(0)), text)


def main():
    changed = 0
    for path in sorted(TOP.glob("crates/*/**/*")):
        if path.suffix not in (".antt", ".rt") or "out" in path.parts:
            continue
        old = path.read_text()
        new = respell(old)
        if new != old:
            path.write_text(new)
            changed += 1
    print(f"respell: {len(TABLE)} names, {changed} files changed")


if __name__ == "__main__":
    main()
