#!/usr/bin/env python3
"""Respells this repository's own definitions and lemmas as today's Rattle spells words: in snake case.

usage: python3 tools/respell.py [TOP]

Run once at the top of the repository, right after the kit's port.py. Each line of tools/names.txt is a
name and its new spelling. In .antt files every whole word is turned; in .rt files only lines of ghost
code (imports, clauses, ghost fields and members); in documents only what stands between backticks. A lemma that would
fall together with the definition that it is about gets `_lem` behind it. Names of functions of src/,
strings and comments of the code stay.
"""

import os
import re
import sys

WORD = re.compile(r"(?<![\w'\-])[\w'\-]+(?![\w'\-])")
# names that the check makes from the code: `c.count-is` and the like are steps of a proof, not lemmas
STEPS = ("c.content-byte", "c.key-at", "w.count-is")


def names(top):
    with open(os.path.join(os.path.dirname(os.path.realpath(__file__)), "names.txt"), encoding="utf-8") as f:
        return dict(line.split() for line in f if line.strip())


def turned(text, table):
    def one(m):
        before = text[max(0, m.start() - 2):m.start()]
        if before + m.group(0) in STEPS:
            return m.group(0)
        return table.get(m.group(0), m.group(0))

    return WORD.sub(one, text)


def ghost_lines(text, table):
    """Turns imports and clauses, and leaves the code. Own names with a dash or a capital inside never stand in code."""
    table = {k: v for k, v in table.items() if "-" in k or k.lower() != k}

    def line(t):
        if t.lstrip().startswith("//"):
            return t
        return turned(t, table)

    return "\n".join(line(t) for t in text.split("\n"))


def quoted(text, table):
    return re.sub(r"`[^`\n]+`", lambda m: turned(m.group(0), table), text)


def files(top):
    for folder, dirs, found in os.walk(top):
        dirs[:] = sorted(d for d in dirs if d not in ("out", "target", ".git", "tools"))
        for name in sorted(found):
            yield os.path.join(folder, name)


def main(argv):
    top = argv[0] if argv else "."
    table = names(top)
    for path in files(top):
        turn = {".antt": turned, ".rt": ghost_lines, ".edit": ghost_lines, ".md": quoted}.get(os.path.splitext(path)[1])
        if turn is None:
            continue
        with open(path, encoding="utf-8") as f:
            old = f.read()
        new = turn(old, table)
        if new != old:
            with open(path, "w", encoding="utf-8") as f:
                f.write(new)


main(sys.argv[1:])
