#!/usr/bin/env python3
"""Brings the repository's own definitions and lemmas to the spelling of today's Rattle.

usage: python3 tools/respell.py   once, at the top, after the port.py of the kit

Beside it lies respell.txt, a line for each name: old and new. A name is a whole word of antt, so that no part of a longer one changes.
It turns specs/, proofs/, the clauses of src/ and the texts of must-fail/. Functions of src/, exported names, strings and outputs keep theirs.
It also renames the module `table` of the crate sheets, since the library `table` has that name.
Of a .rt file all but comments and texts in quotes is gone through. At the end it runs `rt fmt` in each crate.
"""

import os
import re
import subprocess

HERE = os.path.dirname(os.path.realpath(__file__))
WORD = re.compile(r"""[^\s(){}\[\].,;"]+""")
# In src/ a comment or a text in quotes is nobody's clause.
PLAIN = re.compile(r"""//[^\n]*|b?"(?:\\.|[^"\\])*\"""")
MODULE = [
    (re.compile(r"\bRattle\.sheets\.((?:specs\.declared|proofs)\.)table\b"), r"Rattle.sheets.\1row_table"),
    (re.compile(r"\bcrate::table\b"), "crate::row_table"),
    (re.compile(r"(?m)^mod table;$"), "mod row_table;"),
    (re.compile(r"(?m)^file: src/table\.rt$"), "file: src/row_table.rt"),
]


def words(text, names):
    return WORD.sub(lambda m: names.get(m.group(), m.group()), text)


def clauses(text, names):
    out, at = [], 0
    for m in PLAIN.finditer(text):
        out += [words(text[at : m.start()], names), m.group()]
        at = m.end()
    return "".join(out) + words(text[at:], names)


def files():
    for folder, dirs, names in os.walk("crates"):
        dirs[:] = sorted(d for d in dirs if d != "out")
        yield from (os.path.join(folder, n) for n in sorted(names) if n.endswith((".antt", ".rt", ".edit")))


def main():
    with open(os.path.join(HERE, "respell.txt"), encoding="utf-8") as f:
        names = dict(line.split() for line in f)
    for path in files():
        with open(path, encoding="utf-8") as f:
            old = f.read()
        new = clauses(old, names) if path.endswith(".rt") else words(old, names)
        if path.startswith(os.path.join("crates", "sheets", "")):
            for pattern, to in MODULE:
                new = pattern.sub(to, new)
        if new != old:
            with open(path, "w", encoding="utf-8") as f:
                f.write(new)
    for old, new in (("src/table.rt", "src/row_table.rt"), ("proofs/table", "proofs/row_table")):
        subprocess.run(["git", "mv", "crates/sheets/" + old, "crates/sheets/" + new], check=True)
    for crate in sorted(os.listdir("crates")):
        subprocess.run(["rt", "fmt"], cwd=os.path.join("crates", crate), check=True, stdout=subprocess.DEVNULL)


if __name__ == "__main__":
    main()
