#!/usr/bin/env python3
"""Brings the names of definitions and lemmas to the spelling of today's library: words in snake case, types and modules
in camel case, a dash between joined names.

usage: python3 tools/respell.py    at the top of the repository, once, after the kit's port.py

Each name of the crates' .antt files that begins with a small letter and has a capital in a word is turned, as `bitField`
to `bit_field` and `member-flatMap` to `member-flat_map`; a word that begins with a capital, as in `All-append`, names a
type and stays, and so do names of two letters. The same names are turned in the clauses of .rt files. Where a file has
both spellings, as two names, nothing is written: one of them gets another name in APART. Functions of src/, strings and
numbers are not touched.
"""

import os
import re
import sys

NAME = re.compile(r"(?<![\w'·◌-])[a-z][\w'·-]*")
# A name of a generated module, as in `Rattle.bits.proofs.is_padding.Goals`, is a function's.
PATH = re.compile(r"\b(?:Rattle\.)?\w+\.proofs\.[\w.+'-]*")
HUMP = re.compile(r"(?<=[a-z0-9])(?=[A-Z])")
# Words of the older library in names of lemmas, by their spelling in today's.
LIBRARY = {"getD": "get_or"}
# Names that would fall together with a turned one.
APART = {
    "by_high": "accessible_by_high",
    "by_length": "accessible_by_length",
    "held_by": "held_by-rank",
    "in_left": "left_in",
    "in_order": "in_order-mixed",
    "in_right": "right_in",
    "result_words": "result_words-are",
}


def texts(root):
    for folder, dirs, files in os.walk(os.path.join(root, "crates")):
        dirs[:] = sorted(d for d in dirs if d not in ("out", "target"))
        for name in sorted(files):
            if name.endswith((".antt", ".rt")):
                yield os.path.join(folder, name)


def word(text):
    if text in LIBRARY:
        return LIBRARY[text]
    return HUMP.sub("_", text).lower() if text[:1].islower() and HUMP.search(text) else text


def respelt(name):
    if len(name) < 3:
        return name
    return APART.get(name, "-".join(word(w) for w in name.split("-")))


def main():
    read = {p: open(p, encoding="utf-8").read() for p in texts(os.getcwd())}
    proofs = {p: set(NAME.findall(PATH.sub("", t))) for p, t in read.items() if p.endswith(".antt")}
    turned = {n: respelt(n) for names in proofs.values() for n in names if respelt(n) != n}
    for p, names in proofs.items():
        for n in sorted(names):
            if n in turned and any(m != n and turned.get(m, m) == turned[n] for m in names):
                sys.exit(f"{p}: {n}: {turned[n]} is another name too")
    for p, text in read.items():
        here = turned if p in proofs else {n: t for n, t in turned.items() if n not in APART}
        new = NAME.sub(lambda m: here.get(m.group(0), m.group(0)), text)
        if new != text:
            with open(p, "w", encoding="utf-8") as f:
                f.write(new)
    print(f"{len(turned)} names turned")


if __name__ == "__main__":
    main()
