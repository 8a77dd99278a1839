#!/usr/bin/env python3
"""places.py: counts the places of docs/DESIGN-PASS.md in crates/*/src and crates/*/proofs, a line for each; -v lists them. Run at the top."""
import collections
import glob
import re
import sys

SOURCES = sorted(glob.glob("crates/*/src/**/*.rt", recursive=True))
TEXT = {f: re.sub(r"//[^\n]*", "", open(f, encoding="utf-8").read()) for f in SOURCES}
RELICS = r"\b(wide|widest|long|wide_byte|narrow|signed|magnitude|lesser|relation_value|same_words|tag|after|root|kept|entry)\("


def lines(pattern):
    """The lines of src/ that match, with their files."""
    return [f"{f}: {line.strip()}" for f, t in TEXT.items() for line in t.splitlines() if re.search(pattern, line)]


def functions():
    """Each function with its file, its parameters and the text of its clauses."""
    for f, t in TEXT.items():
        for m in re.finditer(r"\bfn (\w+)(?:<[^>]*>)?\(((?:[^()]|\([^()]*\))*)\)", t):
            tail = t[m.end():]
            end = re.search(r"\n\s*\{\n", tail)
            yield f, m.group(1), [p for p in re.split(r",(?![^<\[(]*[>\])])", m.group(2)) if p.strip()], tail[: end.start()] if end else ""


def conjuncts(clauses):
    """The facts of the `requires` clauses, parted at × outside parentheses."""
    for clause in re.findall(r"requires[^{]*\{((?:[^{}]|\{[^{}]*\})*)\}", clauses):
        depth, parts = 0, [""]
        for c in re.sub(r"\s+", " ", clause):
            depth += (c == "(") - (c == ")")
            if c == "×" and depth == 0:
                parts.append("")
            else:
                parts[-1] += c
        for part in map(str.strip, parts):
            while part.startswith("(") and part.endswith(")"):
                part = part[1:-1].strip()
            if part:
                yield part


def repeated():
    """The facts that three functions or more require."""
    users = collections.defaultdict(set)
    for f, name, _, clauses in functions():
        for fact in conjuncts(clauses):
            users[fact].add((f, name))
    return [f"{len(users[fact])} {fact}" for fact in sorted(users, key=lambda it: -len(users[it])) if len(users[fact]) >= 3]


def main():
    answers = glob.glob("crates/*/proofs/**/Answers.antt", recursive=True)
    rows = [
        ("1 enums", lines(r"^\s*(pub )?enum ")),
        ("1 numbers for errors and marks", lines(r"^pub const [A-Z_]+: u8 = ")),
        ("2 functions that widen or narrow", lines(r"\bfn (wide|widest|long|wide_byte|narrow|signed)\(")),
        ("3 while and loop", lines(r"^\s*('\w+: )?(while|loop)\b")),
        ("3 for", lines(r"^\s*('\w+: )?for \w")),
        ("4 uses of conversions by hand", [it for it in lines(RELICS) if "fn " not in it and "ensures" not in it]),
        ("5 functions of seven parameters or more", [f"{f}: {name} {len(ps)}" for f, name, ps, _ in functions() if len(ps) >= 7]),
        ("5 facts required by three functions or more", repeated()),
        ("5 references to references", lines(r": &&")),
        ("6 arrays of offsets with a count beside", lines(r": &(mut )?\[u8; MAX_ELEMENTS\]")),
        ("6 an output with an index beside", lines(r"out: &mut \[\w+(; \w+)?\], at: usize")),
        ("7 functions with a flag", [f"{f}: {name}" for f, name, ps, _ in functions() if any(p.strip().endswith(": bool") for p in ps)]),
        ("8 lines of answers", [line for f in answers for line in open(f, encoding="utf-8").read().splitlines()]),
    ]
    for name, found in rows:
        print(f"{name}: {len(found)}")
        if "-v" in sys.argv and not name.startswith("8"):
            print("".join(f"    {it}\n" for it in found), end="")


main()
