#!/usr/bin/env python3
"""beside.py OLD NEW: the public functions, types and definitions that differ, old and new, as Markdown."""
import glob, os, re, sys, difflib
old, new = sys.argv[1:3]
def rt_items(top):
    found = {}
    for f in sorted(glob.glob(f"{top}/crates/*/src/**/*.rt", recursive=True)):
        rel = os.path.relpath(f, f"{top}/crates"); crate = rel.split("/")[0]
        if crate in ("cases", "marker", "board", "convert"): continue
        text = open(f, encoding="utf-8").read()
        lines = text.splitlines()
        owner, depth_owner = "", 0
        i = 0
        while i < len(lines):
            line = lines[i]
            m = re.match(r"impl(?:<[^>]*>)? (?:(\w+)(?:<[^>]*>)? for )?(&?\[?\w+\]?)(?:<.*>)? \{", line)
            if m: owner = (f"{m.group(2)} as {m.group(1)}" if m.group(1) else m.group(2)); i += 1; continue
            if re.match(r"(pub )?trait (\w+)", line): owner = re.match(r"(pub )?trait (\w+)", line).group(2); i += 1; continue
            if line == "}": owner = ""; i += 1; continue
            m = re.match(r"(\s*)(pub )?(const |extern \"C\" )*fn (\w+)", line)
            if m and (m.group(2) or " as " in owner or owner and owner[0].isupper() and re.match(r"\s+fn values", line)):
                head = []
                j = i
                while j < len(lines) and not re.match(r"^\s*\{\s*$", lines[j]) and not lines[j].rstrip().endswith(";") or j == i and False:
                    if lines[j].rstrip().endswith("{") and "ensures" not in lines[j] and "requires" not in lines[j] and "(" in lines[j] or lines[j].rstrip().endswith(") {"):
                        head.append(lines[j].rstrip()[:-1].rstrip()); break
                    head.append(lines[j]); j += 1
                ind = len(m.group(1))
                name = f"{owner + '::' if owner else ''}{m.group(4)}"
                found.setdefault((crate, "fn", name), (rel, "\n".join(h[ind:] if h[:ind].strip() == "" else h for h in head)))
                i = j + 1; continue
            m = re.match(r"pub (struct|enum|type|trait|const) (\w+)", line)
            if m:
                j = i; body = [line]
                if line.rstrip().endswith("{"):
                    while lines[j] != "}": j += 1; body.append(lines[j])
                elif not line.rstrip().endswith(";"):
                    while not lines[j].rstrip().endswith(";"): j += 1; body.append(lines[j])
                found[(crate, m.group(1) if m.group(1) != "enum" else "type", m.group(2))] = (rel, "\n".join(body))
                i = j + 1; continue
            i += 1
    return found
def antt_items(top):
    found = {}
    for f in sorted(glob.glob(f"{top}/crates/*/specs/*.antt")):
        rel = os.path.relpath(f, f"{top}/crates"); crate = rel.split("/")[0]
        text = re.sub(r"^\s*--.*\n", "", open(f, encoding="utf-8").read(), flags=re.M)
        blocks = re.split(r"\n\s*\n", text)
        section = ""
        for b in blocks:
            for m in re.finditer(r"^(\s*)(abbrev pub|unfoldable pub|pub record|pub data|pub abbrev|record|abbrev|unfoldable|pub) (\S+)", b, re.M):
                if m.group(3).startswith(("mod", "use")): continue
                if b[m.start():].split("\n")[0].strip().startswith("pub ") and m.group(2) == "pub" and re.search(r"pub (record|data)\b", b): continue
                found[(crate, "definition", m.group(3))] = (rel, b.strip("\n")); break
    return found
def norm(s): return re.sub(r"\s+", " ", s)
a, b = {**rt_items(old), **antt_items(old)}, {**rt_items(new), **antt_items(new)}
order = [l.split(":")[0].split()[0] for l in open(f"{new}/crates.txt")]
out = []
gone = {k: v for k, v in a.items() if k not in b}
made = {k: v for k, v in b.items() if k not in a}
pairs = {}
for k in gone:   # a free function that is a method now, or has moved
    last = k[2].split("::")[-1]
    for n in made:
        if n[0] == k[0] and n[1] == k[1] and n[2].split("::")[-1] == last and n not in pairs.values(): pairs[k] = n; break
changed = [(k, k) for k in a if k in b and norm(a[k][1]) != norm(b[k][1])] + list(pairs.items())
for crate in order:
    rows = sorted([(x, y) for x, y in changed if x[0] == crate], key=lambda it: (it[0][1] == "definition", it[0][2]))
    g = sorted(k for k in gone if k[0] == crate and k not in pairs)
    m = sorted(k for k in made if k[0] == crate and k not in pairs.values())
    if not rows and not g and not m: continue
    out.append(f"### `{crate}`\n")
    if g: out.append("Gone: " + ", ".join(f"`{k[2]}`" for k in g) + ".\n")
    if m: out.append("New: " + ", ".join(f"`{k[2]}`" for k in m) + ".\n")
    for x, y in rows:
        out.append("```diff")
        o, n = a[x][1].splitlines(), b[y][1].splitlines()
        for l in difflib.ndiff(o, n):
            if l.startswith("?"): continue
            out.append(l[0] + l[1:] if l[0] != " " else l)
        out.append("```\n")
    for k in m:
        out.append("```text"); out.append(b[k][1]); out.append("```\n")
print("\n".join(out))
print(f"<!-- {len(changed)} changed, {len(gone) - len(pairs)} gone, {len(made) - len(pairs)} new -->")
