#!/usr/bin/env python3
"""Lists places in crates/*/src (and, for 8, crates/*/proofs) that may have a newer form, by the eight points of
docs/DESIGN-PASS.md. A line is a place to look at, and no verdict.

usage: design_places.py [-v] [ROOT]      counts by point; with -v each line too
"""
import collections
import glob
import re
import sys

args = [a for a in sys.argv[1:] if a != "-v"]
verbose = "-v" in sys.argv[1:]
root = args[0] if args else "."


def files(kind, suffix):
    for path in sorted(glob.glob(f"{root}/crates/*/{kind}/**/*{suffix}", recursive=True)):
        with open(path, encoding="utf-8") as f:
            yield path[len(root) + 1:], f.read().split("\n")


SOURCES = list(files("src", ".rt"))


def matching(pattern):
    rx = re.compile(pattern)
    return [f"{p}:{n}: {line.strip()}" for p, lines in SOURCES for n, line in enumerate(lines, 1)
            if rx.search(line) and not line.strip().startswith("//")]


def repeated(least=6):
    """Runs of six or more lines that stand twice, blank lines, comments, imports and lone brackets apart."""
    thin = re.compile(r"^(//.*|use .*|ghost use .*|[\s{}()\[\];,]*)$")
    kept = {p: [(n, l.strip()) for n, l in enumerate(ls, 1) if not thin.match(l.strip())] for p, ls in SOURCES}
    at = collections.defaultdict(list)
    for p, ls in kept.items():
        for i in range(len(ls) - least + 1):
            at[tuple(l for _, l in ls[i:i + least])].append((p, i))
    pairs = {}
    for places in at.values():
        for k in range(1, len(places)):
            (p, i), (q, j) = places[0], places[k]
            if p == q and j - i < least:
                continue
            pairs.setdefault((p, q), []).append((kept[p][i][0], kept[q][j][0]))
    return [f"{p}:{runs[0][0]} ~ {q}:{runs[0][1]}" for (p, q), runs in sorted(pairs.items())]


def clauses():
    """Clauses of `requires` that stand in three functions or more of one crate."""
    seen = collections.defaultdict(list)
    for p, ls in SOURCES:
        crate = p.split("/")[1]
        for n, line in enumerate(ls, 1):
            m = re.match(r"\s*requires (?:[a-z_]+ )?\{ (.*) \}", line)
            if m:
                text = re.sub(r"\.(old|now|new)\b", "", m.group(1))
                seen[(crate, text)].append(f"{p}:{n}")
    return [f"{c}: {t}: {len(at)} times" for (c, t), at in sorted(seen.items()) if len(at) >= 3]


def travelling():
    """Functions that take the three numbers of a payment one by one."""
    out = []
    for p, ls in SOURCES:
        text = "\n".join(ls)
        for m in re.finditer(r"fn (\w+)[^({]*\(([^)]*)\)", text):
            if all(w in m.group(2) for w in ("payer:", "payee:")):
                out.append(f"{p}: {m.group(1)}")
    return out


def answers():
    """Lines of answers that stand three times or more in the proofs of one crate."""
    seen = collections.Counter()
    for p, ls in files("proofs", "Answers.antt"):
        for line in ls:
            t = line.strip()
            if len(t) > 40 and not t.startswith(("use ", "--", "pub ")):
                seen[(p.split("/")[1], t)] += 1
    return [f"{c}: {k} times: {t}" for (c, t), k in sorted(seen.items()) if k >= 3]


POINTS = [
    ("1 enums", matching(r"^\s*(pub(\(crate\))? )?enum ")),
    ("1 flags beside values", matching(r"^\s*(pub(\(crate\))? )?[a-z_]+: bool,")),
    ("1 numbers for kinds", matching(r"const [A-Z_]+: (u8|u16|u32|u64|usize|i32|i64)\b|number\(\) ==|\bline == 0|line: 0\b|fn (number|code)\(")),
    ("2 runs that stand twice", repeated()),
    ("3 counted loops", matching(r"\bfor [a-z_]+ in \(?[0-9a-z_]+\.\.|\bwhile |^\s*('[a-z]+: )?loop \{|enumerate\(\)")),
    ("4 casts by `as`", matching(r"\bas (i64|u64|i32|u32|usize|u8)\b")),
    ("4 conversion and printing by hand", matching(r"fn (same|number|signed|byte|text|lesser|at_most|copied|done_or|closed_or|printed|of)\(")),
    ("5 payer, payee and amount one by one", travelling()),
    ("5 clauses in three functions", clauses()),
    ("6 arrays of a fixed size", matching(r"\[[A-Za-z0-9_]+; ?[A-Z0-9_]+\]")),
    ("7 a match on what to run", matching(r"match (self\.choice|output|form|call|choice|undo)\b|\bdyn |\bFn(Mut|Once)?\(")),
    ("8 lines of answers that stand three times", answers()),
]
for name, places in POINTS:
    print(f"{name}: {len(places)}")
    if verbose:
        for place in places:
            print(f"    {place}")
