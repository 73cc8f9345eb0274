#!/usr/bin/env python3
"""Spells this repository's own definitions and lemmas as today's Rattle does: words in snake case, types, facts and
modules in camel case. Run once at the top, after port.py. Names of src/, goals, strings, inputs and outputs stay.

It prints the names that fall together with another: see them through, and give a lemma that should not a name of its own in APART."""
import collections
import glob
import os
import re
import subprocess
import sys

# A name of antt: everything between blanks, brackets, commas and semicolons; a dot joins a module or a value to a name.
TOKEN = re.compile(r"[^\s(){}\[\],;.@⌜⌝«»]+")
DEFINED = re.compile(
    r"^(?:abbrev |unfoldable )?(?:pub )?(?:record |data )?([^\s(){}\[\],;.:=]+)(?: [({][^:\n]*)? : *(\S*)", re.M)
INNER = re.compile(r"^( +)(?:abbrev |unfoldable )?(?:pub )?([^\s(){}\[\],;.:=]+) : ", re.M)
FIELD = re.compile(r"^ +(?:pub )?([^\s(){}\[\],;.:=]+) : ", re.M)
ALIAS = re.compile(r"\S+ as ([a-z]\w*[A-Z]\w*)")
USE = re.compile(r"^(?:pub )?use ([^\s{]+?)(?:\.\{([^}]*)\})?(?: as .*)?$", re.M)
GHOST_USE = re.compile(r"ghost use ([^\s{;]+?)\.\{([^}]*)\};", re.S)


# Lemmas that would get the name of another definition, and what they are called instead.
APART = {
    "has-line": "has_line_lem",
    "cancel-line": "cancel_line_lem",
    "line-room": "line_room_lem",
    "marks-by": "marks_by_lem",
    "members-from": "members_from_lem",
    "net-inside": "net_inside_lem",
    "net-table": "net_table_lem",
    "none_open": "none_open_lem",
    "read-on": "read_on_lem",
    "room_by": "room_by_lem",
    "trust-in": "trust_in_lem",
}


def spelled(name):
    if name in APART:
        return APART[name]
    parts = re.split(r"[-·]", name)
    if name[:1].isupper():
        return "".join(p[:1].upper() + p[1:] for p in parts)
    parts = [re.sub(r"(?<=[a-z0-9])([A-Z])", lambda m: "_" + m.group(1).lower(), p) if p[:1].islower() else p for p in parts]
    return "_".join(parts)


def antt_files():
    return sorted(glob.glob("crates/*/specs/**/*.antt", recursive=True) + glob.glob("crates/*/proofs/**/*.antt", recursive=True))


def without_comments(text):
    return re.sub(r"--(?=[\s-]).*", lambda m: " " * len(m.group(0)), text)


def imported_from_elsewhere(text, crates, pattern):
    names = set()
    for m in pattern.finditer(text):
        path, items = m.group(1), m.group(2) or ""
        head = path.split(".")
        if head[0] == "Rattle" and len(head) > 1 and head[1] in crates and "declared" not in head:
            continue
        for item in items.split(","):
            words = item.split(" as ")
            names.update(w.strip() for w in words)
    return names


def goals(text):
    """Names whose statement is a goal or a part that Rattle generates."""
    return {m.group(1) for m in re.finditer(r"^(?:abbrev )?(?:pub )?([^\s:]+) : (?:goal|given|need)\.", text, re.M)}


def own_names(crates):
    names = collections.defaultdict(set)
    for path in antt_files():
        text = without_comments(open(path, encoding="utf-8").read())
        skip = goals(text)
        for m in DEFINED.finditer(text):
            if m.group(1) not in skip:
                names[m.group(1)].add(path)
        # definitions inside a module or a `where`: a signature, and a clause of the same name under it
        for m in INNER.finditer(text):
            if m.group(2) not in skip and re.search("^" + m.group(1) + re.escape(m.group(2)) + r"(?= )", text[m.end():], re.M):
                names[m.group(2)].add(path)
        if "/specs/" in path or path.count("/") == 3:
            # fields of records; in an answer a field has the name of a clause
            for record in re.finditer(r"^pub record .*\n(?:(?: .*)?\n)*|^record .*\n(?:(?: .*)?\n)*", text, re.M):
                for m in FIELD.finditer(record.group(0)):
                    names[m.group(1)].add(path)
    return names


def rename(text, new, skip):
    out, at = [], 0
    for line in re.split(r"(?<=\n)", text):
        cut = re.search(r"(?:^|\s)--(?=[\s-])", line)
        code, rest = (line[:cut.start()], line[cut.start():]) if cut else (line, "")
        out.append(TOKEN.sub(lambda m: new[m.group(0)] if m.group(0) in new and m.group(0) not in skip else m.group(0), code) + rest)
    return "".join(out)


def with_aliases(text, new):
    """Names given by `as` in this file alone."""
    return {**new, **{a: spelled(a) for a in ALIAS.findall(text)}}


def main():
    crates = {line.split(":")[0].split()[0] for line in open("crates.txt") if ":" in line and not line.startswith("#")}
    crates |= {os.path.basename(p) for p in glob.glob("crates/*")}
    names = own_names(crates)
    new = {n: spelled(n) for n in names if spelled(n) != n}
    by_new = collections.defaultdict(set)
    for n in list(names):
        by_new[new.get(n, n)].add(n)
    for target, sources in sorted(by_new.items()):
        if len(sources) > 1:
            print("fall together:", " ".join(sorted(sources)), "->", target, {p for s in sources for p in names[s]})
    for path in antt_files():
        text = open(path, encoding="utf-8").read()
        plain = without_comments(text)
        skip = imported_from_elsewhere(plain, crates, USE) | goals(plain)
        tokens = set(TOKEN.findall(plain))
        for t in sorted(tokens):
            if t in new and t not in skip and new[t] in tokens and new[t] != t:
                print("already a name in", path, ":", t, "->", new[t])
        changed = rename(text, with_aliases(plain, new), skip)
        if changed != text:
            open(path, "w", encoding="utf-8").write(changed)
    words = {n: v for n, v in new.items() if re.fullmatch(r"\w+", n)}
    for path in sorted(glob.glob("crates/*/src/**/*.rt", recursive=True)):
        text = open(path, encoding="utf-8").read()
        skip = imported_from_elsewhere(text, crates, GHOST_USE)
        aliases = {a: spelled(a) for line in text.split("\n") if line.startswith("ghost use") for a in ALIAS.findall(line)}
        tokens = set(re.findall(r"\w+", text))
        def turn(m):
            w = m.group(0)
            return aliases.get(w, words[w] if w in words and w not in skip else w)
        for t in sorted(tokens):
            if t in words and t not in skip and words[t] in tokens:
                print("already a name in", path, ":", t, "->", words[t])
        changed = re.sub(r"\b[a-z]\w*[A-Z]\w*\b", turn, text)
        # an own name with a dash in a clause or an import
        dashed = {n: v for n, v in new.items() if "-" in n and n not in skip}
        for n, v in dashed.items():
            if n in changed and " " not in n:
                for m in re.finditer(r"(?<![\w-])" + re.escape(n) + r"(?![\w-])", changed):
                    print("a dashed name in", path, ":", n)
        if changed != text:
            open(path, "w", encoding="utf-8").write(changed)
    for path in sorted(glob.glob("docs/*.md") + ["README.md"]):
        text = open(path, encoding="utf-8").read()
        changed = re.sub(r"`[^`\n]+`", lambda m: re.sub(r"\b[a-z]\w*[A-Z]\w*\b", lambda w: words.get(w.group(0), w.group(0)), m.group(0)), text)
        if changed != text:
            open(path, "w", encoding="utf-8").write(changed)
    print(len(new), "names")


main()
