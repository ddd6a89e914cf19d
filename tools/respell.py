#!/usr/bin/env python3
"""Brings the names of definitions and lemmas to snake case, by the table in respell.tsv beside this script.

usage: python3 tools/respell.py [FOLDER]    the repository to respell; this one where none is given
       python3 tools/respell.py --table     writes the table anew from the declarations of this repository

Runs once, on what port.py leaves. Functions of src/, strings, inputs and outputs keep their names: a name of the table is replaced in antt files,
and in rt files in `ghost use` lines, clauses and comments. A name that a file imports from a library other than this repository's crates stays in
that file.
"""

import collections
import os
import re
import sys

HERE = os.path.dirname(os.path.realpath(__file__))
TABLE = os.path.join(HERE, "respell.tsv")
NAME = r"[^\W\d][\w'′]*(?:-[\w'′]+)*"
TOKEN = re.compile(r"(?<![\w'′-])" + NAME)
DECLARED = re.compile(r"^\s*(?:(?:abbrev|unfoldable|pub|private|record|opaque)\s+)*(" + NAME + r")\s*(?::|\()")
BOUND = re.compile(r"\blet\s+(" + NAME + r")\s*[:=]")
USED = re.compile(r"^\s*(?:pub\s+)?(?:ghost\s+)?use\s+([^\s;{]+?)(?:\.\{([^}]*)\})?(?:\s+as\s+\S+)?;?\s*$")
GENERATED = ("tie", "goal")


def code(line):
    m = re.search(r"(^|\s)--(\s|$)", line)
    return line if m is None else line[: m.start()]


def snake(name):
    if name[0].isupper():
        return "".join(w[0].upper() + w[1:] for w in name.split("-"))
    out = []
    for w in name.split("-"):
        if re.search("[A-Z]", w):
            w = re.sub(r"([a-z0-9])([A-Z])", r"\1_\2", w)
            w = re.sub(r"([A-Za-z])([0-9])", r"\1_\2", w).lower()
        out.append(w)
    return "_".join(out).replace("′", "'")


def files(root, ending):
    for folder, below, names in os.walk(os.path.join(root, "crates")):
        below[:] = sorted(b for b in below if b != "out")
        for name in sorted(names):
            if name.endswith(ending):
                yield os.path.join(folder, name)


def read(path):
    with open(path, encoding="utf-8") as f:
        return f.read()


def own_crates(root):
    return set(os.listdir(os.path.join(root, "crates")))


def imported(text, own):
    """The names that a file takes from libraries other than this repository's."""
    found = set()
    for line in text.splitlines():
        m = USED.match(line)
        if not m or not m.group(2):
            continue
        parts = m.group(1).split(".")
        if parts[0] == "Rattle" and len(parts) > 1 and parts[1] in own:
            continue
        for item in m.group(2).split(","):
            words = item.split()
            if words:
                found.add(words[-1])
    return found


def table(root):
    names, own = set(), own_crates(root)
    for path in files(root, ".antt"):
        text = read(path)
        taken = imported(text, own)
        walk = os.path.basename(path) == "Proof.antt"
        for line in text.splitlines():
            line = code(line)
            m = DECLARED.match(line)
            if m and not walk:
                names.add(m.group(1))
            for b in BOUND.findall(line):
                names.add(b)
            for t in TOKEN.findall(line):
                if re.match(r"[a-z].*[A-Z]", t) and "-" not in t and "_" not in t and t not in taken:
                    names.add(t)
    for path in files(root, ".rt"):
        for line in read(path).splitlines():
            if line.startswith("ghost use"):
                names.update(re.findall(r" as ([a-z]\w*[A-Z]\w*)", line))
    names -= {"Rattle"}
    by = collections.defaultdict(list)
    for n in sorted(names):
        by[snake(n)].append(n)
    turned = {}
    for s, ns in by.items():
        first = [n for n in ns if re.search("[A-Z]", n) or n[0].isupper()] or [n for n in ns if n == s] or ns
        for n in ns:
            to = s if n == first[0] else s + "_lem"
            if to != n:
                turned[n] = to
    with open(TABLE, "w", encoding="utf-8") as f:
        for n in sorted(turned):
            f.write(f"{n}\t{turned[n]}\n")
    print(f"{len(turned)} names")


def load():
    with open(TABLE, encoding="utf-8") as f:
        return dict(line.rstrip("\n").split("\t") for line in f)


def turn_line(line, turned, stay):
    def one(m):
        t = m.group(0)
        before = line[: m.start()]
        if t in stay or t not in turned or any(before.endswith(g + ".") for g in GENERATED):
            return t
        return turned[t]

    return TOKEN.sub(one, line)


def turn_antt(path, text, turned, own):
    stay = imported(text, own)
    if os.path.basename(path) == "Proof.antt":
        # the answers of a walk have the names of goals
        for line in text.splitlines():
            m = re.match(r"(?:pub\s+)?(" + NAME + r")\s*:\s*(?:tie|goal)\.", line)
            if m:
                stay.add(m.group(1))
    return "".join(turn_line(l, turned, stay) for l in text.splitlines(keepends=True))


CLAUSE = re.compile(r"^\s*(requires|ensures|ghost|impl Model)\b")


def turn_rt(text, turned, own):
    """Respells clauses, ghost items and the names in comments; code keeps its names."""
    stay = imported(text, own)
    out, deep = [], 0
    for line in text.splitlines(keepends=True):
        bare = re.sub(r'"(?:[^"\\]|\\.)*"', '""', line)
        comment = re.match(r"^\s*//", line)
        if comment:
            out.append(re.sub(r"`[^`]*`", lambda m: turn_line(m.group(0), turned, stay), line))
            continue
        if deep > 0 or CLAUSE.match(line) or re.match(r"^\s*(pub\s+)?ghost\s", line):
            out.append(turn_line(line, turned, stay))
            deep += bare.count("{") - bare.count("}")
            if line.strip().startswith("ghost use"):
                deep = 0
            continue
        out.append(line)
    return "".join(out)


def tokens(text):
    return {t for line in text.splitlines() for t in TOKEN.findall(code(line))}


def together(path, text, turned, own):
    """Says where two names of a file fall together."""
    stay = imported(text, own)
    seen = collections.defaultdict(set)
    for t in tokens(text):
        seen[t if t in stay else turned.get(t, t)].add(t)
    for to, ts in sorted(seen.items()):
        if len(ts) > 1:
            print(f"fall together in {path}: {to}: {sorted(ts)}")


def main(argv):
    if argv == ["--table"]:
        return table(os.path.dirname(HERE))
    root = argv[0] if argv else os.path.dirname(HERE)
    turned, own, n = load(), own_crates(root), 0
    for path in files(root, ".antt"):
        text = read(path)
        together(os.path.relpath(path, root), text, turned, own)
        new = turn_antt(path, text, turned, own)
        if new != text:
            n += 1
            with open(path, "w", encoding="utf-8") as f:
                f.write(new)
    for path in files(root, ".rt"):
        text = read(path)
        new = turn_rt(text, turned, own)
        if new != text:
            n += 1
            with open(path, "w", encoding="utf-8") as f:
                f.write(new)
    print(f"{n} files respelled")


if __name__ == "__main__":
    raise SystemExit(main(sys.argv[1:]))
