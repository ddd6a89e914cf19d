#!/usr/bin/env python3
"""Brings the must-fail edits of crates/ from the spelling of an older Rattle to the present one, each under its name and with the same wrong meaning.

usage: python3 tools/turn_edits.py           writes crates/*/must-fail/*.edit anew from those of the commit OLD, and says what is left
       python3 tools/turn_edits.py --check   only says which edits cannot be applied: a text that does not stand exactly once, or an edit that changes nothing

An edit's texts are respelled by the table in respell.tsv, by the kit's new words and by its new way to write projections, operators and imports. The edits
of BY_HAND were brought over by hand, and are left as they stand.
"""

import os
import re
import subprocess
import sys

HERE = os.path.dirname(os.path.realpath(__file__))
ROOT = os.path.dirname(HERE)
sys.path.insert(0, HERE)
import respell  # noqa: E402

OLD = "aadb557"
BY_HAND = {
    "answer/short_buffer_written.edit",
    "blocks_checks/place_in_the_joined_list.edit",
    "codec/end_before_last_group.edit",
    "drawing_reading/one_set_too_many.edit",
    "figures/buffers_in_another_order.edit",
    "masks/others_skipped.edit",
    "record_changes/retired_numbers_lost.edit",
    "record_changes/same_set_added.edit",
    "record_parts/only_part_taken_out.edit",
    "record_parts/spent_before_full.edit",
    "record_reader/moved_says_the_same_place.edit",
    "record_reader/new_says_the_beginning.edit",
    "record_reader/next_says_the_beginning.edit",
    "record_retired/others_filed.edit",
    "sheet/tail_sheet_after_kind.edit",
    "sheet/tail_sheet_after_parts.edit",
    "sheet/tail_sheet_after_room.edit",
    "theory_orders/one_order_too_few.edit",
}
KIT = {"getD": "get_or", "List·Memᴰ": "Memᴰ"}
OPERATOR = re.compile(r"_([^\s\w{},()_]+ℤ?)_")
IMPORT = re.compile(r"^(?:ghost )?use (\S+)\.\{([^}]*)\}(;?)$")
ATOM = r"[^\W\d][\w'-]*"


def read(path):
    with open(path, encoding="utf-8") as f:
        return f.read()


def before(path):
    return subprocess.run(["git", "show", f"{OLD}:{path}"], cwd=ROOT, stdout=subprocess.PIPE, check=True).stdout.decode()


def parse(text):
    """The comment lines of an edit, its file and its pairs."""
    head, path, old, pairs = [], None, None, []
    for line in text.splitlines():
        if line.startswith("file: "):
            path = line[len("file: ") :]
        elif line.startswith("old: "):
            old = line[len("old: ") :]
        elif line.startswith("new: "):
            pairs.append((old, line[len("new: ") :]))
        else:
            head.append(line)
    return head, path, pairs


def applied(text, pairs):
    """The text with the pairs made, or what hinders it."""
    was = text
    for old, new in pairs:
        n = text.count(old)
        if n != 1:
            return None, f"stands {n} times: {old}"
        text = text.replace(old, new)
    return (text, None) if text != was else (None, "it changes nothing")


def closing(text, at):
    """The place of the bracket that closes the one at a place."""
    deep = 0
    for i in range(at, len(text)):
        deep += (text[i] == "(") - (text[i] == ")")
        if deep == 0:
            return i
    return None


def tight(text):
    """Projections as they are written now: `(d .parts .count)` is `d.parts.count`, and `(f x .verdict)` is `(f x).verdict`."""
    one = re.compile(r"(\(|[∷+≡×] )(" + ATOM + r"(?:\." + ATOM + r")*) (\." + ATOM + r")(?!\w)")
    while one.search(text):
        text = one.sub(r"\1\2\3", text)
    while True:
        for opened in [i for i, c in enumerate(text) if c == "("]:
            end = closing(text, opened)
            if end is None:
                continue
            inner = text[opened + 1 : end]
            fields = re.search(r"((?: \." + ATOM + r")+)$", inner)
            if not fields or "(" in inner and closing(inner, inner.index("(")) is None:
                continue
            whole, dotted = inner[: fields.start()], fields.group(1).replace(" ", "")
            if re.fullmatch(ATOM + r"(?:\." + ATOM + r")*", whole):
                text = text[:opened] + whole + dotted + text[end + 1 :]
                break
            text = text[:opened] + "(" + whole + ")" + dotted + text[end + 1 :]
            break
        else:
            return re.sub(r"(?<=[ (])\((" + ATOM + r"(?:\." + ATOM + r")+)\)", r"\1", text)


def word(name, turned):
    """A name of an import."""
    name = KIT.get(name, name)
    if OPERATOR.fullmatch(name):
        return OPERATOR.sub("◌\\1◌", name)
    return turned.get(name) or (respell.snake(name) if re.match("[a-z]+[A-Z]", name) else name)


def module(path):
    path = re.sub(r"^Rattle·(\w+)·specs\.specs\.", r"Rattle.\1.specs.", path)
    return path.replace("Rattle·", "Rattle.").replace(".the-variants", ".TheVariants")


def imports(text):
    """What a file imports: module and name of each, as the file spells them."""
    for line in text.splitlines():
        m = IMPORT.match(line)
        if m:
            for name in m.group(2).split(","):
                yield m.group(1), name.strip()


def where(root):
    """The module from which the files of this repository take a word of the kit."""
    found = {}
    for path in respell.files(root, ".antt"):
        if "/specs/" in path:
            for m, name in imports(read(path)):
                if not m.startswith("Rattle.") or m.startswith("Rattle.std."):
                    found.setdefault(name, {}).setdefault(m, 0)
                    found[name][m] += 1
    return {name: max(sorted(by), key=lambda m: by[m]) for name, by in found.items()}


def add_names(text, names):
    """Pairs that import further names, each a module and a name, in a file."""
    have, pairs = {name for _, name in imports(text)}, []
    for mod, name in names:
        if name in have:
            continue
        for line in text.splitlines():
            m = IMPORT.match(line)
            if m and m.group(1) == mod:
                new = line.replace("}", f", {name}}}")
                text = text.replace(line, new)
                pairs = [(o, new if n == line else n) for o, n in pairs] if any(n == line for _, n in pairs) else pairs + [(line, new)]
                break
        else:
            # a comment line gives its place to the new line
            spare = [line for line in text.splitlines() if line.startswith("-- ") and text.count(line) == 1][:1]
            if not spare:
                return None
            new = f"use {mod}.{{{name}}}"
            text = text.replace(spare[0], new)
            pairs.append((spare[0], new))
    return pairs


def turn_import(old, new, text, turned, kit):
    """Pairs for a pair of an edit that changes imports, in the present text of the file."""
    a, b = IMPORT.match(old), IMPORT.match(new)
    names = lambda m: [word(n.strip(), turned) for n in m.group(2).split(",")] if m else []
    if not b:
        return None
    mods = (module(a.group(1)) if a else None, module(b.group(1)))
    spelt = lambda m, mod: f"use {mod}.{{{', '.join(names(m))}}}"
    if a and mods[0].startswith("Rattle.") and text.count(spelt(a, mods[0])) == 1:
        return [(spelt(a, mods[0]), spelt(b, mods[1]))]
    wanted = [n for n in names(b) if n not in names(a)]
    if mods[1].startswith("Rattle."):
        if not a and text.count(old) == 1:
            return [(old, spelt(b, mods[1]))]
        return add_names(text, [(mods[1], n) for n in wanted])
    if any(n not in kit for n in wanted):
        return None
    return add_names(text, [(kit[n], n) for n in wanted])


def turn_text(text, turned, stay):
    for a, b in KIT.items():
        text = re.sub(r"(?<![\w'·-])" + re.escape(a) + r"(?![\w'·-])", b, text)
    text = respell.turn_line(text, turned, stay)
    # what port.py respelled before the table was made
    text = respell.TOKEN.sub(lambda m: respell.snake(m.group(0)) if re.match("[a-z]+[A-Z]", m.group(0)) and m.group(0) not in stay else m.group(0), text)
    return tight(text)


def turn(path, pairs, now, turned, kit):
    """The pairs in the present spelling, and what is left."""
    made, stay = [], respell.imported(re.sub(r"Rattle·(\w+)·?", r"Rattle.\1.", before(path)), respell.own_crates(ROOT))
    for old, new in pairs:
        if now.count(old) == 1 and not new.startswith("use ") and (path.endswith(".rt") or turn_text(new, turned, stay) == new):
            more = [(old, new)]
        elif IMPORT.match(new):
            more = turn_import(old, new, now, turned, kit)
            if more is None:
                return made, f"imports: {old} | {new}"
        else:
            more = [(turn_text(old, turned, stay), turn_text(new, turned, stay))]
        text, why = applied(now, more) if more else (now, None)
        if why:
            return made, why
        now = text
        made += more
    return made, None


def edits(root):
    for crate in sorted(os.listdir(os.path.join(root, "crates"))):
        folder = os.path.join(root, "crates", crate, "must-fail")
        if os.path.isdir(folder):
            for name in sorted(os.listdir(folder)):
                if name.endswith(".edit"):
                    yield crate, name, os.path.join(folder, name)


def check():
    n, bad = 0, 0
    for crate, name, at in edits(ROOT):
        n += 1
        head, path, pairs = parse(read(at))
        _, why = applied(read(os.path.join(ROOT, "crates", crate, path)), pairs)
        if why:
            bad += 1
            print(f"{crate}/{name}: {why}")
    print(f"{n} edits, {bad} cannot be applied")
    return 1 if bad else 0


def main(argv):
    if argv == ["--check"]:
        return check()
    turned, kit, left = respell.load(), where(ROOT), 0
    for crate, name, at in edits(ROOT):
        if f"{crate}/{name}" in BY_HAND:
            continue
        head, path, pairs = parse(before(f"crates/{crate}/must-fail/{name}"))
        inside = f"crates/{crate}/{path}"
        pairs, why = turn(inside, pairs, read(os.path.join(ROOT, inside)), turned, kit)
        if why:
            left += 1
            print(f"left: {crate}/{name}: {why}")
            continue
        text = "".join(f"{line}\n" for line in [*head, f"file: {path}", *[f"{k}: {v}" for pair in pairs for k, v in zip(("old", "new"), pair)]])
        with open(at, "w", encoding="utf-8") as f:
            f.write(text)
    print(f"{left} edits are left")
    return check()


if __name__ == "__main__":
    raise SystemExit(main(sys.argv[1:]))
