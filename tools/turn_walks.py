#!/usr/bin/env python3
"""Turns walks by hand (proofs/F/Proof.antt) into Invariants.antt and Answers.antt, once, for the port.

usage: python3 tools/turn_walks.py CRATE NAMES    NAMES: names.json as `rt check --generated DIR --old-names` leaves it for CRATE

Answers that a bare tactic gave are left out, since the check finds them alone. What it cannot place is said.
"""

import json
import os
import re
import sys

HERE = os.path.dirname(os.path.realpath(__file__))
ROOT = os.path.dirname(HERE)
NAME = r"[^\W\d][\w'′₀-₉]*(?:-[\w'′₀-₉]+)*"
TRIVIAL = re.compile(r"^(search rules|omega arith|record \{ fits = (omega arith|search rules);? \}|tt|search \(rules\)|refl)$")


def decls(text):
    """The header's lines, and the declarations: (comments, name, lines)."""
    lines = text.split("\n")
    head, out, comments, i = [], [], [], 0
    while i < len(lines):
        line = lines[i]
        if line.startswith("use ") or line.startswith("open "):
            head.append(line)
            i += 1
            continue
        if line.startswith("--"):
            comments.append(line)
            i += 1
            continue
        if not line.strip():
            if comments and not out and not head:
                comments = []
            elif comments:
                comments.append("")
            i += 1
            continue
        m = re.match(r"(?:(?:pub|abbrev|unfoldable|record|module)\s+)*(" + NAME + r"|_)", line)
        name = m.group(1) if m else line
        kind = line.split()[0]
        block = [line]
        i += 1
        while i < len(lines):
            nxt = lines[i]
            if nxt.startswith("--") or nxt.startswith("use "):
                break
            if nxt and not nxt[0].isspace():
                if nxt.startswith("unfolding") or (kind not in ("record", "module") and re.match(re.escape(name) + r"(?![\w'-])", nxt)) or nxt[0] in ")]}":
                    block.append(nxt)
                    i += 1
                    continue
                break
            if not nxt.strip():
                # a blank line ends it unless an indented line or its next clause follows
                j = i
                while j < len(lines) and not lines[j].strip():
                    j += 1
                if j < len(lines) and (lines[j][0].isspace() or (kind not in ("record", "module") and re.match(re.escape(name) + r"(?![\w'-])", lines[j]) and ":" not in lines[j].split("=")[0])):
                    block.append(nxt)
                    i += 1
                    continue
                break
            block.append(nxt)
            i += 1
        while comments and comments[-1] == "":
            comments.pop()
        out.append((comments, name, block))
        comments = []
    return head, out


def norm(n):
    return n.replace("_", "-")


def sig(block):
    """The type of a declaration, as one line."""
    text = " ".join(l.strip() for l in block)
    m = re.match(r"(?:(?:pub|abbrev|unfoldable)\s+)*" + NAME + r"\s*:\s*(.*)", text)
    return m.group(1) if m else text


def turn(crate, fn_path, entry, text):
    said = []
    head, ds = decls(text)
    prefix = "Rattle." + crate + ".proofs." + fn_path + "."
    loops = entry["loops"]
    steps = {}
    places = {}
    for (old, parent, step, *rest), new in zip(entry["places"], entry["places_by_name"]):
        places[norm(old)] = new
        if step and step[0]:
            steps.setdefault(norm(step[0]), []).append(step[1])
    arms = []
    for arm, new in zip(entry["arms"], entry["places_by_name"]):
        if arm:
            for field, old, path in arm[2]:
                if path:
                    arms.append((old, path, arm[0] + "." + field))
    needs = entry["needs"]
    # the order of the answers in the old proof
    order = []
    for c, n, b in ds:
        joined = " ".join(l.strip() for l in b)
        if "tie.close" in joined and "tie.spec" in joined:
            m = re.search(r"tie\.spec\s*(.*)$", joined)
            words = re.sub(r"[()]", " ", m.group(1)).split()
            order = [w for w in words]
    answers = {}
    for c, n, b in ds:
        m = re.match(r"tie\.Need-([^\s]+)", sig(b))
        if m:
            answers[n] = m.group(1)
    order = [w for w in order if w in answers]
    goal_of = {}
    by_old = {norm(o): g for o, g in needs}
    if len(order) == len(needs):
        for w, (o, g) in zip(order, needs):
            goal_of[w] = g
    else:
        for w, need in answers.items():
            k = norm(need)
            k = re.sub(r"^(overflow|nonzero)-", "", k)
            if k in by_old:
                goal_of[w] = by_old[k]
            else:
                said.append(f"{fn_path}: no goal for {w} : {need}")

    inv_names, dec_names = {}, {}
    for c, n, b in ds:
        s = sig(b)
        m = re.match(r"tie\.(invariant|decreases)-(" + NAME + r")", s)
        if m:
            (inv_names if m.group(1) == "invariant" else dec_names)[n] = m.group(2)

    def paths(t, invs):
        # types of places
        def place(m):
            p = norm(m.group(1))
            if p in places:
                return "goal." + places[p]
            said.append(f"{fn_path}: no place {m.group(1)}")
            return "goal." + m.group(1)

        drop = "|".join(re.escape(x) for x in sorted(set(inv_names) | set(dec_names), key=len, reverse=True))
        tail = r"(?:\s+(?:" + drop + r")(?![\w'-]))*" if drop else ""
        t = re.sub(r"tie\.(?!Need-|spec|close|invariant|decreases)(" + NAME + r")" + tail, place, t)

        # a chain of `before` in front of a step is not needed
        for old, path, new in arms:
            t = re.sub(r"\." + "[-_]".join(re.escape(w) for w in re.split("[-_]", old)) + r"\." + r"\.".join(re.escape(w) for w in path) + r"(?![\w'-])", "." + new, t)

        parts = set(re.findall(r"(?:\blet|;|^)\s+(" + NAME + r")(?:\s*:[^=\n]*)?\s=\s*[^\s()]*\.(?!before\b)[^\s().]+(?:\s+in\b|\s*$)", t, re.M))

        def step(m):
            k = norm(m.group(2))
            if m.group(1) in parts:
                return m.group(0)
            return m.group(1) + "." + (steps[k][0] if k in steps else m.group(2))

        return re.sub(r"(?<![\w'.-])(" + NAME + r"|\([^()]*\))(?:\.before)*\.(?!before(?![\w'-]))(" + NAME + ")", step, t)

    # names inside the answers that were other answers' names
    renames = {w: g for w, g in goal_of.items()}

    def body_of(b):
        t = paths("\n".join(b), None)
        return re.sub(r"(?<![\w'.-])" + NAME, lambda m: renames.get(m.group(0), m.group(0)), t)

    inv_out, helpers = [], []
    helper_names = {}
    for idx, (c, n, b) in enumerate(ds):
        s = sig(b)
        joined = "\n".join(b)
        if re.search(r"statement M\s*$", s) or "tie.close" in joined:
            continue
        if n in inv_names or n in dec_names:
            kind = "invariant" if n in inv_names else "decreases"
            old = inv_names.get(n) or dec_names.get(n)
            hit = None
            for li, (names, vars_) in enumerate(loops):
                if norm(names[0]) == norm(old):
                    hit = (names, vars_, entry["changed"][li])
            if hit is None:
                said.append(f"{fn_path}: no loop {old}")
                inv_out.append((c, n, b, None))
                continue
            names, vars_, changed = hit
            pos = []
            for v, ch in zip(vars_, changed):
                pos.append("l.initial." + v if ch else "l." + v)
            pos += ["l." + v for v, ch in zip(vars_, changed) if ch]
            body = "\n".join(b)
            m = re.search(r"^" + re.escape(n) + r"((?:\s+[^\s=]+)*)\s*=\s*(.*)$", body, re.S | re.M)
            ps = m.group(1).split()
            rhs = m.group(2).rstrip()
            pre = [l for l in b if l.startswith("unfolding")]
            if len(ps) != len(pos):
                said.append(f"{fn_path}: {n} takes {ps}, and the loop has {pos}")
            sub = dict(zip(ps, pos))

            def one(m):
                return sub.get(m.group(0), m.group(0))

            def fields(m):
                return m.group(0)

            rhs2 = re.sub(r"(?<![\w'.-])" + NAME, one, rhs)
            g = kind + "-" + names[1]
            inv_out.append((c, g, [f"abbrev pub {g} : goal.{g}"] + pre + [f"{g} l = {rhs2}"], rhs))
            continue
        if n in answers:
            if n not in goal_of:
                helpers.append((c, n, b))
                continue
            g = goal_of[n]
            body = "\n".join(l for l in b)
            eqs = re.findall(r"^" + re.escape(n) + r"(?![\w'-])[^:\n]*?=\s*(.*?)\s*$", body, re.M | re.S)
            rhs = re.sub(r"\s+", " ", body.split("=", 1)[1].strip()) if "=" in body else ""
            if TRIVIAL.match(rhs):
                continue
            nb = [f"pub {g} : goal.{g}"]
            past = False
            for l in b:
                if not past and not l.startswith("unfolding") and not re.match(re.escape(n) + r"(?![\w'-])(?!\s*:)", l):
                    # the rest of the signature
                    continue
                past = past or not l.startswith("unfolding")
                nb.append(l)
            helpers.append((c, g, [nb[0], body_of(nb[1:])] if nb[1:] else nb))
            continue
        b = body_of(b).split("\n")
        helpers.append((c, n, b))
        helper_names[n] = (c, n, b)
    # what the invariants use goes with them
    moved, grew = set(), True
    used = "\n".join("\n".join(b) for _, _, b, _ in inv_out)
    while grew:
        grew = False
        for n, (c, nn, b) in helper_names.items():
            if n not in moved and n != "_" and re.search(r"(?<![\w'.-])" + re.escape(n) + r"(?![\w'-])", used):
                moved.add(n)
                used += "\n".join(b)
                grew = True
    keep_head = [h for h in head if not re.search(r"\.(Statement|Tie)\b", h)]
    files = {}
    title = []
    for l in text.split("\n"):
        if l.startswith("--"):
            title.append(l)
        else:
            break
    if inv_out:
        t = title + keep_head + [f"use {prefix}Given as goal", ""]
        for n in helper_names:
            if n in moved:
                c, nn, b = helper_names[n]
                bb = list(b)
                if not bb[0].startswith("pub "):
                    bb[0] = re.sub(r"^(abbrev |unfoldable )?", lambda m: (m.group(1) or "") + "pub ", bb[0], count=1)
                bb = [re.sub(r"^(\s+)(" + NAME + r")(\s*:)", r"\1pub \2\3", l) if bb[0].startswith("pub record") and re.match(r"^\s+" + NAME + r"\s*:", l) else l for l in bb]
                t += c + ["\n".join(bb), ""]
        for c, g, b, _ in inv_out:
            if g.startswith("decreases") and entry.get("skip_measures"):
                continue
            t += c + ["\n".join(b), ""]
        files["Invariants.antt"] = "\n".join(t).rstrip() + "\n"
    rest = [(c, n, b) for c, n, b in helpers if n not in moved]
    if rest:
        t = title + keep_head
        if moved:
            t.append(f"use {prefix}Invariants." + "{" + ", ".join(sorted(moved)) + "}")
        t += [f"use {prefix}Goals as goal", ""]
        for c, n, b in rest:
            t += c + ["\n".join(b), ""]
        files["Answers.antt"] = "\n".join(t).rstrip() + "\n"
    return files, said


def main(crate, names):
    with open(names) as f:
        d = json.load(f)
    root = os.path.join(ROOT, "crates", crate, "proofs")
    for folder, below, files in os.walk(root):
        if "Proof.antt" not in files:
            continue
        fn = os.path.relpath(folder, root).replace(os.sep, ".")
        entry = d.get(f"Rattle-{crate}-proofs.{fn}.Lts")
        if entry is None:
            print(f"{fn}: not in names.json")
            continue
        with open(os.path.join(folder, "Proof.antt"), encoding="utf-8") as f:
            text = f.read()
        made, said = turn(crate, fn, entry, text)
        for s in said:
            print(s)
        for name, t in made.items():
            with open(os.path.join(folder, name), "w", encoding="utf-8") as f:
                f.write(t)
        os.remove(os.path.join(folder, "Proof.antt"))


if __name__ == "__main__":
    main(*sys.argv[1:])
