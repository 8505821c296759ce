#!/usr/bin/env python3
"""Respells this repository's own definitions and lemmas as today's Rattle has them.

usage: python3 tools/respell.py      at the top of the repository, once, after the toolchain's own script

Names that specs/*.antt and proofs/*.antt define: words are in snake case, types and facts in camel case.
Functions of src/, goals and answers in the folders below proofs/, strings, inputs and outputs keep their names.
A lemma that falls together with a definition or with a function of its own crate gets _lem.
"""

import collections
import os
import re

WORD = re.compile(r"[^\s(){}\[\];,.:«»⌜⌝\"`|?!]+")
DEFINED = re.compile(r"\s*(?:(?:abbrev|unfoldable|pub|mutual|axiom)\s+)*([^\s(){}\[\];,.:|=λ→]+)\s*:\s")
TYPE = re.compile(r"\s*(?:(?:abbrev|unfoldable|pub|mutual)\s+)*(?:record|data)\s+([^\s(){}]+)")
QUOTED = re.compile(r"`[^`\n]+`")

# Names that would fall together with another one in the same scope: (crate or None for all, old, new).
APART = [
    (None, "corners-of", "both_corners"),
    (None, "bestOf", "best_by"),
    (None, "heat-in", "tree_heat"),
    (None, "move-count", "moves_line"),
    (None, "our-pick", "our_pick_lem"),
    (None, "their-pick", "their_pick_lem"),
    (None, "floor-answered", "floor_answered_lem"),
    (None, "bracket-answered", "bracket_answered_lem"),
    (None, "rows-after", "rows_after_lem"),
    (None, "by-reply", "by_reply_lem"),
    (None, "cooled-by", "cooled_by_lem"),
    (None, "floor-by", "floor_by_lem"),
    (None, "bracket-by", "bracket_by_lem"),
    (None, "best-ours", "best_ours_lem"),
    (None, "best-theirs", "best_theirs_lem"),
    (None, "wall-left", "wall_left_lem"),
    (None, "wall-right", "wall_right_lem"),
    (None, "left-rises", "left_rises_lem"),
    (None, "right-rises", "right_rises_lem"),
    ("stories", "is_open", "is_open_lem"),
    ("stories", "by_move", "by_move_lem"),
    ("stories", "not_ours", "not_ours_lem"),
    ("game", "not_ours", "not_ours_lem"),
    ("play", "turn_by", "turn_by_lem"),
    ("theory", "meets_at", "meets_at_lem"),
    ("theory", "cut_left", "cut_left_lem"),
]


def spelled(name):
    if name[0].isupper():
        return re.sub(r"-(.)", lambda m: m.group(1).upper(), name)
    return re.sub(r"([a-z0-9])([A-Z])", lambda m: m.group(1) + "_" + m.group(2).lower(), name).replace("-", "_")


def files(*endings):
    for folder, dirs, names in os.walk("crates"):
        dirs[:] = sorted(d for d in dirs if d != "out")
        for name in sorted(names):
            if name.endswith(endings):
                yield os.path.join(folder, name)


def read(path):
    with open(path, encoding="utf-8") as f:
        return f.read()


def own_names():
    """Each name, with the crates that define it and whether only lemmas do."""
    found = collections.defaultdict(set)
    for path in files(".antt"):
        parts = path.split(os.sep)
        if len(parts) != 4:
            continue
        for line in read(path).splitlines():
            m = TYPE.match(line) or DEFINED.match(line)
            if m and m.group(1) not in ("pub", "use", "let", "where") and "◌" not in m.group(1):
                found[m.group(1)].add((parts[1], parts[2]))
    return found


def functions():
    found = collections.defaultdict(set)
    for path in files(".rt"):
        for m in re.finditer(r"\bfn\s+(\w+)", read(path)):
            found[path.split(os.sep)[1]].add(m.group(1))
    return found


def names_to_change():
    """{old: new} for all crates, and {crate: {old: new}} for one."""
    code = functions()
    everywhere, within = {}, collections.defaultdict(dict)
    for old, places in own_names().items():
        new = spelled(old)
        if new == old:
            continue
        if all(kind == "proofs" and new in code[crate] for crate, kind in places):
            new += "_lem"
        everywhere[old] = new
    for crate, old, new in APART:
        (everywhere if crate is None else within[crate])[old] = new
    return everywhere, within


def main():
    everywhere, within = names_to_change()
    for path in files(".antt", ".rt", ".edit"):
        words = everywhere | within[path.split(os.sep)[1]]
        old = read(path)
        new = WORD.sub(lambda m: words.get(m.group(0), m.group(0)), old)
        if new != old:
            with open(path, "w", encoding="utf-8") as f:
                f.write(new)
    pages = ["README.md"] + sorted(os.path.join("docs", p) for p in os.listdir("docs") if p.endswith(".md"))
    for path in pages:
        old = read(path)
        new = QUOTED.sub(lambda q: WORD.sub(lambda m: everywhere.get(m.group(0), m.group(0)), q.group(0)), old)
        if new != old:
            with open(path, "w", encoding="utf-8") as f:
                f.write(new)


main()
