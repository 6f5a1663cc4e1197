#!/usr/bin/env python3
"""Brings the repository's own definitions and lemmas to today's spelling.

usage: python3 tools/respell.py [TOP]     once, right after the kit's port.py; TOP is the repository (.)

A name of specs/ or proofs/ whose parts are joined by dashes gets underscores, or, where it begins with a capital (a
fact, a relation, a record), camel case: `ports-of` becomes `ports_of` and `Port-added` becomes `PortAdded`. Names that
Rattle makes (goals, invariants, measures, what stands in contracts/ and declared/) keep their spelling, and so do all
names, strings and comments of the code. Where the new spelling stands already, in a file where the old one stands, the
name gets another word or the ending `_lem`, as a name of the code's has it; what clashes all the same is left, and told.
"""

import os
import re
import sys

TOP = sys.argv[1] if len(sys.argv) > 1 else "."
TOKEN = re.compile(r"[^\s(){}\[\],;.:`\"]+")
DEFINED = re.compile(
    r"^\s*(?:where )?(?:abbrev )?(?:unfoldable )?(?:pub )?(?:record |data )?([^\s(){}\[\],;.:`]*-[^\s(){}\[\],;.:`]*) (?::|\()")
OTHER_WORDS = {
    "On-time": "IsOnTime",
    "Cell-record": "RecordOfCell",
    "Hop-record": "RecordOfHop",
    "some-cells": "has_cells",
    "some-ports": "has_ports",
}
CODE = re.compile(r'"(?:[^"\\]|\\.)*"|//[^\n]*|' + TOKEN.pattern)


def files(*endings):
    for folder, dirs, names in os.walk(TOP):
        dirs[:] = sorted(d for d in dirs if d not in ("out", ".git", "target"))
        for name in sorted(names):
            if name.endswith(endings):
                yield os.path.join(folder, name)


def read(path):
    with open(path, encoding="utf-8") as f:
        return f.read()


def made_by_rattle(path, line, name):
    """Whether an answer or an invariant has this name because Rattle asks for it."""
    return "/proofs/" in path and "goal." + name in line


def respelled(name):
    if name in OTHER_WORDS:
        return OTHER_WORDS[name]
    parts = name.split("-")
    if not all(parts):
        return None
    if name[0].isupper():
        return "".join(p[0].upper() + p[1:] for p in parts)
    return "_".join(parts)


def definitions():
    found = {}
    for path in files(".antt"):
        for line in read(path).split("\n"):
            m = DEFINED.match(line)
            if m and not made_by_rattle(path, line, m.group(1)):
                new = respelled(m.group(1))
                if new:
                    found[m.group(1)] = new
    return found


def clashes(names):
    """The names whose new spelling stands already in a file where the old one stands."""
    bad = set()
    for path in files(".antt", ".rt"):
        words = set(TOKEN.findall(read(path)))
        for old, new in names.items():
            if old in words and new in words:
                bad.add((old, new, path))
    news = {}
    for old, new in names.items():
        news.setdefault(new, []).append(old)
    for new, olds in news.items():
        if len(olds) > 1:
            bad.update((old, new, "two names") for old in olds)
    return bad


def turn(path, names):
    text = read(path)

    def word(m):
        return names.get(m.group(0), m.group(0))

    def in_code(m):
        return m.group(0) if m.group(0).startswith(('"', "//")) else word(m)

    if path.endswith(".rt") or path.endswith(".edit"):
        new = CODE.sub(in_code, text)
    elif path.endswith(".md"):
        new = re.sub(r"`[^`\n]+`", lambda q: TOKEN.sub(word, q.group(0)), text)
    else:
        new = TOKEN.sub(word, text)
    if new != text:
        with open(path, "w", encoding="utf-8") as f:
            f.write(new)
    return new != text


def main():
    names = definitions()
    for old, new, _ in clashes(names):
        names[old] = new + "_lem"
    bad = clashes(names)
    for old, new, path in sorted(bad):
        print(f"left: {old} is not made {new}: {path}")
        names.pop(old, None)
    changed = sum(turn(p, names) for p in files(".antt", ".rt", ".edit", ".md"))
    print(f"respell: {len(names)} names in {changed} files")


main()
