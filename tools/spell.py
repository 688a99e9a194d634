#!/usr/bin/env python3
"""Brings the repository's own definitions and lemmas to today's spelling.

tools/spell.py          rewrites specs/, proofs/ and clauses in place, once, after port.py
tools/spell.py --list   prints what it would rename, and which names fall together

A name in lower case becomes snake case: `floorMod` is `floor_mod`, `extent-of` is `extent_of`.
A dash stays in a lemma where it joins the names of two definitions, as in `carry-compose`, or stands by an operator, as in `neg-*ℤ`.
Names that Rattle makes (goals, invariants, measures, declared types) and functions of src/ stay.
"""
import re
import sys
from pathlib import Path

ROOT = Path(__file__).resolve().parent.parent

# What a definition, a lemma, a field or a constructor begins with.
HEAD = re.compile(r"^(?:abbrev pub |unfoldable pub |pub ruleset |ruleset pub |ruleset |pub |abbrev |unfoldable )?([^\s(){}:;,.«»]+) :(?:\s|$)")
INNER = re.compile(r"^ +(?:pub )?([^\s(){}:;,.«»]+) :(?:\s|$)")
GOAL = re.compile(r" : (?:goal|given)\.")
# A token of antt: what stands between blanks, brackets and points.
TOKEN = re.compile(r"[^\s(){}\[\];,.«»λ⌜⌝\"]+")
# Definitions of the library that names of ours are joined to.
WORDS = {"add", "mul", "neg", "sub", "length", "take", "drop", "append", "set", "map", "abs"}
# Names that would fall together with the field of a struct.
APART = {"even-proper": "proper_alone"}


def files():
    for path in sorted((ROOT / "crates").rglob("*")):
        if path.suffix in (".antt", ".rt") and "out" not in path.relative_to(ROOT / "crates").parts:
            yield path


def own(paths):
    """The repository's own names in lower case, each with whether some file of specs/ defines it as a function."""
    names = {}
    for path in paths:
        if path.suffix != ".antt":
            continue
        lines = path.read_text().split("\n")
        for line in lines:
            if line.lstrip().startswith("--") or GOAL.search(line):
                continue
            head = HEAD.match(line) or INNER.match(line)
            if head and not head.group(1)[0].isupper():
                function = line.startswith(("abbrev pub ", "unfoldable pub "))
                names[head.group(1)] = names.get(head.group(1), False) or function
    return names


def snake(name):
    return re.sub(r"(?<=[a-z])([A-Z])(?![A-Za-z])", lambda m: "_" + m.group(1).lower(), re.sub(r"(?<=[a-z])([A-Z])(?=[a-z])", lambda m: "_" + m.group(1).lower(), name))


def respelled(name, functions):
    if name in APART:
        return APART[name]
    parts = name.split("-")
    joined = len(parts) == 2 and name not in functions and all(side in functions or side in WORDS for side in parts)
    out = snake(parts[0])
    for before, part in zip(parts, parts[1:]):
        operator = any(re.search(r"[*+≤<≡]", side) for side in (before, part))
        out += ("-" if operator or joined else "_") + snake(part)
    return out


def renames(paths):
    names = own(paths)
    functions = {n for n, function in names.items() if function}
    return {n: respelled(n, functions) for n in names if respelled(n, functions) != n}


def together(paths, turned):
    """New names that some file has already, or that two old ones share."""
    used = {}
    for path in paths:
        for token in TOKEN.findall(path.read_text()):
            used.setdefault(token, path)
    for old, new in sorted(turned.items()):
        others = [o for o, n in turned.items() if n == new and o != old]
        if new in used or others:
            yield old, new, others or used[new].relative_to(ROOT)


def main(words):
    paths = list(files())
    turned = renames(paths)
    if words == ["--list"]:
        for old, new in turned.items():
            print(old, new)
        for old, new, where in together(paths, turned):
            print(f"together: {old} becomes {new}, as {where}")
        return
    for path in paths:
        text = path.read_text()
        lines = [line if line.lstrip().startswith(("--", "//")) else TOKEN.sub(lambda m: turned.get(m.group(), m.group()), line) for line in text.split("\n")]
        path.write_text("\n".join(lines))


main(sys.argv[1:])
