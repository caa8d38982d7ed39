#!/usr/bin/env python3
"""Respells the definitions and lemmas of this repository as today's Rattle spells its own.

Words are in snake case, types, records and facts in camel case. A dash stays where it joins the names of two
definitions, as in `is_present-unstored`; any other dash becomes `_`. A lemma that would then have the name of a
definition gets `_lem`. Functions of src/, strings, inputs and outputs keep their names. Run once, at the top, right
after port.py.
"""
import collections
import glob
import re
import sys

IDENT = r"[^\W\d][\w'-]*"
TOKEN = re.compile(r"(?<![\w'-])" + IDENT)
DECLARED = re.compile(
    r"^(?P<indent> *)(?P<kind>(?:(?:abbrev|unfoldable|pub|record|data) )*)"
    r"(?P<name>" + IDENT + r")(?P<params>(?: [({][^\n]*?[)}])*) :(?P<type> [^\n]*)",
    re.M,
)
# Bound variables and values that no rule above reaches.
BY_HAND = {
    "BadBlockNumber": "bad_block_number",
    "low-order": "low_order",
    "high-order": "high_order",
    "high-first": "high_first",
    "isPresent-unstored": "is_present-unstored",
    "isStored-unstored": "is_stored-unstored",
    "wordsOf-unstored": "words_of-unstored",
    "getD-zeros": "get_or-zeros",
    "no_room": "no_room_lem",
}
# Variables of single files, which are not declared at the head of a line.
BOUND = {"crates/blocks/specs/Blocks.antt": {"low-order", "high-order", "high-first"}}
# Names of std that a definition of ours may share a dash with.
STD_WORDS = {"length", "append", "zero", "suc", "drop", "take", "push", "insert", "replicate"}


def snake(name):
    """camelCase and dashes to snake case; capitals of facts that a lemma names stay apart."""
    return re.sub(r"(?<=[a-z0-9])([A-Z])", lambda m: "_" + m.group(1).lower(), name)


def files():
    return sorted(
        glob.glob("crates/*/specs/**/*.antt", recursive=True) + glob.glob("crates/*/proofs/**/*.antt", recursive=True)
    )


def declarations():
    """Each declared name, with whether it is a definition, and the files that declare it."""
    found = collections.defaultdict(list)
    for path in files():
        for m in DECLARED.finditer(open(path).read()):
            if m["type"].lstrip().startswith("goal."):
                continue
            field = bool(m["indent"]) and "/specs/" in path and "where" not in m["kind"]
            definition = any(k in m["kind"].split() for k in ("abbrev", "unfoldable", "record", "data"))
            found[m["name"]].append((path, definition, bool(m["indent"])))
    return found


def new_names(found):
    definitions = {n for n, at in found.items() if any(d for _, d, _ in at)} | STD_WORDS
    spelled = {snake(n) for n in definitions if "-" not in n}
    renamed = {}
    for name, at in sorted(found.items()):
        if name in BY_HAND:
            renamed[name] = BY_HAND[name]
            continue
        if not re.search(r"-|(?<=[a-z0-9])[A-Z]", name) or name[0].isupper():
            continue
        parts = [snake(p) for p in name.split("-")]
        new = parts[0]
        for before, after in zip(parts, parts[1:]):
            new += "_" + after
        if not any(d for _, d, _ in at) and new in spelled:
            new += "_lem"
        renamed[name] = new
    renamed.update({n: BY_HAND[n] for n in ("low-order", "high-order", "high-first")})
    return renamed


def imports(text):
    """The names that a file takes from std or from generated modules."""
    foreign, own = set(), set()
    for m in re.finditer(r"^(?:ghost )?use (Rattle\.[\w.'+-]*?)\.\{([^}]*)\}", text, re.M):
        names = {n.strip().split(" as ")[-1] for n in m[2].split(",")}
        if m[1].startswith("Rattle.std.") or m[1].endswith(".Goals"):
            foreign |= names
        else:
            own |= names
    return foreign, own


def respell(text, path, found, renamed):
    foreign, _ = imports(text)
    here = BOUND.get(path, set())

    def turn(m):
        name = m[0]
        if name not in renamed or name in foreign:
            return name
        before = text[max(0, m.start() - 1) : m.start()]
        if name in BY_HAND and name in ("low-order", "high-order", "high-first") and name not in here:
            if not any(name == n for n in found):
                return name
        if "-" in name and before == ".":
            fields = any(indent for _, _, indent in found.get(name, []))
            qualifier = re.search(r"([\w'+-]+)\.$", text[: m.start()])
            if not fields and not (qualifier and qualifier[1][0].isupper()):
                return name
        return renamed[name]

    return TOKEN.sub(turn, text)


def clauses(text, path, found, renamed):
    """Turns a .rt file but for its comments and the lines with strings; no function of src/ is spelled as these are."""
    return "\n".join(
        line if '"' in line or line.lstrip().startswith("//") else respell(line, path, found, renamed)
        for line in text.split("\n")
    )


def main():
    found = declarations()
    renamed = new_names(found)
    taken = collections.defaultdict(set)
    for name in found:
        taken[renamed.get(name, name)].add(name)
    for new, olds in sorted(taken.items()):
        if len(olds) > 1:
            print(f"together: {new}: {', '.join(sorted(olds))}", {n: [p for p, _, _ in found[n]] for n in olds})
    if "--list" in sys.argv:
        for name, new in sorted(renamed.items()):
            print(name, new)
        return
    for path in files():
        text = open(path).read()
        new = respell(text, path, found, renamed)
        if new != text:
            open(path, "w").write(new)
    for path in sorted(glob.glob("crates/*/src/**/*.rt", recursive=True)):
        text = open(path).read()
        new = clauses(text, path, found, renamed)
        if new != text:
            open(path, "w").write(new)


if __name__ == "__main__":
    main()
