#!/usr/bin/env python3
"""Spells the repository's own definitions and lemmas as today's Rattle does: words in snake case, types and modules in camel case.

usage: respell.py [--list]     at the top of the repository, once, behind port.py

A name is one that a text of specs/ or proofs/ declares: a definition, a lemma, a field, a constructor. It is turned in every .antt file, in the clauses and
ghost imports of .rt files, and in the edits and pages that name it between backquotes. Names of Rust's items stay, and so do names that Rattle makes.
With --list it writes nothing, and prints what it would turn and which names would fall together.
"""

import os
import re
import sys

TOKEN = re.compile(r"[^\s(){}.;,@\"«»:\[\]|`]+")
DECLARED = re.compile(r"^\s*(?:(?:pub|abbrev|unfoldable|opaque|private)\s+)*([^\s(){}.;,@\"«»:]+)\s*(?:\{[^{}\n]*\}\s*)*:\s")
# What answers a goal of Rattle's, or is a function's whole proof, has a name that Rattle makes.
MADE = re.compile(r"(?:tie|goal)\.|\{M : Type 1\} → (?:statement|tie)")

# Names that would fall together with another one, or with a word of the library, get one of their own.
OWN = {
    "action-at": "action_at_lem",
    "action-fields": "action_fields_lem",
    "costs-fields": "costs_fields_lem",
    "head-fields": "head_fields_lem",
    "pair-fields": "pair_fields_lem",
    "record-length": "record_length_lem",
    "variable-fields": "variable_fields_lem",
    "acts-on": "acts_on_lem",
    "applies-on": "applies_on_lem",
    "begin-on": "begin_on_lem",
    "begins-on": "begins_on_lem",
    "centre-meets": "centre_meets_lem",
    "enabled-on": "enabled_on_lem",
    "goal-on": "goal_on_lem",
    "layer-back": "layer_back_lem",
    "leaf-part": "leaf_part_lem",
    "met-on": "met_on_lem",
    "next-on": "next_on_lem",
    "next-prices": "next_prices_lem",
    "node-on": "node_on_lem",
    "over-on": "over_on_lem",
    "part-on": "part_on_lem",
    "plan-back": "plan_back_lem",
    "price-in": "price_in_lem",
    "prices-on": "prices_on_lem",
    "same-front": "same_front_lem",
    "settle-on": "settle_on_lem",
    "states-few": "states_few_lem",
    "states-on": "states_on_lem",
    "to-with": "to_with_lem",
    "back_on": "back_on_lem",
    "first_on": "first_on_lem",
    "node_at": "node_at_lem",
    "pass_on": "pass_on_lem",
    "passes_on": "passes_on_lem",
    "row_on": "row_on_lem",
    "settled_on": "settled_on_lem",
    "row-in": "row_in_lem",
    "block_words": "block_words_lem",
}


def in_snake_case(name):
    words = re.sub(r"(?<=[a-z0-9])[A-Z]", lambda m: "_" + m[0].lower(), name)
    return words.replace("-", "_")


def texts(ends):
    for folder, dirs, files in os.walk("crates"):
        dirs[:] = sorted(d for d in dirs if d != "out")
        for f in sorted(files):
            if f.endswith(ends):
                yield os.path.join(folder, f)


def read(path):
    with open(path, encoding="utf-8") as f:
        return f.read()


def declared():
    names = {}
    for p in texts((".antt",)):
        for line in read(p).split("\n"):
            if line.lstrip().startswith("--"):
                continue
            m = DECLARED.match(line)
            if m and MADE.match(line[m.end():]):
                continue
            if m and re.match(r"[a-z]", m[1]) and (re.search(r"[A-Z]", m[1]) or "-" in m[1]):
                names.setdefault(m[1], set()).add(p)
    return names


def turned(names):
    table = dict(OWN)
    for n in names:
        table[n] = OWN.get(n, in_snake_case(n))
    return {a: b for a, b in table.items() if a != b}


def library():
    """Names that the texts import from elsewhere: these are not ours."""
    found = {}
    for p in texts((".antt", ".rt")):
        for m in re.finditer(r"\buse ([A-Za-z_.\w'+-]+)\.\{([^}]*)\}", read(p)):
            own = m[1].startswith("Rattle.") and os.path.isdir(os.path.join("crates", m[1].split(".")[1]))
            if not own:
                for part in m[2].split(","):
                    found.setdefault(part.split(" as ")[0].strip(), set()).add(p)
    return found


def spell(text, table):
    return TOKEN.sub(lambda m: table.get(m[0], m[0]), text)


def pages():
    yield "README.md"
    for folder, dirs, files in os.walk("docs"):
        for f in sorted(files):
            if f.endswith(".md"):
                yield os.path.join(folder, f)


def main(argv):
    names = declared()
    lib = library()
    for n in sorted(set(names) & set(lib)):
        print("library too:", n, sorted(names[n])[:2], sorted(lib[n])[:2])
        if n not in OWN:
            del names[n]
    table = turned(names)
    back = {}
    for a, b in table.items():
        back.setdefault(b, []).append(a)
    for b, many in sorted(back.items()):
        if len(many) > 1:
            print("fall together:", b, many, {a: sorted(names[a])[:2] for a in many})
    for p in texts((".antt", ".rt")):
        tokens = set(TOKEN.findall(read(p)))
        for a in sorted(tokens & set(table)):
            if table[a] in tokens:
                print("meets:", p, a, "->", table[a])
    print(len(table), "names")
    if "--list" in argv:
        return 0
    for p in texts((".antt",)):
        t = read(p)
        new = spell(t, table)
        if new != t:
            with open(p, "w", encoding="utf-8") as f:
                f.write(new)
    for p in texts((".rt",)):
        t = read(p)
        new = spell(t, table)
        if new != t:
            with open(p, "w", encoding="utf-8") as f:
                f.write(new)
    for p in pages():
        t = read(p)
        new = re.sub(r"`[^`\n]+`", lambda m: spell(m[0], table), t)
        if new != t:
            with open(p, "w", encoding="utf-8") as f:
                f.write(new)
    return 0


if __name__ == "__main__":
    raise SystemExit(main(sys.argv[1:]))
