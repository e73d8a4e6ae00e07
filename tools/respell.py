#!/usr/bin/env python3
"""Brings this repository's own definitions and lemmas to the spelling of today's Rattle, after port.py: words in snake case.

usage: python3 tools/respell.py [--names]     at the top, once, on the tree that port.py left

A name that a file of specs/ or proofs/ declares, and that has a capital inside (payerOf, leZ-true), gets underscores (payer_of, le_z-true);
a name of specs/ with a dash in it that is no lemma (each-top) gets an underscore for the dash. Names of functions in src/ keep their
spelling, since they have none of the two. A fact, whose signature ends in Type 0, begins with a capital (smallOf becomes SmallOf). With
--names it only lists what becomes what. It ends with status 1 where two names fall together that one file can see.
"""
import glob
import re
import sys

NAME = r"[\w'≤≥<>ℤℕ∷+*-]+"
DECLARED = re.compile(r"^\s*(?:(?:abbrev|unfoldable|pub|data|record)\s+)*(" + NAME + r")(?:\s*\{[^}]*\})?\s+:\s|^\s*(?:abbrev|unfoldable|pub)\s.*?(" + NAME + r")\s+:\s")
FACT = re.compile(r":\s(?:.*→\s)?Type 0$")
CAMEL = re.compile(r"(?<=[a-z0-9])([A-Z])")

# Names that are spelled alike afterwards and never meet: a private lemma of one crate, or a field, and a definition of another crate.
APART = {"goes_on", "no_room", "numbers_of", "small_at"}


def files():
    for pattern in ("crates/*/src/**/*.rt", "crates/*/specs/**/*.antt", "crates/*/proofs/**/*.antt"):
        yield from sorted(p for p in glob.glob(pattern, recursive=True) if "/out/" not in p)


def declared():
    """Each declared name, with the files that declare it, and the names that are facts."""
    found, facts = {}, set()
    for p in files():
        if not p.endswith(".antt"):
            continue
        for line in open(p, encoding="utf-8"):
            if line.lstrip().startswith("--"):
                continue
            m = DECLARED.match(line)
            if m:
                name = m.group(1) or m.group(2)
                found.setdefault(name, set()).add(p)
                if FACT.search(line.rstrip()) and " pub " in " " + line:
                    facts.add(name)
    return found, facts


def snake(name):
    """The name in snake case: its first letter stays as it is, since a capital there says that it is a type."""
    return CAMEL.sub(lambda m: "_" + m.group(1).lower(), name)


def table(found, facts):
    turned = {}
    for name, where in found.items():
        first = name.split("-")[0]
        if name in facts and name[:1].islower():
            turned[name] = name[0].upper() + name[1:]
            continue
        new = "-".join(part if part[:1].isupper() else snake(part) for part in name.replace("getD", "get_or").split("-"))
        if any("/specs/" in p for p in where) and "-" in new and not first[:1].isupper():
            new = new.replace("-", "_")
        if new != name:
            turned[name] = new
    return turned


def main():
    found, facts = declared()
    turned = table(found, facts)
    taken = {}
    for name in found:
        taken.setdefault(turned.get(name, name), set()).add(name)
    together = {new: names for new, names in taken.items() if len(names) > 1 and new not in APART}
    for new, names in sorted(together.items()):
        print(f"respell: {' and '.join(sorted(names))} fall together as {new}")
    if "--names" in sys.argv[1:]:
        for name in sorted(turned):
            print(f"{name} {turned[name]}")
        return 1 if together else 0
    if together:
        return 1
    word = re.compile(NAME)
    changed = 0
    for p in files():
        with open(p, encoding="utf-8") as f:
            text = f.read()
        new = word.sub(lambda m: turned.get(m.group(0), m.group(0)), text)
        if new != text:
            changed += 1
            with open(p, "w", encoding="utf-8") as f:
                f.write(new)
    print(f"respell: {len(turned)} names, {changed} files")
    return 0


if __name__ == "__main__":
    sys.exit(main())
