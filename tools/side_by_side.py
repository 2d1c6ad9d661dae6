#!/usr/bin/env python3
"""Prints the contracts of two checkouts side by side, in Markdown, as the end of docs/DESIGN-PASS.md has them.

    python3 tools/side_by_side.py CONTRACTS OLD NEW

CONTRACTS is contracts.py of the toolchain's port/, OLD and NEW are folders with crates/. Functions that are not found again are named; of the
others each signature, clause, ghost item and definition that changed is printed, the old one after `-` and the new one after `+`.
"""
import json
import subprocess
import sys

contracts, old, new = sys.argv[1:]
told = subprocess.run([sys.executable, contracts, old, new, "--json"], capture_output=True, text=True, check=True).stdout
found = json.loads(told.strip().split("\n")[-1])


def line(mark, text):
    print(f"{mark} {text}" if text else mark)


def clauses(kind, them):
    return [f"{kind}{' ' + name if name else ''} {{ {text} }}" for name, text in them]


def words(them):
    return " ".join(them) if isinstance(them, list) else them


print("### Functions: signatures and clauses\n\n```text")
signatures = {place: (a, b) for place, a, b in found["signatures changed"]}
changed = {row[0]: row[1:] for row in found["contracts changed"]}
for place in sorted(set(signatures) | set(changed)):
    print(place)
    if place in signatures:
        line("-", signatures[place][0])
        line("+", signatures[place][1])
    if place in changed:
        before_requires, before_ensures, after_requires, after_ensures = changed[place]
        before = clauses("requires", before_requires) + clauses("ensures", before_ensures)
        after = clauses("requires", after_requires) + clauses("ensures", after_ensures)
        for text in before:
            if text not in after:
                line("-", text)
        for text in after:
            if text not in before:
                line("+", text)
print("```\n\n### Ghost items and constants\n\n```text")
items = found["ghost items and constants"]
for row in items["gone"]:
    line("-", " ".join(map(str, row)))
for row in items["changed"]:
    line("-", " ".join(map(words, row[:-1])))
    line("+", words(row[-1]))
print("```\n\n### Definitions, laws and invariants of specs/\n\n```text")
items = found["definitions"]
for crate, name in items["gone"]:
    line("-", f"{crate} {name}: see the table of what went")
for crate, name, before, after in items["changed"]:
    print(f"{crate} {name}")
    line("-", words(before))
    line("+", words(after))
print("```")
