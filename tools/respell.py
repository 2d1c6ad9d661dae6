#!/usr/bin/env python3
"""Brings this repository's own definitions and lemmas to the spelling of today's Rattle: words in snake case.

usage: respell.py            in the repository, once, right after port.py: rewrites crates/ in place
       respell.py --list     prints the names, old and new, and writes nothing

valueOr -> value_or, block-late -> block_late. What Rattle makes keeps its names, a function's goals, steps and proof, and so do the
functions, variables and types of src/.
"""
import collections
import glob
import re
import sys

NAME = r"[^\s(){}.;,@\"«»\[\]\\:|→↦]+"
WORDS = r"(?:(?:abbrev|unfoldable|pub|private|opaque|unfolding)\s+)*"
# Lemmas whose name, as port.py or this script spells it, is a definition's: (file, the name) gets `_lem`.
LEMMAS = {
    ("crates/access/proofs/Answers.antt", "block_size"),
    ("crates/access/proofs/Changing.antt", "block_in"),
    ("crates/access/proofs/Failing.antt", "block_in"),
    ("crates/part/proofs/Laws.antt", "is_state"),
    ("crates/station/proofs/Merged.antt", "no_read"),
}


def read(path):
    with open(path, encoding="utf-8", newline="") as it:
        return it.read()


def files(ending, *parts):
    return sorted(f for part in parts for f in glob.glob(f"crates/*/{part}/**/*{ending}", recursive=True))


def bare(text):
    return re.sub(r"--[^\n]*", "", text)


def declared(text):
    """The names that a file declares: definitions, lemmas, fields, constructors, parameters of modules."""
    text = bare(text)
    out = set(re.findall(rf"(?m)^ *{WORDS}({NAME})(?: +\{{[^}}\n]*\}})* *:(?=\s)", text))
    for binder in re.findall(rf"[({{]((?:{NAME} )+): ", text):
        out.update(binder.split())
    return out


def heads(text):
    """The names that a proof of a function declares in column 0: its goals."""
    return set(re.findall(rf"(?m)^{WORDS}({NAME}) ", bare(text)))


def snake(word):
    """One part of a name, without dashes: fitsAt -> fits_at, fromS51 -> from_s51. A name of a type keeps its capital."""
    if not word or not word[0].islower():
        return word
    return re.sub(r"(?<=[a-z0-9_])([A-Z])", lambda m: "_" + m.group(1), word).lower() if re.search(r"[a-z0-9][A-Z]", word) else word


def respelled(name):
    return "_".join(snake(p) for p in name.split("-") if p)


def main(argv):
    specs, lemmas = files(".antt", "specs"), [f for f in files(".antt", "proofs") if not f.endswith("/Proof.antt")]
    walks, source = files("/Proof.antt", "proofs"), files(".rt", "src")
    texts = {f: read(f) for f in specs + lemmas + walks + source}
    defined = {snake(n) for f in specs + lemmas for n in declared(texts[f]) if f in specs or re.search(r"[a-z0-9][A-Z]", n)}
    library = set()
    for f in specs + lemmas + walks:
        for path, names in re.findall(r"(?m)^use ((?!Rattle\.(?!std))[\w.]+)\.\{([^}]*)\}", texts[f]):
            library.update(n.strip() for n in names.split(","))
    new = {}
    for f in specs + lemmas:
        for n in declared(texts[f]):
            if re.search(r"^[a-z+]", n) and (re.search(r"[a-z0-9][A-Z]", n) or "-" in n):
                to = respelled(n)
                new[n] = to + "_lem" if "-" in n and to in defined else to
    new = {a: b for a, b in new.items() if a != b and a not in library}
    fall = collections.defaultdict(set)
    for a, b in new.items():
        fall[b].add(a)
    for f, t in texts.items():
        tokens = set(re.findall(NAME, bare(t) if f.endswith(".antt") else re.sub(r"//[^\n]*", "", t)))
        own = heads(t) if f in walks else set()
        for a in tokens & set(new) - own:
            if new[a] in tokens and (f, new[a]) not in LEMMAS and f in specs + lemmas:
                print(f"together: {f}: {a} -> {new[a]}, which stands there too", file=sys.stderr)
    for b, names in fall.items():
        if len(names) > 1:
            print(f"together: {sorted(names)} -> {b}", file=sys.stderr)
    if "--list" in argv:
        for a, b in sorted(new.items()):
            print(f"{a}\t{b}")
        return 0
    turned = 0
    for f, t in texts.items():
        own = heads(t) if f in walks else set()
        token = re.compile(NAME)
        may = lambda n: n in new and n not in own and not (f.endswith(".rt") and "-" in n)
        to = lambda n: n + "_lem" if (f, n) in LEMMAS else new[n] if may(n) else n
        out = token.sub(lambda m: to(m.group()), t)
        if out != t:
            turned += 1
            with open(f, "w", encoding="utf-8", newline="") as it:
                it.write(out)
    print(f"{len(new)} names, {turned} files")
    return 0


if __name__ == "__main__":
    raise SystemExit(main(sys.argv[1:]))
