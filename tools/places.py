#!/usr/bin/env python3
"""Lists the places of the older language in src/, point by point as docs/DESIGN-PASS.md counts them.

    python3 tools/places.py [CRATES] [POINT]

CRATES is the folder of the crates (crates/ of this checkout), POINT a number from 1 to 8 (all of them). A line is a place, or a candidate
that the page sorts by hand; the last line of each point is how many there are.
"""
import pathlib
import re
import sys

CRATES = pathlib.Path(sys.argv[1] if len(sys.argv) > 1 else "crates")
POINTS = [int(p) for p in sys.argv[2:]] or list(range(1, 9))


def functions():
    """Each function of src/: its place, name, signature, clauses and body."""
    for path in sorted(CRATES.glob("*/src/*.rt")):
        text = path.read_text()
        starts = [m for m in re.finditer(r"^ *(?:pub(?:\(crate\))? )?(?:extern \"C\" )?fn (\w+)", text, re.M)]
        for m in starts:
            indent = len(m.group(0)) - len(m.group(0).lstrip())
            end = re.compile(r"^ {%d}\}$" % indent, re.M).search(text, m.end())
            whole = text[m.start():end.end() if end else len(text)]
            opening = re.search(r"^ {%d}\{$|\) (?:-> [^\n{]+ )?\{$" % indent, whole, re.M)
            head, body = (whole[:opening.end()], whole[opening.end():]) if opening else (whole, "")
            clauses = re.findall(r"^ *(?:requires|ensures)(?: \w+)? \{ (.*) \}$", head, re.M)
            yield f"{path.relative_to(CRATES)}:{m.group(1)}", m.group(1), head, clauses, body


def say(point, what, lines):
    print(f"== {point}. {what}")
    for line in lines:
        print("  " + line)
    print(f"  {len(lines)}")


def sources():
    for path in sorted(CRATES.glob("*/src/*.rt")):
        yield path.relative_to(CRATES), path.read_text()


def point1():
    enums = [f"{p}: {n}" for p, t in sources() for n in re.findall(r"^\s*(?:pub(?:\(crate\))? )?enum (\w+)", t, re.M)]
    say(1, "own enums", enums)
    flags = [f"{p}: {n}" for p, t in sources() for n, b in re.findall(r"struct (\w+)[^{};]*\{([^}]*)\}", t)
             if re.search(r"\b(error|failed|good|open): bool", b)]
    say(1, "flags beside a value", flags)
    codes = []
    for place, name, head, clauses, body in functions():
        answer = re.search(r"-> (u8|u16|usize)\b", head)
        numbers = re.findall(r"(?:return |=> )(0x[0-9A-Fa-f]+|\d+)[,;]", body)
        if answer and len(set(numbers)) >= 2 and not name.startswith("put"):
            codes.append(f"{place}: {', '.join(sorted(set(numbers)))}")
    say(1, "numbers for kinds or refusals", codes)
    sentinel = [f"{p}: {c.strip()}" for p, t in sources() for c in re.findall(r"^// (.*; [A-Z0-9][A-Z0-9_]* where .*)$", t, re.M)]
    say(1, "a value that means none", sentinel)


def shape(body):
    body = re.sub(r"//.*", "", body)
    body = re.sub(r'b?"[^"]*"', '"', body)
    body = re.sub(r"\b(?:0x[0-9A-Fa-f]+|\d+)\b", "0", body)
    body = re.sub(r"\b(?!let\b|mut\b|if\b|else\b|while\b|for\b|in\b|return\b|match\b|true\b|false\b)[A-Za-z_]\w*\b", "x", body)
    body = re.sub(r"x(?:::x)+", "x", body)
    return re.sub(r"\s+", " ", body).strip()


def point2():
    groups = {}
    for place, name, head, clauses, body in functions():
        if place.split("/")[0] in ("cycles", "layouts", "requests", "seasons", "llinkhiro"):
            continue
        form = shape(body)
        if len(form) >= 40:
            groups.setdefault(form, []).append(place)
    say(2, "functions of one shape", [" ".join(g) for g in groups.values() if len(g) > 1])


def point3():
    loops = [f"{place}: {line.strip()}" for place, name, head, clauses, body in functions()
             for line in body.split("\n") if re.match(r"\s*while ", line)]
    say(3, "loops by while", loops)
    ranges = []
    for place, name, head, clauses, body in functions():
        for i in re.findall(r"for (\w+) in [\w:.]+\.\.", body):
            if re.search(r"\[[^\]]*\b%s\b" % i, body):
                ranges.append(f"{place}: {i}")
    say(3, "ranges that index", ranges)


def point4():
    casts = [place for place, name, head, clauses, body in functions()
             if re.fullmatch(r"\s*\{?\s*\w+(?:\.\w+)? as \w+\s*\}?\s*", body)]
    say(4, "functions that are one cast", casts)
    helpers = [place for place, name, head, clauses, body in functions()
               if re.match(r"print", name) or name in ("either", "between", "both", "join", "joined", "joined32")]
    say(4, "printing and operators by hand", helpers)
    maps = [place for place, name, head, clauses, body in functions()
            if len(re.findall(r"\w+::\w+ => ", body)) >= 4 and not re.search(r"\bfmt\b", name)]
    say(4, "matches over all of an enum", maps)
    chains = [place for place, name, head, clauses, body in functions()
              if len(re.findall(r"if \w+ == (?:0x)?\w+ \{\s*return", body)) >= 3]
    say(4, "chains of equal tests", chains)
    copies = [place for place, name, head, clauses, body in functions() if len(re.findall(r"\b(\w+): \1\b", body)) >= 2]
    say(4, "copies field by field", copies)


def point5():
    facts = {}
    for place, name, head, clauses, body in functions():
        for clause in clauses:
            for fact in re.split(r" × ", clause):
                fact = re.sub(r"\.(?:now|old|new)\b", "", fact.strip("() "))
                if re.search(r"≤|<", fact) and not re.search(r"cond|λ", fact):
                    facts.setdefault(fact, set()).add(place)
    say(5, "facts in three or more contracts", [f"{f}: {len(p)}" for f, p in sorted(facts.items()) if len(p) >= 3])
    groups = {}
    for place, name, head, clauses, body in functions():
        names = re.findall(r"(\w+): ", head.split("requires")[0].split("ensures")[0])
        for k in range(len(names) - 2):
            groups.setdefault((place.split("/")[0],) + tuple(names[k:k + 3]), set()).add(place)
    say(5, "three parameters together in three or more functions",
        [f"{g[0]}: {', '.join(g[1:])}: {len(p)}" for g, p in sorted(groups.items()) if len(p) >= 3])


def point6():
    buffers = [place for place, name, head, clauses, body in functions()
               if re.search(r"\[\w+; [\w:]+\],?\s+(?:n|used|len|length|count|collected): ", head)]
    say(6, "a buffer with its length", buffers)


def point7():
    say(7, "tables of functions, steps by number", [place for place, name, head, clauses, body in functions()
                                                   if re.search(r"\bstep: u|\[fn\(", head + body)])


def point8():
    lines = []
    for crate in sorted(CRATES.iterdir()):
        answers = list(crate.glob("proofs/**/Answers.antt"))
        loops = list(crate.glob("proofs/**/Invariants.antt"))
        size = sum(len(f.read_text().split("\n")) - 1 for f in crate.glob("proofs/**/*.antt"))
        if answers or size:
            lines.append(f"{crate.name}: {len(answers)} files of answers, {len(loops)} of invariants, {size} lines in proofs/")
    say(8, "proofs", lines)


for point in POINTS:
    globals()[f"point{point}"]()
