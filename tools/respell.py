#!/usr/bin/env python3
"""Spells this repository's own names as today's Rattle does: words in snake case.

    python3 tools/respell.py          at the top, once, after port.py

A name declared in specs/ or proofs/ (a definition, a lemma, a field, a bound variable) that has a capital inside or a dash becomes
snake case. Types and modules begin with a capital and keep theirs. Names that a file takes from a library keep theirs, as do those
that Rattle makes for a function's goals (proofs/F/). Functions of src/, exported names and strings keep theirs.
Prints the names that would fall together, and then writes nothing.
"""
import glob
import re
import sys

IDENT = r"[A-Za-z0-9_'ℕℤ₀-₉⁰-⁹]+(?:-[A-Za-z0-9_'ℕℤ₀-₉⁰-⁹]+)*"
TOKEN = re.compile(r"(?<![\w'-])" + IDENT + r"(?![\w'-])")
OURS = [line.split(":")[0].split()[0] for line in open("crates.txt") if line.strip() and not line.startswith("#")]


def snake(name):
    name = name.replace("-", "_")
    name = re.sub(r"(?<=[a-z0-9'])([A-Z])", lambda m: "_" + m.group(1), name)
    first = name[:1]
    if first.islower():
        name = name.lower()
    else:
        name = re.sub(r"_([A-Z])(?=[a-z])", lambda m: "_" + m.group(1).lower(), name)
    return name


def odd(name):
    if name[:1].isupper():
        return "-" in name
    return "-" in name or re.search(r"[a-z0-9'][A-Z]", name) is not None


def taken_from_libraries(text):
    names = set()
    for m in re.finditer(r"^\s*(?:pub )?use ([\w.'+]+?)\.\{([^}]*)\}", text, re.M):
        path = m.group(1).split(".")
        if not (path[0] == "Rattle" and len(path) > 1 and path[1] in OURS):
            names |= {x.strip().split(" ")[0] for x in m.group(2).split(",")}
    return names


def declared_in(text):
    names = set()
    for m in re.finditer(r"^\s*(?:(?:abbrev|unfoldable|pub|ruleset|record|data)\s+)*(" + IDENT + r")\s*(?:\{[^}]*\}\s*)?[:=]", text, re.M):
        names.add(m.group(1))
    for m in re.finditer(r"^\s*(?:pub )?ruleset (" + IDENT + r")", text, re.M):
        names.add(m.group(1))
    # bound variables, in groups with a type, under a λ and after let
    for m in re.finditer(r"[({]\s*((?:" + IDENT + r"\s+)*" + IDENT + r")\s*:", text):
        names |= set(m.group(1).split())
    for m in re.finditer(r"λ ([^.]*)\.", text):
        names |= set(re.findall(IDENT, m.group(1)))
    for m in re.finditer(r"let (" + IDENT + r")", text):
        names.add(m.group(1))
    for m in re.finditer(r"◌(\w+)◌", text):
        names.add(m.group(1))
    return names


def main():
    library = sorted(glob.glob("crates/*/specs/**/*.antt", recursive=True) + glob.glob("crates/*/proofs/*.antt"))
    walks = sorted(set(glob.glob("crates/*/proofs/**/*.antt", recursive=True)) - set(library))
    sources = sorted(glob.glob("crates/*/src/**/*.rt", recursive=True))
    edits = sorted(glob.glob("crates/*/must-fail/*.edit"))
    text = {f: open(f).read() for f in library + walks + sources + edits}
    own = set()
    for f in library:
        own |= declared_in(text[f]) - taken_from_libraries(text[f])
    renamed = {n: snake(n) for n in own if odd(n) and snake(n) != n}

    # A lemma that would have its definition's name gets _lem. Where port.py gave the lemma that name already, it moves on.
    camel = {n for n in own if "-" not in n and n in renamed}
    for n in sorted(own):
        if "-" in n and n in renamed and (snake(n) in {snake(c) for c in camel} or snake(n) in own):
            renamed[n] = snake(n) + "_lem"
    for c in sorted(camel):
        if snake(c) in own:
            print("the lemma moves on:", snake(c))
            renamed[snake(c)] = snake(c) + "_lem"

    bad = 0
    for f in library:
        kept = taken_from_libraries(text[f])
        seen = {}
        for t in set(TOKEN.findall(text[f])):
            new = t if t in kept else renamed.get(t, t)
            if new in seen and seen[new] != t:
                print("fall together:", f, seen[new], t)
                bad += 1
            seen[new] = t
    if bad or "--dry" in sys.argv:
        sys.exit(1)

    for f, old in text.items():
        kept = taken_from_libraries(old)
        if f in sources or f in edits:
            def turn(m):
                t = m.group(0)
                return renamed[t] if t in renamed and t not in kept and "-" not in t else t
            # strings keep their spelling
            new = "".join(p if i % 2 else TOKEN.sub(turn, p) for i, p in enumerate(re.split(r'("(?:[^"\\\n]|\\.)*")', old)))
        else:
            def turn(m):
                t = m.group(0)
                if t in kept or t not in renamed:
                    return t
                before = old[: m.start()]
                # a path of Rattle's names for a function's goals, as tie.X or c.step.field
                path = re.search(r"([\w'.\-]*)\.$", before)
                if f in walks and path and path.group(1).split(".")[0] in ("tie", "c", "w", "goal"):
                    return t
                if f in walks and "-" in t and re.search(r"(^|\n)\s*(?:pub )?" + re.escape(t) + r" ", old) :
                    return t
                return renamed[t]
            new = TOKEN.sub(turn, old)
        if new != old:
            open(f, "w").write(new)
    print("names respelled:", len(renamed))


main()
