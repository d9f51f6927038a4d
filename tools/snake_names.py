#!/usr/bin/env python3
"""Brings the repository's own definitions and lemmas to snake case: `bookAfter` becomes `book_after`, `rate-some` becomes `rate_some`.

usage: tools/snake_names.py            at the top of the repository; files are rewritten in place, and each name that changes is printed
       tools/snake_names.py --list     prints the names alone

A name is the repository's own where a file of specs/ or a lemma file of proofs/ declares or binds it, and no library does. A dash stays
where it joins the names of two definitions, and a lemma that would get the name of its definition ends in `_lem`. Functions of src/, strings, comments, and the goals that the prover names keep their spelling.
"""
import os
import re
import sys

KEPT = {"counted-append", "lines-append", "coarser-finer", "finer-coarser", "longer-shorter", "shorter-longer"}
NAME = re.compile(r"(?<![\w'-])[A-Za-z_][\w']*(?:-[\w']+)*")
LEMMAS = {"holds-standing": "holds_standing_lem", "meets-standing": "meets_standing_lem", "pile-number": "pile_number_lem", "any_below": "any_below_lem"}
CAMEL = re.compile(r"[a-z_][\w']*[A-Z]")


def files(*endings):
    for folder, dirs, names in os.walk("crates"):
        dirs[:] = [d for d in dirs if d != "out"]
        for name in sorted(names):
            if name.endswith(endings):
                yield os.path.join(folder, name)


def is_lemma_file(path):
    parts = path.split(os.sep)
    return parts[2] == "specs" or (parts[2] == "proofs" and len(parts) == 4)


def pieces(path, text):
    """The text in parts, each with whether names in it may change: comments and strings stay."""
    comment = r"--(?=\s|$).*" if path.endswith(".antt") else r"//.*"
    last = 0
    for m in re.finditer(comment + r'|"(?:\\.|[^"\\])*"', text):
        yield text[last : m.start()], True
        yield m[0], False
        last = m.end()
    yield text[last:], True


def snake(name):
    joined = name.replace("-", "_")
    return re.sub(r"(?<=[a-z0-9])[A-Z]", lambda m: "_" + m[0].lower(), joined)


def foreign():
    """What files import from libraries that are not this repository's."""
    own = "|".join(sorted(os.listdir("crates")))
    found = set()
    for path in files(".antt", ".rt"):
        with open(path, encoding="utf-8") as f:
            text = f.read()
        for m in re.finditer(r"(?m)^\s*(?:pub |ghost )*use ([^{;\n]*)\{([^}]*)\}", text):
            if not re.match(r"Rattle\.(?:%s)\." % own, m[1]):
                found |= {x.split(" as ")[0].strip() for x in m[2].split(",")}
    return found


def own_names():
    names = set()
    for path in files(".antt", ".rt"):
        with open(path, encoding="utf-8") as f:
            text = f.read()
        for part, open_part in pieces(path, text):
            for m in NAME.finditer(part if open_part else ""):
                camel = bool(CAMEL.match(m[0])) and "-" not in m[0]
                dashed = "-" in m[0] and is_lemma_file(path) and path.endswith(".antt")
                if camel or dashed:
                    names.add(m[0])
    return {n: snake(n) for n in names - foreign() - KEPT if n[0].islower()} | LEMMAS


def turned(path, text, names):
    return "".join(NAME.sub(lambda m: names.get(m[0], m[0]), part) if open_part else part for part, open_part in pieces(path, text))


def main():
    names = own_names()
    for old in sorted(names):
        print(old, names[old])
    if "--list" in sys.argv:
        return
    for path in files(".antt", ".rt"):
        with open(path, encoding="utf-8") as f:
            text = f.read()
        new = turned(path, text, names)
        if new != text:
            with open(path, "w", encoding="utf-8") as f:
                f.write(new)


main()
