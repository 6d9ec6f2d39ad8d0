#!/usr/bin/env python3
"""Brings the names of this repository's own definitions and lemmas to snake case, and those of its facts and types to camel case.

usage: python3 tools/snake_names.py          at the top of the repository, once

A name with a dash that a file of specs/ or proofs/ defines is respelled wherever an .antt file or a clause of an .rt file has it: `answer-of`
becomes `answer_of`, and `Forgot-all-but`, which stands for a fact, `ForgotAllBut`. Names of goals, which Rattle makes, strings, comments of
.rt files and names of the code stay. It stops, and writes nothing, where two names would fall together.
"""

import pathlib
import re
import sys

WORD = r"[A-Za-z][A-Za-z0-9_]*(?:-[A-Za-z0-9_]+)+'*"
# a whole name, or what stands before `-++` in the name of a lemma on joined lists
TOKEN = re.compile(r"(?<![\w'-])" + WORD + r"(?![\w']|-(?!\+\+))")
BOUND = re.compile(r"[({](" + WORD + r") :|\blet (" + WORD + r")\b")
# a name that isn't a part of a module's path
ANY = re.compile(r"(?<![\w'.-])[A-Za-z][\w'-]*")
SIGNATURE = re.compile(r"^\s*(?:abbrev |unfoldable )?(?:pub )?(" + WORD + r") :(?!=)(.*)$")
DECLARED = re.compile(r"^\s*(?:pub )?(?:data|record) (" + WORD + r")\b")
RULESET = re.compile(r"^\s*(?:pub )?ruleset (" + WORD + r")\b")
MADE = re.compile(r"^\s*(?:need|needs|given|goal)\.")


def respelled(name):
    if name[0].isupper():
        return "".join(part[0].upper() + part[1:] for part in name.split("-"))
    return name.replace("-", "_")


def sources(*kinds):
    return [p for k in kinds for p in sorted(pathlib.Path("crates").rglob("*" + k)) if "out" not in p.parts]


def defined(paths):
    names = set()
    for path in paths:
        for line in path.read_text().splitlines():
            found = SIGNATURE.match(line)
            if found and not MADE.match(found[2].replace("abbrev", "")):
                names.add(found[1])
            names.update(a or b for a, b in BOUND.findall(line))
            for form in (DECLARED, RULESET):
                if other := form.match(line):
                    names.add(other[1])
    return names


def outside_code(line):
    """The parts of a line of an .rt file, each with whether it may be respelled: strings and comments may not."""
    parts = re.split(r'("(?:[^"\\]|\\.)*"|//.*$)', line)
    return [(part, i % 2 == 0) for i, part in enumerate(parts)]


def turned(path, names):
    def swap(text):
        return TOKEN.sub(lambda m: names.get(m[0], m[0]), text)

    text = path.read_text()
    if path.suffix == ".antt":
        return swap(text)
    return "".join("".join(swap(p) if code else p for p, code in outside_code(line)) for line in text.splitlines(keepends=True))


def main():
    antt = sources(".antt")
    names = {n: respelled(n) for n in defined(antt)}
    present = {w for p in antt for w in ANY.findall(p.read_text())}
    clashes = [(n, new) for n, new in names.items() if new in present or list(names.values()).count(new) > 1]
    if clashes:
        sys.exit("names that would fall together: " + ", ".join(f"{a} as {b}" for a, b in sorted(clashes)))
    for path in sources(".antt", ".rt"):
        path.write_text(turned(path, names))
    for name in sorted(names):
        print(name, "->", names[name])


if __name__ == "__main__":
    main()
