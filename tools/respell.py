#!/usr/bin/env python3
"""Respells this repository's own definitions and lemmas after port.py: types in camel case, everything else in snake case.

    python3 tools/respell.py        at the top of a checkout on which port.py has just run

It renames each name with a dash that a file of specs/ or proofs/ declares (also what is bound there), in these files and in the
clauses and `ghost use` lines of src/. Names of the library, of goals and of steps are not declared here and stay. Strings,
comments of the sources, functions of src/ and must-fail edits are left alone.
"""
import glob
import os
import re
import sys

WORD = r"[^\s(){}\[\],;.:λ→=|◌«»]+"
BINDING = r"[({]((?:" + WORD + r" )+): "
PREFIX = r"^\s*(?:(?:abbrev|unfoldable|pub)\s+)*"

# Bound by a pattern, a λ or an argument list, so not seen by `declared`; and types whose names began small.
MORE = {
    "all-kept", "all-open", "b-past", "d-below", "d-empty", "d-past", "i-in", "i-small", "in-class", "is-in", "is-shut", "is-still",
    "j-in", "near-q", "near-r", "no-liberty", "none-struck", "none-there", "of-mine", "of-rest", "open-same", "past-chains",
    "past-rooms", "same-chains", "same-rooms", "struck-same", "to-d", "vital-x", "was-p", "was-q", "y-all", "y-below", "y-clear",
    "old-moves", "y-liberty", "y-open", "y-vital", "z-all", "z-below", "z-clear", "z-liberty", "z-open", "z-vital",
}
TYPES = {"from_start": "FromStart", "from-start": "FromStart", "breathing-at": "BreathingAt", "Goes_on": "GoesOn"}
# Lemmas on a bit of `bit_and` and of `bit_or`, which the library's words would be hidden by.
LEMMAS = {"bit-and": "bit-bit_and", "bit-or": "bit-bit_or"}
# A statement that would have the name of a case of the refusals.
STATEMENTS = {"Not-shown": "Unshown"}
# Names that stay or are chosen by hand.
CHOSEN = TYPES | LEMMAS | STATEMENTS


def files(kind, ending):
    return sorted(glob.glob(f"crates/*/{kind}/**/*.{ending}", recursive=True))


def declared(path):
    answers = os.path.basename(path) in ("Answers.antt", "Invariants.antt", "Proof.antt")
    found = set()
    for line in open(path, encoding="utf-8"):
        if line.strip().startswith("--") or line.startswith("use "):
            continue
        kind = re.match(PREFIX + r"(?:record|data)\s+(" + WORD + ")", line)
        if kind:
            found.add(kind.group(1))
            continue
        name = re.match(PREFIX + "(" + WORD + r")\s+:\s", line)
        if name and not (answers and "goal." in line):
            found.add(name.group(1))
        for let in re.finditer(r"let (" + WORD + r")(?: :| =)", line):
            found.add(let.group(1))
        for group in re.finditer(BINDING, line):
            found.update(group.group(1).split())
    return {name for name in found if "-" in name.strip("-") and name[0].isalpha()}


def respelled(name):
    if name in CHOSEN:
        return CHOSEN[name]
    if name[0].isupper():
        return "".join(part[:1].upper() + part[1:] for part in name.split("-"))
    return name.replace("-", "_")


def outside_strings(spell, line):
    parts = line.split('"')
    return '"'.join(part if k % 2 else spell(part) for k, part in enumerate(parts))


def main():
    os.chdir(os.path.dirname(os.path.dirname(os.path.abspath(__file__))) if len(sys.argv) < 2 else sys.argv[1])
    sources = files("specs", "antt") + files("proofs", "antt")
    names = set(MORE)
    for path in sources:
        names |= declared(path)
    table = {name: respelled(name) for name in names} | CHOSEN
    longest = sorted(table, key=len, reverse=True)
    pattern = re.compile(r"(?<![A-Za-z0-9_◌'-])(" + "|".join(map(re.escape, longest)) + r")(?![A-Za-z0-9_◌'-])")
    for path in sources + files("src", "rt"):
        lines = open(path, encoding="utf-8").read().split("\n")
        out = []
        for line in lines:
            comment = line.strip().startswith(("//", "--"))
            spell = lambda text: pattern.sub(lambda m: table[m.group(1)], text)
            out.append(line if comment else outside_strings(spell, line))
        text = "\n".join(out)
        if out != lines:
            open(path, "w", encoding="utf-8").write(text)
    for name in sorted(table):
        print(name, table[name])


main()
