#!/usr/bin/env python3
"""Brings the repository's own definitions, lemmas and record fields to today's spelling.

usage: python3 tools/respell.py        at the top of the repository, once, after the kit's own port.py

A name that stands in lower case with dashes is written with underscores (`key-fault` becomes `key_fault`),
a type with dashes in upper camel case (`Scanning-law` becomes `ScanningLaw`). Names of goals, of std and of
src/ keep theirs. It stops where two names would fall together, or where a name of std would be touched.
"""

import collections
import glob
import re
import sys

DECLARED = re.compile(r"^(\s*)((?:abbrev |unfoldable |pub )*)([^\s:;{}()\[\],.=]+) : (.*)$")
MADE = re.compile(r"^\s*(?:pub )?(?:record|data) (\S+)")
# a name ends where one of these, a blank or the line does
EDGE = r"\s(){}\[\],;."


def antt_files():
    return sorted(glob.glob("crates/*/specs/**/*.antt", recursive=True) + glob.glob("crates/*/proofs/**/*.antt", recursive=True))


def own_names(path):
    """The names that a file declares itself: no goal of a function, no name of a `use` line."""
    with open(path, encoding="utf-8") as f:
        for line in f:
            if line.lstrip().startswith("--"):
                continue
            made = MADE.match(line)
            if made:
                yield made.group(1)
                continue
            declared = DECLARED.match(line)
            if declared and not declared.group(4).startswith(("goal.", "need.")):
                yield declared.group(3)


def foreign_names(path):
    """The names that a file brings in from outside the repository."""
    with open(path, encoding="utf-8") as f:
        for line in f:
            used = re.match(r"^(?:ghost )?use ((?:Rattle\.std|lib|borrow|logic|Prim|mathlib)\S*)\.\{(.*)\}", line)
            if used:
                for name in used.group(2).split(","):
                    yield name.split(" as ")[0].strip()


def today(name):
    if "-" not in name:
        return name
    if name[0].isupper():
        return "".join(part[0].upper() + part[1:] for part in name.split("-"))
    return name.replace("-", "_")


def main():
    files = antt_files()
    own = collections.defaultdict(set)
    foreign = set()
    for path in files:
        for name in own_names(path):
            own[name].add(path)
        foreign.update(foreign_names(path))
    turned = {name: today(name) for name in own if today(name) != name}
    fallen = [(a, b) for a, b in turned.items() if b in own or b in foreign or list(turned.values()).count(b) > 1]
    touched = [name for name in turned if name in foreign]
    if fallen or touched:
        print("fall together:", fallen, "of std:", touched)
        return 1
    words = sorted(turned, key=len, reverse=True)
    any_name = re.compile(r"(?<![^%s])(?:%s)(?![^%s])" % (EDGE, "|".join(map(re.escape, words)), EDGE)) if words else None
    for path in files + sorted(glob.glob("crates/*/src/*.rt")):
        with open(path, encoding="utf-8") as f:
            old = f.read()
        new = any_name.sub(lambda m: turned[m.group(0)], old) if any_name else old
        if new != old:
            with open(path, "w", encoding="utf-8") as f:
                f.write(new)
    print(len(turned), "names turned")
    return 0


if __name__ == "__main__":
    sys.exit(main())
