#!/usr/bin/env python3
"""Brings the names of the repository's own definitions and lemmas to snake case, after port.py: `tableSize` to `table_size`.

usage: python3 tools/respell.py        at the top of the repository, once

What is turned are the names that specs/ and the lemma files of proofs/ define, and the variables and aliases of contracts and proofs: in
.rt files (clauses alone have such names), .antt files, must-fail edits and pages. Types, records and constructors keep their capital. Where a new
name would fall together with a lemma, the lemma gets `_lem` first.
"""

import collections
import glob
import re
import sys

LEMMAS = ["first_part", "note_step", "step_by", "stops_at", "taken_back"]
OTHERS = """allOpen barredBytes byCapacity byShare carBytes closedBytes commodityList destinationBytes entryArray entryPlaces headIn
linkArray linkBytes linkList linkPlaces linkSize' lorryBytes nodeArray nodeList powerIn timeArray tripBytes tripsOf""".split()
DEFINED = re.compile(r"^\s*(?:pub |abbrev |unfoldable )*([^\s(){}:;,=λ.]+) :(?: |$)", re.M)


def snake(name):
    parts = name.split("-")
    turned = [re.sub(r"([a-z0-9])([A-Z])", lambda m: m[1] + "_" + m[2].lower(), p) if p[:1].islower() else p for p in parts]
    return "-".join(turned)


def files(*patterns):
    return sorted(f for p in patterns for f in glob.glob(p, recursive=True) if "/out/" not in f)


def main():
    names = {}
    for f in files("crates/*/specs/**/*.antt", "crates/*/proofs/*.antt"):
        with open(f, encoding="utf-8") as text:
            for name in DEFINED.findall(text.read()):
                if name[:1].islower() and snake(name) != name:
                    names[name] = snake(name)
    names.update((o, snake(o)) for o in OTHERS)
    again = [n for n, k in collections.Counter(names.values()).items() if k > 1]
    if again:
        sys.exit("these fall together: " + " ".join(again))
    old = sorted(names, key=len, reverse=True)
    word = re.compile(r"(?<![\w'-])(" + "|".join(map(re.escape, old)) + r")(?![\w'-])")
    lemma = re.compile(r"(?<![\w'.-])(" + "|".join(LEMMAS) + r")(?![\w'-])(?!\.)")
    for f in files("crates/**/*.rt", "crates/**/*.antt", "crates/**/*.edit", "docs/**/*.md", "README.md"):
        with open(f, encoding="utf-8") as text:
            before = text.read()
        after = before
        if f.endswith(".antt"):
            after = lemma.sub(lambda m: m[1] + "_lem", after)
        after = word.sub(lambda m: names[m[1]], after)
        if after != before:
            with open(f, "w", encoding="utf-8") as text:
                text.write(after)


main()
