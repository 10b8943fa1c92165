#!/usr/bin/env python3
"""Respells this repository's own definitions and lemmas, once, in snake case.

usage: python3 tools/respell.py [--list]        at the top of the repository

A name in camel case that begins small, as `byBerth`, becomes `by_berth`, wherever it stands in crates/.
A dash between plain words of a declared name, as `rank-laws`, becomes `_`; it stays behind the library's
word that a lemma is of, as in `length-modify`. Goals, invariants and measures, which Rattle names, stay as they are,
and so do the functions of src/. `--list` only prints each old name with its new one.
"""

import glob
import os
import re
import sys

WORD = r"[^\s(){}\[\],;.«»:λ\"`]+"
DECLARED = re.compile(
    r"^\s*(?:abbrev |unfoldable )?(?:pub )?(?:abbrev |unfoldable )?(?:record |data )?"
    r"(" + WORD + r")\s*(?:[({][^=]*)?:\s+(.*)$"
)
CAMEL = re.compile(r"(?<![A-Za-z0-9_·'])[a-z][a-z0-9]*(?:[A-Z][a-z0-9]*)+(?![A-Za-z0-9_·])")
# made by Rattle from the code, or chosen by it
MADE = re.compile(r"^(returns|loop|invariant|decreases|overflow)(-|$)|-requires")
# names of two words that would fall together with another name in the same place
OTHERWISE = {
    "job-for": "job_for_does",
    "claim-with": "claim_made",
    "head-view": "head_view_is",
    "is-alike": "alike_when_true",
    "on-arc": "all_on_arc",
    "in-ring": "all_in_ring",
    "in-bucket": "all_in_bucket",
    "new-boards": "new_boards_made",
    "new-state": "new_state_made",
}
# local names that a respelled name would fall together with
LOCAL = {"by_number": "by_berth_number"}


def snake(word):
    return CAMEL.sub(lambda m: re.sub(r"([A-Z])", lambda c: "_" + c.group(1).lower(), m.group(0)), word)


def files(*patterns):
    for pattern in patterns:
        yield from sorted(glob.glob(pattern, recursive=True))


def declared():
    """Each declared name, with whether it is a definition of specs/."""
    names = {}
    for path in files("crates/*/specs/**/*.antt", "crates/*/proofs/**/*.antt"):
        for line in open(path, encoding="utf-8"):
            if line.lstrip().startswith(("use ", "--", "module ", "let ", "in ", "pub mod")):
                continue
            m = DECLARED.match(line)
            if m and not m.group(2).startswith("goal.") and "=" not in m.group(1):
                names[m.group(1)] = names.get(m.group(1), False) or "/specs/" in path
    return names


# the library's words whose lemmas keep the dash
LIBRARY = {"length", "nth"}


def new_name(name, definitions):
    if name in OTHERWISE:
        return OTHERWISE[name]
    parts = [snake(p) for p in name.split("-")]
    dash = parts[0] in LIBRARY and "_".join(parts[1:]) in definitions
    return parts[0] + ("-" if dash else "_") + "_".join(parts[1:]) if len(parts) > 1 else parts[0]


def renaming():
    names = declared()
    definitions = {"set"} | {snake(n) for n, spec in names.items() if spec and "-" not in n}
    turned = dict(LOCAL)
    for name in names:
        if MADE.search(name) and name not in OTHERWISE:
            continue
        new = new_name(name, definitions)
        if new != name:
            turned[name] = new
    return turned


def respell(text, turned):
    def word(m):
        w = m.group(0)
        if w in turned:
            return turned[w]
        prime = re.fullmatch(r"(.*?)('+)", w)
        if prime and prime.group(1) in turned:
            return turned[prime.group(1)] + prime.group(2)
        return snake(w)
    return re.sub(WORD, word, text)


def main():
    turned = renaming()
    if "--list" in sys.argv:
        for old, new in sorted(turned.items()):
            print(old, new)
        return
    paths = files("crates/*/specs/**/*.antt", "crates/*/proofs/**/*.antt", "crates/*/must-fail/*.edit")
    for path in paths:
        with open(path, encoding="utf-8") as f:
            text = f.read()
        new = respell(text, turned)
        if new != text:
            with open(path, "w", encoding="utf-8") as f:
                f.write(new)
    # in code only what proofs and clauses name: the names of Rust are in snake case already
    for path in files("crates/*/src/**/*.rt"):
        with open(path, encoding="utf-8") as f:
            text = f.read()
        new = respell(text, turned)
        if new != text:
            with open(path, "w", encoding="utf-8") as f:
                f.write(new)


if __name__ == "__main__":
    os.chdir(os.path.join(os.path.dirname(os.path.realpath(__file__)), ".."))
    main()
