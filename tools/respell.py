#!/usr/bin/env python3
"""Writes the repository's own definitions and lemmas in snake case, in specs/, proofs/, contracts and must-fail edits.

usage: respell.py [--check]      at the top of the repository

A name that a file takes from a library keeps its spelling there, and so does a dash between names of the
library's own functions, as in `sum-map-reverse`. With --check it only prints old and new names. It was run once,
on the older tree that the kit's port.py had turned, and is kept so that what it did can be seen again.
"""

import glob
import re
import sys

NAME = r"[^\s(){}\[\].;,:|\"«»@\\]+"
TOKEN = re.compile(r"--[^\n]*|\"(?:[^\"\\]|\\.)*\"|" + NAME)
SIGNATURE = re.compile(r"^\s*(?:(?:abbrev|pub|unfoldable)\s+)*(" + NAME + r")\s:(?=\s|$)")
IMPORT = re.compile(r"use ([\w.+-]+)\.\{([^}]*)\}")
# An outcome whose new name a constructor has already.
BY_HAND = {"noWalk": "no_walk_outcome"}
# Lemmas in snake case whose function's name falls on theirs: as every such lemma they end in `_lem`.
OF_LEMMAS = {
    "by_key": "crates/search/proofs/LinkEnds.antt",
    "bytes_good": "crates/sheet/proofs/FareTables.antt",
    "same_back": "crates/walk/proofs/CaseTests.antt",
    "same_entries": "crates/walk/proofs/CaseTests.antt",
}
OF_LISTS = set("length map reverse take drop set sum all append eqb ltb leb".split())


def read(path):
    with open(path, encoding="utf-8", newline="") as f:
        return f.read()


def crates():
    return sorted(it.split("/")[1] for it in glob.glob("crates/*/src"))


def files(ending):
    return sorted(
        it for it in glob.glob("crates/**/*" + ending, recursive=True) if "/out/" not in it
    )


def snake(name):
    if name in BY_HAND:
        return BY_HAND[name]
    if not re.fullmatch(r"[A-Za-z0-9'-]+", name) or name[0].isupper():
        return name
    parts = name.split("-")
    if len(parts) > 1 and all(it in OF_LISTS for it in parts):
        return name
    return "_".join(re.sub(r"(?<=[a-z0-9])([A-Z])", lambda m: "_" + m.group(1).lower(), it) for it in parts)


def declared():
    """The repository's own names that change: those that a signature, a field or a constructor declares."""
    found = set()
    for path in files(".antt"):
        if path.endswith("/Proof.antt"):
            continue
        for line in read(path).split("\n"):
            m = SIGNATURE.match(line)
            if m and not re.match(r"\s*(use|let|--|λ)", line):
                found.add(m.group(1))
    return {it: snake(it) for it in found if snake(it) != it}


def imports(text, own):
    """Names that a file takes from a library, and names that it takes from the repository."""
    theirs, ours = set(), set()
    for path, names in IMPORT.findall(text):
        to = ours if re.match(r"Rattle\.(%s)\." % "|".join(own), path + ".") else theirs
        to.update(it.strip().split(" as ")[0] for it in names.split(",") if it.strip())
    return theirs, ours


def respelled(path, text, names, own):
    theirs, _ = imports(text, own)

    def one(m):
        it = m.group(0)
        if OF_LEMMAS.get(it) == path:
            return it + "_lem"
        return names[it] if it in names and it not in theirs else it

    return TOKEN.sub(one, text)


def clashes(names):
    """Names of one file that would fall together, by the file and the new name."""
    said, own = [], crates()
    for path in files(".antt"):
        if path.endswith("/Proof.antt"):
            continue
        text = read(path)
        theirs, _ = imports(text, own)
        by = {}
        for it in set(TOKEN.findall(text)):
            if OF_LEMMAS.get(it) != path:
                by.setdefault(it if it in theirs else names.get(it, it), set()).add(it)
        said += [(path, new, sorted(olds)) for new, olds in sorted(by.items()) if len(olds) > 1]
    return said


def apart(names):
    """The names, where a lemma that falls on its function's name ends in `_lem`."""
    for _, _, olds in clashes(names):
        names |= {it: snake(it) + "_lem" for it in olds if "-" in it}
    return names


def main():
    names = apart(declared())
    for path, new, olds in clashes(names):
        print("clash:", path, new, *olds)
    if "--check" in sys.argv[1:]:
        for old, new in sorted(names.items()):
            print(old, new)
        return
    own = crates()
    for path in files(".antt") + files(".rt") + files(".edit"):
        text = read(path)
        use = names if not path.endswith(".rt") else {k: v for k, v in names.items() if "-" not in k}
        new = respelled(path, text, use, own)
        if new != text:
            with open(path, "w", encoding="utf-8", newline="") as f:
                f.write(new)
    print(len(names), "names respelled")


main()
