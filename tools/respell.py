#!/usr/bin/env python3
"""Bring this repository's own definitions and lemmas to the spelling of today's Rattle.

    python3 tools/respell.py          at the top, once, right after the kit's port.py

Words go in snake case, types and modules in camel case. A part of a name between dashes is a name of its own, so
`goodHead-is` becomes `good_head-is`. Names of src/, exported names, strings and the programs' inputs and outputs stay.
Two names that would fall together are parted first: a lemma that would have its function's name gets `_lem`.
"""
import glob
import re

# A lower-case word with a capital inside it, as a whole part of a name.
PART = re.compile(r"(?<![A-Za-z0-9_])[a-z][a-z0-9_]*(?:[A-Z][A-Za-z0-9_]*)+(?![A-Za-z0-9_])")

# Lemmas whose name is that of a function once its words are parted: file -> names.
LEMMAS = {
    "crates/bare/proofs/": ["word_read"],
    "crates/packet/proofs/Answers.antt": ["received_as"],
    "crates/structure/proofs/Runs.antt": ["goes_on"],
}

# Words that are no camel case, or that stand for a name of the library's.
FIXED = {"b3F": "b3f", "bC7": "bc7", "bF8": "bf8", "getD": "get_or"}

# Names of the kit that keep their capital behind a dash or a line.
def snake(word):
    if word in FIXED:
        return FIXED[word]
    return re.sub(r"(?<=[a-z0-9])[A-Z]+", lambda m: "_" + m.group(0).lower(), word)


def parted(path, text):
    for place, names in LEMMAS.items():
        if path.startswith(place):
            for name in names:
                text = re.sub(r"(?<![\w.-])" + name + r"(?![\w-])", name + "_lem", text)
    return text


def respelled(text):
    return PART.sub(lambda m: snake(m.group(0)), text)


def code(text):
    """All of a .rt file but its strings."""
    pieces = re.split(r'("(?:[^"\\]|\\.)*")', text)
    return "".join(piece if k % 2 else respelled(piece) for k, piece in enumerate(pieces))


def main():
    for path in sorted(glob.glob("crates/**/*", recursive=True)):
        if "/out/" in path or not path.endswith((".antt", ".rt", ".edit")):
            continue
        old = open(path).read()
        new = parted(path, old)
        new = code(new) if path.endswith(".rt") else respelled(new)
        if new != old:
            open(path, "w").write(new)


if __name__ == "__main__":
    main()
