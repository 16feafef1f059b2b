#!/usr/bin/env python3
"""Say which must-fail edits do not fit: those whose `old:` text does not stand exactly once in the file as it is today.

    python3 tools/edits_fit.py        at the top; ends with 1 where an edit does not fit

It reads an edit as `rt must-fail` does, and looks at the edits in must-fail-more/ too, which the gate does not try.
"""
import glob
import os
import sys


def misfit(edit):
    """Why the edit cannot be applied, or nothing."""
    crate = os.path.dirname(os.path.dirname(edit))
    path, old, pairs, texts, was = "", None, 0, {}, {}
    for line in open(edit, encoding="utf-8").read().split("\n"):
        if line.startswith("file: "):
            path = line[len("file: "):].strip()
        elif line.startswith("old: "):
            old = line[len("old: "):]
        elif line.startswith("new:"):
            new = line[len("new:"):]
            new = new[1:] if new.startswith(" ") else new
            if not path or not old:
                return "a 'new:' line stands before any 'file:' or 'old:' line"
            if path not in texts:
                if not os.path.isfile(f"{crate}/{path}"):
                    return f"there is no file {path}"
                texts[path] = was[path] = open(f"{crate}/{path}", encoding="utf-8").read()
            found = texts[path].count(old)
            if found != 1:
                return f"an 'old:' text is in {path} {found} times: {old.strip()}"
            texts[path] = texts[path].replace(old, new)
            old, pairs = None, pairs + 1
        elif line.strip() and not line.startswith(("#", "--", "//")):
            return f"a line is not read: {line.strip()}"
    if not pairs:
        return "it has no 'old:' and 'new:' pair"
    return "it changes nothing" if texts == was else ""


def main():
    edits = sorted(glob.glob("crates/*/must-fail*/*.edit"))
    found = [(edit, misfit(edit)) for edit in edits]
    for edit, why in found:
        if why:
            print(f"{edit}: {why}")
    bad = sum(bool(why) for _, why in found)
    print(f"{len(edits)} edits, {bad} do not fit")
    return 1 if bad else 0


if __name__ == "__main__":
    sys.exit(main())
