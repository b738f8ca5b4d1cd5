#!/usr/bin/env python3
"""Prints what a check of a crate spent its time on, by parts and by functions, the greatest first.

Usage: tests/spent.py FOLDER [LINES]

FOLDER is what a check from nothing by one job keeps of its modules: crates/NAME/out/incremental after `rt check --jobs 1` in a
crate without out/. A module's file is written when it is done, so what lies between one file and the next is its time: wall time,
which holds on a quiet machine. A run that took up kept work shows only what it made anew.
"""
import collections
import os
import pathlib
import re
import sys

# What the modules beside a function are, by the last word of their names.
PARTS = {
    "Lts": "borrow checker",
    "Proof": "searches, and the proof put together",
    "Answers": "answers by hand",
    "Invariants": "answers by hand",
    "Tie": "calls of lower crates",
}
BESIDE = "Code Given Goals Key Kinds Layout Link Met Mir Named Reads Statement Symbol TheImpl TheLaws".split()


def part_and_function(name):
    """The part that a file belongs to, and its function or module."""
    words = re.sub(r"(\.decls)?\.oantt$", "", name).split("-", 2)
    path = words[-1].split(".")
    if path[0] != "proofs":
        return ("definitions and contracts" if path[0] == "specs" else "libraries"), ".".join(path)
    for at, word in enumerate(path[1:], 1):
        word = word.split("-")[0]
        if word in PARTS:
            return PARTS[word], ".".join(path[1:at])
        if word in BESIDE:
            return "what else is made of a function", ".".join(path[1:at])
    return "lemmas", ".".join(path[1:])


def main(folder, lines=30):
    files = [(it.stat().st_mtime, it.name) for it in pathlib.Path(folder).rglob("*.oantt")]
    files.sort()
    parts, functions = collections.Counter(), collections.Counter()
    for (before, _), (after, name) in zip(files, files[1:]):
        part, function = part_and_function(name)
        parts[part] += after - before
        functions[function] += after - before
    print(f"{sum(parts.values()):.0f} seconds in {len(files)} files of {os.path.basename(os.path.normpath(folder))}")
    for table in (parts.most_common(), functions.most_common(lines)):
        print()
        for name, seconds in table:
            print(f"{seconds:8.1f}  {name}")


if __name__ == "__main__":
    if not 2 <= len(sys.argv) <= 3:
        sys.exit(__doc__)
    main(sys.argv[1], *map(int, sys.argv[2:]))
