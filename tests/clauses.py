#!/usr/bin/env python3
"""Compares the clauses of two trees: tests/clauses.py BEFORE AFTER [NAMES].

BEFORE and AFTER are checkouts. Each line of NAMES is CRATE OLD NEW: in the files of a crate of BEFORE (* is every crate) the word
OLD is read as NEW. Printed are the clauses of BEFORE, by function, that no function of that name has in AFTER (-), and
those that are new there (+). Layout doesn't count, nor in which file or crate a function stands. Nothing printed: every
function has the clauses that it had."""
import collections
import glob
import os
import re
import sys


def clauses(root, names):
    found = collections.Counter()
    for path in sorted(glob.glob(os.path.join(root, "crates/*/src/**/*.rt"), recursive=True)):
        crate = os.path.relpath(path, root).split(os.sep)[1]
        text = open(path, encoding="utf-8").read()
        text = re.sub(r"^\s*//.*$", "", text, flags=re.M)
        for old, new in names.get("*", []) + names.get(crate, []):
            text = re.sub(rf"\b{re.escape(old)}\b", new, text)
        function = None
        at = 0
        token = re.compile(r"\bfn (\w+)|\b(requires|ensures)\b(?: (\w+))? \{")
        while match := token.search(text, at):
            at = match.end()
            if match.group(1):
                function = match.group(1)
                continue
            depth = 1
            end = at
            quoted = False
            while depth and end < len(text):
                quoted ^= text[end] == '"'
                depth += 0 if quoted else {"{": 1, "}": -1}.get(text[end], 0)
                end += 1
            body = re.sub(r"\s+", " ", text[at:end - 1]).strip()
            found[(function, match.group(2), match.group(3) or "", body)] += 1
            at = end
    return found


def main():
    names = collections.defaultdict(list)
    if len(sys.argv) > 3:
        for line in open(sys.argv[3], encoding="utf-8"):
            if line.strip():
                crate, old, new = line.split()
                names[crate].append((old, new))
    before = clauses(sys.argv[1], names)
    after = clauses(sys.argv[2], {})
    for sign, more in (("-", before - after), ("+", after - before)):
        for (function, kind, name, body), number in sorted(more.items()):
            print(sign, function, kind, name, "{", body, "}", "" if number == 1 else f"({number} times)")
    print(f"{sum(before.values())} clauses before, {sum(after.values())} after")


if __name__ == "__main__":
    main()
