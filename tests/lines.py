#!/usr/bin/env python3
"""Prints the table of docs/BUILDING.md: the lines of each crate that are neither blank nor comments, and its edits, in the gate and by hand.

Usage: tests/lines.py
"""
import pathlib

ROOT = pathlib.Path(__file__).resolve().parent.parent
MARKS = {".rt": "//", ".antt": "--"}


def lines(folder):
    count = 0
    for path in folder.rglob("*"):
        if path.suffix in MARKS:
            kept = (line.strip() for line in path.read_text(encoding="utf-8").splitlines())
            count += sum(1 for line in kept if line and not line.startswith(MARKS[path.suffix]))
    return count


print("| Crate | Code, contracts, tests | Definitions | Proofs | Edits | By hand |")
print("|---|---|---|---|---|---|")
for line in (ROOT / "crates.txt").read_text(encoding="utf-8").splitlines():
    name = line.split(":")[0].split()[0]
    crate = ROOT / "crates" / name
    counts = [lines(crate / part) for part in ("src", "specs", "proofs")]
    edits = [len(list((crate / part).glob("*.edit"))) for part in ("must-fail", "by-hand")]
    print(f"| {name} | {' | '.join(f'{count:,}' for count in (*counts, *edits))} |")
