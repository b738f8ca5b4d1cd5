#!/usr/bin/env python3
"""Prints what a gate spent its processor time on: proofs, must-fail edits, tests and the rest, by crate.

Usage: tests/shares.py PID

PID is the process of `.ci/run` or of `rt ci`. Start it with the gate, on a machine where nothing else runs; it ends when the gate does.
It looks once a second at all processes below the gate. What one spends after the last look isn't seen, nor one that ends between two
looks. All that the gate waited for is printed beside. Tests are what the prover spends on rt_tests and rt_tests_script: their own runs are
among the rest.
"""
import collections
import os
import re
import sys
import time

TICKS_A_MINUTE = os.sysconf("SC_CLK_TCK") * 60


def stat(pid):
    """What the system tells of a process: its state, its parent, its own processor time, that of children it waited for, in ticks, and when
    it began; none where it is gone."""
    try:
        with open(f"/proc/{pid}/stat", encoding="utf-8", errors="replace") as file:
            words = file.read().rpartition(")")[2].split()
    except OSError:
        return None
    return words[0], int(words[1]), int(words[11]) + int(words[12]), int(words[13]) + int(words[14]), words[19]


def label(pid):
    """The crate and the part of the gate that a process belongs to; none of Python, whose time is only in what the gate waited for."""
    try:
        with open(f"/proc/{pid}/cmdline", encoding="utf-8", errors="replace") as file:
            words = file.read().split("\0")
        cwd = os.readlink(f"/proc/{pid}/cwd")
    except OSError:
        return None
    name = os.path.basename(words[0])
    if name.startswith("python"):
        return None
    if name == "rattle" and "--crate-name" in words:
        crate = words[words.index("--crate-name") + 1]
        if "/rt-edit-" in cwd:
            return crate, "edits"
        return crate, "tests" if crate.startswith("rt_tests") else "proofs"
    of = re.search(r"/crates/(\w+)", cwd)
    return of[1] if of else "-", "the rest"


def family(top):
    """All processes below one, itself among them."""
    children = {}
    for name in os.listdir("/proc"):
        found = stat(name) if name.isdigit() else None
        if found:
            children.setdefault(found[1], []).append(int(name))
    below = [top]
    for pid in below:
        below.extend(children.get(pid, []))
    return below


def main():
    if len(sys.argv) != 2:
        sys.exit(__doc__)
    top = int(sys.argv[1])
    begun = time.monotonic()
    # by process and when it began, as numbers of processes come again
    spent, labels = {}, {}
    waited = 0
    while True:
        found = stat(top)
        if not found:
            break
        waited = found[2] + found[3]
        if found[0] == "Z":
            break
        for pid in family(top):
            now, which = stat(pid), label(pid)
            if now and which:
                spent[pid, now[4]], labels[pid, now[4]] = now[2], which
        time.sleep(1)
    parts, crates = collections.Counter(), collections.Counter()
    for process, ticks in spent.items():
        crate, part = labels[process]
        parts[part] += ticks
        crates[crate, part] += ticks
    print(f"minutes by the clock: {(time.monotonic() - begun) / 60:.1f}")
    print(f"processor minutes seen: {sum(parts.values()) / TICKS_A_MINUTE:.1f}; those that the gate waited for: {waited / TICKS_A_MINUTE:.1f}")
    for part, ticks in parts.most_common():
        print(f"  {part:10} {ticks / TICKS_A_MINUTE:7.1f}")
    for (crate, part), ticks in sorted(crates.items()):
        print(f"{crate:18} {part:10} {ticks * 60 / TICKS_A_MINUTE:7.0f} s")


if __name__ == "__main__":
    main()
