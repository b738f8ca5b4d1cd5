#!/usr/bin/env python3
"""Tries wrong bodies that the gate doesn't: the edits of crates/NAME/by-hand, which the prover must refuse too.

Usage: tests/edits.py [CRATE ..]     (all crates that have such edits, where none is named)

The gate tries crates/NAME/must-fail, a telling edit for each part of a crate's surface. Those of by-hand have the same
form, and are tried here after a crate has changed, by `rt must-fail` over the libraries that earlier checks built. A
crate's first edit costs a check of the whole crate, each further one 10 to 50 seconds.
"""
import pathlib
import shutil
import subprocess
import sys
import tempfile

ROOT = pathlib.Path(__file__).resolve().parent.parent
PARTS = ("src", "specs", "proofs", "out")


def crates_with_edits(names):
    """The crates that have edits to be tried by hand, of those that are named, or of all."""
    crates = sorted(folder.parent.name for folder in (ROOT / "crates").glob("*/by-hand"))
    for name in names:
        if name not in crates:
            sys.exit(f"{name} has no edits in crates/{name}/by-hand")
    return [crate for crate in crates if not names or crate in names]


def lay_out(room):
    """A repository whose crates are those of this one, but that each one's edits are those of by-hand."""
    for file in ("crates.txt", "HANDLES"):
        shutil.copy(ROOT / file, room / file)
    for crate in (ROOT / "crates").iterdir():
        copy = room / "crates" / crate.name
        copy.mkdir(parents=True)
        (crate / "out").mkdir(exist_ok=True)
        for part in PARTS:
            if (crate / part).is_dir():
                (copy / part).symlink_to(crate / part)
        if (crate / "by-hand").is_dir():
            (copy / "must-fail").symlink_to(crate / "by-hand")


def main(names):
    crates = crates_with_edits(names)
    with tempfile.TemporaryDirectory(prefix="peertext-edits-") as folder:
        room = pathlib.Path(folder)
        lay_out(room)
        return subprocess.run(["rt", "must-fail", *crates], cwd=room, check=False).returncode


if __name__ == "__main__":
    sys.exit(main(sys.argv[1:]))
