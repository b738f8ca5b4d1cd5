#!/usr/bin/env python3
"""Tests the note tool of examples/tk under a virtual screen: tests/tk.py ARCHIVE [KEYS [SEED]].

ARCHIVE is the library, as tests/library/build.py makes it. The package is built against it, and widgets follow lines at
random. Then two windows are typed into, and their picture is written to docs/notes.png; and an hour's typing of KEYS
keystrokes is replayed in three windows, whose files come cut, late and repeated. The last line is 'N passed, M
failed'."""
import pathlib
import sys
import tempfile

HERE = pathlib.Path(__file__).resolve().parent
sys.path[:0] = [str(HERE / "tk"), str(HERE)]
WORDS = sys.argv[1:]
# the module that is shared with drive.py takes a program from the command line
sys.argv[1:] = []

import notes
from driving.program import CHECKED
from packaged import lines, packages
from replayed import replay
from typed import faults_of_files, two_windows


def main():
    if not 1 <= len(WORDS) <= 3:
        sys.exit(__doc__)
    notes.check_wanted()
    numbers = [int(word) for word in WORDS[1:]]
    keys, seed = numbers + [18_000, 20261130][len(numbers):]
    with tempfile.TemporaryDirectory() as name:
        folder = pathlib.Path(name)
        loaded = packages(pathlib.Path(WORDS[0]).resolve(), folder)
        lines(loaded, range(seed, seed + 4), 2_000)
        two_windows(loaded, folder, notes.ROOT / "docs/notes.png")
        faults_of_files(loaded, folder)
        replay(loaded, folder, keys, seed)
    print("{} passed, {} failed".format(*CHECKED))
    sys.exit(1 if CHECKED[1] else 0)


if __name__ == "__main__":
    main()
