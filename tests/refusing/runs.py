"""Runs of the program in which one allocation is refused, by the library of fail_alloc.c."""
import collections
import os
import subprocess
import sys

from driving.memory import failing_library
from driving.program import BUILT
from driving.samples import OLD, contents, put

# what a run left: its reply lines, its error line, its status, the file of --out, and of each count of allocations how many there were
# and whether one was refused
Left = collections.namedtuple("Left", "lines error status out counts")
NO_MEMORY, ENDED = "! 1 NoMemory", "peertext: 1 NoMemory\n"


class Library:
    """The library, in a folder. Runs are within the folder, and OUT holds old bytes before each."""

    def __init__(self, folder):
        self.path = failing_library(folder) or sys.exit("no C compiler: nothing was tried")

    def run(self, *words, script=b"", at_start=None):
        """A run of the program of which the allocation of a number is refused, counted from its start up to its first line; others are
        refused as the script says."""
        put("out", OLD)
        reading, writing = os.pipe()
        wanted = {} if at_start is None else {"FAIL_ALLOC": str(at_start)}
        done = subprocess.run([BUILT, *words], input=script, capture_output=True, timeout=120, pass_fds=(writing,),
                              env={**os.environ, "LD_PRELOAD": self.path, "FAIL_REPORT": str(writing), **wanted})
        os.close(writing)
        with os.fdopen(reading, "rb") as file:
            counts = [tuple(map(int, line.split())) for line in file]
        return Left(done.stdout.decode().split("\n")[:-1], done.stderr.decode(), done.returncode, contents("out"), counts)


def each_refusal(run):
    """What each run leaves of which one allocation is refused, the first one, the second, and so on up to the last, and then what
    one leaves of which none is; with the number."""
    number = 0
    while True:
        number += 1
        left = run(number)
        was_refused = any(refused for _, refused in left.counts)
        yield number if was_refused else None, left
        if not was_refused:
            return


def script_of(lines):
    return "".join(line + "\n" for line in lines).encode()
