#!/usr/bin/env python3
"""Random scripts, answered by the built program and by a plain model of the widget and of its peers: a list of characters
with their tags and stamps, a table of marks, the list of tags, and the undo stacks. Then sites, which edit by
scripts of their own and receive one another's files, late, repeated and cut; their model reads all operations of
a site again after each, and after each operation of an undo (docs/REPLICATION.md).

Usage: tests/model.py [PROGRAM [SCRIPTS [SEED [GROUPS]]]]; without a program it takes ./peertext, which builds it where it is
missing. SCRIPTS are those of one site, GROUPS the groups of two to four sites. The last line is 'N passed, M failed'.
"""
import os
import subprocess
import sys
import tempfile

from modelled.chance import Chance
from modelled.groups import Group
from modelled.peers import Peers
from modelled.words import spelled

ROOT = os.path.dirname(os.path.dirname(os.path.abspath(__file__)))
PROGRAM = os.path.abspath(sys.argv[1]) if len(sys.argv) > 1 else os.path.join(ROOT, "peertext")
SCRIPTS = int(sys.argv[2]) if len(sys.argv) > 2 else 300
SEED = int(sys.argv[3]) if len(sys.argv) > 3 else 20261122
GROUPS = int(sys.argv[4]) if len(sys.argv) > 4 else 40


def play_groups(chance):
    passed = failed = 0
    for group in range(GROUPS):
        with tempfile.TemporaryDirectory() as folder:
            # every other group has several widgets on its sites, of every three two have limits
            chance.has_limits = group % 3 > 0
            chance.is_undoing = group % 5 > 2
            good = Group(PROGRAM, chance, folder, chance.randrange(2, 5), group % 2 == 0).play()
        passed, failed = passed + good, failed + (not good)
        if not good:
            print(f"failed: group {group}")
    return passed, failed


def main():
    chance, passed, failed = Chance(SEED), 0, 0
    # the launcher may have to build the program first, and says so on standard error
    subprocess.run([PROGRAM, "--version"], capture_output=True, check=True)
    for number in range(SCRIPTS):
        site = Peers(1)
        # every other script has one widget alone, the others several; of every three two have limits
        line = chance.line if number % 2 else lambda: [".t", *chance.command()]
        chance.has_limits = number % 3 > 0
        # two of five are mostly of undo
        chance.is_undoing = number % 5 > 2
        lines = [[".t", *chance.begin()], *(line() for _ in range(chance.randrange(1, 80))), *chance.ending()]
        script = "".join(" ".join(map(spelled, words)) + "\n" for words in lines)
        wants = [site.reply_to(words) for words in lines]
        done = subprocess.run([PROGRAM, "run", "--site", "1"], input=script.encode(), capture_output=True, timeout=120)
        replies = done.stdout.decode().split("\n")[:-1]
        good = done.returncode == 0 and done.stderr == b"" and replies == wants
        passed, failed = passed + good, failed + (not good)
        if not good:
            at = next((i for i, (a, b) in enumerate(zip(replies, wants)) if a != b), len(replies))
            print(f"failed: script {number}, line {at + 1}")
            print("".join(script.splitlines(True)[:at + 1]), end="")
            print(f"  got  {replies[at] if at < len(replies) else None!r}\n  want {wants[at] if at < len(wants) else None!r}")
    whole, broken = play_groups(chance)
    passed, failed = passed + whole, failed + broken
    print(f"{passed} passed, {failed} failed")
    sys.exit(1 if failed else 0)


if __name__ == "__main__":
    main()
