"""The program that is driven, calls of it, and checks of what they gave."""
import os
import subprocess
import sys

ROOT = os.path.dirname(os.path.dirname(os.path.dirname(os.path.abspath(__file__))))
PROGRAM = os.path.abspath(sys.argv[1]) if len(sys.argv) > 1 else os.path.join(ROOT, "peertext")
# the launcher's own process is not to lose an allocation
BUILT = PROGRAM if len(sys.argv) > 1 else os.path.join(ROOT, "crates", "peertext", "out", "peertext")
# the words for the site that most runs are
SITE = ("--site", "1")
# how many checks passed, and how many failed
CHECKED = [0, 0]


def check(name, got, want):
    CHECKED[got != want] += 1
    if got != want:
        print(f"failed: {name}\n  got  {got!r:.300}\n  want {want!r:.300}")


def run(script, *words):
    done = subprocess.run([PROGRAM, *(words or ("run", "--site", "1"))], input=script, capture_output=True, timeout=120)
    return done.stdout, done.stderr, done.returncode


def called(*words, **how):
    done = subprocess.run([PROGRAM, *words], stdin=subprocess.DEVNULL, capture_output=True, timeout=120, **how)
    return done.stdout, done.stderr, done.returncode


def ran(script, *words, **how):
    """A run of lines within a folder of files: its reply lines, its error line and its status."""
    done = subprocess.run([PROGRAM, "run", *words], input="".join(line + "\n" for line in script).encode(), timeout=300, **{"capture_output": True, **how})
    return (done.stdout or b"").decode().splitlines(), (done.stderr or b"").decode(), done.returncode


def refused(name, fault):
    return [], f"peertext: {name}: {fault}\n" if name else f"peertext: {fault}\n", 1
