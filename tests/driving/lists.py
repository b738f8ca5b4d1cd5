"""Commands that take long lists of names or of ranges, within so much memory and so many seconds of the processor."""
import random
import resource
import subprocess

from driving.program import BUILT, SITE, check

MOST_MEMORY = 512 << 20
MOST_SECONDS = 20
NAMES = [f"n{i:05}" for i in range(20_000)]


def bounded():
    resource.setrlimit(resource.RLIMIT_AS, (MOST_MEMORY, MOST_MEMORY))
    resource.setrlimit(resource.RLIMIT_CPU, (MOST_SECONDS, MOST_SECONDS))


def long_lists():
    """A list of names is one state of tags, and no step on the way is kept; names and ranges are gone through once."""
    mixed = NAMES[:]
    random.Random(1).shuffle(mixed)
    names, mixed = " ".join(NAMES), " ".join(mixed)
    ranges = " ".join(f"1.{2 * i} 1.{2 * i + 1}" for i in range(len(NAMES)))
    for name, asks in [
        ("tags of an insert, deleted", [(f".t insert 1.0 a {{{mixed}}}", "="), (".t tag names 1.0", f"= {names}"),
         (f".t tag delete {mixed}", "="), (".t tag names", "= sel")]),
        ("marks, unset", [*((f".t mark set {mark} 1.0", "=") for mark in NAMES), (f".t mark unset {mixed}", "="), (".t mark names", "= current insert")]),
        ("ranges of a tag", [(f".t insert 1.0 {'ab' * len(NAMES)}", "="), (f".t tag add t {ranges}", "="), (".t tag ranges t", f"= {ranges}")]),
    ]:
        script = "".join(line + "\n" for line, _ in asks).encode()
        done = subprocess.run([BUILT, "run", *SITE], input=script, capture_output=True, timeout=300, preexec_fn=bounded)
        check(f"a long list: {name}", (done.stdout.decode().splitlines(), done.stderr, done.returncode), ([want for _, want in asks], b"", 0))
