"""Each allocation failing in turn, by a small library that is loaded before the program's own allocator."""
import collections
import os
import re
import shutil
import subprocess
import tempfile

from driving.program import BUILT, ROOT, SITE, check
from driving.samples import AB, AB_LINE, FILES, HEAD, OLD, TAKE_B, Y, contents, put
from modelled.files import Insert, spelling
from modelled.sites import Site
from modelled.words import words_of

# how often each command was seen to be refused; `run` where a run ended
REFUSED = collections.Counter()


def command_of(line):
    """The command of a line, of marks and undo with the word behind it."""
    words = line.split()
    if not line.startswith("."):
        return words[0]
    return " ".join(words[1:3] if words[1] in ("edit", "mark", "tag") else words[1:2])


def refusals():
    """How many refusals were seen, and of how many commands."""
    return sum(REFUSED.values()), len(+REFUSED)


def failing_library(folder):
    """The library by which the allocation of a number fails, where there is a C compiler."""
    if shutil.which("cc") is None:
        return None
    shim = os.path.join(folder, "fail_alloc.so")
    made = subprocess.run(["cc", "-shared", "-fPIC", "-o", shim, os.path.join(ROOT, "tests", "fail_alloc.c"), "-ldl"], capture_output=True)
    return None if made.returncode else shim


def library_for(part, folder="."):
    """The same for a part of these tests, which says that it is left out where there is none."""
    shim = failing_library(folder)
    if shim is None:
        print(f"no C compiler, left out: {part}")
    return shim


def without_an_allocation(shim, number, *words, script=b""):
    done = subprocess.run([BUILT, *words], input=script, capture_output=True, timeout=120, env={**os.environ, "LD_PRELOAD": shim, "FAIL_ALLOC": str(number)})
    return done.stdout, done.stderr, done.returncode


def failing_allocations_of_files():
    """Each allocation fails in turn, those of the words of the command line too: a join is written whole, or OUT stays as it
    was; lines are shown, or none or a front of them; and the program says that memory was wanting."""
    shim = library_for("join and show with failing allocations")
    if shim is None:
        return
    want = AB_LINE + b"delete 3.1 prev 2 spans 1:2-2\n"
    for number in range(1, 300):
        with open("out", "wb") as file:
            file.write(OLD)
        out, err, status = without_an_allocation(shim, number, "join", "deleted", "y", "out")
        whole = (status, contents("out")) == (0, HEAD + AB + TAKE_B + Y)
        none = (status, contents("out")) == (1, OLD) and err == b"peertext: 1 NoMemory\n"
        check(f"join without allocation {number}: {status} {err}", out == b"" and (whole or none), True)
        REFUSED["join"] += none
        out, err, status = without_an_allocation(shim, number, "show", "deleted")
        none = (status, err) == (1, b"peertext: 1 NoMemory\n")
        check(f"show without allocation {number}: {status} {err}", (status, out) == (0, want) or (none and want.startswith(out)), True)
        REFUSED["show"] += none
    check("some allocations were refused", REFUSED["join"] + REFUSED["show"] > 10, True)
    check("the last of them is behind us", status, 0)


# where the records of the file `deleted` begin, and the text after so many of them
OFFSETS = (8, 44)
TEXTS = ('= "\\n"', '= "ab\\n"', '= "a\\n"')


def held_after(line, known):
    """How many records of `deleted` a site holds after this reply to `receive deleted`, of which it held some; none where
    there is no such reply."""
    if line == "! 1 NoMemory":
        return known
    if line == f"= {2 - known} {known}":
        return 2
    found = re.fullmatch(r"! 1 NoMemory at ([0-9]+) new ([0-9]+) repeat ([0-9]+)", line)
    if not found:
        return None
    at, new, repeats = map(int, found.groups())
    taken = new + repeats
    fits = taken < 2 and repeats == min(known, taken) and at == OFFSETS[taken]
    return max(known, taken) if fits else None


def failing_allocations_of_receive():
    """Each allocation fails in turn, those of the command line, the log and the files too: a file is received up to the record
    that found no memory, and the log at the end is that of what is held; or the run ends for want of memory, and --out has
    the log, or stays."""
    shim = library_for("receive with failing allocations")
    if shim is None:
        return
    asks = ["receive deleted", ".t get 1.0 end"] * 3
    script = "".join(line + "\n" for line in asks).encode()
    logs = (HEAD, FILES["ab"], FILES["deleted"])
    early = cut = number = quiet = 0
    while quiet < 30 and number < 40000:
        number += 1
        # in turn a new site, and one that begins with the first record
        begin = number % 2
        put("out", OLD)
        words = ("run", *SITE, *(("--log", "ab") if begin else ()), "--out", "out", "deleted")
        out, err, status = without_an_allocation(shim, (number + 1) // 2, *words, script=script)
        lines, known, good = out.decode().splitlines(), begin, True
        for ask, line in zip(asks, lines):
            REFUSED[command_of(ask)] += line.startswith("! 1 NoMemory")
            if ask.startswith("receive"):
                after = held_after(line, known)
                good &= after is not None
                cut += " at " in line
                known = known if after is None else after
            else:
                good &= line in ("! 1 NoMemory", TEXTS[known])
        left = contents("out")
        whole = len(lines) == len(asks) and (err, status, left) == (b"", 0, logs[known])
        ended = (err, status) == (b"peertext: 1 NoMemory\n", 1) and (left == OLD or left == logs[known])
        check(f"receive without allocation {number}: {lines} {err} {status}", good and (whole or ended), True)
        REFUSED["run"] += ended
        early += ended
        quiet = quiet + 1 if whole and not any("NoMemory" in line for line in lines) else 0
    check("some allocations ended the run", early > 0, True)
    check("some allocations were refused to an operation", cut > 0, True)
    check("the last of them is behind us", number < 40000, True)


def after_one(name, line, has_ab, y):
    """What a site has after this reply to `receive ab` or `receive y`: whether it has `ab`, and whether it knows nothing of `Y`,
    holds it, or took it; none where no such reply may come. What is held and could be taken stays held where it found no memory."""
    if line in ("! 1 NoMemory", "! 1 NoMemory at 8 new 0 repeat 0" + (" held 1" if y == "held" else "")):
        return has_ab, y
    if name == "ab":
        # a new `ab` has the held `Y` tried behind it; a repeat has none tried
        may = {"= 0 1 1" if y == "held" else "= 0 1": (True, y)} if has_ab else {"= 1 0 1" if y == "held" else "= 1 0": (True, y)}
        if y == "held" and not has_ab:
            may["= 2 0"] = (True, "taken")
    elif y == "taken":
        may = {"= 0 1": (has_ab, y)}
    elif has_ab:
        may = {"= 1 0": (True, "taken")}
    else:
        may = {"= 0 1 1" if y == "held" else "= 0 0 1": (False, "held")}
    return may.get(line)


def failing_allocations_of_held():
    """Each allocation fails in turn while an operation is held and tried: what finds no memory stays held, and is taken later.
    It has many tags, so that taking it asks for memory."""
    shim = library_for("held operations with failing allocations")
    if shim is None:
        return
    put("y", spelling([Insert(3, 2, 0, (1, 1), "Y", frozenset(f"tag {i}" for i in range(60)))]))
    asks = ["receive y", "receive ab", ".t get 1.0 end", "receive y", "receive ab", ".t get 1.0 end", "receive y", ".t get 1.0 end"]
    script = "".join(line + "\n" for line in asks).encode()
    texts = {(False, "none"): '= "\\n"', (False, "held"): '= "\\n"', (True, "none"): '= "ab\\n"', (True, "held"): '= "ab\\n"', (True, "taken"): '= "aYb\\n"'}
    left_held = late = number = quiet = 0
    while quiet < 30 and number < 40000:
        number += 1
        out, err, status = without_an_allocation(shim, number, "run", "--site", "3", "ab", "y", script=script)
        lines, known, good, kept = out.decode().splitlines(), (False, "none"), True, False
        for ask, line in zip(asks, lines):
            REFUSED[command_of(ask)] += line.startswith("! 1 NoMemory")
            if ask.startswith("receive"):
                after = after_one(ask.split()[1], line, *known)
                good &= after is not None
                kept |= after == (True, "held")
                late += kept and after == (True, "taken")
                known = known if after is None else after
            else:
                good &= line in ("! 1 NoMemory", texts[known])
        left_held += kept
        ended = (err, status) == (b"peertext: 1 NoMemory\n", 1)
        REFUSED["run"] += ended
        check(f"held without allocation {number}: {lines} {err} {status}", good and (ended or (len(lines) == len(asks) and status == 0)), True)
        quiet = quiet + 1 if not any("NoMemory" in line for line in lines) and not kept and not ended else 0
    check("some held operation found no memory and stayed", left_held > 0, True)
    check("and was taken later", late > 0, True)
    check("the last of the allocations is behind us", number < 40000, True)


UNDO_LINES = """.t configure -undo 1
.t insert 1.0 hello t
.t insert 1.2 "a\\nb" "u t"
.t mark set m 1.3
.t delete 1.1 1.3 2.0
.t replace 1.0 1.1 X
.t edit undo
.t edit canredo
.t edit undo
.t get 1.0 end
.t tag ranges t
.t edit modified 0
.t edit redo
.t edit redo
.t edit modified
.t get 1.0 end
.t edit undo
.t edit undo
.t edit undo
.t edit undo
.t get 1.0 end
.t edit redo
.t edit redo
.t edit separator
.t insert end !
.t edit undo
.t get 1.0 end
.t edit canundo
.t configure -maxundo 2
.t insert end a
.t edit separator
.t edit modified 0
.t insert end b
.t edit undo
.t edit modified
.t edit redo
.t delete 1.0
.t edit undo
.t edit undo
.t edit modified
.t edit redo
.t configure -maxundo 1
.t edit redo
.t edit undo
.t edit undo
.t edit modified
.t get 1.0 end
.t cget -maxundo
.t edit reset
.t edit undo
.t tag names
.t mark names
.t index m
.t dump 1.0 end""".splitlines()


def failing_allocations_of_undo():
    """Each allocation fails in turn: a line is answered as the plain model answers it, or `1 NoMemory`, and then it changed
    nothing: the lines behind it are answered by the model that hasn't met it, and the log is the model's."""
    shim = library_for("undo with failing allocations")
    if shim is None:
        return
    script = "".join(line + "\n" for line in UNDO_LINES).encode()
    number = quiet = 0
    refused = set()
    while quiet < 30 and number < 8000:
        number += 1
        put("out", OLD)
        out, err, status = without_an_allocation(shim, number, "run", *SITE, "--out", "out", script=script)
        lines, site, good = out.decode().splitlines(), Site(1), True
        for ask, line in zip(UNDO_LINES, lines):
            if line == "! 1 NoMemory":
                refused.add(command_of(ask))
                REFUSED[command_of(ask)] += 1
            else:
                good &= line == site.answer(words_of(ask)[1:])
        left, log = contents("out"), spelling(site.ops)
        whole = len(lines) == len(UNDO_LINES) and (err, status, left) == (b"", 0, log)
        ended = (err, status) == (b"peertext: 1 NoMemory\n", 1) and left in (OLD, log)
        check(f"undo without allocation {number}: {lines} {err} {status}", good and (whole or ended), True)
        REFUSED["run"] += ended
        quiet = quiet + 1 if whole and "! 1 NoMemory" not in lines else 0
    check("allocations were refused to undo and redo", {"insert", "delete", "replace", "edit undo", "edit redo"} <= refused, True)
    check("the last of them is behind us", number < 8000, True)


def failing_allocations():
    """Each allocation fails in turn: a line is answered as the text then is, or `1 NoMemory` and the text is as it was."""
    with tempfile.TemporaryDirectory() as folder:
        shim = library_for("lines with failing allocations", folder)
        if shim is None:
            return
        asks = [
            (".t insert 1.0 a t b u", lambda text: ("ab" + text, "=")),
            (".t get 1.0 end", lambda text: (text, f'= "{text}\\n"')),
            (".t insert 1.0 hello", lambda text: ("hello" + text, "=")),
            (".t get 1.0 end", lambda text: (text, f'= "{text}\\n"')),
            (".t insert 1.0 \"" + "a" * 3000 + '"', lambda text: ("a" * 3000 + text, "=")),
            (".t get 1.0 end", lambda text: (text, f'= "{text}\\n"')),
            (".t delete 1.1 1.3 1.2 {1.4}", lambda text: (text[:1] + text[4:], "=")),
            (".t get 1.0 1.1 1.1 1.2", lambda text: (text, " ".join(["=", *text[:2]]))),
            (".t count -chars -lines 1.0 end", lambda text: (text, f"= {len(text) + 1} 1")),
            (".t compare 1.0 < end", lambda text: (text, "= 1")),
            (".t get 1.0 end", lambda text: (text, f'= "{text}\\n"')),
            (".t index 1.end", lambda text: (text, f"= 1.{len(text)}")),
            (".t index {1.0 + 1 c + 1 c + 1 c + 1 c + 1 c}", lambda text: (text, "= 1.5" if len(text) >= 5 else "= 2.0")),
            (".t mark set m 1.1", lambda text: (text, "=")),
            (".t mark gravity insert", lambda text: (text, "= right")),
            (".t mark next end", lambda text: (text, "=")),
        ]
        script = "".join(line + "\n" for line, _ in asks)
        number, quiet, refused = 0, 0, 0
        while quiet < 30 and number < 4000:
            number += 1
            done = subprocess.run([BUILT, "run", "--site", "1"], input=script.encode(), capture_output=True, timeout=120,
                                  env={**os.environ, "LD_PRELOAD": shim, "FAIL_ALLOC": str(number)})
            lines = done.stdout.decode().splitlines()
            text, good = "", True
            for (ask, answer), line in zip(asks, lines):
                if line == "! 1 NoMemory":
                    refused += 1
                    REFUSED[command_of(ask)] += 1
                    continue
                text, want = answer(text)
                good &= line == want
            whole = len(lines) == len(asks) and done.returncode == 0
            early = len(lines) < len(asks) and (done.returncode, done.stderr) == (1, b"peertext: 1 NoMemory\n")
            check(f"allocation {number} fails: {lines}", good and (whole or early), True)
            REFUSED["run"] += early
            quiet = quiet + 1 if whole and "! 1 NoMemory" not in lines else 0
        check("some allocations were refused to a line", refused > 0, True)
        check("the last of them is behind us", number < 4000, True)
