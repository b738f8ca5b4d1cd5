#!/usr/bin/env python3
"""Drives the built program: whole scripts, long lines, hostile bytes, a program that asks and waits, statuses, files of
operations that are joined and shown, and those that a run reads and writes.

Usage: tests/drive.py [PROGRAM]; without a program it takes ./peertext, which builds it where it is missing.
The last lines are 'N refusals of M commands', of the failing allocations that were seen, and 'N passed, M failed'.
"""
import os
import random
import subprocess
import sys

from driving.joins import joins, many_operations, outs_that_fail, outs_with_modes, shows
from driving.lists import long_lists
from driving.memory import failing_allocations, failing_allocations_of_files, failing_allocations_of_held, failing_allocations_of_receive, failing_allocations_of_undo, refusals
from driving.program import CHECKED, PROGRAM, called, check, run
from driving.runs import early_logs, exchanges, faults_before_the_script, logs_of_runs, outs_after_faults, outs_of_runs, received
from driving.samples import with_files
from driving.streams import closed_pipes, full_outputs, readers_that_fail_late
from driving.versions import damaged, joins_of_versions, many_tags, receives_of_versions, shows_of_versions, sites


def answered(script):
    """How many lines of a script are answered, by the rules of docs/SCRIPTS.md."""
    *complete, rest = script.split(b"\n")
    lines = [line[:-1] if line.endswith(b"\r") else line for line in complete] + ([rest] if rest else [])
    count = 0
    for line in lines:
        try:
            line.decode("utf-8")
            readable = len(line) <= 1048576
        except UnicodeDecodeError:
            readable = False
        silent = line.startswith(b"#") or not line.strip(b" \t")
        count += not (readable and silent)
    return count


def whole_scripts():
    for name, script, want in [
        ("hello", b".t insert 1.0 hello\n.t get 1.0 end\n", b'=\n= "hello\\n"\n'),
        ("no last newline", b".t index end", b"= 2.0\n"),
        ("nothing", b"", b""),
        ("a line too long, and the next", b"a" * 1048577 + b"\n.t index end\n", b"! 19 BadQuoting\n= 2.0\n"),
        ("quoted and braced words", b'.t insert 1.0 {a "b" {c}}\n.t insert end "\\n\\t\\\\"\n.t get 1.0 end\n.t insert 1.0 "a"b\n',
         b'=\n=\n= "a \\"b\\" {c}\\n\\t\\\\\\n"\n! 19 BadQuoting\n'),
        ("deletion", b'.t insert 1.0 "a\\nbc"\n.t delete 2.0 2.1 2.1 end\n.t get 1.0 end\n', b'=\n=\n= "a\\n"\n'),
        ("a bound on undo", b".t configure -undo 1 -maxundo 1\n.t insert 1.0 a\n.t delete 1.0\n.t edit undo\n.t get 1.0 end\n.t edit undo\n.t edit modified\n",
         b'=\n=\n=\n=\n= "a\\n"\n! 12 NothingToUndo\n= 1\n'),
        ("the longest line", b"a" * 1048576 + b"\n", b"! 5 NoWidget\n"),
        ("the longest line and a return", b"a" * 1048576 + b"\r\n", b"! 5 NoWidget\n"),
    ]:
        check(name, run(script), (want, b"", 0))


def bounds_on_undo():
    """What `-maxundo` may be, and what `cget` tells of it."""
    most = str(2**63 - 1)
    for word, told in [("3", "3"), ("007", "7"), ("0", "0"), ("-0", "0"), ("-5", "0"), ("-" + "9" * 99, "0"), (most, most), (str(2**63), most), ("9" * 5000, most)]:
        check(f"-maxundo {word}", run(f".t configure -maxundo {word}\n.t cget -maxundo\n".encode()), (f"=\n= {told}\n".encode(), b"", 0))
    for word in ["x", "-", '""', "+1", "--1", "1-", "1.0", "0x1", '" 1"', "\u0663", "true"]:
        check(f"-maxundo {word}", run(f".t configure -maxundo 2\n.t configure -undo 1 -maxundo {word}\n.t cget -maxundo\n.t cget -undo\n".encode()),
              (b"=\n! 9 BadOption\n= 2\n= 0\n", b"", 0))


def hostile_bytes():
    chance = random.Random(20261122)
    alphabet = b".t insert get index end 1.0\n\n\r\t\"{}\\#\x00\x80\xff\xc3\xa9"
    for turn in range(40):
        raw = bytes(chance.randrange(256) for _ in range(4096))
        near = bytes(chance.choice(alphabet) for _ in range(4096))
        for name, script in [("random", raw), ("hostile", near)]:
            out, err, status = run(script)
            check(f"{name} {turn}", (out.count(b"\n"), err, status), (answered(script), b"", 0))


def asks_and_waits():
    program = subprocess.Popen([PROGRAM, "run", "--site", "1"], stdin=subprocess.PIPE, stdout=subprocess.PIPE)
    for ask, want in [
        (b".t index end\n", b"= 2.0\n"),
        (b".t insert 1.0 a\n# no reply\n", b"=\n"),
        (b".t get 1.0 end\n", b'= "a\\n"\n'),
    ]:
        program.stdin.write(ask)
        program.stdin.flush()
        check("the answer while the pipe is open", os.read(program.stdout.fileno(), 4096), want)
    program.stdin.close()
    check("its status", program.wait(timeout=10), 0)


def statuses():
    for words in [(), ("frob",), ("run",), ("run", "--site"), ("run", "--site", "0"), ("run", "--site", "4294967296"), ("run", "--site", "18446744073709551616"), ("run", "--site", "-1"), ("run", "--site", ""), ("run", "--site", "x"),
                  ("run", "--site", "1", "--site", "2"), ("run", "--site", "1", "--frob"), ("run", "--log", "a", "b"), ("run", "--site", "1", "--log"), ("run", "--site", "1", "--out"),
                  ("run", "--site", "1", "--log", "a", "--log", "a"), ("run", "--site", "1", "--out=a", "b", "--out", "a"), ("run", "--site", "1", "-f"), ("join", "--out", "a", "b", "c"), ("join",), ("join", "a", "b"), ("join", "a", "b", "c", "d"), ("show",), ("show", "a", "b"), ("show", "--frob")]:
        done = subprocess.run([PROGRAM, *words], input=b"", capture_output=True, timeout=120)
        check(f"{words}", (done.stdout, bool(done.stderr), done.returncode), (b"", True, 2))
    for words in [("--help",), ("--version",), ("run", "--help"), ("join", "--help"), ("show", "--help")]:
        done = subprocess.run([PROGRAM, *words], input=b"", capture_output=True, timeout=120)
        check(f"{words}", (bool(done.stdout), done.stderr, done.returncode), (True, b"", 0))
    check("a word that is no text", called("show", b"\xff"), (b"", b"peertext: a word of the command line is no text\n", 2))
    with open("/dev/full", "wb") as full:
        done = subprocess.run([PROGRAM, "run", "--site", "1"], input=b".t index end\n", stdout=full, stderr=subprocess.PIPE, timeout=120)
    check("a full disk", (done.stderr, done.returncode), (b"peertext: 41 WriteFault\n", 1))
    with open("/proc/self/mem", "rb") as unreadable:
        done = subprocess.run([PROGRAM, "run", "--site", "1"], stdin=unreadable, capture_output=True, timeout=120)
    check("a reader that fails", (done.stdout, done.stderr, done.returncode), (b"", b"peertext: 40 ReadFault\n", 1))


def many_marks():
    """A thousand marks in ten thousand characters, and a hundred in one gap: one insertion moves those at its place or behind it."""
    lines = [".t insert 1.0 " + "x" * 10000]
    lines += [f".t mark set m{i} 1.{10 * i}" for i in range(1000)]
    lines += [line for i in range(100) for line in (f".t mark set g{i} 1.5000", f".t mark gravity g{i} " + ("left" if i % 2 else "right"))]
    lines += [".t insert 1.5000 abc"]
    asks = [f".t index m{i}" for i in range(1000)] + [f".t index g{i}" for i in range(100)]
    wants = [f"= 1.{10 * i + (3 if i >= 500 else 0)}" for i in range(1000)] + ["= 1.5000" if i % 2 else "= 1.5003" for i in range(100)]
    out, err, status = run("".join(line + "\n" for line in lines + asks).encode())
    check("many marks", (out.decode().splitlines(), err, status), (["="] * len(lines) + wants, b"", 0))


PARTS = (whole_scripts, bounds_on_undo, hostile_bytes, asks_and_waits, statuses, failing_allocations, many_marks, long_lists)
IN_FILES = (joins, outs_that_fail, outs_with_modes, shows, many_operations, outs_of_runs, logs_of_runs, early_logs, received,
            joins_of_versions, shows_of_versions, sites, many_tags, receives_of_versions, damaged, exchanges, faults_before_the_script, outs_after_faults, readers_that_fail_late, closed_pipes, full_outputs, failing_allocations_of_files, failing_allocations_of_receive, failing_allocations_of_held,
            failing_allocations_of_undo)

for part in PARTS:
    part()
for part in IN_FILES:
    with_files(part)
print("{} refusals of {} commands".format(*refusals()))
print("{} passed, {} failed".format(*CHECKED))
sys.exit(1 if CHECKED[1] else 0)
