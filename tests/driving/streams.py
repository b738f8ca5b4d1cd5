"""Runs whose standard input or output fails on the way: what was read is answered, and --out has the log of what was run."""
import os
import resource
import signal
import subprocess
import tty

from driving.program import BUILT, PROGRAM, SITE, check, ran
from driving.samples import AB, FILES, HEAD, OLD, contents, insert, put, remove

AB_AND_C = HEAD + AB + insert(3, 1, 2, (2, 1), b"c")


def told(done):
    return done.stdout, done.stderr, done.returncode


def reader_that_fails(script):
    """A terminal's end that gives a script, and whose read fails then, since its other end is closed."""
    reading, writing = os.openpty()
    tty.setraw(writing)
    os.write(writing, script)
    os.close(writing)
    return reading


def readers_that_fail_late():
    """A read fails behind some bytes: the lines that were complete are answered, and what follows the last newline isn't run."""
    get = b'.t get 1.0 end\n'
    for script, lines, log in [
        (b".t insert 1.0 ab\n" + get + b".t insert end-1c c", b'=\n= "ab\\n"\n', FILES["ab"]),
        (b".t insert 1.0 ab\n" + get + b".t insert end-1c c\n", b'=\n= "ab\\n"\n=\n', AB_AND_C),
        (b".t insert 1.0 ab\n# " + b"x" * 2000, b"=\n", FILES["ab"]),
        (b".t insert 1.0 ab", b"", HEAD),
        (b"\n" * 1500 + b".t insert 1.0 ab\n", b"=\n", FILES["ab"]),
    ]:
        put("out", OLD)
        reading = reader_that_fails(script)
        done = subprocess.run([PROGRAM, "run", *SITE, "--out", "out"], stdin=reading, capture_output=True, timeout=120)
        os.close(reading)
        check(f"a read that fails behind {script[-20:]}", (told(done), contents("out")), ((lines, b"peertext: 40 ReadFault\n", 1), log))
    remove("out")


def closed_pipes():
    """Nobody reads the answers, from the first one on or from the second one on, whatever becomes of the signal of that: the line
    whose answer can't be written was run, and none behind it."""
    script = [b".t insert 1.0 ab\n", b".t insert end-1c c\n", b".t delete 1.0\n"]
    for is_default in (True, False):
        for read, log in ((0, FILES["ab"]), (1, AB_AND_C)):
            put("out", OLD)
            program = subprocess.Popen([BUILT, "run", *SITE, "--out", "out"], stdin=subprocess.PIPE, stdout=subprocess.PIPE, stderr=subprocess.PIPE, restore_signals=is_default)
            for line in script[:read]:
                program.stdin.write(line)
                program.stdin.flush()
                check("an answer before the pipe is closed", program.stdout.readline(), b"=\n")
            program.stdout.close()
            program.stdin.write(b"".join(script[read:]))
            program.stdin.close()
            error = program.stderr.read()
            program.stderr.close()
            got = error, program.wait(timeout=60), contents("out")
            check(f"a pipe that is closed behind {read} answers, the signal {'as it is' if is_default else 'ignored'}", got, (b"peertext: 41 WriteFault\n", 1, log))
    remove("out")


def at_most_60_bytes():
    signal.signal(signal.SIGXFSZ, signal.SIG_IGN)
    resource.setrlimit(resource.RLIMIT_FSIZE, (60, 60))


def full_outputs():
    """A file takes a front of an answer: then the run ends, and --out has the log; and a device without room, for either."""
    script = [".t insert 1.0 ab", *[".t get 1.0 end"] * 10, ".t insert end-1c c"]
    put("out", OLD)
    with open("lines", "wb") as lines:
        got = ran(script, *SITE, "--out", "out", capture_output=False, stdout=lines, stderr=subprocess.PIPE, preexec_fn=at_most_60_bytes)
    whole = b"=\n" + b'= "ab\\n"\n' * 10
    check("answers into a full disk", (got, contents("lines"), contents("out")), (([], "peertext: 41 WriteFault\n", 1), whole[:60], FILES["ab"]))
    with open("/dev/full", "wb") as full:
        got = ran(script[:1], *SITE, "--out", "out", capture_output=False, stdout=full, stderr=subprocess.PIPE)
    check("answers into a full device", (got, contents("out")), (([], "peertext: 41 WriteFault\n", 1), FILES["ab"]))
    check("--out into a full device", ran(script[:1], *SITE, "--out", "/dev/full"), (["="], "peertext: /dev/full: 41 WriteFault\n", 1))
    # the fault of the run comes first
    with open("/dev/full", "wb") as full:
        got = ran(script[:1], *SITE, "--out", "/dev/full", capture_output=False, stdout=full, stderr=subprocess.PIPE)
    check("both into a full device", got, ([], "peertext: 41 WriteFault\n", 1))
    remove("out", "lines")
