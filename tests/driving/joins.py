"""Joins and shows: clashes, damaged and missing files, and an OUT that is protected, linked, or can't be written."""
import contextlib
import os
import resource
import shutil
import signal
import stat
import subprocess

from driving.program import BUILT, PROGRAM, called, check
from driving.samples import AB, AB_LINE, FILES, HEAD, OLD, TAG_A, Y, contents, insert


def joins():
    names = sorted(os.listdir("."))
    for a, b, want in [
        ("none", "none", HEAD), ("ab", "none", FILES["ab"]), ("ab", "ab", FILES["ab"]), ("ab", "deleted", FILES["deleted"]),
        ("ab", "y", HEAD + AB + Y), ("y", "ab", HEAD + AB + Y), ("tagged", "y", HEAD + AB + TAG_A + Y), ("final", "final", FILES["final"]),
    ]:
        for old in (None, OLD):
            if old is not None:
                with open("out", "wb") as file:
                    file.write(old)
            check(f"join {a} {b}", (called("join", a, b, "out"), contents("out")), ((b"", b"", 0), want))
            os.remove("out")
            check(f"files after join {a} {b}", sorted(os.listdir(".")), names)
    # the same file as A, B and OUT
    with open("same", "wb") as file:
        file.write(FILES["ab"])
    check("join of a file with another into itself", (called("join", "same", "y", "same"), contents("same")), ((b"", b"", 0), HEAD + AB + Y))
    os.remove("same")
    for a, b, line in [
        ("b", "ab", b"35 Conflict"), ("deleted", "tagged", b"35 Conflict"),
        ("clash", "ab", b"clash: 35 Conflict at 44"), ("ab", "clash", b"clash: 35 Conflict at 44"),
        ("unsound", "ab", b"unsound: 34 BadStamp at 8"), ("ab", "unsound", b"unsound: 34 BadStamp at 8"),
        ("cut", "ab", b"cut: 32 Truncated at 44"), ("ab", "cut", b"cut: 32 Truncated at 44"), ("short", "ab", b"short: 33 BadRecord at 8"),
        ("empty", "ab", b"empty: 32 Truncated at 0"), ("version", "ab", b"version: 31 BadVersion at 0"), ("magic", "ab", b"magic: 30 BadMagic at 0"),
        ("missing", "ab", b"missing: 40 ReadFault"), ("ab", "missing", b"missing: 40 ReadFault"),
        ("folder", "ab", b"folder: 40 ReadFault"), ("ab", "folder", b"folder: 40 ReadFault"),
        # the first file's fault, whatever the second is
        ("unsound", "cut", b"unsound: 34 BadStamp at 8"), ("cut", "missing", b"cut: 32 Truncated at 44"), ("missing", "cut", b"missing: 40 ReadFault"),
    ]:
        for old in (None, OLD):
            if old is not None:
                with open("out", "wb") as file:
                    file.write(old)
            check(f"join {a} {b}", (called("join", a, b, "out"), contents("out")), ((b"", b"peertext: " + line + b"\n", 1), old))
        os.remove("out")
        check(f"files after join {a} {b}", sorted(os.listdir(".")), names)


def outs_that_fail():
    names = sorted(os.listdir("."))
    for out in ["folder", "none/out", "missing/out", "", "a" * 300]:
        check(f"join into {out!r:.20}", called("join", "ab", "y", out), (b"", b"peertext: " + out.encode() + b": 41 WriteFault\n", 1))
    check("files after joins that were not written", sorted(os.listdir(".")), names)
    with open("out", "wb") as file:
        file.write(OLD)
    # a disk with no room: no file may grow past 60 bytes
    def small():
        signal.signal(signal.SIGXFSZ, signal.SIG_IGN)
        resource.setrlimit(resource.RLIMIT_FSIZE, (60, 60))

    check("join into a full disk", (called("join", "ab", "y", "out", preexec_fn=small), contents("out")), ((b"", b"peertext: out: 41 WriteFault\n", 1), OLD))
    os.remove("out")
    check("files after a full disk", sorted(os.listdir(".")), names)
    check("join into a device", called("join", "ab", "y", "/dev/full"), (b"", b"peertext: /dev/full: 41 WriteFault\n", 1))
    check("join into standard output", called("join", "ab", "y", "/dev/stdout"), (HEAD + AB + Y, b"", 0))


NOBODY = 65534


def as_user():
    """How a program is run by a user from whom files can be kept: root may write them all."""
    return {"user": NOBODY, "group": NOBODY, "extra_groups": []} if os.geteuid() == 0 else {}


def give(how, name, mode, data=OLD):
    """Makes a file, or a folder where there is no data, that is the user's by whom a program is run."""
    if data is None:
        os.mkdir(name)
    else:
        with open(name, "wb") as file:
            file.write(data)
    if "user" in how:
        os.chown(name, how["user"], how["group"])
    os.chmod(name, mode)


def mode_of(name):
    return stat.S_IMODE(os.stat(name).st_mode)


@contextlib.contextmanager
def home(how):
    """A folder of that user's, within which a test runs."""
    give(how, "home", 0o755, None)
    os.chdir("home")
    try:
        yield
    finally:
        os.chdir("..")
        os.chmod("home", 0o755)
        shutil.rmtree("home")


def join_at_home(out, how, **more):
    words = ["../program", "join", "../ab", "../y", out]
    done = subprocess.run(words, stdin=subprocess.DEVNULL, timeout=120, **{"capture_output": True, **how, **more})
    return done.stdout, done.stderr, done.returncode


WRITTEN = (b"", b"", 0)
JOINED = HEAD + AB + Y


def not_written(out):
    return b"", b"peertext: " + out.encode() + b": 41 WriteFault\n", 1


def modes(how):
    for mode in (0o600, 0o640, 0o644, 0o755, 0o666, 0o444, 0o400, 0o555, 0o000):
        answer, data = (WRITTEN, JOINED) if mode & 0o222 else (not_written("out"), OLD)
        with home(how):
            give(how, "out", mode)
            check(f"join into a file of mode {mode:o}", (join_at_home("out", how), mode_of("out"), os.listdir(".")), (answer, mode, ["out"]))
            os.chmod("out", 0o600)
            check(f"a file of mode {mode:o}", contents("out"), data)


def links(how):
    for mode, data, answer in [(0o640, JOINED, WRITTEN), (0o444, OLD, not_written("out")), (None, JOINED, WRITTEN)]:
        with home(how):
            if mode:
                give(how, "file", mode)
            os.symlink("file", "out")
            got = join_at_home("out", how), contents("file"), os.path.islink("out"), sorted(os.listdir("."))
            check(f"join into a link to a file of mode {mode and oct(mode)}", got, (answer, data, True, ["file", "out"]))


def long_names(how):
    for length in (249, 250, 255):
        with home(how):
            out = "n" * length
            got = join_at_home(out, how), contents(out), os.listdir(".")
            check(f"join into a name of {length} bytes", got, (WRITTEN, JOINED, [out]))
        with home(how):
            give(how, out, 0o640, OLD * 100)
            number = os.stat(out).st_ino
            got = join_at_home(out, how), contents(out), mode_of(out), os.listdir(".")
            check(f"join into a file with a name of {length} bytes", got, (WRITTEN, JOINED, 0o640, [out]))
            # `.0.tmp` is six bytes
            check(f"in place, with a name of {length} bytes", os.stat(out).st_ino == number, length + 6 > 255)


def closed_folder(how):
    with home(how):
        give(how, "out", 0o640, OLD * 100)
        give(how, "stays", 0o444)
        os.chmod(".", 0o555)
        got = join_at_home("out", how), contents("out"), mode_of("out")
        check("join into a file of a folder that can't be written", got, (WRITTEN, JOINED, 0o640))
        for out in ("new", "stays"):
            check(f"join into {out} of such a folder", join_at_home(out, how), not_written(out))
        check("such a folder", (sorted(os.listdir(".")), contents("stays")), (["out", "stays"], OLD))


def output_to_a_file(how):
    with home(how):
        give(how, "out", 0o640, b"")
        with open("out", "wb") as out:
            got = join_at_home("/dev/stdout", how, capture_output=False, stdout=out, stderr=subprocess.PIPE)
        check("join into standard output that is a file", (got, contents("out"), os.listdir(".")), ((None, b"", 0), JOINED, ["out"]))


def files_of_others(how):
    for folder_mode in (0o1777, 0o755):
        with home(how):
            give(how, "out", 0o666, OLD * 100)
            for name in ("out", "."):
                os.chown(name, 1, 1)
            os.chmod(".", folder_mode)
            got = join_at_home("out", how), contents("out"), mode_of("out"), os.stat("out").st_uid, os.listdir(".")
            check("join into another user's file", got, (WRITTEN, JOINED, 0o666, 1, ["out"]))


def outs_with_modes():
    """A file that can't be written stays, and a replaced one keeps its mode; one beside which no other can stand is written in place."""
    shutil.copy(BUILT, "program")
    for name, mode in [("program", 0o755), (".", 0o755)]:
        os.chmod(name, mode)
    is_root = os.geteuid() == 0
    user = as_user()
    for how in ({}, user) if is_root else (user,):
        for test in (modes, links, long_names):
            test(how)
    closed_folder(user)
    output_to_a_file(user)
    if is_root:
        files_of_others(user)


def shows():
    for name, want, fault in [
        ("none", b"", None), ("ab", AB_LINE, None), ("deleted", AB_LINE + b"delete 3.1 prev 2 spans 1:2-2\n", None),
        ("tagged", AB_LINE + b"tag 3.1 prev 2 on t spans 1:1-1\n", None), ("unsound", b"insert 1.1 prev 0 after 1.1 text a tags\n", None),
        ("clash", AB_LINE + b"delete 3.1 prev 1 spans 1:2-2\n", None),
        ("cut", AB_LINE, b"cut: 32 Truncated at 44"), ("short", b"", b"short: 33 BadRecord at 8"), ("empty", b"", b"empty: 32 Truncated at 0"),
        ("version", b"", b"version: 31 BadVersion at 0"), ("magic", b"", b"magic: 30 BadMagic at 0"),
        ("missing", b"", b"missing: 40 ReadFault"), ("folder", b"", b"folder: 40 ReadFault"),
    ]:
        check(f"show {name}", called("show", name), (want, b"peertext: " + fault + b"\n" if fault else b"", 1 if fault else 0))
    for name in ("ab", "cut"):
        with open("/dev/full", "wb") as full:
            done = subprocess.run([PROGRAM, "show", name], stdin=subprocess.DEVNULL, stdout=full, stderr=subprocess.PIPE, timeout=120)
        check(f"show {name} on a full disk", (done.stderr, done.returncode), (b"peertext: 41 WriteFault\n", 1))


def many_operations():
    many = HEAD + b"".join(insert(2 * i + 1, 1, 2 * i, (2 * i, 1) if i else (0, 0), b"xy") for i in range(20000))
    with open("many", "wb") as file:
        file.write(many)
    # the stamp of Y is (3, 2): it stands behind the second record
    check("join of many", (called("join", "many", "y", "out"), contents("out")), ((b"", b"", 0), many[:80] + Y + many[80:]))
    out, err, status = called("show", "many")
    check("show of many", (out.count(b"\n"), out[:41], err, status), (20000, b"insert 1.1 prev 0 after 0.0 text xy tags\n", b"", 0))
