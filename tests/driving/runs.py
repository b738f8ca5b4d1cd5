"""Runs that read and write files: `--log`, `--out`, FILE and `receive`."""
import os
import resource
import signal
import subprocess

from driving.program import PROGRAM, SITE, called, check, ran, refused
from driving.samples import AB, FILES, HEAD, OLD, Y, contents, insert, operation, put, remove, spans


def outs_of_runs():
    """The log that a run leaves behind."""
    long = "a" * 65536
    for name, script, want in [
        ("nothing", [], HEAD),
        ("an insertion", [".t insert 1.0 ab"], FILES["ab"]),
        ("a deletion", [".t insert 1.0 ab", ".t delete 1.1"], FILES["deleted"]),
        ("a tag", [".t insert 1.0 ab", ".t tag add t 1.0"], FILES["tagged"]),
        ("a deletion that is undone", [".t configure -undo 1", ".t insert 1.0 ab", ".t delete 1.1", ".t edit undo"], FILES["deleted"] + insert(4, 1, 3, (2, 1), b"b")),
        ("that is redone", [".t configure -undo 1", ".t insert 1.0 ab", ".t delete 1.1", ".t edit undo", ".t edit redo"],
         FILES["deleted"] + insert(4, 1, 3, (2, 1), b"b") + operation(2, 5, 1, 4, spans((1, 4, 4)))),
        ("what no operation says", [".t mark set m 1.0", ".t tag add sel 1.0 end", ".t get 1.0 end", ".t insert 1.0 {}"], HEAD),
        ("more characters than one operation has", [".t insert 1.0 " + long], HEAD + insert(1, 1, 0, (0, 0), b"a" * 65535) + insert(65536, 1, 65535, (65535, 1), b"a")),
    ]:
        for old in (None, OLD):
            if old is not None:
                put("out", old)
            lines, err, status = ran(script, *SITE, "--out", "out")
            check(f"--out after {name}", (err, status, contents("out")), ("", 0, want))
            check(f"files after {name}", "out" in os.listdir(".") and len(os.listdir(".")), len(FILES) + 2)
        remove("out")
    two = HEAD + insert(1, 1, 0, (0, 0), b"a" * 65535) + insert(65536, 1, 65535, (65535, 1), b"a")
    put("long", two)
    asks = ["receive long", ".t get 1.0 1.end", ".t index 1.end", "receive long"]
    check("a text of two operations is received", ran(asks, "--site", "2", "long"), (["= 2 0", "= " + long, "= 1.65536", "= 0 2"], "", 0))
    remove("long")
    check("a long insertion is two records", len(two), 65612)


def logs_of_runs():
    """The log with which a site begins."""
    check("--log", ran([".t get 1.0 end"], *SITE, "--log", "ab"), (['= "ab\\n"'], "", 0))
    check("--log of a deletion", ran([".t get 1.0 end"], *SITE, "--log", "deleted"), (['= "a\\n"'], "", 0))
    check("--log forces the modified flag", ran([".t edit modified", ".t edit modified 0", ".t edit modified"], *SITE, "--log", "ab"), (["= 1", "=", "= 0"], "", 0))
    check("--log of nothing leaves it", ran([".t edit modified"], *SITE, "--log", "none"), (["= 0"], "", 0))
    check("--log isn't recorded", ran([".t configure -undo 1", ".t edit undo", ".t edit redo"], *SITE, "--log", "deleted"), (["=", "! 12 NothingToUndo", "! 13 NothingToRedo"], "", 0))
    check("--log of a tag", ran([".t tag names", ".t tag ranges t"], *SITE, "--log", "tagged"), (["= sel t", "= 1.0 1.1"], "", 0))
    check("--log and --out", (ran([".t insert 1.0 X"], *SITE, "--log", "ab", "--out", "out"), contents("out")), ((["="], "", 0), HEAD + AB + insert(3, 1, 2, (0, 0), b"X")))
    check("the same file as --log and --out", (ran([".t delete 1.0"], *SITE, "--log", "out", "--out", "out", "out"), contents("out")),
          ((["="], "", 0), HEAD + AB + insert(3, 1, 2, (0, 0), b"X") + operation(2, 4, 1, 3, spans((1, 3, 3)))))
    remove("out")


def early_logs():
    """Operations of the log that come early are held, which is no fault; the file of --out knows nothing of them."""
    get = ".t get 1.0 end"
    behind = insert(20, 3, 5, (1, 1), b"z")
    before = insert(5, 3, 0, (0, 0), b"q")
    names = ("late", "cut_behind", "before")
    for name, data in zip(names, (HEAD + AB + behind, HEAD + Y + b"\0\0", HEAD + before)):
        put(name, data)
    for name, words, script, want, log in [
        ("nothing else", ("--site", "3", "--log", "y"), [get, ".t edit modified"], ['= "\\n"', "= 0"], HEAD),
        ("what it waits for", ("--site", "3", "--log", "y", "ab", "y"), ["receive y", "receive ab", "receive y", get, ".t edit modified"],
         ["= 0 1 1", "= 2 0", "= 0 1", '= "aYb\\n"', "= 1"], HEAD + AB + Y),
        ("a command that makes that", (*SITE, "--log", "y"), [".t insert 1.0 ab", get, ".t index insert"], ["=", '= "aYb\\n"', "= 1.3"], HEAD + AB + Y),
        ("a command that doesn't", ("--site", "3", "--log", "y", "y"), [".t insert 1.0 c", "receive y", get], ["=", "= 0 1 1", '= "c\\n"'],
         HEAD + insert(1, 3, 0, (0, 0), b"c")),
        ("an operation before it", ("--site", "9", "--log", "late", "ab"), [get, "receive ab"], ['= "ab\\n"', "= 0 1 1"], FILES["ab"]),
        ("the operation between", ("--site", "9", "--log", "late", "before"), ["receive before", get], ["= 2 0", '= "qazb\\n"'], HEAD + AB + before + behind),
    ]:
        check(f"--log of what comes early, and {name}", (ran(script, "--out", "out", *words), contents("out")), ((want, "", 0), log))
    remove("out")
    check("--log of what comes early, cut behind it", (ran([get], *SITE, "--log", "cut_behind", "--out", "out"), contents("out")),
          (refused("cut_behind", "32 Truncated at 43"), None))
    remove(*names)


def received():
    """Lines that receive files, and their replies."""
    get = ".t get 1.0 end"
    for name, words, script, want in [
        ("a file, and once more", ("ab",), ["receive ab", "receive ab", get], ["= 1 0", "= 0 1", '= "ab\\n"']),
        ("a file given twice", ("ab", "ab"), ["receive ab", "receive ab"], ["= 1 0", "= 0 1"]),
        ("a file that is cut", ("cut",), ["receive cut", get], ["! 32 Truncated at 44 new 1 repeat 0", '= "ab\\n"']),
        ("one that is cut after it was received", ("cut", "ab"), ["receive ab", "receive cut"], ["= 1 0", "! 32 Truncated at 44 new 0 repeat 1"]),
        ("what comes too early", ("y", "ab"), ["receive y", "receive y", "receive ab", "receive y", get], ["= 0 0 1", "= 0 1 1", "= 2 0", "= 0 1", '= "aYb\\n"']),
        ("what comes too early with tags", ("y_tagged", "ab"), [".t mark set m end-1c", "receive y_tagged", ".t tag names", ".t index m", "receive ab", ".t tag names", ".t tag ranges t", ".t index m", get],
         ["=", "= 0 0 1", "= sel", "= 1.0", "= 2 0", "= sel t", "= 1.1 1.2", "= 1.3", '= "aYb\\n"']),
        ("the greatest count", ("last",), ["receive last", ".t insert end a", get], ["= 1 0", "! 17 ClockSpent", '= "z\\n"']),
        ("no file", (), ["receive none"], ["! 20 NoFile"]),
        ("a file that wasn't given", ("ab",), ["receive deleted", "receive ./ab"], ["! 20 NoFile", "! 20 NoFile"]),
        ("other numbers of words", ("ab",), ["receive", "receive ab ab", "receive ab"], ["! 4 BadCommand", "! 4 BadCommand", "= 1 0"]),
        ("damaged files", ("empty", "magic", "version", "short", "unsound", "final"), ["receive empty", "receive magic", "receive version", "receive short", "receive unsound", "receive final", get],
         ["! 32 Truncated at 0 new 0 repeat 0", "! 30 BadMagic at 0 new 0 repeat 0", "! 31 BadVersion at 0 new 0 repeat 0", "! 33 BadRecord at 8 new 0 repeat 0",
          "! 34 BadStamp at 8 new 0 repeat 0", "! 37 BadTarget at 8 new 0 repeat 0", '= "\\n"']),
        ("a clash", ("ab", "b", "clash"), ["receive ab", "receive b", "receive clash"], ["= 1 0", "! 35 Conflict at 8 new 0 repeat 0", "! 35 Conflict at 44 new 0 repeat 1"]),
        ("damaged files that are not received", ("empty", "cut", "magic"), [get], ['= "\\n"']),
        ("marks", ("ab", "y"), ["receive ab", ".t mark set m 1.1", ".t mark set l 1.1", ".t mark gravity l left", "receive y", ".t index m", ".t index l"], ["= 1 0", "=", "=", "=", "= 1 0", "= 1.2", "= 1.1"]),
    ]:
        put("last", HEAD + insert(2**48 - 1, 9, 0, (0, 0), b"z"))
        put("y_tagged", HEAD + operation(1, 3, 2, 0, (1).to_bytes(8, "big") + (1).to_bytes(2, "big") + b"\1\1tY"))
        check(f"receive: {name}", ran(script, *SITE, *words), (want, "", 0))
        remove("last", "y_tagged")
    # a pipe gives its bytes to the first of two readings alone: of one name the first counts
    first, last = os.pipe()
    os.write(last, FILES["ab"])
    os.close(last)
    name = f"/dev/fd/{first}"
    check("of one name the first counts", ran([f"receive {name}"], *SITE, name, name, pass_fds=(first,)), (["= 1 0"], "", 0))
    os.close(first)


def exchanges():
    """Two sites that edit side by side, and then hold what both did."""
    get = ".t get 1.0 end"
    for name, begin, one, two, want in [
        ("insertions at one place", "ab", [".t insert 1.1 XX"], [".t insert 1.1 Y"], [(get, '= "aYXXb\\n"')]),
        ("an insertion beside a deletion", "ab", [".t delete 1.1"], [".t insert 1.2 Z"], [(get, '= "aZ\\n"')]),
        ("a tag taken off and put on", "t", [".t tag remove t 1.0", ".t tag add t 1.0"], [".t tag remove t 1.0"], [(".t tag ranges t", "= 1.0 1.2")]),
        ("a later write of a tag", "t", [".t tag remove t 1.0", ".t tag add t 1.0"], [".t insert end q", ".t tag remove t 1.0"], [(".t tag ranges t", "= 1.1 1.2")]),
    ]:
        check(f"the tagged text of {name}", ran([".t insert 1.0 ab t"], *SITE, "--out", "t"), (["="], "", 0))
        for number, script in (("1", one), ("2", two)):
            check(f"site {number} of {name}", ran(script, "--site", number, "--log", begin, "--out", f"out{number}"), (["="] * len(script), "", 0))
        asks, wants = zip(*want)
        logs = []
        for number, other in (("1", "2"), ("2", "1")):
            lines, err, status = ran([f"receive out{other}", *asks], "--site", number, "--log", f"out{number}", "--out", "both", f"out{other}")
            check(f"site {number} after the exchange of {name}", (lines[1:], err, status), (list(wants), "", 0))
            logs.append(contents("both"))
        check(f"the logs after the exchange of {name}", logs[0], logs[1])
        check(f"their join in {name}", (called("join", "out1", "out2", "joined"), contents("joined")), ((b"", b"", 0), logs[0]))
        remove("t", "out1", "out2", "both", "joined")


def faults_before_the_script():
    """A log or a file at fault: the script isn't run, and nothing is written."""
    names = sorted(os.listdir("."))
    script = [".t insert 1.0 x"]
    for words, name, fault in [
        (("--log", "cut"), "cut", "32 Truncated at 44"), (("--log", "empty"), "empty", "32 Truncated at 0"), (("--log", "magic"), "magic", "30 BadMagic at 0"),
        (("--log", "version"), "version", "31 BadVersion at 0"), (("--log", "short"), "short", "33 BadRecord at 8"), (("--log", "unsound"), "unsound", "34 BadStamp at 8"),
        (("--log", "clash"), "clash", "35 Conflict at 44"), (("--log", "final"), "final", "37 BadTarget at 8"),
        (("--log", "missing"), "missing", "40 ReadFault"), (("--log", "folder"), "folder", "40 ReadFault"), (("--log="), "", "40 ReadFault"),
        (("missing",), "missing", "40 ReadFault"), (("folder",), "folder", "40 ReadFault"), (("ab", "cut", "missing", "folder"), "missing", "40 ReadFault"),
        (("folder", "missing"), "folder", "40 ReadFault"), (("ab", "folder", "ab", "missing"), "folder", "40 ReadFault"),
        # the log's fault, whatever the files are
        (("missing", "--log", "cut"), "cut", "32 Truncated at 44"), (("--log", "ab", "missing"), "missing", "40 ReadFault"), (("--log", "missing", "folder"), "missing", "40 ReadFault"),
    ]:
        words = (words,) if isinstance(words, str) else words
        want = ([], f"peertext: {name}: {fault}\n", 1)
        check(f"run with {words}", ran(script, *SITE, *words), want)
        for old in (None, OLD):
            if old is not None:
                put("out", old)
            check(f"run with {words} and --out", (ran(script, *SITE, "--out", "out", *words), contents("out")), (want, old))
            check(f"run with {words} and an --out that can't be written", ran(script, *SITE, *words, "--out", "folder"), want)
        remove("out")
        check(f"files after {words}", sorted(os.listdir(".")), names)
    # one byte more than a file may have behind a whole record, and just as many
    for more, words, fault in ((1, ("big",), "40 ReadFault"), (1, ("--log", "big"), "40 ReadFault"), (0, ("--log", "big"), "33 BadRecord at 44")):
        with open("big", "wb") as big:
            big.write(FILES["ab"])
            big.truncate(2**30 + more)
        check(f"run with {words} of 2^30 and {more} bytes", ran(script, *SITE, *words), refused("big", fault))
    remove("big")


def outs_after_faults():
    """The log is written also where the script ended with a fault, which is then told; and an --out that can't be written."""
    script = [".t insert 1.0 ab", ".t insert 1.0 c"]
    for out in ["folder", "none/out", "missing/out", "", "a" * 300]:
        check(f"--out {out!r:.20}", ran(script, *SITE, "--out", out), (["=", "="], f"peertext: {out}: 41 WriteFault\n", 1))
    put("out", OLD)

    def small():
        signal.signal(signal.SIGXFSZ, signal.SIG_IGN)
        resource.setrlimit(resource.RLIMIT_FSIZE, (60, 60))

    check("--out on a full disk", (ran(script, *SITE, "--out", "out", preexec_fn=small), contents("out")), ((["=", "="], "peertext: out: 41 WriteFault\n", 1), OLD))
    os.chmod("out", 0o444)
    check("--out that is protected", (ran(script, *SITE, "--out", "out"), contents("out")), ((["=", "="], "peertext: out: 41 WriteFault\n", 1), OLD))
    os.chmod("out", 0o644)
    for out, left in (("out", FILES["ab"]), ("folder", None)):
        with open("/proc/self/mem", "rb") as unreadable:
            got = subprocess.run([PROGRAM, "run", *SITE, "--log", "ab", "--out", out], stdin=unreadable, capture_output=True, timeout=120)
        check(f"--out {out} after a failed read", ((got.stdout, got.stderr, got.returncode), contents("out")), ((b"", b"peertext: 40 ReadFault\n", 1), left or FILES["ab"]))
    for out, left in (("out", FILES["ab"]), ("folder", FILES["ab"])):
        with open("/dev/full", "wb") as full:
            got = ran(script, *SITE, "--out", out, capture_output=False, stdout=full, stderr=subprocess.PIPE)
        check(f"--out {out} after a failed write", (got, contents("out")), (([], "peertext: 41 WriteFault\n", 1), left))
    remove("out")
