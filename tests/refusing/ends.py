"""The program's begin and end, its joins and shows, and the words of its command line, with each allocation refused in turn."""
from driving.program import check
from driving.samples import OLD
from modelled.files import spelling
from refusing.rows import probes
from refusing.runs import ENDED, NO_MEMORY, each_refusal, script_of
from refusing.scripts import BYTES, KNOWN, LOGS
from refusing.wanting import Wanting

RUN = ("run", "--site", "3")
ENDED_BEFORE = ([], ENDED, 1, OLD)


def all_refused(table, name, what, run, fits):
    """Refuses each allocation of a run in turn; without a refusal it goes as it should."""
    refusals = wants = 0
    for number, left in each_refusal(run):
        is_whole = fits(left)
        check(f"{what} without allocation {number}: {left[:3]}", is_whole or number is not None and is_ended(left), True)
        refusals += number is not None
        wants += not is_whole
    table.add(name, refusals, wants, refusals - wants)


def is_ended(left):
    return left[:4] == ENDED_BEFORE


def begins(library, table):
    """A run begins with all of its log and of its files, or the script isn't run."""
    for log, files in ((None, ()), ("theirs", ()), ("late", ("all",)), ("several", ("deleted", "y", "theirs"))):
        site = Wanting(3, KNOWN)
        if log:
            site.receive(KNOWN[log])
        lines = probes([site])
        whole = ([site.answered(line) for line in lines], "", 0, spelling(site.ops))
        words = (*RUN, *(("--log", log) if log else ()), "--out", "out", *files)
        all_refused(table, "begin of `run`" if log is None else "begin with `--log`", " ".join(words),
                    lambda number, words=words, lines=lines: library.run(*words, script=script_of(lines), at_start=number),
                    lambda left, whole=whole: left[:4] == whole)


def ends(library, table):
    """A run ends with its log written, or with the file as it was."""
    for log in LOGS:
        words = (*RUN, "--log", log, "--out", "out")
        if log not in ("clashing", "unsound", "of_nothing"):
            site = Wanting(3, KNOWN)
            site.receive(KNOWN[log])
            all_refused(table, "end of `run`, `--out`", " ".join(words), lambda number, words=words: library.run(*words, script=script_of([f"#refuse {number}"])),
                        lambda left, site=site: left[:4] == ([], "", 0, spelling(site.ops)))


def last_lines(library, table):
    """A last line without a newline is run, or kept from it, and then the run ends with its log as it is."""
    words = (*RUN, "--out", "out")
    empty, full = spelling([]), spelling([LOGS["ab"][0]._replace(site=3)])
    ways = [(["="], "", 0, full), ([NO_MEMORY], "", 0, empty), ([], ENDED, 1, empty), (["="], ENDED, 1, OLD)]
    refusals = wants = 0
    for number, left in each_refusal(lambda number: library.run(*words, script=f"#refuse {number}\n.t insert 1.0 ab".encode())):
        good = left[:4] in ways if number else left[:4] == ways[0]
        check(f"a last line without allocation {number}: {left[:3]}", good, True)
        refusals += number is not None
        wants += left[:4] != ways[0]
    table.add("a last line without newline", refusals, wants, refusals - wants)


def joins(library, table):
    for first, second, ops, error in (("deleted", "y", LOGS["deleted"] + LOGS["y"], ""), ("theirs", "late", LOGS["theirs"], ""), ("none", "several", LOGS["several"], ""),
                                      ("deleted2", "far", LOGS["deleted"] + LOGS["far"][1:], ""),
                                      ("ab", "clashing", None, "peertext: 35 Conflict\n"), ("all", "cut", None, "peertext: cut: 32 Truncated at 44\n"),
                                      ("unsound", "ab", None, "peertext: unsound: 34 BadStamp at 8\n")):
        whole = ([], error, int(bool(error)), OLD if ops is None else spelling(ops))
        all_refused(table, "`join`", f"join {first} {second}", lambda number, first=first, second=second: library.run("join", first, second, "out", at_start=number),
                    lambda left, whole=whole: left[:4] == whole)


SHOWN = {
    **dict.fromkeys(("deleted", "deleted2"), ["insert 1.1 prev 0 after 0.0 text ab tags", "delete 3.1 prev 2 spans 1:2-2"]),
    "theirs": [r'insert 1.3 prev 0 after 0.0 text "hello\nworld" tags t', 'insert 12.2 prev 0 after 2.3 text XY tags "a b" u', "delete 14.2 prev 13 spans 2:12-12 3:4-4",
               "tag 15.2 prev 14 on v spans 0:1-1 3:1-1 3:8-8", "tag 16.2 prev 15 off t spans 3:1-2", r'insert 17.2 prev 16 after 6.3 text "new\nline" tags'],
    "cut": ["insert 1.1 prev 0 after 0.0 text ab tags"],
}


def shows(library, table):
    """All lines are shown, or a front of them."""
    for name, lines in SHOWN.items():
        error = "peertext: cut: 32 Truncated at 44\n" if name == "cut" else ""
        refusals = wants = 0
        for number, left in each_refusal(lambda number, name=name: library.run("show", name, at_start=number)):
            is_whole = left[:3] == (lines, error, int(bool(error)))
            is_front = number is not None and (left.error, left.status) == (ENDED, 1) and lines[:len(left.lines)] == left.lines
            check(f"show {name} without allocation {number}: {left[:3]}", is_whole or is_front, True)
            refusals += number is not None
            wants += not is_whole
        table.add("`show`", refusals, wants, refusals - wants)


def command_lines(library, table):
    """Words that ask for nothing are told as they are with memory, or memory was wanting; so are files that are missing or at fault."""
    for words in (("--help",), ("--version",), ("run", "--help"), (), ("frob",), ("run",), ("run", "--site", "0"), ("run", "--site", "1", "--frob"), ("join", "a"), ("show", "a", "b"),
                  (*RUN, "--log", "missing"), (*RUN, "--log", "cut"), (*RUN, "--log", "of_nothing"), (*RUN, "ab", "missing"), (*RUN, "--log=ab", "--out=out", "--", "y")):
        whole = library.run(*words)
        all_refused(table, "the words of the command line", " ".join(words), lambda number, words=words: library.run(*words, at_start=number),
                    lambda left, whole=whole: left[:4] == whole[:4])


PARTS = {"begin": begins, "end": ends, "last line": last_lines, "join": joins, "show": shows, "words": command_lines}


def put_files():
    for name, data in BYTES.items():
        with open(name, "wb") as file:
            file.write(data)
