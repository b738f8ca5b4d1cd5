"""Scripts whose lines are refused allocations, beside the tables of rt_tests_script: those that receive files, and those whose
texts, words or lists are long. A row is a line with its reply, an empty one where only the model tells it. A line by itself only
comes before others."""
import random

from modelled.files import TWO, Delete, Insert, Tag, read, spelling
from refusing.tables import scripts_of

# the stamp of the root, the span of the last newline, and no tags
ROOT, FINAL, NONE = (0, 0), (0, 1, 1), frozenset()
AB = Insert(1, 1, 0, ROOT, "ab", NONE)
TAKE_B = Delete(3, 1, 2, [(1, 2, 2)])
Y = Insert(3, 2, 0, (1, 1), "Y", NONE)
MANY_TAGS = frozenset(f"tag {number}" for number in range(60))
# what site 2 did upon `hello`, a newline and `world` of site 3
HELLO = Insert(1, 3, 0, ROOT, "hello\nworld", frozenset({"t"}))
THEIRS = [Insert(12, 2, 0, (2, 3), "XY", frozenset({"u", "a b"})), Delete(14, 2, 13, [(2, 12, 12), (3, 4, 4)]),
          Tag(15, 2, 14, [FINAL, (3, 1, 1), (3, 8, 8)], True, "v"), Tag(16, 2, 15, [(3, 1, 2)], False, "t"), Insert(17, 2, 16, (6, 3), "new\nline", NONE)]
LOGS = {
    "none": [],
    "ab": [AB],
    "deleted": [AB, TAKE_B],
    "y": [Y],
    "y_tagged": [Y._replace(tags=MANY_TAGS)],
    "y_other": [Y._replace(after=(2, 1), text="W")],
    "z": [Insert(4, 2, 3, (3, 2), "Z", frozenset({"z"}))],
    "x": [Insert(4, 2, 0, (1, 1), "X", NONE)],
    "q": [Insert(10, 2, 0, (4, 1), "Q", MANY_TAGS)],
    "tagged": [AB, Tag(3, 1, 2, [FINAL, (1, 1, 1)], True, "t")],
    "theirs": [HELLO, *THEIRS],
    "late": THEIRS[2:],
    "all": [AB, TAKE_B, Y, Tag(4, 1, 3, [(1, 1, 1), (2, 3, 3)], True, "t")],
    # of a site that files of version 1 have no room for, as they have none for the tags
    "far": [AB, Insert(3, 70000, 0, (2, 1), "c", frozenset(f"far {number}" for number in range(65))), Delete(4, 70000, 3, [(1, 2, 2), (70000, 3, 3)])],
    "clashing": [AB._replace(text="cd")],
    "unsound": [AB._replace(after=(1, 1))],
    "of_nothing": [AB, Insert(5, 2, 0, (4, 2), "q", NONE)],
    "several": [Insert(number, 4, number - 1, (number - 1, 4) if number > 1 else ROOT, "s", frozenset({f"s{number}"})) for number in range(1, 9)],
}
BYTES = {
    **{name: spelling(ops) for name, ops in LOGS.items()},
    "deleted2": spelling(LOGS["deleted"], TWO),
    "cut": spelling(LOGS["deleted"])[:80],
    "empty": b"",
    "magic": b"XGATEXT1",
    "version": b"RGATEXT9",
    "bad": spelling([AB]) + b"\0\0\0\x12" + bytes(18),
}
KNOWN = {name: read(data) for name, data in BYTES.items()}

# by the number of the site
RECEIVED = {
    2: r"""
receive ab -> = 1 0
receive ab -> = 0 1
.t get 1.0 end -> = "ab\n"
receive clashing -> ! 35 Conflict at 8 new 0 repeat 0
receive tagged -> = 1 1
.t tag ranges t -> = 1.0 1.1 1.2 2.0
receive none -> = 0 0

receive deleted -> = 2 0
receive deleted -> = 0 2
receive ab -> = 0 1
.t get 1.0 end -> = "a\n"

receive cut -> ! 32 Truncated at 44 new 1 repeat 0
.t get 1.0 end -> = "ab\n"
receive deleted -> = 1 1

receive empty -> ! 32 Truncated at 0 new 0 repeat 0
receive magic -> ! 30 BadMagic at 0 new 0 repeat 0
receive version -> ! 31 BadVersion at 0 new 0 repeat 0
receive unsound -> ! 34 BadStamp at 8 new 0 repeat 0
receive of_nothing -> ! 37 BadTarget at 44 new 1 repeat 0
receive bad -> ! 33 BadRecord at 44 new 0 repeat 1
receive nothing -> ! 20 NoFile
receive -> ! 4 BadCommand
receive "a -> ! 19 BadQuoting

receive several -> = 8 0
.t tag names -> = sel s1 s2 s3 s4 s5 s6 s7 s8

receive ab -> = 1 0
receive deleted2 -> = 1 1
receive far -> = 2 1
receive far -> = 0 3
.t get 1.0 end -> = "a\n"
""",
    3: r"""
receive y -> = 0 0 1
receive y -> = 0 1 1
receive ab -> = 2 0
receive y -> = 0 1
.t get 1.0 end -> = "aYb\n"

receive y_tagged -> = 0 0 1
receive z -> = 0 0 2
receive deleted -> = 4 0
.t get 1.0 end -> = "aYZ\n"

receive y_tagged -> = 0 0 1
receive y_other -> = 0 0 2
receive clashing -> = 2 0
.t get 1.0 end -> = "cYd\n"

receive z -> = 0 0 1
receive all -> = 5 0
.t get 1.0 end -> = "aYZ\n"

.t configure -undo 1 -> =
.t insert 1.0 "hello\nworld" t -> =
.t mark set m 1.3
.t mark set l 1.3
.t mark gravity l left
.t tag add sel 1.1 1.4
.t peer create .p -startline 2
.p mark set insert 1.2
receive late -> = 0 0 3
receive theirs -> = 5 4
.p get 1.0 end -> = "new\nlineworld\n"
.t edit undo -> =
.t edit redo -> =

.t insert 1.0 "hello\nworld" t -> =
.t tag add sel 1.1 2.2 -> =
.t peer create .p -endline 2 -> = .p
receive theirs -> = 5 1
.t dump 1.0 1.3 -> = tagon v 1.0 text h 1.0 tagoff v 1.1 tagon sel 1.1 text e 1.1 tagoff sel 1.2 tagon "a b" 1.2 tagon u 1.2 text Y 1.2
""",
    1: r"""
receive y_tagged -> = 0 0 1
.t insert 1.0 ab -> =
.t get 1.0 end -> = "aYb\n"
receive y_tagged -> = 0 1

receive y_tagged -> = 0 0 1
receive z -> = 0 0 2
.t insert 1.0 a t b -> =
.t get 1.0 end -> = "aYZb\n"

.t configure -undo 1
.t insert 1.0 ab
.t delete 1.1
receive q -> = 0 0 1
.t edit undo -> =
.t get 1.0 end -> = "abQ\n"
.t edit undo -> =
.t get 1.0 end -> = "Q\n"

.t configure -undo 1 -> =
.t insert 1.0 abc -> =
.t delete 1.1 -> =
receive x -> = 1 0
.t get 1.0 end -> = "aXc\n"
.t edit undo -> =
.t get 1.0 end -> = "aXbc\n"
.t edit undo -> =
.t get 1.0 end -> = "X\n"
.t edit undo -> ! 12 NothingToUndo
.t edit redo -> =
.t get 1.0 end -> = "aXbc\n"
""",
}
WORDS = r"""
.t insert 1.0 a t b u -> =
.t get 1.0 end -> = "ab\n"
.t insert 1.0 "a\tb \"c\" \\" {t {a b} "c d"} {x {y} z} "" -> =
.t get 1.0 end -> = "a\tb \"c\" \\x {y} zab\n"
.t tag names 1.0 -> = t "a b" "c d"
.t insert 1.0 "a -> ! 19 BadQuoting
.t insert 1.0 a {t "u} -> ! 19 BadQuoting
.t insert {1.0 + 1 c - 1 c + 1 c - 1 c + 1 c - 1 c} q -> =
.t index {1.0 + 1 c + 1 c + 1 c + 1 c + 1 c} -> = 1.5
.x index end -> ! 5 NoWidget
.t frob -> ! 4 BadCommand
.t -> ! 4 BadCommand
"""


def typed():
    """Every growth of what one types, up to seventy."""
    return [(".t configure -undo 1",), *((f".t insert end {chr(97 + number % 26)}", "=") for number in range(70))]


def many_runs():
    """What is done to a text of some hundred runs, with tags and marks. Separators keep small what is undone."""
    chance = random.Random(20261128)
    script = []
    for number in range(200):
        at = f"1.{chance.randrange(2 * number + 1)}"
        script.append((f".t insert {at} {chance.choice(['a', 'bc', 'def'])} {chance.choice(['', 't', 'u', '{t u}', '{}', 'v'])}".rstrip(),))
        if number % 20 == 0:
            script += [(f".t mark set m{number} {at}",), (f".t tag add w {at}",)]
    script.append((".t configure -undo 1",))
    for number in range(20):
        script += [(f".t insert 1.{17 * number} {chance.choice(['x', 'yz t', 'yz {u v}'])}", "="), (".t edit separator",)]
    asked = [".t search -all -nocase A 1.0", ".t search -all -overlap -backwards f end", ".t dump 1.0 end", ".t get 1.0 end", ".t tag ranges t",
             ".t tag nextrange u 1.40", ".t tag prevrange u 1.90", ".t index v.last", ".t count -chars -lines 1.0 end", ".t mark next m40", ".t mark names"]
    edits = [".t delete 1.20", ".t delete 1.10 1.30 1.50 1.51 1.70 1.80", ".t edit undo", ".t edit redo", ".t edit undo", ".t tag add n 1.3 1.300",
             ".t tag remove t 1.0 end", ".t tag delete u w", ".t replace 1.50 1.70 NEW {n o}", ".t edit undo", ".t mark unset m0 m20 m40",
             ".t mark set new 1.77", ".t edit reset", ".t peer create .p", ".p insert 1.30 pq", ".p edit undo", ".p tag add sel 1.0 end", "destroy .t", ".p delete 1.0 end"]
    return [*script, *((line, "") for line in asked), *((line, "= .p" if "peer" in line else "=") for line in edits)]


def long_lines():
    """Lines that come in several pieces, and long answers."""
    tags = " ".join(f"t{number:02}" for number in range(70))
    return [
        [(f".t insert 1.0 {'a' * 3000}", "="), (".t get 1.0 end", f'= "{"a" * 3000}\\n"'), (f".t replace 1.1 1.2990 {'b' * 1500} t", "="), (".t dump 1.0 end", ""),
         (f".t search {'b' * 1100} 1.0", "= 1.1"), (f".t insert 1.0 a {'t' * 256}", "! 14 BadName"), (f".t frob {'a' * 1100}", "! 4 BadCommand")],
        [(f".t insert 1.0 xy {{{tags}}}", "="), (".t tag names 1.0", f"= {tags}"), (".t configure -undo 1",), (".t delete 1.0", "="), (".t edit undo", "="),
         (".t edit redo", "="), (f".t tag delete {tags}", "="), (".t insert end abcdefgh", "="), (".t get " + "1.1 1.3 " * 60, "=" + " ab" * 60),
         (".t tag add q " + "1.1 1.2 1.4 " * 30, "="), (".t mark set a 1.1",), (".t mark unset " + " ".join(f"m{number}" for number in range(60)) + " a", "="),
         (".t delete " + "1.1 1.2 1.4 " * 30, "="), (".t configure " + "-undo 1 -undo 0 " * 40, "=")],
    ]


def received():
    """For each number of a site the scripts that receive files."""
    return [(site, script) for site, text in RECEIVED.items() for script in scripts_of(text)]
