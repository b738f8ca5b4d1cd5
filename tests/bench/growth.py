"""What tests/bench.py `growth` measures: for each case the lines of a script of n commands, and what is run before it.

A case is a name, the n that it is measured at (and at twice that), and a function of n and of a way to run the program, which
answers the lines, the words behind `run`, and the lines of what comes before the n commands, whose time is taken off."""
import random
import struct

from modelled import files


def record(count, site, prev, after, text=b"x"):
    """An Insert after the element of a stamp, as docs/FILES.md has it."""
    content = struct.pack(">BQHQQHB", 1, count, site, prev, *after, 0) + text
    return struct.pack(">I", len(content)) + content


def letter(i):
    """One character: a newline after each 39 others."""
    return '"\\n"' if i % 40 == 39 else "abcdefghij"[i % 10]


def text(chance, most, least=1):
    """So many characters, and how a script spells them."""
    size = chance.randint(least, most)
    return size, '"' + "".join("\\n" if chance.random() < 0.025 else chance.choice("abcdefgh") for _ in range(size)) + '"'


def typing(n):
    """A character each at the end."""
    return (f".t insert end {letter(i)}" for i in range(n))


def inserts(n):
    """A character each at random places."""
    chance = random.Random(1)
    return (f'.t insert "1.0 + {chance.randint(0, i)} chars" {letter(i)}' for i in range(n))


def edits(n, seed=1):
    """Insertions and deletions of one to twenty characters at random places, three to two."""
    chance, size = random.Random(seed), 0
    for _ in range(n):
        if size < 100 or chance.random() < 0.6:
            place, (more, word) = chance.randint(0, size), text(chance, 20)
            yield f'.t insert "1.0 + {place} chars" {word}'
            size += more
        else:
            less = chance.randint(1, 20)
            place = chance.randint(0, size - less)
            yield f'.t delete "1.0 + {place} chars" "1.0 + {place + less} chars"'
            size -= less


def session(n, told=None):
    """An editor's: bursts of typing at the cursor, backspaces, jumps, pastes. `told` gets the number of characters at the end."""
    chance, size, cursor, lines = random.Random(1), 0, 0, 0
    while lines < n:
        what = chance.random()
        if what < 0.7:
            for _ in range(min(chance.randint(5, 60), n - lines)):
                yield f".t insert insert {letter(chance.randint(0, 39))}"
                size, cursor, lines = size + 1, cursor + 1, lines + 1
        elif what < 0.85:
            for _ in range(min(chance.randint(1, 8), n - lines, cursor)):
                yield '.t delete "insert - 1 chars"'
                size, cursor, lines = size - 1, cursor - 1, lines + 1
        elif what < 0.97:
            cursor, lines = chance.randint(0, size), lines + 1
            yield f'.t mark set insert "1.0 + {cursor} chars"'
        else:
            more, word = text(chance, 200, 20)
            yield f".t insert insert {word}"
            size, cursor, lines = size + more, cursor + more, lines + 1
    if told is not None:
        told.append(size)


def prepends(n, _):
    """Fifty sites whose characters all come first: each site's file is received whole."""
    names = []
    for site in range(2, 52):
        names.append(f"site{site}.ops")
        with open(names[-1], "wb") as file:
            file.write(b"RGATEXT1")
            file.writelines(record(count, site, count - 1, (0, 0)) for count in range(1, n // 50 + 1))
    return [f"receive {name}" for name in names], names, None


def falling(n, _):
    """A character of each of n sites, the greatest site first, received whole."""
    with open("falling.ops", "wb") as file:
        file.write(files.TWO.magic)
        file.writelines(files.record(files.Insert(i, n + 1 - i, 0, (0, 0), "x", ()), files.TWO) for i in range(1, n + 1))
    return ["receive falling.ops"], ["falling.ops"], None


def two_sites(n, run):
    """A site of n random edits that receives the file of another one of n."""
    for site in (1, 2):
        run(edits(n, site), "--out", f"{site}.ops", site=site)
    return ["receive 2.ops"], ["--log", "1.ops", "2.ops"], None


def log(n, run):
    """A site that begins with the log of n typed characters."""
    run(typing(n), "--out", "log.ops")
    return [".t index end"], ["--log", "log.ops"], None


def indices(n, _):
    """Places asked for by line and by number of characters, in 20,160,000 characters in lines of 80."""
    chance = random.Random(1)
    lines = ['.t insert end "' + ("x" * 79 + "\\n") * 12_000 + '"'] * 21
    asked = (
        f".t index {chance.randint(1, 252_000)}.{chance.randint(0, 79)}" if i % 2 else f'.t index "1.0 + {chance.randint(0, 20_000_000)} chars"'
        for i in range(n)
    )
    return [*lines, *asked], [], lines


def plain(lines):
    """A case that is only lines."""
    return lambda n, _: (lines(n), [], None)


def undone(n, _):
    """Twenty characters in the middle of n others, and each undone."""
    before = ['.t insert 1.0 "' + "x" * n + '"', ".t configure -undo 1"]
    return [*before, *[f".t insert 1.{n // 2} a", ".t edit undo"] * 20], [], before


def undone_often(n, _):
    """n characters at random places of 20,000 others, each undone."""
    chance = random.Random(1)
    before = ['.t insert 1.0 "' + "x" * 20_000 + '"', ".t configure -undo 1"]
    lines = (line for _ in range(n) for line in (f".t insert 1.{chance.randint(0, 20_000)} a", ".t edit undo"))
    return [*before, *lines], [], before


def brought_back(n, _):
    """The removal of n characters, undone."""
    before = ['.t insert 1.0 "' + "x" * n + '"', ".t configure -undo 1", ".t delete 1.0 end"]
    return [*before, ".t edit undo"], [], before


def tagged_lines(n, _):
    """A tag put on n ranges, each of a line of its own."""
    before = ['.t insert 1.0 "a\\n"'] * n
    return [*before, ".t tag add t " + " ".join(f"{i}.0 {i}.1" for i in range(1, n + 1))], [], before


def tagged_line(n, _):
    """A tag put on n ranges of one line."""
    before = ['.t insert 1.0 "' + "ab" * n + '"']
    return [*before, ".t tag add t " + " ".join(f"1.{2 * i} 1.{2 * i + 1}" for i in range(n))], [], before


def deleted_tags(n, _):
    """n tags on one character, deleted."""
    names = [f"n{i:07}" for i in range(n)]
    random.Random(1).shuffle(names)
    before = [".t insert 1.0 a {" + " ".join(names) + "}"]
    return [*before, ".t tag delete " + " ".join(names)], [], before


CASES = [
    ("typing at the end", 500_000, plain(typing)),
    ("insertions at random places", 100_000, plain(inserts)),
    ("random insertions and deletions", 100_000, plain(edits)),
    ("an editing session", 250_000, plain(session)),
    ("50 sites that prepend, received", 20_000, prepends),
    ("n sites, the greatest first, received", 50_000, falling),
    ("a site of n edits receives n of another's", 50_000, two_sites),
    ("a log of n operations", 500_000, log),
    ("index in a text of 20 MB", 200_000, indices),
    ("20 undos at a text of n characters", 10_000, undone),
    ("n undos at 20,000 characters", 500, undone_often),
    ("undo of the removal of n characters", 32_768, brought_back),
    ("tag add of n ranges, a line each", 5_555, tagged_lines),
    ("tag add of n ranges in one line", 25_000, tagged_line),
    ("tag delete of n names on one character", 27_777, deleted_tags),
]
