"""What tests/bench.py `peers` measures: for each work its scripts, for the program, a plain RGA and Tk by lines and characters, and
for Yjs by places.

A work is a name, the n that it is measured at (and at twice that), a function of n that answers a Work, and who else can do it."""
import dataclasses
import random

SITES = 50
PLAIN, TK, YJS = "plain RGA", "Tk", "Yjs"


class Script:
    """A script whose edits are told by places of a text, which it keeps."""

    def __init__(self, text=b""):
        self.text = bytearray(text)
        # The lines of the widget, and those of beside/yjs.js.
        self.lines, self.places = [], []

    def index(self, place):
        """A place as LINE.CHARACTER."""
        return f"{self.text.count(10, 0, place) + 1}.{place - self.text.rfind(10, 0, place) - 1}"

    def insert(self, place, text):
        """Puts a text in at a place, at the end by the word `end`."""
        spelled = text.replace("\n", "\\n")
        self.lines.append(f'.t insert {"end" if place == len(self.text) else self.index(place)} "{spelled}"')
        self.places.append(f"insert {place} {spelled}")
        self.text[place:place] = text.encode("ascii")

    def delete(self, first, end):
        """Takes the characters of a range away."""
        self.lines.append(f".t delete {self.index(first)} {self.index(end)}")
        self.places.append(f"delete {first} {end - first}")
        del self.text[first:end]

    def receive(self, name):
        """Takes the operations of a file, after which the text isn't known here."""
        self.lines.append(f"receive {name}")
        self.places.append(f"receive {name}")

    def paste(self, text):
        """Puts a long text in at the end, by parts that a line has room for."""
        for first in range(0, len(text), 400_000):
            self.insert(len(self.text), text[first : first + 400_000])


@dataclasses.dataclass
class Work:
    """What site 1 runs, the file of its log and those that it has by name, and what is run before that: for each file a site, its
    script, the file of its log, and then perhaps the files that its script receives. `asked` is what tells more of a site than its
    text."""

    script: Script
    log: str = ""
    files: tuple = ()
    before: tuple = ()
    writes: bool = False
    asked: tuple = ()

    def is_merge(self):
        """Whether sites edited one text side by side: Yjs may then order it by its own rules."""
        return bool(self.files)


def letter(i):
    """One character: a newline after each 39 others."""
    return "\n" if i % 40 == 39 else "abcdefghij"[i % 10]


def text_of(chance, least, most):
    """So many characters, some of them newlines."""
    return "".join("\n" if chance.random() < 0.025 else chance.choice("abcdefgh") for _ in range(chance.randint(least, most)))


def edit(script, n, seed):
    """Insertions and deletions of one to twenty characters at random places, three to two."""
    chance = random.Random(seed)
    for _ in range(n):
        size = len(script.text)
        if size < 100 or chance.random() < 0.6:
            script.insert(chance.randint(0, size), text_of(chance, 1, 20))
        else:
            less = chance.randint(1, 20)
            first = chance.randint(0, size - less)
            script.delete(first, first + less)
    return script


def write(script, n, seed=1):
    """A writer's session: bursts of typing at a cursor, backspaces, cuts, jumps, pastes; some 35 in 100 characters go again."""
    chance, cursor, edits = random.Random(seed), 0, 0
    while edits < n:
        what = chance.random()
        if what < 0.55:
            for _ in range(min(chance.randint(5, 60), n - edits)):
                script.insert(cursor, letter(chance.randint(0, 39)))
                cursor, edits = cursor + 1, edits + 1
        elif what < 0.8:
            for _ in range(min(chance.randint(1, 40), n - edits, cursor)):
                script.delete(cursor - 1, cursor)
                cursor, edits = cursor - 1, edits + 1
        elif what < 0.83:
            first = max(0, cursor - chance.randint(20, 140))
            if first < cursor:
                script.delete(first, cursor)
                cursor, edits = first, edits + 1
        elif what < 0.97:
            cursor = chance.randint(0, len(script.text))
        else:
            word = text_of(chance, 20, 200)
            script.insert(cursor, word)
            cursor, edits = cursor + len(word), edits + 1
    return script


def typing(n):
    """A character each at the end."""
    script = Script()
    for i in range(n):
        script.insert(i, letter(i))
    return Work(script)


def edits(n):
    """Edits at random places of a text that grows from nothing."""
    return Work(edit(Script(), n, 1))


def session(n):
    """A writer's session."""
    return Work(write(Script(), n))


def merge(n):
    """Two sites that each made n random edits of one text of n characters; the first receives the second's."""
    base = Script()
    base.paste(("x" * 39 + "\n") * (n // 40))
    before = [(1, base, "", "base"), *((site, edit(Script(base.text), n, site), "base", f"site{site}") for site in (1, 2))]
    script = Script()
    script.receive("site2")
    return Work(script, "site1", ("site2",), tuple(before))


def fifty(n, length):
    """Fifty sites that each typed words of a length, each word before all that the site had; one site receives them all. No two sites
    typed the same, so that the text tells their order."""
    before, script = [], Script()
    for site in range(2, SITES + 2):
        alone = Script()
        for i in range(n // SITES):
            alone.insert(i % length, letter(i + site))
        before.append((site, alone, "", f"site{site}"))
        script.receive(f"site{site}")
    return Work(script, "", tuple(name for *_, name in before), tuple(before))


def indices(n):
    """Places of a text of 100 n characters in lines of 80, half of them some characters behind one."""
    chance, script = random.Random(1), Script()
    script.paste(("x" * 79 + "\n") * (n * 100 // 80))
    for i in range(n):
        line, character = chance.randint(1, n * 100 // 80), chance.randint(0, 79)
        script.lines.append(f'.t index "{line}.{character} + {chance.randint(0, 200)} chars"' if i % 2 else f".t index {line}.{character}")
    return Work(script)


def loading(writes):
    """A site that begins with the log of a writer's session, and perhaps writes it again."""
    return lambda n: Work(Script(), "log", before=((1, write(Script(), n), "", "log"),), writes=writes)


def four(n):
    """A site that begins with the log of four, each of which wrote a part of n edits by itself: their operations stand in turn."""
    names = tuple(f"site{site}" for site in range(2, 6))
    before, gather = [], Script()
    for site, name in enumerate(names, 2):
        before.append((site, write(Script(), n // 4, site), "", name))
        gather.receive(name)
    return Work(Script(), "log", before=(*before, (6, gather, "", "log", names)))


def tags(n):
    """Tags put on short ranges of a text of 2 n characters, and taken off others, twice as many on as off."""
    chance, script = random.Random(1), Script()
    script.paste(("x" * 39 + "\n") * (n // 20))
    for i in range(n):
        line, first = chance.randint(1, n // 20), chance.randint(0, 38)
        script.lines.append(f".t tag {'remove' if i % 3 == 2 else 'add'} t{i % 20} {line}.{first} {line}.{chance.randint(first + 1, 39)}")
    return Work(script, asked=tuple(f".t tag ranges t{i}" for i in range(20)))


WORKS = [
    ("typing n characters", 500_000, typing, (PLAIN, TK, YJS)),
    ("n edits at random places", 50_000, edits, (PLAIN, TK, YJS)),
    ("a writing session of n edits", 100_000, session, (PLAIN, TK, YJS)),
    ("merge of two sites of n edits", 25_000, merge, (PLAIN, YJS)),
    ("50 sites, words at one place, n", 100_000, lambda n: fifty(n, 20), (PLAIN, YJS)),
    ("50 sites prepend at one place, n", 10_000, lambda n: fifty(n, 1), (PLAIN, YJS)),
    ("index, n times in 100 n characters", 100_000, indices, (PLAIN, TK)),
    ("loading a log of n edits", 250_000, loading(False), (PLAIN, YJS)),
    ("loading and writing that log", 250_000, loading(True), (PLAIN, YJS)),
    ("loading a log of n edits of four sites", 250_000, four, (PLAIN,)),
    ("tags on n random ranges", 20_000, tags, (TK,)),
]
