"""What tests/bench.py `tags` measures: look-ups and writes of tags in a text with many ranges of them.

A text of lines of 40 characters, with short ranges of twenty tags at random places, one range for each four characters; then so
many look-ups from random places, or so many writes of short ranges."""
import random

TAGS = 20


def text(size):
    """The lines of a script that make the text, with a range of a tag for each four of its characters."""
    chance = random.Random(size)
    yield '.t insert end "' + ("x" * 39 + "\\n") * (size // 40) + '"'
    for i in range(size // 4):
        yield short(chance, size, i, "add")


def spot(chance, size):
    """A place of the text, as a line and a character."""
    return f"{chance.randint(1, size // 40)}.{chance.randint(0, 39)}"


def short(chance, size, i, verb):
    """A tag written to one to three characters of a line."""
    line, first = chance.randint(1, size // 40), chance.randint(0, 36)
    return f".t tag {verb} t{i % TAGS} {line}.{first} {line}.{first + chance.randint(1, 3)}"


def looked(verb):
    """So many look-ups from random places."""

    def lines(size, count):
        chance = random.Random(count)
        return [f".t tag {verb} t{i % TAGS} {spot(chance, size)}" for i in range(count)]

    return lines


def written(size, count):
    """So many writes of short ranges, an add and a removal in turn."""
    chance = random.Random(count)
    return [short(chance, size, i, "remove" if i % 2 else "add") for i in range(count)]


CASES = [("tag nextrange", looked("nextrange")), ("tag prevrange", looked("prevrange")), ("tag add and remove", written)]
SIZE = 40_000
