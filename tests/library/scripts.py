"""Scripts that are run through the library, by driven.c: the stored ones, files that are received, groups of sites, hostile bytes."""
import itertools
import os
import random
import re
import subprocess
import tempfile

from driving.program import check
from driving.samples import FILES
from modelled.files import read, spelling
from modelled.words import spelled, words_of
from refusing.tables import tables

NEW = b"\x01site 0 1\n"
TEXT = ".t dump -text -tag 1.0 end"
# stamps at places, and the places of stamps, some of characters that are gone, or of none
STAMPS = ("1.0", "1.1", "2.1", "3.2", "9.1", "12.2", "20.3", "1.7", "2.65536", "99999.1")
ASKED = [f"\x01stamp {place}" for place in (0, 1, 7)] + [f"\x01place {stamp}" for stamp in STAMPS]
# more tags than one Insert lists in a file of version 1, and than one lists in any
MANY, MORE = (" ".join(f"t{at}" for at in range(count)) for count in (67, 257))
# the numbers of sites, some of which only files of version 2 have room for
NUMBERS = (1, 2, 3, 4), (7, 65535, 65536, 4294967295)
FAULTS = ("NoMemory BadIndex NoneTagged BadCommand NoWidget WidgetExists NoTag NoMark BadOption BackwardsRange EmptyPattern NothingToUndo "
          "NothingToRedo BadName BadView LastWidget ClockSpent TextFull BadQuoting NoFile").split()
FAULTS = {**dict(enumerate(FAULTS, 1)), **dict(enumerate("BadMagic BadVersion Truncated BadRecord BadStamp Conflict NotYet BadTarget WaitingFull".split(), 30))}


def by_program(program, script, *files, **how):
    """The reply lines of the program."""
    ran = subprocess.run([os.path.abspath(program), "run", "--site", "1", *files], input=script, capture_output=True, timeout=600, check=False, **how)
    return ran.stdout.decode().splitlines()


def runs_of(lines):
    """The lines of each site that was made, without the line that tells of it."""
    found = []
    for line in lines:
        if line == "site 0":
            found.append([])
        else:
            found[-1].append(line)
    return found


def stored_scripts(run, way, program):
    """The tables of rt_tests_script, each script on a new site."""
    scripts = [(f"{name} {at}", rows) for name, table in tables().items() for at, rows in enumerate(table)]
    texts = ["".join(row[0] + "\n" for row in rows).encode() for _, rows in scripts]
    found = runs_of(run(b"".join(NEW + text for text in texts)))
    check(f"stored scripts, {way}", len(found), len(scripts))
    for (name, rows), text, got in zip(scripts, texts, found):
        check(f"{name}, {way}", got, [row[1] for row in rows if len(row) > 1])
        if program and way == "plain":
            check(f"{name}, by the program", got, by_program(program, text))
    print(f"{len(scripts)} stored scripts of {sum(map(len, found))} replies, {way}", flush=True)


def hostile_scripts(run, way, program, known):
    """Bytes by chance, and bytes of commands in disorder; without those that driven.c takes for its own. Each way answers alike."""
    chance = random.Random(20261130)
    alphabet = b".t insert get index end 1.0\n\n\r\t\"{}\\#\x00\x80\xff\xc3\xa9"
    texts = [bytes(chance.randrange(2, 256) for _ in range(4096)) + b"\n" for _ in range(20)]
    texts += [bytes(chance.choice(alphabet) for _ in range(4096)) + b"\n" for _ in range(20)]
    texts += [b"a" * 1048576 + b"\n", b"a" * 1048577 + b"\n.t index end\n", b"a" * 1048576 + b"\r\n"]
    for at, (text, got) in enumerate(zip(texts, runs_of(run(b"".join(NEW + text for text in texts))))):
        check(f"hostile bytes {at}, {way}", got, known.setdefault(at, got))
        if program and way == "plain":
            check(f"hostile bytes {at}, by the program", got, by_program(program, text))


def reply_of(line):
    """The reply line of `receive` to what became of a file."""
    code, new, repeats, held, fault, offset = map(int, re.fullmatch(r"received (-?\d+) new (\d+) repeat (\d+) held (\d+) fault (\d+) at (\d+)", line).groups())
    if code:
        return line
    if fault:
        return f"! {fault} {FAULTS[fault]} at {offset} new {new} repeat {repeats}" + (f" held {held}" if held else "")
    return f"= {new} {repeats}" + (f" {held}" if held else "")


def is_change(line):
    return line.split(" ")[0] in ("insert", "delete", "tag", "untag")


def shown(line):
    """The characters that a dump tells, each with its tags, and the text's last newline."""
    words, tags, characters = words_of(line)[1:], set(), []
    for kind, value, _ in zip(words[::3], words[1::3], words[2::3]):
        if kind == "text":
            characters += [(it, frozenset(tags)) for it in value]
        elif kind == "tagon":
            tags.add(value)
        else:
            tags.discard(value)
    return characters


def changed(characters, line):
    """The characters after a change that the library told."""
    what, *words = words_of(line)
    if what == "insert":
        at = int(words[0])
        return characters[:at] + [(it, frozenset(words[2:])) for it in words[1]] + characters[at:]
    start, stop = int(words[-2]), int(words[-1])
    if what == "delete":
        return characters[:start] + characters[stop:]
    with_tag = (lambda tags: tags | {words[0]}) if what == "tag" else (lambda tags: tags - {words[0]})
    return characters[:start] + [(it, with_tag(tags)) for it, tags in characters[start:stop]] + characters[stop:]


def only_changes(characters, line):
    """Whether a change names no character outside of the text, and none that has a tag already, or has it no more."""
    what, *words = words_of(line)
    if what == "insert":
        return 0 <= int(words[0]) <= len(characters) and words[1] != ""
    start, stop = int(words[-2]), int(words[-1])
    of_tag = what == "delete" or all((words[0] in tags) == (what == "untag") for _, tags in characters[start:stop])
    return 0 <= start < stop <= len(characters) and of_tag


def replayed(before, lines):
    """The characters after changes, and whether each told only what changes."""
    only = True
    for line in lines:
        only = only and only_changes(before, line)
        before = changed(before, line)
    return before, only


def exchanged_files(run, way, program):
    """Two files, and the first once more, received by a site that has a text of its own."""
    for own in ("", ".t insert 1.0 mine"):
        pairs = list(itertools.product(FILES, repeat=2))
        text = b"".join(b"\x01site 0 2\n" + own.encode() + b"\n" + TEXT.encode() + b"\n"
                        + b"".join(b"\x01receive %s\n%s\n" % (FILES[name].hex().encode(), TEXT.encode()) for name in (one, two, one)) for one, two in pairs)
        found = runs_of(run(text))
        for pair, lines in zip(pairs, found):
            told = exchange(f"files {pair}, {way}", lines[1:] if own else lines)
            if program and way == "plain":
                check(f"files {pair} by the program", told, received_by_program(program, pair, own))
    print(f"{2 * len(pairs)} runs that receive files, {way}", flush=True)


def exchange(name, lines):
    """Replies to received files, with the changes that the library told of each replayed on the text before."""
    first, *rest = lines
    before, replies = shown(first), [first]
    while rest:
        reply = reply_of(rest[0])
        changes = list(itertools.takewhile(is_change, rest[1:]))
        after = rest[1 + len(changes)]
        check(f"{name}: changes", replayed(before, changes), (shown(after), True))
        before, replies, rest = shown(after), [*replies, reply, after], rest[2 + len(changes):]
    return replies


def received_by_program(program, pair, own):
    with tempfile.TemporaryDirectory() as folder:
        for name in pair:
            with open(os.path.join(folder, name), "wb") as file:
                file.write(FILES[name])
        lines = [own, TEXT] + [line for name in (*pair, pair[0]) for line in (f"receive {name}", TEXT)]
        words = [os.path.abspath(program), "run", "--site", "2", *pair]
        ran = subprocess.run(words, input="".join(line + "\n" for line in lines).encode(), capture_output=True, cwd=folder, timeout=600, check=False)
        return ran.stdout.decode().splitlines()[1 if own else 0:]


def edit(chance, more):
    """An edit at a place by chance, or one of some more."""
    at = f'"1.0 + {chance.randrange(40)} chars"'
    to = f'"1.0 + {chance.randrange(40)} chars"'
    text = spelled("".join(chance.choice("ab cde\nfü\t") for _ in range(chance.randrange(1, 6))))
    tag = chance.choice(("red", "big", "a\xe4", "two words"))
    return chance.choice((f".t insert {at} {text}", f".t insert {at} {text} {{{spelled(tag)}}}", f".t delete {at} {to}", f".t tag add {spelled(tag)} {at} {to}",
                          f".t tag remove {spelled(tag)} {at} {to}", f".t replace {at} {at} {text}", f".t delete {at} end", f".t tag add {spelled(tag)} {at} end",
                          ".t tag delete red big a\xe4", ".t get 1.0 end", *(it.format(at=at, text=text) for it in more)))


def edited(chance, more):
    """An edit with the text before and after it, and what the site tells of it."""
    return [TEXT, edit(chance, more), "\x01own", TEXT]


def group(chance, count):
    """Lines of sites that edit and exchange, and in the end all have the same."""
    lines = [line for site, number in zip(range(count), chance.choice(NUMBERS)) for line in (f"\x01site {site} {number}", ".t configure -undo 1")]
    # where an Insert doesn't list all of its tags, several Tags of one tag are made
    more = (".t edit undo", ".t edit redo", f".t insert {{at}} {{text}} {{{{{chance.choice((MANY, MORE))}}}}}")
    for _ in range(chance.randrange(10, 40)):
        one, other = chance.sample(range(count), 2)
        lines += [f"\x01use {one}"] + [line for _ in range(chance.randrange(4)) for line in edited(chance, more)] + [TEXT, f"\x01{chance.choice(('give', 'lack'))} {other}", TEXT]
    for _ in range(2):
        lines += [line for site in range(count) for other in range(count) if site != other for line in (f"\x01use {site}", TEXT, f"\x01lack {other}", TEXT)]
    return lines + [line for site in range(count) for line in (f"\x01use {site}", ".t get 1.0 end", TEXT, *ASKED, "\x01export")]


def groups(run, way, count):
    """Groups of sites: each file's changes replayed on the text before give the text after, and in the end all agree."""
    chance = random.Random(len(way))
    for number in range(count):
        sites = chance.randrange(2, 5)
        lines = run("".join(line + "\n" for line in group(chance, sites)).encode())
        at = 0
        while at < len(lines):
            what = lines[at].split(" ")[0]
            if what in ("received", "own"):
                changes = list(itertools.takewhile(is_change, lines[at + 1:]))
                # a line's own reply stands between the text before it and what it changed
                before = lines[at - 2] if what == "own" else next(it for it in reversed(lines[:at]) if it.startswith("="))
                check(f"group {number}, {way}: {what} changes", replayed(shown(before), changes), (shown(lines[at + 1 + len(changes)]), True))
            if what == "own":
                check(f"group {number}, {way}: own changes are known", lines[at].startswith("own 0 "), True)
            at += 1
        # the order of tags, which a dump follows, is each site's own
        told = 3 + len(ASKED)
        ends = [(text, shown(dump), rest) for text, dump, *rest in (lines[-told * (site + 1):][:told] for site in range(sites))]
        check(f"group {number}, {way}: all agree", all(it == ends[0] for it in ends), True)
        file = bytes.fromhex(ends[0][2][-1].removeprefix("exported 0 "))
        check(f"group {number}, {way}: a file", spelling([op for _, op in read(file).records]), file)
    print(f"{count} groups of sites, {way}", flush=True)
