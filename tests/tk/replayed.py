"""An hour's typing at random by a seed: windows with a folder each, between which files go late, cut and repeated."""
import random
import time

from driving.program import check
from notes import Note, Screen, keys_of

SITES = (1, 2, 3)
WORDS = "the a and of to in note list call tent bread milk eggs Monday early late ask Ann about six seven over".split()
ENDS = (" ", ", ", ". ", "\n", "?\n")
JUMPS = tuple(f"Control-{it}" for it in ("Left", "Right", "Home", "End"))
MOVES = ("Left", "Right", "Up", "Down", "Home", "End", "Prior", "Next", *JUMPS)
ERASERS = ("BackSpace", "BackSpace", "Delete", "Control-k", "Control-d", "Control-t", "Control-o")
SELECTORS = tuple(f"Shift-{it}" for it in ("Left", "Right", "Right", "Down", "Control-Right", "End"))
TAGGERS = [["Control-b"], ["Control-h"], ["Control-b", "Control-b"], ["Control-h", "Control-b", "Control-h"]]
# what is done with a selection
USES = [*TAGGERS, *TAGGERS, ["BackSpace"], ["n", "o"], ["Control-x"], ["Control-x", "End", "Control-v"]]
REVERTERS = ("Control-z", "Control-z", "Control-y")
PASTED = ("caf\u00e9 \u20ac5", "two\nlines", "\U0001f600 face", '"quoted" {braced} \\n $x [y]', "tab\there")


def records(file):
    """The head of a file of operations, and its records."""
    at, found = 8, []
    while at < len(file):
        end = at + 4 + int.from_bytes(file[at:at + 4], "big")
        found.append(file[at:end])
        at = end
    return file[:8], found


def damaged(chance, file):
    """A file as something may bring it: whole, cut short, or without some records, one of which may be none."""
    way = chance.randrange(10)
    if way < 4 or len(file) < 30:
        return "whole", file
    if way < 7:
        return "cut", file[:chance.randrange(len(file))]
    head, found = records(file)
    first = chance.randrange(len(found))
    past = min(len(found), first + chance.choice((1, 3, 20, 200)))
    if way < 9:
        return "with a gap", head + b"".join(found[:first] + found[past:])
    bad = found[first][:4] + b"\x09" + found[first][5:]
    return "with a bad record", head + b"".join(found[:first] + [bad] + found[first + 1:])


def quoted(text):
    return '"' + "".join(f"\\u{unit:04x}" for unit in memoryview(text.encode("utf-16")[2:]).cast("H")) + '"'


class Typist:
    """Presses keys in a note at random, a burst at a time."""

    def __init__(self, chance, note):
        self.chance, self.note = chance, note

    def burst(self):
        """Types for a while, and answers how many keys that took."""
        kinds = {"words": 50, "erase": 10, "move": 12, "click": 6, "select": 16, "undo": 8, "paste": 2, "pause": 4}
        return getattr(self, self.chance.choices([*kinds], [*kinds.values()])[0])()

    def press(self, keys):
        self.note.press(*keys)
        return len(keys)

    def some(self, keys, most):
        """One of some keys, pressed at most so many times."""
        return [self.chance.choice(keys)] * self.chance.randrange(1, most + 1)

    def words(self):
        text = " ".join(self.chance.choices(WORDS, k=self.chance.randrange(1, 9))) + self.chance.choice(ENDS)
        keys = keys_of(text)
        for at in range(len(keys) - 1, 0, -1):
            if self.chance.random() < 0.03:
                keys[at:at] = ["x", "BackSpace"]
        return self.press(keys)

    def erase(self):
        return self.press(self.some(ERASERS, 8))

    def move(self):
        return self.press(self.some(MOVES, 5))

    def click(self):
        self.note.ask(f"click {self.chance.random():.3f} {self.chance.random():.3f}")
        return 1

    def select(self):
        return self.press([*self.some(SELECTORS, 6), *self.chance.choice(USES)])

    def undo(self):
        return self.press(self.some(REVERTERS, 4))

    def paste(self):
        self.note.ask(f"paste {quoted(self.chance.choice(PASTED))}")
        return 1

    def pause(self):
        self.note.ask("pause")
        return 0


class Carrier:
    """Brings each site's files into the folders of the others, and keeps all versions of each."""

    def __init__(self, chance, folders):
        self.chance, self.folders = chance, folders
        self.versions = {number: [] for number in folders}
        self.carried = {}
        self.told = {"fresh": 0, "repeats": 0, "held": 0, "fault": 0}

    def keep(self, note):
        """Keeps what a site's file has now."""
        note.ask("save")
        path = self.folders[note.number] / f"{note.number}.ops"
        if path.is_file():
            file = path.read_bytes()
            if file not in self.versions[note.number][-1:]:
                self.versions[note.number].append(file)

    def put(self, giver, note, file):
        """Puts a file into another site's folder, as if it were new, and lets that look."""
        (self.folders[note.number] / f"{giver}.ops").write_bytes(file)
        counts = map(int, note.ask(f"look_anew {giver}.ops").split())
        for name, count in zip(("fresh", "repeats", "held", "fault"), counts):
            self.told[name] += count > 0 if name == "fault" else count

    def bring(self, giver, note):
        """Brings some version of a site's file, and its cursor."""
        versions = self.versions[giver]
        if not versions:
            return
        newest = self.chance.random() < 0.6
        way, file = damaged(self.chance, versions[-1] if newest else self.chance.choice(versions))
        name = way if newest else f"old {way}"
        self.carried[name] = self.carried.get(name, 0) + 1
        cursor = self.folders[giver] / f"{giver}.cursor"
        if cursor.is_file():
            (self.folders[note.number] / cursor.name).write_bytes(cursor.read_bytes())
        self.put(giver, note, file)


class Hour:
    """The windows, their typists, and who carries their files."""

    def __init__(self, screen, loaded, folder, seed):
        self.chance = random.Random(seed)
        self.screen, self.loaded = screen, loaded
        self.folders = {number: folder / f"replayed{number}" for number in SITES}
        self.notes = {number: self.begun(number) for number in SITES}
        self.carrier = Carrier(self.chance, self.folders)
        self.restarts, self.compared = 0, 0

    def begun(self, number):
        return Note(self.screen, self.loaded, self.folders[number], number, "stepped")

    def follows(self, note):
        """Whether a window shows what its site keeps."""
        self.compared += 1
        shown, kept = note.shown(), note.kept()
        if shown != kept:
            check(f"window {note.number} follows its site", shown, kept)
        return shown == kept

    def restart(self, note):
        """Ends a window or kills it, which loses what isn't saved. It is begun again by the files of its folder."""
        self.restarts += 1
        if self.chance.random() < 0.5:
            check("a window ends well", note.close(), 0)
        else:
            note.kill()
        note = self.notes[note.number] = self.begun(note.number)
        self.follows(note)

    def step(self):
        """A burst of keys in a window, and perhaps files for some. Their number; none where a window doesn't follow."""
        note = self.notes[self.chance.choice(SITES)]
        keys = Typist(self.chance, note).burst()
        if not self.follows(note):
            return None
        if self.chance.random() < 0.5:
            self.carrier.keep(note)
        for giver in SITES:
            taker = self.notes[self.chance.choice([it for it in SITES if it != giver])]
            if self.chance.random() < 0.2:
                self.carrier.bring(giver, taker)
                if not self.follows(taker):
                    return None
        if self.chance.random() < 0.006:
            self.restart(note)
        return keys

    def deliver_all(self):
        for note in self.notes.values():
            self.carrier.keep(note)
        for giver, versions in self.carrier.versions.items():
            for number, note in self.notes.items():
                if number != giver and versions:
                    self.carrier.put(giver, note, versions[-1])

    def close(self):
        for note in self.notes.values():
            note.kill()


def pressed(hour, keys):
    """Steps until so many keys were pressed; answers their number, or none where a window didn't follow its site."""
    count = 0
    while count < keys:
        more = hour.step()
        if more is None:
            return None
        count += more
    return count


def ends_equal(hour):
    """All windows show the same in the end, which is what each site keeps, and nothing is held."""
    hour.deliver_all()
    ends = [note.shown() for note in hour.notes.values()]
    check("all windows show the same in the end", ends, ends[:1] * len(SITES))
    check("which is what each site keeps", [note.kept() for note in hour.notes.values()], ends)
    for name, want in (("dict get [note receive [note export]] held", "0"), ("set draws", "0")):
        check(name, [note.ask(name) for note in hour.notes.values()], [want] * len(SITES))
    for name, count in hour.carrier.told.items():
        check(f"files were seen with {name}", count > 0, True)
    for name, count in changes_told(hour).items():
        check(f"changes were told of {name}", count > 0, True)


def changes_told(hour):
    """How many changes of each kind the sites told since their windows were begun."""
    counts = {}
    for note in hour.notes.values():
        words = note.ask("array get told_changes").split()
        for name, count in zip(words[::2], words[1::2]):
            counts[name] = counts.get(name, 0) + int(count)
    return counts


def counted(counts):
    return ", ".join(f"{count} {name}" for name, count in sorted(counts.items()))


def summary(hour, count, seconds, seed):
    told, note, files = hour.carrier.told, hour.notes[1], hour.carrier.carried
    text = note.ask("real get 1.0 end")
    ranges = int(note.ask("llength [concat [real tag ranges bold] [real tag ranges highlight]]")) // 2
    size = note.ask("string length [note export]")
    print(f"replayed: {count} keys in {seconds:.0f} s, by seed {seed}")
    print(f"windows and sites compared {hour.compared} times, windows begun again {hour.restarts} times")
    print(f"changes told by the last windows: {counted(changes_told(hour))}")
    print(f"files: {counted(files)}")
    print(f"{told['fresh']} operations accepted, {told['repeats']} repeats, {told['fault']} files with a fault")
    print(f"in the end {len(text)} characters, {text.count(chr(10))} lines, {ranges} ranges of tags, {size} bytes")


def replay(loaded, folder, keys, seed):
    begun = time.monotonic()
    with Screen("946x700") as screen:
        hour = Hour(screen, loaded, folder, seed)
        try:
            count = pressed(hour, keys)
            check("each window follows its site at each step", count is not None, True)
            if count is not None:
                ends_equal(hour)
                summary(hour, count, time.monotonic() - begun, seed)
        finally:
            hour.close()
