"""Lines whose allocations are refused in turn, each on the site that the lines before it have made, and what is asked behind them."""
import collections
import copy
import os

from driving.program import check
from modelled.files import spelling
from modelled.words import Refused, spelled, words_of
from refusing.runs import ENDED, NO_MEMORY, each_refusal, script_of
from refusing.scripts import KNOWN
from refusing.wanting import Wanting, ways

# the most bytes that one read of the program takes
PIECE = 1024
# commands of which the word behind tells more, and the others
FAMILIES = {"mark": ("set", "unset", "gravity", "names", "next", "previous"), "peer": ("create", "names"),
            "tag": ("add", "remove", "delete", "raise", "lower", "names", "ranges", "nextrange", "prevrange"),
            "edit": ("undo", "redo", "separator", "reset", "canundo", "canredo", "modified")}
ALONE = ("insert", "delete", "replace", "get", "index", "compare", "count", "search", "dump", "configure", "cget")
COMMANDS = {f"`{name}`" for name in (*ALONE, "receive", "destroy", *(f"{family} {word}" for family, words in FAMILIES.items() for word in words))}

# of a command how many lines, allocations that were refused, answers of NoMemory, and answers as with memory, of which nothing tells; the
# others are those of held operations that stayed
Count = collections.namedtuple("Count", "lines refusals wants wholes")
# what a run gives behind the lines before the row's: its reply lines and its log; the log without the lines behind the first questions;
# and the operations once a file was received again
Way = collections.namedtuple("Way", "lines log short taken")


class Table:
    """What was counted, by command."""

    def __init__(self):
        self.counts = collections.defaultdict(lambda: Count(0, 0, 0, 0))

    def add(self, name, refusals, wants, wholes):
        count = self.counts[name]
        self.counts[name] = Count(count.lines + 1, count.refusals + refusals, count.wants + wants, count.wholes + wholes)

    def print(self):
        print("| Command | Lines | Refusals | NoMemory | As with memory | A held one stays |\n|---|---|---|---|---|---|")
        total = Count(*map(sum, zip(*self.counts.values())))
        for name, count in [*sorted(self.counts.items()), ("together", total)]:
            print(f"| {name} | {' | '.join(f'{number:,}' for number in (*count, count.refusals - count.wants - count.wholes))} |")
        print(f"{total.refusals:,} refusals of {total.lines:,} lines of {len(self.counts)} commands and parts")


def command_of(line):
    """The name that the table has for the command of a line."""
    try:
        words = words_of(line)
    except Refused:
        return "lines that spell no words"
    if words[0] in ("receive", "destroy"):
        return f"`{words[0]}`"
    if words[1:2] and words[1] in ALONE:
        return f"`{words[1]}`"
    if words[2:] and words[2] in FAMILIES.get(words[1], ()):
        return f"`{words[1]} {words[2]}`"
    return "no command"


def probes(sites):
    """What is asked of a site: its text and all that its widgets show, the marks, the tags, the options and the stacks."""
    paths = list(dict.fromkeys(path for site in sites for path in site.paths))
    marks = sorted({mark for site in sites for mark in site.marks})
    lines = []
    for path in paths:
        lines += [f"{path} {words}" for words in (
            "get 1.0 end", "dump 1.0 end", "mark names", "tag names", "edit canundo", "edit canredo", "edit modified", "peer names",
            "cget -undo", "cget -autoseparators", "cget -maxundo", "cget -startline", "cget -endline")]
        lines += [f"{path} mark gravity {spelled(mark)}" for mark in marks]
    return lines


def ending(site):
    """Lines that show what is on the stacks, whether the last group takes further actions, and whether the flag is forced."""
    path = site.paths[-1]
    edits = ("insert end z", "edit undo", "edit undo", "edit undo", "edit redo", "edit redo")
    return [f"{path} {words}" for edit in edits for words in (edit, "get 1.0 end", "edit modified")]


def played(site, lines):
    """The replies to lines, and the site after them."""
    site = copy.deepcopy(site)
    return [site.answered(line) for line in lines], site


class Row:
    """A line on a site, and the ways that it may go. Behind it stand questions, the line again, for a file also the files that came
    before it (a held operation that found no memory has to be offered again), and questions again."""

    def __init__(self, number, before, site, line):
        files = list(dict.fromkeys(words[1] for words in map(str.split, [*before, line]) if words[:1] == ["receive"] and words[1:2] and words[1] in KNOWN))
        self.words = ("run", "--site", str(number), "--out", "out", *files)
        self.before, self.site, self.line = before, site, line
        is_file = line.startswith("receive ")
        again = [line, *(f"receive {name}" for name in files), line] if is_file else [line]
        found = ways(site, line)
        afters = [played(after, again)[1] for _, after in found]
        self.asked = probes([*(after for _, after in found), *afters])
        self.behind = [*self.asked, *again, *self.asked, *ending(afters[0])]
        self.ways = []
        for (reply, after), last in zip(found, afters):
            replies, end = played(after, self.behind)
            self.ways.append(Way([reply, *replies], spelling(end.ops), spelling(after.ops), set(map(str, last.ops)) if is_file else None))

    def run(self, library, number, behind):
        left = library.run(*self.words, script=script_of([*self.before, f"#refuse {number}", self.line, *behind]))
        return left._replace(lines=left.lines[len(self.before):])

    def is_ended(self, left):
        """Whether the run ended since a line that comes in several pieces found no memory."""
        return len(self.line.encode()) >= PIECE and left[:4] == ([], ENDED, 1, spelling(self.site.ops))

    def way_of(self, left):
        """The way that a run went, if it is one of those that there are."""
        return next((way for way in self.ways if left[:4] == (way.lines, "", 0, way.log)), None)

    def leaves(self, library, number, way):
        """Whether the line's operations, if it makes some, are in the log or not before it is given again."""
        if all(other.short == way.short for other in self.ways):
            return True
        left = self.run(library, number, self.asked)
        return (left.error, left.status, left.out) == ("", 0, way.short)

    def told(self, left):
        """Where a run first goes another way than each of the ways there are: the line, its reply, and those that it may have."""
        fronts = [os.path.commonprefix([way.lines, left.lines]) for way in self.ways]
        most = max(map(len, fronts))
        wants = {way.lines[most] for way, front in zip(self.ways, fronts) if len(front) == most < len(way.lines)}
        return f": {[self.line, *self.behind, 'the end'][most]:.100} {left.lines[most:most + 1]} and not {wants}, {left.error!r} {left.status}"

    def is_good(self, library, number, left):
        way = self.way_of(left)
        if way is None:
            return number is not None and self.is_ended(left)
        if number is None:
            return way.lines == self.ways[0].lines
        return way.taken == self.ways[0].taken and self.leaves(library, number, way)


def refused_script(library, table, name, number, script):
    """Refuses each allocation of each row of a script in turn, on a new site of a number. A row without a reply only comes before others."""
    site, before = Wanting(number, KNOWN), []
    for line, *reply in script:
        if reply:
            row = Row(number, list(before), site, line)
            want = row.ways[0].lines[0]
            check(f"{name}: the model of {line:.100}", want, reply[0] or want)
            refusals = wants = wholes = 0
            for refused, left in each_refusal(lambda refused, row=row: row.run(library, refused, row.behind)):
                is_good = row.is_good(library, refused, left)
                check(f"{name}: {line:.100} without allocation {refused}, behind {before[-20:]}{'' if is_good else row.told(left)}", is_good, True)
                refusals += refused is not None
                wants += left.lines[:1] == [] or left.lines[0].startswith(NO_MEMORY)
                wholes += refused is not None and left.lines == row.ways[0].lines
            table.add(command_of(line), refusals, wants, wholes)
        site.answered(line)
        before.append(line)
