"""The plain model of a site: a widget over the operations that it has accepted, which are all read again after each
(docs/REPLICATION.md)."""
import collections
import re

from modelled.files import TWO, Delete, Insert, Tag, last_count, made, named, spans_of, stamp, stamps_of
from modelled.undo import Action, Undo
from modelled.widget import Widget, shared
from modelled.words import BAD_COMMAND, BAD_OPTION, NOTHING_TO_REDO, NOTHING_TO_UNDO, Refused

ROOT_STAMP, FINAL_STAMP = (0, 0), (1, 0)
# what is answered to an operation that is offered
NEW, REPEAT, EARLY, CONFLICT, BAD_TARGET = "new", "repeat", "early", "! 35 Conflict", "! 37 BadTarget"
TRUTHS = {"1": True, "true": True, "yes": True, "on": True, "0": False, "false": False, "no": False, "off": False}
MOST_GROUPS = 2**63 - 1


def cells(ops):
    """The characters of a history, with their stamps, whether they are visible, and their shared tags: a tree read depth first,
    of the children of an element the greater stamp first. A tag is on a character where the greatest of what was said of it
    says on."""
    children, chars, gone, said = collections.defaultdict(list), {FINAL_STAMP: "\n"}, set(), collections.defaultdict(dict)
    children[ROOT_STAMP].append(FINAL_STAMP)
    for op in sorted(ops, key=stamp):
        if isinstance(op, Insert):
            left = op.after
            for here, char in zip(made(op), op.text):
                children[left].append(here)
                chars[here], left = char, here
                for tag in op.tags:
                    said[here].setdefault(tag, True)
        elif isinstance(op, Delete):
            gone |= set(stamps_of(op))
        else:
            # by rising stamp, so the last is the greatest; each is greater than the Inserts of what it names
            for here in stamps_of(op):
                said[here][op.name] = op.on
    order, rest = [], [ROOT_STAMP]
    while rest:
        here = rest.pop()
        order.append(here)
        rest += sorted(children[here])
    return [(here, chars[here], here not in gone, frozenset(t for t, on in said[here].items() if on)) for here in order if here in chars]


def listed_tags(tags):
    """The shared tags that an Insert takes along, and those for which a Tag follows."""
    names = sorted(shared(tags), key=str.encode)
    return frozenset(names[:TWO.most_tags]), names[TWO.most_tags:]


def reading(ops):
    """The visible characters of a history, with their stamps and shared tags."""
    return [(here, char, tags) for here, char, is_visible, tags in cells(ops) if is_visible]


def truth(word):
    if word not in TRUTHS:
        raise Refused(BAD_OPTION)
    return TRUTHS[word]


def most_groups(word):
    """What -maxundo is set to: a number of groups, or 0 for any number of them."""
    if not re.fullmatch("-?[0-9]+", word):
        raise Refused(BAD_OPTION)
    return max(0, min(int(word), MOST_GROUPS))


# the options that all widgets of a site share, with what reads a value
SHARED = {"-undo": truth, "-autoseparators": truth, "-maxundo": most_groups}


class Site(Widget):
    """A site: the widget, the stamps of its characters, the operations that it has accepted, those that it holds, and the undo stacks."""

    # what can be set, with what reads a value
    options = SHARED

    def __init__(self, site):
        super().__init__()
        self.site, self.ops, self.held, self.stamps = site, [], [], [FINAL_STAMP]
        self.undo, self.put_in, self.taken_away = Undo(), [], []

    def known_end(self, site):
        return max((last_count(op) for op in self.ops if op.site == site), default=0)

    def next_count(self):
        return max(map(last_count, self.ops), default=0) + 1

    def own(self, kind, *fields):
        return kind(self.next_count(), self.site, self.known_end(self.site), *fields)

    def make(self, kind, *fields):
        self.ops.append(self.own(kind, *fields))
        return self.ops[-1]

    # own edits

    def has_inserted(self, p, new, tags):
        first, rest = listed_tags(tags)
        op = self.make(Insert, self.stamps[p - 1] if p else ROOT_STAMP, new, first)
        self.stamps[p:p] = made(op)
        self.put_in += made(op)
        for name in rest:
            self.make(Tag, spans_of(made(op)), True, name)

    def shown_at(self, places):
        """What is visible at places: stamps, characters and shared tags."""
        return [(self.stamps[p], self.text[p], shared(self.tags[p])) for p in places]

    def is_removing(self, gone, cleared):
        self.taken_away += self.shown_at(gone)
        if gone:
            self.make(Delete, spans_of(self.stamps[p] for p in gone))
        for p in cleared:
            for tag in sorted(shared(self.tags[p]), key=str.encode):
                self.make(Tag, spans_of([self.stamps[p]]), False, tag)
        self.stamps = [here for p, here in enumerate(self.stamps) if p not in set(gone)]

    def is_tagging(self, name, places, on):
        if places and name != "sel":
            self.make(Tag, spans_of(self.stamps[p] for p in places), on, name)

    # undo

    def revert(self, action):
        """The reverted action, and the stamps of characters that came back with their new ones."""
        gone = [p for p, here in enumerate(self.stamps) if here in action.put]
        taken, order = self.shown_at(gone), [here for here, *_ in cells(self.ops)]
        if gone:
            self.take(self.own(Delete, spans_of(here for here, *_ in taken)))
        renamed = []
        for old, char, tags in sorted(action.taken, key=lambda t: order.index(t[0])):
            first, rest = listed_tags(tags)
            op = self.own(Insert, old, char, first)
            self.take(op)
            for name in rest:
                self.take(self.own(Tag, spans_of(made(op)), True, name))
            renamed.append((old, stamp(op)))
        return Action(action.number, action.kind, [new for _, new in renamed], taken), renamed

    def edit(self, words):
        undo = self.undo
        most = {"undo": 1, "redo": 1, "separator": 1, "reset": 1, "canundo": 1, "canredo": 1, "modified": 2}.get(words[0], 0) if words else -1
        if len(words) > most:
            raise Refused(BAD_COMMAND)
        if words == ["modified"]:
            return [str(int(undo.is_modified()))]
        if words[0] == "modified":
            undo.set_modified(truth(words[1]))
        elif words[0] == "separator":
            undo.separate()
        elif words[0] == "reset":
            undo.reset()
        elif words[0] in ("canundo", "canredo"):
            return [str(int(undo.is_on and bool(undo.done if words[0] == "canundo" else undo.undone)))]
        elif undo.is_on:
            source, target, fault = (undo.done, undo.undone, NOTHING_TO_UNDO) if words[0] == "undo" else (undo.undone, undo.done, NOTHING_TO_REDO)
            if not source:
                raise Refused(fault)
            undo.move(source, target, self.revert)
        return []

    def configure(self, words):
        if not words or len(words) % 2:
            raise Refused(BAD_COMMAND)
        self.set_options(self.settings(words))
        return []

    def settings(self, words):
        """What pairs of words set options to; of several values of one the last counts."""
        if not set(words[::2]) <= set(self.options):
            raise Refused(BAD_OPTION)
        return {option: self.options[option](word) for option, word in zip(words[::2], words[1::2])}

    def set_options(self, settings):
        self.undo.is_on = settings.get("-undo", self.undo.is_on)
        self.undo.separates = settings.get("-autoseparators", self.undo.separates)
        if "-maxundo" in settings:
            self.undo.set_most(settings["-maxundo"])

    def cget(self, words):
        if len(words) != 1:
            raise Refused(BAD_COMMAND)
        values = {"-undo": self.undo.is_on, "-autoseparators": self.undo.separates, "-maxundo": self.undo.most}
        if words[0] not in values:
            raise Refused(BAD_OPTION)
        return [str(int(values[words[0]]))]

    def command(self, name, words):
        """The reply to a command; where it made operations, those that are held are tried then."""
        made_before = len(self.ops)
        reply = self.asked(name, words)
        if len(self.ops) > made_before:
            self.settle()
        return reply

    def asked(self, name, words):
        if name == "edit":
            return self.edit(words)
        if name == "configure":
            return self.configure(words)
        if name == "cget":
            return self.cget(words)
        self.put_in, self.taken_away, number = [], [], self.next_count()
        reply = super().command(name, words)
        if self.put_in or self.taken_away:
            self.undo.record(Action(number, name, self.put_in, self.taken_away))
        return reply

    # operations that are accepted

    def take(self, op):
        """Shows a history with one more operation."""
        own = {here: tags - shared(tags) for here, tags in zip(self.stamps, self.tags)}
        before, self.ops = self.stamps, [*self.ops, op]
        read = reading(self.ops)
        self.stamps, self.text = [here for here, _, _ in read], "".join(char for _, char, _ in read)
        self.tags = [tags | own.get(here, frozenset()) for here, _, tags in read]
        if isinstance(op, Insert):
            self.marks_inserted(self.stamps.index(stamp(op)), len(op.text))
            self.listed(sorted(op.tags, key=str.encode))
        else:
            self.marks_removed({p for p, here in enumerate(before) if here not in set(self.stamps)})
            if isinstance(op, Tag) and op.on:
                self.listed([op.name])

    def answer_to(self, op):
        """What is answered to an operation that is offered: REPEAT, CONFLICT, EARLY, BAD_TARGET or NEW, the first that applies."""
        if op in self.ops:
            return REPEAT
        end = self.known_end(op.site)
        if op.prev != end:
            return CONFLICT if op.prev < end else EARLY
        known = {FINAL_STAMP, ROOT_STAMP}.union(*map(made, self.ops))
        missing = [(count, site) for count, site in named(op) if (count, site) not in known]
        # none is there, and none will be: of its own site, or of counts that another site has passed
        if any(site == op.site or count <= self.known_end(site) for count, site in missing):
            return BAD_TARGET
        return EARLY if missing else NEW

    def take_and_note(self, op):
        before = self.stamps
        self.take(op)
        if self.stamps != before:
            self.undo.is_forced = True

    def settle(self):
        """Takes held operations until none can be, the least stamp first, and drops those that are refused for good; tells how
        many were taken."""
        count = 0
        while ready := [op for op in self.held if self.answer_to(op) != EARLY]:
            op = min(ready, key=stamp)
            self.held.remove(op)
            if self.answer_to(op) == NEW:
                self.take_and_note(op)
                count += 1
        return count

    def accept(self, op):
        """How many operations are new by one that is offered, none where it is a repeat or held; and its fault, if it is refused."""
        answer = self.answer_to(op)
        if answer == NEW:
            self.take_and_note(op)
            return 1 + self.settle(), None
        if answer == EARLY and op not in self.held:
            self.held.append(op)
        return 0, answer if answer in (CONFLICT, BAD_TARGET) else None

    def receive(self, file):
        """The reply to a file that was read."""
        new = repeats = 0
        fault, at = file.fault, file.end
        for offset, op in file.records:
            again = op in self.ops or op in self.held and self.answer_to(op) == EARLY
            more, refusal = self.accept(op)
            if refusal:
                fault, at = refusal, offset
                break
            repeats, new = repeats + again, new + more
        held = len(self.held)
        if fault:
            return f"{fault} at {at} new {new} repeat {repeats}" + (f" held {held}" if held else "")
        return f"= {new} {repeats}" + (f" {held}" if held else "")

    def is_sound(self):
        """Whether the widget shows what its operations say."""
        return reading(self.ops) == [(here, char, shared(tags)) for here, char, tags in zip(self.stamps, self.text, self.tags)]
