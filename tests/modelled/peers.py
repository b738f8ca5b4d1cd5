"""The plain model of the widgets of a site. The one that commands has its own marks and its selection under their names;
those of the others stand aside, marked by their paths, and take part in each edit. A widget may show some lines alone: then
what it says is that of a text which is these lines, and its edits stay within them."""
import contextlib

from modelled.sites import SHARED, Site, cells
from modelled.widget import Widget
from modelled.words import BAD_COMMAND, BAD_NAME, BAD_OPTION, Refused, spelled

NO_WIDGET, WIDGET_EXISTS, LAST_WIDGET, BAD_VIEW = "! 5 NoWidget", "! 6 WidgetExists", "! 16 LastWidget", "! 15 BadView"
OWN_MARKS = ("insert", "current")
# the commands that change nothing
READING = ("get", "index", "compare", "count", "search", "dump")
READING_ACTIONS = {"mark": ("next", "previous"), "tag": ("names", "ranges", "nextrange", "prevrange")}


def line_asked(word):
    """What a limit is set to: no line, or one by its number."""
    if word and not (word.isascii() and word.isdigit()):
        raise Refused(BAD_OPTION)
    return int(word) if word else None


class Peers(Site):
    options = {**SHARED, "-startline": line_asked, "-endline": line_asked}

    def __init__(self, site):
        super().__init__(site)
        self.paths, self.leader = [".t"], ".t"
        # of each widget the stamps of the newlines before its first line and of its last one
        self.limits, self.is_apart = {".t": (None, None)}, False

    # what a widget shows

    def line_of_stamp(self, stamp):
        """The line that holds the place of a newline, and whether that is gone."""
        place = 0
        for here, _, is_visible, _ in cells(self.ops):
            if here == stamp:
                return self.line(place), not is_visible
            place += is_visible

    def shown_lines(self, path):
        start, end = self.limits[path]
        last = self.line_of_stamp(end)[0] if end else self.lines()
        first = 1
        if start:
            line, is_gone = self.line_of_stamp(start)
            first = line if is_gone else line + 1
        return min(first, last), last

    def begin(self):
        return 0 if self.is_apart else self.start(self.shown_lines(self.leader)[0])

    def end(self):
        return len(self.text) if self.is_apart else self.start(self.shown_lines(self.leader)[1] + 1)

    @contextlib.contextmanager
    def shown(self):
        """The lines that are shown, as if they were the whole text."""
        whole, a, b = (self.text, self.tags, self.marks), self.begin(), self.end()
        self.marks = {name: [max(a, min(p, b - (name == "insert"))) - a, gravity] for name, (p, gravity) in self.marks.items()}
        self.text, self.tags, self.is_apart = self.text[a:b], self.tags[a:b], True
        try:
            yield
        finally:
            (self.text, self.tags, self.marks), self.is_apart = whole, False

    def index(self, word):
        """The place of an index in the whole text, or among the lines that are shown while these are apart."""
        if self.is_apart:
            return super().index(word)
        with self.shown():
            place = super().index(word)
        return self.begin() + place

    # limits

    def limits_set(self, settings):
        """The limits of the widget that commands, with those that are named."""
        (first, last), lines, (start, end) = self.shown_lines(self.leader), self.lines(), self.limits[self.leader]
        if "-startline" in settings:
            first = 1 if settings["-startline"] is None else settings["-startline"]
        behind = last + 1
        if "-endline" in settings:
            behind = lines + 1 if settings["-endline"] is None else settings["-endline"]
        if not 1 <= first < behind <= lines + 1:
            raise Refused(BAD_VIEW)
        if "-startline" in settings:
            start = self.stamps[self.start(first) - 1] if first > 1 else None
        if "-endline" in settings:
            end = self.stamps[self.start(behind) - 1] if behind <= lines else None
        return start, end

    def set_options(self, settings):
        self.limits[self.leader] = self.limits_set(settings)
        super().set_options(settings)

    def cget(self, words):
        if words == ["-startline"] or words == ["-endline"]:
            first, last = self.shown_lines(self.leader)
            start, end = self.limits[self.leader]
            if words == ["-startline"]:
                return [str(first) if start else ""]
            return [str(last + 1) if end else ""]
        return super().cget(words)

    def revert(self, action):
        reverted, renamed = super().revert(action)
        for old, new in renamed:
            self.limits = {path: tuple(new if stamp == old else stamp for stamp in limits) for path, limits in self.limits.items()}
        return reverted, renamed

    # the widgets

    def lead(self, path):
        """The widget of a path commands from here on."""
        if path == self.leader:
            return
        for name in OWN_MARKS:
            self.others[self.leader, name] = self.marks[name]
            self.marks[name] = self.others.pop((path, name))
        names = {"sel": ("sel", self.leader), ("sel", path): "sel"}
        self.tags = [frozenset(names.get(tag, tag) for tag in tags) for tags in self.tags]
        self.leader = path

    def create(self, words):
        path, words = words[0], words[1:]
        if len(words) % 2:
            raise Refused(BAD_COMMAND)
        settings = self.settings(words)
        if not path.startswith(".") or path == ".":
            raise Refused(BAD_NAME)
        if path in self.paths:
            raise Refused(WIDGET_EXISTS)
        self.limits[path] = self.limits_set(settings)
        Site.set_options(self, settings)
        self.paths.append(path)
        begin = self.start(self.shown_lines(path)[0])
        self.others.update({(path, name): [begin, "right"] for name in OWN_MARKS})
        return [path]

    def peer(self, words):
        if words[:1] == ["create"] and len(words) > 1:
            return self.create(words[1:])
        if words == ["names"]:
            return [path for path in self.paths if path != self.leader]
        raise Refused(BAD_COMMAND)

    def destroy(self, words):
        if len(words) != 1:
            raise Refused(BAD_COMMAND)
        path = words[0]
        if path not in self.paths:
            raise Refused(NO_WIDGET)
        if self.paths == [path]:
            raise Refused(LAST_WIDGET)
        self.paths.remove(path)
        del self.limits[path]
        self.lead(self.paths[0])
        for name in OWN_MARKS:
            del self.others[path, name]
        self.tags = [tags - {("sel", path)} for tags in self.tags]
        return []

    def command(self, name, words):
        if name == "peer":
            return self.peer(words)
        if name in READING or words and words[0] in READING_ACTIONS.get(name, ()):
            with self.shown():
                return Widget.command(self, name, words)
        return super().command(name, words)

    def reply_to(self, words):
        """The reply line to a line of a script."""
        try:
            if words[0] == "destroy":
                reply = self.destroy(words[1:])
            elif words[0] not in self.paths:
                raise Refused(NO_WIDGET)
            else:
                self.lead(words[0])
                reply = self.command(words[1], words[2:])
        except Refused as fault:
            return str(fault)
        return " ".join(["=", *map(spelled, reply)])
