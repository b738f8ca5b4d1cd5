"""The plain model of a widget: a list of characters with their tags, a table of marks, and the list of tags."""
import re

from modelled.words import BACKWARDS_RANGE, BAD_COMMAND, BAD_INDEX, BAD_NAME, BAD_OPTION, EMPTY_PATTERN, NONE_TAGGED, NO_MARK, NO_TAG, Refused, spelled, words_of

POSITION = re.compile(r"([0-9]+)\.([0-9]+|end)\Z")
# a modifier: a count, or a keyword
COUNT = re.compile(r" *([+-]) *([+-]?)([0-9]+) *(?:any +)?([a-z]+)(?![A-Za-z])")
KEYWORD = re.compile(r" +(?:any +)?([a-z]+)(?![A-Za-z])")
KEYWORDS = ("linestart", "lineend", "wordstart", "wordend")
UNITS = ("chars", "indices", "lines")
SEARCH_SWITCHES = ("-forwards", "-backwards", "-exact", "-nocase", "-all", "-overlap", "-strictlimits")
DUMP_SWITCHES = ("-all", "-mark", "-tag", "-text")


def shared(tags):
    """The tags that aren't a widget's own, as `sel` is; that of another widget is `sel` with its path."""
    return frozenset(tag for tag in tags if tag != "sel" and isinstance(tag, str))


def is_word(c):
    return c == "_" or c.isalpha() or c.isdecimal()


def folded(c):
    """The simple case folding of a character, as far as the full one shows it."""
    return "ß" if c == "ẞ" else c.casefold() if len(c.casefold()) == 1 else c


def switches_of(words, end=None):
    """The words in front that begin with a minus, up to an end of the switches, and the words behind."""
    at = next((i for i, w in enumerate(words) if not w.startswith("-") or w == end), len(words))
    return words[:at], words[at + (words[at:at + 1] == [end]):]


def names_checked(names):
    if not all(1 <= len(name.encode()) <= 255 for name in names):
        raise Refused(BAD_NAME)


class Widget:
    def __init__(self):
        self.text = "\n"
        # the tags of each character, `sel` among them, and the listed tags
        self.tags = [frozenset()]
        self.names = ["sel"]
        self.marks = {"insert": [0, "right"], "current": [0, "right"]}
        # the own marks of the other widgets, by their paths and names
        self.others = {}

    # what the widget shows of the text: the places from one up to before another

    def begin(self):
        return 0

    def end(self):
        return len(self.text)

    # places

    def lines(self):
        return self.text.count("\n")

    def start(self, line):
        """The first place of a line, which may be the line of the end."""
        return sum(len(x) + 1 for x in self.text.split("\n")[:line - 1])

    def line(self, place):
        return 1 + self.text[:place].count("\n")

    def character(self, line, character):
        """A character of a line, or its newline."""
        return min(self.start(line) + character, self.start(line + 1) - 1)

    def position(self, place):
        line = self.line(place)
        return f"{line}.{place - self.start(line)}"

    # indices

    def base(self, word):
        token = re.match(r"[^ +-]*", word).group()
        at = POSITION.match(token)
        n = len(self.text)
        if at:
            line, rest = int(at[1]), word[len(token):]
            if line == 0:
                return 0, rest
            if line > self.lines():
                return n, rest
            return (self.start(line + 1) - 1 if at[2] == "end" else self.character(line, int(at[2]))), rest
        if token == "end":
            return n, word[3:]
        if token in self.marks:
            return self.marks[token][0], word[len(token):]
        for size in range(len(word), 0, -1):
            name, _, end = word[:size].rpartition(".")
            if name in self.names and end in ("first", "last") and word[size:size + 1] in ("", " ", "+", "-"):
                tagged = [p for p in range(n) if name in self.tags[p]]
                return (None if not tagged else tagged[0] if end == "first" else tagged[-1] + 1), word[size:]
        raise Refused(BAD_INDEX)

    def modifiers(self, rest):
        found = []
        while rest.strip(" "):
            m = COUNT.match(rest)
            if m:
                units = [u for u in UNITS if u.startswith(m[4])]
                if not units:
                    raise Refused(BAD_INDEX)
                # no two units begin alike
                found.append((units[0], (-1 if m[1] == "-" else 1) * (-1 if m[2] == "-" else 1), int(m[3])))
            else:
                m = KEYWORD.match(rest)
                words = [k for k in KEYWORDS if m and len(m[1]) >= 5 and k.startswith(m[1])]
                if not words:
                    raise Refused(BAD_INDEX)
                found.append((words[0], 1, 0))
            rest = rest[m.end():]
        return found

    def moved(self, p, kind, sign, k):
        n, text = len(self.text), self.text
        if kind in ("chars", "indices"):
            return max(0, min(n, p + sign * k))
        if p == n:
            if kind == "lines" and sign < 0 and k > 0:
                return self.start(max(self.lines() + 1 - k, 1))
            return n
        line = self.line(p)
        if kind == "lines":
            return self.character(max(1, min(self.lines(), line + sign * k)), p - self.start(line))
        if kind == "linestart":
            return self.start(line)
        if kind == "lineend":
            return self.start(line + 1) - 1
        low = high = p
        if is_word(text[p]):
            while low > 0 and is_word(text[low - 1]):
                low -= 1
            while is_word(text[high]):
                high += 1
        else:
            high = p + 1
        return low if kind == "wordstart" else p if p == n - 1 else high

    def index(self, word):
        p, rest = self.base(word)
        modifiers = self.modifiers(rest)
        if p is None:
            raise Refused(NONE_TAGGED)
        for m in modifiers:
            p = self.moved(p, *m)
        return p

    # edits

    # what a site makes operations of: characters put in, characters taken away (and the tags of the last newline that is shown,
    # where it is cleared), a tag put on characters or taken off

    def has_inserted(self, p, new, tags):
        pass

    def is_removing(self, gone, cleared):
        pass

    def is_tagging(self, name, places, on):
        pass

    def listed(self, names):
        self.names += [name for name in names if name not in self.names]

    def insert(self, p, new, names):
        """Text with a list of tags, or without one."""
        if not new:
            return p
        if names is None:
            tags = self.tags[p - 1] & self.tags[p] if self.begin() < p < self.end() else frozenset()
        else:
            tags = frozenset(names)
        self.text = self.text[:p] + new + self.text[p:]
        self.tags[p:p] = [tags] * len(new)
        self.listed(sorted(shared(tags), key=str.encode))
        self.marks_inserted(p, len(new))
        self.has_inserted(p, new, tags)
        return p + len(new)

    def marks_inserted(self, p, n):
        for mark in [*self.marks.values(), *self.others.values()]:
            if mark[0] > p or mark[0] == p and mark[1] == "right":
                mark[0] += n

    def marks_removed(self, gone):
        for mark in [*self.marks.values(), *self.others.values()]:
            mark[0] = sum(p not in gone for p in range(mark[0]))

    def lists(self, words):
        """The tag lists of texts in pairs."""
        lists = [words_of(w) for w in words[1::2]]
        names_checked([name for names in lists for name in names])
        return lists

    def put(self, p, words, lists):
        """Texts in pairs with their lists, the last perhaps without one."""
        p = min(p, self.end() - 1)
        for i, new in enumerate(words[::2]):
            p = self.insert(p, new, lists[i] if i < len(lists) else None)

    def inserted(self, words):
        if len(words) < 2:
            raise Refused(BAD_COMMAND)
        lists = self.lists(words[1:])
        self.put(self.index(words[0]), words[1:], lists)

    def replaced(self, words):
        if len(words) < 3:
            raise Refused(BAD_COMMAND)
        lists = self.lists(words[2:])
        a, b = self.index(words[0]), self.index(words[1])
        if b < a:
            raise Refused(BACKWARDS_RANGE)
        self.remove([(a, b)])
        self.put(a, words[2:], lists)

    def pairs(self, words):
        places = [self.index(w) for w in words]
        if len(places) % 2:
            places.append(places[-1] + 1)
        return list(zip(places[::2], places[1::2]))

    def delete(self, words):
        self.remove(self.pairs(words))

    def remove(self, ranges):
        n, merged = self.end(), []
        for a, b in sorted((a, min(b, n)) for a, b in ranges if a < min(b, n)):
            if merged and a <= merged[-1][1]:
                merged[-1][1] = max(b, merged[-1][1])
            else:
                merged.append([a, b])
        gone, cleared = set(), []
        for a, b in merged:
            gone |= set(range(a, b))
            if b == n:
                gone.discard(n - 1)
                cleared = [n - 1]
                if a > self.begin() and self.text[a - 1] == "\n":
                    gone.add(a - 1)
        self.is_removing(sorted(gone), cleared)
        for p in cleared:
            self.tags[p] = frozenset()
        self.marks_removed(gone)
        self.text = "".join(c for p, c in enumerate(self.text) if p not in gone)
        self.tags = [tags for p, tags in enumerate(self.tags) if p not in gone]

    # tags

    def ranges(self, name):
        """The longest runs of characters that have a tag."""
        has = [False, *(name in tags for tags in self.tags), False]
        borders = [p for p in range(len(has) - 1) if has[p] != has[p + 1]]
        return list(zip(borders[::2], borders[1::2]))

    def positions(self, ranges):
        return [self.position(p) for r in ranges for p in r]

    def tag(self, words):
        if not words:
            raise Refused(BAD_COMMAND)
        action, words = words[0], words[1:]
        least, most = {"add": (2, 99), "remove": (2, 99), "delete": (1, 99), "raise": (1, 2), "lower": (1, 2), "names": (0, 1), "ranges": (1, 1),
                       "nextrange": (2, 3), "prevrange": (2, 3)}.get(action, (1, 0))
        if not least <= len(words) <= most:
            raise Refused(BAD_COMMAND)
        n = len(self.text)
        if action == "names":
            if not words:
                return list(self.names)
            p = self.index(words[0])
            return [name for name in self.names if p < n and name in self.tags[p]]
        names_checked(words if action in ("delete", "raise", "lower") else words[:1])
        if action == "delete":
            for name in words:
                if name != "sel":
                    self.is_tagging(name, [p for p in range(n) if name in self.tags[p]], False)
                    self.tags = [tags - {name} for tags in self.tags]
                    self.names = [x for x in self.names if x != name]
            return []
        if action in ("raise", "lower"):
            if not set(words) <= set(self.names):
                raise Refused(NO_TAG)
            if words[0] != words[-1] or len(words) == 1:
                self.names.remove(words[0])
                at = (len(self.names) if action == "raise" else 0) if len(words) == 1 else self.names.index(words[1]) + (action == "raise")
                self.names.insert(at, words[0])
            return []
        if action in ("add", "remove"):
            covered = sorted({p for a, b in self.pairs(words[1:]) for p in range(a, min(b, self.end()))})
            self.is_tagging(words[0], [p for p in covered if (words[0] in self.tags[p]) != (action == "add")], action == "add")
            for p in covered:
                self.tags[p] = self.tags[p] | {words[0]} if action == "add" else self.tags[p] - {words[0]}
            if action == "add":
                self.listed(words[:1])
            return []
        ranges = self.ranges(words[0])
        if action == "ranges":
            return self.positions(ranges)
        places = [self.index(w) for w in words[1:]]
        if action == "nextrange":
            a, b = (places + [n])[:2]
            return self.positions([r for r in ranges if a <= r[0] < b][:1])
        a, b = (places + [0])[:2]
        return self.positions([r for r in ranges if b <= r[0] < a][-1:])

    # marks

    def ordered(self):
        return sorted((p, g == "right", name.encode(), name) for name, (p, g) in self.marks.items())

    def named(self, word):
        return word in self.marks and word != "end" and not POSITION.match(word)

    def mark(self, words):
        if not words:
            raise Refused(BAD_COMMAND)
        action, words = words[0], words[1:]
        least, most = {"set": (2, 2), "unset": (1, 99), "gravity": (1, 2), "names": (0, 0), "next": (1, 1), "previous": (1, 1)}.get(action, (1, 0))
        if not least <= len(words) <= most:
            raise Refused(BAD_COMMAND)
        if action == "names":
            return sorted(self.marks, key=str.encode)
        if action in ("next", "previous"):
            marks = self.ordered()
            if self.named(words[0]):
                here = [m[3] for m in marks].index(words[0])
                found = marks[here + 1:] if action == "next" else marks[:here]
            else:
                p = self.index(words[0])
                found = [m for m in marks if (m[0] >= p if action == "next" else m[0] < p)]
            return [(found[0] if action == "next" else found[-1])[3]] if found else []
        if action == "gravity" and len(words) == 2 and words[1] not in ("left", "right"):
            raise Refused(BAD_OPTION)
        if not all(1 <= len(w.encode()) <= 255 for w in (words[:1] if action != "unset" else words)):
            raise Refused(BAD_NAME)
        if action == "set":
            p = self.index(words[1])
            if words[0] == "insert":
                p = min(p, self.end() - 1)
            self.marks.setdefault(words[0], [0, "right"])[0] = p
            return []
        if action == "unset":
            for w in words:
                if w not in ("insert", "current"):
                    self.marks.pop(w, None)
            return []
        if words[0] not in self.marks:
            raise Refused(NO_MARK)
        if len(words) == 1:
            return [self.marks[words[0]][1]]
        self.marks[words[0]][1] = words[1]
        return []

    # searches

    def search(self, words):
        switches, words = switches_of(words, "--")
        if len(words) not in (2, 3):
            raise Refused(BAD_COMMAND)
        if not set(switches) <= set(SEARCH_SWITCHES) or "-overlap" in switches and "-all" not in switches:
            raise Refused(BAD_OPTION)
        i, stops = self.index(words[1]), [self.index(w) for w in words[2:]]
        if not words[0]:
            raise Refused(EMPTY_PATTERN)
        ways = [s for s in switches if s in ("-forwards", "-backwards")]
        is_back, n = ways[-1:] == ["-backwards"], len(self.text)
        if stops:
            stretches = [(stops[0], i) if is_back else (i, stops[0])]
        else:
            stretches = [(0, i), (i, n)] if is_back else [(i, n), (0, i)]
        same = folded if "-nocase" in switches else str
        pattern, text, taken = [same(c) for c in words[0]], [same(c) for c in self.text], []
        for a, b in stretches:
            for p in reversed(range(a, b)) if is_back else range(a, b):
                if text[p:p + len(pattern)] != pattern or "-strictlimits" in switches and p + len(pattern) > b:
                    continue
                if "-overlap" in switches or all(abs(p - q) >= len(pattern) for q in taken):
                    taken.append(p)
        return [self.position(p) for p in (taken if "-all" in switches else taken[:1])]

    # dumps

    def dump(self, words):
        switches, words = switches_of(words)
        if len(words) not in (1, 2):
            raise Refused(BAD_COMMAND)
        if not set(switches) <= set(DUMP_SWITCHES):
            raise Refused(BAD_OPTION)
        n, a = len(self.text), self.index(words[0])
        b = self.index(words[1]) if len(words) == 2 else min(a + 1, n)
        shown = [kind for kind in ("-tag", "-mark", "-text") if not switches or "-all" in switches or kind in switches]
        # the elements at each place
        found = {p: [] for p in [*range(a, b), *([n] if b == n else [])]}
        ranges = [(name, *r) for name in self.names for r in self.ranges(name)]
        for p, elements in found.items():
            if "-tag" in shown:
                elements += [("tagoff", name) for name, _, last in ranges if last == p]
                elements += [("tagon", name) for name, first, _ in ranges if first == p]
            if "-mark" in shown:
                elements += [("mark", m[3]) for m in self.ordered() if m[0] == p]
        if "-text" in shown:
            begins = [p for p in range(a, b) if p == a or self.text[p - 1] == "\n" or found[p]]
            for p, q in zip(begins, [*begins[1:], b]):
                found[p].append(("text", self.text[p:q]))
        return [word for p in found for kind, value in found[p] for word in (kind, value, self.position(p))]

    # a command

    def answer(self, words):
        try:
            reply = self.command(words[0], words[1:])
        except Refused as fault:
            return str(fault)
        return " ".join(["=", *map(spelled, reply)])

    def command(self, name, words):
        if name == "insert":
            self.inserted(words)
            return []
        if name == "delete":
            if not words:
                raise Refused(BAD_COMMAND)
            self.delete(words)
            return []
        if name == "get":
            if not words:
                raise Refused(BAD_COMMAND)
            texts = [self.text[a:b] for a, b in self.pairs(words)]
            return texts if len(words) < 3 else [t for t in texts if t]
        if name == "index":
            if len(words) != 1:
                raise Refused(BAD_COMMAND)
            return [self.position(self.index(words[0]))]
        if name == "compare":
            if len(words) != 3:
                raise Refused(BAD_COMMAND)
            operators = {"<": int.__lt__, "<=": int.__le__, "==": int.__eq__, ">=": int.__ge__, ">": int.__gt__, "!=": int.__ne__}
            if words[1] not in operators:
                raise Refused(BAD_OPTION)
            return [str(int(operators[words[1]](self.index(words[0]), self.index(words[2]))))]
        if name == "count":
            switches = []
            while words and words[0].startswith("-"):
                switches, words = switches + words[:1], words[1:]
            if len(words) != 2:
                raise Refused(BAD_COMMAND)
            if not set(switches) <= {"-chars", "-indices", "-lines"}:
                raise Refused(BAD_OPTION)
            a, b = self.index(words[0]), self.index(words[1])
            return [str(self.line(b) - self.line(a) if s == "-lines" else b - a) for s in switches or ["-indices"]]
        if name == "replace":
            self.replaced(words)
            return []
        if name == "search":
            return self.search(words)
        if name == "dump":
            return self.dump(words)
        if name == "mark":
            return self.mark(words)
        if name == "tag":
            return self.tag(words)
        raise Refused(BAD_COMMAND)
