"""Operations, and their bytes in a file of either version, written and read (docs/FILES.md)."""
import collections

from modelled.words import spelled

# an operation: its count, site and prev; for an Insert the stamp that it goes after, the text and its tags; for a Delete the
# spans; for a Tag the spans, whether it is on, and its name. A stamp is a count and a site, a span a site and its first and last count
Insert = collections.namedtuple("Insert", "count site prev after text tags")
Delete = collections.namedtuple("Delete", "count site prev spans")
Tag = collections.namedtuple("Tag", "count site prev spans on name")

# a version: what its files begin with, the bytes of a site, the fewest bytes of a record, and the most tags that an Insert lists
Layout = collections.namedtuple("Layout", "magic site_width fewest most_tags")
ONE, TWO = Layout(b"RGATEXT1", 2, 19, 64), Layout(b"RGATEXT2", 4, 21, 255)
NAME = ONE.magic[:-1]
MOST_BYTES, MOST_SPANS, MOST_CHARACTERS = 2_097_152, 65_536, 65_535

BAD_MAGIC, BAD_VERSION, TRUNCATED, BAD_RECORD = "! 30 BadMagic", "! 31 BadVersion", "! 32 Truncated", "! 33 BadRecord"
# a file that was read: its records up to the first fault, each an offset and an operation; the fault, if there is one; and where this
# is, or the file ends
File = collections.namedtuple("File", "records fault end")


def stamp(op):
    return op.count, op.site


def last_count(op):
    return op.count + len(op.text) - 1 if isinstance(op, Insert) else op.count


def made(op):
    """The stamps of the characters of an Insert."""
    return [(op.count + i, op.site) for i in range(len(op.text))] if isinstance(op, Insert) else []


def spans_of(stamps):
    found = []
    for count, site in sorted(stamps, key=lambda s: (s[1], s[0])):
        if found and found[-1][0] == site and found[-1][2] == count - 1:
            found[-1] = (site, found[-1][1], count)
        else:
            found.append((site, count, count))
    return found


def stamps_of(op):
    """The stamps of what a Delete or a Tag names."""
    return [(count, site) for site, first, last in op.spans for count in range(first, last + 1)]


def named(op):
    return [op.after] if isinstance(op, Insert) else stamps_of(op)


def fits(op, layout):
    """Whether a version has room for an operation: for its sites, named ones too, and for its tags."""
    sites = [op.site, *([op.after[1]] if isinstance(op, Insert) else [site for site, *_ in op.spans])]
    return max(sites) < 256 ** layout.site_width and not (isinstance(op, Insert) and len(op.tags) > layout.most_tags)


def layout_of(ops):
    """The version in which operations are written."""
    return ONE if all(fits(op, ONE) for op in ops) else TWO


def number(n, size):
    return n.to_bytes(size, "big")


def name_bytes(name):
    return number(len(name.encode()), 1) + name.encode()


def record(op, layout):
    def site_bytes(site):
        return number(site, layout.site_width)

    if isinstance(op, Insert):
        tags = sorted(op.tags, key=str.encode)
        kind, body = 1, number(op.after[0], 8) + site_bytes(op.after[1]) + number(len(tags), 1) + b"".join(map(name_bytes, tags)) + op.text.encode()
    else:
        kind, body = 2, number(len(op.spans), 4) + b"".join(site_bytes(site) + number(first, 8) + number(last, 8) for site, first, last in op.spans)
    if isinstance(op, Tag):
        kind, body = 3, number(op.on, 1) + name_bytes(op.name) + body
    content = number(kind, 1) + number(op.count, 8) + site_bytes(op.site) + number(op.prev, 8) + body
    return number(len(content), 4) + content


def spelling(ops, layout=None):
    """The file of operations, in the version that is written or in another one that has room for them."""
    layout = layout or layout_of(ops)
    return layout.magic + b"".join(record(op, layout) for op in sorted(ops, key=stamp))


class Content:
    """The rest of a record's content. A ValueError, of which those of UTF-8 are some, tells that a rule is broken."""

    def __init__(self, rest, layout):
        self.rest, self.layout = rest, layout

    def take(self, size):
        must(size <= len(self.rest))
        taken, self.rest = self.rest[:size], self.rest[size:]
        return taken

    def number(self, size=8):
        return int.from_bytes(self.take(size), "big")

    def site(self):
        return self.number(self.layout.site_width)

    def name(self):
        name = self.take(self.number(1)).decode()
        must(name not in ("", "sel"))
        return name

    def tags(self):
        names = [self.name() for _ in range(self.number(1))]
        must(len(names) <= self.layout.most_tags and all(a.encode() < b.encode() for a, b in zip(names, names[1:])))
        return frozenset(names)

    def spans(self):
        count = self.number(4)
        must(1 <= count <= MOST_SPANS)
        found = [(self.site(), self.number(), self.number()) for _ in range(count)]
        must(all(first <= last for _, first, last in found))
        must(all(a[0] < b[0] or a[0] == b[0] and a[2] + 1 < b[1] for a, b in zip(found, found[1:])))
        return found

    def operation(self):
        kind, count, site, prev = self.number(1), self.number(), self.site(), self.number()
        if kind == 1:
            after, tags = (self.number(), self.site()), self.tags()
            text = self.take(len(self.rest)).decode()
            must(1 <= len(text) <= MOST_CHARACTERS)
            return Insert(count, site, prev, after, text, tags)
        must(kind in (2, 3))
        on, name = (self.number(1), self.name()) if kind == 3 else (0, "")
        must(on <= 1)
        spans = self.spans()
        must(not self.rest)
        return Tag(count, site, prev, spans, bool(on), name) if kind == 3 else Delete(count, site, prev, spans)


def must(holds):
    if not holds:
        raise ValueError


def read(data):
    front = data[:8]
    layout = next((layout for layout in (ONE, TWO) if layout.magic == front), None)
    if layout is None:
        return File([], BAD_MAGIC if not NAME.startswith(front[:7]) else TRUNCATED if len(front) < 8 else BAD_VERSION, 0)
    records, at = [], 8
    while at < len(data):
        length, content = data[at:at + 4], data[at + 4:]
        size = int.from_bytes(length, "big")
        if len(length) == 4 and not layout.fewest <= size <= MOST_BYTES:
            return File(records, BAD_RECORD, at)
        if len(length) < 4 or len(content) < size:
            return File(records, TRUNCATED, at)
        try:
            op = Content(content[:size], layout).operation()
            must(not records or stamp(records[-1][1]) < stamp(op))
        except ValueError:
            return File(records, BAD_RECORD, at)
        records.append((at, op))
        at += 4 + size
    return File(records, None, at)


def shown(op):
    """The line of `show` of an operation."""
    if isinstance(op, Insert):
        kind, rest = "insert", ["after", "{}.{}".format(*op.after), "text", spelled(op.text), "tags", *map(spelled, sorted(op.tags, key=str.encode))]
    else:
        kind, rest = "delete", ["spans", *("{}:{}-{}".format(*span) for span in op.spans)]
    if isinstance(op, Tag):
        kind, rest = "tag", ["on" if op.on else "off", spelled(op.name), *rest]
    return " ".join([kind, "{}.{}".format(*stamp(op)), "prev", str(op.prev), *rest])
