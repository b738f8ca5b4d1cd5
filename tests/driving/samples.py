"""Files of operations, byte by byte, and a folder that holds them."""
import contextlib
import os
import tempfile

from modelled.files import ONE, TWO


def record(content):
    return len(content).to_bytes(4, "big") + content


def operation(kind, count, site, prev, body, layout=ONE):
    return record(bytes([kind]) + count.to_bytes(8, "big") + site.to_bytes(layout.site_width, "big") + prev.to_bytes(8, "big") + body)


def listed(tags):
    """How many tags there are, and each."""
    return bytes([len(tags)]) + b"".join(bytes([len(tag)]) + tag for tag in tags)


def insert(count, site, prev, after, text, layout=ONE, tags=()):
    body = after[0].to_bytes(8, "big") + after[1].to_bytes(layout.site_width, "big") + listed(tags) + text
    return operation(1, count, site, prev, body, layout)


def spans(*parts, layout=ONE):
    each = (site.to_bytes(layout.site_width, "big") + first.to_bytes(8, "big") + last.to_bytes(8, "big") for site, first, last in parts)
    return len(parts).to_bytes(4, "big") + b"".join(each)


HEAD, HEAD2 = ONE.magic, TWO.magic
AB = insert(1, 1, 0, (0, 0), b"ab")
TAKE_B = operation(2, 3, 1, 2, spans((1, 2, 2)))
TAG_A = operation(3, 3, 1, 2, b"\1\1t" + spans((1, 1, 1)))
Y = insert(3, 2, 0, (1, 1), b"Y")
# in version 2, of which one has a site that version 1 has no room for
AB2 = insert(1, 1, 0, (0, 0), b"ab", TWO)
C2 = insert(3, 65536, 0, (2, 1), b"c", TWO)
FILES = {
    "none": HEAD,
    "ab": HEAD + AB,
    "deleted": HEAD + AB + TAKE_B,
    "tagged": HEAD + AB + TAG_A,
    "y": HEAD + Y,
    "b": HEAD + insert(1, 1, 0, (0, 0), b"b"),
    "unsound": HEAD + insert(1, 1, 0, (1, 1), b"a"),
    "clash": HEAD + AB + operation(2, 3, 1, 1, spans((1, 2, 2))),
    "final": HEAD + operation(2, 1, 1, 0, spans((0, 1, 1))),
    "ab2": HEAD2 + AB2,
    "c2": HEAD2 + C2,
    "cut": (HEAD + AB + TAKE_B)[:80],
    "short": HEAD + b"\0\0\0\x12",
    "empty": b"",
    "version": b"RGATEXT9",
    "magic": b"XGATEXT1",
}
AB_LINE = b"insert 1.1 prev 0 after 0.0 text ab tags\n"
C_LINE = b"insert 3.65536 prev 0 after 2.1 text c tags\n"
OLD = b"what was there\n"


def with_files(test):
    with tempfile.TemporaryDirectory() as folder:
        for name, data in FILES.items():
            with open(os.path.join(folder, name), "wb") as file:
                file.write(data)
        os.mkdir(os.path.join(folder, "folder"))
        here = os.getcwd()
        os.chdir(folder)
        try:
            test()
        finally:
            os.chdir(here)


def contents(name):
    try:
        with open(name, "rb") as file:
            return file.read()
    except FileNotFoundError:
        return None


def put(name, data):
    with open(name, "wb") as file:
        file.write(data)


def remove(*names):
    for name in names:
        with contextlib.suppress(FileNotFoundError):
            os.remove(name)
