"""Files of both versions: which is written, what is read, and damaged ones at each byte."""
from driving.joins import WRITTEN
from driving.program import SITE, called, check, ran
from driving.samples import AB, AB2, AB_LINE, C2, C_LINE, FILES, HEAD, HEAD2, Y, contents, insert, operation, put, remove, spans
from modelled.files import ONE, TRUNCATED, TWO, read, shown

GET = ".t get 1.0 end"
# as many names of tags as one likes, by rising bytes
NAMES = [f"t{number:03}" for number in range(300)]
LAST_SITE = 4294967295


def names(count):
    return [name.encode() for name in NAMES[:count]]


def listing(count, layout):
    """A file of one Insert with so many tags."""
    return layout.magic + insert(1, 1, 0, (0, 0), b"a", layout, names(count))


def joins_of_versions():
    """What fits version 1 is written so, whatever it was read from."""
    site_65535 = insert(3, 65535, 0, (2, 1), b"c", TWO)
    after_c = insert(4, 2, 0, (3, 65536), b"d", TWO)
    without_c = operation(2, 4, 2, 0, spans((1, 1, 1), (65536, 3, 3), layout=TWO), TWO)
    made = {"edge": HEAD2 + site_65535, "after_c": HEAD2 + after_c, "without_c": HEAD2 + without_c, "b2": HEAD2 + insert(1, 1, 0, (0, 0), b"b", TWO),
            "none2": HEAD2, "tags64": listing(64, TWO), "tags65": listing(65, TWO), "tags255": listing(255, TWO)}
    for name, data in made.items():
        put(name, data)
    for a, b, want in [
        ("ab2", "none", FILES["ab"]), ("ab", "ab2", FILES["ab"]), ("ab2", "ab2", FILES["ab"]), ("ab2", "y", HEAD + AB + Y),
        ("deleted", "ab2", FILES["deleted"]), ("none2", "none2", HEAD),
        ("ab", "c2", HEAD2 + AB2 + C2), ("c2", "ab", HEAD2 + AB2 + C2), ("ab2", "c2", HEAD2 + AB2 + C2), ("c2", "none", FILES["c2"]),
        ("edge", "ab", HEAD + AB + insert(3, 65535, 0, (2, 1), b"c")), ("after_c", "none", HEAD2 + after_c), ("none", "without_c", HEAD2 + without_c),
        ("tags64", "none", listing(64, ONE)), ("tags65", "none2", listing(65, TWO)), ("tags255", "tags255", listing(255, TWO)),
    ]:
        check(f"join {a} {b}", (called("join", a, b, "out"), contents("out")), (WRITTEN, want))
        remove("out")
    check("join of two versions that clash", called("join", "ab", "b2", "out"), (b"", b"peertext: 35 Conflict\n", 1))
    remove(*made)


def shows_of_versions():
    """What each version has room for, and where a file ends; no other version is known."""
    tags = {count: b"insert 1.1 prev 0 after 0.0 text a tags " + b" ".join(names(count)) + b"\n" for count in (64, 65, 255)}
    for name, data, lines, fault in [
        ("version 2", FILES["ab2"], AB_LINE, None), ("a site above 65,535", HEAD2 + AB2 + C2, AB_LINE + C_LINE, None), ("nothing", HEAD2, b"", None),
        ("the last site", HEAD2 + insert(3, LAST_SITE, 0, (2, LAST_SITE), b"c", TWO),
         f"insert 3.{LAST_SITE} prev 0 after 2.{LAST_SITE} text c tags\n".encode(), None),
        ("64 tags in version 1", listing(64, ONE), tags[64], None), ("65 tags in version 1", listing(65, ONE), b"", "33 BadRecord at 8"),
        ("255 tags in version 1", listing(255, ONE), b"", "33 BadRecord at 8"),
        ("65 tags in version 2", listing(65, TWO), tags[65], None), ("255 tags in version 2", listing(255, TWO), tags[255], None),
        ("the least length of version 1", HEAD + b"\0\0\0\x13", b"", "32 Truncated at 8"),
        ("one less in version 1", HEAD + b"\0\0\0\x12", b"", "33 BadRecord at 8"),
        ("the least length of version 2", HEAD2 + b"\0\0\0\x15", b"", "32 Truncated at 8"),
        ("one less in version 2", HEAD2 + b"\0\0\0\x14", b"", "33 BadRecord at 8"),
        ("records of version 1 in version 2", HEAD2 + AB, b"", "33 BadRecord at 8"),
        *((f"version {last}", b"RGATEXT" + last, b"", "31 BadVersion at 0") for last in (b"0", b"3", b"\x01", b"\x02", b"A")),
    ]:
        put("file", data)
        check(f"show {name}", called("show", "file"), (lines, f"peertext: file: {fault}\n".encode() if fault else b"", 1 if fault else 0))
    remove("file")


def sites():
    """The numbers of sites that a run may have, and the version of the log that it leaves."""
    for site, layout in ((1, ONE), (65535, ONE), (65536, TWO), (LAST_SITE, TWO)):
        log = layout.magic + insert(1, site, 0, (0, 0), b"ab", layout)
        words = ("--site", str(site), "--out", "out")
        check(f"--site {site}", (ran([".t insert 1.0 ab"], *words), contents("out")), ((["="], "", 0), log))
        check(f"--site {site} and its log", (ran([GET, ".t delete 1.1"], *words, "--log", "out"), contents("out")),
              ((['= "ab\\n"', "="], "", 0), log + operation(2, 3, site, 2, spans((site, 2, 2), layout=layout), layout)))
    remove("out")


def many_tags():
    """An Insert lists the first 255 of its tags, and each further one is a Tag; more than 64 are written in version 2."""
    for count in (64, 65, 100, 255, 256, 300):
        layout = ONE if count <= 64 else TWO
        tags, further = names(count)[:255], names(count)[255:]
        records = [insert(1, 1, 0, (0, 0), b"ab", layout, tags)]
        named = spans((1, 1, 2), layout=layout)
        records += [operation(3, 3 + at, 1, 2 + at, b"\1" + bytes([len(tag)]) + tag + named, layout) for at, tag in enumerate(further)]
        # they are given in another order, and one of them twice
        given = " ".join([*reversed(NAMES[:count]), NAMES[0]])
        log = layout.magic + b"".join(records)
        check(f"an insertion under {count} tags", (ran([f".t insert 1.0 ab {{{given}}}"], *SITE, "--out", "out"), contents("out")), ((["="], "", 0), log))
        asks = [".t tag names 1.0", ".t tag names 1.1", f".t tag ranges {NAMES[count - 1]}", "receive out"]
        told = "= " + " ".join(NAMES[:count])
        wants = [" ".join(sorted(line.split())) for line in (told, told, "= 1.0 1.2", f"= 0 {len(records)}")]
        lines, err, status = ran(asks, *SITE, "--log", "out", "--out", "out", "out")
        check(f"the log of {count} tags is read", ([" ".join(sorted(line.split())) for line in lines], err, status, contents("out")), (wants, "", 0, log))
    remove("out")


def receives_of_versions():
    """An operation is one, whichever version it comes in."""
    out = ("--site", "2", "--out", "out")
    begin = ["receive ab", "receive ab2", GET]
    check("one operation in both versions", (ran(begin, *out, "ab", "ab2"), contents("out")), ((["= 1 0", "= 0 1", '= "ab\\n"'], "", 0), FILES["ab"]))
    both = HEAD2 + AB2 + C2
    check("an operation of version 2 alone", (ran([*begin, "receive c2", GET], *out, "ab", "ab2", "c2"), contents("out")),
          ((["= 1 0", "= 0 1", '= "ab\\n"', "= 1 0", '= "abc\\n"'], "", 0), both))
    check("a log of version 2", (ran(["receive c2", ".t insert end d"], *out, "--log", "out", "c2"), contents("out")),
          ((["= 0 1", "="], "", 0), both + insert(4, 2, 0, (3, 65536), b"d", TWO)))
    check("what comes early in version 2", (ran(["receive c2", "receive ab", GET], *out, "c2", "ab"), contents("out")),
          ((["= 0 0 1", "= 2 0", '= "abc\\n"'], "", 0), both))
    check("a held one isn't in the log", (ran(["receive c2", "receive ab2"], *out, "c2", "ab2", "--log", "ab"), contents("out")),
          ((["= 1 0", "= 0 1"], "", 0), both))
    put("cut2", both[:-1])
    check("a cut file of version 2", (ran(["receive cut2", GET], *out, "cut2"), contents("out")),
          ((["! 32 Truncated at 48 new 1 repeat 0", '= "ab\\n"'], "", 0), FILES["ab"]))
    check("a join of one", called("join", "cut2", "ab", "out"), (b"", b"peertext: cut2: 32 Truncated at 48\n", 1))
    remove("cut2", "out")


def damaged():
    """A file of each version and kind of operation, at each front and with each byte changed: what is shown, by the plain reader."""
    for layout, site in ((ONE, 7), (TWO, 70000)):
        data = (layout.magic + insert(1, site, 0, (0, 0), b"ab", layout, (b"t", "é".encode()))
                + operation(2, 3, site, 2, spans((site, 2, 2), layout=layout), layout)
                + operation(3, 4, site, 3, b"\1\1u" + spans((0, 1, 1), (site, 1, 1), layout=layout), layout))
        check("the plain reader", (len(read(data).records), read(data).fault), (3, None))
        fronts = [data[:size] for size in range(len(data))]
        check("each front within a record is truncated", {read(front).fault for front in fronts}, {TRUNCATED, None})
        changed = [data[:at] + bytes([data[at] ^ bits]) + data[at + 1:] for at in range(len(data)) for bits in (1, 128, 255)]
        for kind, file in [("a front", it) for it in fronts] + [("with a byte changed", it) for it in changed]:
            records, fault, at = read(file)
            lines = "".join(shown(op) + "\n" for _, op in records).encode()
            error = f"peertext: file: {fault[2:]} at {at}\n".encode() if fault else b""
            put("file", file)
            check(f"show {kind}: {file.hex()}", called("show", "file"), (lines, error, int(bool(fault))))
    remove("file")
