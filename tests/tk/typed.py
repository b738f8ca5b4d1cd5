"""Two windows over one folder, which go by the clock; and what becomes of files that are damaged."""
import subprocess

import notes
from driving.program import check
from notes import Note, Screen, keys_of, wait_until

FIRST = """Saturday

Bread, milk, six eggs
Oranges for juice
Call Ann about the tent"""
REST = """

The train leaves at nine, so be at the station early. Ann brings the stove, we bring the tent and the map.

Under the bridge, then left:
- the path along the river
- the meadow behind the mill"""


def equal(pair):
    """Whether all windows show the same, which is what each site keeps."""
    return len({it for note in pair for it in (note.shown(), note.kept())}) == 1


def come_to(name, pair, is_so=lambda: True):
    """Checks that windows come to show the same, and something holds then."""
    if not wait_until(lambda: equal(pair) and is_so()):
        print([(note.shown(), note.kept()) for note in pair])
        check(f"{name}: equal", False, True)
    check(f"{name}: equal", True, True)


def select(note, first, last):
    note.ask(f".page mark set insert {first}; .page tag remove sel 1.0 end; .page tag add sel {first} {last}")


def text_of(note):
    return note.ask("real get 1.0 {end - 1 chars}")


def tells(name, note, *parts):
    """Checks that the line below the text comes to have all of some parts."""
    if not wait_until(lambda: all(it in note.ask("set status") for it in parts)):
        check(name, note.ask("set status"), parts)
    check(name, True, True)


def two_windows(loaded, folder, picture):
    shared = folder / "shared"
    with Screen("946x330") as screen:
        pair = [Note(screen, loaded, shared, number) for number in (1, 2)]
        try:
            typed_into(*pair, pair)
            shown_cursors(*pair, pair)
            check("nothing was drawn anew", [note.ask("set draws") for note in pair], ["0", "0"])
            pictured(*pair, pair, screen, picture)
            drawn_anew(*pair, pair)
            check("both end well", [note.close() for note in pair], [0, 0])
            check("no cursor is left", sorted(it.name for it in shared.iterdir()), ["1.ops", "2.ops"])
            pair[:] = [Note(screen, loaded, shared, number) for number in (1, 2)]
            begun_again(*pair, pair)
            at_one_place(pair)
        finally:
            for note in pair:
                note.kill()


def typed_into(one, two, pair):
    one.press(*keys_of(FIRST))
    come_to("typed in one", pair, lambda: text_of(two) == FIRST)
    select(one, "1.0", "1.end")
    one.press("Control-b")
    come_to("bold", pair, lambda: two.ask("real tag ranges bold") == "1.0 1.8")
    two.ask(".page mark set insert 3.end")
    two.press(*keys_of(", butter"))
    one.ask(".page mark set insert 4.end")
    one.press(*keys_of(" and lemonade"))
    come_to("typed in both", pair, lambda: "eggs, butter\nOranges for juice and lemonade\n" in text_of(one))
    one.press("Control-z")
    come_to("undone in one", pair, lambda: "eggs, butter\nOranges for juice\n" in text_of(two))
    one.press("Control-y")
    come_to("done again", pair, lambda: "juice and lemonade\n" in text_of(two))
    select(two, "5.0", "5.8")
    two.press("Control-h")
    come_to("highlighted", pair, lambda: one.ask("real tag ranges highlight") == "5.0 5.8")
    select(two, "5.0", "5.4")
    two.press("Control-h")
    come_to("a part of it no more", pair, lambda: one.ask("real tag ranges highlight") == "5.4 5.8")
    two.press("Control-z")
    undone = "5.4 5.8"
    come_to("tags stay", pair, lambda: one.ask("real tag ranges highlight") == undone and "butter" not in text_of(one))
    two.press("Control-y")
    select(two, "5.0", "5.8")
    two.press("Control-h")
    select(one, "4.17", "4.30")
    one.press("BackSpace", *keys_of("+ tea"))
    come_to("typed over a selection", pair, lambda: "juice+ tea\n" in text_of(two))
    one.press("Control-z", "Control-z")
    come_to("and undone", pair, lambda: "juice and lemonade\n" in text_of(two))
    one.ask(r'paste "\n\u00e9\u20ac\ud83d\ude00 {x} \"y\" \\"')
    come_to("pasted", pair, lambda: '\n\u00e9\u20ac\ufffd {x} "y" \\' in text_of(two))
    one.press("Control-z")
    come_to("and undone too", pair, lambda: "{x}" not in text_of(two))
    one.ask(r'set odd {a "b" \c}; .page insert end "\nlast" [list bold $odd]')
    two.ask(r'set odd {a "b" \c}')
    come_to("tags of any name", pair, lambda: two.ask("real tag ranges $odd") == "5.23 6.4")
    one.ask(".page tag delete $odd; .page delete {end - 6 chars} end")
    come_to("deleted", pair, lambda: "last" not in text_of(two) and two.ask("real tag ranges $odd") == "")
    one.ask(".page replace 3.0 3.5 Bread")
    one.ask(".page delete 1.0; .page edit undo; .page delete {end - 1 chars}")
    come_to("replaced and put back", pair, lambda: text_of(two).startswith("Saturday\n\nBread, milk"))
    check("no window is embedded", one.ask("catch {.page window create 1.0}"), "1")


def bar_of(note, other):
    """Where a window shows the other's cursor."""
    return note.ask(f"list [winfo x .page.bar{other}] [winfo y .page.bar{other}] [winfo ismapped .page.bar{other}]")


def spot_of(note, index):
    return note.ask(f"lassign [real bbox {index}] x y; list [expr {{$x - 1}}] $y 1")


def shown_cursors(one, two, pair):
    """Each window shows the other's cursor, which stays at its character as text moves."""
    select(one, "4.7", "4.7")
    check("a cursor is shown", wait_until(lambda: bar_of(two, 1) == spot_of(two, "4.7")), True)
    select(two, "1.0", "1.0")
    two.press(*keys_of("On\n"))
    check("and moves with the text", bar_of(two, 1), spot_of(two, "5.7"))
    come_to("typed before it", pair)
    two.press("BackSpace", "BackSpace", "BackSpace")
    come_to("taken away again", pair, lambda: text_of(two).startswith("Saturday"))
    check("and moves back", wait_until(lambda: bar_of(two, 1) == spot_of(two, "4.7")), True)


def pictured(one, two, pair, screen, picture):
    two.ask(".page mark set insert 5.end")
    two.press(*keys_of(REST))
    two.ask("pause")
    select(two, "9.0", "9.end")
    two.press("Control-b")
    select(two, "7.10", "7.24")
    two.press("Control-h")
    two.ask(".page tag remove sel 1.0 end; .page mark set insert 11.16")
    one.ask(".page mark set insert 4.17; focus -force .page")
    come_to("a longer note", pair, lambda: one.ask("real tag ranges highlight").endswith("7.10 7.24"))
    wait_until(lambda: bar_of(two, 1) == spot_of(two, "4.17") and bar_of(one, 2) == spot_of(one, "11.16"))
    for note in pair:
        tells("saved", note, "saved")
        note.ask(".page configure -insertofftime 0; update")
    screen.picture(picture)
    check("the picture is small", picture.stat().st_size < 100_000, True)


def drawn_anew(one, two, pair):
    """What is drawn anew is what the site keeps."""
    one.ask("real delete 1.0 end; real insert 1.0 {something else} bold; mirror::draw .page")
    come_to("drawn anew", pair)
    select(one, "1.0", "1.0")
    one.press(*keys_of("On "))
    come_to("and goes on", pair, lambda: text_of(two).startswith("On Saturday"))


def begun_again(one, two, pair):
    come_to("begun again", pair, lambda: text_of(two).startswith("On Saturday"))
    check("undo begins anew", [note.ask(".page edit canundo") for note in pair], ["0", "0"])
    one.press(*keys_of("Now: "))
    come_to("and goes on again", pair, lambda: "Now: On Saturday" in text_of(two))


def at_one_place(pair):
    """What two type at one place, turn by turn, comes to stand one behind the other."""
    for note in pair:
        note.ask(".page mark set insert 2.0")
    for turn in range(3):
        for note, keys in zip(pair, ("abc", "xyz")):
            note.press(*keys)
            come_to(f"typed at one place, turn {turn}", pair, lambda: keys * (turn + 1) in text_of(pair[0]))
    check("one behind the other", {"abc" * 3 in text_of(note) and "xyz" * 3 in text_of(note) for note in pair}, {True})


def faults_of_files(loaded, folder):
    shared = folder / "faulty"
    with Screen("946x330") as screen:
        note = Note(screen, loaded, shared, 1)
        try:
            damaged_files(screen, loaded, folder, note)
            unsaved(note)
            check("it ends well", note.close(), 0)
            alone(screen, loaded, folder / "alone")
            without_own_file(screen, loaded, shared)
            damaged_own_file(screen, loaded, shared)
            same_number(screen, loaded, shared)
        finally:
            note.kill()


def damaged_files(screen, loaded, folder, note):
    shared = note.folder
    other = Note(screen, loaded, folder / "other", 2)
    other.press(*keys_of("one"))
    other.ask("pause")
    other.press(*keys_of(" two"))
    other.ask("save")
    whole = (other.folder / "2.ops").read_bytes()
    check("the other ends well", other.close(), 0)
    mine = shared / "2.ops"
    mine.write_bytes(whole[:-10])
    tells("a file that is cut", note, "2.ops has fault 32 at byte")
    check("what comes before is taken", text_of(note), "one tw")
    mine.write_bytes(whole[:-10] + bytes(10))
    tells("a file that is being filled", note, f"2.ops has fault 32 at byte {len(whole)}")
    mine.write_bytes(b"zero" + whole)
    tells("a file that is none", note, "2.ops has fault 30 at byte 0")
    mine.write_bytes(whole)
    is_whole = wait_until(lambda: (text_of(note), note.ask("array size faults")) == ("one two", "0"))
    check("the whole file", is_whole, True)
    (shared / "3.ops").mkdir()
    tells("a folder in place of a file", note, "3.ops")
    (shared / "3.ops").rmdir()
    for name, text in (("2", "x y"), ("3", "1 2 3"), ("none", "1 1"), ("4", "99999 4"), ("5", "{")):
        (shared / f"{name}.cursor").write_text(text, encoding="utf-8")
    check("cursors that aren't known", wait_until(lambda: note.ask("array size cursors") == "4"), True)
    check("aren't shown", note.ask("lsearch -inline [lmap it [winfo children .page] {winfo ismapped $it}] 1"), "")


def unsaved(note):
    blocked = note.folder / "1.ops.new"
    blocked.mkdir()
    note.press(*keys_of("!"))
    tells("a file that can't be written", note, "1.ops isn't saved")
    blocked.rmdir()
    check("is written later", wait_until(lambda: note.ask("set status") == "saved"), True)
    check("with what was typed", note.ask("string match *!* [read_whole [path_of ops]]"), "1")


def alone(screen, loaded, folder):
    """A window goes on by its own file, and what it types then is no clash with what it typed before."""
    for turn in range(3):
        note = Note(screen, loaded, folder, 1)
        check(f"begun {turn} times", text_of(note), "ab\n" * turn)
        note.press(*keys_of("ab\n"))
        check("it ends well", note.close(), 0)


def without_own_file(screen, loaded, shared):
    """A window whose own file is gone goes on by that of another one, which has all of its operations."""
    pair = [Note(screen, loaded, shared, number) for number in (1, 2)]
    pair[1].press(*keys_of("?"))
    come_to("both have all", pair)
    check("both end well", [note.close() for note in pair], [0, 0])
    (shared / "1.ops").unlink()
    pair = [Note(screen, loaded, shared, number) for number in (1, 2)]
    pair[0].press(*keys_of("and on "))
    come_to("without its own file", pair, lambda: "and on " in text_of(pair[1]))
    check("both end well then", [note.close() for note in pair], [0, 0])


def damaged_own_file(screen, loaded, shared):
    """A window doesn't begin by an own file that is damaged."""
    own = shared / "1.ops"
    whole = own.read_bytes()
    for name, damaged in (("cut", whole[:-1]), ("filled up with zeros", whole[:-9] + bytes(9)), ("empty", b"")):
        own.write_bytes(damaged)
        words = ["wish8.6", notes.EXAMPLE / "notes.tcl", shared, "1"]
        env = notes.surroundings(screen, loaded)
        ran = subprocess.run(words, env=env, capture_output=True, text=True, timeout=60, check=False)
        check(f"an own file that is {name} ends it", (ran.returncode, "1.ops is damaged" in ran.stderr), (1, True))
        check("and stays", own.read_bytes(), damaged)
    own.write_bytes(whole)


def same_number(screen, loaded, shared):
    """Of two windows of one number that which finds the other's file edits no more."""
    pair = [Note(screen, loaded, shared, 1) for _ in range(2)]
    try:
        pair[1].press(*keys_of("b"))
        tells("two windows of one number", pair[0], "1.ops was written by another window")
        before = text_of(pair[0])
        pair[0].press(*keys_of("a"))
        check("the first edits no more", text_of(pair[0]), before)
    finally:
        for note in pair:
            note.kill()
