#!/usr/bin/env python3
"""Times the built program on files of many one-character insertions, and on many writes of a tag, each of which makes a new
state of tags: seconds, and bytes of memory an operation that is read, or a write.

Usage: tests/bench.py [PROGRAM [OPERATIONS]]; without a program it takes ./peertext's, which has to be built; a million
operations if no number is given. It is run by hand. The status is 1 where an answer is wrong.

tests/bench.py lists [PROGRAM [BYTES]]: times the commands that take lists of names or of ranges, each on lines of so many bytes; a
million if no number is given.
tests/bench.py spans: times the map over spans beside Rust's BTreeMap, which is left out where there is no rustc.
tests/bench.py nodes: times calls of node memory, in a program of its own, tests/bench/nodes, which rt proves and builds.
tests/bench.py replica: times a replica over the plain list that accepts typed text, in a program of its own, tests/bench/replica.
tests/bench.py tree: counts, by callgrind too, the instructions that an operation takes on the tree of a text and on the plain list, in
a program of its own, tests/bench/tree.
tests/bench.py values [PROGRAM]: counts, by callgrind too, the instructions that the position of an index takes as a value, by calls of a
site that is borrowed, in a program of its own, tests/bench/values, and as a line of a script. It is wrong where the value takes more than
half of the line's.
tests/bench.py growth [PROGRAM [PERCENT]]: times what an editor and its peers do, at n and at 2n (tests/bench/growth.py), in seconds of
the processor, the least of seven runs, of three where one takes a second; with PERCENT, so many hundredths of each n. It is wrong where
2n takes more than 2.3 times n.
Then the memory of the editing session over its visible characters, at most 200 bytes. Some twenty minutes on a busy machine.
tests/bench.py steps [PROGRAM [COMMANDS]]: counts the instructions of a command in 4,000 and in 8,000, by callgrind too. It is wrong
where they differ by more than a tenth.
tests/bench.py tags [PROGRAM [COUNT]]: times so many look-ups and writes of tags from random places, at a text of 40,000 characters with
10,000 ranges of twenty tags and at four times that, in microseconds each (tests/bench/tagged.py); 20,000 of them if no number is given. It is
wrong where they take more than 1.5 times as long at four times the size.
tests/bench.py early [PROGRAM]: times a site to which as many operations of another one come early as it holds, and then the one that they
wait for: in one file; each in a file of its own, the last one first; and fewer of them while the site types as many. Of each the seconds of
the processor, those without the time in which its files are read, and how many lines told of held operations. It is wrong where a reply is,
or where a case takes more than two seconds without its files.
tests/bench.py received [PROGRAM]: the greatest memory of a site that receives a file of as many Inserts as it may hold, above that of one
which only has the file: once, once more, and where all come early; of one character each, and of a hundred.
tests/bench.py peers [PROGRAM [PERCENT [WORD ..]]]: runs the program beside a plain RGA (tests/bench/beside/rga.rs, built by rustc), Tk's
text widget and Yjs on the same work (tests/bench/works.py), and prints a table of their seconds of the processor; with PERCENT, so many
hundredths of each n; with WORDs the works alone whose names have one of them. What isn't installed is left out. It is wrong where they
answer differently.
tests/bench.py instructions [PROGRAM [LINES]]: counts the instructions that a line takes, by valgrind's callgrind: those of 4,000
lines less those of 2,000, if no number is given, which are the same each time.
"""
import filecmp
import os
import random
import shutil
import struct
import subprocess
import sys
import tempfile
import time

ROOT = os.path.dirname(os.path.dirname(os.path.abspath(__file__)))
sys.path.insert(0, os.path.join(ROOT, "tests", "bench"))
import growth as cases
import peers
import tagged
MODES = ("early", "received", "lists", "spans", "nodes", "replica", "tree", "values", "instructions", "growth", "steps", "tags", "peers")
MODE = sys.argv[1] if sys.argv[1:2] and sys.argv[1] in MODES else ""
WORDS = sys.argv[2:] if MODE else sys.argv[1:]
PROGRAM = WORDS[0] if WORDS else os.path.join(ROOT, "crates", "peertext", "out", "peertext")
OPERATIONS = int(WORDS[1]) if len(WORDS) > 1 else 1_000_000
wrong = 0


def record(count, site, prev, after, text=b"x"):
    """An Insert of a text after the element of a stamp, as docs/FILES.md has it."""
    content = struct.pack(">BQHQQHB", 1, count, site, prev, *after, 0) + text
    return struct.pack(">I", len(content)) + content


def write(path, counts, sites):
    """Writes a file of one Insert for each count, by these sites in turn, each after the one before it."""
    ends, after = {}, (0, 0)
    with open(path, "wb") as file:
        file.write(b"RGATEXT1")
        for i, count in enumerate(counts):
            site = sites[i % len(sites)]
            file.write(record(count, site, ends.get(site, 0), after))
            ends[site], after = count, (count, site)


def measure(name, operations, *words, script=subprocess.DEVNULL, each="an operation read"):
    """Runs the program once, prints its seconds and its greatest memory, and answers its status and how many lines it wrote.

    The memory of a process counts from before it became the program, so this one keeps nothing large."""
    with tempfile.TemporaryFile() as out:
        start = time.monotonic()
        child = subprocess.Popen([PROGRAM, *words], stdin=script, stdout=out)
        _, status, usage = os.wait4(child.pid, 0)
        seconds = time.monotonic() - start
        child.returncode = os.waitstatus_to_exitcode(status)
        out.seek(0)
        lines = sum(1 for _ in out)
    size = usage.ru_maxrss * 1024 / operations
    print(f"{name:54} {seconds:6.2f} s {usage.ru_maxrss / 1024:6.1f} MiB {size:6.1f} bytes {each}", flush=True)
    return child.returncode, lines


def expect(name, holds):
    global wrong
    if not holds:
        wrong += 1
        print(f"wrong: {name}")


def laid(folder, program, name, *crates):
    """Lays a workspace of a program of tests/bench, under a name, and the crates that it stands on; answers the program's folder.

    Its files end in .in here, since a file of Rattle stands in a crate that crates.txt names."""
    with open(os.path.join(ROOT, "crates.txt"), encoding="utf-8") as file:
        needed = [line for line in file if line.split(":")[0] in crates]
    with open(os.path.join(folder, "crates.txt"), "w", encoding="utf-8") as file:
        file.writelines([*needed, f"{name}: {' '.join(crates)} anyhow\n"])
    shutil.copy(os.path.join(ROOT, "HANDLES"), folder)
    for crate in crates:
        shutil.copytree(os.path.join(ROOT, "crates", crate), os.path.join(folder, "crates", crate), symlinks=True)
    made = shutil.copytree(os.path.join(ROOT, "tests", "bench", program), os.path.join(folder, "crates", name))
    for place, _, files in os.walk(made):
        for file in files:
            os.rename(os.path.join(place, file), os.path.join(place, file.removesuffix(".in")))
    return made


def spans():
    """Proves and runs tests/bench/spans, a program over rt_spans, and tests/bench/spans.rs, which does the same on a BTreeMap."""
    with tempfile.TemporaryDirectory() as folder:
        ours = laid(folder, "spans", "spans", "rt_stamps", "rt_spans")
        subprocess.run(["rt", "run"], cwd=ours, stdout=subprocess.DEVNULL, check=True)
        programs = [os.path.join(ours, "out", "spans")]
        if shutil.which("rustc"):
            programs.append(os.path.join(folder, "tree"))
            subprocess.run(["rustc", "-O", os.path.join(ROOT, "tests", "bench", "spans.rs"), "-o", programs[1]], check=True)
        # Three times in turn, and of each the least: what else the machine does makes a time longer, and never shorter.
        best = {}
        for program in programs * 3:
            out = subprocess.run([program], stdout=subprocess.PIPE, check=True).stdout.decode()
            for name, times, took, total in map(str.split, out.splitlines()):
                each, seen = best.setdefault((int(times), name), ({}, total))
                each[program] = min(each.get(program, 1 << 62), int(took))
                expect(f"{times} {name}", seen == total)
        for (times, name), (each, _) in best.items():
            took = [each[program] / times for program in programs]
            tree = f", BTreeMap {took[1]:6.0f} ns, {took[0] / took[1]:4.2f} times that" if len(took) > 1 else ""
            print(f"{times:9,} {name:9} {took[0]:6.0f} ns each{tree}", flush=True)
    return 1 if wrong else 0


def lists():
    """The commands that take a list, on a line of OPERATIONS bytes: seconds, and bytes of memory a name or a range."""
    names = [f"n{i:07}" for i in range(max(OPERATIONS // 9, 1))]
    random.Random(1).shuffle(names)
    line = " ".join(names)
    pairs = max(OPERATIONS // 18, 1)
    ranges = " ".join(f"{i}.0 {i}.1" for i in range(1, pairs + 1))
    for name, count, script in [
        ("insert of text with a list of tags", len(names), [f".t insert 1.0 a {{{line}}}"]),
        ("mark unset of names, and mark set of each", len(names), [*(f".t mark set {n} 1.0" for n in names), f".t mark unset {line}"]),
        ("tag delete of names of an insert's list", len(names), [f".t insert 1.0 a {{{line}}}", f".t tag delete {line}"]),
        ("tag add of ranges, each of a line of its own", pairs, [f'.t insert 1.0 "{"a" + chr(92) + "n"}"'] * pairs + [f".t tag add t {ranges}"]),
    ]:
        with tempfile.TemporaryDirectory() as folder:
            path = os.path.join(folder, "script")
            with open(path, "w", encoding="ascii") as file:
                file.write("\n".join(script) + "\n")
            with open(path, "rb") as file:
                name = f"{name}, {count:,}"
                status, lines = measure(name, count, "run", "--site", "1", script=file, each="a name or a range")
        expect(name, status == 0 and lines == len(script))
    return 1 if wrong else 0


def main():
    with tempfile.TemporaryDirectory() as folder:
        file, other, out = (os.path.join(folder, name) for name in ("file", "other", "out"))
        n = OPERATIONS
        for name, sites in [("one site", [1]), ("a thousand sites in turn", range(1, 1001))]:
            write(file, range(1, n + 1), sites)
            name = "join of a file with itself, " + name
            status, _ = measure(name, 2 * n, "join", file, file, out)
            expect(name, status == 0 and filecmp.cmp(file, out, shallow=False))
        name = "show of that file"
        status, lines = measure(name, n, "show", file)
        expect(name, status == 0 and lines == n)
        name = "join of two sites' files, half in each, in turn"
        write(file, range(1, n + 1, 2), [1])
        write(other, range(2, n + 1, 2), [2])
        status, _ = measure(name, n, "join", file, other, out)
        expect(name, status == 0 and os.path.getsize(out) == 8 + n * 35)
        for writes in (n // 100, n // 10):
            name = f"{writes:,} writes of a tag to one character"
            with open(file, "w", encoding="ascii") as script:
                script.write(".t insert 1.0 a\n" + ".t tag add t 1.0\n.t tag remove t 1.0\n" * (writes // 2))
            with open(file, "rb") as script:
                status, lines = measure(name, writes, "run", "--site", "1", script=script, each="a write")
            expect(name, status == 0 and lines == writes + 1)
    return 1 if wrong else 0


def nodes():
    """Proves and runs tests/bench/nodes, a program over rt_nodes."""
    with tempfile.TemporaryDirectory() as folder:
        return subprocess.call(["rt", "run"], cwd=laid(folder, "nodes", "bench_nodes", "rt_stamps", "rt_nodes"))


def replica():
    """Proves and builds tests/bench/replica, a program over rt_replica, and runs it for two numbers of operations."""
    with tempfile.TemporaryDirectory() as folder:
        ours = laid(folder, "replica", "bench_replica", "rt_stamps", "rt_tags", "rt_store", "rt_ops", "rt_oplog", "rt_rga", "rt_changes",
                    "rt_holding", "rt_replica")
        subprocess.run(["rt", "run"], cwd=ours, stdout=subprocess.DEVNULL, check=True)
        program = os.path.join(ours, "out", "bench_replica")
        return max(subprocess.call([program, str(operations)]) for operations in (20_000, 40_000))


def counted(*words, script=b""):
    """How many instructions a program takes, and how many lines it writes."""
    told = subprocess.run(["valgrind", "--tool=callgrind", "--callgrind-out-file=/dev/null", *words], input=script, capture_output=True, check=True)
    return int(told.stderr.decode().rsplit("Collected :", 1)[1].split()[0]), told.stdout.count(b"\n")


def tree():
    """Proves and builds tests/bench/tree, a program over rt_tree and rt_store, and counts the instructions of an operation between
    4,000 and 8,000."""
    with tempfile.TemporaryDirectory() as folder:
        ours = laid(folder, "tree", "bench_tree", "rt_stamps", "rt_spans", "rt_nodes", "rt_tags", "rt_store", "rt_tree")
        subprocess.run(["rt", "run"], cwd=ours, stdout=subprocess.DEVNULL, check=True)
        program = os.path.join(ours, "out", "bench_tree")
        for store in ("tree", "list"):
            for where in ("end", "random", "front"):
                few, many = (counted(program, str(operations), store, where)[0] for operations in (4_000, 8_000))
                print(f"{store:5} {where:7} {(many - few) / 4_000:10,.0f} instructions an operation", flush=True)
    return 0


def collected(line, lines):
    """How many instructions the program takes for so many equal lines behind an insertion."""
    script = b".t insert 1.0 hello\n" + line + b"\n"
    script += (line + b"\n") * (lines - 1)
    took, wrote = counted(PROGRAM, "run", "--site", "1", script=script)
    expect(line.decode(), wrote == lines + 1)
    return took


def instructions():
    """Counts the instructions of some lines."""
    lines = int(WORDS[1]) if len(WORDS) > 1 else 2_000
    for line in (b".t index 1.0", b".t compare 1.0 < end", b".t get 1.0 1.3", b".t insert 1.0 a", b".t mark set m 1.0"):
        each = (collected(line, 2 * lines) - collected(line, lines)) / lines
        print(f"{line.decode():24} {each:10,.0f} instructions a line", flush=True)
    return 1 if wrong else 0


def below(crate):
    """The crates on which one stands, itself among them, as crates.txt has them."""
    with open(os.path.join(ROOT, "crates.txt"), encoding="utf-8") as file:
        stands = {line.split(":")[0]: line.split(":")[1].split() for line in file if ":" in line}
    found, todo = set(), [crate]
    while todo:
        name = todo.pop()
        if name in stands and name not in found:
            found.add(name)
            todo += stands[name]
    return sorted(found)


def values():
    """Proves and builds tests/bench/values, a program over rt_peers, and counts the instructions of a value and of a line."""
    with tempfile.TemporaryDirectory() as folder:
        ours = laid(folder, "values", "bench_values", *below("rt_peers"))
        subprocess.run(["rt", "run"], cwd=ours, stdout=subprocess.DEVNULL, check=True)
        program = os.path.join(ours, "out", "bench_values")
        few, many = (counted(program, str(times))[0] for times in (4_000, 8_000))
        value = (many - few) / 4_000
    line = (collected(b".t index 1.0", 8_000) - collected(b".t index 1.0", 4_000)) / 4_000
    print(f"an index as a value {value:10,.0f} instructions, as a line {line:10,.0f}", flush=True)
    expect("a value takes at most half of a line", value <= line / 2)
    return 1 if wrong else 0


def spent(lines, *words, site=1, faults=0):
    """Runs a script in the current folder, which so many lines of are refused: seconds of the processor, and the greatest memory before
    the input ends, in bytes."""
    with open("script", "w", encoding="ascii") as file:
        file.writelines(line + "\n" for line in lines)
        file.write(".t frob\n")
    # The replies are read by a file of its own, since a seek in the program's would move its next write.
    with open("script", "rb") as script, open("replies", "wb") as out, open("replies", "rb") as replies:
        child = subprocess.Popen([PROGRAM, "run", "--site", str(site), *words], stdin=subprocess.PIPE, stdout=out)
        shutil.copyfileobj(script, child.stdin)
        child.stdin.flush()
        # The last line is answered: then its memory is that of this program alone, and not of the one that started it.
        while child.poll() is None and (replies.seek(0, 2) < 14 or not ended(replies)):
            time.sleep(0.01)
        with open(f"/proc/{child.pid}/status", encoding="ascii") as status:
            memory = next((int(line.split()[1]) * 1024 for line in status if line.startswith("VmHWM")), 0)
        child.stdin.close()
        _, status, usage = os.wait4(child.pid, 0)
        child.returncode = os.waitstatus_to_exitcode(status)
        replies.seek(0)
        refused = sum(line.startswith(b"!") for line in replies)
    expect(f"a run of {words[:9]}", child.returncode == 0 and refused == 1 + faults)
    return usage.ru_utime + usage.ru_stime, memory


def least(lines, words):
    """The least seconds of seven runs, or of three that take a second: what else the machine does makes a time longer, never shorter."""
    best = spent(lines, *words)[0]
    return min(best, *(spent(lines, *words)[0] for _ in range(2 if best > 1 else 6)))


def ended(out):
    """Whether the reply to the last line is there."""
    out.seek(-14, 2)
    return out.read() == b" 4 BadCommand\n"


def grown():
    """The cases of tests/bench/growth.py at n and 2n, and the memory of the editing session."""
    percent = int(WORDS[1]) if len(WORDS) > 1 else 100
    with tempfile.TemporaryDirectory() as folder:
        os.chdir(folder)
        for name, whole, case in cases.CASES:
            took = []
            for n in (whole * percent // 100, whole * percent // 50):
                lines, words, before = case(n, spent)
                lines = list(lines)
                start = least(before, words) if before else 0
                took.append(least(lines, words) - start)
            times = took[1] / max(took[0], 0.001)
            expect(name, times <= 2.3 or took[1] < 0.05)
            print(f"{name:42} {n // 2:9,} {took[0]:7.2f} s {n:9,} {took[1]:7.2f} s, times {times:4.2f}", flush=True)
        visible, n = [], 5_000 * percent
        size = spent(cases.session(n, visible))[1] - spent([])[1]
        print(f"an editing session of {n:,}: {visible[0]:,} characters, {size / visible[0]:.0f} bytes each", flush=True)
        expect("memory", size <= 200 * visible[0])
    return 1 if wrong else 0


# The most operations that a site holds, how many of them come while it types, and the seconds that a case of these may take.
MOST_HELD, BESIDE, MOST_SECONDS = 65_536, 30_000, 2


def typed(path, counts):
    """Writes a file of an Insert of `x` by site 2 for each count, behind that of the count before it, after the root."""
    with open(path, "wb") as file:
        file.write(b"RGATEXT1")
        file.writelines(record(count, 2, count - 1, (0, 0)) for count in counts)


def early():
    """Operations that come before the first of their site, and then that one."""
    n, some = MOST_HELD, BESIDE
    with tempfile.TemporaryDirectory() as folder:
        os.chdir(folder)
        # One more than may be held, which is refused.
        typed("late", range(2, n + 3))
        typed("some", range(2, some + 2))
        names = [str(count) for count in range(n + 1, 0, -1)]
        for name in names:
            typed(name, [int(name)])
        full = f"! 38 WaitingFull at {8 + 35 * n} new 0 repeat 0 held {n}"
        beside = [".t insert end y"] * some
        for name, words, lines, wanted in [
            (f"{n + 1:,} in one file, then the first", ["late", "1"], ["receive late", "receive 1"], [full, f"= {n + 1} 0"]),
            (f"{n:,} in falling order, then the first", names, [f"receive {name}" for name in names], [*(f"= 0 0 {i + 1}" for i in range(n)), f"= {n + 1} 0"]),
            (f"{some:,} while {some:,} are typed, then the first", ["some", "1"], ["receive some", *beside, "receive 1"], [f"= 0 0 {some}", *["="] * some, f"= {some + 1} 0"]),
            (f"{some:,} typed without them", [], beside, ["="] * some),
        ]:
            faults = sum(line.startswith("!") for line in wanted)
            read, took = (min(spent(script, *words, faults=refused)[0] for _ in range(3)) for script, refused in (([], 0), (lines, faults)))
            with open("replies", encoding="ascii") as file:
                replies = file.read().splitlines()[:-1]
            told = sum(line.startswith("= 0 0 ") or " held " in line for line in replies)
            expect(name, replies == wanted and took - read <= MOST_SECONDS)
            print(f"{name:44} {took:6.2f} seconds, {took - read:6.2f} without its files, {told:6,} lines told of held ones", flush=True)
    return 1 if wrong else 0


def received():
    """The memory of receiving a file of as many Inserts as a site may hold, each behind the one before it, of one character or of more."""
    n = MOST_HELD
    with tempfile.TemporaryDirectory() as folder:
        os.chdir(folder)
        for size in (1, 100):
            records = [record(1 + size * i, 2, size * i, (size * i, 2) if i else (0, 0), b"x" * size) for i in range(n + 1)]
            for name, some in (("whole", records[:-1]), ("late", records[1:])):
                with open(name, "wb") as file:
                    file.writelines([b"RGATEXT1", *some])
            alone = spent([], "whole")[1]
            for name, words, lines, wanted in [
                ("received", "whole", ["receive whole"], [f"= {n} 0"]),
                ("received twice", "whole", ["receive whole"] * 2, [f"= {n} 0", f"= 0 {n}"]),
                ("received early", "late", ["receive late"], [f"= 0 0 {n}"]),
            ]:
                seconds, memory = spent(lines, words)
                with open("replies", encoding="ascii") as file:
                    expect(name, file.read().splitlines()[:-1] == wanted)
                print(f"{n:,} Inserts of {size} {name:15} {seconds:6.2f} seconds, {(memory - alone) / 2**20:7.1f} MiB above {alone / 2**20:.1f} of the file alone", flush=True)
    return 1 if wrong else 0


def steps():
    """The instructions of a command in a script of 4,000 and in one of 8,000, and of one between them."""
    n = int(WORDS[1]) if len(WORDS) > 1 else 4_000
    read = [".t insert 1.0 hello"] + [".t index 1.0"] * (2 * n)
    for name, script in [("typing at the end", cases.typing), ("insertions at random places", cases.inserts), ("a line that is read", lambda k: read[:k])]:
        few, many = (counted(PROGRAM, "run", "--site", "1", script="".join(f"{line}\n" for line in script(k)).encode())[0] for k in (n, 2 * n))
        expect(name, many / 2 <= 1.1 * few)
        print(f"{name:28} {few / n:8,.0f} at {n:,} {many / n / 2:8,.0f} at {2 * n:,} {(many - few) / n:8,.0f} between", flush=True)
    return 1 if wrong else 0


def tags():
    """The cases of tests/bench/tagged.py at a size and at four times that."""
    count = int(WORDS[1]) if len(WORDS) > 1 else 20_000
    with tempfile.TemporaryDirectory() as folder:
        os.chdir(folder)
        sizes = (tagged.SIZE, 4 * tagged.SIZE)
        texts = [list(tagged.text(size)) for size in sizes]
        made = [least(text, ()) for text in texts]
        for name, case in tagged.CASES:
            each = [(least(text + case(size, count), ()) - start) / count * 1e6 for size, text, start in zip(sizes, texts, made)]
            print(f"{name:20} {each[0]:8.1f} us at {sizes[0]:,} characters {each[1]:8.1f} us at {sizes[1]:,}", flush=True)
            expect(name, each[1] <= 1.5 * each[0])
    return 1 if wrong else 0


def beside():
    """The works of tests/bench/works.py, at n and 2n, beside others that do them."""
    return peers.main(PROGRAM, int(WORDS[1]) if len(WORDS) > 1 else 100, WORDS[2:])


if __name__ == "__main__":
    parts = {"early": early, "received": received, "instructions": instructions, "lists": lists, "spans": spans, "nodes": nodes, "replica": replica, "tree": tree,
             "values": values}
    sys.exit({**parts, "growth": grown, "steps": steps, "tags": tags, "peers": beside, "": main}[MODE]())
