"""Runs the program beside a plain RGA, Tk's text widget and Yjs on the same work, compares what they answer, and prints a table of
the seconds that they take, for tests/bench.py `peers`."""
import contextlib
import math
import os
import shutil
import subprocess
import sys
import tempfile

from works import PLAIN, TK, WORKS, YJS, Script, Work

HERE = os.path.dirname(os.path.abspath(__file__))
BESIDE = os.path.join(HERE, "beside")
sys.path.insert(0, os.path.join(os.path.dirname(HERE), "tk"))
from notes import Screen

OURS = "program"
NAMES = (OURS, PLAIN, TK, YJS)
# How many runs of each, above how many seconds one is enough, and below how many nothing can be told of a growth.
RUNS, LONG, SHORT = 3, 10, 0.01
wrong = 0


def expect(name, holds):
    global wrong
    if not holds:
        wrong += 1
        print(f"wrong: {name}", flush=True)


class Peer:
    """One that runs scripts: the words that start it, what its script is made of, and the folder that it runs in."""

    def __init__(self, name, words, folder, surroundings=None):
        self.name, self.words, self.surroundings = name, words, surroundings
        self.folder = os.path.join(folder, name.replace(" ", "_"))
        os.mkdir(self.folder)

    def lines(self, script, asked=()):
        """The lines of a script, and what asks for the text."""
        if self.name == YJS:
            return script.places + (["text "] if asked else [])
        return script.lines + list(asked)

    def run(self, lines, site, log, files, out):
        """Runs lines in its folder: its seconds as a user and those of the kernel, and its replies."""
        words = list(self.words)
        if self.name != TK:
            words += ["run", "--site", str(site), *(["--log", log] if log else []), *(["--out", out] if out else []), *files]
        script, replies = (os.path.join(self.folder, name) for name in ("script", "replies"))
        with open(script, "w", encoding="ascii") as file:
            file.writelines(line + "\n" for line in lines)
        with open(script, "rb") as given, open(replies, "wb") as told:
            child = subprocess.Popen(words, cwd=self.folder, env=self.surroundings, stdin=given, stdout=told)
            _, status, usage = os.wait4(child.pid, 0)
            child.returncode = os.waitstatus_to_exitcode(status)
        expect(f"{self.name}: status {child.returncode} of {words}", child.returncode == 0)
        with open(replies, "rb") as file:
            return (usage.ru_utime, usage.ru_stime), file.read()

    def prepare(self, work):
        """Makes the files of what comes before a work."""
        for site, script, log, out, *files in work.before:
            self.run(self.lines(script), site, log, *(files or [()]), out)

    def do(self, work):
        """Runs a work."""
        return self.run(self.lines(work.script), 1, work.log, work.files, "log.out" if work.writes else "")

    def asked(self, work):
        """The replies of a work and of what is asked of it then; its log is written too."""
        return self.run(self.lines(work.script, (*work.asked, ".t get 1.0 end")), 1, work.log, work.files, "log.out")[1]

    def file(self, name):
        """A file of its folder."""
        with open(os.path.join(self.folder, name), "rb") as file:
            return file.read()


def said(*words, given="", surroundings=None):
    """What a program writes; nothing where it fails."""
    ran = subprocess.run(words, input=given, env=surroundings, cwd=BESIDE, capture_output=True, text=True, check=False)
    return "" if ran.returncode else ran.stdout.strip()


def machine():
    """The processor, and how many others wait for one of them."""
    with open("/proc/cpuinfo", encoding="utf-8") as file:
        name = next((line.split(": ")[1].strip() for line in file if line.startswith("model name")), "a processor")
    return f"{name}, {os.cpu_count()} of them, load {os.getloadavg()[0]:.1f}"


def found(program, folder, stack):
    """The program, and each of the others that is there; of one that isn't it is said why."""
    peers, versions = [Peer(OURS, [os.path.abspath(program)], folder)], [machine()]
    if shutil.which("rustc"):
        built = os.path.join(folder, "rga")
        versions.append(said("rustc", "--version"))
        subprocess.run(["rustc", "-O", os.path.join(BESIDE, "rga.rs"), "-o", built], check=True)
        peers.append(Peer(PLAIN, [built], folder))
    else:
        print(f"left out: {PLAIN}, there is no rustc")
    wish = shutil.which("wish8.6") or shutil.which("wish")
    lacking = [name for name, place in (("wish", wish), ("Xvfb", shutil.which("Xvfb"))) if not place]
    if not lacking:
        screen = stack.enter_context(Screen("640x480"))
        surroundings = {**os.environ, "DISPLAY": screen.display, "LC_ALL": "C.UTF-8"}
        peers.append(Peer(TK, [wish, os.path.join(BESIDE, "tk.tcl")], folder, surroundings))
        versions.append("Tk " + said(wish, given="puts $tk_patchLevel; exit\n", surroundings=surroundings))
    else:
        print(f"left out: {TK}, there is no {' and no '.join(lacking)} (apt-get install tk8.6 xvfb)")
    asked = 'console.log("Yjs", require("yjs/package.json").version, "on node", process.version)'
    if not shutil.which("node"):
        print(f"left out: {YJS}, there is no node")
    elif version := said("node", "-e", asked):
        peers.append(Peer(YJS, ["node", os.path.join(BESIDE, "yjs.js")], folder))
        versions.append(version)
    else:
        print(f"left out: {YJS}, node doesn't find it (npm install yjs, or Debian's node-yjs; its folder goes into NODE_PATH)")
    print("; ".join(versions))
    return peers


def compared(name, work, peers):
    """Whether all answer alike: replies, text, tags; and of the program and the plain RGA each file."""
    ours = peers[0]
    replies = ours.asked(work)
    text = replies.splitlines()[-1]
    expect(f"{name}: refused", b"!" not in replies)
    for peer in peers[1:]:
        told = peer.asked(work)
        if peer.name != YJS:
            expect(f"{name}: replies of {peer.name}", told == replies)
        elif work.is_merge():
            expect(f"{name}: characters of {peer.name}", sorted(told.splitlines()[-1]) == sorted(text))
        else:
            expect(f"{name}: text of {peer.name}", told.splitlines()[-1] == text)
        if peer.name == PLAIN:
            for file in [*(out for _, _, _, out, *_ in work.before), "log.out"]:
                expect(f"{name}: file {file} of {peer.name}", peer.file(file) == ours.file(file))


def least(name, work, peers):
    """The least seconds of each, of three runs in turn, of one where that takes ten seconds: what else the machine does makes a time
    longer, never shorter."""
    best, replies = {}, None
    for _ in range(RUNS):
        for peer in peers:
            if peer.name in best and best[peer.name][0] > LONG:
                continue
            seconds, told = peer.do(work)
            best[peer.name] = min(seconds, best.get(peer.name, seconds))
            replies = told if replies is None else replies
            expect(f"{name}: replies of {peer.name}", peer.name == YJS or told == replies)
    return best


def row(cells):
    """A row of the table."""
    sizes = (38, 18, 12, 8, *[12] * (2 * len(NAMES) - 2))
    print("| " + " | ".join(cell.ljust(size) for cell, size in zip(cells, sizes)) + " |", flush=True)


def measured(name, n, case, peers, start):
    """Measures a work at n and at 2n, and prints its row."""
    took = []
    for size in (n, 2 * n):
        work = case(size)
        for peer in peers:
            peer.prepare(work)
        if size == n:
            compared(name, work, peers)
        took.append(least(name, work, peers))
    # What a run takes for its work alone.
    net = {peer.name: [each[peer.name][0] - start[peer.name][0] for each in took] for peer in peers}

    def seconds(who):
        if who not in net:
            return ""
        few, many = net[who]
        growth = f"{math.log2(many / few):.2f}" if min(few, many) >= SHORT else "-"
        return f"{took[1][who][0]:.2f} ({growth})"

    def times(who):
        if who not in net:
            return ""
        return f"{net[OURS][1] / net[who][1]:.2f}" if min(net[OURS][1], net[who][1]) >= SHORT else "-"

    kernel = f"{took[1][OURS][1]:.2f}"
    row([name, f"{n:,}, {2 * n:,}", seconds(OURS), kernel, *map(seconds, NAMES[1:]), *map(times, NAMES[1:])])


def main(program, percent, chosen):
    """Prints the table of the works whose names have one of the chosen words, or of all; answers the status."""
    with tempfile.TemporaryDirectory() as folder, contextlib.ExitStack() as stack:
        peers = found(program, folder, stack)
        print("Seconds of the processor as a user at 2n, of whole runs, the least of three; in brackets the exponent of growth, n to 2n.")
        print("Exponents, and how many times as long as each other the program takes, are without the seconds of an empty script.")
        row(["Work", "n, 2n", "program s", "kernel s", *(f"{name} s" for name in NAMES[1:]), *(f"of {name}" for name in NAMES[1:])])
        row(["---"] * (2 * len(NAMES) + 2))
        start = least("an empty script", Work(Script()), peers)
        empty = [f"{start[name][0]:.2f}" if name in start else "" for name in NAMES]
        row(["an empty script", "", empty[0], f"{start[OURS][1]:.2f}", *empty[1:], *[""] * (len(NAMES) - 1)])
        for name, n, case, who in WORKS:
            if not chosen or any(word in name for word in chosen):
                measured(name, n * percent // 100, case, [peer for peer in peers if peer.name == OURS or peer.name in who], start)
    return 1 if wrong else 0
