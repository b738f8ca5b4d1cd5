"""Groups of sites, which edit by scripts of their own and receive one another's files, late, repeated and cut."""
import os
import subprocess

from modelled.files import TWO, Insert, last_count, read, spelling, stamp
from modelled.peers import Peers
from modelled.sites import Site
from modelled.words import BAD_COMMAND, NO_FILE, spelled


# the numbers of sites, some of which only files of version 2 have room for
NUMBERS = ([1, 2, 3, 4], [7, 65535, 65536, 4294967295])


class Group:
    """Sites with their files, in a folder."""

    def __init__(self, program, chance, folder, count, has_peers):
        self.program, self.chance, self.folder, self.has_peers = program, chance, folder, has_peers
        # whether operations are forged, so that sites need not agree in the end
        self.is_forging = chance.random() < .25
        self.logs = {site: [] for site in chance.sample(chance.choice(NUMBERS), count)}
        self.files = {}

    def write(self, name, ops, is_cut=False):
        """A file in the version that is written, or in version 2, which has room for all operations; or a front of it."""
        data = spelling(ops, TWO if self.chance.random() < .3 else None)
        data = data[:self.chance.randrange(len(data))] if is_cut else data
        with open(os.path.join(self.folder, name), "wb") as file:
            file.write(data)
        self.files[name] = read(data)

    def snapshot(self, site, turn):
        """A site's log as a file for others: the whole of it, its later operations alone, some of them, one, or a front of its bytes."""
        ops = sorted(self.logs[site], key=stamp)
        self.write(f"{site}.{turn}", ops)
        if ops and self.chance.random() < .5:
            self.write(f"{site}.{turn}.late", ops[self.chance.randrange(len(ops)):])
        if ops and self.chance.random() < .5:
            self.write(f"{site}.{turn}.some", [op for op in ops if self.chance.random() < .5])
        if ops and self.chance.random() < .3:
            self.write(f"{site}.{turn}.one", [self.chance.choice(ops)])
        if self.chance.random() < .2:
            self.write(f"{site}.{turn}.cut", ops, is_cut=True)
        if ops and self.is_forging:
            self.write(f"{site}.{turn}.forged", self.forged(ops))

    def forged(self, ops):
        """Some of the later operations, of which some do something else than what was done under their stamps, and so clash with these, and
        an Insert behind what its own site never made."""
        some = [op for op in ops[self.chance.randrange(len(ops)):] if self.chance.random() < .8]
        some = [op._replace(text="z" * len(op.text)) if isinstance(op, Insert) and self.chance.random() < .4 else op for op in some]
        last = ops[-1]
        if self.chance.random() < .5:
            count = last_count(last) + 2
            some.append(Insert(count, last.site, last_count(last), (count - 1, last.site), "q", frozenset()))
        return some

    def lines(self, site, names):
        """A script: commands, and files that are received."""
        found = [[".t", *self.chance.begin()]]
        for _ in range(self.chance.randrange(1, 40)):
            if names and self.chance.random() < .2:
                found.append(["receive", self.chance.choice(names)])
            elif self.chance.random() < .02:
                found.append(self.chance.choice([["receive"], ["receive", "none"], ["receive", "a", "b"]]))
            else:
                found.append(self.chance.line() if self.has_peers else [".t", *self.chance.command()])
        return found + self.chance.ending()

    def run(self, site, script, names):
        """Whether the program answers a script of a site as the model does, and leaves the same log."""
        model, wants = Peers(site), []
        if self.logs[site]:
            model.receive(read(spelling(self.logs[site])))
        for words in script:
            if words[0] != "receive":
                wants.append(model.reply_to(words))
            elif len(words) != 2:
                wants.append(BAD_COMMAND)
            else:
                wants.append(model.receive(self.files[words[1]]) if words[1] in names else NO_FILE)
            assert model.is_sound(), script
        log = os.path.join(self.folder, f"{site}.log")
        options = ["--site", str(site), "--out", log] + (["--log", log] if os.path.exists(log) else [])
        text = "".join(" ".join(map(spelled, words)) + "\n" for words in script)
        done = subprocess.run([self.program, "run", *options, *names], input=text.encode(), capture_output=True, timeout=120, cwd=self.folder)
        self.logs[site] = model.ops
        lines = done.stdout.decode().split("\n")[:-1]
        with open(log, "rb") as file:
            left = file.read()
        if (lines, done.stderr, done.returncode, left) == (wants, b"", 0, spelling(model.ops)):
            return True
        at = next((i for i, (a, b) in enumerate(zip(lines, wants)) if a != b), min(len(lines), len(wants)))
        print(f"failed: site {site}, {' '.join(options)}, line {at + 1}: {done.returncode} {done.stderr!r}")
        print("".join(text.splitlines(True)[:at + 1]), end="")
        print(f"  got  {lines[at] if at < len(lines) else None!r}\n  want {wants[at] if at < len(wants) else None!r}\n  the log is {'' if left == spelling(model.ops) else 'not '}the model's")
        return False

    def play(self):
        """Sites edit and receive in turns; then each receives all that the others did, in some order, some of it twice."""
        good = True
        for turn in range(self.chance.randrange(1, 5)):
            for site in self.chance.sample(list(self.logs), len(self.logs)):
                names = self.chance.choices(list(self.files), k=self.chance.randrange(4)) if self.files else []
                good &= self.run(site, self.lines(site, names), names)
                self.snapshot(site, turn)
        for site in self.logs:
            self.write(f"{site}.whole", self.logs[site])
        ends = [f"{site}.whole" for site in self.logs]
        shown = [[".t", "get", "1.0", "end"], *([".t", "tag", "ranges", tag] for tag in ("t", "u", "v", "a b", "t.first", "é"))]
        answers = []
        for site in self.logs:
            names = self.chance.choices(list(self.files), k=2) + self.chance.sample(ends, len(ends))
            good &= self.run(site, [["receive", name] for name in names] + shown, names)
            model = Site(site)
            for op in sorted(self.logs[site], key=stamp):
                model.accept(op)
            answers.append((sorted(map(str, self.logs[site])), [model.answer(words[1:]) for words in shown]))
        if not self.is_forging and any(answer != answers[0] for answer in answers):
            print("failed: sites that accepted the same differ in the model")
            good = False
        return good
