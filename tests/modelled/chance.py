"""Random commands, some of whose words are wrong."""
import random

from modelled.words import spelled


class Chance(random.Random):
    # whether limits of what widgets show are set
    has_limits = False
    # whether most commands are short edits and those of the undo stacks
    is_undoing = False
    # the commands that come next
    coming = ()

    def text(self):
        return "".join(self.choice("ab_1 \n-é日") for _ in range(self.randrange(9)))

    def name(self):
        return self.choice(["insert", "current", "m", "n", "l", "1.0", "2.1", "end", "a b", "m+1c", "sel.first", "q.last", "é", "" if self.random() < .2 else "k"])

    def tag(self):
        return self.choice(["sel", "t", "t", "t", "u", "u", "v", "a b", "t.first", "é", "" if self.random() < .1 else "t"])

    def list(self):
        if self.random() < .03:
            return self.choice(['"t', "{t", '"t"u', "{t}u", '"\\q"', "{t}}"])
        # now and then more than an Insert lists in a file of version 1, or in any file
        names = self.many() if self.random() < .06 else [self.tag() for _ in range(self.randrange(4))]
        return self.choice(["", " ", "\n"]) + self.choice([" ", "\n", "\t", "  "]).join(map(spelled, names))

    def many(self):
        count = self.choice([64, 65, 70, 255, 256, 260])
        return self.sample([f"t{number}" for number in range(count)], count)

    def word(self):
        base = self.choice([f"{self.randrange(5)}.{self.randrange(9)}", f"{self.randrange(1, 5)}.end", "end", self.name(), self.tag() + self.choice([".first", ".last"]) if self.random() < .4 else "1.0", "x" if self.random() < .2 else "insert"])
        for _ in range(self.choice([0, 0, 0, 1, 1, 2])):
            space = " " * self.choice([0, 1, 1, 2])
            if self.random() < .6:
                base += (space + self.choice("+-") + self.choice(["", " "]) + self.choice(["", "", "+", "-"]) + str(self.choice([0, 1, 2, 3, 7, 2**70])) + self.choice(["", " "])
                         + self.choice(["", "", "any "]) + self.choice(["c", "char", "chars", "i", "indices", "l", "lines", "line", "lin", "cx" if self.random() < .1 else "c"]))
            else:
                base += self.choice([" ", " ", "  ", "" if self.random() < .1 else " "]) + self.choice(["", "", "any "]) + self.choice(["linestart", "lineend", "wordstart", "wordend", "lines", "linee", "words", "worde", "line" if self.random() < .1 else "lineend"])
        return base + self.choice(["", "", "", " "])

    def texts(self):
        words = [w for _ in range(self.choice([1, 1, 1, 2, 3])) for w in (self.text(), self.list())]
        return words if self.random() < .5 else words[:-1]

    def search(self):
        switches = self.choices(["-forwards", "-backwards", "-exact", "-nocase", "-all", "-all", "-strictlimits", "-overlap", "-x" if self.random() < .1 else "-all"], k=self.randrange(4))
        pattern = "".join(self.choice("abAB_ \n-éÉ日") for _ in range(self.choice([0, 1, 1, 1, 2, 2, 3]) if self.random() < .3 else 1))
        return [*switches, *self.choice([[], [], ["--"]]), pattern, self.word(), *(self.word() for _ in range(self.randrange(2)))]

    def dump(self):
        switches = self.choices(["-all", "-mark", "-tag", "-text", "-text", "--" if self.random() < .1 else "-tag"], k=self.randrange(3))
        return [*switches, self.word(), *(self.word() for _ in range(self.randrange(2)))]

    def truth(self):
        return self.choice(["1", "1", "true", "yes", "on", "0", "false", "no", "off", "True" if self.random() < .1 else "1"])

    def edit(self):
        action = self.choice(["undo", "undo", "undo", "undo", "redo", "redo", "separator", "canundo", "canredo", "modified", "modified", "reset" if self.random() < .2 else "undo"])
        if action == "modified" and self.random() < .5:
            return [action, self.truth()]
        return [action, *(["1"] if self.random() < .02 else [])]

    def limit(self):
        return [self.choice(["-startline", "-endline"]), self.choice(["", "1", "2", "2", "3", "3", "4", "5", "0", "99" if self.random() < .1 else "2", "+1" if self.random() < .1 else "3"])]

    def most(self):
        """A number of groups, mostly a small one."""
        odd = self.choice(["", "-", "--1", "+1", "1 ", "1.0", "x", "-0", "002", "9" * 19, "9223372036854775808", "-" + "9" * 30])
        return self.choice(["1", "1", "2", "2", "2", "3", "3", "4", "0", "-1", odd if self.random() < .3 else "2"])

    def option(self):
        if self.random() < .4:
            return ["-maxundo", self.most()]
        return [self.choice(["-undo", "-autoseparators", "-font" if self.random() < .05 else "-autoseparators"]), self.truth()]

    def options(self):
        return [w for _ in range(self.choice([1, 1, 1, 2, 3])) for w in (self.limit() if self.has_limits and self.random() < .7 else self.option())]

    def begin(self):
        """Most scripts begin with the undo mechanism on, some of them with a bound."""
        self.coming = ()
        is_on, is_bounded = self.random() < (.95 if self.is_undoing else .7), self.random() < (.6 if self.is_undoing else .2)
        return ["configure", "-undo", str(int(is_on)), *(["-maxundo", self.most()] if is_bounded else [])]

    def path(self):
        return self.choice([".t", ".t", ".t", ".p", ".p", ".q", ".x" if self.random() < .1 else ".t"])

    def peers(self):
        """A line about the widgets of a site, without a path before it where it is `destroy`."""
        if self.random() < .3:
            return ["destroy", self.path(), *([self.path()] if self.random() < .05 else [])]
        if self.random() < .4:
            return [self.path(), "peer", "names", *(["x"] if self.random() < .05 else [])]
        return [self.path(), "peer", "create", self.choice([self.path(), self.path(), "." if self.random() < .1 else ".p", "t" if self.random() < .1 else ".q"]),
                *(self.options() if self.random() < .2 else [])]

    def line(self):
        if self.random() < .1:
            return self.peers()
        return [".t" if self.is_undoing and self.random() < .7 else self.path(), *self.command()]

    def meeting(self):
        """Commands of the undo stacks that seldom meet by chance."""
        undo, redo, bound, count = ["edit", "undo"], ["edit", "redo"], ["configure", "-maxundo", self.choice("12")], self.randrange(1, 4)
        return self.choice([
            [*[undo] * count, bound, *[redo] * count, *[undo] * count],
            [["configure", "-undo", "0"], bound, ["configure", "-undo", "1"], *[undo] * count],
            [["edit", "modified", "0"], ["edit", "reset"], ["edit", "modified"]],
        ])

    def undoing(self):
        """A short edit, or a command of the undo stacks."""
        if self.random() < .06:
            first, *self.coming = self.meeting()
            return first
        place = self.choice(["1.0", "1.1", "end"])
        edits = [["insert", place, self.choice(["a", "b", "c\n"])], ["replace", "1.0", "1.1", "x"], ["delete", place]]
        asks = [["edit", *words.split()] for words in ("undo", "redo", "modified", "modified 0", "separator", "reset")]
        asks += [["edit", *self.edit()], ["configure", "-maxundo", self.most()]]
        return self.choices(edits, [3, 3, 1])[0] if self.random() < .5 else self.choices(asks, [4, 4, 4, 2, 3, 1, 2, 3])[0]

    def ending(self):
        """Lines that show what is on the undo stacks, where most commands were of these."""
        words = ["edit undo", "edit modified", "get 1.0 end"] * 4 + ["edit redo", "edit modified", "get 1.0 end"] * 2
        return [[".t", *line.split()] for line in words] if self.is_undoing else []

    def command(self):
        if self.coming:
            first, *self.coming = self.coming
            return first
        if self.is_undoing and self.random() < .85:
            return self.undoing()
        kind = self.choice(["insert", "insert", "insert", "delete", "delete", "get", "index", "index", "compare", "count", "mark", "mark", "tag", "tag", "tag", "tag", "tag", "replace", "search", "search", "dump", "dump", "edit", "edit", "edit", "edit", "edit", "configure", "cget"])
        if kind == "edit":
            return [kind, *self.edit()]
        if kind == "configure":
            return [kind, *(self.options() if self.random() < .5 else ["-undo", "1"])][:99 if self.random() < .95 else 2]
        if kind == "cget":
            return [kind, self.choice([*(["-startline", "-endline"] if self.has_limits else []), "-undo", "-autoseparators", "-maxundo", "-font" if self.random() < .1 else "-undo"])]
        if kind == "insert":
            return [kind, self.word(), *self.texts()]
        if kind == "replace":
            return [kind, self.word(), self.word(), *self.texts()]
        if kind == "search":
            return [kind, *self.search()]
        if kind == "dump":
            return [kind, *self.dump()]
        if kind == "tag":
            action = self.choice(["add", "add", "add", "remove", "delete", "raise", "lower", "names", "ranges", "ranges", "nextrange", "nextrange", "prevrange", "prevrange", "frob" if self.random() < .1 else "names"])
            if action in ("add", "remove"):
                return [kind, action, self.tag(), *(self.word() for _ in range(self.randrange(5)))]
            if action in ("delete", "raise", "lower"):
                return [kind, action, *(self.tag() for _ in range(self.randrange(4) if action == "delete" else self.randrange(1, 3)))]
            if action == "names":
                return [kind, action, *(self.word() for _ in range(self.randrange(2)))]
            if action == "ranges":
                return [kind, action, self.tag()]
            return [kind, action, self.tag(), *(self.word() for _ in range(self.randrange(1, 3)))]
        if kind in ("delete", "get"):
            return [kind, *(self.word() for _ in range(self.randrange(1, 6)))]
        if kind == "index":
            return [kind, self.word()]
        if kind == "compare":
            return [kind, self.word(), self.choice(["<", "<=", "==", ">=", ">", "!=", "=<"]), self.word()]
        if kind == "count":
            return [kind, *self.choices(["-chars", "-indices", "-lines"], k=self.randrange(3)), self.word(), self.word()]
        action = self.choice(["set", "set", "set", "unset", "gravity", "gravity", "names", "next", "next", "previous", "previous"])
        if action == "set":
            return [kind, action, self.name(), self.word()]
        if action == "unset":
            return [kind, action, *(self.name() for _ in range(self.randrange(3)))]
        if action == "gravity":
            return [kind, action, self.name(), *self.choice([[], ["left"], ["right"], ["up"]])]
        if action == "names":
            return [kind, action]
        return [kind, action, self.choice([self.name(), self.word()])]
