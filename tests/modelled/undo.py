"""The undo stacks of a site and its modified flag (docs/WIDGET.md, "Undo"): groups of actions, which name characters by
their stamps."""


class Action:
    """What a command put in and took away: stamps, and stamps with their characters and shared tags."""

    def __init__(self, number, kind, put, taken):
        self.number, self.kind, self.put, self.taken = number, kind, put, taken

    def rename(self, old, new):
        self.put = [new if here == old else here for here in self.put]
        self.taken = [(new if here == old else here, char, tags) for here, char, tags in self.taken]


class Undo:
    def __init__(self):
        self.is_on, self.separates = False, True
        # the groups that can be undone and redone, and whether the last of the first takes further actions
        self.done, self.undone, self.is_open = [], [], False
        # the most groups that can be undone, any number of them where it is 0, and the numbers of the actions that were dropped
        self.most, self.dropped = 0, []
        self.is_forced, self.kept = False, []

    def numbers(self):
        return self.dropped + [action.number for group in self.done for action in group]

    def drop(self):
        """The oldest groups go, where there are too many."""
        while 0 < self.most < len(self.done):
            self.dropped += [action.number for action in self.done.pop(0)]

    def set_most(self, most):
        self.most = most
        self.drop()

    def is_modified(self):
        return self.is_forced or self.numbers() != self.kept

    def set_modified(self, is_modified):
        self.is_forced = is_modified
        if not is_modified:
            self.kept = self.numbers()

    def reset(self):
        self.is_forced = self.is_modified()
        self.done, self.undone, self.is_open, self.dropped, self.kept = [], [], False, [], []

    def separate(self):
        self.is_open = False

    def record(self, action):
        """A command changed characters."""
        if not self.is_on:
            self.is_forced = True
            return
        self.undone = []
        if self.separates and self.is_open and (action.kind == "replace" or action.kind != self.done[-1][-1].kind):
            self.separate()
        if not self.is_open:
            self.done.append([])
        self.is_open = True
        self.done[-1].append(action)
        self.drop()

    def move(self, source, target, revert):
        """The last group of a stack is reverted, from its last action to its first, and goes to the other stack. `revert` answers
        the reverted action, and which stamps came back under which new ones."""
        self.separate()
        group, reverted = source[-1], []
        while len(reverted) < len(group):
            action, renamed = revert(group[-1 - len(reverted)])
            reverted.append(action)
            for old, new in renamed:
                for other in [*(a for stack in (self.done, self.undone) for g in stack for a in g), *reverted[:-1]]:
                    other.rename(old, new)
        source.pop()
        target.append(reverted)
        self.drop()
