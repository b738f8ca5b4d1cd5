"""The plain model of a site that finds no memory once, and the ways that a line may go for it."""
import copy

from modelled.files import BAD_RECORD, Insert, stamp
from modelled.peers import Peers
from modelled.sites import EARLY, NEW
from modelled.words import BAD_COMMAND, NO_FILE, Refused, words_of
from refusing.runs import NO_MEMORY


class Wanting(Peers):
    """A site with the files that it may receive. Of a file's records one may find no memory, when it is read or when its operation is
    taken or held; or one of the held operations that it takes, and then others stay too, or are taken."""

    def __init__(self, site, files):
        super().__init__(site)
        self.files = files
        self.offers = self.tries = 0
        self.refused_offer = self.refused_try = None
        self.stays = False

    def accept(self, op):
        self.offers += 1
        if self.offers == self.refused_offer:
            return 0, NO_MEMORY
        if isinstance(op, Insert) and op.after >= stamp(op):
            return 0, "! 34 BadStamp"
        return super().accept(op)

    def settle(self):
        count, waiting, has_failed = 0, [], False
        while ready := [op for op in self.held if op not in waiting and self.answer_to(op) != EARLY]:
            op = min(ready, key=stamp)
            if self.answer_to(op) == NEW:
                self.tries += 1
                if self.tries == self.refused_try or has_failed and self.stays:
                    has_failed = True
                    waiting.append(op)
                    continue
                self.take_and_note(op)
                count += 1
            self.held.remove(op)
        return count

    def receive(self, file):
        line, broken = super().receive(file), f"{BAD_RECORD} at {file.end} "
        # a broken record may take memory before it is found to be one
        return NO_MEMORY + line[len(BAD_RECORD):] if line.startswith(broken) and self.offers + 1 == self.refused_offer else line

    def answered(self, line):
        """The reply line to a line of a script."""
        try:
            words = words_of(line)
        except Refused as fault:
            return str(fault)
        if words[0] != "receive":
            # a path by itself names no command
            return self.reply_to(words if words[1:] or words[0] == "destroy" else [*words, ""])
        if len(words) != 2:
            return BAD_COMMAND
        return self.receive(self.files[words[1]]) if words[1] in self.files else NO_FILE


def wants(site, line, offer=None, held=None, stays=False):
    """What a line is answered by a site where a record of its file, or a held operation, finds no memory; and the site after it."""
    site = copy.deepcopy(site)
    site.offers = site.tries = 0
    site.refused_offer, site.refused_try, site.stays = offer, held, stays
    reply = site.answered(line)
    tried = site.tries
    site.refused_offer = site.refused_try = None
    return reply, site, tried


def ways(site, line):
    """What a line may be answered while one allocation is refused, with the site after it: first as if none were; `NoMemory` with the site
    as it was; of a file the records before one that found none, and of held operations some."""
    reply, after, tried = wants(site, line)
    found = [(reply, after), (NO_MEMORY, copy.deepcopy(site))]
    file = site.files.get(line.split()[1]) if line.startswith("receive ") else None
    if file:
        found += [wants(site, line, offer=number)[:2] for number in range(1, len(file.records) + 2)]
    return found + [wants(site, line, held=number, stays=stays)[:2] for number in range(1, tried + 1) for stays in (True, False)]
