"""Files of as many records as a site may hold, with an allocation refused somewhere: what came before it stays, the fault names its
record, and the same file received again brings the rest."""
import collections

from driving.program import check
from driving.samples import HEAD, insert, operation, put, remove, spans
from refusing.runs import NO_MEMORY, script_of

# how many records a file has, and in how many steps the allocations of its line are gone through
RECORDS, STEPS = 65_536, 16
SITE = ("run", "--site", "1", "--out", "out")


def history(count):
    """So many records of site 2, each behind the one before it, which type, and now and then take away or tag what was typed last."""
    next_count, prev, last, found = 1, 0, (0, 0), []
    for number in range(count):
        if number % 7 == 3:
            found.append(operation(2, next_count, 2, prev, spans((2, last[0], last[0]))))
            size = 1
        elif number % 7 == 5:
            found.append(operation(3, next_count, 2, prev, b"\1\1t" + spans((2, last[0], last[0]))))
            size = 1
        else:
            text = b"abc"[: 1 + number % 3]
            found.append(insert(next_count, 2, prev, last, text))
            size = len(text)
            last = (next_count + size - 1, 2)
        prev = next_count + size - 1
        next_count += size
    return found


def offsets(records):
    """Where each record of a file begins."""
    at = [len(HEAD)]
    for record in records[:-1]:
        at.append(at[-1] + len(record))
    return at


def places(count):
    """Some of the numbers of so many allocations: the first ones, the last ones, and steps between."""
    return sorted({*range(1, 6), *range(count - 4, count + 1), *(1 + step * (count - 1) // STEPS for step in range(STEPS + 1))})


# a line that receives a file, behind others: its records, what it is answered, what its fault tells of a number of records that came before,
# the lines behind it with their replies where so many came, and what --out has in the end
Case = collections.namedtuple("Case", "name before line records reply told behind log")


def cases():
    """A new site receives a file; one receives what it has; and one receives what comes early."""
    records, n = history(RECORDS + 1), RECORDS
    whole = HEAD + b"".join(records[:-1])
    put("whole", whole)
    put("late", HEAD + b"".join(records[1:]))
    put("first", HEAD + records[0])
    again = ("receive whole", f"= 0 {n}")
    return [
        Case("`receive` of 65,536", [], "receive whole", records[:-1], f"= {n} 0", lambda i: f"new {i} repeat 0", lambda i: [("receive whole", f"= {n - i} {i}"), again], whole),
        Case("`receive` of 65,536 repeats", ["receive whole"], "receive whole", records[:-1], f"= 0 {n}", lambda i: f"new 0 repeat {i}", lambda i: [again], whole),
        Case("`receive` of 65,536 early ones", [], "receive late", records[1:], f"= 0 0 {n}", lambda i: f"new 0 repeat 0{f' held {i}' if i else ''}",
             lambda i: [("receive late", f"= 0 {i} {n}"), ("receive first", f"= {n + 1} 0")], HEAD + b"".join(records)),
    ]


def stepped(library, table, case):
    """Refuses some of the allocations of a case's line, from the first to the last."""
    def run(number):
        return library.run(*SITE, "whole", "late", "first", script=script_of([*case.before, f"#refuse {number}", case.line, *(ask for ask, _ in case.behind(0))]))

    # the replies to the line that there may be, with how many records came
    faults = {f"{NO_MEMORY} at {offset} {case.told(number)}": number for number, offset in enumerate(offsets(case.records))}
    replies = {NO_MEMORY: 0, case.reply: RECORDS, **faults}
    left = run(0)
    check(f"{case.name}: nothing is refused", left.lines[len(case.before):], [case.reply, *(reply for _, reply in case.behind(RECORDS))])
    count, seen, refusals, wants = left.counts[0][0], [], 0, 0
    for number in places(count):
        left = run(number)
        reply, *behind = left.lines[len(case.before):]
        came = replies.get(reply)
        is_good = came is not None and behind == [wanted for _, wanted in case.behind(came)]
        check(f"{case.name} without allocation {number} of {count}: {reply}, then {behind}", (is_good, left.error, left.status, left.out == case.log), (True, "", 0, True))
        refusals, wants = refusals + 1, wants + reply.startswith(NO_MEMORY)
        seen += [came] if reply in faults else []
    check(f"{case.name}: later allocations stop later records", (seen == sorted(seen), len(set(seen)) > STEPS // 4), (True, True))
    table.add(case.name, refusals, wants, refusals - wants)


def received(library, table):
    for case in cases():
        stepped(library, table, case)
    remove("whole", "late", "first")
