#!/usr/bin/env python3
"""Refuses each allocation of each line of some scripts in turn, and looks at what the line is answered, at what it left, and at what it
is answered when it is given again: the tables of rt_tests_script, files that are received, long texts, words and lists; and the
same for the program's begin and end, its joins and shows.

Usage: tests/refusals.py [PROGRAM [NAME ..]]; without a program it takes ./peertext, which builds it where it is missing. With names
only the parts and the tables are tried whose names have one of them in them. At the end stands a table of the refusals by command;
the last line is 'N passed, M failed'.
"""
import os
import subprocess
import sys
import tempfile

from driving.program import CHECKED, PROGRAM, check
from refusing import ends, records, scripts
from refusing.rows import COMMANDS, Table, refused_script
from refusing.runs import Library
from refusing.tables import scripts_of, tables

SHARED_MEMORY = "/dev/shm"


def cases():
    """What is tried, by its name."""
    found = {name: [(1, script) for script in table] for name, table in tables().items()}
    found["received files"] = scripts.received()
    found["words"] = [(1, script) for script in scripts_of(scripts.WORDS)]
    found["typing"] = [(1, scripts.typed())]
    found["many runs"] = [(1, scripts.many_runs())]
    found["long lines"] = [(1, script) for script in scripts.long_lines()]
    return found


def main():
    wanted = sys.argv[2:]
    # the launcher may have to build the program first
    subprocess.run([PROGRAM, "--version"], capture_output=True, check=True)
    table = Table()
    with tempfile.TemporaryDirectory(dir=SHARED_MEMORY if os.path.isdir(SHARED_MEMORY) else None) as folder:
        library = Library(folder)
        os.chdir(folder)
        ends.put_files()
        for name, tried in cases().items():
            if not wanted or any(word in name for word in wanted):
                for site, script in tried:
                    refused_script(library, table, name, site, script)
        for name, part in {**ends.PARTS, "received files of many records": records.received}.items():
            if not wanted or any(word in name for word in wanted):
                part(library, table)
    if not table.counts:
        sys.exit(f"nothing is named so: {' '.join(wanted)}")
    table.print()
    if not wanted:
        check("commands without a line", COMMANDS - set(table.counts), set())
    print("{} passed, {} failed".format(*CHECKED))
    sys.exit(1 if CHECKED[1] else 0)


main()
