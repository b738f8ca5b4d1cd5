"""Scripts as tables of lines with their replies, those of rt_tests_script among them."""
import os
import re

from driving.program import ROOT

TABLES = os.path.join(ROOT, "crates", "rt_tests_script", "src")


def scripts_of(text):
    """Scripts with an empty line between two, whose rows are a line and its reply, or a line alone."""
    return [[tuple(row.split(" -> ", 1)) for row in script.split("\n")] for script in text.strip("\n").split("\n\n")]


def tables():
    """The tables of which each script is run on a new site of the number 1, by their names."""
    texts = []
    for file in sorted(os.listdir(TABLES)):
        with open(os.path.join(TABLES, file), encoding="utf-8") as source:
            texts.append((file, source.read()))
    run = {name for _, text in texts for name in re.findall(r"answer_all\(&rt, alloc, (\w+)\)", text)}
    return {f"{file} {name}": scripts_of(rows) for file, text in texts
            for name, rows in re.findall(r'const (\w+): Scripts? = r?#?"\n(.*?)"#?;', text, re.DOTALL) if name in run}
