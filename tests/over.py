#!/usr/bin/env python3
"""Checks functions of a crate over lower crates that have no library yet: tests/over.py CRATE FUNCTION [FUNCTION ..].

`rt check` proves all crates below before it looks at one. This takes each of them that has a built library (crates/NAME/out/rlib, made by
`rt check` or `rt ci`) from there, and the others from their sources, whose statements are read and whose functions aren't proved, but for
those that are called. So a change in a high crate is tried in one to four minutes on a fresh machine. It tells whether holes or failures are
left in the functions named, and is no verdict. What it keeps lies below out/over. `FUNCTION` is a path, as `site::SiteState::export`; further
flags of `rattle check` may follow, as `--allow-holes`."""
import os
import pathlib
import shutil
import subprocess
import sys

ROOT = pathlib.Path(__file__).resolve().parent.parent
KIT = pathlib.Path(shutil.which("rt")).resolve().parent.parent


def crates():
    """The crates of crates.txt, each with those that it uses."""
    found = {}
    for line in (ROOT / "crates.txt").read_text().splitlines():
        name, _, uses = line.split("#")[0].partition(":")
        if name.strip():
            found[name.split()[0]] = uses.split()
    return found


def library(name):
    """The built library of a crate, if there is one."""
    built = ROOT / "crates" / name / "out" / "rlib" / f"{name}.rlib"
    return built if built.is_dir() else None


def below(name, uses, built, sources):
    """Sorts what stands below a crate into libraries and sources, the lowest source first."""
    for used in uses[name]:
        if used not in uses:
            kit = KIT / "rlibs" / f"{used}.rlib"
            if kit.is_dir():
                built[used] = kit
        elif library(used):
            built[used] = library(used)
        elif used not in sources:
            below(used, uses, built, sources)
            if used not in sources:
                sources.append(used)


def main(name, words):
    uses, built, sources = crates(), {}, []
    below(name, uses, built, sources)
    src = ROOT / "crates" / name / "src"
    root = "src/main.rt" if (src / "main.rt").exists() else "src/lib.rt"
    kept = ROOT / "out" / "over" / name
    kept.mkdir(parents=True, exist_ok=True)
    command = ["rattle", "check", "--crate-name", name, root, "--extern", f"std={KIT}/rlibs/std.rlib", "-L", f"dependency={KIT}/rlibs"]
    for crate in uses:
        if library(crate):
            command += ["-L", f"dependency={library(crate).parent}"]
    for crate, path in built.items():
        command += ["--extern", f"{crate}={path}"]
    for crate in sources:
        command += ["--lib", f"{crate}:{','.join([*uses[crate], 'std'])}={ROOT}/crates/{crate}/src/lib.rt"]
    command += ["--antt-project", f"{KIT}/rattle/logic/antt-project.json", "--logic-built", f"{KIT}/logic_built"]
    command += ["--incremental", str(kept), "--jobs", "1"]
    for word in words:
        command += [word] if word.startswith("-") else ["--only", word]
    print("from source:", " ".join(sources) or "none", flush=True)
    return subprocess.run(command, cwd=ROOT / "crates" / name, env=os.environ, check=False).returncode


if __name__ == "__main__":
    if len(sys.argv) < 3:
        sys.exit(__doc__)
    sys.exit(main(sys.argv[1], sys.argv[2:]))
