#!/usr/bin/env python3
"""Tests the library that C links: tests/library/check.py [ARCHIVE [PROGRAM]].

Without an ARCHIVE it makes one as build.py does, which proves the crate first. PROGRAM is the program `peertext`, whose replies those of
the library are compared with; without it, they are compared with the replies that the tables of rt_tests_script have. The last line is
'N passed, M failed'."""
import pathlib
import shutil
import subprocess
import sys
import tempfile

HERE = pathlib.Path(__file__).resolve().parent
ROOT = HERE.parent.parent
sys.path[:0] = [str(HERE), str(HERE.parent)]
WORDS = sys.argv[1:]
# the modules that are shared with drive.py take a program from the command line
sys.argv[1:] = WORDS[1:2]

import build
import faces
from driving.program import CHECKED, check
from scripts import exchanged_files, groups, hostile_scripts, stored_scripts

# words for a compiler, by what is tested with it
PLAIN = ("-O2",)
SANITIZED = ("-g", "-O1", "-fsanitize=address,undefined", "-fno-omit-frame-pointer", "-fno-sanitize-recover=all")
STRICT = ("-std=c11", "-D_DEFAULT_SOURCE", "-Wall", "-Wextra", "-Werror", "-pedantic", f"-I{ROOT}/include")
# words for a linker, by the program
LINKED = {name: ("-Wl,--wrap=malloc,--wrap=realloc,--wrap=free",) for name in ("many", "wanting")} | {"threads": ("-pthread",)}
HELGRIND = ("valgrind", "--tool=helgrind", "--quiet", "--error-exitcode=9")
VALGRIND = ("valgrind", "--quiet", "--leak-check=full", "--show-leak-kinds=all", "--errors-for-leak-kinds=all", "--error-exitcode=9")


def compiled(folder, archive, name, how, compiler="cc"):
    """A C program of this folder, linked with the archive; None where it can't be."""
    out = folder / f"{name}-{compiler}-{len(how)}"
    words = [*STRICT, *how, HERE / f"{name}.c", archive, *LINKED.get(name, ()), "-o", out]
    ran = subprocess.run([compiler, *words], capture_output=True, text=True, check=False)
    check(f"{name}.c is compiled by {compiler} {' '.join(how)}", (ran.returncode, ran.stderr), (0, ""))
    return out if ran.returncode == 0 else None


def last_of(text):
    lines = text.splitlines()
    return lines[-1] if lines else ""


def runs(name, program, *words, under=()):
    """A program that counts its own checks: what it printed counts as one of these."""
    if program is None:
        return
    ran = subprocess.run([*under, program, *words], stdin=subprocess.DEVNULL, capture_output=True, text=True, timeout=3600, check=False)
    told = last_of(ran.stdout)
    print(f"{name}: {' '.join(ran.stdout.splitlines()[-2:])}", flush=True)
    check(name, (ran.returncode, told.endswith(" passed, 0 failed"), ran.stderr), (0, True, ""))
    if not told.endswith(" passed, 0 failed"):
        print(ran.stdout[-2000:])


def programs(folder, archive, kind, how, compiler, under=(), rounds=100):
    """Each C program once, built and run in one way; the one that is driven is answered."""
    for name, words in (("wrong", ()), ("many", (str(rounds),)), ("wanting", ()), ("threads", ())):
        runs(f"{name}, {kind}", compiled(folder, archive, name, how, compiler), *words, under=under)
    driven = compiled(folder, archive, "driven", how, compiler)
    return driven and [*under, driven]


def driven_by(words, name):
    """Runs lines through the program that is driven: the lines of its output."""
    def run(text):
        ran = subprocess.run(words, input=text, capture_output=True, timeout=3600, check=False)
        check(f"{name} ends well", (ran.returncode, ran.stderr), (0, b""))
        return ran.stdout.decode().splitlines()
    return run


def ways(folder, archive):
    """The ways in which programs are built and run here, and the program that is driven in each."""
    found = {"plain": programs(folder, archive, "plain", PLAIN, "cc", rounds=100_000)}
    for compiler in ("gcc", "clang"):
        if shutil.which(compiler):
            found[f"{compiler} -fsanitize=address"] = programs(folder, archive, f"{compiler} -fsanitize=address", SANITIZED, compiler)
    if shutil.which("valgrind"):
        found["valgrind"] = programs(folder, archive, "valgrind", PLAIN, "cc", VALGRIND, rounds=20)
        runs("threads, helgrind", compiled(folder, archive, "threads", PLAIN), under=HELGRIND)
    else:
        print("valgrind isn't there: left out")
    return {name: words for name, words in found.items() if words}


def in_cpp():
    """The header is one of C++ too."""
    if shutil.which("c++"):
        words = ["c++", "-Wall", "-Wextra", "-Werror", "-pedantic", "-fsyntax-only", "-x", "c++", ROOT / "include/peertext.h"]
        ran = subprocess.run(words, capture_output=True, text=True, check=False)
        check("the header is read by c++", (ran.returncode, ran.stderr), (0, ""))


def example_in_c(folder, archive, way, how):
    out = folder / "two_sites"
    words = ["cc", "-std=c11", "-Wall", "-Wextra", "-Werror", f"-I{ROOT}/include", *how, ROOT / "examples/c/two_sites.c", archive, "-o", out]
    ran = subprocess.run(words, capture_output=True, text=True, check=False)
    check(f"examples/c is compiled {way}", (ran.returncode, ran.stderr), (0, ""))
    return example(f"examples/c {way}", [out])


def example(name, words):
    ran = subprocess.run(words, capture_output=True, text=True, timeout=600, check=False)
    lines = ran.stdout.splitlines()
    check(f"{name} ends well", (ran.returncode, ran.stderr, len(lines)), (0, "", 2))
    texts = {line.partition(": ")[2] for line in lines}
    check(f"{name} has equal texts", len(texts), 1)
    print(f"{name}: {' | '.join(lines)}", flush=True)


def examples(folder, archive):
    example_in_c(folder, archive, "plain", PLAIN)
    example_in_c(folder, archive, "sanitized", SANITIZED)
    build.shared(archive, folder / "libpeertext.so")
    example("examples/python", [sys.executable, ROOT / "examples/python/two_sites.py", folder / "libpeertext.so"])


def main():
    program = WORDS[1] if len(WORDS) > 1 else None
    with tempfile.TemporaryDirectory() as name:
        folder = pathlib.Path(name)
        archive = folder / "libpeertext.a"
        if WORDS:
            shutil.copy(WORDS[0], archive)
        else:
            build.build(archive, False)
        faces.compare(archive, check)
        in_cpp()
        known = {}
        for way, words in ways(folder, archive).items():
            run = driven_by(words, f"driven, {way}")
            stored_scripts(run, way, program)
            exchanged_files(run, way, program)
            groups(run, way, 30 if way == "plain" else 3)
            hostile_scripts(run, way, program, known)
        examples(folder, archive)
    print("{} passed, {} failed".format(*CHECKED))
    sys.exit(1 if CHECKED[1] else 0)


if __name__ == "__main__":
    main()
