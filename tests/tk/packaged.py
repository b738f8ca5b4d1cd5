"""The package: what compilers say of it, and its commands, plain and under checks of memory."""
import os
import shutil
import subprocess

from driving.program import check
import notes

SANITIZED = ("-g", "-O1", "-fsanitize=address,undefined", "-fno-omit-frame-pointer", "-fno-sanitize-recover=all")
LEAKS = ("--leak-check=full", "--show-leak-kinds=definite", "--errors-for-leak-kinds=definite")
VALGRIND = ("valgrind", "--quiet", *LEAKS, "--error-exitcode=9")


def commands(name, loaded, *words, under=(), **env):
    """Runs the commands of commands.tcl, which counts its own checks."""
    words = [*under, "tclsh8.6", notes.HERE / "commands.tcl", *words]
    env = {**os.environ, "TCLLIBPATH": str(loaded), **env}
    ran = subprocess.run(words, env=env, capture_output=True, text=True, timeout=600, check=False)
    told = (ran.stdout.splitlines() or [""])[-1]
    check(f"commands, {name}", (ran.returncode, ran.stderr, told.endswith(" passed, 0 failed")), (0, "", True))
    print(f"commands, {name}: {told}", flush=True)
    if ran.returncode:
        print(ran.stdout[-2000:], ran.stderr[-2000:])


def packages(archive, folder):
    """Builds the package in each way, and answers the folder of the plain one."""
    plain = folder / "plain"
    plain.mkdir()
    for compiler in ("clang", "gcc", "cc"):
        if shutil.which(compiler):
            check(f"{compiler} says nothing", notes.package(archive, plain, compiler), (0, ""))
    commands("plain", plain)
    sanitized = folder / "sanitized"
    sanitized.mkdir()
    check("gcc with checks says nothing", notes.package(archive, sanitized, "gcc", SANITIZED), (0, ""))
    asked = ["gcc", "-print-file-name=libasan.so"]
    library = subprocess.run(asked, capture_output=True, text=True, check=True).stdout.strip()
    commands("gcc -fsanitize=address", sanitized, "checked", LD_PRELOAD=library)
    if shutil.which("valgrind"):
        commands("valgrind", plain, "checked", under=VALGRIND)
    return plain


def lines(loaded, seeds, count):
    """Lines at random, whose changes two widgets follow."""
    with notes.Screen("900x700") as screen:
        for seed in seeds:
            words = ["wish8.6", notes.HERE / "lines.tcl", str(seed), str(count)]
            env = notes.surroundings(screen, loaded)
            ran = subprocess.run(words, env=env, capture_output=True, text=True, timeout=600, check=False)
            told = (ran.stdout.splitlines() or [""])[-1]
            is_whole = told == f"{count} lines"
            check(f"lines by seed {seed}", (ran.returncode, ran.stderr, is_whole), (0, "", True))
            print(f"lines at random, by seed {seed}: {told}", flush=True)
