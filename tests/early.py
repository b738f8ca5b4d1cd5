#!/usr/bin/env python3
"""Builds the program of this checkout before any proof, to count its instructions: tests/early.py OUT, then
tests/bench.py steps OUT.

`rt try` compiles a program with a check at each step. This takes the module that it hands to clang, leaves the checks out, puts the
hints on inlining back in, which a try drops, and compiles and links it as rt does. The counts are two to twenty-two hundredths above
those of the program that `rt run` makes, but what a change saves shows at once, in two minutes and with no proof: about, as it leaves
out the zeros that rt fills locals with, and functions of the kit seem to keep checks of bounds (docs/MEASURED.md). It trusts
the kit's own files to look as they do now, and says so where they don't."""
import os
import pathlib
import re
import shutil
import subprocess
import sys
import tempfile

ROOT = pathlib.Path(__file__).resolve().parent.parent
KIT = pathlib.Path(shutil.which("rt")).resolve().parent.parent
TARGET = "x86_64-unknown-linux-gnu"
# The hints that LLVM is given, by what stands in a source.
HINTS = {"inline(always)": "alwaysinline", "inline(never)": "noinline", "inline": "inlinehint", "cold": "cold"}
COMMON = 'nounwind "probe-stack"="inline-asm" "stack-probe-size"="3072" "target-cpu"="x86-64"'

WRAPPER = """#!/bin/bash
if [ -f module.bc ] && [ "$(stat -c %s module.bc)" -gt 1000000 ]; then cp module.bc '{kept}'; exit 1; fi
exec -a clang '{clang}' "$@"
"""


def shadow_kit(folder, kept):
    """A kit whose clang keeps the module of a program and goes no further."""
    for it in KIT.iterdir():
        if it.name not in ("bin", "toolchain"):
            (folder / it.name).symlink_to(it)
    (folder / "bin").mkdir()
    for it in (KIT / "bin").iterdir():
        # rt finds its kit by where its own files lie.
        if it.name.startswith("rt"):
            shutil.copy(it, folder / "bin" / it.name)
        else:
            (folder / "bin" / it.name).symlink_to(it)
    tools = folder / "toolchain" / "bin"
    tools.mkdir(parents=True)
    (folder / "toolchain" / "lib").symlink_to(KIT / "toolchain" / "lib")
    for it in (KIT / "toolchain" / "bin").iterdir():
        if it.name != "clang":
            (tools / it.name).symlink_to(it)
    wrapper = tools / "clang"
    wrapper.write_text(WRAPPER.format(kept=kept, clang=KIT / "toolchain" / "bin" / "clang"))
    wrapper.chmod(0o755)


def hints():
    """For the name of each function that has hints, the modules that it stands in, with the hint."""
    found = {}
    sources = [(it.name, it / "src") for it in (ROOT / "crates").iterdir()]
    sources += [(it.name, it / "src") for it in (KIT / "rattle").iterdir() if (it / "src").is_dir()]
    for crate, src in sources:
        for file in src.rglob("*.rt"):
            parts = list(file.relative_to(src).with_suffix("").parts)
            if parts[-1] in ("lib", "main", "mod"):
                parts.pop()
            lines = file.read_text().split("\n")
            for at, line in enumerate(lines):
                hint = re.match(r"\s*#\[(inline\(always\)|inline\(never\)|inline|cold)\]", line)
                name = hint and re.search(r"\bfn (\w+)", "\n".join(it for it in lines[at : at + 12] if not it.lstrip().startswith("//")))
                if name:
                    # A method is named by its type, which may be of another module.
                    kept = [it for it in lines[:at] if it.startswith("impl")] if line.startswith(" ") else []
                    of = kept and re.match(r"impl(?:<.*?>)? (?:.* for )?(\w+)", kept[-1])
                    found.setdefault(name[1], []).append(([crate, *parts], of and of[1], HINTS[hint[1]]))
    return found


def is_named(base, place, of):
    """Whether a name is that of a function of a module, or of a method of a type of a crate."""
    parts = base.split("::")
    return parts[0] == place[0] and parts[-2].startswith(of) if of else parts[:-1] == place


def without_checks(lines, found):
    """The lines of a module with no checks and with hints."""
    groups = {}
    for line in lines:
        # Calls of checks, and fills of memory that is written before it is read; zeros may be the program's own.
        if '@"rattle-llvm-checks::' in line and "call void" in line or re.search(r"@llvm\.memset\.p0\.i64\(ptr %\w+, i8 -86,", line):
            continue
        name = re.match(r'define internal .*?@"([^"]+)"\(', line)
        base = name and re.sub(r"::<.*$", "", name[1])
        given = base and {hint for place, of, hint in found.get(base.split("::")[-1], []) if is_named(base, place, of)}
        if given:
            group = groups.setdefault(" ".join(sorted(given)), 1000 + len(groups))
            line = re.sub(r"#\d+ \{$", f"#{group} {{", line)
        yield re.sub(r"^attributes #(0|8) = .*", rf"attributes #\1 = {{ {COMMON} }}", line)
    for given, group in groups.items():
        yield f"attributes #{group} = {{ {given} {COMMON} }}\n"


def clang(*words):
    words = [f"--target={TARGET}", "-fintegrated-cc1", "-Wno-override-module", "-x", "ir", *words]
    subprocess.run(["clang", *words], executable=KIT / "toolchain" / "bin" / "clang", check=True)


def main():
    out = pathlib.Path(sys.argv[1]).resolve()
    with tempfile.TemporaryDirectory() as name:
        folder = pathlib.Path(name)
        kept, module = folder / "kept.bc", folder / "module.ll"
        (folder / "kit").mkdir()
        shadow_kit(folder / "kit", kept)
        ran = subprocess.run([folder / "kit/bin/rt", "try"], cwd=ROOT / "crates/peertext", input=b"", capture_output=True, check=False)
        if not kept.is_file():
            sys.exit(ran.stderr.decode(errors="replace") or "rt try handed no module to clang")
        clang(kept, "-S", "-emit-llvm", "-O0", "-o", module)
        with open(module, encoding="utf-8") as lines, open(folder / "plain.ll", "w", encoding="utf-8") as plain:
            plain.writelines(without_checks(lines, hints()))
        wanted = ["-march=x86-64", "-ffunction-sections", "-fdata-sections", "-mllvm", "-trap-unreachable"]
        clang(folder / "plain.ll", "-c", "-O3", "-fPIE", *wanted, f"--sysroot={KIT}/toolchain", "-o", folder / "program.o")
        words = [f"{KIT}/bin/rattle-link", "--target", TARGET, "--toolchain", f"{KIT}/toolchain", "-o", out, folder / "program.o"]
        subprocess.run([*words, f"{KIT}/c/libos_c.a", f"{KIT}/c/liblibc_c.a"], check=True, stdout=subprocess.DEVNULL)
    os.chmod(out, 0o755)


if __name__ == "__main__":
    main()
