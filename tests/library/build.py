#!/usr/bin/env python3
"""Builds the library of this checkout: tests/library/build.py [--early] OUT.a, or OUT.so for a shared object.

`rt lib` proves crates/peertext_c with the crates below it, and makes an archive of its exports. The C part of the kit, by which it takes
memory, is put into it here. With --early it is built before any proof, as tests/early.py builds the program: from the module that `rt try`
makes of a copy of the crate with the tests of called.rt.in, without their checks, so it has just the exports that these tests call."""
import pathlib
import re
import shutil
import subprocess
import sys
import tempfile

HERE = pathlib.Path(__file__).resolve().parent
sys.path[:0] = [str(HERE), str(HERE.parent)]

import early
import faces

CRATE = early.ROOT / "crates/peertext_c"
# lets a handle go that holds nothing: C's handles are never let go, those of the tests are
FORGET = """
impl Handle {
    pub(crate) fn forget(self) {
        let Handle { held: _, slot } = self;
        slot.forget();
    }
}
"""
# an export's name in the module of the tests
EXPORT = re.compile(r'@"peertext_c::(?:\w+::)*(pt_\w+)"')


def proved():
    """The archive that `rt lib` makes; standard error has what it says, as the first time it takes some minutes."""
    if subprocess.run(["rt", "lib"], cwd=CRATE, stdin=subprocess.DEVNULL, stdout=sys.stderr, check=False).returncode:
        sys.exit("rt lib made no archive")
    return CRATE / "out/libpeertext_c.a"


def exported(lines):
    """The lines of a module whose exports C can call, and whose `main` it can't."""
    for line in lines:
        if line.startswith("define") and EXPORT.search(line):
            line = line.replace("define internal ", "define ", 1)
        line = EXPORT.sub(r"@\1", line)
        yield line.replace("define i32 @main()", "define internal i32 @main()", 1) if line.startswith("define i32 @main()") else line


def with_calls(root):
    """A copy of the crate whose tests are those of called.rt.in, in a copy of the crates below it."""
    shutil.copytree(CRATE.parent, root / "crates", ignore=shutil.ignore_patterns("out"))
    for name in ("crates.txt", "HANDLES"):
        shutil.copy(early.ROOT / name, root / name)
    crate = root / "crates" / CRATE.name
    shutil.copy(HERE / "called.rt.in", crate / "src/tests.rt")
    with open(crate / "src/handle.rt", "a", encoding="utf-8") as file:
        file.write(FORGET)
    with open(crate / "src/lib.rt", "a", encoding="utf-8") as file:
        file.write("\n#[cfg(test)]\nmod tests;\n")
    return crate


def unproved(folder):
    """An archive of what `rt try --test` compiles."""
    kept, module, plain, made = (folder / name for name in ("kept.bc", "module.ll", "plain.ll", "peertext_c.o"))
    (folder / "kit").mkdir()
    early.shadow_kit(folder / "kit", kept)
    ran = subprocess.run([folder / "kit/bin/rt", "try", "--test"], cwd=with_calls(folder / "repo"), input=b"", capture_output=True, check=False)
    if not kept.is_file():
        sys.exit(ran.stderr.decode(errors="replace") or "rt try handed no module to clang")
    early.clang(kept, "-S", "-emit-llvm", "-O0", "-o", module)
    with open(module, encoding="utf-8") as lines, open(plain, "w", encoding="utf-8") as out:
        out.writelines(exported(early.without_checks(lines, early.hints())))
    wanted = ["-march=x86-64", "-ffunction-sections", "-fdata-sections", "-mllvm", "-trap-unreachable"]
    early.clang(plain, "-c", "-O3", "-fPIC", *wanted, f"--sysroot={early.KIT}/toolchain", "-o", made)
    archive = folder / "libpeertext_c.a"
    subprocess.run(["ar", "rc", archive, made], check=True)
    left_out = set(faces.in_header(faces.header())) - faces.symbols(archive, "-g", "--defined-only")
    if left_out:
        print(f"not called by called.rt.in, and so left out: {', '.join(sorted(left_out))}", file=sys.stderr)
    return archive


def joined(archive, out):
    """One archive of that of the exports and of the kit's C part."""
    script = f"create {out}\naddlib {archive}\naddlib {early.KIT}/c/liblibc_c.a\nsave\nend\n"
    out.unlink(missing_ok=True)
    subprocess.run(["ar", "-M"], input=script.encode(), check=True)


def shared(archive, out):
    """A shared object of a whole archive."""
    subprocess.run(["cc", "-shared", "-o", out, "-Wl,--whole-archive", archive, "-Wl,--no-whole-archive"], check=True)


def build(out, is_early):
    with tempfile.TemporaryDirectory() as name:
        folder = pathlib.Path(name)
        archive = unproved(folder) if is_early else proved()
        if out.suffix == ".so":
            joined(archive, folder / "libpeertext.a")
            shared(folder / "libpeertext.a", out)
        else:
            joined(archive, out)


def main():
    words = [it for it in sys.argv[1:] if it != "--early"]
    if len(words) != 1 or not words[0].endswith((".a", ".so")):
        sys.exit(__doc__)
    build(pathlib.Path(words[0]).resolve(), len(words) < len(sys.argv) - 1)


if __name__ == "__main__":
    main()
