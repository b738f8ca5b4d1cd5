"""Notes that a test drives: processes of examples/tk/notes.tcl, the virtual screen, and the package that they load."""
import base64
import os
import pathlib
import shutil
import subprocess
import sys
import time

HERE = pathlib.Path(__file__).resolve().parent
ROOT = HERE.parent.parent
EXAMPLE = ROOT / "examples/tk"
STRICT = ("-std=c11", "-O2", "-Wall", "-Wextra", "-Werror", "-pedantic", "-fPIC", "-shared", "-DUSE_TCL_STUBS")
# the Debian package that has each program which the test needs
WANTED = {"Xvfb": "xvfb", "wish8.6": "tk8.6", "tclsh8.6": "tcl8.6", "import": "imagemagick"}


def check_wanted():
    """Stops where something isn't installed, and says what."""
    lacking = {package for program, package in WANTED.items() if not shutil.which(program)}
    if not pathlib.Path("/usr/include/tcl8.6/tcl.h").is_file():
        lacking.add("tcl8.6-dev")
    if lacking:
        sys.exit(f"not installed: {' '.join(sorted(lacking))} (apt-get install {' '.join(sorted(lacking))})")


def package(archive, folder, compiler="cc", how=()):
    """Builds the package into a folder; what the compiler said is answered, which should be nothing."""
    shutil.copy(EXAMPLE / "pkgIndex.tcl", folder)
    paths = ("-I/usr/include/tcl8.6", f"-I{ROOT}/include")
    files = (EXAMPLE / "peertext_tcl.c", archive, "-ltclstub8.6")
    words = [compiler, *STRICT, *how, *paths, *files, "-o", folder / "libpeertext_tcl.so"]
    ran = subprocess.run(words, capture_output=True, text=True, check=False)
    return ran.returncode, ran.stderr


class Screen:
    """A virtual screen, which lasts as long as the block."""

    def __init__(self, size):
        self.size = size

    def __enter__(self):
        read, write = os.pipe()
        words = ["Xvfb", "-displayfd", str(write), "-screen", "0", f"{self.size}x24", "-nolisten", "tcp", "-noreset"]
        self.server = subprocess.Popen(words, pass_fds=[write], stderr=subprocess.DEVNULL)
        os.close(write)
        with os.fdopen(read) as told:
            self.display = f":{told.readline().strip()}"
        return self

    def __exit__(self, *_):
        self.server.terminate()
        self.server.wait()

    def picture(self, out):
        words = ["import", "-display", self.display, "-window", "root", "+dither", "-colors", "64", "-strip", out]
        subprocess.run(words, check=True, stderr=subprocess.DEVNULL)


def surroundings(screen, loaded):
    """The environment of a window on a screen, which finds the package in a folder."""
    return {**os.environ, "DISPLAY": screen.display, "TCLLIBPATH": str(loaded), "LC_ALL": "C.UTF-8"}


class Note:
    """A window of a number over a folder. It goes by the clock, or, where it is stepped, by what the test calls."""

    def __init__(self, screen, loaded, folder, number, how="timed"):
        self.number, self.folder = number, folder
        words = ["wish8.6", HERE / "driven.tcl", how, EXAMPLE / "notes.tcl", folder, str(number)]
        pipes = {"stdin": subprocess.PIPE, "stdout": subprocess.PIPE}
        self.process = subprocess.Popen(words, env=surroundings(screen, loaded), **pipes)
        self.ask("update")

    def ask(self, script):
        """The result of a script; none of what ran by events or by the clock had an error either."""
        self.process.stdin.write(base64.b64encode(script.encode()) + b"\n")
        self.process.stdin.flush()
        status, _, result = self.process.stdout.readline().decode().strip().partition(" ")
        text = base64.b64decode(result).decode()
        if status != "ok":
            raise RuntimeError(f"note {self.number}: {text or 'it ended'}")
        return text

    def press(self, *keys):
        self.ask(f"press {{{' '.join(keys)}}}")

    def shown(self):
        return self.ask("shown")

    def kept(self):
        return self.ask("kept")

    def close(self):
        """Ends it as its user does; its status."""
        self.process.stdin.write(base64.b64encode(b"quit") + b"\n")
        self.process.stdin.close()
        self.process.stdout.read()
        return self.process.wait(timeout=60)

    def kill(self):
        if self.process.poll() is None:
            self.process.kill()
            self.process.wait()


# the keys of characters that aren't their own
NAMES = {" ": "space", "\n": "Return", ",": "comma", ".": "period", "-": "minus", ":": "colon", "?": "question",
         "!": "exclam", "+": "plus"}


def keys_of(text):
    """The keys that type a text."""
    return [NAMES.get(it, it) for it in text]


def wait_until(is_so, seconds=20):
    end = time.monotonic() + seconds
    while not is_so():
        if time.monotonic() > end:
            return False
        time.sleep(0.05)
    return True
