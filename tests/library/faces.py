"""Compares the header, the exports in Rattle and the symbols of the archive: names, parameters, fields, codes and faults."""
import pathlib
import re
import subprocess

ROOT = pathlib.Path(__file__).resolve().parent.parent.parent
SOURCES = ROOT / "crates/peertext_c/src"
# what a parameter of an export is in C; the allocator takes no bytes and isn't passed
IN_C = {
    "Global": (), "u32": ("uint32_t",), "usize": ("size_t",), "&mut usize": ("size_t *",),
    "&[u8]": ("const uint8_t *", "size_t"), "&mut [u8]": ("uint8_t *", "size_t"),
    "&mut Handle": ("pt_site *",), "&mut ReceivedNumbers": ("pt_received *",), "&StampNumbers": ("const pt_stamp *",), "&mut StampNumbers": ("pt_stamp *",),
    "i32": ("int32_t",), "isize": ("ptrdiff_t",), "": ("void",),
}
STRUCTS = {"ReceivedNumbers": "pt_received", "StampNumbers": "pt_stamp"}
FIELDS = {"u64": "uint64_t", "u32": "uint32_t", "u8": "uint8_t"}
# what the archive may ask of the program that it is linked with
ASKED = {"malloc", "realloc", "free", "memcpy", "memmove", "memset", "memcmp", "_GLOBAL_OFFSET_TABLE_"}


def header():
    return re.sub(r"/\*.*?\*/", "", (ROOT / "include/peertext.h").read_text(), flags=re.DOTALL)


def sources():
    text = "\n".join(file.read_text() for file in sorted(SOURCES.rglob("*.rt")))
    return re.sub(r"//.*", "", text)


def in_header(text):
    """For the name of each function of the header what it answers and takes."""
    found = {}
    for result, name, parameters in re.findall(r"^(\w+) (pt_\w+)\(([^)]*)\);", text, re.MULTILINE):
        found[name] = (result, tuple(re.sub(r"\w+$", "", it.strip()).strip() for it in parameters.split(",")))
    return found


def in_sources(text):
    """For the name of each export what it answers and takes, as C has it."""
    found = {}
    for name, parameters, result in re.findall(r'pub extern "C" fn (\w+)\(([^)]*)\)(?: -> (\w+))?', text):
        kinds = [it.partition(":")[2].strip() for it in parameters.split(",") if it.strip()]
        found[name] = (IN_C[result][0], tuple(part for kind in kinds for part in IN_C.get(kind, (kind,))))
    return found


def fields_in_header(text, name):
    body = re.search(r"typedef struct \{([^{}]*)\} " + name + ";", text)
    return [(field, kind) for kind, names in re.findall(r"(\w+) ([\w, ]+);", body[1]) for field in names.split(", ")] if body else None


def fields_in_sources(text, name):
    body = re.search(r"#\[repr\(C\)\][^{}]*?pub struct " + name + r" \{(.*?)\n\}", text, re.DOTALL)
    return [(field, FIELDS.get(kind, kind)) for field, kind in re.findall(r"pub (\w+): (\w+)", body[1])] if body else None


def symbols(archive, *words):
    lines = subprocess.run(["nm", *words, archive], capture_output=True, text=True, check=True).stdout.splitlines()
    return {line.split()[-1] for line in lines if line and not line.endswith(":")}


def codes(text):
    return {name: int(number) for name, number in re.findall(r"PT_(\w+) = (-?\d+)", text) if not name.startswith("FAULT_")}


def faults(text):
    return {name.replace("_", "").lower(): int(number) for name, number in re.findall(r"PT_FAULT_(\w+) = (\d+)", text)}


def compare(archive, check):
    told, made = header(), sources()
    functions = in_header(told)
    check("functions of the header and of the crate", functions, in_sources(made))
    defined = symbols(archive, "-g", "--defined-only")
    check("functions of the header and of the archive", set(functions), {it for it in defined if it.startswith("pt_")})
    wanting = symbols(archive, "-u") - defined
    check("what the archive asks for", wanting - ASKED, set())
    print(f"{len(functions)} functions; the archive asks for {', '.join(sorted(wanting))}", flush=True)
    for name, in_c in STRUCTS.items():
        check(f"fields of {in_c}", fields_in_header(told, in_c), fields_in_sources(made, name))
    check("codes", codes(told), {name: int(number) for name, number in re.findall(r"const ([A-Z_]+): i32 = (-?\d+);", made)})
    of_fault = (ROOT / "crates/rt_stamps/src/fault.rt").read_text()
    check("faults", faults(told), {name.lower(): int(number) for name, number in re.findall(r"Fault::(\w+) => (\d+),", of_fault)})
    of_limits = (ROOT / "crates/rt_stamps/src/limits.rt").read_text()
    most = {name: int(number.replace("_", ""), 0) for name, number in re.findall(r"const (MOST_\w+): usize = (\w+);", of_limits)}
    defined_most = re.findall(r"#define PT_(MOST_\w+) (\d+)", told)
    check("limits", defined_most, [(name, str(most.get(name))) for name in ("MOST_BYTES", "MOST_LINE_BYTES")])
