"""A site of peertext, by ctypes. docs/LIBRARY.md tells how the shared object is made."""
import ctypes


class Handle(ctypes.Structure):
    _fields_ = [("held", ctypes.c_bool), ("at", ctypes.c_void_p)]


class Received(ctypes.Structure):
    _fields_ = [
        *((name, ctypes.c_uint64) for name in ("fresh", "repeats", "held", "offset")),
        ("fault", ctypes.c_uint8),
    ]


HANDLE = ctypes.POINTER(Handle)
BYTES = (ctypes.c_char_p, ctypes.c_size_t)
# what each function answers, and what it takes behind the handle
FUNCTIONS = {
    "pt_site_new": (ctypes.c_int32, ctypes.c_uint32),
    "pt_site_free": (None,),
    "pt_command": (ctypes.c_int32, *BYTES),
    "pt_said": (ctypes.c_ssize_t, *BYTES),
    "pt_receive": (ctypes.c_int32, *BYTES, ctypes.POINTER(Received)),
    "pt_export": (ctypes.c_int32,),
}


def loaded(path):
    """The library. Python's lock is kept through each call (PyDLL), so no two threads are in calls at one time."""
    library = ctypes.PyDLL(path)
    for name, (result, *taken) in FUNCTIONS.items():
        function = getattr(library, name)
        function.restype, function.argtypes = result, (HANDLE, *taken)
    return library


class Site:
    """A site of a number; `free` lets it go. It is used on one thread."""

    def __init__(self, library, number):
        # ctypes would cut what has more than 32 bits
        if not 1 <= number <= 4294967295:
            raise ValueError(f"no site has the number {number}")
        self.library, self.handle = library, Handle()
        self.call("pt_site_new", number)

    def call(self, name, *words):
        """The code of a call, or the length that it answers; below 0 it raises."""
        code = getattr(self.library, name)(self.handle, *words)
        if code < 0:
            raise RuntimeError(f"{name} answered {code}")
        return code

    def said(self, room=4096):
        """All bytes that were said last."""
        out = ctypes.create_string_buffer(room)
        length = self.call("pt_said", out, room)
        return out.raw[:length] if length <= room else self.said(length)

    def ask(self, line):
        """The reply line; that of a line that was refused begins with `!`."""
        text = line.encode()
        self.call("pt_command", text, len(text))
        return self.said().decode()

    def export(self):
        """The file of all operations that the site accepted or made."""
        self.call("pt_export")
        return self.said()

    def receive(self, file):
        """What became of a file. Where it has a fault it raises, and what came before the fault is taken."""
        told = Received()
        self.call("pt_receive", file, len(file), told)
        if told.fault:
            raise RuntimeError(f"fault {told.fault} at {told.offset}")
        return told

    def free(self):
        self.library.pt_site_free(self.handle)
