"""The library for C: where it is installed, its structs, and programs that are built with it."""
import ctypes
import functools
import os

from lib.base import ROOT, Case, environment, output, read, shared

DONE, REFUSED, NO_ROOM, RANGE = 0, 1, 3, 4
FUNCTIONS = ("size", "encode", "check", "fault_text", "font", "characters", "parameters", "pairs", "header_text", "set",
             "widths", "records", "refusal_text", "prepare", "spans", "span_items")
WARNINGS = ["-Wall", "-Wextra", "-Werror", "-pedantic"]
BINDINGS = os.path.join(ROOT, "bindings", "python")
PACKAGE = os.path.join(BINDINGS, "tfmset")
SIZE, U8, U32, I32, U64 = ctypes.c_size_t, ctypes.c_uint8, ctypes.c_uint32, ctypes.c_int32, ctypes.c_uint64
PARAMETERS = ("slant", "space", "stretch", "shrink", "x_height", "quad", "extra_space")


def struct(*groups):
    """A struct, from the types of its fields and their names."""
    fields = [(name, kind) for kind, names in groups for name in names.split()]
    return type("Struct", (ctypes.Structure,), {"_fields_": fields})


Fault = struct((SIZE, "place"), (U32, "number named"))
About = struct((SIZE, "parameters kerns instructions"), (U32, "design_size size check_sum right_boundary left_boundary"))
Character = struct((U32, "exists"), (I32, "width height depth italic"), (U32, "tag remainder"), (U8, "top middle bottom repeated"))
Pair = struct((U32, "left right action"), (I32, "kern"), (U32, "code keep_left keep_right pass"))
Options = struct((U64, "call_limit"), (U32, "size limit policy crlf"))
Form = struct((U64, "source first"), (U32, "version"))
Line = struct((ctypes.c_int64, "width"), (SIZE, "first count place"), (U32, "steps refusal code"))
Counts = struct((SIZE, "lines items"))
Item = struct((U32, "kind code"), (I32, "width"))
Span = struct((SIZE, "offset length"), (U32, "edges hyphen"))
Placed = struct((SIZE, "offset length"), (U32, "kind code"), (I32, "width"))
Uncoded = struct((SIZE, "offset"), (U32, "character"))
Encoded = struct((SIZE, "count uncoded offset"))


def values(record):
    return tuple(getattr(record, name) for name, _ in record._fields_)


def install(prefix):
    """Builds the library and installs it."""
    output(ROOT + "/scripts/library", prefix, env=environment(), timeout=1200)


def call(prefix, name, data, *numbers, result):
    """The return code of a function that reads a font, or of tfmset_size, and its result."""
    return getattr(loaded(prefix), "tfmset_" + name)(data, len(data), *numbers, ctypes.byref(result)), result


def listed(prefix, name, data, *numbers, kind, room):
    """The return code of a function that reports a list, the count, and the first elements after code 0. No other byte
    of the array may change; after any other code none."""
    array, count = (kind * (room + 1))(), SIZE(9)
    ctypes.memset(array, 9, ctypes.sizeof(array))
    status = getattr(loaded(prefix), "tfmset_" + name)(data, len(data), *numbers, array, SIZE(room), ctypes.byref(count))
    filled = count.value * ctypes.sizeof(kind) if status == DONE else 0
    assert not bytes(array)[filled:].strip(b"\t"), "elements after the list"
    return status, count.value, array[:count.value] if status == DONE else None


def encode(prefix, name, text, *rooms):
    """The return code of tfmset_encode; after code 0 the codes, their offsets, and the offset and the number of each
    character without codes; and the fields of its last argument. `rooms` are the lengths of the three arrays. No other
    element may change; after a code other than 0 and 3 none."""
    encoded, name, function = Encoded(9, 9, 9), name.encode("latin-1"), loaded(prefix).tfmset_encode
    arrays = [(kind * (room + 1))() for kind, room in zip((U8, SIZE, Uncoded), rooms)]
    for array in arrays:
        ctypes.memset(array, 9, ctypes.sizeof(array))
    status = function(name, len(name), text, len(text), *sum(zip(arrays, rooms), ()), ctypes.byref(encoded))
    counts = rooms if status == NO_ROOM else (0, 0, 0)
    if status == DONE:
        counts = encoded.count, rooms[1] and encoded.count, encoded.uncoded
    for array, count in zip(arrays, counts):
        assert not bytes(array)[count * ctypes.sizeof(array) // len(array):].strip(b"\t"), "elements after the list"
    codes, offsets, uncoded = (array[:count] for array, count in zip(arrays, counts))
    return status, (bytes(codes), offsets, [*map(values, uncoded)]) if status == DONE else None, values(encoded)


@functools.lru_cache(maxsize=None)
def loaded(prefix):
    """The shared library, with the types of its functions."""
    library = ctypes.CDLL(prefix + "/lib/libtfmset.so")
    text, out, array = [ctypes.c_char_p, SIZE], [ctypes.c_void_p], [ctypes.c_void_p, SIZE, ctypes.c_void_p]
    every = {"size": text + out, "check": text + out, "font": text + [U32] + out, "fault_text": text + array,
             **dict.fromkeys(("characters", "parameters", "pairs", "header_text", "prepare"), text + [U32] + array),
             "refusal_text": out + array, "set": text + out + text + [ctypes.c_void_p, SIZE] + array,
             "widths": text + out + text + array, "spans": text + out + text + array[:2] + array,
             "span_items": text + out + text + array[:2] + array[:2] + array, "records": text + out + text + text + out + array}
    for name, kinds in every.items():
        function = getattr(library, "tfmset_" + name)
        function.argtypes, function.restype = kinds, U32
    name, array = [ctypes.c_char_p, SIZE], [ctypes.c_void_p, SIZE]
    library.tfmset_encode.argtypes = name + name + array * 3 + [ctypes.c_void_p]
    library.tfmset_encode.restype = U32
    return library


class LibraryCase(Case):
    """Tests that need the library. Without rt and the tools of scripts/library they are skipped."""

    def setUp(self):
        super().setUp()
        self.need("cc", "ar", "objcopy")
        self.prefix = os.environ.get("CHECKS_LIBRARY", "")
        if not self.prefix:
            self.need("rt")
            self.prefix = shared("library", install)
        self.lib = os.path.join(self.prefix, "lib")
        self.env = {**os.environ, "LD_LIBRARY_PATH": self.lib, "TFMSET_LIBRARY": self.lib + "/libtfmset.so",
                    "PKG_CONFIG_PATH": self.lib + "/pkgconfig", "PREFIX": self.prefix, "PYTHONPATH": BINDINGS}

    def built(self, source, *compiler, link=None):
        """Compiles a source with all warnings and the shared library. Returns the path of the program."""
        out = os.path.join(self.room, os.path.basename(source) + ".out")
        output(*compiler, *WARNINGS, "-I" + self.prefix + "/include", "-o", out, source,
               *(link or ("-L" + self.lib, "-ltfmset")), cwd=ROOT)
        return out

    def output(self, *command, given=None):
        """What a command prints at the top of the repository, with a file as standard input."""
        return output(*command, given=read(given, "rb") if given else b"", cwd=ROOT, env=self.env)

    def links(self):
        """The arguments that link a program with the static and with the shared library."""
        return ("static", [self.lib + "/libtfmset.a"]), ("shared", ["-L" + self.lib, "-ltfmset"])
