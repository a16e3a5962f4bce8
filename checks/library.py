"""The library for C: header, linking, symbols, the functions that read a font, and where Python finds it.

The values of each sample font are those of its listing, and those of each pair of neighbours are found by a linear
search in its program. By nm, the libraries define the functions of the header and no others, and a program that
defines functions with names of the toolchain still calls its own.
"""
import ctypes
import glob
import importlib.util
import itertools
import os
import re
import shutil
import sys
import venv

from lib.base import DEMO, PROGRAM, ROOT, bash, environment, execute, files, output, read, rows, write
from lib.clib import (BINDINGS, DONE, I32, NO_ROOM, PACKAGE, RANGE, REFUSED, U8, U32, WARNINGS, About, Character, Counts,
                      Fault, Form, Item, LibraryCase, Line, Options, Pair, call, listed, loaded, values)
from lib.docs import commands
from lib.tfm import BOUNDARY, LISTED, Font, Listing, path_of, sample, samples

WEIGHT = 6
TAGS = {"none": 0, "lig": 1, "list": 2, "ext": 3}
# A typed caller. In its last lines mypy has to find an error.
CALLER = """from typing import List, Tuple, Union
import tfmset
def show(font: tfmset.Font, text: bytes) -> List[Tuple[int, int]]:
    widths: List[Union[int, tfmset.Refusal]] = font.widths("ox", encoding="t1")
    records: bytes = font.records(text, version=2)
    assert widths and records and isinstance(font == tfmset.Font(font.data), bool)
    return [(item.kind, item.code) for line in font.set(text) if isinstance(line, tfmset.Line) for item in line.items]
def refused(font: tfmset.Font) -> None:
    font.set("ox")  # type: ignore[call-overload]
    font.size = 5  # type: ignore[misc]
"""
# Functions of the toolchain. The first three allocate the library's memory.
HELPERS = ["rattle_" + name for name in "alloc realloc dealloc arg env errno spawn".split()]


def version_in(header):
    """The version of the library that a header has, such as 0.2.0."""
    number = int(re.search(r"^#define TFMSET_VERSION (\d+)u$", header, re.M)[1])
    return ".".join(str(number // 1000 ** i % 1000) for i in (2, 1, 0))


def listing(data):
    """The listing of a font, or the number of its error."""
    status, out, err = execute(PROGRAM, "list", "-", given=data)
    return int(err.split("refused: ")[1].split()[0]) if status == 3 else Listing(out)


def characters(found, data):
    """The fields of `struct tfmset_character` of each character of a listing, by its code."""
    recipes = Font(data).recipes
    every = {code: (1, *(int(row[i]) for i in (3, 5, 7, 9)), TAGS[row[11]], int((row + ["0"])[12]))
             for code, row in found.chars.items()}
    return {code: row + (recipes[row[6]] if row[5] == 3 else (0,) * 4) for code, row in every.items()}


def between(font, amounts, left, right):
    """The last fields of `struct tfmset_pair`, by a search in the font's program, or None for no action."""
    op, rest = font.act(left, right) or (None, None)
    if op is None:
        return None
    if op >= 128:
        return 1, amounts[256 * (op - 128) + rest], 0, 0, 0, 0
    # An operation that isn't listed is read as the plain one, LIG (TFtoPL, 77).
    op = op if op in LISTED else 0
    return 2, 0, rest, op % 4 // 2, op % 2, op // 4


class Functions(LibraryCase):
    """What the functions return for each sample font"""

    @rows((name, name) for name in samples())
    def test_font(self, name):
        """Sizes, parameters, characters and pairs of neighbours are those of the listing, at two sizes."""
        data = sample(name)
        found = listing(data)
        head = found.head
        right = BOUNDARY if head["right"] == "none" else int(head["right"])
        for times in (1, 2):
            size = int(head["design"]) * times
            self.same("accepted", DONE, self.call("check", data, result=Fault())[0])
            status, about = self.call("font", data, size if times > 1 else 0, result=About())
            self.same("sizes", (DONE, int(head["design"]), size, int(head["checksum"])),
                      (status, about.design_size, about.size, about.check_sum))
            self.same("boundaries", (right, int(head["left"] != "none")),
                      (about.right_boundary, about.left_boundary))
            if times == 1:
                self.same("counts", (len(found.params), len(found.steps)), (about.parameters, about.instructions))
        every, empty = characters(found, data), (0,) * 11
        self.lists("characters", data, [every.get(code, empty) for code in range(256)], Character, 0)
        self.lists("parameters", data, found.params, I32, 0)
        font, codes = Font(data), [*found.chars, BOUNDARY]
        for which, field in enumerate(((2, 40), (12, 20))):
            self.lists("header_text", data, list(font.header_text(*field).encode("latin-1")), U8, which)
        acts = {(left, right): between(font, found.kerns, left, right)
                for left, right in itertools.product([BOUNDARY, *found.chars], codes)}
        self.lists("pairs", data, [(*pair, *act) for pair, act in acts.items() if act], Pair, 0)

    def lists(self, name, data, wanted, kind, number):
        """A list in arrays that have more room, just enough, and too little."""
        for room in {len(wanted) + 2, len(wanted), max(len(wanted) - 1, 0)}:
            fits = room >= len(wanted)
            status, count, seen = listed(self.prefix, name, data, number, kind=kind, room=room)
            self.same(f"{name}: room for {room}", (DONE if fits else NO_ROOM, len(wanted)), (status, count))
            plain = [values(one) if isinstance(one, ctypes.Structure) else one for one in seen or ()]
            self.same(f"{name}: elements", wanted if fits else [], plain)

    def call(self, *arguments, **result):
        return call(self.prefix, *arguments, **result)

    @rows((name, name) for name in samples())
    def test_cut(self, name):
        """A font that is cut is refused with the error that the program prints, and no struct changes."""
        data = sample(name)
        for length in sorted({0, 1, 23, 24, 25, len(data) // 2, len(data) - 1}):
            status, fault = self.call("check", data[:length], result=Fault())
            self.same(f"{length} bytes", (REFUSED, listing(data[:length])), (status, fault.number))
            status, about = self.call("font", data[:length], 0, result=About(9))
            self.same(f"{length} bytes: struct", (REFUSED, 9), (status, about.parameters))
            self.no_lists(data[:length], 0, REFUSED)

    def no_lists(self, data, number, wanted):
        """The functions that report a list return a code, and write nothing."""
        for name, kind in (("characters", Character), ("parameters", I32), ("pairs", Pair), ("header_text", U8)):
            self.same(name, (wanted, 9, None), listed(self.prefix, name, data, number, kind=kind, room=1))

    def test_texts(self):
        """The text of a font error is that of the program, and the text of a refusal that of its record."""
        for data in (sample("demo"), sample("demo")[:50], b"no font"):
            status, _, err = execute(PROGRAM, "list", "-", given=data)
            text = err.split("refused: ")[1].strip() if status == 3 else ""
            _, count, seen = listed(self.prefix, "fault_text", data, kind=ctypes.c_char, room=64)
            self.same("font error", (len(text), text.encode()), (count, seen))
            status, count, _ = listed(self.prefix, "fault_text", data, kind=U8, room=0)
            self.same("no room", (NO_ROOM if text else DONE, len(text)), (status, count))
        lines = {(0, 0, 0, 0): "", (1, 7, 0, 65): "missing 7 65", (2, 65536, 0, 0): "too-long 65536", (3, 0, 9, 0): "steps 9",
                 (4, 0, 0, 0): "outside", (5, 0, 0, 0): None}
        for (refusal, place, steps, code), text in lines.items():
            line, array, count = Line(0, 0, 0, place, steps, refusal, code), (U8 * 64)(), ctypes.c_size_t(9)
            status = loaded(self.prefix).tfmset_refusal_text(ctypes.byref(line), array, 64, ctypes.byref(count))
            self.same(text, (RANGE, 9) if text is None else (DONE, len(text)), (status, count.value))
            self.same(text, (text or "").encode(), bytes(array).rstrip(b"\0"))

    def test_null(self):
        """Each array and each text may be null with length 0."""
        library, data, out = loaded(self.prefix), sample("demo"), ctypes.create_string_buffer(99)
        font, options, form = (data, len(data)), ctypes.byref(Options()), ctypes.byref(Form(1, 1, 1))
        none, text = (None, 0), (b"ox", 2)
        for name, *arguments in (
                ("size", none), ("check", none),
                *(("encode", given, line, none, none, none) for given in (none, (b"t1", 2)) for line in (none, text)),
                ("fault_text", none, none), ("font", none, (0,)),
                *((name, given, (0,), none) for name in ("characters", "parameters", "pairs", "header_text", "prepare")
                  for given in (none, font)),
                *(("set", given, (options,), line, none, none) for given in (none, font) for line in (none, text)),
                *(("widths", given, (options,), line, none) for given in (none, font) for line in (none, text)),
                *(("records", given, (options,), none, line, (form,), none) for given in (none, font) for line in (none, text))):
            code = getattr(library, "tfmset_" + name)(*sum(arguments, ()), out)
            reads = name not in ("size", "encode", "fault_text")
            wanted = {REFUSED} if reads and arguments[0] == none else {DONE, NO_ROOM, RANGE}
            self.assertIn(code, wanted, f"{name} {arguments}")
        line = Line()
        self.same("refusal_text", DONE, library.tfmset_refusal_text(ctypes.byref(line), None, 0, out))

    def widths(self, text, **options):
        """The code, and the refusals and steps of the lines of a text with the sample font `ligature_0`."""
        data, given, lines, counts = sample("ligature_0"), Options(**options), (Line * 9)(), Counts()
        first = data, len(data), ctypes.byref(given), text, len(text)
        code = loaded(self.prefix).tfmset_widths(*first, lines, 9, ctypes.byref(counts))
        again, items, others = (Line * 9)(), (Item * 99)(), Counts()
        status = loaded(self.prefix).tfmset_set(*first, again, 9, items, 99, ctypes.byref(others))
        self.same("set", (code, *map(values, lines)), (status, *map(values, again)))
        return code, [(one.refusal, one.steps) for one in lines[:counts.lines]] if code == DONE else None

    def test_call_limit(self):
        """Once the lines have taken so many steps together, further ones are refused; 0 states the defaults."""
        text = b"ab\nab\nb\nabab\nab"
        records = output(PROGRAM, "stream", "--record", "2", path_of("ligature_0"), given=text)
        steps = [int(line.split()[4]) for line in records.splitlines()[1:-1]]
        for limit, call_limit in itertools.product((0, 1, 2, 3, 4), range(15)):
            left, wanted = call_limit or 1 << 64, []
            for taken in steps:
                most = limit or 1 << 20
                wanted.append((3, 0) if left <= 0 else (3, most) if taken > most else (0, taken))
                left -= wanted[-1][1]
            self.same((limit, call_limit), (DONE, wanted), self.widths(text, limit=limit, call_limit=call_limit))
            records, count = (U8 * 999)(), ctypes.c_size_t()
            data, given, form = sample("ligature_0"), Options(limit=limit, call_limit=call_limit), Form(1, 1, 2)
            code = loaded(self.prefix).tfmset_records(data, len(data), ctypes.byref(given), None, 0, text, len(text), ctypes.byref(form),
                                                      records, 999, ctypes.byref(count))
            seen = [line.split()[1:5] for line in bytes(records[:count.value]).decode().splitlines()]
            self.same("records", (DONE, [["refused", "steps", str(n)] if refusal else ["set", one[1], "steps", str(n)]
                                         for (refusal, n), one in zip(wanted, seen)]), (code, [one[:4] for one in seen]))
        self.same("policy", (RANGE, None), self.widths(text, policy=2))
        self.same("crlf", (RANGE, None), self.widths(text, crlf=2))

    def test_crlf(self):
        """One carriage return before a line feed belongs to the line ending, as with --crlf, in lines and in records."""
        text = b"ab\r\nab\r\r\nab\r"
        self.same("lines", [0, 1, 1], [refusal for refusal, _ in self.widths(text, crlf=1)[1]])
        self.same("without", [1, 1, 1], [refusal for refusal, _ in self.widths(text)[1]])
        font, room, count = path_of("ligature_0"), ctypes.create_string_buffer(999), ctypes.c_size_t()
        data = read(font, "rb")
        for crlf in (0, 1):
            out = execute(PROGRAM, "stream", *["--crlf"] * crlf, font, given=text)[1]
            code = loaded(self.prefix).tfmset_records(
                data, len(data), ctypes.byref(Options(crlf=crlf)), None, 0, text, len(text), ctypes.byref(Form(1, 1, 1)), room, 999,
                ctypes.byref(count))
            self.same(crlf, (DONE, out.splitlines()[:-1]), (code, room.raw[:count.value].decode().splitlines()))

    def test_version_and_size(self):
        library, header = loaded(self.prefix), read(self.prefix + "/include/tfmset.h")
        version = version_in(header)
        self.same("version", version, version_in(f"#define TFMSET_VERSION {library.tfmset_version()}u"))
        self.assertIn(f"\nVersion: {version}\n", read(self.lib + "/pkgconfig/tfmset.pc"))
        links = [os.readlink(f"{self.lib}/libtfmset.so{end}") for end in ("", ".0")]
        self.same("links", ["libtfmset.so.0", "libtfmset.so." + version], links)
        for name, mode in ((links[1], "755"), ("libtfmset.a", "644"), ("pkgconfig/tfmset.pc", "644"),
                           ("../include/tfmset.h", "644")):
            self.same(f"mode of {name}", mode, f"{os.stat(self.lib + '/' + name).st_mode & 0o777:o}")
        policies = re.findall(r"^#define TFMSET_(?:REFUSE|SKIP) (\d)u$", header, re.M)
        self.same("policies, which library_lines passes as numbers", ["0", "1"], policies)
        self.same("a size too large", RANGE, self.call("font", b"", 1 << 27, result=About())[0])
        self.no_lists(b"", 1 << 27, RANGE)

    def test_size_of_a_text(self):
        """A text is read up to its length. After code 4 the size is unchanged."""
        for text, size in ((b"12pt", 786432), (b"10,95pt", 717619), (b"4mm", 745871), (b"655360", 655360),
                           (b"134217727sp", 134217727), (b"134217728sp", None), (b"0pt", None), (b"", None),
                           (b"12ptx", None), (b"12pt\0", None), (b"12 pt", None), (b"\xff", None)):
            status, seen = self.call("size", text, result=U32(7))
            self.same(text, (RANGE, 7) if size is None else (DONE, size), (status, seen.value))
        data, result = ctypes.create_string_buffer(b"12pt12pt"), U32(7)
        size_of = loaded(self.prefix).tfmset_size
        self.same("the first bytes", (DONE, 786432), (size_of(data, 4, ctypes.byref(result)), result.value))


class Linking(LibraryCase):
    """Header, linking and symbols"""

    def functions(self):
        """The names of the functions of the header."""
        return sorted(re.findall(r"^uint32_t (\w+)\(", read(self.prefix + "/include/tfmset.h"), re.M))

    @rows((f"{tool} {standard}", tool, language, standard) for tools, language, standards in (
        (("gcc", "clang"), "c", ("c89", "c99", "c11", "c17")), (("g++", "clang++"), "c++", ("c++98", "c++11", "c++14", "c++17", "c++20")))
        for tool in tools for standard in standards)
    def test_header(self, tool, language, standard):
        """The header is compiled with all warnings."""
        self.need(tool)
        twice = self.file("twice.h", '#include "tfmset.h"\n' * 2)
        more = ["-Wshadow", "-Wconversion", "-Wredundant-decls", "-std=" + standard]
        for name in (self.prefix + "/include/tfmset.h", twice):
            output(tool, "-x", language, *WARNINGS, *more, "-fsyntax-only", f"-I{self.prefix}/include", name)

    @rows((f"{tool} {standard}", tool, language, standard) for tool, language, standard in (
        ("cc", "c", "-std=c99"), ("cc", "c", "-std=c11"), ("c++", "c++", "-std=c++98"), ("c++", "c++", "-std=c++11")))
    def test_header_of_another_layout(self, tool, language, standard):
        """A struct of another layout doesn't compile, nor a program with a size_t of 32 bits."""
        self.need(tool)
        header = read(self.prefix + "/include/tfmset.h")
        compiler = tool, "-x", language, standard, "-fsyntax-only"
        self.same("unchanged", 0, execute(*compiler, self.file("same.h", header))[0])
        for struct, body in re.findall(r"^(struct \w+ \{)\n(.*?)^\};", header, re.M | re.S):
            *_, one, last = re.findall(r"(\w+)[,;]", re.sub(r"/\*.*?\*/", "", body, flags=re.S))
            swapped = re.sub(rf"\b({one}|{last})(?=[,;])", lambda found: last if found[1] == one else one, body)
            for changed in (header.replace(struct, struct + " uint64_t more;"), header.replace(body, swapped)):
                self.assertNotEqual(header, changed)
                self.same(struct, 1, execute(*compiler, self.file("changed.h", changed))[0])
        narrow = "#include <stdint.h>\n#undef SIZE_MAX\n#define SIZE_MAX 4294967295u\n" + header
        self.assertIn("64-bit size_t", execute(*compiler, self.file("narrow.h", narrow))[2])

    def test_the_shared_library_is_bound_when_it_is_loaded(self):
        self.need("readelf")
        file = os.path.join(self.lib, "libtfmset.so")
        self.assertRegex(output("readelf", "-d", file), "BIND_NOW|FLAGS_1.* NOW")
        self.assertRegex(output("readelf", "-d", file), r"SONAME.*\[libtfmset\.so\.0\]")
        self.assertIn("GNU_RELRO", output("readelf", "-lW", file))
        lines = output("nm", "-D", "--undefined-only", file).splitlines()
        self.same("undefined", [], [line for line in lines if " w " not in line and "@GLIBC" not in line])

    def test_stack(self):
        """Each function needs less than 64 KB of stack, with fonts that need much and with long lines."""
        program = self.built("checks/lib/stack.c", "cc", "-std=gnu99", "-pthread", link=[self.lib + "/libtfmset.a"])
        text = self.file("text", ("the office five, ß and \u20ac " * 2000 + "\nab\n" + "aab" * 20000).encode())
        for name in ("demo", "ligature_3", "endless_3", "left_boundary", "largest"):
            lines = [line.split() for line in self.output(program, path_of(name), text).splitlines()]
            self.same(f"{name}: functions", self.functions(), sorted("tfmset_" + line[0] for line in lines))
            self.same(f"{name}: codes", {"0"}, {line[1] for line in lines})
            used = max(int(line[2]) for line in lines)
            print(f"{name}: {used} bytes of stack")
            self.assertLess(used, 64 * 1024)

    def test_an_example_with_both_libraries(self):
        data = read(DEMO, "rb")
        found = characters(listing(data), data)
        for kind, link in self.links():
            out = self.built("examples/library/widths.c", "cc", "-std=c99", link=link)
            self.same(kind, f"box {sum(found[ord(c)][1] for c in 'box')}\n", self.output(out, DEMO, "box"))

    def test_pairs_in_c(self):
        out = self.built("checks/lib/pairs.c", "cc", "-std=c99")
        self.same("pairs", "97 98 1 -40960 0 0 0 0\n97 256 2 0 98 1 0 0\n98 256 1 20480 0 0 0 0\n",
                  self.output(out, given=path_of("right_boundary")))

    def test_the_libraries_define_the_functions_of_the_header_only(self):
        functions = self.functions()
        for file, option in (("libtfmset.a", "-g"), ("libtfmset.so", "-D")):
            lines = output("nm", option, "--defined-only", os.path.join(self.lib, file)).splitlines()
            self.same(file, functions, sorted(line.split()[2] for line in lines if len(line.split()) == 3))

    def test_a_program_may_have_functions_with_the_toolchain_s_names(self):
        source = read("checks/lib/own_names.c")
        source += "\n".join(f'void {name}(void) {{ called("{name}"); }}' for name in HELPERS) + "\n"
        record = output(PROGRAM, "stream", DEMO, given=b"box").split()
        for kind, link in self.links():
            out = self.file(kind, b"")
            name = self.file("own_names.c", source)
            built = execute("cc", "-I" + self.prefix + "/include", "-o", out, name, *link)
            self.same(f"{kind}: linked", (0, ""), (built[0], built[2][:400]))
            self.same(kind, (0, f"0 {record[2]}\n", ""), execute(out, given=read(DEMO, "rb"), env=self.env))


def copy_for_installing(prefix):
    """Makes a function that copies what scripts/library needs. Nothing is proved or built, since the library of a prefix takes
    the place of what scripts/prove makes, and is newer than the sources."""
    def make(top):
        for name in ("scripts/library", "scripts/prove", "scripts/seconds.txt", "include/tfmset.h", "LICENSE-MIT", "LICENSE-APACHE"):
            os.makedirs(os.path.dirname(f"{top}/{name}"), exist_ok=True)
            shutil.copy(f"{ROOT}/{name}", f"{top}/{name}")
        shutil.copytree(BINDINGS, top + "/bindings/python")
        write(top + "/crates.txt", "tfmset_c staticlib:\n")
        write(top + "/crates/tfmset_c/src/lib.rt", "")
        write(top + "/crates/tfmset_c/out/libtfmset_c.a", read(prefix + "/lib/libtfmset.a", "rb"))
    return make


class Installing(LibraryCase):
    """scripts/library, and where Python finds the module and the library"""

    call = ["-B", "-c", "import tfmset; print(tfmset.__file__, tfmset._library._name)"]
    number = "lib/python%d.%d/site-packages" % sys.version_info[:2]

    def setUp(self):
        super().setUp()
        self.need("rt")
        self.copy = os.path.join(self.room, "copy")
        copy_for_installing(self.prefix)(self.copy)

    def run_script(self, *words, before=(), **more):
        """Runs scripts/library in the copy, with other directories before those of PATH."""
        path = os.pathsep.join([*before, os.environ["PATH"]])
        return execute(self.copy + "/scripts/library", *words, env=environment(**{"PATH": path, **more}))

    def install(self, *arguments, **more):
        """What scripts/library prints. It mustn't fail."""
        status, out, err = self.run_script(*arguments, **more)
        self.assertEqual(0, status, err)
        return out

    def loads(self, python, prefix, directory, **more):
        """An interpreter loads the module and the library of a prefix."""
        wanted = f"{prefix}/{directory}/tfmset/__init__.py {prefix}/lib/libtfmset.so.0\n"
        seen = execute(python, *self.call, env=environment(**more), cwd=self.room)
        self.same(prefix, (0, wanted, ""), seen)

    def test_with_destdir(self):
        """Twice, in a fresh directory: the files are complete and named, and pkg-config knows PREFIX."""
        top = self.room + "/opt/tfmset"
        for _ in range(2):
            printed = self.install("/opt/tfmset/", DESTDIR=self.room)
        found, version = files(top), version_in(read("include/tfmset.h"))
        self.same("said", [f"{top}/{name}" for name in found if not os.path.islink(f"{top}/{name}")],
                  sorted(re.findall("^installed (.*)$", printed, re.M)))
        modules = [name for name in found if re.fullmatch(r"lib/python[\d.]+/(site|dist)-packages/tfmset/.*", name)]
        self.same("the package", set(os.listdir(PACKAGE)) - {"__pycache__"}, {name.rpartition("/")[2] for name in modules})
        self.same("files", sorted([
            "include/tfmset.h", "lib/libtfmset.a", "lib/libtfmset.so", "lib/libtfmset.so.0", f"lib/libtfmset.so.{version}",
            "lib/pkgconfig/tfmset.pc", *modules]), found)
        lines = read(top + "/lib/pkgconfig/tfmset.pc").splitlines()
        self.same("tfmset.pc", [
            "prefix=/opt/tfmset", "includedir=${prefix}/include", "libdir=${prefix}/lib", "Name: tfmset",
            f"Version: {version}", "Cflags: -I${includedir}", "Libs: -L${libdir} -ltfmset"],
            [line for line in lines if line and "Description: " not in line])
        self.same("left in the repository", True, read(self.copy + "/crates/tfmset_c/out/libtfmset.so", "rb") ==
                  read(f"{top}/lib/libtfmset.so", "rb"))

    def test_uninstall(self):
        """The installed files are removed, without rt. Other files stay, and so does a module that pip installed."""
        others = ["include/other.h", "lib/libtfmset_other.so", "lib/python3.8/site-packages/tfmset/libtfmset.so"]
        for name in others:
            self.file("usr/" + name, "")
        self.install("/usr", DESTDIR=self.room)
        status, out, err = self.run_script("--uninstall", "/usr", DESTDIR=self.room, PATH="/usr/bin:/bin")
        self.same("left", (0, "", others), (status, err, files(self.room + "/usr")))
        self.same("said", (7, True), (out.count("\n"), all(line.startswith("removed ") for line in out.splitlines())))

    def test_without_tools(self):
        """If a tool is missing, one line names it."""
        tools = self.other_room()
        for name in "bash env dirname readlink awk cc ar objcopy".split():
            os.symlink(shutil.which(name), f"{tools}/{name}")
        os.symlink(sys.executable, tools + "/python3")
        for name, more in (("rt", {}), ("nonesuch", {"CC": "nonesuch"})):
            status, out, err = self.run_script(self.room + "/none", PATH=tools, **more)
            self.same(name, (127, "", 1, True), (status, out, err.count("\n"), f" needs {name}" in err))

    def test_after_a_failed_step(self):
        """Nothing is installed if the compiler fails."""
        ran = self.run_script(self.room + "/none", CC="false")
        self.same("result", (True, "", False), (ran[0] > 0, ran[1], os.path.exists(self.room + "/none")))

    def test_after_a_failed_build(self):
        """Nothing is installed if the library isn't built, and the last lines of the log are printed."""
        write(self.copy + "/crates/tfmset_c/src/lib.rt", "fn")
        ran = self.run_script(self.room + "/none")
        self.same("result", (70, "", False), (*ran[:2], os.path.exists(self.room + "/none")))
        self.assertIn("error", ran[2])

    def test_a_file_in_the_way(self):
        """If a directory can't be made, the script fails, and names only the files that were installed."""
        top = self.room + "/top"
        self.file("top/lib/pkgconfig", "")
        ran = self.run_script(top, PYTHON=sys.executable)
        self.same("status, and message", (1, True), (ran[0], "lib/pkgconfig" in ran[2]))
        wanted = [f"{top}/{found}" for found in files(top)
                  if found != "lib/pkgconfig" and not os.path.islink(f"{top}/{found}")]
        self.same("said", wanted, sorted(re.findall("^installed (.*)$", ran[1], re.M)))

    def python(self, name, searched, version=sys.version_info[:2]):
        """An interpreter that searches a directory, and whose version is another one."""
        start = f"import site, sys\nsite.getsitepackages = lambda *_: [{searched!r}]\n"
        self.file(f"{name}/sitecustomize.py", start + f"sys.version_info = (*{version!r}, 0, 'final', 0)\n")
        path = self.file(f"{name}/python3", f'#!/bin/sh\nPYTHONPATH="{self.room}/{name}" exec "{sys.executable}" "$@"\n')
        os.chmod(path, 0o755)
        return path

    @rows((searched, searched, found) for searched, found in (
        ("local/lib/python3.9/dist-packages", "lib/python3.9/dist-packages"),
        ("local/lib64/python3.12/site-packages", "lib64/python3.12/site-packages"), ("elsewhere/site-packages", None)))
    def test_what_python_searches(self, searched, found):
        """The module is installed where the interpreter searches PREFIX, or else a variable has to be set."""
        prefix, python = self.room + "/local", self.python("one", os.path.join(self.room, searched))
        last = self.install(prefix, PYTHON=python).splitlines()[-1]
        where = f"{prefix}/{found or self.number}"
        other = "" if found else f", with PYTHONPATH={where}"
        self.same("the last line", f"the module tfmset is for {python}{other}", last)
        self.assertTrue(os.path.exists(where + "/tfmset/__init__.py"))

    def test_first_python(self):
        """The first python3 of the PATH that is new enough and searches PREFIX is used."""
        prefix = self.room + "/0"
        searched = prefix + "/lib/python3.9/site-packages"
        self.python("1", searched, (3, 7))
        self.python("2", "/none")
        self.python("3", searched, (3, 8))
        last = self.install(prefix, before=[f"{self.room}/{name}" for name in "123"]).splitlines()[-1]
        self.same("the last line", f"the module tfmset is for {self.room}/3/python3", last)

    def test_in_a_virtual_environment(self):
        # Its own interpreter is chosen, although it isn't on the PATH.
        prefix = os.path.join(self.room, "environment")
        venv.create(prefix, symlinks=True)
        self.assertIn(f"the module tfmset is for {prefix}/bin/python3\n", self.install(prefix))
        self.loads(prefix + "/bin/python3", prefix, self.number)

    def test_in_another_prefix_with_a_space(self):
        prefix = os.path.join(self.room, "other prefix")
        printed = self.install(prefix, PYTHON=sys.executable)
        wanted = f"the module tfmset is for {sys.executable}, with PYTHONPATH={prefix}/{self.number}"
        self.same("the last line", wanted, printed.splitlines()[-1])
        self.loads(sys.executable, prefix, self.number, PYTHONPATH=f"{prefix}/{self.number}")
        self.need("pkg-config", "c++")
        self.link_repository()
        env = environment(PREFIX=prefix)
        (variables,) = [command for command, _ in commands(read("docs/LIBRARY.md")) if "PKG_CONFIG_PATH=" in command]
        command = variables + f"""eval c++ -o threads -pthread "{ROOT}/examples/library/threads.cpp" \\
            $(pkg-config --cflags --libs tfmset) && ./threads '{DEMO}' '{DEMO}' | wc -l"""
        self.same("C++", (0, "1\n", ""), bash(command, self.room, env=env))

    def test_pip(self):
        """In a fresh virtual environment pip builds and installs the wheel offline, and its types pass `mypy --strict`."""
        if not importlib.util.find_spec("ensurepip"):
            self.lack("ensurepip")
        prefix, where = os.path.join(self.room, "environment"), f"{self.room}/environment/{self.number}/tfmset"
        venv.create(prefix, symlinks=True, with_pip=True)
        python, run = prefix + "/bin/python3", {"env": environment(), "cwd": self.room}
        pip = python, "-m", "pip", "install", "-q", "--no-index", "--force-reinstall", self.copy + "/bindings/python"
        status, _, err = execute(*pip, **run)
        self.same("without a library", (1, True), (status, "run scripts/library first" in err))
        self.install(self.room + "/other", PYTHON="false")
        for options in ((), ("--no-build-isolation",)):
            self.same("pip", (0, ""), execute(*pip, *options, **run)[:2])
            self.same("loaded", f"{where}/__init__.py {where}/libtfmset.so\n", output(python, *self.call, **run))
            output(python, "-m", "pip", "uninstall", "-q", "-y", "setuptools", **run)
        program = CALLER + f"print(show(tfmset.Font.from_file({DEMO!r}), b'ox'))\n"
        self.same("a line", "[(0, 111), (1, 0), (0, 120)]\n", output(python, "-c", program, **run))
        self.need("mypy")
        for path in where, self.file("caller.py", program):
            status, out, _ = execute("mypy", "--strict", "--cache-dir", os.devnull, "--python-executable", python, path, **run)
            self.same(path, (0, "Success: no issues found in"), (status, out[:27]))

    def test_without_python(self):
        """Without a Python that works, the rest is installed."""
        prefix = os.path.join(self.room, "without")
        printed = self.install(prefix, PYTHON="false")
        wanted = "skipped the Python module: there is no python3 of version 3.8 or later"
        self.same("the last line", wanted, printed.splitlines()[-1])
        self.same("files", [], glob.glob(prefix + "/lib/python*"))
        self.same("library", True, os.path.exists(prefix + "/lib/libtfmset.so"))

    def test_invalid(self):
        """Invalid arguments end with exit status 2."""
        for words in ((), ("here",), ("/a", "/b")):
            status, out, err = execute(os.path.join(ROOT, "scripts", "library"), *words)
            self.same(words, (2, "", True), (status, out, err.startswith("usage: ")))
