"""Lines that the library for C sets, in C and in Python, compared with the records of the program.

The records have to be the program's, byte for byte: those that the library writes in each record format, and
those that this module and lib/library_lines.c assemble from the lines and items. The program in C calls the
library with arrays of exactly the necessary length, one less, more, and 0, each before a page that can't be
accessed; eight threads call concurrently; and each allocation fails in turn. It is built with the address and
undefined-behaviour sanitizers, and a second time with the thread sanitizer, if these are installed.
"""
import concurrent.futures
import ctypes
import functools
import itertools
import os
import random
import shutil
import struct
import sys
import tempfile

from lib.base import DEMO, EXAMPLES, PROGRAM, ROOT, environment, execute, output, read, rows, shared, table
from lib.clib import BINDINGS, DONE, FUNCTIONS, PACKAGE, RANGE, REFUSED, WARNINGS, Form, LibraryCase, Options, loaded
from lib.docs import font_errors, text_of, worked_examples
from lib.tex import fonts
from lib.tfm import LISTED, NAMES, make, path_of, sample

WEIGHT = 5
CASES = table("library_lines")
CHUNK = 30  # jobs of one test
MOST_FONTS = 300
# Programs that call the library, their arguments, and the file that is their standard input.
IN_C = (("examples/library/line_width.c", (), DEMO), ("examples/library/widths.c", (DEMO, "box"), DEMO),
        ("examples/library/paragraph.c", (DEMO, "160"), "examples/demo.txt"),
        ("examples/library/words.c", (DEMO,), "examples/demo.txt"),
        ("examples/library/stranger.c", (path_of("endless_3"),), "examples/demo.txt"),
        ("examples/library/threads.cpp", (DEMO, "README.md"), DEMO),
        ("checks/lib/pairs.c", (), path_of("right_boundary")), ("checks/lib/largest.c", (), DEMO))


class Job:
    """A text with its font and its settings."""

    def __init__(self, font, text, size=0, limit=1048576, missing="refuse"):
        self.text, self.size, self.limit, self.missing = text, size, limit, missing
        self.font = os.path.join(EXAMPLES, font)
        self.name = f"{font} {text[:12]!r} at {size}, {limit}, {missing}"

    @functools.lru_cache(maxsize=9)
    def records(self, form):
        """The program's records, in record format 1, 2, or 3 for JSON."""
        size = ["--size", str(self.size)] if self.size else []
        words = ["--record", {3: "json"}.get(form, str(form)), *size, "--limit", str(self.limit)]
        out = execute(PROGRAM, "stream", *words, "--missing", self.missing, self.font, given=self.text,
                      text="latin-1", timeout=1000)[1]
        return b"".join(out.encode("latin-1").splitlines(keepends=True)[form == 2:-1])


def jobs():
    """The worked examples, texts at several sizes and limits, and texts that need long arrays or are long."""
    for font, options, cell, _ in worked_examples():
        given = dict(zip(options.split()[::2], options.split()[1::2]))
        yield Job(f"fonts/{font}.tfm", text_of(cell), int(given.get("--size", 0)),
                  int(given.get("--limit", 1048576)), given.get("--missing", "refuse"))
    names, policies = ("examples/demo.txt", "examples/lines.txt", "README.md"), ("refuse", "skip")
    for name, size, missing in itertools.product(names, (0, 65536, 786432, 134217727), policies):
        yield Job("demo.tfm", read(name, "rb"), size, missing=missing)
    for limit in (1, 8, 30, 31, 32, 16777216):
        yield Job("demo.tfm", read("examples/demo.txt", "rb"), limit=limit)
    cuts = [b"", b"\n", b"\n\n", b"a", b"a\n", b"a\n\nb", b"\na", b" ", b" \n ", b"ab\r\nc",
            bytes(range(256)), b"a" * 65535 + b"\nb", b"a" * 65536 + b"\nb", b"\n" * 3000]
    for text, missing in itertools.product(cuts, policies):
        yield Job("fonts/right_boundary.tfm", text, missing=missing)
    for operation in (1, 2, 3, 7, 11):
        yield Job(f"fonts/ligature_{operation}.tfm", b"ab" * 1500 + b"\nab", 655361)
    draw = random.Random(1)
    yield Job("demo.tfm", read("examples/demo.txt", "rb") * 500, missing="skip")
    long_fonts = "left_boundary right_boundary ligature_0 ligature_3 largest without_space no_characters".split()
    for name, missing in itertools.product(["demo", *("fonts/" + name for name in long_fonts)], policies):
        words = (draw.choices(b"abc f\x80", (20, 20, 20, 10, .1, .1), k=draw.randrange(90)) for _ in range(1700))
        yield Job(name + ".tfm", b"\n".join(map(bytes, words)), missing=missing)


JOBS = list(jobs())


@functools.lru_cache(maxsize=None)
def module(prefix):
    """The Python module, with the library of a prefix."""
    os.environ["TFMSET_LIBRARY"] = prefix + "/lib/libtfmset.so"
    sys.path.insert(0, BINDINGS)
    import tfmset  # pylint: disable=import-outside-toplevel
    del os.environ["TFMSET_LIBRARY"]
    return tfmset


@functools.lru_cache(maxsize=None)
def sanitizers(kinds="address,undefined"):
    """The option of sanitizers, if a program can be built with them, and if all of twenty runs succeed."""
    option, given = "-fsanitize=" + kinds, b"int main(void) { return 0; }"
    with tempfile.TemporaryDirectory() as room:
        built = execute("cc", option, "-x", "c", "-", "-o", room + "/program", given=given)[0] == 0
        return [option] if built and not any(execute(room + "/program")[0] for _ in range(20)) else []


def assembled(tfmset, job, lines=None):
    """The records in format 2, assembled from the lines and items."""
    names, out = "cksm", []
    lines = lines or tfmset.Font.from_file(job.font, job.size or None).set(job.text, job.limit, job.missing)
    for number, line in enumerate(lines, 1):
        fields = [f"1:{number}"]
        if isinstance(line, tfmset.Refusal):
            numbers = {"missing": [line.place, line.code], "too-long": [line.place], "steps": [job.limit]}
            fields += ["refused", line.reason, *map(str, numbers[line.reason])]
        else:
            fields += ["set", str(line.width), "steps", str(line.steps)]
            for kind, code, width in struct.iter_unpack("IIi", line.items):
                name = names[kind]
                fields.append({"c": f"c{code}={width}", "m": f"m{code}"}.get(name, f"{name}{width}"))
        out.append(" ".join(fields) + "\n")
    return "".join(out).encode()


class LinesCase(LibraryCase):
    """A test with the Python module."""

    def setUp(self):
        super().setUp()
        self.tfmset = module(self.prefix)

    def in_c(self, job, *more, kinds="address,undefined"):
        """Compares the records of the program in C, and returns its standard error."""
        def make(path):
            output("cc", "-std=gnu11", "-O1", "-g", "-pthread", *WARNINGS, f"-I{self.prefix}/include",
                   "-Wl,--wrap=malloc,--wrap=realloc,--wrap=free", "-o", path,
                   ROOT + "/checks/lib/library_lines.c", self.lib + "/libtfmset.a", *sanitizers(kinds))
        numbers = [str(job.size), str(job.limit), str(int(job.missing == "skip"))]
        program, text = shared("library_lines_" + kinds, make), self.file("text", job.text)
        command = [program, job.font, *numbers, text, *more]
        status, out, err = execute(*command, text="latin-1", timeout=1000)
        records = (job.records(2) + job.records(1) + job.records(2)).decode("latin-1")
        self.same(f"{job.name}: in C, with an empty standard error", (0, True, not more),
                  (status, out == records, err == ""))
        return err


class Records(LinesCase):
    """Records, in C and in Python"""

    @rows((f"jobs {first + 1} to {min(first + CHUNK, len(JOBS))}", JOBS[first:first + CHUNK])
          for first in range(0, len(JOBS), CHUNK))
    def test(self, some):
        for job in some:
            self.in_c(job)
            self.in_python(job)

    def in_python(self, job):
        font = self.tfmset.Font.from_file(job.font, job.size or None)
        for form in (1, 2, 3):
            seen = font.records(job.text, job.limit, job.missing, version=form)
            self.same(f"{job.name}: format {form}", True, seen == job.records(form))
        self.same(f"{job.name}: from its lines", True, assembled(self.tfmset, job) == job.records(2))
        lines = [line if isinstance(line, self.tfmset.Refusal) else line.width
                 for line in font.set(job.text, job.limit, job.missing)]
        self.same(f"{job.name}: widths", lines, font.widths(job.text, job.limit, job.missing))
        other = b"".join(b"7:%d %s" % (number + 4_000_000_000, record.split(b" ", 1)[1])
                         for number, record in enumerate(job.records(1).splitlines(keepends=True)))
        seen = font.records(job.text, job.limit, job.missing, source=7, first_line=4_000_000_000)
        self.same(f"{job.name}: other numbers", True, seen == other)

    @rows((f"part {part + 1} of the fonts", part) for part in range(4))
    def test_fonts_of_tex(self, part):
        """One text with the fonts of TeX, or the font error if a font is refused."""
        self.need("kpsewhich", "cmr10")
        names = [path for path, _ in fonts()]
        for number, name in list(enumerate(names[::len(names) // MOST_FONTS + 1]))[part::4]:
            job = Job(name, read("README.md", "rb"), missing="skip")
            try:
                font = self.tfmset.Font.from_file(name)
            except self.tfmset.FontRefused as error:
                status, _, err = execute(PROGRAM, "list", name)
                self.same(f"{name} is refused", (3, True), (status, str(error) in err))
                continue
            self.same(name, True, job.records(2) == font.records(job.text, missing="skip", version=2))
            if number % 10 == part:
                self.in_c(job)

    def test_20_megabytes_in_one_call(self):
        text = read("examples/demo.txt", "rb")
        job = Job("demo.tfm", text * (20_000_000 // len(text)))
        self.same("20 MB", True, job.records(1) == self.tfmset.Font.from_file(job.font).records(job.text))

    def test_blocks(self):
        """A text that the module sets in many blocks has the results of one block, also with byte order marks."""
        font, text = self.tfmset.Font.from_file(DEMO), "office\n\n\ufeffbox Q\n\ufeff\nwaves of ox\nﬁve\n" * 999 + "\ufeffo"

        def results():
            lines = font.set(text.encode(), 99, "skip")
            plain = font.set(text.replace("\ufeff", ""), encoding="t1")
            return (lines, bytes(lines.items), plain, font.widths(text.encode()), font.records(text.encode(), version=3),
                    font.records(text, encoding="t1", first_line=7))

        self.addCleanup(setattr, self.tfmset, "_FIRST_BLOCK", self.tfmset._FIRST_BLOCK)
        self.tfmset._FIRST_BLOCK = 1
        many = results()
        self.tfmset._FIRST_BLOCK = len(text) * 4
        self.same("results", [True] * 6, [one == other for one, other in zip(results(), many)])

    def test_failed_allocations_and_threads_in_c(self):
        text = read("examples/demo.txt", "rb") * 40
        errors = self.in_c(Job("demo.tfm", text, missing="skip"), "more")
        counts = [int(field) for field in errors.split() if field.isdigit()]
        self.same("failed allocations", (34, True, 1), (len(counts), all(counts), errors.count("\n")))
        print(f"allocations that failed: {counts}")
        # If only one fails, the others are made, too.
        self.same("calls that allocate for each line", [], [count for count in counts[::2] if count > text.count(b"\n") / 2])

    @rows((kinds, kinds) for kinds in ("address,undefined", "thread"))
    def test_with_sanitizers(self, kinds):
        """The programs in C and C++ print the same with sanitizers, which report nothing."""
        self.need("c++")
        if not sanitizers(kinds):
            self.lack("-fsanitize=" + kinds)
        self.in_c(Job("demo.tfm", read("examples/demo.txt", "rb"), missing="skip"), "more", kinds=kinds)
        for name, words, given in IN_C:
            compiler = ["c++", "-std=c++11"] if name.endswith(".cpp") else ["cc", "-std=c99"]
            programs = (self.built(name, *compiler, "-pthread", "-g", *options) for options in ((), sanitizers(kinds)))
            wanted, seen = (execute(path, *words, given=read(given, "rb"), cwd=ROOT, env=self.env) for path in programs)
            self.same(name, (0, wanted[1], ""), seen)

    def test_eight_threads_in_python(self):
        """Eight threads call all functions of one font, each with a text of its own."""
        lines = read("README.md", "rb").splitlines(keepends=True)
        jobs = [Job("demo.tfm", b"".join(lines[n:] + lines[:n]), missing="skip") for n in range(0, 80, 10)]
        font, wanted = self.tfmset.Font.from_file(jobs[0].font), {job: job.records(2) for job in jobs}

        def called(job):
            settings = job.text, job.limit, job.missing
            return job, font.records(*settings, version=2), font.widths(*settings), font.set(*settings)

        with concurrent.futures.ThreadPoolExecutor(8) as pool:
            results = list(pool.map(called, jobs * 8))
        for job, records, widths, lines in results:
            self.same(job.name, True, assembled(self.tfmset, job, lines) == records == wanted[job])
            self.same(job.name, [line.width for line in lines], widths)


class Module(LinesCase):
    """Exceptions, sizes and arguments of the Python module"""

    def test_font_errors(self):
        for message, data in font_errors():
            with self.assertRaises(self.tfmset.FontRefused) as raised:
                self.tfmset.Font(data)
            self.same(message, message, str(raised.exception))

    def test_names_in_font_errors(self):
        """Each count, and each table that can be empty, has its name."""
        data = sample("no_characters")
        cases = {f"2 count {name} out of range": data[:2 * i] + b"\x80" + data[2 * i + 1:] for i, name in enumerate(NAMES)}
        cases |= {f"5 table {name} is empty": data[:8 + 2 * i] + b"\0\0" + data[10 + 2 * i:]
                  for i, name in enumerate(("width", "height", "depth", "italic"))}
        for message, font in cases.items():
            with self.assertRaises(self.tfmset.FontRefused) as raised:
                self.tfmset.Font(font)
            self.same(message, message, str(raised.exception))

    def test_exceptions(self):
        names = {"Font": self.tfmset.Font, "font": self.tfmset.Font.from_file(DEMO), "data": sample("demo")}
        for kind, calls in CASES["raises"].items():
            for call in calls:
                with self.subTest(call), self.assertRaises(Exception) as raised:
                    eval(call, names)  # pylint: disable=eval-used
                self.same(call, kind, type(raised.exception).__name__)

    def test_sizes_texts_and_indices(self):
        font = self.tfmset.Font.from_file(DEMO)
        for size, wanted in CASES["sizes"].items():
            self.same(f"size {size}", wanted, self.tfmset.Font(font.data, size).size)
        for text in (bytearray(b"ox\nox"), memoryview(b"ox\nox")):
            self.same("other bytes", font.widths(b"ox\nox"), font.widths(text))
        lines = font.set(b"ox\nab\nAV")
        self.same("indices of lines", (3, 2, "missing"), (len(lines), len(lines[0:2]), lines[-1].reason))
        self.same("all items", sum(len(line.items) for line in lines[:2]), len(lines.items))

    @rows((f"operation {op}", op) for op in LISTED)
    def test_pair(self, op):
        """A ligature between two characters has the fields of its operation."""
        wanted = self.tfmset.Ligature(99, bool(op // 2 % 2), bool(op % 2), op // 4)
        self.same("pair", wanted, self.tfmset.Font(sample(f"ligature_{op}")).pair(97, 98))

    def test_pairs(self):
        """All pairs of a font are those for which `pair` returns an action, also if there are many."""
        program = [(0, code, 128, 0) for code in range(255)] + [(128, 255, 1, 7)]
        infos = [(1, 0, int(code < 20), 0) for code in range(256)]
        many = make(infos, (0, 65536), program, (32768,), first=0)
        for data in (sample("demo"), sample("left_boundary"), sample("plain"), many):
            font = self.tfmset.Font(data)
            codes = [code for code in range(256) if font.metrics(code)]
            lefts, rights = [self.tfmset.BOUNDARY, *codes], [*codes, self.tfmset.BOUNDARY]
            if data == many:
                lefts, rights = range(20), codes  # the other ones have no program
            found = [(left, right, font.pair(left, right)) for left in lefts for right in rights]
            self.same("pairs", [row for row in found if row[2]], font.pairs())

    def test_a_failed_allocation(self):
        version = loaded(self.prefix).tfmset_version()
        source = f"unsigned tfmset_version(void) {{ return {version}; }}\n" + "".join(
            f"unsigned tfmset_{name}(void) {{ return 2; }}\n" for name in FUNCTIONS)
        out = os.path.join(self.room, "out_of_memory.so")
        output("cc", "-shared", "-fPIC", "-x", "c", "-", "-o", out, given=source.encode())
        seen = execute(sys.executable, "-B", "-c", 'import tfmset; tfmset.Font(b"")',
                       env={**self.env, "TFMSET_LIBRARY": out})
        self.same("exception", "MemoryError: an allocation of libtfmset failed", seen[2].splitlines()[-1])

    def test_doctests(self):
        seen = execute(sys.executable, "-B", "-c", "import doctest, sys, tfmset; sys.exit(doctest.testmod(tfmset)[0])",
                       cwd=ROOT, env=self.env)
        self.same("doctest", (0, "", ""), seen)

    def test_arguments_out_of_range(self):
        """A number out of its range, or a refused font, leaves the arrays and the last argument unchanged."""
        data, most, vector = sample("demo"), (1 << 64) - 1, b"/V[" + b"/a" * 256 + b"]def"
        for name in ("set", "widths", "records"):
            for settings in CASES["out_of_range"]["settings"]:
                self.call((RANGE, True), name, data, settings)
            self.call((REFUSED, True), name, data[:100], (0, 9, 0, 0))
            self.call((DONE, False), name, data, (0, 9, 0, 0))
        for version, first in ((0, 1), (4, 1), (1, most), (1, most - 4)):
            self.call((RANGE, True), "records", data, (0, 9, 0, 0), Form(most, first, version))
        for first in (0, most - 5):
            self.call((DONE, False), "records", data, (0, 9, 0, 0), Form(most, first, 1))
        for encoding in (b"Ot1", b"t1\0", b"utf-8", b"\xff", vector[:-3], b"/g" + vector):
            self.call((RANGE, True), "records", data, (0, 9, 0, 0), encoding=encoding)
        for encoding in (b"", vector):
            self.call((DONE, False), "records", data, (0, 9, 0, 0), encoding=encoding)

    def call(self, wanted, name, data, settings, form=Form(1, 1, 1), encoding=b"latin1"):
        """Compares the return code of a call, and whether its arrays and its last argument are unchanged."""
        nines, text = b"\x09" * 8192, b"ox\nab"
        memory = [ctypes.create_string_buffer(nines, 8192) for _ in range(3 if name == "set" else 2)]
        given = [data, len(data), ctypes.byref(Options(0, *settings))]
        given += [encoding, len(encoding)] if name == "records" else []
        given += [text, len(text), *([ctypes.byref(form)] if name == "records" else [])]
        for array in memory[:-1]:
            given += [array, 8192 // 48]
        code = getattr(loaded(self.prefix), "tfmset_" + name)(*given, memory[-1])
        unchanged = all(array.raw == nines for array in memory)
        self.same(f"{name} with {settings}, {form.version}, {form.first}", wanted, (code, unchanged))


class Finding(LinesCase):
    """Where the module finds the library"""

    def setUp(self):
        super().setUp()
        self.own, self.beside, self.so = self.room + "/own", self.room + "/beside", self.lib + "/libtfmset.so"
        self.modules = self.own + "/lib/python3.8/dist-packages"
        for directory in (self.modules, self.beside):
            shutil.copytree(PACKAGE, directory + "/tfmset")

    def loaded(self, directory, **more):
        """The path of the library that the module in a directory loads, or the last line of an error."""
        call = [sys.executable, "-B", "-c", "import tfmset; tfmset.version(); print(tfmset._library._name)"]
        _, out, err = execute(*call, env=environment(PYTHONPATH=directory, **more))
        return (out or err).splitlines()[-1]

    def fails(self, beginning, directory, **more):
        self.same(f"in {directory} with {more}", beginning, self.loaded(directory, **more)[:len(beginning)])

    def test_by_variables(self):
        self.same("TFMSET_LIBRARY", self.so, self.loaded(self.beside, TFMSET_LIBRARY=self.so))
        self.fails("ImportError: /none can't be loaded: ", self.beside, TFMSET_LIBRARY="/none")
        self.fails("ImportError: libc.so.6 isn't libtfmset", self.beside, TFMSET_LIBRARY="libc.so.6")
        for more in ({}, {"PATH": "/none"}):  # without ld and gcc
            seen = self.loaded(self.beside, LD_LIBRARY_PATH=self.lib, **more)
            self.same("LD_LIBRARY_PATH", "libtfmset.so.0", seen)

    def test_without_a_library(self):
        try:
            ctypes.CDLL("libtfmset.so.0")
        except OSError:
            for directory in (self.beside, self.modules):
                self.fails("ImportError: libtfmset.so was not found", directory)

    def test_in_its_prefix_and_next_to_the_module(self):
        own = shutil.copy(self.so, self.own + "/lib/libtfmset.so.0")
        self.same("its prefix", own, self.loaded(self.modules, LD_LIBRARY_PATH=self.lib))
        for directory in (self.modules, self.beside):
            own = shutil.copy(self.so, directory + "/tfmset")
            self.same("its directory", own, self.loaded(directory, LD_LIBRARY_PATH="/none"))
            self.fails("ImportError: /none can't be loaded: ", directory, TFMSET_LIBRARY="/none")
            self.same("TFMSET_LIBRARY is empty", own, self.loaded(directory, TFMSET_LIBRARY=""))
