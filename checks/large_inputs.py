"""Inputs up to the limits of the formats.

A contract permits a function to report failed allocation for any input, and a formatter to fail. A body that
does so only for some inputs, by a request for an absurd amount of memory, is proved. Therefore lines, paths,
tables, sizes of fonts and texts have the largest sizes here, and each power of two below them.
"""
import contextlib
import ctypes
import errno
import os
import random
import resource
import struct
import threading

from lib import slow
from lib.base import PROGRAM, Case, bash, execute, rows, write
from lib.clib import DONE, U64, Form, LibraryCase, Options, loaded
from lib.tfm import make, sample

WEIGHT = 5
MOST_LINE, MOST_WORDS = 65535, 32767  # bytes of a line that is set, words of a font
MOST_SIZE, TEN_POINTS = 2 ** 27 - 1, 655360  # the largest size of a font, and 10pt, in sp
MB = 1 << 20
LONG_LINE, MOST_SPACE = 600 * MB, 300000  # bytes of a line, KB of address space


def run(*args, given=b"", room=None):
    return execute(PROGRAM, *args, given=given, cwd=room)


def steps(most, least=0):
    """The least and the largest number, and the powers of two between them."""
    return sorted({least, most, *(2 ** power for power in range(28) if least < 2 ** power < most)})


SIZES = sorted({2 ** power + more for power in range(22) for more in (-1, 0, 1)})  # bytes of a line


def send(pipe):
    """Writes a long line and two short ones to a pipe, unless its reader ends before."""
    with contextlib.suppress(BrokenPipeError), open(pipe, "wb") as file:
        for _ in range(LONG_LINE // MB):
            file.write(b"a" * MB)
        file.write(b"\na\naa\n")


class LongLine(Case):
    """A line that is longer than the memory"""

    @rows((args, args) for args in ("stream --crlf font", "set font lines"))
    def test(self, args):
        """A line of 600 MB is refused with its length in 300 MB of address space, and later ones are set.

        It comes through a pipe or from a file. Mutant of `fill` in line_chunks: the bytes of each line are kept.
        """
        self.file("font", sample("plain"))
        with open(self.file("lines", b""), "wb") as file:
            file.seek(LONG_LINE)  # the bytes before are zeros, which take no space on the disk
            file.write(b"\na\naa")
        unread, unwritten = os.pipe()
        sender = threading.Thread(target=send, args=(unwritten,))
        sender.start()
        try:
            seen = bash(f"ulimit -v {MOST_SPACE}; exec '{PROGRAM}' {args}", self.room, given=None, stdin=unread)
        finally:
            os.close(unread)
            sender.join()
        wanted = (f"1:1 refused too-long {LONG_LINE}\n1:2 set 327680 c97=327680\n"
                  "1:3 set 655360 c97=327680 c97=327680\n1 end complete 3\n")
        self.same(args, (1, wanted, ""), seen)


class ManyNames(Case):
    """A list of many fonts"""

    # Mutant: the findings are kept in a list. Each takes 16 bytes or more, and all together the whole memory.
    @rows((form, form) for form in ("text", "json"))
    def test(self, form):
        """The names of 99,999 fonts are read with hardly more memory than those of two."""
        self.file("font", sample("plain"))
        count = 99999
        names = b"font\0none\0./font\0" * (count // 3)
        most = min(space for space in range(2000, 60000, 500) if self.checked(b"font\0none\0", space, form)[0] == 4)
        status, out, _ = self.checked(names, most + 500, form)
        last = (f"{count} fonts: {count * 2 // 3} accepted, 0 refused, {count // 3} not read" if form == "text" else
                f'{{"fonts":{count},"accepted":{count * 2 // 3},"warned":0,"refused":0,"unread":{count // 3}}}')
        self.same("status", (4, count // 3 + 1, last), (status, out.count("\n"), out.splitlines()[-1]))

    def checked(self, names, space, form):
        """The result for a list of fonts, with so many KB of address space."""
        command = f"ulimit -v {space}; exec '{PROGRAM}' check --files-from - --null --quiet --summary --format {form}"
        return bash(command, self.room, given=names)


class Sizes(Case):
    """Lines, paths and arguments of the largest sizes"""

    # Mutants: a request for a line above 33,000 bytes; of encodings: a request for the codes of many bytes.
    @rows((f"{args}, {kind[0]}", args.split(), *kind) for args, kind in (
        ("set font lines", (b"a", 327680, " c97=327680")), ("stream --block 1 font lines", (b" ", 218453, " s218453")),
        ("stream font", (b"d", 0, " m100")), ("each font 16777216 lines", (b"a", 327680, " c97=327680")),
        ("stream --encoding t1 font", ("ä".encode(), 0, " m228"))))
    def test_lines(self, args, letter, width, item):
        """Lines of up to 65,535 bytes are set, and longer ones refused."""
        sizes = [size - size % len(letter) for size in SIZES]
        text = b"\n".join(letter * (size // len(letter)) for size in sizes)
        self.file("font", sample("plain"))
        self.file("lines", text)
        status, out, err = run(args[0], "--missing", "skip", *args[1:], given=text, room=self.room)
        counts = [size // len(letter) for size in sizes]
        wanted = [f"1:{number} " + (f"set {count * width}" + item * count if size <= MOST_LINE
                                      else f"refused too-long {size}")
                  for number, (size, count) in enumerate(zip(sizes, counts), 1)] + [f"1 end complete {len(sizes)}"]
        self.same("status", (1, "", len(wanted)), (status, err, out.count("\n")))
        self.none([f"{one[:60]}: {two[:60]}" for one, two in zip(wanted, out.splitlines()) if one != two])

    @rows((f"{length} bytes", length) for length in (255, 256, 4095))
    def test_path(self, length):
        """A long path of several directories is opened and printed. Mutant: a request for a path above 200 bytes."""
        path = (self.room + "/" + "d" * 60 + ("/" + "d" * 99) * 41)[:length - 2].rstrip("/")
        path = write(path + "/" + "f" * (length - len(path) - 1), sample("plain"))
        self.same("check", (0, f"{path}: accepted\n", ""), run("check", path))
        for args in (["set", path, path], ["stream", path, path], ["each", path, "9", path]):
            self.same(args[0], (1, ""), run(*args)[::2])
        self.same("list", (0, ""), run("list", path)[::2])
        # Mutant of `WatchedFiles` in tfm_tool: the name of a file that can't be opened is cut.
        none = path[:-1] + "n"
        cause = f"tfmset: {none}: No such file or directory (os error 2)\n"
        self.same("check -v", (4, f"{none}: not read\n", cause + "tfmset: some font was not read\n"),
                  run("check", "-v", none))

    # Mutants of `main`: only the first 4,096 arguments, or the first 30,000, are handed on.
    @rows((f"{count} arguments", count) for count in (20000, 550000))
    def test_many_arguments(self, count):
        """Each argument is read. The most that Linux permits are 6 MB of arguments, with their addresses."""
        self.file("font", sample("plain"))
        try:
            status, out, err = execute(PROGRAM, "check", *["x"] * (count - 1), "font", cwd=self.room, env={},
                                       preexec_fn=permit_arguments)
        except OSError as error:
            self.same("error", (errno.E2BIG, True), (error.errno, count > 20000))
            self.skipTest("the system permits fewer arguments")
        wanted = "x: not read\n" * (count - 1) + "font: accepted\n"
        causes = "tfmset: x: No such file or directory (os error 2)\n" * (count - 1) + "tfmset: some font was not read\n"
        self.same("check", (4, True, True), (status, out == wanted, err == causes))

    # Mutants of tfm_tool: only the first 4,096 bytes of the causes are printed; no more than 65,535 lines are counted.
    def test_verbose(self):
        """Each of 3,000 fonts that aren't there has a cause, and 140,000 lines are counted."""
        names = [f"font{number}" for number in range(3000)]
        causes = [f"tfmset: {name}: No such file or directory (os error 2)\n" for name in names]
        wanted = "".join(f"{name}: not read\n" for name in names)
        seen = run("check", "-v", *names, room=self.room)
        self.same("check", True, seen == (4, wanted, "".join(causes) + "tfmset: some font was not read\n"))
        font, text = self.file("font", sample("plain")), b"a\nd\r\n" * 70000
        status, _, err = run("stream", "-v", font, given=text)
        wanted = ("tfmset: standard input: line 2 ends with a carriage return, which is a character of the line; "
                  "to leave it out add --crlf\n"
                  "tfmset: 70000 lines end with a carriage return\n"
                  "tfmset: 70000 lines set, 70000 refused: 70000 missing\n")
        self.same("counts", (1, wanted), (status, err))


def permit_arguments():
    """Permits as many arguments as Linux permits at all: a quarter of the stack, up to 6 MB."""
    hard = resource.getrlimit(resource.RLIMIT_STACK)[1]
    resource.setrlimit(resource.RLIMIT_STACK, (24 * MB if hard == resource.RLIM_INFINITY else min(24 * MB, hard), hard))


AB = {"infos": [(1, 0, 1, 0), (1, 0, 0, 0)], "widths": [0, 1 << 20], "program": [(128, 98, 128, 0)],
      "kerns": [1 << 16]}
MOST_MORE = MOST_WORDS - 17  # words that can be added to the font of AB


def last_kern(count):
    """The program of AB for the last one of so many kerns."""
    return [(128, 98, *(32767 + count).to_bytes(2, "big"))]


def any_bytes(count):
    return random.Random("any").randbytes(count)


# The dimensions of a font: the numbers of each, and the font with such a number.
DIMENSIONS = {
    "header words": (steps(MOST_MORE), lambda n: make(**AB, header=any_bytes(4 * n))),
    "characters": (steps(256), lambda n: make([(1, 0, 0, 0)] * n, [0, 1 << 20], first=int(n == 0))),
    "first codes": (steps(255), lambda n: make([(1, 0, 0, 0)], [0, 1 << 20], first=n)),
    "widths": (steps(256, 1), lambda n: make([(n - 1, 0, 0, 0)], range(0, n << 12, 1 << 12))),
    "heights": (steps(16, 1), lambda n: make([(1, 16 * n - 16, 0, 0)], [0, 1 << 20], heights=range(n))),
    "depths": (steps(16, 1), lambda n: make([(1, n - 1, 0, 0)], [0, 1 << 20], depths=range(n))),
    "italic corrections": (steps(64, 1), lambda n: make([(1, 0, 4 * n - 4, 0)], [0, 1 << 20], italics=range(n))),
    "instructions": (steps(MOST_MORE + 1, 1), lambda n: make(**AB | {
        "program": [(0, 97, 128, 0)] * (n - 1) + AB["program"]})),
    "kerns": (steps(MOST_MORE + 1, 1), lambda n: make(**AB | {"program": last_kern(n), "kerns": range(n)})),
    "recipes": (steps(256), lambda n: make([(1, 0, 3 * (n > 0), max(n - 1, 0))], [0, 1 << 20],
                                           exten=[(0, 0, 0, 97)] * n)),
    "parameters": (steps(MOST_MORE), lambda n: make(**AB, params=range(n))),
    "bytes after the last word": (steps(200000), lambda n: make(**AB) + any_bytes(n)),
    "sp of the design size": (steps(MOST_SIZE, 65536), lambda n: at_design(make(**AB), n)),
}


def at_design(font, size):
    """A font with another design size."""
    return font[:28] + struct.pack(">i", 16 * size + size % 16) + font[32:]


class Fonts(Case):
    """Fonts with the largest numbers of everything: no table and no size is too large"""

    @rows((name, *found) for name, found in DIMENSIONS.items())
    def test_number(self, numbers, font):
        """Each font is accepted and set, and its counts, listings and pairs are those of a slow program."""
        text = b"ab a\nba\n"
        self.file("text", text)
        for number in numbers:
            data = font(number)
            self.file("font", data)
            found = {"check": "font: accepted\n", "counts": slow.counts_text(data), "list": slow.list_text(data),
                     "list --all": slow.list_text(data, True),
                     "pairs": slow.pairs_text(data) if slow.Font(data).program else "",
                     "set --missing skip": slow.source_text(1, text, slow.Setter(data, None, 9999, True), "1")[0]}
            for command, wanted in found.items():
                words = [*command.split(), "font"] + ["text"] * ("skip" in command)
                self.same((number, command), (0, wanted, ""), run(*words, room=self.room))

    def test_all_pairs(self):
        """A font in which each code has a kern before each code has 65,536 pairs."""
        program = [(128 * (code == 255), code, 128, 0) for code in range(256)]
        font = self.file("font", make([(1, 0, 1, 0)] * 256, [0, 1 << 20], program, [1 << 20], first=0))
        pairs = "".join(f"{left} {right} kern {TEN_POINTS}\n" for left in range(256) for right in range(256))
        self.same("pairs", True, run("pairs", font) == (0, pairs, ""))


class Library(LibraryCase):
    """Texts of many megabytes in one call of the library"""

    @rows((f"{name}, {count} lines", name, line, count) for name, line, count in (
        ("set", b"d" * 65000, 1600), ("records", b"d", 3000000)))
    def test_text(self, name, line, count):
        """All lines of a text of 100 MB, and of one of 3,000,000 lines. Mutant: a request above 30 MB."""
        text, data, counts = (line + b"\n") * count, sample("plain"), (U64 * 2)()
        form, room = ([ctypes.byref(Form(1, 1, 1))], 40 * count) if name == "records" else ([], count)
        arrays = [ctypes.create_string_buffer(room if form else 48 * room), room]
        arrays += [ctypes.create_string_buffer(12), 1] if name == "set" else []
        code = getattr(loaded(self.prefix), "tfmset_" + name)(
            data, len(data), ctypes.byref(Options()), *([None, 0] if form else []), text, len(text), *form, *arrays, counts)
        wanted = b"".join(b"1:%d refused missing 0 100\n" % number for number in range(1, count + 1))
        self.same("code and length", (DONE, len(wanted) if form else count), (code, counts[0]))
        self.assertTrue(not form or arrays[0].raw[:len(wanted)] == wanted)
