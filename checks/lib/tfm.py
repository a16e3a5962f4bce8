"""Reads, writes and changes TFM files, independently of the program (tftopl.web, 8 to 13)."""
import itertools
import os
import struct

from lib.base import DEMO, EXAMPLES, read, script

MAKER = script("examples/make_fonts.py")
make, LISTED = MAKER.make, MAKER.LISTED
NAMES = ("lf", "lh", "bc", "ec", "nw", "nh", "nd", "ni", "nl", "nk", "ne", "np")
BOUNDARY = 256


class Font:
    """The parts of a TFM file whose counts are right."""

    def __init__(self, data):
        self.data, self.counts = data, struct.unpack(">12H", data[:24])
        _, lh, self.bc, self.ec, *others = self.counts
        names = "header info width height depth italic program kern exten param".split()
        self.lengths = dict(zip(names, (lh, self.ec + 1 - self.bc, *others)))
        *firsts, self.words = itertools.accumulate((6, *self.lengths.values()))
        self.first = dict(zip(names, firsts))
        self.infos = dict(enumerate(self.quads("info"), self.bc))
        self.program, self.recipes = self.quads("program"), self.quads("exten")
        self.codes = [code for code, info in self.infos.items() if info[0]]
        first, last = (self.program[0], self.program[-1]) if self.program else ((0,), (0,))
        self.right = first[1] if first[0] == 255 else None
        self.left = 256 * last[2] + last[3] if last[0] == 255 else None

    def quads(self, name):
        """The words of a table, each as four bytes."""
        at = 4 * self.first[name]
        return [tuple(self.data[i:i + 4]) for i in range(at, at + 4 * self.lengths[name], 4)]

    def fixes(self, name):
        """The words of a table, as numbers with a sign."""
        at, count = 4 * self.first[name], self.lengths[name]
        return list(struct.unpack(f">{count}i", self.data[at:at + 4 * count]))

    def header_text(self, word, room):
        """The text in a field of the header: the number of its bytes comes before it."""
        at = 24 + 4 * word
        length = min(self.data[at], room - 1) if 4 * word + room <= 4 * self.lengths["header"] else 0
        return self.data[at + 1:at + 1 + length].decode("latin-1")

    def starts(self, every=False):
        """The address at which the program of each character (or each code) begins, also an indirect one."""
        return {code: self.entry(info[3]) for code, info in self.infos.items()
                if (info[0] or every) and info[2] % 4 == 1}

    def entry(self, start):
        skip, _, op, rest = self.program[start] if start < len(self.program) else (0, 0, 0, 0)
        return 256 * op + rest if skip > 128 else start

    def chain(self, start):
        """The addresses of the instructions that a search visits, from a start on."""
        while start is not None and start < len(self.program) and self.program[start][0] <= 128:
            yield start
            start = start + self.program[start][0] + 1 if self.program[start][0] < 128 else None

    def waits(self, code):
        """The codes to the right for which the program of a character has an instruction."""
        return [self.program[i][1] for i in self.chain(self.starts().get(code))]

    def act(self, left, right):
        """The instruction for a pair: the left one may be BOUNDARY, and so may the right one, or nothing."""
        start = self.left if left == BOUNDARY else self.starts().get(left)
        code = self.right if right == BOUNDARY else right
        for i in self.chain(start) if code is not None else ():
            if self.program[i][1] == code:
                return self.program[i][2:]
        return None


def scaled(fix, size):
    """A fix_word at a size in scaled points, byte by byte (tex.web, 571 and 572)."""
    alpha = 16
    while size >= 2 ** 23:
        size, alpha = size // 2, alpha * 2
    beta, alpha = 256 // alpha, alpha * size
    a, b, c, d = (fix % 2 ** 32).to_bytes(4, "big")
    number = (((d * size) // 256 + c * size) // 256 + b * size) // beta
    return number - alpha if a == 255 else number


def changed(data, changes):
    """A font with changes: `bytes N` keeps N bytes, and `W: HEX..` replaces the words from word W on."""
    for change in filter(None, changes.split(", ")):
        index, _, words = change.partition(": ")
        if words:
            content, at = bytes.fromhex(words.replace(" ", "")), 4 * int(index)
            data = data[:at] + content + data[at + len(content):]
        else:
            data = data[:int(index.removeprefix("bytes "))]
    return data


def path_of(name):
    """The path of a sample font."""
    return DEMO if name == "demo" else f"{EXAMPLES}/fonts/{name}.tfm"


def sample(name, changes=""):
    """The bytes of a font of examples/fonts, or demo, with changes."""
    return changed(read(path_of(name), "rb"), changes)


def samples():
    """The names of all sample fonts."""
    return ["demo"] + sorted(name[:-4] for name in os.listdir(EXAMPLES + "/fonts"))


class Listing:
    """The lines that `tfmset list` prints, by their first fields."""

    def __init__(self, text):
        self.rows = [line.split(" ") for line in text.splitlines()]
        self.head = {row[0]: " ".join(row[1:]) for row in self.rows}
        self.chars = {int(row[1]): row for row in self.of("char")}
        self.steps = self.of("step")
        self.kerns, self.params = ([int(row[2]) for row in self.of(word)] for word in ("kern", "param"))

    def of(self, word):
        """The lines that begin with a word."""
        return [row for row in self.rows if row[0] == word]
