"""`tfmset set` and TeX's own boxes, item by item: characters, kerns, spaces and widths; and, with `--record box`,
heights and depths.

200 lines are set with each of 100 fonts, chosen evenly from the TeX trees. A line is one word, or a few words
with spaces before, between and after them. Most pairs of characters are pairs for which the font has an
instruction, and the font lacks a few of the bytes. Three of seven fonts are set at other sizes. Then 200
short runs are set with each of 30 small random fonts, whose programs have all eight operations and both
boundaries. TeX runs once for each font, in batch mode, and \\showbox prints the contents of each box.

Sizes of random texts such as 10.95pt are compared with \\number\\dimen0 after \\dimen0=10.95pt. The dimensions
of `list --size` are compared with those of TeX's fonts at the same size. `list --unit pt` prints 6,000 amounts as
TeX's \\the does, and in the other units they are compared with Python's fractions.

The differences that docs/TEX.md lists are avoided in these ways. A space is written as \\ , which has the
width of parameter 2 whatever precedes it, also at both ends. Bytes other than letters are written with
\\char. Byte 10 doesn't occur in a line. The right boundary's code isn't used as a missing byte. A run with a
random font that doesn't end within LIMIT steps isn't passed to TeX. The lines are the same in every execution
with the same fonts.
"""
import os
import random
import re
import struct
from fractions import Fraction

from lib.base import PROGRAM, Case, environment, execute, output, read, rows
from lib.clib import DONE, RANGE, U32, LibraryCase, call
from lib.tex import fonts
from lib.tfm import Font
from lib.slow import random_font

WEIGHT = 3
FONTS, RANDOM, LINES = 100, 30, 200
GROUP = 5  # fonts of one test
LIMIT = 200  # steps of a line in a random font
SIZE_TEXTS = 400
LARGEST = 134217727  # sp
# The whole numbers below and above the largest size, for each unit.
LARGEST_NUMBERS = {"pt": (2046, 2049), "in": (27, 29), "pc": (169, 172), "cm": (70, 73), "mm": (717, 721),
                   "bp": (2039, 2042), "dd": (1912, 1916), "cc": (158, 161), "sp": (134217725, 134217729)}
SIZES = [None, None, None, None, 327680, 917511, 8519683]  # sp; None is the design size
LETTERS = b"ABCDEFGHIJKLMNOPQRSTUVWXYZabcdefghijklmnopqrstuvwxyz"


def random_lines(font, seed, most):
    """Random lines for a font."""
    chance, codes = random.Random(seed), [code for code in font.codes if code not in (10, 32)]
    missing = [code for code in range(256) if code not in codes and code not in (10, 32, font.right)]

    def word():
        """A walk over the characters, mostly along the instructions of the program."""
        found = [chance.choice(codes)]
        for _ in range(chance.randrange(most)):
            waits = [code for code in font.waits(found[-1]) if code in codes]
            found.append(chance.choice(waits if waits and chance.randrange(3) else codes))
        return found

    for turn in range(LINES):
        line = word()
        while turn % 2 and chance.randrange(4):
            line += [32] * chance.choice([1, 1, 1, 2]) + word()
        if turn % 6 == 5 and missing:
            line.insert(chance.randrange(len(line) + 1), chance.choice(missing))
        yield bytes([32] + line + [32] if turn % 20 == 3 else line)


def code_of(text):
    """The character in `\\f c`, or `\\f c (ligature ..)`."""
    text = text.split(" (ligature ")[0] if " (ligature " in text else text
    if text.startswith("^^") and len(text) > 2:
        return int(text[2:], 16) if len(text) == 4 else (ord(text[2]) + 64) % 128
    return ord(text)


def items_of_box(box):
    """The width and the items of a box. TeX prints points exactly."""
    def scaled_points(text):
        return round(float(text) * 65536)

    items = []
    for line in box[1:]:
        if line.startswith(".\\f "):
            items.append(("c", code_of(line[4:])))
        elif line.startswith(".\\kern"):
            items.append(("k", scaled_points(line[6:])))
        elif line.startswith(".\\glue "):
            items.append(("s", scaled_points(line[7:].split(" ")[0])))
        else:
            raise ValueError(f"in a box of TeX: {line!r}")
    return scaled_points(re.match(r"\\hbox\(.*\)x(-?[\d.]+)$", box[0]).group(1)), items


def box_of_box(box, skipped):
    """The width, height and depth of a box, as TeX prints them, the number of its spaces, and that of the bytes that TeX
    left out of it."""
    height, depth, width = re.match(r"\\hbox\((.*)\+(.*)\)x(.*)$", box[0]).groups()
    spaces = sum(line.startswith(".\\glue ") for line in box)
    return f"box {width}pt {height}pt {depth}pt {spaces} {skipped}"


def items_of_record(record):
    """The width and the items of a record, except for bytes that were skipped."""
    _, _, width, *fields = record.split(" ")
    return int(width), [(field[0], int(field[1:].split("=")[0])) for field in fields if field[0] in "cks"]


def random_sizes(seed):
    """Random numbers with a unit: of any number of digits, near the ends of the range, and near the numbers
    at which the rounding of a fraction changes."""
    chance = random.Random(seed)
    for turn in range(SIZE_TEXTS):
        whole = chance.choice(["", "0", str(chance.randrange(20)), str(chance.randrange(2100)),
                               str(chance.randrange(10 ** chance.randrange(1, 12))), "00012"])
        fraction = "".join(chance.choices("0123456789", k=chance.randrange(22)))
        if turn % 4 == 0:
            # An odd multiple of 2^-17 has 17 digits; below it the fraction is rounded downward.
            half = (2 * chance.randrange(1 << 16) + 1) * 5 ** 17
            fraction = chance.choice(["%017d" % half, "%017d" % (half - 1) + "9" * chance.randrange(5)])
        name = chance.choice("pt in pc cm mm bp dd cc sp".split())
        if turn % 8 == 1:
            least, most = LARGEST_NUMBERS[name]
            whole = str(chance.randrange(least, most + 1))
        if name == "sp" and turn % 3:
            whole = str(chance.randrange(1 << 28))
        yield whole + chance.choice(["." + fraction, "," + fraction, ""]) * bool(whole or fraction) + name


class Sizes(LibraryCase):
    """Sizes with a unit, as TeX reads them"""

    @rows((f"seed {seed}", seed) for seed in range(3))
    def test_sizes(self, seed):
        """The size is the dimension that TeX reads from the same text, if it is in the range."""
        self.need("tex")
        texts = [text for text in random_sizes(seed) if text[0] in "0123456789.,"]
        lines = (f"\\dimen0={text}\\relax \\message{{[\\number\\dimen0]}}\n" for text in texts)
        self.file("sizes.tex", "\\catcode123=1 \\catcode125=2 \\batchmode\n" + "".join(lines) + "\\end\n")
        env = environment(TEXINPUTS=".", max_print_line="100000")
        execute("tex", "-ini", "-interaction=batchmode", "sizes.tex", cwd=self.room, env=env, timeout=100)
        numbers = re.findall(r"\[(-?\d+)\]", read(os.path.join(self.room, "sizes.log")))
        self.same("numbers", len(texts), len(numbers))
        for text, number in zip(texts, map(int, numbers)):
            status, size = call(self.prefix, "size", text.encode(), result=U32(0))
            wanted = (DONE, number) if 1 <= number <= LARGEST else (RANGE, 0)
            self.same(text, wanted, (status, size.value))


class Listings(Case):
    """Fonts at a size, as TeX reads them"""

    def dimensions(self, font, size, codes, params):
        """The width, height and depth of each code, and the parameters, in scaled points."""
        boxes = (f"\\setbox0=\\hbox{{\\char{code}}}\\message{{[\\number\\wd0 ,\\number\\ht0 ,\\number\\dp0 ]}}\n"
                 for code in codes)
        fontdimens = (f"\\message{{[\\number\\fontdimen{number}\\f ]}}\n" for number in params)
        self.file("list.tex", "\\catcode123=1 \\catcode125=2 \\batchmode\n"
                  f"\\font\\f={font} at {size}\\relax \\f\n" + "".join((*boxes, *fontdimens)) + "\\end\n")
        env = environment(TEXINPUTS=".", max_print_line="100000")
        execute("tex", "-ini", "-interaction=batchmode", "list.tex", cwd=self.room, env=env, timeout=100)
        found = re.findall(r"\[([-\d,]+)\]", read(os.path.join(self.room, "list.log")))
        return [tuple(map(int, numbers.split(","))) for numbers in found]

    # Wrong definitions of the listing: at the design size; at a size without its fraction.
    @rows((f"{font} at {size}", font, size) for font in ("cmr10", "cmmi10", "cmex10")
          for size in ("12pt", "10.95pt", "4mm", "150pt", "1sp"))
    def test_sizes(self, font, size):
        """The dimensions of characters and the parameters of `list --size` are those of TeX."""
        self.need("tex", "kpsewhich", "cmr10")
        path = output("kpsewhich", font + ".tfm").strip()
        status, out, err = execute(PROGRAM, "list", "--size", size, path)
        self.same("exit status", (0, ""), (status, err))
        rows_of = [line.split() for line in out.splitlines()]
        # The box of a character has no negative height or depth.
        chars = {int(row[1]): (int(row[3]), max(int(row[5]), 0), max(int(row[7]), 0))
                 for row in rows_of if row[0] == "char"}
        # Parameter 1 is the slant, which isn't scaled.
        params = {int(row[1]): (int(row[2]),) for row in rows_of if row[0] == "param" and row[1] != "1"}
        wanted = self.dimensions(font, size, chars, params)
        self.same("dimensions", wanted, [*chars.values(), *params.values()])
        self.same("all", True, len(chars) == 128 and len(params) >= 5)


# The units of --unit except sp and pt, in points.
UNITS = {"bp": Fraction(7227, 7200), "mm": Fraction(7227, 2540), "cm": Fraction(7227, 254),
         "in": Fraction(7227, 100), "pc": Fraction(12)}


def amounts():
    """Amounts in sp: small ones, multiples of 2^-6 pt, halves of the fifth decimal in inches, and random ones."""
    chance = random.Random(7)
    chosen = [*range(-70, 70), *(1024 * n for n in range(64)), *(1850112 * n for n in range(-8, 9)), 65535, -65536,
              (1 << 24) - 1, -1 << 24]
    return chosen + [chance.randrange(-1 << chance.randrange(25), 1 << 24) for _ in range(6000 - len(chosen))]


def in_unit(amount, unit):
    """An amount in a unit of UNITS, with five decimals."""
    number = round(Fraction(abs(amount), 65536) / UNITS[unit] * 100000)
    return f"{'-' if amount < 0 and number else ''}{number // 100000}.{number % 100000:05}{unit}"


class Units(Case):
    """Amounts in units"""

    def kerns(self, size, unit):
        """The kerns of a font without characters, as they are listed at a size in a unit."""
        words = amounts()
        counts = 18 + len(words), 2, 1, 0, 1, 1, 1, 1, 0, len(words), 0, 6
        head = struct.pack(">12H6i", *counts, 0, 10 << 20, 0, 0, 0, 0)
        self.file("kerns.tfm", head + struct.pack(f">{len(words)}i6i", *words, *words[:6]))
        status, out, err = execute(PROGRAM, "list", "--size", size, "--unit", unit, "kerns.tfm", cwd=self.room)
        self.same(f"{size} in {unit}", (0, ""), (status, err))
        return [line.split()[2] for line in out.splitlines() if line.startswith("kern ")]

    # Wrong definitions: the fifth decimal is cut off; half of it is rounded to the even one; no minus sign.
    @rows((size, size) for size in ("16pt", "134217727sp"))
    def test_points(self, size):
        """An amount in pt is what \\the prints, if it is below 2^30 sp. At 16pt an amount is its word."""
        self.need("tex")
        numbers = list(map(int, self.kerns(size, "sp")))
        self.assertTrue(size != "16pt" or numbers == amounts())
        kept = [(number, text) for number, text in zip(numbers, self.kerns(size, "pt")) if abs(number) < 1 << 30]
        lines = (f"\\dimen0={number}sp\\relax \\message{{[\\the\\dimen0]}}\n" for number, _ in kept)
        self.file("points.tex", "\\catcode123=1 \\catcode125=2 \\batchmode\n" + "".join(lines) + "\\end\n")
        env = environment(TEXINPUTS=".", max_print_line="100000")
        execute("tex", "-ini", "-interaction=batchmode", "points.tex", cwd=self.room, env=env, timeout=100)
        found = re.findall(r"\[([^]]*pt)\]", read(os.path.join(self.room, "points.log")))
        self.same("in points", found, [text for _, text in kept])
        self.none([], len(found), 2000)

    @rows((unit, unit) for unit in UNITS)
    def test_others(self, unit):
        """In any other unit an amount has five decimals, and is rounded to the nearest, half to the even one."""
        for size in ("16pt", "134217727sp"):
            wanted = [in_unit(int(number), unit) for number in self.kerns(size, "sp")]
            self.same(f"at {size}", wanted, self.kerns(size, unit))


class Boxes(Case):
    """The boxes of TeX"""

    def setUp(self):
        super().setUp()
        self.need("tex", "kpsewhich", "cmr10")

    def records(self, size, lines, limit, *options):
        self.file("lines", b"\n".join(lines) + b"\n")
        options = [*options, "--missing", "skip", "--limit", str(limit)] + (["--size", str(size)] if size else [])
        status, out, err = execute(PROGRAM, "set", *options, "f.tfm", "lines", cwd=self.room, timeout=100)
        self.assertLess(status, 2, err)
        return out.split("\n")[:len(lines)]

    def boxes(self, size, lines):
        """The boxes of the lines, each a list of lines of the log."""
        text = (b"\\catcode123=1 \\catcode125=2 \\tracinglostchars=0 \\hbadness=10000 \\hfuzz=16383pt\n"
                b"\\newlinechar=-1 \\showboxbreadth=100000 \\showboxdepth=2 \\batchmode\n"
                b"\\font\\f=f%s\\relax \\f\n" % (b" at %dsp" % size if size else b""))
        for line in lines:
            codes = (b"%c" % c if c in LETTERS else b"\\ " if c == 32 else b"\\char%d " % c for c in line)
            text += b"\\setbox0=\\hbox{%s}\\showbox0\n" % b"".join(codes)
        self.file("boxes.tex", text + b"\\end\n")
        env = environment(TFMFONTS=".", TEXINPUTS=".", max_print_line="100000", buf_size="1000000")
        execute("tex", "-ini", "-interaction=batchmode", "boxes.tex", cwd=self.room, env=env, timeout=100)
        log = read(os.path.join(self.room, "boxes.log"), "rb").decode("latin-1")
        return [box.split("\n\n")[0].split("\n") for box in log.split("> \\box0=\n")[1:]]

    def compare(self, name, content, seed, size, most, limit):
        """Compares all lines for a font, and returns the number of ligatures."""
        self.file("f.tfm", content)
        font = Font(content)
        lines = list(random_lines(font, seed, most))
        records = self.records(size, lines, limit)
        boxed = self.records(size, lines, limit, "--record", "box", "--unit", "pt")
        kept = [row for row in zip(lines, records, boxed) if " refused steps " not in row[1]]
        self.same(f"{name}: refused lines", [record for record in records if " refused steps " in record],
                  [record for record in boxed if " refused steps " in record])
        boxes = self.boxes(size, [line for line, _, _ in kept])
        self.same(f"{name}: boxes", len(kept), len(boxes))
        for (line, record, boxed), box in zip(kept, boxes):
            self.same(f"{name}: {line!r}", items_of_box(box), items_of_record(record))
            skipped = sum(code != 32 and code not in font.codes for code in line)
            self.same(f"{name}: the box of {line!r}", box_of_box(box, skipped), boxed.split(" ", 1)[1])
        return sum(" (ligature " in line for box in boxes for line in box)

    @rows((f"fonts {first + 1} to {first + GROUP}", range(first, first + GROUP))
          for first in range(0, FONTS, GROUP))
    def test_fonts(self, numbers):
        """Fonts of TeX, at their design size and at others."""
        chosen = [(path, content) for path, content in fonts() if len(Font(content).codes) >= 20]
        for number in numbers:
            path, content = chosen[number * len(chosen) // FONTS]
            self.compare(path, content, number, SIZES[number % len(SIZES)], 8, 16777216)

    @rows((f"random fonts {first + 1} to {first + GROUP}", range(first, first + GROUP))
          for first in range(0, RANDOM, GROUP))
    def test_random(self, numbers):
        """Random fonts with all operations and both boundaries."""
        chosen = [(seed, random_font(random.Random(seed))) for seed in numbers]
        ligatures = [self.compare(f"random font {seed}", font, seed, None, 5, LIMIT) for seed, font in chosen]
        self.none([], sum(ligatures), 500)
