"""Encoding vectors: `--encoding FILE`, C and Python, compared with a reader of the same files in Python.

The encoding files of TeX on the machine are read, and texts with one thing wrong. The reader in Python has the
rules of docs/ERRORS.md; the characters of glyphs are those that the test `glyph_names` compares with the Adobe
Glyph List. A page in German has the same records with the file for T1 as with the name. In C and Python each character
has the codes and the record of the program.
"""
import glob
import os
import re

import glyph_names
from lib import clib
from lib.base import PROGRAM, Case, execute, output, read, rows
from lib.tfm import sample
from library_lines import LinesCase

MOST_BYTES = 65536
ENDS = rb"\r\n|\r|\n"
TOKEN = re.compile(rb"%[^\r\n]*|[\0\t\n\f\r ]+|(/?[^\0\t\n\f\r ()<>\[\]{}/%]+|[()<>\[\]{}/])")
NUMBER = re.compile(r"uni(?P<four>[0-9A-F]{4})|u(?P<more>[0-9A-F]{4,6})")
NAME, OPEN, CLOSE, DEF = rb"/[^/]+", rb"\[", rb"\]", rb"def"
FORM = [NAME, OPEN, *[NAME] * 256, CLOSE, DEF]
# The codes that a line never has: a line feed, and the space, which separates words.
NEVER = (10, 32)
# The codes of characters that are set alike with every vector, and characters that are set as others.
FIXED = {0x20: b" ", 0xA0: b" ", 0xAD: b""}
SUBSTITUTES = {0x27: 0x2019, 0x60: 0x2018, 0x2010: 0x2D, 0x2011: 0x2D, 0x2012: 0x2013, 0x2015: 0x2014}
PLAIN = [f"/g{code}" for code in range(256)]


def line_of(text, offset):
    """The number of the line with the byte at this offset."""
    return len(re.findall(ENDS, text[:offset])) + 1


def character_of(glyphs, name):
    """The character of a glyph, or None."""
    found = NUMBER.fullmatch(name)
    if not found:
        return glyphs.get(name)
    number = int(found["four"] or found["more"], 16)
    return number if number < 0x110000 and not 0xD800 <= number < 0xE000 else None


def read_vector(text, glyphs):
    """The characters of the 256 codes, or the number of the line that isn't one of an encoding vector."""
    if len(text) > MOST_BYTES:
        return line_of(text, MOST_BYTES)
    tokens = [(found.start(), found[1]) for found in TOKEN.finditer(text) if found[1]]
    for form, (offset, token) in zip(FORM, tokens):
        if not re.fullmatch(form, token, re.S):
            return line_of(text, offset)
    if len(tokens) < len(FORM):
        return line_of(text, len(text))
    return [character_of(glyphs, token[1:].decode("latin-1")) for _, token in tokens[2:258]]


def codes_of(vector, number):
    """The codes of a character in a vector, or None."""
    if number in FIXED:
        return FIXED[number]
    order = number, SUBSTITUTES.get(number, number)
    for wanted in reversed(order) if number in (0x27, 0x60) else order:
        codes = [code for code, each in enumerate(vector) if each == wanted and code not in NEVER]
        if codes:
            return bytes([wanted if wanted in codes else codes[0]])
    return None


def vector_text(names=PLAIN, end="] def\n", between="\n"):
    """The text of a vector with these names."""
    return ("/Vector [" + between + between.join(names) + between + end).encode()


def names_at(**glyphs):
    """The names of the 256 codes: these glyphs, each with its code, and `.notdef` at the other codes."""
    found = {code: name for name, code in glyphs.items()}
    return ["/" + found.get(code, ".notdef") for code in range(256)]


# Texts that aren't vectors.
REFUSED = (
    ("no byte", b""),
    ("only a comment", b"% nothing\n% here"),
    ("255 names", vector_text(PLAIN[1:])),
    ("257 names", vector_text(["/more", *PLAIN])),
    ("no bracket before the names", vector_text().replace(b"[", b"")),
    ("no name of the vector", vector_text().replace(b"/Vector", b"")),
    ("a vector that is no name", vector_text().replace(b"/Vector", b"Vector")),
    ("no bracket after the names", vector_text(end="def")),
    ("no def", vector_text(end="]")),
    ("another word than def", vector_text(end="] define")),
    ("def behind a comment", vector_text(end="] % def\n")),
    ("a word among the names", vector_text([*PLAIN[:99], "g", *PLAIN[100:]])),
    ("an empty name", vector_text([*PLAIN[:99], "/", *PLAIN[100:]])),
    ("a name in parentheses", vector_text([*PLAIN[:99], "(g)", *PLAIN[100:]])),
    ("a brace", vector_text([*PLAIN[:99], "/g{}", *PLAIN[100:]])),
    ("a bracket more", vector_text([*PLAIN[:99], "[", *PLAIN[100:]])),
    # A wrong definition of encoding_vectors: one of these bytes is a regular character.
    *((f"{byte} behind a name", vector_text([*PLAIN[:99], "/g" + byte, *PLAIN[100:]])) for byte in "()<>[]{}"),
    ("CR", vector_text(PLAIN[1:], between="\r")),
    ("CR LF", vector_text(PLAIN[1:], between="\r\n")),
    ("LF CR", vector_text(PLAIN[1:], between="\n\r")),
    ("one byte too long", vector_text() + b"%" * (MOST_BYTES + 1 - len(vector_text()))),
    ("a line feed too long", vector_text() + b"\n" * (MOST_BYTES + 1 - len(vector_text()))),
    ("too long and wrong", b"wrong\n" + b" " * MOST_BYTES),
    ("much too long", b"/" + b"x\n" * 200000))

# Texts that are vectors.
ACCEPTED = (
    ("as long as it may be", vector_text() + b"%" * (MOST_BYTES - len(vector_text()))),
    ("all on one line", vector_text(between=" ")),
    ("nothing between names", vector_text(between="")),
    ("comments", vector_text(between=" % [ /x ] def\n")),
    ("white space", vector_text(between="\0\t\f\r")),
    ("more after def", vector_text(end="]def ( /x")),
    # A wrong definition of encoding_vectors: a vertical tab is white space.
    ("a vertical tab in a name", vector_text(names_at(A=200)).replace(b"/A\n", b"/A\x0b\n")),
    ("names of all kinds", vector_text(names_at(A=200, B=20, uni00A0=7, u1F600=8, u01F600=9, uniD800=11, uni20ac=12,
                                                u20AC=13, ff=14, sfthyphen=15, space=16, C=10, D=32, u110000=17,
                                                uni0041=255, E=0, F=1))),
    ("the no-break space and the soft hyphen", vector_text(names_at(nbspace=160, softhyphen=173))),
    ("quotation marks, hyphens and dashes", vector_text(names_at(
        quoteright=39, quoteleft=96, hyphen=45, endash=21, emdash=22))),
    ("these, and characters that are set as them", vector_text(names_at(
        quotesingle=13, grave=18, hyphentwo=1, uni2011=2, figuredash=3, horizontalbar=4, quoteright=39,
        quoteleft=96, hyphen=45, endash=21, emdash=22))),
    ("only characters that are set as others", vector_text(names_at(
        quotesingle=39, grave=96, uni2010=45, uni2012=21, uni2015=22))))


def files():
    """The encoding files of TeX on the machine."""
    tops = execute("kpsewhich", "--var-value=TEXMFDIST")[1].split() + ["/usr/share/texmf", "/usr/share/texlive"]
    found = {os.path.realpath(path) for top in tops for path in glob.glob(top + "/**/*.enc", recursive=True)}
    return sorted(found)


class Vectors(Case):
    """Encoding vectors"""

    # The prover rejects a body that isn't as defined. Wrong definitions that this rejects: the highest code of a
    # character; the space at the code of its name; a line counted from 0.

    def seen(self, path, numbers):
        """The codes that each of these characters has with the encoding in this file, or None, by the records of
        lines that it alone makes; or, if the file is refused, the line that is printed."""
        font, lines = self.file("font", sample("no_characters")), "\n".join(map(chr, numbers))
        given = ("_\n" + lines).encode()
        words = ["stream", "--missing", "skip", "--encoding", path, font]
        status, out, err = execute(PROGRAM, *words, given=given)
        if status == 3:
            self.same("output", "", out)
            return int(re.fullmatch(r"tfmset: encoding refused: line (\d+)\n", err)[1])
        self.same("status and messages", (0, ""), (status, err))
        records = out.splitlines()[1:-1]
        self.same("records", len(numbers), len(records))
        items = [record.split()[3:] for record in records]
        return [None if any(item[0] == "u" for item in its) else
                bytes(32 if item[0] == "s" else int(item[1:]) for item in its) for its in items]

    def compare(self, path):
        """Compares a file with the reader in Python, and returns the number of characters that have codes."""
        glyphs = dict(glyph_names.glyphs())
        with open(path, "rb") as file:
            vector = read_vector(file.read(), glyphs)
        numbers = {*glyphs.values(), *range(0x20, 0x250), *SUBSTITUTES}
        numbers |= {number for number in vector if number} if isinstance(vector, list) else set()
        numbers = sorted(numbers - {0xFEFF, *range(0x20)})
        seen = self.seen(path, numbers)
        if isinstance(vector, int):
            self.same(path, vector, seen)
            return 0
        wanted = [codes_of(vector, number) for number in numbers]
        for number, codes, found in zip(numbers, wanted, seen):
            self.same(f"{path} U+{number:04X}", codes, found)
        return sum(codes is not None for codes in wanted)

    def test_files_of_tex(self):
        """Each encoding file of TeX on the machine is read as by the reader in Python."""
        self.need("kpsewhich")
        found = files()
        if not found:
            self.lack("ec.enc")
        counts = [self.compare(path) for path in found]
        self.none([], sum(count > 90 for count in counts), len(found) // 3)

    @rows(REFUSED)
    def test_refused(self, text):
        """A text that isn't a vector is refused, with the line of the reader in Python."""
        path, wanted = self.file("x.enc", text), read_vector(text, {})
        self.same("a line", int, type(wanted))
        self.same("line", wanted, self.seen(path, [0x41]))

    @rows(ACCEPTED)
    def test_accepted(self, text):
        """A vector is read as by the reader in Python."""
        self.same("a list", list, type(read_vector(text, {})))
        self.none([], self.compare(self.file("x.enc", text)), 1)

    # Mutant of `read_encoding` in tfm_requests: the file is read twice.
    def test_standard_input(self):
        """A vector is read once, so that it can come from standard input."""
        font = self.file("font", sample("no_characters"))
        for command, out in (("stream", "1 end complete 0\n"), ("pairs", "")):
            seen = execute(PROGRAM, command, "--encoding", "/dev/stdin", font, given=vector_text())
            self.same(command, (0, out, ""), seen)

    @rows((file, file, font) for file, font in (("ec.enc", "ecrm1000"), ("lm-ec.enc", "ec-lmr10")))
    def test_page(self, file, font):
        """The lines of a page in German have the same records with the file as with the name."""
        self.need("kpsewhich")
        vector, metric = (execute("kpsewhich", each)[1].strip() for each in (file, font + ".tfm"))
        if not vector or not metric:
            self.lack(file)
        page = read("checks/cases/encodings/german.txt", "rb")
        for command, *others in (["stream"], ["set", "/dev/stdin"], ["stream", "--record", "json"]):
            options, files = ([], others) if command == "set" else (others, [])
            wanted, seen = (output(PROGRAM, command, *options, "--encoding", encoding, metric, *files, given=page)
                            for encoding in ("t1", vector))
            self.same(command, wanted, seen)
            self.none([], len(wanted.splitlines()), 12)


class InTheLibrary(LinesCase):
    """Encoding vectors in C and Python"""

    # Wrong bodies of tfmset_c that this rejects: a vector without its name; the encoding of a vector is bytes.

    @rows((title, text) for title, text in ACCEPTED if "all kinds" in title or "hyphens" in title)
    def test_every_character(self, text):
        """The records and the codes of each character are those of the program."""
        lines = "".join(f"{chr(number)}\n" for number in range(0x110000) if not 0xD800 <= number < 0xE000)
        path, name = self.file("x.enc", text), self.file("font", sample("no_characters"))
        words = "stream", "--missing", "skip", "--encoding", path, name
        wanted = output(PROGRAM, *words, given=lines.encode()).splitlines(keepends=True)[:-1]
        font = self.tfmset.Font(sample("no_characters"))
        seen = font.records(lines, missing="skip", encoding=text)
        self.same("records", True, "".join(wanted).encode() == seen)
        items = (item for record in wanted for item in (*record.split()[3:], "m10"))
        codes = bytes(32 if item[0] == "s" else int(item[1:]) for item in items if item[0] != "u")
        self.same("codes", True, codes == self.tfmset.encode(lines, text, "skip"))
        demo = self.tfmset.Font(sample("demo"))
        for call in demo.widths, lambda *given, **more: bytes(demo.set(*given, **more).items):
            self.same("widths", True, call(lines, missing="skip", encoding=bytearray(text)) == call(codes, missing="skip"))

    @rows(ACCEPTED)
    def test_codes(self, text):
        """The codes, their offsets and the characters without codes are those of the reader in Python."""
        vector, place = read_vector(text, dict(glyph_names.glyphs())), 0
        codes, offsets, uncoded = b"", [], []
        numbers = [*range(0x20, 0x180), *SUBSTITUTES, 0xFB01, 0x1F600]
        for number in numbers:
            made = codes_of(vector, number)
            codes, offsets = codes + (made or b""), offsets + [place] * len(made or b"")
            uncoded += [(place, number)] if made is None else []
            place += len(chr(number).encode())
        given = "".join(map(chr, numbers)).encode()
        seen = clib.encode(self.prefix, text.decode("latin-1"), given, len(codes), len(codes), len(uncoded))
        self.same("lists", (clib.DONE, (codes, offsets, uncoded), (len(codes), len(uncoded), 0)), seen)

    @rows(REFUSED)
    def test_refused(self, text):
        """A text that isn't a vector is out of range."""
        seen = clib.encode(self.prefix, text.decode("latin-1"), b"a", 9, 9, 9)
        self.same("tfmset_encode", (clib.RANGE, None, (9, 9, 9)), seen)
        font = self.tfmset.Font(sample("demo"))
        for call in (lambda: self.tfmset.encode("a", text), lambda: font.widths("a", encoding=text),
                     lambda: font.records("a", encoding=text)):
            with self.assertRaisesRegex(ValueError, "not those of an encoding vector"):
                call()
