"""The encodings of lines in UTF-8, compared with LaTeX, with an encoding file of dvips and with Python.

The program and LaTeX, with its packages inputenc and fontenc, set each character that one of them knows, alone and
between two letters, in a font that is made here. In this font a kern precedes each character and ends each run, so
that a box shows how its characters were joined. If LaTeX's boxes have only characters, kerns and spaces of this font,
the items have to be the same, and otherwise the character has to be uncoded. With an encoding vector only the
characters are compared that LaTeX sets with at most one code. The exceptions are the rows of a table in docs/TEX.md.
LaTeX's definition of LY1 is in a large package: an encoding file names the glyph at each code.
"""
import fnmatch
import glob
import itertools
import os
import random
import re
import unicodedata

from lib.base import PROGRAM, Case, environment, execute, output, read, rows
from lib.clib import DONE, NO_ROOM, RANGE, encode
from lib.tfm import make, sample
from library_lines import LinesCase

WEIGHT = 4
NOT_UTF8 = 5
NAMES = ("ot1", "t1", "ly1", "latin1")
# The values of --encoding that are compared with each encoding of LaTeX.
VALUES = {"T1": "t1 ec.enc lm-ec.enc", "OT1": "ot1 7t.enc lm-rm.enc", "L7x": "lm-l7x.enc latin7x.enc",
          "QX": "lm-qx.enc qx.enc", "T5": "lm-t5.enc"}
PAGES = (("german", "T1", "ecrm1000"), ("french", "T1", "ecrm1000"), ("czech", "T1", "ecrm1000"),
         ("polish", "T1", "ecrm1000"), ("english", "OT1", "cmr10"))
# ASCII characters that LaTeX reads as commands. It is given all others as they are. \\$ itself would end a run.
COMMANDS = str.maketrans({
    "#": r"\#", "$": r"\textdollar ", "%": r"\%", "&": r"\&", "\\": r"\textbackslash ", "^": r"\textasciicircum ",
    "_": r"\textunderscore ", "{": r"\textbraceleft ", "}": r"\textbraceright ", "~": r"\textasciitilde "})
# \accent is an error here, since it moves an accent over a letter. Without a letter it sets a character that isn't part
# of a run.
PREAMBLE = r"""\DeclareFontFamily{%(name)s}{made}{}\DeclareFontShape{%(name)s}{made}{m}{n}{<-> made}{}
\renewcommand\rmdefault{made}\let\alone\accent\def\accent{\errmessage{accent}}
\expandafter\def\csname add@accent\endcsname#1#2{\ifx\relax#2\relax{\alone#1 }\else\accent\fi}
"""
SPACE, RIGHT = 333 << 10, 24  # parameter 2 and the right boundary's code in the font that is made
# Several characters, among them soft hyphens and non-breaking hyphens.
SEVERAL = ("\u00ad\u00ad", "\u2011\u2011", "-\u2011-", "\u00ad\u2011\u00ad", "\u00ad \u00ad", "\u2011 \u2011", "x\u00ady")
DECLARED = re.compile(r"^\s*\\DeclareUnicodeCharacter\{(\w+)\}", re.M)
# In LY1: characters that have the code of another one, those that are built of others, and names of glyphs that the
# Adobe Glyph List lacks. Accents without a letter may have no codes, and the non-joiner (Cf) is at code 10.
ACCENTS = ("Cf", "Lm", "Sk")
# Characters that LaTeX takes from the encoding TS1, although LY1 has their glyphs.
COMPANIONS = "¬±×÷"
SET_AS = {"'": "’", "`": "‘", "\u00a0": " ", "ˆ": "^", "˜": "~", "‐": "-", "‑": "-", "‒": "–", "―": "—"}
BUILT = {"ẞ": "SS", "\u00ad": ""}
GLYPHS = {"dotlessj": "ȷ", "one.superior": "¹", "two.superior": "²", "three.superior": "³"}


def latex(case, encoding, preamble, body):
    """Runs LaTeX on the body of a document in this encoding, and returns its log."""
    source = (f"\\documentclass{{article}}\\usepackage[{encoding}]{{fontenc}}\\usepackage[utf8]{{inputenc}}\n{preamble}"
              "\\begin{document}\\newlinechar=-1 \\showboxbreadth=1000 \\showboxdepth=5 \\frenchspacing\n"
              f"{body}\\end{{document}}\n")
    case.file("boxes.tex", source.encode())
    execute("latex", "-interaction=batchmode", "boxes.tex", cwd=case.room, timeout=300,
            env=environment(max_print_line="100000", TEXMFVAR=case.room))
    return read(os.path.join(case.room, "boxes.log"), "rb").decode("latin-1")


def made_font():
    """A font with all characters. Before each of them is a kern that depends on its code, and after the last one of a
    run another one; x and y are a ligature."""
    infos = [(1 + code % 255, 0, 1, 1 if code == ord("x") else 2) for code in range(256)]
    kerns = [(128 * (code == 255), code, 128, code) for code in range(256)]
    program = [(255, RIGHT, 0, 0), (0, ord("y"), 0, 28), *kerns, (255, 0, 0, 2)]
    widths, amounts = range(1 << 18, 511 << 10, 1 << 10), range(1 << 12, 257 << 12, 1 << 12)
    return make(infos, (0, *widths), program, amounts, (0, SPACE), first=0)


def declared(name):
    """The characters that LaTeX knows: those of ASCII, and those that its files and that of an encoding declare."""
    top = os.path.dirname(output("kpsewhich", "utf8enc.dfu").strip())
    found = set(map(chr, range(32, 127)))
    for path in glob.glob(top + "/*.dfu") + execute("kpsewhich", f"{name.lower()}enc.dfu")[1].split():
        found |= {chr(int(number, 16)) for number in DECLARED.findall(read(path, "rb").decode("latin-1"))}
    return found


def exceptions(value):
    """The characters in the rows of docs/TEX.md that name a value of --encoding."""
    listed = re.findall(r"^\| (.+?) \| (`.+?`) \|", read("docs/TEX.md"), re.M)
    return {chr(int(number, 16)) for characters, values in listed for number in re.findall(r"U\+(\w+)", characters)
            if any(fnmatch.fnmatch(value, each) for each in re.findall("`(.+?)`", values))}


def code_of(shown):
    """The code of a character of a box."""
    if shown.startswith("^^") and len(shown) > 2:
        return int(shown[2:], 16) if len(shown) == 4 else (ord(shown[2]) + 64) % 128
    return ord(shown)


def set_in_box(box, encoding):
    """The width and the items of a box, or None if it has anything but characters, kerns and spaces of the font,
    penalties, \\- and boxes that have nothing else. TeX prints points exactly."""
    def scaled_points(text):
        return round(float(text) * 65536)

    first, *lines = box.split("\n")
    items, inside = [], False
    for line in lines:
        inside = line == ".\\discretionary" or inside and line.startswith("..")
        found = re.fullmatch(rf"\.+\\(?:{encoding}/made/m/n/10 (?P<c>[^ ]+| )(?: \(ligature .*\))?|kern(?P<k>-?[\d.]+)"
                             r"|glue (?:0\.0|(?P<s>[\d.]+))|penalty .*|hbox\([^)]*\)x[\d.]+)", line)
        if not inside and (not found or found["s"] and scaled_points(found["s"]) != SPACE * 10 >> 4):
            return None
        for kind in "cks" if not inside else "":
            if found[kind]:
                items.append(f"{kind}{code_of(found[kind]) if kind == 'c' else scaled_points(found[kind])}")
    return scaled_points(first.rpartition("x")[2]), items


def set_in_boxes(case, encoding, texts):
    """The width and the items of LaTeX's boxes, or None for each that isn't made of the font alone."""
    body = "".join(f"\\setbox0=\\hbox{{{text.translate(COMMANDS)}}}\\showbox0\\setbox1=\\vbox{{\\leavevmode\\par}}\n"
                   for text in texts)
    log = latex(case, encoding, PREAMBLE % {"name": encoding}, "\\batchmode\n" + body)
    log = log.replace("/made/m/n/10 \n\n", "/made/m/n/10 ^^J\n")  # TeX prints the line feed itself.
    parts = re.split(r"^> \\box0=\n", log, flags=re.M)
    case.same("boxes", len(texts) + 1, len(parts))
    return [None if re.search("^! (?!OK)", before, re.M) else set_in_box(part.split("\n\n! OK")[0], encoding)
            for before, part in zip(parts, parts[1:])]


def pairs(found):
    """The results of the two texts of each character, or None if it was uncoded."""
    return [None if None in pair else pair for pair in zip(found[::2], found[1::2])]


def set_by_program(value, font, texts):
    """The width and the items of each text, or None if it has an uncoded character."""
    out = output(PROGRAM, "stream", "--missing", "skip", "--encoding", value, font,
                 given="".join(text + "\n" for text in texts).encode())
    fields = [None if " u" in record else re.sub(r"=\d+", "", record).split()[2:] for record in out.splitlines()[:-1]]
    return [found and (int(found[0]), found[1:]) for found in fields]


def table(case, value):
    """The characters that have codes, each with its codes: those of a line that it alone makes."""
    letters = [chr(number) for number in range(0x110000) if number != 10 and not 0xD800 <= number < 0xE000]
    lines = set_by_program(value, case.file("font", sample("no_characters")), letters)
    case.same("lines", len(letters), len(lines))
    return {letter: bytes(32 if item[0] == "s" else int(item[1:]) for item in line[1])
            for letter, line in zip(letters, lines) if line}


class Characters(Case):
    """Characters in each encoding"""

    @rows((name, name, values.split()) for name, values in VALUES.items())
    def test_latex(self, name, values):
        """Each character is set as in LaTeX's boxes, or is uncoded."""
        self.need("latex", "kpsewhich", "cmr10", f"{name.lower()}enc.def")
        font = self.file("made.tfm", made_font())
        # LaTeX leaves out U+FEFF everywhere, and not only at the beginning of a file.
        letters = declared(name).union(*(table(self, value) for value in values if value in NAMES)) - {"\ufeff"}
        letters = [*sorted(letters), *SEVERAL]
        texts = [text for letter in letters for text in (letter, f"x{letter}y")]
        boxes = pairs(set_in_boxes(self, name, texts))
        self.none([], sum(pair is not None for pair in boxes), 120)
        for value in values:
            path = value if value in NAMES else output("kpsewhich", value).strip()
            listed, found = exceptions(value), pairs(set_by_program(path, font, texts))
            for letter, wanted, seen in zip(letters, boxes, found):
                is_compared = wanted and sum(item[0] == "c" for item in wanted[0][1]) < 2
                if (is_compared or value in NAMES) and (wanted == seen) == (letter in listed):
                    what = "an exception" if letter in listed else f"{seen} instead of {wanted}"
                    self.wrong.append(f"{value} {letter} {ascii(letter)}: {what}")

    def test_ly1(self):
        """LY1 has the characters at the codes of an encoding file, and those that LaTeX declares for it."""
        self.need("kpsewhich", "latex")
        codes_of, letters = table(self, "ly1"), dict(GLYPHS)
        for glyph, number in re.findall(r"^(\w+);(\w+)\s*$", read(output("kpsewhich", "glyphlist.txt").strip()), re.M):
            letters.setdefault(glyph, chr(int(number, 16)))
        names = re.sub("%.*", "", read(output("kpsewhich", "lm-texnansi.enc").strip(), "rb").decode("latin-1"))
        names = re.findall(r"/([\w.]+)", names[names.index("["):])
        glyphs = [letters.get(name.removesuffix(".dup")) for name in names]
        for letter, codes in codes_of.items():
            built = BUILT.get(letter, unicodedata.normalize("NFKC", letter))
            wanted = b"".join(codes_of[each] for each in built) if len(codes) != 1 else codes
            same = len(codes) != 1 or codes == b" " or glyphs[codes[0]] in (letter, SET_AS.get(letter))
            self.same(f"{letter!r}", (wanted, True), (codes, same))
        text = read(output("kpsewhich", "ly1enc.dfu").strip(), "rb").decode("latin-1")
        whole = [letter for letter in declared("LY1") & set(glyphs)
                 if unicodedata.category(letter) not in ACCENTS and letter not in COMPANIONS]
        for letter in whole + [chr(int(number, 16)) for number in DECLARED.findall(text)]:
            is_built = len(unicodedata.normalize("NFD", letter)) > 1 and letter not in glyphs
            self.same(f"{letter!r} has codes", not is_built, letter in codes_of)
        self.none([], len(whole), 190)

    def test_latin1(self):
        """The codes of Latin 1 are those of Python's codec, except that the soft hyphen vanishes."""
        wanted = {letter: letter.encode("latin-1") for letter in map(chr, range(256)) if letter != "\n"}
        wanted |= {"\u00a0": b" ", "\u00ad": b""}
        self.same("latin1", wanted, table(self, "latin1"))


class Pages(LinesCase):
    """Widths of pages"""

    @rows((name, name, font, metric) for name, font, metric in PAGES)
    def test_page(self, name, font, metric):
        """The lines of a page have the widths of LaTeX's boxes, in the module, in its records and in the program."""
        self.need("latex", "kpsewhich", "cmr10")
        text = read(f"checks/cases/encodings/{name}.txt", "rb").decode()
        body = "".join(f"\\setbox0=\\hbox{{{line}}}\\message{{[\\number\\wd0]}}\n"
                       for line in text.splitlines())
        wanted = [int(number) for number in re.findall(r"\[(\d+)\]", latex(self, font, "", body))]
        self.none([], len(wanted), 12)
        path = execute("kpsewhich", metric + ".tfm")[1].strip()
        found, encoding = self.tfmset.Font.from_file(path), font.lower()
        self.same("widths", wanted, found.widths(text, encoding=encoding))
        self.same("lines", wanted, [line.width for line in found.set(text, encoding=encoding)])
        records = found.records(text, encoding=encoding).decode().splitlines()
        self.same("records", wanted, [int(record.split()[2]) for record in records])
        codes = self.tfmset.encode(text, encoding)
        self.same("codes", wanted, found.widths(codes))
        out = output(PROGRAM, "stream", "--encoding", encoding, path, given=text.encode())
        self.same("program", wanted, [int(record.split()[2]) for record in out.splitlines()[:-1]])
        page = self.file(f"{name}.txt", text.encode())
        for version, options in ((3, ("--record", "json", "--crlf")), (1, ("--block", "3", "--workers", "3"))):
            seen = output(PROGRAM, "set", "--encoding", encoding, *options, path, page).splitlines()[:-1]
            records = found.records(text, encoding=encoding, version=version).decode()
            self.same(f"records {options}", records.splitlines(), seen)


def encoded(codes_of, text):
    """The result of tfmset_encode for the bytes of a text, where the characters of a dictionary have these codes: its
    code, its lists, and the fields of its last argument."""
    try:
        letters = text.decode()
    except UnicodeDecodeError as error:
        return NOT_UTF8, None, (0, 0, error.start)
    codes, offsets, uncoded, place = b"", [], [], 0
    for letter in letters:
        made = b"\n" if letter == "\n" else b"" if letter == "\ufeff" and place == 0 else codes_of.get(letter)
        if made is None:
            uncoded.append((place, ord(letter)))
        codes, offsets = codes + (made or b""), offsets + [place] * len(made or b"")
        place += len(letter.encode())
    return DONE, (codes, offsets, uncoded), (len(codes), len(uncoded), 0)


class Calls(LinesCase):
    """Calls of tfmset_encode"""

    def test_codes_and_rooms(self):
        """Codes, offsets and characters without codes, in arrays with more room, just enough and too little."""
        for name, text, *wanted in (
                ("t1", "Straße – ä\n", b"Stra\xffe \x15 \xe4\n", [0, 1, 2, 3, 4, 6, 7, 8, 11, 12, 14], []),
                ("ot1", "¡“ﬁ”!", b"!`\\fi\"!", [0, 0, 2, 5, 5, 8, 11], []), ("bytes", "ä\n", b"\xc3\xa4\n", [0, 1, 2], []),
                ("ly1", "€\u00ad5", b"\x015", [0, 5], []), ("latin1", "", b"", [], []),
                ("t1", "\ufeffa\n\u00a0", b"a\n ", [3, 4, 5], []), ("ot1", "ﬃ‘", b"ffi`", [0, 0, 0, 3], []),
                ("ot1", '"<>|', b'"<>|', [0, 1, 2, 3], []), ("ly1", "x˙", b"x\5", [0, 1], []),
                ("t1", "a€\n€b\ufeff", b"a\nb", [0, 4, 8], [(1, 0x20AC), (5, 0x20AC), (9, 0xFEFF)]),
                ("ot1", "a\\b", b"ab", [0, 2], [(1, 92)]), ("latin1", "\U0001f600", b"", [], [(0, 0x1F600)])):
            count, missing = len(wanted[0]), len(wanted[2])
            for rooms in itertools.product(*({0, max(n - 1, 0), n, n + 3} for n in (count, count, missing))):
                status, lists, report = encode(self.prefix, name, text.encode(), *rooms)
                enough = count <= rooms[0] and rooms[1] in (0, *range(count, count + 4)) and missing <= rooms[2]
                self.same(f"{name} {text!r} {rooms}", (NO_ROOM, DONE)[enough], status)
                self.same(f"{name} {text!r} {rooms}: report", (count, missing, 0), report)
                if enough:
                    lines = wanted[0], wanted[1] if rooms[1] else [], wanted[2]
                    self.same(f"{name} {text!r} {rooms}: lists", lines, lists)
        for name, text, status, report in (
                ("t1", b"a\xc3\xa4\xff", NOT_UTF8, (0, 0, 3)), ("t1", b"\xe2\x82\xac\xed\xa0\x80", NOT_UTF8, (0, 0, 3)),
                ("Ot1", b"a", RANGE, (9, 9, 9)), ("", b"a", RANGE, (9, 9, 9)), ("t1\0", b"a", RANGE, (9, 9, 9)),
                ("t\xff", b"a", RANGE, (9, 9, 9))):
            self.same(f"{name} {text}", (status, None, report), encode(self.prefix, name, text, 9, 9, 9))

    @rows((name, name) for name in NAMES)
    def test_characters(self, name):
        """Each character has the codes of a line that it alone makes, alone and in texts of several, also damaged ones."""
        codes_of = table(self, name)
        others = [letter for letter in map(chr, (*range(11, 0xD800, 13), *range(0xE000, 0x110000, 997)))
                  if letter not in codes_of and letter != "\ufeff"]
        for letter in (*codes_of, *others):
            text = letter.encode()
            self.same(f"{letter!r}", encoded(codes_of, text), encode(self.prefix, name, text, 4, 4, 1))
        chance = random.Random(name)
        groups = ([chr(n) for n in range(128)], "office \n", list(codes_of), [*others, "\ufeff", "\u00ad", "\n"])
        for turn in range(2000):
            letters = (chance.choice(chance.choices(groups, (8, 8, 3, 1))[0]) for _ in range(chance.randrange(60)))
            text = bytearray("".join(letters).encode())
            if text and turn % 4 == 0:
                text[chance.randrange(len(text))] = chance.randrange(256)
            seen = encode(self.prefix, name, bytes(text), *[len(text)] * 3)
            wanted = encoded(codes_of, bytes(text))
            self.same(f"{bytes(text)}", wanted, seen)
