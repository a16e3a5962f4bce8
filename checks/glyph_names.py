"""The characters of glyphs in `encoding_vectors`, compared with the Adobe Glyph List and with `encodings`.

The rows of the list (list.rt) are those of glyphlist.txt, as far as a name has one character, with names of TeX that
glyphlist.txt lacks, or gives another character. The names in the files for OT1, T1 and LY1 have the characters of
the tables of `encodings` at the same codes. That a name has the digits of the list's row is proved.
"""
import re

from lib.base import Case, execute, read, rows

LIST = "crates/encoding_vectors/src/glyphs/list.rt"
FILES = {"ot1": "7t.enc", "t1": "ec.enc", "ly1": "lm-texnansi.enc"}
NO = 0x110000
# Names of TeX that the list lacks, or to which it gives another character: the increment, a character for private use
# and the ohm sign. In T1 the space is the name of a visible space, and a name that ends with .dup is there twice.
OF_TEX = {"Delta": 0x394, "Omega": 0x3A9, "dotlessj": 0x237, "Germandbls": 0x1E9E, "cwm": 0x200C, "compwordmark": 0x200C,
          "Dbar": 0x110, "dbar": 0x111, "Ng": 0x14A, "ng": 0x14B, "visiblespace": 0x2423,
          "one.superior": 0xB9, "two.superior": 0xB2, "three.superior": 0xB3}


def glyphs():
    """The rows of the list, which has a part for each length of a name."""
    source = read(LIST)
    starts, text = re.search(r"= \[\n([\d_, \n]*)\];", source)[1], source[source.index('b"') + 2:]
    text = re.sub(r"\\\n *", "", text[:text.index('";')])
    starts, found = [int(start) for start in starts.replace("_", "").split(",")[:-1]], []
    for length, (start, end) in enumerate(zip(starts, starts[1:])):
        part = [text[at:at + length + 6] for at in range(start, end, length + 6)]
        found += [re.fullmatch(r"([\w.]{%d});([0-9A-F]{4}) " % length, row).groups() for row in part]
    return [(name, int(number, 16)) for name, number in found]


def tables():
    """The characters of OT1, T1 and LY1 by code, and those that have other codes."""
    text = re.sub("--.*", "", read("crates/encodings/specs/Tables.antt"))
    found = {}
    for name, body in re.findall(r"^(\w+) =\n((?: .*\n|\n)*)", text, re.M):
        numbers = re.findall(r"\((0x\w+)," if "others" in name else r"(0x\w+|\bno\b)", body)
        found[name] = [NO if number == "no" else int(number, 16) for number in numbers]
    return found


class Glyphs(Case):
    """Characters of glyphs"""

    def listed(self):
        """The names and characters of the Adobe Glyph List, as far as a name has one character."""
        self.need("kpsewhich")
        path = execute("kpsewhich", "glyphlist.txt")[1].strip()
        if not path:
            self.lack("glyphlist.txt")
        return {name: int(number, 16) for name, number in re.findall(r"^(\w+);(\w+)\s*$", read(path), re.M)}

    # A wrong row of the list: uogonek has the character of Uogonek.
    def test_adobe_glyph_list(self):
        """The rows are those of the list and of TeX, sorted by the lengths of the names, and by name."""
        wanted = self.listed() | OF_TEX
        self.same("rows", sorted(wanted.items(), key=lambda row: (len(row[0]), row[0])), glyphs())
        self.none([], len(wanted), 4200)

    @rows((name, name) for name in FILES)
    def test_encoding_files(self, name):
        """The names of an encoding file have the characters of the table."""
        self.need("kpsewhich")
        path = execute("kpsewhich", FILES[name])[1].strip()
        if not path:
            self.lack(FILES[name])
        text = re.sub("%.*", "", read(path, "rb").decode("latin-1"))
        names = re.findall(r"/([\w.]+)", text[text.index("["):])
        found, seen = dict(glyphs()), 0
        for code, number in enumerate(tables()[f"{name}_characters"]):
            if number not in (NO, 0x20) and not names[code].endswith(".dup"):
                seen += 1
                self.same(f"code {code}", number, found.get(names[code]))
        self.none([], seen, 80)
