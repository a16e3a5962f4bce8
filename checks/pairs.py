"""What `tfmset pairs` prints in each format, compared with a search in the program of each font.

The search (lib/slow.py) reads the file independently of the program, and follows the chain of each left side
for each code. Each line of JSON conforms to docs/pairs.schema.json. With --encoding, the three formats print
the same characters: those of Python's codec for Latin 1, and for the others, at some codes, those of LaTeX's
guide to encodings. The pairs of letters are those of tftopl's property list.
"""
import csv
import io
import json
import re
import unicodedata

from json_records import is_valid, loose_bounds
from lib.base import PROGRAM, Case, execute, output, read, rows
from lib.slow import pair_rows
from lib.tex import fonts
from lib.tfm import path_of, sample, samples

WEIGHT = 2
FIELDS = ["left", "right", "action", "value"]
SCHEMA = json.loads(read("docs/pairs.schema.json"))
CHARACTERS = ["left_character", "right_character", "value_character"]
SOME = ("cmr10", "cmmi10", "cmtt10", "ecrm1000", "tcrm1000")
NAMES = ("ot1", "t1", "ly1", "latin1")
ALPHANUMERIC = {code: chr(code) for code in range(128) if chr(code).isalnum()}
LATIN = {code: chr(code) for code in range(0xC0, 0x100)}
QUOTES = {32: " ", 39: "’", 96: "‘"}
# The characters of some codes of each encoding. None is for the codes of the ligatures ff to ffl, and for codes
# that the encoding doesn't have.
KNOWN = {
    "ot1": ALPHANUMERIC | QUOTES | {
        0: None, 11: None, 12: None, 13: None, 14: None, 15: None, 16: "ı", 25: "ß", 26: "æ", 27: "œ", 28: "ø",
        29: "Æ", 30: "Œ", 31: "Ø", 34: "”", 92: "“", 123: "–", 124: "—", **dict.fromkeys(range(128, 256))},
    "t1": ALPHANUMERIC | QUOTES | LATIN | {
        16: "“", 17: "”", 18: "„", 19: "«", 20: "»", 21: "–", 22: "—", 25: "ı", 27: None, 28: None, 29: None,
        30: None, 31: None, 34: '"', 92: "\\", 127: None, 128: "Ă", 157: "İ", 188: "ĳ", 215: "Œ", 223: "ẞ",
        247: "œ", 255: "ß"},
    "ly1": ALPHANUMERIC | QUOTES | LATIN | {
        1: "€", 16: "ı", 25: "ß", 34: '"', 92: "\\", 147: "“", 148: "”", 150: "–", 151: "—", **dict.fromkeys((215, 223, 247))},
    "latin1": dict(enumerate(bytes(range(256)).decode("latin-1"))),
}


def field(character):
    """A character as a field of text and of CSV."""
    named = unicodedata.category(character) == "Cc" or character in " \u00a0\u00ad"
    return f"U+{ord(character):04X}" if named else character


class Pairs(Case):
    """All pairs of a font"""

    def compare(self, path, data):
        """Compares the three formats with the search at two sizes, and returns the number of pairs."""
        design = int.from_bytes(data[28:32], "big") >> 4
        for options, size in ([], design), (["--size", "134217727"], 134217727):
            wanted = list(pair_rows(data, size))
            text, commas, objects = (self.lines(path, form, options) for form in ("text", "csv", "json"))
            self.same(f"{path} {options}", [" ".join(map(str, row)) for row in wanted], text)
            self.same("CSV", [FIELDS, *([str(field) for field in row] for row in wanted)],
                      list(csv.reader(io.StringIO("".join(line + "\n" for line in commas)))))
            self.same("JSON", [json.dumps(dict(zip(FIELDS, row)), separators=(",", ":")) for row in wanted],
                      objects)
            self.none([line for line in objects if not is_valid(json.loads(line), SCHEMA)])
        return len(wanted)

    def lines(self, path, form, options):
        status, out, err = execute(PROGRAM, "pairs", "--format", form, *options, path)
        self.same(f"{path} as {form}", (0, "", True), (status, err, out in ("", out.rstrip("\n") + "\n")))
        return out.splitlines()

    @rows((f"the font {name}", name) for name in samples())
    def test_sample(self, name):
        self.compare(path_of(name), sample(name))

    def test_fonts_of_tex(self):
        self.need("kpsewhich", "cmr10")
        chosen = [(path, data) for path, data in fonts() if path.rsplit("/", 1)[1][:-4] in SOME]
        self.none([], len(chosen), 1)
        for path, data in chosen:
            self.none([], self.compare(path, data), 1)


    @rows((unit, unit) for unit in ("pt", "mm"))
    def test_units(self, unit):
        """With --unit, the amounts of kerns are those of `list`, and all else is the same in each format."""
        data = sample("ligature_0", "21: FFFFFFFF 00000003")
        path, wanted = self.file("font.tfm", data), []
        kerns = [line.split()[2] for line in output(PROGRAM, "list", "--unit", unit, path).splitlines()
                 if line.startswith("kern ")]
        amounts = dict(zip(("-1", "1"), kerns))
        for row in pair_rows(data, 655360):
            wanted.append([*row[:3], amounts.get(str(row[3]), row[3])])
        text, commas, objects = (self.lines(path, form, ["--unit", unit]) for form in ("text", "csv", "json"))
        self.same("text", [" ".join(map(str, row)) for row in wanted], text)
        self.same("CSV", [",".join(map(str, row)) for row in [FIELDS, *wanted]], commas)
        self.same("JSON", [json.dumps(dict(zip(FIELDS, row)), separators=(",", ":")) for row in wanted], objects)
        self.none([line for line in objects if not is_valid(json.loads(line), SCHEMA)])


class Characters(Case):
    """Characters after the codes"""


    def run_format(self, path, form, *options):
        """The lines of a format. No character except a line feed ends a line."""
        status, out, err = execute(PROGRAM, "pairs", "--format", form, *options, path)
        self.same(f"{path} as {form}", (0, "", True), (status, err, out in ("", out.rstrip("\n") + "\n")))
        return out.split("\n")[:-1]

    def characters(self, name, row, line):
        """The members of a line of JSON for characters: the known ones, and otherwise those of the line."""
        sides = [*row[:2], *(row[3:] if row[2] != "kern" else [])]
        found = [None if side in ("left", "right") else KNOWN[name].get(side, line.get(member))
                 for member, side in zip(CHARACTERS, sides)]
        return dict(zip(CHARACTERS, found))

    def compare(self, path, data, name):
        """Compares the three formats with an encoding, and returns the number of pairs."""
        design = int.from_bytes(data[28:32], "big") >> 4
        wanted = list(pair_rows(data, design))
        objects = [json.loads(line) for line in self.run_format(path, "json", "--encoding", name)]
        self.same("number of lines", len(wanted), len(objects))
        lines, cells = [], [FIELDS + CHARACTERS]
        for row, line in zip(wanted, objects):
            codes, characters = dict(zip(FIELDS, row)), self.characters(name, row, line)
            self.same(f"{path} {name}: JSON", list((codes | characters).items()), list(line.items()))
            named = {"left": "left", "right": "right"}
            letters = [named.get(codes.get(member[:-len("_character")]), field(letter) if letter else "none")
                       for member, letter in characters.items()]
            lines.append(" ".join(map(str, [*row, *letters])))
            found = [characters.get(member) for member in CHARACTERS]
            cells.append([*map(str, row), *(field(letter) if letter else "" for letter in found)])
        self.none([line for line in objects if not is_valid(line, SCHEMA)])
        self.same(f"{path} {name}", lines, self.run_format(path, "text", "--encoding", name))
        text = "".join(line + "\n" for line in self.run_format(path, "csv", "--encoding", name))
        self.same(f"{path} {name}: CSV", cells, list(csv.reader(io.StringIO(text, newline=""), strict=True)))
        return len(wanted)

    @rows((f"the font {name} in {encoding}", name, encoding) for name in samples() for encoding in NAMES)
    def test_sample(self, name, encoding):
        self.compare(path_of(name), sample(name), encoding)

    @rows((name, name) for name in NAMES)
    def test_all_codes(self, name):
        """Pairs with each code on the left, on the right and as the code of a ligature."""
        count = 0
        for first in range(0, 254, 3):
            a, b, c = first, first + 1, first + 2
            changes = f"1: {a:04X}{c:04X}, 18: 00{b:02X}00{c:02X} 80{c:02X}8000 80{b:02X}8001"
            data = sample("ligature_0", changes)
            count += self.compare(self.file("font.tfm", data), data, name)
        self.none([], count, 3 * 85)

    def test_bytes(self):
        """With the encoding `bytes`, the output is the one without the option."""
        for name in samples():
            for form in ("text", "csv", "json"):
                self.same(f"{name} {form}", self.run_format(path_of(name), form),
                          self.run_format(path_of(name), form, "--encoding", "bytes"))

    @rows((name, name, encoding) for name, encoding in (("cmr10", "ot1"), ("ecrm1000", "t1")))
    def test_tftopl(self, name, encoding):
        """The pairs of letters and digits, each with its action, are those of the property list."""
        self.need("tftopl", "kpsewhich", "cmr10")
        path = execute("kpsewhich", name + ".tfm")[1].strip() or self.lack(name)
        found, labels = {}, []
        for word, rest in re.findall(r"\((LABEL|KRN|/?LIG/?>*|STOP|SKIP) ?([^()]*)\)",
                                     output("tftopl", "-charcode-format=ascii", path)):
            if word == "LABEL":
                labels.append(rest)
            elif word == "STOP":
                labels = []
            else:
                self.assertNotEqual("SKIP", word)
                for label in labels:
                    found.setdefault((label, " ".join(rest.split()[:2])), "kern" if word == "KRN" else word)
        letter = re.compile("C [0-9A-Za-z]")
        wanted = {(left[2:], right[2:], action) for (left, right), action in found.items()
                  if letter.fullmatch(left) and letter.fullmatch(right)}
        lines = [line.split(" ") for line in self.run_format(path, "text", "--encoding", encoding)]
        both = re.compile("[0-9A-Za-z]{2}")
        seen = {(line[4], line[5], line[2]) for line in lines if both.fullmatch(line[4] + line[5])}
        self.same(name, sorted(wanted), sorted(seen))
        self.none([], len(wanted), 100)


# Lines that the schema refuses.
REFUSED = (
    '{"left":"right","right":98,"action":"kern","value":0}',
    '{"left":97,"right":"left","action":"kern","value":0}',
    *(f'{{"left":{left},"right":{right},"action":"kern","value":0}}' for left, right in (
        (97, 256), (97, -1), (256, 97), (-1, 97))),
    *(f'{{"left":97,"right":98,"action":"kern","value":{value}}}' for value in (1 << 31, -(1 << 31) - 1)),
    *(f'{{"left":97,"right":98,"action":"kern","value":"{value}"}}' for value in (
        "1", "1pt", "1.0", "1.0dd", "1.000000pt", ".5pt", "1.0pt ", " 1.0pt", "+1.0pt")),
    '{"left":97,"right":98,"action":"LIG","value":"1.0pt"}', '{"left":97,"right":98,"action":"LIG","value":-1}',
    '{"left":97,"right":98,"action":"LIG>","value":0}',
    '{"left":97,"right":98,"action":"LIG","value":256}', '{"left":97,"right":98,"action":"kern"}',
    '{"left":97,"right":98,"action":"kern","value":0,"op":0}',
    '{"left":97,"right":98,"action":"kern","value":0,"left_character":"a"}',
    '{"left":97,"right":98,"action":"kern","value":0,"right_character":"b"}',
    '{"left":97,"right":98,"action":"kern","value":0,"left_character":"a","right_character":"bc"}',
    '{"left":97,"right":98,"action":"kern","value":0,"left_character":"","right_character":"b"}',
    '{"left":97,"right":98,"action":"kern","value":0,"left_character":"ab","right_character":"b"}',
    '{"left":97,"right":98,"action":"kern","value":0,"left_character":"a","right_character":""}',
    *('{"left":97,"right":98,"action":"LIG","value":0,"left_character":"a","right_character":"b",'
      f'"value_character":"{character}"}}' for character in ("", "ab")),
    '{"left":97,"right":98,"action":"kern","value":0,"left_character":97,"right_character":"b"}',
    '{"left":97,"right":98,"action":"kern","value":0,"left_character":"a","right_character":"b",'
    '"value_character":null}',
    '{"left":97,"right":98,"action":"LIG","value":0,"left_character":"a","right_character":"b"}',
    '{"left":97,"right":98,"action":"LIG","value":0,"value_character":"a"}',
    '{"left":"left","right":98,"action":"kern","value":0,"left_character":"a","right_character":"b"}',
    '{"left":97,"right":"right","action":"kern","value":0,"left_character":"a","right_character":"b"}')


class Lines(Case):
    """Single lines of JSON"""

    @rows((line, line) for line in REFUSED)
    def test_schema(self, line):
        """The schema refuses a line."""
        self.assertFalse(is_valid(json.loads(line), SCHEMA))

    # Mutants of docs/pairs.schema.json: a number has no maximum; other members are accepted.
    def test_each_bound_of_the_schema(self):
        """Without any bound of the schema, one of these lines is accepted."""
        loose, count = loose_bounds(SCHEMA, REFUSED)
        self.none(loose, count, 20)
