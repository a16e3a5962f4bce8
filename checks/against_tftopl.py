"""`tfmset list`, `tfmset pairs` and `tftopl` for the same fonts, number by number, and which both refuse.

For each font of the TeX trees the check sum, the design size, the strings, flag and face of the header, and
both boundaries are compared; for each character its dimensions and its tag, with the pieces of its extensible
recipe; each instruction in order, with its skip or stop; the program of each character as a search visits it,
and the pairs that `tfmset pairs` prints for the character; and each parameter. tftopl prints a multiple of
2^-20 with enough decimals to read it back exactly. Then each byte of the first words, and of the first
entries of the tables, of some fonts is changed. A table relates each message of tftopl to font errors, or
gives the reason why the font is accepted here. tftopl doesn't print kerns that no instruction names, nor instructions
that only redirect.
"""
import os
import re

from lib.base import PROGRAM, Case, execute, output, rows, table
from lib.tex import fonts
from lib.tfm import Font, Listing, scaled

WEIGHT = 6
PARTS = 12  # tests of the fonts
DAMAGED = ("cmr10", "cmmi10", "cmex10", "tcrm1000")
UNREACHED = "an instruction that no program comes to"
SOME = 3  # entries of each table, and the last one
PIECES = ("TOP", "MID", "BOT", "REP")
MESSAGES = table("against_tftopl")["messages"]


def fix_of(word):
    return round(float(word) * 2 ** 20)


def code_of(words):
    """The code after `O`, in octal."""
    return int(words[words.index("O") + 1], 8)


def act_of(words):
    """The code to the right of an instruction, and what it does: `(KRN O 141 R 0.1)`, `(LIG O 151 O 14)`."""
    return int(words[2], 8), ("KRN", fix_of(words[4])) if words[0] == "KRN" else (words[0], int(words[4], 8))


def face_of(words):
    if words[1] == "O":
        return int(words[2], 8)
    return "MBL".index(words[2][0]) * 2 + "RI".index(words[2][1]) + "RCE".index(words[2][2]) * 6


class PropertyList:
    """What tftopl prints of a font."""

    def __init__(self, text):
        self.chars, self.chains, self.recipes, self.head = {}, {}, {}, {}
        self.steps, self.labels, self.params = [], {}, []
        place, code, level = None, None, 0
        for line in text.split("\n"):
            words = line.replace("(", " ").replace(")", " ").split()
            word = words[0] if words else ""
            if level == 0:
                place = word
                if word == "CHARACTER":
                    code = code_of(words)
                    self.chars[code] = {}
                elif word and word != "COMMENT":
                    self.head[word] = line[len(word) + 2:-1] if word in ("FAMILY", "CODINGSCHEME") else words
            elif word and place == "FONTDIMEN" and word != "COMMENT":
                self.params.append(fix_of(words[-1]))
            elif word and place == "LIGTABLE":
                self.program_line(word, words, level)
            elif word and place == "CHARACTER":
                self.character_line(code, word, words)
            level += line.count("(") - line.count(")")

    def program_line(self, word, words, level):
        if word == "LABEL":
            name = words[1] if words[1] == "BOUNDARYCHAR" else code_of(words)
            self.labels.setdefault(name, len(self.steps))
        elif word in ("STOP", "SKIP"):
            if self.steps and self.steps[-1][2] == 0:
                self.steps[-1][2] = 128 if word == "STOP" else int(words[2])
        elif word != "COMMENT":
            self.steps.append([*act_of(words), 0 if level == 1 else None])

    def character_line(self, code, word, words):
        if word == "NEXTLARGER":
            self.chars[code]["tag"] = ("list", code_of(words))
        elif word == "VARCHAR":
            self.recipes[code] = [0, 0, 0, 0]
            self.chars[code]["tag"] = ("ext", None)
        elif word in PIECES:
            self.recipes[code][PIECES.index(word)] = code_of(words)
        elif word == "COMMENT":
            self.chains[code] = []
            self.chars[code]["tag"] = ("lig", None)
        elif word.startswith("CHAR"):
            self.chars[code][word] = fix_of(words[-1])
        else:
            self.chains[code].append(act_of(words))


class Comparison:
    """A font's listing and property list: `wrong` has the differences."""

    def __init__(self, content, text, properties):
        self.font, self.ours, self.theirs = Font(content), Listing(text), PropertyList(properties)
        self.size, self.wrong = int(self.ours.head["size"]), []
        self.program = [self.step_of(words) for words in self.ours.steps]
        self.head()
        self.numbers()
        for code in sorted(set(self.ours.chars) & set(self.theirs.chars)):
            self.character(code, self.ours.chars[code], self.theirs.chars[code])
        self.instructions()

    def same(self, what, ours, theirs):
        if ours != theirs:
            self.wrong.append(f"{what}: {ours!r}, but {theirs!r}")

    def step_of(self, words):
        """An instruction of the listing: its skip, its next code, and what it does."""
        amount = int(words[8 if words[6] == "KRN" else 7])
        return int(words[3]), int(words[5]), (words[6], amount)

    def sized(self, act):
        return ("KRN", scaled(act[1], self.size)) if act[0] == "KRN" else act

    def head(self):
        ours, theirs = self.ours.head, self.theirs.head
        design = str(fix_of(theirs["DESIGNSIZE"][2]) // 16)
        self.same("check sum", int(ours["checksum"]), int(theirs["CHECKSUM"][2], 8))
        self.same("size and design size", (ours["size"], ours["design"]), (design, design))
        for name, other in (("coding", "CODINGSCHEME"), ("family", "FAMILY")):
            text = re.sub(r"\\x([0-9a-f]{2})", lambda found: chr(int(found.group(1), 16)), ours.get(name, ""))
            text = text.upper().replace("(", "/").replace(")", "/")
            self.same(name, text, theirs.get(other, text if text == "UNSPECIFIED" else ""))
        if "FACE" in theirs:
            self.same("face", int(ours["face"]), face_of(theirs["FACE"]))
        self.same("seven-bit flag", ours.get("sevenbit", "no") == "yes", "SEVENBITSAFEFLAG" in theirs)
        right = str(code_of(theirs["BOUNDARYCHAR"])) if "BOUNDARYCHAR" in theirs else "none"
        self.same("right boundary", ours["right"], right)

    def numbers(self):
        """The numbers of the lines, the parameters, the codes and the kerns of the instructions."""
        for word, first in (("step", 0), ("kern", 0), ("param", 1)):
            found = [int(row[1]) for row in self.ours.of(word)]
            self.same(f"the numbers of {word} lines", found, list(range(first, first + len(found))))
        params = [scaled(fix, self.size) if number else fix for number, fix in enumerate(self.theirs.params)]
        self.same("parameters", self.ours.params, params)
        self.same("codes", sorted(self.ours.chars), sorted(self.theirs.chars))
        kerns = [row for row in self.ours.steps if row[6] == "KRN"]
        self.same("the kerns of the instructions", [self.ours.kerns[int(row[7])] for row in kerns],
                  [int(row[8]) for row in kerns])

    def character(self, code, words, theirs):
        wanted = [scaled(theirs.get(name, 0), self.size) for name in ("CHARWD", "CHARHT", "CHARDP", "CHARIC")]
        kind, value = theirs.get("tag", ("none", None))
        self.same(f"character {code}", ([int(words[i]) for i in (3, 5, 7, 9)], words[11]), (wanted, kind))
        if words[11] != kind or kind == "none":
            return
        number = int(words[12])
        if kind == "list":
            self.same(f"character {code}: next larger", number, value)
        elif kind == "ext":
            # The listing has the recipe's number: its pieces are those of the file.
            self.same(f"character {code}: recipe", list(self.font.recipes[number]), self.theirs.recipes[code])
        else:
            self.same(f"character {code}: its program",
                      [self.program[i][1:] for i in self.font.chain(self.font.entry(number))],
                      [(following, self.sized(act)) for following, act in self.theirs.chains[code]])

    def instructions(self):
        starts, met = reached(self.font)
        self.same("left boundary", self.ours.head["left"], str(starts.get("BOUNDARYCHAR", "none")))
        self.same("instructions", [(following, act) for skip, following, act in self.program if skip <= 128],
                  [(following, self.sized(act)) for following, act, _ in self.theirs.steps])
        # tftopl's skips count only the instructions that some program comes to.
        counted = [128 if skip == 128 else sum(j in met for j in range(i + 1, i + 1 + skip))
                   for i, (skip, _, _) in enumerate(self.program) if skip <= 128]
        pairs = [(skip, step[2]) for skip, step in zip(counted, self.theirs.steps) if step[2] is not None]
        self.same("skips", [ours for ours, _ in pairs], [theirs for _, theirs in pairs])
        # A label precedes an instruction that is printed; there is none for a program without instructions.
        labels = {name: sum(skip <= 128 for skip, _, _ in self.program[:i])
                  for name, i in starts.items() if self.program[i][0] <= 128}
        self.same("the beginnings of the programs", labels,
                  {name: i for name, i in self.theirs.labels.items() if name in labels or name not in starts})


    def pairs(self):
        """The lines of `tfmset pairs`: the first instruction for each code, in the programs of tftopl."""
        head, chains = self.theirs.head, self.theirs.chains
        right = code_of(head["BOUNDARYCHAR"]) if "BOUNDARYCHAR" in head else None
        # tftopl prints no program of the left boundary by itself; `instructions` compares its beginning.
        left = [self.program[i][1:] for i in self.font.chain(self.font.left)]
        for name, chain in [("left", left), *((code, chains[code]) for code in sorted(chains))]:
            acts = dict(reversed(chain))
            for code, word in [*((code, code) for code in sorted(self.theirs.chars)), (right, "right")]:
                if code in acts:
                    action, value = acts[code] if name == "left" else self.sized(acts[code])
                    yield f"{name} {word} {action.replace('KRN', 'kern')} {value}"


def reached(font):
    """The addresses at which programs begin, and all instructions that a program comes to."""
    starts = font.starts(every=True) | ({"BOUNDARYCHAR": font.left} if font.left is not None else {})
    met, ahead = set(), [i for i in starts.values() if i < len(font.program)]
    while ahead:
        i = ahead.pop()
        following = i + font.program[i][0] + 1
        if i not in met and font.program[i][0] < 128 and following < len(font.program):
            ahead.append(following)
        met.add(i)
    return starts, met


def both(path):
    """The results of `tfmset list` and of tftopl for a file."""
    return execute(PROGRAM, "list", path), execute("tftopl", "-charcode-format=octal", path)


def damaged(content):
    """A font with a changed byte, for those of its counts, its first words and some entries of each table."""
    font, places = Font(content), list(range(32))
    for name, length in font.lengths.items():
        first = font.first[name]
        entries = [*range(first, first + min(length, SOME)), *([first + length - 1] if length > SOME else [])]
        places += [4 * word + byte for word in entries for byte in range(4)] if name != "header" else []
    for place in places:
        for byte in (0, 1, 128, 255):
            if content[place] != byte:
                yield f"byte {place} as {byte}", content[:place] + bytes([byte]) + content[place + 1:]
    for length in (0, 1, 23, 24, 47, 2 * font.counts[0], 4 * font.counts[0] - 1):
        yield f"cut after {length}", content[:length]


def judge(content, ours, theirs):
    """The error of the two results for a damaged font, and which rows of MESSAGES tftopl printed."""
    told = set()
    for line in filter(str.strip, theirs[2].split("\n")):
        found = {row["message"] for row in MESSAGES if re.search(row["message"], line)}
        told |= found
        if not found:
            return f"no row for the message {line}", told
    numbers = {number for row in MESSAGES if row["message"] in told for number in row.get("errors", [])}
    if ours[0] == 0:
        # A row without a number leaves a font good; one with numbers doesn't.
        return (f"accepted, but tftopl prints {theirs[2][:200]}" if numbers else None), told
    number = re.match(r"tfmset: font refused: (\d+) ", ours[2])
    if ours[0] != 3 or not number:
        return f"status {ours[0]}: {ours[2]}", told
    place = re.search(r"instruction (\d+), (restart|skip)", ours[2])
    if place and not numbers and int(place.group(1)) not in reached(Font(content))[1]:
        # tftopl doesn't check where an instruction leads that no program comes to; TeX does (tex.web, 573).
        return None, told | {UNREACHED}
    if int(number.group(1)) not in numbers:
        return f"{ours[2].strip()}, but tftopl prints {theirs[2][:200]}", told
    return None, told


class Fonts(Case):
    """The fonts of TeX"""

    def setUp(self):
        super().setUp()
        self.need("tftopl", "kpsewhich", "cmr10")

    @rows((f"part {part + 1} of {PARTS}", part) for part in range(PARTS))
    def test(self, part):
        """Both print the same, or refuse the font."""
        compared = 0
        for path, content in fonts()[part::PARTS]:
            ours, theirs = both(path)
            if ours[0] or theirs[0]:
                self.same(path, (3, 1), (ours[0], theirs[0]))
                continue
            compare = Comparison(content, ours[1], theirs[1])
            self.none([f"{path}: {wrong}" for wrong in compare.wrong[:3]])
            self.same(f"{path}: pairs", list(compare.pairs()), output(PROGRAM, "pairs", path).splitlines())
            compared += 1
        self.none([], compared, 10)

    def test_damaged_fonts(self):
        """Both accept and refuse the same fonts with one changed byte, and each message occurs."""
        told, counts = set(), [0, 0]
        chosen = [content for path, content in fonts() if os.path.basename(path)[:-4] in DAMAGED]
        self.same("fonts to be damaged", len(DAMAGED), len(chosen))
        for content in chosen:
            for name, copy in damaged(content):
                ours, theirs = both(self.file("damaged.tfm", copy))
                wrong, rows_told = judge(copy, ours, theirs)
                told |= rows_told
                counts[bool(ours[0])] += 1
                self.none([f"{name}: {wrong}"] if wrong else [])
                if not wrong and not theirs[2].strip():
                    # Both accept it as it is: the listings have to agree.
                    self.none([f"{name}: {one}" for one in Comparison(copy, ours[1], theirs[1]).wrong])
        print(f"{counts[0]} damaged fonts are accepted, {counts[1]} refused")
        messages = {UNREACHED, *(row["message"] for row in MESSAGES)}
        self.same("messages that never occurred", set(), messages - told)
