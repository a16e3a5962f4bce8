"""`tfmset check --strict`, TeX and tftopl for the same fonts: which TeX refuses, and what tftopl reports.

The fonts are those of the TeX trees, random fonts, and copies of both with changed bytes, by a fixed seed. TeX loads
exactly the fonts that `check --strict` accepts, with warnings or without. If `check` accepts a font, a table relates
the messages of tftopl to the texts of warnings. tftopl differs as docs/TEX.md says: it doesn't check codes without a
character, it follows programs of left neighbours without one, and it reports the texts of the header and the number
of parameters. It stops after a program that never ends.

The setter shows which programs never end: if a font has the warning, a line with its pair takes more steps than a
large limit, and otherwise no line of two letters does.
"""
import itertools
import os
import random
import re

from lib import slow
from lib.base import PROGRAM, Case, environment, execute, read, rows
from lib.tex import fonts
from lib.tfm import BOUNDARY, Font, make, sample

WEIGHT = 4
PARTS, COPIES, PROGRAMS = 8, 300, 1250
LIMIT = 20000  # of steps; the lines of two letters of programs that end take far fewer
JOBS = 60  # of one call of `each`
AT_ONCE = 90  # TeX stops at the 100th error
LOOP = "program never ends"
# What tftopl prints, and the texts of warnings; of a code, of a recipe, or of anything else.
CODES = (("Character list link to", "not from bc to ec|larger one missing"), ("Cycle in a character list", "circle"),
         ("Extensible index for character", "recipe missing"))
RECIPES = (("Extensible recipe involves", "character missing"),)
OTHERS = (("extra junk", "bytes after the last word"), ("nonstandard code", "op code"), ("Infinite ligature", LOOP))
SILENT = ("String is too long|Parenthesis in string|Nonstandard ASCII code|Unusual number|so I reset it to zero"
          "|now ends the list|I'll proceed|^ *$")


def changed(data, chance):
    """A copy with some changed bytes, mostly in tags, instructions and recipes, or with bytes after its end."""
    font, copy = Font(data), bytearray(data)
    for _ in range(chance.randint(1, 3)):
        table = chance.choice(["info", "info", "program", "program", "exten", "header", "end"])
        if table == "end":
            copy += chance.randbytes(chance.randint(1, 9))
        elif font.lengths[table]:
            at = 4 * (font.first[table] + chance.randrange(font.lengths[table]))
            codes = font.codes or [0]
            if table == "info" and chance.randrange(2):
                copy[at + 2] = copy[at + 2] // 4 * 4 + chance.choice([2, 2, 3])
                copy[at + 3] = chance.choice([chance.randrange(256), font.bc, font.ec, chance.choice(codes)])
            elif table == "program" and chance.randrange(2):
                copy[at + 2:at + 4] = chance.choice([*range(9), 11, 12]), chance.choice(codes)
            else:
                copy[at + chance.randrange(4)] = chance.choice([0, 1, 2, 3, 127, 128, 255, chance.randrange(256)])
    return bytes(copy)


def random_fonts(part):
    """Random fonts, and changed ones, of which half are of the TeX trees."""
    chance, real = random.Random(f"strict {part}"), [data for _, data in fonts() if len(data) < 30000]
    for turn in range(COPIES):
        if turn % 4 == 0:
            yield slow.random_font(chance)
        else:
            yield changed(slow.rich_font(chance) if turn % 4 == 1 else chance.choice(real), chance)


def programs(part):
    """Random fonts, half of them changed."""
    chance, real = random.Random(f"programs {part}"), [data for _, data in fonts() if len(data) < 3000]
    for turn in range(PROGRAMS):
        font = slow.rich_font(chance) if turn % 4 == 1 else chance.choice(real) if turn % 8 == 3 else slow.random_font(chance)
        yield changed(font, chance) if turn % 2 else font


def lines_of(data, warning):
    """Lines with the pair of a warning; without a warning the lines of one letter, and of two that may act.

    A letter before the pair keeps the left boundary away from it. Bytes 10 and 32 are no letters.
    """
    font = Font(data)
    letters = {*font.codes} - {10, 32}
    if warning:
        pair = [int(code) for code in warning.split()[-2:] if code != "left"]
        line = [code for code in pair if code in font.codes]
        found = [line, *([code, *line] for code in letters if len(pair) == 2)]
    else:
        found = [*([code] for code in letters), *itertools.product(font.starts(), {step[1] for step in font.program})]
    return [line for line in found if {*line} <= letters]


def ends(data, warning):
    """Whether the pair of a warning ends on its own: no line has it if each letter before it changes it."""
    left, right = (BOUNDARY if code == "left" else int(code) for code in warning.split()[-2:])
    setter = slow.Setter(data, None, LIMIT, False)
    setter.steps = 0
    try:
        setter.walk([(left, 0, 0), (right if right in setter.font.codes else -1, 0, 0)])
    except slow.TooManySteps:
        return False
    return True


def findings(out):
    """The results by name: `accepted`, `refused` or `refused by TeX`, and the texts of warnings."""
    found = {}
    for line in out.splitlines():
        if line.startswith("  "):
            found[name][1].append(line[2:])
        else:
            name, words, *text = line.split(": ", 2)
            found[name] = words.split(",")[0], text if words == "refused by TeX" else []
    return found


def kinds(texts, table):
    return {kind for _, kind in table if any(re.search(kind, text) for text in texts)}


def difference(data, texts, printed):
    """How the warnings of a font that TeX loads, and the messages of tftopl for it, differ; None if they don't."""
    codes = Font(data).codes
    looping = [line for line in printed if "Infinite ligature" in line]
    told = OTHERS if looping else (*CODES, *RECIPES, *OTHERS)
    ours = kinds([text for text in texts if not any(text.startswith(f"character {code},") for code in range(256)
                                                     if code not in codes)], told)
    theirs = {kind for message, kind in told if any(message in line for line in printed)}
    if looping and LOOP not in ours:
        left = re.search(r"with '(\d+) and", looping[0])
        if left and int(left.group(1), 8) not in codes:
            theirs.discard(LOOP)  # of a left neighbour that doesn't exist
    unknown = [line for line in printed if not re.search(SILENT, line)
               and not any(message in line for message, _ in (*CODES, *RECIPES, *OTHERS))]
    return f"{ours ^ theirs} {unknown}" if ours != theirs or unknown else None


class Fonts(Case):
    """Fonts that `check` accepts"""

    def setUp(self):
        super().setUp()
        self.need("tex", "tftopl", "kpsewhich", "cmr10")

    def refused_by_tex(self, names):
        """The names of the files that TeX refuses."""
        env, refused = environment(TEXFONTS=".", max_print_line="1000"), set()
        for at in range(0, len(names), AT_ONCE):
            lines = (f"\\font\\x={name[:-4]}\n" for name in names[at:at + AT_ONCE])
            self.file("load.tex", "\\batchmode\n" + "".join(lines) + "\\end\n")
            execute("tex", "-ini", "-interaction=batchmode", "load.tex", cwd=self.room, env=env, timeout=100)
            log = read(os.path.join(self.room, "load.log"), "rb").decode("latin-1")
            refused |= {f"{name}.tfm" for name in re.findall(r"! Font \\x=(\S+) not loadable: Bad metric", log)}
        return refused

    def compare(self, contents):
        names = [f"f{number}.tfm" for number, _ in enumerate(contents)]
        for name, content in zip(names, contents):
            self.file(name, content)
        found = findings(execute(PROGRAM, "check", "--strict", *names, cwd=self.room)[1])
        by_tex, wrong, warned = self.refused_by_tex(names), [], 0
        for name, content in zip(names, contents):
            word, texts = found[name]
            if (word == "accepted") == (name in by_tex):
                wrong.append(f"{name}: {word} {texts}")
            elif word == "accepted":
                printed = execute("tftopl", name, cwd=self.room)[2].splitlines()
                other, warned = difference(content, texts, printed), warned + bool(texts)
                wrong += [f"{name}: {other}"] if other else []
        self.none(wrong, len(names), 10)
        return warned

    @rows((f"part {part + 1} of {PARTS}", part) for part in range(PARTS))
    def test(self, part):
        """TeX and tftopl agree about the fonts of the TeX trees."""
        self.compare([content for _, content in fonts()[part::PARTS]])

    @rows((f"part {part + 1} of {PARTS}", part) for part in range(PARTS))
    def test_changed_fonts(self, part):
        """TeX and tftopl agree about random and changed fonts."""
        self.assertGreater(self.compare(list(random_fonts(part))), 20)

    def test_only_check_refuses(self):
        """TeX loads fonts that break only a rule that isn't TeX's, as docs/TEX.md says."""
        firsts = [sample("ligature_0", f"{word}: {entry:08X}") for entry in (1, 2) for word in (11, 15, 16, 17)]
        recipes = [make([(1, 0, 0, 0)], (0, 1), exten=[(0, 0, 0, 97)] * count) for count in (257, 256)]
        contents = {f"f{number}.tfm": content for number, content in enumerate(firsts + recipes)}
        for name, content in contents.items():
            self.file(name, content)
        words = [word for word, _ in findings(execute(PROGRAM, "check", "--strict", *contents, cwd=self.room)[1]).values()]
        self.assertEqual(words, ["refused"] * 9 + ["accepted"])
        self.assertEqual(self.refused_by_tex([*contents]), {f"f{number}.tfm" for number in range(4, 8)})

    def never_ending(self, contents, warnings):
        """The names of the fonts of which some line takes more than LIMIT steps."""
        jobs, endless = [], set()
        for name, content in contents.items():
            lines = lines_of(content, warnings.get(name))
            self.file(f"{name}.txt", b"".join(bytes(line) + b"\n" for line in lines))
            jobs.append((name, str(LIMIT), f"{name}.txt"))
        for at in range(0, len(jobs), JOBS):
            group = jobs[at:at + JOBS]
            out = execute(PROGRAM, "each", *itertools.chain(*group), cwd=self.room)[1]
            self.assertEqual(len(re.findall("(?m)^[0-9]+ end complete ", out)), len(group))
            endless |= {group[int(number) - 1][0] for number in re.findall("(?m)^([0-9]+):[0-9]+ refused steps ", out)}
        return endless

    @rows((f"part {part + 1} of {PARTS}", part) for part in range(PARTS))
    def test_programs(self, part):
        """The setter agrees which programs never end."""
        contents = {f"f{number}.tfm": content for number, content in enumerate(programs(part))}
        for name, content in contents.items():
            self.file(name, content)
        found = findings(execute(PROGRAM, "check", "--strict", *contents, cwd=self.room)[1])
        contents = {name: content for name, content in contents.items() if found[name][0] == "accepted"}
        warnings = {name: text for name in contents for text in found[name][1] if LOOP in text}
        endless = self.never_ending(contents, warnings)
        wrong = endless - {*warnings}, {name for name in {*warnings} - endless if ends(contents[name], warnings[name])}
        self.none([f"{name}: {found[name][1]}" for name in sorted(set.union(*wrong))], len(endless), PROGRAMS // 5)
        self.assertLess(len({*warnings} - endless), PROGRAMS // 20)
