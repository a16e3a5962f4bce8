"""Random fonts and texts, compared with the slow programs of lib/slow.py.

Counts, listings, pairs, findings of `check`, and the records of `set`, `each` and `stream` in all formats,
with their exit statuses. The seed is fixed. With `checks/run --minutes N` it is a new one, which is printed,
and `--seed SEED` repeats a round that failed. A failure becomes a case of checks/cases.
"""
import itertools
import os
import random
import re
import time

from lib import slow
from lib.base import PROGRAM, Case, execute, rows

WEIGHT = 8
PARTS, ROUNDS = 8, 90
MINUTES = float(os.environ.get("CHECKS_MINUTES", 0))
SEED = os.environ.get("CHECKS_SEED") or (str(random.SystemRandom().randrange(10**9)) if MINUTES else "tfmset")
ONE = SEED.count("-") == 2  # a single round
PLANS = list(itertools.product((1, 2, 3, 16), ("1", "3", "8", None), (1, 16)))  # workers, lines of a block, slots


class Round:
    """One random font, and commands with it."""

    def __init__(self, test, seed):
        self.test, self.chance = test, random.Random(seed)
        self.fonts = [self.font() for _ in range(3)]
        self.texts = [self.text(self.fonts[0]) for _ in range(3)]
        for name, content in zip("ABCxyz", self.fonts + self.texts):
            test.file(name, content)

    def font(self):
        font = slow.random_font(self.chance) if self.chance.randrange(3) == 0 else slow.rich_font(self.chance)
        return slow.damage(font, self.chance) if self.chance.randrange(3) == 0 else font

    def text(self, font, count=None):
        """Lines of characters of a font, spaces and other bytes: so many, or a few."""
        codes = slow.Font(font).codes if not slow.font_error(font) else []
        codes = [code for code in codes if code != 10] or [97]
        lines = []
        for _ in range(self.chance.randrange(5) if count is None else count):
            line = [self.chance.choice(codes) for _ in range(self.chance.randrange(12))]
            for _ in range(self.chance.choice([0, 0, 1, 3])):
                line.insert(self.chance.randrange(len(line) + 1), self.chance.choice([32, 32, self.chance.randrange(256)]))
            lines.append(bytes(line))
        return b"\n".join(lines) + self.chance.choice([b"", b"\n"])

    def compare(self, wanted, *words, given=b"", in_order=True):
        status, out, err = execute(PROGRAM, *words, given=given, cwd=self.test.room)
        if words[0] == "stream":
            # Random bytes may be UTF-8 or end with a carriage return: program_cases tests what is said of them.
            err = "".join(line for line in err.splitlines(True) if not re.match(r"tfmset: .*: line \d+ ", line))
        if not in_order:
            # The lines of several sources may be interleaved.
            head, lines = (1, out.splitlines(True)) if out.startswith("records 2") else (0, out.splitlines(True))
            out = "".join(lines[:head] + sorted(lines[head:], key=source_of))
        self.test.same(" ".join(words), wanted, (status, out, err))

    def fonts_alone(self):
        """The commands that print a font, and `check`."""
        font = self.fonts[0]
        for words, error, text in ((["counts", "-"], slow.count_error, slow.counts_text),
                                   (["list", "A"], slow.font_error, slow.list_text),
                                   (["pairs", "A"], slow.font_error, slow.pairs_text),
                                   (["list", "--all", "A"], slow.font_error, lambda font: slow.list_text(font, True))):
            wrong = error(font)
            self.compare((3, "", f"tfmset: font refused: {wrong}\n") if wrong else (0, text(font), ""), *words, given=font)
        names = [self.chance.choice(["A", "B", "C", "no"]) for _ in range(self.chance.randrange(1, 5))]
        wrong = {name: slow.font_error(font) for name, font in zip("ABC", self.fonts)}
        lines = ["not read" if name == "no" else f"refused: {wrong[name]}" if wrong[name] else "accepted" for name in names]
        status = 4 if "no" in names else int(any(wrong[name] for name in names))
        cause = "tfmset: no: No such file or directory (os error 2)\n"
        self.compare((status, "".join(f"{name}: {line}\n" for name, line in zip(names, lines)),
                      cause * names.count("no") + "tfmset: some font was not read\n" if status == 4 else ""), "check", *names)

    def options(self):
        """Random options of `set`, `each` and `stream`: the arguments, the size, the policy and the record format."""
        size = self.chance.choice([None, 65536, 655360, self.chance.randrange(1, 2**27)])
        skip, form = self.chance.choice([False, True]), self.chance.choice(["1", "2", "json"])
        words = ["--record", form, "--missing", "skip" if skip else "refuse"] + (["--size", f"{size}sp"] if size else [])
        for name, most in (("workers", 16), ("capacity", 64), ("block", 8)):
            if self.chance.randrange(2):
                words += [f"--{name}", str(self.chance.randint(1, most))]
        return words, size, skip, form

    def batch(self, triples, size, skip, form):
        """What is printed for fonts, limits and texts, and the exit status."""
        found = [slow.source_text(number, text, slow.Setter(font, size, limit, skip), form)
                 for number, (font, limit, text) in enumerate(triples, 1)]
        head = "records 2\n" if form == "2" else ""
        return int(any(refused for _, refused in found)), head + "".join(text for text, _ in found), ""

    def batches(self):
        words, size, skip, form = self.options()
        limits = [self.chance.choice([1, 5, 20, 1000]) for _ in range(3)]
        names = [self.chance.choice("xyz") for _ in range(self.chance.randrange(1, 4))]
        texts = [self.texts["xyz".index(name)] for name in names]
        words, wrong = [*words, "--limit", str(limits[0])], slow.font_error(self.fonts[0])
        refused = (3, "", f"tfmset: font refused: {wrong}\n") if wrong else None
        triples = [(self.fonts[0], limits[0], text) for text in texts]
        self.compare(refused or self.batch(triples, size, skip, form), "set", *words, "A", *names)
        self.compare(refused or self.batch(triples, size, skip, form), "stream", *words, "A", *names, in_order=False)
        self.compare(refused or self.batch(triples[:1], size, skip, form), "stream", *words, "A", given=texts[0])
        # Each source with a font and a limit of its own.
        errors = [slow.font_error(font) for font in self.fonts]
        number = next((i for i, error in enumerate(errors, 1) if error), None)
        given = [word for triple in zip("ABC", map(str, limits), "xyz") for word in triple]
        self.compare((3, "", f"tfmset: font {number} refused: {errors[number - 1]}\n") if number
                     else self.batch(zip(self.fonts, limits, self.texts), size, skip, form),
                     "each", *words[:-2], *given)


def source_of(line):
    return int("".join(letter for letter in line.replace(":", " ").replace('{"source"', "").replace(",", " ").split()[0]
                       if letter.isdigit()))


class Differential(Case):
    """Random fonts and texts"""

    def one_round(self, seed):
        before = len(self.wrong)
        one = Round(self, seed)
        one.fonts_alone()
        one.batches()
        if len(self.wrong) > before:
            self.wrong.insert(before, f"checks/run --seed {seed} -k differential repeats this round")

    @rows((f"part {part + 1}", part) for part in range(1 if ONE else PARTS))
    def test(self, part):
        if ONE:
            self.one_round(SEED)
            return
        if MINUTES:
            print(f"seed {SEED}")
        until, number = time.monotonic() + 60 * MINUTES, 0
        while number < ROUNDS or time.monotonic() < until:
            self.one_round(f"{SEED}-{part}-{number}")
            number += 1
            if len(self.wrong) > 20:
                break
        if MINUTES:
            print(f"{number} rounds")


class Plans(Case):
    """Long texts, with each number of workers, of lines in a block and of slots"""

    def fonts_and_texts(self, one):
        """Two fonts with the letter a, and three texts: many lines, none, and some that are long or too long."""
        fonts = []
        while len(fonts) < 2:
            font = slow.rich_font(one.chance)
            fonts += [font] if not slow.font_error(font) and 97 in slow.Font(font).codes else []
        long = b"\n".join(b"a" * one.chance.choice((9, 999, 5000, 65535, 65536, 150000)) for _ in range(12))
        return fonts, [one.text(fonts[0], 700) + b"\n", b"", one.text(fonts[1], 90) + b"\n" + long + b"\n\nlast"]

    # Contracts exclude that a chunk is lost, dealt to another lane, taken from another one, or numbered wrongly. Here the
    # built program is compared.
    @rows((f"record format {form}", form) for form in ("1", "2", "json"))
    def test_many_lines(self, form):
        one = Round(self, f"plans {form}")
        fonts, texts = self.fonts_and_texts(one)
        for name, content in zip("ABxyz", fonts + texts):
            self.file(name, content)
        same = [(fonts[0], 20, text) for text in texts]
        own = [(fonts[0], 20, texts[0]), (fonts[1], 5, texts[2]), (fonts[0], 1, texts[1]), (fonts[1], 99, texts[0])]
        wanted, alone, each = (one.batch(triples, None, False, form) for triples in (same, same[2:], own))
        for workers, block, slots in PLANS:
            words = ["--record", form, "--workers", str(workers), "--capacity", str(slots)]
            words += ["--block", block] if block else []
            one.compare(wanted, "set", *words, "--limit", "20", "A", *"xyz")
            one.compare(wanted, "stream", *words, "--limit", "20", "A", *"xyz", in_order=False)
            one.compare(alone, "stream", *words, "--limit", "20", "A", given=texts[2])
            one.compare(each, "each", *words, *"A 20 x B 5 z A 1 y B 99 x".split())
