"""Spans that the library for C sets, and tables of prepared fonts.

The results and the items of spans have to be those of the slow program of lib/slow.py, with a TFM file and with its table,
for all sample fonts and for random ones. A table with changed bytes is refused, or gives any results, and the array bounds
are kept. lib/library_lines.c sets the words of its texts, too, with guarded arrays and with allocations that fail.

Spans of a str, in the Python module, are compared with the same slow program, whose elements have characters as places.
"""
import ctypes
import random
import re

from lib.base import read, rows
from lib.clib import DONE, NO_ROOM, RANGE, REFUSED, U8, Counts, LibraryCase, Line, Options, Placed, Span, listed, loaded, values
from lib.slow import Setter, TooManySteps, random_font
from lib.tfm import BOUNDARY, Font, make, sample, samples
from library_lines import LinesCase

WEIGHT = 3
NO_HYPHEN = 256
REFUSALS = ("set", "missing", "too-long", "steps", "outside")


def wanted(setter, text, spans, call_limit=0):
    """The results and the items of spans: the fields of the structs."""
    left, results, items = call_limit or 2 ** 64 - 1, [], []
    for span in spans:
        kind, first, last = setter.span(text, *span) if left else ("refused", "steps", [0])
        here = []
        if kind == "set":
            here = [(start, end - start, int(item[0] == "k"), item[1] if item[0] == "c" else 0, item[-1])
                    for item, start, end in first]
            results.append((sum(item[-1] for item in here), len(items), len(here), 0, last, 0, 0))
        else:
            place = last[0] if first in ("missing", "too-long") else 0
            steps, code = last[0] if first == "steps" else 0, last[1] if first == "missing" else 0
            results.append((0, len(items), 0, place, steps, REFUSALS.index(first), code))
        items += here
        left = max(left - results[-1][4], 0)
    return results, items


def random_spans(chance, font, length, count):
    """Random spans of a text: empty ones, with each edge, with hyphens, and some that end after the text."""
    for _ in range(count):
        offset = chance.randrange(length + 1)
        yield (offset, chance.randrange(min(length - offset, 9) + 1) + (chance.random() < .03) * length, chance.randrange(4),
               chance.choice([NO_HYPHEN, NO_HYPHEN, *font.codes, 45]))


# Characters with one code, with several ones, with none, and (None) uncoded ones, in OT1.
CODES = {**{letter: letter.encode() for letter in "abcdefghiklnorstuvwx-"}, "ﬁ": b"fi", "ﬃ": b"ffi", "¡": b"!`",
         "“": b"\\", "\u00ad": b"", "\u00a0": b" ", "€": None, "ä": None, "\U0001f600": None}


def placed(setter, text, span):
    """A span of characters: a refusal, or the width, the steps and the items. A character is in the item of its first
    code; one without codes is in the item before it, or in the first one. The items of a span without codes are empty."""
    offset, length, left, right, hyphen = span
    end, run = offset + length, []
    if end > len(text):
        return "outside", 0, 0
    for at, letter in enumerate(text[offset:end], offset):
        codes = CODES[letter] or b""
        if not codes and run:
            run[-1][2:] = at + 1, run[-1][3]
        run += [[code, at + (turn > 0) if run or turn else offset, at + 1, at] for turn, code in enumerate(codes)]
    close = end if run else offset
    run += [[hyphen, close, close, end]] if hyphen is not None else []
    missing = [(at, code) for code, _, _, at in run if code not in setter.font.codes]
    if missing:
        return "missing", *missing[0]
    elements = [(BOUNDARY, offset, offset)] * left + [(code, start, stop) for code, start, stop, _ in run]
    elements += [(-1, close, close)] * (right and setter.font.right is not None)
    setter.steps = 0
    try:
        items = [(int(item[0] == "k"), item[1] if item[0] == "c" else 0, item[-1], start, stop - start)
                 for item, start, stop in setter.walk(elements)]
    except TooManySteps:
        return "steps", 0, 0
    return sum(item[2] for item in items), setter.steps, tuple(items)


class Characters(LinesCase):
    """Spans of characters, in the Python module"""

    @rows((name, name) for name in ("demo", "no ligatures", *(f"seeds from {first}" for first in range(0, 60, 20))))
    def test_every_cut(self, name):
        """The spans between all cuts of random texts; their items tile them."""
        given = {"demo": sample("demo"), "no ligatures": make([(1, 0, 0, 0)] * 26, (0, 524288), (), (), ())}.get(name)
        first = 0 if given else int(name.split()[-1])
        for seed in range(first, first + 20):
            chance = random.Random(seed)
            data = given or random_font(chance)
            usual = [letter for letter, codes in CODES.items() if not set(codes or b"") - set(Font(data).codes)]
            font, limit = self.tfmset.Font(data), chance.choice([3, 1000])
            text = "".join(chance.choice(usual if chance.random() < .98 else [*CODES]) for _ in range(chance.randrange(14)))
            spans = [(start, stop - start, chance.random() < .7, chance.random() < .7, chance.choice([None, None, 97, 45]))
                     for start in range(len(text) + 1) for stop in range(start, len(text) + 2)]
            wanted = [placed(Setter(data, 0, limit, False), text, span) for span in spans]
            found = [tuple(each) for each in font.span_items(text, spans, limit, encoding="ot1", missing="skip")]
            self.same((seed, text), wanted, found)
            widths = font.spans(text, spans, limit, encoding="ot1", missing="skip")
            self.same("widths", [each[0] if type(each[0]) is int else each for each in wanted],
                      [each if type(each) is int else tuple(each) for each in widths])
            for span, each in zip(spans, found):
                if type(each[0]) is int and any(CODES[letter] for letter in text[span[0]:span[0] + span[1]]):
                    ends = [span[0], *(item.offset + item.length for item in each[2])]
                    self.same(f"tiles of {span}", (ends[:-1], sum(span[:2])), ([item.offset for item in each[2]], ends[-1]))


class Spans(LibraryCase):
    """Spans with fonts and with their tables"""

    def prepared(self, data, size=0):
        """The table of a font, whose length is that of its instructions and kerns."""
        font = Font(data)
        length = 2084 + 4 * (len(font.program) + font.lengths["kern"])
        for room in (0, length - 1):
            self.same("no room", (NO_ROOM, length, None), listed(self.prefix, "prepare", data, size, kind=U8, room=room))
        status, count, table = listed(self.prefix, "prepare", data, size, kind=U8, room=length + 3)
        self.same("table", (DONE, length), (status, count))
        return bytes(table)

    def called(self, font, options, text, spans, lines=None, items=None):
        """The code, the counts, and the arrays of tfmset_span_items with these lengths; tfmset_spans has to agree."""
        array = (Span * len(spans))(*spans)
        lines = len(spans) if lines is None else lines
        first = font, len(font), ctypes.byref(options), text, len(text), array, len(spans)
        room, other = (Line * (lines + 1))(), (Line * (lines + 1))()
        placed, counts, others = (Placed * ((items or 0) + 1))(), Counts(77, 88), Counts(77, 88)
        library = loaded(self.prefix)
        code = library.tfmset_spans(*first, other, lines, ctypes.byref(others))
        again = library.tfmset_span_items(*first, room, lines, placed, items or 0, ctypes.byref(counts))
        if items is None and again == NO_ROOM and code == DONE:
            return self.called(font, options, text, spans, lines, others.items)
        self.same("counts of both", values(others), values(counts))
        self.same("codes of both", code, again if again != NO_ROOM or lines < len(spans) else DONE)
        self.same("after the arrays", [(0,) * 7, (0,) * 7, (0,) * 5], [values(room[lines]), values(other[lines]), values(placed[items or 0])])
        if again == DONE:
            self.same("lines of both", list(map(values, other)), list(map(values, room)))
        return again, values(counts), list(map(values, room))[:-1], list(map(values, placed))[:-1]

    def agree(self, data, chance, count):
        """A font and its table give the results of the slow program."""
        font = Font(data)
        codes = [*font.codes, 10, 32] if chance.random() < .2 or not font.codes else font.codes
        text = bytes(chance.choices(codes, k=chance.randrange(40)))
        limit, call_limit, size = chance.choice([1, 5, 40]), chance.choice([0, 0, 60]), chance.choice([0, 655361])
        spans = list(random_spans(chance, font, len(text), count))
        results, items = wanted(Setter(data, size, limit, False), text, spans, call_limit)
        seen = DONE, (len(results), len(items)), results, items
        table = self.prepared(data, size)
        for name, given, at in (("font", data, size), ("table", table, 0), ("table at its size", table, size)):
            self.same(f"{name}, {text!r}, {spans}", seen, self.called(given, Options(call_limit, at, limit), text, spans))
        for lines, room in ((len(spans) - 1, len(items)), (len(spans), len(items) - 1)):
            if lines >= 0 and room >= 0:
                code, counts, *_ = self.called(table, Options(call_limit, 0, limit), text, spans, lines, room)
                self.same("no room", (NO_ROOM, seen[1]), (code, counts))

    @rows((name, name) for name in samples())
    def test_sample(self, name):
        chance = random.Random(name)
        for _ in range(12):
            self.agree(sample(name), chance, 12)

    @rows((f"seeds from {first}", first) for first in range(0, 200, 50))
    def test_random_fonts(self, first):
        for seed in range(first, first + 50):
            self.agree(random_font(random.Random(seed)), random.Random(seed), 12)

    def test_constants(self):
        """The constants of the header are the numbers that the tests pass and get."""
        names = ("OUTSIDE", "LEFT_EDGE", "RIGHT_EDGE", "NO_HYPHEN")
        header = read(self.prefix + "/include/tfmset.h")
        found = [int(re.search(rf"^#define TFMSET_{name} (\d+)u$", header, re.M)[1]) for name in names]
        self.same("constants", [REFUSALS.index("outside"), 1, 2, NO_HYPHEN], found)

    def test_long_spans(self):
        data, text = sample("right_boundary"), b"a" * 65537
        spans = [(0, 65535, 3, NO_HYPHEN), (1, 65535, 3, 97), (0, 65536, 3, NO_HYPHEN), (2, 65536, 3, 97), (2 ** 64 - 1, 2 ** 64 - 1, 0, 97)]
        results, items = wanted(Setter(data, 0, 1 << 20, False), text, spans)
        self.same("spans", (DONE, (5, len(items)), results, items), self.called(self.prepared(data), Options(), text, spans))

    def test_out_of_range(self):
        data, span = sample("demo"), (0, 1, 3, NO_HYPHEN)
        table = self.prepared(data)
        for options, spans in ((Options(policy=1), [span]), (Options(crlf=1), [span]), (Options(size=1 << 27), [span]),
                               (Options(limit=(1 << 24) + 1), [span]), (Options(), [span, (0, 1, 4, NO_HYPHEN)]),
                               (Options(), [(0, 1, 0, 257), span])):
            for font in (data, table, b"no font"):
                self.refused(RANGE, font, options, spans)
        self.refused(RANGE, table, Options(size=1), [span])
        for font in (data[:50], table[:-1], b"", b"\xf7TFM", table[:4] + b"\1" + table[5:]):
            self.refused(REFUSED, font, Options(), [span])

    def refused(self, code, font, options, spans):
        """A call returns a code and changes nothing."""
        empty = [(0,) * 7] * len(spans)
        self.same((code, spans), (code, (77, 88), empty, []), self.called(font, options, b"ox", spans))

    def test_null(self):
        data, counts, options = sample("demo"), Counts(), Options()
        for font in (data, self.prepared(data)):
            first = font, len(font), ctypes.byref(options), None, 0, None, 0, None, 0
            self.same("spans", DONE, loaded(self.prefix).tfmset_spans(*first, ctypes.byref(counts)))
            self.same("items", DONE, loaded(self.prefix).tfmset_span_items(*first, None, 0, ctypes.byref(counts)))

    @rows((f"seeds from {first}", first) for first in range(0, 4000, 1000))
    def test_changed_tables(self, first):
        """A table with changed bytes gives any results; a call always returns, within its arrays."""
        tables = [self.prepared(sample(name)) for name in ("demo", "endless_3", "left_boundary", "largest")]
        for seed in range(first, first + 1000):
            chance = random.Random(seed)
            table = bytearray(chance.choice(tables))
            for _ in range(chance.choice([1, 3, 30])):
                table[chance.randrange(12 if chance.random() < .1 else 2084, len(table))] = chance.choice([0, 255, chance.randrange(256)])
            if chance.random() < .2:
                table[8:] = chance.randbytes(len(table) - 8)
            spans = [(chance.randrange(9), chance.randrange(9), chance.randrange(4), chance.randrange(257)) for _ in range(5)]
            options = Options(0, chance.choice([0, 655360]), chance.choice([1, 50]))
            code = self.called(bytes(table), options, chance.randbytes(16), spans)[0]
            self.assertIn(code, (DONE, REFUSED, RANGE), seed)
