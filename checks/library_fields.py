"""The header, the Python module, the exported functions and docs/LIBRARY.md, compared with each other.

The fields of the header must be where the Python module has them, and the attributes of the module must have
the values that lib/tfm.py reads from the font, or those of docs/ERRORS.md and of the program's records. The
constants must be the numbers that the library takes and returns, and the return codes of each function those of
its contract. A name that isn't compared fails.
"""
import ctypes
import inspect
import itertools
import json
import re
import struct
import typing

from lib.base import DEMO, PROGRAM, ROOT, execute, files, has, output, read
from lib.clib import Form, Line, Options, Placed, Span, encode, loaded
from lib.docs import font_errors
from lib.tfm import BOUNDARY, NAMES, Font, changed, make, path_of, sample, scaled
from library import between
from library_lines import LinesCase

WEIGHT = 5
STRUCTS = {"_Uncoded": "uncoded", "_Encoded": "encoded", "_Fault": "fault", "_About": "about", "_Character": "character",
           "_Pair": "pair", "_Options": "options", "_Form": "form", "_Counts": "counts", "_Line": "line", "Item": "item"}
# Structs and functions that the module doesn't use.
OWN_STRUCTS = {"span": Span, "placed": Placed}
OWN_FUNCTIONS = ("prepare", "spans", "span_items")
PARAMETERS = "slant space stretch shrink x_height quad extra_space".split()
TABLES = "header char_info width height depth italic lig_kern kern exten param".split()
NAMED = {2: NAMES, **dict.fromkeys((5, 10, 12, 13), TABLES), 14: "restart next ligature kern skip".split()}
KINDS = {"c": "CHARACTER", "k": "KERN", "s": "SPACE", "m": "SKIPPED"}
REFUSALS = {None: "SET", "missing": "MISSING", "too-long": "TOO_LONG", "steps": "TOO_MANY_STEPS"}
SPANS = ("OUTSIDE", "LEFT_EDGE", "RIGHT_EDGE", "NO_HYPHEN")
SAMPLES = ("demo", "left_boundary", "ligature_7", "no_characters")
# The lines are set, have too many steps, or a missing character, and one is too long.
TEXT, SETTINGS = b"a b\nab\nab|ac ad\naQ\n" + b"a" * 65536 + b"\n", ((2, "refuse"), (1 << 24, "skip"))
# Types of the parameters of the exported functions in the sources, in the header and in the module. The header has a
# length after each array, and for a few parameters another name.
TYPES = {"u32": ("uint32_t", ctypes.c_uint32), "u64": ("uint64_t", ctypes.c_uint64)}
POINTERS = {"u8": "uint8_t", "u32": "uint32_t", "i32": "int32_t", "usize": "size_t",
            **{"Tfmset" + title.title(): "struct tfmset_" + title for title in (*STRUCTS.values(), *OWN_STRUCTS)}}
OTHER_NAMES = {"told": "fault", "report": "encoded"}
OFFSETS = """#include <stddef.h>
#include <stdio.h>
#include <tfmset.h>
#define F(s, f) { struct tfmset_##s it; it.f = 0; it.f--; printf(#s " " #f " %zu %zu %d\\n", \\
    offsetof(struct tfmset_##s, f), sizeof it.f, (double)it.f < 0); }
#define S(s, f) printf(#s " " #f " %zu %zu 0\\n", offsetof(struct tfmset_##s, f), sizeof(struct tfmset_##f));
int main(void) { FIELDS return 0; }
"""


def every_field():
    """A font in which all values that the module reports about it, and about a character, differ."""
    infos = [(1, 0x12, 0x0D, 1), (2, 0x21, 0x0A, 99), (3, 0x11, 0x0B, 0), (4, 0x22, 0x08, 0)]
    program = [(255, 124, 0, 0), (0, 98, 128, 0), (0, 99, 6, 100), (0, 100, 11, 99), (128, 124, 128, 2),
               (128, 97, 128, 1), (255, 0, 0, 5)]
    numbers = iter(range(70_000, 2_000_000, 90_001))
    widths, heights, depths, italics = ((0, *itertools.islice(numbers, n)) for n in (4, 2, 2, 3))
    params = (-300_000, *itertools.islice(numbers, 8))
    font = make(infos, widths, program, (-40_000, 50_000, -60_000), params, exten=[(97, 98, 99, 100)],
                heights=heights, depths=depths, italics=italics)
    return changed(font, "6: 87654321")


def about(font, size):
    """The attributes of a Font, except those that are functions."""
    check_sum, design = (int.from_bytes(font.data[at:at + 4], "big") for at in (24, 28))
    slant, *others = (font.fixes("param") + [0] * 7)[:7]
    return {**dict(zip(PARAMETERS, [slant, *(scaled(fix, size) for fix in others)])), "data": font.data,
            "size": size, "design_size": design >> 4, "check_sum": check_sum, "right_boundary": font.right,
            "left_boundary": font.left is not None, "parameters": (*([slant] * bool(font.lengths["param"])), *(
                scaled(fix, size) for fix in font.fixes("param")[1:])),
            "coding_scheme": font.header_text(2, 40), "family": font.header_text(12, 20),
            "kerns": font.lengths["kern"], "instructions": font.lengths["program"]}


def characters(font, size):
    """The attributes of the Metrics of each code."""
    names = ("width", "height", "depth", "italic")
    tables = [[scaled(fix, size) for fix in font.fixes(name)] for name in names]
    for code in range(256):
        width, both, last, rest = font.infos.get(code, (0,) * 4)
        indices, tag = (width, both // 16, both % 16, last // 4), last % 4
        found = {name: table[i] for name, table, i in zip(names, tables, indices)}
        recipe = font.recipes[rest] if tag == 3 else None
        yield {**found, "tag": tag, "remainder": rest if tag else 0, "recipe": recipe} if width else {}


def pairs(font, size):
    """The attributes of the Kern or the Ligature between two neighbours, by these."""
    kerns, codes = [scaled(fix, size) for fix in font.fixes("kern")], [*font.codes, BOUNDARY]
    for pair in itertools.product(codes, codes):
        action, kern, *others = between(font, kerns, *pair) or (0, 0)
        ligature = dict(zip(("code", "keep_left", "keep_right", "passed"), others))
        yield pair, ({}, {"width": kern}, ligature)[action]


def fault(message):
    """The attributes of a FontRefused, for an error as the program prints it."""
    number, *words = re.findall(r"\w+", message)
    named = [word for word in words if word in NAMED.get(int(number), [])]
    place = [int(word) for word in words if word.isdigit() and number != "6"]
    found = int(number), [*named, ""][0], [*place, 0][0]
    return {"args": (*found, message), **dict(zip(("number", "named", "place"), found))}


def types_of(*values):
    """The types of values, as a text. Those of the elements of lists, and of each element of tuples, are joined."""
    arrays, lists, tuples = ([one for one in values if isinstance(one, kind) and not hasattr(one, "_fields")]
                             for kind in (ctypes.Array, list, tuple))
    found = {type(one).__name__ for one in values if not any(one is each for each in arrays + lists + tuples)}
    found |= {f"Array[{one._type_.__name__}]" for one in arrays}
    found |= {f"list[{types_of(*itertools.chain(*lists))}]"} if lists else set()
    found |= {f"tuple[{', '.join(types_of(*column) for column in zip(*tuples))}]"} if tuples else set()
    return " | ".join(sorted(found))


def types_in(annotation):
    """The text of `types_of` for the values that an annotation permits."""
    origin, parts = typing.get_origin(annotation), [types_in(part) for part in typing.get_args(annotation)]
    joined = " | ".join(sorted(parts)) if origin is typing.Union else ", ".join(parts)
    return joined if origin is typing.Union else f"{origin.__name__}[{joined}]" if parts else annotation.__name__


class Fields(LinesCase):
    """Fields, constants and attributes"""

    def setUp(self):
        super().setUp()
        self.header = re.sub(r"/\*.*?\*/", "", read(self.prefix + "/include/tfmset.h"), flags=re.S)
        found = re.findall(r"^#define TFMSET_(\w+) (\d+)u$", self.header, re.M)
        self.constants = {name: int(number) for name, number in found}

    def test_fields(self):
        """The fields of the header have the order, the offsets and the types of those of the module."""
        structs = re.findall(r"^struct tfmset_(\w+) \{(.*?)^\};", self.header, re.M | re.S)
        fields = "".join(f"{'S' if kind else 'F'}({name}, {field}) " for name, body in structs
                         for kind, field in re.findall(r"(struct tfmset_\w+ )?(\w+)\s*[,;]", body))
        source = self.file("offsets.c", OFFSETS.replace("FIELDS", fields))
        seen, wanted = self.output(self.built(source, "cc", "-std=c99")).splitlines(), []
        own = {title: getattr(self.tfmset, name) for name, title in STRUCTS.items()} | OWN_STRUCTS
        for title, one in own.items():
            for field, kind in one._fields_:
                place = getattr(one, field)
                field = "pass" if field == "passed" else field  # `pass` is a word of Python.
                sign = 0 if issubclass(kind, ctypes.Structure) else int(kind(-1).value < 0)
                wanted.append(f"{title} {field} {place.offset} {place.size} {sign}")
        self.same("fields", sorted(wanted), sorted(seen))

    def test_parameters(self):
        """The functions of the header and of the module have the parameters of the exported functions."""
        sources = "".join(read("crates/tfmset_c/src/" + name) for name in files(ROOT + "/crates/tfmset_c/src"))
        exported = re.findall(r'extern "C" fn tfmset_(\w+)\((.*?),?\s*\) -> u32\n', sources, re.S)
        declared = dict(re.findall(r"^uint32_t tfmset_(\w+)\((.*?)\);", self.header, re.M | re.S))
        self.same("functions", set(declared), {name for name, _ in exported})
        for name, text in exported:
            wanted, kinds = [], []
            for parameter, kind in re.findall(r"(\w+): ([^,]+)", re.sub(r"^\s*alloc: Global,?\s*", "", text)):
                parameter = OTHER_NAMES.get(parameter, parameter)
                if kind in TYPES:
                    wanted.append(f"{TYPES[kind][0]} {parameter}")
                    kinds.append(TYPES[kind][1])
                    continue
                changes, array, of = re.fullmatch(r"&(mut )?(\[)?(\w+)\]?", kind).groups()
                wanted += [f"{'' if changes else 'const '}{POINTERS[of]} *{parameter}"]
                wanted += [f"size_t {parameter}_length"] if array else []
                text = array and not changes and of == "u8"
                kinds += [ctypes.c_char_p if text else ctypes.c_void_p] + [ctypes.c_size_t] * bool(array)
            self.same(name, wanted or ["void"], [" ".join(one.split()) for one in declared.get(name, "").split(",")])
            library = loaded(self.prefix) if name in OWN_FUNCTIONS else self.tfmset._library
            function = getattr(library, "tfmset_" + name)
            self.same(f"{name} in the module", (kinds, ctypes.c_uint32), (list(function.argtypes), function.restype))

    def test_largest_numbers(self):
        """The largest numbers of a source and a line are those of the record, in C and in Python."""
        source, first = (1 << 64) - 1, (1 << 64) - 2
        record = f"{source}:{first} set 334233 c111=334233\n".encode()
        font = self.tfmset.Font(read(DEMO, "rb"))
        self.same("in Python", record, font.records(b"o", source=source, first_line=first))
        out = self.built("checks/lib/largest.c", "cc", "-std=c99")
        self.same("in C", record.decode(), self.output(out, given=DEMO))

    def test_constants(self):
        """The constants are the numbers that the library takes and returns."""
        library, data, line = self.tfmset._library, read(DEMO, "rb"), ctypes.create_string_buffer(48)
        font, out, room = (data, len(data)), ctypes.create_string_buffer(99), ctypes.create_string_buffer(1 << 20)

        def widths(limit, policy=0, lines=1, text=b"Q", font=font):
            options = ctypes.byref(self.tfmset._Options(0, 0, limit, policy))
            code = library.tfmset_widths(*font, options, text, len(text), line, lines, out)
            found = self.tfmset._Line.from_buffer(line)
            return code, found.refusal, found.steps

        def header_text(which):
            code = library.tfmset_header_text(*font, which, room, 40, out)
            return room.raw[:ctypes.c_size_t.from_buffer(out).value].decode() if code == 0 else None

        endless, head = read(path_of("endless_3"), "rb"), Font(data)

        policies = {widths(9, policy)[1]: policy for policy in (0, 1)}
        seen = {
            "DONE": widths(9)[0], "NO_ROOM": widths(9, lines=0)[0], "OUT_OF_RANGE": widths((1 << 24) + 1)[0],
            "FONT_REFUSED": library.tfmset_check(data, 9, out), "REFUSE": policies[1], "SKIP": policies[0],
            "BOUNDARY": max(pair[1] for pair in self.tfmset.Font(data).pairs()),
            "MOST_STEPS": max(limit for limit in range((1 << 24) - 1, (1 << 24) + 2) if not widths(limit)[0]),
            "DEFAULT_LIMIT": widths(0, text=b"aa", font=(endless, len(endless)))[2],
            "CODING_SCHEME": next(n for n in (0, 1) if header_text(n) == head.header_text(2, 40)),
            "FAMILY": next(n for n in (1, 0) if header_text(n) == head.header_text(12, 20)),
            "NOT_UTF8": encode(self.prefix, "t1", b"\xff", 1, 1, 1)[0],
            "JSON": next(n for n in (1, 2, 3) if self.tfmset.Font(data).records(b"o", version=n)[:1] == b"{")}
        # test_attributes, library_lines.c, library.py and library_spans.py compare the others.
        others = {*KINDS.values(), *REFUSALS.values(), "OUT_OF_MEMORY", "VERSION", *SPANS}
        self.same("constants", seen, {name: n for name, n in self.constants.items() if name not in others})
        names = {"TFMSET_" + name for name in ("H", "ASSERT", "LAYOUT", *seen, *others)}
        self.same("names", names, set(re.findall(r"#define (\w+)|\benum\b", self.header)))
        functions = set(re.findall(r"^uint32_t tfmset_(\w+)\(const", self.header, re.M))
        called = set(re.findall(r"(?:CALLED|LIST_REPORTS_FAILURE)\((\w+), ", read("checks/lib/library_lines.c"))) - {"name"}
        self.same("functions whose allocations are counted", functions, called)

    def fonts(self):
        """Paths, readers and sizes: of the font above, of samples, and of fonts of TeX if there are any."""
        found = [("every_field", every_field(), size) for size in (900_000, 655_360)]
        found += [(name, sample(name), 777_777) for name in SAMPLES]
        for name in ("cmr10", "cmex10") if has("cmr10") else ():
            found.append((name, read(output("kpsewhich", name + ".tfm").strip(), "rb"), 1_000_000))
        return [(self.file(name, content), Font(content), size) for name, content, size in found]

    def has(self, wanted, value):
        """Compares the public attributes that aren't functions, and records the class."""
        found = {name: getattr(value, name) for name in dir(value) if name[0] != "_"}
        seen = {name: each for name, each in found.items() if not callable(each)}
        if isinstance(seen.get("items"), ctypes.Array):
            seen["items"] = [(item.kind, item.code, item.width) for item in seen["items"]]
        self.classes.add(type(value).__name__)
        self.same(value, wanted, seen)
        if isinstance(value, tuple):
            names = tuple(wanted)[:len(value)]
            self.same(value, (names, tuple(wanted[name] for name in names)), (value._fields, tuple(value)))

    def compare_lines(self, found, size, path, limit, missing):
        """Compares the lines and items of the text with the program's records."""
        words = ["--size", str(size), "--record", "json", "--limit", str(limit), "--missing", missing, path]
        records, every = execute(PROGRAM, "stream", *words, given=TEXT)[1].splitlines()[:-1], []
        for record, line, own in zip(map(json.loads, records), found, found._lines):
            items, reason = [], record.get("refused")
            for kind, *numbers in record.get("items", []):
                fields = {"c": numbers, "m": numbers + [0]}.get(kind, [0] + numbers)
                items.append((self.constants[KINDS[kind]], *fields))
            packed = b"".join(struct.pack("IIi", *item) for item in items)
            wanted = {"width": record.get("width"), "steps": record.get("steps"), "packed": packed, "items": items}
            if reason:
                place = record.get("offset", record.get("bytes", 0))
                wanted = {"reason": reason, "place": place, "code": record.get("code", 0)}
            self.has(wanted, line)
            self.same(record, self.constants[REFUSALS[reason]], own.refusal)
            every += items
        self.same("lines", len(records), len(found))
        self.has({"items": every}, found)
        for item, one in zip(every, found.items):
            self.has(dict(zip(("kind", "code", "width"), item)), one)

    def test_attributes(self):
        """The attributes of all objects and of the module."""
        self.classes = set()
        for path, font, size in self.fonts():
            seen = self.tfmset.Font.from_file(path, size)
            self.has(about(font, size), seen)
            for code, wanted in enumerate(characters(font, size)):
                self.has(wanted, seen.metrics(code))
                if wanted.get("recipe"):
                    self.has(dict(zip(("top", "middle", "bottom", "repeated"), wanted["recipe"])), seen.metrics(code).recipe)
            for pair, wanted in pairs(font, size):
                self.has(wanted, seen.pair(*pair))
            for settings in SETTINGS:
                self.compare_lines(seen.set(TEXT, *settings), size, path, *settings)
        for message, content in font_errors():
            with self.assertRaises(self.tfmset.FontRefused) as raised:
                self.tfmset.Font(content)
            self.has(fault(message), raised.exception)
        with self.assertRaises(self.tfmset.EncodingError) as raised:
            self.tfmset.encode("ß\n\u20ac", "ot1")
        fields = {"encoding": "ot1", "place": 2, "character": "\u20ac"}
        self.has({"args": ("ot1", 2, "\u20ac"), **fields}, raised.exception)
        span = self.tfmset.Span(1, 2)
        self.has({"offset": 1, "length": 2, "left": True, "right": True, "hyphen": None}, span)
        placed = self.tfmset.Font(ARGUMENTS["data"]).span_items(b"box", [span])[0]
        items = ((0, 111, 334233, 1, 1), (1, 0, -16384, 2, 0), (0, 120, 347340, 2, 1))
        self.has({"width": 665189, "steps": 3, "items": items}, placed)
        for item, one in zip(items, placed.items):
            self.has(dict(zip(("kind", "code", "width", "offset", "length"), item)), one)
        found = {name: getattr(self.tfmset, name) for name in self.tfmset.__all__}
        wanted = {name: self.constants[name] for name in ("BOUNDARY", *KINDS.values())}
        wanted.update({"ENCODINGS": ("ot1", "t1", "ly1", "latin1"), "POINT": 65536,
                       "__version__": ".".join(str(self.constants["VERSION"] // 1000 ** n % 1000) for n in (2, 1, 0))})
        self.same("constants", wanted, {name: value for name, value in found.items() if not callable(value)})
        self.same("names", set(found), {*wanted, *self.classes, "encode", "version"} - {"NoneType"})

    def results(self):
        """Functions of the module, each with an overload or itself, valid arguments, and results of all kinds."""
        own, data = self.tfmset, ARGUMENTS["data"]
        font, text = own.Font(data), b"ox\nQ"
        lines, plain, encoded = font.set(text), {"text": text}, {"text": text.decode(), "encoding": "t1"}
        settings = {"limit": 1, "missing": "skip", "crlf": True, "call_limit": 1}
        more, spans = {"version": 1, "source": 1, "first_line": 1}, [own.Span(0, 2), own.Span(1, 9)]
        yield "version", own.version, {}, [own.version()]
        yield "encode", own.encode, {**encoded, "missing": "skip"}, [own.encode(**encoded)]
        yield "Font", own.Font.__init__, {"data": data, "size": 1}, [None]
        yield "Font.from_file", own.Font.from_file, {"size": 1}, [own.Font.from_file(DEMO)]
        yield "Font.metrics", font.metrics, {"code": 1}, map(font.metrics, (97, 65))
        yield "Font.pair", font.pair, {"left": 1, "right": 1}, (font.pair(*pair) for pair in (b"ox", b"fi", b"oo"))
        yield "Font.pairs", font.pairs, {}, [font.pairs()]
        yield "Font.prepare", font.prepare, {}, [font.prepare()]
        for function in own.Font.spans, own.Font.span_items:
            for form, given in zip(typing.get_overloads(function), ({"text": b"ox"}, {**encoded, "missing": "skip"}), strict=True):
                given = {**given, "spans": spans, "limit": 1, "call_limit": 1}
                yield f"Font.{function.__name__}", form, given, [function(font, b"ox", spans)]
        for name, added in (("set", {}), ("widths", {}), ("records", more)):
            for function, given in zip(typing.get_overloads(getattr(own.Font, name)), (plain, encoded), strict=True):
                result = getattr(font, name)(**given)
                yield f"Font.{name}", function, {**given, **settings, **added}, [result]
        for function, index in zip(typing.get_overloads(own.Lines.__getitem__), (0, slice(0, 2)), strict=True):
            yield "Lines", function, {"index": index}, [lines[index], lines[1]][:2 - isinstance(index, slice)]
        yield "Lines.items", own.Lines.items.fget, {}, [lines.items]
        yield "Line.items", own.Line.items.fget, {}, [lines[0].items]
        yield "len", own.Lines.__len__, {}, [len(lines)]
        for one in (font, lines, lines[0]):
            yield "repr", type(one).__repr__, {}, [repr(one)]

    def taken(self, title, given, name):
        """The types of the values that a function takes for an argument."""
        own, words = self.tfmset, {"encoding": "t1", "missing": "skip", "size": "9pt"}
        content = {"data": ARGUMENTS["data"], "encoding": b"/E [" + b" /x" * 256 + b" ] def"}.get(name, b"ox")
        font = own.Font(ARGUMENTS["data"])
        lines = font.set(b"ox\nox")
        call = {"encode": own.encode, "Font": own.Font, "Lines": lambda index: lines[index],
                "Font.from_file": lambda **more: own.Font.from_file(DEMO, **more)}.get(title)
        call, found = call or getattr(font, title[5:]), []
        for value in (None, 0, 1, 1.0, words.get(name, "ox"), content, bytearray(content), memoryview(content), [1],
                      slice(0, 1), *([True] if name == "crlf" else [])):
            try:
                call(**{**given, name: value})
            except (TypeError, ValueError):
                continue
            # An overload of `Lines` is for one of the types of indices.
            found += [value] if title != "Lines" or isinstance(value, type(given[name])) else []
        return types_of(*found)

    def test_annotations(self):
        """The annotations are the types of the results and of the arguments that are taken, for each overload."""
        own = self.tfmset
        for title, function, given, results in self.results():
            hints, plain = typing.get_type_hints(function), inspect.signature(function).parameters
            self.same(f"{title}: its result", types_of(*results), types_in(hints.pop("return")))
            if "path" in hints:
                self.same("path", "PathLike[str] | str", types_in(hints.pop("path")))
            if "spans" in hints:
                self.same("spans", "Sequence[Span]", types_in(hints.pop("spans")))
            self.same(f"{title}: arguments", set(given) - {"spans"}, set(hints))
            for name, kind in hints.items():
                # With bytes, `encoding` is left out; no overload has None for it.
                self.same(f"{title}: {name}", self.taken(title, given, name), types_in(kind))
            if function.__name__ in ("set", "widths", "records"):
                whole = inspect.signature(getattr(own.Font, function.__name__)).parameters
                shown = [{name: (one.default, one.kind) for name, one in every.items() if name != "encoding"}
                         for every in (whole, plain)]
                self.same(f"{title}: defaults", *shown)
                self.same(f"{title}: encoding", "encoding" in given, "encoding" in plain)
        fonts = [own.Font.from_file(path, size) for path, _, size in self.fonts()]
        lines = fonts[2].set(b"o\nA")  # of demo.tfm
        metrics = [one for one in map(fonts[0].metrics, range(256)) if one]
        objects = {own.Font: fonts, own.Metrics: metrics, own.Recipe: [one.recipe for one in metrics if one.recipe],
                   own.Kern: [own.Kern(1)], own.Item: lines.items,
                   own.Ligature: [one for _, _, one in fonts[0].pairs() if isinstance(one, own.Ligature)],
                   own.Refusal: [lines[1]]}
        for kind, values in objects.items():
            hints = {name: one for name, one in typing.get_type_hints(kind).items() if name[0] != "_"}
            if hints.get("parameters") == typing.Tuple[int, ...]:
                self.same("parameters", {int}, {type(each) for one in values for each in one.parameters})
                del hints["parameters"]
            self.same(kind, {name: types_of(*(getattr(one, name) for one in values)) for name in hints},
                      {name: types_in(one) for name, one in hints.items()})

    def test_macros(self):
        """A program that includes the header gets its constants, and the macros of two standard headers."""
        for tool, language, standard in (("cc", "c", "-std=c99"), ("c++", "c++", "-std=c++98")):
            self.need(tool)
            include, own = "#include <stddef.h>\n#include <stdint.h>\n", "#include <tfmset.h>\n"
            command = tool, "-x", language, standard, "-dM", "-E", "-I" + self.prefix + "/include", "-"
            before, after = (set(output(*command, given=text.encode()).splitlines()) for text in (include, include + own))
            wanted = {f"#define TFMSET_{name} {number}u" for name, number in self.constants.items()}
            self.same("macros", wanted | {"#define TFMSET_H"}, {line.strip() for line in after - before})
            alone = set(output(*command, given=own.encode()).splitlines())
            self.same("headers that it includes", after, alone)


CODES = ("DONE", "FONT_REFUSED", "OUT_OF_MEMORY", "NO_ROOM", "OUT_OF_RANGE", "NOT_UTF8")
# The arguments of a call, except arrays and the last one, and what changes the code that it returns.
ARGUMENTS = {"data": read(DEMO, "rb"), "size": 0, "policy": 0, "options": Options(), "encoding": b"t1", "text": b"ox",
             "form": Form(1, 1, 1), "line": Line(refusal=3), "spans": (Span * 1)((0, 2, 3, 256)), "room": 256, "table": 8192}
OTHERS = ({}, {"data": b"no font"}, {"room": 0, "table": 0}, {"data": b"no font", "room": 0, "table": 0},
          {"size": 1 << 27, "options": Options(size=1 << 27), "line": Line(refusal=5)},
          {"encoding": b"Ot1"}, {"text": b"\xff"}, {"text": b"12pt"})
FORMS = {"size": "text", "encode": "encoding text room room room", "check": "data", "fault_text": "data room", "font": "data size",
         **dict.fromkeys(("characters", "parameters", "pairs", "header_text"), "data size room"),
         "set": "data options text room room", "widths": "data options text room",
         "records": "data options encoding text form room", "refusal_text": "line room", "prepare": "data size table",
         "spans": "data options text spans room", "span_items": "data options text spans room room"}
LAST = {"size": ctypes.c_uint32, "encode": "_Encoded", "check": "_Fault", "font": "_About",
        **dict.fromkeys(("set", "widths", "spans", "span_items"), "_Counts")}
ROOM = 16384  # bytes of each array; all of them, and of the last argument, have this value before a call
BEFORE = b"\x55"


class Codes(LinesCase):
    """The return codes, and what is written"""

    def call(self, name, **changes):
        """The return code, and whether the last argument and an array were written to."""
        arguments, memory = [], []
        for word in FORMS[name].split():
            value = {**ARGUMENTS, **changes}[word]
            array = word in ("room", "table")
            memory += [ctypes.create_string_buffer(BEFORE * ROOM, ROOM)] if array else []
            first = [memory[-1]] if array else [value] if isinstance(value, (bytes, ctypes.Array)) else []
            value = ctypes.byref(value) if isinstance(value, ctypes.Structure) else value
            arguments += [*first, len(value) if isinstance(value, (bytes, ctypes.Array)) else value]
        kind = LAST.get(name, ctypes.c_size_t)
        kind = getattr(self.tfmset, kind) if isinstance(kind, str) else kind
        before = BEFORE * ctypes.sizeof(kind)
        last = kind.from_buffer_copy(before)
        code = getattr(loaded(self.prefix), "tfmset_" + name)(*arguments, ctypes.byref(last))
        return code, bytes(last) != before, any(array.raw != BEFORE * ROOM for array in memory)

    def contracts(self):
        """The codes that each function returns, by the clause `answers` of its contract and by `IsAnswer`."""
        sources = "".join(read("crates/tfmset_c/src/" + name) for name in files(ROOT + "/crates/tfmset_c/src"))
        words, found = {"≤": "<=", "≢": "!=", "≡": "==", "×": "and", "⊎": "or"}, {}
        (most,) = re.findall(r"^  pub code : (answer ≤ \d)$", read("crates/tfmset_c/specs/Reading.antt"), re.M)
        form = (r'extern "C" fn tfmset_(\w+)\([^{]*?\) -> u32\s+(?:ensures answers \{ (.*?) \}\n\s+)?'
                r'(ensures font \{ IsAnswer(?:For)? )?')
        for name, clause, is_answer in re.findall(form, sources):
            if not clause and not is_answer:
                continue
            clause = " × ".join(filter(None, (f"({clause})" if clause else "", is_answer and most.replace("answer", "result"))))
            clause, codes = "".join(words.get(character, character) for character in clause), range(len(CODES))
            found[name] = {code for code in codes if eval(clause, {"result": code})}  # pylint: disable=eval-used
        return found

    def test_codes_and_what_is_written(self):
        """Each function returns the codes of its contract, and writes what the table of LIBRARY says."""
        contracts, header = self.contracts(), " ".join(read("include/tfmset.h").split())
        self.same("functions", set(FORMS), set(contracts))
        table = re.search(r"^\| Code \| (`tfmset_check`.*?)\n\|[-|]*\n(.*?)\n\n", read("docs/LIBRARY.md"), re.M | re.S)
        columns = [re.findall(r"`(?:tfmset)?_(\w+)`", cell) for cell in table[1].split("|")[:5]]
        lines = [line.strip("| ").split(" | ") for line in table[2].split("\n")]
        for name in FORMS:
            seen = {}
            for code, *written in (self.call(name, **more) for more in OTHERS):
                seen[code] = [one or other for one, other in zip(written, seen.get(code, (False, False)))]
            # library_lines.c lets allocations fail, and compares the last argument.
            self.same(f"{name}: codes", contracts[name] - {2}, set(seen))
            comment = re.search(rf"/\*((?:(?!\*/).)*)\*/ (?:#define \w+ \d+u )*uint32_t tfmset_{name}\(", header)[1]
            codes = {CODES.index(code) for code in re.findall(r"TFMSET_(\w+)", comment) if code in CODES}
            self.same(f"{name}: other codes in its comment", set(), codes - contracts[name])
            for code, (written, arrays) in seen.items():
                (cell,) = (row[1 + next(i for i, names in enumerate(columns) if name in names)] for row in lines
                           if str(code) in row[0].split(", "))
                self.same(f"{name}, {code}: {cell}", (written, arrays), (
                    bool(re.search(r"struct|the size|count|\*length", cell)),
                    bool(re.search(r"arrays?\b|the pairs|the codes", cell)) and (arrays or code == 0)))
