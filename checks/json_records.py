"""What `--record json` prints, compared with `--record 2`, line by line and field by field.

Python's json must be able to read each line of JSON, in which no name occurs twice. Written again without
spaces it must be the same line. Its names must be in the order of docs/OUTPUT.md, and its values must be those
of the line in record format 2. It must also conform to docs/records.schema.json; the validator here has the
keywords that the schemas use. If Python's jsonschema is installed, it has to agree about the lines of the tables.
The lines of `check --format json` are compared with those of text, and with docs/check.schema.json; the objects of
`list --format json` with the lines of text, with tftopl, and with docs/list.schema.json.
"""
import functools
import json
import re

from against_tftopl import Comparison
from lib.base import PROGRAM, Case, execute, output, read, rows, table
from lib.docs import blocks, text_of, worked_examples
from lib.tex import fonts
from lib.tfm import path_of, sample, samples
from library_lines import LinesCase

WEIGHT = 3
CASES, SCHEMA = table("json_records"), json.loads(read("docs/records.schema.json"))
FINDINGS = json.loads(read("docs/check.schema.json"))
LISTING = json.loads(read("docs/list.schema.json"))
UNNAMED = ("remainder", "action", "value", "bytes")  # names that the text of a listing doesn't have
BOUNDS = {"minimum", "maximum", "minLength", "maxLength", "minItems", "additionalProperties", "required"}
KNOWN = {"$schema", "title", "description", "$defs", "$ref", "allOf", "oneOf", "type", "const", "enum",
         "minimum", "maximum", "minLength", "maxLength", "pattern", "prefixItems", "items", "minItems", "properties",
         "required", "additionalProperties"}
TYPES = {"object": dict, "array": list, "integer": int, "string": str, "boolean": bool}
# All bytes in words and by themselves, spaces, empty lines, lines on both sides of the longest, and some
# without a last line feed.
TEXTS = {
    "lines": read("examples/lines.txt", "rb"), "demo": read("examples/demo.txt", "rb"),
    "letters": b"a\nab\nabc\naa d\n\n  \nab abc\ndad\nacb abb cb\na|b\n",
    "bytes": bytes(range(256)) + b"\n" + b"\n".join(bytes([byte]) for byte in range(256)) + b" ab",
    "long": b"a" * 65535 + b"\n" + b"d" * 65536 + b"\n" + b" " * 65535 + b"\n" + b"a" * 70000,
    "nothing": b"",
}


class Wrong(Exception):
    """An error of a line."""


def item_of(word):
    """An item of JSON, by its field in record format 2."""
    if re.fullmatch("u[0-9A-F]{4,6}", word):
        return ["u", int(word[1:], 16)]
    found = re.fullmatch(r"(c)(\d+)=(-?\d+)|([ks])(-?\d+)|(m)(\d+)", word)
    if not found:
        raise Wrong(f"not an item: {word!r}")
    kind, *numbers = (part for part in found.groups() if part)
    return [kind, *map(int, numbers)]


def pairs_of_record(line):
    """The names and values of a line of record format 2, in order."""
    for found in filter(None, (re.fullmatch(form, line) for form in CASES["forms"])):
        return [(name, [item_of(word) for word in text.split()] if name == "items"
                 else text if name in ("end", "refused") else int(text, 16 if name == "character" else 10))
                for name, text in found.groupdict().items()]
    raise Wrong(f"not a line of record format 2: {line!r}")


def pairs_of_json(line):
    """The names and values of a line of JSON, in order."""
    def refuse(word):
        raise Wrong(f"not an integer: {word}")

    try:
        pairs = json.loads(line, object_pairs_hook=list, parse_float=refuse, parse_constant=refuse)
    except json.JSONDecodeError as error:
        raise Wrong(f"{line[:200]!r}: {error}") from error
    if not isinstance(pairs, list) or not all(isinstance(pair, tuple) for pair in pairs):
        raise Wrong(f"not an object: {line[:200]!r}")
    if json.dumps(dict(pairs), separators=(",", ":")) != line or len(dict(pairs)) != len(pairs):
        raise Wrong(f"written again it is another line: {line[:200]!r}")
    return pairs


def is_valid(value, its, root=None):
    """Whether a value conforms to a schema, or to a part of the schema `root`, by the keywords of KNOWN."""
    root = its if root is None else root
    if isinstance(its, bool):
        return its
    if not set(its) <= KNOWN:
        raise Wrong(f"keywords of the schema that aren't known here: {sorted(set(its) - KNOWN)}")
    if "$ref" in its and not is_valid(value, functools.reduce(dict.get, its["$ref"].split("/")[1:], root), root):
        return False
    if not all(is_valid(value, one, root) for one in its.get("allOf", [])):
        return False
    if "oneOf" in its and sum(is_valid(value, one, root) for one in its["oneOf"]) != 1:
        return False
    if "type" in its and type(value) is not TYPES[its["type"]]:
        return False
    if value != its.get("const", value) or value not in its.get("enum", [value]):
        return False
    if type(value) is int and not its.get("minimum", value) <= value <= its.get("maximum", value):
        return False
    if isinstance(value, str):
        long = its.get("minLength", 0) <= len(value) <= its.get("maxLength", len(value))
        return long and re.search(its.get("pattern", ""), value) is not None
    if isinstance(value, list):
        first = its.get("prefixItems", [])
        parts = list(zip(value, first)) + [(one, its.get("items", True)) for one in value[len(first):]]
        return len(value) >= its.get("minItems", 0) and all(is_valid(*part, root) for part in parts)
    if isinstance(value, dict):
        names, others = its.get("properties", {}), its.get("additionalProperties", True)
        return (set(its.get("required", [])) <= set(value)
                and all(is_valid(one, names.get(name, others), root) for name, one in value.items()))
    return True


def bounds_of(node):
    """The bounds of a schema: each with the object that has it."""
    for name, value in list(node.items() if isinstance(node, dict) else enumerate(node)):
        if name in BOUNDS or value is False:
            yield node, name
        elif isinstance(value, (dict, list)):
            yield from bounds_of(value)


def loose_bounds(schema, lines):
    """The bounds without which a schema refuses the same lines, and the number of all bounds."""
    bounds, loose = list(bounds_of(schema)), []
    for node, name in bounds:
        value = node.pop(name)
        if not any(is_valid(json.loads(line), schema) for line in lines):
            loose.append(f"{name} {value} of {node}")
        node[name] = value
    return loose, len(bounds)


@functools.lru_cache(maxsize=None)
def other_validator():
    """The validator of Python's jsonschema, or None if that isn't installed."""
    try:
        import jsonschema  # pylint: disable=import-outside-toplevel
        jsonschema.Draft202012Validator.check_schema(SCHEMA)
        return jsonschema.Draft202012Validator(SCHEMA).is_valid
    except (ImportError, AttributeError):
        return None


def line_errors(line, record):
    """The errors of a line of JSON, whose line in record format 2 is given."""
    try:
        pairs, wanted = pairs_of_json(line), pairs_of_record(record)
        wrong = [] if pairs == wanted else [f"{line[:200]!r}, but in record format 2 {record[:200]!r}"]
        return wrong + ([] if is_valid(dict(pairs), SCHEMA) else [f"{line[:200]!r} doesn't conform to the schema"])
    except Wrong as error:
        return [str(error)]


class Records(Case):
    """JSON next to record format 2"""

    def compare(self, command, options, given=b""):
        """Compares the outputs of both formats, and returns the number of lines."""
        for name, text in {**TEXTS, "folder/file": b""}.items():
            self.file(name, text)
        plain, seen = (execute(PROGRAM, command, "--record", form, *options, given=given, cwd=self.room)
                       for form in ("2", "json"))
        self.same(f"{command} {options}", (plain[0], plain[2]), (seen[0], seen[2]))
        if plain[0] > 1 and plain[1] == seen[1] == "":
            return 0
        wanted, lines = plain[1].split("\n"), seen[1].split("\n")
        if lines.pop() or wanted.pop() or wanted[:1] != ["records 2"] or len(lines) != len(wanted) - 1:
            self.fail(f"{command} {options}: other lines than in record format 2")
        # The lines of several sources may be interleaved.
        lines.sort(key=lambda line: int(re.match(r'\{"source":(\d+)|', line)[1] or 0))
        wanted = sorted(wanted[1:], key=lambda line: int(re.match(r"\d+", line)[0]))
        self.none([fault for line, record in zip(lines, wanted) for fault in line_errors(line, record)])
        return len(lines)

    def test_worked_examples(self):
        counts = [self.compare("stream", [*options.split(), path_of(font)], text_of(cell))
                  for font, options, cell, _ in worked_examples()]
        self.none([], sum(counts), 100)

    @rows((f"the font {name}", path_of(name)) for name in samples())
    def test_font(self, path):
        """Each font with all texts, with and without missing characters, at a size and with a limit."""
        for options in ([], ["--missing", "skip"], ["--limit", "4", "--size", "1310720"]):
            self.compare("set", [*options, path, "lines", "demo", "letters"])
            self.none([], self.compare("stream", [*options, path], TEXTS["bytes"]), 100)

    @rows((row["command"], row) for row in CASES["others"])
    def test_other(self, row):
        words = (row["command"] + row.get("more", "") * row.get("times", 0)).split()
        words = [path_of(word[1:]) if word.startswith("@") else word for word in words]
        self.compare(words[0], words[1:], sample(row["given"]) if "given" in row else b"")


class Encoded(LinesCase):
    """Records of lines in UTF-8, in JSON and in format 2"""

    @rows((f"{name}, {missing}", name, missing)
          for name in ("ot1", "t1", "ly1", "latin1") for missing in ("refuse", "skip"))
    def test_records(self, name, missing):
        """Lines of characters with and without codes, alone and after others, and lines that are too long."""
        letters = [chr(number) for number in (33, 97, 0xDF, 0xE9, 0x152, 0x2013, 0x20AC, 0xFB01, 0x4E2D, 0x1F600, 0x10FFFF)]
        text = "\n".join([*letters, *(f"five {letter}x{letter}" for letter in letters), "é" * 32768, "€" * 21845])
        font = self.tfmset.Font(sample("demo"))
        plain, seen = (font.records(text, missing=missing, encoding=name, version=version).decode().splitlines()
                       for version in (2, 3))
        self.same("lines", (24, 24), (len(plain), len(seen)))
        self.none([fault for line, record in zip(seen, plain) for fault in line_errors(line, record)])
        self.same("uncoded", True, any('"uncoded"' in line or '["u",' in line for line in seen))


class Lines(Case):
    """Single lines"""

    def test_examples_of_the_page(self):
        lines = re.findall(r'^\{"source".*', "\n".join(blocks("docs/OUTPUT.md", r"\w*")), re.M)
        for line in lines:
            self.same(line, True, is_valid(dict(pairs_of_json(line)), SCHEMA))
        self.none([], len(lines), 5)

    @rows((f"{row['record']}: {old} becomes {new or 'nothing'}", row, old, new)
          for row in CASES["lines"] for old, new in row["changes"])
    def test_error(self, row, old, new):
        """A line of JSON is accepted, and with a change it isn't."""
        self.none(line_errors(row["json"], row["record"]))
        self.assertIn(old, row["json"])
        self.assertTrue(line_errors(row["json"].replace(old, new, 1), row["record"]))

    @rows((line, line) for line in CASES["refused_by_schema"])
    def test_schema(self, line):
        """The schema refuses a line."""
        self.assertFalse(is_valid(json.loads(line), SCHEMA))

    def test_each_bound_of_the_schema(self):
        """Without any minimum, maximum or end of a list, or with other members, a line that is refused is accepted."""
        loose, count = loose_bounds(SCHEMA, CASES["refused_by_schema"])
        self.none(loose, count, 40)

    def test_nothing_is_refused_that_can_be_printed(self):
        """Lines with each end and reason of OUTPUT, and with the least and largest numbers, conform to the schema."""
        ends = re.findall(r"^\| `([a-z-]+)` \| .* \| [0-9]", read("docs/OUTPUT.md"), re.M)
        lines = CASES["accepted"] + [f'{{"source":1,"end":"{word}","lines":0}}' for word in ends]
        self.none([line for line in lines if not is_valid(json.loads(line), SCHEMA)], len(ends), 5)
        reasons = set(re.findall(r'^ +(?:reason   =|\|) "([a-z-]+) " [A-Z]', read("docs/OUTPUT.md"), re.M))
        self.same("reasons", reasons, {json.loads(line)["refused"] for line in lines if "refused" in line})

    def test_with_jsonschema(self):
        valid = other_validator()
        if not valid:
            self.lack("jsonschema")
        for line in CASES["accepted"] + [row["json"] for row in CASES["lines"]]:
            self.same(line, True, valid(json.loads(line)))
        for line in CASES["refused_by_schema"]:
            self.same(line, False, valid(json.loads(line)))


def name_text(value):
    """The name of a font as text prints it."""
    name = value["font"].encode() if "font" in value else bytes.fromhex(value["font_hex"])
    return "".join(chr(byte) if 32 <= byte < 127 and byte != 92 else f"\\x{byte:02x}" for byte in name)


def finding_text(value):
    """The line of text for an object of `check`."""
    if "fonts" in value:
        return "{fonts} fonts: {accepted} accepted, {refused} refused, {unread} not read".format(**value)
    words = f": {value['error']} {value['words']}" if "error" in value else ""
    return f"{name_text(value)}: {value['finding']}{words}"


def is_utf8(name):
    """Whether bytes are UTF-8."""
    try:
        return name.decode() is not None
    except UnicodeDecodeError:
        return False


def in_json(value):
    """An object as a line of JSON, in which control characters are escaped by their numbers."""
    short = {"b": 8, "t": 9, "n": 10, "f": 12, "r": 13}
    return re.sub(r'\\([\\"bfnrt]|u[0-9a-f]{4})', lambda found: f"\\u{short[found[1]]:04x}" if found[1] in short else found[0],
                  json.dumps(value, ensure_ascii=False, separators=(",", ":")))


class Findings(Case):
    """JSON of `check` next to its text"""

    def test(self):
        """Names with each byte and with characters of each length, and fonts that are cut: each line of JSON is that of
        text, and conforms to the schema. A name that is UTF-8 is a plain string."""
        characters = "\x80éÿĀ߿ࠀ中\uFFFF\U00010000😀\U0010FFFF"
        names = [*(b"x%cy" % byte for byte in range(1, 256)), *(f"x{one}".encode() for one in characters), b"\xc3", b"\xe4\xb8",
                 b"\xed\xa0\x80", b"\xc0\xaf", b"\xf4\x90\x80\x80", *(b"cut%d" % length for length in range(0, 60, 5))]
        for name in names[-12:]:
            self.file(name.decode(), sample("plain")[:int(name[3:])])
        self.file("font", sample("plain"))
        text, seen = (execute(PROGRAM, "check", "--files-from", "-", "--null", "--summary", "--format", form, "font",
                              given=b"\0".join(names), cwd=self.room)[1].split("\n")[:-1] for form in ("text", "json"))
        values = [json.loads(line) for line in seen]
        self.same("lines", text, [finding_text(value) for value in values])
        self.same("again", seen, [in_json(value) for value in values])
        self.same("names", [name.decode() if is_utf8(name) else name.hex() for name in names],
                  [value["font" if is_utf8(name) else "font_hex"] for name, value in zip(names, values[1:])])
        self.none([value for value in values if not is_valid(value, FINDINGS)], len(values), len(names) + 2)

    def test_each_bound_of_the_schema(self):
        """The schema refuses these lines. Without any of its bounds, it accepts one of them."""
        refused = CASES["refused_findings"]
        self.none([line for line in refused if is_valid(json.loads(line), FINDINGS)], len(refused), 13)
        loose, count = loose_bounds(FINDINGS, refused)
        self.none(loose, count, 13)


def entry_text(value):
    """The value of an entry of a listing as text."""
    return {None: "none", True: "yes", False: "no"}[value] if value is None or isinstance(value, bool) else str(value)


def listing_lines(value):
    """The lines of text for the object of `list`."""
    for name, found in value.items():
        if isinstance(found, list):
            hidden = [*UNNAMED, *(["kern"] if name == "steps" else [])]
            for row in found:
                yield " ".join(str(word) for pair in row.items() for word in pair[pair[0] in hidden:])
        elif name != "unit":
            yield f"{name} {entry_text(found)}"


class Listings(Case):
    """JSON of `list` next to its text"""

    def compare(self, path, *options, unit="sp"):
        """Compares the object with the lines of text, and returns the text that it has without --all."""
        text, seen = (execute(PROGRAM, "list", "--format", form, "--unit", unit, *options, path)
                      for form in ("text", "json"))
        self.same(f"{path} {options}", (0, "", 0, ""), (text[0], text[2], seen[0], seen[2]))
        value = json.loads(seen[1])
        self.same("again", seen[1], json.dumps(value, separators=(",", ":")) + "\n")
        self.same("unit", unit, value["unit"])
        self.same("lines", text[1].splitlines(), list(listing_lines(value)))
        self.same(f"{path} conforms to the schema", True, is_valid(value, LISTING))
        return "".join(line + "\n" for line in listing_lines(value))

    @rows((f"the font {name}", name) for name in samples())
    def test_sample(self, name):
        path = path_of(name)
        for options in ([], ["--all"], ["--size", "12pt"]):
            for unit in ("sp", "pt", "mm"):
                self.compare(path, *options, unit=unit)
        # A header of 18 words, in which each byte from 0 occurs in a text.
        for first in range(0, 256, 32):
            data = bytearray(sample(name))
            lf, lh = (int.from_bytes(data[at:at + 2], "big") for at in (0, 2))
            if lf + 18 - lh > 32767:
                return
            texts = bytes([32, *range(first, first + 32)]).ljust(40, b"\0") + bytes([3, 34, 92, first]).ljust(20, b"\0")
            data[:4] = (lf + 18 - lh).to_bytes(2, "big") + (18).to_bytes(2, "big")
            data[24:24 + 4 * lh] = data[24:32] + texts + bytes([first // 32 * 4, 0, 0, first])
            self.compare(self.file("font.tfm", bytes(data)), "--all")

    def test_fonts_of_tex(self):
        """The fonts of TeX: the lines that the object stands for are also those of tftopl's property list."""
        self.need("tftopl", "kpsewhich", "cmr10")
        chosen = fonts()[::20]
        for path, content in chosen:
            self.compare(path, "--all", unit="pt")
            properties = output("tftopl", "-charcode-format=octal", path)
            self.none(Comparison(content, self.compare(path), properties).wrong)
        self.none([], len(chosen), 5)

    def test_each_bound_of_the_schema(self):
        """The schema refuses an object after each change. Without any of its bounds, it accepts one of them."""
        whole, refused = CASES["listing"]["json"], []
        self.same(whole, True, is_valid(json.loads(whole), LISTING))
        for change in CASES["listing"]["changes"]:
            line = whole
            for old, new in zip(change[::2], change[1::2]):
                self.assertIn(old, line)
                line = line.replace(old, new, 1)
            refused.append(line)
        self.none([line for line in refused if is_valid(json.loads(line), LISTING)], len(refused), 30)
        loose, count = loose_bounds(LISTING, refused)
        self.none(loose, count, 30)
