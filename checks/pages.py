"""The commands and examples of the pages, and the files of examples/.

Each ```sh block is run in a directory that has the repository's files. If a ```text block follows, the
command has to print exactly that; the lines after `$ ` in a ```text block are run in the same way. Nothing
may be printed on standard error, and no file may be left in the repository: a block that makes files puts
them into "$tmp". A ```c or ```python block is saved under the name in the comment on its first line, and the
blocks after it can use it. PREFIX is set.
A command whose tool is missing is skipped.

Of README.md and docs/TUTORIAL.md, every block is run: a command without an output below it has to be one that prepares
something, and each program in C or Python has to be used by a later command.

All of this is done in the locale C.UTF-8, and for README.md, docs/TUTORIAL.md and docs/RECIPES.md in de_DE.UTF-8, too, in
which numbers have a comma. If that isn't installed, it is compiled into a temporary directory, which LOCPATH names.
"""
import os
import re
import shutil
import unittest

from lib.base import EXAMPLES, PROGRAM, ROOT, Case, bash, execute, files, has, output, read, rows, shared, table, write
from lib.clib import LibraryCase
from lib.docs import commands, font_errors, record_of, text_of, worked_examples
from lib.tfm import path_of, sample, samples

WEIGHT = 7
RULES = table("pages")
NEEDS = RULES["needs"]
COMPLETE = RULES["complete"]
RUN = RULES["pages"] + [page for page in RULES["perhaps"] if list(commands(read(page)))]
LIBRARY = "library for C"
SAMPLES = "crates/test_support/src/fonts"
NAMES, WORDS = sorted(name[:-4] for name in os.listdir(f"{EXAMPLES}/fonts")), RULES["words"]


def parts(text):
    """The parts of a page in their order: ("source", name or None, content), ("command", command, output)."""
    for turn, cut in enumerate(re.split(r"^```(?:c|python)\n(.*?)^```$", text, flags=re.M | re.S)):
        if turn % 2:
            name = re.match(r"(?:/\*|#) (\w+\.(?:c|py))\b", cut)
            yield "source", name and name.group(1), cut
        else:
            yield from (("command", *command) for command in commands(cut))


def unrun(text):
    """The blocks of a page that no test runs, or whose output isn't compared."""
    found, later = [], ""
    for kind, first, second in reversed([*parts(text)]):
        if kind == "command":
            later += first
            if second is None and not re.match(f"{RULES['not_run']}|{RULES['silent']}", first):
                found.append(first.strip())
        elif first is None:
            found.append("a program without a name")
        elif not re.search(rf"(?<![\w/]){re.escape(first)}(?!\w)", later):
            found.append(f"{first} isn't used")
    return found[::-1]


class Commands(LibraryCase):
    """The commands of the pages"""

    def setUp(self):
        try:
            super().setUp()
            self.lacks = set()
        except unittest.SkipTest:
            self.lacks, self.prefix = {LIBRARY}, ""

    @rows((f"{page} in {name}", page, name) for page, name in (
        *((page, "C.UTF-8") for page in RUN), *((page, "de_DE.UTF-8") for page in (*COMPLETE, "docs/RECIPES.md"))))
    def test(self, page, name):
        self.link_repository()
        in_locale = self.locale(name)
        count, missing, sources = 0, set(), {}
        tmp = self.other_room()
        env = {**getattr(self, "env", os.environ), **in_locale, "tmp": tmp, "TMPDIR": tmp, "PREFIX": self.prefix,
               "PATH": f"{self.room}:{os.environ['PATH']}"}
        self.before = self.files()
        for kind, first, second in parts(read(page)):
            if kind == "source":
                self.same("a block without a name on its first line", False, first is None)
                sources[first] = second
                self.file(first or "unnamed", second)
                continue
            lacking = {need for need in self.needs_of(first, sources)
                       if need in self.lacks or need != LIBRARY and not has(need)}
            missing |= lacking
            if not lacking and not re.match(RULES["not_run"], first):
                count += 1
                self.compare(first, second, env, {source.split(".")[0] for source in sources})
        self.none([], count, int(page in RULES["pages"] and not missing))
        for need in sorted(missing)[:1] if not self.wrong else ():
            self.lack(need)

    def locale(self, name):
        """The variables that choose a locale. One that can't be had is skipped."""
        chosen = {"LC_ALL": name}
        if name.replace("UTF-8", "utf8") in output("locale", "-a").split():
            return chosen
        language, _, encoding = name.partition(".")
        found = shared("locales", lambda path: execute(
            "localedef", "-i", language, "-f", encoding, os.path.join(path, name), timeout=100)
            if has("localedef") and not os.makedirs(path) else None)
        if not os.path.exists(os.path.join(found, name)):
            self.lack(f"locale {name}")
        return {**chosen, "LOCPATH": found}

    def files(self):
        return set(files(self.room, ("crates", "__pycache__")))

    def needs_of(self, command, sources):
        """What a command, and the sources that it uses, need."""
        needs = {need for need, form in NEEDS.items() if re.search(form, command, re.M)}
        for name, source in sources.items():
            is_used = re.search(rf"\b{name.split('.')[0]}\b", command)
            if is_used and re.search(r"tfmset\.h|import tfmset", source):
                needs.add(LIBRARY)
        return needs

    def compare(self, command, wanted, env, stems):
        # The built program prints what the unproved one prints; `packaging` runs ./tfmset --try itself.
        status, out, err = bash(command.replace("./tfmset --try ", "./tfmset "), self.room, env=env, timeout=120, stdin=None)
        if err and not re.search(NEEDS["pv"], command) or status > 1 or wanted not in (None, out):
            self.wrong.append(f"{command!r}: status {status}, {out!r} instead of {wanted!r}, {err!r}")
        left = {path for path in self.files() - self.before if path.split(".")[0] not in stems}
        if left:
            self.wrong.append(f"{command!r} leaves {', '.join(sorted(left))}")
            self.before |= left


class Blocks(Case):
    """The blocks of the pages of which all are run"""

    def test_every_block_is_run(self):
        for page in COMPLETE:
            self.same(page, [], unrun(read(page)))

    def test_blocks_that_are_not_run_are_found(self):
        text = ("```sh\ntmp=a\n```\n\n```sh\nls\n```\n\nb\n\n```sh\nls c\n```\n\n```text\nc\n```\n\n"
                "```python\n# d.py\n```\n\n```c\nint e;\n```\n\n```sh\npython3 dd.py\n```\n\n```text\n```\n")
        self.same("found", ["ls", "d.py isn't used", "a program without a name"], unrun(text))


class Tables(Case):
    """The tables of the pages"""

    def test_worked_examples(self):
        found = worked_examples()
        for font, options, cell, record in found:
            text = text_of(cell)
            seen = execute(PROGRAM, "stream", "--record", "2", *options.split(), path_of(font), given=text)[1]
            wanted = f"records 2\n1:1 {record_of(record, text)}\n1 end complete 1\n"
            self.same(f"{font} {options} {cell}", True, seen == wanted)
        self.none([], len(found), 51)

    def test_font_errors(self):
        found = font_errors()
        for message, data in found:
            self.same(message, (3, "", f"tfmset: font refused: {message}\n"),
                      execute(PROGRAM, "list", "-", given=data))
        self.none([], len(found), 18)

    def test_sizes(self):
        lines = re.findall(r"^\|((?: [\d.]+ \|)+)$", read("docs/RECIPES.md"), re.M)
        cells = [cell for line in lines for cell in line.strip("| ").split(" | ")]
        pairs = list(zip(cells[::2], cells[1::2]))
        for points, scaled in pairs:
            self.same(points, int(float(points) * 65536 + 0.5), int(scaled))
        self.none([], len(pairs), 12)


def words_of(name):
    """The bytes of a font of the tests by its table of words."""
    base, _, op = name.rpartition("_")
    words = WORDS[f"{base}_OP"].replace("OP", f"{int(op):02X}") if op.isdigit() else WORDS[name]
    counted = (word.partition("*") for word in words.split())
    return b"".join(bytes.fromhex(word) * int(count or 1) for word, _, count in counted)


def printer(names):
    """A program that prints the bytes of these fonts of the tests."""
    calls = []
    for name in names:
        base, _, op = name.rpartition("_")
        call = f"{base}(alloc, {op})" if op.isdigit() else f"{name}(alloc)"
        call = f"named::{name}.file(alloc)" if name.isupper() else f"examples::{call}"
        calls.append(f'    let font = {call}?;\n    println!(rt; "{name} {{font:?}}")?;\n')
    modules = "".join(f"mod {name[:-3]};\n" for name in sorted(os.listdir(f"{ROOT}/{SAMPLES}")))
    return read("checks/lib/print_fonts.txt").replace("MODULES", modules).replace("CALLS", "".join(calls))


class Fonts(Case):
    """The fonts of examples/"""

    def test_fonts_are_those_that_the_scripts_write(self):
        for name in ("make_fonts.py", "make_demo_font.py"):
            shutil.copy(f"{EXAMPLES}/{name}", self.room)
        seen = bash("python3 make_fonts.py . && python3 make_demo_font.py", self.room)
        self.same("scripts", (0, "", ""), seen)
        written = sorted(name.removesuffix(".tfm") for name in os.listdir(self.room) if name.endswith(".tfm"))
        self.same("names", sorted(samples()), written)
        for name in written:
            self.same(name, True, read(f"{self.room}/{name}.tfm", "rb") == sample(name))

    def test_fonts_have_the_words_of_the_table(self):
        for name in NAMES:
            self.same(name, True, words_of(name) == sample(name))

    def test_fonts_of_the_tests_have_the_words_of_the_table(self):
        """`rt try` runs the builders of test_support, without proofs."""
        self.need("rt")
        names = NAMES + [name for name in WORDS if name not in NAMES and not name.endswith("_OP")]
        crate = f"{self.room}/crates/fonts"
        for name in os.listdir(f"{ROOT}/{SAMPLES}"):
            text = read(f"{SAMPLES}/{name}")
            write(f"{crate}/src/{name}", text.replace("use tfm_tables::Step;", "use crate::Step;"))
        self.file("crates/fonts/src/main.rt", printer(names))
        self.file("crates.txt", "fonts:\n")
        self.file("HANDLES", read("HANDLES"))
        _, out, err = bash("rt try", crate, timeout=600)
        lines = dict(line.split(" ", 1) for line in out.splitlines() if re.match(r"\w+ \[", line))
        for name in names:
            built = bytes(int(byte) for byte in lines.get(name, "[]").strip("[]").split(", ") if byte)
            self.same(f"{name} {'' if built else err[-300:]}", True, built == words_of(name))


class Encoded(Case):
    """Text in UTF-8"""

    def encoded(self, name, text):
        """The codes that the program gives each line in an encoding, and its characters that have none."""
        self.file("no_characters.tfm", sample("no_characters"))
        options = ("--encoding", name.lower(), "--crlf", "--missing", "skip")
        out = output(PROGRAM, "stream", *options, f"{self.room}/no_characters.tfm", given=text.encode())
        for record in out.splitlines()[:-1]:
            items = record.split()[3:]
            yield ("".join(" " if item[0] == "s" else chr(int(item[1:])) for item in items if item[0] != "u"),
                   [chr(int(item[1:], 16)) for item in items if item[0] == "u"])

    @rows((f"{row['encoding']} {row['text']}", row) for row in RULES["encoded"])
    def test_encoded(self, row):
        """A text, its codes by TeX's encoding files, and its characters that have no codes."""
        text = f"\ufefffirst\r\n{row['text']}\r\nlast"
        self.same("codes", [("first", ""), (row["codes"], row.get("without", "")), ("last", "")],
                  [(codes, "".join(dict.fromkeys(uncoded))) for codes, uncoded in self.encoded(row["encoding"], text)])


class Renumber(Case):
    """scripts/renumber"""

    @rows((name, name, given, message) for name, given, message in (
        ("JSON", '{"source":1}\n', "JSON is not read"), ("format 2", "records 2\n", "format 2 is not read"),
        ("a part that is cut", "1:1 set 5\n1:3 set 5\n", "part 1 is incomplete: 1:3 set 5"),
        ("too large a number in an end line", "1:1 set 5\n1 end complete 2\n", "part 1 is incomplete: 1 end complete 2"),
        ("too small a number in an end line", "1 end complete 0\n1:1 set 5\n1 end complete 0\n", "part 2 is incomplete: 1 end"),
        ("a part that wasn't read to its end", "1:1 set 5\n1 end read 1\n", "part 1 is incomplete: 1 end read 1"),
        ("a part without an end line", "1 end complete 0\n1:1 set 5\n", "part 2 has no end line")))
    def test_renumber(self, name, given, message):
        status, out, err = execute(f"{ROOT}/scripts/renumber", given=given.encode())
        self.same(name, (4, 1, 0), (status, err.count("\n"), out.count("end")))
        self.assertIn(message, err)

    @rows((repr(given), given, wanted) for given, wanted in (
        ("", "1 end complete 0\n"), ("1 end complete 0\n", "1 end complete 0\n"),
        ("1:1 set 5\n1 end complete 1\n1 end complete 0\n1:1 set 6\n1:2 refused steps 9\n1 end complete 2\n",
         "1:1 set 5\n1:2 set 6\n1:3 refused steps 9\n1 end complete 3\n")))
    def test_renumber_joins(self, given, wanted):
        """The records of all parts are numbered anew, and an end line has their number."""
        self.same("output", (0, wanted, ""), execute(f"{ROOT}/scripts/renumber", given=given.encode()))
