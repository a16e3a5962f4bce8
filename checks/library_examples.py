"""The examples of the library in C, C++, Python and Rust, and the page docs/LIBRARY.md.

The expected output of each example is computed from the records and listings of the program. The commands of
the page are run, its functions in C, also with sanitizers, and its sessions in Python. Its first examples have
to be the files of examples/library.
"""
import itertools
import os
import re
import sys

from lib.base import DEMO, EXAMPLES, PROGRAM, ROOT, bash, execute, read, rows
from lib.clib import LibraryCase
from lib.docs import blocks, commands
from lib.tfm import BOUNDARY, Font, path_of
from library import between, listing
from library_lines import sanitizers

WEIGHT = 2
PAGE, TEXT = "docs/LIBRARY.md", os.path.join(EXAMPLES, "demo.txt")
BUILDS = (("without sanitizers", ""), ("address,undefined", "address,undefined"))


def records_of(text, *options, font=DEMO):
    """The fields of each record of a text."""
    out = execute(PROGRAM, "stream", *options, font, given=text)[1]
    return [line.split() for line in out.splitlines()[:-1]]


def widths_of(text, *options):
    """The width of each line of a text, and None for each refused line."""
    return [int(fields[2]) if fields[1] == "set" else None for fields in records_of(text, *options)]


def kerns_table():
    """The expected table of kerns: a row for each character that has kerns."""
    data = read(DEMO, "rb")
    font, listed, shown = Font(data), listing(data), []
    names = {code: chr(code) if 33 <= code <= 126 else str(code) for code in listed.chars} | {BOUNDARY: "|"}
    codes = sorted(listed.chars) + [BOUNDARY]
    for left in (BOUNDARY, *codes[:-1]):
        found = [(right, between(font, listed.kerns, left, right)) for right in codes]
        kerns = [f"{names[right]} {pair[1] / 65536:+.3f}" for right, pair in found if pair and pair[0] == 1]
        if kerns:
            shown.append(f"{names[left]:>4}  " + "  ".join(kerns) + "\n")
    return "".join(shown)


class Examples(LibraryCase):
    """The examples in four languages"""

    def test_line_width_in_c(self):
        out = self.built("examples/library/line_width.c", "cc", "-std=c99")
        width = widths_of(b"office ox")[0] / 65536
        self.same("output", f"{width:.2f} points\n", self.output(out, given=DEMO))

    def test_paragraph_in_c(self):
        """The text is broken where the next word doesn't fit, and each line has its width."""
        out = self.built("examples/library/paragraph.c", "cc", "-std=c99")
        lines = [line.rsplit("  ", 1) for line in self.output(out, DEMO, "100", given=TEXT).splitlines()]
        texts = [line[0] for line in lines]
        self.same("words", read(TEXT).split(), " ".join(texts).split())
        longer = [text + " " + following.split(" ")[0] for text, following in zip(texts, texts[1:])]
        widths, beyond = (widths_of("\n".join(each).encode()) for each in (texts, longer))
        self.same("widths", [f"{width / 65536:.2f}" for width in widths], [line[1] for line in lines])
        self.same("breaks", True, max(widths) <= 100 * 65536 < min(beyond))

    def test_words_broken_in_a_paragraph_in_c(self):
        """A word is broken at its last mark that fits, and only there; each line has its width."""
        text = r"the of\-fice staff of\-fered fif\-ty waf\-fles a stiff wind ruf\-fled my scarf"
        out = self.built("examples/library/paragraph.c", "cc", "-std=c99")
        lines = [line.rsplit("  ", 1) for line in self.output(out, DEMO, "50", given=self.file("text", text)).splitlines()]
        texts = [line[0] for line in lines]
        self.same("texts", ["the office", "staff of-", "fered fifty", "waffles a", "stiff wind", "ruffled my", "scarf"], texts)
        widths, beyond = widths_of("\n".join(texts).encode()), widths_of(b"the office staff\nwaffles a stiff\nstiff wind ruf-")
        self.same("widths", [f"{width / 65536:.2f}" for width in widths], [line[1] for line in lines])
        self.same("breaks", True, max(widths) <= 50 * 65536 < min(beyond))

    def test_paragraph_in_utf8_in_c(self):
        """With an encoding, the words of a text in UTF-8 have the widths of their codes; other texts are refused."""
        out = self.built("examples/library/paragraph.c", "cc", "-std=c99")
        text = "the oﬃce sta\u00adﬀ o\\-ﬀered ﬁfty wa\u00adﬄes"
        given = self.file("text", text.encode())
        lines = [line.rsplit("  ", 1) for line in self.output(out, DEMO, "50", "ot1", given=given).splitlines()]
        self.same("texts", ["the oﬃce", "sta\u00adﬀ o-", "ﬀered ﬁfty", "wa\u00adﬄes"], [line[0] for line in lines])
        widths = widths_of("the office\nstaff o-\nffered fifty\nwaffles".encode())
        self.same("widths", [f"{width / 65536:.2f}" for width in widths], [line[1] for line in lines])
        for bad in ("5 €".encode(), b"\xff"):
            self.same("refused", (1, "", "paragraph: the text can't be encoded\n"),
                      execute(out, DEMO, "50", "ot1", given=bad, env=self.env))

    def test_no_break_spaces_in_a_paragraph_in_c(self):
        """With an encoding, a no-break space is as wide as a space, and no line ends there."""
        out = self.built("examples/library/paragraph.c", "cc", "-std=c99")
        given = self.file("text", "the of\u00a0fice\u00a0staff o\\-ff\u00a0\u00a0the \u00a0reef\u00a0".encode())
        lines = [line.rsplit("  ", 1) for line in self.output(out, DEMO, "65", "ot1", given=given).splitlines()]
        self.same("texts", ["the", "of\u00a0fice\u00a0staff o-", "ff\u00a0the\u00a0reef"], [line[0] for line in lines])
        widths = widths_of("".join(text + "\n" for text, _ in lines).encode(), "--encoding", "ot1")
        self.same("widths", [f"{width / 65536:.2f}" for width in widths], [line[1] for line in lines])

    def test_marks_that_fill_a_paragraph_in_c(self):
        """With more marks than there is room for, the program says so, and writes nothing beyond its arrays."""
        sanitizer = sanitizers("address,undefined") or self.lack("-fsanitize=address")
        out = self.built("examples/library/paragraph.c", "cc", "-std=c99", "-g", *sanitizer)
        full, word = "the text has too many words and marks \\-", "a word has more than 64 marks \\-"
        for text, message in ((("a" + "\\-" * 64 + " ") * 1017, full), ("a" + "\\-" * 65, word)):
            self.same(message, (1, "", f"paragraph: {message}\n"),
                      execute(out, DEMO, "160", given=text.encode(), env=self.env))
        most = ("a" + "\\-" * 64 + " ") * 1016 + "a " * 8
        self.same("all spans", (0, 1024), (lambda seen: (seen[0], seen[1].count("a")))(
            execute(out, DEMO, "160", given=most.encode(), env=self.env)))

    @rows((name, name, *words) for name, *words in (("paragraph", "100"), ("words",)))
    def test_fonts_that_fail_in_c(self, name, *words):
        """A missing font, a broken one and missing arguments are reported."""
        out = self.built(f"examples/library/{name}.c", "cc", "-std=c99")
        for font, message in (([], "usage: "), (["none"], "the font can't be opened"), (["README.md"], "the font is refused")):
            status, said, err = execute(out, *font, *(font and words), cwd=ROOT, env=self.env)
            self.same(message, (1, "", True), (status, said, err.startswith(f"{name}: {message}")))

    def test_font_of_a_stranger_in_c(self):
        """A broken font is refused with its error, and an endless program takes no more than both limits."""
        out = self.built("examples/library/stranger.c", "cc", "-std=c99")
        for count, wanted in ((100, "100 of 200"), (5000, "1000 of 10000")):
            text = self.file("text", "b\naa\n" * count)
            self.same(wanted, wanted + " lines are set\n", self.output(out, path_of("endless_3"), given=text))
        self.same("broken", (1, "the font is refused: 3 character range\n", ""),
                  execute(out, os.path.join(ROOT, "README.md"), env=self.env))

    def test_words_in_c(self):
        """Each word has its width, and the bytes of its characters."""
        words = read(TEXT).split()
        out = self.built("examples/library/words.c", "cc", "-std=c99")
        lines = [line.split() for line in self.output(out, DEMO, given=TEXT).splitlines()]
        widths = [f"{width / 65536:.2f}" for width in widths_of("\n".join(words).encode())]
        self.same("words", [*zip(widths, words)], [(line[0], "".join(line[1:])) for line in lines])
        given = self.file("text", "x" * 1024 + " " + "x" * 1025)
        lines = [line.split(maxsplit=1)[1] for line in self.output(out, DEMO, given=given).splitlines()]
        self.same("long words", [" ".join("x" * 1024), "more than 1024 items"], lines)

    def test_threads_in_cpp(self):
        self.need("c++")
        widths = widths_of(read(TEXT, "rb"), "--missing", "skip")
        widest = widths.index(max(widths))
        out = self.built("examples/library/threads.cpp", "c++", "-std=c++11", "-pthread")
        self.same("output", f"{len(widths)} lines, the widest is {widest + 1}: {widths[widest]}\n",
                  self.output(out, DEMO, TEXT))

    def test_set_lines_and_kerns_in_python(self):
        ox = widths_of(b"office ox", "--size", str(12 * 65536))[0]
        self.same("set_lines.py", f"{ox / 65536:.2f} points, 8 items\nrefused: missing, byte 7 is 65\n",
                  self.output(sys.executable, "examples/library/set_lines.py"))
        self.same("kerns.py", kerns_table(), self.output(sys.executable, "examples/library/kerns.py", DEMO))

    def test_setter_in_rust(self):
        self.need("rustc")
        out, wanted = os.path.join(self.room, "setter"), []
        self.output("rustc", "--edition", "2021", "-D", "warnings", "-L", self.lib, "-l", "tfmset", "-o", out,
                    "examples/library/setter.rs")
        names = {"c": "", "k": "kern ", "s": "space "}
        for fields in records_of(b"office ox\nAV\n\na  fly"):
            if fields[1] == "set":
                items = ", ".join(names[item[0]] + item[1:] for item in fields[3:])
                wanted.append(f"{fields[2]}: {items}\n")
            else:
                wanted.append(f"no character {fields[4]} at {fields[3]}\n")
        self.same("output", "".join(wanted), self.output(out, DEMO, "office ox", "AV", "", "a  fly"))


class Page(LibraryCase):
    """docs/LIBRARY.md"""

    @rows((command.strip().split("\n")[0], command, wanted) for command, wanted in commands(read(PAGE))
          if not command.startswith("scripts/library"))
    def test_command(self, command, wanted):
        self.need(*(tool for tool in ("cc", "c++", "rustc", "pkg-config")
                    if re.search(rf"(^|[ (]){re.escape(tool)} ", command, re.M)))
        self.link_repository()
        # The command may use files that earlier commands of the page made.
        for earlier, _ in itertools.takewhile(lambda pair: pair[0] != command, commands(read(PAGE))):
            if re.search(r" -o |> ", earlier) and not earlier.startswith("scripts/library"):
                bash(earlier, self.room, env=self.env)
        self.same(command, (0, wanted or "", ""), bash(command, self.room, env=self.env))

    def test_first_examples_are_the_files(self):
        for language, name in (("c", "line_width.c"), ("python", "set_lines.py")):
            self.same(name, read("examples/library/" + name), blocks(PAGE, language)[0])

    def test_head_of_the_header(self):
        """The comment at the head has an example that prints a width."""
        head = read("include/tfmset.h").partition("*/\n/*")[2].partition("*/")[0]
        example = re.search(r"^ \* Example:\n \*\n((?: \*     .*\n)+)", head, re.M).group(1).replace(" * ", "")
        program = ("#include <stdio.h>\n#include <tfmset.h>\n\nint main(void) {\n    static uint8_t font[99999];\n"
                   "    size_t font_length = fread(font, 1, sizeof font, stdin);\n" + example + "    return 0;\n}\n")
        path = self.built(self.file("head.c", program), "cc", "-std=c99")
        self.same("width", listing(read(DEMO, "rb")).chars[97][3] + "\n", self.output(path, given=DEMO))

    @rows((f"set_lines, {name}, {title}", name, kinds) for name in ("ligature_0", "ligature_3") for title, kinds in BUILDS)
    def test_set_lines(self, name, kinds):
        """With the second font the line has more items than bytes, so that the first array is too short."""
        if kinds and not sanitizers(kinds):
            self.lack("-fsanitize=" + kinds)
        font, text = os.path.join(EXAMPLES, f"fonts/{name}.tfm"), "ab" * 500
        fields = records_of(text.encode(), font=font)[0]
        self.same("needs a second call", name == "ligature_3", len(fields) - 3 > 1141)
        source = blocks(PAGE, "c")[1] + read("checks/lib/calling_set_lines.c").replace("TEXT", f'"{text}"')
        program = self.built(self.file("set_lines.c", source), "cc", "-std=c99", "-g", *(sanitizers(kinds) if kinds else []))
        self.same("output", (0, f"0 1 {len(fields) - 3} {fields[2]}\n", ""),
                  execute(program, given=read(font, "rb"), cwd=ROOT, env=self.env))

    def test_sessions_in_python(self):
        sessions = "\n".join(block for block in blocks(PAGE, "python") if block.startswith(">>> "))
        self.same("output", "", self.output(sys.executable, "-m", "doctest", self.file("session", sessions)))
