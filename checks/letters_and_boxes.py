"""tfmset-letters and tfmset-boxes: record formats, encodings, pictures, errors, and how they end.

The program sets each letter of an encoding again with its code. That the letters are TeX's is tested by `glyph_names`.
"""
import os
import re
import shutil
import signal
import subprocess
import sys

from lib.base import DEMO, PROGRAM, Case, bash, environment, execute, output, read, rows, table
from lib.docs import commands
from lib.tfm import make, sample

CASES = table("letters_and_boxes")
FORMATS = "12", "json"
ALL_CODES = "".join(f"1:1 set 0 c{code}=0\n" for code in range(256))


class Readers(Case):
    """A test of the two programs"""

    def setUp(self):
        super().setUp()
        self.link_repository()

    def call(self, name, *arguments, given="", **how):
        how = {"env": environment(PYTHONIOENCODING="latin-1"), **how}
        return execute(f"{self.room}/tfmset-{name}", *arguments, given=given.encode(), cwd=self.room, **how)

    def answer(self, name, *arguments, given=""):
        """What a program prints without an error."""
        status, out, err = self.call(name, *arguments, given=given)
        self.same(f"{name} {arguments}", (0, ""), (status, err))
        return out

    def letters(self, encoding):
        """The letter of each code of an encoding that has just one."""
        lines = self.answer("letters", "--encoding", encoding, given=ALL_CODES).splitlines()
        self.same("lines", 256, len(lines))
        shown = (line.removeprefix("1:1 0.00 ") for line in lines)
        return {code: letter for code, letter in enumerate(shown) if len(letter) == 1}


class Encodings(Readers):
    """The letters of codes"""

    @rows((row["encoding"], row) for row in CASES["letters"])
    def test_letters(self, row):
        self.file("v.enc", CASES["vector"] + "/.notdef " * 246 + "] def\n")
        codes = " ".join(f"c{code}=0" for code in row["codes"])
        self.same("letters", f"1:1 0.00 {row['letters']}\n",
                  self.answer("letters", "--encoding", row["encoding"], given=f"1:1 set 0 {codes}\n"))

    @rows((name, name) for name in ("ot1", "t1", "ly1", "latin1"))
    def test_letters_are_set_again(self, name):
        """The program sets each letter with the code that has it."""
        letters = self.letters(name)
        self.file("none.tfm", sample("no_characters"))
        out = output(PROGRAM, "stream", "--encoding", name, "--missing", "skip", f"{self.room}/none.tfm",
                     given="".join(f"{letter}\n" for letter in letters.values()).encode())
        self.same("codes", [f"set 0 m{code}" for code in letters],
                  [line.partition(" ")[2] for line in out.splitlines()[:-1]])
        self.none([], len(letters), 85)


class Programs(Readers):
    """Formats, pictures and errors"""

    def records(self, version):
        """Records with all items and all refusals."""
        text = "office ox\nA€x\n".encode() + b"\xff\n" + b"o" * 65536 + b"\n" + b"o" * 40 + b"\n"
        how = "stream", "--encoding", "ot1", "--record", version, "--limit", "30"
        skipping = execute(PROGRAM, *how, "--missing", "skip", DEMO, given=text)[1]
        return skipping + execute(PROGRAM, *how, DEMO, given="A\no€\n".encode())[1]

    @rows((f"format {version}", version) for version in ("1", "2", "json"))
    def test_formats(self, version):
        """All items and refusals, in a file and on standard input, with the exit status for refused lines."""
        given = self.records(version)
        self.file("records", given)
        for names, text in ([], given), (["records"], ""), (["-"], given):
            self.same("letters", (1, CASES["readable"], ""), self.call("letters", "--encoding=ot1", *names, given=text))
            status, out, err = self.call("boxes", DEMO, *names, given=text)
            self.same("boxes", (1, CASES["labels"], ""), (status, re.findall("<text[^>]*>([^<]*)<", out), err))

    def test_files(self):
        """Files are read one after the other, and the first wrong line is named."""
        first, second = (self.file(name, f"{name}:1 set 0\n") for name in "12")
        self.same("output", "1:1 0.00 \n2:1 0.00 \n", self.answer("letters", first, second))
        self.file("3", "3:1 set 0\n3:2 set O\n")
        status, out, err = self.call("letters", second, "--encoding=bytes", "3")
        self.same("result", (3, "2:1 0.00 \n3:1 0.00 \n", True), (status, out, "3, line 2: not a record" in err))

    def test_picture_of_the_readme(self):
        recipe = next(command for command, _ in commands(read("docs/RECIPES.md")) if "boxes.svg" in command)
        tmp = self.other_room()
        bash(recipe, self.room, env=environment(tmp=tmp))
        self.same("the picture is the recipe's", True, read(f"{tmp}/boxes.svg") == read("examples/boxes.svg"))
        self.assertIn("](examples/boxes.svg)", read("README.md"))

    def test_letters_need_an_encoding(self):
        """Without --encoding, no code has a letter in either program. --no-amounts leaves out the amounts of kerns."""
        given = "1:1 set 900983 c14=550502 k-16384 c120=347340 k19660\n"
        self.same("letters", "1:1 13.75 [14]{-0.25}[120]{0.30}\n", self.answer("letters", given=given))
        self.same("labels", ["14", "120"], [text for _, _, text in self.drawing("--no-amounts", DEMO, given=given)[2]])

    def drawing(self, *arguments, given):
        """The width of a picture; the left and top end, width and height of each rectangle before the key; the middle, the
        baseline and the text of each label."""
        out = self.answer("boxes", *arguments, given=given)
        number = r"(-?[\d.]+)"
        boxes = re.findall(rf'<rect x="{number}" y="{number}" width="{number}" height="{number}" fill="#', out.split("<path")[0])
        labels = re.findall(rf'<text x="{number}" y="{number}" text-anchor="middle"(?: fill="[^"]*")?>([^<]*)<', out)
        return (int(re.search(r'<svg [^>]*? width="(\d+)"', out)[1]), [tuple(map(float, box)) for box in boxes],
                [(float(middle), float(base), text) for middle, base, text in labels])

    def test_flat_characters(self):
        """In a font whose characters reach below the baseline only, the bars of a space and of a skipped byte reach from the
        baseline to the top of the row, which is below its name."""
        font = self.file("flat.tfm", make([(1, 1, 0, 0)], (0, 1 << 20), depths=(0, 3 << 20)))
        _, boxes, _ = self.drawing(font, given="1:1 set 655360 c97=655360 s0 m65\n")
        self.same("boxes", [(12, 38, 160, 480), (172, 33, 0, 5), (171, 28, 2, 10)], boxes)

    def test_labels_beside_each_other(self):
        """Labels that have no room beside each other are in several lines, and the next row is below them."""
        kerned = " ".join(f"k{-1000 - step}" for step in range(5))
        _, _, labels = self.drawing(DEMO, given=f"1:1 set 334233 c111=334233 {kerned}\n1:2 set 334233 c111=334233\n")
        for at, (middle, base, text) in enumerate(labels):
            self.same(f"labels over {text!r}", [], [other for other in labels[:at] if other[1] == base and
                                                    abs(other[0] - middle) < 3 * (len(text) + len(other[2]))])
        self.same("lines of labels in the first row", 5, len({base for _, base, _ in labels[:-1]}))
        self.same("the next row is below", True, labels[-1][1] > max(base for _, base, _ in labels[:-1]) + 40)

    def test_scale(self):
        """The option --scale is the number of pixels of a point; a line may then be wider than 760 pixels."""
        given = "1:1 set 900983 c14=550502 k-16384 c120=347340 k19660\n"
        for scale, width in ((2, 784), (100, 24 + round(900983 / 655.36))):
            seen, boxes, _ = self.drawing("--scale", str(scale), DEMO, given=given)
            self.same(f"widths at {scale}", (width, round(550502 / 65536 * scale, 2)), (seen, boxes[0][2]))

    @rows((" ".join(row["arguments"]), row) for row in CASES["pictures"])
    def test_picture(self, row):
        """The labels of a picture."""
        out = self.answer("boxes", *row["arguments"], given=row["given"])
        self.same("labels", row["labels"], re.findall(r"middle[^>]*>([^<]*)<", out))

    @rows((" ".join((row["name"], *row["arguments"], row["given"])), row) for row in CASES["messages"])
    def test_message(self, row):
        """Nothing is printed, except a message on standard error."""
        self.file("v.enc", "/V [ /a ] def\n")
        status, out, err = self.call(row["name"], *row["arguments"], given=row["given"])
        self.same("result", (row["status"], ""), (status, out))
        self.assertIn(row["message"], err)
        self.assertNotIn("Traceback", err)

    @rows((name, name) for name in ("letters", "boxes"))
    def test_help(self, name):
        status, out, err = self.call(name, "--help", env=environment(COLUMNS="80"))
        self.same("result", (0, True, ""), (status, out.startswith(f"usage: tfmset-{name} "), err))
        self.same("options", sorted(re.findall(r"--(\w+)", out.partition("options:")[2])),
                  sorted(re.findall(r'^\.B\w? .*\\-\\-(\w+)', read(f"man/tfmset-{name}.1"), re.M)))
        self.none([line for line in out.splitlines() if len(line) > 80])

    @rows((name, name, *arguments) for name, *arguments in (("letters",), ("boxes", DEMO)))
    def test_output_that_fails(self, name, *arguments):
        """A closed pipe ends a program without a message, and a full disk with one."""
        reading, closed = os.pipe()
        os.close(reading)
        with open("/dev/full", "wb") as full:
            for place, wanted in (closed, (-signal.SIGPIPE, b"")), (full, (5, b"No space left")):
                ran = subprocess.run([f"{self.room}/tfmset-{name}", *arguments], input=b"1:1 set 0\n", stdout=place,
                                     stderr=subprocess.PIPE, check=False, timeout=60)
                self.same("result", (wanted[0], True), (ran.returncode, wanted[1] in ran.stderr))
        os.close(closed)

    def test_without_tfmset(self):
        """Without tfmset next to the program or on the PATH, the message says so."""
        path = shutil.copy(f"{self.room}/tfmset-letters", self.other_room())
        self.same("result", (5, "", "tfmset-letters: the program tfmset isn't on the PATH\n"),
                  execute(sys.executable, path, env=environment(PATH="/none"), cwd="/"))
