"""The program: its arguments, its help, and its exit status and outputs for fonts and files.

The cases are the tables of checks/cases/program. A font in a table is `@NAME CHANGES`, with the changes of
docs/ERRORS.md. An encoding vector is `vector CODE=GLYPH ..`, or `vector-crlf CODE=GLYPH ..` with lines that end
with CR LF. Bytes that aren't UTF-8 are `hex DIGITS`; other contents are written as they are.
`checks/run --update` writes the files of checks/help.
"""
import errno
import itertools
import os
import random
import re
import subprocess
import unicodedata

from lib.base import PROGRAM, ROOT, Case, bash, execute, read, rows, table, write
from lib.tfm import make, sample

GROUPS = ("counts list pairs check unread_fonts unread_files set stream before_a_stream each crlf encoding "
          "vectors notes verbose").split()
COMMANDS = ("counts", "list", "pairs", "check", "set", "each", "stream")
HELP = os.path.join(ROOT, "checks", "help")
TIP = '  tip: a font is given by the path of its file, such as "$(kpsewhich cmr10.tfm)"\n'
NOT_THERE = f"{os.strerror(errno.ENOENT)} (os error {errno.ENOENT})"
# The commands that print causes of errors without --verbose, too.
REPORTING = ("stream", "pairs", "check")


def content(text):
    """The bytes that a table describes."""
    if text.startswith("hex "):
        return bytes.fromhex(text[4:])
    if text.startswith("vector"):
        form, *words = text.split()
        glyphs = dict(word.split("=") for word in words)
        lines = ["/Vector [", *("/" + glyphs.get(str(code), ".notdef") for code in range(256)), "] def", ""]
        return ("\r\n" if form == "vector-crlf" else "\n").join(lines).encode()
    return sample(*text[1:].split(" ", 1)) if text.startswith("@") else text.encode()


def arguments(args):
    return args.split() if isinstance(args, str) else args


def run(args, given=b"", room=None):
    return execute(PROGRAM, *arguments(args), given=given, cwd=room)


def cases_of(name):
    """The cases of a table, each with its title and the files of its table."""
    group = table("program/" + name)
    for case in group["case"]:
        title = case.get("name") or " ".join(["tfmset", *arguments(case["args"])])
        yield title, case, group.get("files", {})


def compare(self, case, files):
    """Compares an execution with a case of a table."""
    for name, text in files.items():
        self.file(name, content(text))
    wanted = case.get("status", 0), case.get("out", ""), case.get("err", "")
    self.same(case["args"], wanted, run(case["args"], content(case.get("stdin", "")), self.room))


for group in GROUPS:
    # A group for each table.
    globals()[group] = type(group, (Case,), {"__doc__": table("program/" + group)["title"],
                                             "test": rows(cases_of(group))(compare)})


class Verbose(Case):
    """The cases of all tables, with --verbose"""

    @rows((title, case, files) for group in GROUPS if group != "verbose" for title, case, files in cases_of(group)
          if "-v" not in arguments(case["args"]))
    def test_same(self, case, files):
        """Standard output and the exit status are the same, and so are the lines on standard error in their
        order, of which the last one is the last, except for a tip. With the option, other lines may be between
        them."""
        for name, text in files.items():
            self.file(name, content(text))
        command, *others = arguments(case["args"])
        status, out, err = run([command, "--verbose", *others], content(case.get("stdin", "")), self.room)
        self.same("result", (case.get("status", 0), case.get("out", "")), (status, out))
        lines, wanted = err.splitlines(), case.get("err", "").splitlines()
        left = iter(lines)
        self.same(f"{err!r}", True, all(line in left for line in wanted))
        if case.get("status", 0) > 1:
            self.same("the last line", *([line for line in them if line + "\n" != TIP][-1] for them in (wanted, lines)))

    # Mutants: two reasons are swapped; a chunk is counted twice; the last chunk of a source isn't counted; of the
    # skipped characters only one in a line is counted, or only those of the last chunk.
    @rows((" ".join(words), words) for words in (
        ["set", "-", "F", "F"], ["each", "--workers", "4", "--record", "2", "T", "50", "F", "T", "50", "F"],
        ["stream", "--workers", "4", "--block", "1", "--record", "json", "-", "F", "F"]))
    def test_reasons(self, words):
        """Two files with many lines, of which another number is refused for each reason, or has skipped characters"""
        kinds = {b"ab": 900, b"b" * 70000: 7, b"a\xff": 500, "€d".encode(): 400, b"ad": 300, b"abc" * 30: 200}
        lines = [line for line, count in kinds.items() for _ in range(count)]
        random.Random(1).shuffle(lines)
        self.file("T", content("@plain"))
        self.file("F", b"\n".join(lines))
        limit = [] if words[0] == "each" else ["--limit", "50"]
        for missing, wanted in (
                ("refuse", "1800 lines set, 2814 refused: 14 too-long, 1000 encoding, 800 uncoded, 600 missing, 400 steps"),
                ("skip", "3200 lines set, 1414 refused: 14 too-long, 1000 encoding, 400 steps; "
                         "2200 characters skipped in 1400 lines")):
            _, _, err = run([words[0], "-v", "--encoding", "t1", "--missing", missing, *limit, *words[1:]],
                            content("@plain"), self.room)
            self.same("counts", f"tfmset: {wanted}\n", err)

    @rows((command, command) for command in ("set", "each", "stream", "stream <"))
    def test_carriage_returns(self, command):
        """Lines that end with a carriage return are counted whatever the other options are, except with --crlf. `stream`
        names the first one before, and doesn't name the option twice."""
        command, stdin, _ = (*command.split(), "", "")[:3]
        font, text = self.file("font", content("@plain")), b"ab\r\nabc\n\r\na\rb\nad\r\r\n" * 3
        words = [font, *["9"] * (command == "each"), *[self.file("text", text)] * (not stdin)]
        vector = self.file("v.enc", content("vector 97=a 98=b"))
        returns = "tfmset: 9 lines end with a carriage return: see --crlf\n"
        if command == "stream":
            name = "standard input" if stdin else words[-1]
            returns = return_note(name, 1) + "tfmset: 9 lines end with a carriage return\n"
        for options in ([], ["--missing", "skip"], ["--workers", "5", "--block", "2"], ["--record", "json"], ["--crlf"],
                        ["--encoding", "t1"], ["--encoding", vector]):
            status, out, err = run([command, "-v", *options, *words], text)
            done, refused = (len(re.findall(form, out)) for form in (r"(?m)^\d+:\d+ set |\"width\":", r"\brefused\b"))
            self.same((options, "lines"), (15, int(refused > 0)), (done + refused, status))
            wanted = f"{returns * (options != ['--crlf'])}tfmset: {done} lines set, {refused} refused"
            self.same((options, "errors"), (wanted, wanted.count("\n") + 1), (err[:len(wanted)], err.count("\n")))

    @rows((command, command) for command in ("set", "each", "stream"))
    def test_carriage_returns_of_many_files(self, command):
        """The carriage returns of up to 64 files are counted, and not those of their fonts and vectors."""
        self.file("V.enc", content("vector-crlf 97=a 98=b"))
        self.file("font", content("@plain 6: 0D0A0D0A"))
        texts = [self.file(f"text{number}", b"a\r\n" * number + b"b\n") for number in range(1, 65)]
        for count in (2, 9, 64):
            words = ["font", *texts[:count]]
            if command == "each":
                words = [word for text in texts[:count] for word in ("font", "9", text)]
            _, _, err = run([command, "-v", "--encoding", "./V.enc", *words], b"", self.room)
            wanted = f"tfmset: {count * (count + 1) // 2} lines end with a carriage return"
            lines = err.split("\n")
            if command == "stream":
                self.same("the first one", True, re.fullmatch(return_note(r".*/text\d+", 1).rstrip(), lines.pop(0)) is not None)
            self.same(count, wanted + ": see --crlf" * (command != "stream"), lines[0])

    def test_permission_denied(self):
        """The cause is printed for a font, an encoding vector and a file that may not be read."""
        start = []
        if os.geteuid() == 0:
            # Without these two capabilities root can't read every file.
            self.need("setpriv")
            start = ["setpriv", "--bounding-set=-dac_override,-dac_read_search"]
        font, text = self.file("font", content("@plain")), self.file("text", b"ab\n")
        vector = self.file("V.enc", content("vector-crlf 97=a 98=b 99=c"))
        for closed, fault in ((font, "font"), (vector, "encoding"), (text, "file 1")):
            os.chmod(closed, 0)
            found = execute(*start, PROGRAM, "set", "-v", "--encoding", vector, font, text)
            os.chmod(closed, 0o600)
            messages = f"tfmset: {closed}: Permission denied (os error 13)\ntfmset: {fault} not read\n"
            self.same(fault, (4, "", messages), found)


PLANS = tuple(itertools.product(("1", "3", "16"), ("1", "3", None), ("1", "16")))


class Plans(Case):
    """The cases of `set`, `each` and `stream`, with other numbers of workers, of lines in a block and of slots"""

    @rows((title, case, files) for group in ("set", "stream", "each", "crlf", "encoding", "unread_files")
          for title, case, files in cases_of(group) if not re.search("--(workers|block|capacity)", title))
    def test_same(self, case, files):
        """The exit status and both outputs don't depend on the numbers."""
        for name, text in files.items():
            self.file(name, content(text))
        command, *others = arguments(case["args"])
        wanted = case.get("status", 0), case.get("out", ""), case.get("err", "")
        for workers, block, slots in PLANS:
            options = ["--workers", workers, "--capacity", slots] + (["--block", block] if block else [])
            self.same(options, wanted, run([command, *options, *others], content(case.get("stdin", "")), self.room))

    @rows((command, command) for command in ("set", "stream", "each"))
    def test_numbers(self, command):
        """Numbers of workers, of lines in a block, of slots and of files give the same records."""
        font, text = self.file("T", content("@plain")), self.file("F", b"ab\nad\n\n" * 9)
        words = [font, *["9"] * (command == "each"), text]
        wanted = run(["set", font, text])
        for option, values in {"--workers": "1 7 16", "--block": "1 7 8", "--capacity": "1 2 100 65536"}.items():
            for value in values.split():
                self.same((option, value), wanted, run([command, option, value, *words]))
        lines = [line[1:] for line in wanted[1].splitlines()]
        for count in (1, 2, 5, 33, 64):
            several = words * count if command == "each" else [font] + [text] * count
            seen = run([command, "--workers", str(count % 16 + 1), *several])
            records = {number: [] for number in map(str, range(1, count + 1))}
            for line in seen[1].splitlines():
                number = re.match(r"\d+", line)[0]
                records[number].append(line[len(number):])
            self.same(f"{count} files", (1, "", [lines] * count), (seen[0], seen[2], [*records.values()]))


def return_note(name, number):
    """The line about a line that ends with a carriage return."""
    return f"tfmset: {name}: line {number} ends with a carriage return, which is a character of the line; to leave it out add --crlf\n"


def text_note(name, number):
    """The line about a line in UTF-8 that is set byte by byte."""
    return f"tfmset: {name}: line {number} is UTF-8, but each byte is set as a code; for text in UTF-8 add --encoding\n"


def is_wide_text(line):
    """Whether a line is UTF-8 and has a character above 127."""
    try:
        return not line.decode().isascii()
    except UnicodeDecodeError:
        return False


def notes_of(name, text, *options):
    """The lines about the first 65,536 bytes of a file of `stream`."""
    lines = text[:65536].split(b"\n")
    last = lines[-1:] if len(text) <= 65536 else []
    texts = [number for number, line in enumerate(lines[:-1] + last, 1) if is_wide_text(line)]
    returns = [number for number, line in enumerate(lines[:-1], 1) if line.endswith(b"\r")]
    found = [] if "--encoding" in options else [(number, 0, text_note) for number in texts[:1]]
    found += [] if "--crlf" in options else [(number, 1, return_note) for number in returns[:1]]
    return "".join(note(name, number) for number, _, note in sorted(found))


class LikelyWrong(Case):
    """What `stream` says of lines whose numbers are likely wrong"""

    def notes(self, *words, given=b""):
        return run(words, given, self.room)[2]

    # Mutants of line_scan.rt: a line that isn't complete at the end of a read is taken for a whole one; the bounds of the
    # second byte of a character are those of the others; a line feed isn't counted in a read without such bytes; the last
    # line is left out; the first 65,535 bytes are looked at, or the first 65,537. Of notes.rt: each line is noted.
    @rows((f"text {number}", number) for number in range(60))
    def test_random(self, number):
        """Random texts of a file and of standard input, with all options."""
        chance = random.Random(number)
        pieces = ["a", "\r", "\n", "\r\n", "é", "€", "𝄞", "\udcff", "\udcc3", "\udce0\udc80\udc80", "\udced\udca0\udc80",
                  "\udcf4\udc90\udc80\udc80", "\udcf0\udc80\udc80\udc80", "\udce2\udc82"]
        some = chance.sample(pieces, 4) + ["a" * chance.choice((1, 50, 5000)), "\n"]
        size = chance.choice((5, 100, 4096, 9000))
        text = "".join(chance.choice(some) for _ in range(size)).encode("utf-8", "surrogateescape")[:200000]
        if number % 3 == 0:
            text = b"a\n" * chance.choice((2047, 2048, 20000)) + text
        font, path = self.file("font", content("@plain")), self.file("text", text)
        self.file("v.enc", content("vector 97=a"))
        for options in ([], ["--crlf"], ["--encoding", "t1"], ["--encoding", "./v.enc"], ["--crlf", "--encoding", "ot1"],
                        ["--record", "box", "--missing", "skip"]):
            self.same(options, notes_of(path, text, *options), self.notes("stream", *options, font, path))
            self.same((options, "<"), notes_of("standard input", text, *options), self.notes("stream", *options, font, given=text))
            self.same((options, "set"), "", self.notes("set", *options, font, path))

    @rows((f"{size} bytes before", size) for size in (65533, 65534, 65535, 65536))
    def test_limit(self, size):
        """The first 65,536 bytes of a file are looked at."""
        font = self.file("font", content("@plain"))
        for end in (b"\r\n", "é".encode(), "é\n".encode(), b"\r\nb\r\n"):
            text = b"a" * (size - 1) + b"\n" + end
            self.same(end, notes_of("standard input", text), self.notes("stream", font, given=text))

    def test_once(self):
        """Each kind is said once for all files, and the output is the same as with the option that leaves it out."""
        font, text = self.file("font", content("@plain")), "é\r\nb\r\né\r\n".encode()
        names = [self.file(f"text{number}", text) for number in range(9)]
        for options, count in (([], 2), (["--crlf"], 1), (["--encoding", "t1"], 1), (["--encoding", "t1", "--crlf"], 0)):
            for verbose in ([], ["-v"]):
                lines = self.notes("stream", *options, *verbose, font, *names).splitlines()
                self.same((options, verbose), count, sum(": line " in line for line in lines))

    # Mutant of `WatchedWriter`: the notes are printed at the end.
    def test_at_once(self):
        """The line comes before the record of its line, while the input goes on."""
        font = self.file("font", content("@plain"))
        with subprocess.Popen([PROGRAM, "stream", font], stdin=subprocess.PIPE, stdout=subprocess.PIPE,
                              stderr=subprocess.STDOUT) as child:
            for line, wanted in ((b"ab\n", []), ("é\n".encode(), [text_note("standard input", 2)]), (b"a\r\n", [
                    return_note("standard input", 3)]), (b"a\r\n", [])):
                child.stdin.write(line)
                child.stdin.flush()
                seen = [child.stdout.readline().decode() for _ in range(len(wanted) + 1)]
                self.same(line, wanted, seen[:-1])
            child.stdin.close()
            self.same("end", b"1 end complete 4\n", child.stdout.read())


class Causes(Case):
    """Causes of errors that depend on the system"""

    @rows((case["command"], case) for case in table("program/verbose")["system"])
    def test(self, case):
        self.file("T", content("@plain"))
        self.file("F", b"abc\n" * 50000)
        status, _, err = bash(case["command"].replace("tfmset", f"'{PROGRAM}'"), self.room)
        self.same("standard error", (case.get("status", 0), case["err"]), (status, err))


class CarriageReturns(Case):
    """Carriage returns that --crlf leaves out"""

    def seen(self, text, *options):
        """The output of `set` and of `stream` for a text."""
        font, path = self.file("font", content("@plain")), self.file("text", text)
        found = run(["set", *options, font, path])[1]
        self.same("stream", found, run(["stream", *options, font], text)[1])
        return found

    @rows((f"{size} bytes a line", size) for size in (1, 2, 63, 1023, 4094, 4095))
    def test_ends_of_reads(self, size):
        """Lines of a size give the same records with CR LF as with LF, wherever a read of 4,096 bytes ends."""
        lines = [b"abc"[turn % 3:turn % 3 + 1] * size for turn in range(40000 // size)]
        self.same("records", True, self.seen(b"\r\n".join(lines), "--crlf") == self.seen(b"\n".join(lines)))

    def test_lengths(self):
        """A carriage return that is left out isn't counted, and one at the end of a last line is."""
        a, many = b"a" * 65535, b"a" * 65536
        wanted = ["1:1 set 21474508800", "1:2 refused too-long 65536", "1:3 refused too-long 65537",
                  "1:4 refused too-long 65536", "1 end complete 4"]
        found = self.seen(b"\r\n".join((a, many, many + b"\r", a + b"\r")), "--crlf", "--missing", "skip")
        self.same("records", wanted, [line.partition(" c97=")[0] for line in found.splitlines()])


class Encoded(Case):
    """Text in UTF-8, with lines that are too long for a table, and with many lines"""

    def seen(self, text, *options):
        """The records of `set` and of `stream`, without their items."""
        font, path = self.file("font", content("@plain 1: 00FD00FF")), self.file("text", text)
        options = ["--encoding", "t1", *options]
        found = run(["set", *options, font, path])[1]
        self.same("stream", found, run(["stream", *options, font], text)[1])
        return [line.partition(" c255=")[0] for line in found.splitlines()]

    def test_lengths(self):
        """A length counts the bytes of a line, also those of a byte order mark, and isn't decoded."""
        sharp, mark, most = "ß".encode(), "\ufeff".encode(), 32767
        lines = (mark + sharp * (most - 1), sharp * most, sharp * (most + 1), b"\xff" * 65536, b"\xff" * 65535,
                 sharp * most + b"\xff")
        wanted = ["1:1 set 16105144320", "1:2 set 16105635840", "1:3 refused too-long 65536",
                  "1:4 refused too-long 65536", "1:5 refused encoding 0", "1:6 refused encoding 65534",
                  "1 end complete 6"]
        self.same("records", wanted, self.seen(b"\n".join(lines)))
        wanted = ["1:1 refused too-long 65537", "1 end complete 1"]
        self.same("with a mark", wanted, self.seen(mark + sharp * most))

    @rows((f"--block {block} --workers {workers}", block, workers) for block in (None, "1", "8") for workers in "13")
    def test_many_lines(self, block, workers):
        """A mark at the front of any line but the first one is an uncoded character, in any chunk."""
        text, wanted = b"", []
        for number in range(1, 2001):
            length = number % 7
            text += ("\ufeff" + "ß" * length + ("€" if number % 3 else "") + "\n").encode()
            what = "uncoded 0 U+FEFF" if number > 1 else f"uncoded {3 + 2 * length} U+20AC"
            wanted.append(f"1:{number} refused {what}")
        options = ["--workers", workers] + (["--block", block] if block else [])
        self.same("records", [*wanted, "1 end complete 2000"], self.seen(text, *options))


class FontErrors(Case):
    """Font errors"""

    @rows((text, text, error) for text, error in table("program/font_errors")["errors"].items())
    def test_font_error(self, text, error):
        """Of a font with an error, `counts` or `list` prints it with exit status 3, and `check` with 1."""
        command = "counts" if int(error.split()[0]) < 10 else "list"
        seen = run([command, "-"], content(text))
        self.same(text, (3, "", f"tfmset: font refused: {error}\n"), seen)
        self.same(text, (1, f"-: refused: {error}\n", ""), run("check -", content(text)))


class SetAndStream(Case):
    """Set and stream, with files and with standard input"""

    @rows((f"{case['options']} {case['text']!r}", case) for case in table("program/set_and_stream")["case"])
    def test_both(self, case):
        """`set` and `stream`, with files and with standard input, print the same."""
        font, text = content(case["font"]), case["text"].encode()
        self.file("font", font)
        self.file("text", text)
        options = case["options"].split()
        for command, files, given in (("set", ["font", "text"], b""), ("stream", ["font", "text"], b""),
                                      ("stream", ["font"], text), ("set", ["-", "text"], font)):
            seen = run([command, *options, *files], given, self.room)
            self.same((command, files), (case.get("status", 0), case["out"], ""), seen)


class ManyFiles(Case):
    """64 files, and 65"""

    def setUp(self):
        super().setUp()
        for name, text in (("T", "@plain"), ("F1", "ab\nabc\n\nad\n"), ("F2", "abc")):
            self.file(name, content(text))

    def test_set_of_64_files(self):
        one = "%d:1 set 983040 c97=327680 c98=163840 c99=491520\n%d end complete 1\n"
        seen = run(["set", "--workers", "16", "T"] + ["F2"] * 64, b"", self.room)
        self.same("64 files", (0, "".join(one % (i, i) for i in range(1, 65)), ""), seen)

    def test_stream_of_64_files_has_the_lines_of_each_in_order(self):
        by_set, by_stream = (run([command, "--workers", "16", "T"] + ["F1"] * 64, b"", self.room)
                             for command in ("set", "stream"))
        self.same("set", (1, 320, ""), (by_set[0], by_set[1].count("\n"), by_set[2]))
        lines = by_stream[1].splitlines(True)
        in_order = "".join(sorted(lines, key=lambda line: int(line.replace(":", " ").split()[0])))
        self.same("stream", by_set, (by_stream[0], in_order, by_stream[2]))

    @rows((" ".join(["65 files", *options]), options) for options in ([], ["--encoding", "no.enc"]))
    def test_too_many(self, options):
        """65 files are too many, also if an encoding vector isn't read."""
        for command, *others in (["set"] + ["no"] * 66, ["stream"] + ["no"] * 66, ["each"] + ["no", "x", "no"] * 65):
            self.same(command, (2, "", "tfmset: more than 64 files\n"),
                      run([command, *options, *others], b"", self.room))


class Numbers(Case):
    """The number of a font or a file in a message"""

    @rows((f"number {number}", number) for number in (1, 9, 64))
    def test_number(self, number):
        """One of 64 fonts or files isn't there, or is refused."""
        for name, text in (("T", "@plain"), ("R", "@no_characters bytes 47"), ("F", "ab")):
            self.file(name, content(text))

        def names(usual, one):
            return [usual] * (number - 1) + [one] + [usual] * (64 - number)

        def each(fonts, texts):
            return ["each", *(word for font, text in zip(fonts, texts) for word in (font, "9", text))]

        texts = names("F", "no")
        for args, status, message in (
                (["set", "T", *texts], 4, "file {} not read"),
                (["stream", "T", *texts], 4, "file {} not read"),
                (each("T" * 64, texts), 4, "file {} not read"),
                (each(names("T", "no"), "F" * 64), 4, "font {} not read"),
                (each(names("T", "R"), "F" * 64), 3, "font {} refused: 8 truncated, 48 bytes needed")):
            cause = f"tfmset: no: {NOT_THERE}\n" * (args[0] == "stream")
            wanted = (status, "", f"{cause}tfmset: {message.format(number)}\n")
            self.same((args[0], message), wanted, run(args, b"", self.room))


class Names(Case):
    """Names of fonts and files"""

    @rows((repr(args), args) for args in (
        [b"\xff"], [b"counts", b"a\xc3"], [b"stream", b"--size", b"\xed\xa0\x80", b"no"], [b"check", b"no", b"\xc0\x80"]))
    def test_not_utf8(self, args):
        """An argument that isn't UTF-8 makes the whole command invalid."""
        message = "error: invalid UTF-8 was detected in one or more arguments\n"
        self.same("result", (2, "", message), execute(PROGRAM, *args, cwd=self.room))

    @rows((repr(name[:20]), name) for name in (" a", "a ", "\ta\n", " ", "-a", "--", "-", "a\nb", "é",
                                               "e\u0301", "A", "a\\", "~", "$a", "*", "é" * 127 + "x"))
    def test_name(self, name):
        """A file is opened by exactly the bytes of its name, among files with similar names."""
        similar = {name.strip(), name.lower(), name.split("\n")[0], name[:-1], name.strip("-"),
                   *(unicodedata.normalize(form, name[-9:]) for form in ("NFC", "NFD"))}
        for other in similar - {name, ""}:
            self.file(other, content("@plain"))
        font, text = self.file("usual.tfm", content("@ligature_0")), self.file("usual.txt", "ab\n")
        printed = shown(name)
        lines = "1:1 set 491520 c99=491520\n1 end complete 1\n"
        calls = [(text, [command, "--", font, name], lines, "file 1") for command in ("set", "stream")]
        calls += [(font, ["each", "--", name, "9", text], lines, "font 1"),
                  (text, ["each", "--", font, "9", name], lines, "file 1")]
        if name != "-":
            calls += [(font, [command, "--", name, text], lines, "font") for command in ("set", "stream")]
            calls += [(font, ["list", "--", name], run(["list", font])[1], "font"),
                      (font, ["check", "--", name], printed + ": accepted\n", "some font was")]
        for source, args, out, what in calls:
            path = self.file(name, read(source, "rb"))
            self.same(args, (0, out, ""), run(args, b"", self.room))
            os.remove(path)
            out = printed + ": not read\n" if args[0] == "check" else ""
            tip = TIP * (what.startswith("font") and "/" not in name and name != "-")
            message = f"tfmset: {what} not read\n"
            hint = "tfmset: -: this is the name of a file; /dev/stdin is standard input\n" * (name == "-")
            whole = f"tfmset: {printed}: {NOT_THERE}\n{hint}{message}{tip}"
            wanted = (4, out, whole if args[0] in REPORTING else message)
            self.same((args, "isn't there"), wanted, run(args, b"", self.room))
            self.same((args, "-v"), (4, out, whole), run([args[0], "-v", *args[1:]], b"", self.room))


def shown(name):
    """A name as messages show it."""
    return "".join(chr(c) if 31 < c < 127 and c != 92 else f"\\x{c:02x}" for c in name.encode())


# Names with each ASCII character and some others, and names of each length.
CHARACTERS = [chr(code) for code in range(1, 128) if code != 47] + [*"\x80éÿŁ€\u2028\ufeff\ufffd𝄞"]
NAMES = [*(f"x{character}y" for character in CHARACTERS), *("n" * length for length in range(1, 256))]


class ManyNames(Case):
    """Names with each character, and of each length"""

    def test_fonts(self):
        """Each font is the one of its name: a font is too short by the number of words of its number."""
        for number, name in enumerate(NAMES):
            self.file("./" + name, make(header=bytes(4 * number))[:-1])
        errors = [f"refused: 8 truncated, {48 + 4 * number} bytes needed\n" for number in range(len(NAMES))]
        wanted = "".join(f"{shown(name)}: {error}" for name, error in zip(NAMES, errors))
        self.same("check", (1, wanted, ""), run(["check", "--", *NAMES], b"", self.room))

    def test_too_long(self):
        """Each command reports a name that is too long as a file that isn't read, with its cause."""
        self.file("f.ont", content("@plain"))
        cause = f"{os.strerror(errno.ENAMETOOLONG)} (os error {errno.ENAMETOOLONG})"
        for name in ("n" * 256, "n" * 4096, "n" * 65536):
            for args, what in ((["counts", name], "font"), (["stream", name], "font"), (["each", name, "9", "f.ont"], "font 1"),
                               (["set", "f.ont", "f.ont", name], "file 2"), (["each", "f.ont", "9", name], "file 1"),
                               (["pairs", "--encoding", "./" + name, "f.ont"], "encoding")):
                wanted = f"tfmset: {args[2] if what == 'encoding' else name}: {cause}\ntfmset: {what} not read\n"
                self.same(args[0], (4, "", wanted), run([args[0], "-v", *args[1:]], b"", self.room))


class FullDevices(Case):
    """Output that can't be written"""

    @rows((f"{words} {to}", words, to) for to in ("> /dev/full", ">&-") for words in (
        "set T Q", "set T .", "stream T F .", "each T 9 . T 9 F", "check R", "check no T", "list T"))
    def test_output(self, words, to):
        """The exit status is 5, whatever it would have been otherwise."""
        for name, text in (("T", "@plain"), ("R", "@no_characters bytes 47"), ("F", "ab"), ("Q", "Q")):
            self.file(name, content(text))
        status, _, err = bash(f"'{PROGRAM}' {words} {to}", self.room)
        number = errno.ENOSPC if "full" in to else errno.EBADF
        cause = f"tfmset: standard output: {os.strerror(number)} (os error {number})\n" * (words.split()[0] in REPORTING)
        # The files of `stream` are read while its output fails, with or without a cause of their own.
        last = "".join(err.splitlines(True)[-2:]) if cause else err
        self.same(words, (5, cause + "tfmset: output failed\n"), (status, last))


def help_forms(command):
    """The arguments that print the same help."""
    if not command:
        return [["--help"], ["-h"], ["help"]]
    if command == "help":
        return [["help", "help"]]
    return [[command, "--help"], [command, "-h"], ["help", command]]


def usage_errors():
    """The invalid arguments of the table: each with the word that its message names, and with the message."""
    for text, found in table("program/usage_errors").items():
        for args in found:
            _, word, _ = (args + "``").split("`", 2)
            args = args.replace("`", "")
            command = args.split()[0]
            usage = usage_of(command) if "{usage}" in text else ""
            message = text.format(word=word, command=command, usage=usage)
            yield args, word, f"error: {message}\n\nFor more information, try '--help'.\n"


def usage_of(command):
    """The first line of the usage of a command."""
    return re.search("^Usage: .*$", read(f"checks/help/{command}.txt"), re.M)[0]


def update():
    """Writes the files of checks/help."""
    for command in ("", *COMMANDS, "help"):
        write(os.path.join(HELP, (command or "tfmset") + ".txt"), run(help_forms(command)[0])[1])


class Help(Case):
    """Help, version and usage errors, byte for byte"""

    @rows((f"help of {command or 'tfmset'}", command) for command in ("", *COMMANDS, "help"))
    def test_help(self, command):
        """Each form of a help prints the same, in lines of fewer than 80 columns."""
        text = read(f"checks/help/{command or 'tfmset'}.txt")
        for form in help_forms(command):
            self.same(form, (0, text, ""), run(form))
        self.none([line for line in text.splitlines() if len(line) > 79])

    def test_version(self):
        for form in ("--version", "-V"):
            self.same(form, (0, "tfmset 0.1.0\n", ""), run(form))

    def test_usage_errors(self):
        self.same("no argument", (2, "", read("checks/help/tfmset.txt")), run(""))
        for args, _, message in usage_errors():
            self.same(args, (2, "", message), run(args, content("@no_characters")))


# Some arguments of the table of usage errors, whose word may have any length.
WORDS = ("set --size x - a", "stream --missing other -", "stream --record 3 -", "pairs --format xml -",
         "pairs --encoding utf8 -", "set --encoding utf8 - a", "set --size 0pt - a", "stream --size 134217728 -", "help none",
         "measure", "list --foo -")


class Invalid(Case):
    """Invalid arguments of each length, and with each character"""

    @rows((args, args) for args in WORDS)
    def test_length(self, args):
        """The message of a longer word is the one in the table, with this word."""
        (word, known), = ((word.lstrip("-"), message) for other, word, message in usage_errors() if other == args)
        for length in (1, 9, 13, 79, 4000, 65536):
            letters = "94" if word.isdigit() and length > len(word) else "qz"
            other = (letters * length)[:length] if length % 2 else "é" * (length // 2)
            given = [re.sub(f"^(-*){word}$", rf"\g<1>{other}", one) for one in args.split()]
            wanted = re.sub(f"'(-*){word}'", rf"'\g<1>{other}'", known)
            self.same((args, length), (2, "", wanted), run(given))

    @rows((command, command) for command in ("list", "set"))
    def test_each_dash(self, command):
        """The tips for a dash and each character: a digit, a period or a comma begins a negative number."""
        tips = (f"  tip: 'tfmset {command} --help' lists the options of this command\n"
                "  tip: write './' before the name of a file that begins with '-'\n")
        negative = "  tip: no option takes a negative number; a size is a number with a unit, such as 12pt\n"
        for character in [chr(code) for code in range(32, 127) if chr(code) not in "-hv"] + [*"é€𝄞"]:
            tip = negative if character in "0123456789.," else tips
            wanted = (f"error: unexpected argument '-{character}' found\n\n{tip}\n{usage_of(command)}\n\n"
                      "For more information, try '--help'.\n")
            for args in (["-" + character, "a"], ["a", f"-{character}{character}"],
                         ["--size", f"-{character}5pt", "a"]):
                self.same((command, args), (2, "", wanted), run([command, *args]))


class Expectations(Case):
    """Wrong expectations are found"""

    def test_each_part_of_a_case_is_compared(self):
        case, files = next((case, files) for _, case, files in cases_of("set"))
        for name, value in (("status", 2), ("out", case["out"][:-1]), ("err", "x"), ("out", "")):
            other = Case()
            other.setUp()
            compare(other, {**case, name: value}, files)
            other.doCleanups()
            self.same(name, 1, len(other.wrong))

    def test_each_error_fails_a_test(self):
        """One error, or too few comparisons, fails a test at its end."""
        for arguments, wrong in (((["an error"],), 1), (([], 0), 1), (([], 1, 2), 1), (([],), 0)):
            other = Case()
            other.setUp()
            other.none(*arguments)
            self.same(arguments, wrong, len(other.wrong))
            if wrong:
                self.assertRaises(AssertionError, other.tearDown)
            else:
                other.tearDown()
