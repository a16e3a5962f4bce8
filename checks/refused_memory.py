"""Each allocation and system call of the program fails in turn.

lib/refuse.c is preloaded. It counts the allocations of the program, its reads, openings and writes, and the
threads that it starts, and makes the first one fail, in the next execution the second one, and so on, until
an execution isn't affected any more; and then all starting at each number. Each execution must end by itself,
with the exit status and the line of docs/ERRORS.md, and its output must fit: the records of each source are
the first ones of an undisturbed execution, each once and in order, and the end line counts them; the findings
of `check` before the failure are printed. If only one allocation failed, at most one lane is abandoned. Reads
and writes that transfer only a few bytes, or are interrupted, change nothing.

Openings, writes, and allocations that the C library makes for a new thread fail one at a time, and writes to a
closed pipe from one on. On a full device the exit status stays 5 if an allocation fails. A batch whose last source
never ends has to end, too, and so has one whose sources are silent, if a thread can't be started.
"""
import errno
import itertools
import os
import re
import subprocess

from lib import refuse
from lib.base import DEMO, PROGRAM, Case, output, read, rows, shared, table, write
from lib.refuse import Got

WEIGHT = 5
SECONDS = 100  # for one execution
ENOUGH = 12  # executions that nothing affects, after which no more are made
MOST = 2000  # requests; no command makes so many
CASES = table("refused_memory")
MESSAGES = CASES["messages"]
REPORTING = ("stream", "pairs", "check")
CAUSE = re.compile(r"tfmset: .*: .* \(os error \d+\)\n")


class Wrong(Exception):
    """The error of an execution."""


class Command:
    """A command, its exit status if nothing fails, its standard input, and its files: fonts and sources."""

    def __init__(self, words, status, given=None, fonts="", sources=""):
        self.words, self.given, self.status = words.split(" "), given, status
        self.fonts, self.sources = fonts.split(), sources.split()
        self.name = "tfmset " + words + (" < " + given if given else "")
        self.kind, self.want, self.seconds = self.words[0], None, SECONDS


COMMANDS, LONG = ([Command(*row) for row in CASES[name]] for name in ("commands", "long"))


def make_files(room):
    """A font, an encoding vector, texts with set and refused lines, and one of several buffers."""
    font, long = read(DEMO, "rb"), "the office after all of it affable five\n" * 1500
    glyphs = ["/" + (chr(code) if chr(code).isalpha() and code < 128 else ".notdef") for code in range(256)]
    vector = "/Letters [\n" + "\n".join(glyphs) + "\n] def\n"
    for name, text in {"font.tfm": font, "other.tfm": font, "cut.tfm": font[:100], "long": long, "letters.enc": vector,
                       **CASES["texts"]}.items():
        write(os.path.join(room, name), text)


def run(command, *failing, out=subprocess.PIPE):
    """Executes a command with the library."""
    room = shared("refused_memory", make_files)
    with open(os.path.join(room, command.given or "c"), "rb") as given:
        return refuse.execute([PROGRAM, *command.words], *failing, cwd=room, stdin=given, stdout=out,
                              timeout=command.seconds)


def sources_of(text, command):
    """The records and the end of each source of an output, and the rest of a line that was cut."""
    *lines, rest = text.split("\n")
    if "--record" in command.words and lines and lines.pop(0) != "records 2":
        raise Wrong("no head")
    found, last = {number: ([], []) for number in range(1, len(command.sources) + 1)}, 0
    for line in lines:
        form = re.match(r"(\d+)(?::\d+ (?:set|refused) | end (\S+) (\d+)$)", line)
        number = int(form[1]) if form else 0
        if number not in found:
            raise Wrong(f"not a line of an output: {line!r}")
        records, ends = found[number]
        if ends:
            raise Wrong(f"a line after the end of source {number}: {line!r}")
        if command.kind != "stream" and number < last:
            raise Wrong(f"source {number} after source {last}")
        last = number
        if form[2]:
            ends.append((form[2], int(form[3])))
        else:
            records.append(line)
    return found, rest


def ends_of(command, got, allowed):
    """Whether each source has an end, the reasons, and how many of these aren't the source's own."""
    found, rest = sources_of(got.out, command)
    whole, whys, abandoned = sources_of(command.want.out, command)[0], [], 0
    if rest and allowed != {"output"}:
        raise Wrong(f"a part of a line: {rest!r}")
    for number, (records, end) in found.items():
        wanted, wanted_end = whole[number]
        if records != wanted[:len(records)]:
            raise Wrong(f"source {number} doesn't have its first records: {records!r}")
        for why, count in end:
            is_own = why == wanted_end[0][0]
            if count != len(records) or is_own and count != len(wanted) or not is_own and why not in allowed:
                raise Wrong(f"source {number} ends with {why} {count}, and has {len(records)} records")
            whys.append(why)
            abandoned += not is_own
    # The rest has to begin the next line of some source.
    following = [(*wanted, "%d end %s %d" % (number, *wanted_end[0]))[len(found[number][0])]
                 for number, (wanted, wanted_end) in whole.items() if not found[number][1]] if rest else [""]
    if not any(line.startswith(rest) for line in following + ["records 2"]):
        raise Wrong(f"not the beginning of a line: {rest!r}")
    return len(whys) == len(found), whys, abandoned


def parts_of(command, err):
    """The causes of errors on standard error, which these commands print without --verbose, and the other lines."""
    lines = err.splitlines(True)
    causes = [line for line in lines if command.kind in REPORTING and CAUSE.fullmatch(line)]
    return causes, "".join(line for line in lines if line not in causes)


def judge(command, got, what, on, error):
    """Raises Wrong if an execution in which something failed doesn't end as it has to."""
    causes, message = parts_of(command, got.err)
    if what in ("read", "open", "write") and got.status in (4, 5) and command.kind in REPORTING and not any(
            os.strerror(error) in cause for cause in causes):
        raise Wrong(f"no cause on standard error: {got.err!r}")
    got, want = got._replace(err=message), command.want._replace(err=parts_of(command, command.want.err)[1])
    plain, is_right = got[:3], False
    same = plain == want[:3]
    batch = command.kind in ("set", "each", "stream") and want.out != ""
    if not isinstance(got.status, int) or got.status < 0:
        raise Wrong(f"status {got.status}")
    if batch and not same and what != "write":
        found, whole = (sources_of(one.out, command)[0] for one in (got, want))
        same = (found, got.status, got.err) == (whole, want.status, want.err)
    if same and what in ("memory", "few"):
        return
    if command.kind == "check" and what in ("memory", "read", "open"):
        is_right = is_right_check(command, got, what, error)
    elif what == "memory" and batch and got.out:
        is_right = is_right_text(command, got, {"memory", "gave-up"}, on)
    elif what in ("memory", "library", "thread"):
        is_right = (what != "thread" and plain == (5, "", MESSAGES["memory"])
                    or batch and plain == (5, "", MESSAGES["thread"]))
    elif what == "telling":
        is_right = plain == (want.status, want.out, "")
    elif what == "write" and command.kind == "stream":
        is_right = (got.status, got.err) == (5, MESSAGES["output"]) and ends_of(command, got, {"output"})
    elif what == "write":
        is_cut = want.out.startswith(got.out) and got.out != want.out
        is_right = is_cut and plain == (5, got.out, MESSAGES["output"])
    elif what in ("read", "open"):
        is_right = is_right_file(command, got, what, on, error)
    if not is_right:
        raise Wrong(f"status {got.status}, standard error {got.err!r}, output {got.out[-300:]!r}")


def is_right_check(command, got, what, error):
    """The findings are those of the fonts before the failure, or all, if fonts that failed aren't read."""
    want, failed = command.want.out.splitlines(True), {os.path.basename(name) for name in got.told}
    if what == "memory" or error == errno.ENOMEM:
        return got[:3] == (5, got.out, MESSAGES["memory"]) and got.out in [
            "".join(want[:count]) for count in range(len(want))]
    lines = [f"{name}: not read\n" if name in failed else line for name, line in zip(command.fonts, want)]
    return got[:3] == (4, "".join(lines), MESSAGES["some font"])


def is_right_text(command, got, allowed, on):
    """The sources end for their own reasons or for one of `allowed`, or a stream was cut."""
    every, whys, abandoned = ends_of(command, got, allowed)
    if abandoned > 1 and not on:
        raise Wrong(f"{abandoned} lanes were abandoned")
    if not every and (command.kind != "stream" or allowed == {"read"}):
        raise Wrong("a source has no end line")
    # If the status is 0, nothing was lost, but the output differs.
    status = max([CASES["statuses"][why] for why in whys] + [0 if every else 5])
    return (got.status, got.err) == (status, {5: MESSAGES["memory"], 4: MESSAGES["unread"]}.get(status))


def is_right_file(command, got, what, on, error):
    """A read or an opening of a file that failed: the line that names it, or the end of its source."""
    name = os.path.basename(got.told[0])
    number = (command.fonts if name in command.fonts else command.sources).index(name) + 1
    if name.endswith(".enc"):
        line = MESSAGES["encoding"]
    elif name in command.fonts:
        line = f"tfmset: font {number} not read\n" if command.kind == "each" else MESSAGES["font"]
    elif what == "open":
        line = f"tfmset: file {number} not read\n"
    else:
        end = re.search(rf"^{number} end read \d+$", got.out, re.M)
        return is_right_text(command, got, {"read"}, on) and end
    return got[:3] == (4, "", line) or error == errno.ENOMEM and got[:3] == (5, "", MESSAGES["memory"])


def fault_of(*execution):
    """Returns the error of an execution, or None."""
    try:
        judge(*execution)
    except Wrong as error:
        return str(error)
    return None


def in_turn(command, what, on=False, error=errno.ENOMEM, most=MOST):
    """Makes each request fail in turn. Returns the errors, and how many requests failed."""
    wrong, untouched, number = [], 0, 0
    while number < most and untouched < ENOUGH:
        number += 1
        got = run(command, what, number, on, error)
        kind = "few" if not got.told else "memory" if what == "large" else what
        fault = fault_of(command, got, kind, on, error)
        untouched += not got.told
        if fault:
            wrong.append(f"number {number}{' and all after it' if on else ''}: {fault}")
        if got.told == ["time"]:
            break
    return wrong + ([f"{number} requests, and no end"] if number >= MOST else []), number - untouched


def kinds_of(command, length):
    """What fails in a command with a short or a long input: a title, and the arguments of in_turn."""
    folder = "folder" in command.words
    traits = {"": True, "fonts": command.fonts, "output": command.status < 2 or folder,
              "sources": command.sources and command.status < 4 or folder}
    for row in CASES["kinds"]:
        if length in row["inputs"].split() and traits[row.get("with", "")]:
            most = 4 * ENOUGH if (length, row["what"]) == ("long", "write") else MOST
            error = getattr(errno, row.get("errno", "ENOMEM"))
            yield row["title"], row["what"], row.get("on", False), error, most


class Failures(Case):
    """One request after the other fails"""

    def setUp(self):
        super().setUp()
        self.need("cc")

    def undisturbed(self, command):
        """Executes a command in which nothing fails, for comparison. Returns whether the result is right."""
        command.want = got = run(command)
        self.same("status", command.status, got.status)
        if got.out and command.sources:
            found, rest = sources_of(got.out, command)
            self.same("rest", "", rest)
            for records, ends in found.values():
                self.same("the number of an end line", [len(records)], [count for _, count in ends])
        return not self.wrong

    @rows((f"{kind[0]}: {command.name}", command, *kind[1:])
          for length, commands in (("short", COMMANDS), ("long", LONG))
          for command in commands for kind in kinds_of(command, length))
    def test(self, command, what, *how):
        if self.undisturbed(command):
            wrong, failed = in_turn(command, what, *how)
            self.none(wrong, failed, 0 if what in ("library", "open", "read") else 1)

    @rows((command.name, command) for command in COMMANDS + LONG)
    def test_few(self, command):
        """Nothing fails, 1 or 7 bytes are read and written at a time, a read or a write is interrupted, or standard error
        can't be written."""
        if self.undisturbed(command):
            for number in (1, 7):
                fault = fault_of(command, run(command, "few", number), "few", False, 0)
                self.same(f"{number} bytes at a time", None, fault)
            for what, number in itertools.product(("read", "write"), (1, 2, 3, 4)):
                fault = fault_of(command, run(command, what, number, False, errno.EINTR), "few", False, 0)
                self.same(f"{what} {number} is interrupted", None, fault)
            if command.want.err:
                got = run(command, "telling", 1, True, errno.EIO)
                self.same("standard error", None, fault_of(command, got, "telling", True, errno.EIO))

    # Mutant of `Disk::open` in tfm_requests: each file is opened twice, so that the writer of a named pipe is lost.
    @rows((command.name, command) for command in COMMANDS if len(command.fonts) > 1 or len(command.sources) > 1)
    def test_openings(self, command):
        """Each file is opened once: the fonts, then the encoding vector, and then the files with lines."""
        files = [name for name in command.fonts + command.sources if name in command.words]
        for verbose in ([], ["-v"]):
            watched = Command(command.name.removeprefix("tfmset ").partition(" < ")[0], command.status, command.given)
            watched.words[1:1] = verbose
            opened = [run(watched, "open", number, False, errno.EIO).told for number in range(1, len(files) + 2)]
            self.same(verbose, [*([name] for name in files), []], opened)

    # Mutants of `WatchedReader` and `WatchedWriter` in tfm_tool: the error of an interrupted read or write is noted.
    @rows((words, words) for words in ("list -v font.tfm", "stream -v font.tfm b"))
    def test_interrupted(self, words):
        """With --verbose, nothing is printed about a read or a write that is interrupted and made again."""
        command = Command(words, 0, "c", "font.tfm", "b")
        wanted = run(command)
        for what, number in itertools.product(("read", "write"), (1, 2, 3, 4)):
            got = run(command, what, number, False, errno.EINTR)
            self.same(f"{what} {number} is interrupted", wanted[:3], got[:3])

    # Mutant of `WatchedFiles` in tfm_tool: an opening for which memory was lacking has no cause.
    @rows((f"{what}, {errno.errorcode[error]}", what, error) for what, error in (
        ("open", errno.ENOMEM), ("open", errno.ELOOP), ("read", errno.EIO)))
    def test_cause(self, what, error):
        """With --verbose, each error of an opening or a read has the message of the system."""
        got = run(Command("counts -v font.tfm", 4, "c"), what, 1, False, error)
        memory = (what, error) == ("open", errno.ENOMEM)
        cause = f"tfmset: font.tfm: {os.strerror(error)} (os error {error})\n"
        self.same("result", (5 if memory else 4, "", cause + MESSAGES["memory" if memory else "font"]), got[:3])

    # Mutants of `Notes` in tfm_tool: a part of the line is noted if memory is lacking, or the line without the name.
    def test_causes(self):
        """If memory for a cause is lacking, its line is left out."""
        command, number, untouched = Command("check -v none folder", 4, "c"), 0, 0
        known = {*run(command).err.splitlines(True), MESSAGES["memory"]}
        self.same("lines", 4, len(known))
        while untouched < ENOUGH and number < MOST:
            number += 1
            got = run(command, "memory", number)
            untouched += not got.told
            self.none([f"number {number}: {line!r}" for line in got.err.splitlines(True) if line not in known])

    # The prover rejects a failed write that is reported as a file that isn't read to its end (clause `text` of
    # `set_sources`). This test shows the exit status of the program if an allocation fails, too.
    @rows((command.name, command) for command in COMMANDS if command.words[1:] == ["font.tfm", "a", "b", "c"])
    def test_full_device(self, command):
        """An allocation fails, and no output can be written: the exit status is 5, with one message."""
        number, untouched = 0, 0
        while untouched < ENOUGH and number < MOST:
            number += 1
            with open("/dev/full", "wb") as full:
                got = run(command, "memory", number, out=full)
            untouched += not got.told
            allowed = [MESSAGES[name] for name in ("output", "memory", "thread")[:3 if got.told else 1]]
            self.same(f"number {number}", (5, True), (got.status, parts_of(command, got.err)[1] in allowed))


    @rows((f"{words.split()[0]}, {what}", words, what, numbers)
          for words in ("set font.tfm b", "each font.tfm 100 b font.tfm 100", "stream font.tfm b")
          for what, numbers in (("thread", range(1, 5)), ("memory", range(1, 400, 40))))
    def test_endless(self, words, what, numbers):
        """The last source never ends, and a thread or all memory fails. Mutant: no thread is stopped."""
        endless = os.path.join(self.room, "endless")
        os.mkfifo(endless)
        pipe = os.open(endless, os.O_RDWR)
        self.addCleanup(os.close, pipe)
        feeder = subprocess.Popen(["yes", "the office five"], stdout=pipe)
        self.addCleanup(feeder.wait)
        self.addCleanup(feeder.kill)
        command = Command(f"{words} {endless}", 0, "c")
        command.seconds = 20
        for number in numbers:
            got = run(command, what, number, what == "memory", errno.EAGAIN)
            told = got.err in (MESSAGES["thread"], MESSAGES["memory"])
            self.assertEqual((5, True), (got.status, told), number)

    # Mutant of `feed` in batch: the thread of a source doesn't wait for the start of the batch.
    @rows((kind, kind) for kind in ("set", "each", "stream"))
    def test_silent(self, kind):
        """All sources are a pipe without data, and the thread of a source, or the first of a worker, can't be started."""
        silent, count = os.path.join(self.room, "silent"), 8
        os.mkfifo(silent)
        self.addCleanup(os.close, os.open(silent, os.O_RDWR))
        words = [f"font.tfm 100 {silent}"] * count if kind == "each" else ["font.tfm", *[silent] * count]
        command = Command(" ".join([kind, *words]), 0, "c")
        command.seconds = 20
        for number in range(1, count + 2):
            got = run(command, "thread", number, False, errno.EAGAIN)
            self.assertEqual((5, "", MESSAGES["thread"]), got[:3], number)


class Judgement(Case):
    """The preloaded library, and which outputs are right"""

    def test_the_program_requests_by_calls_that_are_counted(self):
        self.need("nm")
        lines = output("nm", "-D", "--undefined-only", PROGRAM).splitlines()
        names = {line.split()[-1].split("@")[0] for line in lines}
        self.same("not counted", set(), names & set(CASES["uncounted"]))
        self.same("counted", set(), set(CASES["counted"]) - names)

    def test_the_library_makes_an_allocation_fail(self):
        self.need("cc")
        self.same("failed", ["memory"], run(Command("counts font.tfm", 5), "memory", 1).told)

    @rows((f"{row['status']} {row['out']} {row['err']!r}", row) for row in CASES["judged"])
    def test_output(self, row):
        """Whether an output is accepted, if the first is the output of an undisturbed execution."""
        lines, is_check = CASES["lines"], row["kind"] == "check"
        check, stream = ("check a b c", 1, None, "a b c"), ("stream font a b", 1, None, "", "a b")
        command = Command(*(check if is_check else stream))
        command.want = Got(1, "".join(lines[name] for name in row["want"].split()), "", [])
        out = "".join(lines.get(name, name) for name in row["out"].split(" ") if name)
        error = errno.EIO if is_check else errno.ENOMEM
        cause = f"tfmset: b: {os.strerror(error)} (os error {error})\n" * row.get("cause", row.get("what") == "read")
        got = Got(row["status"], out, cause + MESSAGES.get(row["err"], row["err"]), ["b" if is_check else "memory"])
        fault = fault_of(command, got, row.get("what", "memory"), False, error)
        self.same("accepted", row["right"], fault is None)
