"""The amount of work: instructions, requests for memory, reads, writes, sleeps, and address space.

No contract bounds the work of a call: a body that makes a table anew for each byte, or writes once per record, is
proved. Each counter here is a formula, as so many instructions for each byte, and its bound is twice what was measured
on 2026-11-29: another compiler changes little, a loop too many much. The tests print what they count. Instructions are
counted by callgrind. Requests for memory and reads are counted by lib/refuse.c, which is preloaded, and makes the one
with a number fail, if there are so many.
"""
import os
import re
import resource
import socket
import subprocess
import time

from lib import refuse
from lib.base import DEMO, PROGRAM, Case, rows, shared, write
from lib.clib import LibraryCase
from lib.tfm import make, path_of
from stream_pipe import PIECE

WEIGHT = 6
SECONDS = 50  # for one execution
MB = 1 << 20
W, X_SPACE = (0, 1 << 20), (0, 1 << 18)  # widths and parameters


def many_instructions(count):
    """A font like those in T1: so many kerns after each of 95 characters, whose programs have indirect starts."""
    chains = [(128 * (kern == count - 1), 33 + (code + kern) % 222, 128, (code + kern) % 40)
              for code in range(95) for kern in range(count)]
    starts = [(200, 0, (95 + count * code) // 256, (95 + count * code) % 256) for code in range(95)]
    infos = [(1, 0, 32 <= code < 127, code - 32 if 32 <= code < 127 else 0) for code in range(256)]
    return make(infos, W, starts + chains, [16 * number for number in range(1, 41)], X_SPACE, first=0)


def pairs_of(lefts, count=256):
    """A font in which so many characters have a kern before each of 256, by one program of so many instructions."""
    program = [(128 * (step == count - 1), step % 256, 128, 0) for step in range(count)]
    return make([(1, 0, int(code < lefts), 0) for code in range(256)], W, program, (9,), X_SPACE, first=0)


UMLAUTS, SKIPPED, WORDS = PIECE.replace(b"a", "ä".encode()), PIECE.replace(b"\n", b"!\n"), PIECE.replace(b"\n", b" ")
TEXTS = {"nothing": b"", "100 KB": PIECE[:100000], "200 KB": PIECE[:200000], "2 MB": PIECE * 2, "20 MB": PIECE * 20,
         "100 KB with ä": UMLAUTS[:100000], "200 KB with ä": UMLAUTS[:200000], "100 KB with !": SKIPPED[:100000],
         "200 KB with !": SKIPPED[:200000], "20 lines": b"aa\n" * 20, "short lines": b"office\n" * 15000,
         "20,000 lines": (WORDS[:56] + b"\n") * 20000, "long lines": (WORDS[:65000] + b"\n") * 30,
         "256 characters": make([(1, 0, 0, 0)] * 256, W, params=X_SPACE, first=0),
         "3,000 instructions": many_instructions(31), "28,600 instructions": many_instructions(300),
         "2,560 pairs": pairs_of(10), "65,536 pairs": pairs_of(256), "3,000 for all": pairs_of(256, 3000),
         "28,600 for all": pairs_of(256, 28600)}
LETTERS, SIZES = ("100 KB with ä", "200 KB with ä"), ("3,000 instructions", "28,600 instructions")
SHARED = ("3,000 for all", "28,600 for all")
# One worker and chunks of eight lines: then the threads' schedule hardly changes the number of instructions.
STREAM, SET = ["stream", "--workers", "1", "--block", "8"], ["set", "--workers", "1", "--block", "8"]
ENDLESS = ["--limit", "5000", path_of("endless_3"), "@"]
# What is counted; the command, whose @ is one of two arguments; how many more units the second one brings; and the
# instructions that each takes.
COUNTERS = [
    # A byte is read, copied to its chunk, looked up once in the table of texts, copied twice and written. A byte of a
    # line that isn't set with the table takes 176 instructions.
    ("a byte of stream", [*STREAM, DEMO, "@"], ("100 KB", "200 KB"), 100000, 65),
    ("a byte of set", [*SET, DEMO, "@"], ("100 KB", "200 KB"), 100000, 65),
    # The same, and each character is decoded, and its code is looked up.
    ("a byte of UTF-8", [*STREAM, "--encoding", "t1", "256 characters", "@"], LETTERS, 100000, 76),
    # The same with a byte that is skipped, and in another format.
    ("a byte with a skipped character in each line", [*STREAM, "--missing", "skip", DEMO, "@"],
     ("100 KB with !", "200 KB with !"), 100000, 65),
    ("a byte of JSON", [*STREAM, "--record", "json", "256 characters", "@"], ("100 KB", "200 KB"), 100000, 76),
    # Three of four lines have a kern before a space. In JSON, the text of a character, a kern and a space has more than
    # 32 bytes, so that these lines are set in the general way.
    ("a byte of JSON, with kerns before spaces", [*STREAM, "--record", "json", DEMO, "@"], ("100 KB", "200 KB"), 100000,
     214),
    # A step is one lookup of a pair, and a change of the list.
    ("a step", [*STREAM, *ENDLESS], ("nothing", "20 lines"), 100000, 77),
    # Each instruction is read and checked once; if lines are set, its pair is also put into a table.
    ("an instruction of a font, check", ["check", "@"], SIZES, 25555, 75),
    ("an instruction of a font, set", ["set", "@", "nothing"], SIZES, 25555, 91),
    # The program of many characters is followed once.
    ("an instruction of a program of 256 characters, set", ["set", "@", "nothing"], SHARED, 25600, 91),
    # Each instruction, and each pair, becomes a line once.
    ("an instruction of a font, list", ["list", "--all", "@"], SIZES, 25555, 1666),
    ("a pair, with characters", ["pairs", "--encoding", "t1", "@"], ("2,560 pairs", "65,536 pairs"), 62976, 700),
]


def named(words):
    """A command, with the paths of its texts and fonts."""
    return [shared("text " + word, lambda made, word=word: write(made, TEXTS[word])) if word in TEXTS else word
            for word in words]


def limited(what, most):
    """A function that limits a resource of a new process."""
    return lambda: resource.setrlimit(what, (most, most))


def used(words):
    """What the execution of a command has used."""
    how = {"stdout": subprocess.DEVNULL, "preexec_fn": limited(resource.RLIMIT_CPU, SECONDS)}
    with subprocess.Popen([PROGRAM, *named(words)], **how) as child:
        _, child.returncode, found = os.wait4(child.pid, 0)
    if child.returncode:
        raise AssertionError(f"{words[:2]} ended with wait status {child.returncode}")
    return found


def seconds(words):
    """The processor time of a command, the least of several executions."""
    found = [used(words) for _ in range(3)]
    return min(one.ru_utime + one.ru_stime for one in found)


def instructions(words, *options):
    """The instructions that a command takes, of all its threads."""
    command = ["valgrind", "--tool=callgrind", "--callgrind-out-file=/dev/null", *options, *named(words)]
    ran = subprocess.run(command, stdout=subprocess.DEVNULL, stderr=subprocess.PIPE, timeout=5 * SECONDS,
                         encoding="utf-8", check=False)
    if ran.returncode not in (0, 1):
        raise AssertionError(f"{words[:2]}: exit status {ran.returncode}: {ran.stderr[-1000:]}")
    return int(re.search(r"Collected : (\d+)$", ran.stderr, re.M)[1])


class Instructions(Case):
    """Instructions and processor time of the program"""

    @rows(COUNTERS)
    def test(self, command, arguments, units, usual):
        """A byte, a step, an instruction of a font or a pair takes at most twice the usual number of instructions."""
        self.need("valgrind")
        few, many = (instructions([PROGRAM, *(argument if word == "@" else word for word in command)])
                     for argument in arguments)
        print(f"{(many - few) / units:.1f} instructions, usually {usual}")
        self.assertLess(many - few, 2 * usual * units)

    # Mutants: all earlier buffers are visited for each chunk of `set`; in the general way, the rest of a line is read
    # for each word; the names of all fonts are compared for each font.
    @rows((title, command, most, other) for title, command, most, other in (
        ("ten times the text, stream", ["stream", DEMO, "20 MB"], 30, ["stream", DEMO, "2 MB"]),
        ("ten times the text, set", ["set", DEMO, "20 MB"], 30, ["set", DEMO, "2 MB"]),
        ("lines of 65,000 bytes in JSON", ["set", "--record", "json", DEMO, "long lines"], 4,
         ["set", "--record", "json", DEMO, "2 MB"]),
        ("ten times the fonts", ["check", *[DEMO] * 2000], 30, ["check", *[DEMO] * 200])))
    def test_in_proportion(self, command, most, other):
        """The processor time grows in proportion to the text, whatever its lines are, and to the number of fonts."""
        took, little = seconds(command), max(seconds(other), 0.001)
        print(f"{took:.3f} s, {took / little:.1f} times {little:.3f} s; less than {most} times is right")
        self.assertLess(took, most * little)


class Library(LibraryCase):
    """Work of the functions of the library, which lib/stack.c calls: at two sizes, with each encoding and format"""

    def setUp(self):
        super().setUp()
        link = [self.lib + "/libtfmset.a"]
        self.program = self.built("checks/lib/stack.c", "cc", "-std=gnu99", "-pthread", link=link)

    # A call reads its font; one that sets lines first makes the table of pairs. A byte of a long text
    # is set with a table of sums or of texts, and its record is copied; a third of the calls makes it in JSON. A byte
    # that is encoded is compared with its code, and copied. A sixth of the calls with an encoding reads a vector.
    @rows((function, function, *usual) for function, *usual in (
        ("characters", 2, 29500, 0), ("set", 2, 96400, 0), ("widths", 2, 96300, 30), ("records", 36, 176000, 101),
        ("encode", 12, 60500, 7)))
    def test_instructions(self, function, calls, usual, usual_byte):
        """A call for a short text, and a byte more, take at most twice the usual number of instructions."""
        self.need("valgrind")

        def taken(text):
            return instructions([self.program, DEMO, text, function], f"--toggle-collect=call_{function}") / calls

        call, byte = taken("20 lines"), usual_byte and (taken("200 KB") - taken("100 KB")) / 100000
        print(f"{function}: {call:.0f} a call, usually {usual}; {byte:.1f} a byte, usually {usual_byte}")
        self.same("few instructions", (True, True), (call < 2 * usual, byte <= 2 * usual_byte))

    # Mutants of tfmset_c: the text is copied; a list as long as the array of the caller is requested; the lists of a
    # line aren't used for the next one.
    def test_memory(self):
        """A call requests no memory for a byte or a line: all tables and lists are below 256 KB."""
        command = named([self.program, DEMO, "200 KB"])
        for what, most in (("huge", 0), ("memory", 70 * 84)):  # 70 calls, of at most 42 requests
            got = refuse.execute(command, what, most + 1, timeout=SECONDS)
            self.same(f"{what}: status, and requests that failed", (0, []), (got.status, got.told))


class Requests(Case):
    """Reads, requests for memory, writes, sleeps and address space of the program"""

    def at_most(self, words, what, most):
        """A command makes at most so many requests."""
        self.need("cc")
        command = [PROGRAM, *named(words)]
        got = refuse.execute(command, what, most + 1, stdout=subprocess.DEVNULL, timeout=SECONDS)
        self.same((*words, f"{what}: requests above {most}"), (0, []), (got.status, got.told))

    @rows((f"reads: {words[0]}, {files} files", words, files) for words, files in (
        (["set", DEMO], 1), (["stream", "--crlf", "--verbose", "--encoding", "t1", DEMO], 3), (["check", DEMO], 0),
        (["list", "--all", DEMO], 0)))
    def test_reads(self, words, files):
        """A font takes two reads, and a file one for each 4,096 bytes and one for its end. The bound is twice that."""
        reads = 2 + files * (len(TEXTS["short lines"]) / 4096 + 1)
        self.at_most([*words, *["short lines"] * files], "read", round(2 * reads))

    # Mutants of line_records and line_chunks: a table is made for each line or chunk; none is made, so that all lines are
    # set in the general way, which COUNTERS would show, too. The font has one table of the same size.
    @rows((f"tables: {words[0]}, {lanes} lanes", words, lanes) for words, lanes in (
        (["stream", "--workers", "1", DEMO, "2 MB"], 1), (["set", "--workers", "3", DEMO, "100 KB", "100 KB"], 6),
        (["stream", "--workers", "2", "--encoding", "t1", DEMO, "2 MB"], 2),
        (["stream", "--workers", "1", "--record", "json", "--missing", "skip", DEMO, "2 MB"], 1)))
    def test_tables(self, words, lanes):
        """Each lane of each file makes one table of texts; the font has one of pairs."""
        self.at_most(words, "table", 1 + lanes)
        got = refuse.execute([PROGRAM, *named(words)], "table", 1 + lanes, stdout=subprocess.DEVNULL, timeout=SECONDS)
        self.same("requests for the last table", 1, len(got.told))

    # Mutant of line_chunks: each line of a chunk is copied. Of 15,000 lines, a chunk has one, eight, or those of a read.
    @rows(("memory: " + " ".join(words), words, chunks) for words, chunks in (
        (["set"], 15000), (["set", "--block", "8"], 1875), (["stream", "--encoding", "t1"], 26),
        (["stream", "--crlf", "--workers", "1"], 26)))
    def test_memory(self, words, chunks):
        """A chunk takes two requests for memory, for its lines and for its records, and a line none; 1,000 more are
        permitted, of which a command takes about 220."""
        self.at_most([*words, DEMO, "short lines"], "memory", 2 * chunks + 1000)

    @rows(("writes: " + words[0], words) for words in (
        ["set", DEMO, "2 MB"], ["stream", DEMO, "2 MB"], ["list", "--all", DEMO]))
    def test_writes(self, words):
        """The output is written in pieces of 64 KB if its reader is slow. The bound is twice as many."""
        # The socket keeps the boundaries of writes.
        ours, theirs = socket.socketpair(socket.AF_UNIX, socket.SOCK_SEQPACKET)
        sizes = []
        with ours, theirs, subprocess.Popen([PROGRAM, *named(words)], stdout=theirs) as child:
            theirs.close()
            ours.settimeout(SECONDS)
            for message in iter(lambda: ours.recv(MB), b""):
                sizes.append(len(message))
                time.sleep(0.003)
        print(f"{len(sizes)} writes of {sum(sizes)} bytes")
        self.same("exit status", 0, child.returncode)
        self.assertLess(len(sizes), sum(sizes) / 32768 + 20)

    # Mutant of batch: a worker leaves a lane after each message, so that the other threads are woken each time.
    def test_sleeps(self):
        """The threads of a stream sleep about twice for each half of a ring.

        It has 32 chunks of eight lines, so that they sleep 156 times for 20,000 lines. Since the schedule decides, the
        bound is six times that.
        """
        options = ["--block", "8", "--workers", "1", "--capacity", "64"]
        sleeps = [used(["stream", *options, DEMO, "20,000 lines"]).ru_nvcsw for _ in range(5)]
        print(f"{sorted(sleeps)} sleeps; fewer than 936 are right")
        self.assertLess(min(sleeps), 6 * 156)

    # Mutants: 200 MB are requested for each font; the bytes of each font are kept; buffers of the output of `set` have
    # 128 KB, for 64 KB of text.
    @rows((f"address space: {words[0]}, {len(words) - 1} arguments, {most} MB", words, most) for words, most in (
        (["stream", DEMO, "20 MB"], 200), (["set", DEMO, "20 MB"], 560), (["check", *[DEMO] * 6000], 64),
        (["check", *[path_of("largest")] * 600], 64), (["list", "--all", DEMO], 64)))
    def test_address_space(self, words, most):
        """A command succeeds in so many megabytes of address space. Only `set` keeps its output, until all is set."""
        how = {"stdout": subprocess.DEVNULL, "stderr": subprocess.PIPE, "timeout": 4 * SECONDS, "check": False}
        ran = subprocess.run([PROGRAM, *named(words)], preexec_fn=limited(resource.RLIMIT_AS, most * MB), **how)
        self.same(words[0], (0, b""), (ran.returncode, ran.stderr))
