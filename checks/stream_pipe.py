"""`tfmset stream` through pipes, and the threads and rings of `set`, `each` and `stream`.

The record of a line must be printed before the next line is sent, whatever `--block` is; `--workers` must set
the number of threads; `--capacity` and `--block` must set how far a source is read ahead; memory must be
bounded; and a closed pipe must end the program. What contracts state isn't tested here: that each line has
its record, and which one. How far a source is read ahead is seen while ptrace stops all other threads; where that
isn't permitted, these tests are skipped.
"""
import contextlib
import ctypes
import fcntl
import itertools
import os
import re
import select
import socket
import statistics
import struct
import subprocess
import tempfile
import termios
import threading
import time

from lib import refuse
from lib.base import DEMO, PROGRAM, Case, read, rows
from lib.tfm import path_of

WEIGHT = 4
SECONDS = 20  # for one record or one end
CLOSED = b"tfmset: standard output: Broken pipe (os error 32)\ntfmset: output failed\n"
LINES = 50  # that are sent one by one
TIMED = 100  # that are sent one by one, and timed
PAUSE = 0.12  # seconds before each fifth of them; no sleep is longer than 0.05
MOST_LATENCY = (0.005, 0.012, 0.03)  # seconds: the median, that after a pause, the 95th percentile
MOST_REQUESTS = 2000  # of memory, of which each fails in turn until a lane is abandoned
# Seconds, and the seconds of processor time in them: 0.01 to 0.4, by the machine, and 2 or more if a thread polls.
SILENCE, MOST_IDLE = 5, 1
MB = 1 << 20
MEGABYTES = (20, 200)
# A megabyte of lines of up to 80 bytes, the last of which don't fill a chunk of eight.
WORDS = b"the office five after all of it affable flow in".split()
PIECE = b"".join(b" ".join(WORDS[(line * 7 + i * 3) % 10] for i in range(line % 20))[:80] + b"\n"
                 for line in range(21259))
MOST_GROWTH = 2 * 1024  # KB
MOST_MEMORY = 24 * 1024  # KB
LONG, LONG_LINES, MOST_LONG_MEMORY = b"five " * 6600 + b"\n", 600, 16 * 1024  # 33 KB, the number of lines, KB
BUSY = 10_000_000  # nanoseconds of processor time of a thread that sets a fourth of ten megabytes; about 80,000,000
BLOCKS = [("--block 1", ["--block", "1"]), ("--block 8", ["--block", "8"]), ("the default", [])]


def read_line(pipe, most=1, seconds=SECONDS):
    """The next line of a pipe, or what has arrived of it in time. `most` may be above 1 only if no line follows yet."""
    line, until = b"", time.monotonic() + seconds
    while not line.endswith(b"\n"):
        ready, _, _ = select.select([pipe], [], [], max(0, until - time.monotonic()))
        more = os.read(pipe.fileno(), most) if ready else b""
        if not more:
            break
        line += more
    return line


def seconds_of(child):
    """The processor time of a process."""
    ticks = map(int, read(f"/proc/{child.pid}/stat").rsplit(")", 1)[1].split()[11:13])
    return sum(ticks) / os.sysconf("SC_CLK_TCK")


def unread(pipe):
    """The number of bytes that are in a pipe."""
    return struct.unpack("i", fcntl.ioctl(pipe, termios.FIONREAD, bytes(4)))[0]


LIBC = ctypes.CDLL(None)
LIBC.ptrace.argtypes = [ctypes.c_long, ctypes.c_long, ctypes.c_void_p, ctypes.c_void_p]
SEIZE, INTERRUPT, DETACH, ANY_THREAD = 0x4206, 0x4207, 17, 0x40000000


class Pipes(Case):
    """Streams in pipes"""

    def start(self, *arguments, command="stream", **pipes):
        """A command, by default a stream of its standard input, which is killed at the end of the test."""
        pipes = {"stdin": subprocess.PIPE, "stdout": subprocess.PIPE, "bufsize": 0, **pipes}
        # pylint: disable-next=consider-using-with
        child = subprocess.Popen([PROGRAM, command, *arguments], **pipes)
        for pipe in filter(None, (child.stdin, child.stdout, child.stderr)):
            self.addCleanup(pipe.close)
        self.addCleanup(child.wait)
        self.addCleanup(child.kill)
        return child

    def ends(self, child, lines):
        """A process to which so many lines were sent ends with them, and with exit status 0."""
        child.stdin.close()
        self.same("end", (b"1 end complete %d\n" % lines, 0), (read_line(child.stdout), child.wait(SECONDS)))

    def one_by_one(self, options, lines, pause=0):
        """Sends each line after the record of the line before. Returns the seconds until each record."""
        child, times = self.start(*options, DEMO), []
        for number in range(1, lines + 1):
            time.sleep(0 if number % 5 else pause)
            begin = time.monotonic()
            child.stdin.write(b"the office five\n")
            record = read_line(child.stdout)
            times.append(time.monotonic() - begin)
            self.assertTrue(record.startswith(b"1:%d set " % number), f"line {number}: {record!r}")
        self.ends(child, lines)
        return times

    # Mutant of `read` in line_chunks: it reads until it has 4,096 bytes.
    @rows(BLOCKS)
    def test_one_by_one(self, options):
        """The record of a line is printed before the next line is sent."""
        self.one_by_one(options, LINES)

    @rows([*BLOCKS, ("UTF-8", ["--encoding", "t1"])])
    def test_long_lines_one_by_one(self, options):
        """So is the record of a long line, whether the line is set or refused."""
        child, lengths = self.start(*options, DEMO), (0, 1, 4095, 4096, 10000, 40000, 65535, 65536, 200000)
        for number, length in enumerate(lengths, 1):
            child.stdin.write(b"a" * length + b"\n")
            wanted = b"1:%d %s" % (number, b"set " if length < 65536 else b"refused too-long %d\n" % length)
            self.same("record", wanted, read_line(child.stdout, MB)[:len(wanted)])
        child.stdin.close()
        self.same("end", (b"1 end complete %d\n" % len(lengths), 1), (read_line(child.stdout), child.wait(SECONDS)))

    @rows(BLOCKS)
    def test_of_one_write(self, options):
        """Lines that arrive in one write bring all their records, although a part of the next line arrives, too."""
        child = self.start(*options, DEMO)
        child.stdin.write(b"five\n" * 11 + b"fi")
        for number in range(1, 13):
            self.same("record", [b"1:%d" % number, b"set"], read_line(child.stdout).split()[:2])
            if number == 11:
                child.stdin.write(b"ve\n")
        self.ends(child, 12)

    @rows(BLOCKS)
    def test_crlf_one_by_one(self, options):
        """With --crlf, the record of a line with CR LF is printed before the next line is sent."""
        child = self.start("--crlf", *options, DEMO)
        for number in range(1, LINES + 1):
            # Its carriage return comes with the line, alone, or with the line feed.
            for part in ((b"five\r\n",), (b"five\r", b"\n"), (b"five", b"\r", b"\n"), (b"five", b"\r\n"))[number % 4]:
                child.stdin.write(part)
                time.sleep(0.002)
            self.same("record", [b"1:%d" % number, b"set", b"986315"], read_line(child.stdout).split()[:3])
        child.stdin.write(b"five\r")
        child.stdin.close()
        self.same("last record", b"1:%d refused missing 4 13\n" % (LINES + 1), read_line(child.stdout))
        self.same("end", (b"1 end complete %d\n" % (LINES + 1), 1), (read_line(child.stdout), child.wait(SECONDS)))

    # Mutant of `answer` in tfm_tool: the warning is written after the request was carried out.
    def test_the_warning_comes_first(self):
        """The warning of a small size is written while a stream waits for its first line."""
        child = self.start("--size", "12", DEMO, stderr=subprocess.PIPE)
        wanted = b"tfmset: size 12 is 12 scaled points; for points write 12pt\n"
        self.same("warning", wanted, read_line(child.stderr))
        self.ends(child, 0)

    @rows((f"--block {block} --workers {workers}", block, workers) for block, workers in (("8", 1), ("1", 16)))
    def test_latency(self, block, workers):
        """A record is printed soon after its line was sent. Mutant: the worker isn't woken."""
        least, tries, options = [SECONDS] * 3, 0, ["--block", block, "--workers", str(workers)]
        while tries < 3 and any(one >= most for one, most in zip(least, MOST_LATENCY)):
            times, tries = self.one_by_one(options, TIMED, PAUSE), tries + 1
            last = statistics.quantiles(times, n=20)[-1]
            least = list(map(min, least, (statistics.median(times), statistics.median(times[4::5]), last)))
        print(f"{options}: {[round(1000 * one, 2) for one in least]} ms from a line to its record")
        self.same("below the bounds", [True] * 3, [one < most for one, most in zip(least, MOST_LATENCY)])

    # Mutant of `check` in tfm_requests: the lines are written at the end.
    def test_check_prints_each_line(self):
        """The line of a font is printed before the next font is read."""
        child = self.start(DEMO, "-", command="check")
        self.same("first", f"{DEMO}: accepted\n".encode(), read_line(child.stdout))
        child.stdin.close()
        self.same("second", b"-: refused: 1 truncated, 24 bytes needed\n", read_line(child.stdout))
        self.same("exit status", 1, child.wait(SECONDS))

    def fifos(self, count):
        """Named pipes that are open for reading and writing, so that to open them never waits."""
        room = self.other_room()
        names = [os.path.join(room, str(number)) for number in range(count)]
        for name in names:
            os.mkfifo(name)
        pipes = [open(name, "r+b", 0) for name in names]  # pylint: disable=consider-using-with
        for pipe in pipes:
            self.addCleanup(pipe.close)
        return names, pipes

    @rows((f"number {place}, --workers {workers}", place, workers) for place, workers in ((1, 1), (40, 16)))
    def test_silent_source(self, place, workers):
        """One of 40 sources is silent, the others have all records. Mutant: a worker stays with its lane."""
        (name,), (pipe,) = self.fifos(1)
        names = [self.file("good", b"five\n" * 500)] * 39
        names.insert(place - 1, name)
        child = self.start("--workers", str(workers), DEMO, *names, stdin=None)
        seen = b""
        while seen.count(b" end complete 500\n") < 39 and select.select([child.stdout], [], [], SECONDS)[0]:
            seen += os.read(child.stdout.fileno(), 1 << 16)
        self.assertEqual((39, 501 * 39), (seen.count(b" end complete 500\n"), seen.count(b"\n")))
        pipe.write(b"five\n")
        self.same("record", b"%d:1 set" % place, read_line(child.stdout)[:len(b"%d:1 set" % place)])
        pipe.close()
        self.same("end", (b"%d end complete 1\n" % place, 0), (read_line(child.stdout), child.wait(SECONDS)))

    # Mutants of batch: a worker stays with a lane as long as it has lines (`moves_per_visit`); the collecting thread
    # stays with a source as long as it has results (`visit` in lane_taker.rt).
    @rows((f"number {busy} of 2: {options} {font}", busy, font, options.split(), text, pause, most)
          for font, options, text, pause, most in (
              # The worker is the slowest thread, since each line takes many steps.
              ("endless_3", "--workers 1 --limit 1000000 --block 8", "aa", 0, MB),
              # The collecting thread is the slowest one, since the output is read slowly. In a row it takes at most 32
              # texts of 27 KB from a source.
              ("demo", "--workers 4", "the office five", 0.003, 10 * MB))
          for busy in (1, 2))
    def test_busy_source(self, busy, font, options, text, pause, most):
        """A source that always has lines doesn't keep the line of another one from being set."""
        names, pipes = self.fifos(2)
        child = self.start(*options, DEMO if font == "demo" else path_of(font), *names, stdin=None)
        # pylint: disable-next=consider-using-with
        sender = subprocess.Popen(["yes", text], stdout=pipes[busy - 1])
        self.addCleanup(sender.wait)
        self.addCleanup(sender.kill)
        seen, until, size, found = read_line(child.stdout), time.monotonic() + SECONDS, 0, False
        time.sleep(0.2)
        pipes[2 - busy].write(text.encode() + b"\n")
        while not found and time.monotonic() < until and size < most:
            time.sleep(pause)
            if select.select([child.stdout], [], [], SECONDS)[0]:
                more = os.read(child.stdout.fileno(), 1 << 16)
                seen, size = seen[-100:] + more, size + len(more)
                found = b"\n%d:1 " % (3 - busy) in seen
        child.kill()
        self.assertTrue(found, f"not in {size} bytes: {seen[-200:]!r}")

    # Mutants of batch: `drop_rest` in lane_taker.rt always returns true; `collect_all` returns after the last end
    # without `about_to_wait`.
    @rows((f"{sources} sources, --workers {workers}", sources, workers) for sources in (1, 2) for workers in (1, 2))
    def test_abandoned_lane(self, sources, workers):
        """After the lane of a source that goes on was abandoned, its end and the records of another source are printed
        promptly, and nothing takes processor time."""
        self.need("cc")
        for number in range(1, MOST_REQUESTS):
            names, pipes = self.fifos(sources)
            with tempfile.TemporaryFile() as told:
                child = self.start("--workers", str(workers), DEMO, *names, stdin=None, stderr=subprocess.DEVNULL,
                                   **refuse.failing(told, "memory", number))
            for line in range(3):
                pipes[0].write(b"the office five\n")
                seen = read_line(child.stdout, seconds=2)
                if not seen.startswith(b"1:%d set " % (line + 1)):
                    break
            if seen == b"1 end gave-up %d\n" % line:
                return self.goes_on(child, pipes)
            # The batch hasn't begun, a source has ended for want of memory, or the lines are set.
            for pipe in pipes:
                pipe.close()
            self.assertNotIn(b"gave-up", child.communicate(timeout=SECONDS)[0], f"request {number}")
        return self.fail("no lane was abandoned")

    def goes_on(self, child, pipes):
        """The lane of the first source was abandoned: its lines bring nothing more, those of the others their records."""
        pipes[0].write(b"the office five\n" * 200)
        for number, line in itertools.product(range(2, len(pipes) + 1), (1, 2, 3)):
            pipes[number - 1].write(b"ox\n")
            self.same("record", b"%d:%d set" % (number, line), b" ".join(read_line(child.stdout).split()[:2]))
        before = seconds_of(child)
        time.sleep(2)
        self.assertLess(seconds_of(child) - before, MOST_IDLE)
        for pipe in pipes:
            pipe.close()
        ends = [b"%d end complete 3" % number for number in range(2, len(pipes) + 1)]
        self.same("ends", (ends, 5), (child.stdout.read().splitlines(), child.wait(SECONDS)))

    # Mutants of batch: the threads poll and never sleep, while a source is silent or the ring of results is full.
    def test_waiting_takes_no_processor_time(self):
        """For seconds without a line, or without a reader of its output, a stream takes hardly any processor time, and
        then goes on as before."""
        silent = self.start("--workers", "16", DEMO, *self.fifos(15)[0], "/dev/stdin")
        # A record doesn't fit into a pipe.
        unread = self.start("--workers", "2", DEMO, self.file("long", LONG * 300), stdin=None)
        time.sleep(1)
        before = [seconds_of(child) for child in (silent, unread)]
        time.sleep(SILENCE)
        took = [seconds_of(child) - old for child, old in zip((silent, unread), before)]
        self.same(f"little time: {took}", [True, True], [one < MOST_IDLE for one in took])
        silent.stdin.write(b"five\n")
        self.same("record", [b"16:1", b"set"], read_line(silent.stdout).split()[:2])
        lines = unread.communicate(timeout=SECONDS)[0].splitlines()
        self.same("lines and status", (301, b"1 end complete 300", 0), (len(lines), lines[-1], unread.returncode))

    def start_with_fifos(self, command, count, *options):
        """A command whose files are so many named pipes: the process, and the pipes open for writing."""
        room = self.other_room()
        names = [os.path.join(room, str(number)) for number in range(count)]
        for name in names:
            os.mkfifo(name)
        triples = [word for name in names for word in (DEMO, "999", name)]
        words = triples if command == "each" else [DEMO, *names]
        child = self.start(*options, *words, command=command, stdin=None)
        pipes = [open(name, "wb", buffering=0) for name in names]  # pylint: disable=consider-using-with
        for pipe in pipes:
            self.addCleanup(pipe.close)
        return child, pipes

    def wait_for(self, wanted, seen):
        """Calls a function until it returns the wanted value. Returns its last value."""
        until = time.monotonic() + SECONDS
        while seen() != wanted and time.monotonic() < until:
            time.sleep(0.02)
        return seen()

    # Mutant of `fill` in line_chunks: a line that begins inside a read is taken from 1,000 reads.
    @rows((f"{reads:,} reads", reads, *wanted) for reads, wanted in (
        (1048576, ([b"1:1 set", b"1:2 refused too-long 1048579", b"1:3 set", b"1 end complete 3"], 1)),
        (1048577, ([b"1:1 set", b"1 end bound 1"], 4))))
    def test_reads_of_a_later_line(self, reads, lines, status):
        """A line that begins inside a read is taken from as many reads as the first one."""
        # Each message of this socket is a read.
        ours, theirs = socket.socketpair(socket.AF_UNIX, socket.SOCK_SEQPACKET)

        def feed():
            with ours, contextlib.suppress(BrokenPipeError, ConnectionResetError):
                for part in itertools.chain([b"five\nfive"], itertools.repeat(b"e", reads - 1), [b"\nfive\n"]):
                    ours.send(part)

        with theirs:
            child = self.start(DEMO, stdin=theirs, stderr=subprocess.DEVNULL)
        feeder = threading.Thread(target=feed, daemon=True)
        feeder.start()
        seen = [re.sub(rb" set .*", b" set", line) for line in child.stdout.read().splitlines()]
        feeder.join()
        self.same("lines and status", (lines, status), (seen, child.wait(SECONDS)))

    # Mutants of `deliver` in tfm_requests: the plan has one worker, or 16. Of `batch` in run_texts: one lane a source.
    @rows((f"{command} --workers {workers}, {count} files: {threads} threads", command, workers, count, threads)
          for command, workers, count, threads in (("set", 1, 3, 5), ("each", 3, 3, 7), ("stream", 16, 1, 18),
                                                   ("stream", 16, 40, 57)))
    def test_threads(self, command, workers, count, threads):
        """Each file has a thread, one thread collects, and so many threads set lines as `--workers` states."""
        child, pipes = self.start_with_fifos(command, count, "--workers", str(workers))
        seen = self.wait_for(threads, lambda: len(os.listdir(f"/proc/{child.pid}/task")))
        for pipe in pipes:
            pipe.close()
        self.same("threads and exit status", (threads, 0), (seen, child.wait(SECONDS)))

    # Mutants of `deliver` in tfm_requests: the plan has 16 slots, or chunks of one line, or of eight; chunks of `set` have
    # the lines of a read, or those of `stream` don't. Of `LaneCount` in batch: the lanes of all sources are more than 64.
    @rows((f"{command} --workers {workers} --capacity {slots} --block {block}, {count} files: {reads} reads",
           command, workers, slots, block, reads, count) for command, workers, slots, block, reads, count in (
               ("set", 1, 40, None, 2, 1), ("stream", 1, 3, None, 4, 1), ("stream", 3, 2, None, 7, 1),
               ("each", 1, 40, 1, 2, 1), ("set", 1, 40, 8, 11, 1), ("each", 3, 10, 8, 8, 1), ("stream", 16, 1, 8, 5, 4),
               ("stream", 16, 1, 8, 3, 8), ("set", 16, 10, 8, 3, 33)))
    def test_lines_ahead(self, command, workers, slots, block, reads, count):
        """While all other threads are stopped, each source is read until it has filled the rings of its lanes, and a
        chunk. It has a lane for each worker, but all sources have at most 64 lanes, or one each."""
        # These are lanes * slots + 1 chunks. A read returns 32 lines of 128 bytes.
        options = ["--workers", str(workers), "--capacity", str(slots)] + (["--block", str(block)] if block else [])
        child, pipes = self.start_with_fifos(command, count, *options)
        text = (b"five " * 25 + b"ox\n") * 512
        with self.others_stopped(child, 1 + workers, count):
            for pipe in pipes:
                self.assertEqual(len(text), pipe.write(text))

            def done():
                return {(len(text) - unread(pipe)) // 4096 for pipe in pipes}

            self.same("reads", {reads}, self.wait_for({reads}, done))
            time.sleep(0.1)
            self.same("reads, later", {reads}, done())
        for pipe in pipes:
            pipe.close()
        lines = child.communicate(timeout=SECONDS)[0].splitlines()
        ends = {b"%d end complete 512" % number for number in range(1, count + 1)}
        self.same("lines", (513 * count, ends, 0), (len(lines), ends.intersection(lines), child.returncode))

    @contextlib.contextmanager
    def others_stopped(self, child, count, sources):
        """Stops the threads of a batch that don't read its sources, so many, when these wait for input."""
        tasks = f"/proc/{child.pid}/task"

        def others():
            calls = {thread: read(f"{tasks}/{thread}/syscall").split()[0] for thread in os.listdir(tasks)}
            found = [int(thread) for thread, call in calls.items() if call != "0"]
            return found if len(calls) == sources + count else []

        try:
            self.assertEqual(count, self.wait_for(count, lambda: len(others())))
        except OSError:
            self.lack("/proc/PID/task/TID/syscall")
        threads = others()
        for thread in threads:
            if LIBC.ptrace(SEIZE, thread, None, None) or LIBC.ptrace(INTERRUPT, thread, None, None):
                self.lack("ptrace")
            os.waitpid(thread, ANY_THREAD)
        try:
            yield
        finally:
            for thread in threads:
                LIBC.ptrace(DETACH, thread, None, None)

    def test_ten_times_the_text_needs_no_more_memory(self):
        peaks = [self.peak_of(times) for times in MEGABYTES]
        self.assertLess(abs(peaks[1] - peaks[0]), MOST_GROWTH)
        self.assertLess(max(peaks), MOST_MEMORY)

    def after(self, times, see, *options):
        """What a function of the process returns, when a stream has printed all records of a megabyte of text, sent
        so many times, and its source waits for more."""
        child, lines = self.start(*options, DEMO), times * PIECE.count(b"\n")

        def feed():
            with contextlib.suppress(BrokenPipeError):
                for _ in range(times):
                    child.stdin.write(PIECE)

        feeder = threading.Thread(target=feed, daemon=True)
        feeder.start()
        count = 0
        while count < lines and select.select([child.stdout], [], [], SECONDS)[0]:
            more = os.read(child.stdout.fileno(), 1 << 20)
            count += more.count(b"\n")
            if not more:
                break
        self.assertEqual(count, lines)
        seen = see(child)
        feeder.join()
        self.ends(child, lines)
        return seen

    def peak(self, child):
        """The most memory, in KB, of a process."""
        with open(f"/proc/{child.pid}/status", encoding="ascii") as status:
            return next(int(line.split()[1]) for line in status if line.startswith("VmHWM:"))

    def peak_of(self, times):
        """The most memory, in KB, of a stream that gets a megabyte of text so many times."""
        return self.after(times, self.peak, "--block", "8")

    # Mutant of line_chunks: no chunk and no text is large.
    def test_long_lines_in_the_rings(self):
        """Lines of 33 KB whose records nobody reads fill only a part of the rings, and later have all records."""
        child, written = self.start("--workers", "3", DEMO), []

        def feed():
            with child.stdin, contextlib.suppress(BrokenPipeError):
                for _ in range(LONG_LINES):
                    written.append(child.stdin.write(LONG))

        feeder, before = threading.Thread(target=feed, daemon=True), None
        feeder.start()
        while len(written) != before:
            before = len(written)
            time.sleep(0.5)
        peak = self.peak(child)
        records = child.stdout.read().splitlines(True)
        feeder.join()
        starts = [b"1:%d set " % number for number in range(1, LONG_LINES + 1)] + [b"1 end complete %d\n" % LONG_LINES]
        self.none([str(record[:40]) for record, start in zip(records, starts) if not record.startswith(start)])
        self.same("lines, status", (len(starts), 0), (len(records), child.wait(SECONDS)))
        print(f"long lines in full rings: {peak} KB")
        self.assertLess(peak, MOST_LONG_MEMORY)

    # Mutants: no chunk is large (line_chunks); `offer` in lanes passes a large chunk on as it does a small one.
    @rows((f"{command} --capacity {slots}: {reads} reads", command, slots, reads)
          for command, slots, reads in (("set", 4, 5), ("stream", 8, 7)))
    def test_long_lines_ahead(self, command, slots, reads):
        """While all other threads are stopped, chunks above 8 KB fill a quarter of the slots, and one more is read."""
        child, (pipe,) = self.start_with_fifos(command, 1, "--workers", "1", "--capacity", str(slots))
        text = (b"five " * 1660 + b"\n") * 7
        with self.others_stopped(child, 2, 1):
            self.assertEqual(len(text), pipe.write(text))

            def done():
                return (len(text) - unread(pipe)) // 4096

            self.same("reads", reads, self.wait_for(reads, done))
            time.sleep(0.1)
            self.same("reads, later", reads, done())
        pipe.close()
        lines = child.communicate(timeout=SECONDS)[0].splitlines()
        self.same("lines", (8, b"1 end complete 7", 0), (len(lines), lines[-1], child.returncode))

    # Mutant of `batch` in run_texts: a source has one lane.
    def test_all_workers_set_the_lines_of_one_source(self):
        """Four of the six threads set lines. Another one reads, and the last one writes."""
        def threads(child):
            tasks = f"/proc/{child.pid}/task"
            times = [int(read(f"{tasks}/{thread}/schedstat").split()[0]) for thread in os.listdir(tasks)]
            return len(times), sum(time > BUSY for time in times)

        try:
            count, busy = self.after(10, threads, "--workers", "4")
        except OSError:
            self.lack("/proc/PID/task/TID/schedstat")
        self.assertEqual(count, 6)
        self.assertGreaterEqual(busy, 4)

    # Mutant of `go_round` in batch: a worker reads the stop flag once for all its lanes, not before the turns of each.
    def test_a_closed_pipe_stops_a_worker_of_64_lanes(self):
        names = [self.file("slow", b"aa\n" * 20000)] * 64
        child = self.start("--workers", "1", "--limit", "4000", path_of("endless_3"), *names, stdin=None,
                           stderr=subprocess.PIPE)
        self.assertTrue(read_line(child.stdout))
        child.stdout.close()
        self.same("status", (5, CLOSED), (child.wait(SECONDS), child.stderr.read()))

    def test_a_closed_pipe_ends_the_stream_with_status_5(self):
        child = self.start(DEMO, stderr=subprocess.PIPE)
        child.stdin.write(b"five\n")
        self.assertTrue(read_line(child.stdout))
        child.stdout.close()
        until = time.monotonic() + SECONDS
        with contextlib.suppress(BrokenPipeError):
            # Each line ends a read of the source. The first write of a record after the close fails.
            while child.poll() is None and time.monotonic() < until:
                child.stdin.write(b"five\n")
                time.sleep(0.05)
        self.same("status", (5, CLOSED), (child.wait(SECONDS), child.stderr.read()))
