"""Each sleeping thread of a batch is woken by another thread, and not by its timeout.

A waiting thread sleeps for at most 50 milliseconds, so that a lost wake-up costs little. Because of this
timeout no test would notice a lost wake-up. In a copy of the crates such a sleep lasts a minute, and three
tests of `run_tests` are executed there with `rt try`, without proofs: small rings with slow sources and slow
collectors, batches that are stopped, and batches that are stopped before they have started. They must end
within seconds. Without one kind of wake-up, one of them must hang.
"""
import os
import re
import shutil

from lib.base import ROOT, Case, execute, read, rows, write

WEIGHT = 9
SECONDS = 120  # for each of the three tests, which take one or two on an idle machine
FEW_SECONDS = 10  # if one of them has to hang
MODULES = ("slow", "starting", "stopping", "waking")
START, STOP = (f"self.{flag}.store(true, Ordering::SeqCst);\n        " for flag in ("start", "stop"))
SOURCES, WORKERS = (f"ring_all(&self.{kind});" for kind in ("sources", "workers"))


def changed(path, old, new):
    """Replaces a text that a file has once."""
    text = read(path)
    if text.count(old) != 1:
        raise AssertionError(f"{path} has {old!r} {text.count(old)} times")
    write(path, text.replace(old, new))


class WakeUps(Case):
    """Wake-ups"""

    def setUp(self):
        super().setUp()
        self.need("rt")

    def tried(self, seconds, *changes):
        """The results of the tests after changes of texts of signals.rt, and whether one was stopped."""
        crates = f"{self.room}/crates"
        tests = f"{crates}/run_tests/src/tests"
        shutil.copytree(f"{ROOT}/crates", crates, ignore=shutil.ignore_patterns("out", "must-fail"))
        for name in ("crates.txt", "HANDLES"):
            shutil.copy(f"{ROOT}/{name}", self.room)
        for name in os.listdir(tests):
            if name.removesuffix(".rt") not in MODULES:
                os.remove(f"{tests}/{name}")
        write(f"{tests}.rt", "".join(f"mod {name};\n" for name in MODULES))
        for shortest in ("1", "50"):
            changed(f"{crates}/batch/src/threads/backoff.rt", f"_SLEEP: u64 = {shortest};",
                    "_SLEEP: u64 = 60_000;")
        for change in changes:
            changed(f"{crates}/batch/src/threads/signals.rt", *change)
        said = "".join(execute("rt", "try", "--test", "--seconds", str(seconds), cwd=f"{crates}/run_tests",
                               timeout=900)[1:])
        words = re.findall(r"^test tests::\w+::\w+ \.\.\. (\w+)", said, re.M)
        self.assertEqual(len(words), 3, said[-2000:])
        return words, "the program did not end within the time limit" in said

    # Mutants of `start` and `stop` in batch: the flag is set after the threads were woken.
    def test_each_thread_is_woken(self):
        """No thread sleeps for a minute, and however long a start or a stop takes, each thread that it wakes finds the
        flag."""
        slow = "\n        for _ in 0..1_000_000u32 {\n            hint::spin_loop();\n        }"
        changes = [("use std::array;", "use std::array;\nuse std::hint;")]
        changes += [(old, old + slow) for old in (START + SOURCES, STOP + SOURCES, WORKERS)]
        self.same("tests", ["ok"] * 3, self.tried(SECONDS, *changes)[0])

    @rows((("a worker wakes the collecting thread", "self.collector.ring();", "{}"),
           ("the start wakes the sources", START + SOURCES, START),
           ("the stop wakes the sources", STOP + SOURCES, STOP)))
    def test_without(self, old, new):
        """One of the tests hangs without a kind of wake-up."""
        words, hung = self.tried(FEW_SECONDS, (old, new))
        self.same("one test hangs", (True, True), (words != ["ok"] * 3, hung))
