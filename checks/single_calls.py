"""Each allocation of a single call of the libraries fails in turn.

Tests of `memory_tests`, `lane_tests`, `run_tests` and `tool_tests` each make one call over a worked case, and
print its outcome. They are executed in the programs that `rt ci` leaves, or `rt test` in the directory of the
crate. lib/refuse.c is preloaded: the first allocation fails, in the next execution the second one, and so on,
until nothing fails any more. Each execution must end by itself, and its test must pass: it compares what the
call returned, and what it left as it was. The outcome must be one that the table permits for a failed
allocation, or for none; and at least as many allocations of the call must have failed as the table states.
"""
import os

from lib import refuse
from lib.base import ROOT, Case, output, rows, table
from lib.refuse import Got

WEIGHT = 2
ENOUGH = 12  # executions in which nothing fails, after which no more are made
MOST = 1000  # allocations; no test makes so many
PASSED = "\n\ntest result: ok\n"  # what follows the outcome if the test passed
CASES = table("single_calls")
CALLS = [{**CASES["usual"], **call} for call in CASES["calls"]]
EXAMPLE = {**CASES["usual"], **CASES["example"]}


def program_of(crate):
    """The path of the program with the tests of a crate."""
    return f"{ROOT}/crates/{crate}/out/{crate}_tests"


def results_of(call):
    """Makes each allocation of a test fail in turn. Returns what the executions return, in order."""
    command, results, untouched = [program_of(call["crate"]), "tests::" + call["test"]], [], 0
    while untouched < ENOUGH and len(results) < MOST:
        results.append(refuse.execute(command, "memory", len(results) + 1))
        untouched += not results[-1].told
        if results[-1].told == ["time"]:
            break
    return results


def fault_of(call, got):
    """The error of one execution, or None."""
    allowed = {call["before"], *call["failed"]} if got.told else {call["done"]}
    if got.status != 0 or not got.out.endswith(PASSED):
        return f"status {got.status}, {got.out[-300:]!r}, {got.err[-300:]!r}"
    if got.out.removesuffix(PASSED) not in allowed:
        return f"{got.out[-300:]!r}, and {'one' if got.told else 'no'} allocation failed"
    return None


def faults_of(call, results):
    """The errors of the executions of a test: of each, of their order, and of the numbers of outcomes."""
    faults = [f"allocation {number}: {fault}" for number, got in enumerate(results, 1)
              if (fault := fault_of(call, got))]
    told = [got.out.removesuffix(PASSED) for got in results if got.told]
    own = [outcome for outcome in told if outcome != call["before"]]
    if own != told[len(told) - len(own):]:
        faults.append("an allocation of the arguments after one of the call")
    faults += [f"{own.count(outcome)} times {outcome!r} instead of {least} or more times"
               for outcome, least in call["failed"].items() if own.count(outcome) < least]
    return faults + ([] if results and not results[-1].told else ["no execution in which nothing fails"])


class Calls(Case):
    """One allocation after the other fails"""

    def need_program(self, crate):
        """Skips the test if the program isn't there. The full check has made it."""
        if not os.path.exists(program_of(crate)):
            if os.environ.get("CHECKS_STRICT"):
                self.fail(f"no {program_of(crate)}, which rt ci leaves")
            self.skipTest(f"no tests of {crate}, which rt test in its directory builds")

    @rows((call["call"], call) for call in CALLS)
    def test(self, call):
        self.need("cc")
        self.need_program(call["crate"])
        self.none(faults_of(call, results_of(call)))

    def test_the_table_has_all_tests_of_memory_tests(self):
        self.need_program("memory_tests")
        lines = output(program_of("memory_tests"), "--list").splitlines()
        listed = [line.removesuffix(": test") for line in lines if line.endswith(": test")]
        tests = ["tests::" + call["test"] for call in CALLS if call["crate"] == "memory_tests"]
        self.same("tests", sorted(tests), sorted(listed))


class Judgement(Case):
    """Which outcomes are right"""

    @rows((row["executions"] or "none", row) for row in CASES["judged"])
    def test_executions(self, row):
        """Whether the executions of a call that makes two allocations are accepted."""
        named = [CASES["executions"][name] for name in row["executions"].split()]
        results = [Got(status, out + PASSED, "", ["memory"] if failed else [])
                   for status, out, failed in named]
        self.same("accepted", row["right"], not faults_of(EXAMPLE, results))
