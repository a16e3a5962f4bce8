"""The command table, the man pages, the completions, scripts/install, and ./tfmset.

scripts/commands.toml has to agree with the help of the program and of each subcommand, and with the error
messages of the parser; the files that scripts/command_pages writes have to be up to date. The examples of the man
pages are run. scripts/install is run in a copy, in which a short script replaces ./tfmset, so that nothing is built.
./tfmset is run in a repository of five crates, with short scripts in place of rt and of the toolchain's commands.
"""
import functools
import os
import pty
import re
import select
import shlex
import shutil
import signal
import subprocess
import sys
import time
import types

from lib.base import (DEMO, EXAMPLES, PROGRAM, ROOT, Case, bash, copy_for_scripts, environment, execute, files, output, read,
                      rows, script, table)

SECONDS = 20  # for the answer of a shell
CASES = table("packaging")
PAGES = script("scripts/command_pages")
TABLE = PAGES.Table()
NAMES = [None, *TABLE.commands]
MAN_PAGES = sorted(os.listdir(f"{ROOT}/man"))
ESCAPES = {r"\-": "-", r"\(aq": "'", r"\(rs": "\\"}  # of the examples in the man page


def title(command):
    return command["name"] if command else "tfmset"


@functools.lru_cache(maxsize=None)
def help_of(name):
    return output(PROGRAM, *{"tfmset": ["--help"], "help": ["help", "help"]}.get(name, [name, "--help"]))


def section(text, name):
    """The lines of a section of a help text."""
    found = re.search(rf"^{name}:\n((?:  .*\n)+)", text, re.M)
    return found.group(1).splitlines() if found else []


class Help(Case):
    """The command table agrees with the help"""

    @rows((title(command), command) for command in NAMES)
    def test(self, command):
        """Subcommands, usage, options, ranges and defaults are those of the help, in its order."""
        text = help_of(title(command))
        usage = re.search(r"^Usage: tfmset ?(.*)$", text, re.M).group(1)
        wanted = f"{command['name']} {command['usage']}" if command else "COMMAND"
        self.same("usage", wanted, re.sub(r"[<>]", "", usage.replace("[OPTIONS] ", "")))
        if not command:
            listed = [re.match(r"  ([\w-]+)  ", line).group(1) for line in section(text, "Commands")]
            self.same("subcommands", sorted(TABLE.names()), sorted(listed))
        form = r" +(?:-(\w), )?(?:    )?--([\w-]+)(?: <(\w+)>)?  +(.*)"
        lines = [re.fullmatch(form, line).groups() for line in section(text, "Options")]
        self.same("options", TABLE.options_of(command), [name for _, name, _, _ in lines])
        for short, name, value, about in lines:
            option = TABLE.options[name]
            self.same(f"--{name}", (option.get("short"), option.get("value")), (short, value))
            if value:
                self.compare_values(title(command), option, about)

    def compare_values(self, command, option, about):
        """The range, the units or the choices are those that the parser prints for the value 0. Ranges, except
        that of a size, and choices are in the help, too."""
        files = ["x"] * (1 if command in ("list", "pairs") else 3)
        message = execute(PROGRAM, command, f"--{option['name']}", "0", *files)[2]
        if "units" in option:
            low, high = option["range"]
            units = ", ".join(option["units"][:-1]) + " or " + option["units"][-1]
            self.assertIn(f"a size is {low} to {high} scaled points, or a number with a unit ({units})",
                          message)
        elif "range" in option:
            low, high = option["range"]
            self.assertIn(f"0 is not in {low}..={high}\n", message + "\n")
            self.assertIn(f"{low} to {high}", about)
        elif "choices" in option:
            choices = option["choices"]
            choices = choices[command] if isinstance(choices, dict) else choices
            self.assertIn(f"[possible values: {', '.join(choices)}]", message)
            self.assertIn(", ".join(choices) + ", or a file" if "files" in option else
                          ", ".join(choices[:-1]) + " or " + choices[-1], about)
        default = option.get("default")
        default = default.get(command) if isinstance(default, dict) else default
        seen = re.findall(r"\[default: (\S+)\]", about)
        self.same(f"--{option['name']}: default", [default] if default else [], seen)

    def test_generated_files(self):
        """The files that scripts/command_pages writes are up to date."""
        self.same("result", (0, "", ""), execute(ROOT + "/scripts/command_pages", "--check"))


class ManPages(Case):
    """The man pages"""

    def test_subcommands(self):
        commands = re.search(r"^\.SH COMMANDS\n(.*?)^\.S[HS] ", read("man/tfmset.1"), re.M | re.S)[1]
        self.same("subcommands", TABLE.names(), re.findall(r"^\.TP\n\.B (\w+)$", commands, re.M))

    @rows((name, name) for name in MAN_PAGES)
    def test_version(self, name):
        self.assertIn(f'"{output(PROGRAM, "--version").strip()}"', read(f"man/{name}").split("\n.SH")[0])

    @rows((name, name) for name in MAN_PAGES)
    def test_warnings(self, name):
        """groff prints no warning."""
        self.need("groff")
        self.same("result", (0, ""), execute("groff", "-man", "-ww", "-Tutf8", f"{ROOT}/man/{name}")[::2])

    @rows((name, name) for name in MAN_PAGES)
    def test_examples(self, name):
        blocks = re.findall(r"^\.EX\n(.*?)^\.EE", read(f"man/{name}"), re.M | re.S)
        if "kpsewhich" in "".join(blocks):
            self.need("kpsewhich", "cmr10")
        self.link_repository()
        env = environment(PATH=self.room + ":" + os.environ["PATH"])
        for block in blocks:
            command, *wanted = re.sub(r"\\\((?:aq|rs)|\\-", lambda found: ESCAPES[found[0]], block).splitlines()
            _, out, err = bash(command.removeprefix("$ "), EXAMPLES, env=env)
            self.same(command, ("".join(line + "\n" for line in wanted), ""), (out, err))
        self.none([], len(blocks))


def questions():
    """Beginnings of commands, each with exactly the words that complete it, or with one file among them."""
    asked = [("tfmset ", TABLE.names()), ("tfmset -", PAGES.words_of(TABLE, None))]
    asked += [(f"tfmset {command['name']} -", PAGES.words_of(TABLE, command)) for command in TABLE.commands[:-1]]
    return asked + CASES["questions"]


class Completions(Case):
    """Completions"""

    def setUp(self):
        super().setUp()
        for name in CASES["here"]:
            self.file("here/" + name, "")
        self.here = self.room + "/here"
        self.env = environment(HOME=self.room, LC_ALL="C.UTF-8", TERM="dumb")

    def compare(self, text):
        """Compares the completions that follow each question in a text with those that are wanted."""
        answers = {}
        for part in text.split("? ")[1:]:
            line, _, rest = part.partition("\n")
            words = (word.rstrip("/").replace("\\ ", " ") for word in rest.splitlines() if word != ".")
            answers[line] = list(dict.fromkeys(words))
        for line, wanted in questions():
            seen = answers.get(line, ["no answer"])
            if isinstance(wanted, list):
                self.same(repr(line), sorted(wanted), sorted(seen))
            elif wanted not in seen:
                self.wrong.append(f"{line!r}: no word {wanted}")

    @rows((shell, shell, *options) for shell, *options in (("bash",), ("fish", "--no-config")))
    def test_answers(self, shell, *options):
        """A shell that isn't in a terminal completes subcommands, options, values and files."""
        self.need(shell)
        ask, completions = f"{ROOT}/checks/lib/ask.{shell}", f"{ROOT}/completions/tfmset.{shell}"
        lines = self.file("lines", "".join(line + "\n" for line, _ in questions()))
        _, out, err = execute(shell, *options, ask, completions, lines, cwd=self.here, env=self.env)
        self.same("messages", "", err)
        self.compare(out)

    def test_answers_of_zsh(self):
        """zsh, which completes only in a terminal, completes the same."""
        self.compare(self.typed("zsh", "ask.zsh", "-f", [line + "\x14" for line, _ in questions()]))

    @rows((shell, shell, *ask) for shell, *ask in (("bash", "ask_typed.bash", "--norc"), ("zsh", "ask.zsh", "-f")))
    def test_typed(self, shell, ask, option):
        """The Tab key completes names of directories and files, quotes them, and adds a slash or a space."""
        said = self.typed(shell, ask, option, (begin + word + "\t\x0e" for begin, word, _ in CASES["typed"]))
        wanted = [begin + completed for begin, _, completed in CASES["typed"]]
        self.same("lines", wanted, [line[2:] for line in said.splitlines() if line.startswith("> ")])

    def typed(self, shell, ask, option, texts):
        """What an interactive shell writes to $ANSWERS, after a file of checks/lib is read and while texts are typed."""
        self.need(shell)
        said = self.file("answers", "")
        variables = f"COMPLETIONS={shlex.quote(ROOT + '/completions')}\nANSWERS={shlex.quote(said)}\n"
        ask = self.file("ask", variables + read("checks/lib/" + ask))
        child, terminal = pty.fork()
        if child == 0:
            os.chdir(self.here)
            os.execvpe(shell, [shell, option, "-i"], self.env)
        try:
            os.write(terminal, b"source %s\n" % shlex.quote(ask).encode())
            self.wait_for(terminal, said, 1)
            for count, text in enumerate(texts):
                os.write(terminal, b"\x15" + text.encode())
                self.wait_for(terminal, said, count + 2)
        finally:
            os.kill(child, signal.SIGKILL)
            os.waitpid(child, 0)
            os.close(terminal)
        return read(said)

    def wait_for(self, terminal, said, count):
        """Waits until the shell has given so many answers."""
        until = time.monotonic() + SECONDS
        while len(re.findall(r"^\.$", read(said), re.M)) < count:
            self.assertLess(time.monotonic(), until, "the shell gave no answer")
            if select.select([terminal], [], [], 0.01)[0]:
                os.read(terminal, 4096)


class Install(Case):
    """scripts/install"""

    def install(self, *words, status=0, **variables):
        """Runs scripts/install in a copy in which ./tfmset installs the program, or ends with a status."""
        copy = os.path.join(self.room, "a copy")
        copy_for_scripts(copy, status)
        env = environment(**variables)
        return execute(copy + "/scripts/install", *words, cwd=self.room, env=env, umask=0o022)

    @rows((("PREFIX", "/a prefix", ""), ("PREFIX with DESTDIR", "/usr", "/staged")))
    def test_installs(self, prefix, staged):
        """The files are installed and named, with their modes, and the programs work."""
        prefix, destination = self.room + prefix, staged and self.room + staged
        status, out, err = self.install(prefix, **({"DESTDIR": destination} if staged else {}))
        self.same("status", (0, ""), (status, err))
        top, installed = (destination + prefix).rstrip("/"), CASES["installed"]
        self.same("said", sorted(f"installed {top}/{name}" for name in installed), sorted(out.splitlines()))
        self.same("files", sorted(installed), files(top))
        self.same("other files", len(installed), len(files(self.room, ("a copy",))))
        for name, (source, mode) in installed.items():
            self.same(f"{name} is its source", True,
                      read(f"{top}/{name}", "rb") == read(f"{self.room}/a copy/{source}", "rb"))
            self.same(f"mode of {name}", mode, f"{os.stat(f'{top}/{name}').st_mode & 0o777:o}")
        wanted = read("examples/README.md").partition("```text\n")[2].partition("```")[0]
        seen = execute(top + "/bin/tfmset", "set", "examples/demo.tfm", "examples/lines.txt", cwd=ROOT)
        self.same("the program", (0, wanted, ""), seen)
        self.compare_readers(top + "/bin")

    def test_uninstalls(self):
        """The installed files are removed, without a build, and no others; removing them again does nothing."""
        prefix, installed = self.room + "/top", sorted(CASES["installed"])
        self.install(prefix)
        self.file("top/bin/other", "")
        removed = [f"removed {prefix}/{name}\n" for name in installed]
        os.remove(self.room + "/a copy/tfmset")
        call = self.room + "/a copy/scripts/install", "--uninstall", prefix
        status, out, err = execute(*call)
        self.same("result", (0, removed, ""), (status, sorted(out.splitlines(keepends=True)), err))
        self.same("files", ["bin/other"], files(prefix))
        self.same("again", (0, "", ""), execute(*call))

    def test_a_file_in_the_way(self):
        """If a directory can't be made, the exit status is 1, and only the files that were installed are named."""
        self.file("top/share", "")
        status, out, err = self.install(self.room + "/top")
        self.same("status, and message", (1, True), (status, "share" in err))
        names = [name for name in files(self.room + "/top") if name != "share"]
        self.same("said", [f"installed {self.room}/top/{name}" for name in names], sorted(out.splitlines()))

    @rows((f"{words} with exit status {status}", failed, words, status)
          for failed, words, status in CASES["installs_nothing"])
    def test_installs_nothing(self, failed, words, status):
        """Nothing is installed without PREFIX, with an invalid one, with two, or if the build fails."""
        words = [word.replace("EMPTY", self.room) for word in words]
        seen = self.install(*words, status=failed)
        self.same("result", (status, "", status == 2), (*seen[:2], seen[2].startswith("usage: ")))
        self.same("files", [], files(self.room, ("a copy",)))


class Build(Case):
    """./tfmset, which builds the program if necessary"""

    # The stand-ins for rt and for the two commands of its toolchain make what scripts/prove wants, whatever the sources are.
    crates = "# The crates.\nother: base\nbase:\nside: base\nmiddle: base std\ntfmset: middle side\n"
    rt = """#!/bin/sh
echo "$(dirname "$0")/kit/first"
"""
    rattle = """#!/bin/sh
echo "${PWD##*/} $*" >> ../../calls
cat > /dev/null
if [ -e ../../fail ]; then seq 30; echo "no proof of ${PWD##*/}"; exit 1; fi
if [ -e ../../edit ] && [ "${PWD##*/}" = tfmset ]; then rm ../../edit; sleep 0.1; touch src/main.rt; fi
if [ -e ../../slow ] && [ "${PWD##*/}" = base ]; then echo "so far: 3 of 7 functions"; echo $$ > ../../process; sleep "$(cat ../../slow)"; fi
for made; do :; done
if [ "${PWD##*/}" = tfmset ]; then touch "$made"; else mkdir -p "$made"; fi
echo "logic=proved functions=7"
"""
    linker = """#!/bin/sh
printf '#!/bin/sh\\necho "$(cat) $# $*"\\n[ ! -e /proc/self/fd/9 ] || echo locked\\nexit 3\\n' > "$6"
chmod +x "$6"
"""

    def setUp(self):
        super().setUp()
        self.need("flock")
        self.room = self.room + "/with a space"
        os.mkdir(self.room)
        os.mkdir(self.room + "/scripts")
        for name in ("tfmset", "HANDLES", "scripts/prove", "scripts/seconds.txt", "scripts/try"):
            shutil.copy(f"{ROOT}/{name}", f"{self.room}/{name}")
        self.file("crates.txt", self.crates)
        for name, script in (("rt", self.rt), ("kit/bin/rattle", self.rattle), ("kit/bin/rattle-link", self.linker)):
            os.chmod(self.file(f"bin/{name}", script), 0o755)
        for name in ("other", "base", "side", "middle", "tfmset"):
            self.file(f"crates/{name}/src/main.rt", "")
        for name in ("specs", "proofs"):
            self.file(f"crates/base/{name}/Lib.antt", "")

    def call(self, wanted, builds, path=None, words=("a b", "c")):
        """Compares the exit status and the output of ./tfmset, and whether rt was called. Returns standard error."""
        self.file("calls", "")
        env = environment(PATH=path or self.room + "/bin:" + os.environ["PATH"])
        status, out, err = execute(self.room + "/tfmset", *words, given=b"given", cwd="/", env=env)
        self.same("result, and calls of rt", (*wanted, builds), (status, out, read(self.room + "/calls") != ""))
        return err

    def test_builds_once(self):
        self.assertIn("built", self.call((3, "given 2 a b c\n"), True))
        self.same("messages", "", self.call((3, "given 2 a b c\n"), False))

    def test_builds_again(self):
        """The program is built again after a change, after a change during a build, and after a file was removed."""
        self.call((3, "given 2 a b c\n"), True)
        for name in ("crates/base/specs/Lib.antt", "crates/middle/src/main.rt"):
            self.file(name, read(self.room + "/" + name))
            self.call((3, "given 2 a b c\n"), True)
        self.call((3, "given 2 a b c\n"), False)
        os.remove(self.room + "/crates/base/proofs/Lib.antt")
        self.file("edit", "")
        self.call((3, "given 2 a b c\n"), True)
        self.call((3, "given 2 a b c\n"), True)

    def test_a_change_of_another_crate(self):
        """After a change of a crate that the program doesn't need, nothing is built, and only one call looks for rt."""
        self.call((3, "given 2 a b c\n"), True)
        self.file("crates/other/src/main.rt", "fn")
        self.call((3, "given 2 a b c\n"), False)
        self.call((3, "given 2 a b c\n"), False, self.tools())

    def test_try_with_a_fresh_program(self):
        """--try runs a program that is newer than its sources, and tries none that is older."""
        self.call((3, "given 2 a b c\n"), True)
        tried = "--try", "a b", "c"
        self.assertIn("proved program", self.call((3, "given 2 a b c\n"), False, self.tools(), tried))
        self.file("crates/base/src/main.rt", "fn")
        self.assertIn("--try needs rt", self.call((127, ""), False, self.tools(), tried))

    def test_links(self):
        """./tfmset finds its repository through symbolic links, and from its own directory."""
        self.call((3, "given 2 a b c\n"), True)
        os.symlink(self.room + "/tfmset", self.room + "/link")
        os.symlink("../link", self.room + "/bin/second")
        for directory, name in ((self.room, "./tfmset"), (self.room, "./link"), ("/", self.room + "/bin/second")):
            self.same(name, (3, " 1 a\n"), execute(name, "a", cwd=directory)[:2])

    def start(self):
        """Starts ./tfmset, and waits until it builds, or waits for another call that does."""
        env = environment(PATH=self.room + "/bin:" + os.environ["PATH"])
        pipes = {"stdin": subprocess.DEVNULL, "stdout": subprocess.PIPE, "stderr": subprocess.PIPE}
        # A suite that runs in the background may ignore SIGINT, which a shell then can't trap.
        command = ["env", "--default-signal=INT", self.room + "/tfmset", "a"]
        # pylint: disable-next=consider-using-with
        child = subprocess.Popen(command, env=env, cwd="/", encoding="utf-8", process_group=0, **pipes)
        for pipe in (child.stdout, child.stderr):
            self.addCleanup(pipe.close)
        self.addCleanup(child.wait)
        self.addCleanup(child.kill)
        line, until = child.stderr.readline(), time.monotonic() + SECONDS
        while "waiting" not in line and not os.path.exists(self.room + "/process"):
            self.assertLess(time.monotonic(), until, line)
            time.sleep(0.01)
        return child, line

    def test_two_calls_build_once(self):
        """A call waits for another one, which prints how far the build is."""
        self.file("calls", "")
        self.file("slow", "1.5")
        first, _ = self.start()
        second, waiting = self.start()
        results = [one.communicate(timeout=SECONDS) for one in (first, second)]
        self.same("results", [(3, " 1 a\n")] * 2, [(one.returncode, out) for one, (out, _) in zip((first, second), results)])
        calls = read(self.room + "/calls").splitlines()
        self.same("calls of rt that were made twice", len(set(calls)), len(calls))
        self.assertIn("waiting for another call", waiting)
        self.assertIn("base", results[0][1])

    def test_a_call_that_is_stopped(self):
        """If the processes of the terminal are stopped, the build is stopped, too."""
        self.file("slow", "15")
        child, _ = self.start()
        time.sleep(0.1)
        process = read(self.room + "/process").strip()
        os.killpg(child.pid, signal.SIGINT)
        child.wait(SECONDS)
        until = time.monotonic() + 5
        while os.path.exists(f"/proc/{process}") and time.monotonic() < until:
            time.sleep(0.02)
        self.assertFalse(os.path.exists(f"/proc/{process}"))

    def test_a_build_that_fails(self):
        """The last lines of the log are printed, and an older program isn't run."""
        self.call((3, "given 2 a b c\n"), True)
        self.file("crates/middle/src/main.rt", "fn")
        self.file("fail", "")
        self.assertIn("\n29\n30\nno proof of ", self.call((70, ""), True))

    def tools(self):
        """A directory with all tools that ./tfmset needs, except rt."""
        tools = self.other_room()
        for name in "sh dirname readlink find cat env rm mkdir sleep touch chmod flock".split():
            os.symlink(shutil.which(name), f"{tools}/{name}")
        os.symlink(sys.executable, tools + "/python3")
        return tools

    def test_without_rt(self):
        self.assertIn("needs rt", self.call((127, ""), False, self.tools()))

    def test_processes(self):
        """Crates that are proved at a time share the processors, all but the first have one; one that is alone has all."""
        prove = script("scripts/prove")
        prove.Proof = lambda name, command, jobs, nice: types.SimpleNamespace(name=name, jobs=jobs)
        prove.command = lambda *_: []
        build = prove.Build.__new__(prove.Build)
        build.crates, build.kit = prove.Crates("tfmset"), ""
        crates = list(build.crates.below)
        for processors, gigabytes, left, running, wanted in (
                (4, 20, crates, [], [2, 1, 1]), (4, 12, crates, [], [3, 1]), (2, 20, crates, [], [1, 1]),
                (1, 20, crates, [], [1]), (4, 5, crates, [], [4]), (4, 20, ["tfmset"], [], [4]),
                (4, 20, crates, [4], [4, 1, 1])):
            prove.PROCESSORS, prove.read = processors, lambda _, free=gigabytes: f"MemAvailable: {free << 20} kB\n"
            build.left, build.running = left, [types.SimpleNamespace(name=crates[0], jobs=jobs) for jobs in running]
            build.start_more()
            self.same(f"processes with {processors} processors, {gigabytes} GB, {len(left)} crates and {running} before",
                      wanted, [proof.jobs for proof in build.running])

    def test_seconds(self):
        """scripts/seconds.txt has each crate of the program and of the library, and is what scripts/prove writes."""
        prove = script("scripts/prove")
        names = {name for top in prove.TOPS for name in prove.Crates(top).below}
        self.same("crates", sorted(names), sorted(re.findall(r"(?m)^(\w+) \d+$", read("scripts/seconds.txt"))))
        self.file("crates.txt", read("crates.txt"))
        for log in ("tfmset/out/seconds.txt", "tfmset_c/out/seconds.txt"):
            self.file("crates/" + log, "run_plan 10 1 9\ntfm_words 100 3 40\n")
        self.same("result", (0, "", ""), execute(self.room + "/scripts/prove", "--seconds"))
        wanted = re.sub(r"(?m)^(run_plan|tfm_words) .*", lambda it: it[1] + (" 10" if it[1] == "run_plan" else " 80"),
                        read("scripts/seconds.txt"))
        self.same("file", wanted, read(self.room + "/scripts/seconds.txt"))


class Try(Case):
    """./tfmset --try"""

    def test_try(self):
        """The program is run unproved: it gets copies of the files, and standard input, and its status is the exit status."""
        self.need("rt")
        for name in ("tfmset", "crates.txt", "scripts/prove", "scripts/seconds.txt", "scripts/try"):
            self.file(name, read(name))
            shutil.copymode(f"{ROOT}/{name}", f"{self.room}/{name}")
        shutil.copytree(ROOT + "/crates", self.room + "/crates", ignore=shutil.ignore_patterns("out", "must-fail"))
        given = {"given": b"office AV\nox\n", "cwd": self.room}
        self.file("a font.tfm", read(DEMO, "rb"))
        wanted = execute(PROGRAM, "stream", "--size=12pt", DEMO, **given)
        status, out, err = execute("./tfmset", "--try", "stream", "--size=12pt", "a font.tfm", **given, timeout=900)
        self.same("result", (*wanted[:2], True), (status, out, wanted[1].count("\n") == 3))
        self.same("messages", 1, len(err.splitlines()))
        self.assertIn("nothing is proved", err)
