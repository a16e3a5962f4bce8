"""The fixtures that all checks share: the program, temporary directories, tools, and tests made of tables."""
import fcntl
import functools
import importlib.machinery
import importlib.util
import os
import shutil
import subprocess
import tempfile
import tomllib
import unittest

ROOT = os.path.dirname(os.path.dirname(os.path.dirname(os.path.realpath(__file__))))
EXAMPLES = os.path.join(ROOT, "examples")
DEMO = os.path.join(EXAMPLES, "demo.tfm")
# checks/run sets these variables. SHARED is a directory for what several processes use.
PROGRAM = os.environ.get("CHECKS_PROGRAM", os.path.join(ROOT, "crates", "tfmset", "out", "tfmset"))
SHARED = os.environ.get("CHECKS_SHARED", "")
PATIENCE = 60  # seconds for one execution
MOST_SHOWN = 8  # errors that one test prints
# The tools without which a run with --install fails. The other ones are optional.
REQUIRED = {"cc", "tex", "tftopl", "kpsewhich", "latex", "cmr10"}


def read(name, mode="r"):
    """Returns the contents of a file of the repository."""
    with open(os.path.join(ROOT, name), mode, encoding=None if "b" in mode else "utf-8") as file:
        return file.read()


def write(path, content):
    """Writes a file, from a string or from bytes, and returns its path."""
    os.makedirs(os.path.dirname(path) or ".", exist_ok=True)
    with open(path, "wb") as file:
        file.write(content.encode() if isinstance(content, str) else content)
    return path


def table(name):
    """Returns a TOML file of checks/cases."""
    return tomllib.loads(read(f"checks/cases/{name}.toml"))


def execute(*command, given=b"", text="utf-8", **how):
    """Runs a command. Returns its exit status and both outputs, as text in UTF-8, or of another encoding."""
    how = {"timeout": PATIENCE, **how}
    ran = subprocess.run(command, input=given, capture_output=True, check=False, **how)
    return ran.returncode, ran.stdout.decode(text, "replace"), ran.stderr.decode("utf-8", "replace")


def output(*command, **how):
    """Returns what a command prints. Raises an error with its messages if it fails."""
    status, out, err = execute(*command, **how)
    if status:
        raise AssertionError(f"{' '.join(command)}: exit status {status}: {err[-2000:]}")
    return out


def bash(command, room, **how):
    """Runs a command of the shell in a directory."""
    return execute("bash", "-c", command, cwd=room, **how)


def shared(name, make):
    """Returns a path in the shared directory. The first process that asks for it calls make(path)."""
    path = os.path.join(SHARED, name)
    with open(path + ".lock", "w", encoding="ascii") as lock:
        fcntl.flock(lock, fcntl.LOCK_EX)
        if not os.path.exists(path + ".done"):
            make(path)
            write(path + ".done", b"")
    return path


def environment(**more):
    """The environment with more variables, and without those by which programs could find other files."""
    left_out = "TFMSET_LIBRARY PYTHONPATH PYTHONHOME LD_LIBRARY_PATH PYTHON DESTDIR MAINTAINER".split()
    return {**{name: value for name, value in os.environ.items() if name not in left_out}, **more}


def files(top, but=()):
    """The sorted paths of the files in a directory and below, except in directories of some names."""
    found = []
    for directory, inner, names in os.walk(top, followlinks=True):
        inner[:] = [name for name in inner if name not in but]
        found += [os.path.relpath(os.path.join(directory, name), top) for name in names]
    return sorted(found)


def script(name):
    """A script of the repository, as a module."""
    loader = importlib.machinery.SourceFileLoader(os.path.basename(name), os.path.join(ROOT, name))
    module = importlib.util.module_from_spec(importlib.util.spec_from_loader(loader.name, loader))
    loader.exec_module(module)
    return module


def copy_for_scripts(top, status=0):
    """Copies what scripts need. There ./tfmset installs the program, or ends with a status."""
    for name in ("scripts", "man", "completions", "examples"):
        shutil.copytree(f"{ROOT}/{name}", f"{top}/{name}")
    for name in ("LICENSE-MIT", "LICENSE-APACHE", "tfmset-letters", "tfmset-boxes"):
        shutil.copy(f"{ROOT}/{name}", top)
    out = f"{top}/crates/tfmset/out"
    build = f"mkdir -p '{out}' && cp '{PROGRAM}' '{out}/tfmset' || exit\nexec '{out}/tfmset' \"$@\"\n"
    os.chmod(write(f"{top}/tfmset", "#!/bin/sh\n" + (f"exit {status}\n" if status else build)), 0o755)


class Case(unittest.TestCase):
    """A group of tests. `same` and `none` collect errors, which fail the test at its end."""

    def __init_subclass__(cls):
        for name, method in list(vars(cls).items()):
            for number, (title, *arguments) in enumerate(getattr(method, "rows", ())):
                setattr(cls, f"{name}_{number:03}", one_of(method, title, arguments))
            if hasattr(method, "rows"):
                delattr(cls, name)

    def setUp(self):
        self.wrong = []

    def tearDown(self):
        if self.wrong:
            more = len(self.wrong) - MOST_SHOWN
            shown = self.wrong[:MOST_SHOWN] + ([f"and {more} more"] if more > 0 else [])
            self.fail("\n  ".join(text[:2000] for text in shown))

    @functools.cached_property
    def room(self):
        """A temporary directory of this test."""
        return self.other_room()

    def other_room(self):
        """Another temporary directory of this test."""
        path = tempfile.mkdtemp(prefix="checks-")
        self.addCleanup(shutil.rmtree, path, ignore_errors=True)
        return path

    def same(self, what, wanted, seen):
        if wanted != seen:
            self.wrong.append(f"{what}: {seen!r} instead of {wanted!r}")

    def none(self, wrong, count=1, least=1):
        """No error of a list may exist, and at least so many things must have been compared."""
        self.wrong += wrong
        if not wrong and count < least:
            self.wrong.append(f"only {count} instead of {least}")

    def need(self, *tools):
        """Skips the test, or fails if this is the full check and the tool is a required one."""
        for tool in tools:
            if not has(tool):
                self.lack(tool)

    def lack(self, tool):
        if tool in REQUIRED and os.environ.get("CHECKS_STRICT"):
            self.fail(f"{tool} isn't installed, which the full check requires")
        self.skipTest(f"no {tool}")

    def file(self, name, content):
        return write(os.path.join(self.room, name), content)

    def compare_readers(self, programs):
        """The programs of a directory print the letters of lines, and draw the picture of the README."""
        records = output(f"{programs}/tfmset", "stream", "--record=json", DEMO, given=b"office ox\nstiff waves\n").encode()
        letters = output(f"{programs}/tfmset-letters", "--encoding=ot1", given=records, cwd="/")
        self.same("tfmset-letters", ["1:1 35.75 o[ffi]ce o{-0.25}x", "1 end complete 2"], letters.splitlines()[::2])
        picture = output(f"{programs}/tfmset-boxes", "--encoding=ot1", DEMO, given=records, cwd="/")
        self.same("tfmset-boxes draws examples/boxes.svg", True, picture == read("examples/boxes.svg"))

    def link_repository(self):
        """Links the files of the repository to the room of the test. There ./tfmset is the program."""
        for name in os.listdir(ROOT):
            if not name.startswith(".") and name != "tfmset":
                os.symlink(os.path.join(ROOT, name), os.path.join(self.room, name))
        os.symlink(PROGRAM, os.path.join(self.room, "tfmset"))


def has(tool):
    if tool == "cmr10" or tool.endswith(".def"):
        file = "cmr10.tfm" if tool == "cmr10" else tool
        return bool(shutil.which("kpsewhich")) and execute("kpsewhich", file)[0] == 0
    if tool == "de_DE":
        return os.path.exists("/usr/share/i18n/locales/de_DE")
    return shutil.which(tool) is not None


def one_of(method, title, arguments):
    """A test for one row."""
    def test(self):
        method(self, *arguments)
    test.__doc__ = str(title).replace("\n", " ")[:100]
    return test


def rows(found):
    """Makes a test of each row: its title, and the arguments of the method."""
    def mark(method):
        method.rows = list(found)
        return method
    return mark
