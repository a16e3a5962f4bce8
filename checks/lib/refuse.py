"""Executions in which requests of a program fail: with lib/refuse.c, which is preloaded."""
import collections
import errno
import os
import subprocess
import tempfile

from lib.base import PATIENCE, ROOT, output, shared

# The exit status, or a sentence if there was none; both outputs; and the names of the requests that failed.
Got = collections.namedtuple("Got", "status out err told")


def library():
    """Returns the path of the library. The first process that needs it compiles it."""
    source = ROOT + "/checks/lib/refuse.c"
    return shared("refuse.so", lambda path: output("cc", "-O1", "-shared", "-fPIC", "-o", path, source, "-ldl"))


def failing(told, what="nothing", number=0, on=False, error=errno.ENOMEM):
    """How to start a process whose request of a kind with this number fails, or all such requests from it on. The
    name of each is written to a file."""
    words = f"{what} {number} {int(on)} {error} {told.fileno()}"
    return {"env": {**os.environ, "LD_PRELOAD": library(), "REFUSE": words}, "pass_fds": [told.fileno()]}


def execute(command, *fails, **how):
    """Executes a command in which requests fail, as `failing` describes."""
    how = {"stdin": subprocess.DEVNULL, "stdout": subprocess.PIPE, "timeout": PATIENCE, **how}
    with tempfile.TemporaryFile() as told:
        try:
            ran = subprocess.run(command, stderr=subprocess.PIPE, check=False, **failing(told, *fails), **how)
        except subprocess.TimeoutExpired:
            return Got(f"no end in {how['timeout']} seconds", "", "", ["time"])
        told.seek(0)
        names = told.read().decode().splitlines()
    return Got(ran.returncode, (ran.stdout or b"").decode("latin-1"), ran.stderr.decode("latin-1"), names)
