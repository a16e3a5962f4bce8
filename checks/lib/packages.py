"""Installs the tools that checks need, with apt-get, if this runs as root."""
import os
import time

from lib.base import execute, has, table


def install(seconds):
    """Installs what is missing, for at most so many seconds in all. What can't be installed stays missing."""
    packages = table("packages").items()
    missing = [names.split() for names, tools in packages if not all(map(has, tools.split()))]
    if not missing or os.geteuid() != 0 or not has("apt-get"):
        return
    until = time.monotonic() + seconds
    for words in [["update"]] + [["-y", "--no-install-recommends", "install", *names] for names in missing]:
        left = int(until - time.monotonic())
        if left >= 1:
            # The time limit is that of a command, which ends apt-get with SIGTERM.
            execute("timeout", str(left), "apt-get", "-q", "-o", f"DPkg::Lock::Timeout={left}", *words,
                    env={**os.environ, "DEBIAN_FRONTEND": "noninteractive"}, timeout=None)
