"""The fonts of TeX that are installed."""
import functools

from lib.base import files, output, read


@functools.lru_cache(maxsize=None)
def fonts():
    """The .tfm files of the TeX trees in order, each content once: paths and contents."""
    shown = output("kpsewhich", "-show-path=tfm")
    tops = {part.lstrip("!").rstrip("/\n") for part in shown.split(":")}
    paths = {f"{top}/{name}" for top in tops if top.startswith(("/usr/", "/var/lib/"))
             for name in files(top) if name.endswith(".tfm")}
    kept = {}
    for path in sorted(paths):
        content = read(path, "rb")
        kept.setdefault(content, path)
    return [(path, content) for content, path in kept.items()]
