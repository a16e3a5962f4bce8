"""Reads the pages of docs/: their commands, their blocks, and the tables of examples."""
import re
import subprocess

from lib.base import read
from lib.tfm import sample


def commands(text):
    """The commands of a page, each with the output that the page prints, or None if it prints none."""
    blocks = list(re.finditer(r"^```(sh|text)\n(.*?)^```$(\n\n(?=```text\n(?!\$ )))?", text, re.M | re.S))
    for turn, block in enumerate(blocks):
        if block.group(1) == "sh":
            yield block.group(2), blocks[turn + 1].group(2) if block.group(3) else None
        elif block.group(2).startswith("$ "):
            for part in re.split(r"^\$ ", block.group(2), flags=re.M)[1:]:
                yield tuple(part.split("\n", 1))


def blocks(page, language):
    """The blocks of a page that are in a language."""
    return re.findall(rf"^```{language}\n(.*?)^```$", read(page), re.M | re.S)


def text_of(cell):
    """The text of an example, whose cell is the argument of printf, or a number of times a letter."""
    many = re.fullmatch(r"([\d,]+) times `(.+)`", cell)
    if many:
        return many.group(2).replace("\\40", " ").encode() * int(many.group(1).replace(",", ""))
    return subprocess.run(["printf", cell.strip("`")], stdout=subprocess.PIPE, check=True).stdout


def record_of(cell, text):
    """The record of a cell: after `..` its last field is repeated, once for each byte of the text."""
    begin, dots, _ = cell.strip("`").partition(" ..")
    return begin + " " + " ".join(begin.split()[-1:] * (len(text) - 1)) if dots else begin


def worked_examples():
    """The rows of the tables of docs/TESTING.md: font, options, and the cells of the text and the record."""
    form = r"^\| `(\w+)` \| (?:`(--[^|]*)`)? ?\| ([^|]*?) \| (`(?:set|refused) [^|]*) \|"
    return re.findall(form, read("docs/TESTING.md"), re.M)


def font_errors():
    """The rows of the table of docs/ERRORS.md: the message, and the bytes of a font with this error."""
    form = r"^\| `(\d+ [^|`]*)` \|[^|]*\| `(\w+)` `([^`|]*)` \|"
    found = re.findall(form, read("docs/ERRORS.md"), re.M)
    return [(message, sample(font, changes)) for message, font, changes in found]
