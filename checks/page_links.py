"""The links of the pages, and the names of pages in all files. It needs no program."""
import os
import re

from lib.base import ROOT, Case, files, read, table

RULES = table("pages")


def without_blocks(text):
    """A page without its ``` blocks."""
    return re.sub(r"^```.*?^```$", "", text, flags=re.M | re.S)


def anchors_of(text):
    """The anchors that GitHub makes of a page's headings, and those that are written as HTML."""
    anchors, seen = set(re.findall(r"<a (?:id|name)=\"([^\"]+)\"", text)), {}
    for heading in re.findall(r"^#{1,6} +(.*?)(?: +#+)? *$", without_blocks(text), re.M):
        shown = re.sub(r"!?\[([^\]]*)\]\([^)]*\)", r"\1", heading)
        anchor = re.sub(r"[^\w -]", "", shown.lower()).replace(" ", "-")
        count = seen[anchor] = seen.get(anchor, -1) + 1
        anchors.add(f"{anchor}-{count}" if count else anchor)
    return anchors


def link_errors_of(page, text):
    """Returns the links of a page that lead nowhere, and how many links it has."""
    wrong, prose = [], re.sub(r"`[^`\n]*`", "", without_blocks(text))
    links = re.findall(r"\]\(\s*<?([^)\s>]+)>?[^)]*\)|^ {0,3}\[[^\]]+\]: +(\S+)", prose, re.M)
    for link in map("".join, links):
        if re.match(r"[a-z][a-z+.-]*:", link):
            continue
        path, _, anchor = link.partition("#")
        name = os.path.normpath(os.path.join(os.path.dirname(page), path)) if path else page
        if name.startswith("..") or not os.path.exists(os.path.join(ROOT, name)):
            wrong.append(f"{page}: no file {link}")
        elif anchor and not (name.endswith(".md")
                             and anchor in anchors_of(text if name == page else read(name))):
            wrong.append(f"{page}: no anchor {link}")
    return wrong, len(links)


def named_pages(name, text):
    """The pages that a file names and that don't exist, next to the file, at the top or in docs/."""
    places = (os.path.join(ROOT, os.path.dirname(name)), ROOT, os.path.join(ROOT, "docs"))
    named = set(re.findall(r"(?<![\w/.-])[\w./-]*\w\.md\b", re.sub(r"\\f[A-Z]", "", text)))
    gone = [page for page in RULES["gone"]
            if name.endswith(".md") and re.search(rf"(?<![\w/]){page}\b(?!\.md)", text)]
    return [f"{name}: {page}" for page in gone + sorted(named - set(RULES["outside"]))
            if page in gone or not any(os.path.exists(os.path.join(at, page)) for at in places)]


class Links(Case):
    """Links and names of pages"""

    def test_links(self):
        docs = [f"docs/{name}" for name in files(ROOT + "/docs") if name.endswith(".md")]
        found = [link_errors_of(page, read(page)) for page in RULES["linking"] + docs]
        self.none([error for wrong, _ in found for error in wrong], sum(count for _, count in found), 51)

    def test_wrong_links_are_found(self):
        text = ("[a](#b-c) [d](docs/OUTPUT.md#none) [e](docs/NONE.md) [f](#b-c-1)\n\n"
                "# `B` *c*\n\n```sh\n# B c\n```\n")
        found = [error.split()[-1] for error in link_errors_of("README.md", text)[0]]
        self.same("found", ["docs/OUTPUT.md#none", "docs/NONE.md", "#b-c-1"], found)
        found = named_pages("docs/OUTPUT.md", "TEX.md, SCALE, ../README.md and `NONE.md`")
        self.same("found", ["docs/OUTPUT.md: SCALE", "docs/OUTPUT.md: NONE.md"], found)

    def test_names_of_pages(self):
        """No file names a page that doesn't exist."""
        contents = {path: read(path, "rb") for path in files(ROOT, (".git", "out", "__pycache__"))
                    if path != "checks/page_links.py"}
        wrong = [named_pages(path, text.decode("utf-8", "replace"))
                 for path, text in contents.items() if b"\0" not in text]
        self.none(sum(wrong, []), len(wrong), 101)
