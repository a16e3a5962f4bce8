"""docs/DEFINITIONS.md, the must-fail edits and the contracts that pages quote, compared with the sources.

DEFINITIONS names files and definitions that exist, and functions whose clauses use them. It has each definition that
a public clause names and each file of specs/, and no public clause depends on a file of its last table. The old text
of a must-fail edit occurs exactly once in its file. Sources are read by their indentation, which is that of `rt fmt`.
"""
import collections
import glob
import os
import re
import shutil
import textwrap

from lib.base import ROOT, Case, read, rows, table, write

PAGE, QUOTING = "docs/DEFINITIONS.md", "docs/PROVED.md"
USE = re.compile(r"use Rattle\.(\w+)\.specs\.(\w+)\.\{([^}]*)\}")
LINK = re.compile(r"\[(\w+)\]\(\.\./crates/(\w+)/specs/(\w+)\.antt\)")
QUOTED = re.compile(r"`([^`]+)`")
QUOTED_CONTRACT = re.compile(r"^```text\n((?:pub fn|ensures|requires) .*?)^```$", re.M | re.S)
ITEM = r'(pub )?(?:const |extern "C" )*(fn|struct|enum|trait|impl|ghost(?= from_gives| deref_gives| output)) ?((\w*).*)'
IMPL = re.compile(r"(?:<.*?> )?(?:(?:\w+::)*((\w+)(?:<.*>)? for ))?(\w+)")
DEFINITION = re.compile(r"(?:(?:abbrev|unfoldable|pub|data|record)\s+)+([^\s:(){}]+)\s|([^\s:(){}]+) :")
NO_DEFINITION = ("use ", "pub mod ", "mod ", "--", "unfolding ")


def found(root, pattern):
    """The files of the crates that match a pattern: the crate, the path, the contents."""
    for path in sorted(glob.glob(f"{root}/crates/*/{pattern}", recursive=True)):
        yield os.path.relpath(path, root + "/crates").partition("/")[0], path, read(path)


def words_of(text):
    return set(re.findall(r"[^\s(){}.,;]+", text))


def definitions_of(text):
    """The definitions of a file of specs/, also those in a `module`, each with its text."""
    texts, name = collections.defaultdict(str), ""
    for part in re.split(r"^(?=\S)", text, flags=re.M):
        if part.startswith("module "):
            texts.update(definitions_of(textwrap.dedent(part.partition("\n")[2])))
        elif part.strip() and not part.startswith(NO_DEFINITION):
            head = DEFINITION.match(part)
            name = (head[1] or head[2]) if head else name
            texts[name] += part
    return texts


def items(text, margin):
    """The items at a margin: what ITEM finds in the first line, the text, and the words of the clauses.

    A clause begins a line before the body. A ghost item is one clause."""
    for part in re.split(rf"^(?= {{{margin}}}[a-z])(?! *where$)", text, flags=re.M):
        if item := re.match(" " * margin + ITEM, part):
            head = part.partition("\n" + " " * margin + "{\n")[0]
            clauses = re.split(r"^ +(?:ensures|requires)(?: \w+)? \{", head, flags=re.M)[1:]
            yield item, part, words_of(head if item[2] == "ghost" else " ".join(clauses))


class Specification:
    """The definitions on which each definition depends, and those that are named by public functions and types."""

    def __init__(self, root):
        self.homes, self.uses, self.functions = {}, {}, collections.defaultdict(set)
        self.types = collections.defaultdict(set)
        files = {(crate, os.path.basename(path)[:-5]): text for crate, path, text in found(root, "specs/**/*.antt")}
        texts = {key: definitions for key in files if (definitions := definitions_of(files[key]))}
        for key, definitions in texts.items():
            # A constructor or a field belongs to the type that declares it.
            self.homes[key] = {word: name for name in reversed(definitions) for word in words_of(definitions[name])}
            self.homes[key].update((name, name) for name in definitions)
        for key, definitions in texts.items():
            named = self.imports_of(files[key]) | {name: (*key, name) for name in definitions}
            self.uses |= {(*key, name): {named[word] for word in words_of(text) & named.keys()}
                          for name, text in definitions.items()}
        tops = {crate: text for pattern in ("lib", "main") for crate, _, text in found(root, f"src/{pattern}.rt")}
        for crate, _, text in found(root, "src/**/*.rt"):
            exports = " ".join(re.findall(r"^pub (?:use [^;]*|[^({;]*)", tops[crate], re.M))
            text = re.sub(r"^ *//.*\n", "", text, flags=re.M)
            self.read_source(crate, text, set(re.findall(r"\w+\b(?!::)", exports)))

    def imports_of(self, text):
        """The definitions that a file imports, by the names that it gives them."""
        return {alias or name: (crate, file, self.homes[crate, file].get(name, name))
                for crate, file, names in USE.findall(text) if (crate, file) in self.homes
                for name, alias in re.findall(r"([^\s,]+)(?: as ([^\s,]+))?", names)}

    def read_source(self, crate, text, exported):
        named = self.imports_of(text)
        for item, part, words in items(text, 0):
            kind, whole, trait, name = item[2], "", None, item[4]
            if kind == "impl":
                whole, trait, name = IMPL.match(item[3]).groups()
            if name in exported and kind == "fn" and item[1]:
                self.functions[crate, name] |= {named[word] for word in words & named.keys()}
            elif name in exported and kind != "fn":
                self.types[crate, name] |= {*named.values()}
                for inner, _, words in items(part, 4):
                    if inner[1] or trait or kind == "trait":
                        method = whole + name if inner[2] == "ghost" else f"{name}::{inner[4]}"
                        self.functions[crate, method] |= {named[word] for word in words & named.keys()}

    def reached(self, keys):
        """These definitions and all that they depend on."""
        seen = set()
        while keys := {*keys} - seen:
            seen |= keys
            keys = set().union(*(self.uses.get(key, ()) for key in keys))
        return seen


def row_errors(spec, key, row, used_by):
    """Returns the errors in a row of a table of DEFINITIONS."""
    where, through = f"{key[1]}.antt of {key[0]}", used_by.partition("through ")[2]
    wrong = [f"{where} doesn't define {name}" for *_, name in sorted(row - spec.uses.keys())]
    for name in QUOTED.findall(used_by):
        own = spec.functions.get((key[0], name), spec.types.get((key[0], name)))
        if f"`{name}`" in through:
            own = {other for other in spec.uses if other[2] == name} or own
        if own is None:
            wrong.append(f"{where}: no public function {name}")
        elif not row & (spec.reached(own) if through else own):
            wrong.append(f"{where}: {name} doesn't use {', '.join(name for *_, name in sorted(row))}")
    return wrong


def definition_errors(root):
    """Returns the errors in DEFINITIONS."""
    spec, wrong, listed, crate, key = Specification(root), [], set(), "", ("", "")
    tables, _, last = read(os.path.join(root, PAGE)).partition("## Internal definitions")
    for line in tables.split("\n"):
        crate = line[4:] if line.startswith("### ") else crate
        linked, definitions, _, used_by, *_ = [*map(str.strip, line.strip("|").split(" | ")), *" " * 4]
        if not line.startswith("| ") or linked == "File" or line.count(" | ") < 3:
            continue
        link = LINK.match(linked)
        key = (crate, link[3]) if link else key
        if link and (link[2], link[1]) != key or linked and not link or key[0] != crate:
            wrong.append(f"{crate}: no link to a file of this crate: {linked}")
        row = {(*key, name) for name in QUOTED.findall(definitions)}
        listed |= row
        wrong += row_errors(spec, key, row, used_by)
    internal = {(crate, file) for _, crate, file in LINK.findall(last.partition("\n## ")[0])}
    named = set().union(*spec.functions.values())
    wrong += [f"{file}.antt of {crate} has no row with {name}" for crate, file, name in sorted(named - listed)]
    wrong += [f"{file}.antt of {crate} is missing"
              for crate, file in sorted(spec.homes.keys() - internal - {key[:2] for key in listed})]
    return wrong + [f"{file}.antt of {crate} is no internal file: clauses depend on {name}"
                    for crate, file, name in sorted(spec.reached(named)) if (crate, file) in internal]


def edit_errors(root):
    """Returns the must-fail edits that don't fit the sources."""
    wrong = []
    for crate, path, edit in found(root, "must-fail/*"):
        changes, texts, file = re.findall(r"^(?:file: (.*)\n)?old: ?(.*)\nnew: ?(.*)$", edit, re.M), {}, ""
        wrong += [] if len(changes) == edit.count("\nnew:") > 0 else [f"{path}: it can't be read"]
        for other, old, new in changes:
            file = f"{root}/crates/{crate}/{other}" if other else file
            text = texts.get(file) or (read(file) if os.path.isfile(file) else "")
            wrong += [] if text.count(old) == 1 else [f"{path}: the old text occurs {text.count(old)} times: {old}"]
            texts[file] = text.replace(old, new)
    return wrong


def quotation_errors(root):
    """Returns the contracts that the page quotes and no source has, whatever their spaces and line ends."""
    sources = " ".join(" ".join(text.split()) for *_, text in found(root, "src/**/*.rt"))
    quoted = [" ".join(text.split()) for text in QUOTED_CONTRACT.findall(read(os.path.join(root, QUOTING)))]
    return [f"{QUOTING}: no source has {text}" for text in quoted or ["a contract"] if text not in sources]


ERRORS = {"definitions": definition_errors, "edits": edit_errors, "quotations": quotation_errors}


class Sources(Case):
    """What the sources have, and errors that are seeded in a copy"""

    @rows(ERRORS.items())
    def test(self, errors):
        self.none(errors(ROOT))

    def test_seeded_errors_are_found(self):
        shutil.copytree(ROOT + "/crates", self.room + "/crates", ignore=shutil.ignore_patterns("out", "proofs"))
        for page in (PAGE, QUOTING):
            self.file(page, read(page))
        for name, row in ((name, row) for name, seeded in table("definitions").items() for row in seeded):
            path, old = os.path.join(self.room, row["file"]), row.get("old", "")
            text = read(path) if old else ""
            self.same(f"{row['what']}: the text is there", True, old in text)
            write(path, text.replace(old, row["new"], 1))
            lines = ERRORS[name](self.room)
            self.wrong += [] if any(row["printed"] in line for line in lines) else [f"{row['what']}: {lines}"]
            write(path, text) if old else os.remove(path)
