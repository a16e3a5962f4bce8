"""A search of the sources for errors that no failed call causes, and for large requests for memory.

FAULTS names the values that report a failed allocation, read, write or start of a thread. Such a value may be written
where a call has failed: in `impl From<AllocError>`; in the argument of `map_err`; in an arm for `Err(_)`, an error of
the same kind or a write of no bytes; in the `else` of `let Ok(..)`; and after an `if` on `is_err()`, `let Err(_)`, an
error of the same kind, a collector's refusal or a count of 2^64. UNCAUSED has the functions with other such values.

Each request for memory and each array has at most 2,048 elements, as far as its size is computed from numbers,
constants of the crate and variables of the file. LARGE has the larger constants. What a called function returns, the
sizes of elements, and sizes that depend on the input aren't checked. The search reads formatted sources, without tests.
"""
import re

from lib.base import ROOT, Case, files, read, rows

FAULTS = {"memory": r"(?:\w+::)*(?:OutOfMemory|AllocError|MEMORY|give_up)|[A-Z]\w*::(?:Memory|GaveUp)",
          "read": r"[A-Z]\w*::(?:Read\w*|\w*Not(?:Read|Opened|Ended))|(?:io::)?Error::(?:from|new|other)\w*",
          "write": r"[A-Z]\w*::(?:Write|Output)\w*", "thread": r"[A-Z]\w*::Thread"}
VALUE = "|".join(rf"(?P<{kind}>(?<![\w:])(?<!const )(?<!fn )(?:{names})(?!\w| *[>|]))"
                 for kind, names in FAULTS.items())
# Calls that fail in one way only.
CALLS = {"memory": r"\.(?:push|reserve|insert|extend_from_slice)\(|\b(?:Arc|Box|Vec)::", "thread": r"\bspawn",
         "read": r"\.(?:read|open)\(", "write": r"\bwrite\w*!?\(|\bflush"}
HIDING_IMPORTS = r"(?<!ghost )\buse [^;]*\b(?:[A-Z]\w*::|(?:OutOfMemory|AllocError) as )[^;]*;"
UNCAUSED = {
    ("encodings/lines.rt", "encode_line"): "`push_text` lacked memory, since the line is UTF-8, and returned `None`",
    ("lanes/setter.rt", "give_up"): "the calls of this function are searched",
    ("line_chunks/input.rt", "fill"): "1,048,576 reads didn't reach the end of a line",
    ("line_chunks/input.rt", "skip"): "1,048,576 reads didn't reach the end of a line that is too long",
    ("tfm_requests/files/reading.rt", "kept_bytes"): "1,048,576 reads didn't reach the end of a font",
    ("tfm_requests/files/opening.rt", "open"): "no file in memory has this name",
    ("run_texts/stream.rt", "write_buffer"): "write_some wrote less than the buffer, because a write failed",
    ("run_texts/writing.rt", "write_text"): "write_some wrote less than the text, because a write failed",
    ("set_run/sources/reader_source/raw_line.rt", "next_raw_line"): "1,048,576 reads didn't reach the end of a line",
    ("batch/threads/spawning.rt", "start_sources"): "`begin` lacked memory, or `start_source` a thread: a `None`",
    ("tfm_requests/checking.rt", "bytes_once"): "standard input was read for another font",
    ("tfm_requests/checking.rt", "done_of"): "a font wasn't read, or the list of fonts wasn't read to its end",
    ("tfm_requests/font_list.rt", "check_named"): "reading the next name of the list lacked memory",
    ("tfm_requests/batches/delivery.rt", "done_of"): "the summary states that a read or an allocation failed"}
MOST = 2048
LARGE = {"CELLS = 65_792": "the table of texts of a font", "PAIRS = 65_792": "what is known of each pair of a font",
         "LEAST = 4_096": "more room for the text of a line",
         "READ_SIZE = 4096": "the bytes of one read", "ROOM = 73_728": "64 KB of records, and the record after them"}
DEFINED = r"\b(const|static|let) (?:mut )?(\w+)(?:: [^=;]*)? = ([^;{]*);"
REQUEST = (r"\bresize\w*\(([^,]+),|;\s*([^;\[\]{}]+)\]|(?:\b[A-Z]\w*(?:::<[^()]*>)?::\w+(?:::<[^()]*>)?\([\w.]*alloc\b|"
           r"\b(?:with_(?:capacity|room)|reserve\w*|grow|repeat\w*|\w*zeroed\w*|\w*uninit\w*)\()"
           r"((?:[^()]|\((?:[^()]|\((?:[^()]|\([^()]*\))*\))*\))*)\)")


def sources():
    """The files of the crates without tests, each with its text, without comments and the contents of strings."""
    hidden = r"""//.*|/\*[\s\S]*?\*/|\bb?r#*"[^"]*"#*|b?"(?:[^"\\]|\\[\s\S])*"|b?'(?:\\.|[^\\'])'"""
    for name in files(ROOT + "/crates", ("out", "tests")):
        if re.fullmatch(r"\w+(?<!_tests)(?<!_support)/src/.*\.rt", name):
            text = re.sub(hidden, lambda one: '""' * (one[0][0] != "/"), read("crates/" + name))
            yield name.replace("/src/", "/"), text


def code_of(text):
    """A source without contracts, imports, definitions of types, and parameters and results of functions."""
    rest, inside = r"(?:[^{;\[]|\[[^\]]*\])*", r"\{(?:[^{}]|\{(?:[^{}]|\{[^{}]*\})*\})*\}"
    left_out = r"(?m)^ *(?:pub(?:\([^)]*\))? )?(?:ensures|requires|ghost|struct|enum|use)\b"
    return re.sub(rf"\bfn (\w+){rest}", r"fn \1 ", re.sub(rf"{left_out}{rest}(?:;|{inside})", "", text))


def values(text):
    """The values of a source: the function, the kind, and whether a failed call leads to it."""
    code, stack, found = code_of(text), [[0, -1]], {}
    for mark in re.finditer(rf"=>|[()\[\]{{}},;]|{VALUE}", code):
        at, sign = mark.start(), mark[0]
        if mark.lastgroup:
            # For each bracket around the value, from the inside out, the statement or arm up to the value.
            heads = [code[begin:end + 1] for (begin, _), (_, end) in zip(stack, [*stack[1:], (0, at - 1)])]
            heads = [" ".join(head.split()) for head in reversed(heads)]
            is_pattern = any(re.search(r"\blet\b[^=]*$|\bmatches!\($", head) for head in heads)
            if not is_pattern and not re.search(r"[=!]= ?(?:\w+\()?$", "".join(heads[1::-1])):
                found[at] = mark.lastgroup, heads
        elif sign in "([{":
            stack.append([at + 1, at])
        elif sign in ",;":
            stack[-1][0] = at + 1
        elif sign == "=>":  # The values before it are in a pattern.
            found = {place: one for place, one in found.items() if place < stack[-1][0]}
        else:
            stack.pop()
            if sign == "}" and re.match(r"\s*\n\s*(?!\.\w|[\s?)\]},;|=]|&&|else)", code[at + 1:]):
                stack[-1][0] = at + 1
    assert len(stack) == 1, "a bracket isn't closed"
    return [("".join(re.findall(r"(?m)\bfn (\w+) \{$", "\n".join(heads))), kind, is_caused(kind, heads))
            for kind, heads in found.values()]


def is_caused(kind, heads):
    """Whether a failed call of this kind leads to a value."""
    same = rf"(?:\w+\()?(?:{FAULTS[kind]})\)?"
    failed = r"\bErr\([a-z_(), ]*\)$|\bwrite\w*\(.* \{ Ok\(0\)$|\.refusal \{ Some\(_\)$"
    for head, outer in zip(heads, [*heads[1:], ""]):
        pattern = head.partition("=>")[0].strip() if "=>" in head and not head.endswith(".map_err(") else ""
        if re.search(r"\bimpl\b", head):
            return kind == "memory" and "impl From<AllocError> for" in head
        if " if " in pattern:
            return bool(re.search(r" if [\w.]+\.is_err\(\)$", pattern))
        if all(re.search(same, one) for one in pattern.split("|")):
            return True
        if re.search(VALUE, pattern):
            return False
        call = re.search(r"(.*)\.map_err\($|(?:if ([^|&^=]*)\.is_err\(\)|if let Err\([a-z_(), ]*\) = (.*)|"
                         r"let Ok\(.*\) = (.*) else) \{$", head)
        if call or all(re.search(failed, f"{outer} {one.strip()}") for one in pattern.split("|")):
            call = call[call.lastindex] if call else outer
            ways = {way for way, names in CALLS.items() if re.search(names, call)}
            return ways <= {kind} and not re.search(r"\b(?:if|loop)\b", call)
        if re.search(r"\b(?:if|else|while|for|loop)\b.*\{$", head):
            return bool(re.search(
                rf"\bif (?:[^|&]* == {same}|let Some\(_\) = [\w.]*\.refusal|[\w.]*\.refusal\.is_some\(\)|"
                rf"[\w.()]+ (?:==|>=) u64::MAX(?: - self\.\w+)?) \{{$", head))
    return False


def requests(file, texts):
    """The requests and arrays of a file, each with the largest number in its size."""
    names = {}
    for other, text in texts.items():
        for word, name, size in re.findall(DEFINED, text) if other.split("/")[0] == file.split("/")[0] else ():
            if f"{name} = {size}" not in LARGE and (word != "let" or other == file):
                names[name] = names.get(name, "") + f"({size})"
    return [(one[0], largest(one[one.lastindex], names)) for one in re.finditer(REQUEST, texts[file])]


def largest(size, names):
    """The largest number in a size, or 2^64 if it is computed in another way than by sums and products."""
    for _ in range(5):
        size = re.sub(r"\b[A-Za-z_]\w*\b", lambda one: names.get(one[0], one[0]), size)
    size = re.sub(r"\b(0x[\da-fA-F_]+|\d[\d_]*)(?:[ui](?:\d+|size))?\b", lambda one: str(int(one[1], 0)), size)
    while found := re.search(r"(?<!\w)\((\d+)\)|\b\d+ [*+] \d+\b", size):
        size = size.replace(found[0], found[1] or str(eval(found[0])), 1)
    numbers = [1 << 64] if re.search(r"\bMAX\b|\bpow\b|!0|<<|-1", size) else map(int, re.findall(r"\b\d+\b", size))
    return max(numbers, default=0)


class Origins(Case):
    """Values that report a failed call, and requests for memory"""

    def test_values(self):
        found = [(file, *one) for file, text in sources() for one in values(text)]
        left = {(file, function): kind for file, function, kind, right in found if not right}
        self.none([f"no failed call leads to this {left[one]} error: {one}" for one in left if one not in UNCAUSED],
                  len(found), 60)
        self.none([f"UNCAUSED has a function without such a value: {one}" for one in UNCAUSED if one not in left])
        self.none([f"{file}: hidden by {one}" for file, text in sources() for one in re.findall(HIDING_IMPORTS, text)])

    def test_requests(self):
        texts = dict(sources())
        found = [(file, *one) for file in texts for one in requests(file, texts)]
        self.none([f"{file}: {one}: a size of {size}" for file, one, size in found if size > MOST], len(found), 40)

    @rows((body, body) for body in (
        "if line.len() > 9 {\n    return Err(AllocError);\n}", "return Err(Refusal::Output);",
        "match input.read(room) {\n    Ok(_) => Err(SourceFault::Read),\n    Err(fault) => Err(fault),\n}",
        "match list.push(line) {\n    Ok(()) => Ok(()),\n    Err(_) => Err(RunFault::Thread),\n}",
        "match set(line) {\n    Err(Fault::Steps) => Err(Fault::OutOfMemory),\n    made => made,\n}",
        "match set(line) {\n    made => made,\n    Err(OutOfMemory) | Ok(None) => Err(OutOfMemory),\n}",
        "match set(line) {\n    Err(_) if line.len() > 9 => Err(Denial::Memory),\n    made => made,\n}",
        "match fault {\n    fault => fault,\n    RunFault::OutOfMemory => RunFault::Thread,\n}",
        "let Some(first) = line.first() else {\n    return Err(ToolFault::OutOfMemory);\n};",
        "if list.push(line).is_err() || line.is_empty() {\n    return Err(OutOfMemory);\n}",
        "list.push(line)\n    .map_err(|_| OutOfMemory)\n    .and_then(|_| Err(OutOfMemory))?;",
        "if line.is_empty() {\n    setter.give_up();\n}"))
    def test_wrong_value(self, body):
        """A value that no failed call causes is found."""
        text = f"fn planted(line: &[u8]) -> Result<(), OutOfMemory>\n    ensures {{ AllocError }}\n{{\n{body}\n}}\n"
        self.assertEqual([("planted", False)], [(function, right) for function, _, right in values(text)][-1:])

    def test_wrong_import(self):
        """An import that hides a value is found."""
        self.assertTrue(re.search(HIDING_IMPORTS, "use run_texts::ToolFault::{Font, Write};"))

    @rows((body, body) for body in (
        "text.reserve(4_096)?;", "text.resize(line.len() * 65_536, 0)?;", "text.reserve(usize::MAX)?;",
        "Vec::with_capacity(alloc, ROOM)?;", "let count = 64 * 64;\nVec::from_elem(alloc, 0, count)?;", "[0; LEAST]"))
    def test_wrong_request(self, body):
        """A large request is found."""
        texts = {"a/one.rt": body, "a/two.rt": "const ROOM: usize = 72 * 1_024 + 1;\nconst LEAST: usize = 0x2000;\n"}
        self.assertLess(MOST, max(size for _, size in requests("a/one.rt", texts)))
