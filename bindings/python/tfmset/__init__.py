# SPDX-License-Identifier: MIT OR Apache-2.0
"""Sets lines of text with a TeX font metric (TFM) file, by calling the C library libtfmset.

A `Font` is made from the bytes of a TFM file, at its design size or at another size. A text is bytes or a
str. In bytes, byte 32 is a space, byte 10 ends a line, and every other byte is a character code of the font.
A str needs the encoding of the font: `font.set("Straße", encoding="t1")`. All dimensions are in scaled points
(sp): 65,536 sp are one TeX point, and 72.27 TeX points are one inch.

    >>> import tfmset
    >>> font = tfmset.Font.from_file("examples/demo.tfm")
    >>> ox, av = font.set(b"office ox\\noffice AV")
    >>> ox.width, ox.steps, len(ox.items)
    (2342908, 10, 8)
    >>> ox.items[1]
    Item(kind=0, code=14, width=550502)
    >>> av
    Refusal(reason='missing', place=7, code=65)
    >>> font.widths(b"office\\nbox")
    [1468004, 1025637]

`encode` turns a str into the codes of a font. `ENCODINGS` has the names of the encodings. For a font with
another encoding, pass the bytes of an encoding vector: the contents of a file `.enc` of dvips.

`Font.spans` and `Font.span_items` set many parts of a text, such as words, in one call.

`POINT` is the number of sp in a point. `CHARACTER`, `KERN`, `SPACE` and `SKIPPED` are the kinds of items.
`BOUNDARY` stands for a boundary in `Font.pair` and `Font.pairs`.

On import the module loads the library from the first of these locations that has one:

1. the path in the environment variable TFMSET_LIBRARY; if it isn't empty, no other location is tried;
2. `libtfmset.so` in the directory of this package, where `pip install` puts it;
3. `PREFIX/lib/libtfmset.so.0`, if this package is in `PREFIX/lib/pythonX.Y/site-packages` (or
   `dist-packages`);
4. the directories that the system's dynamic linker searches, such as those in LD_LIBRARY_PATH.

The import raises ImportError if no library is found, if it can't be loaded, or if the first two numbers of
its version aren't those of `__version__`.

Any thread may call any function at any time, and calls of several threads run concurrently. Each call that
sets lines reads the font again, and makes an index of its pairs. One call for many lines is therefore much
faster than a call for each line. `Font.set`, `Font.widths` and `Font.records` pass a long text to the library
in blocks of lines, unless `call_limit` is set. Ctrl-C takes effect between two blocks.
"""
from __future__ import annotations

import bisect
import codecs
import ctypes
import dataclasses
import functools
import itertools
import operator
import os
import struct
import time
from typing import (Any, Dict, Iterator, List, NamedTuple, Optional, Sequence, Tuple, Type, Union,
                    overload)

from ._binding import (_DONE, _FONT_REFUSED, _NO_ROOM, _OUT_OF_MEMORY, _About, _Character, _Counts, _Encoded,
                       _Fault, _Form, _i32, _library, _Line, _Options, _Pair, _Placed, _size_t, _Span, _u32,
                       _Uncoded, _version, __version__)

__all__ = ["BOUNDARY", "CHARACTER", "ENCODINGS", "KERN", "POINT", "SKIPPED", "SPACE", "EncodingError", "Font",
           "FontRefused", "Item", "Kern", "Ligature", "Line", "Lines", "Metrics", "PlacedItem", "Recipe",
           "Refusal", "Span", "SpanItems", "__version__", "encode", "version"]

POINT = 65536
"""The number of scaled points in a point."""

CHARACTER, KERN, SPACE, SKIPPED = range(4)
"""The kinds of items: a character, a kern, a space, and a missing character that was skipped."""

BOUNDARY = 256
"""The left boundary as left neighbour, and the right one as right neighbour, in `Font.pair` and `pairs`."""

ENCODINGS = ("ot1", "t1", "ly1", "latin1")
"""The names of the encodings: OT1 is that of cmr10, T1 that of ecrm1000, and Latin 1 is ISO 8859-1."""

Size = Union[None, int, str]
Text = Union[bytes, bytearray, memoryview]
Encoding = Union[str, Text]

_LARGEST_SIZE, _LARGEST_LIMIT = 134_217_727, 16_777_216
_PARAMETERS = ("slant", "space", "stretch", "shrink", "x_height", "quad", "extra_space")
_FIRST_BLOCK, _LARGEST_BLOCK, _BLOCK_SECONDS = 1 << 12, 1 << 20, 0.02


def version() -> Tuple[int, int, int]:
    """Returns the version of the library.

    >>> version() >= (0, 1, 0)
    True
    """
    return _version(_library)


@dataclasses.dataclass(frozen=True, init=False)
class Item(ctypes.Structure):
    """An item of a line: a character, a kern, a space, or a missing character that was skipped.

    `kind` is CHARACTER, KERN, SPACE or SKIPPED. `code` is 0 for a kern and for a space. `width` is in sp, and
    is 0 for a skipped character.
    """

    kind: int
    code: int
    width: int
    _fields_ = [("kind", _u32), ("code", _u32), ("width", _i32)]

    def __init__(self, kind: int, code: int, width: int) -> None:
        for name, value in zip(("kind", "code", "width"), (kind, code, width)):
            object.__setattr__(self, name, value)


class EncodingError(ValueError):
    """Raised for an uncoded character (see `encode`), and for a lone surrogate.

    `encoding` is the name of the encoding, or 'vector' for an encoding vector. `place` is the index of the
    character in the text (with `crlf=True`, a carriage return and its line feed count as one), and
    `character` is the character itself.

    >>> encode("5 €", "t1")
    Traceback (most recent call last):
    tfmset.EncodingError: no code in t1 for U+20AC at index 2
    """

    def __init__(self, encoding: str, place: int, character: str) -> None:
        super().__init__(encoding, place, character)
        self.encoding, self.place, self.character = encoding, place, character

    def __str__(self) -> str:
        return f"no code in {self.encoding} for U+{ord(self.character):04X} at index {self.place}"


def _string(text: object) -> str:
    """Returns a text. Raises TypeError if it isn't a str."""
    if not isinstance(text, str):
        raise TypeError("text must be a str, since an encoding is given")
    return text


class _Stated(NamedTuple):
    """An encoding: its name in messages ('vector' for a vector), and what the library gets, the name or the
    vector."""

    name: str
    content: bytes


def _utf8(text: object, encoding: _Stated) -> bytes:
    """Returns a text in UTF-8. Raises TypeError if it isn't a str, and EncodingError for a lone surrogate."""
    text = _string(text)
    try:
        return str.encode(text, "utf-8")
    except UnicodeEncodeError as error:
        raise EncodingError(encoding.name, error.start, text[error.start]) from None


@functools.lru_cache(maxsize=8)
def _is_vector(content: bytes) -> bool:
    """Returns whether these bytes are an encoding vector. The library takes short bytes, such as b't1', for
    the name of an encoding. A vector is longer: it has 256 names, each of a slash and at least one
    character."""
    return len(content) > 512 and _library.tfmset_encode(
        content, len(content), b"", 0, None, 0, None, 0, None, 0, ctypes.byref(_Encoded())) == _DONE


def _stated(encoding: Encoding) -> _Stated:
    """Returns an encoding as the library expects it."""
    names = ", ".join(map(repr, ENCODINGS))
    if isinstance(encoding, (bytes, bytearray, memoryview)):
        content = _bytes("encoding", encoding)
        if not _is_vector(content):
            raise ValueError("encoding is bytes, but not those of an encoding vector (a file .enc); a name is a "
                             f"str: one of {names}")
        return _Stated("vector", content)
    if not isinstance(encoding, str):
        raise TypeError("encoding must be a str, or the bytes of an encoding vector")
    if encoding not in ENCODINGS and encoding not in map(str.upper, ENCODINGS):
        raise ValueError(f"encoding is {encoding!r}, but must be one of {names}, or the bytes of an encoding "
                         "vector (a file .enc)")
    return _Stated(encoding, str.encode(encoding, "ascii", "replace"))


def _skips(missing: str) -> bool:
    """Returns whether missing characters are skipped. Raises ValueError unless the name is refuse or skip."""
    if missing not in ("refuse", "skip"):
        raise ValueError(f"missing is {missing!r}, but must be 'refuse' or 'skip'")
    return missing == "skip"


def _encoded(text: str, encoding: _Stated, skips: bool, with_offsets: bool = False) -> Tuple[bytes, Any]:
    """Returns the codes of a text and, with `with_offsets`, an array with the offset in UTF-8 of the
    character of each code. Raises EncodingError for an uncoded character, unless `skips`."""
    name, content = encoding.content, _utf8(text, encoding)
    length, encoded, room, code = len(content), _Encoded(), 16, _NO_ROOM
    # A character has at most as many codes as bytes, and therefore these two arrays are always long enough.
    codes, offsets = ctypes.create_string_buffer(max(length, 1)), (_size_t * (length * with_offsets))()
    while code == _NO_ROOM:
        uncoded = (_Uncoded * room)()
        code = _library.tfmset_encode(name, len(name), content, length, codes, length, offsets, len(offsets),
                                      uncoded, room, ctypes.byref(encoded))
        room = encoded.uncoded
    if code != _DONE:
        raise ValueError("an argument is out of range")
    if room and not skips:
        place = len(content[:uncoded[0].offset].decode("utf-8"))
        raise EncodingError(encoding.name, place, chr(uncoded[0].character))
    return _front(codes, encoded.count), offsets


def encode(text: str, encoding: Encoding, missing: str = "refuse") -> bytes:
    """Returns the codes of the characters of a text, as bytes.

    `encoding` is one of ENCODINGS, or the same in capitals, or the bytes of an encoding vector. Most
    characters have one code, and some have two or three. Line feeds are kept. A soft hyphen, and a byte order
    mark (U+FEFF) at the front of the text, are left out. In OT1 the characters ", <, > and | have the codes
    34, 60, 62 and 124, as in LaTeX, although cmr10 prints ” ¡ ¿ — for these codes.

    A character is uncoded if it isn't in the encoding, or if LaTeX takes it from another font or puts it
    together from an accent and a letter. With `missing="refuse"` the first uncoded character raises
    EncodingError. With `missing="skip"` uncoded characters are left out.

    Raises ValueError for any other value of `encoding` or `missing`, and TypeError for another type.

    >>> encode("Straße – “naïve”", "t1")
    b'Stra\\xffe \\x15 \\x10na\\xefve\\x11'
    >>> encode("¿“Qué?”", "latin1", missing="skip")
    b'\\xbfQu\\xe9?'
    """
    return _encoded(text, _stated(encoding), _skips(missing))[0]


class FontRefused(ValueError):
    """Raised for a font that is refused. Has the first error of the font (docs/ERRORS.md in the sources).

    `number` is the number of the rule that the font breaks, from 1 to 14. `named` is the name of the count,
    of the table or of the part of an instruction that is wrong, or an empty str. `str(error)` is the text
    that the program prints. `place` is 0, except with these values of `number`:

    - 1 and 8: the number of bytes that are needed
    - 10 and 11: a character code
    - 13: the index of an entry in its table, from 0 (in the table `param` from 1)
    - 14: the address of an instruction, from 0

    >>> Font(b"no font")
    Traceback (most recent call last):
    tfmset.FontRefused: 1 truncated, 24 bytes needed
    """

    _COUNTS = ("lf", "lh", "bc", "ec", "nw", "nh", "nd", "ni", "nl", "nk", "ne", "np")
    _TABLES = ("header", "char_info", "width", "height", "depth", "italic", "lig_kern", "kern", "exten",
               "param")
    _PARTS = ("restart", "next", "ligature", "kern", "skip")
    _NAMES = {2: _COUNTS, 5: _TABLES, 10: _TABLES, 12: _TABLES, 13: _TABLES, 14: _PARTS}

    def __init__(self, number: int, named: str, place: int, text: str) -> None:
        super().__init__(number, named, place, text)
        self.number, self.named, self.place = number, named, place

    @classmethod
    def _from(cls, fault: _Fault, text: bytes) -> FontRefused:
        names = cls._NAMES.get(fault.number)
        return cls(fault.number, names[fault.named] if names else "", fault.place, text.decode("ascii"))

    def __str__(self) -> str:
        return str(self.args[3])


class Recipe(NamedTuple):
    """The codes of the pieces of an extensible character. A missing `top`, `middle` or `bottom` is 0."""

    top: int
    middle: int
    bottom: int
    repeated: int


class Metrics(NamedTuple):
    """The dimensions of a character, in sp, and its tag.

    `italic` is the italic correction. The meaning of `remainder` depends on `tag`:

    - tag 0: the character has no tag; `remainder` is 0
    - tag 1: the character has instructions in the lig/kern program, and `remainder` is the address of one. If
      that is an indirect start (docs/LIGATURES.md in the sources), the character's program begins at another
      instruction.
    - tag 2: `remainder` is the code of the next larger character
    - tag 3: `remainder` is the number of its extensible recipe, and `recipe` has the pieces

    For the other tags `recipe` is None.
    """

    width: int
    height: int
    depth: int
    italic: int
    tag: int
    remainder: int
    recipe: Optional[Recipe]


class Kern(NamedTuple):
    """A kern: `width`, in sp, is added between two characters. It may be negative."""

    width: int


class Ligature(NamedTuple):
    """A ligature operation: the character `code` is inserted between two characters.

    `keep_left` and `keep_right` are true if the left and the right character stay. `passed` is the number of
    elements, 0 to 2, that are passed over after the operation (docs/LIGATURES.md in the sources has a table).
    """

    code: int
    keep_left: bool
    keep_right: bool
    passed: int


Action = Union[Kern, Ligature]


def _action(pair: _Pair) -> Action:
    if pair.action == 1:
        return Kern(pair.kern)
    return Ligature(pair.code, bool(pair.keep_left), bool(pair.keep_right), pair.passed)


class Refusal(NamedTuple):
    """A line or a span that is refused. `reason` is one of these:

    - 'missing': the font has no character with the code `code`, which is at the index `place`
    - 'too-long': the line has more than 65,535 bytes or, in a str, codes; `place` is their number
    - 'steps': the line takes more than `limit` steps, or the call has taken `call_limit` steps
    - 'outside': the span ends after the end of the text

    `place` and `code` are 0 where they aren't listed. With 'missing', `place` is an index of a byte or, in a
    str, of a character, from 0. In a line it counts from the beginning of the line, and in a span from that
    of the text. If the hyphen of a span is missing, `place` is the end of the span.
    """

    reason: str
    place: int
    code: int


def _listed(kind: Any, room: int, name: str, *arguments: object) -> Tuple[int, Any]:
    """Returns the code of a function that reports a list, and the list: bytes if `kind` is c_char."""
    count = _size_t()
    while True:
        array = (kind * room)()
        code = getattr(_library, "tfmset_" + name)(*arguments, array, room, ctypes.byref(count))
        if code != _NO_ROOM:
            return code, array[:count.value]
        room = count.value


def _reason(refusal: int) -> str:
    """Returns the first word of the text of a refusal, or an empty str for 0."""
    text = _listed(ctypes.c_char, 64, "refusal_text", ctypes.byref(_Line(refusal=refusal)))[1]
    return str(text.decode("ascii").split(" ")[0])


_REASONS = tuple(map(_reason, range(5)))


class _Source:
    """A text of the caller, from which indices of characters are computed."""

    def __init__(self, text: str, encoding: _Stated) -> None:
        self._text, self._encoding = text, encoding

    @functools.cached_property
    def _places(self) -> Tuple[bytes, List[int], Any]:
        """The text in UTF-8, the indices of the first codes of its lines, and the offset of each code."""
        codes, offsets = _encoded(self._text, self._encoding, True, True)
        lengths = (len(line) + 1 for line in bytes.split(codes, b"\n"))
        return str.encode(self._text, "utf-8"), list(itertools.accumulate(lengths, initial=0)), offsets

    def index(self, number: int, offset: int) -> int:
        """Returns the index in the line `number` (from 0) of the character that has the code at an offset."""
        content, firsts, offsets = self._places
        place = offsets[firsts[number] + offset]
        return len(content[content.rfind(b"\n", 0, place) + 1:place].decode("utf-8"))


def _refusal(refusal: int, place: int, code: int, number: int, source: Optional[_Source]) -> Refusal:
    """Returns the refusal of the line `number` (from 0)."""
    if source is not None and _REASONS[refusal] == "missing":
        place = source.index(number, place)
    return Refusal(_REASONS[refusal], place, code)


def _front(buffer: ctypes.Array[ctypes.c_char], count: int) -> bytes:
    """Returns a copy of the first `count` bytes of a buffer, which may be more than a C int can count."""
    return bytes(memoryview(buffer)[:count])


def _blocks(text: bytes, options: _Options) -> Iterator[bytes]:
    """Yields the parts of a text, each of whole lines. With a limit for a call there is one part.

    Python handles Ctrl-C only between two calls of the library. The length of each part is therefore chosen
    so that the caller needs about `_BLOCK_SECONDS` for it, as estimated from the part before.
    """
    begin, room = 0, len(text) if options.call_limit else _FIRST_BLOCK
    while len(text) - begin > room:
        end = text.rfind(b"\n", begin, begin + room) + 1 or text.find(b"\n", begin) + 1 or len(text)
        # The library ignores a byte order mark at the front of a text, and only there.
        while text.startswith(codecs.BOM_UTF8, end):
            end = text.find(b"\n", end) + 1 or len(text)
        started = time.monotonic()
        yield text[begin:end]
        is_short = time.monotonic() - started < _BLOCK_SECONDS
        room = min(room * 2, _LARGEST_BLOCK) if is_short else max(room // 2, 1)
        begin = end
    if begin < len(text) or not text:
        yield text[begin:]


@functools.lru_cache(maxsize=1024)
def _items(count: int) -> Type[ctypes.Array[Item]]:
    """Returns the type of an array of `count` items. Without the cache, making the type takes longer
    than setting a short line."""
    return Item * count


class Line(NamedTuple):
    """A line that is set.

    `width` is its width in sp. `steps` is the number of steps that it took: kerns, ligature operations, and
    other moves to the next character or boundary. `packed` has the items as bytes, three 32-bit numbers for
    each: `struct.iter_unpack("IIi", line.packed)` or `numpy.frombuffer(line.packed, "u4,u4,i4")` reads them.
    """

    width: int
    steps: int
    packed: bytes

    @property
    def items(self) -> ctypes.Array[Item]:
        """The items of the line, in order, as a new array: writing to it changes no line."""
        return _items(len(self.packed) // ctypes.sizeof(Item)).from_buffer_copy(self.packed)

    def __repr__(self) -> str:
        return f"<Line of width {self.width}, {len(self.items)} items>"


Outcome = Union[Line, Refusal]


class Lines(Sequence[Outcome]):
    """The results of the lines of a text, in order: each is a `Line`, or a `Refusal` for a refused line."""

    def __init__(self, lines: ctypes.Array[_Line], items: ctypes.Array[Item], blocks: List[Tuple[int, int]],
                 source: Optional[_Source]) -> None:
        self._lines, self._items, self._packed, self._source = lines, items, memoryview(items), source
        # The numbers of lines and of items before each block, and in all. In a line, `first` counts from the
        # first item of its block.
        self._line_counts, self._item_counts = zip(*blocks)

    @property
    def items(self) -> ctypes.Array[Item]:
        """The items of all lines, in order, as one array.

        The array isn't a copy, since it may be large: writing to it changes the lines.
        """
        return _items(self._item_counts[-1]).from_buffer(self._items)

    def __eq__(self, other: object) -> bool:
        return isinstance(other, Lines) and list(self) == list(other)

    def __len__(self) -> int:
        return int(self._line_counts[-1])

    @overload
    def __getitem__(self, index: int) -> Outcome: ...

    @overload
    def __getitem__(self, index: slice) -> List[Outcome]: ...

    def __getitem__(self, index: Union[int, slice]) -> Union[Outcome, List[Outcome]]:
        if isinstance(index, slice):
            return [self[each] for each in range(*index.indices(len(self)))]
        index, count = operator.index(index), len(self)
        index += count if index < 0 else 0
        if not 0 <= index < count:
            raise IndexError("line index out of range")
        line = self._lines[index]
        if line.refusal:
            return _refusal(line.refusal, line.place, line.code, index, self._source)
        first = line.first + self._item_counts[bisect.bisect(self._line_counts, index) - 1]
        return Line(line.width, line.steps, self._packed[first:first + line.count].tobytes())

    def __repr__(self) -> str:
        return f"<Lines: {len(self)}>"


class Span(NamedTuple):
    """A part of a text that is set as one run: `length` bytes from the index `offset`, or in a str `length`
    characters.

    Each byte is a character code, even 10 and 32. `left` states whether the left boundary of the font
    precedes the span, and `right` whether the right boundary follows it. `hyphen` is a code that is set after
    the last byte, before the right boundary, or None.
    """

    offset: int
    length: int
    left: bool = True
    right: bool = True
    hyphen: Optional[int] = None


class PlacedItem(NamedTuple):
    """An item of a span: a character or a kern, and the bytes of the text that it comes from.

    `kind` is CHARACTER or KERN. `code` is that of a character, and 0 for a kern. `width` is in sp. A
    character of the text comes from its own byte, and a ligature from the bytes of the characters that it
    replaces. `length` is 0 for a kern, for the hyphen, and for a ligature that replaces no character of the
    text.

    In a str, `offset` and `length` count characters. Each character of a span belongs to exactly one item. A
    character with several codes belongs to the item of its first code. A character without codes, such as a
    soft hyphen, belongs to the item before it or, at the start of the span, to the first item.
    """

    kind: int
    code: int
    width: int
    offset: int
    length: int


class SpanItems(NamedTuple):
    """A span that is set: its width in sp, the number of steps that it took, and its items, in order."""

    width: int
    steps: int
    items: Tuple[PlacedItem, ...]


def _span(span: Span) -> _Span:
    """Returns a span as the library expects it."""
    offset, length, left, right, hyphen = Span(*span)
    return _Span(_number("offset", offset, 0, 2**64 - 1), _number("length", length, 0, 2**64 - 1),
                 bool(left) + 2 * bool(right), 256 if hyphen is None else _number("hyphen", hyphen, 0, 255))


class _Characters:
    """The codes of a text, and the characters that they come from."""

    def __init__(self, text: str, encoding: _Stated, skips: bool) -> None:
        self.codes, offsets = _encoded(text, encoding, skips, True)
        starts = (at for at, byte in enumerate(str.encode(text, "utf-8")) if byte & 0xC0 != 0x80)
        numbers = {offset: number for number, offset in enumerate(starts)}
        self._length, self._indices = len(text), [numbers[offset] for offset in offsets[:len(self.codes)]]

    def coded(self, span: _Span) -> _Span:
        """Converts `span`, which counts characters, to the span of the codes of these characters."""
        end, length = span.offset + span.length, len(self.codes)
        first = bisect.bisect_left(self._indices, span.offset)
        count = bisect.bisect_left(self._indices, end) - first if end <= self._length else length + 1
        return _Span(first, count, span.edges, span.hyphen)

    def relocate(self, line: _Line, items: Sequence[_Placed], span: _Span, coded: _Span) -> None:
        """Replaces indices of codes, in the result of a span and in its items, with those of characters."""
        first, last, end = coded.offset, coded.offset + coded.length, span.offset + span.length
        if _REASONS[line.refusal] == "missing":
            line.place = self._indices[line.place] if line.place < last else end
        for item in items:
            start, stop = (span.offset if at == first else end if at == last else self._after(at)
                           for at in (item.offset, item.offset + item.length))
            item.offset, item.length = start, stop - start

    def _after(self, at: int) -> int:
        """Returns the index of the first character whose first code has the index `at` or a larger one."""
        return self._indices[at] + (self._indices[at] == self._indices[at - 1])


_EXAMPLES = {"size": ", in sp, or a str with a unit, such as '10pt'",
             **dict.fromkeys(("code", "left", "right"), ", such as ord('a')")}


def _number(name: str, value: int, low: int, high: int) -> int:
    """Returns `value` as an int. Raises ValueError if it isn't from `low` to `high`, and TypeError for a bool
    and for anything else that isn't an integer."""
    if isinstance(value, bool) or not hasattr(value, "__index__"):
        raise TypeError(f"{name} is {value!r}, but must be an integer{_EXAMPLES.get(name, '')}")
    number = int(operator.index(value))
    if not low <= number <= high:
        raise ValueError(f"{name} is {number}, but must be from {low:,} to {high:,}")
    return number


def _size(size: Size) -> int:
    """Returns a size in sp, or 0 for the design size, as the library expects it."""
    if size is None:
        return 0
    if isinstance(size, str):
        content, read = str.encode(str.replace(size, " ", ""), "ascii", "replace"), _u32()
        code = _library.tfmset_size(content, len(content), ctypes.byref(read))
        # The library also reads a number of sp without a unit, which in a str is rather meant in points.
        if code != _DONE or not content[-1:].isalpha():
            raise ValueError(f"size is {size!r}, but must be a number with a unit, such as '10pt' or '4mm', "
                             f"from 1 to {_LARGEST_SIZE:,} sp")
        return read.value
    return _number("size", size, 1, _LARGEST_SIZE)


def _bytes(name: str, content: Union[Text, str]) -> bytes:
    """Returns the contents of a buffer as an object of the type bytes itself. A subclass could report another
    length than that of its memory."""
    if isinstance(content, (str, os.PathLike)):
        raise TypeError("data must be the bytes of a TFM file: Font.from_file reads a file" if name == "data"
                        else "text must be bytes: a str needs the encoding of the font, as encoding='t1'")
    return content if type(content) is bytes else bytes(memoryview(content))


@dataclasses.dataclass(frozen=True, init=False, repr=False)
class Font:
    """A font: the contents of a TFM file, read at a size.

    `data` is the contents of the file. `size`, from 1 to 134,217,727 sp, is one of these:

    - a str with a unit (pt, in, pc, cm, mm, bp, dd, cc or sp), such as "10pt" or "4mm". It is rounded as TeX
      rounds it, and spaces are ignored.
    - an int, in sp
    - None: the design size of the font

    Raises FontRefused if the font is refused, ValueError if the size is out of range or the str isn't a size,
    and TypeError for arguments of another type. Each call of the library raises MemoryError if an allocation
    fails.

    Attributes, which are read-only:

    - `data`: the contents of the file
    - `size`, `design_size`: the size that the font is read at, and its design size, in sp
    - `check_sum`: the check sum, as it is in the file
    - `parameters`: all parameters, from number 1, which is the slant
    - `kerns`, `instructions`: the numbers of kerns and of lig/kern instructions
    - `right_boundary`: the code of the right boundary character, or None if the font has none
    - `left_boundary`: whether the left boundary has instructions
    - `slant`: parameter 1, a ratio in units of 2^-20
    - `space`, `stretch`, `shrink`, `x_height`, `quad`, `extra_space`: parameters 2 to 7, in sp, or 0 if the
      font lacks them

    >>> font = Font.from_file("examples/demo.tfm", size="10pt")
    >>> font.size == font.design_size == 10 * POINT
    True
    >>> Font.from_file("examples/demo.tfm", size="4mm").size
    745871
    >>> font.space, font.right_boundary, font.left_boundary
    (209715, 124, False)
    """

    data: bytes
    parameters: Tuple[int, ...]
    kerns: int
    instructions: int
    design_size: int
    size: int
    check_sum: int
    right_boundary: Optional[int]
    left_boundary: bool
    slant: int
    space: int
    stretch: int
    shrink: int
    x_height: int
    quad: int
    extra_space: int
    _font: Tuple[bytes, int, int] = dataclasses.field(compare=False)

    def __init__(self, data: Text, size: Size = None) -> None:
        content, about = _bytes("data", data), _About()
        own = vars(self)
        own.update(data=content, _font=(content, len(content), _size(size)))
        self._raise(_library.tfmset_font(*self._font, ctypes.byref(about)))
        own.update((name, getattr(about, name)) for name, *_ in _About._fields_)
        parameters = tuple(self._list(_i32, 32, "parameters"))
        own.update(zip(_PARAMETERS, parameters + (0,) * 7), parameters=parameters)
        own.update(right_boundary=None if about.right_boundary == BOUNDARY else about.right_boundary,
                   left_boundary=bool(about.left_boundary))

    @classmethod
    def from_file(cls, path: Union[str, os.PathLike[str]], size: Size = None) -> Font:
        """Returns the font in a file. Raises OSError if the file can't be read, and what `Font` raises."""
        with open(path, "rb") as file:
            return cls(file.read(), size)

    def _raise(self, code: int) -> None:
        """Raises the exception for a return code of the library, unless the code is TFMSET_DONE."""
        if code == _FONT_REFUSED:
            fault, data = _Fault(), self._font[:2]
            code = _library.tfmset_check(*data, ctypes.byref(fault))
            if code == _FONT_REFUSED:
                code, text = _listed(ctypes.c_char, 64, "fault_text", *data)
                if code == _DONE:
                    raise FontRefused._from(fault, text)
        if code == _OUT_OF_MEMORY:
            raise MemoryError("an allocation of libtfmset failed")
        if code != _DONE:
            raise ValueError("an argument is out of range")

    def metrics(self, code: int) -> Optional[Metrics]:
        """Returns the dimensions and the tag of a character, or None if the font has no such character.

        `code` is from 0 to 255. Raises ValueError for any other number.

        >>> Font.from_file("examples/demo.tfm").metrics(ord("f")).width
        203161
        """
        found = self._characters[_number("code", code, 0, 255)]
        if not found.exists:
            return None
        recipe = Recipe(found.top, found.middle, found.bottom, found.repeated) if found.tag == 3 else None
        return Metrics(found.width, found.height, found.depth, found.italic, found.tag, found.remainder, recipe)

    @functools.cached_property
    def _characters(self) -> Any:
        return self._list(_Character, 256, "characters")

    @functools.cached_property
    def _actions(self) -> Dict[Tuple[int, int], Action]:
        return {(left, right): action for left, right, action in self.pairs()}

    def pair(self, left: int, right: int) -> Union[None, Kern, Ligature]:
        """Returns the kern or the ligature operation between two neighbours, or None if there is neither.

        `left` and `right` are codes from 0 to 255, or BOUNDARY. Raises ValueError for any other number.

        >>> font = Font.from_file("examples/demo.tfm")
        >>> font.pair(ord("o"), ord("x"))
        Kern(width=-16384)
        >>> font.pair(ord("f"), ord("i"))
        Ligature(code=12, keep_left=False, keep_right=False, passed=0)
        """
        return self._actions.get((_number("left", left, 0, BOUNDARY), _number("right", right, 0, BOUNDARY)))

    def pairs(self) -> List[Tuple[int, int, Action]]:
        """Returns all pairs of neighbours that have a kern or a ligature operation, each with its action.

        A neighbour is the code of a character of the font, or BOUNDARY. The pairs are sorted by the left
        neighbour, with the left boundary first, and then by the right one, with the right boundary last.

        >>> font = Font.from_file("examples/demo.tfm")
        >>> font.pairs()[1]
        (11, 256, Kern(width=19660))
        """
        return [(each.left, each.right, _action(each)) for each in self._list(_Pair, 4096, "pairs")]

    def _list(self, kind: Any, room: int, name: str) -> Any:
        """Returns the list that a function reports about the font. Raises what `_raise` raises."""
        code, found = _listed(kind, room, name, *self._font)
        self._raise(code)
        return found

    def _header_text(self, which: int) -> str:
        """Returns a text of the header, in which each byte is a character."""
        code, text = _listed(ctypes.c_char, 40, "header_text", *self._font[:2], which)
        self._raise(code)
        return str(text.decode("latin-1"))

    @property
    def coding_scheme(self) -> str:
        """The coding scheme in the header of the font; empty if the header has none.

        >>> Font.from_file("examples/demo.tfm").coding_scheme
        'DEMO TEXT'
        """
        return self._header_text(0)

    @property
    def family(self) -> str:
        """The family in the header of the font, such as "CMR"; empty if the header has none."""
        return self._header_text(1)

    def _options(self, limit: int, missing: str, crlf: bool, call_limit: Optional[int]) -> _Options:
        """Returns the options, as the functions that set lines and spans expect them."""
        policy = int(_skips(missing))
        if not isinstance(crlf, bool):
            raise TypeError(f"crlf is {crlf!r}, but must be True or False")
        limit = _number("limit", limit, 1, _LARGEST_LIMIT)
        steps = 0 if call_limit is None else _number("call_limit", call_limit, 1, 2**64 - 1)
        return _Options(steps, self._font[2], limit, policy, int(crlf))

    def _lines(self, text: Union[Text, str], options: _Options, encoding: Optional[Encoding],
               with_items: bool) -> Lines:
        """Returns the results of the lines of a text, with or without their items."""
        arguments, source = (*self._font[:2], ctypes.byref(options)), None
        if encoding is None:
            content = _bytes("text", text)
        else:
            # A carriage return has no codes in most encodings.
            text = str.replace(_string(text), "\r\n", "\n") if options.crlf else _string(text)
            stated = _stated(encoding)
            content, source = _encoded(text, stated, bool(options.policy))[0], _Source(text, stated)
            if text and not text.endswith("\n") and content[-1:] in (b"", b"\n"):
                content += b"\n"  # the last line, which has no codes
        function = _library.tfmset_set if with_items else _library.tfmset_widths
        # The text has at most this many lines. The number of items is an estimate.
        room = len(content) + len(content) // 8 + 16 if with_items else 0
        lines, items = (_Line * (content.count(b"\n") + 1))(), (Item * room)()
        blocks, counts = [(0, 0)], _Counts()
        for block in _blocks(content, options):
            (line, item), code = blocks[-1], _NO_ROOM
            while code == _NO_ROOM:
                arrays = [ctypes.byref(lines, line * ctypes.sizeof(_Line)), len(lines) - line]
                if with_items:
                    arrays += [ctypes.byref(items, item * ctypes.sizeof(Item)), len(items) - item]
                code = function(*arguments, block, len(block), *arrays, ctypes.byref(counts))
                if code == _NO_ROOM:
                    longer = (Item * (item + counts.items + room))()
                    ctypes.memmove(longer, items, item * ctypes.sizeof(Item))
                    items = longer
            self._raise(code)
            blocks.append((line + counts.lines, item + counts.items))
        return Lines(lines, items, blocks, source)

    @overload
    def set(self, text: Text, limit: int = 1_048_576, missing: str = "refuse", *, crlf: bool = False,
            call_limit: Optional[int] = None) -> Lines: ...

    @overload
    def set(self, text: str, limit: int = 1_048_576, missing: str = "refuse", *, encoding: Encoding,
            crlf: bool = False, call_limit: Optional[int] = None) -> Lines: ...

    def set(self, text: Union[Text, str], limit: int = 1_048_576, missing: str = "refuse", *,
            encoding: Optional[Encoding] = None, crlf: bool = False, call_limit: Optional[int] = None) -> Lines:
        """Sets the lines of a text and returns their results, with the items of each line.

        `text` is bytes, a bytearray or a memoryview, whose bytes are codes of the font. With `encoding` it is a
        str, and its codes are those that `encode(text, encoding, missing)` returns. An uncoded character
        raises EncodingError, or is left out with `missing="skip"`. Unlike in `records`, the codes before and
        after a soft hyphen or an uncoded character can have a kern or a ligature.

        - `limit`, from 1 to 16,777,216: a line that takes more steps is refused.
        - `missing`: whether a missing character refuses its line ("refuse") or is skipped, and is an item of
          kind SKIPPED ("skip"). A missing character is a byte that is neither a space nor a character of the
          font.
        - `encoding`: the encoding of the font, one of ENCODINGS or the bytes of an encoding vector.
        - `crlf`: whether one carriage return before a line feed belongs to the line ending. If it does, both
          count as one character in the `place` of an EncodingError.
        - `call_limit`, from 1 to 2^64 - 1, or None: once the lines have taken this many steps together, each
          further line is refused with the reason 'steps'. Set it for a font from an untrusted source. Ctrl-C
          doesn't interrupt a call with a `call_limit`.

        Raises ValueError for any other value of an argument, and TypeError for another type.

        >>> lines = Font.from_file("examples/demo.tfm").set(b"fox Q", missing="skip")
        >>> [(item.kind, item.code) for item in lines[0].items]
        [(0, 102), (0, 111), (1, 0), (0, 120), (2, 0), (3, 81)]
        >>> Font.from_file("examples/demo.tfm").set("fox\\nﬁg “”", encoding="ot1")[1]
        Refusal(reason='missing', place=3, code=92)
        """
        return self._lines(text, self._options(limit, missing, crlf, call_limit), encoding, True)

    @overload
    def widths(self, text: Text, limit: int = 1_048_576, missing: str = "refuse", *, crlf: bool = False,
               call_limit: Optional[int] = None) -> List[Union[int, Refusal]]: ...

    @overload
    def widths(self, text: str, limit: int = 1_048_576, missing: str = "refuse", *, encoding: Encoding,
               crlf: bool = False, call_limit: Optional[int] = None) -> List[Union[int, Refusal]]: ...

    def widths(self, text: Union[Text, str], limit: int = 1_048_576, missing: str = "refuse", *,
               encoding: Optional[Encoding] = None, crlf: bool = False,
               call_limit: Optional[int] = None) -> List[Union[int, Refusal]]:
        """Sets the lines of a text and returns the width of each line in sp, or a Refusal.

        The arguments and the exceptions are those of `set`.

        >>> Font.from_file("examples/demo.tfm").widths(b"box\\nBox")
        [1025637, Refusal(reason='missing', place=0, code=66)]
        """
        lines = self._lines(text, self._options(limit, missing, crlf, call_limit), encoding, False)
        # The lines are read as numbers, since making an object for each takes longer than setting it.
        numbers = struct.iter_unpack("qNNNIII0q", memoryview(lines._lines)[:len(lines)])
        return [_refusal(refusal, place, code, number, lines._source) if refusal else width
                for number, (width, _, _, place, _, refusal, code) in enumerate(numbers)]

    @overload
    def records(self, text: Text, limit: int = 1_048_576, missing: str = "refuse", *, version: int = 1,
                source: int = 1, first_line: int = 1, crlf: bool = False,
                call_limit: Optional[int] = None) -> bytes: ...

    @overload
    def records(self, text: str, limit: int = 1_048_576, missing: str = "refuse", *, version: int = 1,
                source: int = 1, first_line: int = 1, encoding: Encoding, crlf: bool = False,
                call_limit: Optional[int] = None) -> bytes: ...

    def records(self, text: Union[Text, str], limit: int = 1_048_576, missing: str = "refuse", *,
                version: int = 1, source: int = 1, first_line: int = 1, encoding: Optional[Encoding] = None,
                crlf: bool = False, call_limit: Optional[int] = None) -> bytes:
        """Sets the lines of a text and returns their records, as the program prints them.

        `version` is the record format: 1, 2, or 3 for JSON (`--record json` on the command line). `source`,
        from 0 to 2^64 - 1, is the number of the source in each record. `first_line` is the number of the
        first line; `first_line` plus the length of the text must be below 2^64. The result has neither an end
        line nor the line `records 2` of the program.

        With `encoding`, `text` is a str. Offsets and lengths in the records then count bytes of the line in
        UTF-8. An uncoded character refuses the line, as in `1:1 refused uncoded 3 U+20AC`, or is an item such
        as `u20AC` with `missing="skip"`. Only a lone surrogate, which UTF-8 doesn't have, raises
        EncodingError.

        The other arguments and the exceptions are those of `set`.

        >>> print(Font.from_file("examples/demo.tfm").records(b"ox", version=2).decode(), end="")
        1:1 set 665189 steps 3 c111=334233 k-16384 c120=347340
        >>> Font.from_file("examples/demo.tfm").records("ox €", missing="skip", encoding="t1")
        b'1:1 set 874904 c111=334233 k-16384 c120=347340 s209715 u20AC\\n'
        """
        options, count, parts = self._options(limit, missing, crlf, call_limit), _size_t(), []
        stated = _Stated("", b"") if encoding is None else _stated(encoding)
        content, name = _bytes("text", text) if encoding is None else _utf8(text, stated), stated.content
        version, source = _number("version", version, 1, 3), _number("source", source, 0, 2**64 - 1)
        form = _Form(source, _number("first_line", first_line, 0, 2**64 - 1 - len(content)), version)
        # For an estimate. A record in JSON is longer.
        byte, line = (24, 64) if version == 3 else (16, 32)
        for block in _blocks(content, options):
            feeds = block.count(b"\n")
            count.value, code = byte * len(block) + line * (feeds + 2), _NO_ROOM
            while code == _NO_ROOM:
                array = ctypes.create_string_buffer(count.value)
                code = _library.tfmset_records(*self._font[:2], ctypes.byref(options), name, len(name), block,
                                               len(block), ctypes.byref(form), array, len(array),
                                               ctypes.byref(count))
            self._raise(code)
            parts.append(_front(array, count.value))
            form.first += feeds
        return b"".join(parts)

    @functools.cached_property
    def _table(self) -> bytes:
        return bytes(self._list(ctypes.c_char, 4096, "prepare"))

    def prepare(self) -> bytes:
        """Returns the table of the font at its size, as tfmset_prepare of the C library writes it. It is for
        other programs: `spans` and `span_items` make it themselves at their first call."""
        return self._table

    @overload
    def spans(self, text: Text, spans: Sequence[Span], limit: int = 1_048_576, *,
              call_limit: Optional[int] = None) -> List[Union[int, Refusal]]: ...

    @overload
    def spans(self, text: str, spans: Sequence[Span], limit: int = 1_048_576, *,
              call_limit: Optional[int] = None, encoding: Encoding,
              missing: str = "refuse") -> List[Union[int, Refusal]]: ...

    def spans(self, text: Union[Text, str], spans: Sequence[Span], limit: int = 1_048_576, *,
              call_limit: Optional[int] = None, encoding: Optional[Encoding] = None,
              missing: str = "refuse") -> List[Union[int, Refusal]]:
        """Sets spans of a text and returns the width of each span in sp, or a Refusal.

        `text` is bytes, which are codes of the font. Each span is set as one run, such as a word or the part
        of a word before a hyphen. A missing character refuses its span. `limit` and `call_limit` apply to
        spans as to lines in `set`.

        With `encoding`, `text` is a str, and spans and places count its characters. The codes of the text are
        those of `encode(text, encoding, missing)`. The codes before and after a soft hyphen, and with
        `missing="skip"` those before and after an uncoded character, can have a kern or a ligature: to
        prevent it, let a span end there. A no-break space is the code 32. `hyphen` in a span is a code.

        Raises ValueError if a number is out of range, or for `missing="skip"` without an encoding. Raises
        TypeError for arguments of another type.

        >>> font = Font.from_file("examples/demo.tfm")
        >>> font.spans(b"an office", [Span(3, 6), Span(3, 2, hyphen=ord("-")), Span(5, 9)])
        [1468004, 753662, Refusal(reason='outside', place=0, code=0)]
        >>> font.spans("“¡an office", [Span(5, 6)], encoding="ot1")
        [1468004]
        """
        lines, _ = self._placed(text, spans, limit, call_limit, encoding, missing, False)
        return [_refusal(line.refusal, line.place, line.code, 0, None) if line.refusal else line.width
                for line in lines]

    @overload
    def span_items(self, text: Text, spans: Sequence[Span], limit: int = 1_048_576, *,
                   call_limit: Optional[int] = None) -> List[Union[SpanItems, Refusal]]: ...

    @overload
    def span_items(self, text: str, spans: Sequence[Span], limit: int = 1_048_576, *,
                   call_limit: Optional[int] = None, encoding: Encoding,
                   missing: str = "refuse") -> List[Union[SpanItems, Refusal]]: ...

    def span_items(self, text: Union[Text, str], spans: Sequence[Span], limit: int = 1_048_576, *,
                   call_limit: Optional[int] = None, encoding: Optional[Encoding] = None,
                   missing: str = "refuse") -> List[Union[SpanItems, Refusal]]:
        """Sets spans of a text as `spans` does, and returns the `SpanItems` of each span, or a Refusal. An
        item has the bytes, or in a str the characters, that it comes from.

        >>> found = Font.from_file("examples/demo.tfm").span_items(b"an office", [Span(3, 6)])[0]
        >>> [(item.code, item.offset, item.length) for item in found.items]
        [(111, 3, 1), (14, 4, 3), (99, 7, 1), (101, 8, 1)]
        """
        lines, items = self._placed(text, spans, limit, call_limit, encoding, missing, True)
        placed = [PlacedItem(item.kind, item.code, item.width, item.offset, item.length) for item in items]
        return [_refusal(line.refusal, line.place, line.code, 0, None) if line.refusal else
                SpanItems(line.width, line.steps, tuple(placed[line.first:line.first + line.count]))
                for line in lines]

    def _placed(self, text: Union[Text, str], spans: Sequence[Span], limit: int, call_limit: Optional[int],
                encoding: Optional[Encoding], missing: str, with_items: bool) -> Tuple[Any, Any]:
        """Returns the results of spans, and with `with_items` their items."""
        options, wanted = self._options(limit, "refuse", False, call_limit), list(map(_span, spans))
        if _skips(missing) and encoding is None:
            raise ValueError("missing is 'skip', but only an uncoded character of a str can be skipped")
        if encoding is None:
            return self._set_spans(_bytes("text", text), wanted, options, with_items)
        characters = _Characters(_string(text), _stated(encoding), _skips(missing))
        coded = list(map(characters.coded, wanted))
        lines, items = self._set_spans(characters.codes, coded, options, with_items)
        for line, span, codes in zip(lines, wanted, coded):
            characters.relocate(line, items[line.first:line.first + line.count], span, codes)
        return lines, items

    def _set_spans(self, content: bytes, spans: List[_Span], options: _Options,
                   with_items: bool) -> Tuple[Any, Any]:
        """Returns the results of spans of codes, and with `with_items` their items."""
        table, count, room = self._table, len(spans), len(content) + len(content) // 8 + 16
        lines, counts = (_Line * count)(), _Counts()
        arguments = (table, len(table), ctypes.byref(options), content, len(content), (_Span * count)(*spans),
                     count, lines, count)
        while with_items:
            items = (_Placed * room)()
            code = _library.tfmset_span_items(*arguments, items, room, ctypes.byref(counts))
            if code != _NO_ROOM:
                self._raise(code)
                return lines, items[:counts.items]
            room = counts.items
        self._raise(_library.tfmset_spans(*arguments, ctypes.byref(counts)))
        return lines, []

    def __repr__(self) -> str:
        return f"<Font of {len(self.data)} bytes at {self.size / POINT:g}pt>"
