"""The Python module: its arguments, the version of the library, the memory of the items, and links to the module.

The arguments are subclasses of bytes and str, numbers, and sizes with a unit. Threads run during a call. Names that
Python 3.8 lacks aren't used.
"""
import ast
import glob
import os
import shutil
import sys

from lib.base import DEMO, environment, execute, read, rows
from lib.clib import FUNCTIONS, PACKAGE, LibraryCase
from lib.tfm import path_of

# Names of the standard library that Python 3.8 lacks.
NEWER = {"cache", "removeprefix", "removesuffix", "bit_count", "is_relative_to", "with_stem", "add_note"}
# Each row: a title, a program, and its output.
PROGRAMS = (
    ("A subclass of bytes that reports another length counts as its memory", """
class Long(bytes):
    __len__ = count = lambda *_: 1 << 40
font = tfmset.Font(Long(data))
print(len(font.data), font.widths(Long(b"ox")), len(font.set(Long(b"ox\\nox"))), font.records(Long(b"o")))
""", "{bytes} [665189] 2 b'1:1 set 334233 c111=334233\\n'\n"),
    ("A number is asked for its value once", """
class Number:
    numbers = iter((655360, (1 << 32) + 5))
    def __index__(self):
        return next(self.numbers)
print(tfmset.Font(data, Number()).size)
""", "655360\n"),
    ("A bool isn't a number", """
for call in (lambda: tfmset.Font(data, True), lambda: tfmset.Font(data, 12.0), lambda: font.metrics(True),
             lambda: font.metrics("b"), lambda: font.set(b"", limit=True)):
    try:
        print("accepted", call())
    except TypeError as error:
        print(error)
""", "size is True, but must be an integer, in sp, or a str with a unit, such as '10pt'\n"
     "size is 12.0, but must be an integer, in sp, or a str with a unit, such as '10pt'\n"
     "code is True, but must be an integer, such as ord('a')\ncode is 'b', but must be an integer, such as ord('a')\n"
     "limit is True, but must be an integer\n"),
    ("A size in a str has a unit", """
for size in "12pt", "10.95pt", "10,95 pt", "12bp", "4mm", "655360sp", ".5in", "0.00000762939453125pt", "2047.00000762939453124pt":
    print(tfmset.Font(data, size).size, end=" ")
for size in "", "0pt", "12", "+12", "12PT", "-1pt", "2048pt", "1em", "1e1pt", "12\\u00a0pt", "12pt\\0":
    try:
        print(tfmset.Font(data, size).size, end=" ")
    except ValueError as error:
        print(str(error).split(",")[0], end="; ")
print()
""", "786432 717619 717619 789381 745871 655360 2368143 1 134152192 size is ''; size is '0pt'; size is '12'; size is '+12'; size is '12PT'; "
     "size is '-1pt'; size is '2048pt'; size is '1em'; size is '1e1pt'; size is '12\\xa0pt'; "
     "size is '12pt\\x00'; \n"),
    ("The place in a refusal of a str is the index of a character", """
print(font.set("fox\\nﬁg Q", encoding="t1")[1], font.widths("\\ufeffo\\xadﬁ¡Q", encoding="ot1"))
print(font.set("\\xadoffice", 1, encoding="t1")[0])
""", "Refusal(reason='missing', place=3, code=81) [Refusal(reason='missing', place=4, code=33)]\n"
     "Refusal(reason='steps', place=0, code=0)\n"),
    ("Carriage returns, and a limit for all lines of a call", """
text = b"ox\\r\\no\\r\\r\\nox\\r"
print(font.widths(text, crlf=True), font.set(text, missing="skip", crlf=True)[0] == font.set(b"ox")[0])
print(font.widths("ox\\r\\nox¡", encoding="t1", crlf=True), font.records(b"o\\r\\n", crlf=True))
print(font.widths(b"ox\\nox\\nox", call_limit=3), font.records("ox\\nox", encoding="t1", call_limit=1))
print(len(font.set(b"ox\\n" * 9999, call_limit=2**64 - 1)), font.widths(b"ox", 5, call_limit=1))
""", "[665189, Refusal(reason='missing', place=1, code=13), Refusal(reason='missing', place=2, code=13)] True\n"
     "[665189, Refusal(reason='missing', place=2, code=189)] b'1:1 set 334233 c111=334233\\n'\n"
     "[665189, Refusal(reason='steps', place=0, code=0), Refusal(reason='steps', place=0, code=0)] "
     "b'1:1 set 665189 c111=334233 k-16384 c120=347340\\n1:2 refused steps 0\\n'\n9999 [665189]\n"),
    ("Spans have the widths of words, and their items have their bytes", """
text = b"an office, an ox"
spans = [tfmset.Span(3, 6), (3, 2, True, True, 45), tfmset.Span(14, 2, left=False, right=False), (14, 2, True, True, 81),
         (14, 3), (0, 0)]
print([found if type(found) is int else tuple(found) for found in font.spans(text, spans)])
print(font.widths(b"office\\nof-\\nox"))
found = font.span_items(text, spans)
print([(item.kind, item.code, item.offset, item.length) for item in found[0].items + found[2].items], tuple(found[3]))
print(found[0].width, found[0].steps, [tuple(each) for each in font.spans(text, [(14, 2), (14, 2)], call_limit=3)[1:]])
print(font.spans(text, spans * 5000)[:6] == font.spans(text, spans), len(font.span_items(text, spans * 5000)))
print(len(font.prepare()), font.spans(b"", []), font.span_items(b"", []))
""", "[1468004, 753662, 665189, ('missing', 16, 81), ('outside', 0, 0), 0]\n[1468004, 753662, 665189]\n"
     "[(0, 111, 3, 1), (0, 14, 4, 3), (0, 99, 7, 1), (0, 101, 8, 1), (0, 111, 14, 1), (1, 0, 15, 0), (0, 120, 15, 1)] "
     "('missing', 16, 81)\n1468004 7 [('steps', 0, 0)]\nTrue 30000\n2168 [] []\n"),
    ("Spans of a str count its characters", """
text = "\ufeff“ﬃce”€ of\xadﬁ a\xa0o"
for span in (2, 3), (2, 1), (8, 4), (12, 3), (1, 2), (8, 2, True, True, 81), (13, 3), (10, 1), (15, 2):
    found = font.span_items(text, [span], encoding="ot1", missing="skip")[0]
    print([each[1:2] + each[3:] for each in found.items] if isinstance(found, tfmset.SpanItems) else tuple(found), end=" ")
print(font.spans("office", [(0, 6), (3, 3)], encoding="t1"), font.widths(b"office\\nice"))
for call in (lambda: font.spans(text, [], encoding="ot1"), lambda: font.spans(b"", [], missing="skip"),
             lambda: font.spans(b"", [], encoding="t1"), lambda: font.spans(text, [], encoding="no")):
    try:
        print("accepted", call())
    except (TypeError, ValueError) as error:
        print(error)
""", "[(14, 2, 1), (99, 3, 1), (101, 4, 1)] [(14, 2, 1)] [(111, 8, 1), (14, 9, 3)] ('missing', 12, 32) ('missing', 1, 92) "
     "('missing', 10, 81) ('missing', 14, 32) [] ('outside', 0, 0) [1468004, 766769] [1468004, 766769]\n"
     "no code in ot1 for U+20AC at index 6\nmissing is 'skip', but only an uncoded character of a str can be skipped\n"
     "text must be a str, since an encoding is given\nencoding is 'no', but must be one of 'ot1', 't1', 'ly1', 'latin1', or the bytes of an encoding vector (a file .enc)\n"),
    ("The lines of a str end at line feeds only, whatever characters they have", """
for name in tfmset.ENCODINGS:
    lines, wanted = [], []
    for character in map(chr, (*range(0x2800), *range(0xFB00, 0xFB07))):
        try:
            codes = tfmset.encode(character, name)
        except tfmset.EncodingError:
            continue
        missing = [code for code in codes if code != 32 and not font.metrics(code)]
        if character != "\\n":
            lines += "o" + character + "Q", character
            wanted.append(tfmset.Refusal("missing", 1 if missing else 2, [*missing, 81][0]))
            wanted.append(tfmset.Refusal("missing", 0, missing[0]) if missing else "set")
    text = "\\n".join(lines)
    for found in font.set(text, encoding=name), font.widths(text, encoding=name):
        refused = [line if isinstance(line, tfmset.Refusal) else "set" for line in found]
        print(name, min(len(lines), 240), refused == wanted)
""", "".join(f"{name} 240 True\n" * 2 for name in ("ot1", "t1", "ly1", "latin1"))),
    ("Characters without codes are left out on demand", """
text = "o€x\\n" + "€" * 40 + "\\nß\ufeff"
print(tfmset.encode(text, "t1", missing="skip"), tfmset.encode("€", "ly1", "skip"))
print(font.widths(text, encoding="t1", missing="skip"), [len(line.items) for line in font.set(text, encoding="t1", missing="skip")])
print(font.widths("\ufeffoß\xado\\n“¡oQ", encoding="ot1"))
for text in "", "o\\n", "€", "\ufeff", "o\\n€", "o\\n\xad", "€\\n":
    print(len(font.set(text, encoding="t1", missing="skip")), font.records(text, encoding="t1", missing="skip").count(b"\\n"), end=" ")
""", "b'ox\\n\\n\\xff' b'\\x01'\n[665189, 0, 0] [3, 0, 1]\n"
     "[Refusal(reason='missing', place=2, code=25), Refusal(reason='missing', place=0, code=92)]\n0 0 1 1 1 1 1 1 2 2 2 2 1 1 "),
    ("A subclass of str counts as the characters that it has", """
class Text(str):
    encode = lambda *_: b"\\xff"
    split = lambda *_: []
    replace = lambda *_: Text("9pt")
print(tfmset.Font(data, Text("1 2pt")).size, tfmset.encode("ß", Text("t1")), font.records("oß", encoding=Text("t1")))
print(tfmset.encode(Text("oß"), "t1"), font.widths(Text("ox\\nß"), encoding="t1"))
print(font.records(Text("oß"), encoding="t1"))
""", "786432 b'\\xff' b'1:1 refused missing 1 255\\n'\n"
     "b'o\\xff' [665189, Refusal(reason='missing', place=0, code=255)]\n"
     "b'1:1 refused missing 1 255\\n'\n"),
    ("Writing to the items of a line changes no line, and writing to those of all lines changes the lines", """
lines = font.set(b"ox\\nox")
line = lines[0]
for items in line.items, lines.items:
    items[0] = tfmset.Item(0, 111, 7)
    print(*(each[0].width for each in (line.items, lines[0].items, lines[1].items, lines.items)))
""", "334233 334233 334233 334233\n334233 7 334233 7\n"),
    ("Slices of lines, and the texts of objects", """
lines = font.set(b"o\\nox\\nQ\\n\\nox")
print([getattr(line, "width", None) for line in lines[::-2]], [line.width for line in lines[-2:9]], lines[3:1])
print(font, tfmset.Font(data, "10.95pt"), lines, *lines, lines[1].items[1], font.pair(111, 120), font.metrics(111).width, sep="\\n")
""", "[665189, None, 334233] [0, 665189] []\n<Font of {bytes} bytes at 10pt>\n"
     "<Font of {bytes} bytes at 10.95pt>\n<Lines: 5>\n<Line of width 334233, 1 items>\n"
     "<Line of width 665189, 3 items>\nRefusal(reason='missing', place=0, code=81)\n<Line of width 0, 0 items>\n"
     "<Line of width 665189, 3 items>\nItem(kind=1, code=0, width=-16384)\nKern(width=-16384)\n334233\n"),
    ("The texts of exceptions", """
for call in (lambda: tfmset.Font(data, 0), lambda: tfmset.Font(data, 1 << 27), lambda: tfmset.Font(data, "1em"),
             lambda: tfmset.Font("x.tfm"), lambda: font.metrics(256), lambda: font.metrics(-1), lambda: font.pair(257, 1),
             lambda: font.pair(1, 257), lambda: font.set(b"", 0), lambda: font.set(b"", 16777217),
             lambda: font.set("x"), lambda: font.set(b"", missing="drop"), lambda: font.set(b"x", encoding="t1"),
             lambda: font.set("x", encoding="Ot1"), lambda: font.set("x", encoding=1), lambda: font.set("x", encoding=b"t1"),
             lambda: font.records(b"", version=4), lambda: font.records(b"", source=-1),
             lambda: font.records(b"abc", first_line=1 << 64), lambda: font.set(b"x")[1],
             lambda: font.spans("ox", []), lambda: font.spans(b"ox", [(0, -1)]), lambda: font.spans(b"", [], 0),
             lambda: font.span_items(b"ox", [(0, 1, True, True, 256)]), lambda: font.set(b"", call_limit=0),
             lambda: tfmset.encode("5 €", "t1"), lambda: tfmset.encode("a\\ud800", "ot1"), lambda: tfmset.encode("naïve", "ot1"), lambda: tfmset.encode("\\U0001f600", "t1"),
             lambda: tfmset.encode("ab", b"/V[" + b"/a" * 256 + b"]def"),
             lambda: tfmset.Font(data[:9])):
    try:
        print("accepted", call())
    except (IndexError, TypeError, ValueError) as error:
        print(type(error).__name__ + ":", error)
""", """ValueError: size is 0, but must be from 1 to 134,217,727
ValueError: size is 134217728, but must be from 1 to 134,217,727
ValueError: size is '1em', but must be a number with a unit, such as '10pt' or '4mm', from 1 to 134,217,727 sp
TypeError: data must be the bytes of a TFM file: Font.from_file reads a file
ValueError: code is 256, but must be from 0 to 255
ValueError: code is -1, but must be from 0 to 255
ValueError: left is 257, but must be from 0 to 256
ValueError: right is 257, but must be from 0 to 256
ValueError: limit is 0, but must be from 1 to 16,777,216
ValueError: limit is 16777217, but must be from 1 to 16,777,216
TypeError: text must be bytes: a str needs the encoding of the font, as encoding='t1'
ValueError: missing is 'drop', but must be 'refuse' or 'skip'
TypeError: text must be a str, since an encoding is given
ValueError: encoding is 'Ot1', but must be one of 'ot1', 't1', 'ly1', 'latin1', or the bytes of an encoding vector (a file .enc)
TypeError: encoding must be a str, or the bytes of an encoding vector
ValueError: encoding is bytes, but not those of an encoding vector (a file .enc); a name is a str: one of 'ot1', 't1', 'ly1', 'latin1'
ValueError: version is 4, but must be from 1 to 3
ValueError: source is -1, but must be from 0 to 18,446,744,073,709,551,615
ValueError: first_line is 18446744073709551616, but must be from 0 to 18,446,744,073,709,551,612
IndexError: line index out of range
TypeError: text must be bytes: a str needs the encoding of the font, as encoding='t1'
ValueError: length is -1, but must be from 0 to 18,446,744,073,709,551,615
ValueError: limit is 0, but must be from 1 to 16,777,216
ValueError: hyphen is 256, but must be from 0 to 255
ValueError: call_limit is 0, but must be from 1 to 18,446,744,073,709,551,615
EncodingError: no code in t1 for U+20AC at index 2
EncodingError: no code in ot1 for U+D800 at index 1
EncodingError: no code in ot1 for U+00EF at index 2
EncodingError: no code in t1 for U+1F600 at index 0
EncodingError: no code in vector for U+0062 at index 1
FontRefused: 1 truncated, 24 bytes needed
"""),
    ("Items stay after their lines are gone", """
import gc
def kept(part):
    part = part(font.set(b"ox\\n" * 99999))
    gc.collect()
    return part, font.set(b"xo\\n" * 99999)
line, _ = kept(lambda lines: lines[999])
items, _ = kept(lambda lines: lines[999].items)
every, _ = kept(lambda lines: lines.items)
item, _ = kept(lambda lines: lines.items[-2])
each, _ = kept(lambda lines: lines[999].items[1])
parts, _ = kept(lambda lines: lines[-1:])
print([item.width for item in line.items], [item.width for item in items], [item.width for item in every[-3:]],
      item.width, each.width, [item.width for item in parts[0].items])
""", "[334233, -16384, 347340] [334233, -16384, 347340] [334233, -16384, 347340] -16384 -16384 [334233, -16384, 347340]\n"),
    ("The kinds of objects", """
import collections.abc, pickle
lines = font.set(b"ox\\nQ\\nQ")
line, refusal, kern, ligature, metrics = *lines[:2], font.pair(111, 120), font.pair(102, 105), font.metrics(102)
for part, name in (line, "packed"), (refusal, "place"), (kern, "width"), (ligature, "code"), (metrics, "tag"), \\
        (font, "size"), (line.items[0], "kind"), (lines, "items"), (line, "wdith"), (font, "wdith"):
    for change in (lambda: setattr(part, name, 5)), (lambda: delattr(part, name)):
        try:
            change()
            print("accepted", part, name)
        except AttributeError:
            print(type(part).__name__, end=" ")
print(*map(tuple, (refusal, kern, ligature)), len(metrics), len({refusal, lines[2], kern}))
print(isinstance(lines, collections.abc.Sequence), lines.index(refusal), lines.count(refusal), refusal in lines, len(list(reversed(lines))))
print([pickle.loads(pickle.dumps(part)) == part for part in (line, refusal, kern, ligature, metrics, font)])
""", "Line Line Refusal Refusal Kern Kern Ligature Ligature Metrics Metrics Font Font Item Item Lines Lines Line Line Font Font "
     "('missing', 0, 81) (-16384,) (12, False, False, 0) 7 2\n"
     "True 1 2 True 3\n[True, True, True, True, True, True]\n"),
    ("Objects with equal values are equal, and have one hash", """
def objects(size=None, text=b"ox\\nox\\nof\\nQ"):
    font = tfmset.Font(data, size)
    lines = font.set(text)
    return lines, [*lines, font, *lines.items, font.metrics(111), *font.pairs()]
(lines, first), (others, second) = objects(), objects(10 * tfmset.POINT)
print(lines == others, first == second, [*map(hash, first)] == [*map(hash, second)], lines == objects(text=b"ox\\nox")[0])
one, two, three, refusal, font, item, kern, *_ = first
print(one == two, one == three, len({one, two, three, refusal}), item == kern, font == objects("12pt")[1][4], font == data)
""", "True True True False\nTrue False 3 False False False\n"),
    ("A call for many lines can be interrupted", """
import signal
endless = tfmset.Font.from_file({endless!r})
signal.signal(signal.SIGALRM, signal.default_int_handler)
for call in (lambda text: endless.set(text, 999), lambda text: endless.widths(text, 999),
             lambda text: endless.records(text, 999), lambda text: endless.widths(text.decode(), 999, encoding="t1")):
    signal.setitimer(signal.ITIMER_REAL, 0.3)
    try:
        print("finished", len(call(b"aa\\n" * 1_000_000)))
    except KeyboardInterrupt:
        print("interrupted")
""", "interrupted\n" * 4),
    ("A CR at the end of a line is a character of it", """
for text in "o\\r\\nox\\r", "\\r\\n", "ox\\n\\r":
    print(font.records(text, encoding="t1"), font.records(text.encode()), font.records(text, encoding="latin1"))
    print(font.widths(text.encode()), font.widths(text, encoding="latin1"), [line.place for line in font.set(text.encode())
          if isinstance(line, tfmset.Refusal)], tfmset.encode(text, "latin1"))
""", """b'1:1 refused uncoded 1 U+000D\\n1:2 refused uncoded 2 U+000D\\n' \
b'1:1 refused missing 1 13\\n1:2 refused missing 2 13\\n' \
b'1:1 refused missing 1 13\\n1:2 refused missing 2 13\\n'
[Refusal(reason='missing', place=1, code=13), Refusal(reason='missing', place=2, code=13)] \
[Refusal(reason='missing', place=1, code=13), Refusal(reason='missing', place=2, code=13)] [1, 2] b'o\\r\\nox\\r'
b'1:1 refused uncoded 0 U+000D\\n' b'1:1 refused missing 0 13\\n' b'1:1 refused missing 0 13\\n'
[Refusal(reason='missing', place=0, code=13)] [Refusal(reason='missing', place=0, code=13)] [0] b'\\r\\n'
b'1:1 set 665189 c111=334233 k-16384 c120=347340\\n1:2 refused uncoded 0 U+000D\\n' \
b'1:1 set 665189 c111=334233 k-16384 c120=347340\\n1:2 refused missing 0 13\\n' \
b'1:1 set 665189 c111=334233 k-16384 c120=347340\\n1:2 refused missing 0 13\\n'
[665189, Refusal(reason='missing', place=0, code=13)] [665189, Refusal(reason='missing', place=0, code=13)] [0] b'ox\\n\\r'
"""),
    ("Buffers of all kinds count as their bytes", """
import array, ctypes
text = b"ox\\nfox\\nwave of"
wide = array.array("I", (111, 120))
views = [bytearray(text), memoryview(text), memoryview(b"".join(bytes((one, 0)) for one in text))[::2],
         memoryview(text[::-1])[::-1], memoryview(text).cast("B", (2, 7)), memoryview(bytearray(text)).toreadonly(),
         memoryview(array.array("H", text)), memoryview((ctypes.c_char * len(text))(*text))]
print([font.records(view) == font.records(text) for view in views])
print(font.records(memoryview(wide)[:1], missing="skip"), tfmset.Font(memoryview(data[::-1])[::-1]).data == data)
changed = bytearray(data)
other = tfmset.Font(changed)
changed[:] = b"\\0" * len(data)
print(other.widths(b"ox"), other.data == data)
""", "[True, True, True, True, True, True, True, True]\n"
     "b'1:1 set 334233 c111=334233 m0 m0 m0\\n' True\n[665189] True\n"),
    ("Other threads run during a call", """
import threading, time
ticks, ended, during = [0], [], []
def tick():
    while not ended:
        time.sleep(0.001)
        ticks[0] += 1
class Library:
    def __getattr__(self, name):
        def call(*arguments):
            before, code = ticks[0], getattr(library, name)(*arguments)
            during.append(ticks[0] - before)
            return code
        return call
library, tfmset._library = tfmset._library, Library()
thread = threading.Thread(target=tick)
thread.start()
print(len(font.widths(b"office waves of ox\\n" * 500000)))
ended.append(True)
thread.join()
print(sum(during) > 9)
""", "500000\nTrue\n"),
    ("The defaults of the arguments", """
import inspect
for method in tfmset.Font.set, tfmset.Font.records, tfmset.Font.span_items:
    print(*(f"{each.name}={each.default}" for each in inspect.signature(method).parameters.values() if each.default != each.empty))
""", "limit=1048576 missing=refuse encoding=None crlf=False call_limit=None\n"
     "limit=1048576 missing=refuse version=1 source=1 first_line=1 encoding=None crlf=False call_limit=None\n"
     "limit=1048576 call_limit=None encoding=None missing=refuse\n"),
    ("An allocation that fails in each method", """
class Library:
    def __getattr__(self, name):
        return lambda *_: 2
tfmset._library = Library()
for call in (lambda: font.metrics(97), lambda: font.pair(97, 98), font.pairs, lambda: font.family, lambda: font.set(b"ox"),
             lambda: font.widths(b"ox"), lambda: font.records(b"ox"), lambda: font.records("ox", encoding="t1")):
    try:
        print("accepted", call())
    except MemoryError as error:
        print(error)
""", "an allocation of libtfmset failed\n" * 8),
    ("An allocation that fails when the error of a font is read", """
class Library:
    tfmset_font, tfmset_check = lambda *_: 1, lambda *_: 2
tfmset._library = Library()
try:
    tfmset.Font(data)
except MemoryError as error:
    print(error)
""", "an allocation of libtfmset failed\n"),
)


class Module(LibraryCase):
    """Arguments and results"""

    @rows((title, program, wanted) for title, program, wanted in PROGRAMS)
    def test_program(self, program, wanted):
        # A warning is printed as an error. With these allocators, memory that is freed is overwritten.
        head = f"import tfmset\nfont = tfmset.Font.from_file({DEMO!r})\ndata = font.data\n"
        program = head + program.replace("{endless!r}", repr(path_of("endless_3")))
        seen = execute(sys.executable, "-W", "error", "-c", program, env={**self.env, "PYTHONMALLOC": "debug"})
        self.same("output", (0, wanted.replace("{bytes}", str(len(read(DEMO, "rb")))), ""), seen)


class Version(LibraryCase):
    """The version of the library"""

    names = FUNCTIONS

    def imported(self, number):
        """Imports the module with a library that has this version, and returns what Python prints."""
        functions = "".join(f"unsigned tfmset_{name}(void) {{ return 4; }}\n" for name in self.names)
        source = self.file(f"v{number}.c", functions + f"unsigned tfmset_version(void) {{ return {number}u; }}\n")
        path = source + ".so"
        self.same("compiled", 0, execute("cc", "-shared", "-fPIC", "-o", path, source)[0])
        status, out, err = execute(sys.executable, "-c", "import tfmset; print(tfmset.version())",
                                   env={**self.env, "TFMSET_LIBRARY": path})
        return status, out or err.splitlines()[-1].replace(path, "PATH")

    def test_a_library_of_another_version_is_not_loaded(self):
        for number, name in ((1000, "0.1.0"), (1_002_000, "1.2.0"), (0, "0.0.0")):
            wanted = f"ImportError: PATH has version {name}, but the module has 0.2.0"
            self.same(name, (1, wanted), self.imported(number))
        self.same("0.2.907", (0, "(0, 2, 907)\n"), self.imported(2907))


class Links(LibraryCase):
    """Symbolic links to the module, and versions of Python"""

    def test_links(self):
        """The module is found through links, and finds the library of the prefix in which the link is."""
        own, packages = self.room + "/own", "lib/python3.8/site-packages"
        shutil.copytree(PACKAGE, f"{own}/target/tfmset")
        places = {"a copy": "copied", "a link to the package": "linked", "a link to the directory": "directory",
                  "a link to the prefix": "prefix"}
        for name in ("copied", "linked"):
            os.makedirs(f"{own}/{name}/{packages}")
        shutil.copytree(f"{own}/target/tfmset", f"{own}/copied/{packages}/tfmset")
        os.symlink(f"{own}/target/tfmset", f"{own}/linked/{packages}/tfmset")
        os.makedirs(os.path.dirname(f"{own}/directory/{packages}"))
        os.symlink(f"{own}/target", f"{own}/directory/{packages}")
        os.symlink(f"{own}/copied", f"{own}/prefix")
        program = "import os, sys; sys.path.insert(0, {!r}); import tfmset; os.chdir('/'); print(tfmset._library._name)"
        for title, name in places.items():
            library = f"{own}/{name}/lib/libtfmset.so.0"
            if not os.path.exists(library):
                shutil.copy(self.lib + "/libtfmset.so.0", library)
            for path in (f"{own}/{name}/{packages}", f"own/{name}/{packages}"):
                seen = execute(sys.executable, "-B", "-c", program.format(path), env=environment(), cwd=self.room)
                self.same(f"{title}, {path}", (0, library + "\n", ""), seen)

    def test_python_of_version_3_8(self):
        """The module uses no syntax and none of the names that Python 3.8 lacks, and its annotations aren't evaluated."""
        for path in glob.glob(PACKAGE + "/*.py"):
            text = read(path)
            tree = ast.parse(text, feature_version=(3, 8))
            names = {getattr(node, "attr", getattr(node, "name", None)) for node in ast.walk(tree)}
            self.same(f"{path}: names of later versions", set(), names & NEWER)
            self.assertIn("from __future__ import annotations\n", text)
