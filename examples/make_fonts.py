#!/usr/bin/env python3
"""Writes the sample fonts of docs/TESTING.md, field by field, into the directory `fonts` next to this script.

usage: examples/make_fonts.py [DIRECTORY]   another directory for them

It needs only Python 3 and writes the same bytes each time. checks/pages.py compares these bytes with the
fonts that the tests build.
"""
import struct
import sys
from pathlib import Path

# Widths: entry 0, which belongs to no character, then a half, a quarter and three quarters of the size.
WIDTHS = [0, 0x080000, 0x040000, 0x0C0000]
# Kerns: minus a sixteenth of the size, and plus a thirty-second of it.
KERNS = [-0x10000, 0x8000]
# Parameters: the slant, and the space, a third of the size.
PARAMETERS = [0, 0x055555]
POINT = 0x100000

# Codes of characters, and the code of the right boundary, which has no character.
A, B, C, END = 97, 98, 99, 124
# Skip bytes: go on with the next instruction, end the search, restart elsewhere, and the mark of a boundary.
NEXT, LAST, ELSEWHERE, BOUNDARY = 0, 128, 200, 255
# The op byte of a kern.
KERN = 128
# The ligature operations that the format lists, and some codes that it doesn't list.
LISTED, UNLISTED = (0, 1, 2, 3, 5, 6, 7, 11), (4, 8, 9, 10, 12, 127)


def make(infos=(), widths=(0,), program=(), kerns=(), params=(), first=A, points=10, exten=(), header=b"",
         heights=(0,), depths=(0,), italics=(0,), check_sum=b"\0\0\0\0"):
    """Returns the bytes of a TFM file: counts, header and tables. A char_info word, an instruction and a recipe
    are four bytes each. The other tables have fix_words, and `header` is what follows the design size."""
    widths, heights, depths, italics, kerns, params = (
        struct.pack(f">{len(table)}i", *table) for table in (widths, heights, depths, italics, kerns, params))
    infos, program, exten = (b"".join(map(bytes, table)) for table in (infos, program, exten))
    tables = [check_sum + struct.pack(">i", points * POINT) + header, infos, widths, heights, depths, italics,
              program, kerns, exten, params]
    lh, characters, *lengths = (len(table) // 4 for table in tables)
    lf = 6 + sum(map(len, tables)) // 4
    return struct.pack(">12H", lf, lh, first, first + characters - 1, *lengths) + b"".join(tables)


def font(starts=(None, None, None), program=(), kerns=(), params=PARAMETERS):
    """Returns a font with the characters a, b and c, which have the widths 1, 2 and 3 of the table. `starts` has
    the starting address of each, or None if it has none."""
    infos = [(1 + i, 0, 0 if start is None else 1, start or 0) for i, start in enumerate(starts)]
    return make(infos, WIDTHS, program, kerns, params)


def empty(program=(), kerns=()):
    """Returns a font without characters; its design size is 5 points."""
    return make(program=program, kerns=kerns, first=1, points=5)


def ligature(op):
    """Returns a font in which a and b make the ligature c by this operation; a c and c b have kerns."""
    program = [(NEXT, B, op, C), (LAST, C, KERN, 0), (LAST, B, KERN, 1)]
    return font(starts=(0, None, 2), program=program, kerns=KERNS)


def endless(op):
    """Returns a font in which two neighbours a make the ligature a by this operation."""
    return font(starts=(0, None, None), program=[(LAST, A, op, A)])


def largest():
    """Returns a font with the largest number of words. The left boundary has a kern before the right one."""
    program = [(BOUNDARY, 65, 0, 1)] + [(NEXT, 65, KERN, 0)] * 32752 + [(BOUNDARY, 0, 0, 1)]
    return empty(program, [0x10000])


FONTS = {
    "no_characters": empty(),
    "plain": font(),
    "without_space": font(params=[0]),
    # After a, the boundary becomes b; after b, there is a kern before the boundary; a b has another kern.
    "right_boundary": font(starts=(1, 3, None), program=[
        (BOUNDARY, END, 0, 0), (NEXT, END, 2, B), (LAST, B, KERN, 0), (LAST, END, KERN, 1)], kerns=KERNS),
    # The code of the right boundary is that of the character b.
    "boundary_exists": font(starts=(1, None, None), program=[(BOUNDARY, B, 0, 0), (LAST, B, KERN, 0)], kerns=KERNS[:1]),
    # The left boundary's instructions: a kern before a, and the ligature c between the boundary and b.
    "left_boundary": font(program=[(NEXT, A, KERN, 0), (LAST, B, 3, C), (BOUNDARY, 0, 0, 0)], kerns=KERNS[:1]),
    # The indirect start of a leads to an instruction that is itself a restart.
    "indirect": font(starts=(0, None, None), program=[(ELSEWHERE, 0, 0, 1), (ELSEWHERE, B, 0, 0)]),
    **{f"ligature_{op}": ligature(op) for op in LISTED + UNLISTED},
    **{f"endless_{op}": endless(op) for op in LISTED},
    "largest": largest(),
}


def main():
    directory = Path(sys.argv[1]) if len(sys.argv) > 1 else Path(__file__).parent / "fonts"
    directory.mkdir(parents=True, exist_ok=True)
    for name, content in FONTS.items():
        (directory / f"{name}.tfm").write_bytes(content)


if __name__ == "__main__":
    main()
