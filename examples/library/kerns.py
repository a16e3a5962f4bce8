#!/usr/bin/env python3
"""Prints a table of the kerns of a font, in points.

usage: kerns.py FONT

Each row begins with a left character, and lists each right character with a kern between the two. A character
that isn't visible ASCII is printed by its code, and a boundary as `|`. The script needs the module tfmset
(docs/LIBRARY.md).
"""
import itertools
import sys

import tfmset


def name(code):
    if code == tfmset.BOUNDARY:
        return "|"
    return chr(code) if 33 <= code <= 126 else str(code)


def main():
    font = tfmset.Font.from_file(sys.argv[1])
    for left, pairs in itertools.groupby(font.pairs(), lambda pair: pair[0]):
        row = [f"{name(right)} {action.width / tfmset.POINT:+.3f}" for _, right, action in pairs
               if isinstance(action, tfmset.Kern)]
        if row:
            print(f"{name(left):>4}  " + "  ".join(row))


main()
