#!/usr/bin/env python3
"""Writes demo.tfm, a small font of this repository, into the directory of this script.

The dimensions are invented and resemble those of a text face at 10 points. The font has no glyph drawings: a
TFM file contains dimensions only, and tfmset reads nothing else.

The script takes no arguments and needs only Python 3 and make_fonts.py, whose function `make` knows the layout of the
file. It writes the same bytes each time. After a change, check the font with `./tfmset check --strict examples/demo.tfm`.
"""

from pathlib import Path

from make_fonts import make

# The codes of characters other than letters. The three ligatures have the codes that they have in cmr10.
FF, FI, FFI = 11, 12, 14
HYPHEN, PERIOD = ord("-"), ord(".")
# The code of the right boundary in the lig/kern program below. The font has no character with this code.
RIGHT_BOUNDARY = 124

# Heights above the baseline and depths below it, in thousandths of the design size.
DOT, X, TEE, DOTTED, TALL = 110, 440, 620, 660, 700
FLAT, TAIL = 0, 200

# code: (width, height, depth, italic correction), in thousandths of the design size.
# The hook of an f extends beyond its width; the italic correction is the length of this overhang.
CHARACTERS = {
    FF: (585, TALL, FLAT, 70),
    FI: (560, TALL, FLAT, 0),
    FFI: (840, TALL, FLAT, 0),
    HYPHEN: (330, 250, FLAT, 0),
    PERIOD: (275, DOT, FLAT, 0),
    ord("a"): (490, X, FLAT, 0),
    ord("b"): (550, TALL, FLAT, 0),
    ord("c"): (440, X, FLAT, 0),
    ord("d"): (550, TALL, FLAT, 0),
    ord("e"): (450, X, FLAT, 0),
    ord("f"): (310, TALL, FLAT, 70),
    ord("g"): (500, X, TAIL, 15),
    ord("h"): (560, TALL, FLAT, 0),
    ord("i"): (280, DOTTED, FLAT, 0),
    ord("j"): (300, DOTTED, TAIL, 0),
    ord("k"): (530, TALL, FLAT, 0),
    ord("l"): (280, TALL, FLAT, 0),
    ord("m"): (840, X, FLAT, 0),
    ord("n"): (560, X, FLAT, 0),
    ord("o"): (510, X, FLAT, 0),
    ord("p"): (550, X, TAIL, 0),
    ord("q"): (530, X, TAIL, 0),
    ord("r"): (390, X, FLAT, 0),
    ord("s"): (400, X, FLAT, 0),
    ord("t"): (380, TEE, FLAT, 0),
    ord("u"): (560, X, FLAT, 0),
    ord("v"): (520, X, FLAT, 15),
    ord("w"): (730, X, FLAT, 15),
    ord("x"): (530, X, FLAT, 0),
    ord("y"): (520, X, TAIL, 15),
    ord("z"): (440, X, FLAT, 0),
}

# The table of kerns, in thousandths of the design size.
KERNS = [-80, -40, -25, -15, 30]

# The values of a skip byte that aren't a number of instructions to skip.
STOP, IS_BOUNDARY = 128, 255


def code_of(character):
    """Returns the code of a character, which is a letter or already a code."""
    return ord(character) if isinstance(character, str) else character


def ligature(next_char, becomes, skip=0):
    """Returns an instruction that replaces the current character and next_char by the ligature."""
    return (
        skip,  # skip byte: the number of instructions to skip if next_char doesn't match
        code_of(next_char),  # next_char: the character that has to follow
        0,  # op byte: 0 keeps neither of the two characters
        becomes,  # remainder: the ligature's code
    )


def kern(next_char, amount, skip=0):
    """Returns an instruction that inserts a kern between the current character and next_char."""
    index = KERNS.index(amount)
    return (
        skip,  # skip byte: as in a ligature
        code_of(next_char),  # next_char: as in a ligature
        128 + index // 256,  # op byte: 128 or more is a kern
        index % 256,  # remainder: the index in the table of kerns is 256 * (op byte - 128) + remainder
    )


PROGRAM = [
    # 0: no search reaches this instruction; it contains the code of the right boundary. Its last two bytes
    # aren't used, but have to be an address of the program, as in every instruction with a skip above 128.
    (IS_BOUNDARY, RIGHT_BOUNDARY, 0, 0),
    # 1: start of ff: ff i becomes ffi; otherwise the search continues at 4, after the instructions for f only
    ligature("i", FFI, skip=2),
    # 2: start of f: f i becomes fi
    ligature("i", FI),
    # 3: f f becomes ff
    ligature("f", FF),
    # 4: f and ff at the end of a run: a positive kern for the hook
    kern(RIGHT_BOUNDARY, 30, skip=STOP),
    # 5: start of a
    kern("v", -25),
    kern("w", -25),
    kern("y", -25, skip=STOP),
    # 8: start of b, o and p, which are round on the right
    kern("v", -15),
    kern("w", -15),
    kern("x", -25),
    kern("y", -15, skip=STOP),
    # 12: start of v, w and y, which leave room at the foot
    kern(".", -80),
    # 13: start of k; the search for v, w and y continues here
    kern("a", -40),
    kern("e", -25),
    kern("o", -25, skip=STOP),
]

# code: the starting address of the character
STARTS = {
    FF: 1,
    ord("f"): 2,
    ord("a"): 5,
    ord("b"): 8,
    ord("o"): 8,
    ord("p"): 8,
    ord("v"): 12,
    ord("w"): 12,
    ord("y"): 12,
    ord("k"): 13,
}

# The parameters, in thousandths: the slant is a ratio, the others are parts of the design size.
PARAMETERS = [
    0,  # 1 slant: upright
    320,  # 2 space
    160,  # 3 stretch of a space
    105,  # 4 shrink of a space
    440,  # 5 x-height
    1000,  # 6 quad
    110,  # 7 extra space
]


def fix_words(thousandths):
    """Returns the nearest fix_words, signed numbers in units of 2^-20."""
    return [(it * 2**20 + 500) // 1000 for it in thousandths]


def text(value, size):
    """Returns a text of the header in a field of this many bytes: its length, its bytes, and zeros."""
    return (bytes([len(value)]) + value.encode("ascii")).ljust(size, b"\0")


def dimensions(column):
    """Returns the table of one column of CHARACTERS: entry 0, which is 0 in each of the four tables, and the
    different values of the column, in order."""
    return [0] + sorted({it[column] for it in CHARACTERS.values()} - {0})


def header():
    """Returns the header after the check sum and the design size: sixteen words."""
    return b"".join([
        text("DEMO TEXT", 40),  # 2..11 coding scheme
        text("DEMO", 20),  # 12..16 family
        bytes([
            128,  # 17, first byte: seven-bit safe, since no codes below 128 make a character above 127
            0,  # second byte: unused
            0,  # third byte: unused
            0,  # fourth byte: the face, medium roman of regular width
        ]),
    ])


def char_info(code, widths, heights, depths, italics):
    """Returns the char_info word of a code: four zeros if it has no character."""
    if code not in CHARACTERS:
        return bytes(4)
    width, height, depth, italic = CHARACTERS[code]
    tag = 1 if code in STARTS else 0
    return bytes([
        widths.index(width),  # width_index: not 0, since 0 is the mark of a missing character
        16 * heights.index(height) + depths.index(depth),  # height_index in four bits, depth_index in four
        4 * italics.index(italic) + tag,  # italic_index in six bits, tag in two: 1 with instructions, else 0
        STARTS.get(code, 0),  # remainder: for tag 1, the starting address
    ])


def main():
    columns = [dimensions(it) for it in range(4)]
    widths, heights, depths, italics = map(fix_words, columns)
    bc, ec = min(CHARACTERS), max(CHARACTERS)
    # A driver compares the check sum, which is any four bytes, with that of the file with the glyphs.
    data = make([char_info(it, *columns) for it in range(bc, ec + 1)], widths, PROGRAM, fix_words(KERNS),
                fix_words(PARAMETERS), bc, 10, (), header(), heights, depths, italics, b"DEMO")
    Path(__file__).with_name("demo.tfm").write_bytes(data)


if __name__ == "__main__":
    main()
