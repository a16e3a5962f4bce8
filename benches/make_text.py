#!/usr/bin/env python3
"""Writes a text of a given size: English words in lines of 60 to 100 bytes, always the same for the same size.

Usage: make_text.py BYTES > FILE
"""

import random
import sys

WORDS = """
the of and to in a is that it was for on are as with his they at be this from have or by one had not but what all were
when we there can an your which their said if do will each about how up out them then she many some so these would
other into has more her two like him see time could no make than first been its who now people my made over did down
only way find use may water long little very after words called just where most know office difficult effort affluent
baffling efficient finding flowing valley avail tomorrow flight reflect coffee staff cliff suffix offer shuffle
typesetting paragraph kerning ligature boundary character measure winter summer morning evening window garden river
mountain forest village harbour bridge letter paper pencil printer margin column picture colour shadow silver golden
Victory Avenue Tower Yesterday Waves Always Above Every Friday June York London Paris Vienna Prague Alice William
""".split()


def main():
    size = int(sys.argv[1])
    source = random.Random(20_000)
    written = 0
    while written < size:
        least = source.randint(62, 87)
        words = []
        length = 0
        while length < least:
            word = source.choice(WORDS)
            words.append(word)
            length += len(word) + 1
        end = source.choice(["", ",", ".", ";", "."])
        line = " ".join(words) + end + "\n"
        sys.stdout.write(line)
        written += len(line)


main()
