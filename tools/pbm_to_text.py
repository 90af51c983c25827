#!/usr/bin/env python3
"""pbm_to_text.py [--invert] [--columns N] < FILE.pbm: shows a PBM (P4) in the terminal, as Braille dots.

A character has two dots across and four down. Each dot stands for a square of cells, the smallest with
which the picture fits into N columns (144 by default), and is set where at least half of them are black,
or with --invert white, which suits a dark terminal.
"""
import argparse
import signal
import sys

sys.dont_write_bytecode = True
from pbm_to_png import read_pbm

# dot (column, row) of a Braille character
DOTS = {(0, 0): 0x01, (0, 1): 0x02, (0, 2): 0x04, (1, 0): 0x08, (1, 1): 0x10, (1, 2): 0x20, (0, 3): 0x40, (1, 3): 0x80}


def main():
    signal.signal(signal.SIGPIPE, signal.SIG_DFL)      # a reader may stop early, as head does
    words = argparse.ArgumentParser(description=__doc__, formatter_class=argparse.RawDescriptionHelpFormatter)
    words.add_argument('--invert', action='store_true')
    words.add_argument('--columns', type=int, default=144)
    options = words.parse_args()
    width, height, rows = read_pbm(sys.stdin.buffer.read())
    side = max(1, -(-width // (2 * max(1, options.columns))))

    def black(x, y):
        return rows[y][x // 8] >> (7 - x % 8) & 1

    def dot(column, row):
        cells = [black(x, y) != options.invert
                 for y in range(side * row, min(height, side * row + side))
                 for x in range(side * column, min(width, side * column + side))]
        return bool(cells) and 2 * sum(cells) >= len(cells)

    for top in range(0, -(-height // side), 4):
        line = ''
        for left in range(0, -(-width // side), 2):
            line += chr(0x2800 + sum(bits for (a, b), bits in DOTS.items() if dot(left + a, top + b)))
        print(line)


if __name__ == '__main__':
    main()
