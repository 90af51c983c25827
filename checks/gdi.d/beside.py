#!/usr/bin/env python3
"""beside.py X Y WIDTH HEIGHT SCALE FILE.pbm... > OUT.pbm: the same part of several PBMs, enlarged, side by side."""
import os
import sys

sys.dont_write_bytecode = True
sys.path.insert(0, os.path.join(os.path.dirname(os.path.abspath(__file__)), '..', '..', 'tools'))
from pbm_to_png import read_pbm


def main():
    x, y, width, height, scale = map(int, sys.argv[1:6])
    gap = '1' * 2 + '0' * 8 + '1' * 2           # in PBM 1 is black: a white gap between black edges
    rows = [''] * (height * scale)
    for i, name in enumerate(sys.argv[6:]):
        _, _, bits = read_pbm(open(name, 'rb').read())
        for row in range(height):
            cells = ''.join('{:08b}'.format(b) for b in bits[y + row])[x:x + width]
            wide = ''.join(c * scale for c in cells)
            for k in range(scale):
                rows[row * scale + k] += (gap if i else '11') + wide
    rows = [row + '11' for row in rows]
    edge = '1' * len(rows[0])
    rows = [edge] * 2 + rows + [edge] * 2
    stride = (len(edge) + 7) // 8
    sys.stdout.buffer.write(b'P4\n%d %d\n' % (len(edge), len(rows)))
    for row in rows:
        sys.stdout.buffer.write(int(row.ljust(8 * stride, '0'), 2).to_bytes(stride, 'big'))


if __name__ == '__main__':
    main()
