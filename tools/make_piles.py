#!/usr/bin/env python3
"""Writes what the program `piles` reads and must write: crates/piles/stdin and crates/piles/stdout.

Two metafiles one after the other; the second clips by a rectangle and then draws what the first draws. The pictures and bounds come
from checks/reference/player.py, and what must agree from the rules alone. Prints the length of the first metafile.
"""
import os
import sys

top = os.path.dirname(os.path.dirname(os.path.abspath(__file__)))
sys.dont_write_bytecode = True
sys.path[:0] = [os.path.join(top, 'checks', 'reference'), os.path.join(top, 'tools')]
import player
from make_samples import CROSS, DSTINVERT, Metafile, PATCOPY, PATINVERT, R2_XORPEN, SRCAND, SRCCOPY

player.WIDTH, player.HEIGHT, player.DEPTH = 16, 8, 8
CLIP = (3, 1, 13, 7)


def sample(clip):
    m = Metafile(objects=2)
    if clip:
        m.intersect_clip(*clip)
    m.back_colour(0x00FE)
    m.create_brush(2, 0x0035, CROSS)
    m.create_pen(0, 1, 0x01C3)
    m.select(0)
    m.select(1)
    m.pat_blt(2, 1, 6, 5, PATCOPY)
    m.move_to(1, 6)
    m.line_to(14, 1)
    m.rop2(R2_XORPEN)
    m.line_to(4, 0)
    m.pat_blt(5, 2, 8, 4, PATINVERT)
    m.bit_blt(4, 2, 8, 4, 2, 1, SRCCOPY)
    m.bit_blt(1, 0, 6, 6, 3, 1, SRCAND)
    m.pat_blt(13, 5, 2, 2, DSTINVERT)
    m.end()
    return m.bytes()


class Marked(player.Picture):
    """A picture that remembers the cells that were set."""
    def __init__(self):
        super().__init__()
        self.reached = []

    def set(self, x, y, value):
        super().set(x, y, value)
        if self.inside(x, y):
            self.reached.append((x, y))

    def plane(self, k):
        return [''.join('#' if player.bit(k, w) else '.' for w in row) for row in self.rows]

    def bounds(self):
        xs, ys = zip(*self.reached)
        return 'bounds %d %d %d %d' % (min(xs), min(ys), max(xs) + 1, max(ys) + 1)


def played(data):
    picture = Marked()
    run = player.Run(*player.check(data), picture)
    while not run.ended:
        run.step()
    assert run.refused == run.passed == 0
    return picture


def expected(one, other):
    words = [w for row in one.rows for w in row]
    assert any(w > 15 for w in words)                       # so bytes and planes are not the same
    low = [[w % 16 for w in row] for row in one.rows]
    assert low != [row[::-1] for row in low]                # so a mirror shows something else
    assert other.plane(0) != [row[::-1] for row in other.plane(0)]
    return '\n'.join([
        'packed', *one.plane(0),
        one.bounds(), 'bytes, bit 6', *one.plane(6),
        'packed, plane 0 of bytes: true', 'packed, plane 0 of planes: true',
        'planes 0 to 3 of bytes, planes: true', 'bytes, planes: false',
        'in a mirror: false', 'in two mirrors: true',
        'clipped', *other.plane(0),
        'meter, fence, mirror, packed: true', other.bounds(),
        'below the mirror', *(row[::-1] for row in other.plane(0)),
        'the same below: false',
        'fence, mirror, mirror, lent bytes: true',
        'the lent bytes after: true',
    ]) + '\n'


first, second = sample(None), sample(CLIP)
home = os.path.join(top, 'crates', 'piles')
with open(os.path.join(home, 'stdin'), 'wb') as out:
    out.write(first + second)
with open(os.path.join(home, 'stdout'), 'w') as out:
    out.write(expected(played(first), played(second)))
print(len(first))
