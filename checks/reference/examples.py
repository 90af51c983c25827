#!/usr/bin/env python3
"""The worked examples of docs/ on the reference player: prints how many were tried, and ends with 1 if one fails."""
import os
import re
import sys

sys.dont_write_bytecode = True
import player

HEADER = bytes([1, 0, 9, 0, 0, 3, 12, 0, 0, 0, 0, 0, 3, 0, 0, 0, 0, 0])
END = bytes([3, 0, 0, 0, 0, 0])
results = []


def expect(what, found, wanted):
    results.append(found == wanted)
    if found != wanted:
        print('%s: %r and not %r' % (what, found, wanted))


def fresh(row=()):
    picture = player.Picture()
    for x, word in enumerate(row):
        picture.rows[0][x] = word
    return player.Run(HEADER + END, 0, picture)


def cells(x0, y0, x1, y1):
    run, seen = fresh(), []
    run.picture.set = lambda x, y, value: seen.append((x, y))
    run.line((x0, y0), (x1, y1))
    return seen


def copied(row, x, w, sx):
    run = fresh(row)
    run.blt(x, 0, w, 1, (sx, 0), 0xCC)
    return [run.picture.word(i, 0) for i in range(5)]


def number(data):
    try:
        player.check(data)
    except player.Fault as fault:
        return fault.number
    return 0


expect('code 0xB8', player.combined(0xB8, 0xF0, 0xCC, 0xAA), 0xB8)
expect('every code on F0, CC, AA', [player.combined(c, 0xF0, 0xCC, 0xAA) % 256 for c in range(256)], list(range(256)))
expect('code 0x66', player.combined(0x66, 0, 5, 3), 6)
expect('mode 7', player.mixed(7, 12, 10), 6)
expect('codes without source', [c for c in range(256) if not player.depends_on_source(c)],
       [16 * a + b for a in (0, 5, 10, 15) for b in (0, 5, 10, 15)])
expect('line to (5,2)', cells(0, 0, 5, 2), [(0, 0), (1, 0), (2, 1), (3, 1), (4, 2)])
expect('line to (4,2)', cells(0, 0, 4, 2), [(0, 0), (1, 1), (2, 1), (3, 2)])
expect('line back from (4,2)', cells(4, 2, 0, 0), [(4, 2), (3, 1), (2, 1), (1, 0)])
expect('line to itself', cells(3, 3, 3, 3), [])
# the two copies need words above 1: a deeper and narrower picture
player.DEPTH, player.WIDTH = 8, 5
expect('copy to the right', copied([1, 2, 3, 4, 5], 1, 4, 0), [1, 1, 2, 3, 4])
expect('copy to the left', copied([1, 2, 3, 4, 5], 0, 5, 2), [3, 4, 5, 0, 0])
player.DEPTH, player.WIDTH, player.HEIGHT = 1, 8, 4
run = fresh()
run.blt(1, 1, 3, 2, None, 0xFF)
expect('8 x 4 painted, as PBM', player.pbm(run.picture), b'P4\n8 4\n\xFF\x8F\x8F\xFF')
player.WIDTH, player.HEIGHT = 576, 400
expect('17 bytes', number(bytes(17)), 3)
expect('18 bytes', number(bytes(18)), 4)
expect('header and end record', player.play(HEADER + END),
       (0, b'P4\n576 400\n' + b'\xFF' * 28800, 'taken 0, refused 0, passed over 0\n'))

page = os.path.join(os.path.dirname(os.path.abspath(__file__)), '..', '..', 'docs', 'refusals.md')
texts = re.findall(r'^\| (\d+) \| `([^`]*)` \|$', open(page, encoding='utf-8').read(), re.M)
expect('texts of docs/refusals.md', {int(n): text for n, text in texts}, player.CAUSES)
page = page.replace('refusals.md', 'file-and-records.md')
rows = re.findall(r'^\| 0x([0-9A-F]{4}) \| `(META_\w+)` \| ([\d or]+) \|', open(page, encoding='utf-8').read(), re.M)
expect('record table of docs/file-and-records.md',
       {int(f, 16): (name, tuple(map(int, sizes.split(' or ')))) for f, name, sizes in rows}, player.RECORDS)

print('examples: %d tried, %d failed' % (len(results), results.count(False)))
sys.exit(results.count(False) != 0)
