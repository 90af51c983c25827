#!/usr/bin/env python3
"""Writes the gallery: samples/gallery/*.wmf, docs/images/gallery/*.png and docs/gallery.md.

Each sample draws in the first 48 x 32 cells of the picture. It is played by the program (target/bin/wmftopbm, or the one named as
the argument), and those cells are shown five times as large, with a grid. Only the Python standard library is used.
"""
import os
import re
import struct
import subprocess
import sys
import zlib

sys.dont_write_bytecode = True
from make_samples import *
from pbm_to_png import chunk, read_pbm

top = os.path.dirname(os.path.dirname(os.path.abspath(__file__)))
WIDTH, HEIGHT, SIDE = 48, 32, 5
entries = []            # section, name, text, records taken or None for all, metafile


def entry(section, name, text, taken=None):
    """Registers a sample: the function draws on a white picture; every record must be taken, unless `taken` says otherwise."""
    def add(draw):
        m = Metafile(objects=4)
        m.pat_blt(0, 0, 576, 400, WHITENESS)
        draw(m)
        if not any(record[4:6] == b'\0\0' for record in m.records):
            m.end()
        entries.append((section, name, text, taken, m))
        return draw
    return add


def black_brush(m, hatch=None):
    """Creates a black brush, selects it and deletes it, so that it stays in the pencil alone."""
    m.create_brush(0 if hatch is None else 2, BLACK, hatch or 0)
    m.select(0)
    m.delete(0)


# --- records ------------------------------------------------------------------------------------------

@entry('records', 'META_EOF', 'The run ends. The second paint lies behind the end record and is not played.', 1 + 3 + 1)
def _(m):
    black_brush(m)
    m.pat_blt(6, 8, 14, 16, PATCOPY)
    m.end()
    m.pat_blt(28, 8, 14, 16, PATCOPY)


@entry('records', 'META_SETWINDOWORG', 'The same paint at (4, 4) twice; before the second the window origin becomes (−20, −12).')
def _(m):
    black_brush(m, CROSS)
    m.pat_blt(4, 4, 18, 12, PATCOPY)
    m.window_origin(-20, -12)
    m.pat_blt(4, 4, 18, 12, PATCOPY)


@entry('records', 'META_SETVIEWPORTORG', 'The same paint at (4, 4) twice; before the second the viewport origin becomes (20, 8).')
def _(m):
    black_brush(m, CROSS)
    m.pat_blt(4, 4, 18, 12, PATCOPY)
    m.viewport_origin(20, 8)
    m.pat_blt(4, 4, 18, 12, PATCOPY)


@entry('records', 'META_MOVETO', 'Three strokes. Between them the position moves and nothing is drawn.')
def _(m):
    for x in (4, 18, 32):
        m.move_to(x, 26)
        m.line_to(x + 6, 5)
        m.line_to(x + 12, 26)


@entry('records', 'META_LINETO', 'Lines from the middle in all directions, each without its last cell.')
def _(m):
    for x, y in [(x, y) for x in range(3, 46, 7) for y in (2, 30)] + [(x, y) for x in (3, 45) for y in range(9, 30, 7)]:
        m.move_to(24, 16)
        m.line_to(x, y)


@entry('records', 'META_PATBLT', 'A hatched paint with `PATCOPY`, then one over its corner with `DSTINVERT`.')
def _(m):
    black_brush(m, FORWARD)
    m.pat_blt(4, 4, 28, 18, PATCOPY)
    m.pat_blt(22, 14, 20, 14, DSTINVERT)


@entry('records', 'META_BITBLT', 'The letter, copied ten cells right and six down over itself with `SRCCOPY`: nothing is smeared.')
def _(m):
    black_brush(m)
    text(m, 'R', 5, 3, 3)
    m.bit_blt(13, 7, 19, 23, 3, 1, SRCCOPY)


@entry('records', 'META_INTERSECTCLIPRECT', 'A paint over everything after two cuts: the clip is what both rectangles hold.')
def _(m):
    frame(m, 4, 4, 32, 21)
    frame(m, 16, 10, 44, 28)
    m.intersect_clip(4, 4, 33, 22)
    m.intersect_clip(16, 10, 45, 29)
    black_brush(m, DIAGONAL_CROSS)
    m.pat_blt(0, 0, 48, 32, PATCOPY)


@entry('records', 'META_SETROP2', 'The same fan of lines over a black block, first in `R2_COPYPEN`, then, to the right, in `R2_NOT`.')
def _(m):
    black_brush(m)
    m.pat_blt(4, 10, 40, 12, PATCOPY)
    for x, mode in ((4, R2_COPYPEN), (26, R2_NOT)):
        m.rop2(mode)
        for i in range(0, 18, 4):
            m.move_to(x + 8, 2)
            m.line_to(x + i, 30)


@entry('records', 'META_SETBKCOLOR', 'One hatched brush, black lines. Left the back colour is white, right black; in the middle white again.')
def _(m):
    black_brush(m, BACKWARD)
    for x, colour in ((2, WHITE), (33, BLACK), (18, WHITE)):
        m.back_colour(colour)
        m.pat_blt(x, 6, 13, 20, PATCOPY)


@entry('records', 'META_CREATEBRUSHINDIRECT', 'A solid brush and a hatched one, each created, selected and painted with.')
def _(m):
    for x, hatch in ((4, None), (26, VERTICAL)):
        black_brush(m, hatch)
        m.pat_blt(x, 6, 18, 20, PATCOPY)


@entry('records', 'META_CREATEPENINDIRECT', 'A black pen, a white one over the block, and below a pen of style 5, which draws nothing.')
def _(m):
    black_brush(m)
    m.pat_blt(24, 0, 20, 24, PATCOPY)
    for y, style, colour in ((6, 0, BLACK), (14, 0, WHITE), (22, 5, BLACK)):
        m.create_pen(style, 1, colour)
        m.select(0)
        m.delete(0)
        for i in range(4):
            m.move_to(4, y + i)
            m.line_to(40, y + i + 4)


@entry('records', 'META_SELECTOBJECT', 'Three brushes in slots 0 to 2, selected in the order 2, 0, 1, 0.')
def _(m):
    for hatch in (HORIZONTAL, FORWARD, CROSS):
        m.create_brush(2, BLACK, hatch)
    for i, slot in enumerate((2, 0, 1, 0)):
        m.select(slot)
        m.pat_blt(2 + 11 * i, 6, 10, 20, PATCOPY)


@entry('records', 'META_DELETEOBJECT', 'Left: the brush is deleted and still paints. Right: the next brush took its slot.')
def _(m):
    m.create_brush(2, BLACK, FORWARD)
    m.select(0)
    m.delete(0)
    m.pat_blt(4, 6, 18, 20, PATCOPY)
    m.create_brush(2, BLACK, BACKWARD)
    m.select(0)
    m.pat_blt(26, 6, 18, 20, PATCOPY)


@entry('records', 'unlisted', 'A `META_ELLIPSE` between two paints is passed over.', 1 + 3 + 2)
def _(m):
    black_brush(m)
    m.pat_blt(4, 8, 10, 16, PATCOPY)
    m.raw(0x0418, 26, 32, 6, 16)
    m.pat_blt(34, 8, 10, 16, PATCOPY)


# --- hatches ------------------------------------------------------------------------------------------

HATCHES = ('HS_HORIZONTAL', 'HS_VERTICAL', 'HS_FDIAGONAL', 'HS_BDIAGONAL', 'HS_CROSS', 'HS_DIAGCROSS')

for style, name in enumerate(HATCHES):
    def hatched(m, style=style):
        black_brush(m, style)
        m.pat_blt(0, 0, 24, 32, PATCOPY)
        m.create_brush(2, WHITE, style)
        m.select(0)
        m.back_colour(BLACK)
        m.pat_blt(24, 0, 24, 32, PATCOPY)
    entry('hatches', name, str(style))(hatched)


# --- line modes ---------------------------------------------------------------------------------------

MODES = [('BLACK', '0'), ('NOTMERGEPEN', 'not (p or q)'), ('MASKNOTPEN', '(not p) and q'), ('NOTCOPYPEN', 'not p'),
         ('MASKPENNOT', 'p and (not q)'), ('NOT', 'not q'), ('XORPEN', 'p xor q'), ('NOTMASKPEN', 'not (p and q)'),
         ('MASKPEN', 'p and q'), ('NOTXORPEN', 'not (p xor q)'), ('NOP', 'q'), ('MERGENOTPEN', '(not p) or q'), ('COPYPEN', 'p'),
         ('MERGEPENNOT', 'p or (not q)'), ('MERGEPEN', 'p or q'), ('WHITE', '1')]


def ground(m):
    """Left white and right black."""
    black_brush(m)
    m.pat_blt(24, 0, 24, 32, PATCOPY)


def strokes(m, mode):
    ground(m)
    m.rop2(mode)
    for y, colour in ((4, BLACK), (18, WHITE)):
        m.create_pen(0, 1, colour)
        m.select(0)
        m.delete(0)
        for i in range(8):
            m.move_to(6, y + i)
            m.line_to(42, y + i + 2)


for number, (name, formula) in enumerate(MODES, 1):
    entry('modes', 'R2_' + name, '%d, %s' % (number, formula))(lambda m, number=number: strokes(m, number))


# --- raster operations --------------------------------------------------------------------------------

OPERATIONS = [
    ('BLACKNESS', 0x00000042, '0'), ('NOTSRCERASE', 0x001100A6, 'not (S or D)'), ('NOTSRCCOPY', 0x00330008, 'not S'),
    ('SRCERASE', 0x00440328, 'S and (not D)'), ('DSTINVERT', 0x00550009, 'not D'), ('PATINVERT', 0x005A0049, 'P xor D'),
    ('SRCINVERT', 0x00660046, 'S xor D'), ('SRCAND', 0x008800C6, 'S and D'), ('MERGEPAINT', 0x00BB0226, '(not S) or D'),
    ('MERGECOPY', 0x00C000CA, 'P and S'), ('SRCCOPY', 0x00CC0020, 'S'), ('SRCPAINT', 0x00EE0086, 'S or D'),
    ('PATCOPY', 0x00F00021, 'P'), ('PATPAINT', 0x00FB0A09, 'P or (not S) or D'), ('WHITENESS', 0x00FF0062, '1'),
]


def blocks(m):
    """Source at (2, 6): a white diamond on black. Target at (26, 6): black above, white below. Both 20 x 20. The brush is hatched."""
    frame(m, 1, 5, 22, 26)
    frame(m, 25, 5, 46, 26)
    m.pat_blt(2, 6, 20, 20, BLACKNESS)
    for i in range(10):
        m.pat_blt(2 + 9 - i, 6 + i, 2 + 2 * i, 1, WHITENESS)
        m.pat_blt(2 + 9 - i, 25 - i, 2 + 2 * i, 1, WHITENESS)
    m.pat_blt(26, 6, 20, 10, BLACKNESS)
    black_brush(m, CROSS)


entry('operations', 'before', 'source and target before the call')(blocks)
for name, value, formula in OPERATIONS:
    def operation(m, value=value):
        blocks(m)
        code = value >> 16
        if code & 0x33 == code >> 2 & 0x33:                 # does not depend on S: a paint
            m.pat_blt(26, 6, 20, 20, value)
        else:
            m.bit_blt(26, 6, 20, 20, 2, 6, value)
    entry('operations', name, '0x%02X, %s' % (value >> 16, formula))(operation)


# --- pictures and page --------------------------------------------------------------------------------

def png(pbm):
    """The first cells of a PBM, each SIDE pixels wide and high, with grey lines around every cell."""
    _, _, rows = read_pbm(pbm)
    step = SIDE + 1
    lines = []
    for y in range(HEIGHT):
        line = [2]
        for x in range(WIDTH):
            line += [1 - (rows[y][x // 8] >> (7 - x % 8) & 1)] * SIDE + [2]
        grey = [2] * len(line)
        lines += ([grey] if y == 0 else []) + [line] * SIDE + [grey]
    width = step * WIDTH + 1
    body = b''
    for line in lines:
        line = line + [0] * (-width % 4)
        body += b'\0' + bytes(line[i] << 6 | line[i + 1] << 4 | line[i + 2] << 2 | line[i + 3] for i in range(0, len(line), 4))
    return (b'\x89PNG\r\n\x1a\n'
            + chunk(b'IHDR', struct.pack('>IIBBBBB', width, len(lines), 2, 3, 0, 0, 0))
            + chunk(b'PLTE', bytes((0, 0, 0, 255, 255, 255, 190, 200, 215)))
            + chunk(b'IDAT', zlib.compress(body, 9))
            + chunk(b'IEND', b''))


def file_name(section, name):
    return {'hatches': 'hatch'}.get(section, section[:-1]) + '-' + re.sub('^(meta|hs|r2)_', '', name.lower())


PAGE = '''# Gallery

What each record, hatch, line mode and common raster operation gives. Every picture shows the first 48 × 32 cells of what `wmftopbm`
makes of a small sample in `samples/gallery/`, each cell five pixels wide. All three, samples, pictures and this page, are written by
`tools/make_gallery.py`, which needs the built program.

Words are 0 (black) and 1 (white). Every sample first paints the picture white.

## Records

See [the file and its records](file-and-records.md) for fields and sizes, and [runs](runs.md) for what each record does.

%(records)s
## Hatches

Left with black lines on white, right with white lines on black. The lines are those of [codes and inks](codes-and-inks.md), and
repeat every eight cells from cell (0, 0).

%(hatches)s
## Line modes

The ground is white on the left (q = 1) and black on the right (q = 0). The upper band is drawn with a black pen (p = 0), the lower one
with a white pen (p = 1): eight lines each, from column 6 to column 42.

%(modes)s
## Raster operations

Left is the source S, a white diamond on black; right is the target D, black above and white below. The pattern P is the brush: black
lines of `HS_CROSS` on white. The operation copies the left block onto the right one with `META_BITBLT`; where it does not depend on S,
it paints the right block with `META_PATBLT`. Only the right block changes.

%(operations)s'''


def cell(section, name):
    stem = file_name(section, name)
    return '![%s](images/gallery/%s.png)' % (name, stem)


def table(section):
    mine = [e for e in entries if e[0] == section]
    if section == 'records':
        out = '| record | picture | shows |\n|---|---|---|\n'
        for _, name, words, _, _ in mine:
            label = '`%s`' % name if name.startswith('META') else name
            out += '| %s | %s | %s |\n' % (label, cell(section, name), words)
        return out
    out = '| | | |\n|---|---|---|\n'
    for i in range(0, len(mine), 3):
        row = mine[i:i + 3] + [None] * (3 - len(mine[i:i + 3]))
        out += '|' + '|'.join(' %s<br>%s: %s ' % (cell(section, e[1]), '`%s`' % e[1] if e[1] != 'before' else e[1], e[2]) if e else ' '
                              for e in row) + '|\n'
    return out


def main():
    program = sys.argv[1] if len(sys.argv) > 1 else os.path.join(top, 'target', 'bin', 'wmftopbm')
    samples, images = os.path.join(top, 'samples', 'gallery'), os.path.join(top, 'docs', 'images', 'gallery')
    os.makedirs(samples, exist_ok=True)
    os.makedirs(images, exist_ok=True)
    total = 0
    for section, name, _, taken, m in entries:
        data = m.bytes()
        stem = file_name(section, name)
        played = subprocess.run([program], input=data, stdout=subprocess.PIPE, stderr=subprocess.PIPE)
        counts = played.stderr.decode()
        wanted = 'taken %d, refused 0, passed over %d\n' % (taken or len(m.records) - 1, name == 'unlisted')
        if played.returncode or counts != wanted:
            sys.exit('%s: %s and not %s' % (stem, counts.strip(), wanted.strip()))
        picture = png(played.stdout)
        total += len(picture)
        with open(os.path.join(samples, stem + '.wmf'), 'wb') as out:
            out.write(data)
        with open(os.path.join(images, stem + '.png'), 'wb') as out:
            out.write(picture)
    with open(os.path.join(top, 'docs', 'gallery.md'), 'w') as out:
        out.write(PAGE % {section: table(section) for section in ('records', 'hatches', 'modes', 'operations')})
    print('%d samples, pictures of %d bytes in all' % (len(entries), total))


if __name__ == '__main__':
    main()
