#!/usr/bin/env python3
"""Writes the sample metafiles: make_samples.py [FOLDER], by default samples/ beside this folder.

    empty.wmf     the header and the end record alone
    ticket.wmf    an odds board with a ticket, using every record kind at least once
    refused.wmf   records refused with each cause from 6 to 11, and a file fault at the end

Only the Python standard library is used. `Metafile` is a small assembler: one method for each record,
with arguments in the usual order (x before y, width before height); the file has them the other way.
"""
import math
import os
import struct
import sys

BLACK, WHITE = 0x0000, 0xFFFF       # on a one-bit picture only bit 0 of a colour counts

# ternary raster operations, as published: the code is in bits 16 to 23
BLACKNESS, WHITENESS = 0x00000042, 0x00FF0062
PATCOPY, PATINVERT, DSTINVERT = 0x00F00021, 0x005A0049, 0x00550009
PAT_AND_DST = 0x00A000C9
SRCCOPY, NOTSRCCOPY, SRCAND, MERGECOPY = 0x00CC0020, 0x00330008, 0x008800C6, 0x00C000CA

# line modes
R2_BLACK, R2_NOT, R2_XORPEN, R2_NOP, R2_COPYPEN, R2_WHITE = 1, 6, 7, 11, 13, 16

# hatch styles
HORIZONTAL, VERTICAL, FORWARD, BACKWARD, CROSS, DIAGONAL_CROSS = range(6)


class Metafile:
    def __init__(self, objects=8):
        self.objects, self.records = objects, []

    def raw(self, function, *words, size=None):
        """A record of any function with 16-bit parameters. `size` overrides the true size in words."""
        size = 3 + len(words) if size is None else size
        body = b''.join(struct.pack('<H', w & 0xFFFF) for w in words)
        self.records.append(struct.pack('<IH', size, function) + body)

    def end(self):
        self.raw(0x0000)

    def window_origin(self, x, y):
        self.raw(0x020B, y, x)

    def viewport_origin(self, x, y):
        self.raw(0x020D, y, x)

    def move_to(self, x, y):
        self.raw(0x0214, y, x)

    def line_to(self, x, y):
        self.raw(0x0213, y, x)

    def pat_blt(self, x, y, w, h, operation):
        self.raw(0x061D, operation, operation >> 16, h, w, y, x)

    def bit_blt(self, x, y, w, h, sx, sy, operation):
        self.raw(0x0922, operation, operation >> 16, sy, sx, 0, h, w, y, x)

    def intersect_clip(self, left, top, right, bottom):
        self.raw(0x0416, bottom, right, top, left)

    def rop2(self, mode, reserved=None):
        self.raw(0x0104, mode, *([] if reserved is None else [reserved]))

    def back_colour(self, colour, upper=0x0100):
        self.raw(0x0201, colour, upper)

    def create_brush(self, style, colour, hatch=0, upper=0x0100):
        self.raw(0x02FC, style, colour, upper, hatch)

    def create_pen(self, style, width, colour, upper=0x0100):
        self.raw(0x02FA, style, width, 0, colour, upper)

    def select(self, index):
        self.raw(0x012D, index)

    def delete(self, index):
        self.raw(0x01F0, index)

    def bytes(self):
        body = b''.join(self.records)
        words = (18 + len(body)) // 2
        largest = max(len(r) // 2 for r in self.records)
        return struct.pack('<HHHIHIH', 1, 9, 0x0300, words, self.objects, largest, 0) + body


# --- shapes made of rectangles ------------------------------------------------------------------------

FONT = {
    'A': '01110 10001 10001 11111 10001 10001 10001', 'B': '11110 10001 10001 11110 10001 10001 11110',
    'C': '01110 10001 10000 10000 10000 10001 01110', 'D': '11110 10001 10001 10001 10001 10001 11110',
    'E': '11111 10000 10000 11110 10000 10000 11111', 'F': '11111 10000 10000 11110 10000 10000 10000',
    'G': '01110 10001 10000 10111 10001 10001 01110', 'H': '10001 10001 10001 11111 10001 10001 10001',
    'I': '01110 00100 00100 00100 00100 00100 01110', 'J': '00111 00010 00010 00010 00010 10010 01100',
    'K': '10001 10010 10100 11000 10100 10010 10001', 'L': '10000 10000 10000 10000 10000 10000 11111',
    'M': '10001 11011 10101 10101 10001 10001 10001', 'N': '10001 11001 10101 10011 10001 10001 10001',
    'O': '01110 10001 10001 10001 10001 10001 01110', 'P': '11110 10001 10001 11110 10000 10000 10000',
    'Q': '01110 10001 10001 10001 10101 10010 01101', 'R': '11110 10001 10001 11110 10100 10010 10001',
    'S': '01111 10000 10000 01110 00001 00001 11110', 'T': '11111 00100 00100 00100 00100 00100 00100',
    'U': '10001 10001 10001 10001 10001 10001 01110', 'V': '10001 10001 10001 10001 10001 01010 00100',
    'W': '10001 10001 10001 10101 10101 11011 10001', 'X': '10001 10001 01010 00100 01010 10001 10001',
    'Y': '10001 10001 01010 00100 00100 00100 00100', 'Z': '11111 00001 00010 00100 01000 10000 11111',
    '0': '01110 10001 10011 10101 11001 10001 01110', '1': '00100 01100 00100 00100 00100 00100 01110',
    '2': '01110 10001 00001 00110 01000 10000 11111', '3': '11110 00001 00001 01110 00001 00001 11110',
    '4': '00010 00110 01010 10010 11111 00010 00010', '5': '11111 10000 11110 00001 00001 10001 01110',
    '6': '01110 10000 10000 11110 10001 10001 01110', '7': '11111 00001 00010 00100 01000 01000 01000',
    '8': '01110 10001 10001 01110 10001 10001 01110', '9': '01110 10001 10001 01111 00001 00001 01110',
    '.': '00000 00000 00000 00000 00000 01100 01100', ':': '00000 01100 01100 00000 01100 01100 00000',
    '-': '00000 00000 00000 11111 00000 00000 00000', ' ': '00000 00000 00000 00000 00000 00000 00000',
}


def rectangles(rows):
    """Rectangles (x, y, w, h) that together cover the 1s of rows of '0' and '1'."""
    done, open_runs = [], {}
    for y, row in enumerate(list(rows) + ['']):
        runs, x = [], 0
        while x < len(row):
            if row[x] == '1':
                start = x
                while x < len(row) and row[x] == '1':
                    x += 1
                runs.append((start, x - start))
            else:
                x += 1
        for run in list(open_runs):
            if run not in runs:
                top = open_runs.pop(run)
                done.append((run[0], top, run[1], y - top))
        for run in runs:
            open_runs.setdefault(run, y)
    return done


def shape(m, rows, x, y, scale=1, operation=PATCOPY):
    for a, b, w, h in rectangles(rows):
        m.pat_blt(x + scale * a, y + scale * b, scale * w, scale * h, operation)


def text(m, words, x, y, scale=2, operation=PATCOPY):
    for i, c in enumerate(words):
        shape(m, FONT[c].split(), x + 6 * scale * i, y, scale, operation)


def text_width(words, scale):
    return 6 * scale * len(words) - scale


def frame(m, left, top, right, bottom):
    """The outline whose last column is right and whose last row is bottom: four lines, each without its last cell."""
    m.move_to(left, top)
    for x, y in ((right, top), (right, bottom), (left, bottom), (left, top)):
        m.line_to(x, y)


def horseshoe(size):
    """Rows of '0' and '1': a ring open below, with nail holes."""
    rows, c = [], (size - 1) / 2
    outer, inner = size / 2, size * 0.29
    for y in range(size + size // 8):
        row = ''
        for x in range(size):
            dx, dy = x - c, y - c
            d = math.hypot(dx, min(dy, 0) if dy < 0 else dy * 0.55)
            on = inner <= d <= outer and not (dy > 0 and abs(dx) < size * 0.2)
            row += '1' if on else '0'
        rows.append(row)
    for angle in (-150, -118, -62, -30, 8, 172):
        a = math.radians(angle)
        r = (outer + inner) / 2
        hx, hy = round(c + r * math.cos(a)), round(c + r * math.sin(a) / (1 if angle < 0 else 0.7))
        for y in (hy, hy + 1):
            for x in (hx, hx + 1):
                rows[y] = rows[y][:x] + '0' + rows[y][x + 1:]
    return rows


# --- the samples --------------------------------------------------------------------------------------

RUNNERS = [
    ('BRAMBLE', 72, '5.2', HORIZONTAL),
    ('COPPER KEY', 96, '3.4', VERTICAL),
    ('DUSK BELL', 128, '2.1', FORWARD),
    ('FLINT', 34, '12.0', BACKWARD),
    ('GREY OWL', 48, '8.5', CROSS),
    ('HARVESTER', 22, '21.0', DIAGONAL_CROSS),
]


def empty():
    m = Metafile(objects=0)
    m.end()
    return m


def ticket():
    m = Metafile(objects=8)
    m.raw(0x0103, 1)                                    # META_SETMAPMODE: unlisted, passed over
    m.create_pen(0, 1, BLACK)                           # slot 0
    m.create_brush(0, BLACK)                            # slot 1
    m.create_brush(0, WHITE)                            # slot 2
    m.create_pen(0, 0, WHITE)                           # slot 3
    pen, black, white, white_pen = range(4)
    m.select(pen)
    m.select(black)
    m.rop2(R2_COPYPEN)
    m.back_colour(WHITE)

    # ground and outer frame
    m.pat_blt(0, 0, 576, 400, WHITENESS)
    frame(m, 3, 3, 572, 396)
    frame(m, 6, 6, 569, 393)

    # title band: black, white writing, a horseshoe, a pin stripe
    m.viewport_origin(10, 10)
    m.pat_blt(0, 0, 556, 58, BLACKNESS)
    m.select(white)
    shape(m, horseshoe(40), 10, 7)
    text(m, 'DIERWOLP TOTE', 64, 15, 4)
    text(m, 'RACE 5', 546 - text_width('RACE 5', 3), 9, 3)
    text(m, '14:35', 546 - text_width('14:35', 2), 35, 2)
    m.rop2(R2_WHITE, 0)                                 # five words: the reserved one is not read
    m.move_to(3, 54)
    m.line_to(553, 54)
    m.rop2(R2_COPYPEN)

    # the odds board
    m.viewport_origin(16, 78)
    m.select(black)
    frame(m, 0, 0, 388, 252)
    text(m, 'NO', 9, 8, 2)
    text(m, 'RUNNER', 52, 8, 2)
    text(m, 'POOL', 186, 8, 2)
    text(m, 'ODDS', 334, 8, 2)
    m.create_brush(2, BLACK, FORWARD)                   # slot 4
    m.select(4)
    m.pat_blt(1, 1, 387, 28, PAT_AND_DST)               # shades the heading, and keeps what is black
    m.select(black)
    m.delete(4)
    for i, (name, pool, odds, hatch) in enumerate(RUNNERS):
        m.viewport_origin(16, 78 + 30 + 37 * i)
        m.move_to(0, 0)
        m.line_to(388, 0)
        m.select(black)
        m.pat_blt(6, 5, 28, 28, PATCOPY)
        m.select(white)
        text(m, str(i + 1), 13, 9, 3)
        m.select(black)
        text(m, name, 52, 12, 2)
        m.create_brush(2, BLACK, hatch)                 # slot 4 again: the lowest empty one
        m.select(4)
        m.delete(4)                                     # the selected brush stays in the pencil
        m.pat_blt(186, 8, pool, 22, PATCOPY)
        frame(m, 186, 8, 186 + pool, 29)
        m.select(black)
        text(m, odds, 380 - text_width(odds, 2), 12, 2)
    m.viewport_origin(16, 78)
    for x in (42, 178, 322):
        m.move_to(x, 0)
        m.line_to(x, 252)
    # the favourite: its row inverted by a xor with white
    m.select(white)
    m.pat_blt(43, 30 + 37 * 2 + 1, 135, 36, PATINVERT)
    m.pat_blt(323, 30 + 37 * 2 + 1, 65, 36, DSTINVERT)

    # perforation between board and ticket
    m.viewport_origin(0, 0)
    m.rop2(R2_NOT)
    for y in range(72, 340, 8):
        m.move_to(413, y)
        m.line_to(413, y + 4)
    m.rop2(R2_COPYPEN)

    # the ticket, in coordinates of its own
    m.window_origin(-422, -78)
    m.select(black)
    frame(m, 0, 0, 138, 252)
    text(m, 'WIN', 10, 10, 4)
    m.pat_blt(92, 8, 36, 36, PATCOPY)
    m.select(white)
    text(m, '3', 101, 12, 4)
    m.select(black)
    text(m, 'DUSK BELL', 10, 54, 2)
    text(m, 'STAKE', 10, 76, 1)
    text(m, '20.00', 10, 88, 2)
    text(m, 'TICKET', 82, 76, 1)
    text(m, '4711', 82, 88, 2)
    # the price is made bold: a copy one cell to the right over itself
    m.bit_blt(11, 88, 60, 14, 10, 88, SRCAND)
    # the band's horseshoe once more, black on white: a source far outside the ticket
    m.bit_blt(49, 110, 40, 45, 20 - 422, 17 - 78, NOTSRCCOPY)
    # a bar code, drawn six cells too high and then moved down over itself
    x = 10
    for bar in '211412132113241122131411213':
        m.pat_blt(x, 212, int(bar), 26, PATCOPY)
        x += int(bar) + 2
    m.bit_blt(10, 218, 119, 26, 10, 212, SRCCOPY)
    m.pat_blt(10, 212, 119, 6, WHITENESS)
    m.window_origin(0, 0)

    # the line below scrolls: it is written to the right and moved left over itself
    m.viewport_origin(10, 340)
    m.pat_blt(0, 0, 556, 50, BLACKNESS)
    m.select(white)
    text(m, 'NEXT RACE 15:05  GOOD TO SOFT', 130, 16, 2)
    m.bit_blt(0, 8, 540, 34, 72, 8, SRCCOPY)
    m.pat_blt(412, 8, 144, 34, BLACKNESS)
    # the band's horseshoe, hatched: pattern and source
    m.create_brush(2, BLACK, BACKWARD)                  # slot 4
    m.select(4)
    m.bit_blt(10, 2, 40, 45, 10, 7 - 330, MERGECOPY)
    m.delete(4)
    m.create_brush(2, WHITE, DIAGONAL_CROSS)            # slot 4
    m.back_colour(BLACK)
    m.select(4)
    m.pat_blt(422, 10, 124, 30, PATCOPY)
    m.pat_blt(428, 14, 112, 22, BLACKNESS)
    m.select(white)
    text(m, 'PAY 42.00', 431, 18, 2)
    m.viewport_origin(0, 0)

    # refused: a mode that is none, and an index without an object
    m.rop2(17)
    m.select(7)

    # a rosette under the horseshoe, cut by the clip: lines in xor
    m.window_origin(-422, -78)
    m.intersect_clip(10, 162, 129, 212)
    m.select(white_pen)
    m.rop2(R2_XORPEN)
    rays = [p for i in range(0, 160, 4) for p in ((-11 + i, 147), (149 - i, 227))]
    rays += [p for i in range(0, 80, 4) for p in ((149, 147 + i), (-11, 227 - i))]
    for x, y in rays:
        m.move_to(69, 187)
        m.line_to(x, y)
    m.rop2(R2_NOP)
    m.line_to(0, 0)
    m.create_pen(5, 0, BLACK)                           # slot 5: a pen that draws nothing
    m.select(5)
    m.rop2(R2_BLACK)
    m.line_to(138, 252)
    m.select(pen)
    m.rop2(R2_COPYPEN)
    frame(m, 10, 162, 128, 211)
    m.raw(0x0626, 0x000F, 4, 0x4F54, 0x4554)            # META_ESCAPE, a comment: unlisted, passed over
    m.end()
    return m


def refused():
    m = Metafile(objects=2)
    m.pat_blt(8, 8, 560, 384, WHITENESS)                # taken
    # 6: sizes that are not in the table, also of the end record
    m.raw(0x020B, 0)
    m.raw(0x0214, 1, 2, 3)
    m.raw(0x0213, 1)
    m.raw(0x061D, 0x0042, 0x0000, 1, 1, 1)
    m.raw(0x0922, 0x0020, 0x00CC, 0, 0, 0, 1, 1, 1)
    m.raw(0x0104)
    m.raw(0x0104, 13, 0, 0)
    m.raw(0x0000, 0)
    # 7: upper half of a colour, also where the colour is not used, and before 9 and 10
    m.back_colour(WHITE, upper=0)
    m.create_brush(0, BLACK, upper=0x0200)
    m.create_pen(5, 0, BLACK, upper=0)
    m.create_brush(3, BLACK, upper=0x00FF)
    # 8: top byte, and a paint that depends on the source; before 9
    m.pat_blt(0, 0, 8, 8, 0x01F00021)
    m.pat_blt(0, 0, 8, 8, SRCCOPY)
    m.pat_blt(0, 0, -1, 8, SRCCOPY)
    m.bit_blt(0, 0, 8, 8, 1, 1, 0x80CC0020)
    # 9: mode, style, hatch, pen width, negative width and height
    m.rop2(0)
    m.rop2(17)
    m.create_brush(1, BLACK)
    m.create_brush(2, BLACK, 6)
    m.create_pen(1, 0, BLACK)
    m.create_pen(0, 2, BLACK)
    m.create_pen(0, -1, BLACK)
    m.pat_blt(0, 0, -1, 8, BLACKNESS)
    m.pat_blt(0, 0, 8, -1, BLACKNESS)
    m.bit_blt(0, 0, -8, 8, 1, 1, SRCCOPY)
    # 11: index without an object; 10: no empty slot
    m.select(0)
    m.create_brush(0, BLACK)                            # taken: slot 0
    m.create_pen(0, 0, BLACK)                           # taken: slot 1
    m.create_brush(2, BLACK, CROSS)
    m.create_pen(0, 1, BLACK)
    m.select(2)
    m.select(65535)
    m.delete(0)                                         # taken
    m.delete(0)
    m.create_brush(2, BLACK, CROSS)                     # taken: slot 0 again
    m.select(0)
    m.pat_blt(16, 16, 544, 368, PATCOPY)                # taken: a picture to see
    m.raw(0x0521, 4, 0x4F54, 0x4554, 100, 100)          # META_TEXTOUT: unlisted, passed over
    # 5: a record that states more words than are left
    m.raw(0x0214, 1, 2, size=500)
    return m


def main():
    here = os.path.dirname(os.path.abspath(__file__))
    folder = sys.argv[1] if len(sys.argv) > 1 else os.path.join(here, '..', 'samples')
    os.makedirs(folder, exist_ok=True)
    for name, make in (('empty', empty), ('ticket', ticket), ('refused', refused)):
        data = make().bytes()
        if len(data) > 65536:
            sys.exit('%s.wmf has %d bytes, more than 65536' % (name, len(data)))
        with open(os.path.join(folder, name + '.wmf'), 'wb') as out:
            out.write(data)
        print('%s.wmf: %d bytes, %d records' % (name, len(data), len(make().records)))


if __name__ == '__main__':
    main()
