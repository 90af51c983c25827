#!/usr/bin/env python3
"""A second player, written from the rules that docs/ states and sharing nothing with the proved one.

    player.py [--trace] < FILE.wmf > FILE.pbm

Plays a metafile on a one-bit picture of 576 x 400 cells, cell by cell, and writes what the program
wmftopbm writes: the PBM on standard output, the report on standard error, the same exit status.
Every cell is computed on its own from the definition; nothing is made fast, but words already made
are remembered.
"""
import functools
import sys

WIDTH, HEIGHT, DEPTH = 576, 400, 1
LONGEST = 65536

CAUSES = {
    1: 'width or height outside 1 to 4096',
    2: 'memory shorter than the picture',
    3: 'file shorter than 18 bytes or longer than 65536',
    4: 'header field out of range',
    5: 'no record lies here before the stated end',
    6: 'size not that of the function',
    7: 'upper half of a colour is not 0x0100',
    8: 'top byte of a raster operation is not 0, or a paint depends on the source',
    9: 'mode, style, hatch, pen width or size out of range',
    10: 'no empty slot in the object table',
    11: 'no object at the index',
    12: 'coordinate, width or height out of range',
    13: 'output buffer too short',
    14: 'picture without cells, or row outside it',
}

# function: (published name, the sizes in 16-bit words that it may have)
RECORDS = {
    0x0000: ('META_EOF', (3,)),
    0x020B: ('META_SETWINDOWORG', (5,)),
    0x020D: ('META_SETVIEWPORTORG', (5,)),
    0x0214: ('META_MOVETO', (5,)),
    0x0213: ('META_LINETO', (5,)),
    0x061D: ('META_PATBLT', (9,)),
    0x0922: ('META_BITBLT', (12,)),
    0x0416: ('META_INTERSECTCLIPRECT', (7,)),
    0x0104: ('META_SETROP2', (4, 5)),
    0x0201: ('META_SETBKCOLOR', (5,)),
    0x02FC: ('META_CREATEBRUSHINDIRECT', (7,)),
    0x02FA: ('META_CREATEPENINDIRECT', (8,)),
    0x012D: ('META_SELECTOBJECT', (4,)),
    0x01F0: ('META_DELETEOBJECT', (4,)),
}

USAGE = 'usage: player.py [--trace] < FILE.wmf > FILE.pbm'


class Fault(Exception):
    def __init__(self, number, place):
        self.number, self.place = number, place
        self.layer = 'file' if number <= 5 else 'record'


def u16(data, at):
    return data[at] + 256 * data[at + 1]


def s16(data, at):
    value = u16(data, at)
    return value - 65536 if value >= 32768 else value


def u32(data, at):
    return u16(data, at) + 65536 * u16(data, at + 2)


# --- bits -------------------------------------------------------------------------------------------

def bit(k, n):
    return n // 2 ** k % 2


@functools.lru_cache(maxsize=None)
def combined(code, pattern, source, picture):
    """Ternary raster operation: bits P, S and D give bit 4P + 2S + D of the code."""
    return sum(2 ** k * bit(4 * bit(k, pattern) + 2 * bit(k, source) + bit(k, picture), code) for k in range(16))


@functools.lru_cache(maxsize=None)
def mixed(mode, pen, picture):
    """Line mode: bits p and q give bit 2p + q of mode - 1."""
    return sum(2 ** k * bit(2 * bit(k, pen) + bit(k, picture), mode - 1) for k in range(16))


def depends_on_source(code):
    for pattern in (0, 1):
        for picture in (0, 1):
            if bit(4 * pattern + picture, code) != bit(4 * pattern + 2 + picture, code):
                return True
    return False


def on_hatch_line(style, x, y):
    a, b = x % 8, y % 8
    if style == 0:
        return b == 4
    if style == 1:
        return a == 4
    if style == 2:
        return a == b
    if style == 3:
        return a + b == 7
    if style == 4:
        return on_hatch_line(0, x, y) or on_hatch_line(1, x, y)
    return on_hatch_line(2, x, y) or on_hatch_line(3, x, y)


# --- the picture ------------------------------------------------------------------------------------

class Picture:
    def __init__(self):
        self.rows = [[0] * WIDTH for _ in range(HEIGHT)]

    def inside(self, x, y):
        return 0 <= x < WIDTH and 0 <= y < HEIGHT

    def word(self, x, y):
        return self.rows[y][x] if self.inside(x, y) else 0

    def set(self, x, y, value):
        if self.inside(x, y):
            self.rows[y][x] = value % 2 ** DEPTH


# --- the run ----------------------------------------------------------------------------------------

def check(data):
    """The file up to its stated end, and the number of slots."""
    if not 18 <= len(data) <= LONGEST:
        raise Fault(3, 0)
    words, objects = u32(data, 6), u16(data, 10)
    if (u16(data, 0) not in (1, 2) or u16(data, 2) != 9 or u16(data, 4) not in (0x0100, 0x0300)
            or words < 12 or 2 * words > len(data) or objects > 16):
        raise Fault(4, 0)
    return data[:2 * words], objects


class Run:
    def __init__(self, data, objects, picture):
        self.data, self.picture = data, picture
        self.place, self.ended = 18, False
        self.position = self.window = self.viewport = (0, 0)
        self.slots = [None] * objects
        self.taken = self.refused = self.passed = 0
        # the pencil
        self.clip = (0, 0, 4096, 4096)
        self.pen = 0            # a colour, or None
        self.mode = 13
        self.brush = ('solid', 65535)
        self.back = 65535

    def device(self, x, y):
        return (x - self.window[0] + self.viewport[0], y - self.window[1] + self.viewport[1])

    def frame(self):
        """The size in words and the function of the record at the run's place."""
        left = len(self.data) - self.place
        if left < 6:
            raise Fault(5, self.place)
        size = u32(self.data, self.place)
        if size < 3 or 2 * size > left:
            raise Fault(5, self.place)
        return size, u16(self.data, self.place + 4)

    def name(self):
        try:
            size, function = self.frame()
        except Fault:
            return '-'
        return RECORDS[function][0] if function in RECORDS else '0x%04X' % function

    def step(self):
        """taken, passed over or ended; raises Fault for a refusal."""
        if self.ended:
            return 'ended'
        size, function = self.frame()
        at, behind = self.place, self.place + 2 * size
        if function not in RECORDS:
            self.place, self.passed = behind, self.passed + 1
            return 'passed over'
        try:
            if size not in RECORDS[function][1]:
                raise Fault(6, at)
            if function == 0x0000:
                self.ended = True
                return 'ended'
            self.play(function, at + 6, at)
        except Fault:
            self.place, self.refused = behind, self.refused + 1
            raise
        self.place, self.taken = behind, self.taken + 1
        return 'taken'

    def colour(self, p, at):
        value = u32(self.data, p)
        if value // 65536 != 0x0100:
            raise Fault(7, at)
        return value % 65536

    def code(self, p, at):
        value = u32(self.data, p)
        if value // 2 ** 24 != 0:
            raise Fault(8, at)
        return value // 65536

    def place_object(self, thing, at):
        for index, held in enumerate(self.slots):
            if held is None:
                self.slots[index] = thing
                return
        raise Fault(10, at)

    def object_index(self, p, at):
        index = u16(self.data, p)
        if index >= len(self.slots) or self.slots[index] is None:
            raise Fault(11, at)
        return index

    def play(self, function, p, at):
        data = self.data
        if function == 0x020B:
            self.window = (s16(data, p + 2), s16(data, p))
        elif function == 0x020D:
            self.viewport = (s16(data, p + 2), s16(data, p))
        elif function == 0x0214:
            self.position = (s16(data, p + 2), s16(data, p))
        elif function == 0x0213:
            end = (s16(data, p + 2), s16(data, p))
            self.line(self.device(*self.position), self.device(*end))
            self.position = end
        elif function == 0x061D:
            code = self.code(p, at)
            if depends_on_source(code):
                raise Fault(8, at)
            h, w, y, x = (s16(data, p + 4 + 2 * i) for i in range(4))
            if w < 0 or h < 0:
                raise Fault(9, at)
            x, y = self.device(x, y)
            self.blt(x, y, w, h, None, code)
        elif function == 0x0922:
            code = self.code(p, at)
            sy, sx, _, h, w, y, x = (s16(data, p + 4 + 2 * i) for i in range(7))
            if w < 0 or h < 0:
                raise Fault(9, at)
            x, y = self.device(x, y)
            self.blt(x, y, w, h, self.device(sx, sy), code)
        elif function == 0x0416:
            bottom, right, top, left = (s16(data, p + 2 * i) for i in range(4))
            left, top = self.device(left, top)
            right, bottom = self.device(right, bottom)
            a, b, c, d = self.clip
            self.clip = (max(a, left), max(b, top), min(c, right), min(d, bottom))
        elif function == 0x0104:
            mode = u16(data, p)
            if not 1 <= mode <= 16:
                raise Fault(9, at)
            self.mode = mode
        elif function == 0x0201:
            self.back = self.colour(p, at)
        elif function == 0x02FC:
            style, colour, hatch = u16(data, p), self.colour(p + 2, at), u16(data, p + 6)
            if style == 0:
                brush = ('solid', colour)
            elif style == 2 and hatch <= 5:
                brush = ('hatched', hatch, colour)
            else:
                raise Fault(9, at)
            self.place_object(('brush', brush), at)
        elif function == 0x02FA:
            style, width, colour = u16(data, p), s16(data, p + 2), self.colour(p + 6, at)
            if style not in (0, 5) or width not in (0, 1):
                raise Fault(9, at)
            self.place_object(('pen', colour if style == 0 else None), at)
        elif function == 0x012D:
            kind, thing = self.slots[self.object_index(p, at)]
            if kind == 'pen':
                self.pen = thing
            else:
                self.brush = thing
        elif function == 0x01F0:
            self.slots[self.object_index(p, at)] = None

    # --- drawing ------------------------------------------------------------------------------------

    def in_clip(self, x, y):
        left, top, right, bottom = self.clip
        return left <= x < right and top <= y < bottom

    def line(self, start, end):
        if self.pen is None:
            return
        (x0, y0), (x1, y1) = start, end
        X, Y = abs(x1 - x0), abs(y1 - y0)
        dx, dy = (1 if x1 >= x0 else -1), (1 if y1 >= y0 else -1)
        cells = []
        if X >= Y:
            for i in range(X):
                cells.append((x0 + dx * i, y0 + dy * ((2 * i * Y + X) // (2 * X))))
        else:
            for i in range(Y):
                cells.append((x0 + dx * ((2 * i * X + Y) // (2 * Y)), y0 + dy * i))
        for x, y in cells:
            if self.in_clip(x, y):
                self.picture.set(x, y, mixed(self.mode, self.pen, self.picture.word(x, y)))

    def ink(self, x, y):
        if self.brush[0] == 'solid':
            return self.brush[1]
        return self.brush[2] if on_hatch_line(self.brush[1], x, y) else self.back

    def blt(self, x, y, w, h, source, code):
        new = []
        for j in range(h):
            if not (0 <= y + j < HEIGHT and self.clip[1] <= y + j < self.clip[3]):
                continue
            for i in range(w):
                cx, cy = x + i, y + j
                if not (self.picture.inside(cx, cy) and self.in_clip(cx, cy)):
                    continue
                s = 0 if source is None else self.picture.word(source[0] + i, source[1] + j)
                new.append((cx, cy, combined(code, self.ink(cx, cy), s, self.picture.word(cx, cy))))
        for cx, cy, value in new:
            self.picture.set(cx, cy, value)


# --- out --------------------------------------------------------------------------------------------

def pbm(picture):
    out = bytearray(b'P4\n%d %d\n' % (WIDTH, HEIGHT))
    for y in range(HEIGHT):
        bits = ''.join(str(1 - word % 2) for word in picture.rows[y])
        bits += '0' * (-WIDTH % 8)
        out += bytes(int(bits[i:i + 8], 2) for i in range(0, len(bits), 8))
    return bytes(out)


def refusal(fault):
    return '%d at byte %d (%s): %s' % (fault.number, fault.place, fault.layer, CAUSES[fault.number])


def play(data, trace=False):
    """The exit status, and what goes to standard output and to standard error."""
    lines = []
    try:
        data, objects = check(data[:LONGEST + 1])
    except Fault as fault:
        return 1, b'', 'refused ' + refusal(fault) + '\n'
    picture = Picture()
    run = Run(data, objects, picture)
    refusals, stopped, answer = [], None, ''
    while answer != 'ended' and stopped is None:
        place, name = run.place, run.name()
        try:
            answer = run.step()
        except Fault as fault:
            answer = 'refused %d %s' % (fault.number, fault.layer)
            if fault.layer == 'file':
                stopped = fault
            else:
                refusals.append(fault)
        if trace:
            lines.append('%d %s %s' % (place, name, answer))
    for fault in refusals[:20]:
        lines.append('refused ' + refusal(fault))
    if len(refusals) > 20:
        lines.append('and %d more refused' % (len(refusals) - 20))
    if stopped is not None:
        lines.append('stopped: ' + refusal(stopped))
    lines.append('taken %d, refused %d, passed over %d' % (run.taken, run.refused, run.passed))
    return 0, pbm(picture), ''.join(line + '\n' for line in lines)


def main(words):
    if words not in ([], ['--trace']):
        print(USAGE, file=sys.stderr)
        return 1
    status, out, report = play(sys.stdin.buffer.read(LONGEST + 1), trace=words == ['--trace'])
    sys.stdout.buffer.write(out)
    sys.stderr.write(report)
    return status


if __name__ == '__main__':
    sys.exit(main(sys.argv[1:]))
