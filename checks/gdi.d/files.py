#!/usr/bin/env python3
"""files.py FOLDER [SEED]: writes the metafiles of checks/gdi into FOLDER, and FOLDER/files.txt with a line for each:

    same|departs GROUP NAME whole|records|through

Files `same` keep to what GDI and docs/ define alike, and must give equal pictures. Files `departs` each have one thing
that Wine does in another way (docs/gdi.md); they are counted apart. `whole` files can be given to PlayMetaFile:
they have no META_BITBLT and no colours but 0 and 1. `records` and `through` are the other two ways of gdiplay.c.
"""
import math
import os
import random
import sys

top = os.path.dirname(os.path.dirname(os.path.dirname(os.path.abspath(__file__))))
sys.dont_write_bytecode = True
sys.path.insert(0, os.path.join(top, 'tools'))
from make_samples import Metafile, text

WIDTH, HEIGHT = 576, 400
PAINTS = (0x00, 0x05, 0x0A, 0x0F, 0x50, 0x55, 0x5A, 0x5F, 0xA0, 0xA5, 0xAA, 0xAF, 0xF0, 0xF5, 0xFA, 0xFF)
ALIKE = (1, 2, 3, 5)                # hatch styles that have the same lines in Wine


def tie(dx, dy):
    """Whether the line passes half way between two cells at one of its steps."""
    most = max(abs(dx), abs(dy))
    return most != 0 and most // math.gcd(dx, dy) % 2 == 0


def tie_apart(dx, dy):
    """Whether docs/ and Wine take a tie to different cells: Wine goes up or left, docs/ go towards the end."""
    return tie(dx, dy) and (dy > 0 if abs(dx) > abs(dy) else dx > 0)


class Scene(Metafile):
    """A metafile that knows its origins and its position. Arguments of the methods below are device cells."""

    def __init__(self, objects=8):
        super().__init__(objects)
        self.window = self.viewport = self.position = (0, 0)

    def to_logical(self, x, y):
        return x + self.window[0] - self.viewport[0], y + self.window[1] - self.viewport[1]

    def to_device(self, x, y):
        return x - self.window[0] + self.viewport[0], y - self.window[1] + self.viewport[1]

    def origins(self, window=None, viewport=None):
        if window is not None:
            self.window = window
            self.window_origin(*window)
        if viewport is not None:
            self.viewport = viewport
            self.viewport_origin(*viewport)

    def move(self, x, y):
        self.position = self.to_logical(x, y)
        self.move_to(*self.position)

    def draw(self, x, y):
        """A line from the position, left out where ties go apart or the numbers do not fit."""
        here = self.to_device(*self.position)
        if not tie_apart(x - here[0], y - here[1]):
            self.draw_any(x, y)

    def draw_any(self, x, y):
        end = self.to_logical(x, y)
        if all(-32768 <= n <= 32767 for n in end):
            self.line_to(*end)
            self.position = end

    def paint(self, x, y, w, h, code):
        self.pat_blt(*self.to_logical(x, y), w, h, code << 16)

    def copy(self, x, y, w, h, sx, sy, code):
        self.bit_blt(*self.to_logical(x, y), w, h, *self.to_logical(sx, sy), code << 16)

    def clip(self, left, top, right, bottom):
        self.intersect_clip(*self.to_logical(left, top), *self.to_logical(right, bottom))

    def scatter(self, r, count=150):
        """Inverts rectangles all over the picture, so that both words stand everywhere."""
        for _ in range(count):
            self.paint(r.randrange(-20, WIDTH), r.randrange(-20, HEIGHT), r.randrange(1, 90), r.randrange(1, 60), 0x55)

    def brush(self, slot, colour, style=0, hatch=0):
        self.create_brush(style, colour, hatch)
        self.select(slot)

    def pen(self, slot, colour, style=0, width=0):
        self.create_pen(style, width, colour)
        self.select(slot)


# --- random parts ---------------------------------------------------------------------------------------

def point(r, spread):
    """Inside the picture, or around it as far as spread."""
    return r.randrange(-spread, WIDTH + spread), r.randrange(-spread, HEIGHT + spread)


def some_lines(m, r, count, spread=0):
    for _ in range(count):
        if r.random() < 0.6:
            m.move(*point(r, spread))
        k = r.random()
        x, y = m.to_device(*m.position)
        if k < 0.1:
            m.draw(point(r, spread)[0], y)
        elif k < 0.2:
            m.draw(x, point(r, spread)[1])
        elif k < 0.3:
            d = r.randrange(-200, 201)
            m.draw(x + d, y + r.choice((d, -d)))
        else:
            m.draw(*point(r, spread))


def far_lines(m, r, count, spread):
    """Lines that begin far away, pass near a cell of the picture, and end beyond it."""
    for _ in range(count):
        (x, y), (a, b), t = point(r, 0), point(r, spread), r.random()
        m.move(a, b)
        m.draw(x + round((x - a) * t), y + round((y - b) * t))


def some_paints(m, r, count, codes=PAINTS, spread=30):
    for _ in range(count):
        m.paint(*point(r, spread), r.randrange(0, 130), r.randrange(0, 110), r.choice(codes))


def copy_apart(m, r, code, spread=0, step=1):
    """A copy whose source lies in the picture and does not touch the target; the target may cross the edge.
    The distance in x and the target's y are multiples of step: with 4, Wine does not shift hatches."""
    while True:
        w, h = r.randrange(1, 140), r.randrange(1, 120)
        sx, sy = r.randrange(0, WIDTH - w + 1), r.randrange(0, HEIGHT - h + 1)
        x, y = r.randrange(-spread, WIDTH - w + 1 + spread), r.randrange(-spread, HEIGHT - h + 1 + spread)
        x, y = x - (x - sx) % step, y - y % step
        if abs(x - sx) >= w or abs(y - sy) >= h:
            return m.copy(x, y, w, h, sx, sy, code)


def some_origins(m, r):
    k = r.random()
    window = (r.randrange(-300, 300), r.randrange(-300, 300)) if k < 0.6 else None
    viewport = (r.randrange(-300, 300), r.randrange(-300, 300)) if k > 0.4 else None
    m.origins(window, viewport)


def some_clip(m, r, step=1):
    """A clip of some size whose top is a multiple of step, as in copy_apart: the clip is a target's top."""
    left, top = r.randrange(-40, 200), r.randrange(-40, 150, step)
    m.clip(left, top, r.randrange(max(left, 300), WIDTH + 60), r.randrange(max(top, 200), HEIGHT + 60))


# --- files with equal pictures --------------------------------------------------------------------------

def paint_file(r, code, colour):
    """One code: rectangles in fields of their own, and some across the edge."""
    m = Scene()
    m.scatter(r)
    m.brush(0, colour)
    for x in range(0, WIDTH, 72):
        for y in range(0, HEIGHT, 50):
            a, b = r.randrange(0, 40), r.randrange(0, 30)
            m.paint(x + a, y + b, r.randrange(0, 73 - a), r.randrange(0, 51 - b), code)
    some_paints(m, r, 8, (code,), 90)
    return m


def copy_file(r, code):
    """One code with both brushes: from fields of the left half to fields of the right half, and back."""
    m = Scene()
    m.scatter(r)
    fields = [(x, y) for x in range(0, 288, 96) for y in range(0, 400, 80)]
    for slot, (source, target) in enumerate(((0, 288), (288, 0))):
        m.brush(slot, slot)
        places = fields[:]
        r.shuffle(places)
        for (sx, sy), (x, y) in zip(fields, places):
            w, h = r.randrange(1, 97), r.randrange(1, 81)
            m.copy(target + x + r.randrange(0, 97 - w), y + r.randrange(0, 81 - h), w, h,
                   source + sx + r.randrange(0, 97 - w), sy + r.randrange(0, 81 - h), code)
    return m


def edge_copy_file(r):
    """Targets across the edge, and clips: neither moves the source."""
    m = Scene()
    m.scatter(r)
    if r.random() < 0.5:
        some_clip(m, r)
    for slot in (0, 1):
        m.brush(slot, slot)
        for _ in range(12):
            copy_apart(m, r, r.randrange(256), 100)
    return m


def overlap_copy_file(r, code):
    """One code with both brushes: copies over themselves, by little or by more."""
    m = Scene()
    m.scatter(r)
    for slot in (0, 1):
        m.brush(slot, slot)
        for x in range(0, WIDTH, 192):
            for y in range(0, HEIGHT, 100):
                w, h = r.randrange(40, 150), r.randrange(40, 90)
                near = r.choice((3, 16, 40))
                m.copy(x + r.randrange(-near, near + 1), y + r.randrange(-near, near + 1), w, h, x, y, code)
    return m


def outside_copy_file(r):
    """Sources partly or wholly outside the picture, where S is 0."""
    m = Scene()
    m.scatter(r)
    for slot in (0, 1):
        m.brush(slot, slot)
        for _ in range(12):
            m.copy(*point(r, 40), r.randrange(0, 150), r.randrange(0, 100), *point(r, 150), r.randrange(256))
    return m


def line_file(r, spread):
    m = Scene()
    m.scatter(r, 20)
    m.pen(0, 1, width=1)
    m.rop2(7)
    some_lines(m, r, 60, spread)
    far_lines(m, r, 60 if spread > 100 else 0, spread)
    return m


def mode_file(r, mode, colour):
    m = Scene()
    m.scatter(r)
    m.pen(0, colour, width=r.randrange(2))
    m.rop2(mode)
    some_lines(m, r, 60, 30)
    return m


def clip_file(r, copies):
    m = Scene()
    m.scatter(r)
    m.pen(0, 1)
    m.rop2(6)
    for _ in range(r.randrange(1, 4)):
        some_clip(m, r)
        some_lines(m, r, 15, 60)
        some_paints(m, r, 8)
        if copies:
            for _ in range(4):
                copy_apart(m, r, r.randrange(256), 60)
    if r.random() < 0.3:                # nothing more is drawn
        m.clip(100, 100, 100, 200)
        some_paints(m, r, 4)
        some_lines(m, r, 4)
    return m


def origin_file(r, copies):
    """Origins also change between a move and a line, and after a clip."""
    m = Scene()
    m.scatter(r)
    m.pen(0, 1)
    m.rop2(7)
    m.brush(1, r.randrange(2))
    for _ in range(12):
        some_origins(m, r)
        some_lines(m, r, 4, 30)
        m.move(*point(r, 0))
        some_origins(m, r)
        m.draw(*point(r, 0))
        some_paints(m, r, 4)
        if copies:
            copy_apart(m, r, r.randrange(256), 30)
        if r.random() < 0.15:
            some_clip(m, r)
    return m


def hatch_file(r, style, colour, back):
    m = Scene()
    m.scatter(r)
    m.back_colour(back)
    m.brush(0, colour, 2, style)
    for i, code in enumerate(PAINTS):
        m.paint(i % 4 * 144 + r.randrange(12), i // 4 * 100 + r.randrange(12), r.randrange(90, 132), r.randrange(60, 88), code)
    m.origins((5, 3), (2, 9))           # hatches stay
    m.back_colour(1 - back)             # the brush takes the new colour
    some_paints(m, r, 10, (0xF0, 0x5A))
    return m


def hatch_copy_file(r, style, colour, back, step=4):
    m = Scene()
    m.scatter(r)
    m.back_colour(back)
    m.brush(0, colour, 2, style)
    for _ in range(24):
        copy_apart(m, r, r.randrange(256), 20, step)
    return m


class Table:
    """The object table as docs/runs.md states it, so that a file uses no index without an object."""

    def __init__(self, m):
        self.m, self.slots = m, [None] * m.objects

    def create(self, r, styles, colours):
        if None not in self.slots:
            return self.delete(r)
        self.slots[self.slots.index(None)] = True
        k = r.random()
        if k < 0.4:
            self.m.create_pen(r.choice((0, 0, 0, 5)), r.randrange(2), r.choice(colours))
        elif k < 0.7 or not styles:
            self.m.create_brush(0, r.choice(colours), r.randrange(9))
        else:
            self.m.create_brush(2, r.choice(colours), r.choice(styles))

    def taken(self):
        return [i for i, slot in enumerate(self.slots) if slot]

    def select(self, r):
        if self.taken():
            self.m.select(r.choice(self.taken()))

    def delete(self, r):
        if self.taken():
            index = r.choice(self.taken())
            self.slots[index] = None
            self.m.delete(index)


def object_file(r, colours, copies):
    """Objects in a table of 1 to 16 slots, deleted also while selected; lines and paints with each."""
    m = Scene(r.randrange(1, 17))
    table = Table(m)
    m.scatter(r, 60)
    for _ in range(40):
        for _ in range(r.randrange(4)):
            r.choice((table.create, lambda r, *_: table.select(r), lambda r, *_: table.delete(r)))(r, ALIKE, colours)
        table.select(r)
        some_lines(m, r, 2)
        some_paints(m, r, 1, (0xF0, 0x5A, 0xA5))
        if copies and r.random() < 0.3:
            copy_apart(m, r, r.randrange(256), 20, 4)
    return m


def mixed_file(r, colours, copies):
    m = Scene(r.randrange(2, 17))
    table = Table(m)
    m.scatter(r, 60)
    for _ in range(120):
        k = r.random()
        if k < 0.3:
            some_lines(m, r, 1, r.choice((0, 0, 50, 2000)))
        elif k < 0.45:
            some_paints(m, r, 1)
        elif k < 0.6:
            copy_apart(m, r, r.randrange(256), 60, 4) if copies else some_paints(m, r, 1, (0x55, 0x5A))
        elif k < 0.65:
            some_origins(m, r)
        elif k < 0.67:
            some_clip(m, r, 4)
        elif k < 0.75:
            m.rop2(r.randrange(1, 17), r.choice((None, 0)))
        elif k < 0.8:
            m.back_colour(r.choice(colours))
        elif k < 0.88:
            table.create(r, ALIKE, colours)
        elif k < 0.96:
            table.select(r)
        else:
            table.delete(r)
    return m


# --- files with one departure each ----------------------------------------------------------------------

def writing_file(*distance):
    """A line of writing, and if a distance (dx, dy) is given the line copied over itself."""
    m = Scene()
    m.paint(0, 0, WIDTH, HEIGHT, 0xFF)
    m.brush(0, 0)
    text(m, 'PAY 42.00', 42, 34, 2)
    if distance:
        m.copy(41 + distance[0], 30 + distance[1], 110, 22, 41, 30, 0xCC)
    return m


def tie_file(r, apart, spread=0):
    m = Scene()
    m.pen(0, 1)
    m.rop2(7)
    for _ in range(40):
        while True:
            (x0, y0), (x1, y1) = point(r, spread), point(r, spread)
            if tie(x1 - x0, y1 - y0) and tie_apart(x1 - x0, y1 - y0) == apart:
                break
        m.move(x0, y0)
        m.draw_any(x1, y1)
    return m


def outside_file(dx, dy):
    """A source that is partly outside the picture."""
    m = Scene()
    m.paint(0, 0, WIDTH, HEIGHT, 0xFF)
    m.copy(200, 150, 100, 80, dx, dy, 0xCC)
    return m


def turned_clip_file(*rectangle):
    """Left behind right, or top below bottom: no cell by docs/, the rectangle between the two in GDI."""
    m = Scene()
    m.clip(*rectangle)
    m.paint(0, 0, WIDTH, HEIGHT, 0xFF)
    return m


def bit_blt_file(r):
    """A copy in a file that PlayMetaFile plays."""
    m = Scene()
    m.scatter(r)
    copy_apart(m, r, 0xCC)
    return m


def all_files(seed):
    """Each file as (kind, group, name, how, scene)."""
    def rand(*words):
        return random.Random(' '.join(map(str, (seed,) + words)))

    def same(group, name, how, scene):
        return 'same', group, '%s-%s' % (group, name), how, scene

    def departs(group, name, how, scene):
        return 'departs', group, '%s-%s' % (group, name), how, scene

    many = (0, 1, 0xFFFE, 0xFFFF, 0x1234, 0x4321)
    for code in PAINTS:
        for colour in (0, 1):
            yield same('paint', '%02X-%d' % (code, colour), 'whole', paint_file(rand('paint', code, colour), code, colour))
    for code in range(256):
        yield same('copy', '%02X' % code, 'records', copy_file(rand('copy', code), code))
    for i in range(40):
        yield same('edge-copy', i, 'records', edge_copy_file(rand('edge-copy', i)))
    for code in range(256):
        yield same('overlap-copy', '%02X' % code, 'through', overlap_copy_file(rand('overlap-copy', code), code))
    for i in range(40):
        yield same('outside-copy', i, 'through', outside_copy_file(rand('outside-copy', i)))
    for i, spread in enumerate([0] * 20 + [100] * 20 + [3000] * 10 + [30000] * 10):
        yield same('line', '%d-%d' % (spread, i), 'whole', line_file(rand('line', i), spread))
    for i, spread in enumerate([0] * 5 + [3000] * 5):
        yield same('tie', '%d-%d' % (spread, i), 'whole', tie_file(rand('tie', i), False, spread))
    for mode in range(1, 17):
        for colour in (0, 1):
            yield same('mode', '%d-%d' % (mode, colour), 'whole', mode_file(rand('mode', mode, colour), mode, colour))
    for group, make in (('clip', clip_file), ('origin', origin_file)):
        for i in range(40):
            yield same(group, i, ('whole', 'records')[i % 2], make(rand(group, i), i % 2))
    for style in ALIKE:
        for colour in (0, 1):
            for back in (0, 1):
                name, words = '%d-%d-%d' % (style, colour, back), (style, colour, back)
                yield same('hatch', name, 'whole', hatch_file(rand('hatch', *words), *words))
                yield same('hatch-copy', name, 'records', hatch_copy_file(rand('hatch-copy', *words), *words))
    for group, make in (('object', object_file), ('mixed', mixed_file)):
        for i in range(60):
            colours, how = ((0, 1), 'whole') if i % 2 == 0 else (many, 'records')
            yield same(group, i, how, make(rand(group, i), colours, i % 2))
    yield same('writing', 'before', 'whole', writing_file())
    for dx, dy in ((8, 0), (8, 4), (16, 0)):
        yield departs('writing', '%+d%+d' % (dx, dy), 'records', writing_file(dx, dy))
    for code in range(256):
        yield departs('overlap', '%02X' % code, 'records', overlap_copy_file(rand('overlap-copy', code), code))
    for style in ALIKE:
        yield departs('hatch-copy', style, 'records', hatch_copy_file(rand('hatch-copy', style), style, 0, 1, 1))
    for style in (0, 4):
        for colour, back in ((0, 1), (1, 0)):
            yield departs('hatch', '%d-%d-%d' % (style, colour, back), 'whole',
                          hatch_file(rand('hatch', style, colour), style, colour, back))
    for i in range(4):
        yield departs('tie', 'apart-%d' % i, 'whole', tie_file(rand('tie-apart', i), True))
    for dx, dy in ((-40, -30), (526, 360), (-500, 0)):
        yield departs('outside', '%+d%+d' % (dx, dy), 'records', outside_file(dx, dy))
    yield departs('clip', 'columns', 'whole', turned_clip_file(300, 100, 200, 200))
    yield departs('clip', 'rows', 'whole', turned_clip_file(200, 200, 300, 100))
    for i in range(2):
        yield departs('bitblt-record', i, 'whole', bit_blt_file(rand('bitblt', i)))


def main():
    folder = sys.argv[1]
    seed = sys.argv[2] if len(sys.argv) > 2 else '1'
    with open(os.path.join(folder, 'files.txt'), 'w') as names:
        for kind, group, name, how, scene in all_files(seed):
            scene.end()
            data = scene.bytes()
            if len(data) > 65536:
                sys.exit('%s has %d bytes' % (name, len(data)))
            with open(os.path.join(folder, name + '.wmf'), 'wb') as out:
                out.write(data)
            names.write('%s %s %s %s\n' % (kind, group, name, how))


if __name__ == '__main__':
    main()
