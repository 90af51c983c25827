//! Made-up metafiles. File number `index` of a seed depends on these two numbers alone.

/// SplitMix64.
pub struct Random(u64);

impl Random {
    pub fn new(seed: u64, index: u64) -> Random {
        let mut random = Random(seed.wrapping_mul(0xD134_2543_DE82_EF95) ^ index.wrapping_mul(0x2545_F491_4F6C_DD1D));
        random.next();
        random
    }

    pub fn next(&mut self) -> u64 {
        self.0 = self.0.wrapping_add(0x9E37_79B9_7F4A_7C15);
        let z = (self.0 ^ self.0 >> 30).wrapping_mul(0xBF58_476D_1CE4_E5B9);
        let z = (z ^ z >> 27).wrapping_mul(0x94D0_49BB_1331_11EB);
        z ^ z >> 31
    }

    /// From `low` to `high`, both included.
    pub fn within(&mut self, low: i64, high: i64) -> i64 {
        low + (self.next() % (high - low + 1) as u64) as i64
    }

    pub fn percent(&mut self, part: u64) -> bool {
        self.next() % 100 < part
    }

    pub fn pick<T: std::marker::Copy>(&mut self, all: &[T]) -> T {
        all[self.next() as usize % all.len()]
    }

    pub fn word(&mut self) -> u16 {
        self.next() as u16
    }
}

pub const KINDS: [(&str, fn(&mut Random) -> Vec<u8>); 12] = [
    ("sound", sound),
    ("ends of types", ends),
    ("refused", refused),
    ("refused in pairs", pairs),
    ("length", length),
    ("header", header),
    ("frame", frame),
    ("truncated", truncated),
    ("bit-flipped", flipped),
    ("bytes behind the end", behind),
    ("near 65536 bytes", long),
    ("any words", soup),
];

#[derive(Clone, std::marker::Copy, PartialEq, Debug)]
enum Kind {
    Window,
    Viewport,
    Move,
    Line,
    Paint,
    Copy,
    Clip,
    Mode,
    Back,
    Brush,
    Pen,
    Select,
    Delete,
    Unlisted,
}

use Kind::*;

const ALL: [Kind; 14] = [Window, Viewport, Move, Line, Paint, Copy, Clip, Mode, Back, Brush, Pen, Select, Delete, Unlisted];
const OFTEN: [Kind; 25] = [
    Window, Viewport, Clip, Move, Move, Line, Line, Line, Line, Line, Paint, Paint, Paint, Paint, Copy, Copy, Copy, Copy, Mode, Back, Brush,
    Pen, Select, Select, Delete,
];
const PAINTS: [u8; 16] = [0x00, 0x05, 0x0A, 0x0F, 0x50, 0x55, 0x5A, 0x5F, 0xA0, 0xA5, 0xAA, 0xAF, 0xF0, 0xF5, 0xFA, 0xFF];
const ENDS: [i64; 16] = [-32768, -32767, -32766, -1, 0, 1, 7, 8, 399, 400, 575, 576, 4095, 4096, 32766, 32767];

/// A file in the making, with what is needed to know which records are sound.
struct Maker<'r> {
    r: &'r mut Random,
    ends: bool,
    window: (i64, i64),
    viewport: (i64, i64),
    slots: Vec<bool>,
    body: Vec<u8>,
}

impl<'r> Maker<'r> {
    fn new(r: &'r mut Random, objects: usize, ends: bool) -> Maker<'r> {
        Maker { r, ends, window: (0, 0), viewport: (0, 0), slots: vec![false; objects], body: vec![] }
    }

    fn put(&mut self, size: u32, function: u16, words: &[u16]) {
        self.body.extend(size.to_le_bytes());
        self.body.extend(function.to_le_bytes());
        words.iter().for_each(|word| self.body.extend(word.to_le_bytes()));
    }

    fn add(&mut self, function: u16, words: &[u16]) {
        self.put(3 + words.len() as u32, function, words);
    }

    fn end(&mut self) {
        self.add(0, &[]);
    }

    fn file(self) -> Vec<u8> {
        let words = (18 + self.body.len() as u32) / 2;
        let mut out = vec![];
        out.extend(self.r.pick(&[1u16, 2]).to_le_bytes());
        out.extend(9u16.to_le_bytes());
        out.extend(self.r.pick(&[0x0100u16, 0x0300]).to_le_bytes());
        out.extend(words.to_le_bytes());
        out.extend((self.slots.len() as u16).to_le_bytes());
        out.extend((self.r.next() as u32).to_le_bytes());
        out.extend(self.r.word().to_le_bytes());
        out.extend(self.body);
        out
    }

    /// A logical coordinate: mostly one whose device cell is in or near the picture, sometimes far, or an end of the type.
    fn coordinate(&mut self, vertical: bool) -> i64 {
        let (window, viewport, near) = match vertical {
            false => (self.window.0, self.viewport.0, 576),
            true => (self.window.1, self.viewport.1, 400),
        };
        if self.r.percent(if self.ends { 35 } else { 2 }) {
            return self.r.pick(&ENDS);
        }
        let device = if self.r.percent(88) { self.r.within(-8, near + 8) } else { self.r.within(-1500, 1500) };
        let logical = device + window - viewport;
        if (-32768..=32767).contains(&logical) { logical } else { self.r.within(-32768, 32767) }
    }

    fn extent(&mut self) -> i64 {
        match self.r.within(0, 99) {
            0..=79 => self.r.within(0, 90),
            80..=95 => self.r.within(0, 700),
            _ => self.r.pick(&[0, 1, 7, 8, 9, 32766, 32767]),
        }
    }

    fn origin(&mut self) -> (i64, i64) {
        if self.ends {
            let far = [-32768, -32767, -16384, -1, 0, 1, 16384, 32766, 32767];
            return (self.r.pick(&far), self.r.pick(&far));
        }
        (self.r.within(-70, 70), self.r.within(-70, 70))
    }

    fn colour(&mut self) -> u16 {
        let any = self.r.word();
        self.r.pick(&[0, 1, 0xFFFE, 0xFFFF, any, any])
    }

    /// Function and parameters of a record that has no cause from 6 to 9.
    fn sound(&mut self, kind: Kind) -> (u16, Vec<u16>) {
        let (x, y) = (self.coordinate(false), self.coordinate(true));
        let (w, h) = (self.extent(), self.extent());
        let low = self.r.word();
        match kind {
            Window | Viewport => {
                let (x, y) = self.origin();
                (if kind == Window { 0x020B } else { 0x020D }, vec![y as u16, x as u16])
            }
            Move => (0x0214, vec![y as u16, x as u16]),
            Line => (0x0213, vec![y as u16, x as u16]),
            Paint => (0x061D, vec![low, self.r.pick(&PAINTS) as u16, h as u16, w as u16, y as u16, x as u16]),
            Copy => {
                let code = if self.r.percent(30) { 0xCC } else { self.r.word() & 0xFF };
                let (sx, sy) = match self.r.percent(70) {
                    true => ((x + self.r.within(-20, 20)).clamp(-32768, 32767), (y + self.r.within(-12, 12)).clamp(-32768, 32767)),
                    false => (self.coordinate(false), self.coordinate(true)),
                };
                (0x0922, vec![low, code, sy as u16, sx as u16, self.r.word(), h as u16, w as u16, y as u16, x as u16])
            }
            Clip => {
                let near = |at: i64| at.clamp(-32768, 32767) as u16;
                let (left, top) = (self.window.0 - self.viewport.0, self.window.1 - self.viewport.1);
                let (a, b) = (self.r.within(-30, 120), self.r.within(-30, 90));
                let (c, d) = (self.r.within(400, 600), self.r.within(300, 420));
                match self.r.percent(if self.ends { 60 } else { 97 }) {
                    true => (0x0416, vec![near(top + d), near(left + c), near(top + b), near(left + a)]),
                    false => (0x0416, vec![self.coordinate(true) as u16, self.coordinate(false) as u16, y as u16, x as u16]),
                }
            }
            Mode => {
                let mut words = vec![self.r.within(1, 16) as u16];
                if self.r.percent(50) {
                    words.push(low);
                }
                (0x0104, words)
            }
            Back => (0x0201, vec![self.colour(), 0x0100]),
            Brush => match self.r.percent(30) {
                true => (0x02FC, vec![0, self.colour(), 0x0100, low]),
                false => (0x02FC, vec![2, self.colour(), 0x0100, self.r.within(0, 5) as u16]),
            },
            Pen => {
                let style = self.r.pick(&[0, 0, 0, 0, 5]);
                (0x02FA, vec![style, self.r.pick(&[0, 1]), low, self.colour(), 0x0100])
            }
            Select => (0x012D, vec![self.full_slot() as u16]),
            Delete => (0x01F0, vec![self.full_slot() as u16]),
            Unlisted => {
                let function = self.r.pick(&[0x0001, 0x0103, 0x0204, 0x0212, 0x0215, 0x0521, 0x0626, 0x0940, 0x1D06, 0x0B02, 0xFFFF, low]);
                let function = if second::file::listed(function).is_some() { 0x0103 } else { function };
                let count = self.r.pick(&[0, 1, 2, 3, 6, 9, 30]);
                (function, (0..count).map(|_| self.r.word()).collect())
            }
        }
    }

    fn full_slot(&mut self) -> usize {
        let full: Vec<usize> = (0..self.slots.len()).filter(|&i| self.slots[i]).collect();
        if full.is_empty() { 0 } else { self.r.pick(&full) }
    }

    /// Adds a sound record, after what it needs of the object table.
    fn add_sound(&mut self, kind: Kind) {
        let none = self.slots.iter().all(|full| !full);
        let all = self.slots.iter().all(|full| *full);
        match kind {
            Brush | Pen | Select | Delete if self.slots.is_empty() => return,
            Brush | Pen if all => self.add_sound(Delete),
            Select | Delete if none => {
                let kind = self.r.pick(&[Brush, Pen]);
                self.add_sound(kind);
            }
            _ => {}
        }
        let (function, words) = self.sound(kind);
        let origin = |words: &[u16]| (words[1] as i16 as i64, words[0] as i16 as i64);
        match kind {
            Window => self.window = origin(&words),
            Viewport => self.viewport = origin(&words),
            Brush | Pen => {
                let slot = self.slots.iter().position(|full| !full).unwrap();
                self.slots[slot] = true;
            }
            Delete => self.slots[words[0] as usize] = false,
            _ => {}
        }
        self.add(function, &words);
    }

    /// Adds a record that has these causes, or as many of them as its kind can have.
    fn add_refused(&mut self, kind: Kind, causes: &[u8]) {
        if causes.contains(&10) {
            while self.slots.iter().any(|full| !full) {
                let kind = self.r.pick(&[Brush, Pen]);
                self.add_sound(kind);
            }
        }
        let (function, mut words) = self.sound(kind);
        for &cause in causes.iter().rev() {
            self.spoil(kind, cause, causes.len() > 1, &mut words);
        }
        self.add(function, &words);
    }

    fn spoil(&mut self, kind: Kind, cause: u8, gently: bool, words: &mut Vec<u16>) {
        let upper = self.r.pick(&[0x0000, 0x0001, 0x00FF, 0x0101, 0x0200, 0x1000, 0x8100, 0xFFFF]);
        let negative = self.r.pick(&[-1, -2, -32768, -32767]) as u16;
        match (cause, kind) {
            (6, _) => {
                let more = self.r.within(1, 5) as usize;
                if gently && self.r.percent(80) || self.r.percent(50) || words.is_empty() {
                    (0..more).for_each(|_| words.push(0));
                    if kind == Mode && words.len() == 2 {
                        words.push(0);
                    }
                } else {
                    words.truncate(words.len().saturating_sub(more));
                }
            }
            (7, Back) => words[1] = upper,
            (7, Brush) => words[2] = upper,
            (7, Pen) => words[4] = upper,
            (8, Paint) if self.r.percent(60) => {
                let code = self.r.word() & 0xFF;
                words[1] = if second::codes::depends_on_source(code as u8) { code } else { 0xCC };
                if self.r.percent(20) {
                    words[1] |= 0x8000;
                }
            }
            (8, _) => words[1] |= self.r.pick(&[0x0100, 0x0200, 0x8000, 0xFF00]),
            (9, Paint) => words[if self.r.percent(50) { 2 } else { 3 }] = negative,
            (9, Copy) => words[if self.r.percent(50) { 5 } else { 6 }] = negative,
            (9, Mode) => words[0] = self.r.pick(&[0, 17, 18, 0x0100, 0x0D00, 0x8001, 0xFFFF]),
            (9, Brush) if self.r.percent(50) => words[0] = self.r.pick(&[1, 3, 4, 5, 6, 0x0200, 0x0100, 0xFFFF]),
            (9, Brush) => (words[0], words[3]) = (2, self.r.pick(&[6, 7, 8, 0x0100, 0x0105, 0x8000, 0xFFFF])),
            (9, Pen) if self.r.percent(50) => words[0] = self.r.pick(&[1, 2, 3, 4, 6, 7, 0x0100, 0x0500, 0xFFFF]),
            (9, Pen) => words[1] = self.r.pick(&[2, 3, 0x0100, 0x8000, 0x8001, 0xFFFF]),
            (11, _) => {
                let empty: Vec<u16> = (0..self.slots.len()).filter(|&i| !self.slots[i]).map(|i| i as u16).collect();
                let beyond = self.slots.len() as u16;
                words[0] = match self.r.percent(50) && !empty.is_empty() {
                    true => self.r.pick(&empty),
                    false => self.r.pick(&[beyond, beyond + 1, 16, 17, 255, 256, 0x8000, 0xFFFF]).max(beyond),
                }
            }
            _ => {}
        }
    }

    /// A white or black ground, then so many records of any kind.
    fn fill(&mut self, records: i64) {
        if self.r.percent(60) {
            self.add(0x061D, &[0x0062, 0x00FF, 400, 576, 0, 0]);
        }
        for _ in 0..records {
            let kind = if self.r.percent(4) { self.r.pick(&ALL) } else { self.r.pick(&OFTEN) };
            self.add_sound(kind);
        }
    }
}

/// Every kind at least once, in any order, then others.
fn all_kinds(r: &mut Random, ends: bool) -> Vec<u8> {
    let objects = r.within(1, 16) as usize;
    let records = r.within(0, 90);
    let mut m = Maker::new(r, objects, ends);
    if m.r.percent(40) {
        for _ in 0..objects {
            let kind = m.r.pick(&[Brush, Brush, Pen]);
            m.add_sound(kind); // a full table
        }
    }
    m.fill(records / 2);
    let mut order = ALL.to_vec();
    while !order.is_empty() {
        let next = m.r.next() as usize % order.len();
        let kind = order.swap_remove(next);
        m.add_sound(kind);
    }
    m.fill(records / 2);
    m.end();
    m.file()
}

fn sound(r: &mut Random) -> Vec<u8> {
    all_kinds(r, false)
}

fn ends(r: &mut Random) -> Vec<u8> {
    all_kinds(r, true)
}

const SINGLE: [(Kind, u8); 29] = [
    (Window, 6), (Viewport, 6), (Move, 6), (Line, 6), (Paint, 6), (Copy, 6), (Clip, 6), (Mode, 6), (Back, 6), (Brush, 6), (Pen, 6),
    (Select, 6), (Delete, 6), (Back, 7), (Brush, 7), (Pen, 7), (Paint, 8), (Paint, 8), (Copy, 8), (Paint, 9), (Copy, 9), (Mode, 9),
    (Brush, 9), (Pen, 9), (Pen, 9), (Brush, 10), (Pen, 10), (Select, 11), (Delete, 11),
];

const SEVERAL: [(Kind, &[u8]); 28] = [
    (Back, &[6, 7]), (Brush, &[6, 7]), (Pen, &[6, 7]), (Paint, &[6, 8]), (Copy, &[6, 8]), (Paint, &[6, 9]), (Copy, &[6, 9]),
    (Mode, &[6, 9]), (Brush, &[6, 9]), (Pen, &[6, 9]), (Brush, &[6, 10]), (Pen, &[6, 10]), (Select, &[6, 11]), (Delete, &[6, 11]),
    (Brush, &[7, 9]), (Pen, &[7, 9]), (Brush, &[7, 10]), (Pen, &[7, 10]), (Paint, &[8, 9]), (Copy, &[8, 9]), (Brush, &[9, 10]),
    (Pen, &[9, 10]), (Brush, &[7, 9, 10]), (Pen, &[7, 9, 10]), (Paint, &[6, 8, 9]), (Copy, &[6, 8, 9]), (Brush, &[6, 7, 9, 10]),
    (Pen, &[6, 7, 9, 10]),
];

fn refused(r: &mut Random) -> Vec<u8> {
    let objects = r.within(0, 6) as usize;
    let records = r.within(1, 60);
    let mut m = Maker::new(r, objects, false);
    m.fill(records / 3);
    for _ in 0..records {
        if m.r.percent(6) {
            m.put(4, 0, &[0]); // an end record of another size
        } else if m.r.percent(60) {
            let (kind, cause) = m.r.pick(&SINGLE);
            m.add_refused(kind, &[cause]);
        }
        m.fill(1);
    }
    m.end();
    m.file()
}

fn pairs(r: &mut Random) -> Vec<u8> {
    let objects = r.within(0, 4) as usize;
    let records = r.within(1, 50);
    let mut m = Maker::new(r, objects, false);
    for _ in 0..records {
        let (kind, causes) = m.r.pick(&SEVERAL);
        m.add_refused(kind, causes);
        let kind = m.r.pick(&OFTEN);
        m.add_sound(kind);
    }
    m.end();
    m.file()
}

/// Too short or too long, also with a wrong header.
fn length(r: &mut Random) -> Vec<u8> {
    let mut data = if r.percent(50) { sound(r) } else { header(r) };
    if r.percent(50) {
        data.truncate(r.within(0, 17) as usize);
    } else {
        let more = r.pick(&[65537, 65538, 65540, 66000, 70000]);
        data.resize(more, r.pick(&[0, 3, 255]));
    }
    data
}

/// One header field or several at the edge of what they must be, on either side.
fn header(r: &mut Random) -> Vec<u8> {
    let mut data = if r.percent(30) { smallest() } else { sound(r) };
    let half = (data.len() / 2) as u32;
    for _ in 0..r.pick(&[1, 1, 1, 2, 3]) {
        match r.within(0, 4) {
            0 => data[0..2].copy_from_slice(&r.pick(&[0u16, 1, 2, 3, 0x0101, 0x0100, 0x0201, 0xFFFF]).to_le_bytes()),
            1 => data[2..4].copy_from_slice(&r.pick(&[0u16, 8, 9, 10, 18, 0x0900, 0x0109, 0xFFFF]).to_le_bytes()),
            2 => data[4..6].copy_from_slice(&r.pick(&[0u16, 0x0100, 0x0300, 0x0200, 0x0101, 0x0301, 0x0400, 3, 0xFFFF]).to_le_bytes()),
            3 => {
                let size = r.pick(&[0, 1, 9, 11, 12, 13, half - 1, half, half + 1, half + 2, half | 1 << 31, half | 1 << 31, half | 1 << 31, 1 << 31, u32::MAX, u32::MAX / 2]);
                data[6..10].copy_from_slice(&size.to_le_bytes());
            }
            _ => data[10..12].copy_from_slice(&r.pick(&[0u16, 15, 16, 17, 255, 256, 0x1000, 0xFFFF]).to_le_bytes()),
        }
    }
    if r.percent(10) {
        data.push(0); // an odd number of bytes
    }
    data
}

fn smallest() -> Vec<u8> {
    vec![1, 0, 9, 0, 0, 3, 12, 0, 0, 0, 0, 0, 3, 0, 0, 0, 0, 0, 3, 0, 0, 0, 0, 0]
}

/// No record where one should lie.
fn frame(r: &mut Random) -> Vec<u8> {
    let objects = r.within(0, 4) as usize;
    let records = r.within(1, 30);
    let mut m = Maker::new(r, objects, false);
    m.fill(records);
    let kind = m.r.pick(&ALL);
    let (function, words) = m.sound(kind);
    let function = if m.r.percent(15) { 0 } else { function };
    let left = 3 + words.len() as u32;
    match m.r.within(0, 3) {
        0 => {}
        1 => {
            for _ in 0..m.r.within(1, 2) {
                m.body.extend([3, 0]);
            }
        }
        2 => {
            let size = m.r.within(0, 2) as u32;
            m.put(size, function, &words);
        }
        _ => {
            let size = m.r.pick(&[left + 1, left + 2, left | 1 << 31, 1 << 31 | 3, 0xFFFF, 0x10003, u32::MAX, u32::MAX / 2, 1 << 31]);
            m.put(size, function, &words);
        }
    }
    let mut data = m.file();
    if data.len() < 24 {
        data.resize(24, 0);
    }
    data
}

fn any_other(r: &mut Random) -> Vec<u8> {
    let make = r.pick(&[sound, ends, refused, pairs, frame, soup]);
    make(r)
}

/// States the number of bytes as it is, if they are enough for a header.
fn restate(data: &mut [u8]) {
    if data.len() >= 18 {
        let words = (data.len() / 2) as u32;
        data[6..10].copy_from_slice(&words.to_le_bytes());
    }
}

fn truncated(r: &mut Random) -> Vec<u8> {
    let mut data = any_other(r);
    let keep = if r.percent(20) { r.within(0, 30) } else { r.within(0, data.len() as i64 - 1) };
    data.truncate(keep as usize);
    if r.percent(75) {
        restate(&mut data);
    }
    data
}

fn flipped(r: &mut Random) -> Vec<u8> {
    let mut data = any_other(r);
    let from = if r.percent(80) { 18 } else { 0 };
    for _ in 0..r.pick(&[1, 1, 2, 4, 16, 60]) {
        let at = r.within(from, data.len() as i64 - 1) as usize;
        data[at] ^= 1 << r.within(0, 7);
    }
    data
}

/// Bytes behind the stated end: added ones, or records that the header leaves out, also in the middle of one.
fn behind(r: &mut Random) -> Vec<u8> {
    let mut data = any_other(r);
    if r.percent(50) {
        for _ in 0..r.within(1, 40) {
            data.push(r.word() as u8);
        }
    } else {
        let words = r.within(12, (data.len() / 2) as i64) as u32;
        data[6..10].copy_from_slice(&words.to_le_bytes());
    }
    data
}

fn long(r: &mut Random) -> Vec<u8> {
    let goal = r.pick(&[65530, 65532, 65534, 65535, 65536, 65536, 65536, 65537, 65538]) as usize;
    let objects = r.within(0, 16) as usize;
    let way = r.within(0, 3);
    let mut m = Maker::new(r, objects, false);
    m.fill(10);
    let room = |m: &Maker| (goal.min(65536) & !1) - 18 - m.body.len();
    if way == 0 {
        let words = vec![0u16; (room(&m) - 12) / 2]; // one record to the end, and an end record
        m.add(0x0626, &words);
    }
    while room(&m) > 200 {
        match way {
            1 => m.add_refused(Mode, &[9]),
            2 => m.add(0xFFFF, &[]),
            _ => {
                let kind = m.r.pick(&[Move, Move, Mode, Back, Unlisted, Select, Line]);
                let (x, y) = (m.r.within(0, 576) as u16, m.r.within(0, 400) as u16);
                match kind {
                    Move => m.add(0x0214, &[y, x]),
                    Line => m.add(0x0213, &[y, x]),
                    _ => m.add_sound(kind),
                }
            }
        }
    }
    let rest = room(&m);
    match m.r.within(0, 3) {
        0 if rest >= 6 => {
            let words = vec![1u16; (rest - 6) / 2]; // no end record: fault 5 at the end of the file
            m.add(0x0103, &words);
        }
        _ if rest >= 12 => {
            let words = vec![1u16; (rest - 12) / 2];
            m.add(0x0103, &words);
            m.end();
        }
        _ => m.end(),
    }
    let mut data = m.file();
    data.resize(goal, 0);
    data
}

/// Listed functions with any parameters.
fn soup(r: &mut Random) -> Vec<u8> {
    let objects = r.within(0, 16) as usize;
    let records = r.within(0, 60);
    let mut m = Maker::new(r, objects, false);
    for _ in 0..records {
        let (function, _, sizes) = second::file::TABLE[m.r.within(1, 13) as usize];
        let mut words: Vec<u16> = (3..sizes[0]).map(|_| m.r.word()).collect();
        if m.r.percent(10) {
            words.truncate(m.r.within(0, 9) as usize);
        }
        let near = words.len().saturating_sub(2);
        if m.r.percent(50) && near > 0 {
            words[near..].iter_mut().for_each(|word| *word %= 600);
        }
        if m.r.percent(60) {
            match function {
                0x061D | 0x0922 if words.len() > 1 => words[1] &= 0xFF,
                0x0104 if !words.is_empty() => words[0] %= 18,
                0x0201 if words.len() > 1 => words[1] = 0x0100,
                0x012D | 0x01F0 if !words.is_empty() => words[0] %= 8,
                _ => {}
            }
        }
        if m.r.percent(60) {
            m.add(function, &words);
        } else {
            let kind = m.r.pick(&OFTEN);
            m.add_sound(kind);
        }
    }
    if m.r.percent(80) {
        m.end();
    }
    let mut data = m.file();
    if data.len() < 24 {
        data.resize(24, 0);
    }
    data
}
