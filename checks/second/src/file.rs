//! The header, framing and the fields of records (docs/file-and-records.md).

/// A refusal with its number and its place; 3 to 5 are faults of the file, 6 to 11 of a record.
#[derive(Clone, Copy, PartialEq, Eq, Debug)]
pub struct Fault {
    pub number: u8,
    pub place: usize,
}

impl Fault {
    pub fn layer(&self) -> &'static str {
        if self.number <= 5 { "file" } else { "record" }
    }
}

pub fn u16_at(bytes: &[u8], at: usize) -> u16 {
    bytes[at] as u16 + 256 * bytes[at + 1] as u16
}

pub fn u32_at(bytes: &[u8], at: usize) -> u32 {
    u16_at(bytes, at) as u32 + 65536 * u16_at(bytes, at + 2) as u32
}

pub const HEADER: usize = 18;
pub const LONGEST: usize = 65536;

/// The bytes up to the stated end, and the number of slots of the object table.
#[derive(Clone, Copy, Debug)]
pub struct Checked<'a> {
    pub bytes: &'a [u8],
    pub objects: usize,
}

pub fn check(bytes: &[u8]) -> Result<Checked<'_>, Fault> {
    if bytes.len() < HEADER || bytes.len() > LONGEST {
        return Err(Fault { number: 3, place: 0 });
    }
    let end = 2 * u32_at(bytes, 6) as u64;
    let objects = u16_at(bytes, 10);
    let sound = (u16_at(bytes, 0) == 1 || u16_at(bytes, 0) == 2)
        && u16_at(bytes, 2) == 9
        && (u16_at(bytes, 4) == 0x0100 || u16_at(bytes, 4) == 0x0300)
        && end >= 24
        && end <= bytes.len() as u64
        && objects <= 16;
    if sound {
        Ok(Checked { bytes: &bytes[..end as usize], objects: objects as usize })
    } else {
        Err(Fault { number: 4, place: 0 })
    }
}

/// A framed record: its place, function and parameter bytes.
#[derive(Clone, Copy, Debug)]
pub struct Frame<'a> {
    pub place: usize,
    pub function: u16,
    pub parameters: &'a [u8],
}

impl Frame<'_> {
    pub fn words(&self) -> usize {
        3 + self.parameters.len() / 2
    }

    /// The place of the next record.
    pub fn behind(&self) -> usize {
        self.place + 6 + self.parameters.len()
    }

    /// Fields by their offset in the record; None where the record is too short to have one.
    fn u16(&self, at: usize) -> Option<u16> {
        (at - 6 + 2 <= self.parameters.len()).then(|| u16_at(self.parameters, at - 6))
    }

    fn s16(&self, at: usize) -> Option<i32> {
        self.u16(at).map(|word| word as i16 as i32)
    }

    fn u32(&self, at: usize) -> Option<u32> {
        (at - 6 + 4 <= self.parameters.len()).then(|| u32_at(self.parameters, at - 6))
    }
}

/// The record at a place of a checked file.
pub fn frame_at(bytes: &[u8], place: usize) -> Result<Frame<'_>, Fault> {
    let fault = Fault { number: 5, place };
    if place + 6 > bytes.len() {
        return Err(fault);
    }
    let size = u32_at(bytes, place) as u64;
    if size < 3 || place as u64 + 2 * size > bytes.len() as u64 {
        return Err(fault);
    }
    Ok(Frame { place, function: u16_at(bytes, place + 4), parameters: &bytes[place + 6..place + 2 * size as usize] })
}

/// Function, published name and sizes in words of every listed record.
pub const TABLE: [(u16, &str, &[usize]); 14] = [
    (0x0000, "META_EOF", &[3]),
    (0x020B, "META_SETWINDOWORG", &[5]),
    (0x020D, "META_SETVIEWPORTORG", &[5]),
    (0x0214, "META_MOVETO", &[5]),
    (0x0213, "META_LINETO", &[5]),
    (0x061D, "META_PATBLT", &[9]),
    (0x0922, "META_BITBLT", &[12]),
    (0x0416, "META_INTERSECTCLIPRECT", &[7]),
    (0x0104, "META_SETROP2", &[4, 5]),
    (0x0201, "META_SETBKCOLOR", &[5]),
    (0x02FC, "META_CREATEBRUSHINDIRECT", &[7]),
    (0x02FA, "META_CREATEPENINDIRECT", &[8]),
    (0x012D, "META_SELECTOBJECT", &[4]),
    (0x01F0, "META_DELETEOBJECT", &[4]),
];

pub fn listed(function: u16) -> Option<(&'static str, &'static [usize])> {
    TABLE.iter().find(|row| row.0 == function).map(|row| (row.1, row.2))
}

pub fn name(function: u16) -> String {
    listed(function).map_or(format!("0x{function:04X}"), |row| row.0.to_string())
}

#[derive(Clone, Copy, PartialEq, Eq, Debug)]
pub enum Brush {
    Solid(u16),
    Hatched { style: u16, line: u16 },
}

#[derive(Clone, Copy, PartialEq, Eq, Debug)]
pub enum Pen {
    Solid(u16),
    None,
}

#[derive(Clone, Copy, PartialEq, Eq, Debug)]
pub enum Object {
    Brush(Brush),
    Pen(Pen),
}

#[derive(Clone, Copy, PartialEq, Eq, Debug)]
pub enum Record {
    End,
    WindowOrigin { x: i32, y: i32 },
    ViewportOrigin { x: i32, y: i32 },
    MoveTo { x: i32, y: i32 },
    LineTo { x: i32, y: i32 },
    Paint { code: u8, x: i32, y: i32, w: i32, h: i32 },
    Copy { code: u8, x: i32, y: i32, w: i32, h: i32, sx: i32, sy: i32 },
    Clip { left: i32, top: i32, right: i32, bottom: i32 },
    Mode(u16),
    Back(u16),
    Create(Object),
    Select(usize),
    Delete(usize),
}

/// Every cause from 6 to 9 that the record has, in order. Where the size is wrong the fields that are still there are
/// looked at too, so that pairs of causes can be counted; the smallest is the one that counts.
pub fn causes(frame: &Frame) -> Vec<u8> {
    let Some((_, sizes)) = listed(frame.function) else { return vec![] };
    let colour = |at| frame.u32(at).is_some_and(|c| c >> 16 != 0x0100);
    let top = |at| frame.u32(at).is_some_and(|c| c >> 24 != 0);
    let negative = |at| frame.s16(at).is_some_and(|v| v < 0);
    let not_in = |at, good: &[u16]| frame.u16(at).is_some_and(|v| !good.contains(&v));
    let mut found = vec![];
    if !sizes.contains(&frame.words()) {
        found.push(6);
    }
    match frame.function {
        0x061D => {
            if top(6) || frame.u32(6).is_some_and(|c| crate::codes::depends_on_source((c >> 16) as u8)) {
                found.push(8);
            }
            if negative(10) || negative(12) {
                found.push(9);
            }
        }
        0x0922 => {
            if top(6) {
                found.push(8);
            }
            if negative(16) || negative(18) {
                found.push(9);
            }
        }
        0x0104 if frame.u16(6).is_some_and(|m| !(1..=16).contains(&m)) => found.push(9),
        0x0201 if colour(6) => found.push(7),
        0x02FC => {
            if colour(8) {
                found.push(7);
            }
            if not_in(6, &[0, 2]) || frame.u16(6) == Some(2) && frame.u16(12).is_some_and(|h| h > 5) {
                found.push(9);
            }
        }
        0x02FA => {
            if colour(12) {
                found.push(7);
            }
            if not_in(6, &[0, 5]) || not_in(8, &[0, 1]) {
                found.push(9);
            }
        }
        _ => {}
    }
    found
}

/// The fields of a listed record without a cause.
pub fn decode(frame: &Frame) -> Record {
    let s = |at| frame.s16(at).unwrap();
    let u = |at| frame.u16(at).unwrap();
    let code = |at| (frame.u32(at).unwrap() >> 16) as u8;
    match frame.function {
        0x0000 => Record::End,
        0x020B => Record::WindowOrigin { y: s(6), x: s(8) },
        0x020D => Record::ViewportOrigin { y: s(6), x: s(8) },
        0x0214 => Record::MoveTo { y: s(6), x: s(8) },
        0x0213 => Record::LineTo { y: s(6), x: s(8) },
        0x061D => Record::Paint { code: code(6), h: s(10), w: s(12), y: s(14), x: s(16) },
        0x0922 => Record::Copy { code: code(6), sy: s(10), sx: s(12), h: s(16), w: s(18), y: s(20), x: s(22) },
        0x0416 => Record::Clip { bottom: s(6), right: s(8), top: s(10), left: s(12) },
        0x0104 => Record::Mode(u(6)),
        0x0201 => Record::Back(u(6)),
        0x02FC if u(6) == 0 => Record::Create(Object::Brush(Brush::Solid(u(8)))),
        0x02FC => Record::Create(Object::Brush(Brush::Hatched { style: u(12), line: u(8) })),
        0x02FA if u(6) == 0 => Record::Create(Object::Pen(Pen::Solid(u(12)))),
        0x02FA => Record::Create(Object::Pen(Pen::None)),
        0x012D => Record::Select(u(6) as usize),
        0x01F0 => Record::Delete(u(6) as usize),
        function => unreachable!("function {function:#06x}"),
    }
}
