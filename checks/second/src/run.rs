//! A run and its drawing (docs/runs.md, docs/drawing.md).

use crate::codes;
use crate::file::{self, Brush, Checked, Fault, Frame, Object, Pen, Record};
use crate::picture::Picture;

#[derive(Clone, Copy, PartialEq, Eq, Debug)]
pub struct Rect {
    pub left: i32,
    pub top: i32,
    pub right: i32,
    pub bottom: i32,
}

impl Rect {
    pub fn overlap(self, other: Rect) -> Rect {
        Rect {
            left: self.left.max(other.left),
            top: self.top.max(other.top),
            right: self.right.min(other.right),
            bottom: self.bottom.min(other.bottom),
        }
    }
}

#[derive(Clone, Copy, PartialEq, Eq, Debug)]
pub struct Pencil {
    pub clip: Rect,
    pub pen: Pen,
    pub mode: u16,
    pub brush: Brush,
    pub back: u16,
}

impl Pencil {
    pub fn new() -> Pencil {
        Pencil {
            clip: Rect { left: 0, top: 0, right: 4096, bottom: 4096 },
            pen: Pen::Solid(0),
            mode: 13,
            brush: Brush::Solid(65535),
            back: 65535,
        }
    }

    /// The brush's word at a cell.
    fn ink(&self, x: i32, y: i32) -> u16 {
        match self.brush {
            Brush::Solid(colour) => colour,
            Brush::Hatched { style, line } => if codes::on_line(style, x, y) { line } else { self.back },
        }
    }

    fn clips(&self, x: i32, y: i32) -> bool {
        self.clip.left <= x && x < self.clip.right && self.clip.top <= y && y < self.clip.bottom
    }

    /// The target cells of a shape take new words, all made from the picture before the call.
    fn draw(&self, picture: &mut Picture, shape: impl Iterator<Item = (i32, i32)>, new: impl Fn(&Picture, i32, i32) -> u16) {
        let targets: Vec<(i32, i32, u16)> = shape
            .filter(|&(x, y)| self.clips(x, y) && picture.inside(x, y))
            .map(|(x, y)| (x, y, new(picture, x, y)))
            .collect();
        for (x, y, word) in targets {
            picture.set(x, y, word);
        }
    }

    pub fn line(&self, picture: &mut Picture, from: (i32, i32), to: (i32, i32)) {
        let Pen::Solid(colour) = self.pen else { return };
        self.draw(picture, line_cells(from, to).into_iter(), |picture, x, y| {
            codes::mixed(self.mode, colour, picture.word(x, y), picture.depth)
        });
    }

    pub fn paint(&self, picture: &mut Picture, x: i32, y: i32, w: i32, h: i32, code: u8) {
        let shape = rectangle_cells(picture, x, y, w, h);
        self.draw(picture, shape, |picture, a, b| {
            codes::ternary(code, self.ink(a, b), 0, picture.word(a, b), picture.depth)
        });
    }

    pub fn copy(&self, picture: &mut Picture, x: i32, y: i32, w: i32, h: i32, sx: i32, sy: i32, code: u8) {
        let shape = rectangle_cells(picture, x, y, w, h);
        self.draw(picture, shape, |picture, a, b| {
            let source = picture.word(sx + (a - x), sy + (b - y));
            codes::ternary(code, self.ink(a, b), source, picture.word(a, b), picture.depth)
        });
    }
}

impl Default for Pencil {
    fn default() -> Self {
        Pencil::new()
    }
}

/// The cells of a line from its start, without its end.
pub fn line_cells(from: (i32, i32), to: (i32, i32)) -> Vec<(i32, i32)> {
    let (dx, dy) = ((to.0 - from.0).signum(), (to.1 - from.1).signum());
    let (across, down) = (((to.0 - from.0) as i64).abs(), ((to.1 - from.1) as i64).abs());
    let cell = |columns: i64, rows: i64| (from.0 + dx * columns as i32, from.1 + dy * rows as i32);
    if across >= down {
        (0..across).map(|i| cell(i, (2 * i * down + across) / (2 * across))).collect()
    } else {
        (0..down).map(|i| cell((2 * i * across + down) / (2 * down), i)).collect()
    }
}

/// The cells of a rectangle that are inside the picture; the others are no target cells anyway.
fn rectangle_cells(picture: &Picture, x: i32, y: i32, w: i32, h: i32) -> impl Iterator<Item = (i32, i32)> {
    let (width, height) = (picture.width, picture.height);
    (y.max(0)..(y + h).min(height)).flat_map(move |b| (x.max(0)..(x + w).min(width)).map(move |a| (a, b)))
}

#[derive(Clone, Copy, PartialEq, Eq, Debug)]
pub enum Answer {
    Taken,
    PassedOver,
    Ended,
}

pub struct Run<'a> {
    bytes: &'a [u8],
    pub place: usize,
    pub position: (i32, i32),
    pub window: (i32, i32),
    pub viewport: (i32, i32),
    pub table: Vec<Option<Object>>,
    pub pencil: Pencil,
    pub taken: u32,
    pub refused: u32,
    pub passed: u32,
    pub ended: bool,
}

impl<'a> Run<'a> {
    pub fn start(checked: Checked<'a>) -> Run<'a> {
        Run {
            bytes: checked.bytes,
            place: file::HEADER,
            position: (0, 0),
            window: (0, 0),
            viewport: (0, 0),
            table: vec![None; checked.objects],
            pencil: Pencil::new(),
            taken: 0,
            refused: 0,
            passed: 0,
            ended: false,
        }
    }

    pub fn frame(&self) -> Result<Frame<'a>, Fault> {
        file::frame_at(self.bytes, self.place)
    }

    /// Every cause from 6 to 11 that the record at a frame has now, in order.
    pub fn causes(&self, frame: &Frame) -> Vec<u8> {
        let mut found = file::causes(frame);
        let index = (frame.parameters.len() >= 2).then(|| file::u16_at(frame.parameters, 0) as usize);
        match frame.function {
            0x02FC | 0x02FA if self.table.iter().all(|slot| slot.is_some()) => found.push(10),
            0x012D | 0x01F0 if index.is_some_and(|i| self.object(i).is_none()) => found.push(11),
            _ => {}
        }
        found
    }

    fn object(&self, index: usize) -> Option<Object> {
        self.table.get(index).copied().flatten()
    }

    fn device(&self, x: i32, y: i32) -> (i32, i32) {
        (x - self.window.0 + self.viewport.0, y - self.window.1 + self.viewport.1)
    }

    pub fn step(&mut self, picture: &mut Picture) -> Result<Answer, Fault> {
        if self.ended {
            return Ok(Answer::Ended);
        }
        let frame = self.frame()?;
        if file::listed(frame.function).is_none() {
            self.place = frame.behind();
            self.passed += 1;
            return Ok(Answer::PassedOver);
        }
        if let Some(&number) = self.causes(&frame).first() {
            self.place = frame.behind();
            self.refused += 1;
            return Err(Fault { number, place: frame.place });
        }
        let record = file::decode(&frame);
        if record == Record::End {
            self.ended = true;
            return Ok(Answer::Ended);
        }
        self.play(record, picture);
        self.place = frame.behind();
        self.taken += 1;
        Ok(Answer::Taken)
    }

    fn play(&mut self, record: Record, picture: &mut Picture) {
        match record {
            Record::End => {}
            Record::WindowOrigin { x, y } => self.window = (x, y),
            Record::ViewportOrigin { x, y } => self.viewport = (x, y),
            Record::MoveTo { x, y } => self.position = (x, y),
            Record::LineTo { x, y } => {
                let from = self.device(self.position.0, self.position.1);
                self.pencil.line(picture, from, self.device(x, y));
                self.position = (x, y);
            }
            Record::Paint { code, x, y, w, h } => {
                let (x, y) = self.device(x, y);
                self.pencil.paint(picture, x, y, w, h, code);
            }
            Record::Copy { code, x, y, w, h, sx, sy } => {
                let ((x, y), (sx, sy)) = (self.device(x, y), self.device(sx, sy));
                self.pencil.copy(picture, x, y, w, h, sx, sy, code);
            }
            Record::Clip { left, top, right, bottom } => {
                let ((left, top), (right, bottom)) = (self.device(left, top), self.device(right, bottom));
                self.pencil.clip = self.pencil.clip.overlap(Rect { left, top, right, bottom });
            }
            Record::Mode(mode) => self.pencil.mode = mode,
            Record::Back(colour) => self.pencil.back = colour,
            Record::Create(object) => {
                let slot = self.table.iter().position(|slot| slot.is_none()).unwrap();
                self.table[slot] = Some(object);
            }
            Record::Select(index) => match self.object(index).unwrap() {
                Object::Pen(pen) => self.pencil.pen = pen,
                Object::Brush(brush) => self.pencil.brush = brush,
            },
            Record::Delete(index) => self.table[index] = None,
        }
    }
}
