//! A picture: a word for every cell, all of them open (docs/surfaces.md), and its PBM (docs/pictures-out.md).

#[derive(Clone, PartialEq, Eq, Debug)]
pub struct Picture {
    pub width: i32,
    pub height: i32,
    pub depth: u32,
    words: Vec<u16>,
}

impl Picture {
    /// All cells 0.
    pub fn new(width: i32, height: i32, depth: u32) -> Picture {
        assert!((1..=4096).contains(&width) && (1..=4096).contains(&height) && (1..=16).contains(&depth));
        Picture { width, height, depth, words: vec![0; (width * height) as usize] }
    }

    pub fn inside(&self, x: i32, y: i32) -> bool {
        0 <= x && x < self.width && 0 <= y && y < self.height
    }

    pub fn word(&self, x: i32, y: i32) -> u16 {
        if self.inside(x, y) { self.words[(y * self.width + x) as usize] } else { 0 }
    }

    pub fn set(&mut self, x: i32, y: i32, word: u16) {
        if self.inside(x, y) {
            self.words[(y * self.width + x) as usize] = (word as u32 % (1 << self.depth)) as u16;
        }
    }

    /// Header and rows, the highest bit leftmost; word 0 is black, which is 1; padding is 0.
    pub fn pbm(&self) -> Vec<u8> {
        let mut out = format!("P4\n{} {}\n", self.width, self.height).into_bytes();
        for y in 0..self.height {
            for first in (0..self.width).step_by(8) {
                let mut byte = 0;
                for x in first..(first + 8).min(self.width) {
                    if self.word(x, y) % 2 == 0 {
                        byte |= 0x80 >> (x - first);
                    }
                }
                out.push(byte);
            }
        }
        out
    }
}
