//! The worked examples of docs/ on the second player.

use crate::codes::*;
use crate::file::*;
use crate::picture::Picture;
use crate::program;
use crate::run::*;

const EMPTY: [u8; 24] = [1, 0, 9, 0, 0, 3, 12, 0, 0, 0, 0, 0, 3, 0, 0, 0, 0, 0, 3, 0, 0, 0, 0, 0];

#[test]
fn operations() {
    assert_eq!(ternary(0xB8, 0xF0, 0xCC, 0xAA, 8), 0xB8);
    for code in 0..=255 {
        assert_eq!(ternary(code, 0xF0, 0xCC, 0xAA, 8), code as u16);
    }
    assert_eq!(ternary(0x66, 0, 5, 3, 16), 6);
    let painted: Vec<u8> = (0..=255).filter(|&code| !depends_on_source(code)).collect();
    assert_eq!(painted, [0x00, 0x05, 0x0A, 0x0F, 0x50, 0x55, 0x5A, 0x5F, 0xA0, 0xA5, 0xAA, 0xAF, 0xF0, 0xF5, 0xFA, 0xFF]);
    assert_eq!(mixed(7, 12, 10, 16), 6);
    assert!(on_line(5, -1, -1) && on_line(3, -1, 0) && !on_line(0, 4, 3));
}

#[test]
fn lines() {
    assert_eq!(line_cells((0, 0), (5, 2)), [(0, 0), (1, 0), (2, 1), (3, 1), (4, 2)]);
    assert_eq!(line_cells((0, 0), (4, 2)), [(0, 0), (1, 1), (2, 1), (3, 2)]);
    assert_eq!(line_cells((4, 2), (0, 0)), [(4, 2), (3, 1), (2, 1), (1, 0)]);
    assert_eq!(line_cells((0, 0), (2, 5)), [(0, 0), (0, 1), (1, 2), (1, 3), (2, 4)]);
    assert!(line_cells((3, 3), (3, 3)).is_empty());
}

#[test]
fn copies() {
    let row = |x, w, sx| {
        let mut picture = Picture::new(5, 1, 8);
        (0..5).for_each(|a| picture.set(a, 0, a as u16 + 1));
        Pencil::new().copy(&mut picture, x, 0, w, 1, sx, 0, 0xCC);
        (0..5).map(|a| picture.word(a, 0)).collect::<Vec<u16>>()
    };
    assert_eq!(row(1, 4, 0), [1, 1, 2, 3, 4]);
    assert_eq!(row(0, 5, 2), [3, 4, 5, 0, 0]);
}

#[test]
fn pictures() {
    let mut picture = Picture::new(8, 4, 1);
    Pencil::new().paint(&mut picture, 1, 1, 3, 2, 0xFF);
    assert_eq!(picture.pbm(), b"P4\n8 4\n\xFF\x8F\x8F\xFF");
    let mut picture = Picture::new(3, 1, 1);
    picture.set(1, 0, 1);
    assert_eq!(picture.pbm(), b"P4\n3 1\n\xA0");
}

#[test]
fn the_smallest_file() {
    let outcome = program::play(&EMPTY, true, |_| ());
    assert_eq!((outcome.status, outcome.out.len()), (0, 28811));
    assert!(outcome.out.starts_with(b"P4\n576 400\n\xFF") && outcome.out[11..].iter().all(|&b| b == 0xFF));
    assert_eq!(outcome.err, b"18 META_EOF ended\ntaken 0, refused 0, passed over 0\n");
    for length in 0..24 {
        let number = check(&EMPTY[..length]).unwrap_err().number;
        assert_eq!(number, if length < 18 { 3 } else { 4 });
    }
}

#[test]
fn samples() {
    let folder = concat!(env!("CARGO_MANIFEST_DIR"), "/../../samples/");
    for name in ["empty", "ticket", "refused"] {
        let read = |end: &str| std::fs::read(format!("{folder}{name}.{end}")).unwrap();
        let outcome = program::play(&read("wmf"), true, |_| ());
        assert!(outcome.out == read("pbm") && outcome.err == read("trace") && outcome.status == 0, "{name}");
    }
}
