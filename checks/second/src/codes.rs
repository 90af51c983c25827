//! Raster operations, line modes, hatches (docs/codes-and-inks.md) and the texts of refusals (docs/refusals.md).

/// The code on pattern, source and picture: bit 4P + 2S + D of the code, for each of the low `bits` bits.
pub fn ternary(code: u8, p: u16, s: u16, d: u16, bits: u32) -> u16 {
    let mut word = 0;
    for k in 0..bits {
        let row = 4 * (p >> k & 1) + 2 * (s >> k & 1) + (d >> k & 1);
        word |= (code as u16 >> row & 1) << k;
    }
    word
}

/// Whether two rows of the code's table that differ only in S differ.
pub fn depends_on_source(code: u8) -> bool {
    [(0, 2), (1, 3), (4, 6), (5, 7)].iter().any(|&(a, b)| code >> a & 1 != code >> b & 1)
}

/// Mode m from 1 to 16 on pen and picture: bit 2p + q of m - 1.
pub fn mixed(mode: u16, pen: u16, q: u16, bits: u32) -> u16 {
    let mut word = 0;
    for k in 0..bits {
        let row = 2 * (pen >> k & 1) + (q >> k & 1);
        word |= ((mode - 1) >> row & 1) << k;
    }
    word
}

/// Whether the hatch of this style has its line at cell (x, y).
pub fn on_line(style: u16, x: i32, y: i32) -> bool {
    let (a, b) = (x.rem_euclid(8), y.rem_euclid(8));
    match style {
        0 => b == 4,
        1 => a == 4,
        2 => a == b,
        3 => a + b == 7,
        4 => b == 4 || a == 4,
        5 => a == b || a + b == 7,
        _ => unreachable!("hatch {style}"),
    }
}

/// The text of a refusal from 3 to 11, the ones that a player can meet.
pub fn text(number: u8) -> &'static str {
    match number {
        3 => "file shorter than 18 bytes or longer than 65536",
        4 => "header field out of range",
        5 => "no record lies here before the stated end",
        6 => "size not that of the function",
        7 => "upper half of a colour is not 0x0100",
        8 => "top byte of a raster operation is not 0, or a paint depends on the source",
        9 => "mode, style, hatch, pen width or size out of range",
        10 => "no empty slot in the object table",
        11 => "no object at the index",
        _ => unreachable!("refusal {number}"),
    }
}
