//! The page as text.

use crate::cell::{Cell, Set};
use crate::page::COLUMNS;

/// Special Graphics codes 5F to 7E.
const LINE_DRAWING: [u32; 32] = [
    0x00A0, 0x25C6, 0x2592, 0x2409, 0x240C, 0x240D, 0x240A, 0x00B0, 0x00B1, 0x2424, 0x240B, 0x2518,
    0x2510, 0x250C, 0x2514, 0x253C, 0x23BA, 0x23BB, 0x2500, 0x23BC, 0x23BD, 0x251C, 0x2524, 0x2534,
    0x252C, 0x2502, 0x2264, 0x2265, 0x03C0, 0x2260, 0x00A3, 0x00B7,
];

fn code_point(cell: Cell) -> u32 {
    const UNKNOWN: u32 = '?' as u32;
    let code = cell.code as u32;
    match (cell.set, code) {
        (_, 0x1A) => 0x2426,
        // Control codes, which nothing prints: shown as "?", so that a row stays one line.
        (Set::Ascii | Set::SpecialGraphics, 0x00..=0x1F | 0x7F) => UNKNOWN,
        (Set::Ascii, _) => code,
        (Set::SpecialGraphics, 0x20..=0x5E) => code,
        (Set::SpecialGraphics, 0x5F..=0x7E) => LINE_DRAWING[code as usize - 0x5F],
        (Set::SpecialGraphics, _) => UNKNOWN,
        (Set::Latin1, _) => 0x80 + code,
        (Set::Supplemental, _) => UNKNOWN,
    }
}

/// The rows as lines of UTF-8, each closed by 0A, trailing U+0020 off.
pub fn text(page: &[u16]) -> Vec<u8> {
    let mut lines = String::new();
    for row in page.chunks(COLUMNS) {
        let line: String = row
            .iter()
            .filter_map(|&word| char::from_u32(code_point(Cell::of_word(word))))
            .collect();
        lines.push_str(line.trim_end_matches(' '));
        lines.push('\n');
    }
    lines.into_bytes()
}
