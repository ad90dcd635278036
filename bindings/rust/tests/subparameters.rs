//! Colons between parameters: SGR skips what has subparameters, any other function with one in it is ignored.

use pankholim::{Cell, Line, Record};

/// A terminal that was fed byte by byte, with what it replied.
fn fed(bytes: &[u8]) -> (Record, [u16; 24 * 80], usize) {
    let mut page = [0; 24 * 80];
    let mut line = Line::new();
    let mut record = Record::start(24, &mut page, &mut line).unwrap();
    let mut replied = 0;
    for &byte in bytes {
        let mut reply = [0; 11];
        let fed = record.feed(&mut page, &mut line, &[byte], &mut reply);
        replied += fed.unwrap().replied;
    }
    (record, page, replied)
}

/// The words of the first row's first cells.
fn words(bytes: &[u8]) -> [u16; 4] {
    let (record, page, _) = fed(bytes);
    [1, 2, 3, 4].map(|column| record.read(&page, 1, column).map(Cell::word).unwrap())
}

#[test]
fn rendition_obeys_the_others() {
    let (reverse, bold) = (0x1000, 0x0200);
    assert_eq!(
        words(b"\x1b[4:3;7mA\x1b[0:1mB\x1b[1;38:2::9:9:9;27mC\x1b[:mD"),
        [reverse | 0x41, reverse | 0x42, bold | 0x43, bold | 0x44]
    );
}

#[test]
fn others_are_ignored() {
    let text = b"\x1b[?7h\x1b[1;80Hw";
    for last in 0x40..=0x7E {
        for before in ["2:", "1;1:5", "?25:", ">:", "1:1$", "1:$", "2:*"] {
            let bytes = [&text[..], b"\x1b[", before.as_bytes(), &[last]].concat();
            let (record, page, replied) = fed(&bytes);
            let cursor = record.cursor().unwrap();
            assert_eq!(
                (cursor.row, cursor.column, cursor.wrap, cursor.shown),
                (1, 80, true, true)
            );
            assert_eq!((page[79], replied), (0x77, 0));
        }
    }
}
