//! The functions on rectangles, from call to call: fill, copy, change and reverse attributes, erase, selective erase.

use pankholim::{Cell, Line, Record};

fn feed_apart(record: &mut Record, page: &mut [u16], bytes: &[u8]) {
    let mut line = Line::new();
    for &byte in bytes {
        record.feed(page, &mut line, &[byte], &mut []).unwrap();
    }
}

/// The words of a row's first cells.
fn words(record: &Record, page: &[u16], row: usize) -> Vec<u16> {
    (1..=8)
        .map(|column| record.read(page, row, column).map(Cell::word).unwrap())
        .collect()
}

#[test]
fn a_meter_is_painted() {
    let mut page = [0; 24 * 80];
    let mut record = Record::start(24, &mut page, &mut Line::new()).unwrap();
    let mut row = |bytes: &[u8], row: usize| {
        feed_apart(&mut record, &mut page, bytes);
        words(&record, &page, row)
    };
    let (bar, blank) = (0x23, 0x20);
    assert_eq!(
        row(b"\x1b[35;2;2;2;5$x", 2),
        [blank, bar, bar, bar, bar, blank, blank, blank]
    );
    // One to the right, over itself.
    assert_eq!(
        row(b"\x1b[2;1;2;5;1;2;2;1$v", 2),
        [blank, blank, bar, bar, bar, bar, blank, blank]
    );
    // Bold in the rectangle, then a stream from there on.
    assert_eq!(
        row(b"\x1b[2*x\x1b[1;4;2;5;1$r", 1),
        [blank, blank, blank, 0x220, 0x220, blank, blank, blank]
    );
    assert_eq!(
        row(b"\x1b[1*x\x1b[1;5;2;6;1$t", 2),
        [0x220, 0x220, 0x223, bar, bar, 0x223, blank, blank]
    );
    assert_eq!(
        row(b"\x1b[2;6;2;7${\x1b[2;1;2;3$z", 2),
        [blank, blank, blank, bar, bar, 0x220, blank, blank]
    );
}
