//! ESC 7 and ESC 8 save and restore protection and a pending shift, on or off, from call to call.

use pankholim::{Cell, Line, Record};

const PROTECTIONS: [&[u8]; 2] = [b"\x1b[0\"q", b"\x1b[1\"q"];
const SHIFTS: [&[u8]; 3] = [b"", b"\x8e", b"\x8f"];

/// The word of "a": of GL, of Special Graphics in G2, of Latin-1 in G3.
const WORDS: [u16; 3] = [0x0061, 0x00E1, 0x01E1];

fn feed_apart(record: &mut Record, page: &mut [u16], bytes: &[u8]) {
    let mut line = Line::new();
    for &byte in bytes {
        record.feed(page, &mut line, &[byte], &mut []).unwrap();
    }
}

#[test]
fn every_combination_comes_back() {
    for (saved, now) in (0..6).flat_map(|saved| (0..6).map(move |now| (saved, now))) {
        let mut page = [0; 24 * 80];
        let mut record = Record::start(24, &mut page, &mut Line::new()).unwrap();
        let mut feed = |bytes: &[u8]| {
            feed_apart(&mut record, &mut page, bytes);
            record.read(&page, 5, 77).map(Cell::word).unwrap()
        };
        feed(b"\x1b*0\x1b/A\x1b[5;77H");
        feed(PROTECTIONS[saved / 3]);
        feed(SHIFTS[saved % 3]);
        feed(b"\x1b7x\x1b[H");
        feed(PROTECTIONS[now / 3]);
        feed(SHIFTS[now % 3]);
        let protected = if saved / 3 == 1 { 0x2000 } else { 0 };
        assert_eq!(feed(b"\x1b8a"), WORDS[saved % 3] | protected);
        assert_eq!(feed(b"b\x1b8a"), WORDS[saved % 3] | protected);
        let erased = feed(b"\x1b[?2J");
        assert_eq!(erased == 0x0020, protected == 0);
    }
}
