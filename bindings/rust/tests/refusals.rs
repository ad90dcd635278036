//! What is refused, and that all is left then.

use pankholim::{page_text, text_len, write_text};
use pankholim::{Answer, Cell, Changed, Line, PageSize, Record, Refusal, RowSet};
use pankholim::{Terminal, TextRoom, REPLY_ROOM};

/// Only rows of the page changed.
fn rows_alone(bits: u64) -> Changed {
    Changed {
        rows: RowSet::from_bits(bits),
        line: false,
    }
}

#[test]
fn starts() {
    let past_a_byte = [280, 292, 304, 65_560, (1 << 32) + 24, usize::MAX];
    for rows in (0..=255).chain(past_a_byte) {
        let mut page = [0x1234; 48 * 80];
        for cells in [0, 80, 1919, 1920, 1921, 2880, 3840] {
            let page = &mut page[..cells];
            let mut line = Line::new();
            page.fill(0x1234);
            line.fill(0x1234);
            let started = Record::start(rows, page, &mut line);
            if ![24, 36, 48].contains(&rows) {
                assert_eq!(started.err(), Some(Refusal::Broken));
            } else if cells != 80 * rows {
                assert_eq!(started.err(), Some(Refusal::WrongSize));
            } else {
                assert!(started.is_ok());
                assert!(page.iter().all(|&word| word == Cell::BLANK.word()));
                assert_eq!(line, Line::new());
                continue;
            }
            assert!(page.iter().all(|&word| word == 0x1234));
            assert!(line.iter().all(|&word| word == 0x1234));
        }
    }
}

#[test]
fn refused_starts_leave_the_record() {
    let mut page = [0; 1920];
    let mut line = Line::new();
    let mut record = Record::start(24, &mut page, &mut line).unwrap();
    record
        .feed(&mut page, &mut line, b"Hi\x1b[5", &mut [])
        .unwrap();
    let before = (record.to_bytes(), page, line.clone());
    for (rows, cells, line_cells) in [
        (25, 1920, 80),
        (280, 1920, 80),
        (24, 1919, 80),
        (36, 1920, 80),
        (24, 1920, 79),
        (24, 1920, 0),
        (0, 0, 0),
    ] {
        let (some, part) = (&mut page[..cells], &mut line[..line_cells]);
        assert!(record.restart(rows, some, part).is_err());
        assert_eq!((record.to_bytes(), page, line.clone()), before);
    }
    let mut reply = [0; 4];
    record
        .feed(&mut page, &mut line, b"n!", &mut reply)
        .unwrap();
    assert_eq!(&reply, b"\x1b[0n");
    assert_eq!(record.read(&page, 1, 3).map(Cell::code), Ok(b'!'));

    let mut fresh = [0; 1920];
    record.restart(24, &mut page, &mut line).unwrap();
    let other = Record::start(24, &mut fresh, &mut line).unwrap();
    assert_eq!((record.to_bytes(), page), (other.to_bytes(), fresh));

    let any = [0xA5; Record::SIZE];
    let mut record = Record::from_bytes(any);
    let refused = record.restart(25, &mut page, &mut line);
    assert_eq!(refused, Err(Refusal::Broken));
    assert_eq!(record.to_bytes(), any);
}

#[test]
fn bytes_are_determined_by_the_state() {
    let input = b"Hi\x1b[1$~\x1b[1$}up\x1b7\x1b[3;7";
    let mut page = [0; 1920];
    let mut line = Line::new();
    let mut whole = Record::start(24, &mut page, &mut line).unwrap();
    whole.feed(&mut page, &mut line, input, &mut []).unwrap();
    whole.ask().unwrap();

    let mut parts = Record::from_bytes([0xA5; Record::SIZE]);
    parts.restart(24, &mut page, &mut line).unwrap();
    for byte in input {
        parts.feed(&mut page, &mut line, &[*byte], &mut []).unwrap();
        parts.ask().unwrap();
    }
    assert_eq!(parts.to_bytes(), whole.to_bytes());
}

#[test]
fn records_that_were_not_started() {
    let mut record = Record::default();
    let mut page = [0x1234; 1920];
    let mut line = [0x1234; 80];
    let mut reply = [0xEE; 11];
    assert_eq!(
        record.feed(&mut page, &mut line, b"A\x1b[6n", &mut reply),
        Err(Refusal::Broken)
    );
    assert_eq!(
        record.feed(&mut page[..3], &mut line[..3], b"", &mut []),
        Err(Refusal::Broken)
    );
    assert_eq!(record.row(&page, &line, 1), Err(Refusal::Broken));
    assert_eq!(record.row(&[], &[], 0), Err(Refusal::Broken));
    assert_eq!(record.ask(), Err(Refusal::Broken));
    assert_eq!(record.read(&page, 1, 1), Err(Refusal::Broken));
    assert_eq!(record.read(&[], 0, 0), Err(Refusal::Broken));
    assert_eq!(record.cursor(), Err(Refusal::Broken));
    assert!(page.iter().chain(&line).all(|&word| word == 0x1234));
    assert_eq!(reply, [0xEE; 11]);
}

#[test]
fn records_of_any_bytes() {
    let mut blank = [0; 1920];
    let started = Record::start(24, &mut blank, &mut Line::new())
        .unwrap()
        .to_bytes();
    let mut refused = 0;
    for at in 0..Record::SIZE {
        for value in 0..=255 {
            let mut bytes = started;
            bytes[at] = value;
            let mut record = Record::from_bytes(bytes);
            assert_eq!(record.to_bytes(), bytes);
            let mut page = blank;
            let mut line = Line::new();
            let mut reply = [0; 11];
            let cursor = record.cursor();
            let row = record.row(&blank, &line, 1).map(<[u16]>::len);
            match record.feed(&mut page, &mut line, b"A\x1b[6n", &mut reply) {
                Ok(fed) => assert!(fed.is_done() && cursor.is_ok() && row == Ok(80)),
                Err(refusal) => {
                    assert!(refusal != Refusal::OffPage);
                    assert_eq!(cursor.is_err(), refusal == Refusal::Broken);
                    assert_eq!(row, Err(refusal));
                    assert_eq!(record.to_bytes(), bytes);
                    assert_eq!((page, reply), (blank, [0; 11]));
                    assert_eq!(line, Line::new());
                    refused += 1;
                }
            }
        }
    }
    assert!(refused > 0);
}

#[test]
fn records_come_back_from_their_bytes() {
    let mut page = [0; 1920];
    let mut line = Line::new();
    let mut record = Record::start(24, &mut page, &mut line).unwrap();
    record
        .feed(&mut page, &mut line, b"\x1b[3;7", &mut [])
        .unwrap();
    let mut again = Record::from_bytes(record.to_bytes());
    again.feed(&mut page, &mut line, b"7HA", &mut []).unwrap();
    assert_eq!(again.read(&page, 3, 77).map(Cell::code), Ok(b'A'));
    assert_eq!(again.ask(), Ok(rows_alone(4)));
}

#[test]
fn pages_of_other_lengths() {
    for size in PageSize::ALL {
        let mut page = vec![0; size.cells()];
        let mut line = Line::new();
        let mut record = Record::start(size.rows(), &mut page, &mut line).unwrap();
        for cells in [0, 1, 80, 1919, 1920, 1921, 2880, 3840, 4000] {
            if cells == size.cells() {
                continue;
            }
            let mut other = vec![0x1234; cells];
            let mut reply = [0xEE; 11];
            assert_eq!(
                record.feed(&mut other, &mut line, b"A\x1b[6n", &mut reply),
                Err(Refusal::WrongSize)
            );
            assert_eq!(
                record.feed(&mut other, &mut line, b"", &mut []),
                Err(Refusal::WrongSize)
            );
            assert_eq!(record.row(&other, &line, 1), Err(Refusal::WrongSize));
            assert_eq!(record.read(&other, 1, 1), Err(Refusal::WrongSize));
            assert_eq!(record.read(&other, 0, 99), Err(Refusal::WrongSize));
            assert!(other.iter().all(|&word| word == 0x1234));
            assert_eq!(reply, [0xEE; 11]);
        }
        assert_eq!(record.ask(), Ok(Changed::default()));
        assert_eq!(line, Line::new());
        assert!(record.feed(&mut page, &mut line, b"", &mut []).is_ok());
    }
}

#[test]
fn cells_off_the_page() {
    for size in PageSize::ALL {
        let terminal = Terminal::new(size);
        let rows = size.rows();
        for (row, column) in [(1, 1), (1, 80), (rows, 1), (rows, 80)] {
            assert_eq!(terminal.cell(row, column), Ok(Cell::BLANK));
        }
        for off in [0, 81, 255, 256, 65536, usize::MAX, 1 << 63] {
            assert_eq!(terminal.cell(1, off), Err(Refusal::OffPage));
            assert_eq!(terminal.cell(off, 1), Err(Refusal::OffPage));
            assert_eq!(terminal.cell(off, off), Err(Refusal::OffPage));
        }
        assert_eq!(terminal.cell(rows + 1, 1), Err(Refusal::OffPage));
        assert_eq!(terminal.field(1, 1, 80).unwrap(), "");
        assert_eq!(terminal.field(1, 80, 1).unwrap(), "");
        assert_eq!(terminal.field(1, 80, 2), Err(Refusal::OffPage));
        assert_eq!(terminal.field(1, usize::MAX, 2), Err(Refusal::OffPage));
        assert_eq!(terminal.field(1, 1, usize::MAX), Err(Refusal::OffPage));
        assert_eq!(terminal.field(0, 1, 0).unwrap(), "");
    }
}

#[test]
fn cursors() {
    let mut terminal = Terminal::new(PageSize::Rows24);
    let mut at = |bytes: &[u8]| {
        terminal.feed_all(bytes, |_reply| {});
        let cursor = terminal.cursor();
        (cursor.row, cursor.column, cursor.wrap, cursor.shown)
    };
    assert_eq!(at(b""), (1, 1, false, true));
    assert_eq!(at(b"\x1b[?7h\x1b[5;77H1.10"), (5, 80, true, true));
    assert_eq!(at(b"x\x1b[?25l"), (6, 2, false, false));
    assert_eq!(at(b"\x1b[6;10r\x1b[?6h\x1b[2;5H"), (7, 5, false, false));
}

#[test]
fn replies_without_room() {
    let mut terminal = Terminal::new(PageSize::Rows24);
    let fed = terminal.feed(b"\x1b[24;80H\x1b[?6n", &mut []);
    assert_eq!((fed.answer, fed.read, fed.replied), (Answer::NoRoom, 12, 0));
    for room in 0..REPLY_ROOM {
        let mut reply = vec![0xEE; room];
        let fed = terminal.feed(b"nA", &mut reply);
        assert_eq!((fed.answer, fed.read, fed.replied), (Answer::NoRoom, 0, 0));
        assert!(reply.iter().all(|&byte| byte == 0xEE));
    }
    assert!(terminal.take_changed_rows().is_empty());
    let mut reply = [0xEE; REPLY_ROOM + 1];
    let fed = terminal.feed(b"nA", &mut reply);
    assert_eq!((fed.answer, fed.read, fed.replied), (Answer::Done, 2, 11));
    assert_eq!(&reply, b"\x1b[?24;80;1R\xEE");
    assert!(fed.is_done());
    assert_eq!(terminal.take_changed_rows(), RowSet::from_bits(1 << 23));
}

#[test]
fn empty_input() {
    let mut terminal = Terminal::new(PageSize::Rows36);
    let before = terminal.words().to_vec();
    let fed = terminal.feed(b"", &mut []);
    assert_eq!((fed.answer, fed.read, fed.replied), (Answer::Done, 0, 0));
    assert_eq!(terminal.words(), before);
    assert!(terminal.take_changed_rows().is_empty());
}

#[test]
fn texts_without_room() {
    let mut page = [Cell::BLANK.word(); 160];
    page[0] = 0x00F1;
    assert_eq!(text_len(&page), 5);
    for room in 0..5 {
        let mut out = vec![0xEE; room];
        assert_eq!(write_text(&page, &mut out), Err(TextRoom { needed: 5 }));
        assert!(out.iter().all(|&byte| byte == 0xEE));
    }
    let mut out = [0xEE; 6];
    assert_eq!(write_text(&page, &mut out), Ok(5));
    assert_eq!(&out, b"\xE2\x94\x80\n\n\xEE");
    assert_eq!(page_text(&page), "\u{2500}\n\n");
    assert_eq!(page_text(&page[..79]), "");
    assert_eq!(page_text(&[]), "");
    assert_eq!(write_text(&[], &mut []), Ok(0));
}

#[test]
fn every_word_has_a_text() {
    let words: Vec<u16> = (0..=0xFFFF).collect();
    let text = page_text(&words);
    assert_eq!(text.lines().count(), words.len() / 80);
}
