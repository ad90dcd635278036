//! The status line: lengths, rows of what is active, the flag, and that the page stays while the line is written.

mod common;
use common::{TO_LINE, TO_PAGE};
use pankholim::{Cell, Changed, Line, PageSize, Record, Refusal, RowSet, Terminal};

/// A terminal whose line is active.
fn on_line(size: PageSize) -> Terminal {
    let mut terminal = Terminal::new(size);
    feed(&mut terminal, TO_LINE);
    terminal
}

/// Feeds byte by byte, so that the record alone holds what is between two bytes; returns what was sent.
fn feed(terminal: &mut Terminal, bytes: &[u8]) -> Vec<u8> {
    let mut sent = Vec::new();
    for &byte in bytes {
        terminal.feed_all(&[byte], |reply| sent.extend_from_slice(reply));
    }
    sent
}

/// The place of a slice: where it begins and how long it is.
fn place(words: &[u16]) -> (*const u16, usize) {
    (words.as_ptr(), words.len())
}

#[test]
fn lines_of_other_lengths() {
    for cells in [0, 1, 79, 81, 160] {
        let mut page = [0x1234; 1920];
        let mut line = vec![0x1234; cells];
        let started = Record::start(24, &mut page, &mut line);
        assert_eq!(started.err(), Some(Refusal::WrongSize));
        let started = Record::start(25, &mut page, &mut line);
        assert_eq!(started.err(), Some(Refusal::Broken));
        assert!(page.iter().chain(&line).all(|&word| word == 0x1234));
    }
    for before in [b"".as_slice(), TO_LINE] {
        let (mut page, mut right) = ([0; 1920], Line::new());
        let mut record = Record::start(24, &mut page, &mut right).unwrap();
        record.feed(&mut page, &mut right, before, &mut []).unwrap();
        let (bytes, blank) = (record.to_bytes(), page);
        for cells in [0, 1, 79, 81, 160] {
            let mut line = vec![0x1234; cells];
            let mut reply = [0xEE; 11];
            let refused = record.feed(&mut page, &mut line, b"A\x1b[6n", &mut reply);
            assert_eq!(refused, Err(Refusal::WrongSize));
            let refused = record.feed(&mut page, &mut line, b"", &mut []);
            assert_eq!(refused, Err(Refusal::WrongSize));
            assert_eq!(record.row(&page, &line, 1), Err(Refusal::WrongSize));
            assert_eq!(record.row(&page, &line, 0), Err(Refusal::WrongSize));
            assert!(line.iter().all(|&word| word == 0x1234));
            assert_eq!((record.to_bytes(), page), (bytes, blank));
            assert_eq!(reply, [0xEE; 11]);
        }
    }
}

#[test]
fn rows_of_what_is_active() {
    for size in PageSize::ALL {
        let mut terminal = Terminal::new(size);
        for row in 1..=size.rows() {
            let from = 80 * (row - 1);
            let expected = place(&terminal.words()[from..from + 80]);
            assert_eq!(terminal.row(row).map(place), Ok(expected));
        }
        for off in [0, size.rows() + 1, 256, 257, 1 << 63, usize::MAX] {
            assert_eq!(terminal.row(off), Err(Refusal::OffPage));
        }
        feed(&mut terminal, b"\x1b[1$~\x1b[1$}up");
        assert_eq!(terminal.row(1).map(place), Ok(place(terminal.line())));
        for off in [0, 2, size.rows(), size.rows() + 1, 257, usize::MAX] {
            assert_eq!(terminal.row(off), Err(Refusal::OffPage));
        }
        feed(&mut terminal, TO_PAGE);
        assert_eq!(
            terminal.row(1).map(place),
            Ok(place(&terminal.words()[..80]))
        );
        assert_eq!(terminal.line().text(), "up");
    }
}

#[test]
fn the_flag_is_set_by_a_change_and_cleared_by_asking() {
    let (mut page, mut line) = ([0; 1920], Line::new());
    let mut record = Record::start(24, &mut page, &mut line).unwrap();
    let mut changed = |bytes: &[u8]| {
        record.feed(&mut page, &mut line, bytes, &mut []).unwrap();
        let Changed { rows, line } = record.ask().unwrap();
        (rows.bits(), line)
    };
    assert_eq!(changed(TO_LINE), (0, false));
    assert_eq!(changed(b"A"), (0, true));
    assert_eq!(changed(b""), (0, false));
    assert_eq!(changed(b"\rA"), (0, false));
    assert_eq!(changed(b"\r\x1b[K\x1b[K"), (0, true));
    assert_eq!(changed(b"A\x1b[$}B\x1b[7HC"), (0x41, true));
    assert_eq!(changed(b"\x1b[2J"), (0x41, false));
    assert_eq!(changed(b"\x1bc"), (0, true));
    assert_eq!(changed(b"\x1bc"), (0, false));

    let mut broken = record.to_bytes();
    broken[114] = 1;
    broken[50] = 25;
    let mut record = Record::from_bytes(broken);
    assert_eq!(record.ask(), Err(Refusal::Broken));
    assert_eq!(record.to_bytes(), broken);
}

#[test]
fn rows_and_line_are_taken_apart() {
    let mut terminal = Terminal::new(PageSize::Rows24);
    feed(&mut terminal, b"page\x1b[1$~\x1b[1$}line");
    assert_eq!(terminal.take_changed_rows(), RowSet::from_bits(1));
    feed(&mut terminal, b"\x1b[$}\x1b[2Hmore");
    assert!(terminal.take_line_changed());
    assert!(!terminal.take_line_changed());
    assert_eq!(terminal.take_changed_rows(), RowSet::from_bits(2));
    assert!(terminal.take_changed_rows().is_empty());
}

#[test]
fn the_page_stays_while_the_line_is_written() {
    let mut terminal = Terminal::new(PageSize::Rows24);
    feed(
        &mut terminal,
        b"\x1b[?7h\x1b[5;10r\x1b[?6h\x1b[2;77H1.10\x1b[1$~\x1b[1$}",
    );
    let (before, cursor) = (terminal.words().to_vec(), terminal.cursor());
    assert_eq!((cursor.row, cursor.column, cursor.wrap), (6, 80, true));
    for piece in [
        &b"signal -61 dBm"[..],
        b"\n\x0b\x0c\x1bD\x1bM\x1bE",
        b"\x1b[9L\x1b[9M\x1b[2;3r\x1b[?6l\x1b[?6h",
        b"\x1b[2J\x1b[99;99Hxy\x1b7\x1b8",
        b"\x1b[35;;;;$x\x1b[;;;;$z\x1b#8",
        b"\x1b[2K\x1b[Hup",
    ] {
        feed(&mut terminal, piece);
        assert_eq!(terminal.words(), before);
        assert_eq!(terminal.cursor(), cursor);
        assert_eq!(terminal.cell(6, 80).map(Cell::code), Ok(b'0'));
        assert_eq!(terminal.field(6, 77, 4).unwrap(), "1.10");
    }
    assert_eq!(terminal.line().text(), "up");
    assert_eq!(feed(&mut terminal, b"\x1b[6n"), b"\x1b[1;3R");
    assert_eq!(feed(&mut terminal, b"\x1b[$}\x1b[6n"), b"\x1b[2;80R");
    feed(&mut terminal, b"x");
    assert_eq!(terminal.field(7, 1, 1).unwrap(), "x");
}

#[test]
fn each_display_has_its_own_cursors() {
    let mut terminal = Terminal::new(PageSize::Rows24);
    feed(&mut terminal, b"\x1b[?7h\x1b[5;77H\x1b7");
    feed(&mut terminal, TO_LINE);
    // With wrap due the line goes on in its first column.
    feed(&mut terminal, b"\x1b[;77H1.10\x1b7x\x1b8y");
    assert_eq!(terminal.line().text(), format!("y{}1.10", " ".repeat(75)));
    feed(&mut terminal, b"\x1b[$}\x1b8z\x1b[1$}\x1b8w");
    assert_eq!(terminal.field(5, 77, 1).unwrap(), "z");
    assert_eq!(terminal.line()[0], u16::from(b'w'));
    // A soft reset goes back to the page and renews both saved cursors.
    feed(&mut terminal, b"\x1b[!p\x1b8a\x1b[1$}\x1b8b");
    assert_eq!(terminal.field(1, 1, 1).unwrap(), "a");
    assert_eq!(terminal.line()[0], u16::from(b'b'));
}

#[test]
fn a_line_that_was_left_is_as_it_was() {
    let mut terminal = on_line(PageSize::Rows36);
    feed(&mut terminal, b"up\x1b[$~P\x1b[1$}Q\x1b[2$~\x1b[1$}!");
    assert_eq!(terminal.line().text(), "up!");
    assert_eq!(terminal.field(1, 1, 80).unwrap(), "PQ");
    feed(&mut terminal, b"\x1bc");
    assert_eq!(terminal.line(), &Line::default());
    feed(&mut terminal, b"\x1b[1$}R");
    assert_eq!(terminal.field(1, 1, 80).unwrap(), "R");
    assert_eq!(format!("{:?}", terminal.line()), "Line(\"\")");
}

#[test]
fn a_clone_has_its_own_line() {
    let mut one = on_line(PageSize::Rows24);
    let mut other = one.clone();
    feed(&mut one, b"one");
    feed(&mut other, b"other");
    assert_eq!(one.line().text(), "one");
    assert_eq!(other.line().text(), "other");
    assert_eq!(other.row(1), Ok(&other.line()[..]));
}
