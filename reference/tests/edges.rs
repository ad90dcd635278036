//! Cases at the edges, with expectations written by hand from the scope paper
//! and the requests that are met.

mod common;
use common::{parameters, Console};
use reference::cell::{Rendition, Set};
use reference::state::Shift;
use reference::*;

const BOLD: u16 = 1 << 9;
const UNDERLINE: u16 = 1 << 10;
const BLINK: u16 = 1 << 11;
const REVERSE: u16 = 1 << 12;
const PROTECTED: u16 = 1 << 13;
const GRAPHICS: u16 = 1 << 7;
const SUPPLEMENTAL: u16 = 2 << 7;
const LATIN1: u16 = 3 << 7;

/// Ground, with wrap due in the row, after filling column 80 with "w".
fn due(row: usize) -> Console {
    let c = Console::fed(format!("\x1B[?7h\x1B[{row};80Hw").as_bytes());
    assert_eq!(c.at(), (row, 80, true));
    c
}

/// A letter in column 1 of each row: "A" in row 1 and so on.
fn lettered(rows: usize) -> Console {
    let mut c = Console::of(rows);
    for row in 1..=rows {
        let letter = (b'A' + row as u8 - 1) as char;
        c.more(format!("\x1B[{row};1H{letter}").as_bytes());
    }
    c.more(b"\x1B[H");
    c.ask();
    c
}

fn column_1(c: &Console) -> String {
    (1..=c.state.rows)
        .map(|row| (c.word(row, 1) & 0x7F) as u8 as char)
        .collect()
}

// ---- Start, answers, reading cells ------------------------------------------

#[test]
fn start_blanks_and_makes_fresh() {
    for rows in [24, 36, 48] {
        let mut page = vec![0xABCD; 80 * rows];
        let mut line = [0xABCD; 80];
        let (answer, state) = start(rows, &mut page, &mut line);
        assert_eq!(answer, 0);
        assert!(page.iter().all(|&w| w == 0x20));
        assert_eq!(line, [0x20; 80]);
        assert_eq!(state.line, Line::FRESH);
        assert!(is_whole(&state));
        assert_eq!(state.rows, rows);
        assert_eq!((state.top, state.bottom), (1, rows));
        let tabs: Vec<usize> = (1..=80).filter(|&c| state.tabs[c - 1]).collect();
        assert_eq!(tabs, [9, 17, 25, 33, 41, 49, 57, 65, 73]);
        assert!(!state.insert && !state.newline && !state.origin && !state.autowrap);
        assert!(state.cursor_shown && !state.eight_bit_replies && !state.protection);
        assert_eq!(state.extent, Extent::Stream);
        assert_eq!(state.sets.g0, Set::Ascii);
        assert_eq!(state.sets.g1, Set::Ascii);
        assert_eq!(state.sets.g2, Set::Supplemental);
        assert_eq!(state.sets.g3, Set::Supplemental);
        assert_eq!((state.sets.gl, state.sets.gr), (Slot::G0, Slot::G2));
        assert_eq!(state.shift, None);
        assert_eq!(state.parser, Parser::Ground);
        assert!(state.changed.is_empty());
    }
}

#[test]
fn start_refuses_1_before_2_and_gives_the_fresh_24_row_state() {
    let mut fine = vec![0; 80 * 24];
    let mut line = [0xABCD; 80];
    let fresh = start(24, &mut fine, &mut line).1;
    for (rows, cells, answer) in [
        (0, 0, 1),
        (25, 80 * 25, 1),
        (usize::MAX, 10, 1),
        (23, 7, 1),
        (24, 80 * 36, 2),
        (36, 80 * 24, 2),
        (48, 80 * 48 - 1, 2),
        (48, 0, 2),
    ] {
        let mut page = vec![0xABCD; cells];
        let mut line = [0xABCD; 80];
        assert_eq!(start(rows, &mut page, &mut line), (answer, fresh.clone()));
        assert!(page.iter().all(|&w| w == 0xABCD));
        assert_eq!(line, [0xABCD; 80]);
    }
}

#[test]
fn feed_refusals_change_nothing() {
    let mut c = Console::fed(b"AB");
    let mut reply = [7; 20];
    // 2: a page of another size.
    let mut short = vec![0x1234; 80 * 24 - 1];
    let got = feed(
        &c.state,
        &mut short,
        &mut c.status_line,
        b"x\x1B[c",
        &mut reply,
    );
    assert_eq!(got, (2, 0, 0, c.state.clone()));
    assert!(short.iter().all(|&w| w == 0x1234));
    assert_eq!(reply, [7; 20]);
    // 1 comes before 2.
    let mut broken = c.state.clone();
    broken.cursor.row = 25;
    let got = feed(&broken, &mut short, &mut c.status_line, b"x", &mut reply);
    assert_eq!(got, (1, 0, 0, broken.clone()));
    let page = c.page.clone();
    let got = feed(&broken, &mut c.page, &mut c.status_line, b"x", &mut reply);
    assert_eq!(got, (1, 0, 0, broken.clone()));
    assert_eq!(c.page, page);
    // Also with nothing to read.
    assert_eq!(
        feed(&broken, &mut c.page, &mut c.status_line, b"", &mut []).0,
        1
    );
    assert_eq!(
        feed(&c.state, &mut short, &mut c.status_line, b"", &mut []).0,
        2
    );
    // Asking.
    assert_eq!(ask(&broken), (1, vec![], 0, false, broken.clone()));
}

#[test]
fn reading_a_cell_answers_in_order() {
    let c = Console::fed(b"\x1B[1mA");
    assert_eq!(read_cell(&c.state, &c.page, 1, 1), (0, 0x41 | BOLD));
    assert_eq!(read_cell(&c.state, &c.page, 24, 80), (0, 0x20));
    for (row, column) in [(0, 1), (1, 0), (25, 1), (1, 81), (0, 0), (usize::MAX, 1)] {
        assert_eq!(read_cell(&c.state, &c.page, row, column), (4, 0x20));
        assert_eq!(read_cell(&c.state, &c.page[1..], row, column), (2, 0x20));
        let mut broken = c.state.clone();
        broken.saved.cursor.column = 81;
        assert_eq!(read_cell(&broken, &c.page[1..], row, column), (1, 0x20));
        assert_eq!(read_cell(&broken, &c.page, 1, 1), (1, 0x20));
    }
    // The word as it lies, unused bits too.
    let mut page = c.page.clone();
    page[0] = 0xFFFF;
    assert_eq!(read_cell(&c.state, &page, 1, 1), (0, 0xFFFF));
}

#[test]
fn what_is_not_whole() {
    let fresh = Console::new().state;
    let broken = |change: &dyn Fn(&mut State)| {
        let mut state = fresh.clone();
        change(&mut state);
        !is_whole(&state)
    };
    assert!(is_whole(&fresh));
    assert!(broken(&|s| s.rows = 25));
    assert!(broken(&|s| s.cursor.row = 0));
    assert!(broken(&|s| s.cursor.row = 25));
    assert!(broken(&|s| s.cursor.column = 0));
    assert!(broken(&|s| s.cursor.column = 81));
    assert!(broken(&|s| s.top = 0));
    assert!(broken(&|s| s.top = 24));
    assert!(broken(&|s| s.bottom = 1));
    assert!(broken(&|s| s.bottom = 25));
    // Wrap due only in column 80 with autowrap on.
    assert!(broken(&|s| {
        s.cursor.wrap_due = true;
        s.autowrap = true
    }));
    assert!(broken(&|s| {
        s.cursor.wrap_due = true;
        s.cursor.column = 80
    }));
    assert!(!broken(&|s| {
        s.cursor.wrap_due = true;
        s.cursor.column = 80;
        s.autowrap = true
    }));
    // Origin.
    assert!(broken(&|s| {
        s.origin = true;
        s.top = 2
    }));
    assert!(!broken(&|s| s.top = 2));
    assert!(broken(&|s| {
        s.origin = true;
        s.bottom = 9;
        s.cursor.row = 10
    }));
    // Saved: autowrap isn't asked, nor are the margins.
    assert!(broken(&|s| s.saved.cursor.row = 0));
    assert!(broken(&|s| s.saved.cursor.row = 25));
    assert!(broken(&|s| s.saved.cursor.column = 0));
    assert!(broken(&|s| s.saved.cursor.column = 81));
    assert!(broken(&|s| s.saved.cursor.wrap_due = true));
    assert!(!broken(&|s| {
        s.saved.cursor.wrap_due = true;
        s.saved.cursor.column = 80;
        s.saved.origin = true;
        s.top = 5
    }));
    for (protection, shift, _) in WRITING {
        assert!(!broken(&|s| {
            s.saved.protection = protection;
            s.saved.shift = shift
        }));
    }
    // The parser.
    let control = |mark, text: &[u8], intermediates: Vec<u8>| Parser::Control {
        mark,
        text: text.to_vec(),
        said: false,
        intermediates,
    };
    assert!(!broken(
        &|s| s.parser = control(Some(0x3C), b"0:9;99999:", vec![0x20, 0x2F])
    ));
    assert!(broken(&|s| s.parser = control(None, b"1?", vec![])));
    assert!(broken(&|s| s.parser = control(None, b"1/", vec![])));
    assert!(broken(&|s| s.parser = control(Some(0x3B), b"", vec![])));
    assert!(broken(&|s| s.parser = control(Some(0x40), b"", vec![])));
    assert!(broken(&|s| s.parser = control(None, b"", vec![0x30])));
    assert!(broken(&|s| s.parser = control(None, b"", vec![0x20; 3])));
    let escape = |intermediates| Parser::Escape { intermediates };
    assert!(broken(&|s| s.parser = escape(vec![0x1F])));
    assert!(broken(&|s| s.parser = escape(vec![0x20; 3])));
    // As a script gives it: in every phase.
    for phase in 0..=10 {
        let given = Given {
            phase,
            mark: 0,
            intermediates: [0x20, 0x2F],
            separators: 0,
            values: [9999; 16],
        };
        let whole = |given: Given| !broken(&|s| s.parser = Parser::Given(given));
        // The top bit of the mark says that there is a subparameter; then, and
        // only then, 10,000 may be a value.
        for mark in 0..=255 {
            let good = matches!(mark, 0 | 0x3C..=0x3F | 0x80 | 0xBC..=0xBF);
            assert_eq!(whole(Given { mark, ..given }), good);
            for (value, with_top_bit) in [(9_999, true), (10_000, true), (10_001, false)] {
                let good = match mark {
                    0 | 0x3C..=0x3F => value == 9_999,
                    0x80 | 0xBC..=0xBF => with_top_bit,
                    _ => false,
                };
                let values = [value; 16];
                let given = Given {
                    mark,
                    values,
                    ..given
                };
                assert_eq!(whole(given), good);
                assert_eq!(
                    whole(Given {
                        separators: 16,
                        ..given
                    }),
                    good
                );
            }
        }
        for separators in 0..=255 {
            let good = separators <= 16;
            assert_eq!(
                whole(Given {
                    separators,
                    ..given
                }),
                good
            );
            for place in 0..16 {
                for (mark, value, may_count) in [
                    (0, 10_000, false),
                    (0, 65_535, false),
                    (0x3F, 10_000, false),
                    (0x80, 10_000, true),
                    (0x80, 10_001, false),
                    (0xBC, 10_000, true),
                    (0xBC, 65_535, false),
                ] {
                    let mut values = given.values;
                    values[place] = value;
                    let good = good && (may_count || place > separators as usize);
                    let given = Given {
                        mark,
                        separators,
                        values,
                        ..given
                    };
                    assert_eq!(whole(given), good);
                }
            }
        }
        let counted = match phase {
            2 | 7 => 1,
            3 | 8 => 2,
            _ => 0,
        };
        for byte in 0..=255 {
            let good = (0x20..=0x2F).contains(&byte);
            for place in 0..2 {
                let mut intermediates = given.intermediates;
                intermediates[place] = byte;
                let given = Given {
                    intermediates,
                    ..given
                };
                assert_eq!(whole(given), good || place >= counted);
            }
        }
    }
    // Changed rows.
    assert!(!broken(&|s| {
        s.changed.insert(24);
    }));
    assert!(broken(&|s| {
        s.changed.insert(25);
    }));
}

#[test]
fn answer_3_leaves_the_byte_unapplied() {
    // 9A in an open string, with too little room: the string stays open.
    let mut c = Console::fed(b"ok\x90abc");
    let mut reply = [0xEE; 7];
    let (answer, read, replied, state) = feed(
        &c.state,
        &mut c.page,
        &mut c.status_line,
        b"d\x9Ae",
        &mut reply,
    );
    assert_eq!((answer, read, replied), (3, 1, 0));
    assert_eq!(state.parser, Parser::String);
    assert_eq!(reply, [0xEE; 7]);
    let mut reply = [0xEE; 9];
    let (answer, read, replied, state) = feed(
        &state,
        &mut c.page,
        &mut c.status_line,
        b"\x9Ae",
        &mut reply,
    );
    assert_eq!((answer, read, replied), (0, 2, 8));
    assert_eq!(&reply, b"\x1B[?64;6c\xEE");
    assert_eq!(state.parser, Parser::Ground);
    assert_eq!(state.cursor.column, 4);
}

#[test]
fn answer_3_keeps_what_was_before_it() {
    let mut c = Console::new();
    let mut reply = [0xEE; 9];
    let input = b"A\x1B[5nB\x1B[6nC";
    let (answer, read, replied, state) =
        feed(&c.state, &mut c.page, &mut c.status_line, input, &mut reply);
    // 4 bytes of 9 are used; the second reply needs 6.
    assert_eq!((answer, read, replied), (3, 9, 4));
    assert_eq!(&reply, b"\x1B[0n\xEE\xEE\xEE\xEE\xEE");
    assert_eq!(c.line(1), "AB");
    assert_eq!(state.cursor.column, 3);
    // Bytes without replies need no room at all.
    let (answer, read, _, _) = feed(
        &c.state,
        &mut c.page,
        &mut c.status_line,
        b"\x1B[0cxyz",
        &mut [],
    );
    assert_eq!((answer, read), (3, 3));
    let (answer, read, _, _) = feed(
        &c.state,
        &mut c.page,
        &mut c.status_line,
        b"\x1B[1cxyz",
        &mut [],
    );
    assert_eq!((answer, read), (0, 7));
}

// ---- The parser -------------------------------------------------------------

#[test]
fn sequences_cut_anywhere() {
    let bytes = b"\x1B[2;3H\x1B(0q\x9B?7;25h\x1B[1;7m\x90str\x1B\\x\x1B[6n";
    let whole = Console::fed(bytes);
    let mut cut = Console::new();
    for byte in bytes {
        cut.more(&[*byte]);
    }
    assert_eq!(whole.page, cut.page);
    assert_eq!(whole.state, cut.state);
    assert_eq!(whole.replies, cut.replies);
}

#[test]
fn escape_40_to_5f_is_the_byte_40_higher() {
    for low in 0x40..=0x5F_u8 {
        let before = b"\x1B[5;6Hab";
        let long = Console::fed(before).feed(&[0x1B, low]);
        let high = Console::fed(before).feed(&[low + 0x40]);
        let top_bit = Console::fed(before).feed(&[0x1B, low | 0x80]);
        assert_eq!(long.state, high.state);
        assert_eq!(long.page, high.page);
        assert_eq!(long.replies, high.replies);
        assert_eq!(long.state, top_bit.state);
    }
    // With an intermediate it is not.
    let c = Console::fed(b"\x1B[5;6H\x1B Dx");
    assert_eq!(c.at(), (5, 7, false));
}

#[test]
fn high_controls_drop_what_is_in_progress() {
    for byte in [0x80, 0x81, 0x86, 0x91, 0x99, 0x9C] {
        let c = Console::fed(b"\x1B[5;7").feed(&[byte]).feed(b"Hx");
        assert_eq!(c.line(1), "Hx");
    }
    // 84 acts, and the rest of the sequence is text.
    let c = Console::fed(b"\x1B[5;7\x84H");
    assert_eq!((c.word(2, 1), c.at()), (0x48, (2, 2, false)));
    // 9B in a sequence begins another.
    assert_eq!(Console::fed(b"\x1B[5;7\x9B3;4H").at(), (3, 4, false));
}

#[test]
fn controls_inside_sequences_act_and_7f_is_skipped() {
    let c = Console::fed(b"ab\x1B[\x0A3\x08;\x7F4\x0D\xFFH");
    assert_eq!(c.at(), (3, 4, false));
    // LF acted: had the sequence been cancelled the cursor would tell.
    let c = Console::fed(b"ab\x1B[\x0A");
    assert_eq!(c.at(), (2, 3, false));
    let c = Console::fed(b"\x1B\x0A(\x0E0q");
    // SO took effect, so q is through G1, ASCII; G0 has graphics.
    assert_eq!(c.word(2, 1), 0x71);
    assert_eq!(c.state.sets.g0, Set::SpecialGraphics);
    // Ignored sequences let controls act too.
    let c = Console::fed(b"\x1B[1?\x0A2mx");
    assert_eq!(c.at(), (2, 2, false));
    let c = Console::fed(b"\x1B !\"\x0A#Bx");
    assert_eq!(c.at(), (2, 2, false));
    // A mark is still the first byte after a control or 7F.
    let c = Console::fed(b"\x1B[\x0A\x7F?7h");
    assert!(c.state.autowrap);
}

#[test]
fn high_bytes_in_sequences_are_read_as_80_less() {
    let c = Console::fed(b"\x1B\xDB\xB5\xBB\xB6\xC8");
    assert_eq!(c.at(), (5, 6, false));
    let c = Console::fed(b"\x1B[\xBF7\xE8");
    assert!(c.state.autowrap);
    let c = Console::fed(b"\x1B\xA0\xC7");
    assert!(c.state.eight_bit_replies);
}

#[test]
fn ignored_through_the_final() {
    for ignored in [
        &b"\x1B[5;5!:H"[..],
        b"\x1B[5?H",
        b"\x1B[??7h",
        b"\x1B[?<7h",
        b"\x1B[5!5H",
        b"\x1B[5!;H",
        b"\x1B[5 <H",
        b"\x1B[ !\"H",
        b"\x1B[ !\"#$%H",
        b"\x1B[;?5H",
        b"\x1B[::::9;9;:?! \"H",
        b"\x1B !\"8",
        b"\x1B !\"#$c",
        b"\x1B#!\"8",
    ] {
        let c = Console::fed(b"\x1B[3;3H").feed(ignored).feed(b"x");
        assert_eq!(c.at(), (3, 4, false), "{ignored:?}");
        assert_eq!(c.line(3), "  x", "{ignored:?}");
        assert!(!c.state.autowrap);
        assert!(c.blank_but(&[3]));
    }
    // An ignored escape sequence ends at 30 already, a control one at 40.
    assert_eq!(Console::fed(b"\x1B !\"08").line(1), "8");
    assert_eq!(Console::fed(b"\x1B[0?08@8").line(1), "8");
}

#[test]
fn unlisted_sequences_do_nothing() {
    for unlisted in [
        &b"\x1B[?5A"[..],
        b"\x1B[>5A",
        b"\x1B[5 A",
        b"\x1B[5;5!H",
        b"\x1B[?H",
        b"\x1B[4J",
        b"\x1B[3K",
        b"\x1B[?3J",
        b"\x1B[>J",
        b"\x1B[2g",
        b"\x1B[7h",
        b"\x1B[?4h",
        b"\x1B[>25l",
        b"\x1B[3\"q",
        b"\x1B[q",
        b"\x1B[?1m",
        b"\x1B[p",
        b"\x1B[!!p",
        b"\x1B[?!p",
        b"\x1B[?5r",
        b"\x1B(A",
        b"\x1B)<",
        b"\x1B-B",
        b"\x1B,A",
        b"\x1B(%0",
        b"\x1B-%5",
        b"\x1B%5",
        b"\x1B(!B",
        b"\x1B#7",
        b"\x1B##8",
        b"\x1B H",
        b"\x1B=",
        b"\x1B>",
        b"\x1B9",
        b"\x1B6",
        b"\x1B`",
        b"\x1B[1c",
        b"\x1B[?c",
        b"\x1B[=c",
        b"\x1B[>1c",
        b"\x1B[0n",
        b"\x1B[n",
        b"\x1B[15n",
        b"\x1B[?5n",
        b"\x1B[>6n",
        b"\x1B[6 n",
        b"\x1B[E",
        b"\x1B[d",
        b"\x1B[s",
        b"\x1B[~",
        b"\x1B[?1;1;9;80$z",
        b"\x1B[$$z",
        b"\x1B[*z",
        b"\x1B[!{",
        b"\x1B[{",
        b"\x1B[>97$x",
        b"\x1B[97$ x",
        b"\x1B[2x",
        b"\x1B[?2*x",
        b"\x1B[2**x",
        b"\x1B[2*$x",
        b"\x1B[3*x",
        b"\x1B[1;1;1;1;1;5;5*v",
        b"\x1B[v",
        b"\x1B[1;1;9;80;1*r",
        b"\x1B[1;1;9;80;1 t",
        b"\x1B[$p",
        b"\x1B[1;1;9;80$y",
        b"\x1B[2*y",
    ] {
        let before = Console::fed(b"zz\x1B[?7h\x1B[4;80Hw\x1B[1m");
        let (page, state) = (before.page.clone(), before.state.clone());
        let after = before.feed(unlisted);
        assert_eq!(after.page, page, "{unlisted:?}");
        assert_eq!(after.state, state, "{unlisted:?}");
        assert_eq!(after.replies, b"", "{unlisted:?}");
    }
}

#[test]
fn unlisted_numbers_do_nothing() {
    let listed: [(&str, &str, &[usize]); 10] = [
        ("", "m", &[0, 1, 4, 5, 7, 22, 24, 25, 27]),
        ("", "h", &[4, 20]),
        ("", "l", &[4, 20]),
        ("?", "h", &[6, 7, 25]),
        ("?", "l", &[6, 7, 25]),
        ("", "g", &[0, 3]),
        ("", "\"q", &[0, 1, 2]),
        ("", "*x", &[0, 1, 2]),
        ("", "n", &[5, 6]),
        ("?", "n", &[6, 15]),
    ];
    // All modes and renditions off, and all on.
    for setup in [
        "\x1B[?25l",
        "\x1B[4;20h\x1B[?6;7h\x1B[1;4;5;7m\x1B[1\"q\x1B[2*x\x1B[24;80Hw",
    ] {
        let before = Console::fed(setup.as_bytes());
        for (mark, last, numbers) in listed {
            for number in (0..=120).chain([9_998, 9_999, 10_004]) {
                if numbers.contains(&number) {
                    continue;
                }
                let mut after = Console::new();
                after.page = before.page.clone();
                after.state = before.state.clone();
                after.more(format!("\x1B[{mark}{number}{last}").as_bytes());
                assert_eq!(after.page, before.page);
                assert_eq!(after.state, before.state, "{mark}{number}{last}");
                assert_eq!(after.replies, b"");
            }
        }
    }
}

#[test]
fn a_mark_makes_another_sequence() {
    for last in b'@'..=b'~' {
        for mark in b'<'..=b'?' {
            let listed: &[u8] = match mark {
                b'?' => b"JKhln",
                b'>' => b"c",
                _ => b"",
            };
            if listed.contains(&last) {
                continue;
            }
            for parameters in ["", "0", "1", "2;3", "3", "4", "5", "6", "7", "20"] {
                let before = Console::fed(b"zz\x1B[?7h\x1B[4;80H\x88w");
                let (page, state) = (before.page.clone(), before.state.clone());
                let mut bytes = vec![0x9B, mark];
                bytes.extend_from_slice(parameters.as_bytes());
                bytes.push(last);
                let after = before.feed(&bytes);
                assert_eq!(after.page, page, "{bytes:?}");
                assert_eq!(after.state, state, "{bytes:?}");
                assert_eq!(after.replies, b"", "{bytes:?}");
            }
        }
    }
}

#[test]
fn strings_end_only_by_can_sub_esc_and_80_to_9f() {
    for opener in [0x90, 0x98, 0x9D, 0x9E, 0x9F_u8] {
        let mut inside: Vec<u8> = (0x00..0x18).collect();
        inside.push(0x19);
        inside.extend(0x1C..0x80);
        inside.extend(0xA0..=0xFF_u8);
        let c = Console::fed(&[opener]).feed(&inside);
        assert_eq!(c.state.parser, Parser::String);
        assert!(c.blank_but(&[]));
        assert_eq!(c.at(), (1, 1, false));
        assert_eq!(Console::fed(&[opener]).feed(b"a\x18b").line(1), "b");
        assert_eq!(Console::fed(&[opener]).feed(b"a\x1Ab").line(1), "\u{2426}b");
        assert_eq!(Console::fed(&[opener]).feed(b"a\x1B\\b").line(1), "b");
        assert_eq!(Console::fed(&[opener]).feed(b"a\x9Cb").line(1), "b");
        assert_eq!(Console::fed(&[opener]).feed(b"a\x80b").line(1), "b");
        assert_eq!(Console::fed(&[opener]).feed(b"a\x1B[3Cb").line(1), "   b");
        assert_eq!(Console::fed(&[opener]).feed(b"a\x9B3Cb").line(1), "   b");
        assert_eq!(Console::fed(&[opener]).feed(b"a\x85b").line(2), "b");
        // Another string begins.
        assert_eq!(Console::fed(&[opener]).feed(b"a\x9Db\x9Cc").line(1), "c");
    }
}

#[test]
fn can_and_sub() {
    // CAN: dropped, nothing else; the shift and wrap due stay.
    let c = due(3).feed(b"\x8E\x1B[5\x18");
    assert_eq!(c.at(), (3, 80, true));
    assert_eq!(c.state.shift, Some(Shift::G2));
    assert_eq!(c.state.parser, Parser::Ground);
    // SUB: code 1A, ASCII, rendition and protection; the shift stays.
    let c = Console::fed(b"\x1B(0\x1B[1;7m\x1B[1\"q\x8E\x1B[5\x1A");
    assert_eq!(c.word(1, 1), 0x1A | BOLD | REVERSE | PROTECTED);
    assert_eq!(c.at(), (1, 2, false));
    assert_eq!(c.state.shift, Some(Shift::G2));
    // With wrap due: two steps; in insert mode: the rest moves.
    let mut c = due(24);
    c.ask();
    c.more(b"\x1A");
    assert_eq!(c.at(), (24, 2, false));
    assert_eq!(c.word(24, 1), 0x1A);
    assert_eq!(c.ask(), [23, 24]);
    let c = Console::fed(b"ab\x1B[4h\x0D\x1A");
    assert_eq!(c.line(1), "\u{2426}ab");
    // At column 80 wrap due becomes autowrap.
    let c = Console::fed(b"\x1B[?7h\x1B[80C\x1A");
    assert_eq!(c.at(), (1, 80, true));
}

#[test]
fn sixteen_parameters_are_kept() {
    // The sixteenth counts, the seventeenth does not.
    let c = Console::fed(b"\x1B[;;;;;;;;;;;;;;;1m");
    assert!(c.state.rendition.bold);
    let c = Console::fed(b"\x1B[;;;;;;;;;;;;;;;;1m");
    assert_eq!(c.state.rendition, Rendition::PLAIN);
    // Digits of the dropped ones don't join the sixteenth.
    let c = Console::fed(b"\x1B[0;0;0;0;0;0;0;0;0;0;0;0;0;0;0;2;2;2;7m");
    assert_eq!(c.state.rendition, Rendition::PLAIN);
    let c = Console::fed(b"\x1B[0;0;0;0;0;0;0;0;0;0;0;0;0;0;0;4;0;0m");
    assert!(c.state.rendition.underline);
    // More than sixteen don't spoil the sequence.
    let c = Console::fed(b"\x1B[5;6;7;8;9;10;11;12;13;14;15;16;17;18;19;20;21;22;23H");
    assert_eq!(c.at(), (5, 6, false));
}

fn values(bytes: &[u8]) -> Vec<u32> {
    parameters(bytes).iter().map(|p| p.value).collect()
}

#[test]
fn values_of_parameters() {
    assert_eq!(
        values(b"\x1B[9999;10000;99999;00012m"),
        [9999, 9999, 9999, 12]
    );
    assert_eq!(
        values(b"\x1B[99990;100000000000000000000;0m"),
        [9999, 9999, 0]
    );
    assert_eq!(values(b"\x1B[;5;m"), [0, 5, 0]);
    assert_eq!(values(b"\x1B[m"), [0]);
    // Empty is 0 and none is one 0: m clears.
    for clear in [&b"\x1B[m"[..], b"\x1B[0m", b"\x1B[;m", b"\x1B[1;m"] {
        let c = Console::fed(b"\x1B[1;4;5;7m").feed(clear);
        assert_eq!(c.state.rendition, Rendition::PLAIN);
    }
    assert!(Console::fed(b"\x1B[;1m").state.rendition.bold);
    // 10007 is 9,999, not mode 7.
    assert!(!Console::fed(b"\x1B[?10007h").state.autowrap);
    assert!(Console::fed(b"\x1B[?0007h").state.autowrap);
}

// ---- Printing and sets ------------------------------------------------------

#[test]
fn cells_take_set_rendition_and_protection() {
    let c = Console::fed(b"\x1B[1mA\x1B[4mB\x1B[5mC\x1B[7mD\x1B[22mE\x1B[24mF\x1B[25mG\x1B[27mH\x1B[1\"qI\x1B[0mJ\x1B[2\"qK");
    let words: Vec<u16> = (1..=11).map(|column| c.word(1, column)).collect();
    assert_eq!(
        words,
        [
            0x41 | BOLD,
            0x42 | BOLD | UNDERLINE,
            0x43 | BOLD | UNDERLINE | BLINK,
            0x44 | BOLD | UNDERLINE | BLINK | REVERSE,
            0x45 | UNDERLINE | BLINK | REVERSE,
            0x46 | BLINK | REVERSE,
            0x47 | REVERSE,
            0x48,
            0x49 | PROTECTED,
            0x4A | PROTECTED,
            0x4B,
        ]
    );
}

#[test]
fn rendition_and_protection_selectors_in_order() {
    let c = Console::fed(b"\x1B[1;0;4;99;7m");
    assert!(!c.state.rendition.bold && c.state.rendition.underline && c.state.rendition.reverse);
    // Only the first parameter of " q counts.
    assert!(Console::fed(b"\x1B[1;0\"q").state.protection);
    assert!(!Console::fed(b"\x1B[1\"q\x1B[;1\"q").state.protection);
    assert!(Console::fed(b"\x1B[1\"q\x1B[3\"q").state.protection);
}

#[test]
fn sets_of_94_and_96_signs() {
    // Fresh GR is G2, Supplemental: A1 is code 21 of it, A0 and FF ignored.
    let c = Console::fed(b"\xA1\xA0\xFF\xFE");
    assert_eq!(
        (c.word(1, 1), c.word(1, 2)),
        (0x21 | SUPPLEMENTAL, 0x7E | SUPPLEMENTAL)
    );
    assert_eq!(c.at(), (1, 3, false));
    // 20 in a 94-sign set is ASCII's; 7F is ignored.
    let c = Console::fed(b"\x1B(0 a\x7F!");
    assert_eq!(c.word(1, 1), 0x20);
    assert_eq!(c.word(1, 2), 0x61 | GRAPHICS);
    assert_eq!(c.word(1, 3), 0x21 | GRAPHICS);
    // Latin-1 in G1, in GL and GR: all of 20, 7F, A0, FF print.
    let c = Console::fed(b"\x1B-A\x0E\x1B~ \x7F\xA0\xFF\xE9");
    let words: Vec<u16> = (1..=5).map(|column| c.word(1, column)).collect();
    assert_eq!(
        words,
        [
            0x20 | LATIN1,
            0x7F | LATIN1,
            0x20 | LATIN1,
            0x7F | LATIN1,
            0x69 | LATIN1
        ]
    );
    assert_eq!(c.at(), (1, 6, false));
}

#[test]
fn designations_and_locking_shifts() {
    for (sequence, slot, set) in [
        (&b"\x1B(0"[..], Slot::G0, Set::SpecialGraphics),
        (b"\x1B)0", Slot::G1, Set::SpecialGraphics),
        (b"\x1B*B", Slot::G2, Set::Ascii),
        (b"\x1B+0", Slot::G3, Set::SpecialGraphics),
        (b"\x1B(%5", Slot::G0, Set::Supplemental),
        (b"\x1B)%5", Slot::G1, Set::Supplemental),
        (b"\x1B-A", Slot::G1, Set::Latin1),
        (b"\x1B.A", Slot::G2, Set::Latin1),
        (b"\x1B/A", Slot::G3, Set::Latin1),
    ] {
        let mut expected = Sets::FRESH;
        expected.designate(slot, set);
        assert_eq!(Console::fed(sequence).state.sets, expected);
        assert_eq!(expected.in_slot(slot), set);
    }
    for (sequence, gl, gr) in [
        (&b"\x0E"[..], Slot::G1, Slot::G2),
        (b"\x0E\x0F", Slot::G0, Slot::G2),
        (b"\x1Bn", Slot::G2, Slot::G2),
        (b"\x1Bo", Slot::G3, Slot::G2),
        (b"\x1B~", Slot::G0, Slot::G1),
        (b"\x1B~\x1B}", Slot::G0, Slot::G2),
        (b"\x1B|", Slot::G0, Slot::G3),
    ] {
        let sets = Console::fed(sequence).state.sets;
        assert_eq!((sets.gl, sets.gr), (gl, gr));
    }
    // GL names a slot: designating it later shows at once.
    let c = Console::fed(b"\x0E\x1B)0q");
    assert_eq!(c.word(1, 1), 0x71 | GRAPHICS);
}

#[test]
fn single_shifts() {
    // One printed byte, then back.
    let c = Console::fed(b"\x1B*0\x1BNqq\x8Fq");
    assert_eq!(c.word(1, 1), 0x71 | GRAPHICS);
    assert_eq!(c.word(1, 2), 0x71);
    assert_eq!(c.word(1, 3), 0x71 | SUPPLEMENTAL);
    assert_eq!(c.state.shift, None);
    // A byte printed through GR ends it, without using it.
    let c = Console::fed(b"\x1B*0\x1B|\x8E\xF1q");
    assert_eq!(c.word(1, 1), 0x71 | SUPPLEMENTAL);
    assert_eq!(c.word(1, 2), 0x71);
    // Ignored bytes don't: 7F in the shifted 94-sign set, A0 and FF in GR.
    let c = Console::fed(b"\x1B*0\x8E\x7F\xA0\xFF\x0A\x1B[Cq");
    assert_eq!(c.word(2, 2), 0x71 | GRAPHICS);
    // A shifted 96-sign set prints 7F; 20 ends a shift too.
    let c = Console::fed(b"\x1B.A\x8E\x7Fa");
    assert_eq!((c.word(1, 1), c.word(1, 2)), (0x7F | LATIN1, 0x61));
    let c = Console::fed(b"\x8E a");
    assert_eq!((c.word(1, 1), c.word(1, 2)), (0x20, 0x61));
    // The later shift counts. Saving leaves it; restoring brings the saved one,
    // or none.
    assert_eq!(Console::fed(b"\x8E\x8F").state.shift, Some(Shift::G3));
    assert_eq!(Console::fed(b"\x8E\x1B7").state.shift, Some(Shift::G2));
    assert_eq!(Console::fed(b"\x8E\x1B7\x1B8").state.shift, Some(Shift::G2));
    assert_eq!(Console::fed(b"\x1B7\x8E\x1B8").state.shift, None);
}

#[test]
fn insert_mode() {
    let c = Console::fed(b"\x1B[1;78Hxyz\x1B[1;78H\x1B[4hab");
    assert_eq!(&c.line(1)[77..], "abx");
    assert_eq!(c.at(), (1, 80, false));
    let c = c.feed(b"c");
    assert_eq!(&c.line(1)[77..], "abc");
    // It ignores the margins.
    let c = Console::fed(b"\x1B[5;9rab\x1B[4h\x1B[Hx");
    assert_eq!(c.line(1), "xab");
}

#[test]
fn without_autowrap_column_80_is_overwritten() {
    let c = Console::fed(b"\x1B[3;79Habcd");
    assert_eq!(&c.line(3)[78..], "ad");
    assert_eq!(c.at(), (3, 80, false));
    // Turning it on there makes no wrap due.
    let c = c.feed(b"\x1B[?7h");
    assert_eq!(c.at(), (3, 80, false));
    let c = c.feed(b"e");
    assert_eq!((c.word(3, 80), c.at()), (0x65, (3, 80, true)));
}

#[test]
fn wrapping_moves_as_ind_does() {
    // At B: the region scrolls.
    let mut c = lettered(24);
    c.more(b"\x1B[3;5r\x1B[?7h\x1B[5;80Hw");
    c.ask();
    c.more(b"x");
    assert_eq!(c.at(), (5, 2, false));
    assert_eq!(column_1(&c), "ABDExFGHIJKLMNOPQRSTUVWX");
    assert_eq!(c.ask(), [3, 4, 5]);
    // At R outside the margins: only column 1.
    let c = Console::fed(b"\x1B[3;5r\x1B[?7h\x1B[24;80Hwx");
    assert_eq!(c.at(), (24, 2, false));
    assert_eq!((c.word(24, 1), c.word(24, 80)), (0x78, 0x77));
    // Below B but not at R: down. Newline mode changes nothing in it.
    let c = Console::fed(b"\x1B[20h\x1B[3;5r\x1B[?7h\x1B[6;80Hwx");
    assert_eq!(c.at(), (7, 2, false));
}

// ---- Wrap due ---------------------------------------------------------------

#[test]
fn wrap_due_is_kept() {
    for bytes in [
        &b"\x00\x07\x05\x11\x19\x1C"[..],
        b"\x7F\xA0\xFF",
        b"\x0E\x0F",
        b"\x18",
        b"\x1B",
        b"\x1B[12;3",
        b"\x1BP123\x1B\\",
        b"\x9C\x80\x99",
        b"\x1BZ\x9A",
        b"\x88\x1BH",
        b"\x8E\x8F",
        b"\x1B[g\x1B[3g\x1B[7g",
        b"\x1B[4;20h\x1B[4;20l",
        b"\x1B[?25;7h\x1B[?25l\x1B[?99l",
        b"\x1B[1;4;7m\x1B[m",
        b"\x1B[5n\x1B[6n\x1B[?6n\x1B[?15n\x1B[9n",
        b"\x1B[c\x1B[>c\x1B[7c",
        b"\x1B[1\"q\x1B[\"q",
        b"\x1B(0\x1B(B\x1B.A\x1Bn\x1Bo\x1B~\x1B}\x1B|",
        b"\x1B7",
        b"\x1B F\x1B G",
        b"\x1B[3J\x1B[5K\x1B[?7K",
        b"\x1B[9;3r\x1B[24;24r",
        b"\x1B[5:A",
        b"\x1B[?A\x1B[E\x1B9",
        b"\x1B7\x1B8",
        b"\x1B[2*x\x1B[*x\x1B[7*x",
        b"\x1B[$z\x1B[5;80;5;80$z\x1B[5;5;4;9$z",
        b"\x1B[${\x1B[5;80;5;80${\x1B[5;9;5;8${",
        b"\x1B[97$x\x1B[97;5;80;5;80$x\x1B[$x\x1B[31$x\x1B[97;5;9;5;8$x",
        b"\x1B[;;;;;5;70$v\x1B[;;;;2;5;70$v\x1B[9;;8;;;5;70$v",
        b"\x1B[$r\x1B[5;80;5;80;7$r\x1B[;;;;99$r\x1B[5;5;4;9;7$r",
        b"\x1B[$t\x1B[5;80;5;80;7$t\x1B[;;;;22$t\x1B[5;5;4;9;7$t",
    ] {
        assert_eq!(due(5).feed(bytes).at(), (5, 80, true), "{bytes:?}");
    }
    // L, M, @, P outside the margins do nothing at all, above and below.
    for row in [5, 11] {
        let c = Console::fed(format!("\x1B[6;10r\x1B[?7h\x1B[{row};80Hw").as_bytes());
        let page = c.page.clone();
        let c = c.feed(b"\x1B[L\x1B[M\x1B[@\x1B[P");
        assert_eq!(c.at(), (row, 80, true));
        assert_eq!(c.page, page);
    }
}

#[test]
fn wrap_due_is_cleared_even_where_nothing_else_changes() {
    for (bytes, at) in [
        (&b"\x09"[..], (24, 80)),
        (b"\x1B[C", (24, 80)),
        (b"\x1B[B", (24, 80)),
        (b"\x08", (24, 79)),
        (b"\x0D", (24, 1)),
        (b"\x0A", (24, 80)),
        (b"\x0B", (24, 80)),
        (b"\x0C", (24, 80)),
        (b"\x84", (24, 80)),
        (b"\x85", (24, 1)),
        (b"\x8D", (23, 80)),
        (b"\x1B[A", (23, 80)),
        (b"\x1B[D", (24, 79)),
        (b"\x1B[24;80H", (24, 80)),
        (b"\x1B[24;80f", (24, 80)),
        (b"\x1B[J", (24, 80)),
        (b"\x1B[1J", (24, 80)),
        (b"\x1B[2J", (24, 80)),
        (b"\x1B[K", (24, 80)),
        (b"\x1B[1K", (24, 80)),
        (b"\x1B[?2K", (24, 80)),
        (b"\x1B[?J", (24, 80)),
        (b"\x1B[X", (24, 80)),
        (b"\x1B[L", (24, 1)),
        (b"\x1B[M", (24, 1)),
        (b"\x1B[@", (24, 80)),
        (b"\x1B[P", (24, 80)),
        (b"\x1B[r", (1, 1)),
        (b"\x1B[!p", (24, 80)),
        (b"\x1B#8", (1, 1)),
        (b"\x1Bc", (1, 1)),
        (b"\x1B[?6h", (1, 1)),
        (b"\x1B[?6l", (1, 1)),
        (b"\x1B[?7l", (24, 80)),
        (b"\x1B[?25;7;7l", (24, 80)),
    ] {
        let c = due(24).feed(bytes);
        assert_eq!(c.at(), (at.0, at.1, false), "{bytes:?}");
    }
    // IND at R outside the margins changes nothing else.
    let c = Console::fed(b"\x1B[2;4r\x1B[?7h\x1B[24;80Hw\x84");
    assert_eq!(c.at(), (24, 80, false));
    // ?7l and ?7h in one list: cleared by the first, if the list had both.
    let c = due(3).feed(b"\x1B[?7l\x1B[?7h");
    assert_eq!(c.at(), (3, 80, false));
}

#[test]
fn wrap_due_saved_and_restored() {
    let c = due(5).feed(b"\x1B7\x1B[H\x1B8");
    assert_eq!(c.at(), (5, 80, true));
    // Only if autowrap is on when restoring; it isn't itself restored.
    let c = due(5).feed(b"\x1B7\x1B[?7l\x1B8");
    assert_eq!(c.at(), (5, 80, false));
    assert!(c.state.saved.cursor.wrap_due);
    let c = c.feed(b"\x1B[?7h");
    assert_eq!(c.at(), (5, 80, false));
    assert_eq!(c.feed(b"\x1B8").at(), (5, 80, true));
    // Saved without it, restored without it.
    let c = Console::fed(b"\x1B[?7h\x1B[5;80H\x1B7w\x1B8");
    assert_eq!(c.at(), (5, 80, false));
}

// ---- Functions --------------------------------------------------------------

#[test]
fn backspace_tab_and_return() {
    assert_eq!(Console::fed(b"a\x08\x08\x08").at(), (1, 1, false));
    let c = Console::fed(b"\x09");
    assert_eq!(c.at(), (1, 9, false));
    assert_eq!(
        c.feed(b"\x09\x09\x09\x09\x09\x09\x09\x09").at(),
        (1, 73, false)
    );
    assert_eq!(Console::fed(b"\x1B[73G\x1B[1;73H\x09").at(), (1, 80, false));
    assert_eq!(Console::fed(b"\x1B[1;80H\x09").at(), (1, 80, false));
    // HTS here; g clears it; HT looks to the right only.
    let c = Console::fed(b"\x1B[1;5H\x88\x0D\x09");
    assert_eq!(c.at(), (1, 5, false));
    let c = c.feed(b"\x1B[g\x0D\x09");
    assert_eq!(c.at(), (1, 9, false));
    let c = Console::fed(b"\x1B[0;3g\x1B[3g\x09");
    assert_eq!(c.at(), (1, 80, false));
    // At 80 and at 1 too.
    let c = Console::fed(b"\x1B[80C\x88\x0D\x88");
    assert!(c.state.tabs[79] && c.state.tabs[0]);
    assert!(!Console::fed(b"\x1B[80C\x88\x1B[;3g").state.tabs[79]);
}

#[test]
fn line_feed_and_newline_mode() {
    for byte in [0x0A, 0x0B, 0x0C] {
        assert_eq!(Console::fed(b"abc").feed(&[byte]).at(), (2, 4, false));
        let c = Console::fed(b"\x1B[20habc").feed(&[byte]);
        assert_eq!(c.at(), (2, 1, false));
    }
    assert_eq!(Console::fed(b"abc\x84").at(), (2, 4, false));
    assert_eq!(Console::fed(b"\x1B[20habc\x84").at(), (2, 4, false));
    assert_eq!(Console::fed(b"abc\x85").at(), (2, 1, false));
}

#[test]
fn index_and_reverse_index() {
    let mut c = lettered(24);
    c.more(b"\x1B[3;5r\x1B[5;7H\x84");
    assert_eq!(column_1(&c), "ABDE FGHIJKLMNOPQRSTUVWX");
    assert_eq!(c.at(), (5, 7, false));
    assert_eq!(c.ask(), [3, 4, 5]);
    c.more(b"\x1B[3;7H\x8D");
    assert_eq!(column_1(&c), "AB DEFGHIJKLMNOPQRSTUVWX");
    assert_eq!(c.ask(), [3, 4, 5]);
    // Outside: to the page's edge and no further.
    c.more(b"\x1B[24H\x84\x84");
    assert_eq!(c.at(), (24, 1, false));
    c.more(b"\x1B[1;4H\x8D");
    assert_eq!(c.at(), (1, 4, false));
    // From outside into the region and through it.
    c.more(b"\x1B[2H\x84\x84\x84");
    assert_eq!(c.at(), (5, 1, false));
    c.more(b"\x1B[6H\x8D\x8D\x8D");
    assert_eq!(c.at(), (3, 1, false));
    assert_eq!(c.ask(), [0; 0]);
    // From 6 down to 24 past B is free.
    c.more(b"\x1B[6H\x84");
    assert_eq!(c.at(), (7, 1, false));
}

#[test]
fn up_and_down_stop_at_margins() {
    for (from, bytes, to) in [
        (7, &b"\x1B[A"[..], 6),
        (7, b"\x1B[0A", 6),
        (7, b"\x1B[99A", 5),
        (5, b"\x1B[A", 5),
        (4, b"\x1B[A", 3),
        (4, b"\x1B[9999A", 1),
        (1, b"\x1B[A", 1),
        (20, b"\x1B[20A", 5),
        (7, b"\x1B[B", 8),
        (7, b"\x1B[;5B", 8),
        (7, b"\x1B[99B", 10),
        (10, b"\x1B[B", 10),
        (11, b"\x1B[B", 12),
        (11, b"\x1B[99B", 24),
        (24, b"\x1B[B", 24),
        (2, b"\x1B[20B", 10),
    ] {
        let c = Console::fed(b"\x1B[5;10r");
        let c = c.feed(format!("\x1B[{from};3H").as_bytes()).feed(bytes);
        assert_eq!(c.at(), (to, 3, false), "{from} {bytes:?}");
    }
}

#[test]
fn right_left_and_place() {
    assert_eq!(Console::fed(b"\x1B[0C").at(), (1, 2, false));
    assert_eq!(Console::fed(b"\x1B[78C").at(), (1, 79, false));
    assert_eq!(Console::fed(b"\x1B[10000C").at(), (1, 80, false));
    assert_eq!(Console::fed(b"\x1B[79C\x1B[78D").at(), (1, 2, false));
    assert_eq!(Console::fed(b"\x1B[79C\x1B[80D").at(), (1, 1, false));
    assert_eq!(Console::fed(b"abc\x0A\x1B[H").at(), (1, 1, false));
    assert_eq!(Console::fed(b"\x1B[7H").at(), (7, 1, false));
    assert_eq!(Console::fed(b"\x1B[;7f").at(), (1, 7, false));
    assert_eq!(Console::fed(b"\x1B[0;0H").at(), (1, 1, false));
    assert_eq!(Console::fed(b"\x1B[25;81H").at(), (24, 80, false));
    assert_eq!(Console::of(36).feed(b"\x1B[37;80H").at(), (36, 80, false));
    assert_eq!(Console::of(48).feed(b"\x1B[48;79H").at(), (48, 79, false));
}

#[test]
fn origin_mode() {
    let c = Console::fed(b"\x1B[6;10r\x1B[20;5H\x1B[?6h");
    assert_eq!(c.at(), (6, 1, false));
    assert_eq!(
        Console::fed(b"\x1B[6;10r\x1B[?6h\x1B[5;3H").at(),
        (10, 3, false)
    );
    assert_eq!(
        Console::fed(b"\x1B[6;10r\x1B[?6h\x1B[6;3H").at(),
        (10, 3, false)
    );
    assert_eq!(
        Console::fed(b"\x1B[6;10r\x1B[?6h\x1B[9999;99f").at(),
        (10, 80, false)
    );
    assert_eq!(
        Console::fed(b"\x1B[6;10r\x1B[?6h\x1B[0;2H").at(),
        (6, 2, false)
    );
    // Off again: row 1, and set twice it still homes.
    assert_eq!(
        Console::fed(b"\x1B[6;10r\x1B[?6h\x1B[3;3H\x1B[?6l").at(),
        (1, 1, false)
    );
    assert_eq!(
        Console::fed(b"\x1B[6;10r\x1B[?6h\x1B[3;3H\x1B[?6h").at(),
        (6, 1, false)
    );
    assert_eq!(Console::fed(b"\x1B[3;3H\x1B[?6l").at(), (1, 1, false));
    // Margins set with origin on: home is T.
    assert_eq!(Console::fed(b"\x1B[?6h\x1B[4;9r").at(), (4, 1, false));
    // Erasing whole page doesn't care.
    let c = Console::fed(b"ab\x1B[6;10r\x1B[?6h\x1B[2J");
    assert!(c.blank_but(&[]));
}

#[test]
fn margins() {
    let margins = |bytes: &[u8]| {
        let c = Console::fed(b"\x1B[9;9H").feed(bytes);
        (c.state.top, c.state.bottom, c.at())
    };
    let home = (1, 1, false);
    let stays = (9, 9, false);
    assert_eq!(margins(b"\x1B[0;0r"), (1, 24, home));
    assert_eq!(margins(b"\x1B[5r"), (5, 24, home));
    assert_eq!(margins(b"\x1B[;5r"), (1, 5, home));
    assert_eq!(margins(b"\x1B[5;9999r"), (5, 24, home));
    assert_eq!(margins(b"\x1B[23;25r"), (23, 24, home));
    assert_eq!(margins(b"\x1B[24r"), (1, 24, stays));
    assert_eq!(margins(b"\x1B[24;25r"), (1, 24, stays));
    assert_eq!(margins(b"\x1B[25;30r"), (1, 24, stays));
    assert_eq!(margins(b"\x1B[6;5r"), (1, 24, stays));
    assert_eq!(margins(b"\x1B[0;1r"), (1, 24, stays));
    assert_eq!(margins(b"\x1B[1;2;7r"), (1, 2, home));
    let c = Console::of(48).feed(b"\x1B[47;48r");
    assert_eq!((c.state.top, c.state.bottom), (47, 48));
}

#[test]
fn erasing_in_page_and_row() {
    let three = b"\x1B[1;4Habc\x1B[2;4Hdef\x1B[3;4Hghi\x1B[2;5H";
    let lines = |bytes: &[u8]| Console::fed(three).feed(bytes).lines(1, 3);
    assert_eq!(lines(b"\x1B[J"), ["   abc", "   d", ""]);
    assert_eq!(lines(b"\x1B[1J"), ["", "     f", "   ghi"]);
    assert_eq!(lines(b"\x1B[2J"), ["", "", ""]);
    assert_eq!(lines(b"\x1B[K"), ["   abc", "   d", "   ghi"]);
    assert_eq!(lines(b"\x1B[1K"), ["   abc", "     f", "   ghi"]);
    assert_eq!(lines(b"\x1B[2K"), ["   abc", "", "   ghi"]);
    assert_eq!(lines(b"\x1B[X"), ["   abc", "   d f", "   ghi"]);
    assert_eq!(lines(b"\x1B[2X"), ["   abc", "   d", "   ghi"]);
    assert_eq!(lines(b"\x1B[9999X"), ["   abc", "   d", "   ghi"]);
    // At the corners.
    let c = Console::fed(b"a\x1B[24;80Hz\x1B[1J");
    assert!(c.blank_but(&[]));
    let c = Console::fed(b"a\x1B[24;80Hz\x1B[H\x1B[J");
    assert!(c.blank_but(&[]));
    let c = Console::fed(b"ab\x1B[24;79Hyz\x1B[J");
    assert_eq!(
        (c.line(1), c.word(24, 79), c.word(24, 80)),
        ("ab".to_string(), 0x79, 0x20)
    );
    let c = Console::fed(b"ab\x1B[24;79Hyz\x1B[H\x1B[1J");
    assert_eq!((c.line(1), c.word(24, 80)), (" b".to_string(), 0x7A));
    // Blank, whatever the rendition and the protection, now or in the cell.
    let c = Console::fed(b"\x1B[1;7m\x1B[1\"qab\x1B[2K");
    assert_eq!((c.word(1, 1), c.word(1, 9)), (0x20, 0x20));
    // Margins don't matter.
    let c = Console::fed(b"ab\x1B[5;9r\x1B[1;1H\x1B[X");
    assert_eq!(c.line(1), " b");
}

#[test]
fn selective_erasing() {
    let c = Console::fed(b"\x1B[1;4m\x1B(0a\x1B[1\"qb\x1B(B\x1B[\"q\x1B[7mc\x0D\x1B[?K");
    assert_eq!(c.word(1, 1), 0x20 | BOLD | UNDERLINE);
    assert_eq!(c.word(1, 2), 0x62 | GRAPHICS | BOLD | UNDERLINE | PROTECTED);
    assert_eq!(c.word(1, 3), 0x20 | BOLD | UNDERLINE | REVERSE);
    assert_eq!(c.word(1, 4), 0x20);
    // Found words: unused bits go from what is written, stay in what is skipped.
    let mut c = Console::new();
    c.page[0] = 0xC020;
    c.page[1] = 0xE041;
    c.page[80] = 0xD1FF;
    c.more(b"\x1B[?2J");
    assert_eq!((c.page[0], c.page[1], c.page[80]), (0x0020, 0xE041, 0x1020));
    assert_eq!(c.ask(), [1, 2]);
    // The ranges of ? J and ? K.
    let three = b"\x1B[1;4Habc\x1B[2;4Hdef\x1B[3;4Hghi\x1B[2;5H";
    let lines = |bytes: &[u8]| Console::fed(three).feed(bytes).lines(1, 3);
    assert_eq!(lines(b"\x1B[?J"), ["   abc", "   d", ""]);
    assert_eq!(lines(b"\x1B[?1J"), ["", "     f", "   ghi"]);
    assert_eq!(lines(b"\x1B[?2J"), ["", "", ""]);
    assert_eq!(lines(b"\x1B[?K"), ["   abc", "   d", "   ghi"]);
    assert_eq!(lines(b"\x1B[?1K"), ["   abc", "     f", "   ghi"]);
    assert_eq!(lines(b"\x1B[?2K"), ["   abc", "", "   ghi"]);
}

#[test]
fn inserting_and_deleting_rows() {
    let run = |bytes: &[u8]| {
        let c = lettered(24).feed(b"\x1B[3;7r").feed(bytes);
        (column_1(&c)[..9].to_string(), c.at())
    };
    let with = |letters: &str, at| (letters.to_string(), at);
    assert_eq!(run(b"\x1B[4;9H\x1B[L"), with("ABC DEFHI", (4, 1, false)));
    assert_eq!(run(b"\x1B[4;9H\x1B[2L"), with("ABC  DEHI", (4, 1, false)));
    assert_eq!(run(b"\x1B[4;9H\x1B[4L"), with("ABC    HI", (4, 1, false)));
    assert_eq!(
        run(b"\x1B[4;9H\x1B[9999L"),
        with("ABC    HI", (4, 1, false))
    );
    assert_eq!(run(b"\x1B[4;9H\x1B[0M"), with("ABCEFG HI", (4, 1, false)));
    assert_eq!(run(b"\x1B[4;9H\x1B[3M"), with("ABCG   HI", (4, 1, false)));
    assert_eq!(run(b"\x1B[4;9H\x1B[5M"), with("ABC    HI", (4, 1, false)));
    assert_eq!(run(b"\x1B[3;9H\x1B[L"), with("AB CDEFHI", (3, 1, false)));
    assert_eq!(run(b"\x1B[7;9H\x1B[L"), with("ABCDEF HI", (7, 1, false)));
    assert_eq!(run(b"\x1B[7;9H\x1B[M"), with("ABCDEF HI", (7, 1, false)));
    assert_eq!(run(b"\x1B[2;9H\x1B[L"), with("ABCDEFGHI", (2, 9, false)));
    assert_eq!(run(b"\x1B[8;9H\x1B[M"), with("ABCDEFGHI", (8, 9, false)));
}

#[test]
fn inserting_and_deleting_cells() {
    let line = |bytes: &[u8]| Console::fed(b"abcdef\x1B[1;80Hz\x1B[1;3H").feed(bytes);
    let c = line(b"\x1B[@");
    assert_eq!((c.line(1).as_str(), c.at()), ("ab cdef", (1, 3, false)));
    assert_eq!(line(b"\x1B[2P").line(1), format!("abef{}z", " ".repeat(73)));
    assert_eq!(line(b"\x1B[78P").line(1), "ab");
    assert_eq!(line(b"\x1B[77P").line(1), "abz");
    assert_eq!(line(b"\x1B[9999@").line(1), "ab");
    assert_eq!(line(b"\x1B[77@").line(1), format!("ab{}c", " ".repeat(77)));
    // Blank enters, not the current rendition; words move whole.
    let mut c = Console::fed(b"\x1B[7mab\x0D");
    c.page[1] = 0xFFFF;
    c.more(b"\x1B[@");
    assert_eq!(&c.page[..4], &[0x20, 0x61 | REVERSE, 0xFFFF, 0x20]);
    c.more(b"\x1B[2P");
    assert_eq!(&c.page[..3], &[0xFFFF, 0x20, 0x20]);
    // Inside and outside the margins.
    let c = Console::fed(b"ab\x1B[2;3r\x1B[H\x1B[@\x1B[P\x1B[4H");
    assert_eq!(c.line(1), "ab");
}

#[test]
fn save_and_restore() {
    let c = Console::fed(b"\x1B[5;7H\x1B[1;5m\x1B(0\x1B)%5\x1B.A\x1B+B\x0E\x1B|\x1B7");
    let (sets, rendition) = (c.state.sets, c.state.rendition);
    let c = c.feed(b"\x1B[1\"q\x1B[H\x1B[m\x1B(B\x1B)B\x1B*B\x1B+0\x0F\x1B}\x1B8");
    assert_eq!(c.at(), (5, 7, false));
    assert_eq!((c.state.sets, c.state.rendition), (sets, rendition));
    // Protection is part of it, and was off.
    assert!(!c.state.protection);
    // Without saving, the fresh one is restored.
    let c = Console::fed(b"\x1B[5;7H\x1B[1m\x1B[1\"q\x1B(0\x0E\x8E\x1B8");
    assert_eq!((c.at(), c.state.sets), ((1, 1, false), Sets::FRESH));
    assert_eq!(c.state.rendition, Rendition::PLAIN);
    assert_eq!((c.state.protection, c.state.shift), (false, None));
    // Origin is restored, and then the row is held to the margins.
    let c = Console::fed(b"\x1B[?6h\x1B[20;5H\x1B7\x1B[?6l\x1B[6;10r\x1B8");
    assert_eq!(c.at(), (10, 5, false));
    assert!(c.state.origin);
    let c = Console::fed(b"\x1B[?6h\x1B[2;5H\x1B7\x1B[?6l\x1B[6;10r\x1B8");
    assert_eq!(c.at(), (6, 5, false));
    let c = Console::fed(b"\x1B[20;5H\x1B7\x1B[6;10r\x1B[?6h\x1B8");
    assert_eq!(c.at(), (20, 5, false));
    assert!(!c.state.origin);
}

/// ASCII in GL, Supplemental in GR, Special Graphics in G2, Latin-1 in G3.
const FOUR_SETS: &[u8] = b"\x1B)%5\x1B~\x1B*0\x1B/A";

/// Every protection with every shift, and the bytes that bring it about where
/// no shift is pending.
const WRITING: [(bool, Option<Shift>, &[u8]); 6] = [
    (false, None, b"\x1B[\"q"),
    (false, Some(Shift::G2), b"\x1B[\"q\x8E"),
    (false, Some(Shift::G3), b"\x1B[\"q\x8F"),
    (true, None, b"\x1B[1\"q"),
    (true, Some(Shift::G2), b"\x1B[1\"q\x8E"),
    (true, Some(Shift::G3), b"\x1B[1\"q\x8F"),
];

/// With those sets, the word of the next "q".
fn next_q(protection: bool, shift: Option<Shift>) -> u16 {
    let set = match shift {
        None => 0,
        Some(Shift::G2) => GRAPHICS,
        Some(Shift::G3) => LATIN1,
    };
    0x71 | set | protected(protection)
}

fn protected(protection: bool) -> u16 {
    if protection {
        PROTECTED
    } else {
        0
    }
}

#[test]
fn saving_protection_and_shift() {
    for (protection, shift, bytes) in WRITING {
        let c = Console::fed(FOUR_SETS)
            .feed(b"\x1B[7m\x1B[3;5H")
            .feed(bytes);
        let (page, mut state) = (c.page.clone(), c.state.clone());
        assert_eq!((state.protection, state.shift), (protection, shift));
        // Nothing changes but what is saved.
        let c = c.feed(b"\x1B7");
        state.saved = Saved {
            cursor: state.cursor,
            rendition: state.rendition,
            origin: state.origin,
            sets: state.sets,
            protection,
            shift,
        };
        assert_eq!((&c.page, &c.state), (&page, &state));
        // Restored at once, nothing changes; nor if it is saved again.
        let c = c.feed(b"\x1B8");
        assert_eq!((&c.page, &c.state), (&page, &state));
        let c = c.feed(b"\x1B7\x1B8\x1B8");
        assert_eq!((&c.page, &c.state), (&page, &state));
        // The shift is for one byte.
        let c = c.feed(b"qq");
        assert_eq!(c.word(3, 5), next_q(protection, shift) | REVERSE);
        assert_eq!(c.word(3, 6), next_q(protection, None) | REVERSE);
    }
}

#[test]
fn restoring_protection_and_shift() {
    for (protection, shift, saved) in WRITING {
        for (protection_now, shift_now, now) in WRITING {
            // Printed after saving, "x" ends the shift.
            let mut c = Console::fed(FOUR_SETS).feed(b"\x1B[3;5H").feed(saved);
            c.more(b"\x1B7\x1B[9;9Hx");
            c.ask();
            let mut restored = c.state.clone();
            restored.cursor = restored.saved.cursor;
            restored.protection = protection;
            restored.shift = shift;
            c.more(now);
            assert_eq!(
                (c.state.protection, c.state.shift),
                (protection_now, shift_now)
            );
            let page = c.page.clone();
            // The same each time, whatever there is now.
            for between in [&b""[..], b"", now, b"\x1B[24;80H"] {
                c.more(between);
                c.more(b"\x1B8");
                assert_eq!((&c.page, &c.state), (&page, &restored));
            }
            // The shift that came back is for one byte.
            c.more(b"qq");
            assert_eq!(c.word(3, 5), next_q(protection, shift));
            assert_eq!(c.word(3, 6), next_q(protection, None));
            assert_eq!((c.state.protection, c.state.shift), (protection, None));
            // It is still saved. A byte through GR ends it.
            c.more(now);
            c.more(b"\x1B8\xF1q");
            assert_eq!(c.word(3, 5), 0x71 | SUPPLEMENTAL | protected(protection));
            assert_eq!(c.word(3, 6), next_q(protection, None));
            // What is printed before restoring has what there is now.
            c.more(b"\x1B[5;5H");
            c.more(now);
            c.more(b"q\x1B8q");
            assert_eq!(c.word(5, 5), next_q(protection_now, shift_now));
            assert_eq!(c.word(3, 5), next_q(protection, shift));
        }
    }
}

#[test]
fn a_shift_that_came_back_is_pending() {
    // What is ignored leaves it, and SUB and CAN do; the shifted set decides
    // on 7F.
    for left in [
        &b"\x7F"[..],
        b"\xA0",
        b"\xFF",
        b"\x18",
        b"\x1B[3",
        b"\x1B]a",
    ] {
        let c = Console::fed(b"\x1B*0\x8E\x1B7x\x1B8").feed(left);
        assert_eq!(c.state.shift, Some(Shift::G2), "{left:?}");
        let c = c.feed(b"\x18q");
        assert_eq!((c.word(1, 1), c.state.shift), (0x71 | GRAPHICS, None));
    }
    let c = Console::fed(b"\x1B*0\x8E\x1B7x\x1B8\x1Aqq");
    assert_eq!(c.word(1, 1), 0x1A);
    assert_eq!((c.word(1, 2), c.word(1, 3)), (0x71 | GRAPHICS, 0x71));
    let c = Console::fed(b"\x1B/A\x8F\x1B7x\x1B8\x7Fq");
    assert_eq!((c.word(1, 1), c.word(1, 2)), (0x7F | LATIN1, 0x71));
    // 20 ends it; a later shift counts.
    let c = Console::fed(b"\x8E\x1B7x\x1B8 q");
    assert_eq!((c.word(1, 1), c.word(1, 2)), (0x20, 0x71));
    let c = Console::fed(b"\x1B*0\x8E\x1B7x\x1B8\x8F");
    assert_eq!(c.state.shift, Some(Shift::G3));
    // With wrap due: the byte goes to the next row, and uses it.
    let c = due(3).feed(b"\x1B*0\x8E\x1B7x\x1B8");
    assert_eq!((c.at(), c.state.shift), ((3, 80, true), Some(Shift::G2)));
    let c = c.feed(b"qq");
    assert_eq!((c.word(4, 1), c.word(4, 2)), (0x71 | GRAPHICS, 0x71));
    // Autowrap and origin decide on the cursor, not on these.
    let c = due(3).feed(b"\x1B[1\"q\x8E\x1B7x\x1B[\"q\x1B[?7l\x1B8");
    assert_eq!(c.at(), (3, 80, false));
    assert_eq!((c.state.protection, c.state.shift), (true, Some(Shift::G2)));
    let c = Console::fed(b"\x1B[?6h\x1B[1\"q\x8F\x1B7x\x1B[\"q\x1B[5;9r\x1B8");
    assert_eq!(c.at(), (5, 1, false));
    assert_eq!((c.state.protection, c.state.shift), (true, Some(Shift::G3)));
}

#[test]
fn the_fresh_saved_cursor_has_no_protection_and_no_shift() {
    assert_eq!((Saved::FRESH.protection, Saved::FRESH.shift), (false, None));
    for (_, _, saved) in WRITING {
        for (_, _, now) in WRITING {
            // Never saved; or saved, and then a reset.
            let never = Console::new();
            let saving = || Console::fed(saved).feed(b"\x1B7x");
            let soft = saving().feed(b"\x1B[!p");
            assert_eq!((soft.state.protection, soft.state.shift), (false, None));
            let full = saving().feed(b"\x1Bc");
            assert_eq!((full.state.protection, full.state.shift), (false, None));
            for mut c in [never, soft, full] {
                assert_eq!(c.state.saved, Saved::FRESH);
                c.more(now);
                c.more(b"\x1B8");
                assert_eq!((c.state.protection, c.state.shift), (false, None));
                assert_eq!((c.at(), c.state.saved), ((1, 1, false), Saved::FRESH));
                c.more(b"q\x1B8q");
                assert_eq!((c.word(1, 1), c.at()), (0x71, (1, 2, false)));
            }
        }
    }
}

#[test]
fn screen_of_e() {
    let mut c = Console::fed(b"\x1B[5;9r\x1B[?6h\x1B[1;7m\x1B[1\"q\x1B(0x\x1B#8");
    assert!(c.page.iter().all(|&w| w == 0x45));
    assert_eq!(
        (c.state.top, c.state.bottom, c.at()),
        (1, 24, (1, 1, false))
    );
    assert!(c.state.origin && c.state.rendition.bold && c.state.protection);
    assert_eq!(c.ask(), (1..=24).collect::<Vec<_>>());
    c.more(b"\x1B#8");
    assert_eq!(c.ask(), [0; 0]);
}

#[test]
fn full_reset() {
    let mut c = Console::of(36).feed(
        b"\x1B[3;4HA\x1B[5;9r\x1B[?6;7h\x1B[?25l\x1B[4;20h\x1B G\x1B[1m\x1B[1\"q\x1B(0\x0E\x1B[3g\x1B7\x8E\x1B[2*x",
    );
    assert_eq!(c.ask(), [3]);
    c.more(b"\x1B[1;1HB\x0D");
    c.more(b"\x1B[X");
    // Row 5 is noted, and blank already; row 3 is made blank now.
    c.more(b"\x1Bc");
    let mut fresh = Console::of(36).state;
    fresh.changed = [3, 5].into();
    assert_eq!(c.state, fresh);
    assert!(c.blank_but(&[]));
    assert_eq!(c.ask(), [3, 5]);
    c.more(b"\x1Bc");
    assert_eq!(c.ask(), [0; 0]);
}

#[test]
fn soft_reset() {
    let setup: &[u8] = b"\x1B[5;9r\x1B[?6;7h\x1B[?25l\x1B[4;20h\x1B G\x1B[1m\x1B[1\"q\x1B(0\x0E\x1B|\x1B[3g\x1B[2;7H\x1B7\x8Ex\x8E\x1B[2*x";
    let before = Console::fed(setup);
    let page = before.page.clone();
    let c = before.feed(b"\x1B[!p");
    assert_eq!(c.page, page);
    let mut expected = Console::new().state;
    expected.cursor.row = 6;
    expected.cursor.column = 8;
    expected.tabs = [false; 80];
    expected.newline = true;
    expected.eight_bit_replies = true;
    expected.extent = Extent::Rectangle;
    expected.changed = [6].into();
    assert_eq!(c.state, expected);
    // With parameters it acts all the same.
    assert!(!Console::fed(b"\x1B[4h\x1B[7;7!p").state.insert);
}

#[test]
fn modes_take_all_parameters_in_order() {
    let c = Console::fed(b"\x1B[4;99;20h");
    assert!(c.state.insert && c.state.newline);
    let c = c.feed(b"\x1B[20;4l");
    assert!(!c.state.insert && !c.state.newline);
    let c = Console::fed(b"\x1B[?7;;25;6h");
    assert!(c.state.autowrap && c.state.cursor_shown && c.state.origin);
    assert!(!Console::fed(b"\x1B[?25l").state.cursor_shown);
    // Without and with ? are different lists.
    let c = Console::fed(b"\x1B[6;7h\x1B[?4;20h");
    assert_eq!(c.state, Console::new().state);
}

// ---- Rectangles -------------------------------------------------------------

/// "." in every cell, and nothing noted.
fn dotted(rows: usize) -> Console {
    let mut c = Console::of(rows);
    c.page.fill(0x2E);
    c
}

/// The first and last row and column of the cells that are not ".", and how
/// many they are; none if there is none.
fn touched(c: &Console) -> Option<(usize, usize, usize, usize, usize)> {
    let cells: Vec<(usize, usize)> = (0..c.page.len())
        .filter(|&n| c.page[n] != 0x2E)
        .map(|n| (n / 80 + 1, n % 80 + 1))
        .collect();
    let rows = cells.iter().map(|cell| cell.0);
    let columns = cells.iter().map(|cell| cell.1);
    Some((
        rows.clone().min()?,
        columns.clone().min()?,
        rows.max()?,
        columns.max()?,
        cells.len(),
    ))
}

/// What a function leaves of the dots.
fn rectangle(rows: usize, bytes: &str) -> Option<(usize, usize, usize, usize, usize)> {
    touched(&dotted(rows).feed(bytes.as_bytes()))
}

#[test]
fn edges_of_rectangles() {
    for (before, code, last) in [
        ("", "", "$z"),
        ("", "", "${"),
        ("", "97;", "$x"),
        ("\x1B[2*x", "", ";7$r"),
        ("\x1B[2*x", "", ";7$t"),
    ] {
        let run = |rows: usize, edges: &str| {
            rectangle(rows, &format!("{before}\x1B[{code}{edges}{last}"))
        };
        let inside = |edges: &str| {
            let before = format!("{before}\x1B[5;10r\x1B[?6h");
            rectangle(24, &format!("{before}\x1B[{code}{edges}{last}"))
        };
        // An edge of 0, or none, is the page's own.
        for rows in [24, 36, 48] {
            let all = Some((1, 1, rows, 80, rows * 80));
            assert_eq!(run(rows, ";;;"), all);
            assert_eq!(run(rows, "0;0;0;0"), all);
            assert_eq!(run(rows, "1;1;9999;9999"), all);
            assert_eq!(
                run(rows, "9999;9999;9999;9999"),
                Some((rows, 80, rows, 80, 1))
            );
            let last = Some((rows, 1, rows, 80, 80));
            assert_eq!(run(rows, &format!("{rows};;;")), last);
            assert_eq!(run(rows, &format!("{};;{};", rows + 6, rows + 2)), last);
        }
        assert_eq!(run(24, "3;4;5;6"), Some((3, 4, 5, 6, 9)));
        assert_eq!(run(24, "3;4;3;4"), Some((3, 4, 3, 4, 1)));
        assert_eq!(run(24, ";79;2;"), Some((1, 79, 2, 80, 4)));
        assert_eq!(run(24, "23;;;2"), Some((23, 1, 24, 2, 4)));
        assert_eq!(run(24, "2;81;2;99"), Some((2, 80, 2, 80, 1)));
        // Nothing.
        assert_eq!(run(24, "4;1;3;80"), None);
        assert_eq!(run(24, "1;41;24;40"), None);
        assert_eq!(run(24, "25;1;23;80"), None);
        // With origin rows count from T, but 0 does not; they are held to R.
        assert_eq!(inside(";;;"), Some((1, 1, 24, 80, 1920)));
        assert_eq!(inside("1;2;2;3"), Some((5, 2, 6, 3, 4)));
        assert_eq!(inside(";2;1;3"), Some((1, 2, 5, 3, 10)));
        assert_eq!(inside("6;2;8;3"), Some((10, 2, 12, 3, 6)));
        assert_eq!(inside("20;2;21;3"), Some((24, 2, 24, 3, 2)));
        assert_eq!(inside("9999;;9999;"), Some((24, 1, 24, 80, 80)));
        assert_eq!(inside("2;1;1;80"), None);
        // Without origin margins don't matter.
        let margins = format!("{before}\x1B[5;10r\x1B[{code}1;1;1;1{last}");
        assert_eq!(rectangle(24, &margins), Some((1, 1, 1, 1, 1)));
    }
}

#[test]
fn erasing_a_rectangle() {
    let mut c = Console::fed(b"\x1B[1;7mab\x1B[1\"qcd\x1B[2;1Hef\x1B[3;9H");
    c.page[81] = 0xFFC1;
    c.ask();
    c.more(b"\x1B[1;2;2;3$z");
    let bold = BOLD | REVERSE;
    assert_eq!(
        c.page[..4],
        [0x61 | bold, 0x20, 0x20, 0x64 | bold | PROTECTED]
    );
    assert_eq!(c.page[80..83], [0x65 | bold | PROTECTED, 0x20, 0x20]);
    assert_eq!((c.ask(), c.at()), (vec![1, 2], (3, 9, false)));
    // Rendition and protection that are current stay.
    c.more(b"g");
    assert_eq!(c.word(3, 9), 0x67 | bold | PROTECTED);
}

#[test]
fn selectively_erasing_a_rectangle() {
    let mut c = Console::new();
    for (n, word) in [0xC041, 0xE042, 0x5EC3, 0x3E44, 0x0020, 0x4020]
        .iter()
        .enumerate()
    {
        c.page[n] = *word;
        c.page[80 + n] = *word;
    }
    c.more(b"\x1B[1;1;1;79${");
    assert_eq!(
        c.page[..6],
        [0x0020, 0xE042, 0x1E20, 0x3E44, 0x0020, 0x0020]
    );
    assert_eq!(
        c.page[80..86],
        [0xC041, 0xE042, 0x5EC3, 0x3E44, 0x0020, 0x4020]
    );
    assert_eq!(c.ask(), [1]);
    // Protected cells only: nothing is written.
    c.more(b"\x1B[1;2;2;2${\x1B[1;4;2;5${");
    assert_eq!(
        c.page[80..86],
        [0xC041, 0xE042, 0x5EC3, 0x3E44, 0x0020, 0x4020]
    );
    assert_eq!(c.ask(), [0; 0]);
}

#[test]
fn filling_a_rectangle() {
    // Every code, with each set in GL and each in GR.
    let left = ["\x1B(B", "\x1B(0", "\x1B(%5", "\x1B-A\x0E"];
    let right = ["\x1B*B", "\x1B*0", "\x1B*%5", "\x1B.A"];
    for gl in 0..4 {
        for gr in 0..4 {
            for shift in ["", "\x1BN", "\x1BO"] {
                let sets = format!("{}{}{shift}", left[gl], right[gr]);
                let mut c = Console::fed(sets.as_bytes());
                let state = c.state.clone();
                for code in (0..=300).chain([511, 544, 9_999]) {
                    let low = code as u16 & 0x7F;
                    let set = match code {
                        32..=127 => Some(gl),
                        160..=255 => Some(gr),
                        _ => None,
                    };
                    let expected = match (set, code) {
                        (Some(3), _) => Some(low | LATIN1),
                        (Some(_), 32) => Some(0x20),
                        (Some(_), 127 | 160 | 255) | (None, _) => None,
                        (Some(set), _) => Some(low | (set as u16) << 7),
                    };
                    c.page[81] = 0xC02E;
                    c.more(format!("\x1B[{code};2;2;2;2$x").as_bytes());
                    assert_eq!(c.page[81], expected.unwrap_or(0xC02E), "{sets:?} {code}");
                    assert!(c.ask().len() == expected.is_some() as usize);
                    assert_eq!(c.state, state, "{sets:?} {code}");
                }
                c.page[81] = 0x20;
                assert!(c.blank_but(&[]));
            }
        }
    }
    // Rendition and protection; protected cells are filled too.
    let mut c = Console::fed(b"\x1B[1\"qab\x1B[0\"q\x1B[4;5m\x1B[120;1;1;1;2$x");
    assert_eq!(
        c.page[..3],
        [0x78 | UNDERLINE | BLINK, 0x78 | UNDERLINE | BLINK, 0x20]
    );
    c.more(b"\x1B[m\x1B[1\"q\x1B[32;1;1;1;2$x");
    assert_eq!(c.page[..3], [0x20 | PROTECTED, 0x20 | PROTECTED, 0x20]);
    // Insert mode moves nothing; without a code it is ignored.
    let c = Console::fed(b"abc\x1B[4h\x1B[120;1;1;1;1$x\x1B[$x\x1B[;1;1;1;1$x");
    assert_eq!(c.line(1), "xbc");
}

/// Letters by row and column, unlike those of the neighbours.
fn patterned() -> Console {
    let mut c = Console::new();
    for (n, word) in c.page.iter_mut().enumerate() {
        *word = (n * 7 + n / 80 * 3) as u16 ^ 0xA000;
    }
    c
}

#[test]
fn copying_a_rectangle() {
    let before = patterned().page;
    for (top, left, bottom, right) in [
        (5, 10, 8, 15),
        (5, 10, 5, 20),
        (5, 10, 9, 10),
        (1, 1, 24, 80),
        (20, 70, 24, 80),
        (1, 1, 3, 3),
    ] {
        for (to_top, to_left) in [
            (top, left),
            (top + 1, left + 1),
            (top, left + 1),
            (top + 1, left),
            (top + 2, left + 3),
            (top.max(3) - 2, left + 1),
            (top + 1, left.max(2) - 1),
            (top.max(2) - 1, left.max(2) - 1),
            (24, 80),
            (1, 1),
            (22, 3),
            (2, 77),
        ] {
            let mut c = patterned();
            let bytes = format!("\x1B[{top};{left};{bottom};{right};1;{to_top};{to_left};1$v");
            c.more(bytes.as_bytes());
            let (to_top, to_left) = (to_top.min(24), to_left.min(80));
            for row in 1..=24 {
                for column in 1..=80 {
                    let word = |row: usize, column: usize| before[(row - 1) * 80 + column - 1];
                    // Where the cell came from, if it is in the target.
                    let from = (row + top, column + left);
                    let inside = from.0 >= top + to_top
                        && from.0 <= bottom + to_top
                        && from.1 >= left + to_left
                        && from.1 <= right + to_left;
                    let expected = match inside {
                        true => word(from.0 - to_top, from.1 - to_left),
                        false => word(row, column),
                    };
                    assert_eq!(c.word(row, column), expected, "{bytes:?} {row} {column}");
                }
            }
            assert_eq!(c.at(), (1, 1, false));
        }
    }
}

#[test]
fn copying_defaults_pages_and_origin() {
    let line = b"\x1B[1;1Habc\x1B[2;1Hdef\x1B[H";
    let lines = |bytes: &[u8]| Console::fed(line).feed(bytes).lines(1, 3);
    // Nothing named: the page onto itself.
    assert_eq!(lines(b"\x1B[$v"), ["abc", "def", ""]);
    assert_eq!(lines(b"\x1B[2;2$v"), ["ef", "", ""]);
    assert_eq!(lines(b"\x1B[;;1;2;;2;2$v"), ["abc", "dab", ""]);
    assert_eq!(lines(b"\x1B[1;2;1;3;0;3;0;0$v"), ["abc", "def", "bc"]);
    // Pages 0 and 1, and no other.
    for (from, to) in [(0, 0), (0, 1), (1, 0), (1, 1)] {
        let bytes = format!("\x1B[1;1;1;3;{from};3;1;{to}$v");
        assert_eq!(lines(bytes.as_bytes()), ["abc", "def", "abc"]);
    }
    for (from, to) in [(2, 0), (0, 2), (2, 2), (1, 9_999), (256, 1), (1, 257)] {
        let bytes = format!("\x1B[1;1;1;3;{from};3;1;{to}$v");
        assert_eq!(lines(bytes.as_bytes()), ["abc", "def", ""]);
    }
    // Ignored.
    assert_eq!(lines(b"\x1B[2;1;1;3;1;3;1;1$v"), ["abc", "def", ""]);
    assert_eq!(lines(b"\x1B[1;3;1;2;1;3;1;1$v"), ["abc", "def", ""]);
    // With origin both count from T, but 0 is row 1; all is held to the page.
    let c = Console::fed(line).feed(b"\x1B[2;3r\x1B[?6h\x1B[1;1;1;3;;2;4$v");
    assert_eq!(c.lines(1, 3), ["abc", "def", "   def"]);
    let c = c.feed(b"\x1B[1;1;1;3;;0;4$v");
    assert_eq!(c.lines(1, 3), ["abcdef", "def", "   def"]);
    let c = c.feed(b"\x1B[;;2;3;;9999;79$v");
    assert_eq!((c.word(24, 79), c.word(24, 80)), (0x61, 0x62));
    assert_eq!((c.word(23, 79), c.word(1, 79)), (0x20, 0x20));
}

#[test]
fn changed_attributes() {
    let change = |list: &str, word: u16| {
        let mut c = Console::new();
        c.page[0] = word;
        c.more(format!("\x1B[1;1;1;1{list}").as_bytes());
        assert!(c.blank_but(&[1]));
        assert_eq!(c.ask().len(), (c.page[0] != word) as usize);
        c.page[0]
    };
    let all = BOLD | UNDERLINE | BLINK | REVERSE;
    for set in [0, GRAPHICS, SUPPLEMENTAL, LATIN1] {
        for protected in [0, PROTECTED] {
            let word = 0x61 | set | protected;
            // On and off.
            for (on, off, flag) in [
                (1, 22, BOLD),
                (4, 24, UNDERLINE),
                (5, 25, BLINK),
                (7, 27, REVERSE),
            ] {
                assert_eq!(change(&format!(";{on}$r"), word | 0xC000), word | flag);
                assert_eq!(change(&format!(";{on}$r"), word | all), word | all);
                assert_eq!(
                    change(&format!(";{off}$r"), word | all),
                    word | (all ^ flag)
                );
                assert_eq!(change(&format!(";{on};{off}$r"), word), word);
                assert_eq!(change(&format!(";{off};{on}$r"), word), word | flag);
                assert_eq!(change(&format!(";{on}$t"), word | all), word | (all ^ flag));
                assert_eq!(change(&format!(";{on}$t"), word | 0x4000), word | flag);
                assert_eq!(change(&format!(";{on};{on}$t"), word | 0xC000), word);
                // Not listed in a reversal, so nothing is written.
                assert_eq!(change(&format!(";{off}$t"), word | 0xC000), word | 0xC000);
            }
            // 0, given or not.
            for list in ["", ";", ";0", ";;", ";1;", ";99;0"] {
                assert_eq!(change(&format!("{list}$r"), word | all | 0xC000), word);
            }
            for list in ["", ";", ";0", ";99;", ";;0;0", ";0;99"] {
                assert_eq!(
                    change(&format!("{list}$t"), word | BOLD | 0x8000),
                    word | (all ^ BOLD)
                );
            }
            assert_eq!(change(";1;0$r", word), word);
            assert_eq!(change(";0;1$r", word | all), word | BOLD);
            assert_eq!(change(";0;4;5;$t", word), word | UNDERLINE | BLINK);
            // None is listed.
            for list in [";2", ";99;8", ";21;9999", ";257;65537"] {
                for last in ["$r", "$t"] {
                    assert_eq!(
                        change(&format!("{list}{last}"), word | 0xC000),
                        word | 0xC000
                    );
                }
            }
            // Twelve values are kept.
            let eleven = ";99".repeat(11);
            assert_eq!(change(&format!("{eleven};1$r"), word), word | BOLD);
            assert_eq!(
                change(&format!("{eleven};99;1$r"), word | 0xC000),
                word | 0xC000
            );
            assert_eq!(change(&format!(";7{eleven};0$r"), word), word | REVERSE);
            assert_eq!(change(&format!(";7{eleven};7$t"), word), word | REVERSE);
        }
    }
    // The current rendition stays, and is not used.
    let mut c = Console::fed(b"\x1B[1ma\x1B[;;;;0;7$r");
    assert_eq!(c.word(1, 1), 0x61 | REVERSE);
    c.more(b"b");
    assert_eq!(c.word(1, 2), 0x62 | BOLD);
}

#[test]
fn extents_of_a_change() {
    for last in ["$r", "$t"] {
        let run =
            |extent: &str, edges: &str| rectangle(24, &format!("{extent}\x1B[{edges};7{last}"));
        // A stream goes on through columns 1 to 80.
        for stream in [
            "",
            "\x1B[*x",
            "\x1B[2*x\x1B[1*x",
            "\x1B[2*x\x1B[0*x",
            "\x1B[2*x\x1Bc\x1B[46$x",
        ] {
            assert_eq!(run(stream, "3;10;3;12"), Some((3, 10, 3, 12, 3)));
            assert_eq!(run(stream, "3;10;4;12"), Some((3, 1, 4, 80, 71 + 12)));
            assert_eq!(run(stream, "3;10;6;12"), Some((3, 1, 6, 80, 71 + 160 + 12)));
            assert_eq!(run(stream, "3;80;4;80"), Some((3, 1, 4, 80, 81)));
            assert_eq!(run(stream, "3;1;4;1"), Some((3, 1, 4, 80, 81)));
            assert_eq!(run(stream, "3;12;4;10"), None);
            assert_eq!(run(stream, "4;10;3;12"), None);
        }
        for chosen in [
            "\x1B[2*x",
            "\x1B[2*x\x1B[!p",
            "\x1B[2*x\x1B[3*x",
            "\x1B[2;1*x",
            "\x1B7\x1B[2*x\x1B8",
        ] {
            assert_eq!(run(chosen, "3;10;3;12"), Some((3, 10, 3, 12, 3)));
            assert_eq!(run(chosen, "3;10;6;12"), Some((3, 10, 6, 12, 12)));
            assert_eq!(run(chosen, "3;12;4;10"), None);
        }
    }
    // It matters for no other function.
    assert_eq!(rectangle(24, "\x1B[3;10;6;12$z"), Some((3, 10, 6, 12, 12)));
    let c = dotted(24).feed(b"\x1B[3;10;6;12${\x1B[97;9;9;10;10$x\x1B[3;10;4;11;;20;1$v");
    assert_eq!(c.word(5, 13), 0x2E);
    assert_eq!((c.word(9, 11), c.word(10, 8)), (0x2E, 0x2E));
    assert_eq!(
        (c.word(20, 2), c.word(20, 3), c.word(21, 2)),
        (0x20, 0x2E, 0x20)
    );
}

#[test]
fn rectangles_leave_the_state() {
    for sequence in [
        "\x1B[6;39;8;42$z",
        "\x1B[6;39;8;42${",
        "\x1B[113;6;39;8;42$x",
        "\x1B[1;1;2;2;1;6;39;1$v",
        "\x1B[6;39;8;42;1;7$r",
        "\x1B[6;39;8;42;1;7$t",
    ] {
        for setup in [
            "\x1B[7;40H\x1BN",
            "\x1B[4h\x1B[7;40H",
            "\x1B[?7h\x1B[7;80Hz",
            "\x1B[5;10r\x1B[?6;7h\x1B[3;80Hz\x1BO",
            "\x1B[1;7m\x1B[1\"q\x1B[7;40H\x1B7\x1B[m",
        ] {
            let prepared = || {
                let mut c = dotted(24);
                c.page[..80].fill(0x8061);
                c.page[400..480].fill(0x6162);
                c.more(setup.as_bytes());
                c.ask();
                c
            };
            // At once, and byte by byte.
            let (mut c, mut single) = (prepared(), prepared());
            let state = c.state.clone();
            for byte in sequence.bytes() {
                single.more(&[byte]);
            }
            c.more(sequence.as_bytes());
            assert_eq!(single.page, c.page);
            assert_eq!(single.state, c.state);
            assert!(!c.ask().is_empty());
            assert_eq!(c.state, state);
            assert_eq!(c.replies, b"");
        }
    }
    // The next character wraps.
    let c = due(5).feed(b"\x1B[5;80;5;80$z\x1B[42;5;1;5;79$xx");
    assert_eq!((c.word(5, 80), c.word(6, 1)), (0x20, 0x78));
}

#[test]
fn changed_rows_of_rectangles() {
    let mut c = Console::fed(b"\x1B[3Ha\x1B[5Hb\x1B[5;9Hc\x1B[7Hd");
    c.ask();
    // Only where a word differs.
    c.more(b"\x1B[2;1;6;3$z");
    assert_eq!(c.ask(), [3, 5]);
    c.more(b"\x1B[2;1;6;3$z\x1B[1;1;6;8${\x1B[32;1;1;4;80$x\x1B[1;1;2;80;;3;1$v\x1B[1;1;4;80$r");
    assert_eq!(c.ask(), [0; 0]);
    c.more(b"\x1B[7;1;7;1;;5;9$v");
    assert_eq!(c.ask(), [5]);
    // Changed by one step and changed back by the next: noted.
    c.more(b"\x1B[9;1;9;1;7$t\x1B[9;1;9;1;7$t");
    assert_eq!(c.ask(), [9]);
    // A list that flips twice is one step.
    c.more(b"\x1B[9;1;9;1;7;7$t");
    assert_eq!(c.ask(), [0; 0]);
    // Unused bits count.
    c.page[80 * 11] = 0x8020;
    c.more(b"\x1B[12;1;12;1;22$r");
    assert_eq!((c.ask(), c.page[80 * 11]), (vec![12], 0x20));
}

// ---- Replies ----------------------------------------------------------------

#[test]
fn replies() {
    let reply = |bytes: &[u8]| Console::fed(bytes).replies;
    assert_eq!(reply(b"\x1B[c"), b"\x1B[?64;6c");
    assert_eq!(reply(b"\x1B[0c"), b"\x1B[?64;6c");
    assert_eq!(reply(b"\x1B[;5c"), b"\x1B[?64;6c");
    assert_eq!(reply(b"\x1BZ"), b"\x1B[?64;6c");
    assert_eq!(reply(b"\x9A"), b"\x1B[?64;6c");
    assert_eq!(reply(b"\x1B[>c"), b"\x1B[>41;1;0c");
    assert_eq!(reply(b"\x1B[>0c"), b"\x1B[>41;1;0c");
    assert_eq!(reply(b"\x1B[5n"), b"\x1B[0n");
    assert_eq!(reply(b"\x1B[6n"), b"\x1B[1;1R");
    assert_eq!(reply(b"\x1B[24;80H\x1B[6n"), b"\x1B[24;80R");
    assert_eq!(reply(b"\x1B[?6n"), b"\x1B[?1;1;1R");
    assert_eq!(reply(b"\x1B[?15n"), b"\x1B[?13n");
    assert_eq!(
        reply(b"\x1B[6;10r\x1B[?6h\x1B[9;9H\x1B[?6n"),
        b"\x1B[?5;9;1R"
    );
    // 8-bit replies, and back.
    assert_eq!(reply(b"\x1B G\x1B[c\x1B[>c"), b"\x9B?64;6c\x9B>41;1;0c");
    assert_eq!(reply(b"\x1B G\x1B[5n\x1B F\x1B[5n"), b"\x9B0n\x1B[0n");
    // The longest, and with wrap due.
    let c = Console::of(48).feed(b"\x1B[?7h\x1B[48;80Hx\x1B[?6n");
    assert_eq!(c.replies, b"\x1B[?48;80;1R");
    assert_eq!(c.replies.len(), 11);
}

// ---- Changed rows -----------------------------------------------------------

#[test]
fn changed_rows() {
    // Changed and changed back, in one call: noted.
    let mut c = Console::new();
    c.ask();
    c.more(b"\x1B[3Ha\x08 ");
    assert_eq!(c.ask(), [3]);
    assert!(c.blank_but(&[]));
    // Written with what was there: not.
    c.more(b"\x1B[4H \x1B[2J\x1B[X\x1B[@\x1B[P\x1B[L\x1B[M\x8D\x1B[24H\x0A");
    assert_eq!(c.ask(), [0; 0]);
    // Only the rendition differs: noted.
    c.more(b"\x1B[4H\x1B[1m ");
    assert_eq!(c.ask(), [4]);
    // A scroll notes the rows that differ, not those that are alike.
    c.more(b"\x1B[2J\x1B[m\x1B[5Hx\x0D\x0Ax\x0D\x0Ax");
    c.ask();
    c.more(b"\x1B[24H\x0A");
    assert_eq!(c.lines(3, 8), ["", "x", "x", "x", "", ""]);
    assert_eq!(c.ask(), [4, 7]);
    // Unused bits count.
    c.page[80 * 9] = 0x4020;
    c.more(b"\x1B[10H\x1B[X");
    assert_eq!(c.ask(), [10]);
    // Asking twice.
    c.more(b"q");
    assert_eq!(c.ask(), [10]);
    assert_eq!(c.ask(), [0; 0]);
}

#[test]
fn changed_rows_add_up_over_calls_and_sizes() {
    let mut c = Console::of(48);
    c.more(b"\x1B[48Hx");
    c.more(b"\x1B[1Hx");
    c.more(b"\x1B[37Hx");
    assert_eq!(c.ask(), [1, 37, 48]);
    c.more(b"\x1B#8");
    assert_eq!(c.ask().len(), 48);
}

#[test]
fn a_wrapped_sign_is_two_steps() {
    // The move alone changes row 24 from "a" to blank; the put makes it "a"
    // again; all the while rows above differ only where they must.
    let mut c = Console::fed(b"\x1B[?7h\x1B[23Ha\x1B[24Ha\x1B[24;80H ");
    c.ask();
    c.more(b"a");
    // Row 22 gets "a", row 23 stays "a", row 24 is changed and changed back.
    assert_eq!(c.ask(), [22, 24]);
    assert_eq!(c.lines(22, 24), ["a", "a", "a"]);
}

// ---- Text -------------------------------------------------------------------

#[test]
fn page_as_text() {
    let c = Console::fed(b"Hi");
    let mut expected = b"Hi".to_vec();
    expected.extend([b'\n'; 24]);
    assert_eq!(text(&c.page), expected);
    // The line-drawing signs.
    let c = Console::fed(b"\x1B(0^_`abcdefghijklmnopqrstuvwxyz{|}~");
    assert_eq!(
        c.line(1),
        "^\u{A0}\u{25C6}\u{2592}\u{2409}\u{240C}\u{240D}\u{240A}\u{B0}\u{B1}\u{2424}\u{240B}\u{2518}\u{2510}\u{250C}\u{2514}\u{253C}\u{23BA}\u{23BB}\u{2500}\u{23BC}\u{23BD}\u{251C}\u{2524}\u{2534}\u{252C}\u{2502}\u{2264}\u{2265}\u{3C0}\u{2260}\u{A3}\u{B7}"
    );
    // Only U+0020 is taken off the end.
    let c = Console::fed(b"\x1B-A\x1B~\xE9\xA0 ");
    assert_eq!(c.line(1), "\u{E9}\u{A0}");
    let c = Console::fed(b"\x1B(0_ ");
    assert_eq!(c.line(1), "\u{A0}");
    // Odd cells.
    let mut row = [0x20; 80];
    row[..12].copy_from_slice(&[
        0x00, 0x1F, 0x7F, 0x1A, 0x9A, 0x80, 0xFF, 0x141, 0x120, 0x11A, 0x180, 0x1FF,
    ]);
    row[12] = 0x19A;
    row[13] = 0xFE41;
    let shown = String::from_utf8(text(&row)).unwrap();
    assert_eq!(
        shown,
        "???\u{2426}\u{2426}????\u{2426}\u{80}\u{FF}\u{2426}A\n"
    );
    assert_eq!(text(&[]), b"");
}
