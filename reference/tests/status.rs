//! The status line at its edges, with expectations written by hand from the
//! scope paper and the requests that are met.

mod common;
use common::{any_words, Console};
use reference::cell::{Rendition, Set};
use reference::grammar::{stream, Random};
use reference::plan::preparations;
use reference::state::Shift;
use reference::*;

const SIZES: [usize; 3] = [24, 36, 48];
const TO_LINE: &[u8] = b"\x1B[1$}";
const TO_PAGE: &[u8] = b"\x1B[0$}";

const BLANK: u16 = 0x20;
const REVERSE: u16 = 1 << 12;
const PROTECTED: u16 = 1 << 13;
const GRAPHICS: u16 = 1 << 7;

/// With the line active, then fed the bytes.
fn on_line(bytes: &[u8]) -> Console {
    Console::fed(b"\x1B[1$~\x1B[1$}").feed(bytes)
}

/// Wrap due on the page in row 5, and on the line, which is active.
fn both_due() -> Console {
    let c = Console::fed(b"\x1B[?7h\x1B[1$~\x1B[5;80Hw\x1B[1$}\x1B[;80Hv");
    assert_eq!((c.at(), c.line_at()), ((5, 80, true), (80, true)));
    c
}

/// Does feeding the bytes leave all as it was, and send nothing?
fn is_ignored(c: &Console, bytes: &[u8]) -> bool {
    let after = c.clone().feed(bytes);
    after.state == c.state
        && after.page == c.page
        && after.status_line == c.status_line
        && after.replies == c.replies
}

// ---- Choosing ---------------------------------------------------------------

#[test]
fn every_number_of_both_sequences() {
    let before = [
        Console::new(),
        Console::fed(b"\x1B[1$~"),
        on_line(b""),
        both_due(),
        both_due().feed(TO_PAGE),
        both_due().feed(b"\x1B[0$~"),
    ];
    for c in before {
        let Line { exists, active, .. } = c.state.line;
        for value in 0..=300 {
            let after = c.clone().feed(format!("\x1B[{value}$~").as_bytes());
            let mut expected = c.state.clone();
            match value {
                0 => (expected.line.exists, expected.line.active) = (false, false),
                1 | 2 => expected.line.exists = true,
                _ => {}
            }
            assert_eq!(after.state, expected);
            let after = c.clone().feed(format!("\x1B[{value}$}}").as_bytes());
            let mut expected = c.state.clone();
            expected.line.active = match value {
                0 => false,
                1 => exists,
                _ => active,
            };
            assert_eq!(after.state, expected);
            assert_eq!(after.status_line, c.status_line);
            assert_eq!(after.page, c.page);
        }
        // A missing number is 0; the first counts.
        for last in ["$~", "$}"] {
            let zero = c.clone().feed(format!("\x1B[0{last}").as_bytes());
            for text in ["", ";1", "0;1", "00", ";", "0;2;9"] {
                let after = c.clone().feed(format!("\x1B[{text}{last}").as_bytes());
                assert_eq!(after.state, zero.state);
            }
            for text in ["9999", "10000", "65536", "65537", "4294967297", "3;1"] {
                assert!(is_ignored(&c, format!("\x1B[{text}{last}").as_bytes()));
            }
        }
    }
}

#[test]
fn what_is_only_like_them() {
    for c in [Console::fed(b"\x1B[2$~"), both_due(), Console::new()] {
        for sign in ["~", "}"] {
            for value in ["", "0", "1", "2"] {
                for mark in ["<", "=", ">", "?"] {
                    assert!(is_ignored(
                        &c,
                        format!("\x1B[{mark}{value}${sign}").as_bytes()
                    ));
                }
                for middle in [
                    "", "$$", " $", "$ ", "!", "\"", "*", " ", "$1", "$;", "$:", "?$", ":$", ":1$",
                    ";1:$", "$$$",
                ] {
                    let bytes = format!("\x1B[{value}{middle}{sign}");
                    assert!(is_ignored(&c, bytes.as_bytes()), "{bytes}");
                }
            }
        }
    }
    // ESC ~ and ESC } are something else, and with $ nothing.
    let c = on_line(b"\x1B~");
    assert_eq!((c.state.sets.gr, c.state.line.active), (Slot::G1, true));
    assert!(is_ignored(&both_due(), b"\x1B$~\x1B$}"));
}

#[test]
fn controls_inside_act_on_what_is_active_then() {
    let c = Console::fed(b"abc\x1B[1$~\x1B[1$}de\x1B[0\r$}f");
    assert_eq!((c.line(1), c.status_text()), ("abcf".into(), "de".into()));
    assert_eq!(c.line_at(), (1, false));
    let c = Console::fed(b"abc\x1B[1$~\x1B[1\r$}\x1B[0$}f");
    assert_eq!(c.line(1), "fbc");
    // The top bits are dropped in a sequence.
    let c = Console::fed(b"\x9B\xB1\xA4\xFE\x9B\xB1\xA4\xFDx");
    assert_eq!(c.status_text(), "x");
}

#[test]
fn types_and_going_to_and_fro_change_nothing_else() {
    let mut random = Random::new(1);
    for seed in 0..40 {
        let mut c = Console::of(SIZES[seed as usize % 3]);
        c.page = any_words(&mut random, c.page.len());
        c.status_line = any_words(&mut random, 80);
        c.more(&stream(seed, 500));
        c.more(b"\x18\x1B[1$~\x1B[1$}");
        c.more(&stream(seed + 1_000, 300));
        c.more(b"\x18\x1B[2$~\x1B[1$}");
        let mut after = c.clone();
        for bytes in [
            &b"\x1B[1$~"[..],
            b"\x1B[2$~",
            b"\x1B[0$}",
            b"\x1B[0$~",
            b"\x1B[1$~",
            b"\x1B[1$}",
        ] {
            after.more(bytes);
            assert_eq!((&after.page, &after.status_line), (&c.page, &c.status_line));
        }
        assert_eq!(after.state, c.state);
    }
}

// ---- The line as a page of one row ------------------------------------------

#[test]
fn cursors_are_apart() {
    let mut c = both_due();
    c.more(b"xy");
    assert_eq!((c.at(), c.line_at()), ((5, 80, true), (3, false)));
    assert_eq!(c.status_text(), format!("xy{}v", " ".repeat(77)));
    c.more(TO_PAGE);
    assert_eq!((c.at(), c.line_at()), ((5, 80, true), (3, false)));
    c.more(b"z");
    assert_eq!((c.at(), c.line_at()), ((6, 2, false), (3, false)));
    assert_eq!(c.line(6), "z");
    assert_eq!(c.ask_both(), (vec![5, 6], true));
}

#[test]
fn moves_on_the_line() {
    for (bytes, column) in [
        (&b"\x1B[9;5H"[..], 5),
        (b"\x1B[H", 1),
        (b"\x1B[;81H", 80),
        (b"\x1B[24;9999f", 80),
        (b"\x1B[A", 40),
        (b"\x1B[9B", 40),
        (b"\x1B[C", 41),
        (b"\x1B[99C", 80),
        (b"\x1B[39D", 1),
        (b"\x1B[99D", 1),
        (b"\x08", 39),
        (b"\t", 41),
        (b"\t\t", 49),
        (b"\r", 1),
        (b"\n", 40),
        (b"\x0B", 40),
        (b"\x0C", 40),
        (b"\x84", 40),
        (b"\x8D", 40),
        (b"\x85", 1),
        (b"\x1B[20h\n", 1),
        (b"\x1B[20h\x0B", 1),
        (b"\x1B[20h\x84", 40),
    ] {
        for before in [&b""[..], b"\x1B[5;10r\x1B[?6h", b"\x1B[5;10r\x1B[20;7H"] {
            let mut c = Console::fed(before).feed(b"ab\x1B[1$~\x1B[1$}x\x1B[;40H");
            let (page, line, at) = (c.page.clone(), c.status_line.clone(), c.at());
            c.more(bytes);
            assert_eq!(c.line_at(), (column, false), "{bytes:?}");
            assert_eq!((&c.page, &c.status_line), (&page, &line));
            assert_eq!(c.at(), at);
        }
    }
}

#[test]
fn the_line_never_scrolls() {
    for rows in SIZES {
        let mut c = Console::of(rows).feed(b"\x1B#8\x1B[1$~\x1B[1$}\x1B#8\x1B[;40Hx");
        c.ask_both();
        let (page, line) = (c.page.clone(), c.status_line.clone());
        for _ in 0..60 {
            c.more(b"\n\x0B\x0C\x84\x85\x8D\x8D\x1B[9A\x1B[9B\x1B[5L\x1B[5M");
        }
        assert_eq!((&c.page, &c.status_line), (&page, &line));
        assert_eq!(c.ask_both(), (vec![], false));
    }
}

#[test]
fn what_keeps_and_what_clears_wrap_due_there() {
    for bytes in [
        // Ignored on the line.
        &b"\x1B[L"[..],
        b"\x1B[3M",
        b"\x1B[r",
        b"\x1B[2;9r",
        b"\x1B[?6h",
        b"\x1B[?6l",
        b"\x1B[?6;25h",
        // Kept everywhere.
        b"\x07",
        b"\x18",
        b"\x7F",
        b"\x88",
        b"\x8E",
        b"\x0E",
        b"\x1B7",
        b"\x1B G",
        b"\x1B(0",
        b"\x1B[g",
        b"\x1B[4h",
        b"\x1B[?7h",
        b"\x1B[7m",
        b"\x1B[1\"q",
        b"\x1B[6n",
        b"\x1B[c",
        b"\x1B[3J",
        b"\x1B[9K",
        b"\x1B[2*x",
        b"\x1B[$z",
        b"\x1B[42$x",
        b"\x1B[;;;;;1;2$v",
        b"\x1B[2$~",
        b"\x1B[0$}",
        b"\x1B[0$~",
    ] {
        let c = both_due().feed(bytes);
        assert_eq!(c.line_at(), (80, true), "{bytes:?}");
        assert_eq!(c.at(), (5, 80, true), "{bytes:?}");
    }
    for bytes in [
        &b"\x08"[..],
        b"\t",
        b"\r",
        b"\n",
        b"\x84",
        b"\x85",
        b"\x8D",
        b"\x1B[A",
        b"\x1B[B",
        b"\x1B[C",
        b"\x1B[D",
        b"\x1B[H",
        b"\x1B[J",
        b"\x1B[?K",
        b"\x1B[X",
        b"\x1B[@",
        b"\x1B[P",
        b"\x1B8",
        b"\x1B#8",
    ] {
        let c = both_due().feed(bytes);
        assert!(!c.line_at().1, "{bytes:?}");
        assert_eq!(c.at(), (5, 80, true), "{bytes:?}");
    }
    // On the page the line's stays.
    for bytes in [
        &b"\r"[..],
        b"\n",
        b"\x1B[H",
        b"\x1B[?6h",
        b"\x1B[5;10r",
        b"x",
        b"\x1B8",
    ] {
        let c = both_due().feed(TO_PAGE).feed(bytes);
        assert_eq!(c.line_at(), (80, true), "{bytes:?}");
        assert!(!c.at().2);
    }
}

#[test]
fn printing_at_the_right_edge() {
    // Without autowrap column 80 is overwritten.
    let c = on_line(b"\x1B[;79Habc");
    assert_eq!(c.status_line[78..], [b'a' as u16, b'c' as u16]);
    assert_eq!(c.line_at(), (80, false));
    // With it the next goes to column 1 of the line.
    let c = on_line(b"\x1B[?7h\x1B[;79Hab");
    assert_eq!(c.line_at(), (80, true));
    let c = c.feed(b"cd");
    assert_eq!(c.status_line[..3], [b'c' as u16, b'd' as u16, BLANK]);
    assert_eq!(c.status_line[78..], [b'a' as u16, b'b' as u16]);
    assert_eq!(c.line_at(), (3, false));
    // Round and round.
    let c = on_line(b"\x1B[?7h").feed(&[b'x'; 400]);
    assert_eq!(c.line_at(), (80, true));
    assert!(c.blank_but(&[]));
    // Insert mode: the last cell is lost.
    let c = on_line(b"\x1B[4habc\x1B[;80Hz\r12");
    assert_eq!(c.status_text(), "12abc");
    // SUB, by the printing rule.
    let c = on_line(b"\x1B[?7h\x1B[;80Ha\x1A\x8Eb");
    assert_eq!(c.status_line[..3], [0x1A, 0x100 | b'b' as u16, BLANK]);
}

#[test]
fn a_wrapped_sign_on_the_line_is_two_steps() {
    // The first changes no cell; the second may leave the same word.
    let mut c = on_line(b"\x1B[?7ha\x1B[;80Hb");
    c.ask_both();
    c.more(b"a");
    assert_eq!(c.line_at(), (2, false));
    assert_eq!(c.ask_both(), (vec![], false));
    let mut c = on_line(b"\x1B[?7ha\x1B[;80Hb");
    c.ask_both();
    c.more(b"c");
    assert_eq!(c.ask_both(), (vec![], true));
}

#[test]
fn erasing_and_editing_the_line() {
    let letters = |c: &Console| c.status_text();
    for (bytes, text) in [
        (&b"\x1B[K"[..], "abc"),
        (b"\x1B[J", "abc"),
        (b"\x1B[1K", "    efgh"),
        (b"\x1B[1J", "    efgh"),
        (b"\x1B[2K", ""),
        (b"\x1B[2J", ""),
        (b"\x1B[?J", "abc"),
        (b"\x1B[?1J", "    efgh"),
        (b"\x1B[?2J", ""),
        (b"\x1B[X", "abc efgh"),
        (b"\x1B[3X", "abc   gh"),
        (b"\x1B[99X", "abc"),
        (b"\x1B[@", "abc defgh"),
        (b"\x1B[99@", "abc"),
        (b"\x1B[2P", "abcfgh"),
        (b"\x1B[99P", "abc"),
        (b"\x1B[L", "abcdefgh"),
        (b"\x1B[M", "abcdefgh"),
    ] {
        // The page's cursor inside and outside its margins.
        for before in [&b"xyz"[..], b"xyz\x1B[5;10r", b"xyz\x1B[5;10r\x1B[20H"] {
            let c = Console::fed(before).feed(b"\x1B[1$~\x1B[1$}abcdefgh\x1B[;4H");
            let page = c.page.clone();
            let c = c.feed(bytes);
            assert_eq!(letters(&c), text, "{bytes:?}");
            assert_eq!(c.line_at(), (4, false));
            assert_eq!(c.page, page);
        }
    }
    let c = on_line(b"\x1B[1\"qab\x1B[\"qcd\x1B[7mef\x1B[?2K");
    let (a, b) = (b'a' as u16 | PROTECTED, b'b' as u16 | PROTECTED);
    assert_eq!(
        c.status_line[..7],
        [a, b, BLANK, BLANK, BLANK | REVERSE, BLANK | REVERSE, BLANK]
    );
}

#[test]
fn margins_and_origin_are_set_aside() {
    for (before, row) in [
        (&b"\x1B[5;10r\x1B[?6h\x1B[3;7H"[..], 7),
        (b"\x1B[5;10r\x1B[3;7H", 3),
        (b"\x1B[5;10r\x1B[12;7H", 12),
    ] {
        let c = Console::fed(before);
        let origin = c.state.origin;
        let mut c = c.feed(b"\x1B[1$~\x1B[1$}abc");
        for bytes in [
            &b"\x1B[r"[..],
            b"\x1B[2;20r",
            b"\x1B[?6h",
            b"\x1B[?6l",
            b"\x1B7\x1B8",
            b"\x1B#8",
            b"\x1B[5;5H",
            b"\x1B[?7;6;25h",
            b"\x1B[?6;25l",
        ] {
            c.more(bytes);
            assert_eq!((c.state.top, c.state.bottom), (5, 10), "{bytes:?}");
            assert_eq!((c.state.origin, c.at()), (origin, (row, 7, false)));
        }
        assert!(c.state.autowrap && !c.state.cursor_shown);
        // Reports are of the line.
        c.replies.clear();
        c.more(b"\x1B[;33H\x1B[6n\x1B[?6n\x1B G\x1B[6n");
        assert_eq!(c.replies, b"\x1B[1;33R\x1B[?1;33;1R\x9B1;33R");
    }
}

#[test]
fn the_screen_of_e_is_the_line() {
    let mut c = Console::fed(b"abc\x1B[5;10r\x1B[7;7H\x1B[1$~\x1B[1$}\x1B[7mx\x1B[;80H");
    c.ask_both();
    let page = c.page.clone();
    c.more(b"\x1B#8");
    assert!(c.status_line.iter().all(|&word| word == b'E' as u16));
    assert_eq!((c.at(), c.line_at()), ((7, 7, false), (1, false)));
    assert_eq!((c.state.top, c.state.bottom), (5, 10));
    assert_eq!(c.page, page);
    assert_eq!(c.ask_both(), (vec![], true));
    // On the page the line stays.
    let c = c.feed(TO_PAGE).feed(b"\x1B[1$}\x1B[2K\x1B[0$}\x1B#8");
    assert_eq!(c.status_text(), "");
    assert_eq!((c.at(), c.state.top), ((1, 1, false), 1));
}

// ---- What is saved ----------------------------------------------------------

#[test]
fn two_saved_cursors() {
    let mut c = Console::fed(b"\x1B[1$~\x1B[5;5H\x1B[1m\x1B7\x1B[1$}\x1B[;9H\x1B[4m\x1B7");
    let (page, line) = (c.state.saved, c.state.line.saved);
    assert_eq!((page.cursor.row, page.cursor.column), (5, 5));
    assert_eq!(
        line.cursor,
        Cursor {
            row: 1,
            column: 9,
            wrap_due: false
        }
    );
    assert!(page.rendition.bold && !page.rendition.underline);
    assert!(line.rendition.bold && line.rendition.underline);
    c.more(b"\x1B[m\x1B[;2H\x1B[0$}\x1B[9;9H\x1B8");
    assert_eq!((c.at(), c.line_at()), ((5, 5, false), (2, false)));
    assert_eq!(c.state.rendition, page.rendition);
    c.more(b"\x1B[m\x1B[1$}\x1B8");
    assert_eq!((c.at(), c.line_at()), ((5, 5, false), (9, false)));
    assert_eq!(c.state.rendition, line.rendition);
    assert_eq!((c.state.saved, c.state.line.saved), (page, line));
}

#[test]
fn all_that_the_line_saves() {
    let mut c =
        on_line(b"\x1B[?7h\x1B[1;5m\x1B[1\"q\x1B(0\x1B-A\x1B*B\x1B+0\x1Bn\x1B~\x1B[;80Hx\x8F\x1B7");
    let saved = c.state.line.saved;
    assert_eq!(
        saved.cursor,
        Cursor {
            row: 1,
            column: 80,
            wrap_due: true
        }
    );
    assert_eq!(
        saved.rendition,
        Rendition {
            bold: true,
            underline: false,
            blink: true,
            reverse: false
        }
    );
    let sets = Sets {
        g0: Set::SpecialGraphics,
        g1: Set::Latin1,
        g2: Set::Ascii,
        g3: Set::SpecialGraphics,
        gl: Slot::G2,
        gr: Slot::G1,
    };
    assert_eq!(
        (saved.sets, saved.protection, saved.shift),
        (sets, true, Some(Shift::G3))
    );
    assert!(!saved.origin);
    assert_eq!(c.state.saved, Saved::FRESH);
    c.more(b"\x1B[m\x1B[\"q\x1B(B\x1B)B\x0F\x1B}y\r\x1B8");
    let s = &c.state;
    assert_eq!(s.line.cursor, saved.cursor);
    assert_eq!((s.rendition, s.sets), (saved.rendition, saved.sets));
    assert_eq!((s.protection, s.shift), (true, Some(Shift::G3)));
    // Without autowrap it is not due.
    let c = c.feed(b"\x1B[?7l\r\x1B8");
    assert_eq!(c.line_at(), (80, false));
    assert!(c.state.line.saved.cursor.wrap_due);
    let c = c.feed(b"\x1B[?7h\r\x1B8");
    assert_eq!(c.line_at(), (80, true));
}

#[test]
fn the_line_saves_no_origin() {
    for origin in [false, true] {
        let saved: &[u8] = if origin { b"\x1B[?6h" } else { b"" };
        let mut c = Console::fed(b"\x1B[5;10r\x1B[1$~")
            .feed(saved)
            .feed(b"\x1B[1$}\x1B7");
        for now in [&b"\x1B[?6l"[..], b"\x1B[?6h"] {
            c.more(b"\x1B[0$}");
            c.more(now);
            let before = c.state.origin;
            c.more(b"\x1B[1$}\x1B8");
            assert_eq!(c.state.origin, before);
            assert_eq!(c.state.line.saved.origin, false);
        }
    }
}

// ---- Resets -----------------------------------------------------------------

/// A console in which everything of page and line is other than fresh.
fn busy() -> Console {
    let mut c = Console::fed(b"\x1B[?7h\x1B[4;20h\x1B[5;10r\x1B[?6h\x1B[?25l\x1B G\x1B[2*x\x1B[3g");
    c.more(b"\x1B(0\x1B[7m\x1B[1\"q\x1B[3;80Hw\x1B7\x1B[1$~\x1B[1$}ab\x1B[;80Hv\x8E\x1B7");
    assert!(c.state.cursor.wrap_due && c.state.line.cursor.wrap_due);
    c
}

#[test]
fn soft_reset_from_page_and_line() {
    for to in [TO_PAGE, TO_LINE] {
        let before = busy().feed(to);
        let c = before.clone().feed(b"\x1B[!p");
        let mut expected = before.state.clone();
        expected.insert = false;
        expected.origin = false;
        expected.autowrap = false;
        expected.cursor_shown = true;
        (expected.top, expected.bottom) = (1, 24);
        expected.sets = Sets::FRESH;
        expected.rendition = Rendition::PLAIN;
        expected.protection = false;
        expected.shift = None;
        expected.saved = Saved::FRESH;
        expected.cursor.wrap_due = false;
        expected.line.active = false;
        expected.line.cursor.wrap_due = false;
        expected.line.saved = Saved::FRESH;
        assert_eq!(c.state, expected);
        assert_eq!(
            (&c.page, &c.status_line),
            (&before.page, &before.status_line)
        );
        assert!(c.state.line.exists);
        assert_eq!((c.at(), c.line_at()), ((7, 80, false), (80, false)));
    }
    // Also where there is no line any more.
    let c = busy().feed(b"\x1B[0$~\x1B[!p");
    assert!(!c.state.line.exists);
    assert_eq!(c.line_at(), (80, false));
    assert_eq!(c.state.line.saved, Saved::FRESH);
}

#[test]
fn full_reset_from_page_and_line() {
    for to in [TO_PAGE, TO_LINE, b"\x1B[0$~"] {
        for rows in SIZES {
            let mut c = Console::of(rows).feed(b"x\x1B[1$~\x1B[1$}y");
            c.ask_both();
            c.more(b"\x1B[0$}\x1B[3Hz\x1B[1$}");
            c.more(to);
            c.more(b"\x1Bc");
            let mut expected = State::fresh(rows);
            expected.changed.extend([1, 3]);
            expected.line.changed = true;
            assert_eq!(c.state, expected);
            assert!(c
                .page
                .iter()
                .chain(&c.status_line)
                .all(|&word| word == BLANK));
        }
        let mut c = busy().feed(to).feed(b"\x1Bc");
        c.ask_both();
        assert_eq!(c.state, State::fresh(24));
    }
}

#[test]
fn autowrap_off_clears_both() {
    for to in [TO_PAGE, TO_LINE] {
        for bytes in [
            &b"\x1B[?7l"[..],
            b"\x1B[?25;7l",
            b"\x1B[?6;7l",
            b"\x1B[?7;7l",
        ] {
            let c = both_due().feed(to).feed(bytes);
            assert!(!c.state.autowrap);
            assert!(!c.at().2 && !c.line_at().1);
            assert_eq!(c.line_at().0, 80);
            let c = c.feed(b"\x1B[?7h");
            assert!(!c.at().2 && !c.line_at().1);
        }
        // Without 7 in the list nothing is cleared on the line.
        let c = both_due()
            .feed(to)
            .feed(b"\x1B[?25l\x1B[?8l\x1B[7l\x1B[>7l\x1B[?7h");
        assert_eq!((c.at(), c.line_at()), ((5, 80, true), (80, true)));
    }
}

#[test]
fn starting_makes_all_fresh() {
    for rows in SIZES {
        let mut c = busy();
        let mut page = vec![0xFFFF; 80 * rows];
        let (answer, state) = start(rows, &mut page, &mut c.status_line);
        assert_eq!((answer, state), (0, State::fresh(rows)));
        assert_eq!(c.status_line, [BLANK; 80]);
    }
}

// ---- What is shared ---------------------------------------------------------

#[test]
fn what_is_chosen_on_one_counts_on_the_other() {
    let chosen =
        b"\x1B[4;20h\x1B[?7h\x1B[?25l\x1B G\x1B[2*x\x1B[1;7m\x1B[1\"q\x1B(0\x1B.A\x0E\x1B|\x8F";
    let on_page = Console::fed(b"\x1B[1$~").feed(chosen).feed(TO_LINE);
    let on_line = Console::fed(b"\x1B[1$~\x1B[1$}").feed(chosen);
    assert_eq!(on_page.state, on_line.state);
    // Tabs: set and cleared at the cursor of what is active.
    let c = Console::fed(b"\x1B[7;30H\x1B[1$~\x1B[1$}\x1B[;5H\x88\x1B[;9H\x1B[g\r\t");
    assert_eq!(c.line_at(), (5, false));
    let c = c.feed(b"\t");
    assert_eq!(c.line_at(), (17, false));
    let c = c.feed(b"\x1B[0$}\r\t");
    assert_eq!(c.at(), (7, 5, false));
    // A shift, from one to the other.
    let c = Console::fed(b"\x1B*0\x1B[1$~\x8E\x1B[1$}q\x8E\x1B[0$}q");
    assert_eq!(
        (c.status_line[0], c.word(1, 1)),
        (b'q' as u16 | GRAPHICS, b'q' as u16 | GRAPHICS)
    );
}

// ---- Rectangles -------------------------------------------------------------

#[test]
fn rectangles_in_the_line() {
    let dotted = || {
        let mut c = Console::fed(b"\x1B[5;10r\x1B[?6h\x1B[1$~\x1B[1$}\x1B[46$x");
        c.ask_both();
        c
    };
    // Whatever the rows are, if the top is not below the bottom.
    for rows in ["", "1", "2", "9", "24", "9999"] {
        for bottom in ["", "0", "1", "7", "9999"] {
            let c = dotted().feed(format!("\x1B[{rows};3;{bottom};5$z").as_bytes());
            assert_eq!(c.status_text(), format!("..   {}", ".".repeat(75)));
            assert!(c.blank_but(&[]));
        }
    }
    for edges in ["1;5;1;4", "9;80;1;79", ";2;;1"] {
        let mut c = dotted().feed(format!("\x1B[{edges}$z").as_bytes());
        assert_eq!(c.ask_both(), (vec![], false));
    }
    // In either extent an attribute reaches the same cells.
    for extent in [&b"\x1B[2*x"[..], b"\x1B[1*x"] {
        let c = dotted()
            .feed(extent)
            .feed(b"\x1B[2;79;9;81;7$r\x1B[;1;;2;1$t");
        let dot = b'.' as u16;
        assert_eq!(c.status_line[..3], [dot | 1 << 9, dot | 1 << 9, dot]);
        assert_eq!(c.status_line[77..], [dot, dot | REVERSE, dot | REVERSE]);
    }
    // Copies.
    for (edges, target, text) in [
        ("1;1;1;3", "1;5;1", "abcdabch"),
        ("7;1;9;3", "5;2;", "aabcefgh"),
        (";4;;", ";1", "defgh"),
        ("1;1;1;80", "1;2", "aabcdefgh"),
    ] {
        let c = on_line(b"abcdefgh").feed(format!("\x1B[{edges};1;{target}$v").as_bytes());
        assert_eq!(c.status_text(), text);
        assert_eq!(c.line_at(), (9, false));
    }
    for pages in ["2;1;5;1", "1;1;5;2", "9;1;5;9"] {
        let c = on_line(b"abcdefgh").feed(format!("\x1B[1;1;1;3;{pages}$v").as_bytes());
        assert_eq!(c.status_text(), "abcdefgh");
    }
}

// ---- The calls --------------------------------------------------------------

#[test]
fn lines_of_other_lengths_are_refused() {
    for length in [0, 1, 24, 79, 81, 127, 128, 160, 1920] {
        for c in [Console::fed(b"ab"), both_due(), on_line(b"\x1B[5")] {
            let mut page = c.page.clone();
            let mut line = vec![0x1234; length];
            let mut reply = [7; 20];
            for input in [&b""[..], b"x\x1B[6n", b"\x1Bc"] {
                let got = feed(&c.state, &mut page, &mut line, input, &mut reply);
                assert_eq!(got, (2, 0, 0, c.state.clone()));
            }
            for number in [0, 1, 2, 24, 25] {
                assert_eq!(row(&c.state, &page, &line, number), (2, &[][..]));
            }
            let got = start(24, &mut page, &mut line);
            assert_eq!(got, (2, State::fresh(24)));
            assert_eq!(start(25, &mut page, &mut line).0, 1);
            assert_eq!(page, c.page);
            assert!(line.iter().all(|&word| word == 0x1234));
            assert_eq!(reply, [7; 20]);
            // With a broken state 1 comes first.
            let mut broken = c.state.clone();
            broken.line.cursor.column = 0;
            let got = feed(&broken, &mut page, &mut line, b"x", &mut reply);
            assert_eq!(got, (1, 0, 0, broken.clone()));
            assert_eq!(row(&broken, &page, &line, 0), (1, &[][..]));
            // With a wrong page too it is 2.
            let got = feed(&c.state, &mut page[1..], &mut line, b"x", &mut reply);
            assert_eq!(got.0, 2);
        }
    }
}

#[test]
fn a_row_is_a_part_of_what_is_active() {
    for rows in SIZES {
        let mut random = Random::new(rows as u64);
        let mut c = Console::of(rows).feed(b"\x1B[1$~");
        c.page = any_words(&mut random, 80 * rows);
        c.status_line = any_words(&mut random, 80);
        for number in 1..=rows {
            let (answer, words) = row(&c.state, &c.page, &c.status_line, number);
            assert_eq!(answer, 0);
            assert_eq!(words, &c.page[80 * (number - 1)..80 * number]);
            assert_eq!(words.as_ptr(), c.page[80 * (number - 1)..].as_ptr());
        }
        for number in [0, rows + 1, 255, 256, 257, usize::MAX] {
            assert_eq!(row(&c.state, &c.page, &c.status_line, number), (4, &[][..]));
        }
        c.state.line.active = true;
        let (answer, words) = row(&c.state, &c.page, &c.status_line, 1);
        assert_eq!((answer, words), (0, &c.status_line[..]));
        assert_eq!(words.as_ptr(), c.status_line.as_ptr());
        for number in [0, 2, rows, rows + 1, 256, 257, usize::MAX] {
            assert_eq!(row(&c.state, &c.page, &c.status_line, number), (4, &[][..]));
        }
        // A wrong page is refused though the line is asked for.
        let short = &c.page[1..];
        assert_eq!(row(&c.state, short, &c.status_line, 1), (2, &[][..]));
        // A cell stays the page's.
        assert_eq!(
            read_cell(&c.state, &c.page, rows, 80),
            (0, c.page[80 * rows - 1])
        );
        assert_eq!(read_cell(&c.state, &c.page, rows + 1, 80), (4, BLANK));
    }
}

#[test]
fn asking_returns_the_flag() {
    let mut c = on_line(b"");
    assert_eq!(c.ask_both(), (vec![], false));
    c.more(b"a");
    let (answer, rows, count, flag, after) = ask(&c.state);
    assert_eq!((answer, rows, count, flag), (0, vec![], 0, true));
    assert!(!after.line.changed);
    // Refused: unset, and the state as it came.
    let mut broken = c.state.clone();
    broken.line.cursor.column = 81;
    assert_eq!(ask(&broken), (1, vec![], 0, false, broken.clone()));
    // It is no row.
    c.more(b"\x1B[0$}\x1B[4Hx");
    assert_eq!(c.ask_both(), (vec![4], true));
    assert_eq!(c.ask_both(), (vec![], false));
    // The flag stays over calls, switching and refused calls.
    let mut c = on_line(b"a").feed(b"\x1B[0$~").feed(b"");
    feed(&c.state, &mut [], &mut [], b"x", &mut []);
    assert_eq!(c.ask_both(), (vec![], true));
}

#[test]
fn the_flag_is_set_by_a_cell_that_became_another() {
    // Over a blank line.
    for (bytes, changed) in [
        (&b"a"[..], true),
        (b" ", false),
        (b"\x1B[7m ", true),
        (b"\x1B[K", false),
        (b"\x1B[2J", false),
        (b"\x1B[9@", false),
        (b"\x1B[9P", false),
        (b"\x1B[X", false),
        (b"\x1B#8", true),
        (b"\x1B[32$x", false),
        (b"\x1B[46$x", true),
        (b"\x1B[;;;;7$t", true),
        (b"\x1B[;;;;7$t\x1B[;;;;7$t", true),
        (b"\x1B[;;;;27$r", false),
        (b"a\x08 ", true),
        (b"\n\x84\x8D\x85", false),
        (b"\x1B[L\x1B[M", false),
        (b"\x1A", true),
        (b"\x1Bc", false),
        (b"\x1B[!p", false),
        (b"\x1B[0$}abc\x1B[1$}", false),
        (b"\x1B[0$~abc", false),
    ] {
        let mut c = on_line(bytes);
        assert_eq!(c.ask_both().1, changed, "{bytes:?}");
    }
    // Over a written one.
    for (bytes, changed) in [
        (&b"\rabc"[..], false),
        (b"\rabd", true),
        (b"\rx\x08a", true),
        (b"\x1B[K", false),
        (b"\r\x1B[K", true),
        (b"\r\x1B[@\x1B[P", true),
        (b"\r\x1B[?K", true),
        (b"\x1B[;;;;;1;1$v", false),
        (b"\x1Bc", true),
        (b"\x1B[!p", false),
        (b"\x1B[0$~", false),
        (b"\x1B[0$}\x1Bc", true),
        (b"\x1B[0$~\x1Bc", true),
        (b"\x1B[0$}\x1B#8\x1B[2J", false),
    ] {
        let mut c = on_line(b"abc");
        c.ask_both();
        c.more(bytes);
        assert_eq!(c.ask_both().1, changed, "{bytes:?}");
    }
    // A word that differs in an unused bit alone is another.
    let mut c = on_line(b"a");
    c.ask_both();
    c.status_line[0] |= 0x8000;
    c.more(b"\ra");
    assert_eq!(c.ask_both(), (vec![], true));
    // ESC c keeps it, though the line is blank by then.
    let mut c = on_line(b"a\x1B[2K\x1Bc");
    assert_eq!(c.ask_both(), (vec![], true));
}

#[test]
fn what_is_not_whole_of_the_line() {
    let broken = |bytes: &[u8], change: fn(&mut State)| {
        let mut state = Console::fed(bytes).state;
        assert!(is_whole(&state));
        change(&mut state);
        !is_whole(&state)
    };
    let due: &[u8] = b"\x1B[?7h\x1B[1$~\x1B[1$}\x1B[;80Hx\x1B7";
    for before in [&b""[..], b"\x1B[1$~", b"\x1B[1$~\x1B[1$}"] {
        assert!(broken(before, |s| s.line.cursor.column = 0));
        assert!(broken(before, |s| s.line.cursor.column = 81));
        assert!(!broken(before, |s| s.line.cursor.column = 80));
        assert!(!broken(before, |s| s.line.cursor.column = 1));
        assert!(broken(before, |s| s.line.saved.cursor.column = 0));
        assert!(broken(before, |s| s.line.saved.cursor.column = 81));
        assert!(!broken(before, |s| s.line.saved.cursor.column = 80));
        assert!(broken(before, |s| s.line.cursor.wrap_due = true));
        assert!(broken(before, |s| {
            (s.line.cursor.column, s.line.cursor.wrap_due) = (80, true)
        }));
        assert!(broken(before, |s| {
            (s.autowrap, s.line.cursor.wrap_due) = (true, true)
        }));
        assert!(!broken(before, |s| {
            s.autowrap = true;
            (s.line.cursor.column, s.line.cursor.wrap_due) = (80, true)
        }));
        assert!(broken(before, |s| s.line.saved.cursor.wrap_due = true));
        assert!(!broken(before, |s| {
            (s.line.saved.cursor.column, s.line.saved.cursor.wrap_due) = (80, true)
        }));
        assert!(broken(before, |s| {
            (s.line.exists, s.line.active) = (false, true)
        }));
        assert!(!broken(before, |s| {
            (s.line.exists, s.line.active) = (true, true)
        }));
        assert!(!broken(before, |s| s.line.changed = true));
    }
    for before in [
        due.to_vec(),
        [due, TO_PAGE].concat(),
        [due, b"\x1B[0$~"].concat(),
    ] {
        assert!(broken(&before, |s| s.autowrap = false));
        assert!(broken(&before, |s| s.line.cursor.column = 79));
        assert!(broken(&before, |s| s.line.saved.cursor.column = 79));
        assert!(!broken(&before, |s| {
            (s.line.cursor.wrap_due, s.autowrap) = (false, false)
        }));
    }
}

// ---- Over everything --------------------------------------------------------

/// While one of page and line is active, no byte changes the other: but ESC c
/// does, a soft reset renews what the other has saved, and both of them and ?7l
/// end the other's wrap due.
#[test]
fn the_other_is_left() {
    let escape = Parser::Escape {
        intermediates: Vec::new(),
    };
    for seed in 0..120 {
        let mut random = Random::new(seed);
        let mut c = Console::of(SIZES[seed as usize % 3]);
        c.page = any_words(&mut random, c.page.len());
        c.status_line = any_words(&mut random, 80);
        for byte in [&b"\x1B[1$~\x1B[1$}"[..], &stream(seed, 1_500)].concat() {
            let before = c.clone();
            c.more(&[byte]);
            if before.state.parser == escape && byte & 0x7F == b'c' {
                continue;
            }
            let (now, was) = (&c.state, &before.state);
            let left = |now: Cursor, was: Cursor| {
                let due = now.wrap_due == was.wrap_due || !c.state.autowrap;
                due && (now.row, now.column) == (was.row, was.column)
            };
            if was.line.active {
                assert_eq!(c.page, before.page);
                assert!(left(now.cursor, was.cursor));
            } else {
                assert_eq!(c.status_line, before.status_line);
                assert!(left(now.line.cursor, was.line.cursor));
            }
            if was.line.active && now.line.active {
                let kept = |s: &State| (s.top, s.bottom, s.origin, s.saved);
                assert_eq!(kept(now), kept(was));
            }
            // The line has one row and no origin.
            assert_eq!((now.line.cursor.row, now.line.saved.cursor.row), (1, 1));
            assert!(!now.line.saved.origin);
        }
    }
}

/// Functions that do not leave a row.
const IN_A_ROW: [&[u8]; 66] = [
    b"q",
    b"\xF1",
    b" ",
    b"qrs",
    b"\x7Fq",
    b"\xA0q",
    b"\x1A",
    b"\x08",
    b"\t",
    b"\t\t",
    b"\r",
    b"\x0Eq",
    b"\x07\x00",
    b"\x88\r\t",
    b"\x8Eqq",
    b"\x8Fqq",
    b"\x1B7",
    b"\x1B8q",
    b"\x1B7\r\x1B8q",
    b"\x1B(0q",
    b"\x1B.A\x8Eq",
    b"\x1B~\xF1",
    b"\x1B G",
    b"\x1B[A",
    b"\x1B[C",
    b"\x1B[99C",
    b"\x1B[2D",
    b"\x1B[H",
    b"\x1B[1;7f",
    b"\x1B[K",
    b"\x1B[1K",
    b"\x1B[2K",
    b"\x1B[?K",
    b"\x1B[?1K",
    b"\x1B[?2K",
    b"\x1B[J",
    b"\x1B[1J",
    b"\x1B[2J",
    b"\x1B[?J",
    b"\x1B[?1J",
    b"\x1B[?2J",
    b"\x1B[X",
    b"\x1B[9X",
    b"\x1B[99X",
    b"\x1B[@",
    b"\x1B[9@",
    b"\x1B[99@",
    b"\x1B[P",
    b"\x1B[9P",
    b"\x1B[99P",
    b"\x1B[g\r\t",
    b"\x1B[3g\r\t",
    b"\x1B[4hqr",
    b"\x1B[20h\r",
    b"\x1B[?7hq",
    b"\x1B[?7l",
    b"\x1B[1;7mq",
    b"\x1B[1\"qq",
    b"\x1B[6n\x1B[?6n\x1B[5n",
    b"\x1B[c\x1B[>c\x9A",
    b"\x1B[;10;1;50$z",
    b"\x1B[;10;1;50${",
    b"\x1B[113;;10;1;50$x",
    b"\x1B[;10;1;50;1;1;30$v",
    b"\x1B[;10;1;50;7$r",
    b"\x1B[2*x\x1B[;10;1;50;0$t",
];

/// They do to the line what they do to row 1 of a page, and to all else.
#[test]
fn the_line_is_like_a_row() {
    let befores: [&[u8]; 6] = [
        b"",
        b"\x1B[4h",
        b"\x1B[20h\x8E",
        b"\x1B[1;4m\x1B[1\"q",
        b"\x1B(0\x1B-A\x0E",
        b"\x1B G\x1B[3g",
    ];
    for column in [1, 2, 9, 40, 78, 79, 80] {
        for before in befores {
            for function in IN_A_ROW {
                let mut here = Console::fed(b"\x1B[1$~").feed(before);
                here.page[..80].copy_from_slice(&any_words(&mut Random::new(7), 80));
                let mut there = here.clone().feed(TO_LINE);
                there.status_line.copy_from_slice(&here.page[..80]);
                let bytes = [format!("\x1B[1;{column}H").as_bytes(), function].concat();
                here.more(&bytes);
                there.more(&bytes);
                assert_eq!(here.page[..80], there.status_line[..], "{bytes:?}");
                assert_eq!(here.replies, there.replies, "{bytes:?}");
                assert_eq!(here.ask() == [1], there.ask_both().1, "{bytes:?}");
                // The one row has the line's cursor and saved cursor.
                let one_row = there.state.of_active();
                let expected = State {
                    rows: 1,
                    bottom: 1,
                    line: one_row.line,
                    ..here.state
                };
                assert_eq!(one_row, expected, "{bytes:?}");
            }
        }
    }
}

/// Every situation of the plan, with the line active for a while in it: what was
/// to be printed on the page is printed there as if nothing had been.
#[test]
fn a_visit_to_the_line_does_not_show() {
    for rows in SIZES {
        for preparation in preparations(rows as u16) {
            let before = Console::of(rows).feed(b"\x1B[1$~").feed(&preparation.bytes);
            let visits: [&[u8]; 3] = [
                b"\x1B[1$}\x1B[0$}",
                b"\x1B[1$}\n\x85\x8D\x1B[5;5H\x1B[L\x1B[2r\x1B[?6h\x1B[K\x1B#8\x1B[0$}",
                b"\x1B[1$}\x1B[2$~\x1B[0$~\x1B[1$~",
            ];
            for visit in visits {
                let mut there = before.clone().feed(visit);
                let mut here = before.clone();
                for bytes in [&b"q\xF1\x1B[6n"[..], b"\x1B8q", b"\n\x1B[L\x1B[?6l"] {
                    there.more(bytes);
                    here.more(bytes);
                    assert_eq!(there.page, here.page);
                    assert_eq!(there.replies, here.replies);
                    let mut state = there.state.clone();
                    state.line = here.state.line;
                    assert_eq!(state, here.state);
                }
            }
        }
    }
}
