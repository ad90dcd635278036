//! Long streams: what must hold whatever the bytes are.

mod common;
use common::{any_words, Console};
use reference::grammar::{stream, Random};
use reference::*;

/// At once, byte by byte, and in pieces with little room: the same.
#[test]
fn cutting_makes_no_difference() {
    for seed in 0..60 {
        let rows = [24, 36, 48][seed as usize % 3];
        let bytes = stream(seed, 4_000);
        let whole = Console::of(rows).feed(&bytes);
        assert!(is_whole(&whole.state));

        let mut single = Console::of(rows);
        for byte in &bytes {
            single.more(&[*byte]);
        }
        assert_eq!(single.page, whole.page);
        assert_eq!(single.status_line, whole.status_line);
        assert_eq!(single.state, whole.state);
        assert_eq!(single.replies, whole.replies);

        let mut random = Random::new(seed);
        let mut pieces = Console::of(rows);
        let mut rest = &bytes[..];
        while !rest.is_empty() {
            let length = random.between(1, 200).min(rest.len());
            let room = random.between(11, 20);
            let (answer, read, _) = pieces.feed_with(&rest[..length], room, 0xEE);
            assert!(answer == 0 && read == length || answer == 3 && read < length);
            assert!(read > 0);
            rest = &rest[read..];
        }
        assert_eq!(pieces.page, whole.page);
        assert_eq!(pieces.status_line, whole.status_line);
        assert_eq!(pieces.state, whole.state);
        assert_eq!(pieces.replies, whole.replies);
    }
}

/// Every row that differs between two askings is reported, and so is the line.
#[test]
fn no_change_is_missed() {
    for seed in 100..160 {
        let rows = [24, 36, 48][seed as usize % 3];
        let bytes = stream(seed, 6_000);
        let mut c = Console::of(rows);
        for piece in bytes.chunks(37) {
            let before = c.page.clone();
            let line = c.status_line.clone();
            c.more(piece);
            let (reported, line_changed) = c.ask_both();
            assert!(line_changed || c.status_line == line);
            for row in 1..=rows {
                let cells = 80 * (row - 1)..80 * row;
                if before[cells.clone()] != c.page[cells] {
                    assert!(reported.contains(&row));
                }
            }
        }
    }
}

/// The line is noted exactly if a byte changed a cell of it since the last asking.
/// (On the line the first of two steps changes none.) A copy that takes the line
/// where it is noted equals it.
#[test]
fn the_lines_flag_is_exact() {
    let mut counts = [0; 2];
    for seed in 300..360 {
        let mut random = Random::new(seed);
        let mut c = Console::of([24, 36, 48][seed as usize % 3]);
        let mut copy = c.status_line.clone();
        let mut changed = false;
        c.more(b"\x1B[1$~\x1B[1$}");
        for byte in stream(seed, 3_000) {
            let before = c.status_line.clone();
            c.more(&[byte]);
            changed |= c.status_line != before;
            if random.percent(5) {
                let (_, noted) = c.ask_both();
                assert_eq!(noted, changed);
                if noted {
                    copy.clone_from(&c.status_line);
                }
                assert_eq!(copy, c.status_line);
                counts[noted as usize] += 1;
                changed = false;
            }
        }
    }
    println!("{counts:?}");
    assert!(counts.iter().all(|&count| count > 500), "{counts:?}");
}

/// Any words found in the cells, unused bits and all.
#[test]
fn any_word_is_accepted() {
    for seed in 200..230 {
        let mut random = Random::new(seed);
        let mut c = Console::new();
        c.page = any_words(&mut random, 80 * 24);
        c.status_line = any_words(&mut random, 80);
        for piece in stream(seed, 4_000).chunks(50) {
            c.more(piece);
        }
        assert_eq!(text(&c.page).iter().filter(|&&b| b == b'\n').count(), 24);
    }
}

/// The streams reach what they are for.
#[test]
fn streams_reach_the_edges() {
    let mut seen = [0usize; 53];
    for seed in 0..240 {
        let rows = [24, 36, 48][seed as usize % 3];
        let mut c = Console::of(rows);
        for byte in stream(seed, 3_000) {
            let before = c.state.clone();
            let page = c.page.clone();
            let status = c.status_line.clone();
            let replies = c.replies.len();
            c.more(&[byte]);
            let s = &c.state;
            let inner = s.top > 1 && s.bottom < s.rows;
            // ESC 8.
            let escape = Parser::Escape {
                intermediates: Vec::new(),
            };
            let restored = before.parser == escape && byte & 0x7F == b'8';
            let (had, has) = (before.shift.is_some(), s.shift.is_some());
            // The functions on rectangles, where they change a cell.
            let intermediate = match &before.parser {
                Parser::Control {
                    mark: None,
                    intermediates,
                    ..
                } if intermediates.len() == 1 => intermediates[0],
                _ => 0,
            };
            let last = byte & 0x7F;
            let changes = |wanted: u8| {
                byte >= 0x20 && (intermediate, last) == (b'$', wanted) && c.page != page
            };
            let restyles = changes(b'r') || changes(b't');
            // Colons: what is read of the parameters, at the end and before it.
            let read = |state: &State| match &state.parser {
                Parser::Control { text, .. } => text.clone(),
                _ => Vec::new(),
            };
            let places = |text: &[u8]| text.iter().filter(|b| **b == b':' || **b == b';').count();
            let colons = read(&before).contains(&b':') && s.parser == Parser::Ground;
            let ends = |wanted: &[u8]| colons && byte >= 0x40 && wanted.contains(&last);
            let facts = [
                s.cursor.wrap_due,
                before.cursor.wrap_due && !s.cursor.wrap_due && s.cursor.column == 2,
                s.cursor.wrap_due && s.cursor.row == s.rows,
                inner,
                inner && s.origin,
                inner && s.cursor.row < s.top,
                inner && s.cursor.row > s.bottom,
                s.insert,
                s.newline,
                s.protection,
                s.shift.is_some(),
                s.eight_bit_replies,
                s.saved.cursor.wrap_due && !s.autowrap,
                s.saved.origin,
                c.replies.len() > replies,
                s.changed.len() > 12,
                matches!(s.parser, Parser::ControlIgnored),
                matches!(s.parser, Parser::EscapeIgnored),
                matches!(s.parser, Parser::String),
                places(&read(s)) >= 16,
                s.saved.protection,
                s.saved.shift.is_some(),
                restored && !before.protection && s.protection,
                restored && before.protection && !s.protection,
                restored && !had && has,
                restored && had && !has,
                changes(b'z'),
                changes(b'{'),
                changes(b'x'),
                changes(b'v'),
                changes(b'r'),
                changes(b't'),
                s.extent != before.extent,
                restyles && s.extent == Extent::Stream,
                restyles && s.extent == Extent::Rectangle,
                ends(b"m"),
                ends(b"m") && s.rendition != before.rendition,
                ends(b"Hfr"),
                ends(b"hl"),
                ends(b"xzvt"),
                colons && before.of_active().cursor.wrap_due,
                // The status line.
                s.line.active,
                s.line.exists && !s.line.active,
                s.line.active != before.line.active,
                s.line.active && s.line.cursor.wrap_due,
                s.line.active && s.line.cursor.wrap_due && s.cursor.wrap_due,
                !s.line.active && s.line.cursor.wrap_due,
                before.line.cursor.wrap_due && s.line.cursor.column == 2,
                c.status_line != status,
                s.line.active && inner && s.origin,
                s.line.active && restored,
                s.line.active && c.replies.len() > replies,
                s.line.saved.cursor.column > 1,
            ];
            for (count, fact) in seen.iter_mut().zip(facts) {
                *count += fact as usize;
            }
        }
    }
    println!("{seen:?}");
    assert!(seen.iter().all(|&count| count > 200), "{seen:?}");
}
