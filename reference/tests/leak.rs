//! The page must not leak to the modem. Two whole states agree in all but the
//! changed rows and the line's flag, over any two pages and lines of the right
//! length. After the same input with the same room, the answer, the number of
//! bytes read, what is sent and all else of the state are equal.

mod common;
use common::{any_words, Console};
use reference::cell::{Rendition, Set};
use reference::grammar::{stream, Random};
use reference::parser::{MARKED, SUBPARAMETER};
use reference::plan::{agree, any_rows, listed, preparations};
use reference::plan::{CAPTURES, CELL_FUNCTIONS, CELL_SITUATIONS, QUERIES};
use reference::state::Shift;
use reference::*;
use std::collections::BTreeSet;

const SIZES: [usize; 3] = [24, 36, 48];

// ---- Pairs ------------------------------------------------------------------

/// Two consoles that are fed the same.
#[derive(Clone)]
struct Pair {
    one: Console,
    other: Console,
    /// How many feedings sent something, and how many were answered 3.
    replies: usize,
    no_room: usize,
}

impl Pair {
    /// The state with any changed rows and flag of the line, once over random
    /// words, and once over others or a blank page and line.
    fn new(random: &mut Random, state: &State, blank: bool) -> Pair {
        let mut console = |blank: bool| {
            let mut console = Console::of(state.rows);
            console.state = state.clone();
            console.state.changed = any_rows(random, state.rows).into_iter().collect();
            console.state.line.changed = random.percent(50);
            if !blank {
                console.page = any_words(random, 80 * state.rows);
                console.status_line = any_words(random, 80);
            }
            console
        };
        Pair {
            one: console(blank),
            other: console(false),
            replies: 0,
            no_room: 0,
        }
    }

    /// The same input with the same room. The reply buffers hold other bytes
    /// before.
    fn feed(&mut self, bytes: &[u8], room: usize) -> (u8, usize) {
        let one = self.one.feed_with(bytes, room, 0xEE);
        let other = self.other.feed_with(bytes, room, 0x11);
        assert_eq!(one, other, "{bytes:?} with room {room}");
        let (now, then) = (&self.one.state, &self.other.state);
        assert!(agree(now, then), "{bytes:?}: {now:?}\n{then:?}");
        let (answer, read, sent) = one;
        self.replies += !sent.is_empty() as usize;
        self.no_room += (answer == 3) as usize;
        (answer, read)
    }

    /// All of the bytes. After answer 3 it goes on with more room.
    fn feed_all(&mut self, bytes: &[u8], room: usize) {
        let mut rest = bytes;
        for room in (room..).step_by(3) {
            let (answer, read) = self.feed(rest, room);
            assert!(answer == 0 && read == rest.len() || answer == 3 && read < rest.len());
            rest = &rest[read..];
            if answer == 0 {
                return;
            }
        }
    }

    /// Other words in one of the pages and its line, and other changed rows and
    /// another flag: they may be anything before each feeding.
    fn change_words(&mut self, random: &mut Random) {
        for _ in 0..40 {
            let place = random.below(self.other.page.len());
            self.other.page[place] = random.next() as u16;
            let place = random.below(80);
            self.other.status_line[place] = random.next() as u16;
        }
        self.other.state.line.changed = random.percent(50);
        self.other.state.changed = any_rows(random, self.other.state.rows)
            .into_iter()
            .collect();
    }

    /// In pieces of random lengths, each with little room or none. Before one,
    /// now and then, a query, other words, or calls that the other does not have.
    fn feed_in_pieces(&mut self, random: &mut Random, bytes: &[u8]) {
        let mut rest = bytes;
        while !rest.is_empty() {
            match random.below(8) {
                0 | 1 => self.feed_all(random.pick(&QUERIES), random.between(0, 12)),
                2 => self.change_words(random),
                3 => call_between(random, &mut self.one),
                4 => call_between(random, &mut self.other),
                _ => {}
            }
            let (piece, after) = rest.split_at(random.between(1, 60).min(rest.len()));
            self.feed_all(piece, random.between(0, 12));
            rest = after;
        }
    }
}

/// An asking, a reading, a row or a refused call. A refused one may be given
/// anything, and what it returns with answer 1 is thrown away.
fn call_between(random: &mut Random, console: &mut Console) {
    let rows = console.state.rows;
    let mut broken = console.state.clone();
    broken.bottom = broken.top;
    let length = random.pick(&[0, 80, 80 * rows - 1, 80 * rows + 80]);
    let mut wrong = any_words(random, length);
    let mut wrong_line = any_words(random, length % 79);
    let mut reply = [0; 20];
    match random.below(10) {
        0..=2 => {
            console.ask_both();
        }
        8 => {
            let number = random.between(0, rows + 1);
            row(&console.state, &console.page, &console.status_line, number);
        }
        9 => {
            let page = &mut console.page;
            let fed = feed(
                &console.state,
                page,
                &mut wrong_line,
                b"q\x1B[6n",
                &mut reply,
            );
            assert_eq!(fed.0, 2);
            console.state = fed.3;
        }
        3 => {
            let (row, column) = (random.between(0, rows + 1), random.between(0, 81));
            read_cell(&console.state, &console.page, row, column);
        }
        4 => {
            let line = &mut console.status_line;
            let fed = feed(&console.state, &mut wrong, line, b"q\x1B[6n", &mut reply);
            assert_eq!(fed.0, 2);
            console.state = fed.3;
        }
        5 => {
            let Console {
                page, status_line, ..
            } = console;
            let fed = feed(&broken, page, status_line, b"\x1Bc\x1B[6n", &mut reply);
            assert_eq!(fed.0, 1);
        }
        6 => assert_eq!(ask(&broken).0, 1),
        _ => assert_eq!(start(rows, &mut wrong, &mut console.status_line).0, 2),
    }
}

/// What the pairs of a test met: that it was not for nothing.
#[derive(Default, Debug)]
struct Seen {
    pairs: usize,
    /// The pairs that ended with other pages and lines, with other changed rows,
    /// and with another flag of the line.
    other_pages: usize,
    other_lines: usize,
    other_rows: usize,
    other_flags: usize,
    replies: usize,
    no_room: usize,
}

impl Seen {
    fn add(&mut self, pair: &Pair) {
        let (one, other) = (&pair.one, &pair.other);
        assert_eq!(one.replies, other.replies);
        self.pairs += 1;
        self.other_pages += (one.page != other.page) as usize;
        self.other_lines += (one.status_line != other.status_line) as usize;
        self.other_rows += (one.state.changed != other.state.changed) as usize;
        self.other_flags += (one.state.line.changed != other.state.line.changed) as usize;
        self.replies += pair.replies;
        self.no_room += pair.no_room;
    }

    /// Most pairs still differ at the end, and there were so many replies and
    /// answers 3.
    fn assert_many(&self, replies: usize, no_room: usize) {
        println!("{self:?}");
        assert!(self.other_pages * 10 > self.pairs * 8, "{self:?}");
        assert!(self.other_lines * 10 > self.pairs * 8, "{self:?}");
        assert!(self.other_rows * 10 > self.pairs * 6, "{self:?}");
        assert!(self.other_flags * 10 > self.pairs * 2, "{self:?}");
        assert!(self.replies > replies && self.no_room > no_room, "{self:?}");
    }
}

// ---- What is fed ------------------------------------------------------------

/// At once, byte by byte and in pieces, with other words before each piece; then
/// every query.
#[test]
fn captures_do_not_leak() {
    let mut random = Random::new(1);
    let mut seen = Seen::default();
    for (_, bytes) in CAPTURES {
        for rows in SIZES {
            for blank in [true, false] {
                for length in [bytes.len(), 1, 7] {
                    let mut pair = Pair::new(&mut random, &State::fresh(rows), blank);
                    for piece in bytes.chunks(length) {
                        pair.change_words(&mut random);
                        pair.feed_all(piece, random.between(0, 12));
                    }
                    pair.feed_all(&QUERIES.concat(), 0);
                    seen.add(&pair);
                }
            }
        }
    }
    seen.assert_many(1_000, 1_000);
}

/// In pieces, with much between.
#[test]
fn streams_do_not_leak() {
    let mut seen = Seen::default();
    for seed in 0..300 {
        let mut random = Random::new(seed);
        let rows = SIZES[seed as usize % 3];
        let mut pair = Pair::new(&mut random, &State::fresh(rows), seed % 2 == 0);
        pair.feed_in_pieces(&mut random, &stream(seed, 1_000));
        seen.add(&pair);
    }
    seen.assert_many(2_000, 2_000);
}

/// Each function with each query at once after it, with each room, each in a
/// third of the situations, in turn.
#[test]
fn cells_that_are_read_or_moved_do_not_leak() {
    let mut random = Random::new(2);
    let mut seen = Seen::default();
    for (s, situation) in CELL_SITUATIONS.iter().enumerate() {
        let states = SIZES.map(|rows| Console::of(rows).feed(situation).state);
        for (f, function) in CELL_FUNCTIONS.iter().enumerate() {
            let state = &states[(f + s / 3) % 3];
            let before = Pair::new(&mut random, state, (f + s / 6) % 2 == 0);
            for (q, query) in QUERIES.iter().enumerate() {
                for room in (0..=13).filter(|room| (f + s + q + room) % 3 == 0) {
                    let mut pair = before.clone();
                    pair.feed_all(&[*function, query].concat(), room);
                    seen.add(&pair);
                }
            }
        }
    }
    seen.assert_many(10_000, 10_000);
}

/// In every situation of the plan every ninth, in turn; then a query.
#[test]
fn no_listed_function_leaks() {
    let mut random = Random::new(3);
    let mut seen = Seen::default();
    for rows in SIZES {
        let functions = listed(rows as u16);
        for (p, preparation) in preparations(rows as u16).iter().enumerate() {
            let state = Console::of(rows).feed(&preparation.bytes).state;
            let before = Pair::new(&mut random, &state, p % 2 == 0);
            let turn = (p + rows / 12) % 9;
            for (n, function) in functions.iter().enumerate().skip(turn).step_by(9) {
                let mut pair = before.clone();
                pair.feed_all(function, n % 12);
                pair.feed_all(QUERIES[(n / 9 + p / 9) % 9], n % 5);
                seen.add(&pair);
            }
        }
    }
    seen.assert_many(3_000, 3_000);
}

/// With each room: reading stops before the final of the same query, and with
/// more room never earlier.
#[test]
fn answer_3_comes_at_the_same_byte() {
    let mut random = Random::new(4);
    let mut input = Vec::new();
    let mut finals = BTreeSet::new();
    for (q, query) in QUERIES.iter().enumerate() {
        input.extend([CELL_FUNCTIONS[q * 5], query].concat());
        finals.insert(input.len() - 1);
    }
    for (s, situation) in CELL_SITUATIONS.iter().enumerate() {
        let state = Console::of(SIZES[s % 3]).feed(situation).state;
        let before = Pair::new(&mut random, &state, s % 2 == 0);
        let mut stops = Vec::new();
        for room in 0.. {
            let mut pair = before.clone();
            match pair.feed(&input, room) {
                (0, _) => break,
                (answer, read) => {
                    assert_eq!(answer, 3);
                    stops.push(read);
                }
            }
        }
        assert!(stops.is_sorted());
        assert_eq!(BTreeSet::from_iter(stops), finals);
    }
}

/// The same console twice: one is asked, read and refused much, the other only
/// fed.
#[test]
fn calls_between_do_not_show() {
    let (mut replies, mut no_room, mut other_rows) = (0, 0, 0);
    for seed in 0..60 {
        let mut random = Random::new(seed);
        let rows = SIZES[seed as usize % 3];
        let mut pair = Pair::new(&mut random, &State::fresh(rows), false);
        pair.other = pair.one.clone();
        for piece in stream(1_000 + seed, 400).chunks(25) {
            for _ in 0..random.between(1, 5) {
                call_between(&mut random, &mut pair.one);
            }
            let query = random.pick(&QUERIES);
            pair.feed_all(&[piece, query].concat(), random.between(0, 12));
            other_rows += (pair.one.state.changed != pair.other.state.changed) as usize;
        }
        assert_eq!(pair.one.page, pair.other.page);
        assert_eq!(pair.one.status_line, pair.other.status_line);
        assert_eq!(pair.one.replies, pair.other.replies);
        replies += pair.replies;
        no_room += pair.no_room;
    }
    println!("{replies} {no_room} {other_rows}");
    assert!(replies > 500 && no_room > 500 && other_rows > 500);
}

// ---- Any whole state --------------------------------------------------------

fn any_cursor(random: &mut Random, rows: usize) -> Cursor {
    let column = random.pick(&[1, 2, 40, 79, 80, 80]);
    Cursor {
        row: random.between(1, rows),
        column,
        wrap_due: column == 80 && random.percent(50),
    }
}

fn any_rendition(random: &mut Random) -> Rendition {
    Rendition {
        bold: random.percent(50),
        underline: random.percent(50),
        blink: random.percent(50),
        reverse: random.percent(50),
    }
}

fn any_sets(random: &mut Random) -> Sets {
    let all = [
        Set::Ascii,
        Set::SpecialGraphics,
        Set::Supplemental,
        Set::Latin1,
    ];
    let slots = [Slot::G0, Slot::G1, Slot::G2, Slot::G3];
    Sets {
        g0: random.pick(&all),
        g1: random.pick(&all),
        g2: random.pick(&all),
        g3: random.pick(&all),
        gl: random.pick(&slots),
        gr: random.pick(&slots),
    }
}

fn any_shift(random: &mut Random) -> Option<Shift> {
    random.pick(&[None, Some(Shift::G2), Some(Shift::G3)])
}

fn any_parser(random: &mut Random) -> Parser {
    let mark = random.pick(&[0, 0, 0x3E, 0x3F, SUBPARAMETER, SUBPARAMETER | 0x3F]);
    let values = [0, 1, 2, 4, 5, 6, 6, 7, 15, 25, 80, 9_999, MARKED];
    let most = if mark < SUBPARAMETER { 12 } else { 13 };
    Parser::Given(Given {
        phase: random.byte(0, 10),
        mark,
        intermediates: [random.pick(b"$*\"! ("), random.pick(b"$%")],
        separators: random.pick(&[0, 0, 0, 1, 3, 7, 15, 16]),
        values: std::array::from_fn(|_| values[random.below(most)]),
    })
}

/// The status line of a state, that there is no line too.
fn any_line(random: &mut Random) -> Line {
    let exists = random.percent(70);
    Line {
        exists,
        active: exists && random.percent(70),
        cursor: any_cursor(random, 1),
        saved: Saved {
            cursor: any_cursor(random, 1),
            rendition: any_rendition(random),
            origin: false,
            sets: any_sets(random),
            protection: random.percent(50),
            shift: any_shift(random),
        },
        changed: false,
    }
}

/// Any whole state; nothing is noted as changed.
fn any_state(random: &mut Random, rows: usize) -> State {
    let any = random.between(1, rows - 1);
    let (top, bottom) = random.pick(&[(1, rows), (5, 10), (any, rows), (1, any + 1)]);
    let state = State {
        rows,
        cursor: any_cursor(random, rows),
        top,
        bottom,
        tabs: std::array::from_fn(|_| random.percent(20)),
        insert: random.percent(50),
        newline: random.percent(50),
        origin: random.percent(50),
        autowrap: random.percent(50),
        cursor_shown: random.percent(50),
        eight_bit_replies: random.percent(50),
        extent: random.pick(&[Extent::Stream, Extent::Rectangle]),
        rendition: any_rendition(random),
        protection: random.percent(50),
        sets: any_sets(random),
        shift: any_shift(random),
        saved: Saved {
            cursor: any_cursor(random, rows),
            rendition: any_rendition(random),
            origin: random.percent(50),
            sets: any_sets(random),
            protection: random.percent(50),
            shift: any_shift(random),
        },
        parser: any_parser(random),
        changed: BTreeSet::new(),
        line: any_line(random),
    };
    match is_whole(&state) {
        true => state,
        false => any_state(random, rows),
    }
}

/// The rest of a sequence, a stream, a function and a query.
#[test]
fn no_whole_state_leaks() {
    let mut seen = Seen::default();
    for seed in 0..2_000 {
        let mut random = Random::new(seed);
        let state = any_state(&mut random, SIZES[seed as usize % 3]);
        let mut pair = Pair::new(&mut random, &state, seed % 2 == 0);
        let end: &[u8] = random.pick(&[
            b"n", b"c", b"m", b"H", b"J", b"K", b"v", b"r", b"t", b"{", b"8", b"$v", b"\n",
        ]);
        let function = random.pick(&CELL_FUNCTIONS);
        let query = random.pick(&QUERIES);
        pair.feed_all(end, random.below(4));
        pair.feed_in_pieces(&mut random, &stream(2_000 + seed, 50));
        pair.feed_all(&[function, query].concat(), random.below(12));
        seen.add(&pair);
    }
    seen.assert_many(2_000, 2_000);
}

// ---- Refused in both --------------------------------------------------------

/// Feeds both, which must refuse with this answer and leave everything.
fn refused(pair: &mut Pair, answer: u8) {
    let before = pair.clone();
    for (bytes, room) in [(&b""[..], 0), (b"q\x1B[6n", 0), (b"q\x1B[6n", 20)] {
        assert_eq!(pair.feed(bytes, room), (answer, 0));
    }
    for (now, then) in [(&pair.one, &before.one), (&pair.other, &before.other)] {
        assert_eq!(
            (&now.page, &now.status_line),
            (&then.page, &then.status_line)
        );
        assert_eq!(now.state, then.state);
        assert_eq!(now.replies, then.replies);
    }
}

/// Each spoils a state.
const SPOILS: [fn(&mut State); 22] = [
    |s| s.rows = 25,
    |s| s.rows = 0,
    |s| s.cursor.row = 0,
    |s| s.cursor.row = s.rows + 1,
    |s| s.cursor.column = 81,
    |s| (s.cursor.wrap_due, s.autowrap) = (true, false),
    |s| s.top = 0,
    |s| s.top = s.bottom,
    |s| s.bottom = s.rows + 1,
    |s| (s.origin, s.top, s.bottom, s.cursor.row) = (true, 5, 6, 4),
    |s| s.saved.cursor.row = 0,
    |s| s.saved.cursor.column = 81,
    |s| (s.saved.cursor.column, s.saved.cursor.wrap_due) = (79, true),
    |s| {
        s.parser = Parser::Escape {
            intermediates: vec![0x30],
        }
    },
    |s| {
        s.changed.insert(s.rows + 1);
    },
    |s| s.line.cursor.column = 0,
    |s| s.line.cursor.column = 81,
    |s| (s.line.cursor.wrap_due, s.line.cursor.column) = (true, 79),
    |s| (s.line.cursor.wrap_due, s.cursor.wrap_due, s.autowrap) = (true, false, false),
    |s| s.line.saved.cursor.column = 0,
    |s| (s.line.saved.cursor.column, s.line.saved.cursor.wrap_due) = (79, true),
    |s| (s.line.exists, s.line.active) = (false, true),
];

/// Pages and lines of wrong lengths, perhaps two; states that are not whole, over
/// pages and lines of any length.
#[test]
fn what_is_refused_in_both_is_alike() {
    let mut random = Random::new(5);
    for rows in SIZES {
        let lengths = [0, 80, 80 * rows - 1, 80 * rows + 1, 80 * rows + 80, 4_096];
        let state = any_state(&mut random, rows);
        let right = Pair::new(&mut random, &state, false);
        for one in lengths {
            for other in lengths {
                let mut pair = right.clone();
                pair.one.page = any_words(&mut random, one);
                pair.other.page = any_words(&mut random, other);
                refused(&mut pair, 2);
            }
        }
        for one in [0, 1, 79, 81, 128] {
            for other in [0, 79, 81, 160] {
                let mut pair = right.clone();
                pair.one.status_line = any_words(&mut random, one);
                pair.other.status_line = any_words(&mut random, other);
                refused(&mut pair, 2);
            }
        }
        for spoil in SPOILS {
            for blank in [true, false] {
                let mut pair = Pair::new(&mut random, &state, blank);
                spoil(&mut pair.one.state);
                spoil(&mut pair.other.state);
                refused(&mut pair, 1);
                let length = random.pick(&lengths);
                pair.other.page = any_words(&mut random, length);
                refused(&mut pair, 1);
                pair.one.status_line = any_words(&mut random, 79);
                refused(&mut pair, 1);
            }
        }
    }
}

// ---- The comparison itself --------------------------------------------------

/// Nothing but the changed rows and the line's flag may differ.
#[test]
fn another_state_is_noticed() {
    let state = State::fresh(24);
    let changes: [fn(&mut State); 26] = [
        |s| s.rows = 36,
        |s| s.cursor.row = 2,
        |s| s.cursor.column = 2,
        |s| s.cursor.wrap_due = true,
        |s| s.top = 2,
        |s| s.bottom = 23,
        |s| s.tabs[79] = true,
        |s| s.insert = true,
        |s| s.newline = true,
        |s| s.origin = true,
        |s| s.autowrap = true,
        |s| s.cursor_shown = false,
        |s| s.eight_bit_replies = true,
        |s| s.extent = Extent::Rectangle,
        |s| s.rendition.blink = true,
        |s| s.protection = true,
        |s| s.sets.g3 = Set::Ascii,
        |s| s.shift = Some(Shift::G3),
        |s| s.saved.protection = true,
        |s| s.parser = Parser::String,
        |s| s.line.exists = true,
        |s| s.line.active = true,
        |s| s.line.cursor.column = 2,
        |s| s.line.cursor.wrap_due = true,
        |s| s.line.saved.cursor.column = 2,
        |s| s.line.saved.shift = Some(Shift::G2),
    ];
    for change in changes {
        let mut other = state.clone();
        change(&mut other);
        assert!(!agree(&state, &other) && !agree(&other, &state));
    }
    let mut other = state.clone();
    other.changed.extend([1, 7]);
    other.line.changed = true;
    assert!(state != other && agree(&state, &other) && agree(&other, &state));
}

/// A pair that is not fed from the same state is refused.
#[test]
#[should_panic(expected = "with room 20")]
fn another_reply_is_noticed() {
    let mut pair = Pair::new(&mut Random::new(6), &State::fresh(24), true);
    pair.other.state.cursor.column = 2;
    pair.feed(b"\x1B[6n\x1Bc", 20);
}
