//! The page must not leak to the modem: pairs of runs with the same feedings and
//! the same room, over other pages and lines and with other changed rows and
//! another flag of the line, and with other calls between. What a feeding answers,
//! reads and sends must be the same in both runs, and so must all fields after it.

use super::*;
use crate::state::State;

/// Signs, controls and sequences that read, move or write cells, and those that
/// save, restore and shift.
pub const CELL_FUNCTIONS: [&[u8]; 60] = [
    // Selective erase.
    b"\x9B?J",
    b"\x9B?1J",
    b"\x9B?2J",
    b"\x9B?K",
    b"\x9B?1K",
    b"\x9B?2K",
    b"\x9B3;39;8;80${",
    // Copies: of some cells, over themselves, of all of the page.
    b"\x9B3;39;8;80;1;2;2;1$v",
    b"\x9B3;38;8;79;;4;39$v",
    b"\x9B;;;;;2;2$v",
    // Attributes, in either extent; also where few cells change.
    b"\x9B3;39;8;80;1;7$r",
    b"\x9B;;;;;$r",
    b"\x9B2*x\x9B3;39;8;80;4$r",
    b"\x9B3;39;8;80;0$t",
    b"\x9B2*x\x9B;;;;1;5$t",
    b"\x9B3;39;8;80;22;24$r",
    b"\x9B;;;;1;1$t",
    // Rows and cells.
    b"\x9BL",
    b"\x9B2M",
    b"\x9B99L",
    b"\x9B3@",
    b"\x9B2P",
    // Scrolling, also by what is printed.
    b"\n",
    b"\x84",
    b"\x85",
    b"\x8D",
    b"\x9B99H\x84",
    b"\x9BH\x8D",
    b"q",
    b"\xF1q",
    b"\x9B4hqr",
    b"\x9B?7h\x9B80Cqr",
    b"\x1A",
    // Erase and fill.
    b"\x9BJ",
    b"\x9B1J",
    b"\x9B2J",
    b"\x9B1K",
    b"\x9B4X",
    b"\x9B3;39;8;80$z",
    b"\x9B113;3;39;8;80$x",
    // All of the page, and of the state.
    b"\x1B#8",
    b"\x1Bc",
    b"\x9B!p",
    // Saving and restoring; shifts.
    b"\x1B7",
    b"\x1B8",
    b"\x1B7\x9B9;9Hq\x1B8",
    b"\x8E",
    b"\x8Fq",
    // Moves, and what does nothing.
    b"\t",
    b"\x08",
    b"\x9B2A",
    b"\x9B3;5H",
    b"\x9B?6h",
    b"\x9B5;9r",
    b"\x00\x07\x7F\x9C",
    // To the line and back, and the line's end.
    b"\x9B1$~\x9B1$}q\x9B?2K",
    b"\x9B2$~\x9B1$}\x9B80Cqr\x1B7",
    b"\x9B1$}\x9B2@\x9B;;;;1;;2$v",
    b"\x9B0$}\x9B?K",
    b"\x9B0$~q",
];

/// What is fed before.
pub const CELL_SITUATIONS: [&[u8]; 15] = [
    b"\x9B7;40H",
    // Wrap due; in the last row, with a shift.
    b"\x9B?7h\x9B7;80Hz",
    b"\x9B?7h\x9B99;80Hz\x8E",
    // Margins with origin: at T, at B with wrap due.
    b"\x9B5;10r\x9B?6h\x9B1;40H",
    b"\x9B5;10r\x9B?6;7h\x9B6;80Hz",
    // Insert; at B with wrap due.
    b"\x9B4h\x9B7;40H",
    b"\x9B4h\x9B?7h\x9B5;10r\x9B10;80Hz",
    // Shifts.
    b"\x1B*0\x9B7;40H\x8E",
    b"\x1B/A\x9B7;79H\x8F",
    // Saved with wrap due, a shift and protection; with origin, the margins then
    // elsewhere.
    b"\x9B?7h\x9B9;80Hz\x8E\x9B1\"q\x1B7\x9B\"qz\x9B7;40H",
    b"\x9B5;10r\x9B?6h\x9B3;5H\x9B7m\x1B7\x9B?6l\x9B8;12r\x9B7;40H",
    // 8-bit replies, newline, the cursor hidden, one tab, protection, rendition.
    b"\x1B G\x9B20h\x9B?25l\x9B3g\x9B7;40H\x88\x9B1\"q\x9B1;4m",
    // On the line: with both wraps due; with margins, origin, insert and a shift.
    // On the page while the line has wrap due and something saved.
    b"\x9B?7h\x9B7;80Hz\x9B1$~\x9B1$}\x9B;80Hz",
    b"\x9B5;10r\x9B?6h\x9B3;5H\x9B4h\x9B2$~\x9B1$}\x9B;79H\x8E",
    b"\x9B?7h\x9B1$~\x9B1$}\x9B;80Hz\x1B7\x9B$}\x9B7;40H",
];

/// Do they agree in all but the changed rows and the line's flag?
pub fn agree(one: &State, other: &State) -> bool {
    let mut other = other.clone();
    other.changed = one.changed.clone();
    other.line.changed = one.line.changed;
    *one == other
}

/// Of these rows none, all, one, or about half.
pub fn any_rows(random: &mut Random, rows: usize) -> Vec<usize> {
    let one = random.between(1, rows);
    match random.below(5) {
        0 => Vec::new(),
        1 => (1..=rows).collect(),
        2 => vec![one],
        _ => (1..=rows).filter(|_| random.percent(50)).collect(),
    }
}

// ---- Pairs ------------------------------------------------------------------

/// The bit of a word that says that the cell is protected.
const PROTECTED: u16 = 1 << 13;

/// One of the two runs. Its commands are carried out as they are added.
struct Half {
    script: Script,
    machine: Machine,
    /// Each case begins on a blank page; else on the words that are there.
    blank: bool,
}

impl Half {
    fn new(blank: bool) -> Half {
        Half {
            script: Script::new(),
            machine: Machine::new(),
            blank,
        }
    }

    /// Adds commands; what they wrote.
    fn add(&mut self, build: impl FnOnce(&mut Script)) -> Vec<u8> {
        let mut added = Script::new();
        build(&mut added);
        let mut output = Vec::new();
        for command in commands(&added.bytes) {
            self.machine.carry_out(command, &mut output);
        }
        self.script.append(&added);
        output
    }

    /// The fresh state, with some changed rows and any flag of the line; a blank
    /// page and line, or those that are there with new words.
    fn begin(&mut self, rows: u16, random: &mut Random) {
        let blank = self.blank;
        self.add(|s| {
            if blank {
                s.start_right(rows);
            } else {
                // Refused: the state is fresh, of 24 rows, and the page is left.
                s.start(24, BUFFER_WORDS as u16);
                s.lend(rows * 80);
                s.field(ROWS, rows);
                s.field(BOTTOM, rows);
            }
            for row in any_rows(random, rows as usize) {
                s.field(CHANGED_ROW, row as u16);
            }
            s.field(LINE_CHANGED, random.below(2) as u16);
        });
        if !blank {
            self.new_words(random, 0);
        }
    }

    /// Some anywhere, and all about the cursors of page and line; these with the
    /// flag, or without it if that is 0.
    fn new_words(&mut self, random: &mut Random, flag: u16) {
        let cursor = self.machine.state().cursor;
        let line_column = self.machine.state().line.cursor.column as u16;
        let rows = self.machine.state().rows as u16;
        self.add(|s| {
            for _ in 0..rows {
                let place = random.below(rows as usize * 80);
                s.word(place as u16, random.next() as u16);
            }
            for row in near_rows(cursor.row as u16, rows) {
                for column in near(cursor.column as u16) {
                    let word = random.next() as u16 & !PROTECTED;
                    s.word_at(row, column, word | flag);
                }
            }
            for column in near(line_column) {
                let word = random.next() as u16 & !PROTECTED;
                s.line_word(column, word | flag);
            }
        });
    }
}

/// Two runs with the same feedings.
struct Pair {
    halves: [Half; 2],
    rows: u16,
    random: Random,
    cases: usize,
    /// The cases that ended with other pages and lines, with other changed rows,
    /// and with another flag of the line.
    other_pages: usize,
    other_lines: usize,
    other_rows: usize,
    other_flags: usize,
}

/// Each size with a blank page in the first half; then with random words in
/// both.
const PAIRS: usize = 6;

impl Pair {
    fn new(number: usize) -> Pair {
        let rows = SIZES[number % 3];
        let mut random = Random::new(number as u64);
        let halves = [number < 3, false].map(|blank| {
            let mut half = Half::new(blank);
            if !blank {
                half.add(|s| (0..rows * 80).for_each(|n| s.word(n, random.next() as u16)));
                half.add(|s| (1..=80).for_each(|n| s.line_word(n, random.next() as u16)));
            }
            half
        });
        Pair {
            halves,
            rows,
            random,
            cases: 0,
            other_pages: 0,
            other_lines: 0,
            other_rows: 0,
            other_flags: 0,
        }
    }

    fn pages_differ(&self) -> bool {
        let [one, other] = &self.halves;
        one.machine.page() != other.machine.page()
    }

    fn lines_differ(&self) -> bool {
        let [one, other] = &self.halves;
        one.machine.line() != other.machine.line()
    }

    /// From the fresh state on.
    fn case(&mut self, run: impl FnOnce(&mut Pair)) {
        for half in &mut self.halves {
            half.begin(self.rows, &mut self.random);
        }
        assert!(self.pages_differ() && self.lines_differ());
        run(self);
        self.cases += 1;
        self.other_pages += self.pages_differ() as usize;
        self.other_lines += self.lines_differ() as usize;
        let [one, other] = self.halves.each_ref().map(|half| half.machine.state());
        self.other_rows += (one.changed != other.changed) as usize;
        self.other_flags += (one.line.changed != other.line.changed) as usize;
        let whole_page = self.cases % 8 == 0;
        for half in &mut self.halves {
            half.add(|s| {
                s.ask();
                if whole_page {
                    s.page();
                    s.line();
                }
            });
        }
    }

    /// The same in both, and all else of the state: the answer, and how many bytes
    /// were read.
    fn feed(&mut self, bytes: &[u8], room: u16) -> (u8, usize) {
        let [one, other] = self.halves.each_mut().map(|half| {
            half.add(|s| {
                s.feed(bytes, room);
                s.view();
            })
        });
        assert_eq!(one, other, "fed {bytes:?} with room {room}");
        let [state, other_state] = self.halves.each_ref().map(|half| half.machine.state());
        assert!(agree(state, other_state), "fed {bytes:?} with room {room}");
        (one[1], u16::from_le_bytes([one[2], one[3]]) as usize)
    }

    /// All of the bytes. After answer 3 it goes on with the next room, at last
    /// with enough.
    fn feed_all(&mut self, bytes: &[u8], rooms: &[u16]) {
        let mut rest = bytes;
        for room in rooms.iter().copied().chain(std::iter::repeat(ROOM)) {
            let (answer, read) = self.feed(rest, room);
            assert!(matches!(answer, 0 | 3));
            self.calls_between();
            rest = &rest[read..];
            if answer == 0 {
                return;
            }
        }
    }

    /// Now and then an asking, a reading, a row or a refused feeding in one half
    /// only.
    fn calls_between(&mut self) {
        if self.random.percent(60) {
            return;
        }
        let half = &mut self.halves[self.random.below(2)];
        let rows = self.rows;
        let bottom = half.machine.state().bottom as u16;
        let row = self.random.between(0, rows as usize + 1) as u16;
        let column = self.random.pick(&[0, 1, 2, 40, 79, 80, 81]);
        let call = self.random.below(10);
        half.add(|s| match call {
            0..=2 => s.ask(),
            3..=5 => s.read(row, column),
            8 => s.row(row),
            9 => {
                s.lend_line(self.random.pick(&[0, 79, 81, 128]));
                s.feed(b"q\x9B6n", ROOM);
                s.lend_line(80);
            }
            6 => {
                s.lend(self.random.pick(&wrong_for(rows)));
                s.feed(b"q\x9B6n", ROOM);
                s.lend(rows * 80);
            }
            _ => {
                s.field(BOTTOM, 0);
                s.feed(b"q\x9B6n", ROOM);
                s.field(BOTTOM, bottom);
            }
        });
    }

    /// New words, those about the cursor protected in the second half only. A
    /// blank page is left, unless both are wanted.
    fn new_words(&mut self, both: bool) {
        for (half, flag) in self.halves.iter_mut().zip([0, PROTECTED]) {
            if both || !half.blank {
                half.new_words(&mut self.random, flag);
            }
        }
    }

    /// Both halves, one after the other.
    fn script(mut self) -> Script {
        assert!(self.pages_differ());
        assert!(self.other_pages * 10 > self.cases * 8);
        assert!(self.other_lines * 10 > self.cases * 8);
        assert!(self.other_rows * 10 > self.cases * 6);
        assert!(self.other_flags * 10 > self.cases * 2);
        let mut script = Script::new();
        for half in &mut self.halves {
            half.add(|s| {
                s.page();
                s.line();
            });
            script.append(&half.script);
        }
        script
    }
}

/// Lengths that are not this page's.
fn wrong_for(rows: u16) -> Vec<u16> {
    let mut list = LENGTHS.to_vec();
    list.retain(|&length| length != rows * 80);
    list
}

// ---- What is fed ------------------------------------------------------------

/// The captures, functions with queries, streams, and what is refused in both.
/// Panics if a feeding is not the same in both halves.
pub fn two_pages() -> Script {
    let mut s = Script::new();
    for number in 0..PAIRS {
        let mut pair = Pair::new(number);
        captures_twice(&mut pair, number);
        functions_twice(&mut pair, number);
        streams_twice(&mut pair, number);
        refusals_twice(&mut pair);
        s.append(&pair.script());
    }
    s
}

/// Each capture at once, byte by byte and in pieces, with one size each, in
/// turn; then every query.
fn captures_twice(pair: &mut Pair, number: usize) {
    for (n, (_, bytes)) in CAPTURES.iter().enumerate() {
        for (way, length) in [bytes.len(), 1, 7].into_iter().enumerate() {
            if (n + 2 * way) % PAIRS != number {
                continue;
            }
            pair.case(|pair| {
                for piece in bytes.chunks(length) {
                    let rooms = [pair.random.below(4) as u16];
                    pair.feed_all(piece, &rooms);
                }
                pair.feed_all(&QUERIES.concat(), &[30]);
            });
        }
    }
}

/// Each function in each situation, in one of the pairs with a blank page, in
/// turn: first over that page and another, then over words in both. At once
/// after it a query, in turn: first with enough room, then with too little.
fn functions_twice(pair: &mut Pair, number: usize) {
    for (f, function) in CELL_FUNCTIONS.iter().enumerate() {
        for (n, situation) in CELL_SITUATIONS.iter().enumerate() {
            if (f + n) % 3 != number {
                continue;
            }
            let then = |turn: usize| {
                let query = QUERIES[(f / 3 + n + turn) % QUERIES.len()];
                [*function, query].concat()
            };
            pair.case(|pair| {
                pair.feed(situation, 0);
                pair.new_words(false);
                pair.feed_all(&then(0), &[ROOM]);
                pair.new_words(true);
                let rooms = [3, 12].map(|most| pair.random.below(most) as u16);
                pair.feed_all(&then(4), &rooms);
            });
        }
    }
}

/// Streams from the grammar, cut anywhere, with any room.
fn streams_twice(pair: &mut Pair, number: usize) {
    for n in 0..8 {
        let bytes = stream((11_000 + n * PAIRS + number) as u64, 450);
        pair.case(|pair| {
            let mut rest = &bytes[..];
            while !rest.is_empty() {
                let length = pair.random.between(1, 40).min(rest.len());
                let (piece, after) = rest.split_at(length);
                let rooms = [13, 13].map(|most| pair.random.below(most) as u16);
                pair.feed_all(piece, &rooms);
                rest = after;
            }
        });
    }
}

/// Pages or lines of wrong lengths, another in each half; then states that are
/// not whole, over pages of any length.
fn refusals_twice(pair: &mut Pair) {
    let wrong = wrong_for(pair.rows);
    for n in 0..wrong.len() {
        pair.case(|pair| {
            let lengths = [wrong[n], wrong[(n + 7) % wrong.len()]];
            refused_twice(pair, lengths, |_| {}, 2);
            pair.feed_all(b"q\x9B6n", &[]);
        });
    }
    for n in 0..4 {
        let right = pair.rows * 80;
        let lines = [0, 79, 81, 128];
        pair.case(|pair| {
            for (half, turn) in pair.halves.iter_mut().zip([n, n + 1]) {
                half.add(|s| s.lend_line(lines[turn % 4]));
            }
            refused_twice(pair, [right, right], |_| {}, 2);
            for half in &mut pair.halves {
                half.add(|s| s.lend_line(80));
            }
            pair.feed_all(b"q\x9B6n\x9B1$~\x9B1$}q\x9B6n", &[]);
        });
    }
    let broken = [
        (ROWS, 25),
        (ROW, 0),
        (COLUMN, 81),
        (WRAP_DUE, 1),
        (TOP, pair.rows),
        (BOTTOM, 255),
        (SAVED_ROW, 0),
        (SAVED_WRAP_DUE, 1),
        (CHANGED_ROW, 64),
        (LINE_ACTIVE, 1),
        (LINE_COLUMN, 0),
        (LINE_WRAP_DUE, 1),
        (LINE_SAVED_COLUMN, 81),
        (LINE_SAVED_WRAP_DUE, 1),
    ];
    for (n, (field, value)) in broken.into_iter().enumerate() {
        let right = pair.rows * 80;
        for lengths in [[right, right], [right, wrong[n]]] {
            pair.case(|pair| refused_twice(pair, lengths, |s| s.field(field, value), 1));
        }
    }
}

/// Lent these lengths, with a state that is perhaps broken; then the right ones.
fn refused_twice(pair: &mut Pair, lengths: [u16; 2], spoil: impl Fn(&mut Script), answer: u8) {
    for (half, length) in pair.halves.iter_mut().zip(lengths) {
        half.add(|s| {
            s.lend(length);
            spoil(s);
        });
    }
    for bytes in [&b""[..], b"q\x9B6n"] {
        assert_eq!(pair.feed(bytes, ROOM), (answer, 0));
    }
    for half in &mut pair.halves {
        half.add(|s| s.lend(pair.rows * 80));
    }
}

#[cfg(test)]
mod tests {
    use super::*;

    #[test]
    fn this_part_is_not_too_long() {
        let part = two_pages();
        assert!(part.input < 200_000, "{}", part.input);
        assert!(part.commands < 400_000, "{}", part.commands);
    }

    /// How often replies are sent, and how often there is no room; both refusals.
    #[test]
    fn every_answer_is_met() {
        let mut machine = Machine::new();
        let mut output = Vec::new();
        let mut answers = [0usize; 4];
        let mut replies = 0;
        for command in commands(&two_pages().bytes) {
            output.clear();
            machine.carry_out(command, &mut output);
            if command.letter == b'F' {
                answers[output[1] as usize] += 1;
                replies += (output[4] > 0) as usize;
            }
        }
        println!("{answers:?} {replies}");
        assert!(answers.iter().all(|&count| count > 200), "{answers:?}");
        assert!(answers[3] > 2_000 && replies > 2_000);
    }

    /// Halves that differ in the cursor's column alone.
    #[test]
    #[should_panic(expected = "fed [155, 54, 110] with room 12")]
    fn a_difference_is_noticed() {
        let mut pair = Pair::new(0);
        pair.case(|pair| {
            pair.halves[0].add(|s| s.field(COLUMN, 2));
            pair.feed(b"\x9B6n", ROOM);
        });
    }
}
