//! Scripts of calls: building one, and carrying one out with this program's
//! calls. Another program that carries out the same script must write the same
//! output, byte for byte. The format is in README.md.

use crate::calls::{ask, feed, read_cell, row, start};
use crate::cell::Rendition;
use crate::page::COLUMNS;
use crate::parser::{Given, Parser};
use crate::state::{Extent, Sets, Shift, State};
use crate::text::text;

/// The words in the buffer; also the most reply bytes that a feeding is lent.
pub const BUFFER_WORDS: usize = 4_096;
pub const MOST_ROOM: usize = 4_096;

/// The words in the line's buffer.
pub const LINE_BUFFER_WORDS: usize = 128;

/// What every reply byte is before a feeding.
pub const UNTOUCHED: u8 = 0xEE;

/// The fields that `Script::field` names.
pub const ROWS: u16 = 0;
pub const ROW: u16 = 1;
pub const COLUMN: u16 = 2;
pub const WRAP_DUE: u16 = 3;
pub const TOP: u16 = 4;
pub const BOTTOM: u16 = 5;
pub const ORIGIN: u16 = 6;
pub const AUTOWRAP: u16 = 7;
pub const SAVED_ROW: u16 = 8;
pub const SAVED_COLUMN: u16 = 9;
pub const SAVED_WRAP_DUE: u16 = 10;
pub const SHOWN: u16 = 11;
pub const CHANGED_ROW: u16 = 12;
pub const LINE_EXISTS: u16 = 13;
pub const LINE_ACTIVE: u16 = 14;
pub const LINE_COLUMN: u16 = 15;
pub const LINE_WRAP_DUE: u16 = 16;
pub const LINE_SAVED_COLUMN: u16 = 17;
pub const LINE_SAVED_WRAP_DUE: u16 = 18;
pub const LINE_CHANGED: u16 = 19;

/// The bytes after the head of Q.
const PARSER_BYTES: usize = 37;

/// The bytes that V writes after its letter, and where some of them are.
pub const VIEW_BYTES: usize = 69;
pub const VIEW_ROW: usize = 1;
pub const VIEW_COLUMN: usize = 2;
pub const VIEW_WRAP_DUE: usize = 3;
pub const VIEW_TOP: usize = 4;
pub const VIEW_BOTTOM: usize = 5;
pub const VIEW_SHOWN: usize = 10;
pub const VIEW_TABS: usize = 41;
pub const VIEW_LINE: usize = 51;
pub const VIEW_LINE_ACTIVE: usize = 52;
pub const VIEW_LINE_COLUMN: usize = 53;
pub const VIEW_LINE_WRAP_DUE: usize = 54;

/// A script being built.
#[derive(Clone, Default)]
pub struct Script {
    pub bytes: Vec<u8>,
    pub commands: usize,
    /// The input bytes of all feedings.
    pub input: usize,
}

impl Script {
    pub fn new() -> Script {
        Script::default()
    }

    pub fn command(&mut self, letter: u8, a: u16, b: u16) {
        self.bytes.push(letter);
        self.bytes.extend_from_slice(&a.to_le_bytes());
        self.bytes.extend_from_slice(&b.to_le_bytes());
        self.commands += 1;
    }

    /// A start on a page of so many words.
    pub fn start(&mut self, rows: u16, words: u16) {
        self.command(b'S', rows, words);
    }

    /// A start on a page of the right length.
    pub fn start_right(&mut self, rows: u16) {
        self.start(rows, rows * COLUMNS as u16);
    }

    pub fn lend(&mut self, words: u16) {
        self.command(b'L', words, 0);
    }

    /// At most 65,535 bytes.
    pub fn feed(&mut self, input: &[u8], room: u16) {
        assert!(input.len() <= 0xFFFF && room as usize <= MOST_ROOM);
        self.command(b'F', input.len() as u16, room);
        self.bytes.extend_from_slice(input);
        self.input += input.len();
    }

    pub fn ask(&mut self) {
        self.command(b'A', 0, 0);
    }

    pub fn read(&mut self, row: u16, column: u16) {
        self.command(b'R', row, column);
    }

    pub fn page(&mut self) {
        self.command(b'P', 0, 0);
    }

    pub fn text(&mut self) {
        self.command(b'T', 0, 0);
    }

    pub fn lend_line(&mut self, words: u16) {
        self.command(b'M', words, 0);
    }

    /// The word in a column of the line, from 1.
    pub fn line_word(&mut self, column: u16, word: u16) {
        self.command(b'I', column - 1, word);
    }

    /// Every word of the line.
    pub fn line(&mut self) {
        self.command(b'D', 0, 0);
    }

    /// The call that hands back a row of what is active.
    pub fn row(&mut self, row: u16) {
        self.command(b'O', row, 0);
    }

    pub fn word(&mut self, number: u16, word: u16) {
        self.command(b'W', number, word);
    }

    /// The word at a row and column of the page, both from 1.
    pub fn word_at(&mut self, row: u16, column: u16, word: u16) {
        self.word((row - 1) * COLUMNS as u16 + (column - 1), word);
    }

    pub fn field(&mut self, field: u16, value: u16) {
        self.command(b'B', field, value);
    }

    /// The whole parser of the state.
    pub fn parser(&mut self, given: &Given) {
        self.command(b'Q', 0, 0);
        self.bytes.extend([given.phase, given.mark]);
        self.bytes.extend(given.intermediates);
        self.bytes.push(given.separators);
        for value in given.values {
            self.bytes.extend(value.to_le_bytes());
        }
    }

    /// Every field of the state but the parser and what is noted as changed.
    pub fn view(&mut self) {
        self.command(b'V', 0, 0);
    }

    pub fn append(&mut self, other: &Script) {
        self.bytes.extend_from_slice(&other.bytes);
        self.commands += other.commands;
        self.input += other.input;
    }
}

/// One command of a script.
#[derive(Clone, Copy, PartialEq, Eq, Debug)]
pub struct Command<'a> {
    pub letter: u8,
    pub a: u16,
    pub b: u16,
    /// What follows the head: a feeding's input, or a parser.
    pub following: &'a [u8],
}

/// The first command, and the script after it; none at the end of the script,
/// at another letter, or if what follows the head is cut short.
pub fn first_command(script: &[u8]) -> Option<(Command<'_>, &[u8])> {
    let (head, rest) = script.split_at_checked(5)?;
    let letter = head[0];
    let a = u16::from_le_bytes([head[1], head[2]]);
    let b = u16::from_le_bytes([head[3], head[4]]);
    let length = match letter {
        b'F' => a as usize,
        b'Q' => PARSER_BYTES,
        b'S' | b'L' | b'A' | b'R' | b'P' | b'T' | b'W' | b'B' | b'V' => 0,
        b'M' | b'I' | b'D' | b'O' => 0,
        _ => return None,
    };
    let (following, rest) = rest.split_at_checked(length)?;
    let command = Command {
        letter,
        a,
        b,
        following,
    };
    Some((command, rest))
}

/// The commands of a script, to its end.
pub fn commands(script: &[u8]) -> impl Iterator<Item = Command<'_>> {
    let mut rest = script;
    std::iter::from_fn(move || {
        let (command, after) = first_command(rest)?;
        rest = after;
        Some(command)
    })
}

/// The buffers of page and line, how much of each is lent, and the newest state.
pub struct Machine {
    buffer: Vec<u16>,
    lent: usize,
    line_buffer: Vec<u16>,
    line_lent: usize,
    state: State,
}

impl Default for Machine {
    fn default() -> Machine {
        Machine::new()
    }
}

impl Machine {
    pub fn new() -> Machine {
        let mut buffer = vec![0; BUFFER_WORDS];
        let mut line_buffer = vec![0; LINE_BUFFER_WORDS];
        // Refused: the buffer is no page of 24 rows.
        let (_, state) = start(24, &mut buffer, &mut line_buffer[..COLUMNS]);
        Machine {
            buffer,
            lent: 0,
            line_buffer,
            line_lent: COLUMNS,
            state,
        }
    }

    pub fn state(&self) -> &State {
        &self.state
    }

    /// The words that are lent.
    pub fn page(&self) -> &[u16] {
        &self.buffer[..self.lent]
    }

    /// The words of the line that are lent.
    pub fn line(&self) -> &[u16] {
        &self.line_buffer[..self.line_lent]
    }

    /// Carries out one command; what it writes is added to the output.
    pub fn carry_out(&mut self, command: Command, output: &mut Vec<u8>) {
        let Command { letter, a, b, .. } = command;
        match letter {
            b'S' => {
                self.lent = (b as usize).min(BUFFER_WORDS);
                let page = &mut self.buffer[..self.lent];
                let line = &mut self.line_buffer[..self.line_lent];
                let (answer, state) = start(a as usize, page, line);
                self.state = state;
                output.extend_from_slice(&[b'S', answer]);
            }
            b'L' => self.lent = (a as usize).min(BUFFER_WORDS),
            b'F' => {
                let mut reply = vec![UNTOUCHED; (b as usize).min(MOST_ROOM)];
                let page = &mut self.buffer[..self.lent];
                let line = &mut self.line_buffer[..self.line_lent];
                let (answer, read, replied, state) =
                    feed(&self.state, page, line, command.following, &mut reply);
                self.state = state;
                output.extend_from_slice(&[b'F', answer]);
                output.extend_from_slice(&(read as u16).to_le_bytes());
                output.extend_from_slice(&(replied as u16).to_le_bytes());
                output.extend_from_slice(&reply);
            }
            b'A' => {
                let (answer, rows, count, line_changed, state) = ask(&self.state);
                self.state = state;
                let mut set = [0u8; 8];
                for row in rows {
                    set[(row - 1) / 8] |= 1 << ((row - 1) % 8);
                }
                output.extend_from_slice(&[b'A', answer]);
                output.extend_from_slice(&set);
                output.extend_from_slice(&[count as u8, line_changed as u8]);
            }
            b'R' => {
                let (answer, word) = read_cell(&self.state, self.page(), a as usize, b as usize);
                output.extend_from_slice(&[b'R', answer]);
                output.extend_from_slice(&word.to_le_bytes());
            }
            b'P' => {
                output.push(b'P');
                write_words(self.page(), output);
            }
            b'M' => self.line_lent = (a as usize).min(LINE_BUFFER_WORDS),
            b'I' => {
                if let Some(word) = self.line_buffer.get_mut(a as usize) {
                    *word = b;
                }
            }
            b'D' => {
                output.push(b'D');
                write_words(self.line(), output);
            }
            b'O' => {
                let (answer, words) = row(&self.state, self.page(), self.line(), a as usize);
                output.extend_from_slice(&[b'O', answer, words.len() as u8]);
                write_words(words, output);
            }
            b'T' => {
                let whole_rows = self.lent / COLUMNS * COLUMNS;
                let lines = text(&self.buffer[..whole_rows]);
                output.push(b'T');
                output.extend_from_slice(&(lines.len() as u16).to_le_bytes());
                output.extend_from_slice(&lines);
            }
            b'W' => {
                if let Some(word) = self.buffer.get_mut(a as usize) {
                    *word = b;
                }
            }
            b'B' => self.set_field(a, b),
            b'Q' => {
                if let Some(given) = given_by(command.following) {
                    self.state.parser = Parser::Given(given);
                }
            }
            b'V' => {
                output.push(b'V');
                output.extend_from_slice(&view_of(&self.state));
            }
            _ => {}
        }
    }

    fn set_field(&mut self, field: u16, value: u16) {
        let state = &mut self.state;
        let number = (value % 256) as usize;
        let flag = number != 0;
        match field {
            ROWS => state.rows = number,
            ROW => state.cursor.row = number,
            COLUMN => state.cursor.column = number,
            WRAP_DUE => state.cursor.wrap_due = flag,
            TOP => state.top = number,
            BOTTOM => state.bottom = number,
            ORIGIN => state.origin = flag,
            AUTOWRAP => state.autowrap = flag,
            SAVED_ROW => state.saved.cursor.row = number,
            SAVED_COLUMN => state.saved.cursor.column = number,
            SAVED_WRAP_DUE => state.saved.cursor.wrap_due = flag,
            SHOWN => state.cursor_shown = flag,
            CHANGED_ROW => {
                state.changed.insert((value as usize + 63) % 64 + 1);
            }
            LINE_EXISTS => state.line.exists = flag,
            LINE_ACTIVE => state.line.active = flag,
            LINE_COLUMN => state.line.cursor.column = number,
            LINE_WRAP_DUE => state.line.cursor.wrap_due = flag,
            LINE_SAVED_COLUMN => state.line.saved.cursor.column = number,
            LINE_SAVED_WRAP_DUE => state.line.saved.cursor.wrap_due = flag,
            LINE_CHANGED => state.line.changed = flag,
            _ => {}
        }
    }
}

fn write_words(words: &[u16], output: &mut Vec<u8>) {
    for word in words {
        output.extend_from_slice(&word.to_le_bytes());
    }
}

/// The parser in the bytes after the head of Q.
fn given_by(bytes: &[u8]) -> Option<Given> {
    let (head, rest) = bytes.split_first_chunk::<5>()?;
    let mut values = [0; 16];
    for (value, pair) in values.iter_mut().zip(rest.chunks_exact(2)) {
        *value = u16::from_le_bytes([pair[0], pair[1]]);
    }
    Some(Given {
        phase: head[0] % 11,
        mark: head[1],
        intermediates: [head[2], head[3]],
        separators: head[4],
        values,
    })
}

/// The fields of a state as V writes them.
fn view_of(state: &State) -> [u8; VIEW_BYTES] {
    let rendition = |r: Rendition| [r.bold, r.underline, r.blink, r.reverse].map(u8::from);
    let sets = |s: Sets| {
        let [g0, g1, g2, g3] = [s.g0, s.g1, s.g2, s.g3].map(|set| set.number() as u8);
        [g0, g1, g2, g3, s.gl as u8, s.gr as u8]
    };
    let modes = [
        state.insert,
        state.newline,
        state.origin,
        state.autowrap,
        state.cursor_shown,
        state.eight_bit_replies,
    ];
    let shift = |pending: Option<Shift>| match pending {
        None => 0,
        Some(Shift::G2) => 1,
        Some(Shift::G3) => 2,
    };
    let saved = &state.saved;
    let line = &state.line;
    let mut bytes = Vec::new();
    bytes.push(state.rows as u8);
    bytes.extend([state.cursor.row as u8, state.cursor.column as u8]);
    bytes.push(state.cursor.wrap_due as u8);
    bytes.extend([state.top as u8, state.bottom as u8]);
    bytes.extend(modes.map(u8::from));
    bytes.push((state.extent == Extent::Rectangle) as u8);
    bytes.extend(rendition(state.rendition));
    bytes.push(state.protection as u8);
    bytes.extend(sets(state.sets));
    bytes.push(shift(state.shift));
    bytes.extend([saved.cursor.row as u8, saved.cursor.column as u8]);
    bytes.push(saved.cursor.wrap_due as u8);
    bytes.extend(rendition(saved.rendition));
    bytes.push(saved.origin as u8);
    bytes.extend(sets(saved.sets));
    bytes.push(saved.protection as u8);
    bytes.push(shift(saved.shift));
    for eight in state.tabs.chunks(8) {
        bytes.push((0..8).map(|n| (eight[n] as u8) << n).sum());
    }
    bytes.extend([line.exists as u8, line.active as u8]);
    bytes.extend([line.cursor.column as u8, line.cursor.wrap_due as u8]);
    bytes.push(line.saved.cursor.column as u8);
    bytes.push(line.saved.cursor.wrap_due as u8);
    bytes.extend(rendition(line.saved.rendition));
    bytes.extend(sets(line.saved.sets));
    bytes.push(line.saved.protection as u8);
    bytes.push(shift(line.saved.shift));
    let mut view = [0; VIEW_BYTES];
    view.copy_from_slice(&bytes);
    view
}

/// Carries out a script and returns what its commands wrote.
pub fn carry_out(script: &[u8]) -> Vec<u8> {
    let mut machine = Machine::new();
    let mut output = Vec::new();
    for command in commands(script) {
        machine.carry_out(command, &mut output);
    }
    output
}

#[cfg(test)]
mod tests {
    use super::*;

    fn answered(build: impl Fn(&mut Script)) -> Vec<u8> {
        let mut script = Script::new();
        build(&mut script);
        carry_out(&script.bytes)
    }

    #[test]
    fn before_the_first_start() {
        // No words are lent; the state is fresh with 24 rows.
        let output = answered(|s| {
            s.page();
            s.text();
            s.ask();
            s.read(1, 1);
            s.feed(b"x", 2);
            s.lend(1920);
            s.read(1, 1);
            s.read(25, 1);
            s.feed(b"x", 0);
            s.ask();
        });
        let expected: [&[u8]; 10] = [
            b"P",
            b"T\0\0",
            b"A\0\0\0\0\0\0\0\0\0\0\0",
            b"R\x02\x20\0",
            b"F\x02\0\0\0\0\xEE\xEE",
            b"",
            b"R\0\0\0",
            b"R\x04\x20\0",
            b"F\0\x01\0\0\0",
            b"A\0\x01\0\0\0\0\0\0\0\x01\0",
        ];
        assert_eq!(output, expected.concat());
    }

    #[test]
    fn a_refused_start_leaves_the_fresh_state_of_24_rows() {
        let output = answered(|s| {
            s.start_right(48);
            s.feed(b"x", 0);
            s.start(25, 2000);
            s.read(1, 1);
            s.lend(1920);
            s.read(1, 1);
            s.feed(b"\x1B[99;99H\x1B[6n", 8);
            s.ask();
            // R is all 16 bits.
            s.start(256 + 24, 1920);
            s.start(24, 5000);
            s.page();
        });
        let mut expected: Vec<u8> = [
            &b"S\0"[..],
            b"F\0\x01\0\0\0",
            b"S\x01",
            b"R\x02\x20\0",
            b"R\0x\0",
            b"F\0\x0C\0\x08\0\x1B[24;80R",
            b"A\0\0\0\0\0\0\0\0\0\0\0",
            b"S\x01",
            b"S\x02",
            b"P",
        ]
        .concat();
        expected.extend([b'x', 0]);
        expected.extend([0x20, 0].repeat(3839));
        expected.extend([0, 0].repeat(256));
        assert_eq!(output, expected);
    }

    #[test]
    fn fields_words_and_rows_are_as_the_format_says() {
        let output = answered(|s| {
            s.start_right(24);
            s.field(ROW, 256 + 3);
            s.field(COLUMN, 80);
            s.feed(b"\x1B[6n", 7);
            // Broken: wrap due without autowrap. What is no field is left.
            s.field(WRAP_DUE, 2);
            s.field(20, 1);
            s.field(65535, 1);
            s.feed(b"x", 1);
            s.ask();
            s.field(AUTOWRAP, 1);
            s.field(WRAP_DUE, 256);
            s.field(WRAP_DUE, 1);
            s.feed(b"x", 0);
            s.ask();
            // Row 64 is no row of the page.
            s.field(CHANGED_ROW, 1);
            s.field(CHANGED_ROW, 66);
            s.ask();
            s.field(CHANGED_ROW, 0);
            s.ask();
            // A word beyond the page, and one beyond the buffer.
            s.start_right(24);
            s.word(1920, 0xABCD);
            s.word(4095, 0x1234);
            s.word(4096, 0x4444);
            s.word_at(24, 80, 0xFFC1);
            s.read(24, 80);
            s.lend(2000);
            s.text();
            s.command(b'?', 0, 0);
            s.ask();
        });
        let mut expected: Vec<u8> = [
            &b"S\0"[..],
            b"F\0\x04\0\x07\0\x1B[3;80R",
            b"F\x01\0\0\0\0\xEE",
            b"A\x01\0\0\0\0\0\0\0\0\0\0",
            b"F\0\x01\0\0\0",
            b"A\0\x08\0\0\0\0\0\0\0\x01\0",
            b"A\0\x03\0\0\0\0\0\0\0\x02\0",
            b"A\x01\0\0\0\0\0\0\0\0\0\0",
            b"S\0",
            b"R\0\xC1\xFF",
        ]
        .concat();
        let lines = format!(
            "{}{}{}\n",
            "\n".repeat(23),
            " ".repeat(79),
            format!("\u{C1}\n\u{CD}{}", "?".repeat(79))
        );
        expected.push(b'T');
        expected.extend((lines.len() as u16).to_le_bytes());
        expected.extend(lines.into_bytes());
        assert_eq!(output, expected);
    }

    #[test]
    fn every_field_is_seen() {
        let output = answered(|s| {
            s.start_right(36);
            s.view();
            s.feed(b"\x1B[5;10r\x1B[?6;7h\x1B[4;20h\x1B[?25l\x1B G\x1B[1;5m", 0);
            s.feed(b"\x1B[2*x", 0);
            s.feed(
                b"\x1B[1\"q\x1B)0\x1B.A\x1B+B\x1Bo\x1B~\x1B[2;80Hx\x8E\x1B7",
                0,
            );
            s.feed(
                b"\x1B[4;7;22;25m\x1B[\"q\x1B(%5\x0E\x1B|\x8F\x1B[3g\x1BH",
                0,
            );
            s.view();
            s.field(SHOWN, 2);
            s.field(ROWS, 280);
            s.field(SAVED_ROW, 255);
            s.view();
        });
        let fresh = [
            &[36, 1, 1, 0, 1, 36, 0, 0, 0, 0, 1, 0, 0][..],
            &[0, 0, 0, 0, 0, 0, 0, 2, 2, 0, 2, 0],
            &[1, 1, 0, 0, 0, 0, 0, 0, 0, 0, 2, 2, 0, 2, 0, 0],
            &[0, 1, 1, 1, 1, 1, 1, 1, 1, 1],
            &[0, 0, 1, 0, 1, 0, 0, 0, 0, 0, 0, 0, 2, 2, 0, 2, 0, 0],
        ]
        .concat();
        let mut after = [
            &[36, 6, 80, 1, 5, 10, 1, 1, 1, 1, 0, 1, 1][..],
            &[0, 1, 0, 1, 0, 2, 1, 3, 0, 1, 3, 2],
            &[6, 80, 1, 1, 0, 1, 0, 1, 0, 1, 3, 0, 3, 1, 1, 1],
            &[0, 0, 0, 0, 0, 0, 0, 0, 0, 128],
            &[0, 0, 1, 0, 1, 0, 0, 0, 0, 0, 0, 0, 2, 2, 0, 2, 0, 0],
        ]
        .concat();
        let mut expected = [b"S\0V", &fresh[..]].concat();
        for length in [36, 5, 29, 30] {
            expected.extend([b'F', 0, length, 0, 0, 0]);
        }
        expected.push(b'V');
        expected.extend(&after);
        after[VIEW_SHOWN] = 1;
        after[0] = 24;
        after[25] = 255;
        expected.push(b'V');
        expected.extend(&after);
        assert_eq!(output, expected);
    }

    #[test]
    fn saved_protection_and_shift_are_seen() {
        for (before, fields) in [
            (&b""[..], [0, 0]),
            (b"\x8E", [0, 1]),
            (b"\x8F", [0, 2]),
            (b"\x1B[1\"q", [1, 0]),
            (b"\x1B[1\"q\x8F", [1, 2]),
        ] {
            let output = answered(|s| {
                s.start_right(24);
                s.feed(before, 0);
                // Saved; then neither.
                s.feed(b"\x1B7x\x1B[\"q", 0);
                s.view();
            });
            let view = &output[output.len() - VIEW_BYTES..];
            assert_eq!(view[VIEW_TABS - 2..VIEW_TABS], fields);
        }
    }

    #[test]
    fn the_line_is_as_the_format_says() {
        let output = answered(|s| {
            // Before the first start: 80 words of 0 are lent.
            s.line();
            s.start_right(24);
            s.line_word(1, 0xC041);
            s.command(b'I', 128, 0x1111);
            s.command(b'I', 65535, 0x1111);
            s.feed(b"\x1B[1$~\x1B[1$}\x1B[2Cx", 0);
            s.lend_line(3);
            s.line();
            // A wrong length: refused.
            s.row(1);
            s.feed(b"y", 1);
            s.start_right(24);
            s.read(1, 1);
            s.lend_line(500);
            s.line_word(128, 0x1234);
            s.line();
            s.lend_line(80);
            // The refused start left the fresh state: the page is active.
            s.row(0);
            s.row(24);
            s.row(25);
            s.ask();
        });
        let words =
            |list: &[u16]| -> Vec<u8> { list.iter().flat_map(|word| word.to_le_bytes()).collect() };
        let mut line = [0x20; 128];
        line[0] = 0xC041;
        line[2] = b'x' as u16;
        line[80..].fill(0);
        line[127] = 0x1234;
        let expected: [&[u8]; 17] = [
            b"D",
            &[0; 160],
            b"S\0",
            b"F\0\x0F\0\0\0",
            b"D",
            &words(&line[..3]),
            b"O\x02\0",
            b"F\x02\0\0\0\0\xEE",
            b"S\x02",
            b"R\0\x20\0",
            b"D",
            &words(&line),
            b"O\x04\0",
            b"O\0\x50",
            &words(&[0x20; 80]),
            b"O\x04\0",
            b"A\0\0\0\0\0\0\0\0\0\0\0",
        ];
        assert_eq!(output, expected.concat());
    }

    #[test]
    fn every_field_of_the_line_is_seen() {
        let output = answered(|s| {
            s.start_right(24);
            s.feed(b"\x1B[?7h\x1B[1$~\x1B[1$}\x1B[80Cx\x1B[1;7m", 0);
            s.feed(b"\x1B[1\"q\x1B)0\x1B.A\x1B+B\x1Bo\x1B~\x8F\x1B7", 0);
            s.view();
            s.ask();
            s.field(LINE_CHANGED, 256);
            s.ask();
            s.field(LINE_CHANGED, 2);
            s.ask();
            s.field(LINE_EXISTS, 0);
            s.field(LINE_CHANGED, 1);
            s.ask();
            s.field(LINE_ACTIVE, 0);
            s.field(LINE_COLUMN, 256 + 9);
            s.field(LINE_WRAP_DUE, 0);
            s.field(LINE_SAVED_COLUMN, 7);
            s.field(LINE_SAVED_WRAP_DUE, 0);
            s.view();
            s.ask();
        });
        let views: Vec<&[u8]> = output
            .windows(1 + VIEW_BYTES)
            .filter(|piece| piece[..2] == [b'V', 24])
            .map(|piece| &piece[1 + VIEW_LINE..])
            .collect();
        assert_eq!(
            views[0],
            [1, 1, 80, 1, 80, 1, 1, 0, 0, 1, 0, 1, 3, 0, 3, 1, 1, 2]
        );
        assert_eq!(
            views[1],
            [0, 0, 9, 0, 7, 0, 1, 0, 0, 1, 0, 1, 3, 0, 3, 1, 1, 2]
        );
        let askings: Vec<[u8; 2]> = output
            .windows(12)
            .filter(|piece| piece[0] == b'A' && piece[2..11] == [0; 9])
            .map(|piece| [piece[1], piece[11]])
            .collect();
        assert_eq!(askings, [[0, 1], [0, 0], [0, 1], [1, 0], [0, 1]]);
    }

    #[test]
    fn a_parser_is_set() {
        let mut values = [0; 16];
        values[..3].copy_from_slice(&[5, 7, 0x2710]);
        let given = Given {
            phase: 11 + 6,
            mark: 0,
            intermediates: [0xFF; 2],
            separators: 1,
            values,
        };
        let output = answered(|s| {
            s.start_right(24);
            s.parser(&given);
            s.feed(b"7H\x1B[6n", 8);
            s.parser(&Given { mark: 1, ..given });
            s.ask();
            s.feed(b"x", 1);
            s.parser(&Given { phase: 5, ..given });
            s.ask();
            // Its third value, 10,000, is none without the mark's top bit. With
            // that, it marks a place: H is ignored. One more is nothing.
            let three = Given {
                separators: 2,
                ..given
            };
            s.parser(&three);
            s.ask();
            s.parser(&Given {
                mark: 0x80,
                ..three
            });
            s.feed(b"H\x1B[6n", 8);
            let mut values = values;
            values[2] += 1;
            s.parser(&Given {
                mark: 0x80,
                values,
                ..three
            });
            s.ask();
            // With the top bit alone H is ignored too.
            s.parser(&Given {
                mark: 0x80,
                ..given
            });
            s.feed(b"H\x1B[6n", 8);
        });
        let expected: [&[u8]; 9] = [
            b"S\0",
            b"F\0\x06\0\x07\0\x1B[5;77R\xEE",
            b"A\x01\0\0\0\0\0\0\0\0\0\0",
            b"F\x01\0\0\0\0\xEE",
            b"A\0\0\0\0\0\0\0\0\0\0\0",
            b"A\x01\0\0\0\0\0\0\0\0\0\0",
            b"F\0\x05\0\x07\0\x1B[5;77R\xEE",
            b"A\x01\0\0\0\0\0\0\0\0\0\0",
            b"F\0\x05\0\x07\0\x1B[5;77R\xEE",
        ];
        assert_eq!(output, expected.concat());
    }
}
