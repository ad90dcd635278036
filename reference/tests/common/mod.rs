//! A page, its status line, their state and all replies, for the tests.
#![allow(dead_code)]

use reference::grammar::Random;
use reference::parser::{Event, Parameter};
use reference::*;

#[derive(Clone)]
pub struct Console {
    pub page: Vec<u16>,
    pub status_line: Vec<u16>,
    pub state: State,
    pub replies: Vec<u8>,
}

impl Console {
    pub fn of(rows: usize) -> Console {
        let mut page = vec![0xFFFF; 80 * rows];
        let mut status_line = vec![0xFFFF; 80];
        let (answer, state) = start(rows, &mut page, &mut status_line);
        assert_eq!(answer, 0);
        Console {
            page,
            status_line,
            state,
            replies: Vec::new(),
        }
    }

    pub fn new() -> Console {
        Console::of(24)
    }

    /// A fresh console of 24 rows that has been fed the bytes.
    pub fn fed(bytes: &[u8]) -> Console {
        Console::new().feed(bytes)
    }

    /// Feeds all the bytes.
    pub fn feed(mut self, bytes: &[u8]) -> Console {
        self.more(bytes);
        self
    }

    pub fn more(&mut self, bytes: &[u8]) {
        let mut reply = vec![0; 11 * bytes.len()];
        let Console {
            page, status_line, ..
        } = self;
        let (answer, read, replied, state) =
            feed(&self.state, page, status_line, bytes, &mut reply);
        assert_eq!((answer, read), (0, bytes.len()));
        assert!(is_whole(&state));
        self.replies.extend_from_slice(&reply[..replied]);
        self.state = state;
    }

    /// Feeds what the room allows; each reply byte is `held` before. The answer,
    /// how many bytes were read, and what was sent.
    pub fn feed_with(&mut self, bytes: &[u8], room: usize, held: u8) -> (u8, usize, Vec<u8>) {
        let mut reply = vec![held; room];
        let Console {
            page, status_line, ..
        } = self;
        let (answer, read, replied, state) =
            feed(&self.state, page, status_line, bytes, &mut reply);
        assert!(reply[replied..].iter().all(|&byte| byte == held));
        reply.truncate(replied);
        self.replies.extend_from_slice(&reply);
        self.state = state;
        (answer, read, reply)
    }

    /// The changed rows, and whether the line changed, which is then forgotten.
    pub fn ask_both(&mut self) -> (Vec<usize>, bool) {
        let (answer, rows, count, line_changed, state) = ask(&self.state);
        assert_eq!(answer, 0);
        assert_eq!(count, rows.len());
        assert!(state.changed.is_empty() && !state.line.changed);
        self.state = state;
        (rows, line_changed)
    }

    /// The changed rows, of a page whose line did not change.
    pub fn ask(&mut self) -> Vec<usize> {
        let (rows, line_changed) = self.ask_both();
        assert!(!line_changed);
        rows
    }

    pub fn word(&self, row: usize, column: usize) -> u16 {
        let (answer, word) = read_cell(&self.state, &self.page, row, column);
        assert_eq!(answer, 0);
        word
    }

    /// Row, column, wrap due.
    pub fn at(&self) -> (usize, usize, bool) {
        let cursor = self.state.cursor;
        (cursor.row, cursor.column, cursor.wrap_due)
    }

    /// Column and wrap due of the line's cursor.
    pub fn line_at(&self) -> (usize, bool) {
        let cursor = self.state.line.cursor;
        assert_eq!(cursor.row, 1);
        (cursor.column, cursor.wrap_due)
    }

    pub fn line(&self, row: usize) -> String {
        text_of(&self.page[80 * (row - 1)..80 * row])
    }

    pub fn status_text(&self) -> String {
        text_of(&self.status_line)
    }

    /// The lines of rows first to last.
    pub fn lines(&self, first: usize, last: usize) -> Vec<String> {
        (first..=last).map(|row| self.line(row)).collect()
    }

    pub fn blank_but(&self, rows: &[usize]) -> bool {
        (1..=self.state.rows)
            .filter(|row| !rows.contains(row))
            .all(|row| {
                self.page[80 * (row - 1)..80 * row]
                    .iter()
                    .all(|&w| w == 0x20)
            })
    }
}

/// The text of one row.
fn text_of(words: &[u16]) -> String {
    let lines = String::from_utf8(text(words)).unwrap();
    lines.trim_end_matches('\n').to_string()
}

/// Random words: every code, set and flag, and the unused bits too.
pub fn any_words(random: &mut Random, count: usize) -> Vec<u16> {
    (0..count).map(|_| random.next() as u16).collect()
}

/// The parameters of the control sequence that the last byte ends.
pub fn parameters(bytes: &[u8]) -> Vec<Parameter> {
    let mut parser = Parser::Ground;
    let mut event = Event::Nothing;
    for &byte in bytes {
        (parser, event) = parser.read(byte);
    }
    match event {
        Event::ControlSequence { parameters, .. } => parameters,
        other => panic!("{other:?}"),
    }
}
