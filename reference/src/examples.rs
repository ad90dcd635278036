//! Examples as text: input, and what must be seen. The format is in
//! ../tests/examples/README.md. Each line becomes commands of a script, with
//! what they must write.

use crate::cell::BLANK_WORD;
use crate::script::*;
use crate::words::answer_in_words;

const ROWS_AT_FIRST: u16 = 24;
const ROOM: u16 = 64;

macro_rules! files {
    ($($name:literal),* $(,)?) => {
        [$(($name, include_str!(concat!("../../tests/examples/", $name, ".test")))),*]
    };
}

/// Every file in the directory of examples: its name without the ending, and
/// its text.
pub const FILES: [(&str, &str); 27] = files![
    "calls",
    "changed-rows",
    "colons",
    "controls",
    "cursor-shown",
    "erasing",
    "inserting",
    "leak",
    "margins",
    "origin",
    "parameters",
    "rectangles",
    "rendition",
    "replies",
    "resets",
    "right-edge",
    "saved-cursor",
    "scope",
    "scrolling",
    "sequences",
    "sets",
    "starting",
    "status-line",
    "strings",
    "substitute",
    "tabs",
    "wrap-due",
];

/// A command, and what it must write; none is any byte.
#[derive(Clone)]
struct Check {
    script: Script,
    expected: Vec<Option<u8>>,
}

/// A line of a file, as checks. The first line of an example begins with a
/// start, lent a status line of 80 words.
pub struct Line<'a> {
    pub number: usize,
    pub text: &'a str,
    checks: Vec<Check>,
}

enum Token {
    Word(String),
    Bytes(Vec<u8>),
}

/// All examples as one script.
pub fn script() -> Script {
    let mut script = Script::new();
    for (_, text) in FILES {
        for line in lines(text).unwrap_or_default() {
            for check in line.checks {
                script.append(&check.script);
            }
        }
    }
    script
}

/// Carries out all examples. The first line that is not met, or not understood.
pub fn fault() -> Option<String> {
    FILES
        .iter()
        .find_map(|(name, text)| Some(format!("tests/examples/{name}.test:{}", fault_in(text)?)))
}

/// The same of one file: the line's number, its text, and what was found.
pub fn fault_in(text: &str) -> Option<String> {
    let lines = match lines(text) {
        Ok(lines) => lines,
        Err(fault) => return Some(fault),
    };
    let mut machine = Machine::new();
    for line in lines {
        for check in line.checks {
            let mut output = Vec::new();
            for command in commands(&check.script.bytes) {
                machine.carry_out(command, &mut output);
            }
            if !is_met(&check.expected, &output) {
                let found = answer_in_words(&output, output.len());
                return Some(format!("{}: {}\n  found {found}", line.number, line.text));
            }
        }
    }
    None
}

fn is_met(expected: &[Option<u8>], found: &[u8]) -> bool {
    let same = |(e, f): (&Option<u8>, &u8)| e.map_or(true, |e| e == *f);
    expected.len() == found.len() && expected.iter().zip(found).all(same)
}

/// The lines of a file that are no comment and not empty.
pub fn lines(text: &str) -> Result<Vec<Line<'_>>, String> {
    let mut list = Vec::new();
    let (mut begun, mut explained) = (false, false);
    for (index, text) in text.lines().enumerate() {
        let number = index + 1;
        if text.is_empty() {
            (begun, explained) = (false, false);
        } else if text.starts_with('#') {
            explained = true;
        } else if !explained {
            return Err(format!("{number}: an example without a comment above it"));
        } else {
            let mut checks = checks_of(text).map_err(|fault| format!("{number}: {fault}"))?;
            if !begun {
                let fresh = start(ROWS_AT_FIRST, ROWS_AT_FIRST * 80, 0);
                checks.splice(0..0, [lend_line(80), fresh]);
            }
            begun = true;
            list.push(Line {
                number,
                text,
                checks,
            });
        }
    }
    Ok(list)
}

// ---- The commands -----------------------------------------------------------

fn checks_of(text: &str) -> Result<Vec<Check>, String> {
    let mut tokens = Tokens {
        rest: tokens_of(text)?,
    };
    let checks = match tokens.word()?.as_str() {
        "feed" => {
            let bytes = tokens.bytes()?;
            let room = tokens.number_after("room")?.unwrap_or(ROOM);
            let answer = tokens.number_after("answer")?.unwrap_or(0);
            let read = tokens.number_after("read")?.unwrap_or(bytes.len() as u16);
            let reply = match tokens.is_next("reply") {
                true => tokens.bytes()?,
                false => Vec::new(),
            };
            vec![feed(&bytes, room, answer, read, &reply)?]
        }
        "rows" => {
            let rows = tokens.numbers("row", 64)?;
            let line_changed = tokens.is_next("line");
            let answer = tokens.number_after("answer")?.unwrap_or(0);
            vec![ask(&rows, line_changed, answer)]
        }
        "text" => {
            let (row, column) = (tokens.number()?, tokens.number()?);
            let cells = tokens.codes()?.into_iter().zip(column..);
            cells
                .map(|(code, column)| read(row, column, 0, code))
                .collect()
        }
        "words" => {
            let (row, column) = (tokens.number()?, tokens.number()?);
            let cells = tokens.words()?.into_iter().zip(column..);
            cells
                .map(|(word, column)| read(row, column, 0, word))
                .collect()
        }
        "cursor" => {
            let (row, column) = (tokens.number()? as u8, tokens.number()? as u8);
            let wrap_due = tokens.is_next("wrap") as u8;
            let fields = [row, column, wrap_due];
            vec![view(&[VIEW_ROW, VIEW_COLUMN, VIEW_WRAP_DUE], &fields)]
        }
        "margins" => {
            let fields = [tokens.number()? as u8, tokens.number()? as u8];
            vec![view(&[VIEW_TOP, VIEW_BOTTOM], &fields)]
        }
        "tabs" => {
            let columns = tokens.numbers("column", 80)?;
            let mut flags = [0; 10];
            for column in columns {
                flags[(column as usize - 1) / 8] |= 1 << ((column - 1) % 8);
            }
            let places: Vec<usize> = (VIEW_TABS..VIEW_TABS + flags.len()).collect();
            vec![view(&places, &flags)]
        }
        "shown" => vec![view(&[VIEW_SHOWN], &[1])],
        "hidden" => vec![view(&[VIEW_SHOWN], &[0])],
        "put" => {
            let (row, column) = (tokens.number()?, tokens.number()?);
            if row == 0 || column == 0 {
                return Err("rows and columns count from 1".to_string());
            }
            let cells = tokens.words()?.into_iter().zip(column..);
            cells.map(|(word, column)| put(row, column, word)).collect()
        }
        "start" => {
            let rows = tokens.number()?;
            let lent = tokens.number_after("lent")?;
            let answer = tokens.number_after("answer")?.unwrap_or(0);
            vec![start(rows, lent.unwrap_or(rows.saturating_mul(80)), answer)]
        }
        "lent" => vec![lend(tokens.number()?)],
        "read" => {
            let (row, column) = (tokens.number()?, tokens.number()?);
            let answer = tokens.number_after("answer")?.unwrap_or(0);
            vec![read(row, column, answer, BLANK_WORD)]
        }
        "line" => {
            let column = tokens.column()?;
            vec![line(column, &tokens.codes()?)?]
        }
        "linewords" => {
            let column = tokens.column()?;
            vec![line(column, &tokens.words()?)?]
        }
        "linecursor" => {
            let fields = [tokens.number()? as u8, tokens.is_next("wrap") as u8];
            vec![view(&[VIEW_LINE_COLUMN, VIEW_LINE_WRAP_DUE], &fields)]
        }
        "type" => vec![view(&[VIEW_LINE], &[tokens.choice("none", "line")?])],
        "active" => vec![view(&[VIEW_LINE_ACTIVE], &[tokens.choice("page", "line")?])],
        "row" => {
            let number = tokens.number()?;
            match tokens.number_after("answer")? {
                Some(answer) => vec![no_row(number, answer)],
                None => vec![row(number, &tokens.codes()?)?],
            }
        }
        "putline" => {
            let column = tokens.column()?;
            let cells = tokens.words()?.into_iter().zip(column..);
            cells.map(|(word, column)| put_line(column, word)).collect()
        }
        "linelent" => vec![lend_line(tokens.number()?)],
        "set" => {
            let name = tokens.word()?;
            let field = FIELDS.iter().find(|(known, _)| *known == name);
            let (_, field) = field.ok_or(format!("no such field: {name}"))?;
            vec![set(*field, tokens.number()?)]
        }
        other => return Err(format!("no such command: {other}")),
    };
    match tokens.rest.is_empty() {
        true => Ok(checks),
        false => Err("more than the command takes".to_string()),
    }
}

/// The fields that `set` names.
const FIELDS: [(&str, u16); 6] = [
    ("autowrap", AUTOWRAP),
    ("type", LINE_EXISTS),
    ("active", LINE_ACTIVE),
    ("linecolumn", LINE_COLUMN),
    ("linewrap", LINE_WRAP_DUE),
    ("linesavedcolumn", LINE_SAVED_COLUMN),
];

fn check(build: impl FnOnce(&mut Script), expected: &[u8]) -> Check {
    let mut script = Script::new();
    build(&mut script);
    Check {
        script,
        expected: expected.iter().copied().map(Some).collect(),
    }
}

fn start(rows: u16, words: u16, answer: u16) -> Check {
    check(|s| s.start(rows, words), &[b'S', answer as u8])
}

fn lend(words: u16) -> Check {
    check(|s| s.lend(words), &[])
}

fn put(row: u16, column: u16, word: u16) -> Check {
    check(|s| s.word_at(row, column, word), &[])
}

fn read(row: u16, column: u16, answer: u16, word: u16) -> Check {
    let [low, high] = word.to_le_bytes();
    check(|s| s.read(row, column), &[b'R', answer as u8, low, high])
}

/// All of the reply buffer counts: what is past the reply is as it was.
fn feed(bytes: &[u8], room: u16, answer: u16, read: u16, reply: &[u8]) -> Result<Check, String> {
    let mut buffer = reply.to_vec();
    if buffer.len() > room as usize || room as usize > MOST_ROOM {
        return Err("a reply or room that is too long".to_string());
    }
    buffer.resize(room as usize, UNTOUCHED);
    let head = [b'F', answer as u8];
    let numbers = [read.to_le_bytes(), (reply.len() as u16).to_le_bytes()];
    let expected = [&head, &numbers.concat()[..], &buffer].concat();
    Ok(check(|s| s.feed(bytes, room), &expected))
}

fn ask(rows: &[u16], line_changed: bool, answer: u16) -> Check {
    let mut set = 0u64;
    for row in rows {
        set |= 1 << (row - 1);
    }
    let head = [b'A', answer as u8];
    let end = [rows.len() as u8, line_changed as u8];
    check(|s| s.ask(), &[&head[..], &set.to_le_bytes(), &end].concat())
}

fn lend_line(words: u16) -> Check {
    check(|s| s.lend_line(words), &[])
}

fn put_line(column: u16, word: u16) -> Check {
    check(|s| s.line_word(column, word), &[])
}

fn set(field: u16, value: u16) -> Check {
    check(|s| s.field(field, value), &[])
}

/// These words from a column of the line on, and any elsewhere.
fn line(column: u16, words: &[u16]) -> Result<Check, String> {
    let mut check = check(|s| s.line(), b"D");
    add_words(&mut check.expected, column, words)?;
    Ok(check)
}

/// A row that is handed back and begins with these words.
fn row(number: u16, words: &[u16]) -> Result<Check, String> {
    let mut check = check(|s| s.row(number), b"O\0\x50");
    add_words(&mut check.expected, 1, words)?;
    Ok(check)
}

fn no_row(number: u16, answer: u16) -> Check {
    check(|s| s.row(number), &[b'O', answer as u8, 0])
}

/// 80 words, of which these are known.
fn add_words(expected: &mut Vec<Option<u8>>, column: u16, words: &[u16]) -> Result<(), String> {
    let first = column as usize - 1;
    if first + words.len() > 80 {
        return Err("more than 80 columns".to_string());
    }
    let mut cells = [None; 80];
    for (cell, word) in cells[first..].iter_mut().zip(words) {
        *cell = Some(word);
    }
    for cell in cells {
        let bytes = cell.map(|word| word.to_le_bytes());
        expected.extend([bytes.map(|pair| pair[0]), bytes.map(|pair| pair[1])]);
    }
    Ok(())
}

fn view(places: &[usize], fields: &[u8]) -> Check {
    let mut check = check(|s| s.view(), &[b'V']);
    check.expected.resize(1 + VIEW_BYTES, None);
    for (place, field) in places.iter().zip(fields) {
        check.expected[1 + place] = Some(*field);
    }
    check
}

// ---- The parts of a line ----------------------------------------------------

struct Tokens {
    rest: Vec<Token>,
}

impl Tokens {
    fn next(&mut self) -> Result<Token, String> {
        match self.rest.is_empty() {
            true => Err("less than the command takes".to_string()),
            false => Ok(self.rest.remove(0)),
        }
    }

    fn word(&mut self) -> Result<String, String> {
        match self.next()? {
            Token::Word(word) => Ok(word),
            Token::Bytes(_) => Err("a string in another place".to_string()),
        }
    }

    fn bytes(&mut self) -> Result<Vec<u8>, String> {
        match self.next()? {
            Token::Bytes(bytes) => Ok(bytes),
            Token::Word(word) => Err(format!("no string: {word}")),
        }
    }

    fn number(&mut self) -> Result<u16, String> {
        let word = self.word()?;
        word.parse().map_err(|_| format!("no number: {word}"))
    }

    /// From 1.
    fn column(&mut self) -> Result<u16, String> {
        match self.number()? {
            0 => Err("rows and columns count from 1".to_string()),
            column => Ok(column),
        }
    }

    /// The codes in a string, as words with no flag.
    fn codes(&mut self) -> Result<Vec<u16>, String> {
        let codes = self.bytes()?;
        match codes.is_ascii() {
            true => Ok(codes.into_iter().map(u16::from).collect()),
            false => Err("a code above 7F".to_string()),
        }
    }

    /// One of two words: 0 or 1.
    fn choice(&mut self, first: &str, second: &str) -> Result<u8, String> {
        let word = self.word()?;
        match word {
            _ if word == first => Ok(0),
            _ if word == second => Ok(1),
            _ => Err(format!("neither {first} nor {second}: {word}")),
        }
    }

    /// Is this word next? Then it is taken.
    fn is_next(&mut self, name: &str) -> bool {
        let found = matches!(self.rest.first(), Some(Token::Word(word)) if word == name);
        if found {
            self.rest.remove(0);
        }
        found
    }

    fn number_after(&mut self, name: &str) -> Result<Option<u16>, String> {
        match self.is_next(name) {
            true => self.number().map(Some),
            false => Ok(None),
        }
    }

    /// Hexadecimal words, to the end of the line.
    fn words(&mut self) -> Result<Vec<u16>, String> {
        let mut list = Vec::new();
        while !self.rest.is_empty() {
            let word = self.word()?;
            let value = u16::from_str_radix(&word, 16);
            list.push(value.map_err(|_| format!("no word: {word}"))?);
        }
        Ok(list)
    }

    /// `none`, or numbers and ranges of them, rising, to the end of the line or
    /// the words that may follow them.
    fn numbers(&mut self, name: &str, most: u16) -> Result<Vec<u16>, String> {
        let mut list = Vec::new();
        if self.is_next("none") {
            return Ok(list);
        }
        let ends = |token: &Token| matches!(token, Token::Word(word) if word == "line" || word == "answer");
        while self.rest.first().is_some_and(|token| !ends(token)) {
            let word = self.word()?;
            let (first, last) = word.split_once('-').unwrap_or((&word, &word));
            let number = |word: &str| {
                let number = word.parse::<u16>();
                number.map_err(|_| format!("no {name}: {word}"))
            };
            list.extend(number(first)?..=number(last)?);
        }
        let rising = list.windows(2).all(|pair| pair[0] < pair[1]);
        match rising && !list.is_empty() && list.iter().all(|n| (1..=most).contains(n)) {
            true => Ok(list),
            false => Err(format!("no {name}s that rise from 1 to {most}")),
        }
    }
}

fn tokens_of(text: &str) -> Result<Vec<Token>, String> {
    let mut list = Vec::new();
    let mut rest = text.trim_start();
    while !rest.is_empty() {
        if let Some(after) = rest.strip_prefix('"') {
            let (bytes, after) = string_of(after)?;
            list.push(Token::Bytes(bytes));
            rest = after;
        } else {
            let end = rest.find(' ').unwrap_or(rest.len());
            list.push(Token::Word(rest[..end].to_string()));
            rest = &rest[end..];
        }
        rest = rest.trim_start();
    }
    Ok(list)
}

/// The bytes of a string, and what follows its closing quotation mark.
fn string_of(text: &str) -> Result<(Vec<u8>, &str), String> {
    let mut bytes = Vec::new();
    let mut signs = text.chars();
    loop {
        let sign = signs.next().ok_or("a string that is not closed")?;
        match sign {
            '"' => return Ok((bytes, signs.as_str())),
            '\\' => {
                let escaped = signs.next().ok_or("a string that is not closed")?;
                let byte = match escaped {
                    'e' => 0x1B,
                    'n' => 0x0A,
                    'r' => 0x0D,
                    't' => 0x09,
                    '\\' | '"' => escaped as u8,
                    'x' => {
                        let digits: String = signs.by_ref().take(2).collect();
                        let byte = u8::from_str_radix(&digits, 16);
                        byte.map_err(|_| format!("no byte: \\x{digits}"))?
                    }
                    _ => return Err(format!("no such escape: \\{escaped}")),
                };
                bytes.push(byte);
            }
            ' '..='~' => bytes.push(sign as u8),
            _ => return Err(format!("no ASCII sign: {sign}")),
        }
    }
}

#[cfg(test)]
mod tests {
    use super::*;

    fn fault(text: &str) -> String {
        fault_in(text).unwrap_or_default()
    }

    #[test]
    fn what_is_met() {
        let text = "# Each command.\n\
            feed \"\\e[?7h\\e[5;79Hab\" room 0\n\
            cursor 5 80 wrap\nmargins 1 24\nshown\nrows 5\nrows none\n\
            text 5 79 \"ab\"\ntabs 9 17 25 33 41 49 57 65 73\nput 6 1 C041 FFFF\nwords 6 1 C041 FFFF 0020\n\
            feed \"\\e[?25l\\x9B6n\" room 6 answer 3 read 8\nhidden\n\
            feed \"n\" room 7 reply \"\\e[5;80R\"\n\
            lent 80\nread 1 1 answer 2\nstart 36\nread 37 1 answer 4\n\
            start 25 answer 1\nstart 24 lent 9 answer 2\n\n\
            # The line.\nfeed \"\\e[2$~\"\ntype line\nactive page\nrow 24 \"  \"\nrow 25 answer 4\n\
            feed \"\\e[?7h\\e[1$}\\e[79Gab\\rok\\e[80Cx\"\nactive line\nlinecursor 80 wrap\n\
            line 1 \"ok\"\nline 80 \"x\"\nrow 1 \"ok\"\nrow 2 answer 4\nrows none line\nrows none\n\
            putline 2 C041\nlinewords 1 006F C041 0020\nlinelent 79\nrow 1 answer 2\nlinelent 80\n\
            set linecolumn 81\nrows none answer 1\nrow 1 answer 1\nlinelent 79\n\n\
            # Fresh again.\n\n# And more.\ncursor 1 1\n";
        assert_eq!(fault(text), "");
    }

    #[test]
    fn what_is_not_met_is_named() {
        for line in [
            "cursor 1 2",
            "cursor 1 1 wrap",
            "margins 1 23",
            "hidden",
            "rows 1",
            "rows none line",
            "rows none answer 1",
            "line 80 \"x\"",
            "linewords 1 0041",
            "linecursor 2",
            "linecursor 1 wrap",
            "type line",
            "active line",
            "row 1 \"a\"",
            "row 1 answer 4",
            "row 25 \"\"",
            "tabs none",
            "tabs 9 17 25 33 41 49 57 65",
            "text 1 1 \"a\"",
            "words 1 1 0220",
            "read 1 1 answer 4",
            "start 24 answer 2",
            "feed \"\\e[5n\" reply \"\\e[1n\"",
            "feed \"x\" read 0",
            "feed \"x\" answer 1",
        ] {
            let found = fault(&format!("# A comment.\nfeed \"\"\n{line}\n"));
            assert!(
                found.starts_with(&format!("3: {line}\n  found ")),
                "{found}"
            );
        }
    }

    #[test]
    fn what_is_not_understood_is_named() {
        for line in [
            "",
            "go",
            "cursor",
            "cursor 1",
            "cursor 1 x",
            "margins 1 24 3",
            "rows 3 2",
            "rows 65",
            "rows",
            "rows line",
            "line 0 \"a\"",
            "line 80 \"ab\"",
            "line 1 a",
            "linewords 81 0020",
            "type 1",
            "active both",
            "row",
            "row 1",
            "putline 0 0020",
            "set column 1",
            "tabs 81",
            "feed x",
            "feed \"x",
            "feed \"\\q\"",
            "feed \"\\x1\"",
            "feed \"é\"",
            "text 1 1 a",
            "words 1 1 12345",
            "feed \"\" room 1 reply \"ab\"",
        ] {
            let found = fault(&format!("# A comment.\n{line}\n"));
            assert_eq!(
                found.starts_with("2: "),
                !line.is_empty(),
                "{line}: {found}"
            );
        }
        assert!(fault("cursor 1 1\n").starts_with("1: "));
        assert!(fault("# One.\n\ncursor 1 1\n").starts_with("3: "));
    }
}
