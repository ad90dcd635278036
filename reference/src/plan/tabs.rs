//! The search for the next tab: from every column under many sets of tabs, in
//! situations, inside sequences, in rows of forty columns, and in given states.

use super::*;

/// About the edges of the row and of some eights.
const EDGES: [u16; 11] = [1, 7, 8, 9, 15, 16, 17, 72, 73, 79, 80];

const FRESH: [u16; 9] = [9, 17, 25, 33, 41, 49, 57, 65, 73];

/// There is a line, and it is active.
const ON_LINE: &[u8] = b"\x9B1$~\x9B1$}";

// ---- Sets of tabs -----------------------------------------------------------

fn to_column(column: u16) -> Vec<u8> {
    csi(&format!(";{column}H"))
}

/// Takes every tab away and sets these. In a fresh state the fresh ones are there
/// already.
fn tabs_at(columns: &[u16]) -> Vec<u8> {
    if columns == FRESH {
        return Vec::new();
    }
    let mut bytes = b"\x9B3g".to_vec();
    let mut last = 80;
    for &column in columns {
        match column == last + 1 {
            true => bytes.extend(b"\x9BC"),
            false => bytes.extend(to_column(column)),
        }
        bytes.push(0x88);
        last = column;
    }
    bytes
}

/// The columns of each eight.
fn eights() -> Vec<Vec<u16>> {
    let columns: Vec<u16> = (1..=80).collect();
    columns.chunks(8).map(|eight| eight.to_vec()).collect()
}

/// None, all, the fresh ones, one, all of one eight.
fn plain_sets() -> Vec<Vec<u16>> {
    let mut list = vec![vec![], (1..=80).collect(), FRESH.to_vec()];
    list.extend((1..=80).map(|column| vec![column]));
    list.extend(eights());
    list
}

/// Each two of one eight, with that eight's first column.
fn pairs() -> Vec<(u16, [u16; 2])> {
    let mut list = Vec::new();
    for first in (1..=80).step_by(8) {
        for one in first..first + 7 {
            for other in one + 1..first + 8 {
                list.push((first, [one, other]));
            }
        }
    }
    list
}

/// One tab in each of two eights, and any tabs, few and many.
fn mixed_sets() -> Vec<Vec<u16>> {
    let mut random = Random::new(6);
    let mut list = Vec::new();
    for one in 0..10 {
        for other in one + 1..10 {
            let mut any_of = |eight: u16| eight * 8 + random.between(1, 8) as u16;
            list.push(vec![any_of(one), any_of(other)]);
        }
    }
    for percent in [2, 5, 15, 50, 90] {
        for _ in 0..6 {
            list.push((1..=80).filter(|_| random.percent(percent)).collect());
        }
    }
    list
}

/// Those that are tried in every situation.
fn few_sets() -> Vec<Vec<u16>> {
    let some: [&[u16]; 9] = [
        &[],
        &[80],
        &[1],
        &[8],
        &[9],
        &[8, 9],
        &[16, 17],
        &[72, 73],
        &FRESH,
    ];
    let mut list: Vec<Vec<u16>> = some.map(|columns| columns.to_vec()).to_vec();
    list.push((1..=80).collect());
    list
}

fn every_second(first: u16) -> Vec<u16> {
    (first..=80).step_by(2).collect()
}

// ---- From every column ------------------------------------------------------

/// HT from every column under each set, alone in a call, with all fields after
/// it. With 36 and 48 rows every sixteenth set.
pub fn tab_searches() -> Script {
    let mut sets = plain_sets();
    sets.extend(pairs().iter().map(|(_, pair)| pair.to_vec()));
    sets.extend(mixed_sets());
    let mut s = Script::new();
    for rows in SIZES {
        let every = if rows == 24 { 1 } else { 16 };
        let first = rows as usize / 12 % every;
        for tabs in sets.iter().skip(first).step_by(every) {
            s.start_right(rows);
            s.feed(&tabs_at(tabs), 0);
            for column in 1..=80 {
                s.field(COLUMN, column);
                s.feed(b"\t", 0);
                s.view();
            }
            s.ask();
        }
    }
    s
}

/// The same in one call for each set, with a query after each HT; under two tabs
/// from the columns about their eight.
pub fn tab_searches_at_once() -> Script {
    let mut s = Script::new();
    for tabs in plain_sets() {
        searches_in_one_call(&mut s, &tabs, 1, 80);
    }
    for (first, tabs) in pairs() {
        searches_in_one_call(&mut s, &tabs, (first - 1).max(1), (first + 8).min(80));
    }
    s
}

fn searches_in_one_call(s: &mut Script, tabs: &[u16], first: u16, last: u16) {
    let mut bytes = tabs_at(tabs);
    for column in first..=last {
        bytes.extend(to_column(column));
        bytes.extend(b"\t\x9B6n");
    }
    s.start_right(24);
    // A reply has at most 7 bytes.
    s.feed(&bytes, 7 * 80);
    s.view();
}

// ---- In situations ----------------------------------------------------------

/// What is fed before the cursor is placed and after it.
struct Situation {
    on_line: bool,
    row: u16,
    /// A sign is printed before what is after, so wrap may be due in column 80.
    written: bool,
    before: &'static [u8],
    after: &'static [u8],
}

impl Situation {
    /// All of it, with the cursor in the column.
    fn with_cursor_in(&self, column: u16) -> Vec<u8> {
        let mut bytes = self.before.to_vec();
        if self.on_line {
            bytes.extend(ON_LINE);
        }
        let written = self.written && column > 1;
        let place = match written && column < 80 {
            true => column - 1,
            false => column,
        };
        bytes.extend(csi(&format!("{};{place}H", self.row)));
        if written {
            bytes.push(b'z');
        }
        bytes.extend(self.after);
        bytes
    }

    /// The cursor's row. With origin on, T is 5.
    fn cursor_row(&self) -> u16 {
        let origin = self.before.windows(2).any(|two| two == b"?6");
        match (self.on_line, origin) {
            (false, true) => self.row + 4,
            _ => self.row,
        }
    }
}

fn situations() -> Vec<Situation> {
    let mut list = on_the_page();
    list.extend(on_the_line());
    list
}

fn on_the_page() -> Vec<Situation> {
    let mut list = Vec::new();
    let mut add = |row, written, before, after| {
        list.push(Situation {
            on_line: false,
            row,
            written,
            before,
            after,
        });
    };
    // With and without autowrap; wrap due, also in the last row.
    add(7, false, b"", b"");
    add(7, true, b"", b"");
    add(7, false, b"\x9B?7h", b"");
    add(7, true, b"\x9B?7h", b"");
    add(24, true, b"\x9B?7h", b"");
    // Margins: at B, below, above; with origin.
    add(10, true, b"\x9B?7h\x9B5;10r", b"");
    add(12, true, b"\x9B?7h\x9B5;10r", b"");
    add(3, false, b"\x9B5;10r", b"");
    add(6, true, b"\x9B?7h\x9B5;10r\x9B?6h", b"");
    add(2, false, b"\x9B5;10r\x9B?6h", b"");
    // Insert, newline.
    add(7, false, b"\x9B4h", b"");
    add(7, true, b"\x9B4h\x9B?7h", b"");
    add(7, true, b"\x9B20h\x9B?7h", b"");
    // A shift pending.
    add(7, false, b"\x1B*0", b"\x8E");
    add(7, true, b"\x1B*0\x9B?7h", b"\x1BN");
    add(7, true, b"\x1B/A\x9B?7h", b"\x8F");
    // A saved cursor; with wrap due; autowrap then off.
    add(7, false, b"", b"\x1B7");
    add(7, true, b"\x9B?7h", b"\x1B7");
    add(7, true, b"\x9B?7h", b"\x1B7\x9B?7l");
    // Rendition and protection; 8-bit replies, the cursor hidden, the extent.
    add(7, true, b"\x9B?7h\x9B1;4;5;7m\x9B1\"q", b"");
    add(7, true, b"\x9B?7h\x1B G\x9B?25l\x9B2*x", b"");
    // Much of it together.
    add(
        6,
        true,
        b"\x9B5;10r\x9B?6;7h\x9B4;20h\x9B1;7m\x9B1\"q\x1B*0",
        b"\x1B7\x8E",
    );
    // Wrap due on the line, which is not active.
    add(7, true, b"\x9B?7h\x9B1$~\x9B1$}\x9B;80Hz\x9B0$}", b"");
    list
}

/// What is before is fed to the page.
fn on_the_line() -> Vec<Situation> {
    let mut list = Vec::new();
    let mut add = |written, before, after| {
        list.push(Situation {
            on_line: true,
            row: 1,
            written,
            before,
            after,
        });
    };
    // With and without autowrap; wrap due on the line, on both.
    add(false, b"", b"");
    add(true, b"", b"");
    add(true, b"\x9B?7h", b"");
    add(true, b"\x9B0$}\x9B?7h\x9B7;80Hz", b"");
    add(false, b"\x9B0$}\x9B?7h\x9B7;80Hz", b"");
    // Margins and origin on the page.
    add(true, b"\x9B0$}\x9B5;10r\x9B?6;7h\x9B6;80Hz", b"");
    // Insert, newline, shifts.
    add(true, b"\x9B4h\x9B?7h", b"");
    add(true, b"\x9B20h\x9B?7h", b"");
    add(false, b"\x1B*0", b"\x8E");
    add(true, b"\x1B/A\x9B?7h", b"\x8F");
    // Saved on the line, on the page too.
    add(false, b"", b"\x1B7");
    add(true, b"\x9B0$}\x9B?7h\x9B7;80Hz\x1B7", b"\x1B7");
    // Rendition and protection.
    add(true, b"\x9B?7h\x9B1;7m\x9B1\"q", b"");
    list
}

/// Each situation under each of the few sets, from the columns at the edges. With
/// 36 and 48 rows every twelfth of these.
pub fn tabs_in_situations() -> Script {
    let mut s = Script::new();
    for rows in SIZES {
        let mut number = 0usize;
        for situation in situations() {
            for tabs in few_sets() {
                number += 1;
                if rows != 24 && (number + rows as usize / 12) % 12 != 0 {
                    continue;
                }
                begin(&mut s, rows, &tabs);
                for column in EDGES {
                    search_in(&mut s, &situation, column);
                }
                s.page();
            }
        }
    }
    s
}

/// Words with flags and unused bits, and the tabs.
fn begin(s: &mut Script, rows: u16, tabs: &[u16]) {
    s.start_right(rows);
    for column in EDGES {
        s.word_at(7, column, word_of(7, column));
        s.line_word(column, word_of(column % 24 + 1, column));
    }
    s.feed(&tabs_at(tabs), 0);
}

/// HT in a call of its own, then signs, which show where it went and what became
/// of wrap due; then all in one call.
fn search_in(s: &mut Script, situation: &Situation, column: u16) {
    let placed = situation.with_cursor_in(column);
    let row = situation.cursor_row();
    s.feed(&placed, 0);
    s.view();
    s.ask();
    s.feed(b"\t", 0);
    s.view();
    s.ask();
    s.feed(b"q\xF1\x9B6n", ROOM);
    s.view();
    s.ask();
    s.row(row);
    s.feed(&[&placed, &b"\tq\xF1\x9B6n"[..]].concat(), ROOM);
    s.view();
    s.row(row);
    if situation.after.starts_with(b"\x1B7") {
        s.feed(b"\x1B8\tq", 0);
        s.view();
        s.row(row);
    }
}

// ---- Several in a row -------------------------------------------------------

fn put_cursor(s: &mut Script, on_line: bool, column: u16) {
    s.field(if on_line { LINE_COLUMN } else { COLUMN }, column);
}

/// Any number of HT in one call, from column 1 to the end and past it; two from
/// the columns at the edges, in one call and in two, and with others between.
pub fn tabs_in_a_row() -> Script {
    let ways: [&[&[u8]]; 6] = [
        &[b"\t\t"],
        &[b"\t", b"\t"],
        &[b"\t", b"", b"\tq"],
        &[b"\tq\tr\ts"],
        &[b"\t\x08\t"],
        &[b"\t\r\t\n\t"],
    ];
    let mut sets = few_sets();
    sets.extend([every_second(1), every_second(2)]);
    let mut s = Script::new();
    for on_line in [false, true] {
        for tabs in &sets {
            s.start_right(24);
            s.feed(&tabs_at(tabs), 0);
            if on_line {
                s.feed(ON_LINE, 0);
            }
            for count in 0..tabs.len() + 3 {
                put_cursor(&mut s, on_line, 1);
                s.feed(&b"\t".repeat(count), 0);
                s.view();
            }
            for column in EDGES {
                for pieces in ways {
                    put_cursor(&mut s, on_line, column);
                    feed_each(&mut s, pieces);
                }
            }
        }
    }
    s
}

// ---- In sequences and strings -----------------------------------------------

/// Sequences, strings, and what is only like a tab.
const SEQUENCES: [&[u8]; 36] = [
    b"\x1B[2;5H",
    b"\x9B5C",
    b"\x9B?7h",
    b"\x9B?7l",
    b"\x9B3g",
    b"\x9Bg",
    b"\x1BH",
    b"\x1B7",
    b"\x1B8",
    b"\x1Bc",
    b"\x9B!p",
    b"\x1B(0",
    b"\x1B#8",
    b"\x1B###8",
    b"\x9B1\"q",
    b"\x9B4:3;7m",
    b"\x9B1?5H",
    b"\x9B1!2C",
    b"\x9B6n",
    b"\x9B1$~\x9B1$}",
    b"\x9B0$}",
    b"\x1BI",
    b"\x89",
    b"\x9B2I",
    b"\x9BZ",
    b"\x9B0W",
    b"\x9B5W",
    b"\x9B?5W",
    b"\x1B]0;a\x1B\\",
    b"\x90a\x9C",
    b"\x98a\x18",
    b"\x9Ea\x1A",
    b"\x9Fa\x89",
    b"\x8E\x8F",
    b"\x18",
    b"\x88",
];

/// HT (twice, for other situations) and what is no HT at each place of each, at
/// once and byte by byte, in a situation, from a column and under a set in turn.
pub fn tabs_in_sequences() -> Script {
    let (situations, sets) = (situations(), few_sets());
    let mut s = Script::new();
    let mut number = 0usize;
    for tab in [&b"\t"[..], b"\t", b"\t\t", b"\x89", b"\x1BI"] {
        for sequence in SEQUENCES {
            for cut in 0..=sequence.len() {
                let bytes = [&sequence[..cut], tab, &sequence[cut..]].concat();
                let situation = &situations[number * 7 % situations.len()];
                let tabs = &sets[number * 3 % sets.len()];
                let column = EDGES[number % EDGES.len()];
                for length in [bytes.len(), 1] {
                    begin(&mut s, 24, tabs);
                    s.feed(&situation.with_cursor_in(column), 0);
                    s.ask();
                    for piece in bytes.chunks(length) {
                        s.feed(piece, ROOM);
                        s.view();
                    }
                    s.feed(b"q\xF1", 0);
                    s.view();
                    s.ask();
                    s.row(situation.cursor_row());
                }
                number += 1;
            }
        }
    }
    s
}

// ---- Tabs set and taken away ------------------------------------------------

const CHANGES: [&[u8]; 24] = [
    b"\x88",
    b"\x1BH",
    b"\x88\x88",
    b"\x9Bg",
    b"\x9B0g",
    b"\x9B3g",
    b"\x88\x9Bg",
    b"\x9B3g\x88",
    b"\x9B1g",
    b"\x9B2g",
    b"\x9B4g",
    b"\x9B5g",
    b"\x9B0;3g",
    b"\x9B3;0g",
    b"\x9B;3g",
    b"\x9B?3g",
    b"\x9B3 g",
    b"\x9B3:g",
    b"\x1Bc",
    b"\x9B!p",
    b"\x1B#8",
    b"\x1B7\x88\x1B8",
    b"\x9B2J",
    b"\x9B2;9r",
];

/// Each change with the cursor at the edges, on the page and on the line, in
/// column 80 with wrap due, under a set in turn; then HT from there, from one column
/// to the left, and on the page.
pub fn tabs_changed() -> Script {
    let sets = few_sets();
    let mut s = Script::new();
    let mut number = 0usize;
    for change in CHANGES {
        for column in EDGES {
            for on_line in [false, true] {
                let situation = Situation {
                    on_line,
                    row: 7,
                    written: true,
                    before: b"\x9B?7h",
                    after: b"",
                };
                s.start_right(SIZES[number % 3]);
                s.feed(&tabs_at(&sets[number * 3 % sets.len()]), 0);
                s.feed(&situation.with_cursor_in(column), 0);
                feed_each(&mut s, &[change, b"\t", b"q"]);
                let back = csi(&format!("7;{}H", column.max(2) - 1));
                feed_each(&mut s, &[&back, b"\t", b"\t", b"q", b"\x9B0$}\r\t"]);
                number += 1;
            }
        }
    }
    s
}

// ---- Rows of forty columns --------------------------------------------------

/// How a modem writes such rows.
struct Table {
    first_tab: u16,
    before: &'static [u8],
    /// At the end of a row.
    end: &'static [u8],
    /// HT before the first field, and after the last.
    leads: bool,
    trails: bool,
    /// Some fields are empty, longer, or have a rendition.
    mixed: bool,
}

const TABLES: [Table; 6] = [
    Table {
        first_tab: 1,
        before: b"",
        end: b"\r\n",
        leads: false,
        trails: false,
        mixed: false,
    },
    // The last field in column 80, with wrap due.
    Table {
        first_tab: 2,
        before: b"\x9B?7h",
        end: b"\r\n",
        leads: true,
        trails: false,
        mixed: false,
    },
    Table {
        first_tab: 2,
        before: b"\x9B?7h",
        end: b"\x85",
        leads: true,
        trails: true,
        mixed: true,
    },
    Table {
        first_tab: 1,
        before: b"\x9B20h\x9B4h",
        end: b"\n",
        leads: false,
        trails: true,
        mixed: true,
    },
    Table {
        first_tab: 2,
        before: b"\x9B?7h\x9B3;9r\x9B?6h",
        end: b"\r\n",
        leads: true,
        trails: false,
        mixed: true,
    },
    // On the line.
    Table {
        first_tab: 2,
        before: b"\x9B?7h\x9B1$~\x9B1$}",
        end: b"\r",
        leads: true,
        trails: false,
        mixed: true,
    },
];

impl Table {
    fn field(&self, row: usize, number: usize) -> Vec<u8> {
        let value = b"0123456789ABCDEF-.+*"[(row * 11 + number * number) % 20];
        match (row * 3 + number * 7) % 23 {
            0 if self.mixed => Vec::new(),
            1 if self.mixed => vec![value, value],
            2 if self.mixed => [b"\x9B7m", &[value][..], b"\x9Bm"].concat(),
            _ => vec![value],
        }
    }

    fn row(&self, row: usize) -> Vec<u8> {
        let fields: Vec<Vec<u8>> = (0..40).map(|number| self.field(row, number)).collect();
        let mut bytes = fields.join(&b"\t"[..]);
        if self.leads {
            bytes.insert(0, b'\t');
        }
        if self.trails {
            bytes.push(b'\t');
        }
        bytes.extend(self.end);
        bytes
    }

    /// More rows than the page has, then some of them with other values.
    fn bytes(&self, rows: usize) -> Vec<u8> {
        let mut bytes = tabs_at(&every_second(self.first_tab));
        bytes.extend(self.before);
        bytes.extend(b"\x9BH");
        for row in 0..rows + 4 {
            bytes.extend(self.row(row));
        }
        bytes.extend(b"\x9BH");
        for row in 0..5 {
            bytes.extend(self.row(row + 50));
        }
        bytes
    }
}

/// Each at once, in pieces and byte by byte; with 36 and 48 rows at once alone.
pub fn forty_columns() -> Script {
    let mut s = Script::new();
    for rows in SIZES {
        for table in &TABLES {
            let bytes = table.bytes(rows as usize);
            let lengths = [bytes.len(), 64, 7, 1];
            let ways = if rows == 24 { 4 } else { 1 };
            for &length in &lengths[..ways] {
                s.start_right(rows);
                for piece in bytes.chunks(length) {
                    s.feed(piece, 0);
                    s.view();
                    if length > 1 {
                        s.ask();
                    }
                }
                s.ask();
                s.text();
                s.page();
                s.line();
            }
        }
    }
    s
}

// ---- Given states -----------------------------------------------------------

/// One tab, or all of one eight, set in a state whose cursor is given; then the
/// cursor given in columns at the edges and about these tabs, on the page and on
/// the line, with wrap due and without, and in no column.
pub fn given_tabs() -> Script {
    let mut s = Script::new();
    for (number, tabs) in plain_sets().iter().skip(3).enumerate() {
        for on_line in [false, true] {
            s.start_right(SIZES[number % 3]);
            s.feed(b"\x9B3g", 0);
            s.field(LINE_EXISTS, on_line as u16);
            s.field(LINE_ACTIVE, on_line as u16);
            for &tab in tabs {
                put_cursor(&mut s, on_line, tab);
                s.feed(b"\x88", 0);
            }
            let about = near(tabs[0]).into_iter().chain(near(tabs[tabs.len() - 1]));
            for column in about.chain(EDGES) {
                put_cursor(&mut s, on_line, column);
                feed_each(&mut s, &[b"\t"]);
            }
            given_wrap_due(&mut s, number, on_line);
            for column in [0, 81, 255, 256 + tabs[0]] {
                put_cursor(&mut s, on_line, column);
                feed_each(&mut s, &[b"\t"]);
            }
        }
    }
    tabs_in_given_parsers(&mut s);
    s
}

/// On what is active, or on both.
fn given_wrap_due(s: &mut Script, number: usize, on_line: bool) {
    let both = number % 2 == 0;
    s.field(AUTOWRAP, 1);
    for (column, due, is_line) in [
        (COLUMN, WRAP_DUE, false),
        (LINE_COLUMN, LINE_WRAP_DUE, true),
    ] {
        if both || is_line == on_line {
            s.field(column, 80);
            s.field(due, 1);
        }
    }
    s.view();
    feed_each(s, &[b"\t", b"q", b"q", b"\t"]);
}

/// HT in each phase, and what the sequence then does. A number is begun in each
/// but right after CSI, where no byte that is read leaves one.
fn tabs_in_given_parsers(s: &mut Script) {
    for phase in 0..11 {
        for (number, tabs) in few_sets().iter().enumerate() {
            let mut given = IDLE;
            given.phase = phase;
            given.intermediates = [0x22, 0x22];
            given.values[0] = if phase == 5 { 0 } else { 3 };
            s.start_right(24);
            s.feed(&tabs_at(tabs), 0);
            s.field(COLUMN, EDGES[number]);
            s.parser(&given);
            feed_each(s, &[b"\t", b"g", b"\t\x18\t"]);
        }
    }
}

#[cfg(test)]
mod tests {
    use super::*;
    use crate::parser::Parser;
    use crate::state::State;
    use std::collections::HashSet;

    /// Every part together.
    fn parts() -> Vec<Script> {
        vec![
            tab_searches(),
            tab_searches_at_once(),
            tabs_in_situations(),
            tabs_in_a_row(),
            tabs_in_sequences(),
            tabs_changed(),
            forty_columns(),
            given_tabs(),
        ]
    }

    /// Goes through the parts, with the state before each feeding.
    fn each_feeding(mut look: impl FnMut(&State, &[u8])) {
        for part in parts() {
            let mut machine = Machine::new();
            let mut output = Vec::new();
            for command in commands(&part.bytes) {
                if command.letter == b'F' {
                    look(machine.state(), command.following);
                }
                output.clear();
                machine.carry_out(command, &mut output);
            }
        }
    }

    #[test]
    fn these_parts_are_not_too_long() {
        let list = parts();
        let sum = |count: fn(&Script) -> usize| -> usize { list.iter().map(count).sum() };
        for part in &list {
            println!("{} {} {}", part.commands, part.input, part.bytes.len());
        }
        let (commands, input) = (sum(|s| s.commands), sum(|s| s.input));
        assert!(commands < 400_000, "{commands}");
        assert!(input < 900_000, "{input}");
    }

    /// Every column under every set.
    #[test]
    fn every_search_is_met() {
        let mut seen = HashSet::new();
        each_feeding(|state, bytes| {
            let ground = state.parser == Parser::Ground && !state.line.active;
            if ground && bytes == b"\t" {
                seen.insert((state.tabs, state.cursor.column));
            }
        });
        let mut sets = plain_sets();
        sets.extend(pairs().iter().map(|(_, pair)| pair.to_vec()));
        assert_eq!(sets.len(), 3 + 80 + 10 + 280);
        for set in sets {
            let tabs: [bool; 80] = std::array::from_fn(|n| set.contains(&(n as u16 + 1)));
            for column in 1..=80 {
                assert!(seen.contains(&(tabs, column)), "{set:?} {column}");
            }
        }
    }

    /// What the parts meet where HT comes alone.
    #[test]
    fn every_mixture_is_met() {
        let mut seen = [0usize; 20];
        each_feeding(|before, bytes| {
            if bytes != b"\t" {
                return;
            }
            let line = &before.line;
            let on_page = !line.active;
            let inner = before.top > 1;
            let outside = before.cursor.row < before.top || before.cursor.row > before.bottom;
            let facts = [
                on_page && before.cursor.wrap_due,
                on_page && !before.autowrap && before.cursor.column == 80,
                line.active && line.cursor.wrap_due && before.cursor.wrap_due,
                line.active && line.cursor.wrap_due && !before.cursor.wrap_due,
                line.active && !line.cursor.wrap_due && before.cursor.wrap_due,
                line.active && !before.autowrap,
                on_page && line.cursor.wrap_due,
                inner && before.origin,
                inner && !before.origin,
                inner && outside,
                before.insert,
                before.newline,
                before.shift == Some(crate::state::Shift::G2),
                before.shift == Some(crate::state::Shift::G3),
                before.protection,
                before.saved.cursor.wrap_due,
                line.saved.cursor.column > 1,
                before.eight_bit_replies,
                before.rows > 24,
                before.parser != Parser::Ground,
            ];
            for (count, fact) in seen.iter_mut().zip(facts) {
                *count += fact as usize;
            }
        });
        println!("{seen:?}");
        assert!(seen.iter().all(|&count| count > 20), "{seen:?}");
    }

    /// The cursor is where a situation was asked to have it, with wrap due where a
    /// sign was printed in column 80 with autowrap on.
    #[test]
    fn situations_are_as_meant() {
        for situation in situations() {
            for column in EDGES {
                let mut script = Script::new();
                begin(&mut script, 24, &[]);
                script.feed(&situation.with_cursor_in(column), 0);
                let mut machine = Machine::new();
                for command in commands(&script.bytes) {
                    machine.carry_out(command, &mut Vec::new());
                }
                let state = machine.state();
                assert_eq!(state.line.active, situation.on_line);
                let cursor = state.of_active().cursor;
                let due = situation.written && column == 80 && state.autowrap;
                assert_eq!((cursor.column, cursor.wrap_due), (column as usize, due));
                assert_eq!(cursor.row, situation.cursor_row() as usize);
            }
        }
    }

    /// The fields of plain rows stand two columns apart, up to the last.
    #[test]
    fn forty_columns_are_met() {
        for (table, last) in TABLES[..2].iter().zip([79, 80]) {
            let bytes = [
                &tabs_at(&every_second(table.first_tab)),
                &b"\x9B?7h\x9B7H"[..],
                &table.row(3)[..],
            ]
            .concat();
            let mut script = Script::new();
            script.start_right(24);
            script.feed(&bytes, 0);
            let mut machine = Machine::new();
            for command in commands(&script.bytes) {
                machine.carry_out(command, &mut Vec::new());
            }
            let row = &machine.page()[6 * 80..7 * 80];
            let filled: Vec<usize> = (1..=80).filter(|&c| row[c - 1] != 0x20).collect();
            let expected: Vec<usize> = (last - 78..=last).step_by(2).collect();
            assert_eq!(filled, expected);
            assert_eq!(machine.state().cursor.row, 8);
        }
    }
}
