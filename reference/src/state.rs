//! Everything between two calls but the page and the status line's cells.

use crate::cell::{Rendition, Set};
use crate::page::COLUMNS;
use crate::parser::Parser;
use std::collections::BTreeSet;

#[derive(Clone, Copy, PartialEq, Eq, Debug)]
pub struct Cursor {
    pub row: usize,
    pub column: usize,
    pub wrap_due: bool,
}

impl Cursor {
    pub const HOME: Cursor = Cursor {
        row: 1,
        column: 1,
        wrap_due: false,
    };
}

/// One of G0 to G3.
#[derive(Clone, Copy, PartialEq, Eq, Debug)]
pub enum Slot {
    G0,
    G1,
    G2,
    G3,
}

/// The sets in G0 to G3, and which of them are in GL and GR.
#[derive(Clone, Copy, PartialEq, Eq, Debug)]
pub struct Sets {
    pub g0: Set,
    pub g1: Set,
    pub g2: Set,
    pub g3: Set,
    pub gl: Slot,
    pub gr: Slot,
}

impl Sets {
    pub const FRESH: Sets = Sets {
        g0: Set::Ascii,
        g1: Set::Ascii,
        g2: Set::Supplemental,
        g3: Set::Supplemental,
        gl: Slot::G0,
        gr: Slot::G2,
    };

    pub fn in_slot(&self, slot: Slot) -> Set {
        match slot {
            Slot::G0 => self.g0,
            Slot::G1 => self.g1,
            Slot::G2 => self.g2,
            Slot::G3 => self.g3,
        }
    }

    pub fn designate(&mut self, slot: Slot, set: Set) {
        match slot {
            Slot::G0 => self.g0 = set,
            Slot::G1 => self.g1 = set,
            Slot::G2 => self.g2 = set,
            Slot::G3 => self.g3 = set,
        }
    }
}

/// What ESC 7 saves.
#[derive(Clone, Copy, PartialEq, Eq, Debug)]
pub struct Saved {
    pub cursor: Cursor,
    pub rendition: Rendition,
    pub origin: bool,
    pub sets: Sets,
    pub protection: bool,
    pub shift: Option<Shift>,
}

impl Saved {
    pub const FRESH: Saved = Saved {
        cursor: Cursor::HOME,
        rendition: Rendition::PLAIN,
        origin: false,
        sets: Sets::FRESH,
        protection: false,
        shift: None,
    };
}

/// The status line, but for its cells.
#[derive(Clone, Copy, PartialEq, Eq, Debug)]
pub struct Line {
    /// There is a line: type 1 or 2.
    pub exists: bool,
    /// Bytes act on the line, not on the page.
    pub active: bool,
    /// Its row is always 1.
    pub cursor: Cursor,
    /// Its row is always 1, and origin always off.
    pub saved: Saved,
    pub changed: bool,
}

impl Line {
    pub const FRESH: Line = Line {
        exists: false,
        active: false,
        cursor: Cursor::HOME,
        saved: Saved::FRESH,
        changed: false,
    };
}

/// A pending single shift.
#[derive(Clone, Copy, PartialEq, Eq, Debug)]
pub enum Shift {
    G2,
    G3,
}

/// The cells that the change and the reversal of attributes reach.
#[derive(Clone, Copy, PartialEq, Eq, Debug)]
pub enum Extent {
    /// From the first corner to the last in reading order.
    Stream,
    Rectangle,
}

#[derive(Clone, PartialEq, Debug)]
pub struct State {
    /// R.
    pub rows: usize,
    pub cursor: Cursor,
    /// T.
    pub top: usize,
    /// B.
    pub bottom: usize,
    /// The flag of column c is number c - 1.
    pub tabs: [bool; COLUMNS],
    pub insert: bool,
    pub newline: bool,
    pub origin: bool,
    pub autowrap: bool,
    pub cursor_shown: bool,
    pub eight_bit_replies: bool,
    pub extent: Extent,
    pub rendition: Rendition,
    pub protection: bool,
    pub sets: Sets,
    pub shift: Option<Shift>,
    pub saved: Saved,
    pub parser: Parser,
    /// The changed rows, from 1.
    pub changed: BTreeSet<usize>,
    pub line: Line,
}

impl State {
    pub fn fresh(rows: usize) -> State {
        let mut tabs = [false; COLUMNS];
        for column in [9, 17, 25, 33, 41, 49, 57, 65, 73] {
            tabs[column - 1] = true;
        }
        State {
            rows,
            cursor: Cursor::HOME,
            top: 1,
            bottom: rows,
            tabs,
            insert: false,
            newline: false,
            origin: false,
            autowrap: false,
            cursor_shown: true,
            eight_bit_replies: false,
            extent: Extent::Stream,
            rendition: Rendition::PLAIN,
            protection: false,
            sets: Sets::FRESH,
            shift: None,
            saved: Saved::FRESH,
            parser: Parser::Ground,
            changed: BTreeSet::new(),
            line: Line::FRESH,
        }
    }

    /// The state as bytes find it. With the line active it is that of a page of
    /// one row, with the line's cursor and saved cursor.
    pub fn of_active(&self) -> State {
        if !self.line.active {
            return self.clone();
        }
        State {
            rows: 1,
            cursor: self.line.cursor,
            top: 1,
            bottom: 1,
            origin: false,
            saved: self.line.saved,
            ..self.clone()
        }
    }

    /// This state, in which the line is active, once what `of_active` gives was
    /// changed so. The line takes its cursor and its saved cursor back, and the page
    /// has its own again; but autowrap off ends the page's wrap due too.
    pub fn after_line(&self, changed: State) -> State {
        let mut cursor = self.cursor;
        cursor.wrap_due &= changed.autowrap;
        State {
            rows: self.rows,
            cursor,
            top: self.top,
            bottom: self.bottom,
            origin: self.origin,
            saved: self.saved,
            line: Line {
                cursor: changed.cursor,
                saved: changed.saved,
                ..self.line
            },
            ..changed
        }
    }
}

pub fn is_row_count(rows: usize) -> bool {
    rows == 24 || rows == 36 || rows == 48
}

/// Is the state whole?
pub fn is_whole(state: &State) -> bool {
    let on_page = |cursor: &Cursor| {
        1 <= cursor.row
            && cursor.row <= state.rows
            && 1 <= cursor.column
            && cursor.column <= COLUMNS
    };
    let in_line = |cursor: &Cursor| 1 <= cursor.column && cursor.column <= COLUMNS;
    let may_wrap =
        |cursor: &Cursor| !cursor.wrap_due || (cursor.column == COLUMNS && state.autowrap);
    let may_have_wrapped = |saved: &Cursor| !saved.wrap_due || saved.column == COLUMNS;
    let cursor = &state.cursor;
    let saved = &state.saved.cursor;
    let line = &state.line;

    let rows = is_row_count(state.rows);
    let margins = 1 <= state.top && state.top < state.bottom && state.bottom <= state.rows;
    let origin = !state.origin || (state.top <= cursor.row && cursor.row <= state.bottom);
    let changed = state
        .changed
        .iter()
        .all(|&row| 1 <= row && row <= state.rows);

    let whole_page = rows
        && on_page(cursor)
        && margins
        && may_wrap(cursor)
        && origin
        && on_page(saved)
        && may_have_wrapped(saved)
        && changed;
    // Also where there is no line.
    let whole_line = in_line(&line.cursor)
        && may_wrap(&line.cursor)
        && in_line(&line.saved.cursor)
        && may_have_wrapped(&line.saved.cursor)
        && (!line.active || line.exists);

    whole_page && whole_line && state.parser.is_whole()
}
