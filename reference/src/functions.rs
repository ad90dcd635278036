//! What signs, controls and sequences do, in steps.

use crate::cell::{Cell, Rendition, Set};
use crate::page::{Page, COLUMNS};
use crate::parser::{Event, Parameter};
use crate::reply;
use crate::state::{Cursor, Extent, Saved, Sets, Shift, Slot, State};

/// All that a step changes.
#[derive(Clone, PartialEq, Debug)]
pub struct Scene {
    pub state: State,
    pub page: Page,
    /// The status line, as a page of one row.
    pub line: Page,
}

/// What becomes of wrap due once a function is done.
enum Due {
    /// As it was before the function.
    Kept,
    Cleared,
    /// As the function itself left it.
    AsLeft,
}

/// One step: a whole new scene, in which every row is noted that has another
/// cell than before, and so is the line.
fn step_of_both(before: &Scene, change: impl FnOnce(&mut Scene)) -> Scene {
    let mut after = before.clone();
    change(&mut after);
    for row in 1..=before.state.rows {
        if after.page.row_differs(&before.page, row) {
            after.state.changed.insert(row);
        }
    }
    if after.line.row_differs(&before.line, 1) {
        after.state.line.changed = true;
    }
    after
}

/// One step on what is active. With the line active, the page that is changed is
/// the line.
fn step(before: &Scene, change: impl FnOnce(&mut Scene)) -> Scene {
    if !before.state.line.active {
        return step_of_both(before, change);
    }
    step_of_both(before, |scene| {
        let mut one_row = Scene {
            state: scene.state.of_active(),
            page: scene.line.clone(),
            line: scene.line.clone(),
        };
        change(&mut one_row);
        scene.state = scene.state.after_line(one_row.state);
        scene.line = one_row.page;
    })
}

/// One byte: the scene after its step or steps, and its reply.
pub fn take(before: &Scene, byte: u8) -> (Scene, Vec<u8>) {
    let (parser, event) = before.state.parser.read(byte);
    let event = without_subparameters(event);
    let reply = reply_to(&before.state.of_active(), &event);
    let after = match event {
        Event::Print(byte) => match sign(&before.state, byte) {
            // Ignored. (A byte is only printed with nothing in progress.)
            None => step(before, |_| {}),
            Some((code, set)) => {
                let cell = Cell::new(code, set, before.state.rendition, before.state.protection);
                let mut after = print(before, cell);
                after.state.shift = None;
                after
            }
        },
        Event::Substitute => {
            let state = &before.state;
            let cell = Cell::new(0x1A, Set::Ascii, state.rendition, state.protection);
            let mut after = print(before, cell);
            after.state.parser = parser;
            after
        }
        other if is_of_both(&other) => step_of_both(before, |scene| {
            scene.state.parser = parser;
            scene.change_both(&other);
        }),
        other => step(before, |scene| {
            scene.state.parser = parser;
            let was_due = scene.state.cursor.wrap_due;
            let due = match other {
                Event::Control(byte) => scene.control(byte),
                Event::HighControl(byte) => scene.high_control(byte),
                Event::Escape {
                    intermediates,
                    last,
                } => scene.escape(&intermediates, last),
                Event::ControlSequence {
                    mark,
                    parameters,
                    intermediates,
                    last,
                    ..
                } => scene.control_sequence(mark, &values(&parameters), &intermediates, last),
                _ => Due::Kept,
            };
            match due {
                Due::Kept => scene.state.cursor.wrap_due = was_due,
                Due::Cleared => scene.state.cursor.wrap_due = false,
                Due::AsLeft => {}
            }
        }),
    };
    (after, reply)
}

/// CSI m is left with the parameters that have no subparameters, perhaps none.
/// Any other control sequence that has subparameters is ignored.
fn without_subparameters(event: Event) -> Event {
    let Event::ControlSequence {
        mark,
        mut parameters,
        subparameters,
        intermediates,
        last,
    } = event
    else {
        return event;
    };
    let selects_rendition = mark.is_none() && intermediates.is_empty() && last == b'm';
    if selects_rendition {
        parameters.retain(|parameter| !parameter.has_subparameters);
    } else if subparameters {
        return Event::Nothing;
    }
    Event::ControlSequence {
        mark,
        parameters,
        subparameters: false,
        intermediates,
        last,
    }
}

/// Is this about page and line together, whichever of them is active? ESC c,
/// CSI ! p, CSI $ ~ and CSI $ }.
fn is_of_both(event: &Event) -> bool {
    match event {
        Event::Escape {
            intermediates,
            last,
        } => intermediates.is_empty() && *last == b'c',
        Event::ControlSequence {
            mark: None,
            intermediates,
            last,
            ..
        } => matches!(
            (&intermediates[..], last),
            (b"!", b'p') | (b"$", b'~' | b'}')
        ),
        _ => false,
    }
}

fn values(parameters: &[Parameter]) -> Vec<u32> {
    parameters.iter().map(|p| p.value).collect()
}

/// The code and set that a byte prints, or none if it is ignored.
fn sign(state: &State, byte: u8) -> Option<(u8, Set)> {
    match state.shift {
        Some(Shift::G2) if byte < 0x80 => sign_in(state.sets.g2, byte),
        Some(Shift::G3) if byte < 0x80 => sign_in(state.sets.g3, byte),
        _ => unshifted_sign(state, byte),
    }
}

/// The same through GL or GR, whatever shift is pending.
pub(crate) fn unshifted_sign(state: &State, byte: u8) -> Option<(u8, Set)> {
    let slot = match byte {
        0x20..=0x7F => state.sets.gl,
        0xA0..=0xFF => state.sets.gr,
        _ => return None,
    };
    sign_in(state.sets.in_slot(slot), byte)
}

fn sign_in(set: Set, byte: u8) -> Option<(u8, Set)> {
    let code = byte & 0x7F;
    if set.has_96() {
        return Some((code, set));
    }
    match byte {
        0x20 => Some((0x20, Set::Ascii)),
        0x7F | 0xA0 | 0xFF => None,
        _ => Some((code, set)),
    }
}

/// The printing rule: one step, or two with wrap due.
fn print(before: &Scene, cell: Cell) -> Scene {
    if before.state.of_active().cursor.wrap_due {
        let moved = step(before, |scene| {
            scene.state.cursor.column = 1;
            scene.index();
            scene.state.cursor.wrap_due = false;
        });
        step(&moved, |scene| scene.put(cell))
    } else {
        step(before, |scene| scene.put(cell))
    }
}

/// The reply that an event calls for, often none.
fn reply_to(state: &State, event: &Event) -> Vec<u8> {
    match event {
        Event::HighControl(0x9A) => reply::primary_attributes(state),
        Event::ControlSequence {
            mark,
            parameters,
            intermediates,
            last,
            ..
        } if intermediates.is_empty() => match (mark, last, values(parameters).first()) {
            (None, b'c', Some(0)) => reply::primary_attributes(state),
            (Some(b'>'), b'c', Some(0)) => reply::secondary_attributes(state),
            (None, b'n', Some(5)) => reply::in_order(state),
            (None, b'n', Some(6)) => reply::position(state),
            (Some(b'?'), b'n', Some(6)) => reply::extended_position(state),
            (Some(b'?'), b'n', Some(15)) => reply::no_printer(state),
            _ => Vec::new(),
        },
        _ => Vec::new(),
    }
}

impl Scene {
    // ---- Page and line together ---------------------------------------------

    /// Each says itself what becomes of wrap due.
    fn change_both(&mut self, event: &Event) {
        match event {
            Event::ControlSequence {
                parameters, last, ..
            } => match (last, parameters[0].value) {
                (b'p', _) => self.soft_reset(),
                (b'~', value) => self.select_line_type(value),
                (_, value) => self.select_active(value),
            },
            _ => self.reset(),
        }
    }

    /// ESC c: what was noted as changed stays noted.
    fn reset(&mut self) {
        let State {
            rows,
            changed,
            line,
            ..
        } = self.state.clone();
        self.state = State::fresh(rows);
        self.state.changed = changed;
        self.state.line.changed = line.changed;
        self.page.fill(Cell::BLANK);
        self.line.fill(Cell::BLANK);
    }

    /// CSI ! p.
    fn soft_reset(&mut self) {
        let state = &mut self.state;
        state.insert = false;
        state.origin = false;
        state.autowrap = false;
        state.cursor_shown = true;
        state.top = 1;
        state.bottom = state.rows;
        state.sets = Sets::FRESH;
        state.rendition = Rendition::PLAIN;
        state.protection = false;
        state.shift = None;
        state.cursor.wrap_due = false;
        state.saved = Saved::FRESH;
        state.line.active = false;
        state.line.cursor.wrap_due = false;
        state.line.saved = Saved::FRESH;
    }

    /// CSI $ ~: wrap due stays.
    fn select_line_type(&mut self, value: u32) {
        let line = &mut self.state.line;
        match value {
            0 => (line.exists, line.active) = (false, false),
            1 | 2 => line.exists = true,
            _ => {}
        }
    }

    /// CSI $ }: wrap due stays.
    fn select_active(&mut self, value: u32) {
        let line = &mut self.state.line;
        match value {
            0 => line.active = false,
            1 if line.exists => line.active = true,
            _ => {}
        }
    }

    // ---- Moves and printing -------------------------------------------------

    fn put(&mut self, cell: Cell) {
        let Cursor { row, column, .. } = self.state.cursor;
        if self.state.insert {
            self.page.insert_cells(row, column, 1);
        }
        self.page.put(row, column, cell);
        if column == COLUMNS {
            self.state.cursor.wrap_due = self.state.autowrap;
        } else {
            self.state.cursor.column = column + 1;
        }
    }

    /// IND, but for wrap due. The line never scrolls.
    fn index(&mut self) {
        let row = self.state.cursor.row;
        if self.state.line.active {
            // Nothing.
        } else if row == self.state.bottom {
            self.page.delete_rows(self.state.top, self.state.bottom, 1);
        } else if row == self.state.rows {
            // Nothing.
        } else {
            self.state.cursor.row = row + 1;
        }
    }

    /// RI, but for wrap due.
    fn reverse_index(&mut self) {
        let row = self.state.cursor.row;
        if self.state.line.active {
            // Nothing.
        } else if row == self.state.top {
            self.page.insert_rows(self.state.top, self.state.bottom, 1);
        } else if row == 1 {
            // Nothing.
        } else {
            self.state.cursor.row = row - 1;
        }
    }

    /// Row 1, or T with origin on; column 1.
    fn home(&mut self) {
        self.state.cursor.row = if self.state.origin { self.state.top } else { 1 };
        self.state.cursor.column = 1;
    }

    // ---- Controls -----------------------------------------------------------

    fn control(&mut self, byte: u8) -> Due {
        let cursor = &mut self.state.cursor;
        match byte {
            // BS
            0x08 => {
                if cursor.column > 1 {
                    cursor.column -= 1;
                }
                Due::Cleared
            }
            // HT
            0x09 => {
                let from = cursor.column;
                let tabs = &self.state.tabs;
                let next = (from + 1..=COLUMNS).find(|&column| tabs[column - 1]);
                cursor.column = next.unwrap_or(COLUMNS);
                Due::Cleared
            }
            // LF, VT, FF
            0x0A | 0x0B | 0x0C => {
                self.index();
                if self.state.newline {
                    self.state.cursor.column = 1;
                }
                Due::Cleared
            }
            // CR
            0x0D => {
                cursor.column = 1;
                Due::Cleared
            }
            // SO, SI
            0x0E => {
                self.state.sets.gl = Slot::G1;
                Due::Kept
            }
            0x0F => {
                self.state.sets.gl = Slot::G0;
                Due::Kept
            }
            _ => Due::Kept,
        }
    }

    fn high_control(&mut self, byte: u8) -> Due {
        match byte {
            // IND
            0x84 => {
                self.index();
                Due::Cleared
            }
            // NEL
            0x85 => {
                self.state.cursor.column = 1;
                self.index();
                Due::Cleared
            }
            // HTS
            0x88 => {
                self.state.tabs[self.state.cursor.column - 1] = true;
                Due::Kept
            }
            // RI
            0x8D => {
                self.reverse_index();
                Due::Cleared
            }
            // SS2, SS3
            0x8E => {
                self.state.shift = Some(Shift::G2);
                Due::Kept
            }
            0x8F => {
                self.state.shift = Some(Shift::G3);
                Due::Kept
            }
            // DECID (9A) only replies.
            _ => Due::Kept,
        }
    }

    // ---- Escape sequences ---------------------------------------------------

    fn escape(&mut self, intermediates: &[u8], last: u8) -> Due {
        match (intermediates, last) {
            (b"", b'7') => {
                self.save();
                Due::Kept
            }
            (b"", b'8') => {
                self.restore();
                Due::AsLeft
            }
            (b"", b'n') => {
                self.state.sets.gl = Slot::G2;
                Due::Kept
            }
            (b"", b'o') => {
                self.state.sets.gl = Slot::G3;
                Due::Kept
            }
            (b"", b'~') => {
                self.state.sets.gr = Slot::G1;
                Due::Kept
            }
            (b"", b'}') => {
                self.state.sets.gr = Slot::G2;
                Due::Kept
            }
            (b"", b'|') => {
                self.state.sets.gr = Slot::G3;
                Due::Kept
            }
            (b"#", b'8') => {
                self.page.fill(Cell::plain(b'E'));
                self.state.top = 1;
                self.state.bottom = self.state.rows;
                self.state.cursor.row = 1;
                self.state.cursor.column = 1;
                Due::Cleared
            }
            (b" ", b'F') => {
                self.state.eight_bit_replies = false;
                Due::Kept
            }
            (b" ", b'G') => {
                self.state.eight_bit_replies = true;
                Due::Kept
            }
            _ => {
                if let Some((slot, set)) = designation(intermediates, last) {
                    self.state.sets.designate(slot, set);
                }
                Due::Kept
            }
        }
    }

    fn save(&mut self) {
        self.state.saved = Saved {
            cursor: self.state.cursor,
            rendition: self.state.rendition,
            origin: self.state.origin,
            sets: self.state.sets,
            protection: self.state.protection,
            shift: self.state.shift,
        };
    }

    fn restore(&mut self) {
        let saved = self.state.saved;
        self.state.cursor = saved.cursor;
        self.state.rendition = saved.rendition;
        self.state.origin = saved.origin;
        self.state.sets = saved.sets;
        self.state.protection = saved.protection;
        self.state.shift = saved.shift;
        if self.state.origin {
            if self.state.cursor.row < self.state.top {
                self.state.cursor.row = self.state.top;
            }
            if self.state.cursor.row > self.state.bottom {
                self.state.cursor.row = self.state.bottom;
            }
        }
        if !self.state.autowrap {
            self.state.cursor.wrap_due = false;
        }
    }

    // ---- Control sequences --------------------------------------------------

    fn control_sequence(
        &mut self,
        mark: Option<u8>,
        parameters: &[u32],
        intermediates: &[u8],
        last: u8,
    ) -> Due {
        let value = |number: usize| parameters.get(number).copied().unwrap_or(0) as usize;
        let selector = value(0);
        let n = value(0).max(1);
        let inside =
            self.state.top <= self.state.cursor.row && self.state.cursor.row <= self.state.bottom;
        let on_line = self.state.line.active;
        match (mark, intermediates, last) {
            (None, b"", b'L' | b'M' | b'r') if on_line => Due::Kept,
            (None, b"", b'A') => self.up(n),
            (None, b"", b'B') => self.down(n),
            (None, b"", b'C') => self.right(n),
            (None, b"", b'D') => self.left(n),
            (None, b"", b'H' | b'f') => self.place(n, value(1).max(1)),
            (None, b"", b'J') => self.erase_page(selector, |_| Cell::BLANK),
            (None, b"", b'K') => self.erase_row(selector, |_| Cell::BLANK),
            (Some(b'?'), b"", b'J') => self.erase_page(selector, Cell::selectively_erased),
            (Some(b'?'), b"", b'K') => self.erase_row(selector, Cell::selectively_erased),
            (None, b"", b'X') => self.erase_cells(n),
            (None, b"", b'L' | b'M' | b'@' | b'P') if !inside => Due::Kept,
            (None, b"", b'L') => self.insert_rows(n),
            (None, b"", b'M') => self.delete_rows(n),
            (None, b"", b'@') => self.insert_cells(n),
            (None, b"", b'P') => self.delete_cells(n),
            (None, b"", b'g') => self.clear_tabs(selector),
            (None, b"", b'h' | b'l') => {
                for &mode in parameters {
                    self.set_mode(mode, last == b'h');
                }
                Due::Kept
            }
            (Some(b'?'), b"", b'h' | b'l') => {
                for &mode in parameters {
                    self.set_private_mode(mode, last == b'h');
                }
                Due::AsLeft
            }
            (None, b"", b'm') => {
                for &selector in parameters {
                    self.select_rendition(selector);
                }
                Due::Kept
            }
            (None, b"\"", b'q') => self.select_protection(selector),
            (None, b"", b'r') => self.set_margins(value(0), value(1)),
            (None, b"$", b'z' | b'{' | b'x' | b'v' | b'r' | b't') => {
                self.rectangle_function(last, parameters);
                Due::Kept
            }
            (None, b"*", b'x') => self.select_extent(selector),
            // c and n only reply.
            _ => Due::Kept,
        }
    }

    fn up(&mut self, n: usize) -> Due {
        let row = self.state.cursor.row;
        let stop = if row >= self.state.top {
            self.state.top
        } else {
            1
        };
        self.state.cursor.row = row.saturating_sub(n).max(stop);
        Due::Cleared
    }

    fn down(&mut self, n: usize) -> Due {
        let row = self.state.cursor.row;
        let stop = if row <= self.state.bottom {
            self.state.bottom
        } else {
            self.state.rows
        };
        self.state.cursor.row = (row + n).min(stop);
        Due::Cleared
    }

    fn right(&mut self, n: usize) -> Due {
        self.state.cursor.column = (self.state.cursor.column + n).min(COLUMNS);
        Due::Cleared
    }

    fn left(&mut self, n: usize) -> Due {
        self.state.cursor.column = self.state.cursor.column.saturating_sub(n).max(1);
        Due::Cleared
    }

    /// H and f; row and column are 1 or more.
    fn place(&mut self, row: usize, column: usize) -> Due {
        self.state.cursor.row = if self.state.origin {
            (self.state.top + row - 1).min(self.state.bottom)
        } else {
            row.min(self.state.rows)
        };
        self.state.cursor.column = column.min(COLUMNS);
        Due::Cleared
    }

    fn erase_page(&mut self, selector: usize, erased: impl Fn(Cell) -> Cell) -> Due {
        let here = self.state.cursor.row;
        let others = match selector {
            0 => here + 1..=self.state.rows,
            1 => 1..=here - 1,
            2 => 1..=self.state.rows,
            _ => return Due::Kept,
        };
        for row in others {
            self.page.change_cells(row, 1, COLUMNS, &erased);
        }
        if selector != 2 {
            self.erase_row(selector, erased);
        }
        Due::Cleared
    }

    fn erase_row(&mut self, selector: usize, erased: impl Fn(Cell) -> Cell) -> Due {
        let Cursor { row, column, .. } = self.state.cursor;
        match selector {
            0 => self.page.change_cells(row, column, COLUMNS, erased),
            1 => self.page.change_cells(row, 1, column, erased),
            2 => self.page.change_cells(row, 1, COLUMNS, erased),
            _ => return Due::Kept,
        }
        Due::Cleared
    }

    fn erase_cells(&mut self, n: usize) -> Due {
        let Cursor { row, column, .. } = self.state.cursor;
        let last = (column + n - 1).min(COLUMNS);
        self.page.change_cells(row, column, last, |_| Cell::BLANK);
        Due::Cleared
    }

    fn insert_rows(&mut self, n: usize) -> Due {
        self.page
            .insert_rows(self.state.cursor.row, self.state.bottom, n);
        self.state.cursor.column = 1;
        Due::Cleared
    }

    fn delete_rows(&mut self, n: usize) -> Due {
        self.page
            .delete_rows(self.state.cursor.row, self.state.bottom, n);
        self.state.cursor.column = 1;
        Due::Cleared
    }

    fn insert_cells(&mut self, n: usize) -> Due {
        let Cursor { row, column, .. } = self.state.cursor;
        self.page.insert_cells(row, column, n);
        Due::Cleared
    }

    fn delete_cells(&mut self, n: usize) -> Due {
        let Cursor { row, column, .. } = self.state.cursor;
        self.page.delete_cells(row, column, n);
        Due::Cleared
    }

    fn clear_tabs(&mut self, selector: usize) -> Due {
        match selector {
            0 => self.state.tabs[self.state.cursor.column - 1] = false,
            3 => self.state.tabs = [false; COLUMNS],
            _ => {}
        }
        Due::Kept
    }

    fn set_mode(&mut self, mode: u32, on: bool) {
        match mode {
            4 => self.state.insert = on,
            20 => self.state.newline = on,
            _ => {}
        }
    }

    fn set_private_mode(&mut self, mode: u32, on: bool) {
        match mode {
            6 if self.state.line.active => {}
            6 => {
                self.state.origin = on;
                self.home();
                self.state.cursor.wrap_due = false;
            }
            7 => {
                self.state.autowrap = on;
                if !on {
                    self.state.cursor.wrap_due = false;
                    self.state.line.cursor.wrap_due = false;
                }
            }
            25 => self.state.cursor_shown = on,
            _ => {}
        }
    }

    fn select_rendition(&mut self, selector: u32) {
        if let Some(rendition) = self.state.rendition.selected(selector) {
            self.state.rendition = rendition;
        }
    }

    fn select_protection(&mut self, selector: usize) -> Due {
        match selector {
            1 => self.state.protection = true,
            0 | 2 => self.state.protection = false,
            _ => {}
        }
        Due::Kept
    }

    fn select_extent(&mut self, selector: usize) -> Due {
        match selector {
            0 | 1 => self.state.extent = Extent::Stream,
            2 => self.state.extent = Extent::Rectangle,
            _ => {}
        }
        Due::Kept
    }

    fn set_margins(&mut self, top: usize, bottom: usize) -> Due {
        let top = top.max(1);
        let bottom = if bottom == 0 || bottom > self.state.rows {
            self.state.rows
        } else {
            bottom
        };
        if top >= bottom {
            return Due::Kept;
        }
        self.state.top = top;
        self.state.bottom = bottom;
        self.home();
        Due::Cleared
    }
}

/// What an escape sequence with intermediates designates, and where to.
fn designation(intermediates: &[u8], last: u8) -> Option<(Slot, Set)> {
    let (first, rest) = intermediates.split_first()?;
    let set = match (first, rest, last) {
        (b'(' | b')' | b'*' | b'+', b"", b'B') => Set::Ascii,
        (b'(' | b')' | b'*' | b'+', b"", b'0') => Set::SpecialGraphics,
        (b'(' | b')' | b'*' | b'+', b"%", b'5') => Set::Supplemental,
        (b'-' | b'.' | b'/', b"", b'A') => Set::Latin1,
        _ => return None,
    };
    let slot = match first {
        b'(' => Slot::G0,
        b')' | b'-' => Slot::G1,
        b'*' | b'.' => Slot::G2,
        _ => Slot::G3,
    };
    Some((slot, set))
}
