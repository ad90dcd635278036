//! The five calls, with their answers by number:
//! 0 done; 1 the state is not whole, or R is not 24, 36 or 48; 2 the page is
//! not 80 times R cells, or the line not 80; 3 the next byte's reply is longer
//! than the room left; 4 a row or column asked for is off the page, or a row off
//! the line.

use crate::cell::BLANK_WORD;
use crate::functions::{take, Scene};
use crate::page::{Page, COLUMNS};
use crate::state::{is_row_count, is_whole, State};

pub const DONE: u8 = 0;
pub const NOT_WHOLE: u8 = 1;
pub const WRONG_LENGTH: u8 = 2;
pub const NO_ROOM: u8 = 3;
pub const OFF_PAGE: u8 = 4;

/// Starts a page and its status line: every cell blank, and the fresh state.
pub fn start(rows: usize, page: &mut [u16], line: &mut [u16]) -> (u8, State) {
    if !is_row_count(rows) {
        return (NOT_WHOLE, State::fresh(24));
    }
    if !are_right(rows, page, line) {
        return (WRONG_LENGTH, State::fresh(24));
    }
    page.fill(BLANK_WORD);
    line.fill(BLANK_WORD);
    (DONE, State::fresh(rows))
}

/// Are page and line of the right lengths?
fn are_right(rows: usize, page: &[u16], line: &[u16]) -> bool {
    page.len() == COLUMNS * rows && line.len() == COLUMNS
}

/// Feeds bytes: the answer, how many bytes were read, how many reply bytes were
/// written, and the new state.
pub fn feed(
    state: &State,
    page: &mut [u16],
    line: &mut [u16],
    input: &[u8],
    reply: &mut [u8],
) -> (u8, usize, usize, State) {
    if !is_whole(state) {
        return (NOT_WHOLE, 0, 0, state.clone());
    }
    if !are_right(state.rows, page, line) {
        return (WRONG_LENGTH, 0, 0, state.clone());
    }
    let mut scene = Scene {
        state: state.clone(),
        page: Page::of_words(page),
        line: Page::of_words(line),
    };
    let mut answer = DONE;
    let mut read = 0;
    let mut replied = 0;
    for &byte in input {
        let (after, bytes) = take(&scene, byte);
        if bytes.len() > reply.len() - replied {
            answer = NO_ROOM;
            break;
        }
        reply[replied..replied + bytes.len()].copy_from_slice(&bytes);
        replied += bytes.len();
        read += 1;
        scene = after;
    }
    scene.page.write_words(page);
    scene.line.write_words(line);
    (answer, read, replied, scene.state)
}

/// Asks for the changed rows: the answer, the rows (from 1, rising), how many
/// they are, whether the line changed, and the state with nothing noted.
pub fn ask(state: &State) -> (u8, Vec<usize>, usize, bool, State) {
    if !is_whole(state) {
        return (NOT_WHOLE, Vec::new(), 0, false, state.clone());
    }
    let rows: Vec<usize> = state.changed.iter().copied().collect();
    let count = rows.len();
    let mut after = state.clone();
    after.changed.clear();
    after.line.changed = false;
    (DONE, rows, count, state.line.changed, after)
}

/// Hands back the words of a row, from 1, of what is active: the page, or the
/// line, which is row 1. Refused, it hands back none.
pub fn row<'a>(state: &State, page: &'a [u16], line: &'a [u16], row: usize) -> (u8, &'a [u16]) {
    if !is_whole(state) {
        return (NOT_WHOLE, &[]);
    }
    if !are_right(state.rows, page, line) {
        return (WRONG_LENGTH, &[]);
    }
    let (active, rows) = match state.line.active {
        true => (line, 1),
        false => (page, state.rows),
    };
    if row < 1 || row > rows {
        return (OFF_PAGE, &[]);
    }
    (DONE, &active[(row - 1) * COLUMNS..row * COLUMNS])
}

/// Reads the cell of the page at a row and column, both from 1.
pub fn read_cell(state: &State, page: &[u16], row: usize, column: usize) -> (u8, u16) {
    if !is_whole(state) {
        return (NOT_WHOLE, BLANK_WORD);
    }
    if page.len() != COLUMNS * state.rows {
        return (WRONG_LENGTH, BLANK_WORD);
    }
    if row < 1 || row > state.rows || column < 1 || column > COLUMNS {
        return (OFF_PAGE, BLANK_WORD);
    }
    (DONE, page[(row - 1) * COLUMNS + (column - 1)])
}
