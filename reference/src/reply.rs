//! The texts that are sent back.

use crate::state::State;

fn with_introducer(state: &State, rest: &str) -> Vec<u8> {
    let mut bytes = if state.eight_bit_replies {
        vec![0x9B]
    } else {
        vec![0x1B, 0x5B]
    };
    bytes.extend_from_slice(rest.as_bytes());
    bytes
}

pub fn primary_attributes(state: &State) -> Vec<u8> {
    with_introducer(state, "?64;6c")
}

pub fn secondary_attributes(state: &State) -> Vec<u8> {
    with_introducer(state, ">41;1;0c")
}

pub fn in_order(state: &State) -> Vec<u8> {
    with_introducer(state, "0n")
}

pub fn no_printer(state: &State) -> Vec<u8> {
    with_introducer(state, "?13n")
}

/// The cursor's row as reported: from T with origin on.
fn reported_row(state: &State) -> usize {
    if state.origin {
        state.cursor.row - state.top + 1
    } else {
        state.cursor.row
    }
}

pub fn position(state: &State) -> Vec<u8> {
    with_introducer(
        state,
        &format!("{};{}R", reported_row(state), state.cursor.column),
    )
}

pub fn extended_position(state: &State) -> Vec<u8> {
    with_introducer(
        state,
        &format!("?{};{};1R", reported_row(state), state.cursor.column),
    )
}
