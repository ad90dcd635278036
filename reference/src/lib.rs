//! A plain reference program for the VT420 console reader.
//!
//! It is written from the scope paper and the requests that are met (see
//! docs/SCOPE.md) alone, and is slow on purpose: during a call the page is rows
//! of unpacked cells; every step makes a whole new page; the rows that a step
//! changed are found by comparing the whole page before it with the whole page
//! after it. The status line is a page of one row.
//!
//! * `cell`: one cell and its word.
//! * `page`: the rows of cells, and what can be done to them.
//! * `state`: everything between two calls but the cells; fresh and whole.
//! * `parser`: from bytes to signs, controls and finished sequences.
//! * `functions`: what each of these does; steps.
//! * `rectangles`: the functions on a rectangle of cells.
//! * `reply`: the texts that are sent back.
//! * `calls`: the five calls with their answers.
//! * `text`: the page as text.
//! * `grammar`: seeded hostile byte streams for comparing.
//! * `script`: scripts of calls, and carrying them out.
//! * `words`: commands and what they wrote, in words.
//! * `examples`: examples as text, as scripts.
//! * `plan`: the scripts that are compared.

pub mod calls;
pub mod cell;
pub mod examples;
pub mod functions;
pub mod grammar;
pub mod page;
pub mod parser;
pub mod plan;
pub mod rectangles;
pub mod reply;
pub mod script;
pub mod state;
pub mod text;
pub mod words;

pub use calls::{ask, feed, read_cell, row, start};
pub use parser::{Given, Parser};
pub use state::{is_whole, Cursor, Extent, Line, Saved, Sets, Slot, State};
pub use text::text;
