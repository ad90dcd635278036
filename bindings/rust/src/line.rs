//! The status line.

use crate::cell::Cell;
use crate::page::{page_text, COLUMNS};
use std::fmt;
use std::ops::{Deref, DerefMut};

/// The 80 words of a status line. It is lent like a page, as a slice.
#[derive(Clone, PartialEq, Eq, Hash)]
pub struct Line {
    words: [u16; COLUMNS],
}

impl Line {
    /// Every cell blank.
    pub const fn new() -> Line {
        Line {
            words: [Cell::BLANK.word(); COLUMNS],
        }
    }

    /// The line as text, without the spaces at its end and with no line feed.
    pub fn text(&self) -> String {
        let mut text = page_text(&self.words);
        text.pop();
        text
    }
}

impl Default for Line {
    fn default() -> Line {
        Line::new()
    }
}

impl Deref for Line {
    type Target = [u16];

    fn deref(&self) -> &[u16] {
        &self.words
    }
}

impl DerefMut for Line {
    fn deref_mut(&mut self) -> &mut [u16] {
        &mut self.words
    }
}

impl fmt::Debug for Line {
    fn fmt(&self, f: &mut fmt::Formatter) -> fmt::Result {
        f.debug_tuple("Line").field(&self.text()).finish()
    }
}
