//! One cell of a page.

use std::fmt;

/// The four character sets.
#[derive(Clone, Copy, PartialEq, Eq, Hash, Debug)]
pub enum CharSet {
    /// ASCII.
    Ascii,
    /// DEC Special Graphics, with the line-drawing signs.
    SpecialGraphics,
    /// DEC Supplemental.
    Supplemental,
    /// ISO Latin-1.
    Latin1,
}

/// The visual attributes that SGR selects.
#[derive(Clone, Copy, PartialEq, Eq, Hash, Debug, Default)]
pub struct Rendition {
    /// SGR 1.
    pub bold: bool,
    /// SGR 4.
    pub underline: bool,
    /// SGR 5.
    pub blink: bool,
    /// SGR 7.
    pub reverse: bool,
}

/// A cell: a code, a character set, a rendition, and whether it is protected.
///
/// ```
/// use pankholim::{CharSet, PageSize, Terminal};
///
/// let mut terminal = Terminal::new(PageSize::Rows24);
/// terminal.feed_all(b"\x1b[1m7", |_reply| {});
/// let cell = terminal.cell(1, 1).unwrap();
/// assert_eq!(cell.code(), b'7');
/// assert_eq!(cell.set(), CharSet::Ascii);
/// assert!(cell.rendition().bold);
/// assert!(!cell.is_protected());
/// ```
#[derive(Clone, Copy, PartialEq, Eq, Hash)]
pub struct Cell {
    word: u16,
}

impl Cell {
    /// Code 20, ASCII, no flag.
    pub const BLANK: Cell = Cell::from_word(0x20);

    /// The cell that a page's word is. Any word is one.
    pub const fn from_word(word: u16) -> Cell {
        Cell { word }
    }

    /// The word as it stands in the page.
    pub const fn word(self) -> u16 {
        self.word
    }

    /// The code, 00 to 7F.
    pub const fn code(self) -> u8 {
        (self.word & 0x7F) as u8
    }

    /// The character set that the code is of.
    pub const fn set(self) -> CharSet {
        match (self.word >> 7) & 3 {
            0 => CharSet::Ascii,
            1 => CharSet::SpecialGraphics,
            2 => CharSet::Supplemental,
            _ => CharSet::Latin1,
        }
    }

    /// The visual attributes.
    pub const fn rendition(self) -> Rendition {
        Rendition {
            bold: self.flag(9),
            underline: self.flag(10),
            blink: self.flag(11),
            reverse: self.flag(12),
        }
    }

    /// Protected against selective erase.
    pub const fn is_protected(self) -> bool {
        self.flag(13)
    }

    const fn flag(self, bit: u32) -> bool {
        (self.word >> bit) & 1 == 1
    }
}

impl fmt::Debug for Cell {
    fn fmt(&self, f: &mut fmt::Formatter) -> fmt::Result {
        f.debug_struct("Cell")
            .field("code", &format_args!("{:#04x}", self.code()))
            .field("set", &self.set())
            .field("rendition", &self.rendition())
            .field("protected", &self.is_protected())
            .finish()
    }
}

#[cfg(test)]
mod tests {
    use super::*;

    /// The word again, from its parts.
    fn packed(cell: Cell) -> u16 {
        let set = match cell.set() {
            CharSet::Ascii => 0,
            CharSet::SpecialGraphics => 1,
            CharSet::Supplemental => 2,
            CharSet::Latin1 => 3,
        };
        let rendition = cell.rendition();
        u16::from(cell.code())
            + 0x80 * set
            + 0x200 * u16::from(rendition.bold)
            + 0x400 * u16::from(rendition.underline)
            + 0x800 * u16::from(rendition.blink)
            + 0x1000 * u16::from(rendition.reverse)
            + 0x2000 * u16::from(cell.is_protected())
    }

    #[test]
    fn every_word_is_its_parts() {
        for word in 0..=0xFFFF {
            let cell = Cell::from_word(word);
            assert_eq!(cell.word(), word);
            assert_eq!(packed(cell), word & 0x3FFF);
        }
        assert_eq!(packed(Cell::BLANK), 0x20);
    }
}
