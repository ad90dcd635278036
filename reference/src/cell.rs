//! One cell of the page, unpacked, and the word it is kept in.

/// The four character sets.
#[derive(Clone, Copy, PartialEq, Eq, Debug)]
#[repr(u8)]
pub enum Set {
    Ascii,
    SpecialGraphics,
    Supplemental,
    Latin1,
}

impl Set {
    /// Does the set have 96 signs (and so signs at 20 and 7F)?
    pub fn has_96(self) -> bool {
        self == Set::Latin1
    }

    pub fn number(self) -> u16 {
        match self {
            Set::Ascii => 0,
            Set::SpecialGraphics => 1,
            Set::Supplemental => 2,
            Set::Latin1 => 3,
        }
    }

    fn of_number(number: u16) -> Set {
        match number & 3 {
            0 => Set::Ascii,
            1 => Set::SpecialGraphics,
            2 => Set::Supplemental,
            _ => Set::Latin1,
        }
    }
}

/// The four flags that CSI m sets. Protection is no part of it.
#[derive(Clone, Copy, PartialEq, Eq, Debug)]
pub struct Rendition {
    pub bold: bool,
    pub underline: bool,
    pub blink: bool,
    pub reverse: bool,
}

impl Rendition {
    pub const PLAIN: Rendition = Rendition {
        bold: false,
        underline: false,
        blink: false,
        reverse: false,
    };

    /// After one value of CSI m or of a change of attributes; none if it is not
    /// listed.
    pub fn selected(self, value: u32) -> Option<Rendition> {
        let mut after = self;
        match value {
            0 => after = Rendition::PLAIN,
            1 => after.bold = true,
            4 => after.underline = true,
            5 => after.blink = true,
            7 => after.reverse = true,
            22 => after.bold = false,
            24 => after.underline = false,
            25 => after.blink = false,
            27 => after.reverse = false,
            _ => return None,
        }
        Some(after)
    }

    /// After one value of a reversal of attributes; none if it is not listed.
    pub fn reversed(self, value: u32) -> Option<Rendition> {
        let mut after = self;
        match value {
            0 => {
                after.bold = !self.bold;
                after.underline = !self.underline;
                after.blink = !self.blink;
                after.reverse = !self.reverse;
            }
            1 => after.bold = !self.bold,
            4 => after.underline = !self.underline,
            5 => after.blink = !self.blink,
            7 => after.reverse = !self.reverse,
            _ => return None,
        }
        Some(after)
    }
}

/// A cell with every bit of its word in a field of its own, so that two cells
/// are equal exactly when their words are.
#[derive(Clone, Copy, PartialEq, Eq, Debug)]
#[repr(C)]
pub struct Cell {
    /// 00 to 7F.
    pub code: u8,
    pub set: Set,
    pub bold: bool,
    pub underline: bool,
    pub blink: bool,
    pub reverse: bool,
    pub protected: bool,
    /// What was found in the two unused bits (0 to 3). Moved with the cell;
    /// zero in every cell that is written.
    pub unused: u8,
}

/// The word of a blank cell.
pub const BLANK_WORD: u16 = 0x0020;

impl Cell {
    /// Code 20, ASCII, no flag.
    pub const BLANK: Cell = Cell::plain(0x20);

    /// An ASCII code without flags.
    pub const fn plain(code: u8) -> Cell {
        Cell {
            code,
            set: Set::Ascii,
            bold: false,
            underline: false,
            blink: false,
            reverse: false,
            protected: false,
            unused: 0,
        }
    }

    pub fn new(code: u8, set: Set, rendition: Rendition, protected: bool) -> Cell {
        Cell {
            code,
            set,
            bold: rendition.bold,
            underline: rendition.underline,
            blink: rendition.blink,
            reverse: rendition.reverse,
            protected,
            unused: 0,
        }
    }

    pub fn rendition(self) -> Rendition {
        Rendition {
            bold: self.bold,
            underline: self.underline,
            blink: self.blink,
            reverse: self.reverse,
        }
    }

    /// The cell written anew with another rendition; protected or not.
    pub fn with_rendition(self, rendition: Rendition) -> Cell {
        Cell::new(self.code, self.set, rendition, self.protected)
    }

    /// What selective erase makes of the cell: a protected one is skipped; in
    /// another only code and set are set, and the unused bits become zero.
    pub fn selectively_erased(self) -> Cell {
        if self.protected {
            self
        } else {
            Cell {
                code: 0x20,
                set: Set::Ascii,
                unused: 0,
                ..self
            }
        }
    }

    /// All fields in one number: two cells are equal exactly when these are.
    /// (Comparing numbers is much faster than comparing field by field.)
    pub fn all_fields(self) -> u64 {
        u64::from_le_bytes([
            self.code,
            self.set as u8,
            self.bold as u8,
            self.underline as u8,
            self.blink as u8,
            self.reverse as u8,
            self.protected as u8,
            self.unused,
        ])
    }

    pub fn of_word(word: u16) -> Cell {
        let bit = |n: u32| (word >> n) & 1 == 1;
        Cell {
            code: (word & 0x7F) as u8,
            set: Set::of_number(word >> 7),
            bold: bit(9),
            underline: bit(10),
            blink: bit(11),
            reverse: bit(12),
            protected: bit(13),
            unused: (word >> 14) as u8,
        }
    }

    pub fn word(self) -> u16 {
        let bit = |flag: bool, n: u32| (flag as u16) << n;
        ((self.code & 0x7F) as u16)
            | (self.set.number() << 7)
            | bit(self.bold, 9)
            | bit(self.underline, 10)
            | bit(self.blink, 11)
            | bit(self.reverse, 12)
            | bit(self.protected, 13)
            | (((self.unused & 3) as u16) << 14)
    }
}

#[cfg(test)]
mod tests {
    use super::*;

    #[test]
    fn every_word_comes_back() {
        for word in 0..=0xFFFFu16 {
            assert_eq!(Cell::of_word(word).word(), word);
        }
        assert_eq!(Cell::BLANK.word(), BLANK_WORD);
        assert_eq!(Cell::of_word(BLANK_WORD), Cell::BLANK);
    }

    #[test]
    fn every_value_on_every_word() {
        // The flags that a value names: bold, underline, blink, reverse.
        let flags = |value: u32| match value {
            0 => 0x1E00,
            1 | 22 => 0x0200,
            4 | 24 => 0x0400,
            5 | 25 => 0x0800,
            7 | 27 => 0x1000,
            _ => 0,
        };
        for word in 0..=0xFFFFu16 {
            let cell = Cell::of_word(word);
            let written = word & 0x3FFF;
            for value in (0..=30).chain([9_999]) {
                let named = flags(value);
                let restyled = |after: Option<Rendition>| {
                    after.map(|rendition| cell.with_rendition(rendition).word())
                };
                let selected = match value {
                    1 | 4 | 5 | 7 => Some(written | named),
                    _ if named != 0 => Some(written & !named),
                    _ => None,
                };
                assert_eq!(restyled(cell.rendition().selected(value)), selected);
                let reversed = match value {
                    0 | 1 | 4 | 5 | 7 => Some(written ^ named),
                    _ => None,
                };
                assert_eq!(restyled(cell.rendition().reversed(value)), reversed);
            }
        }
    }

    #[test]
    fn selective_erase_of_every_word() {
        for word in 0..=0xFFFFu16 {
            let after = Cell::of_word(word).selectively_erased().word();
            if word & 0x2000 != 0 {
                assert_eq!(after, word);
            } else {
                assert_eq!(after, (word & 0x1E00) | 0x20);
            }
        }
    }
}
