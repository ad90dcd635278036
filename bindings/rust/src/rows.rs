//! Sets of rows.

use std::fmt;
use std::iter::FusedIterator;
use std::ops::BitOr;

/// A set of rows, counted from 1.
///
/// ```
/// use pankholim::{PageSize, Terminal};
///
/// let mut terminal = Terminal::new(PageSize::Rows24);
/// terminal.feed_all(b"a\x1b[7Hb", |_reply| {});
/// let changed = terminal.take_changed_rows();
/// assert_eq!(changed.len(), 2);
/// assert!(changed.contains(7));
/// for row in changed {
///     println!("{}", terminal.field(row, 1, 80).unwrap());
/// }
/// ```
#[derive(Clone, Copy, PartialEq, Eq, Hash, Default)]
pub struct RowSet {
    bits: u64,
}

impl RowSet {
    /// No row.
    pub const EMPTY: RowSet = RowSet { bits: 0 };

    /// The set that a number is: bit n - 1 is row n.
    pub const fn from_bits(bits: u64) -> RowSet {
        RowSet { bits }
    }

    /// Row n as bit n - 1.
    pub const fn bits(self) -> u64 {
        self.bits
    }

    /// How many rows there are.
    pub const fn len(self) -> usize {
        self.bits.count_ones() as usize
    }

    /// Is there no row?
    pub const fn is_empty(self) -> bool {
        self.bits == 0
    }

    /// Is the row in the set? Any number may be asked for.
    pub const fn contains(self, row: usize) -> bool {
        1 <= row && row <= 64 && (self.bits >> (row - 1)) & 1 == 1
    }

    /// The rows, rising.
    pub const fn iter(self) -> Rows {
        Rows { bits: self.bits }
    }
}

/// The rows of either.
impl BitOr for RowSet {
    type Output = RowSet;

    fn bitor(self, other: RowSet) -> RowSet {
        RowSet::from_bits(self.bits | other.bits)
    }
}

impl IntoIterator for RowSet {
    type Item = usize;
    type IntoIter = Rows;

    fn into_iter(self) -> Rows {
        self.iter()
    }
}

impl fmt::Debug for RowSet {
    fn fmt(&self, f: &mut fmt::Formatter) -> fmt::Result {
        f.debug_set().entries(self.iter()).finish()
    }
}

/// The rows of a [`RowSet`], rising.
#[derive(Clone, Debug)]
pub struct Rows {
    bits: u64,
}

impl Iterator for Rows {
    type Item = usize;

    fn next(&mut self) -> Option<usize> {
        if self.bits == 0 {
            return None;
        }
        let row = self.bits.trailing_zeros() as usize + 1;
        self.bits &= self.bits - 1;
        Some(row)
    }

    fn size_hint(&self) -> (usize, Option<usize>) {
        let left = self.bits.count_ones() as usize;
        (left, Some(left))
    }
}

impl ExactSizeIterator for Rows {}
impl FusedIterator for Rows {}

#[cfg(test)]
mod tests {
    use super::*;

    #[test]
    fn rows_are_bits() {
        for bits in [0, 1, 2, 0x8000_0000_0001, 1 << 63, u64::MAX, 0x5555] {
            let set = RowSet::from_bits(bits);
            let rows: Vec<usize> = set.iter().collect();
            assert_eq!(rows.len(), set.len());
            assert_eq!(set.iter().len(), set.len());
            assert!(rows.windows(2).all(|pair| pair[0] < pair[1]));
            assert_eq!(
                rows,
                (0..100)
                    .filter(|&row| set.contains(row))
                    .collect::<Vec<_>>()
            );
            assert_eq!(rows.iter().fold(0, |bits, row| bits | 1 << (row - 1)), bits);
            assert_eq!(set.is_empty(), rows.is_empty());
        }
        assert!(!RowSet::from_bits(u64::MAX).contains(usize::MAX));
    }

    #[test]
    fn shown_as_a_set() {
        assert_eq!(format!("{:?}", RowSet::from_bits(0b101)), "{1, 3}");
        assert_eq!(
            RowSet::from_bits(1) | RowSet::from_bits(6),
            RowSet::from_bits(7)
        );
    }
}
