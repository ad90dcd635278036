//! The record of a terminal, over pages and lines that the caller keeps.

use crate::answer::{Answer, Refusal};
use crate::cell::Cell;
use crate::ffi;
use crate::rows::RowSet;
use std::fmt;
use std::ptr;
use std::slice;

/// The longest reply to one byte. With so much room a feeding that has input and is not refused reads at
/// least one byte.
pub const REPLY_ROOM: usize = 11;

/// All of a terminal that lasts between two calls, but its page and its status line, which the caller lends at each
/// call that takes them. A line is any 80 words; a [`Line`](crate::Line) is one.
///
/// It is plain data: a clone is a terminal of its own, for a copy of page and line, and its bytes may be kept and
/// brought back. What an unrefused call leaves are the same bytes wherever the state is the same.
///
/// ```
/// use pankholim::{Answer, Line, Record, Refusal};
///
/// let mut page = [0; 24 * 80];
/// let mut line = Line::new();
/// let mut record = Record::start(24, &mut page, &mut line).unwrap();
///
/// // The reply to CSI 6n, the cursor's position, finds no room in 5 bytes: its last byte is not read.
/// let mut reply = [0; 5];
/// let fed = record.feed(&mut page, &mut line, b"\x1b[6n", &mut reply).unwrap();
/// assert_eq!((fed.answer, fed.read, fed.replied), (Answer::NoRoom, 3, 0));
///
/// let mut reply = [0; 6];
/// let fed = record.feed(&mut page, &mut line, b"n", &mut reply).unwrap();
/// assert_eq!((fed.answer, fed.read, fed.replied), (Answer::Done, 1, 6));
/// assert_eq!(&reply, b"\x1b[1;1R");
///
/// assert_eq!(record.read(&page, 25, 1), Err(Refusal::OffPage));
/// ```
#[derive(Clone)]
pub struct Record {
    raw: ffi::Terminal,
}

/// What a feeding did.
#[derive(Clone, Copy, PartialEq, Eq, Hash, Debug)]
pub struct Fed {
    /// `Done`, with all input read, or `NoRoom`: the reply to the next byte is longer than the room left, and
    /// that byte is not read.
    pub answer: Answer,
    /// How many bytes of the input were read.
    pub read: usize,
    /// How many bytes at the front of the reply buffer are to be sent to the modem. Those after them are left.
    pub replied: usize,
}

impl Fed {
    /// Was all input read?
    pub fn is_done(self) -> bool {
        self.answer == Answer::Done
    }
}

/// What changed since the last asking, or since the start.
#[derive(Clone, Copy, PartialEq, Eq, Hash, Debug, Default)]
pub struct Changed {
    /// The rows of the page where a step changed a cell.
    pub rows: RowSet,
    /// Did a step change a cell of the status line?
    pub line: bool,
}

/// The page's cursor.
#[derive(Clone, Copy, PartialEq, Eq, Hash, Debug)]
pub struct Cursor {
    /// Its row on the page, from 1, also with origin mode on.
    pub row: usize,
    /// Its column, from 1.
    pub column: usize,
    /// Is a wrap due, so that the next character starts a new row?
    pub wrap: bool,
    /// Is it shown?
    pub shown: bool,
}

impl Record {
    /// How many bytes a record has.
    pub const SIZE: usize = 120;

    /// Starts a terminal with `rows` rows: 24, 36 or 48, with a page of 80 cells for each and a line of 80. Every
    /// cell of both becomes blank. Refused with `Broken` where there is no page of so many rows, with `WrongSize`
    /// where page or line have another length; then both are left.
    pub fn start(rows: usize, page: &mut [u16], line: &mut [u16]) -> Result<Record, Refusal> {
        let mut record = Record::default();
        record.restart(rows, page, line).map(|_| record)
    }

    /// Starts this record anew, whatever it was: see [`start`](Record::start). Refused, record, page and line are
    /// left, and the terminal goes on where it was.
    pub fn restart(
        &mut self,
        rows: usize,
        page: &mut [u16],
        line: &mut [u16],
    ) -> Result<(), Refusal> {
        let number = unsafe {
            ffi::pankholim_start(
                &mut self.raw,
                rows,
                page.as_mut_ptr(),
                page.len(),
                line.as_mut_ptr(),
                line.len(),
            )
        };
        Answer::of_call(number).map(|_| ())
    }

    /// A record from bytes that [`to_bytes`](Record::to_bytes) gave. Any others are safe as well: a record that
    /// is not whole is refused with `Broken` by every call.
    pub fn from_bytes(bytes: [u8; Record::SIZE]) -> Record {
        let mut record = Record::default();
        for (word, bytes) in record.raw.opaque.iter_mut().zip(bytes.chunks_exact(8)) {
            *word = u64::from_ne_bytes(bytes.try_into().expect("8 bytes"));
        }
        record
    }

    /// The bytes of the record, for the same library on the same machine.
    pub fn to_bytes(&self) -> [u8; Record::SIZE] {
        let mut all = [0; Record::SIZE];
        for (bytes, word) in all.chunks_exact_mut(8).zip(self.raw.opaque) {
            bytes.copy_from_slice(&word.to_ne_bytes());
        }
        all
    }

    /// Feeds bytes from the modem. Sequences may be cut anywhere between two calls. Refused with `Broken` or
    /// `WrongSize`; then record, page, line and reply are left. Nothing of page and line reaches the modem: what is
    /// returned, the bytes replied, and the record but for what it noted as changed are the same over any page and
    /// any line of the right length, whatever was noted.
    pub fn feed(
        &mut self,
        page: &mut [u16],
        line: &mut [u16],
        input: &[u8],
        reply: &mut [u8],
    ) -> Result<Fed, Refusal> {
        let mut read = 0;
        let mut replied = 0;
        let number = unsafe {
            ffi::pankholim_feed(
                &mut self.raw,
                page.as_mut_ptr(),
                page.len(),
                line.as_mut_ptr(),
                line.len(),
                input.as_ptr(),
                input.len(),
                reply.as_mut_ptr(),
                reply.len(),
                &mut read,
                &mut replied,
            )
        };
        Answer::of_call(number).map(|answer| Fed {
            answer,
            read,
            replied,
        })
    }

    /// What a step changed since the last asking, or since the start; then nothing is noted any more. Refused
    /// with `Broken`; then the record is left.
    pub fn ask(&mut self) -> Result<Changed, Refusal> {
        let mut bits = 0;
        let mut count = 0;
        let mut line = 0;
        let number = unsafe { ffi::pankholim_ask(&mut self.raw, &mut bits, &mut count, &mut line) };
        let rows = RowSet::from_bits(bits);
        debug_assert_eq!(count as usize, rows.len());
        Answer::of_call(number).map(|_| Changed {
            rows,
            line: line == 1,
        })
    }

    /// The 80 words of a row, from 1, of what is active: of the page or, while the line is active, of the line, which
    /// is row 1. Refused with `Broken`, `WrongSize`, or `OffPage` where what is active has no such row.
    ///
    /// ```
    /// use pankholim::{Line, Record, Refusal};
    ///
    /// let mut page = [0; 24 * 80];
    /// let mut line = Line::new();
    /// let mut record = Record::start(24, &mut page, &mut line).unwrap();
    /// assert_eq!(record.row(&page, &line, 24), Ok(&page[23 * 80..]));
    ///
    /// // There is a line, and it is active.
    /// let input = b"\x1b[1$~\x1b[1$}up";
    /// record.feed(&mut page, &mut line, input, &mut []).unwrap();
    /// assert_eq!(record.row(&page, &line, 1), Ok(&line[..]));
    /// assert_eq!(record.row(&page, &line, 24), Err(Refusal::OffPage));
    /// ```
    pub fn row<'a>(
        &self,
        page: &'a [u16],
        line: &'a [u16],
        row: usize,
    ) -> Result<&'a [u16], Refusal> {
        let mut part = ffi::Part {
            cells: ptr::null(),
            length: 0,
        };
        let number = unsafe {
            ffi::pankholim_row(
                self.raw.clone(),
                page.as_ptr(),
                page.len(),
                line.as_ptr(),
                line.len(),
                row,
                &mut part,
            )
        };
        // Unrefused, the part lies in the page or in the line, and so lives as long as both.
        Answer::of_call(number).map(|_| unsafe { slice::from_raw_parts(part.cells, part.length) })
    }

    /// The page's cell at a row and column, both from 1, whatever is active. Refused with `Broken`, `WrongSize` or
    /// `OffPage`.
    pub fn read(&self, page: &[u16], row: usize, column: usize) -> Result<Cell, Refusal> {
        let mut word = 0;
        let number = unsafe {
            ffi::pankholim_read(&self.raw, page.as_ptr(), page.len(), row, column, &mut word)
        };
        Answer::of_call(number).map(|_| Cell::from_word(word))
    }

    /// The page's cursor, whatever is active: its place, whether a wrap is due, and whether it is shown. Refused with
    /// `Broken`.
    pub fn cursor(&self) -> Result<Cursor, Refusal> {
        let (mut row, mut column, mut wrap, mut shown) = (0, 0, 0, 0);
        let number = unsafe {
            ffi::pankholim_cursor(&self.raw, &mut row, &mut column, &mut wrap, &mut shown)
        };
        Answer::of_call(number).map(|_| Cursor {
            row,
            column,
            wrap: wrap == 1,
            shown: shown == 1,
        })
    }
}

/// A record that was not started: every call refuses it with `Broken`.
impl Default for Record {
    fn default() -> Record {
        Record {
            raw: ffi::Terminal { opaque: [0; 15] },
        }
    }
}

impl fmt::Debug for Record {
    fn fmt(&self, f: &mut fmt::Formatter) -> fmt::Result {
        f.debug_struct("Record").finish_non_exhaustive()
    }
}
