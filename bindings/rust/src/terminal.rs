//! A terminal with its page and its status line.

use crate::answer::Refusal;
use crate::cell::Cell;
use crate::line::Line;
use crate::page::{page_text, PageSize, COLUMNS};
use crate::record::{Changed, Cursor, Fed, Record};
use crate::rows::RowSet;
use std::mem;

/// A record and the page and status line that go with it.
///
/// ```
/// use pankholim::{PageSize, Terminal};
///
/// let mut terminal = Terminal::new(PageSize::Rows24);
/// let mut sent = Vec::new();
/// terminal.feed_all(b"\x1b[6;10r\x1b[?6h\x1b[2;5H\x1b[6n", |reply| sent.extend_from_slice(reply));
/// assert_eq!(sent, b"\x1b[2;5R");
///
/// let cursor = terminal.cursor();
/// assert_eq!((cursor.row, cursor.column), (7, 5));
/// ```
#[derive(Clone, Debug)]
pub struct Terminal {
    record: Record,
    page: Box<[u16]>,
    line: Line,
    size: PageSize,
    /// What the record was asked for and nobody took yet.
    noted: Changed,
}

/// How record, page and line come to be whole: a start makes them, and nothing but the record's calls writes them.
const WHOLE: &str = "the record is whole, and page and line are its own";

impl Terminal {
    /// A fresh terminal: every cell blank, the cursor in row 1, column 1, no status line.
    pub fn new(size: PageSize) -> Terminal {
        let mut page = vec![0; size.cells()].into_boxed_slice();
        let mut line = Line::new();
        let record = Record::start(size.rows(), &mut page, &mut line).expect(WHOLE);
        Terminal {
            record,
            page,
            line,
            size,
            noted: Changed::default(),
        }
    }

    /// The size of the page.
    pub fn size(&self) -> PageSize {
        self.size
    }

    /// Feeds bytes from the modem, until the input ends or a reply does not fit. Sequences may be cut anywhere
    /// between two calls. [`REPLY_ROOM`](crate::REPLY_ROOM) bytes of room guarantee that a byte is read.
    pub fn feed(&mut self, input: &[u8], reply: &mut [u8]) -> Fed {
        self.record
            .feed(&mut self.page, &mut self.line, input, reply)
            .expect(WHOLE)
    }

    /// Feeds all bytes, and hands the replies to `send` as they fall due.
    pub fn feed_all(&mut self, input: &[u8], mut send: impl FnMut(&[u8])) {
        let mut rest = input;
        let mut reply = [0; 256];
        while !rest.is_empty() {
            let fed = self.feed(rest, &mut reply);
            if fed.replied > 0 {
                send(&reply[..fed.replied]);
            }
            rest = &rest[fed.read..];
        }
    }

    fn ask(&mut self) {
        let more = self.record.ask().expect(WHOLE);
        self.noted.rows = self.noted.rows | more.rows;
        self.noted.line |= more.line;
    }

    /// The rows of the page where a step changed a cell since this was last asked, or since the start; then none is
    /// noted any more. Whether the line changed stays noted.
    pub fn take_changed_rows(&mut self) -> RowSet {
        self.ask();
        mem::take(&mut self.noted.rows)
    }

    /// Did a step change a cell of the status line since this was last asked, or since the start? Then that is
    /// noted no more. The changed rows stay noted.
    ///
    /// ```
    /// use pankholim::{PageSize, Terminal};
    ///
    /// let mut terminal = Terminal::new(PageSize::Rows24);
    /// terminal.feed_all(b"page\x1b[1$~\x1b[1$}signal -61 dBm\x1b[0$}", |_reply| {});
    /// assert!(terminal.take_line_changed() && !terminal.take_line_changed());
    /// assert_eq!(terminal.take_changed_rows().len(), 1);
    /// assert_eq!(terminal.line().text(), "signal -61 dBm");
    /// ```
    pub fn take_line_changed(&mut self) -> bool {
        self.ask();
        mem::take(&mut self.noted.line)
    }

    /// The page's cell at a row and column, both from 1, whatever is active. Refused with `OffPage` where there is
    /// none.
    pub fn cell(&self, row: usize, column: usize) -> Result<Cell, Refusal> {
        self.record.read(&self.page, row, column)
    }

    /// The page's cursor, whatever is active: its place, also with origin mode on, whether a wrap is due, and whether
    /// it is shown.
    pub fn cursor(&self) -> Cursor {
        self.record.cursor().expect(WHOLE)
    }

    /// The text of `length` cells of a row of the page, from a column on, without the spaces at its end. Refused with
    /// `OffPage` where one of the cells is off the page.
    pub fn field(&self, row: usize, column: usize, length: usize) -> Result<String, Refusal> {
        if length > COLUMNS {
            return Err(Refusal::OffPage);
        }
        let mut cells = [Cell::BLANK.word(); COLUMNS];
        for (offset, word) in cells[..length].iter_mut().enumerate() {
            *word = self.cell(row, column.saturating_add(offset))?.word();
        }
        let mut text = page_text(&cells);
        text.pop();
        Ok(text)
    }

    /// The words of a row, from 1, of what is active: of the page or, while the status line is active, of that, which
    /// is row 1. Refused with `OffPage` where there is no such row.
    pub fn row(&self, row: usize) -> Result<&[u16], Refusal> {
        self.record.row(&self.page, &self.line, row)
    }

    /// The status line, whether it is active or not.
    pub fn line(&self) -> &Line {
        &self.line
    }

    /// The page as text: a line of text for each row, spaces at its end off, closed by a line feed.
    pub fn text(&self) -> String {
        page_text(&self.page)
    }

    /// The words of the page, row after row.
    pub fn words(&self) -> &[u16] {
        &self.page
    }
}
