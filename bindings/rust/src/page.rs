//! The sizes of a page, and a page as text.

use crate::ffi;
use std::error::Error;
use std::fmt;

/// How many cells a row has.
pub const COLUMNS: usize = 80;

/// The three sizes of a page.
#[derive(Clone, Copy, PartialEq, Eq, Hash, Debug, Default)]
pub enum PageSize {
    /// 24 rows.
    #[default]
    Rows24,
    /// 36 rows.
    Rows36,
    /// 48 rows.
    Rows48,
}

impl PageSize {
    /// All three.
    pub const ALL: [PageSize; 3] = [PageSize::Rows24, PageSize::Rows36, PageSize::Rows48];

    /// How many rows the page has.
    pub const fn rows(self) -> usize {
        match self {
            PageSize::Rows24 => 24,
            PageSize::Rows36 => 36,
            PageSize::Rows48 => 48,
        }
    }

    /// How many cells the page has.
    pub const fn cells(self) -> usize {
        COLUMNS * self.rows()
    }
}

/// How many bytes the text of a page takes. Cells past the last whole row of 80 do not count.
pub fn text_len(page: &[u16]) -> usize {
    unsafe { ffi::pankholim_text_len(page.as_ptr(), page.len()) }
}

/// The text is longer than the buffer, which is left as it was.
#[derive(Clone, Copy, PartialEq, Eq, Hash, Debug)]
pub struct TextRoom {
    /// How many bytes the text takes.
    pub needed: usize,
}

impl fmt::Display for TextRoom {
    fn fmt(&self, f: &mut fmt::Formatter) -> fmt::Result {
        write!(f, "the text takes {} bytes", self.needed)
    }
}

impl Error for TextRoom {}

/// Writes a page as UTF-8 at the front of a buffer, and returns how many bytes that were: a line of text
/// for each row, spaces at its end off, closed by a line feed.
pub fn write_text(page: &[u16], out: &mut [u8]) -> Result<usize, TextRoom> {
    let mut length = 0;
    let answer = unsafe {
        ffi::pankholim_write_text(
            page.as_ptr(),
            page.len(),
            out.as_mut_ptr(),
            out.len(),
            &mut length,
        )
    };
    if answer == 0 {
        Ok(length)
    } else {
        Err(TextRoom { needed: length })
    }
}

/// A page as text: a line of text for each row, spaces at its end off, closed by a line feed. A status line is a
/// page of one row here.
///
/// ```
/// let mut page = vec![0x20; 80];
/// page[0] = 0x41;
/// assert_eq!(pankholim::page_text(&page), "A\n");
/// ```
pub fn page_text(page: &[u16]) -> String {
    let mut bytes = vec![0; text_len(page)];
    let length = write_text(page, &mut bytes).expect("the buffer is as long as the text");
    bytes.truncate(length);
    String::from_utf8(bytes).expect("the text is UTF-8")
}
