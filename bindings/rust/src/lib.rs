//! Safe Rust over Pankholim, a VT420 console reader that is proved correct in Rattle.
//!
//! A [`Terminal`] is fed the bytes that a modem's serial console sends. It keeps the page and the status line as
//! a VT420 would draw them, hands out the replies to the modem's queries, and says which rows changed, and
//! whether the line did.
//!
//! ```
//! use pankholim::{PageSize, Terminal};
//!
//! let mut terminal = Terminal::new(PageSize::Rows24);
//! terminal.feed_all(b"\x1b[3;1HFirmware\x1b[3;77H1.10", |_reply| {});
//!
//! assert_eq!(terminal.field(3, 77, 4).unwrap(), "1.10");
//! assert_eq!(terminal.take_changed_rows().iter().collect::<Vec<_>>(), [3]);
//! assert!(terminal.text().starts_with("\n\nFirmware"));
//! ```
//!
//! [`Record`] is the layer below, for callers that keep pages and lines themselves. A `Terminal` always lends its
//! own page and line, of the right lengths, so only places off them are refused there; a `Record` shows every
//! answer of the library.
//!
//! The status line is a row of 80 cells beside the page. The modem says by CSI Ps $ ~ whether there is one (0
//! none, 1 and 2 a line), and by CSI Ps $ } what is active (0 the page, 1 the line): bytes act on that. CSI ! p and
//! ESC c act on the page, whichever is active, and ESC c blanks both.
//!
//! The crate links `libpankholim.a`, which `bash tools/build library` writes (x86-64 Linux), from the folder that the
//! environment variable `PANKHOLIM_LIB_DIR` names, or else from `../../target/staticlib`.

#![warn(missing_docs)]

mod answer;
mod cell;
mod ffi;
mod line;
mod page;
mod record;
mod rows;
mod terminal;
mod version;

pub use answer::{Answer, Refusal};
pub use cell::{Cell, CharSet, Rendition};
pub use line::Line;
pub use page::{page_text, text_len, write_text, PageSize, TextRoom, COLUMNS};
pub use record::{Changed, Cursor, Fed, Record, REPLY_ROOM};
pub use rows::{RowSet, Rows};
pub use terminal::Terminal;
pub use version::{version, Version};
