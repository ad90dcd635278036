//! Debian's alacritty_terminal for C: a terminal without history is fed bytes, and the lines that it calls damaged are
//! asked for. bench/alacritty.c declares these functions.

use std::alloc::{GlobalAlloc, Layout, System};
use std::cell::Cell;
use std::rc::Rc;
use std::sync::atomic::{AtomicUsize, Ordering::Relaxed};

use alacritty_terminal::ansi::Processor;
use alacritty_terminal::config::Config;
use alacritty_terminal::event::{Event, EventListener};
use alacritty_terminal::grid::Dimensions;
use alacritty_terminal::index::{Column, Line};
use alacritty_terminal::term::{Term, TermDamage};

// ---- the allocator, counted

struct Counted;

static BYTES: AtomicUsize = AtomicUsize::new(0);
static PIECES: AtomicUsize = AtomicUsize::new(0);

unsafe impl GlobalAlloc for Counted {
    unsafe fn alloc(&self, layout: Layout) -> *mut u8 {
        BYTES.fetch_add(layout.size(), Relaxed);
        PIECES.fetch_add(1, Relaxed);
        System.alloc(layout)
    }

    unsafe fn dealloc(&self, piece: *mut u8, layout: Layout) {
        BYTES.fetch_sub(layout.size(), Relaxed);
        PIECES.fetch_sub(1, Relaxed);
        System.dealloc(piece, layout)
    }
}

#[global_allocator]
static COUNTED: Counted = Counted;

/// What is allocated, of all terminals.
#[no_mangle]
pub extern "C" fn alacritty_memory(bytes: &mut usize, pieces: &mut usize) {
    *bytes = BYTES.load(Relaxed);
    *pieces = PIECES.load(Relaxed);
}

// ---- a terminal

struct Size {
    rows: usize,
    columns: usize,
}

impl Dimensions for Size {
    fn total_lines(&self) -> usize {
        self.rows
    }

    fn screen_lines(&self) -> usize {
        self.rows
    }

    fn columns(&self) -> usize {
        self.columns
    }
}

/// Counts the bytes of the replies.
struct Replies(Rc<Cell<u64>>);

impl EventListener for Replies {
    fn send_event(&self, event: Event) {
        if let Event::PtyWrite(text) = event {
            self.0.set(self.0.get() + text.len() as u64);
        }
    }
}

pub struct Terminal {
    term: Term<Replies>,
    processor: Processor,
    replied: Rc<Cell<u64>>,
    size: Size,
}

#[no_mangle]
pub extern "C" fn alacritty_start(rows: usize, columns: usize) -> Box<Terminal> {
    let mut config = Config::default();
    let size = Size { rows, columns };
    let replied = Rc::new(Cell::new(0));

    config.scrolling.set_history(0);
    let mut term = Term::new(&config, &size, Replies(replied.clone()));
    term.reset_damage();
    Box::new(Terminal {
        term,
        processor: Processor::new(),
        replied,
        size,
    })
}

/// Feeds some bytes. The answer is the set of lines that are damaged, line 1 as the lowest bit.
///
/// # Safety
///
/// `bytes` are `length` bytes.
#[no_mangle]
pub unsafe extern "C" fn alacritty_feed(
    terminal: &mut Terminal,
    bytes: *const u8,
    length: usize,
) -> u64 {
    for &byte in std::slice::from_raw_parts(bytes, length) {
        terminal.processor.advance(&mut terminal.term, byte);
    }
    let lines = match terminal.term.damage(None) {
        TermDamage::Full => (1 << terminal.size.rows) - 1,
        TermDamage::Partial(lines) => lines.fold(0, |set, line| set | 1 << line.line),
    };
    terminal.term.reset_damage();
    lines
}

/// Bytes replied since the start.
#[no_mangle]
pub extern "C" fn alacritty_replied(terminal: &Terminal) -> u64 {
    terminal.replied.get()
}

/// The character of a cell; row and column from 0. Where HT left a blank cell, the
/// cell holds 09, and shows as a blank.
#[no_mangle]
pub extern "C" fn alacritty_read(terminal: &Terminal, row: usize, column: usize) -> u32 {
    match terminal.term.grid()[Line(row as i32)][Column(column)].c {
        '\t' => ' '.into(),
        shown => shown.into(),
    }
}

#[no_mangle]
pub extern "C" fn alacritty_stop(terminal: Box<Terminal>) {
    drop(terminal);
}
