//! The functions of `include/pankholim.h`.

/// As `pankholim_terminal`. Any bytes are safe.
#[repr(C)]
#[derive(Clone)]
pub struct Terminal {
    pub opaque: [u64; 15],
}

/// As `pankholim_part`.
#[repr(C)]
pub struct Part {
    pub cells: *const u16,
    pub length: usize,
}

extern "C" {
    pub fn pankholim_version() -> u32;

    pub fn pankholim_start(
        terminal: *mut Terminal,
        rows: usize,
        page: *mut u16,
        cells: usize,
        line: *mut u16,
        line_cells: usize,
    ) -> u8;

    pub fn pankholim_feed(
        terminal: *mut Terminal,
        page: *mut u16,
        cells: usize,
        line: *mut u16,
        line_cells: usize,
        input: *const u8,
        length: usize,
        reply: *mut u8,
        room: usize,
        read: *mut usize,
        replied: *mut usize,
    ) -> u8;

    pub fn pankholim_ask(
        terminal: *mut Terminal,
        changed: *mut u64,
        count: *mut u32,
        line_changed: *mut u8,
    ) -> u8;

    pub fn pankholim_row(
        terminal: Terminal,
        page: *const u16,
        cells: usize,
        line: *const u16,
        line_cells: usize,
        row: usize,
        part: *mut Part,
    ) -> u8;

    pub fn pankholim_read(
        terminal: *const Terminal,
        page: *const u16,
        cells: usize,
        row: usize,
        column: usize,
        word: *mut u16,
    ) -> u8;

    pub fn pankholim_cursor(
        terminal: *const Terminal,
        row: *mut usize,
        column: *mut usize,
        wrap: *mut u8,
        shown: *mut u8,
    ) -> u8;

    pub fn pankholim_text_len(page: *const u16, cells: usize) -> usize;

    pub fn pankholim_write_text(
        page: *const u16,
        cells: usize,
        text: *mut u8,
        room: usize,
        length: *mut usize,
    ) -> u8;
}
