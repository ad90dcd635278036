//! What several tests use.
#![allow(dead_code)]

use std::fs;
use std::path::PathBuf;

/// xorshift64, always from the same seed.
pub struct Random(u64);

impl Random {
    pub fn new() -> Random {
        Random(0x9E37_79B9_7F4A_7C15)
    }

    pub fn below(&mut self, bound: usize) -> usize {
        self.0 ^= self.0 << 13;
        self.0 ^= self.0 >> 7;
        self.0 ^= self.0 << 17;
        (self.0 >> 33) as usize % bound
    }

    /// A byte that is often part of a sequence.
    pub fn byte(&mut self) -> u8 {
        let parts = b"\x1b\x1b[[[;;0123456789?!\"#$()HJKLMPXm@rhlgnc}~\n\r\x08\tAB";
        if self.below(3) == 0 {
            self.below(256) as u8
        } else {
            parts[self.below(parts.len())]
        }
    }

    /// Such bytes, and now and then a change to the status line or back.
    pub fn stream(&mut self, length: usize) -> Vec<u8> {
        let changes = [TO_LINE, b"\x1b[1$}", TO_PAGE, TO_PAGE, b"\x1b[$~"];
        let mut stream = Vec::new();
        while stream.len() < length {
            if self.below(50) == 0 {
                stream.extend_from_slice(changes[self.below(changes.len())]);
            } else {
                stream.push(self.byte());
            }
        }
        stream.truncate(length);
        stream
    }
}

/// There is a line, and it is active.
pub const TO_LINE: &[u8] = b"\x1b[1$~\x1b[1$}";

/// The page is active.
pub const TO_PAGE: &[u8] = b"\x1b[$}";

/// Each capture's name, bytes and text.
pub fn captures() -> Vec<(String, Vec<u8>, String)> {
    let folder = PathBuf::from(env!("CARGO_MANIFEST_DIR")).join("../../captures");
    let mut captures = Vec::new();
    for entry in fs::read_dir(folder).unwrap() {
        let path = entry.unwrap().path();
        if path.extension().is_some_and(|ending| ending == "bytes") {
            let name = path.file_stem().unwrap().to_string_lossy().into_owned();
            let text = fs::read_to_string(path.with_extension("txt")).unwrap();
            captures.push((name, fs::read(path).unwrap(), text));
        }
    }
    assert!(captures.len() >= 14);
    captures
}

/// The text of a capture's status line, if it has one.
pub fn line_text(name: &str) -> String {
    let folder = PathBuf::from(env!("CARGO_MANIFEST_DIR")).join("../../captures");
    let text = fs::read_to_string(folder.join(format!("{name}.line.txt"))).unwrap_or_default();
    text.trim_end_matches('\n').to_string()
}
