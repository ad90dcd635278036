//! Writes a hostile stream to standard output: `stream SEED LENGTH`.

use reference::grammar::stream;
use std::io::{self, Write};

fn main() -> io::Result<()> {
    let numbers: Vec<u64> = std::env::args()
        .skip(1)
        .filter_map(|word| word.parse().ok())
        .collect();
    match numbers[..] {
        [seed, length] => io::stdout().write_all(&stream(seed, length as usize)),
        _ => {
            eprintln!("usage: stream SEED LENGTH");
            std::process::exit(2)
        }
    }
}
