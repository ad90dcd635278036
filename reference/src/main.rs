//! Reads standard input into a 24-row page and writes the page as 24 lines.

use reference::{feed, start, text};
use std::io::{self, Read, Write};

fn main() -> io::Result<()> {
    let mut page = vec![0; 24 * 80];
    let mut line = vec![0; 80];
    let (_, mut state) = start(24, &mut page, &mut line);
    let mut input = io::stdin().lock();
    let mut chunk = [0; 4096];
    loop {
        let length = match input.read(&mut chunk) {
            Ok(0) => break,
            Ok(length) => length,
            Err(error) if error.kind() == io::ErrorKind::Interrupted => continue,
            Err(error) => return Err(error),
        };
        let mut rest = &chunk[..length];
        while !rest.is_empty() {
            // Replies go nowhere; after answer 3 there is room again.
            let mut reply = [0; 256];
            let (_, read, _, after) = feed(&state, &mut page, &mut line, rest, &mut reply);
            state = after;
            rest = &rest[read..];
        }
    }
    io::stdout().write_all(&text(&page))
}
