//! Commands and what they wrote, in words.

use crate::script::{Command, VIEW_BYTES, VIEW_LINE};

pub fn command_in_words(command: &Command) -> String {
    let Command { letter, a, b, .. } = command;
    match letter {
        b'S' => format!("S: start with R = {a} on {b} words"),
        b'L' => format!("L: lend {a} words"),
        b'F' => {
            let input = bytes_in_words(command.following, 2_000);
            format!("F: feed {a} bytes with room {b}: {input}")
        }
        b'A' => "A: ask".to_string(),
        b'R' => format!("R: read row {a}, column {b}"),
        b'P' => "P: page".to_string(),
        b'T' => "T: text".to_string(),
        b'W' => format!("W: word {a} is {b:04X}"),
        b'B' => format!("B: field {a} is {b}"),
        b'Q' => format!("Q: parser {:02X?}", command.following),
        b'V' => "V: view of the state".to_string(),
        b'M' => format!("M: lend {a} words of the line"),
        b'I' => format!("I: word {a} of the line is {b:04X}"),
        b'D' => "D: line".to_string(),
        b'O' => format!("O: row {a} of what is active"),
        _ => format!("{}", *letter as char),
    }
}

/// Bytes as in a byte string.
pub fn bytes_in_words(bytes: &[u8], most: usize) -> String {
    let shown: String = bytes[..bytes.len().min(most)]
        .iter()
        .map(|&byte| match byte {
            b'"' | b'\\' => format!("\\{}", byte as char),
            0x20..=0x7E => (byte as char).to_string(),
            _ => format!("\\x{byte:02X}"),
        })
        .collect();
    let more = if bytes.len() > most { " ..." } else { "" };
    format!("\"{shown}\"{more}")
}

/// What a command wrote; `length` is how much this program writes.
pub fn answer_in_words(bytes: &[u8], length: usize) -> String {
    let number = |place: usize| {
        let byte = |place: usize| bytes.get(place).copied().unwrap_or(0) as usize;
        byte(place) + 256 * byte(place + 1)
    };
    let piece = &bytes[..bytes.len().min(length)];
    match piece {
        [] => "nothing: the output ends".to_string(),
        [b'S', answer] => format!("answer {answer}"),
        [b'F', answer, _, _, _, _, reply @ ..] => {
            let reply = bytes_in_words(reply, 400);
            format!(
                "answer {answer}, {} read, reply length {}, reply buffer {reply}",
                number(2),
                number(4)
            )
        }
        [b'A', answer, set @ .., count, line_changed] if set.len() == 8 => {
            let rows: Vec<usize> = (0..64)
                .filter(|row| set[row / 8] >> (row % 8) & 1 == 1)
                .map(|row| row + 1)
                .collect();
            format!("answer {answer}, rows {rows:?}, number {count}, line changed {line_changed}")
        }
        [b'R', answer, _, _] => format!("answer {answer}, word {:04X}", number(2)),
        [b'P', ..] => "a page".to_string(),
        [b'D', ..] => "a line".to_string(),
        [b'O', answer, count, ..] => format!("answer {answer}, {count} words"),
        [b'T', ..] => format!("a text of {} bytes", number(1)),
        [b'V', fields @ ..] if fields.len() == VIEW_BYTES => {
            let [row, column, wrap_due, top, bottom] = [1, 2, 3, 4, 5].map(|n| fields[n]);
            let [exists, active, line_column, line_due] =
                [0, 1, 2, 3].map(|n| fields[VIEW_LINE + n]);
            format!(
                "cursor {row},{column}, wrap due {wrap_due}, margins {top} and {bottom}; \
                 line {exists}, active {active}, column {line_column}, wrap due {line_due}; \
                 all fields {fields:?}"
            )
        }
        _ => bytes_in_words(piece, 400),
    }
}
