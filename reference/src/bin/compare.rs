//! Scripts for comparing another program with this one.
//!
//! `compare SEED BYTES DIR` writes DIR/stdin (the script) and DIR/stdout (what
//! this program answers). `compare --check SEED BYTES OUTPUT` compares the file
//! OUTPUT with what this program answers; exit 0 if they are the same, else 1,
//! with the first difference. Either exits with 1 if an example of
//! ../tests/examples is not met by this program, and names its file and line. With `words` for SEED the script is only the text
//! of every word of a cell.

use reference::examples;
use reference::plan::{text_of_every_word, whole};
use reference::script::{commands, Command, Machine, Script};
use reference::words::{answer_in_words, command_in_words};
use std::path::Path;
use std::process::ExitCode;

fn main() -> ExitCode {
    let words: Vec<String> = std::env::args().skip(1).collect();
    let words: Vec<&str> = words.iter().map(|word| word.as_str()).collect();
    if let Some(fault) = examples::fault() {
        println!("{fault}");
        return ExitCode::FAILURE;
    }
    match words[..] {
        ["--check", seed, bytes, output] => match script_for(seed, bytes) {
            Some(script) => check(&script, Path::new(output)),
            None => usage(),
        },
        [seed, bytes, directory] => match script_for(seed, bytes) {
            Some(script) => write(seed, &script, Path::new(directory)),
            None => usage(),
        },
        _ => usage(),
    }
}

fn usage() -> ExitCode {
    eprintln!("usage: compare SEED BYTES DIR");
    eprintln!("       compare --check SEED BYTES OUTPUT");
    eprintln!("SEED is a number, or `words` for the text of every word.");
    ExitCode::from(2)
}

fn script_for(seed: &str, bytes: &str) -> Option<Script> {
    let bytes = bytes.parse().ok()?;
    if seed == "words" {
        return Some(text_of_every_word());
    }
    Some(whole(seed.parse().ok()?, bytes))
}

/// The letters of the calls, whose output has the answer after the letter.
const CALLS: [u8; 5] = *b"SFARO";

fn write(seed: &str, script: &Script, directory: &Path) -> ExitCode {
    let mut machine = Machine::new();
    let mut output = Vec::new();
    let mut counts = [[0usize; 5]; 5];
    for command in commands(&script.bytes) {
        let place = output.len();
        machine.carry_out(command, &mut output);
        if let Some(call) = CALLS.iter().position(|&letter| letter == command.letter) {
            counts[call][output[place + 1] as usize] += 1;
        }
    }
    let written = std::fs::create_dir_all(directory)
        .and_then(|()| std::fs::write(directory.join("stdin"), &script.bytes))
        .and_then(|()| std::fs::write(directory.join("stdout"), &output));
    if let Err(error) = written {
        eprintln!("{}: {error}", directory.display());
        return ExitCode::from(2);
    }
    println!("seed          {seed}");
    println!("commands      {}", script.commands);
    println!("calls         {}", counts.iter().flatten().sum::<usize>());
    println!("input bytes   {}", script.input);
    println!("script bytes  {}", script.bytes.len());
    println!("output bytes  {}", output.len());
    println!("answers            0        1        2        3        4");
    let row = |name: &str, counts: &dyn Fn(usize) -> usize| {
        print!("{name:<11}");
        for answer in 0..5 {
            print!(" {:>8}", counts(answer));
        }
        println!();
    };
    for (call, name) in ["starting", "feeding", "asking", "reading", "a row"]
        .iter()
        .enumerate()
    {
        row(name, &|answer| counts[call][answer]);
    }
    row("all", &|answer| {
        counts.iter().map(|list| list[answer]).sum()
    });
    ExitCode::SUCCESS
}

/// How many commands are shown before the first that differs.
const SHOWN: usize = 30;

fn check(script: &Script, file: &Path) -> ExitCode {
    let found = match std::fs::read(file) {
        Ok(found) => found,
        Err(error) => {
            eprintln!("{}: {error}", file.display());
            return ExitCode::from(2);
        }
    };
    let mut machine = Machine::new();
    let mut place = 0;
    let mut earlier: Vec<Command> = Vec::new();
    let mut piece = Vec::new();
    for (number, command) in commands(&script.bytes).enumerate() {
        piece.clear();
        machine.carry_out(command, &mut piece);
        let end = (place + piece.len()).min(found.len());
        if found[place..end] != piece[..] {
            println!(
                "command {} of {}, at byte {place} of the output:",
                number + 1,
                script.commands
            );
            println!("  {}", command_in_words(&command));
            println!("expected {}", answer_in_words(&piece, piece.len()));
            println!("found    {}", answer_in_words(&found[place..], piece.len()));
            if found.len() < place + piece.len() {
                println!("the output ends there, after {} bytes", found.len());
            }
            if let Some(difference) = first_difference(&command, &piece, &found[place..]) {
                println!("{difference}");
            }
            println!("state here, after the command: {:?}", machine.state());
            println!("the commands before it, since the last start:");
            for command in &earlier[earlier.len().saturating_sub(SHOWN)..] {
                println!("  {}", command_in_words(command));
            }
            return ExitCode::FAILURE;
        }
        place = end;
        if command.letter == b'S' {
            earlier.clear();
        }
        earlier.push(command);
    }
    if place < found.len() {
        println!(
            "the same for all {} commands, but then {} bytes more",
            script.commands,
            found.len() - place
        );
        return ExitCode::FAILURE;
    }
    println!(
        "the same: {} commands, {} input bytes, {} bytes of output",
        script.commands,
        script.input,
        found.len()
    );
    ExitCode::SUCCESS
}

/// The first word of a page or line, or the first line of a text, that differs.
fn first_difference(command: &Command, expected: &[u8], found: &[u8]) -> Option<String> {
    match command.letter {
        letter @ (b'P' | b'D' | b'O') => {
            let head = if letter == b'O' { 3 } else { 1 };
            let words = |bytes: &[u8]| -> Vec<u16> {
                let bytes = bytes.get(head..).unwrap_or_default();
                let pairs = bytes.chunks_exact(2);
                pairs.map(|p| u16::from_le_bytes([p[0], p[1]])).collect()
            };
            let (expected, found) = (words(expected), words(found));
            let place = expected.iter().zip(&found).position(|(e, f)| e != f)?;
            Some(format!(
                "row {}, column {}: expected word {:04X}, found {:04X}",
                place / 80 + 1,
                place % 80 + 1,
                expected[place],
                found[place]
            ))
        }
        b'T' => {
            let lines = |bytes: &[u8]| -> Vec<String> {
                let text = bytes.get(3..).unwrap_or_default();
                let text = String::from_utf8_lossy(text).into_owned();
                text.split('\n').map(str::to_string).collect()
            };
            let (expected, found) = (lines(expected), lines(found));
            let place = expected.iter().zip(&found).position(|(e, f)| e != f)?;
            Some(format!(
                "line {}: expected {:?}, found {:?}",
                place + 1,
                expected[place],
                found[place]
            ))
        }
        _ => None,
    }
}
