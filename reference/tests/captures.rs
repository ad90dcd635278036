//! Each capture gives the text that was written for it by hand, however it is
//! cut.

mod common;
use common::Console;
use reference::plan::CAPTURES;
use reference::text;
use std::collections::BTreeSet;
use std::path::PathBuf;

fn directory() -> PathBuf {
    // Tests run in the package's directory.
    PathBuf::from("../captures")
}

fn names() -> BTreeSet<String> {
    let mut names = BTreeSet::new();
    for entry in std::fs::read_dir(directory()).unwrap() {
        let path = entry.unwrap().path();
        if path.extension().is_some_and(|end| end == "bytes") {
            names.insert(path.file_stem().unwrap().to_str().unwrap().to_string());
        }
    }
    names
}

#[test]
fn each_capture_gives_its_text() {
    for name in names() {
        let bytes = std::fs::read(directory().join(format!("{name}.bytes"))).unwrap();
        let expected = std::fs::read_to_string(directory().join(format!("{name}.txt"))).unwrap();
        for length in [bytes.len(), 1, 2, 3, 5, 7, 64] {
            let mut console = Console::new();
            for piece in bytes.chunks(length) {
                console.more(piece);
            }
            let found = String::from_utf8(text(&console.page)).unwrap();
            assert_eq!(found, expected, "{name} in pieces of {length}");
            let found = String::from_utf8(text(&console.status_line)).unwrap();
            assert_eq!(found, line_of(&name), "{name} in pieces of {length}");
        }
    }
}

/// The status line's text, as one line: that of NAME.line.txt, or else blank.
fn line_of(name: &str) -> String {
    let file = directory().join(format!("{name}.line.txt"));
    std::fs::read_to_string(file).unwrap_or("\n".to_string())
}

/// A text of the line belongs to a capture, and at least one has something in it.
#[test]
fn each_line_has_its_capture() {
    let mut written = 0;
    for entry in std::fs::read_dir(directory()).unwrap() {
        let file = entry.unwrap().file_name().into_string().unwrap();
        if let Some(name) = file.strip_suffix(".line.txt") {
            assert!(names().contains(name), "{name}");
            written += (line_of(name).trim() != "") as usize;
        }
    }
    assert!(written > 0);
}

/// The plan has the same captures, and nothing is missing.
#[test]
fn the_plan_has_every_capture() {
    let planned: BTreeSet<String> = CAPTURES.iter().map(|(name, _)| name.to_string()).collect();
    assert_eq!(planned, names());
    for (name, bytes) in CAPTURES {
        let file = std::fs::read(directory().join(format!("{name}.bytes"))).unwrap();
        assert_eq!(bytes, file, "{name}");
    }
}
