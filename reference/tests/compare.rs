//! The program that writes and checks scripts.

use std::path::{Path, PathBuf};
use std::process::Command;

fn compare(words: &[&str]) -> (i32, String) {
    let output = Command::new(env!("CARGO_BIN_EXE_compare"))
        .args(words)
        .output()
        .unwrap();
    let shown = String::from_utf8(output.stdout).unwrap();
    (output.status.code().unwrap(), shown)
}

fn file(directory: &Path, name: &str) -> String {
    directory.join(name).to_str().unwrap().to_string()
}

#[test]
fn a_difference_is_found() {
    let directory = PathBuf::from(env!("CARGO_TARGET_TMPDIR")).join("compare");
    let path = directory.to_str().unwrap();
    let (code, shown) = compare(&["words", "0", path]);
    assert_eq!(code, 0);
    // A start, a lending, every word, and a text for every 80.
    assert!(shown.contains("commands      66358\n"), "{shown}");

    let answered = std::fs::read(directory.join("stdout")).unwrap();
    let output = file(&directory, "stdout");
    assert_eq!(compare(&["--check", "words", "0", &output]).0, 0);

    let other = file(&directory, "other");
    for place in [1, answered.len() / 2, answered.len() - 1] {
        let mut changed = answered.clone();
        changed[place] ^= 1;
        std::fs::write(&other, &changed).unwrap();
        let (code, shown) = compare(&["--check", "words", "0", &other]);
        assert_eq!(code, 1);
        assert!(shown.contains("of 66358, at byte"), "{shown}");
    }
    let mut longer = answered.clone();
    longer.push(0);
    for changed in [&answered[..answered.len() - 1], &answered[..1], &longer] {
        std::fs::write(&other, changed).unwrap();
        assert_eq!(compare(&["--check", "words", "0", &other]).0, 1);
    }
    assert_eq!(compare(&["--check", "words", "0", "no such file"]).0, 2);
    assert_eq!(compare(&["words"]).0, 2);
}
