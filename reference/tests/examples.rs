//! The eleven examples of SCOPE 11.

mod common;
use common::Console;
use reference::*;

#[test]
fn example_1() {
    let c = Console::fed(b"\x1B[5;77H1.10");
    assert_eq!(c.word(5, 77), '1' as u16);
    assert_eq!(c.word(5, 78), '.' as u16);
    assert_eq!(c.word(5, 79), '1' as u16);
    assert_eq!(c.word(5, 80), '0' as u16);
    assert_eq!(c.at(), (5, 80, false));
    assert!(c.blank_but(&[5]));
}

#[test]
fn example_2() {
    let c = Console::fed(b"\x1B[?7h\x1B[5;77H1.10");
    assert_eq!(c.at(), (5, 80, true));
    let c = c.feed(b"x");
    assert_eq!(c.word(6, 1), 'x' as u16);
    assert_eq!(c.word(5, 80), '0' as u16);
    assert_eq!(c.at(), (6, 2, false));
}

#[test]
fn example_3() {
    assert_eq!(Console::fed(b"\x1B[99;99H").at(), (24, 80, false));
}

#[test]
fn example_4() {
    let c = Console::fed(b"\x1B[9;9H\x1B[3;3r");
    assert_eq!((c.state.top, c.state.bottom), (1, 24));
    assert_eq!(c.at(), (9, 9, false));
    let c = c.feed(b"\x1B[3;4r");
    assert_eq!((c.state.top, c.state.bottom), (3, 4));
    assert_eq!(c.at(), (1, 1, false));
}

#[test]
fn example_5() {
    let c = Console::fed(b"\x1B[6;10r\x1B[?6h\x1B[2;5H\x1B[6n");
    assert_eq!(c.at(), (7, 5, false));
    assert_eq!(c.replies, b"\x1B[2;5R");
}

#[test]
fn example_6() {
    let mut c = Console::new();
    let page = c.page.clone();
    let mut reply = [0xEE; 5];
    let (answer, read, replied, state) = feed(
        &c.state,
        &mut c.page,
        &mut c.status_line,
        b"\x1B[6n",
        &mut reply,
    );
    assert_eq!((answer, read, replied), (3, 3, 0));
    assert_eq!(reply, [0xEE; 5]);
    assert_eq!(c.page, page);
    // The final alone, with room, is then answered.
    let mut more = [0xEE; 7];
    let (answer, read, replied, after) =
        feed(&state, &mut c.page, &mut c.status_line, b"n", &mut more);
    assert_eq!((answer, read, replied), (0, 1, 6));
    assert_eq!(&more, b"\x1B[1;1R\xEE");
    let mut reply = [0xEE; 6];
    let (answer, read, replied, at_once) = feed(
        &c.state,
        &mut c.page,
        &mut c.status_line,
        b"\x1B[6n",
        &mut reply,
    );
    assert_eq!((answer, read, replied), (0, 4, 6));
    assert_eq!(&reply, b"\x1B[1;1R");
    assert_eq!(after, at_once);
}

#[test]
fn example_7() {
    let c = Console::fed(b"\x1B[2\x18J");
    assert_eq!(c.line(1), "J");
    assert_eq!(c.at(), (1, 2, false));
    let c = Console::fed(b"\x1B[1:2AB");
    assert_eq!(c.line(1), "B");
}

#[test]
fn example_8() {
    let mut c = Console::new();
    let page = c.page.clone();
    let (answer, read, replied, state) =
        feed(&c.state, &mut c.page, &mut c.status_line, b"", &mut []);
    assert_eq!((answer, read, replied), (0, 0, 0));
    assert_eq!(state, c.state);
    assert_eq!(page, c.page);
}

#[test]
fn example_9() {
    let mut c = Console::fed(b"A");
    assert_eq!(c.ask(), [1]);
    c.more(b"\x1B[HA");
    assert_eq!(c.ask(), [0; 0]);
    c.more(b"\x1B[24H\n");
    assert_eq!(c.ask(), [1]);
}

#[test]
fn example_10() {
    let mut c = Console::fed(b"\x1B[?7h\x1B[24HA\x1B[24;80H ");
    assert_eq!(c.at(), (24, 80, true));
    assert_eq!(c.ask(), [24]);
    c.more(b"A");
    assert_eq!(c.ask(), [23, 24]);
    assert_eq!(c.lines(22, 24), ["", "A", "A"]);
}

#[test]
fn example_11() {
    let c = Console::fed(b"\x1B[c\x1B[5n\x1B[6n");
    assert_eq!(c.replies, b"\x1B[?64;6c\x1B[0n\x1B[1;1R");
    assert_eq!(c.replies.len(), 18);
}

// ---- The examples as text ----------------------------------------------------

#[test]
fn the_examples_in_text_are_met() {
    if let Some(fault) = examples::fault() {
        panic!("{fault}");
    }
}

/// The list has every file, with its text.
#[test]
fn every_file_of_examples_is_there() {
    let mut names = Vec::new();
    for entry in std::fs::read_dir("../tests/examples").unwrap() {
        let path = entry.unwrap().path();
        if path.extension().is_some_and(|end| end == "test") {
            names.push(path.file_stem().unwrap().to_str().unwrap().to_string());
        }
    }
    names.sort();
    let listed: Vec<&str> = examples::FILES.iter().map(|(name, _)| *name).collect();
    assert_eq!(listed, names);
    for (name, text) in examples::FILES {
        let file = std::fs::read_to_string(format!("../tests/examples/{name}.test")).unwrap();
        assert_eq!(text, file, "{name}");
    }
}
