//! Each capture gives its text, however it is cut.

mod common;
use common::{captures, line_text};
use pankholim::{PageSize, Terminal, REPLY_ROOM};

#[test]
fn at_once() {
    for (name, bytes, text) in captures() {
        let mut terminal = Terminal::new(PageSize::Rows24);
        terminal.feed_all(&bytes, |_| {});
        assert_eq!(terminal.text(), text, "{name}");
        assert_eq!(terminal.line().text(), line_text(&name), "{name}");
    }
}

#[test]
fn in_pieces_with_little_room() {
    for (name, bytes, text) in captures() {
        for piece in [1, 2, 3, 7, 64] {
            let mut terminal = Terminal::new(PageSize::Rows24);
            for mut rest in bytes.chunks(piece) {
                while !rest.is_empty() {
                    let fed = terminal.feed(rest, &mut [0; REPLY_ROOM]);
                    assert!(fed.read > 0);
                    rest = &rest[fed.read..];
                }
            }
            assert_eq!(terminal.text(), text, "{name} in pieces of {piece}");
            assert_eq!(terminal.line().text(), line_text(&name), "{name}");
        }
    }
}

#[test]
fn fields_of_the_firmware_page() {
    let (_, bytes, _) = captures()
        .into_iter()
        .find(|(name, ..)| name == "firmware")
        .unwrap();
    let mut terminal = Terminal::new(PageSize::Rows24);
    terminal.feed_all(&bytes, |_| {});
    assert_eq!(terminal.field(3, 77, 4).unwrap(), "1.10");
    assert_eq!(terminal.field(4, 78, 3).unwrap(), "0.9");
    assert_eq!(terminal.field(6, 74, 7).unwrap(), "-61 dBm");
    assert_eq!(terminal.field(7, 1, 80).unwrap().len(), 80);
    assert_eq!(terminal.field(2, 1, 80).unwrap(), "");
    assert!(terminal.cell(1, 2).unwrap().rendition().reverse);
    let changed: Vec<usize> = terminal.take_changed_rows().iter().collect();
    assert_eq!(changed, [1, 3, 4, 6, 7, 9]);
    assert!(terminal.take_changed_rows().is_empty());
}
