//! Feeding in pieces, cut anywhere and with any room, changes nothing.

mod common;
use common::Random;
use pankholim::{PageSize, RowSet, Terminal};

/// A terminal with all that it replied and reported.
struct Seen {
    terminal: Terminal,
    sent: Vec<u8>,
    changed: RowSet,
    line_changed: bool,
}

impl Seen {
    fn new(size: PageSize) -> Seen {
        Seen {
            terminal: Terminal::new(size),
            sent: Vec::new(),
            changed: RowSet::EMPTY,
            line_changed: false,
        }
    }

    /// Feeds at most the whole input, and returns how much was read.
    fn feed(&mut self, input: &[u8], room: usize) -> usize {
        let mut reply = vec![0; room];
        let fed = self.terminal.feed(input, &mut reply);
        self.sent.extend_from_slice(&reply[..fed.replied]);
        self.changed = self.changed | self.terminal.take_changed_rows();
        self.line_changed |= self.terminal.take_line_changed();
        fed.read
    }

    fn same_as(&self, other: &Seen) {
        assert_eq!(self.terminal.words(), other.terminal.words());
        assert_eq!(self.sent, other.sent);
        assert_eq!(self.changed, other.changed);
        assert_eq!(self.terminal.line(), other.terminal.line());
        assert_eq!(self.line_changed, other.line_changed);
        assert_eq!(self.terminal.row(1), other.terminal.row(1));
        assert_eq!(self.terminal.row(2), other.terminal.row(2));
    }
}

#[test]
fn one_cut_anywhere() {
    let input =
        b"\x1b[?7h\x1b[5;77H1.10x\x1b(0lqk\x1b[6n\x1b[1;7mA\x1b[2;3r\x1bP1$tq\x1b\\\x9b5n\x1b[c";
    let mut whole = Seen::new(PageSize::Rows24);
    assert_eq!(whole.feed(input, 64), input.len());
    for cut in 0..=input.len() {
        let mut parts = Seen::new(PageSize::Rows24);
        assert_eq!(parts.feed(&input[..cut], 64), cut);
        assert_eq!(parts.feed(&input[cut..], 64), input.len() - cut);
        parts.same_as(&whole);
    }
}

#[test]
fn many_cuts_with_any_room() {
    let mut random = Random::new();
    let mut lines = 0;
    for round in 0..150 {
        let size = PageSize::ALL[round % 3];
        let input = random.stream(600);
        let mut whole = Seen::new(size);
        assert_eq!(whole.feed(&input, 16384), input.len());
        let mut parts = Seen::new(size);
        let mut rest = &input[..];
        while !rest.is_empty() {
            let piece = (1 + random.below(40)).min(rest.len());
            let room = random.below(22);
            let read = parts.feed(&rest[..piece], room);
            rest = &rest[read..];
        }
        parts.same_as(&whole);
        lines += whole.line_changed as usize;
    }
    assert!(lines > 75);
}

#[test]
fn a_clone_goes_its_own_way() {
    let mut one = Terminal::new(PageSize::Rows24);
    one.feed_all(b"\x1b[3;7", |_| {});
    let mut other = one.clone();
    one.feed_all(b"HA", |_| {});
    other.feed_all(b"7HB", |_| {});
    assert_eq!(one.field(3, 7, 1).unwrap(), "A");
    assert_eq!(one.field(3, 77, 1).unwrap(), "");
    assert_eq!(other.field(3, 77, 1).unwrap(), "B");
    assert_eq!(other.field(3, 7, 1).unwrap(), "");
}
