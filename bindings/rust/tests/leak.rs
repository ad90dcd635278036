//! Nothing of page and line reaches the modem: over two pages and lines the same input does the same.

mod common;
use common::{captures, Random};
use pankholim::{Answer, Fed, Line, PageSize, Record, Refusal};

/// Where a record has the line's flag.
const FLAG: usize = 114;

/// A terminal over a page and a line that hold any words.
struct Side {
    record: Record,
    page: Vec<u16>,
    line: Line,
}

impl Side {
    /// Every cell holds the word; the line's flag is set or not.
    fn over(rows: usize, word: u16, flag: bool) -> Side {
        let mut page = vec![0; 80 * rows];
        let mut line = Line::new();
        let mut bytes = Record::start(rows, &mut page, &mut line)
            .unwrap()
            .to_bytes();
        bytes[FLAG] = flag as u8;
        page.fill(word);
        line.fill(word);
        Side {
            record: Record::from_bytes(bytes),
            page,
            line,
        }
    }

    fn feed(&mut self, input: &[u8], room: usize) -> (Fed, Vec<u8>) {
        let mut reply = vec![0; room];
        let fed = self
            .record
            .feed(&mut self.page, &mut self.line, input, &mut reply)
            .unwrap();
        reply.truncate(fed.replied);
        (fed, reply)
    }

    /// Asked, read, and refused feedings: what the modem does not see.
    fn disturb(&mut self, random: &mut Random) {
        self.record.ask().unwrap();
        self.record
            .read(&self.page, 1 + random.below(24), 80)
            .unwrap();
        self.record.row(&self.page, &self.line, 1).unwrap();
        let (page, line) = (&mut self.page, &mut self.line);
        let input = b"\x1b[c";
        let refused = self.record.feed(&mut page[1..], line, input, &mut [0; 11]);
        assert_eq!(refused, Err(Refusal::WrongSize));
        let refused = self.record.feed(page, &mut line[1..], input, &mut [0; 11]);
        assert_eq!(refused, Err(Refusal::WrongSize));
    }

    /// The record's bytes but for its first 8, the changed rows, and the line's flag.
    fn lasting(&self) -> Vec<u8> {
        let mut bytes = self.record.to_bytes();
        bytes[FLAG] = 0;
        bytes[8..].to_vec()
    }
}

/// Feedings of both sides that sent something, and that found no room.
#[derive(Default)]
struct Counts {
    replied: usize,
    stopped: usize,
}

impl Counts {
    fn are_many(&self) -> bool {
        self.replied > 20 && self.stopped > 20
    }
}

/// Feeds both in pieces, with any room.
fn compare(random: &mut Random, rows: usize, input: &[u8], counts: &mut Counts) {
    let cells = rows * 80;
    let mut one = Side::over(rows, 0xFFFF, random.below(2) == 1);
    let mut other = Side::over(rows, 0x20, random.below(2) == 1);
    let mut rest = input;
    while !rest.is_empty() {
        if random.below(3) == 0 {
            one.disturb(random);
        }
        // Other words, also where both pages, or both lines, were erased.
        for _ in 0..20 {
            one.page[random.below(cells)] = random.below(65536) as u16;
            one.line[random.below(80)] = random.below(65536) as u16;
        }
        assert_ne!(one.page, other.page);
        assert_ne!(one.line, other.line);
        let piece = (1 + random.below(40)).min(rest.len());
        let room = random.below(22);
        let (fed, sent) = one.feed(&rest[..piece], room);
        assert_eq!((fed, sent), other.feed(&rest[..piece], room));
        assert_eq!(one.lasting(), other.lasting());
        counts.replied += (fed.replied > 0) as usize;
        counts.stopped += (fed.answer == Answer::NoRoom) as usize;
        rest = &rest[fed.read..];
    }
}

#[test]
fn captures_over_two_pages() {
    let mut random = Random::new();
    let mut counts = Counts::default();
    for round in 0..30 {
        for (_, bytes, _) in captures() {
            compare(
                &mut random,
                PageSize::ALL[round % 3].rows(),
                &bytes,
                &mut counts,
            );
        }
    }
    assert!(counts.are_many());
}

#[test]
fn any_bytes_over_two_pages() {
    let mut random = Random::new();
    let mut counts = Counts::default();
    for round in 0..150 {
        let input = random.stream(600);
        compare(
            &mut random,
            PageSize::ALL[round % 3].rows(),
            &input,
            &mut counts,
        );
    }
    assert!(counts.are_many());
}
