//! Colons between parameters, with expectations written by hand from the
//! request.

mod common;
use common::{parameters, Console};
use reference::cell::Rendition;
use reference::grammar::Random;
use reference::parser::{MARKED, SUBPARAMETER};
use reference::*;

/// Each parameter's value, or none where it has subparameters.
fn kept(text: &str) -> Vec<Option<u32>> {
    let list = parameters(format!("\x1B[{text}m").as_bytes());
    let one = |p: &parser::Parameter| (!p.has_subparameters).then_some(p.value);
    list.iter().map(one).collect()
}

/// Bold, underline, blink, reverse.
fn rendition(bytes: &[u8]) -> [bool; 4] {
    let Rendition {
        bold,
        underline,
        blink,
        reverse,
    } = Console::fed(bytes).state.rendition;
    [bold, underline, blink, reverse]
}

/// As the bits of a number, bold the lowest, after CSI .. m on a fresh page.
fn looks(text: &str) -> u8 {
    let flags = rendition(format!("\x1B[{text}m").as_bytes());
    (0..4).map(|n| (flags[n] as u8) << n).sum()
}

/// A list of `count` empty parameters but for the last.
fn last_of(count: usize, last: &str) -> String {
    format!("{}{last}", ";".repeat(count - 1))
}

#[test]
fn a_subparameter_belongs_to_the_parameter_before_it() {
    assert_eq!(kept("4:3;7"), [None, Some(7)]);
    assert_eq!(kept("7;4:3"), [Some(7), None]);
    assert_eq!(kept("4:3:2;1"), [None, Some(1)]);
    assert_eq!(kept("4:"), [None]);
    assert_eq!(kept("4:;7"), [None, Some(7)]);
    // The parameter before it may be empty.
    assert_eq!(kept(":"), [None]);
    assert_eq!(kept("::"), [None]);
    assert_eq!(kept(":3;1"), [None, Some(1)]);
    assert_eq!(kept(";:"), [Some(0), None]);
    assert_eq!(kept(":;"), [None, Some(0)]);
    // Its digits are not the next parameter's, nor the last one's.
    assert_eq!(kept("1;2:99999;3"), [Some(1), None, Some(3)]);
    assert_eq!(kept("10000:1;10000"), [None, Some(9_999)]);
}

#[test]
fn sixteen_places_in_all() {
    let nines = |count: usize| vec![Some(9); count];
    // The subparameter has the second place: thirteen more, and then one.
    let list = format!("4:3{};7;1", ";9".repeat(13));
    assert_eq!(kept(&list), [&[None], &nines(13)[..], &[Some(7)]].concat());
    // The sixteenth is marked by a subparameter that is dropped.
    let list = format!("9{};7:1;4", ";9".repeat(14));
    assert_eq!(kept(&list), [&nines(15)[..], &[None]].concat());
    // The seventeenth is dropped, and its subparameter marks nothing.
    let list = format!("9{};4:1;4", ";9".repeat(15));
    assert_eq!(kept(&list), nines(16));
    // The fifteenth has the sixteenth place for its subparameter.
    let list = format!("9{};7:1;4", ";9".repeat(13));
    assert_eq!(kept(&list), [&nines(14)[..], &[None]].concat());
    // Colons alone fill the places.
    for (colons, count) in [(14, 2), (15, 1), (16, 1), (40, 1)] {
        assert_eq!(kept(&format!("4{};7", ":".repeat(colons))).len(), count);
    }
}

#[test]
fn rendition_skips_what_has_subparameters() {
    let reverse = 8;
    for (text, expected) in [
        ("4:3;7", reverse),
        ("7;4:3", reverse),
        ("4:;7", reverse),
        ("4:", 0),
        (":", 0),
        ("7;:", reverse),
        ("7;:;", 0),
        (":3;1", 1),
        ("1;0:;4", 3),
        ("4:3:2;1", 1),
        ("7;0:1", reverse),
        ("1;38:2::255:0:0;5", 5),
        ("7:0;1", 1),
        ("4:10000;7", reverse),
        ("4:65536;7", reverse),
    ] {
        assert_eq!(looks(text), expected, "{text}");
    }
    // With none left it does nothing.
    for text in [":", "::", "0:", "0:1", ":0", "0:0;22:", "::::::::::::::::;"] {
        let c = Console::fed(b"\x1B[1;4;5;7m").feed(format!("\x1B[{text}m").as_bytes());
        assert_eq!(c.word(1, 1), 0x20);
        assert_eq!(
            c.state.rendition,
            Console::fed(b"\x1B[1;4;5;7m").state.rendition,
            "{text}"
        );
    }
    // About the sixteen places.
    for (text, expected) in [
        (last_of(16, "7"), reverse),
        (last_of(16, "7:"), 0),
        (last_of(17, "7:"), 0),
        (format!("7;{}", vec!["9"; 15].join(";")), reverse),
        (format!("7;{};4:3", vec!["9"; 15].join(";")), reverse),
        (format!("7;{}:3", vec!["9"; 14].join(";")), reverse),
    ] {
        assert_eq!(looks(&text), expected, "{text}");
    }
    // A mark or an intermediate makes another function, which is ignored.
    for bytes in [&b"\x1B[?4:3;7m"[..], b"\x1B[>4:3;7m", b"\x1B[4:3;7 m"] {
        assert_eq!(rendition(bytes), [false; 4]);
    }
}

#[test]
fn any_other_function_is_ignored() {
    let settings = [
        "",
        "\x1B[5;10r\x1B[?6;7h\x1B[4;20h\x1B[3;80Hz\x1BN\x1B7",
        "\x1B[1\"q\x1B[2*x\x1B[1;7m\x1B[?7h\x1B[24;80Hz\x1B G",
        "\x1B#8\x1B[?25l\x1B[7;40H\x1BH\x1B7",
    ];
    for last in [
        "A", "B", "C", "D", "H", "f", "J", "K", "X", "L", "M", "@", "P", "g", "h", "l", "r", "n",
        "c", "\"q", "!p", "$z", "${", "$x", "$v", "$r", "$t", "*x", "G", "x", " q",
    ] {
        for mark in ["", "?", ">", "<", "="] {
            for text in [
                ":",
                "2:",
                "6:1",
                ":6",
                "0:0",
                "5;1:2",
                "4:20;7",
                "6;;;;;;;;1:",
                "42;1;2;9;70;1:1",
                &last_of(16, "1:2"),
                &last_of(15, "1:2"),
            ] {
                for setting in settings {
                    let before = Console::fed(setting.as_bytes());
                    let (page, state) = (before.page.clone(), before.state.clone());
                    let bytes = format!("\x1B[{mark}{text}{last}");
                    let after = before.feed(bytes.as_bytes());
                    assert_eq!(after.page, page, "{bytes:?}");
                    assert_eq!(after.state, state, "{bytes:?}");
                    assert_eq!(after.replies, b"", "{bytes:?}");
                }
            }
        }
    }
}

#[test]
fn a_dropped_parameter_marks_nothing() {
    let c = Console::fed(b"\x1B[3;4;;;;;;;;;;;;;;;1:2H");
    assert_eq!(c.at(), (3, 4, false));
    let c = Console::fed(b"\x1B[6;;;;;;;;;;;;;;;;:::n");
    assert_eq!(c.replies, b"\x1B[1;1R");
    let c = Console::fed(b"\x1B[?7;;;;;;;;;;;;;;;;25:1;6h");
    assert!(c.state.autowrap && !c.state.origin);
    // The sixteenth is kept.
    let c = Console::fed(b"\x1B[3;4;;;;;;;;;;;;;;1:2H");
    assert_eq!(c.at(), (1, 1, false));
}

#[test]
fn where_a_colon_spoils() {
    for ignored in [
        &b"\x1B[7!:m"[..],
        b"\x1B[1\":q",
        b"\x1B[!:p",
        b"\x1B[2*:x",
        b"\x1B[5 :;7H",
        b"\x1B[:?25l",
        b"\x1B[?:?25l",
        b"\x1B[4:3<7m",
        b"\x1B[5?:;7m",
        b"\x1B[1!2:m",
    ] {
        let fresh = Console::new();
        let c = Console::fed(ignored);
        assert_eq!(c.state, fresh.state, "{ignored:?}");
        // The final is not printed, and what follows is.
        assert_eq!(Console::fed(ignored).feed(b"x").line(1), "x");
        let before = &ignored[..ignored.len() - 1];
        assert_eq!(Console::fed(before).state.parser, Parser::ControlIgnored);
    }
}

#[test]
fn colons_outside_control_sequences() {
    assert_eq!(Console::fed(b"\x1B:a\x1B(:b\x1B###:c").line(1), "abc");
    assert_eq!(Console::fed(b"\x1BP4:3;7m:\x1B\\a:b").line(1), "a:b");
    assert_eq!(Console::fed(b"\x1B]4:3\x18:").line(1), ":");
    assert_eq!(Console::fed(b"\xBA").word(1, 1), 0x3A | 2 << 7);
}

#[test]
fn bytes_between_a_colon_and_the_next() {
    for (inside, expected) in [
        (&b""[..], [false, false, false, true]),
        (b"\x7F", [false, false, false, true]),
        (b"\xFF\x00\x0E", [false, false, false, true]),
        (b"\x0A\x08", [false, false, false, true]),
        (b"\x18", [false; 4]),
        (b"\x1A", [false; 4]),
        (b"\x84", [false; 4]),
        (b"\x1B[", [false, false, false, true]),
    ] {
        let bytes = [b"\x1B[4:", inside, b"3;7m"].concat();
        assert_eq!(rendition(&bytes), expected, "{bytes:?}");
        let bytes = [b"\x1B[4", inside, b":3;7m"].concat();
        assert_eq!(rendition(&bytes), expected, "{bytes:?}");
    }
    // In the one with CSI inside, 4 is gone; a control acts.
    assert_eq!(rendition(b"\x1B[4:\x9B4m"), [false, true, false, false]);
    assert_eq!(Console::fed(b"\x1B[4:\x0A3m").at(), (2, 1, false));
    // BA and BB.
    let raised = b"\x1B[4\xBA3\xBB7m";
    assert_eq!(rendition(raised), [false, false, false, true]);
}

#[test]
fn no_reply_and_no_room() {
    for query in [
        &b"\x1B[6:1n"[..],
        b"\x1B[5;1:n",
        b"\x1B[:c",
        b"\x1B[>:c",
        b"\x9B?15:n",
    ] {
        for room in 0..=13 {
            let mut c = Console::new();
            let mut reply = vec![0xEE; room];
            let (answer, read, replied, state) =
                feed(&c.state, &mut c.page, &mut c.status_line, query, &mut reply);
            assert_eq!((answer, read, replied), (0, query.len(), 0));
            assert_eq!(state, c.state);
            assert!(reply.iter().all(|&byte| byte == 0xEE));
        }
    }
}

/// A parser as a script gives it, after these bytes of a control sequence: each
/// colon at a place that is kept sets the mark's top bit, marks the place and
/// opens one that is marked. A private mark may come first.
fn given_after(text: &[u8]) -> Given {
    let (mark, text) = match text.split_first() {
        Some((&mark @ b'<'..=b'?', rest)) => (mark, rest),
        _ => (0, text),
    };
    let mut given = Given {
        phase: 6,
        mark,
        intermediates: [0xFF; 2],
        separators: 0,
        values: [0; 16],
    };
    for &byte in text {
        let present = given.separators as usize;
        if byte.is_ascii_digit() {
            if let Some(value) = given.values.get_mut(present).filter(|v| **v != MARKED) {
                *value = (*value as u32 * 10 + (byte - b'0') as u32).min(9_999) as u16;
            }
            continue;
        }
        let colon = byte == b':';
        if colon && present < 16 {
            given.mark |= SUBPARAMETER;
            given.values[present] = MARKED;
        }
        if colon && present < 15 {
            given.values[present + 1] = MARKED;
        }
        given.separators = (given.separators + 1).min(16);
    }
    given
}

#[test]
fn what_reading_leaves() {
    let left = |text: &[u8]| {
        let given = given_after(text);
        let kept = (given.separators as usize + 1).min(16);
        (given.mark, given.separators, given.values[..kept].to_vec())
    };
    const M: u16 = MARKED;
    assert_eq!(left(b"7;4"), (0, 1, vec![7, 4]));
    assert_eq!(left(b"4:"), (0x80, 1, vec![M, M]));
    assert_eq!(left(b"4:3;7"), (0x80, 2, vec![M, M, 7]));
    assert_eq!(left(b"7;:;"), (0x80, 3, vec![7, M, M, 0]));
    assert_eq!(left(b"?6:1"), (0xBF, 1, vec![M, M]));
    let sixteen = last_of(16, "7:").into_bytes();
    assert_eq!(left(&sixteen), (0x80, 16, [&[0; 15][..], &[M]].concat()));
    let seventeen = last_of(17, "7:").into_bytes();
    assert_eq!(left(&seventeen), (0, 16, vec![0; 16]));
}

/// A sequence that goes on from such a parser ends as if all was read.
#[test]
fn given_parsers_go_on_as_read_ones() {
    let mut random = Random::new(3);
    for _ in 0..20_000 {
        let length = random.pick(&[1, 3, 8, 20, 40]);
        let signs: &[u8] = random.pick(&[&b"1457;;:"[..], b";;;;;;:", b":;1", b"190;;;;"]);
        let mut text: Vec<u8> = (0..length).map(|_| random.pick(signs)).collect();
        if random.percent(20) {
            text.insert(0, random.pick(b"<=>?"));
        }
        let rest: Vec<u8> = (0..random.below(6)).map(|_| random.pick(signs)).collect();
        let last: &[u8] = random.pick(&[
            &b"m"[..],
            b"m",
            b"m",
            b"H",
            b"h",
            b"n",
            b"$r",
            b"$z",
            b":m",
            b" m",
            b"\"q",
            b"?m",
        ]);
        let end = [&rest, last].concat();

        let read = Console::fed(b"\x1B[").feed(&text).feed(&end);
        let mut given = Console::new();
        given.state.parser = Parser::Given(given_after(&text));
        let given = given.feed(&end);
        assert_eq!(given.state, read.state, "{text:?} {end:?}");
        assert_eq!(given.page, read.page);
        assert_eq!(given.replies, read.replies);
    }
}

/// A mark at any place has m skip that one. With the mark's top bit another
/// function is ignored, whether a place is marked or not.
#[test]
fn marks_at_any_place() {
    let mut given = given_after(b"1;4;5;7");
    given.mark = SUBPARAMETER;
    for marks in 0..16u8 {
        for place in 0..4 {
            given.values[place] = match marks >> place & 1 {
                1 => MARKED,
                _ => [1, 4, 5, 7][place],
            };
        }
        let with = |end: &[u8]| {
            let mut c = Console::new();
            c.state.parser = Parser::Given(given);
            c.feed(end)
        };
        let looks = with(b"m").state.rendition;
        let flags = [looks.bold, looks.underline, looks.blink, looks.reverse];
        assert_eq!(flags, [0, 1, 2, 3].map(|n| marks >> n & 1 == 0));
        for other in [&b"H"[..], b"h", b"$z", b" m", b"\"q", b"!p", b"r"] {
            assert_eq!(with(other).state, Console::new().state);
            assert_eq!(with(other).page, Console::new().page);
        }
        // A private mark makes another function of m.
        let mut c = Console::new();
        c.state.parser = Parser::Given(Given {
            mark: SUBPARAMETER | 0x3F,
            ..given
        });
        assert_eq!(c.feed(b"m").state, Console::new().state);
        // A digit leaves a mark; a colon makes one; what is past the last does not.
        assert_eq!(with(b"0m").state.rendition.reverse, false);
        assert_eq!(with(b";m").state.rendition, Rendition::PLAIN);
        let looks = with(b":m").state.rendition;
        assert_eq!((looks.blink, looks.reverse), (marks & 4 == 0, false));
    }
    given.values[4] = MARKED;
    given.values[3] = 7;
    assert_eq!(given.separators, 3);
    let mut c = Console::new();
    c.state.parser = Parser::Given(given);
    assert!(c.feed(b"m").state.rendition.reverse);
}
