//! Colons between parameters: subparameters, and what they mark.

use super::*;

/// Room for any one reply, and for one that should not come.
const ROOMS: std::ops::RangeInclusive<u16> = 0..=13;

/// Numbers with a separator after each but the last: a colon at these places,
/// else a semicolon. A colon after the last is written too.
fn joined(numbers: &[&str], colons: &[usize]) -> String {
    let mut text = String::new();
    for (place, number) in numbers.iter().enumerate() {
        text.push_str(number);
        if colons.contains(&place) {
            text.push(':');
        } else if place + 1 < numbers.len() {
            text.push(';');
        }
    }
    text
}

/// Origin with margins, insert, wrap due, a shift, protection with a saved
/// cursor, 8-bit replies, and, without origin, margins below the cursor, by the
/// bits of the number; with insert there is a status line; a tab at the cursor.
fn begin_with(s: &mut Script, rows: u16, situation: usize) {
    begin_in(s, rows, situation % 32);
    match situation & 32 {
        0 => s.feed(b"\x88", 0),
        _ => s.feed(b"\x88\x1B G", 0),
    }
    if situation & 64 != 0 && situation & 1 == 0 {
        s.field(TOP, 9);
        s.field(BOTTOM, 12);
    }
    if situation & 2 != 0 {
        s.field(LINE_EXISTS, 1);
    }
    s.view();
    s.ask();
}

const SITUATIONS: usize = 128;

/// A situation in turn: numbers one after the other have all of them, and any
/// six have each bit.
fn in_turn(number: usize) -> usize {
    (number * 37 + number / SITUATIONS) % SITUATIONS
}

/// The bytes in a situation in turn, and what is then there.
fn try_in_turn(s: &mut Script, number: usize, bytes: &[u8]) {
    let rows = SIZES[number / 3 % 3];
    begin_with(s, rows, in_turn(number));
    s.feed(bytes, ROOM);
    s.view();
    s.ask();
    if number % 3 == 0 {
        s.page();
    }
    s.feed(b"q\xF1", 0);
    s.view();
    s.ask();
    s.read(7, 40);
    s.read(7, 80);
    s.read(8, 1);
}

// ---- Places -----------------------------------------------------------------

/// How many places there are.
const PLACES: [usize; 7] = [1, 2, 14, 15, 16, 17, 18];

/// What stands before the numbers; the first numbers, and the one that fills the
/// other places; what stands after.
const LONG: [(&str, &[&str], &str, &str); 15] = [
    ("", &["3", "41"], "5", "H"),
    ("", &["9", "70"], "", "f"),
    ("", &["5", "10"], "2", "r"),
    ("", &["42", "6", "39", "8", "79"], "1", "$x"),
    ("", &["6", "39", "7", "80", "1", "7", "40", "1"], "3", "$v"),
    ("", &["6", "39", "8", "79", "1", "7"], "4", "$r"),
    ("", &["6", "39", "8", "79"], "5", "$t"),
    ("", &["6", "39", "8", "79"], "9", "$z"),
    ("", &["4", "20"], "4", "h"),
    ("", &["20", "4"], "9", "l"),
    ("?", &["25", "7"], "6", "l"),
    ("?", &["7", "9", "6"], "25", "h"),
    ("", &["6"], "5", "n"),
    ("?", &["6"], "15", "n"),
    ("", &["2"], "1", "*x"),
];

/// 1, 2 and about sixteen places with a colon at each: for m, then for functions
/// with many parameters. Colons at each two places for m, at every twentieth two,
/// in turn, for the others.
pub fn colon_places() -> Script {
    let mut s = Script::new();
    one_value_in_each_place(&mut s);
    two_colons(&mut s);
    let mut number = 0usize;
    for (mark, own, filling, last) in LONG {
        for places in PLACES {
            let mut numbers: Vec<&str> = own.iter().copied().take(places).collect();
            numbers.resize(places, filling);
            let mut cases: Vec<Vec<usize>> = vec![vec![]];
            cases.extend((0..places).map(|place| vec![place]));
            let pairs = pairs_below(places);
            cases.extend(pairs.into_iter().skip(number % 20).step_by(20));
            for colons in cases {
                let text = joined(&numbers, &colons);
                try_in_turn(&mut s, number, &csi(&format!("{mark}{text}{last}")));
                number += 1;
            }
            let text = joined(&numbers, &[]);
            try_in_turn(&mut s, number, &csi(&format!("{mark}:{text}{last}")));
            number += 1;
        }
    }
    s
}

fn pairs_below(places: usize) -> Vec<Vec<usize>> {
    let mut list = Vec::new();
    for second in 0..places {
        for first in 0..second {
            list.push(vec![first, second]);
        }
    }
    list
}

/// Each place has the one value that shows, with a colon at each: is it obeyed?
fn one_value_in_each_place(s: &mut Script) {
    for places in [2, 16, 17, 18] {
        for colon in 0..places {
            s.start_right(24);
            for place in 0..places {
                let mut numbers = vec!["9"; places];
                numbers[place] = "7";
                s.feed(&csi(&format!("{}m", joined(&numbers, &[colon]))), 0);
                s.view();
                // The same the other way round.
                if place % 4 == colon % 4 {
                    numbers[place] = "";
                    s.feed(b"\x9B1;4;5;7m", 0);
                    s.feed(&csi(&format!("{}m", joined(&numbers, &[colon]))), 0);
                    s.view();
                }
                s.feed(b"x\x9Bm", 0);
            }
            s.ask();
            s.page();
        }
    }
}

/// Colons at each two places: attributes only where they are skipped, 0 only
/// where it is skipped, and any values.
fn two_colons(s: &mut Script) {
    let mut random = Random::new(16);
    let any = [
        "0", "", "1", "4", "5", "7", "22", "24", "25", "27", "9", "01", "9999",
    ];
    let mut number = 0usize;
    for places in PLACES {
        for colons in pairs_below(places) {
            let skipped = |place: usize| {
                colons.contains(&place) || (place > 0 && colons.contains(&(place - 1)))
            };
            let attributes = ["1", "4", "5", "7"];
            let numbers: Vec<&str> = (0..places)
                .map(|place| match (number % 3, skipped(place)) {
                    (0, true) | (1, false) => attributes[(place + number) % 4],
                    (0, false) => "9",
                    (1, true) => "0",
                    _ => random.pick(&any),
                })
                .collect();
            s.start_right(24);
            if number % 4 == 3 {
                s.feed(b"\x9B1;4;5;7m", 0);
            }
            s.feed(&csi(&format!("{}m", joined(&numbers, &colons))), 0);
            s.view();
            s.feed(b"x", 0);
            s.read(1, 1);
            number += 1;
        }
    }
}

// ---- Renditions -------------------------------------------------------------

/// What stands between CSI and m.
const RENDITIONS: [&str; 52] = [
    "4:3;7",
    "7;4:3",
    "4:3",
    "4:",
    ":",
    ";:",
    ":;",
    "::",
    ":;:",
    "4:;7",
    "4:;",
    "0:1",
    "0:",
    "1;0:;4",
    "1;0:4;5",
    "1;;0:;",
    "4:3:2;1",
    "4:3:2:1",
    "4:3;7:",
    "4:3;7;",
    "4:3;7;0",
    "4:3;0;7",
    ":3;1",
    ":3",
    "::3;1",
    "1:;4:;5:;7:",
    "1:;4;5:;7",
    "1;4:;5;7:",
    "1;4:22;5;7:25",
    "22;4:24",
    "22:;24;25:0;27",
    "38:2::255:128:0;1",
    "1;38:2::255:128:0;4;48:5:7;7",
    "38;2;1;4;7",
    "4:10000;7",
    "4:99999;7",
    "4:65536;7",
    "4:00000000000000000001;7",
    "7:18446744073709551616;4",
    "99999:1;7",
    "10000;7",
    "10000:",
    "65537:1;5",
    // Many colons: the 16 places are full, and 7 is dropped or not.
    "::::::::::::::::::::",
    "7::::::::::::::::::::",
    "4::::::::::::::;7",
    "4:::::::::::::::;7",
    "4::::::::::::::::::::;7",
    "7;::::::::::::::::::::;1",
    ";;;;;;;;;;;;;;7:1;4",
    ";;;;;;;;;;;;;;;7:1;4",
    ";;;;;;;;;;;;;;;7;4:1",
];

/// Each with no attribute before it and with all four: at once, in the one-byte
/// form, with the top bits set, byte by byte, and in two calls, cut everywhere.
pub fn colon_renditions() -> Script {
    let mut s = Script::new();
    for (n, text) in RENDITIONS.iter().enumerate() {
        let long = [b"\x1B[", text.as_bytes(), b"m"].concat();
        let short = [b"\x9B", text.as_bytes(), b"m"].concat();
        let raise = |byte: &u8| if *byte < 0x80 { byte | 0x80 } else { *byte };
        let raised: Vec<u8> = short.iter().map(raise).collect();
        let colons_raised: Vec<u8> = short
            .iter()
            .map(|&byte| if byte == b':' { 0xBA } else { byte })
            .collect();
        for before in [&b"\x9Bm"[..], b"\x9B1;4;5;7m"] {
            let mut ways: Vec<Vec<&[u8]>> = vec![vec![&long], vec![&raised]];
            ways.push(vec![&colons_raised]);
            ways.push(short.chunks(1).collect());
            for cut in 1..short.len() {
                // Around a colon always, elsewhere in turn.
                if short[cut - 1] == b':' || short[cut] == b':' || (cut + n) % 4 == 0 {
                    ways.push(vec![&short[..cut], &short[cut..]]);
                }
            }
            s.start_right(24);
            for (column, way) in ways.iter().enumerate() {
                s.feed(before, 0);
                for piece in way {
                    s.feed(piece, 0);
                    s.view();
                }
                s.feed(b"q", 0);
                s.read(1, column as u16 + 1);
            }
            s.ask();
            s.page();
        }
    }
    in_situations(&mut s);
    s
}

/// Four renditions in every situation.
fn in_situations(s: &mut Script) {
    for text in ["4:3;7", ":", "7;4:3;1", "0:1"] {
        for number in 0..SITUATIONS {
            try_in_turn(s, number, &csi(&format!("{text}m")));
        }
    }
}

// ---- Every function ---------------------------------------------------------

/// Mark, parameters, intermediate, final: every control function of the scope,
/// and some that are none.
const CONTROL_FUNCTIONS: [(&str, &str, &str, &str); 56] = [
    ("", "2", "", "A"),
    ("", "2", "", "B"),
    ("", "3", "", "C"),
    ("", "3", "", "D"),
    ("", "3;5", "", "H"),
    ("", "", "", "H"),
    ("", "9;70", "", "f"),
    ("", "", "", "J"),
    ("", "1", "", "J"),
    ("", "2", "", "J"),
    ("", "0", "", "K"),
    ("", "1", "", "K"),
    ("?", "2", "", "J"),
    ("?", "1", "", "K"),
    ("", "4", "", "X"),
    ("", "2", "", "L"),
    ("", "2", "", "M"),
    ("", "3", "", "@"),
    ("", "3", "", "P"),
    ("", "0", "", "g"),
    ("", "3", "", "g"),
    ("", "4", "", "h"),
    ("", "20", "", "h"),
    ("", "4;20", "", "l"),
    ("?", "6", "", "h"),
    ("?", "6", "", "l"),
    ("?", "7", "", "h"),
    ("?", "7", "", "l"),
    ("?", "25;7", "", "h"),
    ("?", "25", "", "l"),
    ("", "7", "", "m"),
    ("", "1;4", "", "m"),
    ("", "0", "", "m"),
    ("", "1", "\"", "q"),
    ("", "0", "\"", "q"),
    ("", "5;10", "", "r"),
    ("", "", "!", "p"),
    ("", "5", "", "n"),
    ("", "6", "", "n"),
    ("?", "6", "", "n"),
    ("?", "15", "", "n"),
    ("", "", "", "c"),
    (">", "0", "", "c"),
    ("", "6;39;8;79", "$", "z"),
    ("", "6;39;8;79", "$", "{"),
    ("", "113;6;39;8;79", "$", "x"),
    ("", "6;39;7;80;1;7;40;1", "$", "v"),
    ("", "6;39;8;79;1;7", "$", "r"),
    ("", "6;39;8;79;1;7", "$", "t"),
    ("", "2", "*", "x"),
    ("", "1", "$", "~"),
    ("", "1", "$", "}"),
    // Not listed.
    ("?", "7", "", "m"),
    (">", "4", "", "m"),
    ("", "5", "", "G"),
    ("", "7", "$", "m"),
];

/// A place that no function uses, and about where the sixteen end.
fn with_places_after(parameters: &str, place: usize, end: &str) -> String {
    let there = 1 + parameters.matches(';').count();
    format!("{parameters}{}{end}", ";".repeat(place - there))
}

/// The parameters with a colon: as first byte, after the last and the first
/// number, for a semicolon, in a parameter that is not used, in the sixteenth,
/// and in the seventeenth, where it marks nothing.
fn with_a_colon(parameters: &str) -> Vec<String> {
    let (first, rest) = match parameters.split_once(';') {
        Some((first, rest)) => (first, format!(";{rest}")),
        None => (parameters, String::new()),
    };
    let mut list = vec![
        format!(":{parameters}"),
        format!("{parameters}:"),
        format!("{parameters}:1"),
        format!("{first}:2{rest}"),
        with_places_after(parameters, 9, "1:2"),
        with_places_after(parameters, 15, "1:"),
        with_places_after(parameters, 16, "1:2"),
        with_places_after(parameters, 16, "1;1:2"),
    ];
    if !rest.is_empty() {
        list.push(parameters.replacen(';', ":", 1));
        list.push(parameters.replace(';', ":"));
    }
    list
}

/// The same function with other marks and intermediates, and colons where they
/// spoil it.
fn only_like_a_function((mark, parameters, own, last): (&str, &str, &str, &str)) -> Vec<String> {
    let mut list = Vec::new();
    for other in ["", "<", "=", ">", "?"] {
        if other != mark {
            list.push(format!("{other}{parameters}:1{own}{last}"));
        }
    }
    for other in ["", " ", "!", "\"", "$", "*", "'", "$$", "*$"] {
        if other != own {
            list.push(format!("{mark}{parameters}:1{other}{last}"));
        }
    }
    let intermediate = if own.is_empty() { " " } else { own };
    list.push(format!("{mark}{parameters}{intermediate}:{last}"));
    list.push(format!("{mark}{parameters}{intermediate}1:2{last}"));
    list.push(format!("{mark}{parameters}:{intermediate}:{last}"));
    list.push(format!(":{mark}{parameters}{own}{last}"));
    list.push(format!("{mark}:{mark}{parameters}{own}{last}"));
    list.push(format!("{mark}{parameters}?:{own}{last}"));
    list
}

/// Each function with colons, each in six situations; what is only like it in
/// one; and without a colon, once.
pub fn colons_in_functions() -> Script {
    let mut s = Script::new();
    let mut number = 0usize;
    for function in CONTROL_FUNCTIONS {
        let (mark, parameters, intermediate, last) = function;
        for text in with_a_colon(parameters) {
            for _ in 0..6 {
                let bytes = csi(&format!("{mark}{text}{intermediate}{last}"));
                try_in_turn(&mut s, number, &bytes);
                // What is saved is still there.
                s.feed(b"\x1B8q", 0);
                s.view();
                number += 1;
            }
        }
        let plain = format!("{mark}{parameters}{intermediate}{last}");
        for bytes in only_like_a_function(function).iter().chain([&plain]) {
            try_in_turn(&mut s, number, &csi(bytes));
            number += 1;
        }
    }
    s
}

// ---- Where a colon is no subparameter ----------------------------------------

/// Colons behind each intermediate, marks behind a colon, colons in what is
/// ignored, in escape sequences, strings and text; controls around a colon.
pub fn colons_elsewhere() -> Script {
    let mut list: Vec<Vec<u8>> = Vec::new();
    for intermediate in 0x20..=0x2Fu8 {
        let sign = intermediate as char;
        for (before, after) in [("7", ":"), ("2;2;4;80;1", ":1"), ("1:1", ":"), ("?6", "1:")] {
            for last in ["m", "H", "q", "p", "x", "z", "r"] {
                list.push(csi(&format!("{before}{sign}{after}{last}x")));
            }
        }
        list.push(csi(&format!("1{sign}{sign}:qx")));
        list.push(csi(&format!("1{sign}\u{7F}\n:4;7mx")));
    }
    for mark in ["<", "=", ">", "?"] {
        for before in ["", "7", "4:3", "4:3;7", "7;", "?", "?6", ">"] {
            for after in ["", "6", ";7", ":1"] {
                for last in ["m", "h", "n"] {
                    list.push(csi(&format!("{before}:{mark}{after}{last}x")));
                }
            }
        }
    }
    for ignored in ["7?", "??", "1!2", "1!!!", "7!:", ":?", "<>"] {
        for after in [":", ":7", ";7:1;4", "::::::::::::::::::;7", ": !"] {
            for last in ["m", "h", "H"] {
                list.push(csi(&format!("{ignored}{after}{last}x")));
            }
        }
    }
    for bytes in [
        &b"\x1B:x"[..],
        b"\x1B(:x",
        b"\x1B(%:5x",
        b"\x1B\xBAx",
        b"\x1B###:x",
        b"\x1B[7\x1B:mx",
        b"\x1BP4:3;7m\x1B\\x",
        b"\x9D8;;a:b\x9Cx",
        b"\x9F4:3\x18:x",
        b":x",
        b"4:3;7m",
        b"\xBAx\x0E:\xBA",
        b"\x8E:x",
    ] {
        list.push(bytes.to_vec());
    }
    list.extend(controls_around_a_colon());
    let mut s = Script::new();
    for (number, bytes) in list.iter().enumerate() {
        try_in_turn(&mut s, number, bytes);
    }
    s
}

/// Each control, and 7F, FF and ESC with a byte, before and after a colon.
fn controls_around_a_colon() -> Vec<Vec<u8>> {
    let mut list = Vec::new();
    for control in (0x00..=0x1F).chain(0x7F..=0x9F).chain([0xFF]) {
        for (before, after) in [
            (&b"\x9B4:"[..], &b"3;7mx"[..]),
            (b"\x9B4", b":3;7mx"),
            (b"\x9B4:3;7", b":mx"),
            (b"\x9B", b":;7mx"),
            (b"\x9B3:", b";5Hx"),
        ] {
            list.push([before, &[control], after].concat());
        }
    }
    list
}

/// A colon in each phase of the parser, then more of a sequence.
pub fn colons_in_each_phase() -> Script {
    let mut s = Script::new();
    let mut number = 0usize;
    for phase in PHASES {
        for colon in [0x3A, 0xBA] {
            for rest in [
                &b"m"[..],
                b"7m",
                b";7m",
                b"1;7m",
                b":;7m",
                b"5H",
                b";5H",
                b"$x",
                b"?m",
            ] {
                try_in_turn(&mut s, number, &[phase, &[colon], rest].concat());
                number += 1;
            }
        }
    }
    s
}

// ---- Calls and replies ------------------------------------------------------

/// Sequences in two calls, cut everywhere, and byte by byte; all fields and rows
/// after each call.
pub fn colons_in_calls() -> Script {
    let mut s = Script::new();
    let sequences: [&[u8]; 9] = [
        b"\x9B4:3;7m",
        b"\x9B3:4;5H",
        b"\x9B?7:1;25l",
        b"\x9B6;39;8;79;1:4$r",
        b"\x9B1:1\"q",
        b"\x9B6:1n",
        b"\x9B5;1:n",
        b"\x9B:!p",
        b"\x9B;;;;;;;;;;;;;;;7:1;4m",
    ];
    let mut number = 0usize;
    for sequence in sequences {
        let halves = (0..=sequence.len()).map(|cut| vec![&sequence[..cut], &sequence[cut..]]);
        for pieces in halves.chain([sequence.chunks(1).collect()]) {
            begin_with(&mut s, SIZES[number % 3], in_turn(number));
            for piece in pieces {
                s.feed(piece, ROOM);
                s.view();
                s.ask();
            }
            s.feed(b"q\xF1", 0);
            look_at_all(&mut s);
            number += 1;
        }
    }
    s
}

/// What asks for nothing, for the colon in it, with every room: it is read whole.
pub fn colon_rooms() -> Script {
    let queries: [&[u8]; 15] = [
        b"\x1B[6:1n",
        b"\x1B[5;1:n",
        b"\x1B[5:n",
        b"\x1B[6:n",
        b"\x1B[:6n",
        b"\x1B[6;:n",
        b"\x1B[?6:1n",
        b"\x1B[?15;1:n",
        b"\x1B[?:6n",
        b"\x1B[:c",
        b"\x1B[0:c",
        b"\x1B[0;1:2c",
        b"\x1B[>:c",
        b"\x1B[>0;:c",
        // The subparameter of a seventeenth: this one asks.
        b"\x1B[6;;;;;;;;;;;;;;;;1:2n",
    ];
    let mut s = Script::new();
    for (n, query) in queries.iter().enumerate() {
        for room in ROOMS {
            s.start_right(SIZES[n % 3]);
            if room % 2 == 1 {
                s.feed(b"\x1B G", 0);
            }
            s.feed(&[b"ab", *query, b"cd"].concat(), room);
            look(&mut s);
            s.feed(&[*query, b"\x1B[6ne"].concat(), room);
            s.ask();
            s.feed(b"n\x18", room + 1);
            look(&mut s);
        }
    }
    s
}

// ---- Parsers that are set ---------------------------------------------------

/// At the edges, without and with the top bit.
const GIVEN_MARKS: [u8; 14] = [
    0x00, 0x3B, 0x3C, 0x3F, 0x40, 0x7F, 0x80, 0x81, 0xBA, 0xBB, 0xBC, 0xBF, 0xC0, 0xFF,
];

/// All that are whole, by turns without and with the top bit.
const WHOLE_MARKS: [u8; 10] = [0x00, 0x80, 0x3C, 0xBC, 0x3D, 0xBD, 0x3E, 0xBE, 0x3F, 0xBF];

const GIVEN_VALUES: [u16; 4] = [9_999, MARKED, MARKED + 1, 65_535];

/// What is in the other places that are kept.
#[derive(Clone, Copy)]
enum Others {
    Plain,
    /// The next one is marked.
    OneMarked,
    AllMarked,
}

const OTHERS: [Others; 3] = [Others::Plain, Others::OneMarked, Others::AllMarked];

/// So many places with one value, which is perhaps past the last that is kept.
/// What else is past the last is out of range; it is no part of the state.
fn given_with(separators: u8, place: usize, value: u16, others: Others) -> Given {
    let kept = (separators as usize + 1).min(16);
    let mut given = Given { separators, ..IDLE };
    given.values[..kept].fill(match others {
        Others::AllMarked => MARKED,
        _ => 7,
    });
    if let Others::OneMarked = others {
        given.values[(place + 1) % kept] = MARKED;
    }
    given.values[place] = value;
    given
}

/// Separators, a place and a value: each of the values in the first, the last
/// and the first uncounted place.
fn given_places() -> Vec<(u8, usize, u16)> {
    let mut list = Vec::new();
    for separators in [0, 1, 14, 15, 16] {
        let kept = (separators as usize + 1).min(16);
        let mut places = vec![0, kept - 1, kept];
        places.retain(|&place| place < 16);
        places.dedup();
        for place in places {
            list.extend(GIVEN_VALUES.map(|value| (separators, place, value)));
        }
    }
    list
}

/// How a sequence goes on before an intermediate.
const RESTS: [&[u8]; 29] = [
    b"m", b"1m", b";1m", b":m", b":1m", b":;1m", b"1:;4m", b"::;5m", b";:;5m", b"H", b"5H", b";5H",
    b":5H", b"r", b"h", b"l", b";6h", b"n", b"c", b"J", b"$z", b"$r", b":$t", b"\"q", b"!p", b" m",
    b"!:m", b":?m", b"?m",
];

const AFTER_INTERMEDIATE: [&[u8]; 9] = [b"q", b"p", b"r", b"x", b"z", b"m", b":q", b"\"q", b"1:m"];

const IN_OTHER_PHASES: [&[u8]; 8] = [
    b"x",
    b":x",
    b":7mx",
    b"7x",
    b"\x18\x9B4:3;7mx",
    b"\x1B[7mx",
    b"\x9B;5Hx",
    b"\x9Cx",
];

/// Every phase with these marks and values: is it whole? Then the sequence goes
/// on, in one way, in turn; before an intermediate in every way.
pub fn marked_parsers() -> Script {
    let mut s = Script::new();
    let mut number = 0usize;
    for mark in GIVEN_MARKS {
        for (separators, place, value) in given_places() {
            for phase in 0..11 {
                let others = OTHERS[(number + number / 33) % 3];
                let given = Given {
                    phase,
                    mark,
                    intermediates: PAIRS[number / 4 % 4],
                    ..given_with(separators, place, value, others)
                };
                let rests = rests_in(phase);
                parser_goes_on(&mut s, number, &given, rests[number / 11 % rests.len()]);
                number += 1;
            }
            for others in OTHERS {
                let given = Given {
                    phase: 6,
                    mark,
                    ..given_with(separators, place, value, others)
                };
                if !given.is_whole() {
                    parser_goes_on(&mut s, number, &given, b"m");
                    number += 1;
                    continue;
                }
                // With others marked in every third way, in turn.
                for (n, rest) in RESTS.iter().enumerate() {
                    if matches!(others, Others::Plain) || n % 3 == number % 3 {
                        parser_goes_on(&mut s, number, &given, rest);
                    }
                    number += 1;
                }
            }
        }
    }
    for rest in RESTS {
        for number in 0..8 {
            parser_goes_on(&mut s, number, &Given { phase: 5, ..IDLE }, rest);
        }
    }
    top_bit_alone(&mut s);
    marks_before_an_intermediate(&mut s);
    marks_anywhere(&mut s);
    s
}

const PAIRS: [[u8; 2]; 4] = [[0x22, 0x21], [0x24, 0x24], [0x2A, 0x20], [0x21, 0x22]];

/// Where nothing is read of a control sequence, what is left over is dropped.
fn rests_in(phase: u8) -> &'static [&'static [u8]] {
    match phase {
        5 => &[
            b"\x18x",
            b"\x9B:7mx",
            b"\x1B[4:3;7mx",
            b"\x9B;5Hx",
            b"\x1Ax",
        ],
        6 => &RESTS,
        7 | 8 => &AFTER_INTERMEDIATE,
        _ => &IN_OTHER_PHASES,
    }
}

/// Numbers alone, with every mark that is whole: with the top bit only m acts.
/// No byte that is read leaves that.
fn top_bit_alone(s: &mut Script) {
    let mut number = 0usize;
    for mark in WHOLE_MARKS {
        for separators in [0, 1, 3, 14, 15, 16] {
            for numbers in [[6, 7, 4, 1], [7, 6, 25, 5], [4, 20, 9, 70]] {
                let mut given = Given {
                    phase: 6,
                    mark,
                    separators,
                    ..IDLE
                };
                let kept = (separators as usize + 1).min(16);
                for place in 0..kept {
                    given.values[place] = numbers[place % 4];
                }
                for (n, rest) in RESTS.iter().enumerate() {
                    if mark & 0x7F == 0 || n % 2 == number % 2 {
                        parser_goes_on(s, number, &given, rest);
                    }
                    number += 1;
                }
            }
        }
    }
}

/// Functions with an intermediate, after it, with every mark that is whole: with
/// and without a marked place.
fn marks_before_an_intermediate(s: &mut Script) {
    // The intermediate, the final, and numbers with which it acts.
    let functions: [(u8, &[u8], [u16; 4]); 11] = [
        (b'"', b"q", [1, 0, 0, 0]),
        (b'"', b"m", [7, 4, 1, 5]),
        (b'!', b"p", [0, 0, 0, 0]),
        (b'*', b"x", [2, 0, 0, 0]),
        (b'$', b"z", [6, 39, 8, 80]),
        (b'$', b"{", [6, 39, 8, 80]),
        (b'$', b"x", [42, 6, 8, 24]),
        (b'$', b"v", [6, 39, 8, 80]),
        (b'$', b"r", [6, 39, 8, 80]),
        (b'$', b"t", [6, 39, 8, 80]),
        (b' ', b"m", [7, 4, 1, 5]),
    ];
    let mut number = 0usize;
    for mark in WHOLE_MARKS {
        for (intermediate, last, numbers) in functions {
            for separators in [0, 3, 4, 15, 16] {
                for marked in [None, Some(0), Some(separators as usize)] {
                    let mut given = Given {
                        phase: 7,
                        mark,
                        separators,
                        ..IDLE
                    };
                    given.intermediates[0] = intermediate;
                    let kept = (separators as usize + 1).min(16);
                    given.values[..kept].fill(1);
                    given.values[..kept.min(4)].copy_from_slice(&numbers[..kept.min(4)]);
                    match marked {
                        Some(_) if mark & SUBPARAMETER == 0 => continue,
                        Some(place) => given.values[place.min(15)] = MARKED,
                        None => {}
                    }
                    parser_goes_on(s, number, &given, last);
                    number += 1;
                }
            }
        }
    }
}

/// Marks at any of a few places, and at random ones of sixteen.
fn marks_anywhere(s: &mut Script) {
    let mut random = Random::new(10_000);
    let mut list = Vec::new();
    let few = Given {
        phase: 6,
        mark: SUBPARAMETER,
        ..IDLE
    };
    for separators in 0..4u8 {
        for marks in 0..2u16 << separators {
            let mut given = Given { separators, ..few };
            for place in 0..=separators as usize {
                given.values[place] = match marks >> place & 1 {
                    1 => MARKED,
                    _ => [1, 4, 5, 7][place],
                };
            }
            list.push(given);
        }
    }
    for _ in 0..60 {
        let separators = random.pick(&[13, 14, 15, 16]);
        let often = random.pick(&[5, 20, 50]);
        let mut given = Given { separators, ..few };
        for value in &mut given.values {
            *value = match random.percent(often) {
                true => MARKED,
                false => random.pick(&[0, 1, 4, 5, 7, 22, 24, 25, 27, 99]),
            };
        }
        list.push(given);
    }
    for (n, given) in list.iter().enumerate() {
        for (number, rest) in RESTS.iter().enumerate() {
            if number < 9 || number % 4 == n % 4 {
                parser_goes_on(s, n + number, given, rest);
            }
            // With a private mark m is ignored too.
            if number % 7 == n % 7 {
                let mark = SUBPARAMETER | [0x3C, 0x3D, 0x3E, 0x3F][n / 7 % 4];
                parser_goes_on(s, n, &Given { mark, ..*given }, rest);
            }
        }
    }
}

/// Is it whole? Then the rest is read, and two signs.
fn parser_goes_on(s: &mut Script, number: usize, given: &Given, rest: &[u8]) {
    s.start_right(24);
    origin_insert_wrap(s, number % 8);
    s.parser(given);
    s.ask();
    s.feed(b"", 1);
    s.read(7, 40);
    if !given.is_whole() {
        s.feed(&rest[..1], ROOM);
        s.view();
        return;
    }
    s.feed(rest, ROOM);
    s.view();
    s.feed(b"q\xF1", ROOM);
    s.view();
    s.ask();
    if number % 8 == 0 {
        s.page();
    }
}

#[cfg(test)]
mod tests {
    use super::*;

    /// Feeds a function in a situation; is all as before, and was nothing sent?
    fn is_ignored(situation: usize, bytes: &[u8]) -> bool {
        let mut s = Script::new();
        begin_with(&mut s, 24, situation);
        let mut machine = Machine::new();
        let mut output = Vec::new();
        for command in commands(&s.bytes) {
            machine.carry_out(command, &mut output);
        }
        let before = machine.state().clone();
        let page = |machine: &mut Machine| {
            let mut s = Script::new();
            s.page();
            let mut output = Vec::new();
            for command in commands(&s.bytes) {
                machine.carry_out(command, &mut output);
            }
            output
        };
        let page_before = page(&mut machine);
        let mut s = Script::new();
        s.feed(bytes, 0);
        output.clear();
        for command in commands(&s.bytes) {
            machine.carry_out(command, &mut output);
        }
        output[1] == 0 && *machine.state() == before && page(&mut machine) == page_before
    }

    /// Each listed function but m is ignored with a colon in one of sixteen
    /// places, and acts somewhere with one in the seventeenth.
    #[test]
    fn a_colon_has_a_function_ignored() {
        for (mark, parameters, intermediate, last) in CONTROL_FUNCTIONS {
            if (mark, intermediate, last) == ("", "", "m") {
                continue;
            }
            let bytes = |text: &str| csi(&format!("{mark}{text}{intermediate}{last}"));
            let acts = |text: &str| (0..SITUATIONS).any(|n| !is_ignored(n, &bytes(text)));
            let seventeenth = with_places_after(parameters, 16, "1;1:2");
            for text in with_a_colon(parameters) {
                if text != seventeenth {
                    assert!(!acts(&text), "{text}{intermediate}{last}");
                }
            }
            let listed = !matches!(last, "m" | "G");
            assert_eq!(acts(parameters), listed, "{parameters}{last}");
            assert_eq!(acts(&seventeenth), listed, "{seventeenth}{last}");
        }
    }

    #[test]
    fn situations_come_in_turn() {
        for first in 0..200 {
            let first = first * SITUATIONS;
            let mut seen: Vec<usize> = (first..first + SITUATIONS).map(in_turn).collect();
            seen.sort();
            assert_eq!(seen, (0..SITUATIONS).collect::<Vec<_>>());
        }
        for first in 0..20_000 {
            let six: Vec<usize> = (first..first + 6).map(in_turn).collect();
            for bit in 0..7 {
                assert!(six.iter().any(|n| n >> bit & 1 == 1));
                assert!(six.iter().any(|n| n >> bit & 1 == 0));
            }
        }
    }

    #[test]
    fn this_part_is_not_too_long() {
        let parts = [
            colon_places(),
            colon_renditions(),
            colons_in_functions(),
            colons_elsewhere(),
            colons_in_each_phase(),
            colons_in_calls(),
            colon_rooms(),
            marked_parsers(),
        ];
        let input: usize = parts.iter().map(|part| part.input).sum();
        assert!(input < 500_000, "{input}");
    }
}
