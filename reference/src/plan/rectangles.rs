//! The functions on rectangles, and the extent of changes of attributes.

use super::*;

/// Into the extent of a rectangle.
const RECTANGLE: &[u8] = b"\x9B2*x";

/// What is fed before, and what stands before and after the four edges: erase,
/// selective erase, fill; change and reverse attributes in either extent.
const FUNCTIONS: [(&[u8], &str, &str); 7] = [
    (b"", "", "$z"),
    (b"", "", "${"),
    (b"\x9B1;7m\x9B1\"q", "42;", "$x"),
    (b"", "", ";7$r"),
    (RECTANGLE, "", ";7$r"),
    (b"", "", ";5$t"),
    (RECTANGLE, "", ";5$t"),
];

/// Top, left, bottom, right.
type Edges = [u16; 4];

fn vertical(rows: u16) -> [u16; 5] {
    [0, 1, rows, rows + 1, 9_999]
}

const HORIZONTAL: [u16; 5] = [0, 1, 80, 81, 9_999];

/// Every four edges out of the five.
fn edges_at_the_page(rows: u16) -> Vec<Edges> {
    let mut list = Vec::new();
    for top in vertical(rows) {
        for bottom in vertical(rows) {
            for left in HORIZONTAL {
                for right in HORIZONTAL {
                    list.push([top, left, bottom, right]);
                }
            }
        }
    }
    list
}

/// Edges inside the page, and some of both kinds.
fn edges_inside(rows: u16) -> Vec<Edges> {
    let mut list = Vec::new();
    for (top, bottom) in [(2, 2), (2, 6), (6, 7), (7, 6), (5, rows - 1)] {
        for (left, right) in [(2, 2), (2, 79), (40, 79), (40, 39)] {
            list.push([top, left, bottom, right]);
        }
    }
    let mut random = Random::new(rows as u64);
    let low = [0, 1, 1, 2, 5, 6];
    let high = [0, 6, 7, rows - 5, rows - 4, rows - 1, rows, 9_999];
    for _ in 0..24 {
        let (top, bottom) = (random.pick(&low), random.pick(&high));
        let left = random.pick(&[0, 1, 1, 2, 3, 39, 40]);
        let right = random.pick(&[0, 2, 40, 41, 78, 79, 80, 9_999]);
        list.push([top, left, bottom, right]);
    }
    list
}

/// Parameters; a 0 in every second place is left empty, in turn.
fn written(numbers: &[u16], number: usize) -> String {
    let one = |(place, &value): (usize, &u16)| match (value, (place + number) % 2) {
        (0, 0) => String::new(),
        _ => value.to_string(),
    };
    let list: Vec<String> = numbers.iter().enumerate().map(one).collect();
    list.join(";")
}

/// The rows and columns beside each edge of the page and of margins 5 and 10.
fn marked(rows: u16) -> Vec<(u16, u16)> {
    let mut list = Vec::new();
    for row in [1, 2, 4, 5, 6, 10, 11, rows - 1, rows] {
        for column in [1, 2, 40, 79, 80] {
            list.push((row, column));
        }
    }
    list
}

/// Words with flags and unused bits there.
fn mark(s: &mut Script, rows: u16) {
    for (row, column) in marked(rows) {
        s.word_at(row, column, word_of(row, column));
    }
}

fn look_at_marked(s: &mut Script, rows: u16) {
    for (row, column) in marked(rows) {
        s.read(row, column);
    }
}

fn margins_and_origin(s: &mut Script) {
    s.field(TOP, 5);
    s.field(BOTTOM, 10);
    s.field(ORIGIN, 1);
    s.field(ROW, 7);
}

/// The state, the changed rows, and every cell.
pub(super) fn look_at_all(s: &mut Script) {
    s.view();
    s.ask();
    s.page();
}

// ---- Edges ------------------------------------------------------------------

/// Each function but copy with every four edges of the page's, without and with
/// origin; with 36 and 48 rows every ninth, in turn. Then edges inside.
pub fn rectangle_edges() -> Script {
    let mut s = Script::new();
    let mut number = 0usize;
    for rows in SIZES {
        let every = if rows == 24 { 1 } else { 9 };
        for (before, first, last) in FUNCTIONS {
            for origin in [false, true] {
                let edges = edges_at_the_page(rows);
                let turn = (number + rows as usize) % every;
                for (n, edges) in edges.iter().skip(turn).step_by(every).enumerate() {
                    if n % 25 == 0 {
                        begin(&mut s, rows, before, origin);
                    }
                    mark(&mut s, rows);
                    let parameters = written(edges, number);
                    s.feed(&csi(&format!("{first}{parameters}{last}")), 0);
                    s.view();
                    s.ask();
                    match n % 3 {
                        0 => s.page(),
                        _ => look_at_marked(&mut s, rows),
                    }
                    number += 1;
                }
                for edges in edges_inside(rows).iter().step_by(every.min(3)) {
                    begin(&mut s, rows, before, origin);
                    mark(&mut s, rows);
                    let parameters = written(edges, number);
                    s.feed(&csi(&format!("{first}{parameters}{last}")), 0);
                    look_at_all(&mut s);
                    number += 1;
                }
            }
        }
    }
    s
}

fn begin(s: &mut Script, rows: u16, before: &[u8], origin: bool) {
    s.start_right(rows);
    if origin {
        margins_and_origin(s);
    }
    if !before.is_empty() {
        s.feed(before, 0);
    }
}

pub(super) fn csi(rest: &str) -> Vec<u8> {
    [b"\x9B", rest.as_bytes()].concat()
}

// ---- Copies -----------------------------------------------------------------

/// A source's edges, and a destination's top and left.
type Copied = (Edges, [u16; 2]);

/// Every four edges of the page's, each with two destinations, in turn.
fn copies_at_the_page(rows: u16) -> Vec<Copied> {
    let mut list = Vec::new();
    for (n, edges) in edges_at_the_page(rows).into_iter().enumerate() {
        for turn in [n * 7 + n / 25, n * 11 + n / 25 + 13] {
            let top = vertical(rows)[turn % 5];
            let left = HORIZONTAL[turn / 5 % 5];
            list.push((edges, [top, left]));
        }
    }
    list
}

fn copy((edges, [top, left]): Copied, number: usize) -> Vec<u8> {
    let [first, second, third, fourth] = edges;
    // Pages 0 and 1 are the same page.
    let (from, to) = ((number / 2 % 2) as u16, (number / 4 % 2) as u16);
    let numbers = [first, second, third, fourth, from, top, left, to];
    csi(&format!("{}$v", written(&numbers, number)))
}

/// Copies with source and destination at the page's edges, without origin and,
/// with one of the two destinations, with it; pages that there are not; sources
/// that meet their destination.
pub fn rectangle_copies() -> Script {
    let mut s = Script::new();
    let mut number = 0usize;
    for rows in SIZES {
        for origin in [false, true] {
            let every = match rows {
                24 => 1 + origin as usize,
                _ => 13,
            };
            let copies = copies_at_the_page(rows);
            for &copied in copies.iter().skip(number % every).step_by(every) {
                begin(&mut s, rows, b"", origin);
                mark(&mut s, rows);
                s.feed(&copy(copied, number), 0);
                s.view();
                s.ask();
                match number % 2 {
                    0 => s.page(),
                    _ => look_at_marked(&mut s, rows),
                }
                number += 1;
            }
            for from in ["", "0", "1", "2", "9999"] {
                for to in ["", "0", "1", "2", "9999"] {
                    begin(&mut s, rows, b"", origin);
                    mark(&mut s, rows);
                    s.feed(&csi(&format!("1;1;2;2;{from};3;40;{to}$v")), 0);
                    look_at_all(&mut s);
                }
            }
        }
        copies_that_overlap(&mut s, rows);
    }
    s
}

/// Rectangles of several shapes, at the edges too, moved in each of the eight
/// directions and not at all, by 1, 2 and 5 rows and columns.
fn copies_that_overlap(s: &mut Script, rows: u16) {
    let shapes: [Edges; 9] = [
        [8, 20, 11, 25],
        [8, 20, 8, 27],
        [8, 20, 14, 20],
        [8, 1, 9, 80],
        [1, 1, 3, 4],
        [1, 77, 3, 80],
        [rows - 2, 1, rows, 4],
        [rows - 2, 76, rows, 80],
        [rows - 4, 74, rows - 1, 79],
    ];
    for (n, [top, left, bottom, right]) in shapes.into_iter().enumerate() {
        for by in [1, 2, 5] {
            for direction in 0..9 {
                let down = (direction / 3) as i32 - 1;
                let across = (direction % 3) as i32 - 1;
                let target = |from: u16, way: i32| (from as i32 + by * way).max(1) as u16;
                let copied = (
                    [top, left, bottom, right],
                    [target(top, down), target(left, across)],
                );
                s.start_right(rows);
                for row in top.saturating_sub(2).max(1)..=(bottom + 2).min(rows) {
                    for column in left.saturating_sub(2).max(1)..=(right + 2).min(80) {
                        s.word_at(row, column, word_of(row, column));
                    }
                }
                s.feed(&copy(copied, n + direction), 0);
                s.ask();
                s.page();
            }
        }
    }
    // All of the page, with a word in every cell.
    for (top, left) in [(1, 1), (1, 2), (2, 1), (2, 2), (rows, 80), (5, 40)] {
        s.start_right(rows);
        for row in 1..=rows {
            for column in 1..=80 {
                s.word_at(row, column, word_of(row, column));
            }
        }
        s.feed(&copy(([0; 4], [top, left]), 0), 0);
        look_at_all(s);
        s.feed(&copy(([2, 2, 0, 0], [1, 1]), 1), 0);
        look_at_all(s);
    }
}

// ---- Fill codes -------------------------------------------------------------

/// Each set into GL, and into GR by G2.
const LEFT: [&str; 4] = ["\x1B(B", "\x1B(0", "\x1B(%5", "\x1B-A\x0E"];
const RIGHT: [&str; 4] = ["\x1B*B", "\x1B*0", "\x1B*%5", "\x1B.A"];
const SHIFTS: [&str; 2] = ["\x1BN", "\x1BO"];

/// Every code from 0 to 300, and some above, with each set in GL and each in GR,
/// with and without a shift, and with rendition and protection on and off.
pub fn fill_codes() -> Script {
    let mut s = Script::new();
    for turn in 0..4 {
        for writing in ["", "\x1B[1;5m\x1B[1\"q"] {
            for shift in ["", SHIFTS[(turn + writing.len()) % 2]] {
                let other = if shift.is_empty() { 1 } else { 2 };
                let (left, right) = (LEFT[turn], RIGHT[(turn + other) % 4]);
                let third = if turn == 1 { "\x1B/A" } else { "\x1B+0" };
                let before = format!("{left}{right}{third}{writing}{shift}");
                s.start_right(24);
                s.feed(before.as_bytes(), 0);
                s.view();
                for code in (0..=300).chain([511, 544, 9_999]) {
                    s.word_at(23, 80, 0xC041);
                    s.word_at(24, 80, 0x6142);
                    s.feed(&csi(&format!("{code};23;80$x")), 0);
                    s.view();
                    s.ask();
                    for (row, column) in [(23, 80), (24, 80), (22, 80), (23, 79), (24, 79)] {
                        s.read(row, column);
                    }
                }
                // The shift is still there.
                s.feed(b"q\xF1q", 0);
                look_at_all(&mut s);
            }
        }
    }
    s
}

// ---- Attributes -------------------------------------------------------------

/// What stands after the four edges.
const ATTRIBUTES: [&str; 42] = [
    "",
    ";",
    ";0",
    ";1",
    ";4",
    ";5",
    ";7",
    ";22",
    ";24",
    ";25",
    ";27",
    ";00001",
    // None listed.
    ";2",
    ";8;99;9999",
    ";3;6;9;21;23;26;28",
    ";10000;65537;257",
    // The order matters, and how often.
    ";1;0",
    ";0;1",
    ";1;22",
    ";22;1",
    ";1;1",
    ";1;1;1",
    ";0;0",
    ";0;4;5",
    ";0;4;5;",
    ";4;5;7;1",
    ";1;4;5;7;22;24;25;27",
    ";22;24;25;27;1;4;5;7",
    // Empty ones.
    ";1;",
    ";;1",
    ";1;;7",
    ";;",
    ";;;",
    // Not all listed.
    ";1;99",
    ";99;1",
    ";99;",
    ";27;99;0;7",
    // Twelve, thirteen, and more.
    ";0;1;4;5;7;22;24;25;27;1;99;4",
    ";99;99;99;99;99;99;99;99;99;99;99;1",
    ";99;99;99;99;99;99;99;99;99;99;99;99;1",
    ";1;4;5;7;99;99;99;99;99;99;99;99;0",
    ";7;7;7;7;7;7;7;7;7;7;7;7;7;7;7;7",
];

/// A word of each set, flags and unused bits, of many codes.
fn every_look(s: &mut Script) {
    for number in 0..512u16 {
        s.word(number, number << 7 | (number * 11 + 0x20) % 128);
    }
}

/// Each list of attributes on every look of a word, in either extent; each other
/// function on the same; then streams of several shapes.
pub fn attributes() -> Script {
    let mut s = Script::new();
    for last in ["$r", "$t"] {
        for before in [b"", RECTANGLE] {
            for list in ATTRIBUTES {
                begin(&mut s, 24, before, false);
                every_look(&mut s);
                let edges = if list.is_empty() { "" } else { "1;2;7;79" };
                s.feed(&csi(&format!("{edges}{list}{last}")), 0);
                look_at_all(&mut s);
            }
            // Fewer than four edges.
            for edges in ["2", "2;3", "2;3;4", "2;3;4;5", ";;4", ";;;5", "2;;2", ";;;"] {
                begin(&mut s, 24, before, false);
                every_look(&mut s);
                s.feed(&csi(&format!("{edges}{last}")), 0);
                look_at_all(&mut s);
            }
            streams_of_cells(&mut s, before, last);
        }
    }
    for function in ["$z", "${", "1;7;3;20$z", "2;5;6;70${", "2;5;4;70;;4;9$v"] {
        begin(&mut s, 24, b"", false);
        every_look(&mut s);
        s.feed(&csi(function), 0);
        look_at_all(&mut s);
    }
    for writing in [&b""[..], b"\x9B1;4;5;7m", b"\x9B1\"q"] {
        for code in [32, 113, 160, 225] {
            begin(&mut s, 24, writing, false);
            every_look(&mut s);
            s.feed(&csi(&format!("{code};2;5;6;70$x")), 0);
            look_at_all(&mut s);
        }
    }
    s
}

fn streams_of_cells(s: &mut Script, before: &[u8], last: &str) {
    for rows in SIZES {
        for edges in [
            [3, 10, 3, 10],
            [3, 10, 3, 20],
            [3, 10, 4, 10],
            [3, 10, 4, 20],
            [3, 10, 7, 12],
            [3, 80, 5, 80],
            [3, 1, 5, 1],
            [3, 1, 5, 80],
            [1, 79, rows, 80],
            [rows - 1, 40, rows, 41],
            [rows, 40, rows, 0],
            // Ignored, though a stream might run there.
            [3, 20, 5, 10],
            [3, 2, 4, 1],
            [5, 10, 3, 20],
        ] {
            for origin in [false, true] {
                begin(s, rows, before, origin);
                mark(s, rows);
                let parameters = written(&edges, 0);
                s.feed(&csi(&format!("{parameters};4{last}")), 0);
                look_at_all(s);
            }
        }
    }
}

// ---- Situations -------------------------------------------------------------

/// Each function, acting, ignored, and with edges left out.
const SEQUENCES: [&[u8]; 23] = [
    b"\x9B6;39;8;79$z",
    b"\x9B2;2;5;80$z",
    b"\x9B9;1;8$z",
    b"\x9B6;39;8;79${",
    b"\x9B;2;3${",
    b"\x9B3;9;;8${",
    b"\x9B113;6;39;8;79$x",
    b"\x9B225;2;2;4;80$x",
    b"\x9B127;2;2;4;80$x",
    b"\x9B31;2;2;4;80$x",
    b"\x9B6;39;7;80;1;7;40;1$v",
    b"\x9B1;1;3;3;;2;79$v",
    b"\x9B1;1;3;3;2;5;5$v",
    b"\x9B6;39;8;79;1;7$r",
    b"\x9B2;2;4;80;;5$r",
    b"\x9B2;2;4;80;99$r",
    b"\x9B6;39;8;79;1;7$t",
    b"\x9B2;2;4;80$t",
    b"\x9B4;2;2;80$t",
    b"\x9B2*x",
    b"\x9B*x",
    b"\x9B3*x",
    b"\x1B[2\xAA\xF8",
];

/// Each sequence with and without origin, insert and wrap due, and a shift, and
/// protection with a saved cursor: at once, and byte by byte. Then what is only
/// like one of them, and the extent after other functions.
pub fn rectangles_in_situations() -> Script {
    let mut s = Script::new();
    for (n, sequence) in SEQUENCES.iter().enumerate() {
        for situation in 0..32 {
            let rows = SIZES[(n + situation) % 3];
            for length in [sequence.len(), 1] {
                if length == 1 && situation % 4 != n % 4 {
                    continue;
                }
                begin_in(&mut s, rows, situation);
                s.view();
                s.ask();
                for piece in sequence.chunks(length) {
                    s.feed(piece, 0);
                    s.view();
                    s.ask();
                }
                s.page();
                s.feed(b"q\xF1", 0);
                s.view();
                s.ask();
                s.feed(b"\x1B8q", 0);
                s.view();
                s.ask();
                look_at_marked(&mut s, rows);
            }
        }
    }
    only_like_one(&mut s);
    extents(&mut s);
    s
}

pub(super) fn begin_in(s: &mut Script, rows: u16, situation: usize) {
    s.start_right(rows);
    mark(s, rows);
    origin_insert_wrap(s, situation % 8);
    if situation & 8 != 0 {
        s.feed(b"\x1B*0\x8E", 0);
    }
    if situation & 16 != 0 {
        s.feed(b"\x9B1;7m\x9B1\"q\x1B7", 0);
    }
}

/// Marks, more and other intermediates, and every final.
fn only_like_one(s: &mut Script) {
    let parameters = "42;2;3;80;1;9;9";
    let mut list: Vec<String> = Vec::new();
    for last in ["$z", "${", "$x", "$v", "$r", "$t", "*x"] {
        for mark in ["<", "=", ">", "?", "??"] {
            list.push(format!("{mark}2;2;4;80;1;1;1{last}"));
            list.push(format!("{mark}{parameters}{last}"));
        }
        let sign = &last[1..];
        for intermediates in [
            "", "$$", "$*", "*$", "**", " $", "$ ", "$$$", "*", "$", "\"", "!", " ", "'", "%", "#",
        ] {
            list.push(format!("2;2;4;80;1;1;1{intermediates}{sign}"));
        }
        for inside in [":", "2;2:3;4", "2;2?;4", "2$;3", "2*1"] {
            list.push(format!("{inside}{last}"));
        }
        // Numbers that are small again if they are cut to 16 or 32 bits.
        list.push(format!("65538;4294967298;65540;4294967300{last}"));
        // Sixteen parameters, and more.
        for more in [8, 9, 10, 12] {
            list.push(format!("2;2;4;80;1;1;1{}1{last}", ";".repeat(more)));
        }
    }
    for last in b'@'..=b'~' {
        for intermediate in ['$', '*'] {
            list.push(format!("2;2;4;80;1;1;1{intermediate}{}", last as char));
        }
    }
    for (n, bytes) in list.iter().enumerate() {
        begin_in(s, SIZES[n % 3], 4 + n % 2);
        s.feed(&csi(bytes), 0);
        look_at_all(s);
        s.feed(b"q", 0);
        s.view();
        s.ask();
    }
}

/// The extent chosen, then another function, then a change in the middle.
fn extents(s: &mut Script) {
    for chosen in [
        &b""[..],
        RECTANGLE,
        b"\x9B2*x\x9B1*x",
        b"\x9B1*x\x1B7\x9B2*x",
    ] {
        for after in [
            &b""[..],
            b"\x9B!p",
            b"\x1Bc",
            b"\x1B7",
            b"\x1B8",
            b"\x1B#8",
            b"\x9B*x",
            b"\x9B0*x",
            b"\x9B1*x",
            b"\x9B2*x",
            b"\x9B3*x",
            b"\x9B9999*x",
            b"\x9B258*x",
            b"\x9B65538*x",
            b"\x9B1;2*x",
            b"\x9B2;1*x",
            b"\x9B;2*x",
            b"\x9B?2*x",
            b"\x9B?1*x",
            b"\x9B2$x",
            b"\x9B2x",
            b"\x9B2*\x18x",
            b"\x9B2*\n\x7Fx",
            b"\x9B5;10r\x9B?6h",
            b"\x9B4;20h\x9B?7;25h",
        ] {
            for rows in SIZES {
                s.start_right(rows);
                mark(s, rows);
                s.feed(chosen, 0);
                s.view();
                s.feed(after, 0);
                s.view();
                s.ask();
                s.feed(b"\x9B2;5;4;9;7$r", 0);
                s.view();
                s.ask();
                s.read(3, 1);
                s.feed(b"\x9B5;5;9;9;1$t", 0);
                s.ask();
                match rows {
                    24 => s.page(),
                    _ => look_at_marked(s, rows),
                }
            }
        }
    }
}

/// What is put among the listed functions, to be tried in every situation.
pub fn listed_rectangles(rows: u16) -> Vec<Vec<u8>> {
    let beyond = rows + 1;
    [
        "$z".to_string(),
        format!("3;39;{beyond};81$z"),
        "${".into(),
        "1;2;6;79${".into(),
        "97$x".into(),
        "32;1;39;3;41$x".into(),
        format!("225;3;1;{rows};80$x"),
        "127;2;2;9;9$x".into(),
        "1;1;3;3;1;7;79;1$v".into(),
        ";39;9;;;2;38$v".into(),
        format!("{rows};;;;;1;2$v"),
        "$r".into(),
        "3;39;7;42;1;5$r".into(),
        "1;2;9;79;24;27$r".into(),
        "$t".into(),
        "3;39;7;42;4;7$t".into(),
        "2*x".into(),
    ]
    .map(|rest| csi(&rest))
    .to_vec()
}

/// Among the odd ones.
pub fn odd_rectangles(rows: u16) -> Vec<Vec<u8>> {
    let mut list = Vec::new();
    for bytes in [
        "5;5;4;9$z",
        "5;9;5;8$z",
        "0;0;0;0$z",
        "10000;1;9999;80$z",
        "5;5;4;9${",
        "3;38;8;42${",
        "7;39;7;41;9${",
        "$x",
        "31$x",
        "128$x",
        "160;1;1;9;9$x",
        "255;1;1;9;9$x",
        "256$x",
        "288$x",
        "113;9;1;8;1$x",
        "1;1;2;2;2;5;5$v",
        "1;1;2;2;1;5;5;9$v",
        "1;1;2;2;1;9999;9999;1$v",
        "3;3;2;2;1;5;5;1$v",
        "$v",
        "2;2$v",
        "3;39;7;42;99$r",
        "3;39;7;42;1;99;22$r",
        "3;39;7;42;$r",
        "7;42;3;39;1$r",
        ";;;;0;4;5;$r",
        "3;39;7;42;22$t",
        "3;39;7;42;1;1$t",
        "3;42;7;39;1$t",
        ";;;;0;4;5;$t",
        "0*x",
        "3*x",
        "2 x",
        "?2*x",
        "2*$x",
        "1;1;9;9$w",
    ] {
        list.push(csi(bytes));
    }
    for last in ["$z", "${", ";1$r", ";1$t"] {
        let parameters = format!("{};79;{};9999", rows - 1, rows + 1);
        list.push(csi(&format!("{parameters}{last}")));
    }
    list
}

#[cfg(test)]
mod tests {
    use super::*;

    /// Each value of an edge of the source with each of one of the destination.
    #[test]
    fn every_source_meets_every_destination() {
        for rows in SIZES {
            let copies = copies_at_the_page(rows);
            for place in 0..4 {
                for target in 0..2 {
                    let mut seen: Vec<(u16, u16)> = copies
                        .iter()
                        .step_by(2)
                        .map(|(edges, destination)| (edges[place], destination[target]))
                        .collect();
                    seen.sort();
                    seen.dedup();
                    assert_eq!(seen.len(), 25);
                }
            }
        }
    }

    /// Which sequences change a cell, and which the extent; all are fed with
    /// wrap due, a shift, insert and origin, which stay.
    #[test]
    fn every_function_is_tried_in_every_situation() {
        let mut machine = Machine::new();
        let mut output = Vec::new();
        let mut seen = std::collections::BTreeMap::new();
        for command in commands(&rectangles_in_situations().bytes) {
            let before = machine.state().clone();
            machine.carry_out(command, &mut output);
            let after = machine.state();
            let function = SEQUENCES.iter().position(|&s| s == command.following);
            if let (b'F', Some(number)) = (command.letter, function) {
                let cursor = before.cursor;
                assert_eq!(after.cursor, cursor);
                assert_eq!(after.shift, before.shift);
                assert_eq!(after.rendition, before.rendition);
                let facts = seen.entry(number).or_insert([false; 6]);
                facts[0] |= after.changed != before.changed;
                facts[1] |= after.extent != before.extent;
                facts[2] |= cursor.wrap_due;
                facts[3] |= before.shift.is_some();
                facts[4] |= before.insert;
                facts[5] |= before.origin;
            }
        }
        let all = |n: usize| -> Vec<usize> {
            let list = seen.iter().filter(|(_, facts)| facts[n]);
            list.map(|(number, _)| *number).collect()
        };
        assert_eq!(all(0), [0, 1, 3, 4, 6, 7, 10, 11, 13, 14, 16, 17]);
        assert_eq!(all(1), [19, 20, 22]);
        for n in 2..6 {
            assert_eq!(all(n).len(), SEQUENCES.len());
        }
    }
}
