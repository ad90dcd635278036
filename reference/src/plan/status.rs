//! The status line: every function while it is active, going to and fro, and the
//! calls that are lent it.

use super::*;

/// The line becomes active, and the page.
const TO_LINE: &[u8] = b"\x9B1$}";
const TO_PAGE: &[u8] = b"\x9B0$}";

/// What is fed, and about where the line's cursor then is.
struct Situation {
    bytes: Vec<u8>,
    column: u16,
    /// Every listed function is tried in it.
    whole: bool,
}

fn situation(column: u16, text: &str) -> Situation {
    Situation {
        bytes: text.chars().map(|sign| sign as u32 as u8).collect(),
        column,
        whole: false,
    }
}

/// The line is active.
fn on_the_line(rows: u16) -> Vec<Situation> {
    let mut list = Vec::new();
    // There is a line; what is fed to the page; what is fed to the line.
    let mut add = |column: u16, page: &str, line: &str| {
        let text = format!("\u{9B}1$~{page}\u{9B}1$}}{line}");
        list.push(situation(column, &text));
    };
    let last = rows;
    // In column 1, in the middle, in 79 with insert and newline, in 80 without
    // autowrap.
    add(1, "", "");
    add(40, "\u{9B}7;40H", "\u{9B};40H");
    add(79, "\u{9B}4;20h", "\u{9B};79H");
    add(80, "", "\u{9B};80Hz");
    // Wrap due on the line; on the page, at B; on both, with origin; on both, with
    // insert and the page's cursor outside the margins.
    add(80, "\u{9B}?7h\u{9B}5;10r", "\u{9B};80Hz");
    add(40, "\u{9B}?7h\u{9B}5;10r\u{9B}10;80Hz", "\u{9B};40H");
    add(80, "\u{9B}5;10r\u{9B}?6;7h\u{9B}6;80Hz", "\u{9B};80Hz");
    add(
        80,
        "\u{9B}4h\u{9B}?7h\u{9B}5;10r\u{9B}12;80Hz",
        "\u{9B};80Hz",
    );
    // Saved on both, with other places, sets, renditions, protection and shifts.
    add(
        40,
        "\u{9B}7;9H\x1B)0\x0E\u{9B}4m\u{8E}\x1B7\x0F",
        "\u{9B};5H\u{9B}1m\u{9B}1\"q\x1B7\u{9B}\"q\u{9B};40H",
    );
    // Wrap due on both in the last row; the page's cursor above and below the
    // margins.
    add(80, &format!("\u{9B}?7h\u{9B}{last};80Hz"), "\u{9B};79Hyz");
    add(40, "\u{9B}5;10r\u{9B}2;40H", "\u{9B};40H");
    add(40, &format!("\u{9B}5;10r\u{9B}{last};40H"), "\u{9B};40H");
    // Margins and origin on the page: at T, inside.
    add(40, "\u{9B}5;10r\u{9B}?6h\u{9B}1;40H", "\u{9B};40H");
    add(1, "\u{9B}5;10r\u{9B}?6h\u{9B}3;40H", "");
    // Insert; newline; each at the right edge too.
    add(40, "\u{9B}4h", "\u{9B};40H");
    add(80, "\u{9B}4h", "\u{9B};80Hz");
    add(40, "", "\u{9B}20h\u{9B};40H");
    add(80, "\u{9B}20h\u{9B}?7h\u{9B}7;80Hz", "\u{9B};80Hz");
    // A shift pending, from the page and from the line; with wrap due.
    add(40, "\x1B*0\u{9B}7;40H\u{8E}", "\u{9B};40H");
    add(40, "\x1B/A", "\u{9B};40H\u{8F}");
    add(80, "\x1B*0\u{9B}?7h\u{9B}7;80Hz", "\u{9B};80Hz\u{8E}");
    // Protected cells in the line, with rendition and protection on.
    add(
        40,
        "",
        "\u{9B};36H\u{9B}1\"qabcdef\u{9B}\"qghi\u{9B}1;7m\u{9B}1\"q\u{9B};40H",
    );
    // Saved on the page, on the line; with origin; with wrap due, autowrap then
    // off.
    add(
        40,
        "\u{9B}?7h\u{9B}9;80Hz\u{9B}1;4m\u{9B}1\"q\u{8E}\x1B7\u{9B}m\u{9B}\"qz\u{9B}7;40H",
        "\u{9B};40H",
    );
    add(
        40,
        "",
        "\u{9B}?7h\u{9B};80Hz\u{9B}5;7m\u{9B}1\"q\x1B(0\u{8F}\x1B7\u{9B}m\u{9B}\"q\x1B(Bz\u{9B};40H",
    );
    add(
        40,
        "\u{9B}5;10r\u{9B}?6h\u{9B}3;9H\x1B7\u{9B}?6l\u{9B}7;40H",
        "\u{9B};5H\x1B7\u{9B};40H",
    );
    add(
        80,
        "\u{9B}?7h\u{9B}9;80Hz\x1B7",
        "\u{9B};80Hz\x1B7\u{9B}?7l\u{9B}7m",
    );
    // 8-bit replies; with origin on the page.
    add(40, "\x1B G\u{9B}7;40H", "\u{9B};40H");
    add(
        80,
        "\x1B G\u{9B}5;10r\u{9B}?6;7h\u{9B}9;99Hz",
        "\u{9B};80Hz",
    );
    // Attributes change in the rectangle.
    add(40, "\u{9B}2*x", "\u{9B};40H");
    // Other sets.
    add(40, "\x1B-A\x0E\x1B~\u{9B}7;40H", "\u{9B};40H");
    add(79, "\x1B(0\x1B)0", "\x1B~\x1B+%5\u{9B};78H\u{8F}x");
    // Tabs, the cursor hidden.
    add(40, "\u{9B}3g\u{9B}7;45H\u{88}\u{9B}?25l", "\u{9B};40H");
    list[..9].iter_mut().for_each(|first| first.whole = true);
    list
}

/// The page is active; the line has wrap due, or something saved.
fn on_the_page(rows: u16) -> Vec<Situation> {
    let mut list = Vec::new();
    let mut add = |column: u16, line: &str, page: &str| {
        let text = format!("\u{9B}?7h\u{9B}2$~\u{9B}1$}}{line}\u{9B}$}}{page}");
        list.push(situation(column, &text));
    };
    let last = rows;
    let due = "\u{9B};80Hz";
    let saved = "\u{9B};80Hz\u{9B}5m\u{9B}1\"q\u{8F}\x1B7\u{9B}m\u{9B}\"qz";
    add(80, due, "\u{9B}7;40H");
    add(80, due, "\u{9B}7;80Hz");
    add(80, due, "\u{9B}5;10r\u{9B}?6h\u{9B}6;80Hz");
    add(80, due, &format!("\u{9B}4;20h\u{9B}{last};80Hz"));
    add(2, saved, "\u{9B}9;9H\x1B7\u{9B}5;10r\u{9B}12;80Hz\u{8E}");
    // No line any more.
    add(80, due, "\u{9B}0$~\u{9B}7;80Hz");
    list[..2].iter_mut().for_each(|first| first.whole = true);
    list
}

fn both_kinds(rows: u16) -> Vec<Situation> {
    let mut list = on_the_line(rows);
    list.extend(on_the_page(rows));
    list
}

/// The state, what changed, and the line.
fn look_at_line(s: &mut Script) {
    s.view();
    s.ask();
    s.line();
}

/// Words with flags and unused bits, in the line about its cursor and at its
/// edges, and in some rows of the page.
fn put_words(s: &mut Script, rows: u16, column: u16) {
    for row in [1, 7, 10, rows] {
        s.word_at(row, 40, word_of(row, 40));
    }
    for column in near(column).into_iter().chain([1, 80]) {
        s.line_word(column, word_of(row_for(column), column));
    }
}

/// So that all flags are met.
fn row_for(column: u16) -> u16 {
    column % 48 + 1
}

fn begin(s: &mut Script, rows: u16, situation: &Situation) {
    s.start_right(rows);
    put_words(s, rows, situation.column);
    s.feed(&situation.bytes, 0);
    s.view();
    s.ask();
}

/// The bytes in a situation; what is then printed; and in turn what is then on
/// the page, and what was saved.
fn try_in(s: &mut Script, number: usize, rows: u16, situation: &Situation, bytes: &[u8]) {
    begin(s, rows, situation);
    s.feed(bytes, ROOM);
    look_at_line(s);
    if number % 16 == 0 {
        s.page();
    }
    s.feed(b"q\xF1\x9B6n", ROOM);
    look_at_line(s);
    match number % 4 {
        1 => {
            s.feed(&[TO_PAGE, b"q\x9B?6n"].concat(), ROOM);
            s.view();
            s.ask();
        }
        3 => {
            s.feed(b"\x1B8q", 0);
            look_at_line(s);
        }
        _ => {}
    }
    if number % 16 == 8 {
        s.page();
    }
}

// ---- Every function ---------------------------------------------------------

/// With 24 rows every listed function in eleven of the situations, and every sixth
/// in the others, in turn; of the odd ones every fortieth, in turn. With 36 and 48
/// rows fewer. Then every final.
pub fn functions_on_the_line() -> Script {
    let mut s = Script::new();
    let mut number = 0usize;
    for rows in SIZES {
        let listed = listed(rows);
        let odd = odd(rows);
        for (n, situation) in both_kinds(rows).iter().enumerate() {
            let turn = n + rows as usize / 12;
            let (every, every_odd) = match (rows, situation.whole) {
                (24, true) => (1, 40),
                (24, false) => (6, 40),
                _ => (40, 200),
            };
            let functions = listed.iter().skip(turn % every).step_by(every);
            let odd = odd.iter().skip(turn * 7 % every_odd).step_by(every_odd);
            for function in functions.chain(odd) {
                try_in(&mut s, number, rows, situation, function);
                number += 1;
            }
        }
    }
    every_final(&mut s);
    s
}

/// Every final of a control sequence with some marks and intermediates, and of
/// an escape sequence; every byte alone: each in a situation in turn.
fn every_final(s: &mut Script) {
    let mut list: Vec<Vec<u8>> = Vec::new();
    for last in 0x40..=0x7Eu8 {
        let last = last as char;
        for before in ["", "2;2", "?1", ">2", "1$", "0$", "1$$", "1!", "2*", "1:2"] {
            list.push(csi(&format!("{before}{last}")));
        }
    }
    for last in 0x30..=0x7Eu8 {
        for before in [&b""[..], b"#", b"("] {
            list.push([b"\x1B", before, &[last]].concat());
        }
    }
    list.extend((0..=255).map(|byte| vec![byte]));
    let situations = both_kinds(24);
    for (number, bytes) in list.iter().enumerate() {
        let place = (number * 7 + number / situations.len()) % situations.len();
        try_in(s, number, 24, &situations[place], bytes);
    }
}

// ---- Rectangles in the line -------------------------------------------------

/// What stands before and after the four edges.
const FUNCTIONS: [(&str, &str); 6] = [
    ("", "$z"),
    ("", "${"),
    ("113;", "$x"),
    ("", ";1;7$r"),
    ("", ";0$t"),
    ("", ";1;1;;1$v"),
];

/// Each function with rows and columns at the edges, in turn; copies within the
/// line, cut off at its end, and of pages that there are not; fill codes; lists
/// of attributes over every look of a word.
pub fn rectangles_on_the_line() -> Script {
    let mut s = Script::new();
    let rows = ["", "0", "1", "2", "24", "9999"];
    let columns = ["", "1", "2", "40", "79", "80", "81", "9999"];
    let situations = on_the_line(24);
    let mut number = 0usize;
    for (before, after) in FUNCTIONS {
        for top in rows {
            for bottom in rows {
                for turn in 0..3 {
                    let place = number * 11 + turn * 5;
                    let (left, right) = (columns[place % 8], columns[place / 8 % 8]);
                    let text = format!("{before}{top};{left};{bottom};{right}{after}");
                    try_bare(&mut s, number, &situations, &csi(&text));
                    number += 1;
                }
            }
        }
    }
    for left in [1, 2, 38, 80] {
        for right in [1, 2, 41, 80, 0] {
            for target in [0, 1, 2, 39, 40, 79, 80, 81] {
                let (top, to) = ([1, 0, 9][number % 3], [0, 1, 24][number / 3 % 3]);
                let text = format!("{top};{left};{top};{right};1;{to};{target};1$v");
                try_bare(&mut s, number, &situations, &csi(&text));
                number += 1;
            }
        }
    }
    let pages = ["", "0", "1", "2", "9999"];
    for from in pages {
        for to in pages {
            let text = format!("1;36;1;42;{from};1;3;{to}$v");
            try_bare(&mut s, number, &situations, &csi(&text));
            number += 1;
        }
    }
    for code in [
        0, 10, 31, 32, 33, 126, 127, 128, 155, 159, 160, 161, 225, 254, 255, 256, 288, 9_999,
    ] {
        for edges in ["", ";1;39;1;42", ";9;79"] {
            try_bare(
                &mut s,
                number,
                &situations,
                &csi(&format!("{code}{edges}$x")),
            );
            number += 1;
        }
    }
    for extent in ["", "\x1B[2*x"] {
        for last in ["$r", "$t"] {
            for list in ["", ";", ";1", ";4;5", ";7;0", ";22;27", ";99", ";0;1;99"] {
                for edges in ["", "1;2;7;79", "2;9;1;40"] {
                    s.start_right(SIZES[number % 3]);
                    for column in 1..=80 {
                        s.line_word(column, column * 0x199 + 0x4321);
                    }
                    let separators = match list {
                        "" => String::new(),
                        _ => ";".repeat(3 - edges.matches(';').count()),
                    };
                    let text =
                        format!("\x1B[1$~\x1B[1$}}{extent}\x1B[{edges}{separators}{list}{last}");
                    s.feed(text.as_bytes(), 0);
                    look_at_line(&mut s);
                    number += 1;
                }
            }
        }
    }
    s
}

/// In a situation in turn, with no more after it.
fn try_bare(s: &mut Script, number: usize, situations: &[Situation], bytes: &[u8]) {
    let place = (number * 5 + number / situations.len()) % situations.len();
    begin(s, 24, &situations[place]);
    s.feed(bytes, ROOM);
    look_at_line(s);
    if number % 32 == 0 {
        s.page();
    }
}

// ---- To and fro -------------------------------------------------------------

/// What stands between CSI and the final of either sequence: numbers, colons,
/// marks, other intermediates and more.
const CHOICES: [&str; 40] = [
    "$",
    "0$",
    "1$",
    "2$",
    "3$",
    "4$",
    "5$",
    "9999$",
    "10000$",
    "00$",
    "01$",
    "0002$",
    "1;0$",
    "0;1$",
    ";1$",
    "1;$",
    "1;2;3$",
    "257$",
    "65537$",
    "4294967297$",
    ":$",
    "1:$",
    ":1$",
    "1:2$",
    "1;0:$",
    "1$:",
    "?1$",
    ">1$",
    "<0$",
    "=2$",
    "1?$",
    "1",
    "0",
    "1$$",
    "1 $",
    "1$ ",
    "1!",
    "1*",
    "1$$$",
    "1$1",
];

/// Both sequences with each of these; some together; in other forms, cut off and
/// with controls inside.
fn switches() -> Vec<Vec<u8>> {
    let mut list: Vec<Vec<u8>> = Vec::new();
    for last in ["~", "}"] {
        for choice in CHOICES {
            list.push(csi(&format!("{choice}{last}")));
        }
    }
    for text in [
        "0$~\u{9B}1$}",
        "1$~\u{9B}1$}",
        "2$~\u{9B}1$}",
        "0$~\u{9B}2$~\u{9B}1$}",
        "1$}\u{9B}1$~\u{9B}$~",
        "1$}\u{9B}2$~\u{9B}1$~",
        "0$}\u{9B}1$}",
        "0$}q\u{9B}1$}",
        "1$}q\u{9B}0$}",
        "1$}q\u{9B}0$~q\u{9B}1$}q\u{9B}1$~q",
        "0$}\x1B7\u{9B}1$}\x1B8",
        "1$}\x1B7\u{9B}0$}\x1B8",
        "1$\u{7F}}",
        "1$\n}",
        "1\r$~",
        "1$\x18}",
        "0$\x1A~",
        "1$\x1B}",
        "0$\u{84}}",
        "\u{B1}\u{A4}\u{FD}",
        "\u{B0}\u{A4}\u{FE}",
    ] {
        list.push(situation(0, &format!("\u{9B}{text}")).bytes);
    }
    list.push(b"\x1B[1$}".to_vec());
    list.push(b"\x1B[0$~\x1B[1$}".to_vec());
    list
}

/// Those with numbers up to 5 in each situation, the others in every sixth, in
/// turn; then something on what is active, on the line and on the page.
pub fn to_and_fro() -> Script {
    let mut s = Script::new();
    let mut number = 0usize;
    for (n, situation) in both_kinds(24).iter().enumerate() {
        for (m, bytes) in switches().iter().enumerate() {
            // The first ones always, the others in turn.
            if m % CHOICES.len() >= 7 && (m + n) % 6 != 0 {
                continue;
            }
            let rows = if n < 3 { SIZES[m % 3] } else { 24 };
            begin(&mut s, rows, situation);
            s.feed(bytes, 0);
            s.view();
            s.ask();
            if number % 4 == 0 {
                s.row(1);
            }
            s.feed(b"q\xF1\x9B?6n", ROOM);
            look_at_line(&mut s);
            match number % 3 {
                0 => {
                    s.feed(b"\x9B1$~\x9B1$}q\x9B6n", ROOM);
                    look_at_line(&mut s);
                }
                1 => {
                    s.feed(b"\x9B0$}q\x9B6n", ROOM);
                    s.view();
                    s.ask();
                }
                _ => {}
            }
            if number % 16 == 0 {
                s.page();
            }
            number += 1;
        }
    }
    s
}

/// Resets, ?7l, ESC # 8 and starts in each situation; then what is saved on page
/// and line, and what is printed there.
pub fn resets_and_starts() -> Script {
    let resets: [&[u8]; 9] = [
        b"",
        b"\x1Bc",
        b"\x9B!p",
        b"\x9B?7l",
        b"\x9B?7l\x9B?7h",
        b"\x9B?7h",
        b"\x9B?6;7l",
        b"\x1B#8",
        b"\x9B0$~\x9B!p",
    ];
    let mut s = Script::new();
    let mut number = 0usize;
    for situation in both_kinds(24) {
        for reset in resets {
            let rows = SIZES[number % 3];
            begin(&mut s, rows, &situation);
            s.feed(reset, 0);
            look_at_line(&mut s);
            goes_on(&mut s);
            if number % 8 == 0 {
                s.page();
            }
            number += 1;
        }
        // Starts: of each size, refused for R, for the page and for the line.
        for (rows, words, line) in [
            (24, 1920, 80),
            (36, 2880, 80),
            (48, 3840, 80),
            (25, 2000, 80),
            (24, 1919, 80),
            (24, 1920, 79),
            (24, 1920, 81),
        ] {
            begin(&mut s, 24, &situation);
            s.lend_line(line);
            s.start(rows, words);
            look_at_line(&mut s);
            s.lend(1920);
            s.lend_line(80);
            s.line();
            goes_on(&mut s);
        }
    }
    s
}

/// What is printed and restored on what is active, on the line, on the page.
fn goes_on(s: &mut Script) {
    for bytes in [
        &b"q\x9B6n"[..],
        b"\x1B8q",
        b"\x9B2$~\x9B1$}q",
        b"\x1B8q\x9B6n",
        b"\x9B0$}\x1B8q\x9B6n",
    ] {
        s.feed(bytes, ROOM);
        s.view();
        s.ask();
    }
    s.line();
}

/// Every protection and shift saved on the page with every one saved on the line,
/// with and without wrap due on each: restored on each, in either order, and
/// after a reset.
pub fn two_saved_cursors() -> Script {
    let mut s = Script::new();
    let mut number = 0usize;
    for wraps in 0..4 {
        for of_page in WRITING {
            for of_line in WRITING {
                let page_column = if wraps & 1 != 0 { 80 } else { 40 };
                let line_column = if wraps & 2 != 0 { 80 } else { 40 };
                let page = format!("\x1B[7;{page_column}Hz\x1B[1m");
                let line = format!("\x1B[;{line_column}Hz\x1B[4m\x1B(0");
                s.start_right(SIZES[number % 3]);
                s.feed(&[FOUR_SETS, b"\x9B?7h\x9B1$~"].concat(), 0);
                s.feed(&[page.as_bytes(), of_page, b"\x1B7z\x9B\"q"].concat(), 0);
                s.feed(TO_LINE, 0);
                s.feed(&[line.as_bytes(), of_line, b"\x1B7z\x9B\"q"].concat(), 0);
                look_at_line(&mut s);
                match number % 5 {
                    0 => s.feed(b"\x9B!p", 0),
                    1 => s.feed(b"\x9B?7l", 0),
                    2 => s.feed(b"\x1Bc", 0),
                    _ => {}
                }
                s.view();
                let there = b"\x9B2$~\x9B1$}\x1B8q\xF1";
                let here = b"\x9B$}\x1B8q\xF1";
                let ways: [&[u8]; 2] = match number / 5 % 2 {
                    0 => [there, here],
                    _ => [here, there],
                };
                for way in ways {
                    s.feed(way, 0);
                    look_at_line(&mut s);
                }
                if number % 4 == 0 {
                    s.page();
                }
                number += 1;
            }
        }
    }
    s
}

// ---- The parser -------------------------------------------------------------

/// Sequences byte by byte, with the line active and not; and with the other
/// becoming active inside them.
pub fn sequences_across() -> Script {
    let sequences: [&[u8]; 24] = [
        b"\x1B[3;41H",
        b"\x1B[2K",
        b"\x1B[?1J",
        b"\x1B[6n",
        b"\x1B[?6n",
        b"\x1B[?6;7h",
        b"\x1B[?7l",
        b"\x1B[5;9r",
        b"\x1B[2L",
        b"\x1B[2M",
        b"\x1B[3@",
        b"\x1B[3P",
        b"\x1B#8",
        b"\x1B7",
        b"\x1B8",
        b"\x1Bc",
        b"\x1B[!p",
        b"\x1B[1$}",
        b"\x1B[0$}",
        b"\x1B[0$~",
        b"\x1B[42;1;2;3;4$x",
        b"\x8Ea",
        b"\x1B[2\n\x08\x0B5C",
        b"\x1BPab\x1B\\q",
    ];
    let mut s = Script::new();
    let situations = both_kinds(24);
    let mut number = 0usize;
    for sequence in sequences {
        for cut in 0..=sequence.len() {
            for turn in 0..4 {
                let place = (number * 7 + turn) % situations.len();
                begin(&mut s, SIZES[number % 3], &situations[place]);
                for (n, byte) in sequence.iter().enumerate() {
                    if n == cut {
                        other_is_active(&mut s, number + turn);
                    }
                    s.feed(&[*byte], ROOM);
                    s.view();
                    s.ask();
                }
                s.line();
                s.feed(b"q\x9B6n", ROOM);
                look_at_line(&mut s);
                number += 1;
            }
        }
    }
    s
}

/// There is a line, and it is active or not.
fn other_is_active(s: &mut Script, number: usize) {
    s.field(LINE_EXISTS, 1);
    s.field(LINE_ACTIVE, (number % 2) as u16);
    s.view();
}

/// Every query on the line with every room.
pub fn rooms_on_the_line() -> Script {
    let mut s = Script::new();
    let situations = both_kinds(24);
    let mut number = 0usize;
    for query in QUERIES {
        for room in 0..=13 {
            for turn in 0..2 {
                let place = (number * 3 + turn * 20) % situations.len();
                begin(&mut s, SIZES[number % 3], &situations[place]);
                s.feed(&[b"a", query, b"b"].concat(), room);
                s.feed(&query[query.len() - 1..], room + 5);
                look_at_line(&mut s);
                number += 1;
            }
        }
    }
    s
}

// ---- The calls --------------------------------------------------------------

pub const LINE_LENGTHS: [u16; 9] = [0, 1, 79, 80, 81, 127, 128, 129, 65535];

/// Lines of every length that might be taken for a right one, with right and
/// wrong pages, states whole and broken, page and line active.
pub fn line_lengths() -> Script {
    let mut s = Script::new();
    for rows in SIZES {
        for length in LINE_LENGTHS {
            for case in 0..8 {
                s.start_right(rows);
                s.feed(b"ab\x9B1$~\x9B1$}cd\x1B[3", 0);
                s.field(LINE_ACTIVE, case & 1);
                if case & 2 != 0 {
                    s.field(LINE_COLUMN, 0);
                }
                if case & 4 != 0 {
                    s.lend(rows * 80 - 1);
                }
                s.lend_line(length);
                s.line();
                s.feed(b"", 2);
                s.feed(b"Cx\x1B[6n", ROOM);
                for row in [0, 1, 2, rows, rows + 1] {
                    s.row(row);
                }
                s.read(1, 1);
                s.read(0, 1);
                s.view();
                s.ask();
                s.lend_line(80);
                s.line();
                s.lend(rows * 80);
                s.feed(b"Cx\x1B[6n", ROOM);
                look_at_line(&mut s);
                // A start that is lent so much, then a right one.
                s.lend_line(length);
                s.start_right(rows);
                look_at_line(&mut s);
                s.start(25, 2000);
                s.lend_line(128);
                s.line();
                s.lend_line(80);
                s.start_right(rows);
                look_at_line(&mut s);
            }
        }
    }
    s
}

/// The fields of the line, but for what is noted as changed.
const LINE_FIELDS: [u16; 6] = [
    LINE_EXISTS,
    LINE_ACTIVE,
    LINE_COLUMN,
    LINE_WRAP_DUE,
    LINE_SAVED_COLUMN,
    LINE_SAVED_WRAP_DUE,
];

/// Values at the edges of the line's fields.
const LINE_VALUES: [u16; 11] = [0, 1, 2, 40, 79, 80, 81, 255, 256, 256 + 80, 65535];

/// Each field of the line at and beyond its edges, alone and with others, in
/// several situations: all calls.
pub fn broken_lines() -> Script {
    let befores: [&[u8]; 8] = [
        b"",
        b"\x9B1$~",
        b"\x9B1$~\x9B1$}ab",
        b"\x9B?7h\x9B2$~\x9B1$}\x9B80Cz\x1B7",
        b"\x9B?7h\x9B2$~\x9B1$}\x9B80Cz\x1B7\x9B0$}",
        b"\x9B?7h\x9B2$~\x9B1$}\x9B80Cz\x1B7\x9B?7l",
        b"\x9B?7h\x9B2$~\x9B1$}\x9B80Cz\x1B7\x9B0$~\x9B7;80Hz",
        b"\x9B?7h\x9B2$~\x9B1$}\x9B80C\x1B7\x9B5",
    ];
    let mut s = Script::new();
    let mut number = 0usize;
    for before in befores {
        for field in LINE_FIELDS {
            for value in LINE_VALUES {
                let rows = SIZES[number % 3];
                s.start_right(rows);
                s.feed(before, 0);
                s.field(field, value);
                calls_with_line(&mut s, rows);
                number += 1;
            }
        }
    }
    let mut random = Random::new(4);
    let mut fields = LINE_FIELDS.to_vec();
    fields.extend([AUTOWRAP, WRAP_DUE, COLUMN, LINE_CHANGED]);
    for _ in 0..500 {
        let rows = random.pick(&SIZES);
        s.start_right(rows);
        s.feed(random.pick(&befores), 0);
        for _ in 0..random.between(2, 4) {
            s.field(random.pick(&fields), random.pick(&[0, 1, 79, 80, 80, 81]));
        }
        if random.percent(15) {
            s.lend_line(random.pick(&LINE_LENGTHS));
        }
        calls_with_line(&mut s, rows);
        s.lend_line(80);
    }
    s
}

fn calls_with_line(s: &mut Script, rows: u16) {
    s.feed(b"", 1);
    s.row(1);
    s.row(2);
    s.read(1, 1);
    s.view();
    s.feed(b"q\x1B[6n", ROOM);
    s.ask();
    s.feed(b"\x1B8q\xF1", 0);
    s.row(1);
    s.row(rows);
    look_at_line(s);
    // With the page active, whatever was.
    s.feed(b"\x18\x9B0$}yz\x9B1$~\x9B1$}\x1B8q", 0);
    look_at_line(s);
}

/// What is noted: asked after each of these, alone, on the line and on the page,
/// over a blank line and a written one.
pub fn line_notes() -> Script {
    let pieces: [&[u8]; 26] = [
        b"",
        b"q",
        b"\rq",
        b"\rr",
        b" ",
        b"\x9B;80H \xF1",
        b"\x9BK",
        b"\x9B2K",
        b"\x9B?2K",
        b"\x9BJ",
        b"\x9B@",
        b"\x9BP",
        b"\x9B3X",
        b"\x9B9L",
        b"\n",
        b"\x8D",
        b"\x85",
        b"\x1B#8",
        b"\x9B0$~",
        b"\x9B1$}",
        b"\x9B!p",
        b"\x1Bc",
        b"\x1Bcq",
        b"\x9B113$x",
        b"\x9B;;;;7$t\x9B;;;;7$t",
        b"\x9B;;;;;;2$v",
    ];
    let mut s = Script::new();
    let mut number = 0usize;
    for first in pieces {
        for second in pieces {
            s.start_right(SIZES[number % 3]);
            if number % 5 == 0 {
                s.line_word(1, b'q' as u16);
                s.line_word(80, 0xC020);
            }
            if number % 7 == 0 {
                s.field(LINE_CHANGED, 1);
            }
            s.feed(b"\x9B?7h\x9B1$~\x9B1$}", 0);
            s.feed(first, 0);
            if number % 2 == 0 {
                s.ask();
            }
            if number % 3 == 0 {
                s.feed(b"\x9B0$}", 0);
            }
            s.feed(second, 0);
            s.ask();
            s.ask();
            s.line();
            number += 1;
        }
    }
    s
}

/// A row handed back: each near the edges, of a page and a line with a word of
/// its own in each row.
pub fn rows_of_what_is_active() -> Script {
    let mut s = Script::new();
    for rows in SIZES {
        s.start_right(rows);
        for row in 1..=rows {
            s.word_at(row, row, word_of(row, row));
            s.word_at(row, 80, word_of(row, 80));
        }
        for column in 1..=80 {
            s.line_word(column, word_of(row_for(column), column));
        }
        for before in [
            &b""[..],
            b"\x9B1$~",
            b"\x9B1$}",
            b"\x9B2$~",
            b"\x9B0$}",
            b"\x9B1$}",
            b"\x9B0$~",
            b"\x9B1$~\x9B1$}",
            b"\x9B!p",
            b"\x9B1$}",
            b"\x1Bc",
        ] {
            s.feed(before, 0);
            let wide = [80, 81, 255, 256, 257, 256 + rows, 32_768, 65_535];
            for row in (0..=rows + 2).chain(wide) {
                s.row(row);
            }
        }
    }
    s
}

/// What is put among the listed functions, to be tried in every situation.
pub fn listed_switches() -> Vec<Vec<u8>> {
    [
        "$~",
        "2$~",
        "$}",
        "1$}",
        "1$~\u{1B}[1$}x",
        "2$~\u{1B}[1$}\u{1B}[80Cxy\u{1B}[0$}",
    ]
    .map(csi)
    .to_vec()
}

/// Among the odd ones.
pub fn odd_switches() -> Vec<Vec<u8>> {
    [
        "3$~",
        "?1$~",
        "1:$~\u{1B}[1$}x",
        "1$~\u{1B}[1:$}x",
        "1$$~\u{1B}[1$}x",
        "1~\u{1B}[1$}x",
        "1$~\u{1B}[1}x",
        "1$~\u{1B}[2$}x",
        "1$~\u{1B}[1$}\u{1B}[0$~x",
        "1$~\u{1B}[1$}\u{1B}7\u{1B}[0$}\u{1B}8x",
    ]
    .map(csi)
    .to_vec()
}

#[cfg(test)]
mod tests {
    use super::*;

    /// Every part together.
    fn parts() -> Vec<Script> {
        vec![
            functions_on_the_line(),
            rectangles_on_the_line(),
            to_and_fro(),
            resets_and_starts(),
            two_saved_cursors(),
            sequences_across(),
            rooms_on_the_line(),
            line_lengths(),
            broken_lines(),
            line_notes(),
            rows_of_what_is_active(),
        ]
    }

    #[test]
    fn these_parts_are_not_too_long() {
        let list = parts();
        let sum = |count: fn(&Script) -> usize| -> usize { list.iter().map(count).sum() };
        for part in &list {
            println!("{} {} {}", part.commands, part.input, part.bytes.len());
        }
        let (commands, input) = (sum(|s| s.commands), sum(|s| s.input));
        assert!(commands < 700_000, "{commands}");
        assert!(input < 900_000, "{input}");
    }

    /// The situations are what they say.
    #[test]
    fn situations_are_as_meant() {
        for rows in SIZES {
            for (n, list) in [on_the_line(rows), on_the_page(rows)].iter().enumerate() {
                for situation in list {
                    let mut script = Script::new();
                    begin(&mut script, rows, situation);
                    let mut machine = Machine::new();
                    let mut output = Vec::new();
                    for command in commands(&script.bytes) {
                        machine.carry_out(command, &mut output);
                    }
                    let line = &machine.state().line;
                    assert_eq!(line.active, n == 0);
                    assert_eq!(line.cursor.column, situation.column as usize);
                    assert!(n == 0 || line.cursor.wrap_due || line.saved.cursor.wrap_due);
                }
            }
        }
    }

    /// What the parts meet while the line is active.
    #[test]
    fn every_mixture_is_met() {
        let mut seen = [0usize; 16];
        for part in parts() {
            let mut machine = Machine::new();
            let mut output = Vec::new();
            for command in commands(&part.bytes) {
                let before = machine.state().clone();
                output.clear();
                machine.carry_out(command, &mut output);
                if command.letter != b'F' || !before.line.active {
                    continue;
                }
                let (page, line) = (before.cursor.wrap_due, before.line.cursor.wrap_due);
                let inner = before.top > 1;
                let outside = before.cursor.row < before.top || before.cursor.row > before.bottom;
                let facts = [
                    page && line,
                    page && !line,
                    !page && line,
                    !page && !line,
                    before.insert,
                    before.newline,
                    before.autowrap,
                    inner && before.origin,
                    inner && outside,
                    before.shift.is_some(),
                    before.protection,
                    before.saved.cursor.wrap_due,
                    before.line.saved.cursor.wrap_due,
                    before.eight_bit_replies,
                    !machine.state().line.active,
                    before.line.changed,
                ];
                for (count, fact) in seen.iter_mut().zip(facts) {
                    *count += fact as usize;
                }
            }
        }
        println!("{seen:?}");
        assert!(seen.iter().all(|&count| count > 300), "{seen:?}");
    }
}
