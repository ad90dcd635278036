//! What is compared, as scripts. The fixed parts are always the same; the
//! streams depend on a seed alone.

mod colons;
mod leak;
mod rectangles;
mod status;
mod tabs;

use crate::examples;
use crate::grammar::{stream, Random};
use crate::parser::{Given, MARKED, SUBPARAMETER};
use crate::script::*;
pub use colons::*;
pub use leak::*;
pub use rectangles::*;
pub use status::*;
pub use tabs::*;

pub const SIZES: [u16; 3] = [24, 36, 48];

/// Room enough for any one reply.
const ROOM: u16 = 12;

/// The bytes of every file in the directory of captures.
pub const CAPTURES: [(&str, &[u8]); 19] = [
    ("antenna", include_bytes!("../../captures/antenna.bytes")),
    ("boot", include_bytes!("../../captures/boot.bytes")),
    ("columns", include_bytes!("../../captures/columns.bytes")),
    ("damaged", include_bytes!("../../captures/damaged.bytes")),
    ("edge", include_bytes!("../../captures/edge.bytes")),
    ("editing", include_bytes!("../../captures/editing.bytes")),
    ("eightbit", include_bytes!("../../captures/eightbit.bytes")),
    ("firmware", include_bytes!("../../captures/firmware.bytes")),
    ("form", include_bytes!("../../captures/form.bytes")),
    ("log", include_bytes!("../../captures/log.bytes")),
    ("margins", include_bytes!("../../captures/margins.bytes")),
    ("menu", include_bytes!("../../captures/menu.bytes")),
    ("meter", include_bytes!("../../captures/meter.bytes")),
    ("probing", include_bytes!("../../captures/probing.bytes")),
    (
        "saved-form",
        include_bytes!("../../captures/saved-form.bytes"),
    ),
    ("sets", include_bytes!("../../captures/sets.bytes")),
    ("signal", include_bytes!("../../captures/signal.bytes")),
    ("status", include_bytes!("../../captures/status.bytes")),
    ("strings", include_bytes!("../../captures/strings.bytes")),
];

/// All of it: the fixed parts, then streams until about `bytes` bytes are fed.
pub fn whole(seed: u64, bytes: usize) -> Script {
    let mut script = Script::new();
    for part in fixed_parts() {
        script.append(&part);
    }
    let rest = bytes.saturating_sub(script.input);
    script.append(&streams(seed, rest));
    script
}

pub fn fixed_parts() -> Vec<Script> {
    vec![
        before_any_start(),
        document_examples(),
        examples::script(),
        captures(),
        functions_at_the_edges(),
        saved_protection_and_shift(),
        rectangle_edges(),
        rectangle_copies(),
        fill_codes(),
        attributes(),
        rectangles_in_situations(),
        colon_places(),
        colon_renditions(),
        colons_in_functions(),
        colons_elsewhere(),
        colons_in_each_phase(),
        colons_in_calls(),
        colon_rooms(),
        functions_on_the_line(),
        rectangles_on_the_line(),
        to_and_fro(),
        resets_and_starts(),
        two_saved_cursors(),
        sequences_across(),
        rooms_on_the_line(),
        line_lengths(),
        broken_lines(),
        line_notes(),
        rows_of_what_is_active(),
        tab_searches(),
        tab_searches_at_once(),
        tabs_in_situations(),
        tabs_in_a_row(),
        tabs_in_sequences(),
        tabs_changed(),
        forty_columns(),
        given_tabs(),
        two_pages(),
        bytes_in_each_phase(),
        rooms(),
        broken_states(),
        parsers_at_the_edges(),
        parsers_that_go_on(),
        marked_parsers(),
        wrong_lengths(),
        all_starts(),
    ]
}

// ---- Before any start, the examples, the captures ---------------------------

/// The buffers are all 0; nothing of the page is lent, and 80 words of the line.
pub fn before_any_start() -> Script {
    let mut s = Script::new();
    s.page();
    s.line();
    s.row(1);
    s.text();
    s.view();
    s.ask();
    s.read(1, 1);
    s.read(0, 0);
    s.feed(b"", 0);
    s.feed(b"x\x1B[6n", ROOM);
    s.word(3, 0xFFFF);
    s.word(1919, 0x8041);
    s.word(1920, 0x4042);
    s.word(4095, 0xFFFF);
    s.word(4096, 0x1111);
    s.word(65535, 0x2222);
    s.lend(1920);
    s.line_word(80, 0x8041);
    s.line_word(81, 0x4042);
    s.line_word(129, 0x3333);
    for words in [0, 80, 81, 65535, 80] {
        s.lend_line(words);
        s.line();
        s.row(1);
    }
    s.page();
    s.read(1, 4);
    s.read(24, 80);
    s.read(1, 1);
    s.feed(b"\x1B[6nx", ROOM);
    s.ask();
    s.view();
    s.page();
    s.feed(b"\x1B[1$~\x1B[1$}z\x1B[6n", ROOM);
    s.row(1);
    s.ask();
    s.view();
    s.line();
    s.feed(b"\x1B[0$}", 0);
    s.lend(65535);
    s.page();
    s.read(1, 1);
    s
}

/// Everything that can be asked of a state without changing page or cursor.
fn look(s: &mut Script) {
    s.ask();
    s.feed(b"\x1B[6n", ROOM);
    s.feed(b"\x1B[?6n", ROOM);
    s.view();
    s.text();
}

/// The examples of SCOPE 11, in each size of page.
pub fn document_examples() -> Script {
    let fed: [&[u8]; 9] = [
        b"\x1B[5;77H1.10",
        b"\x1B[?7h\x1B[5;77H1.10",
        b"\x1B[?7h\x1B[5;77H1.10x",
        b"\x1B[99;99H",
        b"\x1B[3;3r\x1B[?6h",
        b"\x1B[3;4r\x1B[?6h\x1B[9;9H",
        b"\x1B[6;10r\x1B[?6h\x1B[2;5H",
        b"\x1B[2\x18J",
        b"\x1B[1:2AB",
    ];
    let mut s = Script::new();
    for rows in SIZES {
        for bytes in fed {
            s.start_right(rows);
            s.feed(bytes, ROOM);
            look(&mut s);
            s.page();
        }
        // 6
        for room in 0..8 {
            s.start_right(rows);
            s.feed(b"\x1B[6n", room);
            look(&mut s);
        }
        // 8
        s.start_right(rows);
        s.feed(b"", 0);
        s.ask();
        s.page();
        // 9
        s.feed(b"A", 0);
        s.ask();
        s.feed(b"\x1B[HA", 0);
        s.ask();
        s.feed(b"\x1B[24H\n", 0);
        look(&mut s);
        s.feed(format!("\x1B[{rows}H\n").as_bytes(), 0);
        look(&mut s);
        // 10
        s.start_right(rows);
        s.feed(
            format!("\x1B[?7h\x1B[{rows}HA\x1B[{rows};80H ").as_bytes(),
            0,
        );
        s.ask();
        s.feed(b"A", 0);
        look(&mut s);
        // 11
        s.start_right(rows);
        s.feed(b"\x1B[c\x1B[5n\x1B[6n", 18);
        s.start_right(rows);
        s.feed(b"\x1B[c\x1B[5n\x1B[6n", 40);
        s.start_right(rows);
        s.feed(b"\x1B[c\x1B[5n\x1B[6n", 17);
        s.feed(b"n", 17);
        look(&mut s);
    }
    s
}

/// Each capture at once, byte by byte and in pieces of 7.
pub fn captures() -> Script {
    let mut s = Script::new();
    for rows in SIZES {
        for (_, bytes) in CAPTURES {
            for length in [bytes.len(), 1, 7] {
                s.start_right(rows);
                for piece in bytes.chunks(length) {
                    s.feed(piece, 100);
                    if length > 1 {
                        s.ask();
                        s.view();
                    }
                }
                look(&mut s);
                s.page();
                s.line();
            }
        }
    }
    s
}

// ---- Every function at the edges --------------------------------------------

/// A situation: how it is brought about, and about where the cursor then is.
pub struct Preparation {
    pub bytes: Vec<u8>,
    pub row: u16,
    pub column: u16,
}

pub fn preparations(rows: u16) -> Vec<Preparation> {
    let mut list = Vec::new();
    let mut add = |row: u16, column: u16, bytes: String| {
        list.push(Preparation {
            bytes: bytes.chars().map(|sign| sign as u32 as u8).collect(),
            row,
            column,
        });
    };
    let last = rows;
    add(1, 1, String::new());
    // Somewhere inside, at the corners, and at the edges without autowrap.
    add(7, 40, "\x1B[7;40H".into());
    add(1, 80, "\x1B[80Cz".into());
    add(last, 1, format!("\x1B[{last}H"));
    add(last, 80, format!("\x1B[{last};80H"));
    // Wrap due: at the top, inside, at the bottom.
    add(1, 80, "\x1B[?7h\x1B[80Cz".into());
    add(7, 80, "\x1B[?7h\x1B[7;79Hyz".into());
    add(last, 80, format!("\x1B[?7h\x1B[{last};80Hz"));
    // The same with margins: above, at T, inside, at B, below, at the edge.
    for row in [1, 4, 5, 8, 10, 11, last] {
        add(row, 40, format!("\x1B[5;10r\x1B[{row};40H"));
        add(row, 80, format!("\x1B[5;10r\x1B[?7h\x1B[{row};80Hz"));
    }
    // Margins that touch an edge of the page, and the smallest.
    add(3, 3, "\x1B[1;3r\x1B[3;3H".into());
    let above = last - 1;
    add(last, 3, format!("\x1B[{above}r\x1B[{last};3H"));
    add(above, 3, format!("\x1B[{above}r\x1B[{above};3H"));
    add(6, 79, "\x1B[6;7r\x1B[6;79H".into());
    // Origin on: at T, inside, at B; with wrap due; with full margins.
    for row in [1, 3, 6] {
        add(row + 4, 40, format!("\x1B[5;10r\x1B[?6h\x1B[{row};40H"));
    }
    add(10, 80, "\x1B[5;10r\x1B[?6;7h\x1B[6;80Hz".into());
    add(1, 1, "\x1B[?6h".into());
    // Insert mode, newline mode.
    add(7, 40, "\x1B[4h\x1B[7;40H".into());
    add(7, 80, "\x1B[4h\x1B[?7h\x1B[7;80Hz".into());
    add(7, 40, "\x1B[20h\x1B[7;40H".into());
    add(10, 80, "\x1B[20h\x1B[5;10r\x1B[?7h\x1B[10;80Hz".into());
    // A shift pending; with wrap due; of a 96-sign set.
    add(7, 40, "\x1B[7;40H\u{8E}".into());
    add(7, 80, "\x1B*0\x1B[?7h\x1B[7;80Hz\x1BN".into());
    add(7, 40, "\x1B/A\x1B[7;40H\x1BO".into());
    // Protected cells, and protection on, with rendition.
    add(
        7,
        40,
        "\x1B[7;30H\x1B[1\"qabcdef\x1B[0\"qghijkl\x1B[1\"qmnopqr\x1B[1;7m\x1B[7;40H".into(),
    );
    add(
        7,
        38,
        "\x1B[6;36H\x1B[1;4;5;7m\x1B[1\"qab\x1B[2\"qcd\r\n\x1B[35Cef".into(),
    );
    // A saved cursor: with wrap due, autowrap on or off again; with origin, the
    // margins then elsewhere.
    add(7, 40, "\x1B[?7h\x1B[9;80Hz\x1B7\x1B[7;40H".into());
    add(7, 40, "\x1B[?7h\x1B[9;80Hz\x1B7\x1B[?7l\x1B[7;40H".into());
    add(
        7,
        40,
        "\x1B[5;10r\x1B[?6h\x1B[2;5H\x1B(0\x1B[7m\x1B7\x1B[?6l\x1B(B\x1B[m\x1B[8;12r\x1B[7;40H"
            .into(),
    );
    add(
        7,
        40,
        "\x1B[12r\x1B[?6;7h\x1B[3;80Hz\x1B7\x1B[?6l\x1B[5;9r\x1B[7;40H".into(),
    );
    // Saved inside protection, now off; also with wrap due.
    add(7, 40, "\u{9B}7;40H\u{9B}1\"q\x1B7\u{9B}\"qz".into());
    add(
        7,
        79,
        "\u{9B}?7h\u{9B}7;79H\u{9B}1\"q\x1B7\u{9B}\"qyz".into(),
    );
    // Saved with a shift, none now; also with wrap due saved.
    add(7, 40, "\u{9B}7;40H\u{8E}\x1B7z".into());
    add(7, 80, "\u{9B}?7h\u{9B}7;80Hz\u{8E}\x1B7\rz".into());
    // Saved with G3 and protection, now G2 pending and no protection; also in
    // insert mode.
    let both = "\x1B+0\u{9B}7;40H\u{9B}1\"q\u{8F}\x1B7z\u{9B}\"q\u{8E}";
    add(7, 40, both.into());
    add(7, 40, format!("\u{9B}4h{both}"));
    // Saved without either, both now; also with margins and origin.
    add(7, 40, "\u{9B}7;40H\x1B7z\u{9B}1\"q\u{8E}".into());
    add(
        7,
        40,
        "\u{9B}5;10r\u{9B}?6h\u{9B}3;40H\x1B7z\u{9B}1\"q\u{8E}".into(),
    );
    // Latin-1 in GL and GR; Special Graphics; Supplemental.
    add(7, 40, "\x1B-A\x0E\x1B~\x1B[7;40H".into());
    add(7, 40, "\x1B.A\x1Bn\x1B[7;40H".into());
    add(7, 40, "\x1B(0\x1B)0\x1B~\x1B[7;40H".into());
    add(7, 40, "\x1B(%5\x1B+B\x1B|\x1B[7;40H".into());
    // 8-bit replies; with origin; at the far corner.
    add(7, 40, "\x1B G\x1B[7;40H".into());
    add(last, 80, format!("\x1B G\x1B[?7h\x1B[{last};80Hz"));
    add(10, 80, "\x1B G\x1B[5;10r\x1B[?6h\x1B[9;99H".into());
    // Attributes change in the rectangle; also with wrap due, origin and a shift.
    add(7, 40, "\u{9B}2*x\x1B[7;40H".into());
    add(
        7,
        80,
        "\u{9B}2*x\x1B[5;10r\x1B[?6;7h\x1B[3;80Hz\u{8E}".into(),
    );
    // Tabs cleared, tabs set; cursor hidden.
    add(7, 40, "\x1B[3g\x1B[7;45H\x1BH\x1B[7;40H".into());
    add(7, 80, "\x1B[7;80H\x1BH".into());
    add(7, 73, "\x1B[?25l\x1B[7;73H".into());
    list
}

/// Every listed function with parameters at the edges, every control, and signs
/// at the edges of the sets.
pub fn listed(rows: u16) -> Vec<Vec<u8>> {
    let mut list: Vec<Vec<u8>> = Vec::new();
    // Signs.
    for byte in [0x20, 0x21, 0x41, 0x5E, 0x5F, 0x71, 0x7E, 0x7F] {
        list.push(vec![byte]);
        list.push(vec![byte + 0x80]);
        list.push(vec![byte, b'x']);
    }
    list.push(b"xyz".to_vec());
    // Controls.
    for byte in 0x00..=0x1F {
        list.push(vec![byte]);
    }
    for byte in 0x80..=0x9F {
        list.push(vec![byte]);
    }
    // Escape sequences.
    for last in [b"7", b"8", b"c", b"n", b"o", b"~", b"}", b"|"] {
        list.push([b"\x1B", &last[..]].concat());
    }
    for rest in ["#8", " F", " G"] {
        list.push(format!("\x1B{rest}").into_bytes());
    }
    for slot in "()*+-./".chars() {
        for set in ["B", "0", "A", "%5"] {
            list.push(format!("\x1B{slot}{set}").into_bytes());
        }
    }
    // Control sequences.
    let mut csi = |parameters: &str, last: &str| {
        list.push(format!("\x1B[{parameters}{last}").into_bytes());
    };
    let edge = rows.to_string();
    let above = (rows - 1).to_string();
    let beyond = (rows + 1).to_string();
    let vertical = ["", "0", "1", "2", "3", "5", "6", &above, &edge, "9999"];
    let horizontal = ["", "0", "1", "2", "40", "41", "79", "80", "81", "9999"];
    for last in ["A", "B", "L", "M"] {
        for count in vertical {
            csi(count, last);
        }
    }
    for last in ["C", "D", "X", "@", "P"] {
        for count in horizontal {
            csi(count, last);
        }
    }
    for row in ["", "0", "1", "5", "6", "7", &edge, &beyond, "9999"] {
        csi(row, "H");
        csi(&format!("{row};80"), "H");
    }
    for place in [";0", ";1", ";79", ";81", ";9999", "3;3;3"] {
        csi(place, "f");
    }
    for margins in ["", "0;0", "1;2", "2;1", "3;3", "5;11", "6;9", "9;0", "0;9"] {
        csi(margins, "r");
    }
    csi(&format!("{above};{edge}"), "r");
    csi(&format!("{edge};{edge}"), "r");
    csi(&format!("{above};{beyond}"), "r");
    csi(&format!("{edge};9999"), "r");
    for last in ["J", "K"] {
        for selector in ["", "0", "1", "2", "3"] {
            csi(selector, last);
            csi(&format!("?{selector}"), last);
        }
    }
    for selector in ["", "3", "1"] {
        csi(selector, "g\r\t");
        csi(selector, "g\t\t");
        csi(selector, "g");
    }
    for mode in ["", "4", "20", "6", "7", "25", "4;20", "6;7", "7;6"] {
        for last in ["h", "l"] {
            csi(mode, last);
            csi(&format!("?{mode}"), last);
        }
    }
    for selector in [
        "", "1", "4", "5", "7", "8", "22", "24", "25", "27", "1;4;5;7", "7;0", "1;;7",
    ] {
        csi(selector, "m");
    }
    for selector in ["", "0", "1", "2", "3"] {
        csi(selector, "\"q");
    }
    for selector in ["5", "6", "?6", "?15", "", "?5", "15"] {
        csi(selector, "n");
    }
    for selector in ["", "0", ">", ">0", "1", ">1", "?"] {
        csi(selector, "c");
    }
    csi("", "!p");
    list.extend(listed_rectangles(rows));
    list.extend(listed_switches());
    // Two functions in a row.
    for bytes in [
        &b"\x1B7\x1B[3;3H\x1B8"[..],
        b"\x1B7\x1B[?7l\x1B8q",
        b"\x1B8q",
        b"\x8E\x1B7q\x1B8q",
        b"\x1B7\x8F\x1B8q",
        b"\x9B1\"q\x1B7\x9B\"q\x1B8q",
        b"\x1B[!p\x1B8q",
        b"\x1B[2J\x1Bc",
        // Is origin on?
        b"\x1B#8\x1B[5;9r\x1B[2H",
        b"\x1B[!p\x1B[5;9r\x1B[2H",
        b"\x1Bc\x1B[5;9r\x1B[2H",
        b"\x1B8\x1B[5;9r\x1B[2H",
        b"\x1B#8\n",
        b"\x8D\x8D",
        b"\x8Eq\x8Fq",
        b"\x8E\x1Aqq",
        b"\x8E\x18qq",
        b"\x8E\xC1qq",
    ] {
        list.push(bytes.to_vec());
    }
    list
}

/// More parameters, what is not listed, and what is not well formed.
fn odd(rows: u16) -> Vec<Vec<u8>> {
    let mut list: Vec<Vec<u8>> = Vec::new();
    for byte in 0x00..=0x1F {
        list.push(vec![byte, b'q']);
    }
    for byte in 0x80..=0x9F {
        list.push(vec![0x1B, byte - 0x40]);
        list.push(vec![byte, b'q', b'r']);
    }
    for last in 0x30..=0x7E {
        list.push(vec![0x1B, last]);
    }
    for last in [b"7", b"8", b"n", b"o", b"~", b"}", b"|"] {
        list.push([b"\x1B", &last[..], b"q\xF1q"].concat());
    }
    for rest in ["#7", "#3", " H", "#8q", "##8", " #F", "  G"] {
        list.push(format!("\x1B{rest}").into_bytes());
    }
    for slot in "()*+-./".chars() {
        for set in ["B", "0", "A", "%5", "<", "%0", "%B", "5"] {
            list.push(format!("\x1B{slot}{set}q\x0Eq\x1Bnq\x1Boq").into_bytes());
        }
    }
    let mut csi = |parameters: &str, last: &str| {
        list.push(format!("\x1B[{parameters}{last}").into_bytes());
    };
    let edge = rows.to_string();
    let above = (rows - 1).to_string();
    let beyond = (rows + 1).to_string();
    for last in ["A", "B", "C", "D", "X", "L", "M", "@", "P"] {
        for count in ["4", "7", "9", "10000", "0;7", ";2", "00", "001", &beyond] {
            csi(count, last);
        }
    }
    let places = [
        "", "0", "1", "2", "5", "6", "7", "10", &above, &edge, &beyond, "9999",
    ];
    for row in places {
        for column in ["", "0", "1", "80", "81", "10000"] {
            csi(&format!("{row};{column}"), "H");
        }
    }
    for top in places {
        csi(top, "r");
        for bottom in places {
            csi(&format!("{top};{bottom}"), "r");
        }
    }
    for last in ["J", "K"] {
        for selector in ["4", "0;1", "1;2", ";1", "9999", "02"] {
            csi(selector, last);
            csi(&format!("?{selector}"), last);
        }
        csi(">", last);
        csi("2 ", last);
    }
    for selector in ["0", "2", "4", "0;3", "3;0", "?3", "?"] {
        csi(selector, "g\r\t");
        csi(selector, "g\t\t");
    }
    for mode in ["20;4;4", "6;7;25", "7;7", "6;6", "99", "4;", ";20", "9999"] {
        for last in ["h", "l"] {
            csi(mode, last);
            csi(&format!("?{mode}"), last);
            csi(&format!("?{mode}"), &format!("{last}q"));
        }
    }
    for mark in ["<", "=", ">", "??"] {
        for last in ["h", "l"] {
            csi(&format!("{mark}4;20"), last);
            csi(&format!("{mark}6"), last);
            csi(&format!("{mark}7"), last);
        }
        for last in ["A", "B", "C", "D", "H", "f", "X", "L", "M", "@", "P"] {
            csi(&format!("{mark}3"), last);
            csi("?3", last);
        }
        for last in ["J", "K"] {
            csi(&format!("{mark}1"), last);
        }
        csi(&format!("{mark}5;9"), "r");
        csi("?5;9", "r");
        csi(&format!("{mark}7"), "mq");
        csi(&format!("{mark}1"), "\"qq");
        csi(mark, "!p");
        csi(&format!("{mark}3"), "g\r\t");
        csi(&format!("{mark}6"), "n");
        csi(&format!("{mark}5"), "n");
        csi(mark, "c");
    }
    for selector in [
        "", "0", "1", "2", "21", "28", "0;7", "1;22;4", "?1", ">1", "1;0", ";1",
    ] {
        csi(selector, "mq");
        csi(selector, "\"qw");
    }
    for selector in [
        "0", "1", ">6", "5;6", "6;5", ";6", "?6;1", "?", "0;1", "=", "?0", "<0", ">0;1", "0006",
        "60",
    ] {
        csi(selector, "n");
        csi(selector, "c");
    }
    for selector in ["", "0", "1", "?"] {
        csi(selector, "!pq");
        csi(selector, "p");
        csi(selector, "$p");
        csi(selector, "!!p");
    }
    // Numbers that are small again if they are cut to 8, 16, 32 or 64 bits.
    for (number, last) in [
        ("262", "n"),
        ("65542", "n"),
        ("4294967302", "n"),
        ("18446744073709551622", "n"),
        ("65540", "hq"),
        ("?65543", "h"),
        ("257", "mq"),
        ("65538", "J"),
        ("65539", "g\r\t"),
        ("65536", "C"),
        ("65541;65545", "r"),
        ("4294967297;4294967299", "H"),
    ] {
        csi(number, last);
    }
    // What is not listed, or not well formed.
    for last in 0x40..=0x7Eu8 {
        let last = (last as char).to_string();
        csi("", &last);
        csi("2", &last);
        csi("?2", &last);
        csi(">2", &last);
        csi("2 ", &last);
        csi("2:", &last);
        csi("2!3", &last);
    }
    // Sixteen parameters, and more.
    let many = |count: usize, last: &str| format!("{}{last}", ";".repeat(count - 1));
    for count in [15, 16, 17, 18] {
        csi(&many(count, "7"), "mq");
        csi(&many(count, "4"), "hq");
        csi(&format!("?{}", many(count, "6")), "h");
        csi(&format!("2;3{}", many(count, "")), "H");
    }
    list.extend(odd_rectangles(rows));
    list.extend(odd_switches());
    // Functions in a row.
    for bytes in [
        &b"\x1B8\x1B8"[..],
        b"\x1Bcq",
        b"\x08\x08q",
        b"\n\n",
        b"\x1BM\x1BM\x1BM\x1BM\x1BM\x1BM\x1BM",
        b"\n\n\n\n\n\n\n\n\n\n\n\n\n\n\n\n\n\n\n\n\n\n\n\n\nq",
        b"\x8E\x8Fqq",
        b"\x8E\x1B[!pqq",
        b"\x8E\x1Bcqq",
        b"\x8E\x7F\xA0qq",
        b"\x1BP abc\x1B\\q",
        b"\x1BPabc\x9Cq",
        b"\x9Dabc\x18q",
        b"\x9Fabc\x1Aq",
    ] {
        list.push(bytes.to_vec());
    }
    list
}

/// A word that printing could leave, but for its flags and unused bits.
fn word_of(row: u16, column: u16) -> u16 {
    let code = 0x41 + (row * 5 + column) % 58;
    let set = if (row + column) % 3 == 0 { 0x80 } else { 0 };
    let flags = (row * 7 + column * 3) % 128;
    code | set | flags << 9
}

/// The columns near a column.
fn near(column: u16) -> Vec<u16> {
    let first = column.saturating_sub(2).max(1);
    (first..=(column + 2).min(80)).collect()
}

/// The rows near a row.
fn near_rows(row: u16, rows: u16) -> Vec<u16> {
    (row.saturating_sub(1).max(1)..=(row + 1).min(rows)).collect()
}

/// With 24 rows every listed function in every situation, with 36 and 48 rows
/// every sixth, in turn; of the odd ones every twentieth, in turn.
pub fn functions_at_the_edges() -> Script {
    let mut s = Script::new();
    let mut number = 0usize;
    for rows in SIZES {
        let listed = listed(rows);
        let odd = odd(rows);
        for (p, preparation) in preparations(rows).iter().enumerate() {
            let turn = p + rows as usize / 12;
            let every = if rows == 24 { 1 } else { 6 };
            let functions = listed.iter().skip(turn % every).step_by(every);
            for function in functions.chain(odd.iter().skip(turn % 20).step_by(20)) {
                number += 1;
                let (row, column) = (preparation.row, preparation.column);
                s.start_right(rows);
                // Something in every row, and around the cursor.
                for row in 1..=rows {
                    let column = 1 + (row * 13) % 80;
                    s.word_at(row, column, word_of(row, column));
                }
                for row in near_rows(row, rows) {
                    for column in near(column) {
                        s.word_at(row, column, word_of(row, column));
                    }
                }
                s.feed(&preparation.bytes, 0);
                s.view();
                s.ask();
                s.feed(function, ROOM);
                s.view();
                s.feed(b"", 0);
                s.ask();
                s.view();
                for column in near(column) {
                    s.read(row, column);
                }
                for row in near_rows(row, rows) {
                    s.read(row, 1);
                    s.read(row, column);
                }
                s.feed(b"\x1B[6n", ROOM);
                s.feed(b"\x1B[?6n", ROOM);
                match number % 12 {
                    0 => s.page(),
                    6 => s.text(),
                    _ => {}
                }
                // Wrap due, the sets and the shift show in what is printed.
                s.feed(b"q\xF1", 0);
                s.view();
                s.ask();
                s.feed(b"\x1B[6n", ROOM);
                s.read(row, column);
                s.read(row, column.min(79) + 1);
                s.read(row, 80);
                s.read(row.min(rows - 1) + 1, 1);
                match number % 12 {
                    3 | 9 => s.page(),
                    5 | 11 => s.text(),
                    _ => {}
                }
            }
        }
    }
    s
}

// ---- Protection and shift in the saved cursor -------------------------------

/// Every protection with every shift: the bytes that bring it about where no
/// shift is pending.
const WRITING: [&[u8]; 6] = [
    b"\x9B\"q",
    b"\x9B\"q\x8E",
    b"\x9B\"q\x8F",
    b"\x9B1\"q",
    b"\x9B1\"q\x8E",
    b"\x9B1\"q\x8F",
];

/// ASCII in GL, Supplemental in GR, Special Graphics in G2, Latin-1 in G3.
const FOUR_SETS: &[u8] = b"\x1B)%5\x1B~\x1B*0\x1B/A";

/// Every protection and shift saved, with every one of now, with and without
/// origin, insert and wrap due: restored, printed with, restored again; then
/// saved and restored at once; then a reset between saving and restoring.
pub fn saved_protection_and_shift() -> Script {
    let mut s = Script::new();
    let mut number = 0usize;
    for situation in 0..8 {
        for saved in WRITING {
            for now in WRITING {
                let rows = SIZES[(number + situation) % 3];
                number += 1;
                saved_and_now(&mut s, rows, situation, saved, now);
                feed_each(&mut s, &[b"\x1B8", b"q", b"\xE1q"]);
                s.page();
                // A call may end inside ESC 8 and ESC 7.
                feed_each(&mut s, &[now, b"\x1B", b"8", b"\xE1", b"q"]);
                feed_each(&mut s, &[now, b"\x1B", b"7", b"\x1B8", b"q\xE1q"]);
                s.page();
                for reset in [&b"\x9B!p"[..], b"\x1Bc"] {
                    saved_and_now(&mut s, rows, situation, saved, now);
                    feed_each(&mut s, &[reset, now, b"\x1B8", b"q\xE1q"]);
                    for column in 1..=4 {
                        s.read(1, column);
                    }
                }
            }
        }
    }
    s
}

/// Saved in row 7; "z" in row 8 ends the shift, and wrap is due again if it was.
fn saved_and_now(s: &mut Script, rows: u16, situation: usize, saved: &[u8], now: &[u8]) {
    s.start_right(rows);
    origin_insert_wrap(s, situation);
    s.feed(&[FOUR_SETS, saved, b"\x1B7\nz", now].concat(), 0);
    s.view();
    s.ask();
}

fn feed_each(s: &mut Script, pieces: &[&[u8]]) {
    for piece in pieces {
        s.feed(piece, 0);
        s.view();
        s.ask();
    }
}

// ---- Every byte in each phase -----------------------------------------------

/// Bytes that bring the parser into each of its phases.
const PHASES: [&[u8]; 38] = [
    b"",
    b"\x1B",
    b"\x1B ",
    b"\x1B#",
    b"\x1B(",
    b"\x1B-",
    b"\x1B(%",
    b"\x1B !",
    b"\x1B###",
    b"\x1B(((((",
    b"\x1B[",
    b"\x9B",
    b"\x1B[?",
    b"\x1B[>",
    b"\x1B[<",
    b"\x1B[3",
    b"\x1B[;",
    b"\x1B[3;4",
    b"\x1B[?7",
    b"\x1B[;;;;;;;;;;;;;;;9",
    b"\x1B[;;;;;;;;;;;;;;;;9",
    b"\x1B[9999",
    b"\x1B[!",
    b"\x1B[1\"",
    b"\x1B[?1\"",
    b"\x1B[1\"!",
    b"\x1B[1!!!",
    b"\x1B[1:",
    b"\x1B[:",
    b"\x1B[4:3",
    b"\x1B[;;;;;;;;;;;;;;;7:",
    b"\x1B[;;;;;;;;;;;;;;;;7:",
    b"\x1B[1?",
    b"\x1B[??",
    b"\x1B[1!2",
    b"\x1BP",
    b"\x98",
    b"\x1B]abc",
];

/// Every byte in each phase of the parser, once on a fresh page and once with
/// wrap due in margins with a shift pending; then a text that tells which phase
/// it came to.
pub fn bytes_in_each_phase() -> Script {
    let befores: [&[u8]; 2] = [b"", b"\x1B[2;4r\x1B[?7h\x1B*0\x1B[4;80Hz\x8E"];
    let markers: [&[u8]; 3] = [b";5H1x", b"3 5\"\x1B[;5H0q", b"%5Bx\x0Ey"];
    // With a subparameter only m tells.
    let after_colon: [&[u8]; 3] = [b";7m1x", b"4m0q", b":;5mx\x0Ey"];
    let mut s = Script::new();
    let mut number = 0usize;
    for before in befores {
        for phase in PHASES {
            let markers = match phase.contains(&0x3A) {
                true => after_colon,
                false => markers,
            };
            for byte in 0..=255u8 {
                s.start_right(24);
                s.feed(before, 0);
                s.feed(phase, ROOM);
                s.ask();
                s.feed(&[byte], ROOM);
                s.view();
                s.ask();
                s.feed(markers[number % 3], ROOM);
                number += 1;
                s.view();
                s.ask();
                s.text();
                s.feed(b"\x18\x1B[6n", ROOM);
                s.feed(b"q", 0);
                s.read(1, 1);
                s.read(4, 1);
                s.read(4, 80);
            }
        }
    }
    s
}

// ---- The room for replies ---------------------------------------------------

/// Every query, in each form.
pub const QUERIES: [&[u8]; 9] = [
    b"\x1B[c",
    b"\x1B[0c",
    b"\x9A",
    b"\x1BZ",
    b"\x1B[>c",
    b"\x1B[5n",
    b"\x1B[6n",
    b"\x1B[?6n",
    b"\x1B[?15n",
];

/// Every reply with every room from 0 to 13, with and without bytes after it.
pub fn rooms() -> Script {
    let befores: [&[u8]; 4] = [
        b"",
        b"\x1B G",
        b"\x1B[99;99H",
        b"\x1B G\x1B[10;20r\x1B[?6h\x1B[99;99H",
    ];
    let mut s = Script::new();
    for rows in SIZES {
        for before in befores {
            for query in QUERIES {
                for room in 0..=13 {
                    s.start_right(rows);
                    s.feed(before, 0);
                    s.feed(&[b"ab", query, b"cd"].concat(), room);
                    s.ask();
                    // After answer 3 the last byte of the query is still due.
                    s.feed(&query[query.len() - 1..], room);
                    s.feed(&query[query.len() - 1..], room + 5);
                    s.feed(b"\x18x", 0);
                    look(&mut s);
                    s.feed(&[query, query, b"e"].concat(), 2 * room);
                    look(&mut s);
                }
            }
        }
        // A full reply buffer, and a very long input.
        s.start_right(rows);
        s.feed(&b"\x1B[6n".repeat(1_000), MOST_ROOM as u16);
        s.feed(&b"x\x1B[c".repeat(1_000), MOST_ROOM as u16);
        look(&mut s);
        s.start_right(rows);
        s.feed(&stream(rows as u64, 65_535), MOST_ROOM as u16);
        look(&mut s);
        s.page();
    }
    s
}

// ---- Broken states ----------------------------------------------------------

const FIELDS: [u16; 20] = [
    ROWS,
    ROW,
    COLUMN,
    WRAP_DUE,
    TOP,
    BOTTOM,
    ORIGIN,
    AUTOWRAP,
    SAVED_ROW,
    SAVED_COLUMN,
    SAVED_WRAP_DUE,
    SHOWN,
    CHANGED_ROW,
    LINE_EXISTS,
    LINE_ACTIVE,
    LINE_COLUMN,
    LINE_WRAP_DUE,
    LINE_SAVED_COLUMN,
    LINE_SAVED_WRAP_DUE,
    LINE_CHANGED,
];

const VALUES: [u16; 38] = [
    0, 1, 2, 4, 5, 6, 9, 10, 11, 22, 23, 24, 25, 26, 34, 35, 36, 37, 46, 47, 48, 49, 50, 62, 63,
    64, 65, 78, 79, 80, 81, 127, 128, 254, 255, 256, 280, 65535,
];

/// All five calls on a state that may be broken.
fn all_calls(s: &mut Script, rows: u16) {
    s.feed(b"", 3);
    s.view();
    s.read(1, 1);
    s.read(rows, 80);
    s.read(rows + 1, 80);
    s.read(0, 1);
    s.row(rows);
    s.row(rows + 1);
    s.feed(b"q\x1B[6n", ROOM);
    s.ask();
    s.feed(b"\x1B8q", ROOM);
    s.feed(b"\n\x1B[6n\x1B[?6n", 2 * ROOM);
    s.ask();
    s.view();
    s.text();
}

/// Each field set to values at and beyond the edges, in several situations;
/// then two fields at once.
pub fn broken_states() -> Script {
    let befores: [&[u8]; 6] = [
        b"",
        b"\x1B[5;10r\x1B[?6h\x1B[3;80H",
        b"\x1B[?7h\x1B[7;80Hz\x1B7",
        b"\x1B[99;99H",
        b"\x1B[?7h\x1B[99;99Hz\x1B7\x1B[3",
        b"\x1B[23r\x1B[?6h\x1B[9;9H\x1B7",
    ];
    let mut s = Script::new();
    for rows in SIZES {
        for before in befores {
            for field in FIELDS {
                let values = match field {
                    LINE_EXISTS.. => &[0, 1, 80, 81][..],
                    _ => &VALUES[..],
                };
                for &value in values {
                    s.start_right(rows);
                    s.feed(before, 0);
                    s.field(field, value);
                    all_calls(&mut s, rows);
                    s.start_right(rows);
                    s.feed(b"\x1B[6n", ROOM);
                }
            }
        }
    }
    // Every row in the set.
    for rows in SIZES {
        for row in 0..=65 {
            s.start_right(rows);
            s.field(CHANGED_ROW, row);
            s.feed(b"\n\nx", 0);
            s.ask();
        }
        s.start_right(rows);
        for row in 1..=rows {
            s.field(CHANGED_ROW, row);
        }
        s.feed(b"\x1Bc", 0);
        s.ask();
        s.ask();
    }
    // Two or three fields, then the last one put right again.
    let mut random = Random::new(1);
    for _ in 0..3_000 {
        let rows = random.pick(&SIZES);
        let before = random.pick(&befores);
        s.start_right(rows);
        s.feed(before, 0);
        for _ in 0..random.between(2, 3) {
            let (field, value) = (random.pick(&FIELDS), random.pick(&VALUES));
            s.field(field, value);
        }
        if random.percent(20) {
            s.lend(random.pick(&[1919, 1920, 2880, 3840]));
        }
        all_calls(&mut s, rows);
        s.field(WRAP_DUE, 0);
        s.field(ROW, 7);
        s.field(COLUMN, 7);
        s.field(TOP, 6);
        s.field(BOTTOM, 8);
        s.field(LINE_ACTIVE, 0);
        s.field(LINE_COLUMN, 7);
        s.field(LINE_WRAP_DUE, 0);
        s.field(ROWS, rows);
        s.feed(b"x\x1B[6n", ROOM);
        s.ask();
        s.start_right(rows);
        s.feed(b"", 0);
    }
    // The cursor shown and not.
    let functions: [&[u8]; 7] = [
        b"\x1B[?25h",
        b"\x1B[?25l",
        b"\x1B7",
        b"\x1B8",
        b"\x1B[!p",
        b"\x1Bc",
        b"\x1B7\x1B[?25h\x1B8",
    ];
    for rows in SIZES {
        for before in befores {
            for shown in [0, 1] {
                for function in functions {
                    s.start_right(rows);
                    s.feed(before, 0);
                    s.field(SHOWN, shown);
                    s.view();
                    s.feed(function, 0);
                    s.view();
                }
            }
        }
    }
    s
}

// ---- Parsers that are set ---------------------------------------------------

/// Nothing in progress and nothing left over. What is no part of the state is
/// out of range.
const IDLE: Given = Given {
    phase: 0,
    mark: 0,
    intermediates: [0xFF; 2],
    separators: 0,
    values: {
        let mut values = [0xFFFF; 16];
        values[0] = 0;
        values
    },
};

/// Private marks at the edges, without and with the top bit.
const MARKS: [u8; 15] = [
    0x00, 0x01, 0x3B, 0x3C, 0x3F, 0x40, 0x7F, 0x80, 0x81, 0xBA, 0xBB, 0xBC, 0xBF, 0xC0, 0xFF,
];
const SEPARATORS: [u8; 7] = [0, 1, 14, 15, 16, 17, 255];
const INTERMEDIATES: [u8; 4] = [0x1F, 0x20, 0x2F, 0x30];

/// A phase with every mark, number of separators, value and intermediate at and
/// beyond its edge.
fn phase_at_the_edges(phase: u8) -> Vec<Given> {
    let mut list = Vec::new();
    for mark in MARKS {
        for separators in SEPARATORS {
            let kept = (separators as usize + 1).min(16);
            let given = Given {
                phase,
                mark,
                intermediates: [0x20, 0x2F],
                separators,
                values: [0; 16],
            };
            list.push(given);
            // The first, a middle one, the last kept and the first not kept.
            let mut places = vec![0, kept / 2, kept - 1, kept];
            places.retain(|&place| place < 16);
            places.dedup();
            for place in places {
                for value in [9_999, MARKED, MARKED + 1, 65_535] {
                    let mut given = given;
                    given.values[place] = value;
                    list.push(given);
                }
            }
        }
    }
    // Every place with a value too high, whatever the separators; the others
    // as high as may be. In turn with and without the top bit, with which they
    // are marked or not.
    for separators in 0..=17 {
        for place in 0..16 {
            let turn = place + separators as usize + phase as usize;
            let (mark, others, value) = match turn % 4 {
                0 => (SUBPARAMETER, 9_999, MARKED + 1),
                2 => (SUBPARAMETER, MARKED, MARKED + 1),
                _ => (0, 9_999, MARKED),
            };
            let mut values = [others; 16];
            values[place] = value;
            list.push(Given {
                phase,
                mark,
                separators,
                values,
                intermediates: [0x2F, 0x20],
                ..IDLE
            });
        }
    }
    for first in INTERMEDIATES {
        for second in INTERMEDIATES {
            for (mark, separators) in [
                (0, 0),
                (0x3F, 1),
                (0x3C, 16),
                (0x3B, 0),
                (0, 17),
                (0x80, 0),
                (0xBF, 16),
            ] {
                list.push(Given {
                    phase,
                    mark,
                    intermediates: [first, second],
                    separators,
                    values: [9_999; 16],
                });
            }
        }
    }
    list
}

/// Every phase with all of these: is it whole? Then what is in progress is
/// dropped.
pub fn parsers_at_the_edges() -> Script {
    let mut list: Vec<Given> = (0..11).flat_map(phase_at_the_edges).collect();
    // Every mark, without and with a marked place, and every intermediate; a
    // phase is taken modulo 11.
    let mut marked = IDLE;
    marked.values[0] = MARKED;
    for byte in 0..=255 {
        list.push(Given { mark: byte, ..IDLE });
        list.push(Given {
            phase: 6,
            mark: byte,
            ..marked
        });
        list.push(Given {
            phase: 2,
            intermediates: [byte, 0xFF],
            ..IDLE
        });
        list.push(Given {
            phase: 8,
            intermediates: [0x20, byte],
            ..IDLE
        });
        list.push(Given {
            phase: byte,
            intermediates: [0x20, 0x30],
            ..IDLE
        });
    }
    let mut s = Script::new();
    for (number, given) in list.iter().enumerate() {
        let rows = SIZES[number % 3];
        let dropped: &[u8] = match number % 2 {
            0 => b"\x18\x9B;5mb\x9B6n",
            _ => b"\x1Bc\x9B;7mb\x9B6n",
        };
        s.start_right(rows);
        s.parser(given);
        s.ask();
        s.feed(b"", 1);
        s.read(1, 1);
        s.feed(dropped, ROOM);
        s.view();
        s.read(1, 1);
    }
    s
}

/// Parsers that reading bytes can leave, and in what follows each the end of the
/// sequence.
fn parsers_left_by_bytes() -> Vec<(Given, Vec<&'static [u8]>)> {
    let control: Vec<&[u8]> = vec![
        b"H",
        b"5H",
        b";5H",
        b"m",
        b"1m",
        b";1m",
        b"r",
        b"9r",
        b";9r",
        b"f",
        b"h",
        b"l",
        b"7h",
        b";7l",
        b";25l",
        b"J",
        b"K",
        b"L",
        b"P",
        b"X",
        b"n",
        b"c",
        b"g",
        b"\"q",
        b"0\"q",
        b"!p",
        b" q",
        b"!!p",
        b":5H",
        b":m",
        b":;1m",
        b"?5H",
        b"<5H",
        b"\x7FH",
        b"\xC8",
        b"\xB7;\xB7\xC8",
        b"\nH",
        b"\x085C",
        b"\x18H",
        b"\x1AH",
        b"\x1BH",
        b"\x84H",
        b"\x9B7;7H",
        b";;;;;;;;;;;;;;;;5m",
    ];
    let after_intermediate: Vec<&[u8]> = vec![
        b"q",
        b"p",
        b"H",
        b"m",
        b"!p",
        b"\"q",
        b"!!p",
        b"1q",
        b";q",
        b"?q",
        b":q",
        b"\x7Fq",
        b"\xF1",
        b"\nq",
        b"\x18q",
        b"\x1B7",
        b"\x9B1\"q",
    ];
    let rectangles: Vec<&[u8]> = vec![
        b"r", b"t", b"v", b"x", b"z", b"{", b"~", b"}", b"$r", b"1r", b"$~",
    ];
    let escape: Vec<&[u8]> = vec![
        b"7", b"8", b"c", b"D", b"E", b"H", b"M", b"Z", b"n", b"B", b"0", b"A", b"5", b"F", b"G",
        b"(0", b"%5", b"#8", b" G", b"%%5", b"\x7F0", b"\xB0", b"\n0", b"\x180", b"]x\x9Cy",
        b"[5;7H", b"[?7h", b"[7m", b"\x9B;7H",
    ];
    let other: Vec<&[u8]> = vec![
        b"x",
        b"H",
        b"7;7H",
        b"\xE1",
        b"\n",
        b"\x7F",
        b"\x18x",
        b"\x1Ax",
        b"\x1B[H",
        b"\x1B[5;7H",
        b"\x1B[m",
        b"\x1B[;7m",
        b"\x9B7h",
        b"\x9B?7h",
        b"\x9B;5H",
        b"\x1B[;;;;;;;;;;;;;;;;1m",
        b"\x9Cx",
        b"\x1B\\x",
        b"\x84x",
        b"\x1B[6n",
        b"\x1B7x",
    ];
    let mut list = Vec::new();
    // Marks and parameters, with what is past the last parameter out of range.
    let lists: [&[u16]; 7] = [
        &[3],
        &[5, 10],
        &[1, 4, 7],
        &[7, 6, 25],
        &[4, 20],
        &[9_999],
        &[0],
    ];
    let mut contents = Vec::new();
    for values in lists {
        for mark in [0, 0x3F, 0x3E] {
            let mut given = IDLE;
            given.mark = mark;
            given.separators = values.len() as u8 - 1;
            given.values[..values.len()].copy_from_slice(values);
            contents.push(given);
        }
    }
    // The last parameters that are kept, and a later one being dropped.
    for separators in [13, 14, 15, 16] {
        for (mark, last) in [(0, 7), (0x3F, 7), (0, 999), (0, 9_999)] {
            let mut given = Given {
                mark,
                separators,
                ..IDLE
            };
            let kept = (separators as usize + 1).min(16);
            given.values[..kept].fill(0);
            given.values[kept - 1] = last;
            contents.push(given);
        }
    }
    list.push((Given { phase: 5, ..IDLE }, control.clone()));
    for &given in &contents {
        list.push((Given { phase: 6, ..given }, control.clone()));
        for intermediate in [0x22, 0x21, 0x20, 0x2F] {
            let mut given = Given { phase: 7, ..given };
            given.intermediates[0] = intermediate;
            list.push((given, after_intermediate.clone()));
        }
        for intermediate in [0x24, 0x2A] {
            let mut given = Given { phase: 7, ..given };
            given.intermediates[0] = intermediate;
            list.push((given, rectangles.clone()));
        }
        for intermediates in [[0x21, 0x22], [0x20, 0x2F]] {
            let given = Given {
                phase: 8,
                intermediates,
                ..given
            };
            list.push((given, after_intermediate.clone()));
        }
        // Left over.
        for phase in [0, 9, 10] {
            list.push((Given { phase, ..given }, other.clone()));
        }
    }
    let left_over = Given {
        mark: 0x3F,
        separators: 1,
        values: [7; 16],
        ..IDLE
    };
    for given in [IDLE, left_over] {
        for intermediates in [
            [0x28, 0x25],
            [0x2B, 0x25],
            [0x2D, 0x20],
            [0x20, 0x23],
            [0x23, 0x23],
        ] {
            for phase in 1..=3 {
                let given = Given {
                    phase,
                    intermediates,
                    ..given
                };
                list.push((given, escape.clone()));
            }
        }
        list.push((Given { phase: 4, ..given }, escape.clone()));
    }
    for phase in [0, 4, 9, 10] {
        list.push((Given { phase, ..IDLE }, other.clone()));
    }
    list
}

/// A parser is set as reading bytes can leave it, and the sequence goes on: with
/// and without origin, insert and wrap due. Control sequences before an
/// intermediate go on in all eight situations, the others in one, in turn.
pub fn parsers_that_go_on() -> Script {
    let mut s = Script::new();
    let mut number = 0usize;
    for (given, ends) in parsers_left_by_bytes() {
        for end in ends {
            let turn = (number * 5 + number / 8) % 8;
            let situations = match given.phase {
                5 | 6 => 0..8,
                _ => turn..turn + 1,
            };
            for situation in situations {
                s.start_right(24);
                origin_insert_wrap(&mut s, situation);
                s.parser(&given);
                s.ask();
                s.feed(end, ROOM);
                s.view();
                s.feed(b"q\xF1", ROOM);
                s.view();
                s.ask();
                if number % 4 == 0 {
                    s.page();
                } else {
                    s.text();
                }
                number += 1;
            }
        }
    }
    s
}

/// Origin with margins, insert and wrap due, by the bits of the number, in row 7.
fn origin_insert_wrap(s: &mut Script, situation: usize) {
    let column = if situation & 4 != 0 { 80 } else { 40 };
    for column in near(column) {
        s.word_at(7, column, word_of(7, column));
    }
    s.field(ROW, 7);
    s.field(COLUMN, column);
    if situation & 1 != 0 {
        s.field(TOP, 5);
        s.field(BOTTOM, 10);
        s.field(ORIGIN, 1);
    }
    if situation & 2 != 0 {
        s.feed(b"\x9B4h", 0);
    }
    if situation & 4 != 0 {
        s.field(AUTOWRAP, 1);
        s.field(WRAP_DUE, 1);
    }
}

// ---- Wrong lengths ----------------------------------------------------------

const LENGTHS: [u16; 24] = [
    0, 1, 24, 79, 80, 81, 1840, 1919, 1920, 1921, 2000, 2048, 2879, 2880, 2881, 3839, 3840, 3841,
    3920, 4080, 4095, 4096, 4097, 65535,
];

/// Pages of every length that might be taken for a right one, with states whole
/// and broken, with cells on and off the page.
pub fn wrong_lengths() -> Script {
    let mut s = Script::new();
    for rows in SIZES {
        for length in LENGTHS {
            for broken in [false, true] {
                s.start_right(rows);
                s.feed(b"ab\x1B[3", 0);
                if broken {
                    s.field(TOP, 0);
                }
                s.lend(length);
                s.feed(b"", 2);
                s.feed(b"Cx\x1B[6n", ROOM);
                for (row, column) in [
                    (1, 1),
                    (1, 2),
                    (0, 1),
                    (1, 0),
                    (1, 81),
                    (rows, 80),
                    (rows + 1, 1),
                    (255, 255),
                    (256, 1),
                    (257, 257),
                    (65535, 65535),
                ] {
                    s.read(row, column);
                }
                s.row(1);
                s.row(0);
                s.ask();
                s.lend(rows * 80);
                s.feed(b"Cx\x1B[6n", ROOM);
                s.text();
                s.ask();
                s.start_right(rows);
            }
        }
        // Every row and column near the edges of a page.
        s.start_right(rows);
        s.feed(b"\x1B#8", 0);
        for row in 0..=rows + 2 {
            for column in [0, 1, 2, 79, 80, 81, 82, 256] {
                s.read(row, column);
            }
        }
        for column in 0..=85 {
            s.read(rows, column);
        }
    }
    s
}

/// A start with every R, on pages of right and wrong lengths. What is on the
/// page must stay where the start is refused, and the state is then fresh with
/// 24 rows.
pub fn all_starts() -> Script {
    let mut s = Script::new();
    for rows in 0..=255u16 {
        let mut lengths = vec![0, 80, 1920, 2880, 3840, 4096];
        let right = rows * 80;
        if right <= 4_096 {
            lengths.extend([right, right + 1, right.saturating_sub(1)]);
        }
        if SIZES.contains(&rows) {
            lengths.extend(LENGTHS);
        }
        for length in lengths {
            s.start_right(48);
            s.feed(b"q\x1B[9;9r\x1B[30;70Hxy", 0);
            s.word(100, 0xFFFF);
            s.line_word(7, 0xFFFF);
            s.start(rows, length);
            s.view();
            s.read(1, 1);
            s.lend(1920);
            s.feed(b"z\x1B[99;99H\x1B[6n", ROOM);
            s.ask();
            s.read(1, 1);
            s.read(1, 2);
            s.read(2, 21);
            s.lend(3840);
            if rows % 8 == 0 || SIZES.contains(&rows) {
                s.page();
                s.line();
            }
        }
    }
    // R is a number of 16 bits.
    for rows in [
        256,
        256 + 24,
        256 + 36,
        256 + 48,
        512 + 24,
        24 * 256,
        65_535,
    ] {
        for length in [1920, 2880, 3840] {
            s.start_right(36);
            s.feed(b"q\x1B[30;70Hxy", 0);
            s.start(rows, length);
            s.view();
            s.page();
            s.lend(1920);
            s.feed(b"\x1B[99;99H\x1B[6n", ROOM);
        }
    }
    s
}

// ---- The text of every word -------------------------------------------------

/// Is the word's text settled by the scope beyond doubt? (1A in another set
/// than ASCII, Special Graphics 7F, and codes that nothing prints are not.)
pub fn is_settled(word: u16) -> bool {
    let code = word & 0x7F;
    match word >> 7 & 3 {
        0 => code == 0x1A || (0x20..=0x7E).contains(&code),
        1 => (0x20..=0x7E).contains(&code),
        2 => code >= 0x20,
        _ => code >= 0x20,
    }
}

/// The text of every word, settled or not; no part of the whole, for there the
/// scope leaves room.
pub fn text_of_every_word() -> Script {
    let mut s = Script::new();
    s.start_right(24);
    s.lend(80);
    for word in 0..=65_535u16 {
        s.word(word % 80, word);
        if word % 80 == 79 || word == 65_535 {
            s.text();
        }
    }
    s
}

// ---- Streams ----------------------------------------------------------------

/// Streams of every kind until `bytes` bytes are fed.
pub fn streams(seed: u64, bytes: usize) -> Script {
    let mut random = Random::new(seed ^ 0x0123_4567_89AB_CDEF);
    let mut session = Session {
        script: Script::new(),
        rows: 24,
        settled: true,
    };
    session.start(24);
    while session.script.input < bytes {
        let left = (bytes - session.script.input).max(20);
        let length = random.pick(&[50, 300, 1_000, 3_000, 6_000]).min(left);
        if random.percent(70) {
            session.start(random.pick(&SIZES));
        }
        if random.percent(30) {
            session.junk(&mut random);
        }
        let mut stream = match random.below(10) {
            0 => (0..length).map(|_| random.byte(0x00, 0xFF)).collect(),
            _ => stream(random.next(), length),
        };
        if random.percent(25) {
            damage(&mut random, &mut stream);
        }
        session.feed(&mut random, &stream);
    }
    session.script
}

/// Flips, changes, inserts and drops bytes.
fn damage(random: &mut Random, bytes: &mut Vec<u8>) {
    let often = random.pick(&[10, 40, 200]);
    for _ in 0..bytes.len() / often + 1 {
        if bytes.is_empty() {
            return;
        }
        let place = random.below(bytes.len());
        match random.below(5) {
            0 => bytes[place] ^= 1 << random.below(8),
            1 => bytes[place] = random.byte(0x00, 0xFF),
            2 => bytes.insert(place, random.byte(0x00, 0xFF)),
            3 => {
                bytes.remove(place);
            }
            _ => {
                let end = (place + random.between(1, 6)).min(bytes.len());
                bytes.drain(place..end);
            }
        }
    }
}

struct Session {
    script: Script,
    rows: u16,
    /// Only words whose text is settled were written into the page.
    settled: bool,
}

impl Session {
    fn start(&mut self, rows: u16) {
        self.script.start_right(rows);
        self.rows = rows;
        self.settled = true;
    }

    /// Random words into the page, and now and then beyond it.
    fn junk(&mut self, random: &mut Random) {
        let only_settled = random.percent(60);
        let count = random.pick(&[1, 5, 20, 200]);
        for _ in 0..count {
            let mut word = random.next() as u16;
            if only_settled {
                // Any flags and unused bits.
                while !is_settled(word) {
                    word = random.next() as u16;
                }
            }
            let place = if random.percent(95) {
                random.below(self.rows as usize * 80)
            } else {
                random.below(5_000)
            };
            self.script.word(place as u16, word);
            self.settled &= is_settled(word);
        }
        if random.percent(50) {
            self.line_junk(random);
        }
    }

    /// The same for the line, whose text is never asked for.
    fn line_junk(&mut self, random: &mut Random) {
        for _ in 0..random.pick(&[1, 5, 40]) {
            let widest = random.pick(&[80, 80, 80, 140]);
            let column = random.between(1, widest);
            self.script.line_word(column as u16, random.next() as u16);
        }
    }

    fn text(&mut self) {
        if self.settled {
            self.script.text();
        } else {
            self.script.page();
        }
    }

    /// Feeds the stream in pieces, with calls between them. What a piece leaves
    /// after answer 3 is mostly dropped.
    fn feed(&mut self, random: &mut Random, stream: &[u8]) {
        let longest = random.pick(&[1, 8, 8, 30, 100, 200]);
        let mut rest = stream;
        while !rest.is_empty() {
            let length = random.between(1, longest).min(rest.len());
            let (piece, after) = rest.split_at(length);
            let room = match random.below(8) {
                0 => random.between(0, 10),
                1 | 2 => random.between(11, 40),
                3..=5 => 40,
                _ => 11 * length.min(30),
            };
            self.script.feed(piece, room as u16);
            if room < 11 && random.percent(50) {
                // The last byte again, with room: a query cut off by answer 3
                // may go on with it.
                self.script.feed(&piece[length - 1..], 11);
            }
            rest = after;
            // As often for each byte, whatever the length of the pieces.
            if !random.percent((length * 2 + 4).min(60)) {
                continue;
            }
            match random.below(56) {
                44..=46 => self.script.line(),
                47..=51 => {
                    let row = random.between(1, self.rows as usize + 1) as u16;
                    self.script.row(1);
                    self.script.row(row);
                }
                52 => {
                    let row = random.pick(&[0, 2, 24, 25, 36, 37, 48, 49, 256, 257, 65535]);
                    self.script.row(row);
                }
                53 => self.line_junk(random),
                54 | 55 => {
                    // A wrong length of the line for a while.
                    self.script.lend_line(random.pick(&LINE_LENGTHS));
                    self.script.feed(piece, ROOM);
                    self.script.row(1);
                    self.script.line();
                    self.script.ask();
                    let starts = random.percent(10);
                    if starts {
                        self.script.start_right(self.rows);
                    }
                    self.script.lend_line(80);
                    if starts {
                        self.start(self.rows);
                    }
                }
                40..=43 => self.script.view(),
                0..=11 => self.script.ask(),
                12..=25 => {
                    for _ in 0..random.between(1, 6) {
                        let row = random.between(1, self.rows as usize);
                        let column = random.pick(&[1, 2, 40, 79, 80]);
                        self.script.read(row as u16, column);
                    }
                }
                26 => {
                    let row = random.pick(&[0, 1, 24, 25, 36, 37, 48, 49, 256, 65535]);
                    let column = random.pick(&[0, 1, 80, 81, 256, 65535]);
                    self.script.read(row, column);
                }
                27..=29 => self.text(),
                30 => self.script.page(),
                31..=36 => {
                    let query: &[u8] = random.pick(&[b"\x1B[6n", b"\x1B[?6n"]);
                    self.script.feed(query, ROOM);
                }
                37 => {
                    // One word, with whatever in it.
                    let word = random.next() as u16;
                    if is_settled(word) || !self.settled {
                        let place = random.below(self.rows as usize * 80);
                        self.script.word(place as u16, word);
                    }
                }
                38 => {
                    // A wrong length for a while.
                    self.script.lend(random.pick(&LENGTHS));
                    self.script.feed(piece, ROOM);
                    self.script.read(1, 1);
                    self.script.ask();
                    if random.percent(25) {
                        // What lies beyond the page, too.
                        self.script.lend(BUFFER_WORDS as u16);
                        self.script.page();
                    }
                    self.script.lend(self.rows * 80);
                }
                _ => self.script.feed(b"", room as u16),
            }
        }
        self.script.view();
        self.script.ask();
        self.script.line();
        self.text();
    }
}

#[cfg(test)]
mod tests {
    use super::*;
    use crate::state::Shift;

    #[test]
    fn a_script_depends_on_its_seed_alone() {
        assert_eq!(streams(5, 20_000).bytes, streams(5, 20_000).bytes);
        assert_ne!(streams(5, 2_000).bytes, streams(6, 2_000).bytes);
        let script = streams(7, 50_000);
        assert!(script.input >= 50_000 && script.input < 52_000);
    }

    /// What there is before each ESC 8 that is fed alone.
    #[test]
    fn every_saved_protection_and_shift_meets_every_other() {
        let mut machine = Machine::new();
        let mut seen = Vec::new();
        let mut output = Vec::new();
        for command in commands(&saved_protection_and_shift().bytes) {
            let state = machine.state();
            let saved = &state.saved;
            let writing = (saved.protection, saved.shift, state.protection, state.shift);
            let wraps = (saved.cursor.wrap_due, state.cursor.wrap_due);
            let fact = (writing, wraps, state.origin, state.insert);
            if command.following == b"\x1B8" && !seen.contains(&fact) {
                seen.push(fact);
            }
            machine.carry_out(command, &mut output);
        }
        let shifts = [None, Some(Shift::G2), Some(Shift::G3)];
        for number in 0..32 * 9 {
            let flag = |bit: usize| number >> bit & 1 == 1;
            let (saved, now) = (shifts[number / 32 % 3], shifts[number / 96]);
            let writing = (flag(0), saved, flag(1), now);
            let fact = (writing, (flag(2), flag(2)), flag(3), flag(4));
            assert!(seen.contains(&fact), "{fact:?}");
        }
    }

    #[test]
    fn scripts_are_read_to_their_end() {
        for part in fixed_parts().iter().chain([&streams(3, 30_000)]) {
            let (mut count, mut input, mut length) = (0, 0, 0);
            for command in commands(&part.bytes) {
                count += 1;
                if command.letter == b'F' {
                    input += command.following.len();
                }
                length += 5 + command.following.len();
            }
            assert_eq!(length, part.bytes.len());
            assert_eq!((count, input), (part.commands, part.input));
        }
    }
}
