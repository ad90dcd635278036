//! Seeded streams of hostile bytes, to compare two programs on.
//!
//! A stream is a row of pieces. There are many kinds of piece, from plain text
//! to noise, and the seed chooses how often each comes, so that one seed mostly
//! scrolls in margins, another mostly erases protected cells, and so on.

/// A small pseudo-random generator (splitmix64).
pub struct Random(u64);

impl Random {
    pub fn new(seed: u64) -> Random {
        Random(seed)
    }

    pub fn next(&mut self) -> u64 {
        self.0 = self.0.wrapping_add(0x9E37_79B9_7F4A_7C15);
        let mut z = self.0;
        z = (z ^ (z >> 30)).wrapping_mul(0xBF58_476D_1CE4_E5B9);
        z = (z ^ (z >> 27)).wrapping_mul(0x94D0_49BB_1331_11EB);
        z ^ (z >> 31)
    }

    /// From 0 to `n` - 1; `n` is not 0.
    pub fn below(&mut self, n: usize) -> usize {
        (self.next() % n as u64) as usize
    }

    /// From `low` to `high`, both included.
    pub fn between(&mut self, low: usize, high: usize) -> usize {
        low + self.below(high - low + 1)
    }

    pub fn byte(&mut self, low: u8, high: u8) -> u8 {
        self.between(low as usize, high as usize) as u8
    }

    pub fn percent(&mut self, n: usize) -> bool {
        self.below(100) < n
    }

    pub fn pick<T: Copy>(&mut self, list: &[T]) -> T {
        list[self.below(list.len())]
    }
}

/// The kinds of piece.
#[derive(Clone, Copy, PartialEq, Eq, Debug)]
enum Kind {
    Text,
    EdgeText,
    Controls,
    HighControls,
    Moves,
    Erases,
    Edits,
    Margins,
    Modes,
    Looks,
    Tabs,
    Saves,
    Resets,
    Sets,
    Rectangles,
    Queries,
    Strings,
    Unlisted,
    ManyParameters,
    ControlsInside,
    HighBits,
    Damaged,
    Cancels,
    Noise,
    ScrollScene,
    EditScene,
    ProtectScene,
    WrapScene,
    ShiftScene,
    SaveScene,
    OriginScene,
    EchoScene,
    RectangleScene,
    ColonScene,
    Switches,
    StatusScene,
}

/// Every kind, with its usual weight.
const KINDS: [(Kind, usize); 36] = [
    (Kind::Text, 30),
    (Kind::EdgeText, 15),
    (Kind::Controls, 15),
    (Kind::HighControls, 8),
    (Kind::Moves, 20),
    (Kind::Erases, 8),
    (Kind::Edits, 12),
    (Kind::Margins, 6),
    (Kind::Modes, 8),
    (Kind::Looks, 8),
    (Kind::Tabs, 5),
    (Kind::Saves, 6),
    (Kind::Resets, 1),
    (Kind::Sets, 8),
    (Kind::Rectangles, 14),
    (Kind::Queries, 6),
    (Kind::Strings, 4),
    (Kind::Unlisted, 8),
    (Kind::ManyParameters, 4),
    (Kind::ControlsInside, 5),
    (Kind::HighBits, 5),
    (Kind::Damaged, 10),
    (Kind::Cancels, 4),
    (Kind::Noise, 4),
    (Kind::ScrollScene, 6),
    (Kind::EditScene, 6),
    (Kind::ProtectScene, 6),
    (Kind::WrapScene, 8),
    (Kind::ShiftScene, 5),
    (Kind::SaveScene, 10),
    (Kind::OriginScene, 5),
    (Kind::EchoScene, 2),
    (Kind::RectangleScene, 8),
    (Kind::ColonScene, 6),
    (Kind::Switches, 3),
    (Kind::StatusScene, 10),
];

/// The weights for a seed: some kinds not at all, some seldom, one to three
/// favourites very often. One seed in eight has the usual weights.
fn weights(random: &mut Random) -> Vec<usize> {
    let mut list: Vec<usize> = KINDS.iter().map(|&(_, weight)| weight).collect();
    if random.percent(12) {
        return list;
    }
    for weight in &mut list {
        *weight *= random.pick(&[0, 1, 1, 2, 2, 4]);
    }
    for _ in 0..random.between(1, 3) {
        let favourite = random.below(list.len());
        let usual = KINDS[favourite].1.clamp(4, 15);
        list[favourite] += usual * 12;
    }
    // Text, so that there is something on the page to move and erase.
    list[0] += 10;
    list
}

/// A stream of exactly `len` bytes, always the same for a seed.
pub fn stream(seed: u64, len: usize) -> Vec<u8> {
    let mut random = Random::new(seed);
    let weights = weights(&mut random);
    let total: usize = weights.iter().sum();
    let high_form = random.pick(&[0, 10, 30, 90]);
    let mut writer = Writer {
        random,
        out: Vec::with_capacity(len + 1024),
        high_form,
    };
    while writer.out.len() < len {
        let mut number = writer.random.below(total);
        let mut kind = Kind::Text;
        for (&(candidate, _), &weight) in KINDS.iter().zip(&weights) {
            if number < weight {
                kind = candidate;
                break;
            }
            number -= weight;
        }
        writer.piece(kind);
    }
    writer.out.truncate(len);
    writer.out
}

/// Numbers at the edges.
const EDGES: [&str; 48] = [
    "", "0", "1", "2", "3", "4", "5", "6", "7", "8", "9", "10", "12", "15", "20", "22", "23", "24",
    "25", "26", "27", "34", "35", "36", "37", "40", "46", "47", "48", "49", "50", "51", "60", "78",
    "79", "80", "81", "82", "99", "100", "255", "256", "9998", "9999", "10000", "65536", "00",
    "01",
];

/// Numbers that are very long or oddly written.
const ODD: [&str; 8] = [
    "0005",
    "00000000000000000002",
    "99999",
    "99990",
    "4294967297",
    "18446744073709551617",
    "100000000000000000000000000000000000001",
    "000000009999",
];

struct Writer {
    random: Random,
    out: Vec<u8>,
    /// How often, of a hundred, a C1 control is written as one byte.
    high_form: usize,
}

impl Writer {
    fn piece(&mut self, kind: Kind) {
        match kind {
            Kind::Text => {
                let length = self.random.between(1, 60);
                self.text(length);
            }
            Kind::EdgeText => self.edge_text(),
            Kind::Controls => {
                for _ in 0..self.random.between(1, 6) {
                    self.control();
                }
            }
            Kind::HighControls => {
                for _ in 0..self.random.between(1, 4) {
                    let byte = self.random.byte(0x80, 0x9F);
                    self.high_control(byte);
                }
            }
            Kind::Moves => self.moves(),
            Kind::Erases => self.erases(),
            Kind::Edits => self.edits(),
            Kind::Margins => self.margins(),
            Kind::Modes => self.modes(),
            Kind::Looks => self.looks(),
            Kind::Tabs => self.tabs(),
            Kind::Saves => {
                let last = self.random.pick(b"7788");
                self.escape(b"", last);
            }
            Kind::Resets => self.resets(),
            Kind::Sets => self.sets(),
            Kind::Rectangles => self.rectangles(),
            Kind::Queries => self.queries(),
            Kind::Strings => self.strings(),
            Kind::Unlisted => self.unlisted(),
            Kind::ManyParameters => self.many_parameters(),
            Kind::ControlsInside => self.controls_inside(),
            Kind::HighBits => self.high_bits(),
            Kind::Damaged => self.damaged(),
            Kind::Cancels => self.cancels(),
            Kind::Noise => {
                for _ in 0..self.random.between(1, 40) {
                    let byte = self.random.byte(0, 0xFF);
                    self.out.push(byte);
                }
            }
            Kind::ScrollScene => self.scroll_scene(),
            Kind::EditScene => self.edit_scene(),
            Kind::ProtectScene => self.protect_scene(),
            Kind::WrapScene => self.wrap_scene(),
            Kind::ShiftScene => self.shift_scene(),
            Kind::SaveScene => self.save_scene(),
            Kind::OriginScene => self.origin_scene(),
            Kind::EchoScene => self.echo_scene(),
            Kind::RectangleScene => self.rectangle_scene(),
            Kind::ColonScene => self.colon_scene(),
            Kind::Switches => self.switches(),
            Kind::StatusScene => self.status_scene(),
        }
    }

    // ---- Parts --------------------------------------------------------------

    fn write(&mut self, bytes: &[u8]) {
        self.out.extend_from_slice(bytes);
    }

    /// A control 80 to 9F as one byte or as an escape.
    fn high_control(&mut self, byte: u8) {
        if self.random.percent(self.high_form) {
            self.out.push(byte);
        } else {
            self.write(&[0x1B, byte - 0x40]);
        }
    }

    fn escape(&mut self, intermediates: &[u8], last: u8) {
        self.out.push(0x1B);
        self.write(intermediates);
        self.out.push(last);
    }

    /// One of eight has a colon.
    fn csi(&mut self, parameters: &str, last: &str) {
        self.high_control(0x9B);
        let mut text = parameters.as_bytes().to_vec();
        if self.random.below(8) == 0 {
            self.put_colons(&mut text);
        }
        self.write(&text);
        self.write(last.as_bytes());
    }

    /// Colons for semicolons, or into the parameters; seldom before a mark.
    fn put_colons(&mut self, text: &mut Vec<u8>) {
        let is_mark = |byte: &u8| (0x3C..=0x3F).contains(byte);
        let is_parameter = |byte: &u8| (0x30..=0x3B).contains(byte);
        let marks = text.iter().take_while(|byte| is_mark(byte)).count();
        let length = text[marks..].iter().take_while(|b| is_parameter(b)).count();
        let end = marks + length;
        let separators: Vec<usize> = (marks..end).filter(|&n| text[n] == b';').collect();
        match self.random.below(8) {
            0..=2 if !separators.is_empty() => {
                let place = self.random.pick(&separators);
                text[place] = b':';
            }
            3 => {
                for place in separators {
                    text[place] = b':';
                }
                text.insert(end, b':');
            }
            4 => {
                let number = self.number();
                text.splice(end..end, format!(":{number}").into_bytes());
            }
            5 => {
                let count = self.random.pick(&[1, 2, 2, 3, 16, 20]);
                text.splice(end..end, vec![b':'; count]);
            }
            6 if self.random.percent(30) => text.insert(0, b':'),
            6 => text.insert(marks, b':'),
            _ => {
                let place = self.random.between(marks, end);
                text.insert(place, b':');
            }
        }
    }

    fn number(&mut self) -> &'static str {
        if self.random.percent(3) {
            self.random.pick(&ODD)
        } else if self.random.percent(40) {
            self.random.pick(&EDGES[..8])
        } else {
            self.random.pick(&EDGES)
        }
    }

    /// One of a function's own numbers, or now and then any up to 60.
    fn own_number(&mut self, own: &[&str]) -> String {
        if self.random.percent(20) {
            self.random.between(0, 60).to_string()
        } else {
            self.random.pick(own).to_string()
        }
    }

    /// A few numbers, mostly one or two.
    fn numbers(&mut self) -> String {
        let count = self.random.pick(&[0, 1, 1, 1, 2, 2, 3]);
        let list: Vec<&str> = (0..count).map(|_| self.number()).collect();
        list.join(";")
    }

    /// A place on or near the page, often near an edge.
    fn place(&mut self) {
        let row = if self.random.percent(50) {
            self.random.between(1, 50)
        } else {
            self.random
                .pick(&[1, 1, 2, 23, 24, 25, 35, 36, 37, 47, 48, 49])
        };
        let column = if self.random.percent(50) {
            self.random.between(1, 82)
        } else {
            self.random.pick(&[1, 1, 2, 8, 9, 77, 78, 79, 80, 80, 81])
        };
        let last = self.random.pick(&["H", "H", "f"]);
        self.csi(&format!("{row};{column}"), last);
    }

    fn text(&mut self, length: usize) {
        let style = self.random.below(6);
        for _ in 0..length {
            let byte = match style {
                0 => self.random.byte(0x20, 0x7F),
                1 => self.random.pick(b"ab "),
                2 => self.random.byte(0x5F, 0x7E),
                3 if self.random.percent(30) => self.random.byte(0xA0, 0xFF),
                4 => self
                    .random
                    .pick(&[0x20, 0x7F, 0xA0, 0xFF, 0x21, 0x7E, 0xA1, 0xFE]),
                _ => self.random.byte(0x61, 0x7A),
            };
            self.out.push(byte);
        }
    }

    /// A control below 20, mostly one that does something.
    fn control(&mut self) {
        let byte = if self.random.percent(80) {
            self.random.pick(&[
                0x08, 0x08, 0x09, 0x0A, 0x0A, 0x0B, 0x0C, 0x0D, 0x0D, 0x0E, 0x0F,
            ])
        } else {
            self.random.byte(0x00, 0x1F)
        };
        self.out.push(byte);
    }

    /// Any listed function, well formed.
    fn any_listed(&mut self) {
        match self.random.below(23) {
            22 => self.switches(),
            0..=3 => self.moves(),
            4 | 5 => self.erases(),
            6 | 7 => self.edits(),
            8 => self.margins(),
            9 | 10 => self.modes(),
            11 => self.looks(),
            12 => self.tabs(),
            13 => {
                let last = self.random.pick(b"78");
                self.escape(b"", last);
            }
            14 => {
                let byte = self
                    .random
                    .pick(&[0x84, 0x85, 0x88, 0x8D, 0x8E, 0x8F, 0x9A, 0x9C]);
                self.high_control(byte);
            }
            15 => self.queries(),
            16 if self.random.percent(30) => self.resets(),
            17 => self.unlisted(),
            18 => self.control(),
            19 | 20 => self.rectangles(),
            _ => self.sets(),
        }
    }

    /// Any listed function, as bytes of its own.
    fn any_listed_apart(&mut self) -> Vec<u8> {
        let start = self.out.len();
        self.any_listed();
        self.out.split_off(start)
    }

    // ---- Functions ----------------------------------------------------------

    fn moves(&mut self) {
        match self.random.below(6) {
            0 | 1 => self.place(),
            2 => {
                let numbers = self.numbers();
                let last = self.random.pick(&["H", "f"]);
                self.csi(&numbers, last);
            }
            3 => {
                let byte = self.random.pick(&[0x84, 0x85, 0x8D, 0x8D]);
                self.high_control(byte);
            }
            _ => {
                let numbers = self.numbers();
                let last = self.random.pick(&["A", "B", "C", "D"]);
                self.csi(&numbers, last);
            }
        }
    }

    fn erases(&mut self) {
        let selector = self
            .random
            .pick(&["", "0", "1", "1", "2", "3", "0;1", ";2", "00", "02"]);
        match self.random.below(8) {
            // Less often, for it leaves little on the page.
            0 => self.csi(selector, "J"),
            1 => self.csi(&format!("?{selector}"), "J"),
            2 | 3 => self.csi(selector, "K"),
            4 | 5 => self.csi(&format!("?{selector}"), "K"),
            _ => {
                let numbers = self.numbers();
                self.csi(&numbers, "X");
            }
        }
    }

    fn edits(&mut self) {
        let numbers = self.numbers();
        let last = self.random.pick(&["L", "M", "@", "P"]);
        self.csi(&numbers, last);
    }

    fn margins(&mut self) {
        match self.random.below(4) {
            0 => {
                let numbers = self.numbers();
                self.csi(&numbers, "r");
            }
            1 => self.csi("", "r"),
            _ => {
                let top = self.random.between(1, 24);
                let bottom = self.random.between(top.saturating_sub(1), top + 20);
                self.csi(&format!("{top};{bottom}"), "r");
            }
        }
    }

    fn modes(&mut self) {
        let last = self.random.pick(&["h", "h", "l"]);
        let count = self.random.pick(&[1, 1, 1, 2, 3, 5]);
        if self.random.percent(25) {
            let own = ["4", "4", "20", "20", "2", "12", "", "6", "7"];
            let list: Vec<String> = (0..count).map(|_| self.own_number(&own)).collect();
            self.csi(&list.join(";"), last);
        } else {
            let own = [
                "6", "6", "7", "7", "7", "25", "1", "3", "5", "69", "", "4", "20", "00007", "10007",
            ];
            let list: Vec<String> = (0..count).map(|_| self.own_number(&own)).collect();
            self.csi(&format!("?{}", list.join(";")), last);
        }
    }

    fn looks(&mut self) {
        if self.random.percent(35) {
            let own = ["1", "1", "1", "0", "2", "", "3", "1;0", ";1"];
            let selector = self.own_number(&own);
            self.csi(&selector, "\"q");
        } else {
            let own = [
                "0", "", "1", "4", "5", "7", "22", "24", "25", "27", "2", "3", "8", "21", "28",
                "9999",
            ];
            let count = self.random.pick(&[0, 1, 1, 2, 3, 6]);
            let list: Vec<String> = (0..count).map(|_| self.own_number(&own)).collect();
            self.csi(&list.join(";"), "m");
        }
    }

    fn tabs(&mut self) {
        match self.random.below(10) {
            8 | 9 => {
                self.place();
                self.high_control(0x88);
                let selector = self
                    .random
                    .pick(&["?", "?3", ">", ">3", "?0", "3 ", "1", "2"]);
                self.csi(selector, "g");
                self.write(b"\r\t\t");
            }
            0..=2 => {
                if self.random.percent(60) {
                    self.place();
                }
                self.high_control(0x88);
            }
            3 => self.csi("3", "g"),
            4 | 5 => {
                let selector = self.random.pick(&["", "0", "1", "2", "0;3", ";3", "5"]);
                self.csi(selector, "g");
            }
            _ => {
                let count = self.random.between(1, 12);
                self.write(&vec![0x09; count]);
            }
        }
    }

    fn resets(&mut self) {
        match self.random.below(8) {
            0 => self.escape(b"", b'c'),
            1 | 2 => self.escape(b"#", b'8'),
            3 => {
                let last = self.random.byte(0x30, 0x39);
                self.escape(b"#", last);
            }
            _ => {
                let parameters = self.random.pick(&["", "", "0", "1;2"]);
                self.csi(parameters, "!p");
            }
        }
    }

    fn sets(&mut self) {
        match self.random.below(10) {
            0..=2 => {
                let slot = self.random.pick(b"()*+");
                let set: &[u8] = self
                    .random
                    .pick(&[b"B", b"0", b"0", b"%5", b"A", b"<", b"%0"]);
                self.escape(&[slot], set[0]);
                if set.len() > 1 {
                    self.out.push(set[1]);
                }
            }
            3 | 4 => {
                let slot = self.random.pick(b"-./");
                let set = self.random.pick(b"AAAAB0F");
                self.escape(&[slot], set);
            }
            5 => {
                let last = self.random.pick(b"no~}|");
                self.escape(b"", last);
            }
            6 => {
                let byte = self.random.pick(&[0x0E, 0x0F]);
                self.out.push(byte);
            }
            7 => {
                let last = self.random.pick(b"FGGH");
                self.escape(b" ", last);
            }
            _ => {
                let byte = self.random.pick(&[0x8E, 0x8F]);
                self.high_control(byte);
            }
        }
    }

    /// One of the functions on rectangles, or the extent.
    fn rectangles(&mut self) {
        let edges = self.edges();
        match self.random.below(12) {
            0 | 1 => self.csi(&edges, "$z"),
            2 | 3 => self.csi(&edges, "${"),
            4 | 5 => self.fill(&edges),
            6 | 7 => {
                let place = self.edges();
                self.copy(&edges, &place);
            }
            8 | 9 => self.restyle(&edges),
            _ => self.extent(),
        }
    }

    /// Four edges, or fewer: any, at the page's, across its middle, or small.
    /// Most make a rectangle.
    fn edges(&mut self) -> String {
        let [top, left, bottom, right] = match self.random.below(9) {
            0 => return self.any_edges(),
            1 | 2 => [
                self.random.pick(&[0, 0, 1, 1, 2, 5, 23, 24, 25]),
                self.random.pick(&[0, 0, 1, 1, 2, 40, 79, 80]),
                self.random
                    .pick(&[0, 0, 1, 2, 10, 23, 24, 25, 36, 48, 49, 9_999]),
                self.random.pick(&[0, 0, 1, 2, 40, 79, 80, 81, 9_999]),
            ],
            3 => {
                let (top, left) = (self.random.between(1, 20), self.random.between(1, 60));
                let bottom = self.random.between(top, 50);
                [top, left, bottom, self.random.between(left, 82)]
            }
            _ => {
                let top = self.random.between(1, 26);
                let left = self.random.pick(&[1, 1, 2, 5, 20, 38, 40, 70, 76, 79]);
                let (height, width) = (self.random.below(4), self.random.below(12));
                [top, left, top + height, left + width]
            }
        };
        format!("{top};{left};{bottom};{right}")
    }

    fn any_edges(&mut self) -> String {
        let count = self.random.between(0, 4);
        let list: Vec<&str> = (0..count).map(|_| self.number()).collect();
        list.join(";")
    }

    /// Mostly with a code that is printed.
    fn fill(&mut self, edges: &str) {
        let code = match self.random.below(8) {
            0 => self.random.pick(&[
                0, 10, 31, 127, 128, 155, 159, 160, 255, 256, 257, 288, 9_999,
            ]),
            1 => self.random.pick(&[32, 33, 126, 127, 160, 161, 254, 255]),
            2 => self.random.between(160, 255),
            3 => self.random.between(95, 126),
            _ => self.random.between(32, 126),
        };
        self.csi(&format!("{code};{edges}"), "$x");
    }

    /// The place's first two numbers are the destination's.
    fn copy(&mut self, edges: &str, place: &str) {
        let (from, to) = match self.random.percent(85) {
            true => (self.random.pick(&["", "1"]), self.random.pick(&["", "1"])),
            false => (self.number(), self.number()),
        };
        let edges = format!("{edges}{}", ";".repeat(3 - edges.matches(';').count()));
        let place: Vec<&str> = place.split(';').chain(["", ""]).take(2).collect();
        let end = match to {
            "" => String::new(),
            _ => format!(";{to}"),
        };
        self.csi(&format!("{edges};{from};{}{end}", place.join(";")), "$v");
    }

    fn restyle(&mut self, edges: &str) {
        let own = [
            "0", "", "1", "4", "5", "7", "1", "4", "5", "7", "22", "24", "25", "27", "2", "8",
        ];
        let count = self.random.pick(&[0, 1, 1, 1, 2, 3, 6, 12, 13, 14]);
        let list: Vec<String> = (0..count).map(|_| self.own_number(&own)).collect();
        let last = self.random.pick(&["$r", "$t"]);
        let separators = match count {
            0 => 0,
            _ => 4 - edges.matches(';').count(),
        };
        let parameters = format!("{edges}{}{}", ";".repeat(separators), list.join(";"));
        self.csi(&parameters, last);
    }

    fn extent(&mut self) {
        let selector = self
            .random
            .pick(&["2", "2", "2", "1", "0", "", "3", "2;1", "?2"]);
        self.csi(selector, "*x");
    }

    /// Whether there is a status line, or which of page and line is active.
    fn switches(&mut self) {
        if self.random.percent(50) {
            let own = ["1", "2", "1", "2", "0", "", "3", "1;0", "0;1"];
            let parameters = self.random.pick(&own);
            self.csi(parameters, "$~");
        } else {
            let own = ["0", "", "0", "0", "1", "1", "2", "0;1", "1;0"];
            let parameters = self.random.pick(&own);
            self.csi(parameters, "$}");
        }
    }

    fn queries(&mut self) {
        match self.random.below(8) {
            0 => {
                let parameters = self
                    .random
                    .pick(&["", "0", "1", ";1", "0;0", ">", ">0", ">1", "=", "?"]);
                self.csi(parameters, "c");
            }
            1 => self.high_control(0x9A),
            2 => {
                let last = self.random.pick(b"FG");
                self.escape(b" ", last);
                self.csi("6", "n");
            }
            3 => self.csi("?6", "n"),
            4 => self.csi("6", "n"),
            _ => {
                let parameters = self.random.pick(&[
                    "5", "6", "?6", "?15", "?5", "15", "", "0", "?", ">6", "6;5", "5;6", ";6",
                    "?15;6", "0006", "?00015",
                ]);
                self.csi(parameters, "n");
            }
        }
    }

    // ---- Odd sequences ------------------------------------------------------

    fn strings(&mut self) {
        let opener = self.random.pick(&[0x90, 0x98, 0x9D, 0x9E, 0x9F]);
        self.high_control(opener);
        for _ in 0..self.random.between(0, 30) {
            // Nothing that closes a string.
            let byte = match self.random.below(6) {
                0 => self.random.byte(0x00, 0x17),
                1 => self.random.byte(0xA0, 0xFF),
                2 => self
                    .random
                    .pick(&[0x07, 0x19, 0x1C, 0x1D, 0x1E, 0x1F, 0x7F]),
                _ => self.random.byte(0x20, 0x7F),
            };
            self.out.push(byte);
        }
        match self.random.below(9) {
            0 => self.out.push(0x18),
            1 => self.out.push(0x1A),
            2 => self.out.push(0x9C),
            3 | 4 => self.write(b"\x1B\\"),
            5 => self.write(&[0x1B, 0xDC]),
            6 => {
                let byte = self.random.byte(0x80, 0x9F);
                self.out.push(byte);
            }
            7 => self.any_listed(),
            _ => {}
        }
    }

    fn unlisted(&mut self) {
        if self.random.percent(30) {
            let count = self.random.pick(&[0, 1, 1, 2, 3, 4, 5]);
            let intermediates: Vec<u8> = (0..count).map(|_| self.random.byte(0x20, 0x2F)).collect();
            let last = self.random.byte(0x30, 0x7E);
            // Seldom the one that makes all fresh.
            if last == b'c' && intermediates.is_empty() && self.random.percent(80) {
                return;
            }
            self.escape(&intermediates, last);
            return;
        }
        if self.random.percent(25) {
            self.listed_with_too_much();
            return;
        }
        self.high_control(0x9B);
        if self.random.percent(40) {
            let mark = self.random.byte(0x3C, 0x3F);
            self.out.push(mark);
            if self.random.percent(20) {
                let second = self.random.pick(&[0x3F, 0x3F, 0x3C, 0x3E, mark]);
                self.out.push(second);
            }
        }
        let numbers = self.numbers();
        self.write(numbers.as_bytes());
        if self.random.percent(15) {
            // A colon, or a mark elsewhere.
            let byte = self.random.pick(b"::<=>?");
            self.out.push(byte);
            let numbers = self.numbers();
            self.write(numbers.as_bytes());
        }
        for _ in 0..self.random.pick(&[0, 0, 0, 1, 1, 2, 3, 4]) {
            let byte = self.random.byte(0x20, 0x2F);
            self.out.push(byte);
        }
        if self.random.percent(15) {
            // A digit, 3A or 3B after an intermediate, or after what came before.
            let byte = self.random.pick(b"0123456789;;;:::");
            self.out.push(byte);
        }
        let last = if self.random.percent(50) {
            self.random.pick(b"ABCDHfJKXLM@Pghlmnqrpcxz{vt~}")
        } else {
            self.random.byte(0x40, 0x7E)
        };
        self.out.push(last);
    }

    /// A listed final with a likely parameter, and a mark or an intermediate
    /// that makes another sequence of most of them.
    fn listed_with_too_much(&mut self) {
        let marked = self.random.percent(60);
        let parameter = self
            .random
            .pick(&["", "0", "1", "2", "3", "4", "5", "6", "7", "20"]);
        let last = self.random.pick(b"ABCDHfJKXLM@Pghlmnqrpcxz{vt~}");
        self.high_control(0x9B);
        if marked {
            let mark = self.random.byte(0x3C, 0x3F);
            self.out.push(mark);
            if self.random.percent(30) {
                self.out.push(0x3F);
            }
        }
        self.write(parameter.as_bytes());
        if !marked || self.random.percent(20) {
            let intermediate = self.random.pick(b" !\"#$'*+");
            self.out.push(intermediate);
        }
        self.out.push(last);
        if last == b'g' && self.random.percent(70) {
            self.write(b"\r\t\t");
        }
    }

    fn many_parameters(&mut self) {
        let count = self.random.pick(&[14, 15, 16, 16, 17, 17, 18, 30, 60]);
        let choice = self.random.below(6);
        let list: Vec<&str> = (0..count)
            .map(|_| match choice {
                0 | 5 => self
                    .random
                    .pick(&["1", "4", "5", "7", "22", "24", "25", "27", "0", ""]),
                1 | 2 => self.random.pick(&["6", "7", "25", "0", "", "9999"]),
                3 => self.random.pick(&["4", "20", "", "1"]),
                _ => self.number(),
            })
            .collect();
        let joined = list.join(";");
        match choice {
            0 => self.csi(&joined, "m"),
            1 => self.csi(&format!("?{joined}"), "h"),
            2 => self.csi(&format!("?{joined}"), "l"),
            3 => self.csi(&joined, "h"),
            5 => {
                let edges = self.random.pick(&[";;;", "2;3;4;70", "1;;9;", "3;3;3"]);
                let last = self.random.pick(&["$r", "$t"]);
                self.csi(&format!("{edges};{joined}"), last);
            }
            _ => {
                let last = self
                    .random
                    .pick(&["H", "A", "r", "m", "h", "l", "n", "J", "X"]);
                self.csi(&joined, last);
            }
        }
    }

    /// A listed function with controls and 7F between its bytes.
    fn controls_inside(&mut self) {
        let bytes = self.any_listed_apart();
        for byte in bytes {
            self.out.push(byte);
            if self.random.percent(35) {
                if self.random.percent(30) {
                    let skipped = self.random.pick(&[0x7F, 0xFF]);
                    self.out.push(skipped);
                } else {
                    self.control();
                }
            }
        }
    }

    /// A listed function with the top bit set in some bytes after the first.
    fn high_bits(&mut self) {
        let bytes = self.any_listed_apart();
        let often = self.random.pick(&[20, 50, 100]);
        for (number, byte) in bytes.into_iter().enumerate() {
            let raise = number > 0 && byte >= 0x20 && self.random.percent(often);
            self.out.push(if raise { byte | 0x80 } else { byte });
        }
    }

    /// A few functions with bytes put in, left out, changed or cut off.
    fn damaged(&mut self) {
        let mut bytes = Vec::new();
        for _ in 0..self.random.between(1, 3) {
            bytes.extend(self.any_listed_apart());
        }
        for _ in 0..self.random.between(1, 3) {
            if bytes.is_empty() {
                break;
            }
            let place = self.random.below(bytes.len());
            match self.random.below(5) {
                0 => {
                    let byte = self.random.byte(0x00, 0xFF);
                    bytes.insert(place, byte);
                }
                1 => {
                    bytes.remove(place);
                }
                2 => bytes[place] ^= 1 << self.random.below(8),
                3 => bytes[place] = self.random.byte(0x00, 0xFF),
                _ => bytes.truncate(place),
            }
        }
        self.write(&bytes);
    }

    /// Part of a function, then CAN, SUB, or the start of something else.
    fn cancels(&mut self) {
        let bytes = self.any_listed_apart();
        let kept = self.random.between(0, bytes.len());
        self.write(&bytes[..kept]);
        let byte = self
            .random
            .pick(&[0x18, 0x18, 0x1A, 0x1A, 0x1A, 0x1B, 0x9B, 0x9C, 0x80]);
        self.out.push(byte);
        if self.random.percent(50) {
            self.write(&bytes[kept..]);
        }
    }

    // ---- Scenes -------------------------------------------------------------

    fn edge_text(&mut self) {
        if self.random.percent(40) {
            let last = self.random.pick(&["h", "h", "h", "l"]);
            self.csi("?7", last);
        }
        let row = self.random.pick(&[1, 5, 22, 23, 24, 25, 35, 36, 47, 48]);
        let column = self.random.between(74, 81);
        self.csi(&format!("{row};{column}"), "H");
        let length = self.random.between(1, 12);
        self.text(length);
    }

    fn scroll_scene(&mut self) {
        let top = self.random.between(1, 23);
        let bottom = self.random.between(top + 1, (top + 12).min(24));
        self.csi(&format!("{top};{bottom}"), "r");
        if self.random.percent(50) {
            let last = self.random.pick(&["h", "h", "l"]);
            self.csi("?6", last);
        }
        for _ in 0..self.random.between(2, 10) {
            match self.random.below(9) {
                0 | 1 => {
                    let row =
                        self.random
                            .pick(&[top, bottom, 1, bottom + 1, 24, 2, bottom - top + 1]);
                    let column = self.random.between(1, 80);
                    self.csi(&format!("{row};{column}"), "H");
                }
                2 | 3 => {
                    let byte = self.random.pick(&[0x0A, 0x0B, 0x0C]);
                    self.out.push(byte);
                }
                4 | 5 => self.high_control(0x8D),
                6 => {
                    let byte = self.random.pick(&[0x84, 0x85]);
                    self.high_control(byte);
                }
                _ => {
                    let length = self.random.between(1, 8);
                    self.text(length);
                }
            }
        }
    }

    fn edit_scene(&mut self) {
        if self.random.percent(30) {
            self.margins();
        }
        if self.random.percent(30) {
            let last = self.random.pick(&["h", "l"]);
            self.csi("4", last);
        }
        for _ in 0..self.random.between(2, 8) {
            match self.random.below(6) {
                0 | 1 => self.edits(),
                2 => self.place(),
                3 => {
                    let count = self.random.between(1, 5).to_string();
                    let last = self.random.pick(&["L", "M", "@", "P", "X"]);
                    self.csi(&count, last);
                }
                _ => {
                    let length = self.random.between(1, 10);
                    self.text(length);
                }
            }
        }
    }

    fn protect_scene(&mut self) {
        for _ in 0..self.random.between(2, 8) {
            match self.random.below(6) {
                0 => {
                    let selector = self.random.pick(&["1", "1", "0", "2", ""]);
                    self.csi(selector, "\"q");
                }
                1 => self.place(),
                2 => {
                    let selector = self.random.pick(&["", "0", "1", "2"]);
                    let last = self.random.pick(&["J", "K", "K"]);
                    self.csi(&format!("?{selector}"), last);
                }
                3 => self.looks(),
                _ => {
                    let length = self.random.between(1, 20);
                    self.text(length);
                }
            }
        }
    }

    /// Wrap due, then anything, then a sign.
    fn wrap_scene(&mut self) {
        self.csi("?7", "h");
        if self.random.percent(30) {
            self.margins();
        }
        let row = self.random.pick(&[1, 2, 10, 23, 24, 24, 25, 36, 48]);
        let column = self.random.pick(&[78, 79, 80, 80, 80]);
        self.csi(&format!("{row};{column}"), "H");
        self.text(81 - column);
        for _ in 0..self.random.between(0, 2) {
            match self.random.below(8) {
                6 => {
                    let ignored = self.random.pick(&[
                        "24;24r",
                        "9;3r",
                        "50r",
                        "4J",
                        "3K",
                        "?3K",
                        "9g",
                        "3\"q",
                        "5;5;4;9$z",
                        "31$x",
                        ";;;;2;;;$v",
                        "9*x",
                        "3:5H",
                        "5;1:A",
                        ":J",
                        "?6:h",
                    ]);
                    self.csi(ignored, "");
                }
                7 => self.unlisted(),
                0 => self.any_listed(),
                1 => self.control(),
                2 => {
                    let byte = self.random.byte(0x80, 0x9F);
                    self.high_control(byte);
                }
                3 => {
                    let parameters = self.random.pick(&["", "0", "1", "2", "9"]);
                    let last = self.random.byte(0x40, 0x7E);
                    self.high_control(0x9B);
                    self.write(parameters.as_bytes());
                    self.out.push(last);
                }
                4 => self.write(b"\x1B7\x1B[5;5H\x1B8"),
                _ => {
                    let byte = self.random.pick(&[0x7F, 0xFF, 0xA0, 0x18, 0x1A, 0x20]);
                    self.out.push(byte);
                }
            }
        }
        let length = self.random.between(0, 4);
        self.text(length);
    }

    /// The same line again and again at the bottom margin: each wrap changes
    /// the row and the sign changes it back.
    fn echo_scene(&mut self) {
        let height = self.random.between(1, 4);
        let top = self.random.between(1, 24 - height);
        let margins = format!("{};{}", top, top + height);
        self.csi(&margins, "r");
        self.csi("?7", "h");
        self.csi("4", "l");
        self.csi("", "m");
        self.csi("", "\"q");
        self.csi(&format!("{}", top + height), "H");
        self.csi("2", "K");
        let sign = self.random.pick(b"ABx\x1A");
        self.out.push(sign);
        for _ in 0..self.random.between(2, 30) {
            self.csi("80", "C");
            self.write(&[b' ', sign]);
        }
        if self.random.percent(70) {
            self.csi("", "r");
        }
    }

    fn shift_scene(&mut self) {
        for _ in 0..self.random.between(1, 3) {
            self.sets();
        }
        let byte = self.random.pick(&[0x8E, 0x8F]);
        self.high_control(byte);
        for _ in 0..self.random.between(0, 3) {
            let byte = self
                .random
                .pick(&[0x7F, 0xFF, 0xA0, 0x1A, 0x18, 0x20, 0x0A, 0x0E, 0x0F, 0xC1]);
            self.out.push(byte);
        }
        if self.random.percent(25) {
            let between: &[u8] = self.random.pick(&[
                &b"\x1B[!p"[..],
                b"\x1B7\x1B8",
                b"\x1B8",
                b"\x1B[m",
                b"\x1BP\x1B\\",
                b"\x1B[:m",
            ]);
            self.write(between);
        }
        let length = self.random.between(1, 4);
        self.text(length);
    }

    /// Saved with one protection and shift, restored with another.
    fn save_scene(&mut self) {
        if self.random.percent(25) {
            self.csi("?7", "h");
            let row = self.random.pick(&[1, 5, 23, 24, 36, 48]);
            self.csi(&format!("{row};80"), "H");
            self.text(1);
        }
        self.protection_and_shift();
        self.escape(b"", b'7');
        for _ in 0..self.random.between(1, 3) {
            match self.random.below(6) {
                0 => self.any_listed(),
                1 => self.place(),
                2 => self.sets(),
                _ => {
                    let length = self.random.between(1, 4);
                    self.text(length);
                }
            }
            self.protection_and_shift();
            if self.random.percent(80) {
                self.escape(b"", b'8');
            }
        }
        let length = self.random.between(1, 4);
        self.text(length);
        if self.random.percent(25) {
            let selector = self.random.pick(&["", "1", "2"]);
            self.csi(&format!("?{selector}"), "K");
        }
    }

    /// CSI " q, a shift, both or neither.
    fn protection_and_shift(&mut self) {
        if self.random.percent(70) {
            let selector = self.random.pick(&["1", "1", "0", "2", ""]);
            self.csi(selector, "\"q");
        }
        if self.random.percent(50) {
            let byte = self.random.pick(&[0x8E, 0x8F]);
            self.high_control(byte);
        }
    }

    /// A rectangle is painted, then copied, restyled and erased, all near it.
    fn rectangle_scene(&mut self) {
        if self.random.percent(25) {
            self.margins();
            let last = self.random.pick(&["h", "h", "l"]);
            self.csi("?6", last);
        }
        for _ in 0..self.random.between(0, 2) {
            match self.random.below(3) {
                0 => self.looks(),
                1 => self.sets(),
                _ => self.extent(),
            }
        }
        let top = self.random.pick(&[1, 1, 2, 4, 10, 18, 21, 22, 23, 24, 34]);
        let left = self.random.pick(&[1, 1, 2, 20, 40, 66, 74, 78, 79, 80]);
        let (height, width) = (self.random.between(1, 6), self.random.between(1, 14));
        let painted = [top, left, top + height - 1, left + width - 1];
        let edges = painted.map(|edge| edge.to_string()).join(";");
        self.fill(&edges);
        if self.random.percent(60) {
            self.csi(&format!("{top};{left}"), "H");
            self.text(width);
        }
        for _ in 0..self.random.between(2, 6) {
            // A little more or less than what was painted.
            let mut near = painted;
            for edge in &mut near {
                *edge = (*edge + self.random.pick(&[0, 0, 1, 1, 1, 2, 3])).saturating_sub(1);
            }
            let edges = match self.random.percent(90) {
                true => near.map(|edge| edge.to_string()).join(";"),
                false => self.edges(),
            };
            match self.random.below(12) {
                0 => self.csi(&edges, "$z"),
                1 | 2 => self.csi(&edges, "${"),
                3 => self.fill(&edges),
                4..=6 => {
                    let down = (top + self.random.below(5)).saturating_sub(2);
                    let across = (left + self.random.below(7)).saturating_sub(3);
                    self.copy(&edges, &format!("{down};{across}"));
                }
                7..=9 => self.restyle(&edges),
                10 => self.extent(),
                _ => self.looks(),
            }
        }
    }

    /// What makers' libraries send for a rendition, and lists of about sixteen
    /// places with any of them a colon; then text.
    fn colon_scene(&mut self) {
        for _ in 0..self.random.between(1, 4) {
            if self.random.percent(40) {
                let count = self.random.pick(&[1, 2, 2, 3, 4]);
                let own = [
                    "4:3",
                    "4:0",
                    "38:2::255:128:0",
                    "48:5:17",
                    "58:2::1:2:3",
                    "1",
                    "5",
                    "7",
                    "22",
                    "27",
                    "0",
                    "",
                    ":",
                    "7:",
                    ":1",
                    "1:22",
                    "0:0",
                ];
                let list: Vec<&str> = (0..count).map(|_| self.random.pick(&own)).collect();
                self.csi(&list.join(";"), "m");
            } else {
                self.places_with_colons();
            }
            let length = self.random.between(1, 6);
            self.text(length);
        }
    }

    fn places_with_colons(&mut self) {
        let (mark, own, last): (&str, &[&str], &str) = self.random.pick(&[
            ("", &["1", "4", "5", "7", "22", "24", "0", "", "9"][..], "m"),
            ("", &["1", "4", "5", "7", "27", "25", "9"], "m"),
            ("", &["2", "5", "9", "40"], "H"),
            ("?", &["7", "6", "25", "9"], "h"),
            ("?", &["7", "6", "25", "9"], "l"),
            ("", &["4", "20", "9"], "h"),
            ("", &["1", "4", "5", "7", "9", "3"], "$r"),
            ("", &["1", "2", "3", ""], "$v"),
        ]);
        let count = self.random.pick(&[2, 3, 14, 15, 16, 16, 17, 17, 18, 20]);
        // None, one or two, or many.
        let colons = self.random.pick(&[0, 6, 12, 50]);
        let mut text = mark.to_string();
        for number in 0..count {
            if number > 0 {
                // What is dropped may have any.
                let often = if number > 16 { 50 } else { colons };
                text.push(if self.random.percent(often) { ':' } else { ';' });
            }
            text.push_str(self.random.pick(own));
        }
        self.high_control(0x9B);
        self.write(text.as_bytes());
        self.write(last.as_bytes());
    }

    /// To the line, mostly at its edges, and mostly back to the page.
    fn status_scene(&mut self) {
        let line = self.random.pick(&["1", "2"]);
        self.csi(line, "$~");
        if self.random.percent(40) {
            self.csi("?7", "h");
        }
        // Now and then with wrap due on the page, and then on the line too.
        let due = self.random.percent(30);
        if due {
            let row = self.random.pick(&[1, 7, 24, 48]);
            self.csi(&format!("{row};80"), "H");
            self.text(1);
        }
        self.csi("1", "$}");
        if due {
            self.csi(";80", "H");
            self.text(1);
        }
        for _ in 0..self.random.between(2, 9) {
            match self.random.below(14) {
                0 => self.out.push(0x0D),
                1 => self.erases(),
                2 | 3 => {
                    let column = self.random.pick(&[1, 2, 40, 77, 79, 80, 80]);
                    let row = self.random.pick(&["", "1", "7"]);
                    self.csi(&format!("{row};{column}"), "H");
                    let length = self.random.between(1, 5);
                    self.text(length);
                }
                4 => self.any_listed(),
                5 => self.edits(),
                6 => self.protection_and_shift(),
                7 => {
                    let last = self.random.pick(b"78");
                    self.escape(b"", last);
                }
                8 => self.rectangles(),
                9 => self.control(),
                10 => self.queries(),
                11 if self.random.percent(30) => self.switches(),
                _ => {
                    let length = self.random.between(1, 12);
                    self.text(length);
                }
            }
        }
        match self.random.below(20) {
            0 => {}
            1 => self.csi("!p", ""),
            2 => self.csi("", "$~"),
            _ => {
                let page = self.random.pick(&["0", ""]);
                self.high_control(0x9B);
                self.write(page.as_bytes());
                self.write(b"$}");
            }
        }
    }

    fn origin_scene(&mut self) {
        self.margins();
        let last = self.random.pick(&["h", "h", "h", "l"]);
        self.csi("?6", last);
        for _ in 0..self.random.between(1, 6) {
            match self.random.below(6) {
                0 => self.place(),
                1 => {
                    let numbers = self.numbers();
                    let last = self.random.pick(&["A", "B", "H", "f", "r"]);
                    self.csi(&numbers, last);
                }
                2 => {
                    let last = self.random.pick(b"78");
                    self.escape(b"", last);
                }
                3 => {
                    let parameters = self.random.pick(&["6", "?6"]);
                    self.csi(parameters, "n");
                }
                4 => self.margins(),
                _ => {
                    let length = self.random.between(1, 5);
                    self.text(length);
                }
            }
        }
    }
}

#[cfg(test)]
mod tests {
    use super::*;

    #[test]
    fn a_stream_has_its_length_and_depends_on_its_seed_alone() {
        for seed in 0..50 {
            for len in [0, 1, 2, 100, 5_000] {
                let bytes = stream(seed, len);
                assert_eq!(bytes.len(), len);
                assert_eq!(bytes, stream(seed, len));
            }
        }
        assert_ne!(stream(1, 100), stream(2, 100));
    }
}
