//! From bytes to signs, controls and finished sequences.

/// What is in progress.
#[derive(Clone, PartialEq, Eq, Debug)]
pub enum Parser {
    /// Nothing.
    Ground,
    /// An escape sequence.
    Escape { intermediates: Vec<u8> },
    /// An escape sequence that is ignored through its final.
    EscapeIgnored,
    /// A control sequence.
    Control {
        mark: Option<u8>,
        /// Every digit, 3A and 3B as it came. It is taken apart at the final.
        text: Vec<u8>,
        /// A script says that there is a subparameter, whether the text has
        /// one or not. No byte that is read does so.
        said: bool,
        intermediates: Vec<u8>,
    },
    /// A control sequence that is ignored through its final.
    ControlIgnored,
    /// A string.
    String,
    /// What a script set, until the next byte.
    Given(Given),
}

/// A parser with every number that the scope's wholeness speaks of, in range
/// or not.
#[derive(Clone, Copy, PartialEq, Eq, Debug)]
pub struct Given {
    /// 0 nothing in progress; 1, 2, 3 an escape sequence with no, one, two
    /// intermediates; 4 one that is ignored; 5 a control sequence of which
    /// nothing is read; 6 one with a mark, digit, 3A or 3B read; 7, 8 one with
    /// one, two intermediates; 9 one that is ignored; 10 a string.
    pub phase: u8,
    /// The low seven bits are the private mark, 0 none. `SUBPARAMETER` more
    /// says that a kept parameter has a subparameter.
    pub mark: u8,
    pub intermediates: [u8; MOST_INTERMEDIATES],
    /// How many 3A and 3B were read, counted up to 16.
    pub separators: u8,
    /// A number up to 9,999, or, with `SUBPARAMETER` in the mark, `MARKED`.
    pub values: [u16; MOST_PARAMETERS],
}

/// One of the parameters that 3B parts.
#[derive(Clone, Copy, PartialEq, Eq, Debug)]
pub struct Parameter {
    pub value: u32,
    pub has_subparameters: bool,
}

/// What a byte asks for, beyond the new parser.
#[derive(Clone, PartialEq, Eq, Debug)]
pub enum Event {
    Nothing,
    /// 20 to 7F or A0 to FF.
    Print(u8),
    /// SUB: print code 1A.
    Substitute,
    /// Another control below 20.
    Control(u8),
    /// 80 to 9F, but for those that only move the parser.
    HighControl(u8),
    /// The end of an escape sequence.
    Escape {
        intermediates: Vec<u8>,
        last: u8,
    },
    /// The end of a control sequence. There is at least one parameter.
    ControlSequence {
        mark: Option<u8>,
        parameters: Vec<Parameter>,
        /// One of them has a subparameter, or a script said so.
        subparameters: bool,
        intermediates: Vec<u8>,
        last: u8,
    },
}

/// Parameters and subparameters together.
pub const MOST_PARAMETERS: usize = 16;
pub const HIGHEST_PARAMETER: u32 = 9_999;
pub const MOST_INTERMEDIATES: usize = 2;

/// In the mark of a script's parser: a kept parameter has a subparameter.
pub const SUBPARAMETER: u8 = 0x80;

/// Among the values of such a parser: a subparameter, or a parameter that has
/// one.
pub const MARKED: u16 = 10_000;

/// What stands for the latter in the text of a control sequence, where no byte that
/// is read can put it.
const MARK_SIGN: u8 = b'*';

const NEW_ESCAPE: Parser = Parser::Escape {
    intermediates: Vec::new(),
};

const NEW_CONTROL: Parser = Parser::Control {
    mark: None,
    text: Vec::new(),
    said: false,
    intermediates: Vec::new(),
};

impl Parser {
    pub fn is_whole(&self) -> bool {
        let good_intermediates = |list: &[u8]| {
            list.len() <= MOST_INTERMEDIATES && list.iter().all(|&b| (0x20..=0x2F).contains(&b))
        };
        match self {
            Parser::Escape { intermediates } => good_intermediates(intermediates),
            Parser::Control {
                mark,
                text,
                intermediates,
                ..
            } => {
                mark.map_or(true, |b| (0x3C..=0x3F).contains(&b))
                    && text
                        .iter()
                        .all(|&b| (0x30..=0x3B).contains(&b) || b == MARK_SIGN)
                    && good_intermediates(intermediates)
            }
            Parser::Given(given) => given.is_whole(),
            _ => true,
        }
    }

    /// The parser after a byte, and what the byte asks for.
    pub fn read(&self, byte: u8) -> (Parser, Event) {
        match byte {
            // These drop whatever is in progress.
            0x18 => (Parser::Ground, Event::Nothing),
            0x1A => (Parser::Ground, Event::Substitute),
            0x1B => (NEW_ESCAPE, Event::Nothing),
            0x80..=0x9F => high_control(byte),
            // The others go by what is in progress.
            _ => match self {
                Parser::Given(given) => given.own_form().read(byte),
                Parser::Ground if byte < 0x20 => (Parser::Ground, Event::Control(byte)),
                Parser::Ground => (Parser::Ground, Event::Print(byte)),
                Parser::String => (Parser::String, Event::Nothing),
                _ if byte < 0x20 => (self.clone(), Event::Control(byte)),
                // A0 to FF are read as 80 less.
                _ => self.read_in_sequence(byte & 0x7F),
            },
        }
    }

    /// A byte 20 to 7F in an escape sequence or a control sequence.
    fn read_in_sequence(&self, byte: u8) -> (Parser, Event) {
        if byte == 0x7F {
            return (self.clone(), Event::Nothing);
        }
        match self {
            Parser::Escape { intermediates } => read_in_escape(intermediates, byte),
            Parser::EscapeIgnored => match byte {
                0x20..=0x2F => (Parser::EscapeIgnored, Event::Nothing),
                _ => (Parser::Ground, Event::Nothing),
            },
            Parser::Control {
                mark,
                text,
                said,
                intermediates,
            } => read_in_control(*mark, text, *said, intermediates, byte),
            Parser::ControlIgnored => match byte {
                0x20..=0x3F => (Parser::ControlIgnored, Event::Nothing),
                _ => (Parser::Ground, Event::Nothing),
            },
            Parser::Ground | Parser::String | Parser::Given(_) => (self.clone(), Event::Nothing),
        }
    }
}

impl Given {
    /// At most 16 parameters, each a number up to 9,999, or marked if one is
    /// said to have a subparameter; at most two intermediates, 20 to 2F; private
    /// mark none or 3C to 3F. No phase is exempt.
    pub fn is_whole(&self) -> bool {
        let marks = self
            .private_mark()
            .map_or(true, |b| (0x3C..=0x3F).contains(&b));
        let count = self.separators as usize <= MOST_PARAMETERS;
        let low = |&value: &u16| {
            value as u32 <= HIGHEST_PARAMETER || value == MARKED && self.has_subparameter()
        };
        let intermediate = |byte: &u8| (0x20..=0x2F).contains(byte);
        marks
            && count
            && self.parameters().iter().all(low)
            && self.counted_intermediates().iter().all(intermediate)
    }

    fn private_mark(&self) -> Option<u8> {
        Some(self.mark & !SUBPARAMETER).filter(|&mark| mark != 0)
    }

    fn has_subparameter(&self) -> bool {
        self.mark & SUBPARAMETER != 0
    }

    /// The first (separators + 1), 16 at most.
    fn parameters(&self) -> &[u16] {
        &self.values[..(self.separators as usize + 1).min(MOST_PARAMETERS)]
    }

    /// As many as the phase says.
    fn counted_intermediates(&self) -> &[u8] {
        match self.phase {
            2 | 7 => &self.intermediates[..1],
            3 | 8 => &self.intermediates,
            _ => &[],
        }
    }

    /// The same as this program keeps it. Mark and parameters count only in a
    /// control sequence of which something is read.
    fn own_form(&self) -> Parser {
        let intermediates = self.counted_intermediates().to_vec();
        match self.phase {
            0 => Parser::Ground,
            1..=3 => Parser::Escape { intermediates },
            4 => Parser::EscapeIgnored,
            5 => NEW_CONTROL,
            6..=8 => Parser::Control {
                mark: self.private_mark(),
                text: self.text(),
                said: self.has_subparameter(),
                intermediates,
            },
            9 => Parser::ControlIgnored,
            _ => Parser::String,
        }
    }

    /// A text with these parameters, parted by 3B.
    fn text(&self) -> Vec<u8> {
        let one = |&value: &u16| match value {
            MARKED => vec![MARK_SIGN],
            _ => value.to_string().into_bytes(),
        };
        let list: Vec<Vec<u8>> = self.parameters().iter().map(one).collect();
        let mut text = list.join(&0x3B);
        if self.separators as usize == MOST_PARAMETERS {
            // What comes now is dropped.
            text.push(0x3B);
        }
        text
    }
}

/// 80 to 9F, also when written as an escape and 40 to 5F.
fn high_control(byte: u8) -> (Parser, Event) {
    match byte {
        0x90 | 0x98 | 0x9D | 0x9E | 0x9F => (Parser::String, Event::Nothing),
        0x9B => (NEW_CONTROL, Event::Nothing),
        _ => (Parser::Ground, Event::HighControl(byte)),
    }
}

/// A byte 20 to 7E in an escape sequence.
fn read_in_escape(intermediates: &[u8], byte: u8) -> (Parser, Event) {
    match byte {
        0x20..=0x2F if intermediates.len() == MOST_INTERMEDIATES => {
            (Parser::EscapeIgnored, Event::Nothing)
        }
        0x20..=0x2F => (
            Parser::Escape {
                intermediates: [intermediates, &[byte]].concat(),
            },
            Event::Nothing,
        ),
        0x40..=0x5F if intermediates.is_empty() => high_control(byte + 0x40),
        _ => (
            Parser::Ground,
            Event::Escape {
                intermediates: intermediates.to_vec(),
                last: byte,
            },
        ),
    }
}

/// A byte 20 to 7E in a control sequence.
fn read_in_control(
    mark: Option<u8>,
    text: &[u8],
    said: bool,
    intermediates: &[u8],
    byte: u8,
) -> (Parser, Event) {
    let ignored = (Parser::ControlIgnored, Event::Nothing);
    let first = mark.is_none() && text.is_empty() && intermediates.is_empty();
    match byte {
        0x20..=0x2F if intermediates.len() == MOST_INTERMEDIATES => ignored,
        0x20..=0x2F => (
            Parser::Control {
                mark,
                text: text.to_vec(),
                said,
                intermediates: [intermediates, &[byte]].concat(),
            },
            Event::Nothing,
        ),
        0x30..=0x3B if !intermediates.is_empty() => ignored,
        0x30..=0x3B => (
            Parser::Control {
                mark,
                text: [text, &[byte]].concat(),
                said,
                intermediates: Vec::new(),
            },
            Event::Nothing,
        ),
        0x3C..=0x3F if first => (
            Parser::Control {
                mark: Some(byte),
                text: Vec::new(),
                said,
                intermediates: Vec::new(),
            },
            Event::Nothing,
        ),
        0x3C..=0x3F => ignored,
        _ => {
            let parameters = parameters_in(text);
            let event = Event::ControlSequence {
                mark,
                subparameters: said || parameters.iter().any(|p| p.has_subparameters),
                parameters,
                intermediates: intermediates.to_vec(),
                last: byte,
            };
            (Parser::Ground, event)
        }
    }
}

/// The parameters that are kept. Each parameter and each subparameter takes a
/// place, in the order in which they came. A parameter is kept if its own place
/// is one of the 16, whether there was one for its subparameters or not.
fn parameters_in(text: &[u8]) -> Vec<Parameter> {
    let mut kept = Vec::new();
    let mut places = 0;
    for whole in text.split(|&byte| byte == 0x3B) {
        let pieces: Vec<&[u8]> = whole.split(|&byte| byte == 0x3A).collect();
        if places < MOST_PARAMETERS {
            kept.push(Parameter {
                value: number(pieces[0]),
                has_subparameters: pieces.len() > 1 || pieces[0].contains(&MARK_SIGN),
            });
        }
        places += pieces.len();
    }
    kept
}

/// The number of some digits; none is 0, and 9,999 is the highest.
fn number(digits: &[u8]) -> u32 {
    let mut value = 0;
    for digit in digits.iter().filter(|byte| byte.is_ascii_digit()) {
        value = (value * 10 + (digit - b'0') as u32).min(HIGHEST_PARAMETER);
    }
    value
}
